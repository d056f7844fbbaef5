//! The modules of the published Rust files, each of which stands beside this file in a copy, unchanged. Three modules that the
//! files name and that were not published with them are declared here: this one, `state` and `chernoff`. They have no arithmetic.
//! `access` reaches the functions that the files keep within the crate.

#![allow(dead_code, unexpected_cfgs)]

extern crate alloc;

pub mod chernoff;
pub mod error;
pub mod float;
pub mod graph;
pub mod graph_signal;
pub mod graph_traj;
pub mod graph_var_coef;
pub mod magnus6_graph;
pub mod magnus_graph;
pub mod magnus_graph_adjoint;
mod magnus_graph_helpers;
pub mod scratch;
pub mod state;
pub mod varcoef_magnus_graph;

pub mod access;

pub use error::SemiflowError;
pub use float::SemiflowFloat;
