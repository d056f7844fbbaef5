//! The published Rust's answers to the cases of a list: lists/README.md has the kinds and their fields.

pub mod calls;
pub mod fields;
mod runs;
mod steps;
