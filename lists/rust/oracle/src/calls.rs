//! The calls of the published Rust, one for each kind of case.

use core::arch::asm;

use semiflow::{
    access,
    graph::{Laplacian, LaplacianKind},
    state::State,
    SemiflowError,
};

use crate::{
    fields::{answer, push_slice, Fields, Reply},
    runs, steps,
};

type Call = fn(&mut Fields) -> Reply;

pub fn of_kind(kind: u16) -> Option<Call> {
    match kind {
        1 => Some(root),
        2 => Some(from_csr_parts),
        3 => Some(gershgorin_bound_csr),
        4 => Some(apply_into_slice),
        5 => Some(copy_from),
        6 => Some(axpy_into_slice),
        7 => Some(steps::omega4),
        8 => Some(steps::omega4_adjoint),
        9 => Some(steps::weighted_omega4),
        10 => Some(steps::weighted_omega4_adjoint),
        11 => Some(steps::omega6),
        12 => Some(runs::segment_index),
        13 => Some(runs::evolve),
        14 => Some(runs::evolve_adjoint),
        15 => Some(runs::weighted_evolve_adjoint),
        _ => None,
    }
}

/// The texts of the Rust's refusals and their numbers in document 01's table.
const NUMBERS: [(&str, u16); 23] = [
    ("from_csr_parts: row_ptr.len() must equal n_nodes+1", 1),
    ("from_csr_parts: row_ptr not monotone non-decreasing", 2),
    (
        "from_csr_parts: col_idx.len()/vals.len() must equal row_ptr[n_nodes]",
        3,
    ),
    ("from_csr_parts: col_idx entry >= n_nodes", 4),
    ("from_csr_parts: non-finite matrix entry", 5),
    ("MagnusGraphHeatChernoff: tau must be finite and >= 0", 7),
    ("MagnusGraphHeat6thChernoff: tau must be finite and >= 0", 7),
    ("VarCoefMagnusGraphHeatChernoff: tau must be finite and >= 0", 7),
    ("MagnusGraphHeatChernoff: rho_bar_max must be finite and > 0", 9),
    ("MagnusGraphHeat6thChernoff: rho_bar_max must be finite and > 0", 9),
    ("rho_bar_max", 9),
    ("a_sup_max", 9),
    ("VarCoefMagnusGraphHeatChernoff: a_at_t(t).len() != n_nodes", 10),
    (
        "VarCoefMagnusGraphHeatChernoff: a_at_t(t) must be strictly positive and finite",
        11,
    ),
    ("VarCoef adjoint: a(t) not positive/finite", 11),
    ("VarCoefMagnusGraphHeatChernoff: n_nodes must be >= 1", 12),
    ("snapshots.len() must be in [1, MAX_GRAPH_TRAJ_SEGMENTS]", 13),
    ("breakpoints.len() == snapshots.len() + 1", 14),
    ("breakpoints must be strictly increasing", 15),
    ("evolve_with_traj: n_steps_per_segment must be >= 1", 16),
    ("evolve_with_traj: traj.breakpoints()[0] must be 0", 17),
    ("GraphTraj::laplacian_at: t out of trajectory range", 18),
    ("evolve_with_traj: f0.n_nodes() != traj.snapshot(0).n_nodes()", 10),
];

pub fn refused(error: &SemiflowError) -> Reply {
    if let SemiflowError::OutOfMagnusRadius { tau, rho_estimate } = error {
        return Reply::Answer(answer(8, &[*tau, *rho_estimate]));
    }
    if let SemiflowError::DomainViolation { what, value } = error {
        if let Some((_, number)) = NUMBERS.iter().find(|(text, _)| text == what) {
            return Reply::Answer(answer(*number, &[*value]));
        }
    }
    Reply::Unknown(error.to_string())
}

/// The root by the machine's instruction. The Rust's own `sqrt` must agree.
fn root(inputs: &mut Fields) -> Reply {
    let x = inputs.real();
    let root: f64;
    // SAFETY: the instruction reads one register and writes another, and nothing else.
    unsafe { asm!("sqrtsd {0}, {1}", lateout(xmm_reg) root, in(xmm_reg) x, options(pure, nomem, nostack)) };
    let of_rust = num_traits_sqrt(x);
    assert!(root.to_bits() == of_rust.to_bits() || root.is_nan() && of_rust.is_nan());
    Reply::Answer(root.to_le_bytes().to_vec())
}

/// `sqrt` as the published files have it, through their float trait.
fn num_traits_sqrt<F: semiflow::SemiflowFloat>(x: F) -> F {
    x.sqrt()
}

/// n, row starts, columns, values.
pub struct Parts {
    n: usize,
    row_ptr: Vec<usize>,
    col_idx: Vec<u32>,
    vals: Vec<f64>,
}

impl Parts {
    pub fn of(inputs: &mut Fields) -> Self {
        let n = inputs.count();
        let (row_ptr, col_idx, vals) = (inputs.counts(), inputs.columns(), inputs.reals());
        Self {
            n,
            row_ptr,
            col_idx,
            vals,
        }
    }

    pub fn laplacian(self) -> Result<Laplacian<f64>, SemiflowError> {
        let Self {
            n,
            row_ptr,
            col_idx,
            vals,
        } = self;
        Laplacian::from_csr_parts(n, row_ptr, col_idx, vals, LaplacianKind::GeneralSymmetric)
    }
}

fn from_csr_parts(inputs: &mut Fields) -> Reply {
    match Parts::of(inputs).laplacian() {
        Ok(_) => Reply::Answer(answer(0, &[])),
        Err(error) => refused(&error),
    }
}

fn gershgorin_bound_csr(inputs: &mut Fields) -> Reply {
    match Parts::of(inputs).laplacian() {
        Ok(accepted) => {
            let mut bytes = answer(0, &[]);
            bytes.extend(accepted.spectral_radius_bound().to_le_bytes());
            Reply::Answer(bytes)
        }
        Err(error) => refused(&error),
    }
}

/// Accepted, with one slice afterwards.
pub fn accepted(slice: &[f64]) -> Reply {
    let mut bytes = answer(0, &[]);
    push_slice(&mut bytes, slice);
    Reply::Answer(bytes)
}

/// A refusal, with the slice as it was.
pub fn refused_unchanged(error: &SemiflowError, slice: &[f64]) -> Reply {
    match refused(error) {
        Reply::Answer(mut bytes) => {
            push_slice(&mut bytes, slice);
            Reply::Answer(bytes)
        }
        unknown => unknown,
    }
}

fn apply_into_slice(inputs: &mut Fields) -> Reply {
    let checked = Parts::of(inputs).laplacian();
    let (src, mut dst) = (inputs.reals(), inputs.reals());
    match checked {
        Ok(laplacian) => {
            laplacian.apply_into_slice(&src, &mut dst);
            accepted(&dst)
        }
        Err(error) => refused_unchanged(&error, &dst),
    }
}

fn copy_from(inputs: &mut Fields) -> Reply {
    let mut target = access::signal_of(&inputs.reals());
    target.copy_from(&access::signal_of(&inputs.reals()));
    accepted(target.values())
}

fn axpy_into_slice(inputs: &mut Fields) -> Reply {
    let mut target = access::signal_of(&inputs.reals());
    let alpha = inputs.real();
    access::axpy_into_slice(&mut target, alpha, &inputs.reals());
    accepted(target.values())
}
