//! Safe calls of Fuistelo's proved kernels for networks of heat links.
//!
//! Every call is answered, whatever numbers and lengths it is given: `Ok`, or a [`Refusal`] that says the first fault. A refusal leaves
//! every slice as it was, but where a run says otherwise. The proofs are about the functions in libfuistelo.a; this crate only passes
//! slices on to them and reads their answers. NaN and infinities are legal in signals.
//!
//! ```
//! use fuistelo::{apply_into_slice, gershgorin_bound_csr, Laplacian, Refusal};
//!
//! // Two nodes and the link between them.
//! let link = Laplacian { n: 2, row_ptr: &[0, 2, 4], col_idx: &[0, 1, 0, 1], vals: &[0.5, -0.5, -0.5, 0.5] };
//! assert_eq!(gershgorin_bound_csr(link), Ok(1.0));
//! let mut dst = [0.0; 2];
//! apply_into_slice(link, &[85.0, 20.0], &mut dst)?;
//! assert_eq!(dst, [32.5, -32.5]);
//! assert_eq!(apply_into_slice(link, &[85.0], &mut dst), Err(Refusal::Length(1)));
//! # Ok::<(), Refusal>(())
//! ```

mod raw;
mod refusal;
mod runs;
mod steps;

pub use refusal::Refusal;
pub use runs::{evolve_state_adjoint_into, evolve_with_traj_into, segment_index, varcoef_evolve_state_adjoint_into, Trajectory};
pub use steps::{
    apply_exp_omega4_adj_kernel, apply_exp_omega4_kernel, apply_exp_omega4_la_adj_kernel, apply_exp_omega4_la_kernel, apply_exp_omega6_kernel,
};

use refusal::accepted;

// Every `unsafe` block of this crate passes on a slice's own pointer and length, which the borrow checker keeps non-null, aligned and, where the
// slice is written, apart from all others. That is all that a function of libfuistelo.a asks.

/// A Laplacian of n nodes in compressed sparse rows. Row i has the entries from `row_ptr[i]` up to `row_ptr[i + 1]`; entries before
/// `row_ptr[0]` belong to no row. Nothing is checked when it is made: each call checks it.
#[derive(Clone, Copy, Debug)]
pub struct Laplacian<'a> {
    pub n: usize,
    /// n + 1 row starts.
    pub row_ptr: &'a [usize],
    /// A column for each entry.
    pub col_idx: &'a [u32],
    /// A value for each entry.
    pub vals: &'a [f64],
}

/// How many elements the work slice of an unweighted step of order 4 needs.
pub const fn omega4_work(n: usize) -> usize {
    5 * n
}

/// How many elements the work slice of a weighted step needs.
pub const fn omega4_la_work(n: usize) -> usize {
    9 * n
}

/// How many elements the work slice of a step of order 6 needs.
pub const fn omega6_work(n: usize) -> usize {
    22 * n
}

/// How many elements the work slice of an unweighted run needs: n nodes, m columns.
pub const fn run_work(n: usize, m: usize) -> usize {
    7 * n + 2 * m
}

/// How many elements the work slice of a weighted run needs: n nodes, m columns.
pub const fn varcoef_run_work(n: usize, m: usize) -> usize {
    11 * n + 2 * m
}

/// The square root of x, rounded to nearest. A NaN and a negative x give a NaN, −0 gives −0.
pub fn sqrt(x: f64) -> f64 {
    unsafe { raw::fuistelo_sqrt(x) }
}

/// Whether the parts make up a Laplacian. Rows 6, 1, 2, 3, 4, 5.
pub fn from_csr_parts(parts: Laplacian) -> Result<(), Refusal> {
    let Laplacian { n, row_ptr, col_idx, vals } = parts;
    let answer =
        unsafe { raw::fuistelo_from_csr_parts(n, row_ptr.as_ptr(), row_ptr.len(), col_idx.as_ptr(), col_idx.len(), vals.as_ptr(), vals.len()) };
    accepted(answer).map(drop)
}

/// Whether row starts and columns make up a pattern. Rows 6, 1, 2, 3, 4.
pub fn check_pattern(n: usize, row_ptr: &[usize], col_idx: &[u32]) -> Result<(), Refusal> {
    let answer = unsafe { raw::fuistelo_check_pattern(n, row_ptr.as_ptr(), row_ptr.len(), col_idx.as_ptr(), col_idx.len()) };
    accepted(answer).map(drop)
}

/// The Gershgorin bound: the largest sum of absolute values over the rows. Rows 6, 1, 2, 3, 4, 5.
pub fn gershgorin_bound_csr(laplacian: Laplacian) -> Result<f64, Refusal> {
    let Laplacian { n, row_ptr, col_idx, vals } = laplacian;
    let answer =
        unsafe { raw::fuistelo_gershgorin_bound_csr(n, row_ptr.as_ptr(), row_ptr.len(), col_idx.as_ptr(), col_idx.len(), vals.as_ptr(), vals.len()) };
    accepted(answer).map(|given| given.first)
}

/// dst = the product of the Laplacian with src: each row starts at +0 and adds value · src[column] in stored order. Rows 6, 1, 2, 3, 4, 5;
/// 10 for src, dst.
pub fn apply_into_slice(laplacian: Laplacian, src: &[f64], dst: &mut [f64]) -> Result<(), Refusal> {
    let Laplacian { n, row_ptr, col_idx, vals } = laplacian;
    let answer = unsafe {
        raw::fuistelo_apply_into_slice(
            n,
            row_ptr.as_ptr(),
            row_ptr.len(),
            col_idx.as_ptr(),
            col_idx.len(),
            vals.as_ptr(),
            vals.len(),
            src.as_ptr(),
            src.len(),
            dst.as_mut_ptr(),
            dst.len(),
        )
    };
    accepted(answer).map(drop)
}

/// signal = src. Row 10 with the length of src, where it is not that of signal.
pub fn copy_from(signal: &mut [f64], src: &[f64]) -> Result<(), Refusal> {
    let answer = unsafe { raw::fuistelo_copy_from(signal.as_mut_ptr(), signal.len(), src.as_ptr(), src.len()) };
    accepted(answer).map(drop)
}

/// signal = signal + alpha · src, place by place. Row 10 with the length of src, where it is not that of signal.
pub fn axpy_into_slice(signal: &mut [f64], alpha: f64, src: &[f64]) -> Result<(), Refusal> {
    let answer = unsafe { raw::fuistelo_axpy_into_slice(signal.as_mut_ptr(), signal.len(), alpha, src.as_ptr(), src.len()) };
    accepted(answer).map(drop)
}
