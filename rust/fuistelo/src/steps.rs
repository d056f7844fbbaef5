//! Steps of orders 4 and 6.

use crate::raw;
use crate::refusal::{accepted, Refusal};
use crate::Laplacian;

/// dst = src after a forward Magnus step of order 4 and length tau. `rho_bar_max` bounds the spectra of the two samples; where
/// `convergence_radius_check` is true, row 8 is tested with it. The work slice needs [`omega4_work`](crate::omega4_work) elements, which become +0
/// where the step is accepted.
///
/// Rows 6, 1 to 5 of the first sample, then of the second; 9; 7; 8; 10 for the second n, src, dst, work.
#[allow(clippy::too_many_arguments)]
pub fn apply_exp_omega4_kernel(
    first: Laplacian,
    second: Laplacian,
    tau: f64,
    rho_bar_max: f64,
    convergence_radius_check: bool,
    src: &[f64],
    dst: &mut [f64],
    work: &mut [f64],
) -> Result<(), Refusal> {
    let answer = unsafe {
        raw::fuistelo_apply_exp_omega4_kernel(
            first.n,
            first.row_ptr.as_ptr(),
            first.row_ptr.len(),
            first.col_idx.as_ptr(),
            first.col_idx.len(),
            first.vals.as_ptr(),
            first.vals.len(),
            second.n,
            second.row_ptr.as_ptr(),
            second.row_ptr.len(),
            second.col_idx.as_ptr(),
            second.col_idx.len(),
            second.vals.as_ptr(),
            second.vals.len(),
            tau,
            rho_bar_max,
            convergence_radius_check,
            src.as_ptr(),
            src.len(),
            dst.as_mut_ptr(),
            dst.len(),
            work.as_mut_ptr(),
            work.len(),
        )
    };
    accepted(answer).map(drop)
}

/// The adjoint step: that of [`apply_exp_omega4_kernel`] with the commutator's sign reversed.
#[allow(clippy::too_many_arguments)]
pub fn apply_exp_omega4_adj_kernel(
    first: Laplacian,
    second: Laplacian,
    tau: f64,
    rho_bar_max: f64,
    convergence_radius_check: bool,
    src: &[f64],
    dst: &mut [f64],
    work: &mut [f64],
) -> Result<(), Refusal> {
    let answer = unsafe {
        raw::fuistelo_apply_exp_omega4_adj_kernel(
            first.n,
            first.row_ptr.as_ptr(),
            first.row_ptr.len(),
            first.col_idx.as_ptr(),
            first.col_idx.len(),
            first.vals.as_ptr(),
            first.vals.len(),
            second.n,
            second.row_ptr.as_ptr(),
            second.row_ptr.len(),
            second.col_idx.as_ptr(),
            second.col_idx.len(),
            second.vals.as_ptr(),
            second.vals.len(),
            tau,
            rho_bar_max,
            convergence_radius_check,
            src.as_ptr(),
            src.len(),
            dst.as_mut_ptr(),
            dst.len(),
            work.as_mut_ptr(),
            work.len(),
        )
    };
    accepted(answer).map(drop)
}

/// dst = src after a forward step of order 4 with the node weights a1 and a2 of the samples: a product is √a · (L (√a · v)). `a_sup_max` bounds the
/// roots of the weights; row 8 is tested with (rho_bar_max · a_sup_max) · a_sup_max. The work slice needs
/// [`omega4_la_work`](crate::omega4_la_work) elements, which become +0 where the step is accepted.
///
/// Rows 6, 1 to 5 of the first sample, then of the second; 9 for rho_bar_max, a_sup_max; 12; 7; 8; 10 for the second n, src, dst, the weights, work;
/// 11 for a1, a2.
#[allow(clippy::too_many_arguments)]
pub fn apply_exp_omega4_la_kernel(
    first: Laplacian,
    second: Laplacian,
    tau: f64,
    rho_bar_max: f64,
    a_sup_max: f64,
    convergence_radius_check: bool,
    a1: &[f64],
    a2: &[f64],
    src: &[f64],
    dst: &mut [f64],
    work: &mut [f64],
) -> Result<(), Refusal> {
    let answer = unsafe {
        raw::fuistelo_apply_exp_omega4_la_kernel(
            first.n,
            first.row_ptr.as_ptr(),
            first.row_ptr.len(),
            first.col_idx.as_ptr(),
            first.col_idx.len(),
            first.vals.as_ptr(),
            first.vals.len(),
            second.n,
            second.row_ptr.as_ptr(),
            second.row_ptr.len(),
            second.col_idx.as_ptr(),
            second.col_idx.len(),
            second.vals.as_ptr(),
            second.vals.len(),
            tau,
            rho_bar_max,
            a_sup_max,
            convergence_radius_check,
            a1.as_ptr(),
            a1.len(),
            a2.as_ptr(),
            a2.len(),
            src.as_ptr(),
            src.len(),
            dst.as_mut_ptr(),
            dst.len(),
            work.as_mut_ptr(),
            work.len(),
        )
    };
    accepted(answer).map(drop)
}

/// The adjoint weighted step: that of [`apply_exp_omega4_la_kernel`] with the commutator's sign reversed.
#[allow(clippy::too_many_arguments)]
pub fn apply_exp_omega4_la_adj_kernel(
    first: Laplacian,
    second: Laplacian,
    tau: f64,
    rho_bar_max: f64,
    a_sup_max: f64,
    convergence_radius_check: bool,
    a1: &[f64],
    a2: &[f64],
    src: &[f64],
    dst: &mut [f64],
    work: &mut [f64],
) -> Result<(), Refusal> {
    let answer = unsafe {
        raw::fuistelo_apply_exp_omega4_la_adj_kernel(
            first.n,
            first.row_ptr.as_ptr(),
            first.row_ptr.len(),
            first.col_idx.as_ptr(),
            first.col_idx.len(),
            first.vals.as_ptr(),
            first.vals.len(),
            second.n,
            second.row_ptr.as_ptr(),
            second.row_ptr.len(),
            second.col_idx.as_ptr(),
            second.col_idx.len(),
            second.vals.as_ptr(),
            second.vals.len(),
            tau,
            rho_bar_max,
            a_sup_max,
            convergence_radius_check,
            a1.as_ptr(),
            a1.len(),
            a2.as_ptr(),
            a2.len(),
            src.as_ptr(),
            src.len(),
            dst.as_mut_ptr(),
            dst.len(),
            work.as_mut_ptr(),
            work.len(),
        )
    };
    accepted(answer).map(drop)
}

/// dst = src after a step of order 6 and length tau, from three samples. The work slice needs [`omega6_work`](crate::omega6_work) elements, which
/// become +0 where the step is accepted.
///
/// Rows 6, 1 to 5 of each sample in turn; 9; 7; 8; 10 for the second n, the third n, src, dst, work.
#[allow(clippy::too_many_arguments)]
pub fn apply_exp_omega6_kernel(
    first: Laplacian,
    second: Laplacian,
    third: Laplacian,
    tau: f64,
    rho_bar_max: f64,
    convergence_radius_check: bool,
    src: &[f64],
    dst: &mut [f64],
    work: &mut [f64],
) -> Result<(), Refusal> {
    let answer = unsafe {
        raw::fuistelo_apply_exp_omega6_kernel(
            first.n,
            first.row_ptr.as_ptr(),
            first.row_ptr.len(),
            first.col_idx.as_ptr(),
            first.col_idx.len(),
            first.vals.as_ptr(),
            first.vals.len(),
            second.n,
            second.row_ptr.as_ptr(),
            second.row_ptr.len(),
            second.col_idx.as_ptr(),
            second.col_idx.len(),
            second.vals.as_ptr(),
            second.vals.len(),
            third.n,
            third.row_ptr.as_ptr(),
            third.row_ptr.len(),
            third.col_idx.as_ptr(),
            third.col_idx.len(),
            third.vals.as_ptr(),
            third.vals.len(),
            tau,
            rho_bar_max,
            convergence_radius_check,
            src.as_ptr(),
            src.len(),
            dst.as_mut_ptr(),
            dst.len(),
            work.as_mut_ptr(),
            work.len(),
        )
    };
    accepted(answer).map(drop)
}
