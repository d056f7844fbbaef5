//! Calls along a trajectory.

use crate::raw;
use crate::refusal::{accepted, Refusal};

/// A trajectory: segments between breakpoints, in each of which the values of a Laplacian follow a law. Nothing is checked when it is made: each run
/// checks it.
#[derive(Clone, Copy, Debug)]
pub struct Trajectory<'a> {
    pub n: usize,
    /// n + 1 row starts, shared by all samples.
    pub row_ptr: &'a [usize],
    /// m columns, shared by all samples.
    pub col_idx: &'a [u32],
    pub segments: usize,
    /// One more than segments, rising, the first 0.
    pub breakpoints: &'a [f64],
    /// m values for each segment.
    pub starts: &'a [f64],
    /// m values for each segment.
    pub ends: &'a [f64],
    /// For each segment 0 (its values are its start list), 1 (its end list) or 2 (straight from one to the other).
    pub laws: &'a [u8],
}

/// The segment in which t lies. A breakpoint belongs to the segment that it starts, the last one to the last segment. Rows 13, 14, 15, 18.
pub fn segment_index(segments: usize, breakpoints: &[f64], t: f64) -> Result<usize, Refusal> {
    let answer = unsafe { raw::fuistelo_segment_index(segments, breakpoints.as_ptr(), breakpoints.len(), t) };
    accepted(answer).map(|given| given.count as usize)
}

/// dst = src after so many forward steps of order 4 in each segment. The work slice needs [`run_work`](crate::run_work) elements, which become +0
/// once there was a step.
///
/// Rows 6, 1 to 4, 13, 14, 15, 19, 5, 9, 16, 17; 10 for src, dst, work; 8 by segment. In a step row 20, which leaves dst as it was.
#[allow(clippy::too_many_arguments)]
pub fn evolve_with_traj_into(
    along: Trajectory,
    steps: usize,
    rho_bar_max: f64,
    convergence_radius_check: bool,
    src: &[f64],
    dst: &mut [f64],
    work: &mut [f64],
) -> Result<(), Refusal> {
    let answer = unsafe {
        raw::fuistelo_evolve_with_traj_into(
            along.n,
            along.row_ptr.as_ptr(),
            along.row_ptr.len(),
            along.col_idx.as_ptr(),
            along.col_idx.len(),
            along.segments,
            along.breakpoints.as_ptr(),
            along.breakpoints.len(),
            along.starts.as_ptr(),
            along.starts.len(),
            along.ends.as_ptr(),
            along.ends.len(),
            along.laws.as_ptr(),
            along.laws.len(),
            steps,
            rho_bar_max,
            convergence_radius_check,
            src.as_ptr(),
            src.len(),
            dst.as_mut_ptr(),
            dst.len(),
            work.as_mut_ptr(),
            work.len(),
        )
    };
    accepted(answer).map(drop)
}

/// dst = src after so many adjoint steps of length tau in the one segment of the trajectory, the last first. No steps copy src to dst and leave work
/// as it was. The work slice is that of [`evolve_with_traj_into`].
///
/// Rows 6, 1 to 4, 13, 14, 15, 17, 19, 5, 9, 16, 7, 8; 10 for src, dst, work. In a step row 20, which leaves dst as it was.
#[allow(clippy::too_many_arguments)]
pub fn evolve_state_adjoint_into(
    along: Trajectory,
    tau: f64,
    steps: usize,
    rho_bar_max: f64,
    convergence_radius_check: bool,
    src: &[f64],
    dst: &mut [f64],
    work: &mut [f64],
) -> Result<(), Refusal> {
    let answer = unsafe {
        raw::fuistelo_evolve_state_adjoint_into(
            along.n,
            along.row_ptr.as_ptr(),
            along.row_ptr.len(),
            along.col_idx.as_ptr(),
            along.col_idx.len(),
            along.segments,
            along.breakpoints.as_ptr(),
            along.breakpoints.len(),
            along.starts.as_ptr(),
            along.starts.len(),
            along.ends.as_ptr(),
            along.ends.len(),
            along.laws.as_ptr(),
            along.laws.len(),
            tau,
            steps,
            rho_bar_max,
            convergence_radius_check,
            src.as_ptr(),
            src.len(),
            dst.as_mut_ptr(),
            dst.len(),
            work.as_mut_ptr(),
            work.len(),
        )
    };
    accepted(answer).map(drop)
}

/// The run of [`evolve_state_adjoint_into`] with node weights, which follow the segment's law from `a_starts` to `a_ends`. The work slice needs
/// [`varcoef_run_work`](crate::varcoef_run_work) elements, which become +0 once there was a step.
///
/// Rows 6, 1 to 4, 13, 14, 15, 17, 19, 5, 9 for rho_bar_max, a_sup_max; 12, 16, 7, 8; 10 for src, dst, the weights, work. In a step row 20, then 11 for
/// the sampled weights, which leave dst as it was.
#[allow(clippy::too_many_arguments)]
pub fn varcoef_evolve_state_adjoint_into(
    along: Trajectory,
    tau: f64,
    steps: usize,
    rho_bar_max: f64,
    a_sup_max: f64,
    convergence_radius_check: bool,
    a_starts: &[f64],
    a_ends: &[f64],
    src: &[f64],
    dst: &mut [f64],
    work: &mut [f64],
) -> Result<(), Refusal> {
    let answer = unsafe {
        raw::fuistelo_varcoef_evolve_state_adjoint_into(
            along.n,
            along.row_ptr.as_ptr(),
            along.row_ptr.len(),
            along.col_idx.as_ptr(),
            along.col_idx.len(),
            along.segments,
            along.breakpoints.as_ptr(),
            along.breakpoints.len(),
            along.starts.as_ptr(),
            along.starts.len(),
            along.ends.as_ptr(),
            along.ends.len(),
            along.laws.as_ptr(),
            along.laws.len(),
            tau,
            steps,
            rho_bar_max,
            a_sup_max,
            convergence_radius_check,
            a_starts.as_ptr(),
            a_starts.len(),
            a_ends.as_ptr(),
            a_ends.len(),
            src.as_ptr(),
            src.len(),
            dst.as_mut_ptr(),
            dst.len(),
            work.as_mut_ptr(),
            work.len(),
        )
    };
    accepted(answer).map(drop)
}
