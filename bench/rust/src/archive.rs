//! The proved calls: those that makers link, through the package fuistelo, and the product alone, as the crate `bench` exports it, a slice as a
//! pointer and then its length.

use fuistelo::{Laplacian, Refusal, Trajectory};

use crate::networks::Network;

mod exported {
    #[link(name = "bench", kind = "static")]
    extern "C" {
        pub fn bench_product(
            row_ptr: *const usize,
            row_ptr_len: usize,
            col_idx: *const u32,
            col_idx_len: usize,
            vals: *const f64,
            vals_len: usize,
            src: *const f64,
            src_len: usize,
            dst: *mut f64,
            dst_len: usize,
        );
    }
}

type Answer = Result<(), Refusal>;

fn laplacian(of: &Network) -> Laplacian<'_> {
    Laplacian { n: of.n, row_ptr: &of.row_ptr, col_idx: &of.col_idx, vals: &of.vals }
}

/// The pattern check.
pub fn from_csr_parts(network: &Network) -> Answer {
    fuistelo::from_csr_parts(laplacian(network))
}

/// The whole call: the pattern check, the lengths, then the product.
pub fn apply_into_slice(network: &Network, src: &[f64], dst: &mut [f64]) -> Answer {
    fuistelo::apply_into_slice(laplacian(network), src, dst)
}

/// The product alone, without a check.
///
/// # Safety
/// The network must be one that `from_csr_parts` accepts, of as many nodes as `src` and `dst` have elements.
pub unsafe fn product(network: &Network, src: &[f64], dst: &mut [f64]) {
    let Network { row_ptr, col_idx, vals, .. } = network;
    exported::bench_product(
        row_ptr.as_ptr(),
        row_ptr.len(),
        col_idx.as_ptr(),
        col_idx.len(),
        vals.as_ptr(),
        vals.len(),
        src.as_ptr(),
        src.len(),
        dst.as_mut_ptr(),
        dst.len(),
    );
}

/// A step of order 4 between two samples, of 5n work elements, with the radius check.
pub fn apply_exp_omega4_kernel(
    samples: [&Network; 2],
    tau: f64,
    rho_bar_max: f64,
    src: &[f64],
    dst: &mut [f64],
    work: &mut [f64],
) -> Answer {
    let [first, second] = samples.map(laplacian);
    fuistelo::apply_exp_omega4_kernel(first, second, tau, rho_bar_max, true, src, dst, work)
}

/// The same with the weights of the nodes at the two times, of 9n work elements.
pub fn apply_exp_omega4_la_kernel(
    samples: [&Network; 2],
    tau: f64,
    rho_bar_max: f64,
    a_sup_max: f64,
    weights: [&[f64]; 2],
    src: &[f64],
    dst: &mut [f64],
    work: &mut [f64],
) -> Answer {
    let [first, second] = samples.map(laplacian);
    let [a1, a2] = weights;
    fuistelo::apply_exp_omega4_la_kernel(first, second, tau, rho_bar_max, a_sup_max, true, a1, a2, src, dst, work)
}

/// A step of order 6 between three samples, of 22n work elements, with the radius check.
pub fn apply_exp_omega6_kernel(
    samples: [&Network; 3],
    tau: f64,
    rho_bar_max: f64,
    src: &[f64],
    dst: &mut [f64],
    work: &mut [f64],
) -> Answer {
    let [first, second, third] = samples.map(laplacian);
    fuistelo::apply_exp_omega6_kernel(first, second, third, tau, rho_bar_max, true, src, dst, work)
}

/// A run along one segment from 0, between two samples of one pattern, of 7n + 2m work elements, with the radius check.
pub struct Run<'a> {
    pub first: &'a Network,
    pub second: &'a Network,
    pub law: u8,
    pub end: f64,
    pub steps: usize,
    pub rho_bar_max: f64,
}

impl Run<'_> {
    fn along<'a>(&'a self, breakpoints: &'a [f64; 2], laws: &'a [u8; 1]) -> Trajectory<'a> {
        Trajectory {
            n: self.first.n,
            row_ptr: &self.first.row_ptr,
            col_idx: &self.first.col_idx,
            segments: 1,
            breakpoints,
            starts: &self.first.vals,
            ends: &self.second.vals,
            laws,
        }
    }

    fn tau(&self) -> f64 {
        self.end / self.steps as f64
    }

    /// The forward run.
    pub fn evolve_with_traj_into(&self, dst: &mut [f64], work: &mut [f64]) -> Answer {
        let (breakpoints, laws) = ([0.0, self.end], [self.law]);
        let along = self.along(&breakpoints, &laws);
        fuistelo::evolve_with_traj_into(along, self.steps, self.rho_bar_max, true, &self.first.signal, dst, work)
    }

    /// The adjoint run, with the same steps.
    pub fn evolve_state_adjoint_into(&self, dst: &mut [f64], work: &mut [f64]) -> Answer {
        let (breakpoints, laws) = ([0.0, self.end], [self.law]);
        let along = self.along(&breakpoints, &laws);
        fuistelo::evolve_state_adjoint_into(along, self.tau(), self.steps, self.rho_bar_max, true, &self.first.signal, dst, work)
    }

    /// The same with the weights of the nodes at the segment's ends, of 11n + 2m work elements.
    pub fn evolve_state_adjoint_la_into(&self, weights: [&[f64]; 2], a_sup_max: f64, dst: &mut [f64], work: &mut [f64]) -> Answer {
        let (breakpoints, laws) = ([0.0, self.end], [self.law]);
        let along = self.along(&breakpoints, &laws);
        let [a_starts, a_ends] = weights;
        let signal = &self.first.signal;
        fuistelo::varcoef_evolve_state_adjoint_into(
            along,
            self.tau(),
            self.steps,
            self.rho_bar_max,
            a_sup_max,
            true,
            a_starts,
            a_ends,
            signal,
            dst,
            work,
        )
    }
}
