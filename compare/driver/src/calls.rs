//! A case put to the C interface: its slices are lent, the call is made, and what it left of them is read.

use crate::{
    case::{Call, Case, Network},
    memory::{Lent, Memory},
    raw::{self, Answer},
};

#[link(name = "fuistelo", kind = "static")]
extern "C" {}

/// What a call came to, with every slice afterwards.
#[derive(Clone, Debug)]
pub struct Outcome {
    pub answer: Answer,
    /// The output, or the signal of a copy or a sum.
    pub dst: Vec<f64>,
    pub work: Vec<f64>,
    /// The first slice of those that are only read whose bytes are others than before.
    pub changed: Option<&'static str>,
}

#[derive(Clone, Copy)]
struct LentNetwork {
    n: usize,
    row_ptr: Lent<usize>,
    col_idx: Lent<u32>,
    vals: Lent<f64>,
}

/// A case whose slices are lent.
struct LentCase {
    samples: Vec<LentNetwork>,
    breakpoints: Lent<f64>,
    starts: Lent<f64>,
    ends: Lent<f64>,
    laws: Lent<u8>,
    weights: [Lent<f64>; 2],
    src: Lent<f64>,
    dst: Lent<f64>,
    work: Lent<f64>,
}

impl LentCase {
    fn of(case: &Case, memory: &mut Memory) -> Self {
        let mut network = |of: &Network| LentNetwork {
            n: of.n,
            row_ptr: memory.lend_read(&of.row_ptr),
            col_idx: memory.lend_read(&of.col_idx),
            vals: memory.lend_read(&of.vals),
        };
        Self {
            samples: case.samples.iter().map(&mut network).collect(),
            breakpoints: memory.lend_read(&case.breakpoints),
            starts: memory.lend_read(&case.starts),
            ends: memory.lend_read(&case.ends),
            laws: memory.lend_read(&case.laws),
            weights: [memory.lend_read(&case.weights[0]), memory.lend_read(&case.weights[1])],
            src: memory.lend_read(&case.src),
            dst: memory.lend(&case.dst),
            work: memory.lend(&case.work),
        }
    }

    /// The first slice that is only read and is not as the case has it.
    fn changed(&self, case: &Case) -> Option<&'static str> {
        for (lent, of) in self.samples.iter().zip(&case.samples) {
            if lent.row_ptr.read() != of.row_ptr {
                return Some("row starts");
            }
            if lent.col_idx.read() != of.col_idx {
                return Some("columns");
            }
            if !same_bits(&lent.vals.read(), &of.vals) {
                return Some("values");
            }
        }
        if self.laws.read() != case.laws {
            return Some("laws");
        }
        let reals = [
            (self.breakpoints, &case.breakpoints, "breakpoints"),
            (self.starts, &case.starts, "start lists"),
            (self.ends, &case.ends, "end lists"),
            (self.weights[0], &case.weights[0], "first weights"),
            (self.weights[1], &case.weights[1], "second weights"),
            (self.src, &case.src, "signal"),
        ];
        reals.iter().find(|(lent, of, _)| !same_bits(&lent.read(), of)).map(|(.., name)| *name)
    }
}

fn same_bits(one: &[f64], other: &[f64]) -> bool {
    one.len() == other.len() && one.iter().zip(other).all(|(x, y)| x.to_bits() == y.to_bits())
}

/// Calls a function of the C interface: a slice in brackets passes as a pointer and a length, a network in braces as four parts.
macro_rules! call {
    (@ $name:ident ($($done:expr,)*)) => {
        // SAFETY: each pointer and length is that of a lent slice, and no two overlap.
        unsafe { raw::$name($($done),*) }
    };
    (@ $name:ident ($($done:expr,)*) [$slice:expr], $($rest:tt)*) => {
        call!(@ $name ($($done,)* $slice.at, $slice.len,) $($rest)*)
    };
    (@ $name:ident ($($done:expr,)*) {$network:expr}, $($rest:tt)*) => {
        call!(@ $name ($($done,)*) $network.n, [$network.row_ptr], [$network.col_idx], [$network.vals], $($rest)*)
    };
    (@ $name:ident ($($done:expr,)*) $value:expr, $($rest:tt)*) => { call!(@ $name ($($done,)* $value,) $($rest)*) };
    ($name:ident($($arguments:tt)*)) => { call!(@ $name () $($arguments)*,) };
}

#[rustfmt::skip]
fn step(call: Call, case: &Case, lent: &LentCase) -> Answer {
    let (s, src, dst, work) = (&lent.samples, lent.src, lent.dst, lent.work);
    let (tau, bound, root_bound, check) = (case.tau, case.bound, case.root_bound, case.check);
    let [a1, a2] = lent.weights;
    match call {
        Call::Omega4 => call!(fuistelo_apply_exp_omega4_kernel(
            {s[0]}, {s[1]}, tau, bound, check, [src], [dst], [work]
        )),
        Call::Omega4Adjoint => call!(fuistelo_apply_exp_omega4_adj_kernel(
            {s[0]}, {s[1]}, tau, bound, check, [src], [dst], [work]
        )),
        Call::Omega4La => call!(fuistelo_apply_exp_omega4_la_kernel(
            {s[0]}, {s[1]}, tau, bound, root_bound, check, [a1], [a2], [src], [dst], [work]
        )),
        Call::Omega4LaAdjoint => call!(fuistelo_apply_exp_omega4_la_adj_kernel(
            {s[0]}, {s[1]}, tau, bound, root_bound, check, [a1], [a2], [src], [dst], [work]
        )),
        _ => call!(fuistelo_apply_exp_omega6_kernel(
            {s[0]}, {s[1]}, {s[2]}, tau, bound, check, [src], [dst], [work]
        )),
    }
}

#[rustfmt::skip]
fn run(call: Call, case: &Case, lent: &LentCase) -> Answer {
    let LentNetwork { n, row_ptr, col_idx, .. } = lent.samples[0];
    let (segments, times, starts, ends, laws) = (case.segments, lent.breakpoints, lent.starts, lent.ends, lent.laws);
    let (tau, steps, bound, root_bound, check) = (case.tau, case.steps, case.bound, case.root_bound, case.check);
    let ([a1, a2], src, dst, work) = (lent.weights, lent.src, lent.dst, lent.work);
    match call {
        Call::Evolve => call!(fuistelo_evolve_with_traj_into(
            n, [row_ptr], [col_idx], segments, [times], [starts], [ends], [laws],
            steps, bound, check, [src], [dst], [work]
        )),
        Call::EvolveAdjoint => call!(fuistelo_evolve_state_adjoint_into(
            n, [row_ptr], [col_idx], segments, [times], [starts], [ends], [laws],
            tau, steps, bound, check, [src], [dst], [work]
        )),
        _ => call!(fuistelo_varcoef_evolve_state_adjoint_into(
            n, [row_ptr], [col_idx], segments, [times], [starts], [ends], [laws],
            tau, steps, bound, root_bound, check, [a1], [a2], [src], [dst], [work]
        )),
    }
}

/// The root as an answer with one real.
fn sqrt(x: f64) -> Answer {
    // SAFETY: the call takes and gives one real.
    let first = unsafe { raw::fuistelo_sqrt(x) };
    Answer { number: 0, counts: 0, count: 0, reals: 1, first, second: 0.0 }
}

fn answer(call: Call, case: &Case, lent: &LentCase) -> Answer {
    let network = || lent.samples[0];
    match call {
        Call::Sqrt => sqrt(case.x),
        Call::FromCsrParts => call!(fuistelo_from_csr_parts({ network() })),
        Call::CheckPattern => {
            call!(fuistelo_check_pattern(network().n, [network().row_ptr], [network().col_idx]))
        }
        Call::GershgorinBoundCsr => call!(fuistelo_gershgorin_bound_csr({ network() })),
        Call::ApplyIntoSlice => call!(fuistelo_apply_into_slice({ network() }, [lent.src], [lent.dst])),
        Call::CopyFrom => call!(fuistelo_copy_from([lent.dst], [lent.src])),
        Call::AxpyIntoSlice => call!(fuistelo_axpy_into_slice([lent.dst], case.x, [lent.src])),
        Call::SegmentIndex => call!(fuistelo_segment_index(case.segments, [lent.breakpoints], case.x)),
        _ if call.is_step() => step(call, case, lent),
        _ => run(call, case, lent),
    }
}

/// Makes the call and reads what it left.
pub fn outcome(call: Call, case: &Case, memory: &mut Memory) -> Outcome {
    let lent = LentCase::of(case, memory);
    let answer = answer(call, case, &lent);
    let outcome = Outcome { answer, dst: lent.dst.read(), work: lent.work.read(), changed: lent.changed(case) };
    memory.take_back();
    outcome
}

/// The names of the slices that are only read in which a change is seen, one after the other. For the self-test.
pub fn changes_seen(case: &Case, memory: &mut Memory) -> Vec<&'static str> {
    let lent = LentCase::of(case, memory);
    let LentNetwork { row_ptr, col_idx, vals, .. } = lent.samples[0];
    let reals = [vals, lent.breakpoints, lent.starts, lent.ends, lent.weights[0], lent.weights[1], lent.src];
    let mut bytes =
        vec![(row_ptr.at.cast(), row_ptr.len), (col_idx.at.cast(), col_idx.len), (lent.laws.at, lent.laws.len)];
    bytes.extend(reals.map(|slice| (slice.at.cast(), slice.len)));
    let mut names = Vec::new();
    for (at, _) in bytes.into_iter().filter(|(_, len)| *len > 0) {
        let at: *mut u8 = at;
        // SAFETY: the first byte of a lent slice that has elements.
        unsafe { *at ^= 1 };
        names.extend(lent.changed(case));
        unsafe { *at ^= 1 };
    }
    memory.take_back();
    names
}
