//! Whole steps of order 4, unweighted and with node weights, beside the Rust's. The Rust's samples are built beforehand: its
//! closure of Laplacians clones an `Arc`, and its closure of weights, which must return a vector, clones that.

use std::{hint::black_box, sync::Arc};

use fuistelo::Refusal;
use semiflow::{
    access,
    chernoff::ChernoffFunction,
    graph::Graph,
    graph_signal::GraphSignal,
    magnus_graph::{LaplacianAtTime, MagnusGraphHeatChernoff},
    scratch::ScratchPool,
    varcoef_magnus_graph::{VarCoefMagnusGraphHeatChernoff, WeightAtTime},
};

use crate::{
    archive, compare, laplacian_of,
    networks::{Network, Random, Shape},
    timing,
};

const TAU: f64 = 0.1;
const RHO_BAR_MAX: f64 = 8.0;
/// At least the square root of the greatest weight.
const A_SUP_MAX: f64 = 1.25;

/// A network at the two times of a step, and the weights of its nodes then.
pub struct Case {
    first: Network,
    second: Network,
    weights: [Vec<f64>; 2],
}

/// The first value at times in the first half of a step, the second in the other.
fn at_time<T: Clone>(first: T, second: T) -> impl Fn(f64) -> T {
    move |t| if t < TAU / 2.0 { first.clone() } else { second.clone() }
}

/// A step of the Rust, a call of its own as ours are.
#[inline(never)]
fn rust_step(
    step: &impl ChernoffFunction<f64, S = GraphSignal<f64>>,
    src: &GraphSignal<f64>,
    dst: &mut GraphSignal<f64>,
    pool: &mut ScratchPool<f64>,
) {
    step.apply_into(TAU, src, dst, pool).expect("the Rust accepts the step");
}

impl Case {
    pub fn new(shape: Shape, n: usize, random: &mut Random) -> Self {
        let first = Network::new(shape, n, random);
        let second = first.at_another_time(random);
        let weights = [(); 2].map(|()| (0..n).map(|_| 1.0 + random.real() / 2.0).collect());
        Self { first, second, weights }
    }

    /// The Rust's samples.
    fn laplacians(&self) -> LaplacianAtTime<f64> {
        let [first, second] = [&self.first, &self.second].map(|network| Arc::new(laplacian_of(network)));
        Box::new(at_time(first, second))
    }

    fn step(&self, dst: &mut [f64], work: &mut [f64]) -> Result<(), Refusal> {
        archive::apply_exp_omega4_kernel(
            [&self.first, &self.second],
            TAU,
            RHO_BAR_MAX,
            &self.first.signal,
            dst,
            work,
        )
    }

    fn weighted_step(&self, dst: &mut [f64], work: &mut [f64]) -> Result<(), Refusal> {
        archive::apply_exp_omega4_la_kernel(
            [&self.first, &self.second],
            TAU,
            RHO_BAR_MAX,
            A_SUP_MAX,
            [&self.weights[0], &self.weights[1]],
            &self.first.signal,
            dst,
            work,
        )
    }

    /// The two pattern checks, which are a part of a step of ours. The Rust has made its own before, for each Laplacian.
    fn pattern_checks(&self) -> Result<(), Refusal> {
        archive::from_csr_parts(&self.first)?;
        archive::from_csr_parts(&self.second)
    }
}

/// Nanoseconds of the Rust's step, ours and our two pattern checks.
pub fn measure(case: &Case) -> [f64; 3] {
    let n = case.first.n;
    let graph = Graph::from_edges(n, Vec::new()).expect("no edge is refused");
    let rust = MagnusGraphHeatChernoff::new(Arc::new(graph), case.laplacians(), RHO_BAR_MAX, true)
        .expect("the Rust accepts the bound");
    let (mut dst, mut work) = (vec![1.0; n], vec![1.0; 5 * n]);
    let (src, mut rust_dst) = (access::signal_of(&case.first.signal), access::signal_of(&dst));
    let mut pool = ScratchPool::new();

    rust_step(&rust, &src, &mut rust_dst, &mut pool);
    let answer = case.step(&mut dst, &mut work);
    compare("apply_exp_omega4_kernel", answer, &dst, rust_dst.values());

    timing::minima(&mut [
        &mut || rust_step(black_box(&rust), black_box(&src), black_box(&mut rust_dst), &mut pool),
        &mut || {
            let _ = black_box(black_box(case).step(black_box(&mut dst), &mut work));
        },
        &mut || {
            let _ = black_box(black_box(case).pattern_checks());
        },
    ])
}

/// Nanoseconds of the Rust's weighted step, ours, and the clones of two weight vectors, which are a part of the Rust's.
pub fn measure_weighted(case: &Case) -> [f64; 3] {
    let n = case.first.n;
    let [first, second] = case.weights.clone();
    let weights: WeightAtTime<f64> = Box::new(at_time(first, second));
    let rust = VarCoefMagnusGraphHeatChernoff::new(n, case.laplacians(), weights, RHO_BAR_MAX, A_SUP_MAX)
        .expect("the Rust accepts the bounds");
    let (mut dst, mut work) = (vec![1.0; n], vec![1.0; 9 * n]);
    let (src, mut rust_dst) = (access::signal_of(&case.first.signal), access::signal_of(&dst));
    let mut pool = ScratchPool::new();

    rust_step(&rust, &src, &mut rust_dst, &mut pool);
    let answer = case.weighted_step(&mut dst, &mut work);
    compare("apply_exp_omega4_la_kernel", answer, &dst, rust_dst.values());

    timing::minima(&mut [
        &mut || rust_step(black_box(&rust), black_box(&src), black_box(&mut rust_dst), &mut pool),
        &mut || {
            let _ = black_box(black_box(case).weighted_step(black_box(&mut dst), &mut work));
        },
        &mut || {
            black_box(black_box(&case.weights).clone());
        },
    ])
}

pub fn print(random: &mut Random) {
    println!("steps of order 4: nanoseconds a step, the least of many runs, and ratios to the Rust's time");
    for shape in [Shape::Banded, Shape::Scattered] {
        println!("{}", shape.name());
        println!("       n       Rust       step  ratio  pattern checks  weighted: Rust       step  ratio  clones");
        for n in [5, 64, 1024, 4096] {
            let case = Case::new(shape, n, random);
            let [rust, ours, checks] = measure(&case);
            let [weighted_rust, weighted, clones] = measure_weighted(&case);
            print!("{n:>8} {rust:>10.1} {ours:>10.1} {:>6.2} {checks:>15.1}", ours / rust);
            let ratio = weighted / weighted_rust;
            println!(" {weighted_rust:>15.1} {weighted:>10.1} {ratio:>6.2} {clones:>7.1}");
        }
    }
}
