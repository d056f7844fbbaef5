//! Whole runs along a trajectory of one segment beside the Rust's: forward, adjoint, and adjoint with node weights. The Rust's closure
//! makes a Laplacian for each sample, as a closure must that has new values at each time: it clones the row starts and columns, forms
//! the values by the segment's law and checks them. Its closure of weights forms those by the same law.

use std::{hint::black_box, sync::Arc};

use semiflow::{
    access,
    graph::{Graph, Laplacian, LaplacianKind},
    graph_signal::GraphSignal,
    graph_traj::GraphTraj,
    magnus_graph::{LaplacianAtTime, MagnusGraphHeatChernoff},
    scratch::ScratchPool,
    varcoef_magnus_graph::{VarCoefMagnusGraphHeatChernoff, WeightAtTime},
};

use crate::{
    archive, compare,
    networks::{Network, Random, Shape},
    timing,
};

const END: f64 = 0.4;
const STEPS: usize = 4;
const RHO_BAR_MAX: f64 = 8.0;

/// At least the square root of the greatest weight.
const A_SUP_MAX: f64 = 1.25;

/// The list at time t: law 0 the start list, law 1 the end list, law 2 on the way from the one to the other.
fn at_time(law: u8, starts: &[f64], ends: &[f64], t: f64) -> Vec<f64> {
    match law {
        0 => starts.to_vec(),
        1 => ends.to_vec(),
        _ => {
            let part = t / END;
            starts.iter().zip(ends).map(|(s, e)| s + part * (e - s)).collect()
        }
    }
}

fn sampler(law: u8, first: &Network, second: &Network) -> LaplacianAtTime<f64> {
    let (first, second) = (first.clone(), second.clone());
    Box::new(move |t| {
        let (row_ptr, col_idx) = (first.row_ptr.clone(), first.col_idx.clone());
        let vals = at_time(law, &first.vals, &second.vals, t);
        let sample = Laplacian::from_csr_parts(first.n, row_ptr, col_idx, vals, LaplacianKind::GeneralSymmetric);
        Arc::new(sample.expect("the Rust accepts the sample"))
    })
}

fn weigher(law: u8, weights: &[Vec<f64>; 2]) -> WeightAtTime<f64> {
    let [starts, ends] = weights.clone();
    Box::new(move |t| at_time(law, &starts, &ends, t))
}

/// A forward run of the Rust, a call of its own as ours are.
#[inline(never)]
fn rust_forward(
    magnus: &MagnusGraphHeatChernoff<f64>,
    traj: &GraphTraj<f64>,
    src: &GraphSignal<f64>,
    dst: &mut GraphSignal<f64>,
    pool: &mut ScratchPool<f64>,
) {
    magnus.evolve_with_traj_into(traj, STEPS, src, dst, pool).expect("the Rust accepts the run");
}

/// An adjoint run of the Rust.
#[inline(never)]
fn rust_adjoint(
    magnus: &MagnusGraphHeatChernoff<f64>,
    src: &GraphSignal<f64>,
    dst: &mut GraphSignal<f64>,
    pool: &mut ScratchPool<f64>,
) {
    let tau = END / STEPS as f64;
    magnus.evolve_state_adjoint_into(tau, STEPS, src, dst, pool).expect("the Rust accepts the run");
}

/// An adjoint run of the Rust with node weights.
#[inline(never)]
fn rust_weighted_adjoint(
    magnus: &VarCoefMagnusGraphHeatChernoff<f64>,
    src: &GraphSignal<f64>,
    dst: &mut GraphSignal<f64>,
    pool: &mut ScratchPool<f64>,
) {
    let tau = END / STEPS as f64;
    magnus.evolve_state_adjoint_into(tau, STEPS, src, dst, pool).expect("the Rust accepts the run");
}

fn run_of<'a>(law: u8, first: &'a Network, second: &'a Network) -> archive::Run<'a> {
    archive::Run {
        first,
        second,
        law,
        end: END,
        steps: STEPS,
        rho_bar_max: RHO_BAR_MAX,
    }
}

/// Nanoseconds of the Rust's forward run and of ours, of the Rust's adjoint run and of ours.
pub fn measure(law: u8, first: &Network, second: &Network) -> [f64; 4] {
    let (n, m) = (first.n, first.col_idx.len());
    let graph = Arc::new(Graph::from_edges(n, Vec::new()).expect("no edge is refused"));
    let magnus = MagnusGraphHeatChernoff::new(graph.clone(), sampler(law, first, second), RHO_BAR_MAX, true)
        .expect("the Rust accepts the bound");
    let traj = GraphTraj::new(vec![0.0, END], vec![graph], vec![sampler(law, first, second)])
        .expect("the Rust accepts the trajectory");
    let (mut dst, mut back) = (vec![1.0; n], vec![1.0; n]);
    let mut work = vec![1.0; 7 * n + 2 * m];
    let src = access::signal_of(&first.signal);
    let (mut rust_dst, mut rust_back) = (access::signal_of(&dst), access::signal_of(&back));
    let mut pool = ScratchPool::new();
    let run = run_of(law, first, second);

    rust_forward(&magnus, &traj, &src, &mut rust_dst, &mut pool);
    let answer = run.evolve_with_traj_into(&mut dst, &mut work);
    compare("evolve_with_traj_into", answer, &dst, rust_dst.values());
    rust_adjoint(&magnus, &src, &mut rust_back, &mut pool);
    let answer = run.evolve_state_adjoint_into(&mut back, &mut work);
    compare("evolve_state_adjoint_into", answer, &back, rust_back.values());

    let mut forward_pool = ScratchPool::new();
    let mut adjoint_work = work.clone();
    timing::minima(&mut [
        &mut || {
            rust_forward(
                black_box(&magnus),
                black_box(&traj),
                black_box(&src),
                &mut rust_dst,
                &mut forward_pool,
            );
        },
        &mut || {
            let _ = black_box(black_box(&run).evolve_with_traj_into(black_box(&mut dst), &mut work));
        },
        &mut || rust_adjoint(black_box(&magnus), black_box(&src), &mut rust_back, &mut pool),
        &mut || {
            let _ = black_box(black_box(&run).evolve_state_adjoint_into(black_box(&mut back), &mut adjoint_work));
        },
    ])
}

/// Nanoseconds of the Rust's weighted adjoint run and of ours.
pub fn measure_weighted(law: u8, first: &Network, second: &Network, weights: &[Vec<f64>; 2]) -> [f64; 2] {
    let (n, m) = (first.n, first.col_idx.len());
    let magnus =
        VarCoefMagnusGraphHeatChernoff::new(n, sampler(law, first, second), weigher(law, weights), RHO_BAR_MAX, A_SUP_MAX)
            .expect("the Rust accepts the bounds");
    let (mut dst, mut work) = (vec![1.0; n], vec![1.0; 11 * n + 2 * m]);
    let (src, mut rust_dst) = (access::signal_of(&first.signal), access::signal_of(&dst));
    let mut pool = ScratchPool::new();
    let run = run_of(law, first, second);
    let lent = [&weights[0][..], &weights[1][..]];

    rust_weighted_adjoint(&magnus, &src, &mut rust_dst, &mut pool);
    let answer = run.evolve_state_adjoint_la_into(lent, A_SUP_MAX, &mut dst, &mut work);
    compare("evolve_state_adjoint_into with weights", answer, &dst, rust_dst.values());

    timing::minima(&mut [
        &mut || rust_weighted_adjoint(black_box(&magnus), black_box(&src), &mut rust_dst, &mut pool),
        &mut || {
            let _ = black_box(black_box(&run).evolve_state_adjoint_la_into(lent, A_SUP_MAX, black_box(&mut dst), &mut work));
        },
    ])
}

pub fn print(random: &mut Random) {
    println!("runs of {STEPS} steps: nanoseconds a run, the least of many runs, and ratios to the Rust's time");
    for law in [0, 1, 2] {
        for shape in [Shape::Banded, Shape::Scattered] {
            println!("law {law}, {}", shape.name());
            println!("       n   forward: Rust        run  ratio   adjoint: Rust        run  ratio   weighted: Rust        run  ratio");
            for n in [5, 64, 1024, 4096] {
                let first = Network::new(shape, n, random);
                let second = first.at_another_time(random);
                let weights = [(); 2].map(|()| (0..n).map(|_| 1.0 + random.real() / 2.0).collect());
                let [rust, ours, rust_back, back] = measure(law, &first, &second);
                let [rust_weighted, weighted] = measure_weighted(law, &first, &second, &weights);
                print!("{n:>8} {rust:>15.1} {ours:>10.1} {:>6.2}", ours / rust);
                print!(" {rust_back:>15.1} {back:>10.1} {:>6.2}", back / rust_back);
                println!(" {rust_weighted:>16.1} {weighted:>10.1} {:>6.2}", weighted / rust_weighted);
            }
        }
    }
}
