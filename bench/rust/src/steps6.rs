//! Whole steps of order 6 beside the Rust's. The Rust's three samples are built beforehand: its closure of Laplacians clones an
//! `Arc`.

use std::{hint::black_box, sync::Arc};

use semiflow::{
    access,
    chernoff::ChernoffFunction,
    graph::Graph,
    graph_signal::GraphSignal,
    magnus6_graph::MagnusGraphHeat6thChernoff,
    magnus_graph::LaplacianAtTime,
    scratch::ScratchPool,
};

use crate::{
    archive, compare, laplacian_of,
    networks::{Network, Random, Shape},
    timing,
};

const TAU: f64 = 0.1;
const RHO_BAR_MAX: f64 = 8.0;

/// A step of the Rust, a call of its own as ours are.
#[inline(never)]
fn rust_step(
    step: &MagnusGraphHeat6thChernoff<f64>,
    src: &GraphSignal<f64>,
    dst: &mut GraphSignal<f64>,
    pool: &mut ScratchPool<f64>,
) {
    step.apply_into(TAU, src, dst, pool).expect("the Rust accepts the step");
}

/// The Rust's samples: the first at times in the first third of a step, the last in the last.
fn laplacians(samples: [&Network; 3]) -> LaplacianAtTime<f64> {
    let [first, second, third] = samples.map(|network| Arc::new(laplacian_of(network)));
    Box::new(move |t| {
        if t < TAU / 3.0 {
            first.clone()
        } else if t < TAU * 2.0 / 3.0 {
            second.clone()
        } else {
            third.clone()
        }
    })
}

/// Nanoseconds of the Rust's step and of ours.
pub fn measure(samples: [&Network; 3]) -> [f64; 2] {
    let n = samples[0].n;
    let graph = Graph::from_edges(n, Vec::new()).expect("no edge is refused");
    let rust = MagnusGraphHeat6thChernoff::new(Arc::new(graph), laplacians(samples), RHO_BAR_MAX, true)
        .expect("the Rust accepts the bound");
    let (mut dst, mut work) = (vec![1.0; n], vec![1.0; 22 * n]);
    let signal = &samples[0].signal;
    let (src, mut rust_dst) = (access::signal_of(signal), access::signal_of(&dst));
    let mut pool = ScratchPool::new();

    rust_step(&rust, &src, &mut rust_dst, &mut pool);
    let answer = archive::apply_exp_omega6_kernel(samples, TAU, RHO_BAR_MAX, signal, &mut dst, &mut work);
    compare("apply_exp_omega6_kernel", answer, &dst, rust_dst.values());

    timing::minima(&mut [
        &mut || rust_step(black_box(&rust), black_box(&src), black_box(&mut rust_dst), &mut pool),
        &mut || {
            let samples = black_box(samples);
            let _ = black_box(archive::apply_exp_omega6_kernel(
                samples,
                TAU,
                RHO_BAR_MAX,
                signal,
                black_box(&mut dst),
                &mut work,
            ));
        },
    ])
}

pub fn print(random: &mut Random) {
    println!("steps of order 6: nanoseconds a step, the least of many runs, and ratios to the Rust's time");
    for shape in [Shape::Banded, Shape::Scattered] {
        println!("{}", shape.name());
        println!("       n       Rust       step  ratio");
        for n in [5, 64, 1024, 4096] {
            let first = Network::new(shape, n, random);
            let (second, third) = (first.at_another_time(random), first.at_another_time(random));
            let [rust, ours] = measure([&first, &second, &third]);
            println!("{n:>8} {rust:>10.1} {ours:>10.1} {:>6.2}", ours / rust);
        }
    }
}
