//! All calls in one table: times beside the Rust's in one process, as ratios to the Rust's time.

use std::{fmt::Write, hint::black_box};

use crate::{
    eigen::{Eigen, Matrix},
    laplacian_of, measure,
    networks::{Network, Random, Shape},
    runs, rust_product, steps, steps6, timing,
};

const NODES: [usize; 4] = [5, 64, 1024, 4096];

/// The libraries of Eigen's product, without and with the machine's own instructions.
pub struct Libraries {
    pub plain: Eigen,
    pub native: Eigen,
}

/// Eigen may add the products of a row in another order, or fuse them; so its results agree but for their last bits.
fn compare_roughly(eigen: &[f64], rust: &[f64]) {
    if let Some(i) = (0..rust.len()).find(|&i| (eigen[i] - rust[i]).abs() > 1e-12) {
        eprintln!(
            "bench: Eigen's product gives {} at place {i} where the Rust's gives {}",
            eigen[i], rust[i]
        );
        std::process::exit(1);
    }
}

/// Nanoseconds of the Rust's product and of Eigen's, plain and native.
fn measure_eigen(libraries: &Libraries, network: &Network) -> [f64; 3] {
    let laplacian = laplacian_of(network);
    let [plain, native] = [libraries.plain, libraries.native].map(|eigen| Matrix::new(eigen, network));
    let signal = &network.signal;
    let [mut rust, mut of_plain, mut of_native] = [(); 3].map(|()| vec![1.0; network.n]);
    rust_product(&laplacian, signal, &mut rust);
    plain.product(signal, &mut of_plain);
    native.product(signal, &mut of_native);
    compare_roughly(&of_plain, &rust);
    compare_roughly(&of_native, &rust);
    timing::medians(&mut [
        &mut || rust_product(black_box(&laplacian), black_box(signal), black_box(&mut rust)),
        &mut || plain.product(black_box(signal), black_box(&mut of_plain)),
        &mut || native.product(black_box(signal), black_box(&mut of_native)),
    ])
}

/// The lines of networks of one shape and size.
struct Lines {
    rows: &'static str,
    n: usize,
    text: String,
}

impl Lines {
    /// A line of what was measured last: the medians of the Rust's function and of the one beside it, by their places.
    fn add(&mut self, what: &str, rust: usize, beside: usize) {
        let (medians, Self { rows, n, text }) = (timing::last_medians(), self);
        let (rust, beside) = (medians[rust], medians[beside]);
        writeln!(text, "\"{what}\",{rows},{n},{rust:.1},{beside:.1}").expect("a string takes all");
    }
}

/// Everything that is measured on networks of one shape and size.
fn lines(shape: Shape, n: usize, libraries: &Libraries, random: &mut Random) -> String {
    let (rows, text) = (short_name(shape), String::new());
    let mut lines = Lines { rows, n, text };
    let case = steps::Case::new(shape, n, random);
    let first = Network::new(shape, n, random);
    let (second, third) = (first.at_another_time(random), first.at_another_time(random));

    measure(&first);
    lines.add("row product", 0, 1);
    lines.add("row product with its checks", 0, 2);
    measure_eigen(libraries, &first);
    lines.add("Eigen's row product", 0, 1);
    lines.add("Eigen's row product, native", 0, 2);
    steps::measure(&case);
    lines.add("step of order 4", 0, 1);
    steps::measure_weighted(&case);
    lines.add("weighted step of order 4", 0, 1);
    steps6::measure([&first, &second, &third]);
    lines.add("step of order 6", 0, 1);
    let weights = [(); 2].map(|()| (0..n).map(|_| 1.0 + random.real() / 2.0).collect());
    for (law, forward, adjoint, weighted) in [
        (0, "forward run, law 0", "adjoint run, law 0", "weighted adjoint run, law 0"),
        (2, "forward run, law 2", "adjoint run, law 2", "weighted adjoint run, law 2"),
    ] {
        runs::measure(law, &first, &second);
        lines.add(forward, 0, 1);
        lines.add(adjoint, 2, 3);
        runs::measure_weighted(law, &first, &second, &weights);
        lines.add(weighted, 0, 1);
    }
    lines.text
}

fn short_name(shape: Shape) -> &'static str {
    match shape {
        Shape::Banded => "banded",
        Shape::Scattered => "irregular",
    }
}

/// Measures all, a line of progress for each shape and size, and gives it as comma-separated values.
pub fn csv(libraries: &Libraries, random: &mut Random) -> String {
    let mut text = String::from("what,rows,n,rust_ns,ours_ns\n");
    for shape in [Shape::Banded, Shape::Scattered] {
        for n in NODES {
            eprintln!("{}, n = {n}", shape.name());
            text.push_str(&lines(shape, n, libraries, random));
        }
    }
    text
}

/// Stops where a library of Eigen's product is missing.
pub fn load(file: &str) -> Eigen {
    Eigen::load(file).unwrap_or_else(|| {
        eprintln!("bench: {file} is no library of bench/eigen.cpp");
        std::process::exit(1);
    })
}
