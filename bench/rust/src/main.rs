//! The row product and the steps of orders 4 and 6 and the runs beside the published Rust's, in one process and on the same networks: the product
//! alone, the whole checked call and the pattern check alone, and whole steps. The results must be the Rust's bit for bit; else
//! it stops. With `--table` and two libraries of Eigen's product, all of it goes into one list of comma-separated values.

mod archive;
mod eigen;
mod networks;
mod runs;
mod steps;
mod steps6;
mod table;
mod timing;

use std::hint::black_box;

use fuistelo::Refusal;
use networks::{Network, Random, Shape};
use semiflow::graph::{Laplacian, LaplacianKind};

/// The Rust's product, a call of its own as ours are.
#[inline(never)]
fn rust_product(laplacian: &Laplacian<f64>, src: &[f64], dst: &mut [f64]) {
    laplacian.apply_into_slice(src, dst);
}

/// Stops where a call of ours refused, or gave other bits than the Rust.
fn compare(what: &str, answer: Result<(), Refusal>, ours: &[f64], rust: &[f64]) {
    if let Err(refusal) = answer {
        eprintln!("bench: {what} refuses what the Rust accepts: {refusal}");
        std::process::exit(1);
    }
    if let Some(i) = (0..rust.len()).find(|&i| ours[i].to_bits() != rust[i].to_bits()) {
        let (ours, rust) = (ours[i].to_bits(), rust[i].to_bits());
        eprintln!("bench: {what} gives {ours:016x} at place {i} where the Rust gives {rust:016x}");
        std::process::exit(1);
    }
}

/// The Rust's Laplacian of a network.
fn laplacian_of(network: &Network) -> Laplacian<f64> {
    Laplacian::from_csr_parts(
        network.n,
        network.row_ptr.clone(),
        network.col_idx.clone(),
        network.vals.clone(),
        LaplacianKind::GeneralSymmetric,
    )
    .expect("the Rust accepts the network")
}

/// Nanoseconds of the Rust's product, our product, our whole call and our pattern check.
fn measure(network: &Network) -> [f64; 4] {
    let Network { n, signal, .. } = network;
    let laplacian = laplacian_of(network);
    let (mut rust, mut alone, mut whole) = (vec![0.0; *n], vec![1.0; *n], vec![1.0; *n]);

    rust_product(&laplacian, signal, &mut rust);
    compare("from_csr_parts", archive::from_csr_parts(network), &[], &[]);
    // SAFETY: the pattern check accepted the network, and the signals have n elements.
    unsafe { archive::product(network, signal, &mut alone) };
    compare("product", Ok(()), &alone, &rust);
    let answer = archive::apply_into_slice(network, signal, &mut whole);
    compare("apply_into_slice", answer, &whole, &rust);

    timing::medians(&mut [
        &mut || rust_product(black_box(&laplacian), black_box(signal), black_box(&mut rust)),
        // SAFETY: as above.
        &mut || unsafe { archive::product(network, black_box(signal), black_box(&mut alone)) },
        &mut || {
            let _ = black_box(archive::apply_into_slice(black_box(network), black_box(signal), black_box(&mut whole)));
        },
        &mut || {
            let _ = black_box(archive::from_csr_parts(black_box(network)));
        },
    ])
}

fn main() {
    let mut random = Random(20_260_101);
    let arguments: Vec<String> = std::env::args().skip(1).collect();
    if let [option, plain, native] = &arguments[..] {
        assert_eq!(option, "--table");
        let libraries = table::Libraries {
            plain: table::load(plain),
            native: table::load(native),
        };
        print!("{}", table::csv(&libraries, &mut random));
        return;
    }
    println!("row product: nanoseconds a call, the median of many runs, and ratios to the Rust's time");
    for shape in [Shape::Banded, Shape::Scattered] {
        println!("{}", shape.name());
        println!("       n       Rust    product  ratio   whole call  ratio  pattern check  ratio");
        for n in [5, 64, 1024, 4096] {
            let [rust, alone, whole, check] = measure(&Network::new(shape, n, &mut random));
            println!(
                "{n:>8} {rust:>10.1} {alone:>10.1} {:>6.2} {whole:>12.1} {:>6.2} {check:>14.1} {:>6.2}",
                alone / rust,
                whole / rust,
                check / rust
            );
        }
    }
    steps::print(&mut random);
    steps6::print(&mut random);
    runs::print(&mut random);
}
