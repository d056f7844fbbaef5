//! Each call on a small network: what it gives is compared with the published formulas written down once more, and its refusals with their rows.

mod common;

use common::*;
use fuistelo::*;

const TAU: f64 = 0.3;
const BOUND: f64 = 3.0;

#[test]
fn roots_are_those_of_the_machine() {
    let mut pattern = 0x3FF0_0000_0000_0000u64;
    for _ in 0..100_000 {
        pattern = pattern.wrapping_mul(0x5851_F42D_4C95_7F2D).wrapping_add(0x1405_7B7E_F767_814F);
        let x = f64::from_bits(pattern);
        let (found, wanted) = (sqrt(x), x.sqrt());
        assert!(found.to_bits() == wanted.to_bits() || found.is_nan() && wanted.is_nan(), "sqrt({x:e}) gave {found:e}");
    }
    assert_eq!(sqrt(-0.0).to_bits(), (-0.0f64).to_bits());
    assert!(sqrt(-1.0).is_nan());
}

#[test]
fn parts_of_a_laplacian() {
    assert_eq!(from_csr_parts(laplacian(&FIRST)), Ok(()));
    assert_eq!(from_csr_parts(laplacian(&FIRST[..9])), Err(Refusal::EntryCount(10)));
    let mut vals = FIRST;
    vals[3] = f64::INFINITY;
    assert_eq!(from_csr_parts(laplacian(&vals)), Err(Refusal::Value(f64::INFINITY)));
    assert_eq!(check_pattern(N, &ROW_PTR, &COL_IDX), Ok(()));
    assert_eq!(check_pattern(N, &ROW_PTR[..N], &COL_IDX), Err(Refusal::RowStartCount(4)));
    assert_eq!(check_pattern(3, &[0, 2, 1, 3], &[0, 1, 2]), Err(Refusal::RowStartFalls(1)));
    assert_eq!(check_pattern(2, &[0, 1, 3], &[0, 1, 2]), Err(Refusal::Column(2)));
    assert_eq!(check_pattern(4097, &[], &[]), Err(Refusal::Size(4097)));
    assert_eq!(check_pattern(0, &[0], &[]), Ok(()));
}

#[test]
fn bound_and_product() {
    assert_eq!(gershgorin_bound_csr(laplacian(&FIRST)), Ok(2.5));
    assert_eq!(gershgorin_bound_csr(laplacian(&[])), Err(Refusal::EntryCount(10)));
    let mut dst = [7.0; N];
    assert_eq!(apply_into_slice(laplacian(&FIRST), &SIGNAL, &mut dst), Ok(()));
    assert_eq!(bits(&dst), bits(&product(&FIRST, &SIGNAL)));
    let before = dst;
    assert_eq!(apply_into_slice(laplacian(&FIRST), &SIGNAL[..3], &mut dst), Err(Refusal::Length(3)));
    assert_eq!(bits(&dst), bits(&before));
}

#[test]
fn sums_of_signals() {
    let mut signal = [1.0, 2.0, 3.0, f64::NAN];
    assert_eq!(axpy_into_slice(&mut signal, 0.5, &SIGNAL), Ok(()));
    assert_eq!(bits(&signal[..3]), bits(&[43.5, 57.0, 38.0]));
    assert!(signal[3].is_nan());
    assert_eq!(copy_from(&mut signal, &SIGNAL), Ok(()));
    assert_eq!(bits(&signal), bits(&SIGNAL));
    assert_eq!(copy_from(&mut signal, &SIGNAL[1..]), Err(Refusal::Length(3)));
    assert_eq!(axpy_into_slice(&mut signal, 1.0, &[0.0; 9]), Err(Refusal::Length(9)));
    assert_eq!(bits(&signal), bits(&SIGNAL));
}

type Step = fn(Laplacian, Laplacian, f64, f64, bool, &[f64], &mut [f64], &mut [f64]) -> Result<(), Refusal>;

#[test]
fn steps_of_order_4() {
    for (step, sign) in [(apply_exp_omega4_kernel as Step, 1.0), (apply_exp_omega4_adj_kernel as Step, -1.0)] {
        let (first, second) = (laplacian(&FIRST), laplacian(&SECOND));
        let mut dst = [0.0; N];
        let mut work = [7.0; omega4_work(N) + 1];
        assert_eq!(step(first, second, TAU, BOUND, true, &SIGNAL, &mut dst, &mut work), Ok(()));
        assert_eq!(bits(&dst), bits(&step4(sign, &FIRST, &SECOND, TAU, &SIGNAL)));
        assert_eq!(bits(&work[..omega4_work(N)]), vec![0; omega4_work(N)]);
        assert_eq!(work[omega4_work(N)], 7.0);
        let mut short = [0.0; omega4_work(N) - 1];
        assert_eq!(step(first, second, TAU, BOUND, true, &SIGNAL, &mut dst, &mut short), Err(Refusal::Length(19)));
        assert_eq!(step(first, second, 0.6, BOUND, true, &SIGNAL, &mut dst, &mut work), Err(Refusal::Radius(0.6, BOUND)));
        assert_eq!(step(first, second, 0.6, BOUND, false, &SIGNAL, &mut dst, &mut work), Ok(()));
        assert_eq!(step(first, second, -1.0, BOUND, true, &SIGNAL, &mut dst, &mut work), Err(Refusal::Tau(-1.0)));
        assert_eq!(step(first, second, TAU, 0.0, true, &SIGNAL, &mut dst, &mut work), Err(Refusal::Bound(0.0)));
    }
}

type WeightedStep = fn(Laplacian, Laplacian, f64, f64, f64, bool, &[f64], &[f64], &[f64], &mut [f64], &mut [f64]) -> Result<(), Refusal>;

fn weighted(step: WeightedStep, a1: &[f64], a2: &[f64], src: &[f64]) -> Result<[f64; N], Refusal> {
    let mut dst = [0.0; N];
    let mut work = [7.0; omega4_la_work(N)];
    step(laplacian(&FIRST), laplacian(&SECOND), TAU, BOUND, 1.0, true, a1, a2, src, &mut dst, &mut work)?;
    assert_eq!(bits(&work), vec![0; omega4_la_work(N)]);
    Ok(dst)
}

fn dot(a: &[f64], b: &[f64]) -> f64 {
    a.iter().zip(b).map(|(x, y)| x * y).sum()
}

#[test]
fn weighted_steps() {
    let (a1, a2, other) = ([0.9, 0.5, 0.8, 0.3], [0.6, 0.7, 0.2, 0.4], [1.0, -2.0, 0.5, 3.0]);
    let forward = weighted(apply_exp_omega4_la_kernel, &a1, &a2, &SIGNAL).unwrap();
    let adjoint = weighted(apply_exp_omega4_la_adj_kernel, &a1, &a2, &other).unwrap();
    // The Laplacians are symmetric, so the one is the other's adjoint up to rounding.
    assert!((dot(&other, &forward) - dot(&adjoint, &SIGNAL)).abs() < 1e-12);
    // Weights of 1 leave the step unweighted, up to the literal for √3/12.
    let plain = step4(1.0, &FIRST, &SECOND, TAU, &SIGNAL);
    let ones = weighted(apply_exp_omega4_la_kernel, &[1.0; N], &[1.0; N], &SIGNAL).unwrap();
    assert!(plain.iter().zip(&ones).all(|(x, y)| (x - y).abs() < 1e-12));
    assert_eq!(weighted(apply_exp_omega4_la_kernel, &a1, &[0.5, 0.0, -1.0, 0.5], &SIGNAL), Err(Refusal::Weight(0.0)));
    assert_eq!(weighted(apply_exp_omega4_la_kernel, &[-1.0; N], &[-2.0; N], &SIGNAL), Err(Refusal::Weight(-1.0)));
    assert_eq!(weighted(apply_exp_omega4_la_kernel, &a1[..3], &a2, &SIGNAL), Err(Refusal::Length(4)));
    let mut work = [7.0; omega4_la_work(N)];
    let mut bounds = |rho_bar_max: f64, a_sup_max: f64| {
        let (first, second, mut dst) = (laplacian(&FIRST), laplacian(&SECOND), [0.0; N]);
        apply_exp_omega4_la_kernel(first, second, TAU, rho_bar_max, a_sup_max, true, &a1, &a2, &SIGNAL, &mut dst, &mut work)
    };
    assert_eq!(bounds(-1.0, -2.0), Err(Refusal::Bound(-1.0)));
    let none = Laplacian { n: 0, row_ptr: &[0], col_idx: &[], vals: &[] };
    assert_eq!(apply_exp_omega4_la_kernel(none, none, TAU, BOUND, 1.0, true, &[], &[], &[], &mut [], &mut []), Err(Refusal::NoNodes(0)));
    assert_eq!(apply_exp_omega4_kernel(none, none, TAU, BOUND, true, &[], &mut [], &mut []), Ok(()));
    assert_eq!(bounds(3.0, 2.0), Err(Refusal::Radius(TAU, 12.0)));
}

#[test]
fn step_of_order_6() {
    let (first, second) = (laplacian(&FIRST), laplacian(&SECOND));
    let mut dst = [0.0; N];
    let mut work = [7.0; omega6_work(N)];
    assert_eq!(apply_exp_omega6_kernel(first, first, first, TAU, BOUND, true, &SIGNAL, &mut dst, &mut work), Ok(()));
    assert_eq!(bits(&work), vec![0; omega6_work(N)]);
    // With equal samples it is the plain Taylor sum of degree 6.
    let mut term = SIGNAL.to_vec();
    let mut sum = SIGNAL.to_vec();
    for k in 1..=6 {
        term = product(&FIRST, &term).iter().map(|x| -TAU * x / f64::from(k)).collect();
        sum.iter_mut().zip(&term).for_each(|(s, t)| *s += t);
    }
    assert!(sum.iter().zip(&dst).all(|(x, y)| (x - y).abs() < 1e-12));
    let (two, three) = (laplacian(&FIRST[..2]), Laplacian { n: 9, ..first });
    assert_eq!(apply_exp_omega6_kernel(first, two, three, TAU, BOUND, true, &SIGNAL, &mut dst, &mut work), Err(Refusal::EntryCount(10)));
    assert_eq!(apply_exp_omega6_kernel(two, three, first, TAU, BOUND, true, &SIGNAL, &mut dst, &mut work), Err(Refusal::EntryCount(10)));
    assert_eq!(apply_exp_omega6_kernel(first, three, two, TAU, BOUND, true, &SIGNAL, &mut dst, &mut work), Err(Refusal::RowStartCount(5)));
    let small = Laplacian { n: 0, row_ptr: &[0], col_idx: &[], vals: &[] };
    assert_eq!(apply_exp_omega6_kernel(first, second, small, TAU, BOUND, true, &SIGNAL, &mut dst, &mut work), Err(Refusal::Length(0)));
    let short = &mut work[1..];
    assert_eq!(apply_exp_omega6_kernel(first, second, first, TAU, BOUND, true, &SIGNAL, &mut dst, short), Err(Refusal::Length(87)));
}
