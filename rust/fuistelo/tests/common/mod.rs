//! A small network for the tests, and the published formulas written down once more, operation by operation.

use fuistelo::Laplacian;

pub const N: usize = 4;
pub const ROW_PTR: [usize; N + 1] = [0, 2, 5, 8, 10];
pub const COL_IDX: [u32; 10] = [0, 1, 0, 1, 2, 1, 2, 3, 2, 3];
pub const FIRST: [f64; 10] = [0.5, -0.5, -0.5, 1.25, -0.75, -0.75, 1.0, -0.25, -0.25, 0.25];
pub const SECOND: [f64; 10] = [0.7, -0.7, -0.7, 1.0, -0.3, -0.3, 1.2, -0.9, -0.9, 0.9];
pub const SIGNAL: [f64; N] = [85.0, 110.0, 70.0, 45.5];

pub fn laplacian(vals: &[f64]) -> Laplacian<'_> {
    Laplacian { n: N, row_ptr: &ROW_PTR, col_idx: &COL_IDX, vals }
}

pub fn bits(values: &[f64]) -> Vec<u64> {
    values.iter().map(|x| x.to_bits()).collect()
}

/// The row product: each row from +0, in stored order.
pub fn product(vals: &[f64], x: &[f64]) -> Vec<f64> {
    (0..N)
        .map(|i| {
            let mut sum = 0.0;
            for k in ROW_PTR[i]..ROW_PTR[i + 1] {
                sum += vals[k] * x[COL_IDX[k] as usize];
            }
            sum
        })
        .collect()
}

/// The Taylor sum of degree 4 of the exponent of order 4, with the commutator's sign.
pub fn step4(sign: f64, first: &[f64], second: &[f64], tau: f64, signal: &[f64]) -> Vec<f64> {
    let half = -0.5 * tau;
    let commutator = sign * f64::from_bits(0x3FC279A74590331C) * tau * tau;
    let mut sum = signal.to_vec();
    let mut term = signal.to_vec();
    let mut factorial = 1.0;
    for k in 1..=4 {
        let (a, b) = (product(first, &term), product(second, &term));
        let (ba, ab) = (product(second, &a), product(first, &b));
        for i in 0..N {
            term[i] = half * (a[i] + b[i]) + commutator * (ba[i] - ab[i]);
        }
        factorial *= f64::from(k);
        for i in 0..N {
            sum[i] += 1.0 / factorial * term[i];
        }
    }
    sum
}
