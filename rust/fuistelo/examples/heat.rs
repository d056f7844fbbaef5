//! Which temperatures decide how hot a lift's motor is ten minutes later: motor, brake coil, drive and cabinet, which cool towards the air of the
//! shaft while the motor's fan runs down. An adjoint run answers this for all nodes at once.

use fuistelo::{gershgorin_bound_csr, sqrt, varcoef_evolve_state_adjoint_into, varcoef_run_work, Laplacian, Refusal, Trajectory};

const NAMES: [&str; 5] = ["motor", "brake coil", "drive", "cabinet", "air"];
const MOTOR: usize = 0;
const N: usize = NAMES.len();
/// Every node has an entry in every row.
const M: usize = N * N;

/// The links between nodes, in W/K.
fn links(motor_to_air: f64) -> Vec<(usize, usize, f64)> {
    vec![(0, 1, 4.0), (0, 3, 0.2), (0, 4, motor_to_air), (1, 4, 0.6), (2, 3, 6.0), (2, 4, 0.3), (3, 4, 5.0)]
}

/// The symmetric Laplacian of the links.
fn values(motor_to_air: f64) -> Vec<f64> {
    let mut vals = vec![0.0; M];
    for (a, b, link) in links(motor_to_air) {
        for (i, j) in [(a, b), (b, a)] {
            vals[i * N + j] -= link;
            vals[i * N + i] += link;
        }
    }
    vals
}

fn sensitivity(steps: usize) -> Result<Vec<f64>, Refusal> {
    let row_ptr: Vec<usize> = (0..=N).map(|i| i * N).collect();
    let col_idx: Vec<u32> = (0..M).map(|k| (k % N) as u32).collect();
    let (starts, ends) = (values(12.0), values(3.0));
    // Weights of 1 / heat capacity make of the symmetric Laplacian one that acts on √capacity · temperature. The air's capacity, in J/K, is that of the
    // whole shaft.
    let capacity = [20_000.0, 900.0, 1_800.0, 6_000.0, 1.0e6];
    let weights: Vec<f64> = capacity.iter().map(|c| 1.0 / c).collect();
    let a_sup_max = weights.iter().copied().map(sqrt).fold(0.0, f64::max);
    let rho_bar_max = gershgorin_bound_csr(Laplacian { n: N, row_ptr: &row_ptr, col_idx: &col_idx, vals: &starts })?;
    let along =
        Trajectory { n: N, row_ptr: &row_ptr, col_idx: &col_idx, segments: 1, breakpoints: &[0.0, 600.0], starts: &starts, ends: &ends, laws: &[2] };
    let mut at_the_end = [0.0; N];
    at_the_end[MOTOR] = 1.0 / sqrt(capacity[MOTOR]);
    let mut at_the_start = [0.0; N];
    let mut work = vec![0.0; varcoef_run_work(N, M)];
    let tau = 600.0 / steps as f64;
    varcoef_evolve_state_adjoint_into(
        along,
        tau,
        steps,
        rho_bar_max,
        a_sup_max,
        true,
        &weights,
        &weights,
        &at_the_end,
        &mut at_the_start,
        &mut work,
    )?;
    Ok(at_the_start.iter().zip(&capacity).map(|(x, &c)| x * sqrt(c)).collect())
}

fn main() {
    match sensitivity(24) {
        Ok(shares) => {
            println!("of 1 degree more at the start, the motor has after 600 s");
            for (name, share) in NAMES.iter().zip(&shares) {
                println!("  {name:<12} {share:.6}");
            }
            println!("  together     {:.6}", shares.iter().sum::<f64>());
        }
        Err(refusal) => println!("refused by {refusal}"),
    }
    match sensitivity(4) {
        Ok(_) => println!("4 steps were accepted"),
        Err(refusal) => println!("4 steps: {refusal}"),
    }
}
