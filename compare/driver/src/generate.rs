//! Cases that are accepted, mostly: networks, signals, steps. generate_runs.rs has trajectories, faults.rs what is then made wrong.

use crate::{
    case::{Call, Case, Network},
    generate_runs,
    random::{places_on, Family, Random},
};

/// π/2 as row 8 has it.
const HALF_PI: f64 = std::f64::consts::FRAC_PI_2;

/// How many nodes: mostly few, sometimes the most.
fn nodes(random: &mut Random) -> usize {
    match random.below(1000) {
        0 => random.pick(&[1000, 2500, 4095, 4096]),
        1..=5 => random.between(41, 300),
        6..=150 => random.between(9, 40),
        151..=200 => 0,
        201..=450 => random.between(1, 2),
        _ => random.between(2, 8),
    }
}

/// How many entries a row has, in several manners.
fn width(manner: usize, n: usize, row: usize, random: &mut Random) -> usize {
    match manner {
        0 => 5,
        1 => random.between(3, 7),
        2 if n <= 12 => n,
        3 if row == n / 2 => random.below(2 * n.min(400) + 1),
        3 => 0,
        _ => random.below(5),
    }
}

/// Row starts and columns. Sometimes entries stand before the first row.
fn pattern(n: usize, random: &mut Random) -> Network {
    let manner = random.below(6);
    let before = if n > 0 && random.one_in(6) { random.between(1, 3) } else { 0 };
    let mut col_idx: Vec<u32> = (0..before).map(|_| random.below(n) as u32).collect();
    let mut row_ptr = vec![before];
    for row in 0..n {
        for k in 0..width(manner, n, row, random) {
            let column = if manner == 0 { (row + n + k - n.min(2)) % n } else { random.below(n) };
            col_idx.push(column as u32);
        }
        row_ptr.push(col_idx.len());
    }
    Network { n, row_ptr, col_idx, vals: Vec::new() }
}

/// A pattern of just the most columns that row 6 allows, in one row or in all.
fn longest(random: &mut Random) -> Network {
    let n = random.pick(&[1, 2, 4096]);
    let mut row_ptr: Vec<usize> = (0..=n).map(|i| i * (65_535 / n)).collect();
    row_ptr[n] = 65_535;
    Network { n, row_ptr, col_idx: (0..65_535).map(|k| (k % n) as u32).collect(), vals: Vec::new() }
}

/// Row starts, columns and values that hardly belong together, all small.
fn unstructured(random: &mut Random) -> Network {
    let few = |random: &mut Random| random.below(4);
    let (starts, columns) = (few(random), few(random));
    Network {
        n: random.below(3),
        row_ptr: (0..starts).map(|_| random.below(4)).collect(),
        col_idx: (0..columns).map(|_| random.below(3) as u32).collect(),
        vals: (0..if random.one_in(3) { few(random) } else { columns }).map(|_| random.any()).collect(),
    }
}

/// The pattern of a call on one network or of a run.
pub fn any_pattern(random: &mut Random) -> Network {
    if random.one_in(4000) {
        return longest(random);
    }
    let n = nodes(random);
    pattern(n, random)
}

/// Finite values, of one family or of several, some of them zeros.
pub fn values(count: usize, random: &mut Random) -> Vec<f64> {
    let (family, mixed, zeros) = (random.family(), random.one_in(8), random.one_in(5));
    let value = |random: &mut Random| {
        if zeros && random.one_in(3) {
            return random.zero();
        }
        let of = if mixed { random.family() } else { family };
        of.real(random)
    };
    (0..count).map(|_| value(random)).collect()
}

/// A signal: values, sometimes with NaNs and infinities among them.
pub fn signal(count: usize, random: &mut Random) -> Vec<f64> {
    let mut signal = values(count, random);
    if random.one_in(10) {
        for x in &mut signal {
            if random.one_in(4) {
                *x = random.not_finite();
            }
        }
    }
    signal
}

/// What a slice that will be written holds before: mostly numbers of no meaning.
fn before(count: usize, random: &mut Random) -> Vec<f64> {
    let (same, real) = (random.one_in(2), random.any());
    (0..count).map(|_| if same { real } else { random.any() }).collect()
}

/// Signal, output and work slice, of the lengths that the call needs; the work slice may be longer.
pub fn lend_slices(call: Call, case: &mut Case, random: &mut Random) {
    let n = case.n();
    case.src = signal(n, random);
    case.dst = before(n, random);
    if call.work_vectors() > 0 {
        let more = if random.one_in(2) { 0 } else { random.between(1, 9) };
        let real = random.any();
        case.work = vec![real; case.work_need(call) + more];
    }
}

/// Bounds above 0 and weights above 0.
pub fn bounds_and_weights(call: Call, case: &mut Case, random: &mut Random) {
    let positive = |random: &mut Random| {
        let family = if random.one_in(4) { random.family() } else { Family::Ordinary };
        family.positive(random)
    };
    case.bound = positive(random);
    if call.is_weighted() {
        case.root_bound = positive(random);
        let family = if random.one_in(3) { random.family() } else { Family::Ordinary };
        let n = case.n();
        case.weights = [(); 2].map(|()| (0..n).map(|_| family.positive(random)).collect());
        if random.one_in(5) {
            case.weights[1] = case.weights[0].clone();
        }
    }
}

/// The bound of row 8.
pub fn whole_bound(call: Call, case: &Case) -> f64 {
    if call.is_weighted() {
        (case.bound * case.root_bound) * case.root_bound
    } else {
        case.bound
    }
}

/// A τ about which row 8 changes its mind, for this bound.
pub fn tau_at_limit(bound: f64, random: &mut Random) -> f64 {
    let tau = HALF_PI / bound;
    if tau.is_finite() && tau > 0.0 {
        places_on(tau, random.between(0, 6) as i64 - 3).abs()
    } else {
        random.pick(&[0.0, f64::MAX, f64::from_bits(1)])
    }
}

/// A step length that row 7 accepts.
pub fn tau(bound: f64, random: &mut Random) -> f64 {
    match random.below(18) {
        0 => random.zero(),
        1 => Family::Tiny.real(random).abs(),
        2 => f64::from_bits((random.between(1, 4) as u64) << 52 | random.bits() >> 12),
        3 => tau_at_limit(bound, random),
        4 => Family::Wide.real(random).abs(),
        5 => Family::Moderate.real(random).abs(),
        _ => random.unit(),
    }
}

/// The samples of a step: of one pattern, of several, or all alike.
fn samples(count: usize, random: &mut Random) -> Vec<Network> {
    let n = nodes(random);
    let manner = random.below(4);
    let mut first = if random.one_in(6000) { longest(random) } else { pattern(n, random) };
    first.vals = values(first.col_idx.len(), random);
    let mut all = vec![first];
    while all.len() < count {
        let mut next = if manner == 0 { pattern(all[0].n, random) } else { all[0].clone() };
        if manner != 1 {
            next.vals = values(next.col_idx.len(), random);
        }
        all.push(next);
    }
    all
}

fn step(call: Call, random: &mut Random) -> Case {
    let mut case = Case { samples: samples(call.samples_of_step(), random), ..Case::default() };
    if call.is_weighted() && case.n() == 0 && random.one_in(2) {
        return step(call, random);
    }
    bounds_and_weights(call, &mut case, random);
    case.tau = tau(whole_bound(call, &case), random);
    let outside = whole_bound(call, &case) * case.tau >= HALF_PI;
    case.check = random.one_in(2) && !outside;
    lend_slices(call, &mut case, random);
    case
}

/// A call on one network.
fn on_network(call: Call, random: &mut Random) -> Case {
    let mut network = any_pattern(random);
    network.vals = values(network.col_idx.len(), random);
    if random.one_in(8) {
        network = unstructured(random);
    }
    let mut case = Case { samples: vec![network], ..Case::default() };
    if call == Call::ApplyIntoSlice {
        lend_slices(call, &mut case, random);
    }
    case
}

/// A copy or a sum.
fn on_signals(random: &mut Random) -> Case {
    let n = nodes(random);
    Case { x: random.any(), src: signal(n, random), dst: signal(n, random), ..Case::default() }
}

/// An argument of the root: any bits, a square or next to one, a subnormal.
fn root_argument(random: &mut Random) -> f64 {
    let root = f64::from_bits((random.between(512, 1534) as u64) << 52 | random.bits() >> 12 >> random.below(53));
    match random.below(6) {
        0 => random.any(),
        1 => Family::Tiny.real(random),
        2 => places_on(root * root, random.between(0, 4) as i64 - 2),
        3 => f64::from_bits(random.bits()).abs(),
        4 => (random.below(1 << 26) as f64).powi(2),
        _ => root,
    }
}

/// A case of the call without an intended fault.
pub fn case(call: Call, random: &mut Random) -> Case {
    match call {
        Call::Sqrt => Case { x: root_argument(random), ..Case::default() },
        Call::FromCsrParts | Call::CheckPattern | Call::GershgorinBoundCsr | Call::ApplyIntoSlice => {
            on_network(call, random)
        }
        Call::CopyFrom | Call::AxpyIntoSlice => on_signals(random),
        Call::SegmentIndex => generate_runs::lookup(random),
        _ if call.is_step() => step(call, random),
        _ => generate_runs::run(call, random),
    }
}
