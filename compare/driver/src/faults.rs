//! What can be wrong with a call, one fault at a time. A case is made with none, with one, with two or with three of them; which
//! one the call must answer is document 01's matter (rules.rs).

use crate::{
    case::{Call, Case, Network},
    generate::{tau_at_limit, whole_bound},
    random::Random,
};

#[derive(Clone, Copy, PartialEq, Eq, Debug)]
pub enum Fault {
    /// Of a sample: rows 6, 1, 2, 3, 4 and 5.
    Nodes(usize),
    Columns(usize),
    RowStartCount(usize),
    RowStartFalls(usize),
    EntryCount(usize),
    Column(usize),
    Value(usize),
    /// Row 10 of a later sample: another n.
    SampleNodes(usize),
    Tau,
    Radius,
    Bound,
    RootBound,
    SignalLength,
    OutputLength,
    WeightsLength,
    WorkLength,
    Weight(usize),
    NoNodes,
    Segments,
    BreakpointCount,
    StartCount,
    EndCount,
    LawCount,
    Breakpoint,
    FirstBreakpoint,
    Steps,
    NoSteps,
    Law,
    StartValue,
    EndValue,
    /// Row 20: the lists lie so far apart that a sample overflows.
    SampledValue,
    /// Row 11 in a run: the weights fall below 0.
    SampledWeight,
    Time,
}

use Fault::*;

const OF_LISTS: [Fault; 4] = [BreakpointCount, Segments, Breakpoint, FirstBreakpoint];

/// Every fault that the call can have.
pub fn faults_of(call: Call) -> Vec<Fault> {
    let pattern = |k| [Nodes(k), Columns(k), RowStartCount(k), RowStartFalls(k), EntryCount(k), Column(k)];
    let mut faults = Vec::new();
    let samples = match call {
        Call::FromCsrParts | Call::GershgorinBoundCsr | Call::ApplyIntoSlice => 1,
        _ => call.samples_of_step(),
    };
    for k in 0..samples {
        faults.extend(pattern(k));
        faults.push(Value(k));
    }
    faults.extend((1..samples).map(SampleNodes));
    if call.is_run() || call == Call::CheckPattern {
        faults.extend(pattern(0));
    }
    if call.is_run() {
        faults.extend(OF_LISTS);
        faults.extend([StartCount, EndCount, LawCount, Steps, NoSteps, Law, StartValue, EndValue, SampledValue]);
    }
    if call == Call::SegmentIndex {
        faults.extend(OF_LISTS);
        faults.push(Time);
    }
    if call.is_step() || call.is_run() {
        faults.extend([Bound, Radius, WorkLength, NoNodes]);
        if call != Call::Evolve {
            faults.push(Tau);
        }
    }
    if call.is_weighted() {
        faults.extend([RootBound, WeightsLength, Weight(0), Weight(1)]);
        if call.is_run() {
            faults.push(SampledWeight);
        }
    }
    if !matches!(
        call,
        Call::Sqrt | Call::SegmentIndex | Call::CheckPattern | Call::FromCsrParts | Call::GershgorinBoundCsr
    ) {
        faults.extend([SignalLength, OutputLength]);
    }
    faults
}

/// How many faults alone, and how many twos and threes, one round of a call's faults has.
pub fn round_of(faults: usize) -> (usize, usize) {
    let pairs = faults * faults.saturating_sub(1) / 2;
    (faults, pairs + pairs / 8)
}

/// Two faults in either order, by their number among all twos; past these, three drawn at random.
fn several(all: &[Fault], number: usize, random: &mut Random) -> Vec<Fault> {
    let pairs = (0..all.len()).flat_map(|i| (i + 1..all.len()).map(move |j| [i, j]));
    match pairs.skip(number).next() {
        Some([i, j]) if random.one_in(2) => vec![all[i], all[j]],
        Some([i, j]) => vec![all[j], all[i]],
        None => (0..3).map(|_| random.pick(all)).collect(),
    }
}

/// The faults of the call's case number `k`: none in every second case; in a sixth one, each in its turn; in a third two or
/// three, each two in their turn.
pub fn faults(call: Call, k: u64, random: &mut Random) -> Vec<Fault> {
    let all = faults_of(call);
    if all.is_empty() || k % 2 == 0 {
        return Vec::new();
    }
    let (alone, more) = round_of(all.len());
    let (third, at) = ((k / 6) as usize, (k / 2 % 3) as usize);
    if at == 0 {
        vec![all[third % alone]]
    } else {
        several(&all, (2 * third + at - 1) % more, random)
    }
}

/// Another length than the slice has.
fn resize(slice: &mut Vec<f64>, random: &mut Random) {
    let other = match random.below(4) {
        0 => 0,
        1 => slice.len() + 1,
        2 => slice.len() + random.between(1, 9),
        _ => slice.len().saturating_sub(random.between(1, 3)),
    };
    let other = if other == slice.len() { other + 1 } else { other };
    let real = random.any();
    slice.resize(other, real);
}

/// Puts a real in one place, where there is a place.
fn put(slice: &mut [f64], real: f64, random: &mut Random) {
    if !slice.is_empty() {
        slice[random.below(slice.len())] = real;
    }
}

fn not_positive(random: &mut Random) -> f64 {
    match random.below(4) {
        0 => random.zero(),
        1 => -random.unit(),
        2 => -f64::from_bits(1),
        _ => random.not_finite(),
    }
}

fn nodes(network: &mut Network, random: &mut Random) {
    network.n = match random.below(6) {
        0 => 4097,
        1 => usize::MAX,
        2 => (1 << 53) + 1,
        3 => 1 << 32,
        4 => (random.bits() >> random.below(52)).max(4097) as usize,
        _ => 4097 + random.below(10_000),
    };
    match random.below(40) {
        // Just one node too many, and all else right.
        0 => {
            network.n = 4097;
            network.row_ptr.resize(4098, network.col_idx.len());
        }
        1..=9 => network.row_ptr.clear(),
        _ => {}
    }
}

fn columns(network: &mut Network, random: &mut Random) {
    network.col_idx.resize(65_536 + random.below(2) * random.below(9), 0);
    if random.one_in(8) {
        network.vals.resize(network.col_idx.len(), 1.0);
        if let Some(last) = network.row_ptr.last_mut() {
            *last = network.col_idx.len();
        }
    }
}

fn row_starts(network: &mut Network, random: &mut Random) {
    let last = network.row_ptr.last().copied().unwrap_or(0);
    match random.below(4) {
        0 => network.row_ptr.clear(),
        1 => network.row_ptr.push(last),
        2 => drop(network.row_ptr.pop()),
        _ => network.n = network.n.wrapping_add(1),
    }
}

fn falling(network: &mut Network, random: &mut Random) {
    let starts = &mut network.row_ptr;
    if starts.len() < 2 {
        return;
    }
    let i = random.below(starts.len() - 1);
    starts[i] = match random.below(4) {
        0 => usize::MAX,
        1 => starts[i + 1].wrapping_add(1 << 40),
        _ => starts[i + 1].wrapping_add(1),
    };
}

fn entry_count(network: &mut Network, random: &mut Random) {
    match random.below(5) {
        0 => network.col_idx.push(0),
        1 => drop(network.col_idx.pop()),
        2 => network.vals.push(0.0),
        3 => drop(network.vals.pop()),
        _ => {
            let more = random.pick(&[1, 7, 1 << 32, 1 << 62]);
            if let Some(last) = network.row_ptr.last_mut() {
                *last = last.wrapping_add(more);
            }
        }
    }
}

fn column(network: &mut Network, random: &mut Random) {
    if !network.col_idx.is_empty() {
        let i = random.below(network.col_idx.len());
        network.col_idx[i] = random.pick(&[network.n.min(u32::MAX as usize) as u32, u32::MAX, 70_000]);
    }
}

/// A valid sample of another n.
fn other_nodes(network: &mut Network, random: &mut Random) {
    if (1..5000).contains(&network.n) && random.one_in(3) {
        let n = random.below(network.n);
        *network = Network { n, row_ptr: vec![0; n + 1], ..Network::default() };
    } else {
        network.n = network.n.wrapping_add(1);
        network.row_ptr.push(network.col_idx.len());
    }
}

/// All slices for n = 0.
fn no_nodes(case: &mut Case) {
    for sample in &mut case.samples {
        *sample = Network { row_ptr: vec![0], ..Network::default() };
    }
    for slice in [&mut case.starts, &mut case.ends, &mut case.src, &mut case.dst] {
        slice.clear();
    }
    case.weights.iter_mut().for_each(Vec::clear);
}

fn radius(call: Call, case: &mut Case, random: &mut Random) {
    case.check = true;
    if call == Call::Evolve {
        // The bound that brings some segment's τ to the limit.
        let lengths: Vec<f64> = case.breakpoints.windows(2).map(|ends| ends[1] - ends[0]).collect();
        if !lengths.is_empty() {
            case.bound = tau_at_limit(random.pick(&lengths) / case.steps as f64, random);
        }
    } else if random.one_in(4) {
        case.tau = f64::MAX;
    } else {
        case.tau = tau_at_limit(whole_bound(call, case), random);
    }
}

fn segment_count(call: Call, case: &mut Case, random: &mut Random) {
    case.segments = match random.below(6) {
        0 => 0,
        1 => 65_536,
        2 => usize::MAX,
        3 => 65_536 + random.below(1 << 20),
        4 if call != Call::Evolve => 2,
        _ => case.segments.wrapping_add(1),
    };
}

fn breakpoint(case: &mut Case, random: &mut Random) {
    if case.breakpoints.is_empty() {
        return;
    }
    let i = random.below(case.breakpoints.len());
    case.breakpoints[i] = match random.below(4) {
        0 if i > 0 => case.breakpoints[i - 1],
        1 if i > 0 => case.breakpoints[i - 1] - random.unit(),
        2 => random.any(),
        _ => random.not_finite(),
    };
}

fn first_breakpoint(case: &mut Case, random: &mut Random) {
    if let Some(first) = case.breakpoints.first_mut() {
        *first = random.pick(&[-1.0, -f64::from_bits(1), f64::from_bits(1), 0.25, -f64::MAX]);
    }
}

fn sampled_value(case: &mut Case, random: &mut Random) {
    case.laws.iter_mut().for_each(|law| *law = 2);
    if !case.starts.is_empty() && case.ends.len() == case.starts.len() {
        let i = random.below(case.starts.len());
        (case.starts[i], case.ends[i]) = random.pick(&[(f64::MAX, -f64::MAX), (-f64::MAX, f64::MAX), (0.0, f64::MAX)]);
    }
}

fn sampled_weight(case: &mut Case, random: &mut Random) {
    case.laws.iter_mut().for_each(|law| *law = 2);
    let real = random.pick(&[-1.0, -1.0e300, 0.0, f64::MAX]);
    put(&mut case.weights[1], real, random);
}

/// Makes one thing wrong with a network.
fn spoil_network(fault: Fault, case: &mut Case, random: &mut Random) {
    match fault {
        Nodes(k) => nodes(&mut case.samples[k], random),
        Columns(k) => columns(&mut case.samples[k], random),
        RowStartCount(k) => row_starts(&mut case.samples[k], random),
        RowStartFalls(k) => falling(&mut case.samples[k], random),
        EntryCount(k) => entry_count(&mut case.samples[k], random),
        Column(k) => column(&mut case.samples[k], random),
        SampleNodes(k) => other_nodes(&mut case.samples[k], random),
        Value(k) => {
            let real = random.not_finite();
            put(&mut case.samples[k].vals, real, random);
        }
        _ => no_nodes(case),
    }
}

/// Makes one thing wrong with the lists of a trajectory.
fn spoil_lists(fault: Fault, call: Call, case: &mut Case, random: &mut Random) {
    match fault {
        Segments => segment_count(call, case, random),
        BreakpointCount => resize(&mut case.breakpoints, random),
        StartCount => resize(&mut case.starts, random),
        EndCount => resize(&mut case.ends, random),
        LawCount if random.one_in(2) => case.laws.push(0),
        LawCount => drop(case.laws.pop()),
        Breakpoint => breakpoint(case, random),
        FirstBreakpoint => first_breakpoint(case, random),
        Law => {
            if !case.laws.is_empty() {
                let i = random.below(case.laws.len());
                case.laws[i] = random.pick(&[3, 4, 255]);
            }
        }
        StartValue | EndValue => {
            let real = random.not_finite();
            put(if fault == StartValue { &mut case.starts } else { &mut case.ends }, real, random);
        }
        SampledValue => sampled_value(case, random),
        SampledWeight => sampled_weight(case, random),
        _ => case.x = random.any(),
    }
}

/// Makes one thing wrong.
pub fn spoil(fault: Fault, call: Call, case: &mut Case, random: &mut Random) {
    match fault {
        Tau => case.tau = random.pick(&[-1.0, -f64::from_bits(1), f64::NAN, f64::INFINITY, f64::NEG_INFINITY]),
        Radius => radius(call, case, random),
        Bound => case.bound = not_positive(random),
        RootBound => case.root_bound = not_positive(random),
        SignalLength => resize(&mut case.src, random),
        OutputLength => resize(&mut case.dst, random),
        WeightsLength => {
            let k = random.below(2);
            resize(&mut case.weights[k], random);
        }
        WorkLength => {
            let length = case.work.len().min(case.samples[0].n.min(4096) * call.work_vectors());
            case.work.truncate(if random.one_in(3) { 0 } else { length.saturating_sub(random.between(1, 3)) });
        }
        Weight(k) => {
            let real = not_positive(random);
            put(&mut case.weights[k], real, random);
        }
        Steps => case.steps = random.pick(&[65_536, usize::MAX, 100_000]),
        NoSteps => case.steps = 0,
        Nodes(_) | Columns(_) | RowStartCount(_) | RowStartFalls(_) | EntryCount(_) | Column(_) | Value(_) => {
            spoil_network(fault, case, random)
        }
        SampleNodes(_) | NoNodes => spoil_network(fault, case, random),
        _ => spoil_lists(fault, call, case, random),
    }
}
