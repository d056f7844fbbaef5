//! Trajectories, lookups and runs that are accepted, mostly.

use crate::{
    case::{Call, Case, Network},
    generate::{any_pattern, bounds_and_weights, lend_slices, tau, values, whole_bound},
    random::{places_on, Family, Random},
};

/// How far a breakpoint lies behind the one before, at `time`.
fn next_breakpoint(manner: usize, time: f64, random: &mut Random) -> f64 {
    let next = match manner {
        0 if time > 0.0 => places_on(time, random.between(1, 3) as i64),
        1 => time + Family::Tiny.positive(random),
        2 => time + Family::Wide.positive(random),
        3 => time + random.between(1, 4) as f64,
        _ => time + random.unit(),
    };
    if next > time && next.is_finite() {
        return next;
    }
    if time > 0.0 {
        places_on(time, 1)
    } else {
        f64::from_bits(1)
    }
}

/// Breakpoints from `first` on, which rise.
fn breakpoints(first: f64, segments: usize, random: &mut Random) -> Vec<f64> {
    let manner = random.below(10);
    let mut times = vec![first];
    while times.len() <= segments {
        let next = next_breakpoint(manner, times[times.len() - 1], random);
        times.push(next);
    }
    times
}

fn segments(random: &mut Random) -> usize {
    match random.below(40) {
        0 => random.between(8, 40),
        1..=12 => 1,
        _ => random.between(1, 5),
    }
}

/// A time at a breakpoint, next to one, between two, or anywhere.
fn time(times: &[f64], random: &mut Random) -> f64 {
    let k = random.below(times.len());
    match random.below(6) {
        0 | 1 => times[k],
        2 if times[k] != 0.0 => places_on(times[k], random.between(0, 2) as i64 - 1),
        3 => random.any(),
        _ => {
            let other = times[(k + 1) % times.len()];
            times[k] + random.unit() * (other - times[k])
        }
    }
}

pub fn lookup(random: &mut Random) -> Case {
    let segments = if random.one_in(2000) { 65_535 } else { segments(random) };
    let first = if random.one_in(3) { random.zero() } else { -Family::Moderate.real(random).abs() };
    let breakpoints = if first < 0.0 {
        let mut rising: Vec<f64> = (0..=segments).map(|i| first + i as f64 * (random.unit() + first.abs())).collect();
        rising.sort_by(f64::total_cmp);
        rising
    } else {
        breakpoints(first, segments, random)
    };
    Case { segments, x: time(&breakpoints, random), breakpoints, ..Case::default() }
}

/// Start and end lists and laws. Sometimes the two lists lie so far apart that their difference overflows.
fn lists(case: &mut Case, random: &mut Random) {
    let count = case.segments * case.samples[0].col_idx.len();
    case.starts = values(count, random);
    case.ends = if random.one_in(6) { case.starts.clone() } else { values(count, random) };
    let one_law = random.one_in(3);
    let law = random.below(3) as u8;
    case.laws = (0..case.segments).map(|_| if one_law { law } else { random.below(3) as u8 }).collect();
}

/// A long trajectory on a small network, or a long run.
fn longest(call: Call, random: &mut Random) -> Case {
    let n = random.between(1, 2);
    let network = Network { n, row_ptr: (0..=n).collect(), col_idx: (0..n as u32).collect(), vals: Vec::new() };
    let many = random.pick(&[65_535, 65_534, 40_000]);
    let of_segments = call == Call::Evolve && random.one_in(2);
    Case {
        samples: vec![network],
        segments: if of_segments { many } else { 1 },
        steps: if of_segments { 1 } else { many },
        ..Case::default()
    }
}

fn steps(call: Call, random: &mut Random) -> usize {
    match random.below(200) {
        0 => random.between(51, 400),
        1..=15 => random.between(7, 50),
        16..=40 if call != Call::Evolve => 0,
        _ => random.between(1, 6),
    }
}

fn shape(call: Call, random: &mut Random) -> Case {
    if random.one_in(8000) {
        return longest(call, random);
    }
    let segments = if call == Call::Evolve { segments(random) } else { 1 };
    let (pattern, steps) = (any_pattern(random), steps(call, random));
    let large = pattern.n > 300 || pattern.col_idx.len() > 5000;
    Case {
        samples: vec![pattern],
        segments: if large { segments.min(3) } else { segments },
        steps: if large { steps.min(3) } else { steps },
        ..Case::default()
    }
}

/// The largest τ of the run's segments, or the given one.
fn largest_tau(call: Call, case: &Case) -> f64 {
    if call != Call::Evolve {
        return case.tau;
    }
    let lengths = case.breakpoints.windows(2).map(|ends| ends[1] - ends[0]);
    lengths.fold(0.0, f64::max) / case.steps as f64
}

pub fn run(call: Call, random: &mut Random) -> Case {
    let mut case = shape(call, random);
    if call.is_weighted() && case.n() == 0 && random.one_in(2) {
        return run(call, random);
    }
    let first = random.zero();
    case.breakpoints = breakpoints(first, case.segments, random);
    lists(&mut case, random);
    bounds_and_weights(call, &mut case, random);
    if call != Call::Evolve {
        case.tau = tau(whole_bound(call, &case), random);
    }
    let outside = whole_bound(call, &case) * largest_tau(call, &case) >= std::f64::consts::FRAC_PI_2;
    case.check = random.one_in(2) && !outside;
    lend_slices(call, &mut case, random);
    case
}
