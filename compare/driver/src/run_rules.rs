//! Document 01's rules for trajectories and runs.

use crate::{
    case::{Call, Case},
    rules::{self, count_if, first_if, is_fault, length, refuse, Checked, Place, Rule, Values},
};

/// The two nodes of magnus_graph.rs (part 10).
#[allow(clippy::excessive_precision)]
const NODES: [f64; 2] = [0.211_324_865_405_187_134, 0.788_675_134_594_812_866];

/// Row 13: the segments are 0 or over 65,535, in an adjoint run other than one.
fn segments(case: &Case, most: usize) -> Checked {
    count_if(case.segments == 0 || case.segments > most, 13, case.segments)
}

/// Row 14 of the breakpoints, then of other lists.
fn breakpoint_count(case: &Case) -> Checked {
    if case.breakpoints.len() == case.segments + 1 {
        return Ok(());
    }
    refuse(14, Values::Count(case.breakpoints.len()), Place::Breakpoints)
}

fn list_counts(case: &Case) -> Checked {
    let values = case.segments * case.samples[0].col_idx.len();
    count_if(case.starts.len() != values, 14, case.starts.len())?;
    count_if(case.ends.len() != values, 14, case.ends.len())?;
    count_if(case.laws.len() != case.segments, 14, case.laws.len())
}

/// Row 15: the first breakpoint that is not finite, or not above its predecessor.
fn breakpoints(case: &Case) -> Checked {
    let mut before = f64::NEG_INFINITY;
    for &time in &case.breakpoints {
        if !time.is_finite() || time <= before {
            return refuse(15, Values::Real(time), Place::Breakpoints);
        }
        before = time;
    }
    Ok(())
}

/// Row 17: the first breakpoint is not 0.
fn first_breakpoint(case: &Case) -> Checked {
    first_if(case.breakpoints[..1].iter().copied(), 17, |time| time != 0.0)
}

/// Row 19, then row 5 of all start lists and of all end lists.
fn laws_and_values(case: &Case) -> Checked {
    if let Some(&law) = case.laws.iter().find(|&&law| law > 2) {
        return refuse(19, Values::Count(law as usize), Place::Other);
    }
    first_if(case.starts.iter().chain(&case.ends).copied(), 5, is_fault)
}

/// Lookup: 13, 14 for breakpoints, 15, 18.
pub fn lookup(case: &Case) -> Checked {
    segments(case, 65_535)?;
    breakpoint_count(case)?;
    breakpoints(case)?;
    let (first, last) = (case.breakpoints[0], case.breakpoints[case.segments]);
    let inside = first <= case.x && case.x <= last;
    first_if([case.x].into_iter(), 18, |_| !inside)
}

/// Part 10: τ of a segment of a forward run.
fn tau_of(case: &Case, segment: usize) -> f64 {
    (case.breakpoints[segment + 1] - case.breakpoints[segment]) / case.steps as f64
}

/// Forward run: 6, 1–4, 13, 14, 15, 19, 5, 9, 16, 17, 10, then 8 by segment before any step.
fn forward(case: &Case) -> Checked {
    rules::pattern_alone(&case.samples[0])?;
    segments(case, 65_535)?;
    breakpoint_count(case)?;
    list_counts(case)?;
    breakpoints(case)?;
    laws_and_values(case)?;
    rules::bounds(Call::Evolve, case)?;
    count_if(case.steps == 0 || case.steps > 65_535, 16, case.steps)?;
    first_breakpoint(case)?;
    length(&case.src, case.n(), Place::Signal)?;
    length(&case.dst, case.n(), Place::Other)?;
    rules::work_length(Call::Evolve, case)?;
    (0..case.segments).try_for_each(|k| rules::radius(Call::Evolve, case, tau_of(case, k)))
}

/// Adjoint run: 6, 1–4, 13–15, 17, 19, 5, 9, 12; no steps then see only signal and output; otherwise 16, 7, 8, 10.
fn adjoint(call: Call, case: &Case) -> Checked {
    rules::pattern_alone(&case.samples[0])?;
    segments(case, 1)?;
    breakpoint_count(case)?;
    list_counts(case)?;
    breakpoints(case)?;
    first_breakpoint(case)?;
    laws_and_values(case)?;
    rules::bounds(call, case)?;
    if case.steps > 0 {
        count_if(case.steps > 65_535, 16, case.steps)?;
        rules::tau_and_radius(call, case)?;
    }
    length(&case.src, case.n(), Place::Signal)?;
    length(&case.dst, case.n(), Place::Other)?;
    if case.steps > 0 {
        if call.is_weighted() {
            rules::weights_lengths(case)?;
        }
        rules::work_length(call, case)?;
    }
    Ok(())
}

/// A segment's list at time t by its law: 0 the start list, 1 the end list, 2 straight from one to the other.
fn sampled(case: &Case, segment: usize, starts: &[f64], ends: &[f64], t: f64) -> Vec<f64> {
    let (a, b) = (case.breakpoints[segment], case.breakpoints[segment + 1]);
    match case.laws[segment] {
        0 => starts.to_vec(),
        1 => ends.to_vec(),
        _ => starts.iter().zip(ends).map(|(s, e)| s + ((t - a) / (b - a)) * (e - s)).collect(),
    }
}

/// Row 20 of a step's samples, then in a weighted run row 11 of its sampled weights.
fn step(call: Call, case: &Case, segment: usize, start: f64, tau: f64) -> Checked {
    let times = NODES.map(|node| start + node * tau);
    let m = case.samples[0].col_idx.len();
    let lists = segment * m..(segment + 1) * m;
    for t in times {
        let values = sampled(case, segment, &case.starts[lists.clone()], &case.ends[lists.clone()], t);
        first_if(values.into_iter(), 20, is_fault)?;
    }
    if call.is_weighted() {
        let [first, second] = times.map(|t| sampled(case, segment, &case.weights[0], &case.weights[1], t));
        rules::weights(&first, &second)?;
    }
    Ok(())
}

/// The first refusal in a step of the first segments of a forward run.
pub fn forward_steps(case: &Case, segments: usize) -> Checked {
    for k in 0..segments {
        let tau = tau_of(case, k);
        for j in 0..case.steps {
            step(Call::Evolve, case, k, case.breakpoints[k] + j as f64 * tau, tau)?;
        }
    }
    Ok(())
}

/// The first segment of a forward run that meets row 8.
pub fn first_outside(case: &Case) -> Option<usize> {
    (0..case.segments).find(|&k| rules::radius(Call::Evolve, case, tau_of(case, k)).is_err())
}

fn steps(call: Call, case: &Case) -> Checked {
    if call == Call::Evolve {
        return forward_steps(case, case.segments);
    }
    // Part 8: step k of N starts at (N − 1 − k)·τ.
    (0..case.steps).try_for_each(|k| step(call, case, 0, (case.steps - 1 - k) as f64 * case.tau, case.tau))
}

pub fn rule(call: Call, case: &Case) -> Rule {
    let checked = if call == Call::Evolve { forward(case) } else { adjoint(call, case) };
    if checked.is_err() || case.steps == 0 {
        return Rule { refusal: checked.err(), zeroed: 0 };
    }
    Rule { refusal: steps(call, case).err(), zeroed: case.work_need(call) }
}
