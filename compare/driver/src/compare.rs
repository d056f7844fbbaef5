//! One case: the outcome of the call held against document 01's rule, and where the Rust answers, both against the Rust.

use crate::{
    calls::Outcome,
    case::{Call, Case},
    published::{self, Difference, Reply},
    raw::Answer,
    rules::{Refusal, Rule, Values},
};

/// Bits agree, or both are NaN.
pub fn agree(x: f64, y: f64) -> bool {
    x.to_bits() == y.to_bits() || x.is_nan() && y.is_nan()
}

/// The first place at which two slices of reals do not agree.
fn differ(what: &str, ours: &[f64], expected: &[f64]) -> Result<(), String> {
    if ours.len() != expected.len() {
        return Err(format!("{what} of {} elements instead of {}", ours.len(), expected.len()));
    }
    match (0..ours.len()).find(|&i| !agree(ours[i], expected[i])) {
        Some(i) => {
            Err(format!("{what} at place {i}: {:016x} instead of {:016x}", ours[i].to_bits(), expected[i].to_bits()))
        }
        None => Ok(()),
    }
}

/// The answer as the C interface has it, for a refusal of document 01.
fn as_answer(refusal: &Refusal) -> Answer {
    let (counts, count, reals, first, second) = match refusal.values {
        Values::Count(count) => (1, count as u64, 0, 0.0, 0.0),
        Values::Real(x) => (0, 0, 1, x, 0.0),
        Values::Reals(x, y) => (0, 0, 2, x, y),
    };
    Answer { number: refusal.row, counts, count, reals, first, second }
}

/// The answer of an accepted call but for the value that it may carry.
fn accepted(call: Call, ours: &Answer) -> Answer {
    let has_count = call == Call::SegmentIndex;
    let has_real = matches!(call, Call::Sqrt | Call::GershgorinBoundCsr);
    Answer {
        number: 0,
        counts: u64::from(has_count),
        count: if has_count { ours.count } else { 0 },
        reals: u64::from(has_real),
        first: if has_real { ours.first } else { 0.0 },
        second: 0.0,
    }
}

fn same_answer(ours: &Answer, expected: &Answer) -> Result<(), String> {
    let counts = |of: &Answer| (of.number, of.counts, of.count, of.reals);
    if counts(ours) == counts(expected) && agree(ours.first, expected.first) && agree(ours.second, expected.second) {
        return Ok(());
    }
    Err(format!("{ours:?} instead of {expected:?}"))
}

/// The outcome is what document 01 says: the answer, and every slice but the output of an accepted call.
fn by_rule(call: Call, case: &Case, rule: &Rule, ours: &Outcome) -> Result<(), String> {
    if let Some(name) = ours.changed {
        return Err(format!("{name} changed, which is only read"));
    }
    let expected = match &rule.refusal {
        Some(refusal) => as_answer(refusal),
        None => accepted(call, &ours.answer),
    };
    same_answer(&ours.answer, &expected)?;
    let mut work = case.work.clone();
    work[..rule.zeroed].fill(0.0);
    differ("work slice", &ours.work, &work)?;
    if rule.refusal.is_some() {
        differ("output of a refused call", &ours.dst, &case.dst)?;
    }
    Ok(())
}

/// A value of a refusal as the Rust reports it: counts as reals, and the root of a weight in adjoints.
fn reported(call: Call, refusal: &Refusal) -> Vec<f64> {
    let root_of_weight = matches!(call, Call::Omega4LaAdjoint | Call::VarcoefEvolveAdjoint) && refusal.row == 11;
    match refusal.values {
        Values::Count(count) => vec![count as f64],
        Values::Real(x) if root_of_weight => vec![x.sqrt()],
        Values::Real(x) => vec![x],
        Values::Reals(x, y) => vec![x, y],
    }
}

/// The Rust's reply is the outcome: the refusal, or all that an accepted call gives.
fn by_rust(call: Call, refusal: &Option<Refusal>, ours: &Outcome, rust: &Reply) -> Result<(), String> {
    if let Some(refusal) = refusal {
        if rust.number != refusal.row {
            return Err(format!("the Rust answers {} {:?}", rust.number, rust.values));
        }
        return differ("values of the refusal", &reported(call, refusal), &rust.values);
    }
    if rust.number != 0 {
        return Err(format!("accepted, and the Rust refuses with {} {:?}", rust.number, rust.values));
    }
    if let Some(real) = rust.real {
        differ("the result", &[ours.answer.first], &[real])?;
    }
    if rust.index.is_some_and(|index| index != ours.answer.count) {
        return Err(format!("segment {} instead of {:?}", ours.answer.count, rust.index));
    }
    match &rust.dst {
        Some(dst) => differ("output", &ours.dst, dst),
        None => Ok(()),
    }
}

/// How a case was settled: by the Rust as well as by document 01, or by document 01 alone.
pub type Settled = Option<Difference>;

pub fn compare(call: Call, case: &Case, rule: &Rule, ours: &Outcome) -> Result<Settled, String> {
    by_rule(call, case, rule, ours)?;
    let alone = rule.refusal.as_ref().and_then(|refusal| published::difference(call, case, refusal));
    if alone.is_none() {
        by_rust(call, &rule.refusal, ours, &published::reply(call, case)?)?;
    }
    Ok(alone)
}
