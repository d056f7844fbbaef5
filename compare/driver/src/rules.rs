//! What document 01 has each call answer: its table of refusals, row by row, and the order in which a call looks at them.
//! Written from its words alone; run_rules.rs has trajectories and runs.

use crate::{
    case::{Call, Case, Network},
    run_rules,
};

/// The values of a refusal.
#[derive(Clone, Copy, Debug)]
pub enum Values {
    Count(usize),
    Real(f64),
    Reals(f64, f64),
}

/// A row of the table whose condition is met, and the place that it looks at.
#[derive(Clone, Copy, Debug)]
pub struct Refusal {
    pub row: u64,
    pub values: Values,
    pub place: Place,
}

/// What a refusal is about, where the row alone does not say it.
#[derive(Clone, Copy, PartialEq, Eq, Debug)]
pub enum Place {
    Other,
    Signal,
    Weights,
    Breakpoints,
}

/// What a call must come to. `zeroed` elements of the work slice are +0 afterwards and the rest unchanged; the output is
/// unchanged where the call refuses.
pub struct Rule {
    pub refusal: Option<Refusal>,
    pub zeroed: usize,
}

pub type Checked = Result<(), Refusal>;

pub fn refuse(row: u64, values: Values, place: Place) -> Checked {
    Err(Refusal { row, values, place })
}

/// The row with a count, where its condition is met.
pub fn count_if(met: bool, row: u64, count: usize) -> Checked {
    if met {
        refuse(row, Values::Count(count), Place::Other)
    } else {
        Ok(())
    }
}

/// The row with the first of these reals that meets its condition.
pub fn first_if(mut reals: impl Iterator<Item = f64>, row: u64, met: impl Fn(f64) -> bool) -> Checked {
    match reals.find(|x| met(*x)) {
        Some(x) => refuse(row, Values::Real(x), Place::Other),
        None => Ok(()),
    }
}

pub fn is_fault(value: f64) -> bool {
    !value.is_finite()
}

pub fn not_positive(x: f64) -> bool {
    !x.is_finite() || x <= 0.0
}

/// Rows 6, 1, 2, 3 and 4. Row 3 looks at the columns, and where there are values at these.
fn pattern(of: &Network, values: Option<usize>) -> Checked {
    count_if(of.n > 4096, 6, of.n)?;
    count_if(of.col_idx.len() > 65_535, 6, of.col_idx.len())?;
    count_if(of.row_ptr.len() != of.n + 1, 1, of.row_ptr.len())?;
    if let Some(i) = (0..of.n).find(|&i| of.row_ptr[i] > of.row_ptr[i + 1]) {
        return refuse(2, Values::Count(i), Place::Other);
    }
    let last = of.row_ptr[of.n];
    let wrong = of.col_idx.len() != last || values.is_some_and(|count| count != last);
    count_if(wrong, 3, last)?;
    match of.col_idx.iter().find(|&&column| column as usize >= of.n) {
        Some(&column) => refuse(4, Values::Count(column as usize), Place::Other),
        None => Ok(()),
    }
}

/// The rows of a pattern that has no values.
pub fn pattern_alone(of: &Network) -> Checked {
    pattern(of, None)
}

/// Rows 6, 1, 2, 3, 4 and 5.
fn laplacian(of: &Network) -> Checked {
    pattern(of, Some(of.vals.len()))?;
    first_if(of.vals.iter().copied(), 5, is_fault)
}

/// Row 10 for a slice that must have n elements.
pub fn length(slice: &[f64], n: usize, place: Place) -> Checked {
    if slice.len() == n {
        return Ok(());
    }
    refuse(10, Values::Count(slice.len()), place)
}

/// Row 9 of the spectral bound, and in a weighted form of the root bound; then row 12.
pub fn bounds(call: Call, case: &Case) -> Checked {
    first_if([case.bound].into_iter(), 9, not_positive)?;
    if call.is_weighted() {
        first_if([case.root_bound].into_iter(), 9, not_positive)?;
        count_if(case.n() == 0, 12, 0)?;
    }
    Ok(())
}

/// Row 8 for one τ: the check is on and bound·τ is at least π/2.
pub fn radius(call: Call, case: &Case, tau: f64) -> Checked {
    let bound = if call.is_weighted() { (case.bound * case.root_bound) * case.root_bound } else { case.bound };
    if case.check && bound * tau >= f64::from_bits(0x3FF9_21FB_5444_2D18) {
        return refuse(8, Values::Reals(tau, bound), Place::Other);
    }
    Ok(())
}

/// Rows 7 and 8 for a τ that is given.
pub fn tau_and_radius(call: Call, case: &Case) -> Checked {
    first_if([case.tau].into_iter(), 7, |tau| !tau.is_finite() || tau < 0.0)?;
    radius(call, case, case.tau)
}

/// Row 10 of the weights: the larger length, where either is not n.
pub fn weights_lengths(case: &Case) -> Checked {
    let [first, second] = case.weights.each_ref().map(Vec::len);
    if first != case.n() || second != case.n() {
        return refuse(10, Values::Count(first.max(second)), Place::Weights);
    }
    Ok(())
}

/// Row 10 of the work slice.
pub fn work_length(call: Call, case: &Case) -> Checked {
    count_if(case.work.len() < case.work_need(call), 10, case.work.len())
}

/// Row 11, of the first weights and then of the second.
pub fn weights(first: &[f64], second: &[f64]) -> Checked {
    first_if(first.iter().chain(second).copied(), 11, not_positive)
}

fn step(call: Call, case: &Case) -> Checked {
    for sample in &case.samples {
        laplacian(sample)?;
    }
    bounds(call, case)?;
    tau_and_radius(call, case)?;
    for sample in &case.samples[1..] {
        count_if(sample.n != case.n(), 10, sample.n)?;
    }
    length(&case.src, case.n(), Place::Signal)?;
    length(&case.dst, case.n(), Place::Other)?;
    if call.is_weighted() {
        weights_lengths(case)?;
    }
    work_length(call, case)?;
    if call.is_weighted() {
        weights(&case.weights[0], &case.weights[1])?;
    }
    Ok(())
}

fn apply_into_slice(case: &Case) -> Checked {
    laplacian(&case.samples[0])?;
    length(&case.src, case.n(), Place::Signal)?;
    length(&case.dst, case.n(), Place::Other)
}

/// What document 01 has the call answer, and leave of its work slice.
pub fn rule(call: Call, case: &Case) -> Rule {
    if call.is_run() {
        return run_rules::rule(call, case);
    }
    let checked = match call {
        Call::Sqrt => Ok(()),
        Call::FromCsrParts | Call::GershgorinBoundCsr => laplacian(&case.samples[0]),
        Call::CheckPattern => pattern_alone(&case.samples[0]),
        Call::ApplyIntoSlice => apply_into_slice(case),
        Call::CopyFrom | Call::AxpyIntoSlice => length(&case.src, case.dst.len(), Place::Signal),
        Call::SegmentIndex => run_rules::lookup(case),
        _ => step(call, case),
    };
    let zeroed = if call.is_step() && checked.is_ok() { case.work_need(call) } else { 0 };
    Rule { refusal: checked.err(), zeroed }
}
