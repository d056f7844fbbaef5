//! Why a call refused: the rows of the table of answers.

use crate::raw::Answer;
use std::error::Error;
use std::fmt;

/// Why a call refused, with the values that the refusal carries. The cases are the rows 1 to 21, in their order.
#[derive(Clone, Copy, Debug, PartialEq)]
pub enum Refusal {
    /// Row 1: the count of row starts, which is not n + 1.
    RowStartCount(usize),
    /// Row 2: the first row whose start exceeds the next.
    RowStartFalls(usize),
    /// Row 3: the last row start; the columns or the values are not that many.
    EntryCount(usize),
    /// Row 4: the first column that is n or more.
    Column(usize),
    /// Row 5: the first listed value that is not finite.
    Value(f64),
    /// Row 6: n, where it is over 4,096; else the count of columns, where that is over 65,535.
    Size(usize),
    /// Row 7: the step length, which is not finite or below 0.
    Tau(f64),
    /// Row 8: the step length and the bound, where the check is on and bound * tau is at least pi / 2.
    Radius(f64, f64),
    /// Row 9: the spectral bound, or the bound of the roots, which is not finite, or 0 or less.
    Bound(f64),
    /// Row 10: the length of a slice, or the n of a further sample, that does not fit; or of a work slice that is too short.
    Length(usize),
    /// Row 11: the first weight that is not finite, or 0 or less.
    Weight(f64),
    /// Row 12: the node count of a weighted step or run, which is 0.
    NoNodes(usize),
    /// Row 13: the count of segments, which is 0 or over 65,535, or not 1 in an adjoint run.
    SegmentCount(usize),
    /// Row 14: the length of breakpoints, starts, ends or laws, which is not what the segments ask for.
    PoolCount(usize),
    /// Row 15: the first breakpoint that is not finite, or not above the one before it.
    Breakpoint(f64),
    /// Row 16: the count of steps, which is over 65,535, or 0 in a forward run.
    StepCount(usize),
    /// Row 17: the first breakpoint, which is not 0.
    FirstBreakpoint(f64),
    /// Row 18: the time, which lies outside the breakpoints or is a NaN.
    LookupTime(f64),
    /// Row 19: the first law that is over 2.
    Law(usize),
    /// Row 20: the first sampled value that is not finite, in a step of a run.
    SampledValue(f64),
    /// Row 21: the count of bytes of a malformed job. No call of this crate refuses so.
    Malformed(usize),
}

impl Refusal {
    /// The row's number.
    pub fn number(&self) -> u64 {
        match self {
            Refusal::RowStartCount(_) => 1,
            Refusal::RowStartFalls(_) => 2,
            Refusal::EntryCount(_) => 3,
            Refusal::Column(_) => 4,
            Refusal::Value(_) => 5,
            Refusal::Size(_) => 6,
            Refusal::Tau(_) => 7,
            Refusal::Radius(_, _) => 8,
            Refusal::Bound(_) => 9,
            Refusal::Length(_) => 10,
            Refusal::Weight(_) => 11,
            Refusal::NoNodes(_) => 12,
            Refusal::SegmentCount(_) => 13,
            Refusal::PoolCount(_) => 14,
            Refusal::Breakpoint(_) => 15,
            Refusal::StepCount(_) => 16,
            Refusal::FirstBreakpoint(_) => 17,
            Refusal::LookupTime(_) => 18,
            Refusal::Law(_) => 19,
            Refusal::SampledValue(_) => 20,
            Refusal::Malformed(_) => 21,
        }
    }

    /// The refusal that an answer tells. The contract of every call says that its number is 0 or a row's.
    fn of(answer: &Answer) -> Refusal {
        let count = answer.count as usize;
        let real = answer.first;
        match answer.number {
            1 => Refusal::RowStartCount(count),
            2 => Refusal::RowStartFalls(count),
            3 => Refusal::EntryCount(count),
            4 => Refusal::Column(count),
            5 => Refusal::Value(real),
            6 => Refusal::Size(count),
            7 => Refusal::Tau(real),
            8 => Refusal::Radius(real, answer.second),
            9 => Refusal::Bound(real),
            10 => Refusal::Length(count),
            11 => Refusal::Weight(real),
            12 => Refusal::NoNodes(count),
            13 => Refusal::SegmentCount(count),
            14 => Refusal::PoolCount(count),
            15 => Refusal::Breakpoint(real),
            16 => Refusal::StepCount(count),
            17 => Refusal::FirstBreakpoint(real),
            18 => Refusal::LookupTime(real),
            19 => Refusal::Law(count),
            20 => Refusal::SampledValue(real),
            21 => Refusal::Malformed(count),
            number => unreachable!("an answer with the number {number}, which is no row"),
        }
    }
}

/// What a call gives: its answer where it is accepted, else the refusal.
pub(crate) fn accepted(answer: Answer) -> Result<Answer, Refusal> {
    if answer.number == 0 {
        Ok(answer)
    } else {
        Err(Refusal::of(&answer))
    }
}

impl fmt::Display for Refusal {
    fn fmt(&self, f: &mut fmt::Formatter<'_>) -> fmt::Result {
        write!(f, "row {}: ", self.number())?;
        match self {
            Refusal::RowStartCount(count) => write!(f, "there are {count} row starts, which is not n + 1"),
            Refusal::RowStartFalls(row) => write!(f, "the start of row {row} exceeds the next"),
            Refusal::EntryCount(last) => write!(f, "the columns or the values are not as many as the last row start says, {last}"),
            Refusal::Column(column) => write!(f, "column {column} is not below n"),
            Refusal::Value(value) => write!(f, "the value {value} is not finite"),
            Refusal::Size(count) => write!(f, "{count} nodes or columns are too many: 4,096 nodes and 65,535 columns are the limit"),
            Refusal::Tau(tau) => write!(f, "the step length {tau} is not finite or below 0"),
            Refusal::Radius(tau, bound) => write!(f, "the step length {tau} times the bound {bound} is not below pi / 2"),
            Refusal::Bound(bound) => write!(f, "the bound {bound} is not finite and above 0"),
            Refusal::Length(length) => write!(f, "the length {length} does not fit"),
            Refusal::Weight(weight) => write!(f, "the weight {weight} is not finite and above 0"),
            Refusal::NoNodes(_) => write!(f, "a weighted step or run has no nodes"),
            Refusal::SegmentCount(count) => write!(f, "{count} segments are too few or too many"),
            Refusal::PoolCount(length) => write!(f, "the length {length} of breakpoints, starts, ends or laws does not fit the segments"),
            Refusal::Breakpoint(breakpoint) => write!(f, "the breakpoint {breakpoint} is not finite and above the one before it"),
            Refusal::StepCount(count) => write!(f, "{count} steps are too few or too many"),
            Refusal::FirstBreakpoint(breakpoint) => write!(f, "the first breakpoint {breakpoint} is not 0"),
            Refusal::LookupTime(t) => write!(f, "the time {t} does not lie between the first breakpoint and the last"),
            Refusal::Law(law) => write!(f, "the law {law} is not 0, 1 or 2"),
            Refusal::SampledValue(value) => write!(f, "the sampled value {value} is not finite"),
            Refusal::Malformed(bytes) => write!(f, "a job of {bytes} bytes is malformed"),
        }
    }
}

impl Error for Refusal {}

#[cfg(test)]
mod tests {
    use super::*;

    // Each row is read back from its number, with the values in their places.
    #[test]
    fn every_row_is_read() {
        for number in 1..=21 {
            let answer = Answer { number, counts: 1, count: 7, reals: 2, first: 0.5, second: 0.25 };
            let refusal = Refusal::of(&answer);
            assert_eq!(refusal.number(), number);
            assert!(refusal.to_string().starts_with(&format!("row {number}: ")));
        }
        let answer = Answer { number: 8, counts: 0, count: 0, reals: 2, first: 0.5, second: 4.0 };
        assert_eq!(Refusal::of(&answer), Refusal::Radius(0.5, 4.0));
    }
}
