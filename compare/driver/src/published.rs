//! A case put to the published Rust, through the oracle of the stored lists, and the reasons for which it is not asked.

use std::{
    panic::{catch_unwind, set_hook, take_hook, AssertUnwindSafe},
    sync::atomic::{AtomicBool, Ordering},
};

use oracle::{
    calls::of_kind,
    fields::{Fields, Reply as Bytes},
};

use crate::{
    case::{Call, Case, Network},
    rules::{Place, Refusal, Values},
    run_rules,
};

/// What the Rust came to.
#[derive(Debug)]
pub struct Reply {
    pub number: u64,
    /// The values of its refusal. The Rust reports counts as reals too.
    pub values: Vec<f64>,
    /// The root or the bound of an accepted call.
    pub real: Option<f64>,
    /// The segment of an accepted lookup.
    pub index: Option<u64>,
    /// The output afterwards, where the call has one.
    pub dst: Option<Vec<f64>>,
}

/// The most segments for which the Rust is asked: it makes one closure for each.
const MOST_SEGMENTS: usize = 100_000;

/// A documented difference (docs/DIFFERENCES.md) for which the Rust has no such answer.
#[derive(Clone, Copy, PartialEq, Eq, Debug)]
pub enum Difference {
    NoLimitOfSize,
    LengthsAsserted,
    NoLaws,
    NoPools,
    NoSegments,
    ManySegments,
    NotFiniteTimes,
    NoLimitOfSteps,
    RadiusLater,
}

pub const DIFFERENCES: [(Difference, &str); 9] = [
    (Difference::NoLimitOfSize, "row 6: the Rust has no limit of nodes or columns"),
    (Difference::LengthsAsserted, "row 10: the Rust asserts lengths in debug builds only"),
    (Difference::NoLaws, "row 19: the Rust has closures, not laws"),
    (Difference::NoPools, "row 14 of lists and laws: the Rust has closures"),
    (Difference::NoSegments, "rows 13 to 17 of adjoint runs: the Rust's have no segments and no limit of steps"),
    (Difference::ManySegments, "row 13 of more than 100,000 segments: not asked"),
    (Difference::NotFiniteTimes, "rows 15 and 18: what is not finite slips through the Rust's comparisons"),
    (Difference::NoLimitOfSteps, "row 16: the Rust has no limit of steps"),
    (Difference::RadiusLater, "row 8: the Rust first takes the steps before, and is refused in one"),
];

/// Why the Rust has no answer like this refusal, where it has none.
pub fn difference(call: Call, case: &Case, refusal: &Refusal) -> Option<Difference> {
    let adjoint = matches!(call, Call::EvolveAdjoint | Call::VarcoefEvolveAdjoint);
    let not_finite = matches!(refusal.values, Values::Real(x) if !x.is_finite());
    match (refusal.row, refusal.place) {
        (6, _) => Some(Difference::NoLimitOfSize),
        // The two lengths that the Rust refuses itself.
        (10, Place::Weights) if call == Call::Omega4La => None,
        (10, Place::Signal) if call == Call::Evolve => None,
        (10, _) => Some(Difference::LengthsAsserted),
        (19, _) => Some(Difference::NoLaws),
        (13..=17, _) if adjoint => Some(Difference::NoSegments),
        (13, _) if case.segments > MOST_SEGMENTS => Some(Difference::ManySegments),
        (14, place) if place != Place::Breakpoints => Some(Difference::NoPools),
        (15 | 18, _) if not_finite && !infinite_time(refusal) => Some(Difference::NotFiniteTimes),
        (16, _) if case.steps > 0 => Some(Difference::NoLimitOfSteps),
        (8, _) if call == Call::Evolve && refused_before(case) => Some(Difference::RadiusLater),
        _ => None,
    }
}

/// Row 18 of an infinite time: the Rust refuses that too.
fn infinite_time(refusal: &Refusal) -> bool {
    refusal.row == 18 && matches!(refusal.values, Values::Real(t) if t.is_infinite())
}

/// Is a step refused before the first segment that meets row 8?
fn refused_before(case: &Case) -> bool {
    run_rules::first_outside(case).is_some_and(|k| run_rules::forward_steps(case, k).is_err())
}

/// The fields of a case, as lists/README.md has them.
#[derive(Default)]
struct Encoded(Vec<u8>);

impl Encoded {
    fn count(&mut self, count: usize) {
        self.0.extend((count as u64).to_le_bytes());
    }

    fn real(&mut self, real: f64) {
        self.0.extend(real.to_le_bytes());
    }

    fn length(&mut self, length: usize) {
        self.0.extend((length as u32).to_le_bytes());
    }

    fn reals(&mut self, reals: &[f64]) {
        self.length(reals.len());
        reals.iter().for_each(|x| self.real(*x));
    }

    fn pattern(&mut self, of: &Network) {
        self.count(of.n);
        self.length(of.row_ptr.len());
        of.row_ptr.iter().for_each(|start| self.count(*start));
        self.length(of.col_idx.len());
        of.col_idx.iter().for_each(|column| self.length(*column as usize));
    }

    fn network(&mut self, of: &Network) {
        self.pattern(of);
        self.reals(&of.vals);
    }

    fn bounds(&mut self, call: Call, case: &Case) {
        self.real(case.bound);
        self.0.push(u8::from(case.check));
        if call.is_weighted() {
            self.real(case.root_bound);
            case.weights.iter().for_each(|weights| self.reals(weights));
        }
        self.reals(&case.src);
        self.reals(&case.dst);
    }

    fn step(&mut self, call: Call, case: &Case) {
        case.samples.iter().for_each(|sample| self.network(sample));
        self.real(case.tau);
        self.bounds(call, case);
    }

    fn run(&mut self, call: Call, case: &Case) {
        self.pattern(&case.samples[0]);
        self.count(case.segments);
        self.reals(&case.breakpoints);
        self.reals(&case.starts);
        self.reals(&case.ends);
        self.length(case.laws.len());
        case.laws.iter().for_each(|law| self.count(*law as usize));
        if call != Call::Evolve {
            self.real(case.tau);
        }
        self.count(case.steps);
        self.bounds(call, case);
    }

    fn of(call: Call, case: &Case) -> Self {
        let mut fields = Self::default();
        match call {
            Call::Sqrt => fields.real(case.x),
            Call::FromCsrParts | Call::GershgorinBoundCsr => fields.network(&case.samples[0]),
            Call::CheckPattern => {
                fields.pattern(&case.samples[0]);
                fields.reals(&vec![0.0; case.samples[0].col_idx.len()]);
            }
            Call::ApplyIntoSlice => {
                fields.network(&case.samples[0]);
                fields.reals(&case.src);
                fields.reals(&case.dst);
            }
            Call::CopyFrom => {
                fields.reals(&case.dst);
                fields.reals(&case.src);
            }
            Call::AxpyIntoSlice => {
                fields.reals(&case.dst);
                fields.real(case.x);
                fields.reals(&case.src);
            }
            Call::SegmentIndex => {
                fields.count(case.segments);
                fields.reals(&case.breakpoints);
                fields.real(case.x);
            }
            _ if call.is_step() => fields.step(call, case),
            _ => fields.run(call, case),
        }
        fields
    }
}

/// The kind of the call in lists/README.md. A pattern check is one of a network whose values are zeros.
fn kind(call: Call) -> u16 {
    match call {
        Call::Sqrt => 1,
        Call::FromCsrParts | Call::CheckPattern => 2,
        Call::GershgorinBoundCsr => 3,
        Call::ApplyIntoSlice => 4,
        Call::CopyFrom => 5,
        Call::AxpyIntoSlice => 6,
        Call::Omega4 => 7,
        Call::Omega4Adjoint => 8,
        Call::Omega4La => 9,
        Call::Omega4LaAdjoint => 10,
        Call::Omega6 => 11,
        Call::SegmentIndex => 12,
        Call::Evolve => 13,
        Call::EvolveAdjoint => 14,
        Call::VarcoefEvolveAdjoint => 15,
    }
}

fn decoded(call: Call, bytes: &[u8]) -> Reply {
    let mut fields = Fields::of(bytes);
    let (mut number, mut values) = (0, Vec::new());
    if call != Call::Sqrt {
        number = u64::from(fields.u16());
        values = (0..fields.u16()).map(|_| fields.real()).collect();
    }
    let accepted = number == 0;
    let has_real = matches!(call, Call::Sqrt | Call::GershgorinBoundCsr);
    Reply {
        number,
        values,
        real: (accepted && has_real).then(|| fields.real()),
        index: (accepted && call == Call::SegmentIndex).then(|| fields.count() as u64),
        dst: (!fields.at_end()).then(|| fields.reals()),
    }
}

/// Whether the Rust is being asked. A panic of it is an outcome like others, and is not printed.
static ASKED: AtomicBool = AtomicBool::new(false);

pub fn silence_panics() {
    let print = take_hook();
    set_hook(Box::new(move |panic| {
        if !ASKED.load(Ordering::Relaxed) {
            print(panic);
        }
    }));
}

/// What the Rust answers, or why it has no answer.
pub fn reply(call: Call, case: &Case) -> Result<Reply, String> {
    let bytes = Encoded::of(call, case).0;
    let ask = of_kind(kind(call)).expect("the oracle has every kind");
    ASKED.store(true, Ordering::Relaxed);
    let asked = catch_unwind(AssertUnwindSafe(|| ask(&mut Fields::of(&bytes))));
    ASKED.store(false, Ordering::Relaxed);
    match asked {
        Ok(Bytes::Answer(answer)) => Ok(decoded(call, &answer)),
        Ok(Bytes::Unknown(text)) => Err(format!("the Rust refuses with a text that has no number: {text}")),
        Err(_) => Err("the Rust panics".to_string()),
    }
}
