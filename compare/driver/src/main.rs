//! Random and edge cases of every call of the C interface, compared with the published Rust and with document 01's rules:
//! answers, results and every slice afterwards. compare/run builds and starts it; compare/README.md has the options.

mod calls;
mod case;
mod compare;
mod faults;
mod generate;
mod generate_runs;
mod memory;
mod options;
mod published;
mod random;
mod rules;
mod run_rules;
mod selftest;
mod summary;
// The declarations of rust/fuistelo, which tests/declarations compares with the Rattle functions.
#[path = "../../fuistelo/src/raw.rs"]
mod raw;

use std::{
    process::exit,
    time::{Duration, Instant},
};

use case::{Call, Case, CALLS};
use memory::{Memory, Place};
use options::Options;
use random::Random;
use summary::{grouped, Summary};

/// How many differences are shown in full.
const SHOWN: u64 = 5;

/// Case number k of the call.
fn case_of(call: Call, k: u64, seed: u64) -> Case {
    let mut random = Random::of(seed, (call as u64) << 48 | k);
    let faults = faults::faults(call, k, &mut random);
    let mut case = generate::case(call, &mut random);
    for fault in faults {
        faults::spoil(fault, call, &mut case, &mut random);
    }
    case
}

/// The calls in turn, each as often as its share, with how many times it has come before in the turn.
fn turn(only: Option<Call>) -> Vec<(Call, u64, u64)> {
    let shares = CALLS.iter().filter(|(call, ..)| only.is_none_or(|one| one == *call));
    let share = |of: usize| if only.is_some() { 1 } else { of as u64 };
    shares.flat_map(|(call, _, of)| (0..share(*of)).map(move |i| (*call, i, share(*of)))).collect()
}

/// Makes the call with its slices in each of the memories, compares and counts.
fn try_case(call: Call, case: &Case, memories: &mut [Memory], summary: &mut Summary) -> Result<(), String> {
    let rule = rules::rule(call, case);
    let mut settled = None;
    for (i, memory) in memories.iter_mut().enumerate() {
        let ours = calls::outcome(call, case, memory);
        settled = compare::compare(call, case, &rule, &ours)?;
        if i == 0 && rule.refusal.is_none() {
            summary.output(call, &case.src, &ours.dst);
        }
    }
    summary.agreed(call, rule.refusal.map_or(0, |refusal| refusal.row), settled);
    Ok(())
}

/// A difference, with the inputs where they are short.
fn show(call: Call, k: u64, case: &Case, what: &str) {
    println!("DIFFERENCE: {}, case {k}: {what}", call.name());
    let inputs = format!("{case:?}");
    if inputs.len() < 4000 {
        println!("    {inputs}");
    }
}

fn run(options: &Options, memories: &mut [Memory]) -> Summary {
    let (turn, begin) = (turn(options.only), Instant::now());
    let (mut summary, mut printed) = (Summary::new(), begin);
    for i in 0..options.cases {
        let (call, before, share) = turn[(i % turn.len() as u64) as usize];
        let k = i / turn.len() as u64 * share + before;
        let case = case_of(call, k, options.seed);
        if let Err(what) = try_case(call, &case, memories, &mut summary) {
            summary.differs(call);
            if summary.differing <= SHOWN {
                show(call, k, &case, &what);
            }
        }
        if printed.elapsed() > Duration::from_secs(5) {
            printed = Instant::now();
            let (done, of, differing) = (grouped(i + 1), grouped(options.cases), grouped(summary.differing));
            eprintln!("{done} of {of} cases, {differing} differ, {} s", begin.elapsed().as_secs());
        }
    }
    summary.print(begin.elapsed().as_secs_f64());
    summary
}

/// Shows one case whole.
fn show_case(call: Call, k: u64, options: &Options, memories: &mut [Memory]) {
    let case = case_of(call, k, options.seed);
    println!("{case:#?}\n{:?}", calls::outcome(call, &case, &mut memories[0]));
    println!("document 01: {:?}", rules::rule(call, &case).refusal);
    println!("{:?}", try_case(call, &case, memories, &mut Summary::new()));
}

fn main() {
    let options = options::parse(std::env::args().skip(1)).unwrap_or_else(|text| {
        eprintln!("compare: {text}");
        exit(2);
    });
    published::silence_panics();
    if let Some((place, what)) = options.touch {
        return selftest::touch(place, &what);
    }
    if options.selftest {
        if let Err(text) = selftest::selftest() {
            println!("compare: {text}");
            exit(1);
        }
        return;
    }
    let places: &[Place] = if options.guard { &[Place::BeforeGuard, Place::BehindGuard] } else { &[Place::Heap] };
    let mut memories: Vec<Memory> = places.iter().map(|place| Memory::new(*place)).collect();
    if let (Some(call), Some(k)) = (options.only, options.case) {
        return show_case(call, k, &options, &mut memories);
    }
    if run(&options, &mut memories).differing > 0 {
        exit(1);
    }
}
