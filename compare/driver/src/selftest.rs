//! Shows that a fault is seen: a slice that is shorter than its length ends the process, and a wrong outcome is reported.

use std::{os::unix::process::ExitStatusExt, process::Command};

use crate::{
    calls::{changes_seen, outcome, Outcome},
    case::{Call, Case},
    compare::compare,
    generate,
    memory::{Memory, Place},
    random::Random,
    raw,
    rules::{rule, Rule},
};

const SEGMENTATION_FAULT: i32 = 11;

pub fn place_of(name: &str) -> Option<Place> {
    match name {
        "heap" => Some(Place::Heap),
        "before-guard" => Some(Place::BeforeGuard),
        "behind-guard" => Some(Place::BehindGuard),
        _ => None,
    }
}

/// A copy of four reals that is right (`what` is "none"), writes to a slice that may only be read ("read-only"), or reads or writes
/// ("read", "write") one element that was not lent: the one behind the slice, or before it where the guard lies there.
pub fn touch(place: Place, what: &str) {
    let mut memory = Memory::new(place);
    let mut src = memory.lend_read(&[1.0; 4]);
    let mut dst = if what == "read-only" { memory.lend_read(&[2.0; 4]) } else { memory.lend(&[2.0; 4]) };
    let slip = |at: &mut *mut f64| {
        if place == Place::BehindGuard {
            *at = at.wrapping_sub(1);
        } else {
            *at = at.wrapping_add(1);
        }
    };
    match what {
        "read" => slip(&mut src.at),
        "write" => slip(&mut dst.at),
        _ => {}
    }
    // SAFETY: of "none" only; the others are there to be caught.
    let answer = unsafe { raw::fuistelo_copy_from(dst.at, dst.len, src.at, src.len) };
    println!("answer {}", answer.number);
}

/// The signal that ended a process in which a slice was touched wrongly.
fn signal_of(place: &str, what: &str) -> Option<i32> {
    let this = std::env::current_exe().expect("the path of this program");
    let child = Command::new(this).args(["--touch", place, what]).output().expect("a child process");
    if child.status.success() {
        return None;
    }
    child.status.signal().or(Some(0))
}

fn guards() -> Result<(), String> {
    for place in ["before-guard", "behind-guard"] {
        for what in ["none", "read", "write", "read-only"] {
            let (signal, expected) = (signal_of(place, what), (what != "none").then_some(SEGMENTATION_FAULT));
            println!("slices {place}, touched wrongly: {what}; signal {signal:?}");
            if signal != expected {
                return Err(format!("expected signal {expected:?}"));
            }
        }
    }
    Ok(())
}

/// A case of the weighted run that is refused or accepted as asked, with its rule and its outcome. It has entries and steps, and
/// the output afterwards is finite.
fn sound_run(refused: bool) -> (Case, Rule, Outcome) {
    let call = Call::VarcoefEvolveAdjoint;
    for k in 0.. {
        let mut case = generate::case(call, &mut Random::of(1, k));
        if refused {
            case.bound = 0.0;
        }
        let found = rule(call, &case);
        let ours = outcome(call, &case, &mut Memory::new(Place::Heap));
        let finite = ours.dst.iter().chain(&case.work).all(|x| x.is_finite());
        if finite && !case.starts.is_empty() && case.steps > 0 && found.refusal.is_some_and(|of| of.row == 9) == refused
        {
            return (case, found, ours);
        }
    }
    unreachable!("most cases are accepted");
}

/// An outcome in which something is wrong, and what.
type Wrong = (&'static str, fn(&mut Outcome));

const WRONG: [Wrong; 9] = [
    ("another number", |of| of.answer.number += 1),
    ("another count of counts", |of| of.answer.counts += 1),
    ("another count", |of| of.answer.count += 1),
    ("another count of reals", |of| of.answer.reals += 1),
    ("another real", |of| of.answer.first += 1.0),
    ("the output off in its last bit", |of| of.dst[0] = f64::from_bits(of.dst[0].to_bits() ^ 1)),
    ("the work slice off in a sign", |of| of.work[0] = -of.work[0]),
    ("the work slice shorter", |of| of.work.truncate(of.work.len() - 1)),
    ("a read slice changed", |of| of.changed = Some("laws")),
];

/// Every wrong outcome is reported, of an accepted run and of a refused one.
fn outcomes() -> Result<(), String> {
    let call = Call::VarcoefEvolveAdjoint;
    for refused in [false, true] {
        let (case, found, sound) = sound_run(refused);
        compare(call, &case, &found, &sound)?;
        for (what, spoil) in WRONG {
            let mut ours = sound.clone();
            spoil(&mut ours);
            match compare(call, &case, &found, &ours) {
                Ok(_) => return Err(format!("not seen: {what}")),
                Err(text) => println!("seen: {what}: {text}"),
            }
        }
    }
    Ok(())
}

/// A wrong refusal is reported by the Rust, even where the rule has it too.
fn refusals() -> Result<(), String> {
    let call = Call::VarcoefEvolveAdjoint;
    let (case, mut found, mut ours) = sound_run(true);
    found.refusal.as_mut().expect("it is refused").row = 7;
    ours.answer.number = 7;
    match compare(call, &case, &found, &ours) {
        Ok(_) => Err("not seen: a wrong refusal".to_string()),
        Err(text) => Ok(println!("seen: a wrong refusal: {text}")),
    }
}

/// A change of any slice that is only read is seen: of a run, and the values of a step's sample.
fn read_slices() -> Result<(), String> {
    let (run, ..) = sound_run(false);
    let mut step = run.clone();
    step.samples[0].vals = vec![1.0];
    let mut names = changes_seen(&run, &mut Memory::new(Place::Heap));
    names.extend(changes_seen(&step, &mut Memory::new(Place::Heap)));
    names.sort_unstable();
    names.dedup();
    println!("seen: changes of {}", names.join(", "));
    if names.len() == 10 {
        return Ok(());
    }
    Err("not seen: a change of one of the other slices".to_string())
}

/// Prints what was seen; an error names what was not.
pub fn selftest() -> Result<(), String> {
    guards()?;
    outcomes()?;
    refusals()?;
    read_slices()
}
