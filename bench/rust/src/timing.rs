//! Processor times of several functions on the same input, measured in turn.

use std::cell::RefCell;

const RUNS: usize = 401;
/// What one run of a function should last, in nanoseconds.
const RUN: f64 = 100_000.0;

#[repr(C)]
struct Timespec {
    seconds: i64,
    nanoseconds: i64,
}

extern "C" {
    fn clock_gettime(clock: i32, time: *mut Timespec) -> i32;
}

const CLOCK_THREAD_CPUTIME_ID: i32 = 3;

/// The processor time of this thread in nanoseconds. The time in which other work has the processor is not in it.
fn now() -> i64 {
    let mut time = Timespec {
        seconds: 0,
        nanoseconds: 0,
    };
    // SAFETY: the call writes one struct, which is as Linux has it.
    let status = unsafe { clock_gettime(CLOCK_THREAD_CPUTIME_ID, &mut time) };
    assert_eq!(status, 0, "no clock of this thread's processor time");
    time.seconds * 1_000_000_000 + time.nanoseconds
}

fn run(function: &mut dyn FnMut(), calls: usize) -> f64 {
    let begin = now();
    for _ in 0..calls {
        function();
    }
    (now() - begin) as f64 / calls as f64
}

/// Nanoseconds a call of each function, in many runs, least first. In each turn every function has one run.
fn sorted<const N: usize>(functions: &mut [&mut dyn FnMut(); N]) -> [Vec<f64>; N] {
    let calls = functions.each_mut().map(|function| {
        run(function, 10);
        (RUN / run(function, 100).max(1.0)).ceil() as usize
    });
    let mut times = [(); N].map(|()| Vec::with_capacity(RUNS));
    for _ in 0..RUNS {
        for (k, function) in functions.iter_mut().enumerate() {
            times[k].push(run(function, calls[k]));
        }
    }
    let sorted = times.map(|mut of_one| {
        of_one.sort_by(f64::total_cmp);
        of_one
    });
    LAST_MEDIANS.replace(sorted.iter().map(|of_one| of_one[RUNS / 2]).collect());
    sorted
}

thread_local! {
    static LAST_MEDIANS: RefCell<Vec<f64>> = const { RefCell::new(Vec::new()) };
}

/// The medians of the functions that were measured last, whatever was taken of them then.
pub fn last_medians() -> Vec<f64> {
    LAST_MEDIANS.with_borrow(Clone::clone)
}

/// Nanoseconds a call of each function: the median of many runs.
pub fn medians<const N: usize>(functions: &mut [&mut dyn FnMut(); N]) -> [f64; N] {
    sorted(functions).map(|of_one| of_one[RUNS / 2])
}

/// Nanoseconds a call of each function: the least of many runs, which other work on the machine disturbs least.
pub fn minima<const N: usize>(functions: &mut [&mut dyn FnMut(); N]) -> [f64; N] {
    sorted(functions).map(|of_one| of_one[0])
}
