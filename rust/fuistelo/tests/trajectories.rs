//! The lookup and the runs: a run is compared with its steps, taken one by one.

mod common;

use common::*;
use fuistelo::*;

const M: usize = COL_IDX.len();
const BOUND: f64 = 3.0;

fn two_segments<'a>(starts: &'a [f64], ends: &'a [f64], laws: &'a [u8]) -> Trajectory<'a> {
    Trajectory { n: N, row_ptr: &ROW_PTR, col_idx: &COL_IDX, segments: 2, breakpoints: &[0.0, 0.5, 1.5], starts, ends, laws }
}

fn one_segment<'a>(starts: &'a [f64], ends: &'a [f64], laws: &'a [u8]) -> Trajectory<'a> {
    Trajectory { segments: 1, breakpoints: &[0.0, 1.0], ..two_segments(starts, ends, laws) }
}

#[test]
fn lookup() {
    let breakpoints = [0.0, 0.5, 1.5];
    for (t, segment) in [(-0.0, 0), (0.25, 0), (0.5, 1), (1.5, 1)] {
        assert_eq!(segment_index(2, &breakpoints, t), Ok(segment));
    }
    assert_eq!(segment_index(2, &breakpoints, 1.6), Err(Refusal::LookupTime(1.6)));
    assert!(matches!(segment_index(2, &breakpoints, f64::NAN), Err(Refusal::LookupTime(t)) if t.is_nan()));
    assert_eq!(segment_index(0, &breakpoints, 0.0), Err(Refusal::SegmentCount(0)));
    assert_eq!(segment_index(3, &breakpoints, 0.0), Err(Refusal::PoolCount(3)));
    assert_eq!(segment_index(2, &[0.0, 0.5, 0.5], 0.0), Err(Refusal::Breakpoint(0.5)));
}

#[test]
fn forward_run_is_its_steps() {
    let starts = [FIRST, SECOND].concat();
    let ends = [SECOND, FIRST].concat();
    let mut dst = [0.0; N];
    let mut work = [7.0; run_work(N, M) + 1];
    assert_eq!(evolve_with_traj_into(two_segments(&starts, &ends, &[0, 0]), 4, BOUND, true, &SIGNAL, &mut dst, &mut work), Ok(()));
    let mut held = SIGNAL.to_vec();
    for (vals, tau) in [(&FIRST, 0.125), (&SECOND, 0.25)] {
        for _ in 0..4 {
            held = step4(1.0, vals, vals, tau, &held);
        }
    }
    assert_eq!(bits(&dst), bits(&held));
    assert_eq!(bits(&work[..run_work(N, M)]), vec![0; run_work(N, M)]);
    assert_eq!(work[run_work(N, M)], 7.0);
}

#[test]
fn refused_runs() {
    let starts = [FIRST, SECOND].concat();
    let mut ends = [SECOND, FIRST].concat();
    let mut dst = [7.0; N];
    let mut work = [7.0; run_work(N, M)];
    let mut run = |ends: &[f64], laws: &[u8], steps: usize| {
        let answer = evolve_with_traj_into(two_segments(&starts, ends, laws), steps, BOUND, true, &SIGNAL, &mut dst, &mut work);
        assert_eq!(dst, [7.0; N]);
        (answer, work[0])
    };
    assert_eq!(run(&ends, &[0, 0], 0), (Err(Refusal::StepCount(0)), 7.0));
    assert_eq!(run(&ends, &[0, 3], 4), (Err(Refusal::Law(3)), 7.0));
    assert_eq!(run(&ends[1..], &[0, 0], 4), (Err(Refusal::PoolCount(19)), 7.0));
    assert_eq!(run(&ends, &[0, 0], 1), (Err(Refusal::Radius(1.0, BOUND)), 7.0));
    // From the largest value to its negative: the difference overflows in segment 1, in whose first step the run is refused.
    ends[M] = -f64::MAX;
    let mut starts = starts.clone();
    starts[M] = f64::MAX;
    let answer = evolve_with_traj_into(two_segments(&starts, &ends, &[0, 2]), 4, BOUND, true, &SIGNAL, &mut dst, &mut work);
    assert_eq!(answer, Err(Refusal::SampledValue(f64::NEG_INFINITY)));
    assert_eq!(dst, [7.0; N]);
    assert_eq!(bits(&work), vec![0; run_work(N, M)]);
}

#[test]
fn adjoint_run_is_its_steps() {
    let mut dst = [0.0; N];
    let mut work = [7.0; run_work(N, M)];
    let along = one_segment(&FIRST, &SECOND, &[1]);
    assert_eq!(evolve_state_adjoint_into(along, 0.25, 3, BOUND, true, &SIGNAL, &mut dst, &mut work), Ok(()));
    let mut held = SIGNAL.to_vec();
    for _ in 0..3 {
        held = step4(-1.0, &SECOND, &SECOND, 0.25, &held);
    }
    assert_eq!(bits(&dst), bits(&held));
    assert_eq!(evolve_state_adjoint_into(along, f64::NAN, 0, BOUND, true, &SIGNAL, &mut dst, &mut []), Ok(()));
    assert_eq!(bits(&dst), bits(&SIGNAL));
    let late = Trajectory { breakpoints: &[0.5, 1.0], ..along };
    assert_eq!(evolve_state_adjoint_into(late, 0.25, 3, BOUND, true, &SIGNAL, &mut dst, &mut work), Err(Refusal::FirstBreakpoint(0.5)));
    let starts = [FIRST, FIRST].concat();
    let two = two_segments(&starts, &starts, &[0, 0]);
    assert_eq!(evolve_state_adjoint_into(two, 0.25, 3, BOUND, true, &SIGNAL, &mut dst, &mut work), Err(Refusal::SegmentCount(2)));
    assert_eq!(evolve_state_adjoint_into(along, 0.25, 3, BOUND, true, &SIGNAL, &mut dst, &mut work[1..]), Err(Refusal::Length(47)));
}

#[test]
fn weighted_adjoint_run_is_its_steps() {
    let (a_starts, a_ends) = ([0.9, 0.5, 0.8, 0.3], [0.6, 0.7, 0.2, 0.4]);
    let mut dst = [0.0; N];
    let mut work = [7.0; varcoef_run_work(N, M)];
    let along = one_segment(&FIRST, &SECOND, &[0]);
    let mut run = |steps: usize, a_ends: &[f64], work: &mut [f64]| {
        varcoef_evolve_state_adjoint_into(along, 0.25, steps, BOUND, 1.0, true, &a_starts, a_ends, &SIGNAL, &mut dst, work).map(|()| dst)
    };
    let ran = run(2, &a_ends, &mut work).unwrap();
    assert_eq!(bits(&work), vec![0; varcoef_run_work(N, M)]);
    let mut held = SIGNAL;
    let mut step_work = [0.0; omega4_la_work(N)];
    for _ in 0..2 {
        let src = held;
        let first = laplacian(&FIRST);
        apply_exp_omega4_la_adj_kernel(first, first, 0.25, BOUND, 1.0, true, &a_starts, &a_starts, &src, &mut held, &mut step_work).unwrap();
    }
    assert_eq!(bits(&ran), bits(&held));
    let bounds = varcoef_evolve_state_adjoint_into(along, 0.25, 2, -1.0, -2.0, true, &a_starts, &a_ends, &SIGNAL, &mut [0.0; N], &mut work);
    assert_eq!(bounds, Err(Refusal::Bound(-1.0)));
    assert_eq!(run(2, &a_ends[1..], &mut work), Err(Refusal::Length(4)));
    assert_eq!(run(2, &a_ends, &mut work[1..]), Err(Refusal::Length(63)));
    assert_eq!(run(70_000, &a_ends, &mut work), Err(Refusal::StepCount(70_000)));
}
