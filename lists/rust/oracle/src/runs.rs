//! The lookups and runs of the published Rust. A law of document 01 is a closure of the same arithmetic. It makes its sample by
//! `from_csr_parts`, which refuses a value that is not finite; the closure cannot answer that, so it ends the run with the value.

use std::{
    panic::{catch_unwind, panic_any, resume_unwind, AssertUnwindSafe},
    sync::Arc,
};

use semiflow::{
    access,
    graph::{Graph, Laplacian, LaplacianKind},
    graph_signal::GraphSignal,
    graph_traj::GraphTraj,
    magnus_graph::{LaplacianAtTime, MagnusGraphHeatChernoff},
    scratch::ScratchPool,
    varcoef_magnus_graph::{VarCoefMagnusGraphHeatChernoff, WeightAtTime},
    SemiflowError,
};

use crate::{
    calls::{accepted, refused, refused_unchanged},
    fields::{answer, push_slice, Fields, Reply},
    steps::graph_of,
};

/// A sampled value that is not finite.
struct NotFinite(f64);

/// The most segments for which the oracle makes a trajectory.
const MOST_SEGMENTS: usize = 100_000;

/// A law with its two lists and the segment's ends.
#[derive(Clone)]
struct Law {
    law: usize,
    start: Vec<f64>,
    end: Vec<f64>,
    a: f64,
    b: f64,
}

impl Law {
    fn at(&self, t: f64) -> Vec<f64> {
        match self.law {
            0 => self.start.clone(),
            1 => self.end.clone(),
            _ => {
                let part = (t - self.a) / (self.b - self.a);
                let pairs = self.start.iter().zip(&self.end);
                pairs.map(|(s, e)| s + part * (e - s)).collect()
            }
        }
    }
}

/// The row starts and columns of a run.
#[derive(Clone)]
struct Pattern {
    n: usize,
    row_ptr: Vec<usize>,
    col_idx: Vec<u32>,
}

impl Pattern {
    fn with(&self, vals: Vec<f64>) -> Result<Laplacian<f64>, SemiflowError> {
        let (row_ptr, col_idx) = (self.row_ptr.clone(), self.col_idx.clone());
        Laplacian::from_csr_parts(self.n, row_ptr, col_idx, vals, LaplacianKind::GeneralSymmetric)
    }

    fn sampler(&self, law: Law) -> LaplacianAtTime<f64> {
        let pattern = self.clone();
        Box::new(move |t| match pattern.with(law.at(t)) {
            Ok(sample) => Arc::new(sample),
            Err(SemiflowError::DomainViolation { value, .. }) => panic_any(NotFinite(value)),
            Err(error) => panic!("{error}"),
        })
    }
}

/// What every run works with: the pattern and the segments.
struct Trajectory {
    pattern: Pattern,
    segments: usize,
    breakpoints: Vec<f64>,
    start_pool: Vec<f64>,
    end_pool: Vec<f64>,
    laws: Vec<usize>,
}

impl Trajectory {
    fn of(inputs: &mut Fields) -> Self {
        let n = inputs.count();
        let (row_ptr, col_idx) = (inputs.counts(), inputs.columns());
        Self {
            pattern: Pattern {
                n,
                row_ptr,
                col_idx,
            },
            segments: inputs.count(),
            breakpoints: inputs.reals(),
            start_pool: inputs.reals(),
            end_pool: inputs.reals(),
            laws: inputs.counts(),
        }
    }

    /// Rows 1 to 4, by a list of zeros that is as long as the columns.
    fn check_pattern(&self) -> Result<(), SemiflowError> {
        let zeros = vec![0.0; self.pattern.col_idx.len()];
        self.pattern.with(zeros).map(|_| ())
    }

    /// Row 5, list by list: all start lists, then the end lists.
    fn check_values(&self) -> Result<(), SemiflowError> {
        let m = self.pattern.col_idx.len();
        for pool in [&self.start_pool, &self.end_pool] {
            for k in 0..self.segments {
                self.pattern.with(pool[k * m..(k + 1) * m].to_vec())?;
            }
        }
        Ok(())
    }

    fn law(&self, k: usize) -> Law {
        let m = self.pattern.col_idx.len();
        Law {
            law: self.laws[k],
            start: self.start_pool[k * m..(k + 1) * m].to_vec(),
            end: self.end_pool[k * m..(k + 1) * m].to_vec(),
            a: self.breakpoints[k],
            b: self.breakpoints[k + 1],
        }
    }
}

/// The Rust's trajectory: the segments on networks of n nodes, with what each samples.
fn traj_of(
    n: usize,
    segments: usize,
    breakpoints: Vec<f64>,
    sampler: impl Fn(usize) -> LaplacianAtTime<f64>,
) -> Result<GraphTraj<f64>, SemiflowError> {
    assert!(segments <= MOST_SEGMENTS);
    let graph = Arc::new(Graph::from_edges(n, Vec::new())?);
    GraphTraj::new(breakpoints, vec![graph; segments], (0..segments).map(sampler).collect())
}

/// A sampler that no lookup and no check calls.
fn no_sampler(_: usize) -> LaplacianAtTime<f64> {
    Box::new(|_| panic!("nothing is sampled"))
}

/// `segment_index`. `laplacian_at` refuses a time outside, before it samples.
pub fn segment_index(inputs: &mut Fields) -> Reply {
    let (segments, breakpoints, t) = (inputs.count(), inputs.reals(), inputs.real());
    let traj = match traj_of(1, segments, breakpoints, no_sampler) {
        Ok(traj) => traj,
        Err(error) => return refused(&error),
    };
    match traj.segment_index(t) {
        Some(index) => {
            let mut bytes = answer(0, &[]);
            bytes.extend((index as u64).to_le_bytes());
            Reply::Answer(bytes)
        }
        None => match traj.laplacian_at(t) {
            Err(error) => refused(&error),
            Ok(_) => panic!("a sample at a time outside"),
        },
    }
}

/// The answer of a run that writes to `output`, with the slice afterwards. A sample that is not finite is row 20.
fn reply(
    output: &[f64],
    run: impl FnOnce(&mut GraphSignal<f64>, &mut ScratchPool<f64>) -> Result<(), SemiflowError>,
) -> Reply {
    let mut dst = access::signal_of(output);
    match catch_unwind(AssertUnwindSafe(|| run(&mut dst, &mut ScratchPool::new()))) {
        Ok(Ok(())) => accepted(dst.values()),
        Ok(Err(error)) => refused_unchanged(&error, output),
        Err(panic) => match panic.downcast::<NotFinite>() {
            Ok(value) => {
                let mut bytes = answer(20, &[value.0]);
                push_slice(&mut bytes, output);
                Reply::Answer(bytes)
            }
            Err(panic) => resume_unwind(panic),
        },
    }
}

/// `evolve_with_traj_into`. The closure of the struct is not called in such a run.
pub fn evolve(inputs: &mut Fields) -> Reply {
    let trajectory = Trajectory::of(inputs);
    let (steps, bound, check) = (inputs.count(), inputs.real(), inputs.flag());
    let (signal, output) = (inputs.reals(), inputs.reals());
    reply(&output, |dst, scratch| {
        trajectory.check_pattern()?;
        let (n, segments) = (trajectory.pattern.n, trajectory.segments);
        traj_of(n, segments, trajectory.breakpoints.clone(), no_sampler)?;
        trajectory.check_values()?;
        let sampler = |k| trajectory.pattern.sampler(trajectory.law(k));
        let traj = traj_of(n, segments, trajectory.breakpoints.clone(), sampler)?;
        let magnus = MagnusGraphHeatChernoff::new(graph_of(n)?, no_sampler(0), bound, check)?;
        magnus.evolve_with_traj_into(&traj, steps, &access::signal_of(&signal), dst, scratch)
    })
}

/// What both adjoint runs work with.
struct Adjoint {
    trajectory: Trajectory,
    tau: f64,
    steps: usize,
    bound: f64,
    check: bool,
}

impl Adjoint {
    fn of(inputs: &mut Fields) -> Self {
        let trajectory = Trajectory::of(inputs);
        let (tau, steps) = (inputs.real(), inputs.count());
        let (bound, check) = (inputs.real(), inputs.flag());
        Self {
            trajectory,
            tau,
            steps,
            bound,
            check,
        }
    }

    /// The pattern and the lists checked, then what samples by the one segment's law.
    fn sampler(&self) -> Result<LaplacianAtTime<f64>, SemiflowError> {
        self.trajectory.check_pattern()?;
        self.trajectory.check_values()?;
        Ok(self.trajectory.pattern.sampler(self.trajectory.law(0)))
    }
}

/// `evolve_state_adjoint_into` of the unweighted struct.
pub fn evolve_adjoint(inputs: &mut Fields) -> Reply {
    let adjoint = Adjoint::of(inputs);
    let (signal, output) = (inputs.reals(), inputs.reals());
    reply(&output, |dst, scratch| {
        let sampler = adjoint.sampler()?;
        let graph = graph_of(adjoint.trajectory.pattern.n)?;
        let magnus = MagnusGraphHeatChernoff::new(graph, sampler, adjoint.bound, adjoint.check)?;
        let src = access::signal_of(&signal);
        magnus.evolve_state_adjoint_into(adjoint.tau, adjoint.steps, &src, dst, scratch)
    })
}

/// `evolve_state_adjoint_into` of the weighted struct.
pub fn weighted_evolve_adjoint(inputs: &mut Fields) -> Reply {
    let adjoint = Adjoint::of(inputs);
    let root_bound = inputs.real();
    let (start, end) = (inputs.reals(), inputs.reals());
    let (signal, output) = (inputs.reals(), inputs.reals());
    reply(&output, |dst, scratch| {
        let sampler = adjoint.sampler()?;
        let law = Law {
            start,
            end,
            ..adjoint.trajectory.law(0)
        };
        let weights: WeightAtTime<f64> = Box::new(move |t| law.at(t));
        let n = adjoint.trajectory.pattern.n;
        let magnus = VarCoefMagnusGraphHeatChernoff::new(n, sampler, weights, adjoint.bound, root_bound)?;
        let magnus = magnus.with_radius_check(adjoint.check);
        let src = access::signal_of(&signal);
        magnus.evolve_state_adjoint_into(adjoint.tau, adjoint.steps, &src, dst, scratch)
    })
}
