//! The steps of the published Rust, called as its users call them: through the structs that check the inputs, take the samples
//! from a closure and run the kernel. The work slice of a case stands for the Rust's own pool of vectors.

use std::sync::{
    atomic::{AtomicUsize, Ordering},
    Arc,
};

use semiflow::{
    access,
    chernoff::ChernoffFunction,
    graph::Graph,
    graph_signal::GraphSignal,
    magnus6_graph::MagnusGraphHeat6thChernoff,
    magnus_graph::{LaplacianAtTime, MagnusGraphHeatChernoff},
    scratch::ScratchPool,
    varcoef_magnus_graph::{VarCoefMagnusGraphHeatChernoff, WeightAtTime},
    SemiflowError,
};

use crate::{
    calls::{accepted, refused_unchanged, Parts},
    fields::{Fields, Reply},
};

/// What a step of each form works with: its samples and its numbers.
struct Step<const SAMPLES: usize> {
    samples: [Parts; SAMPLES],
    tau: f64,
    bound: f64,
    check: bool,
}

impl<const SAMPLES: usize> Step<SAMPLES> {
    fn of(inputs: &mut Fields) -> Self {
        let samples = core::array::from_fn(|_| Parts::of(inputs));
        let (tau, bound) = (inputs.real(), inputs.real());
        let check = inputs.flag();
        Self {
            samples,
            tau,
            bound,
            check,
        }
    }
}

/// The first sample at the first call, the second at the second and so on, whatever the time: at τ = 0 all have one time.
fn in_turn<T: Clone>(samples: Vec<T>) -> impl Fn(f64) -> T {
    let calls = AtomicUsize::new(0);
    move |_| samples[calls.fetch_add(1, Ordering::Relaxed)].clone()
}

/// The samples, each wholly checked before the next, and the first one's n.
fn samples_in_turn<const SAMPLES: usize>(
    samples: [Parts; SAMPLES],
) -> Result<(LaplacianAtTime<f64>, usize), SemiflowError> {
    let mut checked = Vec::new();
    for sample in samples {
        checked.push(Arc::new(sample.laplacian()?));
    }
    let n = checked[0].n_nodes();
    Ok((Box::new(in_turn(checked)), n))
}

/// A network of n nodes for the constructors that refuse one of no nodes. A step does not read it, so one node stands in for none.
pub fn graph_of(n: usize) -> Result<Arc<Graph<f64>>, SemiflowError> {
    Ok(Arc::new(Graph::from_edges(n.max(1), Vec::new())?))
}

/// The answer of a step that writes to `output`, with the slice afterwards.
fn reply(
    output: &[f64],
    run: impl FnOnce(&mut GraphSignal<f64>, &mut ScratchPool<f64>) -> Result<(), SemiflowError>,
) -> Reply {
    let mut dst = access::signal_of(output);
    match run(&mut dst, &mut ScratchPool::new()) {
        Ok(()) => accepted(dst.values()),
        Err(error) => refused_unchanged(&error, output),
    }
}

/// `apply_exp_omega4_kernel`, or the adjoint one.
fn step(inputs: &mut Fields, adjoint: bool) -> Reply {
    let Step::<2> {
        samples,
        tau,
        bound,
        check,
    } = Step::of(inputs);
    let (signal, output) = (inputs.reals(), inputs.reals());
    reply(&output, |dst, scratch| {
        let (samples, n) = samples_in_turn(samples)?;
        let magnus = MagnusGraphHeatChernoff::new(graph_of(n)?, samples, bound, check)?;
        let src = access::signal_of(&signal);
        if adjoint {
            magnus.apply_state_adjoint_into(tau, &src, dst, scratch)
        } else {
            magnus.apply_into(tau, &src, dst, scratch)
        }
    })
}

/// `apply_exp_omega4_la_kernel`, or the adjoint one.
fn weighted_step(inputs: &mut Fields, adjoint: bool) -> Reply {
    let Step::<2> {
        samples,
        tau,
        bound,
        check,
    } = Step::of(inputs);
    let root_bound = inputs.real();
    let (weights_1, weights_2) = (inputs.reals(), inputs.reals());
    let (signal, output) = (inputs.reals(), inputs.reals());
    reply(&output, |dst, scratch| {
        let (samples, n) = samples_in_turn(samples)?;
        let weights: WeightAtTime<f64> = Box::new(in_turn(vec![weights_1, weights_2]));
        let magnus = VarCoefMagnusGraphHeatChernoff::new(n, samples, weights, bound, root_bound)?;
        let magnus = magnus.with_radius_check(check);
        let src = access::signal_of(&signal);
        if adjoint {
            magnus.apply_state_adjoint_into(tau, &src, dst, scratch)
        } else {
            magnus.apply_into(tau, &src, dst, scratch)
        }
    })
}

pub fn omega4(inputs: &mut Fields) -> Reply {
    step(inputs, false)
}

pub fn omega4_adjoint(inputs: &mut Fields) -> Reply {
    step(inputs, true)
}

pub fn weighted_omega4(inputs: &mut Fields) -> Reply {
    weighted_step(inputs, false)
}

pub fn weighted_omega4_adjoint(inputs: &mut Fields) -> Reply {
    weighted_step(inputs, true)
}

/// `apply_exp_omega6_kernel`.
pub fn omega6(inputs: &mut Fields) -> Reply {
    let Step::<3> {
        samples,
        tau,
        bound,
        check,
    } = Step::of(inputs);
    let (signal, output) = (inputs.reals(), inputs.reals());
    reply(&output, |dst, scratch| {
        let (samples, n) = samples_in_turn(samples)?;
        let magnus = MagnusGraphHeat6thChernoff::new(graph_of(n)?, samples, bound, check)?;
        magnus.apply_into(tau, &access::signal_of(&signal), dst, scratch)
    })
}
