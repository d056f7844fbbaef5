//! Functions that the published files keep within their crate, handed on under their own names.

use alloc::{sync::Arc, vec::Vec};

use crate::{graph::Graph, graph_signal::GraphSignal};

/// A signal of the given values, on a network of as many nodes and no edges.
#[must_use]
pub fn signal_of(values: &[f64]) -> GraphSignal<f64> {
    let graph = Graph::from_edges(values.len(), Vec::new()).expect("no edge is refused");
    GraphSignal::from_fn(Arc::new(graph), |i| values[i as usize])
}

/// `GraphSignal::axpy_into_slice`.
pub fn axpy_into_slice(target: &mut GraphSignal<f64>, alpha: f64, src: &[f64]) {
    target.axpy_into_slice(alpha, src);
}
