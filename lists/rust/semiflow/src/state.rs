//! The traits that `graph_signal` implements, as its implementations have them.

use crate::float::SemiflowFloat;

/// A vector of values of type F, with the operations of a step.
pub trait State<F: SemiflowFloat>: Clone {
    fn len(&self) -> usize;
    fn axpy_into(&mut self, alpha: F, src: &Self);
    fn copy_from(&mut self, src: &Self);
    fn zero_into(&mut self);
    fn norm_sup(&self) -> F;
    fn scale_into(&mut self, k: F);
}

/// A state with a scalar product.
pub trait HilbertState<F: SemiflowFloat>: State<F> {
    fn dot(&self, other: &Self) -> F;
}

/// A state on the nodes of a network.
pub trait Discrete<F: SemiflowFloat>: State<F> {
    type Idx;
    type Neighbours<'a>: Iterator<Item = (Self::Idx, F)>
    where
        Self: 'a;

    fn get(&self, idx: Self::Idx) -> F;
    fn set(&mut self, idx: Self::Idx, val: F);
    fn indices(&self) -> impl Iterator<Item = Self::Idx> + '_;
    fn neighbours(&self, idx: Self::Idx) -> Self::Neighbours<'_>;
}
