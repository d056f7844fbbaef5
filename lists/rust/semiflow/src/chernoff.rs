//! The trait that the steps implement, as their implementations have it.

use crate::{error::SemiflowError, float::SemiflowFloat, scratch::ScratchPool};

/// A bound multiplier·exp(omega·t) on a step's growth.
pub struct Growth<F> {
    pub multiplier: F,
    pub omega: F,
}

/// One step of length tau, from `src` to `dst`.
pub trait ChernoffFunction<F: SemiflowFloat> {
    type S;

    fn apply_into(
        &self,
        tau: F,
        src: &Self::S,
        dst: &mut Self::S,
        scratch: &mut ScratchPool<F>,
    ) -> Result<(), SemiflowError>;
    fn order(&self) -> u32;
    fn growth(&self) -> Growth<F>;
}
