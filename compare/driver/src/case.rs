//! A case: a call of the C interface and everything that it is lent.

#[derive(Clone, Copy, PartialEq, Eq, Debug)]
pub enum Call {
    Sqrt,
    FromCsrParts,
    CheckPattern,
    GershgorinBoundCsr,
    ApplyIntoSlice,
    CopyFrom,
    AxpyIntoSlice,
    Omega4,
    Omega4Adjoint,
    Omega4La,
    Omega4LaAdjoint,
    Omega6,
    SegmentIndex,
    Evolve,
    EvolveAdjoint,
    VarcoefEvolveAdjoint,
}

/// Every call with its name in the C interface, and how many of 40 cases it has.
pub const CALLS: [(Call, &str, usize); 16] = [
    (Call::Sqrt, "sqrt", 2),
    (Call::FromCsrParts, "from_csr_parts", 3),
    (Call::CheckPattern, "check_pattern", 1),
    (Call::GershgorinBoundCsr, "gershgorin_bound_csr", 2),
    (Call::ApplyIntoSlice, "apply_into_slice", 2),
    (Call::CopyFrom, "copy_from", 1),
    (Call::AxpyIntoSlice, "axpy_into_slice", 1),
    (Call::Omega4, "apply_exp_omega4_kernel", 3),
    (Call::Omega4Adjoint, "apply_exp_omega4_adj_kernel", 3),
    (Call::Omega4La, "apply_exp_omega4_la_kernel", 3),
    (Call::Omega4LaAdjoint, "apply_exp_omega4_la_adj_kernel", 3),
    (Call::Omega6, "apply_exp_omega6_kernel", 3),
    (Call::SegmentIndex, "segment_index", 1),
    (Call::Evolve, "evolve_with_traj_into", 4),
    (Call::EvolveAdjoint, "evolve_state_adjoint_into", 4),
    (Call::VarcoefEvolveAdjoint, "varcoef_evolve_state_adjoint_into", 4),
];

impl Call {
    pub fn name(self) -> &'static str {
        CALLS[self as usize].1
    }

    pub fn is_weighted(self) -> bool {
        matches!(self, Call::Omega4La | Call::Omega4LaAdjoint | Call::VarcoefEvolveAdjoint)
    }

    pub fn is_step(self) -> bool {
        self.samples_of_step() > 0
    }

    pub fn is_run(self) -> bool {
        matches!(self, Call::Evolve | Call::EvolveAdjoint | Call::VarcoefEvolveAdjoint)
    }

    /// Document 01, "What a call answers": how many vectors of n elements a work slice must have.
    pub fn work_vectors(self) -> usize {
        match self {
            Call::Omega4 | Call::Omega4Adjoint => 5,
            Call::Omega4La | Call::Omega4LaAdjoint => 9,
            Call::Omega6 => 22,
            Call::Evolve | Call::EvolveAdjoint => 7,
            Call::VarcoefEvolveAdjoint => 11,
            _ => 0,
        }
    }

    pub fn samples_of_step(self) -> usize {
        match self {
            Call::Omega4 | Call::Omega4Adjoint | Call::Omega4La | Call::Omega4LaAdjoint => 2,
            Call::Omega6 => 3,
            _ => 0,
        }
    }
}

/// A Laplacian in compressed sparse rows. A run's pattern has no values.
#[derive(Clone, Default, Debug)]
pub struct Network {
    pub n: usize,
    pub row_ptr: Vec<usize>,
    pub col_idx: Vec<u32>,
    pub vals: Vec<f64>,
}

/// What a call is lent. Fields that it does not have are empty or 0.
#[derive(Clone, Default, Debug)]
pub struct Case {
    /// The network, the samples of a step, or the pattern of a run.
    pub samples: Vec<Network>,
    /// The root's argument, the sum's factor or the lookup's time.
    pub x: f64,
    pub segments: usize,
    pub breakpoints: Vec<f64>,
    pub starts: Vec<f64>,
    pub ends: Vec<f64>,
    pub laws: Vec<u8>,
    pub tau: f64,
    pub steps: usize,
    pub bound: f64,
    pub root_bound: f64,
    pub check: bool,
    pub weights: [Vec<f64>; 2],
    pub src: Vec<f64>,
    pub dst: Vec<f64>,
    pub work: Vec<f64>,
}

impl Case {
    /// The n of the call: the network's, the first sample's or the pattern's.
    pub fn n(&self) -> usize {
        self.samples[0].n
    }

    /// How many elements of the work slice the call needs, where n is at most 4,096.
    pub fn work_need(&self, call: Call) -> usize {
        let of_samples = if call.is_run() { 2 * self.samples[0].col_idx.len() } else { 0 };
        call.work_vectors() * self.n() + of_samples
    }
}
