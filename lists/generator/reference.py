"""What document 01 says of each call, written from its words alone: the first refusal in the call's order of checks (checks.py),
or the acceptance with what it leaves (formulas.py). Counts are whole numbers and reals are bit patterns.
"""

import formulas
import run_formulas
from checks import faults
from ieee import to_bits, to_float
from list_format import (
    APPLY_INTO_SLICE,
    AXPY_INTO_SLICE,
    COPY_FROM,
    EVOLVE,
    EVOLVE_ADJOINT,
    FROM_CSR_PARTS,
    GERSHGORIN_BOUND_CSR,
    OMEGA4,
    OMEGA4_ADJOINT,
    OMEGA6,
    ROOT,
    SEGMENT_INDEX,
    WEIGHTED_EVOLVE_ADJOINT,
    WEIGHTED_OMEGA4,
    WEIGHTED_OMEGA4_ADJOINT,
    Answer,
)


def bits(reals):
    return [to_bits(real) for real in reals]


def product(inputs):
    return bits(formulas.product_with(inputs)(formulas.floats(inputs["signal"])))


def scaled_sum(inputs):
    target, source = formulas.floats(inputs["target"]), formulas.floats(inputs["source"])
    return bits(formulas.scaled_sum(target, to_float(inputs["alpha"]), source))


def index(inputs):
    return run_formulas.segment_index(formulas.floats(inputs["breakpoints"]), to_float(inputs["t"]))


def adjoint_run(inputs):
    """The output of an adjoint run. A copy keeps the bits of its NaNs."""
    return bits(run_formulas.adjoint_run(inputs)) if inputs["steps"] else list(inputs["signal"])


# What an accepted call leaves: the results besides the answer.
ACCEPTED = {
    FROM_CSR_PARTS: lambda inputs: {},
    GERSHGORIN_BOUND_CSR: lambda inputs: {"bound": to_bits(formulas.gershgorin_bound(inputs))},
    APPLY_INTO_SLICE: lambda inputs: {"output": product(inputs)},
    COPY_FROM: lambda inputs: {"target": list(inputs["source"])},
    AXPY_INTO_SLICE: lambda inputs: {"target": scaled_sum(inputs)},
    OMEGA4: lambda inputs: {"output": bits(formulas.step(inputs, 1.0))},
    OMEGA4_ADJOINT: lambda inputs: {"output": bits(formulas.step(inputs, -1.0))},
    WEIGHTED_OMEGA4: lambda inputs: {"output": bits(formulas.weighted_step(inputs, 1.0))},
    WEIGHTED_OMEGA4_ADJOINT: lambda inputs: {"output": bits(formulas.weighted_step(inputs, -1.0))},
    OMEGA6: lambda inputs: {"output": bits(formulas.step6(inputs))},
    SEGMENT_INDEX: lambda inputs: {"index": index(inputs)},
    EVOLVE: lambda inputs: {"output": bits(run_formulas.forward_run(inputs))},
    EVOLVE_ADJOINT: lambda inputs: {"output": adjoint_run(inputs)},
    WEIGHTED_EVOLVE_ADJOINT: lambda inputs: {"output": adjoint_run(inputs)},
}

# The slices that a call may write and that the list has. A refusal leaves them unchanged.
WRITTEN = {
    FROM_CSR_PARTS: (),
    GERSHGORIN_BOUND_CSR: (),
    APPLY_INTO_SLICE: ("output",),
    COPY_FROM: ("target",),
    AXPY_INTO_SLICE: ("target",),
    OMEGA4: ("output",),
    OMEGA4_ADJOINT: ("output",),
    WEIGHTED_OMEGA4: ("output",),
    WEIGHTED_OMEGA4_ADJOINT: ("output",),
    OMEGA6: ("output",),
    SEGMENT_INDEX: (),
    EVOLVE: ("output",),
    EVOLVE_ADJOINT: ("output",),
    WEIGHTED_EVOLVE_ADJOINT: ("output",),
}


def refusal(kind, inputs, row, values):
    return {"answer": Answer(row, values), **{name: inputs[name] for name in WRITTEN[kind]}}


def result(kind, inputs):
    """The result of a case of this kind."""
    if kind == ROOT:
        return {"root": formulas.root(inputs["x"])}
    met = faults(kind, inputs)
    if met:
        return refusal(kind, inputs, met[0].row, met[0].met(inputs))
    try:
        return {"answer": Answer(0, []), **ACCEPTED[kind](inputs)}
    except run_formulas.Refused as refused:
        return refusal(kind, inputs, refused.row, refused.values)
