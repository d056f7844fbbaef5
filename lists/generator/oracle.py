"""Asks the published Rust and holds its answers against the reference, case by case."""

import subprocess
import sys

from checks import HALF_PI, ROWS_OF_REALS, faults, lengths_of_steps
from formulas import root
from ieee import is_finite, is_nan, to_float
from jobs import call_of, malformed_text, text_of
from list_format import (
    EVOLVE,
    EVOLVE_ADJOINT,
    JOB,
    KINDS,
    ROOT,
    SEGMENT_INDEX,
    WEIGHTED_EVOLVE_ADJOINT,
    WEIGHTED_OMEGA4,
    WEIGHTED_OMEGA4_ADJOINT,
    Answer,
    Case,
    Reader,
    decode_result,
    encode_inputs,
)
from reference import result
from rules import expanded

# Differences between the Rust and document 01 that it lists: where the reference alone decides.
REFERENCE_ALONE = {6: "the Rust has no row 6", 10: "the Rust only asserts lengths", 19: "the Rust has closures and no laws"}
# Of the lengths, the Rust refuses two: the weights of a forward step and the signal of a forward run.
LENGTHS_OF_RUST = {(WEIGHTED_OMEGA4, "weights"), (EVOLVE, "signal")}
# What the Rust's adjoint runs do not have: segments and a limit of steps. Rows 13 to 17 of a forward run and of a lookup are in
# the Rust, but for pools and laws, for breakpoints that are not finite, and for the limit of steps.
ADJOINT_ROWS_ALONE = {13, 14, 15, 16, 17}
MOST_SEGMENTS_OF_ORACLE = 100000


def reference_alone(kind, inputs):
    """Does the reference alone decide? The Rust has steps and no jobs: one that is malformed asks for none."""
    if kind == JOB:
        return True
    met = faults(kind, inputs) if kind != ROOT else []
    if not met:
        return False
    row, place, value = met[0].row, met[0].place, met[0].met(inputs)[0]
    if row in REFERENCE_ALONE:
        return (kind, place) not in LENGTHS_OF_RUST
    if kind in (EVOLVE_ADJOINT, WEIGHTED_EVOLVE_ADJOINT):
        return row in ADJOINT_ROWS_ALONE
    return kind in (SEGMENT_INDEX, EVOLVE) and (
        (row == 13 and value > MOST_SEGMENTS_OF_ORACLE)
        or (row == 14 and place != "breakpoints")
        or (row == 15 and not is_finite(value))
        or (row == 16 and value > 0)
        or (row == 18 and is_nan(value))
        or (row == 8 and refused_during_run(inputs))
    )


def refused_during_run(inputs):
    """Is a forward run refused during a step before the first segment that meets row 8? The Rust comes to that one later."""
    bound = to_float(inputs["spectral bound"])
    before = next(k for k, tau in enumerate(lengths_of_steps(inputs)) if bound * tau >= HALF_PI)
    return before > 0 and result(EVOLVE, {**inputs, "segments": before, **first_lists(inputs, before)})["answer"].number != 0


def first_lists(inputs, segments):
    """The lists of the first segments."""
    entries = segments * len(inputs["columns"])
    lengths = {"breakpoints": segments + 1, "start pool": entries, "end pool": entries, "laws": segments}
    return {name: inputs[name][:length] for name, length in lengths.items()}


def replies(program, inputs):
    """The Rust's result of each case, None where it panicked. `inputs` are pairs of a kind and inputs, written out."""
    asked = b"".join(encode_inputs(kind, fields) for kind, fields in inputs)
    run = subprocess.run([program], input=asked, stdout=subprocess.PIPE, check=True)
    reader = Reader(run.stdout)
    for kind, _ in inputs:
        answered, length = reader.numbers("BI")
        reply = run.stdout[reader.at : reader.at + length]
        reader.at += length
        yield decode_result(kind, reply) if answered else None


class Difference(Exception):
    pass


def agreed_real(reference, rust):
    """The Rust's real, which must be the reference's; of two NaNs the reference's bits."""
    if is_nan(reference) and is_nan(rust):
        return reference
    if reference != rust:
        raise Difference(f"{rust:016x} where the reference has {reference:016x}")
    return rust


def agreed_answer(kind, reference, rust):
    """The Rust's answer, which must be the reference's. A count that the Rust reports as a real is the reference's count, and
    where the weighted adjoint reports a weight's root, it is that of the reference's weight."""
    if rust.number != reference.number or len(rust.values) != len(reference.values):
        raise Difference(f"answer {rust} where the reference has {reference}")
    if kind in (WEIGHTED_OMEGA4_ADJOINT, WEIGHTED_EVOLVE_ADJOINT) and reference.number == 11:
        agreed_real(root(reference.values[0]), rust.values[0])
        return reference
    if reference.number in ROWS_OF_REALS:
        return Answer(rust.number, [agreed_real(*pair) for pair in zip(reference.values, rust.values)])
    if [float(count) for count in reference.values] != [to_float(value) for value in rust.values]:
        raise Difference(f"counts of {rust} where the reference has {reference}")
    return reference


def agreed(kind, reference, rust):
    """The result that both give, field by field."""
    both = {}
    for name, value in reference.items():
        if name == "answer":
            both[name] = agreed_answer(kind, value, rust[name])
        elif isinstance(value, list):
            if len(value) != len(rust[name]):
                raise Difference(f"{name} of another length")
            both[name] = [agreed_real(*pair) for pair in zip(value, rust[name])]
        else:
            both[name] = agreed_real(value, rust[name])
    return both


def settled(kind, inputs, rust):
    """The result that the Rust and the reference agree on."""
    if rust is None:
        raise Difference("a panic")
    return agreed(kind, result(kind, inputs), rust)


def call_made(kind, inputs):
    """The kind and the inputs of the call behind a case: of a job its step."""
    return call_of(inputs["job"]) if kind == JOB else expanded(kind, inputs)


def alone(kind, inputs):
    """The result where the reference alone decides."""
    return {"text": malformed_text(inputs["job"])} if kind == JOB else result(kind, inputs)


def settle(program, inputs):
    """The cases with their results. Stops at a difference between the Rust and the reference that 01 does not list. The Rust is not
    asked where the reference alone decides: it has no limit of steps, for one."""
    calls = [call_made(*pair) for pair in inputs]
    are_alone = [reference_alone(*call) for call in calls]
    answers = replies(program, [call for call, is_alone in zip(calls, are_alone) if not is_alone])
    cases = []
    for (kind, fields), call, is_alone in zip(inputs, calls, are_alone):
        try:
            expected = alone(*call) if is_alone else settled(*call, next(answers))
        except Difference as difference:
            sys.exit(f"lists: the Rust's {KINDS[call[0]].name} gives {difference}\nlists: on {fields}")
        if kind == JOB and call[0] != JOB:
            expected = {"text": text_of(expected)}
        cases.append(Case(kind, fields, expected))
    return cases
