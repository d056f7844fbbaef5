"""The job program of document 01, from its words alone: standard input to standard output. The step is reference.py's.

As a program, jobs.py reads a job from standard input and prints the answer.
"""

import struct
import sys

from checks import ROWS_OF_REALS, work_need
from ieee import NAN, ONE, is_nan
from list_format import JOB, OMEGA4, OMEGA4_ADJOINT, OMEGA6, WEIGHTED_OMEGA4, WEIGHTED_OMEGA4_ADJOINT, Answer
from reference import result

LONGEST = 16384
NETWORK, SAMPLE_1, SAMPLE_2, SAMPLE_3, TAU, BOUND, WEIGHTS, SIGNAL, ADJOINT = range(9)
NEEDED = (NETWORK, SAMPLE_1, SAMPLE_2, TAU, SIGNAL)
MOST_NODES, MOST_ENTRIES = 64, 512


class Malformed(Exception):
    """Row 21 of the table."""


def fields_of(job):
    """The fields of a job by bit, as lists of numbers; or Malformed."""
    at = 0

    def take(count, letter, width):
        nonlocal at
        if len(job) - at < count * width:
            raise Malformed
        numbers = list(struct.unpack_from(f"<{count}{letter}", job, at))
        at += count * width
        return numbers

    def words(count):
        return take(count, "H", 2)

    def reals(count):
        return take(count, "Q", 8)

    if len(job) > LONGEST:
        raise Malformed
    (bits,) = words(1)
    standing = {bit for bit in range(16) if bits >> bit & 1}
    if max(standing, default=0) > ADJOINT or not standing.issuperset(NEEDED):
        raise Malformed
    if SAMPLE_3 in standing and standing & {WEIGHTS, ADJOINT}:
        raise Malformed
    n, m = words(2)
    if n > MOST_NODES or m > MOST_ENTRIES:
        raise Malformed
    fields = {NETWORK: (n, words(n + 1), words(m))}
    lengths = {SAMPLE_1: m, SAMPLE_2: m, SAMPLE_3: m, TAU: 1, BOUND: 1, WEIGHTS: 1 + n + n, SIGNAL: n, ADJOINT: 0}
    for bit in sorted(standing - {NETWORK}):
        fields[bit] = reals(lengths[bit])
    if at != len(job):
        raise Malformed
    return fields


def kind_of(fields):
    """The step that the job asks for."""
    if SAMPLE_3 in fields:
        return OMEGA6
    steps = (WEIGHTED_OMEGA4, WEIGHTED_OMEGA4_ADJOINT) if WEIGHTS in fields else (OMEGA4, OMEGA4_ADJOINT)
    return steps[ADJOINT in fields]


def step_of(job):
    """The kind and the inputs of the step; or Malformed. Nothing is told of the output before and of the work slice, which are of
    the lengths needed."""
    fields = fields_of(job)
    kind = kind_of(fields)
    n, starts, columns = fields[NETWORK]
    inputs = {
        f"sample {bit}": {"n": n, "row starts": starts, "columns": columns, "values": fields[bit]}
        for bit in (SAMPLE_1, SAMPLE_2, SAMPLE_3)
        if bit in fields
    }
    inputs.update({"tau": fields[TAU][0], "check": int(BOUND in fields)})
    inputs["spectral bound"] = fields[BOUND][0] if BOUND in fields else ONE
    if WEIGHTS in fields:
        root_bound, *weights = fields[WEIGHTS]
        inputs.update({"root bound": root_bound, "weights 1": weights[:n], "weights 2": weights[n:]})
    inputs.update({"signal": fields[SIGNAL], "output": [0] * n, "work": 0})
    inputs["work length"] = work_need(kind, inputs)
    return kind, inputs


def call_of(job):
    """The call that answers the job: a step, or the job itself where it is malformed."""
    try:
        return step_of(job)
    except Malformed:
        return JOB, {"job": job}


def digits(bits):
    """A real in print. Which NaN is printed is the program's choice; here it is always one."""
    return f"{NAN if is_nan(bits) else bits:016x}"


def refusal_text(answer):
    values = [digits(value) if answer.number in ROWS_OF_REALS else str(value) for value in answer.values]
    return " ".join(["refused", str(answer.number), *values]) + "\n"


def malformed_text(job):
    return refusal_text(Answer(21, [min(len(job), LONGEST + 1)])).encode()


def text_of(step_result):
    """What is printed of a step's result."""
    if step_result["answer"].number:
        return refusal_text(step_result["answer"]).encode()
    output = step_result["output"]
    return "".join([f"done {len(output)}\n", *(f"{digits(value)}\n" for value in output)]).encode()


def text(job):
    """What the program prints for the job."""
    kind, inputs = call_of(job)
    return malformed_text(job) if kind == JOB else text_of(result(kind, inputs))


if __name__ == "__main__":
    sys.stdout.buffer.write(text(sys.stdin.buffer.read()))
