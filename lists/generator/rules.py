"""The slices of a run that is given by rules. They are as long as document 01 allows, and the case stays short.

Row start i is first + i·width, but at most the count of entries; column k is (k·stride) mod n. The breakpoints start at +0, and
each adds the next increment to the one before. A slice of which the case has the first elements goes on with them from the start
again.
"""

from ieee import to_bits, to_float
from list_format import (
    EVOLVE,
    EVOLVE_ADJOINT,
    RULED_EVOLVE,
    RULED_EVOLVE_ADJOINT,
    RULED_SEGMENT_INDEX,
    RULED_WEIGHTED_EVOLVE_ADJOINT,
    SEGMENT_INDEX,
    WEIGHTED_EVOLVE_ADJOINT,
)

BY_RULES = {
    RULED_SEGMENT_INDEX: SEGMENT_INDEX,
    RULED_EVOLVE: EVOLVE,
    RULED_EVOLVE_ADJOINT: EVOLVE_ADJOINT,
    RULED_WEIGHTED_EVOLVE_ADJOINT: WEIGHTED_EVOLVE_ADJOINT,
}


def repeated(elements, length):
    """The elements from the start again and again, up to the length."""
    return [elements[i % len(elements)] for i in range(length)]


def breakpoints(inputs):
    times = [0.0]
    for increment in repeated(inputs["increments"], inputs["segments"]):
        times.append(times[-1] + to_float(increment))
    return [to_bits(time) for time in times]


def trajectory(inputs):
    """The pattern and the segments."""
    n, entries, segments = inputs["n"], inputs["entries"], inputs["segments"]
    return {
        "n": n,
        "row starts": [min(inputs["first row start"] + i * inputs["row width"], entries) for i in range(n + 1)],
        "columns": [k * inputs["column stride"] % n for k in range(entries)],
        "start pool": repeated(inputs["start pool"], segments * entries),
        "end pool": repeated(inputs["end pool"], segments * entries),
        "laws": repeated(inputs["laws"], segments),
        "signal": repeated(inputs["signal"], n),
        "output": [inputs["output"]] * n,
    }


def expanded(kind, inputs):
    """The kind and the inputs of the call that is made, written out."""
    if kind not in BY_RULES:
        return kind, inputs
    whole = {name: value for name, value in inputs.items() if name in WRITTEN_OUT}
    whole["breakpoints"] = breakpoints(inputs)
    if kind != RULED_SEGMENT_INDEX:
        whole.update(trajectory(inputs))
    for name in ("start weights", "end weights"):
        if name in inputs:
            whole[name] = repeated(inputs[name], inputs["n"])
    return BY_RULES[kind], whole


# What the rules take as it is.
WRITTEN_OUT = ("segments", "t", "tau", "steps", "spectral bound", "check", "root bound", "work length", "work")
