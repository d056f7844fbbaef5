"""Answers of the job program: read, and put into words with the names and values of the description."""

import math
import re
import struct

DONE = re.compile(r"done (0|[1-9][0-9]*)")
REAL = re.compile(r"[0-9a-f]{16}")
COUNT = re.compile(r"0|[1-9][0-9]*")
# The rows of document 01's table that a job can meet: how many values a refusal carries, and whether they are reals.
ROWS = {2: (1, False), 3: (1, False), 4: (1, False), 5: (1, True), 7: (1, True), 8: (2, True), 9: (1, True), 11: (1, True)}
ROWS.update({12: (1, False), 21: (1, False)})
HALF_PI = math.pi / 2


class NoAnswer(Exception):
    """The text is no answer of the program, or none to this description."""


def real_of(digits):
    if not REAL.fullmatch(digits):
        raise NoAnswer(f"{digits!r} is not 16 hexadecimal digits")
    return struct.unpack(">d", bytes.fromhex(digits))[0]


def decimal(x):
    """The shortest decimal that is read back as the same double; nan and inf by name."""
    return repr(x)


def read_answer(text):
    """('done', values) or ('refused', row, values)."""
    if not text.endswith("\n"):
        raise NoAnswer("the text does not end with a newline" if text else "the text is empty")
    first, *others = text[:-1].split("\n")
    if DONE.fullmatch(first):
        count = int(first[5:])
        if len(others) != count:
            raise NoAnswer(f"{first!r} is followed by {len(others)} lines")
        return "done", [real_of(line) for line in others]
    word, *fields = first.split(" ")
    if word != "refused" or others or not fields or not COUNT.fullmatch(fields[0]) or int(fields[0]) not in ROWS:
        raise NoAnswer(f"it starts with {first!r}")
    row, values = int(fields[0]), fields[1:]
    count, are_reals = ROWS[row]
    if len(values) != count or not (are_reals or all(COUNT.fullmatch(value) for value in values)):
        raise NoAnswer(f"{first!r} has other values than row {row} has")
    return "refused", row, [real_of(value) if are_reals else int(value) for value in values]


def alike(x, y):
    """The same double, or two NaNs."""
    return x == y or (x != x and y != y)


def first_at_fault(value, listed):
    """The place of the first listed value, which must be the one that was refused."""
    for place, candidate in listed:
        if alike(candidate, value):
            return place
    raise NoAnswer(f"the description has no such value as {decimal(value)}")


def row_of(entry, job):
    """The row of an entry, in words."""
    for i, name in enumerate(job.nodes):
        if job.row_starts[i] <= entry < job.row_starts[i + 1]:
            return f"in the row of {name}"
    return "before the first row"


def falling_start(job, row):
    if row >= len(job.nodes):
        raise NoAnswer(f"the description has no row {row}")
    starts = job.row_starts
    return f"row start {row} exceeds the next, {starts[row]} > {starts[row + 1]}: the row of {job.nodes[row]}"


def last_start(job, last):
    return f"the last row start is {last}, and there are {len(job.columns)} columns and values in a sample"


def column_outside(job, column):
    at = first_at_fault(column, enumerate(job.columns))
    return f"column {column} is no node: entry {at}, {row_of(at, job)}; there are {len(job.nodes)} nodes, counted from 0"


def value_not_finite(job, value):
    entries = [((sample, at), x) for sample, values in enumerate(job.samples) for at, x in enumerate(values) if not math.isfinite(x)]
    sample, at = first_at_fault(value, entries)
    return f"the value {decimal(value)} is not finite: sample {sample + 1}, entry {at}, {row_of(at, job)}"


def tau_outside(job, tau):
    return f"tau is {decimal(tau)}; it must be finite and not below 0"


def outside_radius(job, tau, bound):
    made_of = "the bound" if job.weights is None else "(bound·root_bound)·root_bound"
    longest = f"; tau must stay below about {HALF_PI / bound:.6g}" if math.isfinite(bound) else ""
    return f"{made_of} is {decimal(bound)} and tau is {decimal(tau)}: their product is not below π/2{longest}"


def bound_at_fault(job, bound):
    listed = [("bound", job.bound), ("root_bound", job.root_bound)]
    at_fault = [(name, x) for name, x in listed if x is not None and not (math.isfinite(x) and x > 0)]
    return f"{first_at_fault(bound, at_fault)} is {decimal(bound)}; it must be finite and above 0"


def weight_at_fault(job, weight):
    listed = [((i, name), x) for i, weights in enumerate(job.weights or []) for name, x in zip(job.nodes, weights)]
    which, name = first_at_fault(weight, [(place, x) for place, x in listed if not (math.isfinite(x) and x > 0)])
    return f"the weight of {name} in sample {which + 1} is {decimal(weight)}; it must be finite and above 0"


def no_nodes(job, nodes):
    return "a job with weights has at least one node"


def malformed(job, count):
    return f"malformed job of {'more than 16384' if count > 16384 else count} bytes"


WORDS = {2: falling_start, 3: last_start, 4: column_outside, 5: value_not_finite, 7: tau_outside, 8: outside_radius}
WORDS.update({9: bound_at_fault, 11: weight_at_fault, 12: no_nodes, 21: malformed})


def in_words(answer, job):
    """The lines to print: a node and its value each, or the refusal with its row of document 01's table."""
    if answer[0] == "refused":
        _, row, values = answer
        return [f"refused, row {row}: {WORDS[row](job, *values)}"]
    values = answer[1]
    if len(values) != len(job.nodes):
        raise NoAnswer(f"{len(values)} values for {len(job.nodes)} nodes")
    width = max((len(name) for name in job.nodes), default=0)
    return [f"{name:{width}}  {decimal(x)}" for name, x in zip(job.nodes, values)] or ["done: there are no nodes"]
