"""The jobs of the list (document 01, the job program): accepted ones of every kind, refused ones, malformed ones."""

import struct

from faults import Fault, alone_and_together, falling_start, value_not_finite, with_faults
from ieee import ONE, SIGN, to_bits
from jobs import ADJOINT, BOUND, NETWORK, SIGNAL, TAU, WEIGHTS
from list_format import JOB, OMEGA4, OMEGA4_ADJOINT, OMEGA6, WEIGHTED_OMEGA4, WEIGHTED_OMEGA4_ADJOINT, names_of_samples
from random_reals import signal_list, special
from step_faults import beyond_the_radius, no_nodes, not_positive, tau_outside, weight_at_fault
from step_samples import WEIGHTED, copied, equal_samples, moderate, moderate_tau, one_pattern, sample_of, step_inputs
from steps import (
    HALF_PI,
    at_the_radius,
    at_the_radius_by_order,
    infinite_bound,
    of_any_values,
    of_balanced_sizes,
    of_each_tau,
    of_moderate_values,
    order_of_sums,
    signs_of_zeros,
)

KINDS_OF_JOBS = (OMEGA4, OMEGA4_ADJOINT, WEIGHTED_OMEGA4, WEIGHTED_OMEGA4_ADJOINT, OMEGA6)
LARGEST_WORD = 65535


def reals(bits):
    return struct.pack(f"<{len(bits)}Q", *bits)


def parts_of(inputs):
    """The bytes of a step's fields, by bit."""
    first = inputs["sample 1"]
    numbers = (first["n"], len(first["columns"]), *first["row starts"], *first["columns"])
    parts = {NETWORK: struct.pack(f"<{len(numbers)}H", *numbers), TAU: reals([inputs["tau"]]), SIGNAL: reals(inputs["signal"])}
    parts.update({bit: reals(inputs[f"sample {bit}"]["values"]) for bit in (1, 2, 3) if f"sample {bit}" in inputs})
    if inputs["check"]:
        parts[BOUND] = reals([inputs["spectral bound"]])
    if "root bound" in inputs:
        parts[WEIGHTS] = reals([inputs["root bound"], *inputs["weights 1"], *inputs["weights 2"]])
    return parts


def of_parts(parts, standing):
    """The job of the fields whose bits stand. A bit above 8 has no field."""
    bits = sum(1 << bit for bit in standing)
    return struct.pack("<H", bits) + b"".join(parts.get(bit, b"") for bit in sorted(standing))


def job_of(kind, inputs):
    """The job that asks for the step. Its samples have one pattern."""
    parts = parts_of(inputs)
    if kind in (OMEGA4_ADJOINT, WEIGHTED_OMEGA4_ADJOINT):
        parts[ADJOINT] = b""
    return of_parts(parts, parts)


def has_one_pattern(inputs):
    """Have the samples one pattern? A job has one for all of them."""
    patterns = [{**sample, "values": None} for name, sample in inputs.items() if name.startswith("sample")]
    return all(pattern == patterns[0] for pattern in patterns)


def drawn(random, kind, n):
    """Accepted inputs of moderate size."""
    samples = one_pattern(random, kind, n, moderate)
    return step_inputs(random, kind, samples, moderate_tau(random), signal_list(random, n, moderate, 0), moderate)


def accepted(random, kind):
    """Families of the steps' lists; those of their inputs that have one pattern for all samples."""
    yield from of_moderate_values(random, kind, 20, one_pattern)
    yield from of_moderate_values(random, kind, 6, equal_samples)
    yield from of_any_values(random, kind, 20, one_pattern)
    yield from of_any_values(random, kind, 6, equal_samples)
    yield from of_balanced_sizes(random, kind, 12)
    yield from order_of_sums(random, kind, 12)
    yield from signs_of_zeros(random, kind, 9)
    yield from of_each_tau(random, kind)
    yield from at_the_radius(random, kind, 6)
    if kind in WEIGHTED:
        yield from infinite_bound(random, kind, 4)
        yield from at_the_radius_by_order(random, kind, 4)
    for n in (1, 2, 3):
        yield {**drawn(random, kind, n), "signal": [special(random) for _ in range(n)]}


def points(random, kind):
    """Document 01's job and points, and the smallest networks."""
    def inputs(sample, tau, signal, check, **others):
        bits = [to_bits(float(x)) for x in signal]
        samples = [copied(sample) for _ in names_of_samples(kind)]
        written = step_inputs(random, kind, samples, tau, bits)
        written.update({"check": check, "spectral bound": ONE})
        if kind in WEIGHTED:
            written.update({"root bound": ONE, "weights 1": [ONE] * len(bits), "weights 2": [ONE] * len(bits)})
        return {**written, **others}

    job = sample_of(2, (0, 2, 4), (0, 1, 0, 1), (1, -1, -1, 1))
    nothing = sample_of(0, (0,), (), ())
    for check in (0, 1):
        yield inputs(job, ONE, (1, 0), check)
        yield inputs(job, HALF_PI, (1, 0), check)
        yield inputs(job, HALF_PI - 1, (1, 0), check)
        yield inputs(nothing, ONE, (), check)
        yield inputs(sample_of(1, (2, 2), (0, 0), (1, 2)), ONE, (1,), check)
        yield inputs(sample_of(0, (1,), (0,), (1,)), ONE, (), check)
    if kind in WEIGHTED:
        for bad in (SIGN, 0):
            yield inputs(job, ONE, (1, 0), 0, **{"weights 1": [ONE, bad]})
            yield inputs(job, ONE, (1, 0), 0, **{"weights 2": [bad, ONE]})


def large(random, kind):
    """64 nodes and 512 entries, and each of them with few of the other."""
    for n, entries in ((64, 512), (64, 0), (1, 512)) if kind == OMEGA4 else ((64, 512), (64, 40)):
        starts = sorted(random.below(entries + 1) for _ in range(n)) + [entries]
        columns = [random.below(n) for _ in range(entries)]
        samples = [sample_of(n, starts, columns, ()) for _ in names_of_samples(kind)]
        for sample in samples:
            sample["values"] = [moderate(random) for _ in range(entries)]
        yield step_inputs(random, kind, samples, moderate_tau(random), signal_list(random, n, moderate, 0), moderate)


# Faults of the one pattern, planted in all samples alike.
def of_pattern(row, plant):
    def planted(random, inputs):
        plant(random, inputs["sample 1"])
        for name in inputs:
            if name.startswith("sample"):
                inputs[name].update({part: list(inputs["sample 1"][part]) for part in ("row starts", "columns")})

    return Fault(row, "sample 1", planted)


def fits_words(pattern):
    """What was raised too high for 16 bits becomes the largest of them."""
    for part in ("row starts", "columns"):
        pattern[part] = [min(number, LARGEST_WORD) for number in pattern[part]]


def start_above_next(random, pattern):
    falling_start(random, pattern)
    fits_words(pattern)


def another_last_start(random, pattern):
    entries = len(pattern["columns"])
    pattern["row starts"][-1] = random.choice((0, max(entries - 1, 0), entries + 1, entries + 2, LARGEST_WORD))


def column_outside(random, pattern):
    for _ in range(random.between(1, 2)):
        if pattern["columns"]:
            at = random.below(len(pattern["columns"]))
            pattern["columns"][at] = random.choice((pattern["n"], pattern["n"], pattern["n"] + 1, LARGEST_WORD))


def value_of(sample):
    return Fault(5, sample, lambda random, inputs: value_not_finite(random, inputs[sample]))


def spectral_bound(random, inputs):
    """A job has a spectral bound where the check is on."""
    inputs["check"] = 1
    not_positive("spectral bound")(random, inputs)


def faults_of_job(kind):
    """In the order of the step's checks."""
    weighted = kind in WEIGHTED
    return (
        of_pattern(2, start_above_next),
        of_pattern(3, another_last_start),
        of_pattern(4, column_outside),
        *(value_of(sample) for sample in names_of_samples(kind)),
        Fault(9, "spectral bound", spectral_bound),
        *((Fault(9, "root bound", not_positive("root bound")), Fault(12, "sample 1", no_nodes)) if weighted else ()),
        Fault(7, "tau", tau_outside),
        Fault(8, "tau", beyond_the_radius),
        *(Fault(11, name, weight_at_fault(name)) for name in ("weights 1", "weights 2") if weighted),
    )


# Without nodes there is one row start and no weight, and every column is refused before a value.
NOT_WITHOUT_NODES = {2, 5, 11}


def can_stand_together(faults):
    rows = {fault.row for fault in faults}
    return 12 not in rows or not rows & NOT_WITHOUT_NODES


def drawn_for(random, kind, faults):
    inputs = drawn(random, kind, 0 if any(fault.row == 12 for fault in faults) else random.between(1, 4))
    if any(fault.row == 4 for fault in faults) and not inputs["sample 1"]["n"]:
        for name in names_of_samples(kind):
            inputs[name].update({"row starts": [1], "columns": [0], "values": [ONE]})
    if not inputs["check"]:
        inputs["spectral bound"] = ONE
    return inputs


def refused(random, kind):
    """Each fault alone, each pair of faults that can stand together, and some triples."""
    for some in alone_and_together(random, faults_of_job(kind), lambda fault: 3, 12, can_stand_together):
        yield with_faults(random, kind, some, drawn_for)


def cut_short(random):
    """Each length from 0 to 200 of a longer job; each kind's job with its last byte missing, and with some bytes too many."""
    job = job_of(WEIGHTED_OMEGA4, {**drawn(random, WEIGHTED_OMEGA4, 5), "check": 1})
    yield from (job[:length] for length in range(201))
    for kind in KINDS_OF_JOBS:
        job = job_of(kind, drawn(random, kind, random.between(1, 3)))
        yield from (job[:-1], job[:-8], job + b"\0", job + job[-8:])


def of_each_map(random):
    """Every map of bits 0 to 8 with the fields that it calls for; where bit 0 is missing, with lists of the same lengths."""
    inputs = drawn(random, OMEGA6, 1)
    inputs.update({"check": 1, "root bound": ONE, "weights 1": [ONE], "weights 2": [ONE]})
    inputs["spectral bound"] = to_bits(0.01)
    parts = parts_of(inputs)
    for bits in range(1 << 9):
        yield of_parts(parts, [bit for bit in range(9) if bits >> bit & 1])


def with_a_bit_of_the_map_flipped(random):
    """Each bit of the map, for a job of each kind; the rest of the job stays."""
    for kind in KINDS_OF_JOBS:
        job = job_of(kind, drawn(random, kind, 2))
        for bit in range(16):
            yield struct.pack("<H", struct.unpack("<H", job[:2])[0] ^ 1 << bit) + job[2:]


def too_large(random):
    """The limits of length, n and m, passed by one and by more. Where there is room, the rest of the job fits n and m."""
    job = job_of(OMEGA6, next(large(random, OMEGA6)))
    yield from (job + bytes(length - len(job)) for length in (16384, 16385, 16386))
    for kind in (OMEGA4, WEIGHTED_OMEGA4_ADJOINT):
        yield job_of(kind, drawn(random, kind, 65))
    few = drawn(random, OMEGA4, 1)
    for sample in names_of_samples(OMEGA4):
        few[sample].update({"row starts": [0, 513], "columns": [0] * 513, "values": [ONE] * 513})
    yield job_of(OMEGA4, few)
    job = job_of(OMEGA4, drawn(random, OMEGA4, 1))
    for n, m in ((65, 0), (LARGEST_WORD, 0), (0, 513), (0, LARGEST_WORD), (64, 512), (LARGEST_WORD, LARGEST_WORD), (256, 1), (1, 512)):
        yield job[:2] + struct.pack("<HH", n, m) + job[6:]


def malformed(random):
    for family in (cut_short, of_each_map, with_a_bit_of_the_map_flipped, too_large):
        yield from family(random)


def inputs(random):
    """Pairs of the kind and inputs, in a fixed order."""
    families = (points, accepted, large, refused)
    steps = [(kind, fields) for kind in KINDS_OF_JOBS for family in families for fields in family(random, kind)]
    all_jobs = [job_of(*step) for step in steps if has_one_pattern(step[1])] + list(malformed(random))
    return [(JOB, {"job": job}) for job in all_jobs]
