"""Document 01's table of refusals, row by row, and the order in which each call looks at them. Counts are whole numbers and
reals are bit patterns.

A check has its row of the table, the place that it looks at, and a function of the inputs: the values of the refusal where the
row's condition is met, else None.
"""

from collections import namedtuple

from ieee import is_finite, to_bits, to_float
from list_format import (
    APPLY_INTO_SLICE,
    AXPY_INTO_SLICE,
    COPY_FROM,
    EVOLVE,
    EVOLVE_ADJOINT,
    FROM_CSR_PARTS,
    GERSHGORIN_BOUND_CSR,
    OMEGA4,
    OMEGA4_ADJOINT,
    OMEGA6,
    SEGMENT_INDEX,
    WEIGHTED_EVOLVE_ADJOINT,
    WEIGHTED_OMEGA4,
    WEIGHTED_OMEGA4_ADJOINT,
    names_of_samples,
)

LARGEST_N = 4096
MOST_COLUMNS = 65535
MOST_SEGMENTS = 65535
MOST_STEPS = 65535
HALF_PI = to_float(0x3FF921FB54442D18)

# Rows of 01's table whose values are reals. The others carry counts.
ROWS_OF_REALS = {5, 7, 8, 9, 11, 15, 17, 18, 20}

Check = namedtuple("Check", "row place met")


# Row 6: n > 4,096, else columns > 65,535.
def too_large(network):
    if network["n"] > LARGEST_N:
        return [network["n"]]
    return [len(network["columns"])] if len(network["columns"]) > MOST_COLUMNS else None


# Row 1: the count of row starts is not n+1.
def wrong_count_of_starts(network):
    listed = len(network["row starts"])
    return [listed] if listed != network["n"] + 1 else None


# Row 2: the first i whose start exceeds the next.
def falling_start(network):
    starts = network["row starts"]
    return next(([i] for i in range(len(starts) - 1) if starts[i] > starts[i + 1]), None)


# Row 3: columns or values are not as many as the last row start says.
def wrong_count_of_entries(network):
    for last in network["row starts"][-1:]:
        if len(network["columns"]) != last or len(network["values"]) != last:
            return [last]
    return None


# Row 4: the first column >= n.
def column_outside(network):
    return next(([column] for column in network["columns"] if column >= network["n"]), None)


# Row 5: the first listed value not finite.
def value_not_finite(network):
    return next(([value] for value in network["values"] if not is_finite(value)), None)


PATTERN_ROWS = (
    (6, too_large),
    (1, wrong_count_of_starts),
    (2, falling_start),
    (3, wrong_count_of_entries),
    (4, column_outside),
    (5, value_not_finite),
)

# The inputs of a call on one network have its parts among them.
PATTERN_CHECKS = tuple(Check(row, "network", met) for row, met in PATTERN_ROWS)


def sample_checks(sample):
    """The pattern's rows, for one of a step's samples."""
    return tuple(Check(row, sample, lambda inputs, met=met: met(inputs[sample])) for row, met in PATTERN_ROWS)


def nodes(inputs):
    """The n of a call: the network's, or the first sample's."""
    return inputs.get("sample 1", inputs)["n"]


# Row 10, for a slice that must have n elements.
def length_check(name):
    return Check(10, name, lambda inputs: [len(inputs[name])] if len(inputs[name]) != nodes(inputs) else None)


# Row 10 of copy and sum: the read slice's length, where it is not the written slice's.
def lengths_differ(inputs):
    return [len(inputs["source"])] if len(inputs["source"]) != len(inputs["target"]) else None


def is_positive(bits):
    return is_finite(bits) and to_float(bits) > 0


# Row 9: a bound not finite or <= 0.
def bound_check(name):
    return Check(9, name, lambda inputs: None if is_positive(inputs[name]) else [inputs[name]])


# Row 12: a weighted form with n = 0.
def no_nodes(inputs):
    return [0] if nodes(inputs) == 0 else None


# Row 7: τ not finite or < 0.
def tau_outside(inputs):
    tau = inputs["tau"]
    return [tau] if not is_finite(tau) or to_float(tau) < 0 else None


def whole_bound(inputs):
    """The bound of row 8: the spectral bound, or (bound·root bound)·root bound."""
    bound = to_float(inputs["spectral bound"])
    if "root bound" in inputs:
        root_bound = to_float(inputs["root bound"])
        bound = (bound * root_bound) * root_bound
    return bound


# Row 8: the check is on and bound·τ >= π/2.
def outside_radius(inputs):
    bound = whole_bound(inputs)
    if inputs["check"] and bound * to_float(inputs["tau"]) >= HALF_PI:
        return [inputs["tau"], to_bits(bound)]
    return None


# Row 10: the second or third sample's n is not n.
def nodes_check(sample):
    return Check(10, sample, lambda inputs: [inputs[sample]["n"]] if inputs[sample]["n"] != nodes(inputs) else None)


# Row 10: either weights are not n many; the larger length.
def weights_length_check(first, second):
    def wrong_count_of_weights(inputs):
        lengths = [len(inputs[first]), len(inputs[second])]
        return [max(lengths)] if lengths != [nodes(inputs)] * 2 else None

    return Check(10, "weights", wrong_count_of_weights)


WORK_VECTORS = {
    OMEGA4: 5,
    OMEGA4_ADJOINT: 5,
    WEIGHTED_OMEGA4: 9,
    WEIGHTED_OMEGA4_ADJOINT: 9,
    OMEGA6: 22,
    EVOLVE: 7,
    EVOLVE_ADJOINT: 7,
    WEIGHTED_EVOLVE_ADJOINT: 11,
}


def work_need(kind, inputs):
    """How many elements of the work slice a step or a run needs: so many times n, and for a run 2m more."""
    return WORK_VECTORS[kind] * nodes(inputs) + (2 * len(inputs["columns"]) if "columns" in inputs else 0)


# Row 10: the work slice is shorter than the need.
def work_check(kind):
    return Check(10, "work", lambda inputs: [inputs["work length"]] if inputs["work length"] < work_need(kind, inputs) else None)


# Row 11: the first weight not finite or <= 0.
def weight_check(name):
    return Check(11, name, lambda inputs: next(([bits] for bits in inputs[name] if not is_positive(bits)), None))


def step_checks(kind):
    samples = names_of_samples(kind)
    return (
        *(check for sample in samples for check in sample_checks(sample)),
        bound_check("spectral bound"),
        Check(7, "tau", tau_outside),
        Check(8, "tau", outside_radius),
        *(nodes_check(sample) for sample in samples[1:]),
        length_check("signal"),
        length_check("output"),
        work_check(kind),
    )


def weighted_step_checks(kind):
    return sample_checks("sample 1") + sample_checks("sample 2") + (
        bound_check("spectral bound"),
        bound_check("root bound"),
        Check(12, "sample 1", no_nodes),
        Check(7, "tau", tau_outside),
        Check(8, "tau", outside_radius),
        nodes_check("sample 2"),
        length_check("signal"),
        length_check("output"),
        weights_length_check("weights 1", "weights 2"),
        work_check(kind),
        weight_check("weights 1"),
        weight_check("weights 2"),
    )


# Row 3 of a run: its columns are not as many as the last row start says.
def wrong_count_of_columns(inputs):
    return next(([last] for last in inputs["row starts"][-1:] if len(inputs["columns"]) != last), None)


# Row 13: segments 0 or > 65,535; in an adjoint run other than one.
def wrong_count_of_segments(inputs):
    return None if 1 <= inputs["segments"] <= MOST_SEGMENTS else [inputs["segments"]]


def not_one_segment(inputs):
    return None if inputs["segments"] == 1 else [inputs["segments"]]


# Row 14: breakpoints not segments+1; start, end pool not segments·m; laws not segments.
def pool_check(name, needed):
    return Check(14, name, lambda inputs: [len(inputs[name])] if len(inputs[name]) != needed(inputs) else None)


BREAKPOINTS_CHECK = pool_check("breakpoints", lambda inputs: inputs["segments"] + 1)
POOL_CHECKS = (
    BREAKPOINTS_CHECK,
    pool_check("start pool", lambda inputs: inputs["segments"] * len(inputs["columns"])),
    pool_check("end pool", lambda inputs: inputs["segments"] * len(inputs["columns"])),
    pool_check("laws", lambda inputs: inputs["segments"]),
)


# Row 15: the first breakpoint not finite, or not above its predecessor.
def breakpoint_at_fault(inputs):
    times = inputs["breakpoints"]
    for i, time in enumerate(times):
        if not is_finite(time) or (i > 0 and not to_float(time) > to_float(times[i - 1])):
            return [time]
    return None


# Row 16: steps over 65,535; 0 in a forward run.
def too_many_steps(inputs):
    return [inputs["steps"]] if inputs["steps"] > MOST_STEPS else None


def wrong_count_of_steps(inputs):
    return [0] if inputs["steps"] == 0 else too_many_steps(inputs)


# Row 17: the first breakpoint not 0.
def other_start(inputs):
    return next(([time] for time in inputs["breakpoints"][:1] if to_float(time) != 0), None)


# Row 18: the lookup time NaN or outside.
def time_outside(inputs):
    times = [to_float(time) for time in inputs["breakpoints"]]
    return None if times and times[0] <= to_float(inputs["t"]) <= times[-1] else [inputs["t"]]


# Row 19: the first law above 2.
def unknown_law(inputs):
    return next(([law] for law in inputs["laws"] if law > 2), None)


# Row 5 of a run: the first value not finite in all start lists, then in the end lists.
def pooled_value_check(name):
    return Check(5, name, lambda inputs: next(([value] for value in inputs[name] if not is_finite(value)), None))


def lengths_of_steps(inputs):
    """Part 10: the τ of each segment, (end−start)/steps."""
    times = [to_float(time) for time in inputs["breakpoints"][: inputs["segments"] + 1]]
    return [(end - start) / inputs["steps"] for start, end in zip(times, times[1:])] if inputs["steps"] else []


# Row 8 of a forward run: the check is on and bound·τ >= π/2 in some segment; the first of them.
def segment_outside_radius(inputs):
    bound = to_float(inputs["spectral bound"])
    taus = lengths_of_steps(inputs) if inputs["check"] else []
    return next(([to_bits(tau), to_bits(bound)] for tau in taus if bound * tau >= HALF_PI), None)


# 6 and 1 to 4 of a run.
RUN_PATTERN_CHECKS = tuple(
    Check(row, "network", wrong_count_of_columns if row == 3 else met) for row, met in PATTERN_ROWS if row != 5
)
LOOKUP_CHECKS = (
    Check(13, "segments", wrong_count_of_segments),
    BREAKPOINTS_CHECK,
    Check(15, "breakpoints", breakpoint_at_fault),
    Check(18, "t", time_outside),
)
FORWARD_CHECKS = RUN_PATTERN_CHECKS + (
    Check(13, "segments", wrong_count_of_segments),
    *POOL_CHECKS,
    Check(15, "breakpoints", breakpoint_at_fault),
    Check(19, "laws", unknown_law),
    pooled_value_check("start pool"),
    pooled_value_check("end pool"),
    bound_check("spectral bound"),
    Check(16, "steps", wrong_count_of_steps),
    Check(17, "breakpoints", other_start),
    length_check("signal"),
    length_check("output"),
    work_check(EVOLVE),
    Check(8, "tau", segment_outside_radius),
)


def with_steps(check):
    """A check that an adjoint run of no steps does not make."""
    return check._replace(met=lambda inputs: check.met(inputs) if inputs["steps"] else None)


def adjoint_checks(kind):
    weighted = kind == WEIGHTED_EVOLVE_ADJOINT
    return RUN_PATTERN_CHECKS + (
        Check(13, "segments", not_one_segment),
        *POOL_CHECKS,
        Check(15, "breakpoints", breakpoint_at_fault),
        Check(17, "breakpoints", other_start),
        Check(19, "laws", unknown_law),
        pooled_value_check("start pool"),
        pooled_value_check("end pool"),
        bound_check("spectral bound"),
        *((bound_check("root bound"), Check(12, "network", no_nodes)) if weighted else ()),
        with_steps(Check(16, "steps", too_many_steps)),
        with_steps(Check(7, "tau", tau_outside)),
        with_steps(Check(8, "tau", outside_radius)),
        length_check("signal"),
        length_check("output"),
        *((with_steps(weights_length_check("start weights", "end weights")),) if weighted else ()),
        with_steps(work_check(kind)),
    )


CHECKS = {
    FROM_CSR_PARTS: PATTERN_CHECKS,
    GERSHGORIN_BOUND_CSR: PATTERN_CHECKS,
    APPLY_INTO_SLICE: PATTERN_CHECKS + (length_check("signal"), length_check("output")),
    COPY_FROM: (Check(10, "source", lengths_differ),),
    AXPY_INTO_SLICE: (Check(10, "source", lengths_differ),),
    OMEGA4: step_checks(OMEGA4),
    OMEGA4_ADJOINT: step_checks(OMEGA4_ADJOINT),
    WEIGHTED_OMEGA4: weighted_step_checks(WEIGHTED_OMEGA4),
    WEIGHTED_OMEGA4_ADJOINT: weighted_step_checks(WEIGHTED_OMEGA4_ADJOINT),
    OMEGA6: step_checks(OMEGA6),
    SEGMENT_INDEX: LOOKUP_CHECKS,
    EVOLVE: FORWARD_CHECKS,
    EVOLVE_ADJOINT: adjoint_checks(EVOLVE_ADJOINT),
    WEIGHTED_EVOLVE_ADJOINT: adjoint_checks(WEIGHTED_EVOLVE_ADJOINT),
}


def faults(kind, inputs):
    """The checks whose condition is met, in the call's order."""
    return [check for check in CHECKS[kind] if check.met(inputs) is not None]
