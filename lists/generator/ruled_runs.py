"""Lookups and runs at document 01's limits, given by the rules of rules.py."""

from checks import LARGEST_N, MOST_COLUMNS, MOST_SEGMENTS, MOST_STEPS, work_need
from ieee import INFINITY, NAN, ONE, SIGN, to_bits, to_float
from list_format import RULED_EVOLVE, RULED_EVOLVE_ADJOINT, RULED_SEGMENT_INDEX, RULED_WEIGHTED_EVOLVE_ADJOINT
from random_reals import finite_list, ordinary, signal_list, with_fields
from rules import BY_RULES, breakpoints
from run_samples import next_above
from step_samples import moderate, positive

# Nodes, width of a row and entries: as many nodes and entries as there may be, as many entries in one row, few of either.
BOTH, ONE_ROW, FEW = (LARGEST_N, 16, MOST_COLUMNS), (1, MOST_COLUMNS, MOST_COLUMNS), (2, 2, 4)
THOUSANDS = (LARGEST_N, 3, 3 * LARGEST_N)


def small(random):
    """Values whose rows of 16 stay of ordinary size."""
    return with_fields(random, 1014, 1021)


def ruled_run(random, kind, shape, segments, steps, laws, sort=small):
    """A run of this shape."""
    n, width, entries = shape
    inputs = {"n": n, "first row start": 0, "row width": width, "entries": entries, "column stride": random.choice((1, 5, 7, 1023))}
    tau = with_fields(random, 1012, 1016) & ~SIGN if segments * steps > 100 else with_fields(random, 1018, 1021) & ~SIGN
    inputs["segments"], inputs["steps"], inputs["tau"] = segments, steps, tau
    inputs["increments"] = [to_bits(to_float(tau) * max(steps, 1) * part) for part in (1.0, 0.75, 1.5)[: min(segments, 3)]]
    for name in ("start pool", "end pool"):
        inputs[name] = finite_list(random, random.choice((11, 13, 17)), sort)
    inputs["laws"] = laws
    inputs["signal"] = signal_list(random, random.choice((3, 5, 7)), moderate)
    inputs.update({"spectral bound": ONE, "check": 1, "output": ordinary(random), "work": random.choice((ONE, NAN, SIGN))})
    if kind == RULED_WEIGHTED_EVOLVE_ADJOINT:
        start = [positive(random, moderate) for _ in range(5)]
        end = [to_bits(to_float(weight) * 1.5) for weight in start]
        inputs.update({"root bound": ONE, "start weights": start, "end weights": end})
    need = work_need(BY_RULES[kind], {"n": n, "columns": range(entries)})
    inputs["work length"] = need + random.choice((0, 3))
    return inputs


def falling(random):
    """Values of diagonals that make a signal fall."""
    return with_fields(random, 1018, 1020) & ~SIGN


def forward_runs(random):
    yield ruled_run(random, RULED_EVOLVE, BOTH, 1, 2, [2])
    yield ruled_run(random, RULED_EVOLVE, THOUSANDS, 3, 1, [0, 1, 2])
    yield ruled_run(random, RULED_EVOLVE, ONE_ROW, 2, 3, [2, 1])
    yield ruled_run(random, RULED_EVOLVE, FEW, MOST_SEGMENTS, 1, [2, 0, 1, 2], falling)
    yield ruled_run(random, RULED_EVOLVE, FEW, 1, MOST_STEPS, [2], falling)
    # Each limit passed by one; the work slice one element short.
    yield {**ruled_run(random, RULED_EVOLVE, FEW, 1, 1, [0]), "n": LARGEST_N + 1}
    yield ruled_run(random, RULED_EVOLVE, (1, MOST_COLUMNS + 1, MOST_COLUMNS + 1), 1, 1, [0])
    yield ruled_run(random, RULED_EVOLVE, FEW, MOST_SEGMENTS + 1, 1, [0])
    yield ruled_run(random, RULED_EVOLVE, FEW, 1, MOST_STEPS + 1, [0])
    short = ruled_run(random, RULED_EVOLVE, BOTH, 1, 1, [0])
    yield {**short, "work length": 7 * LARGEST_N + 2 * MOST_COLUMNS - 1}
    # A law above 2, a value that is not finite and breakpoints that stop rising, late in long lists.
    late = ruled_run(random, RULED_EVOLVE, FEW, MOST_SEGMENTS, 1, [0, 1, 2])
    yield {**late, "laws": [0] * 1000 + [3]}
    yield {**late, "end pool": [ONE] * 5000 + [INFINITY]}
    yield {**late, "increments": [ONE] * 5000 + [0]}
    yield {**late, "laws": [0] * 5000 + [2], "start pool": [to_bits(1e308)], "end pool": [to_bits(-1e308)]}


def adjoint_runs(random, kind):
    yield ruled_run(random, kind, BOTH, 1, 2, [2])
    yield ruled_run(random, kind, THOUSANDS, 1, 1, [random.choice((0, 1))])
    yield ruled_run(random, kind, FEW, 1, MOST_STEPS, [2] if kind == RULED_EVOLVE_ADJOINT else [1], falling)
    yield ruled_run(random, kind, FEW, 1, MOST_STEPS + 1, [0])
    yield ruled_run(random, kind, BOTH, 1, 0, [2])


def lookups(random):
    """In as many segments as there may be: at breakpoints, next to them, at both ends and outside."""
    inputs = {"segments": MOST_SEGMENTS, "increments": [positive(random, small) for _ in range(7)]}
    times = breakpoints(inputs)
    places = [0, 1, 2, 4095, 32767, 32768, MOST_SEGMENTS - 1, MOST_SEGMENTS] + [random.below(MOST_SEGMENTS) for _ in range(6)]
    for k in places:
        yield {**inputs, "t": times[k]}
        yield {**inputs, "t": next_above(times[k])}
        yield {**inputs, "t": next_above(times[k] ^ SIGN) ^ SIGN}
    yield {**inputs, "segments": MOST_SEGMENTS + 1, "t": ONE}


def ruled_inputs(random):
    """Pairs of a kind and inputs, in a fixed order."""
    yield from ((RULED_SEGMENT_INDEX, fields) for fields in lookups(random))
    yield from ((RULED_EVOLVE, fields) for fields in forward_runs(random))
    for kind in (RULED_EVOLVE_ADJOINT, RULED_WEIGHTED_EVOLVE_ADJOINT):
        yield from ((kind, fields) for fields in adjoint_runs(random, kind))
