"""The inputs of lookups and runs (document 01, parts 8 and 10), family by family."""

from checks import HALF_PI, lengths_of_steps, whole_bound
from ieee import ONE, SIGN, to_bits, to_float
from list_format import EVOLVE, EVOLVE_ADJOINT, SEGMENT_INDEX, WEIGHTED_EVOLVE_ADJOINT
from random_reals import FINITE_SORTS, INFINITIES, NANS, ZEROS, huge, ordinary, signal_list, tiny, with_fields
from ruled_runs import ruled_inputs
from run_faults import FAULTS_OF_RUNS, refused
from run_samples import (
    MOST_STEPS,
    breakpoints_of,
    few_steps,
    growing_weights,
    increasing,
    moderate_run,
    next_above,
    run_inputs,
    size,
    tau_of,
)
from step_samples import LARGEST, WEIGHT_SORTS, moderate, positive
from steps import least_tau_outside

ADJOINT_RUNS = (EVOLVE_ADJOINT, WEIGHTED_EVOLVE_ADJOINT)


def of_moderate_values(random, kind, count):
    for _ in range(count):
        yield moderate_run(random, kind, size(random))


def of_law_2(random, kind, count):
    """Law 2 throughout and long steps, so that the commutator and the sample times weigh."""
    for _ in range(count):
        n, steps, tau = random.between(2, 6), random.between(1, 4), with_fields(random, 1020, 1023) & ~SIGN
        segments = random.between(1, 4) if kind == EVOLVE else 1
        times = increasing(random, 0, [to_bits(to_float(tau) * steps * random.choice((1.0, 0.7, 1.3))) for _ in range(segments)])
        yield run_inputs(random, kind, n, times, steps, tau, laws=[2] * segments)


def of_each_count_of_steps(random, kind):
    for steps in range(1, MOST_STEPS + 1):
        yield moderate_run(random, kind, random.between(1, 4), steps, random.between(1, 3))


def any_weights(random, n):
    return [[positive(random, random.choice(WEIGHT_SORTS)) for _ in range(n)] for _ in range(2)]


def of_any_values(random, kind, count):
    """Values of every sort, times too, and signals with NaNs and infinities. Sampled values overflow in some (row 20)."""
    for k in range(count):
        n, steps, sort = size(random), few_steps(random), random.choice(FINITE_SORTS)
        signal = signal_list(random, n, random.choice(FINITE_SORTS), (0, 0, 8, 25)[k % 4])
        segments = random.between(1, 5) if kind == EVOLVE else 1
        times = breakpoints_of(random, segments, steps)
        tau = tau_of(random, steps)
        if random.chance(40):
            times = increasing(random, 0, [random.choice(FINITE_SORTS)(random) & ~SIGN for _ in range(segments)])
            tau = random.choice(FINITE_SORTS)(random) & ~SIGN
        weights = any_weights(random, n) if kind == WEIGHTED_EVOLVE_ADJOINT else None
        yield run_inputs(random, kind, n, times, steps, tau, sort, signal, None, weights)


def large_for(tau):
    """Values that bring products with this τ back into the range: a sort."""
    field = min(max(2044 - ((tau & ~SIGN) >> 52), 2), 2044)
    return lambda random: with_fields(random, field - 2, field)


def of_small_times(random, kind, count):
    """Breakpoints a few of the least values apart, so that τ is subnormal or rounds to 0, and τ of the adjoint such a value."""
    for _ in range(count):
        n, steps = random.between(1, 4), random.between(1, MOST_STEPS)
        segments = random.between(1, 5) if kind == EVOLVE else 1
        apart = [random.between(1, 200) << random.choice((0, 0, 20)) for _ in range(segments)]
        times = increasing(random, random.choice(ZEROS), apart)
        tau = random.choice((0, SIGN, 1, 2, random.between(1, 200), 0x0010000000000000, 0x0020000000000000 + random.between(-1, 1)))
        yield run_inputs(random, kind, n, times, steps, tau, random.choice((large_for(0), moderate)))


def of_large_times(random, kind, count):
    """Times near the largest value, with values that are small accordingly. The sample times of the adjoint overflow in some: under
    laws 0 and 1 that has no effect, under law 2 the samples are not finite (row 20)."""
    for _ in range(count):
        n, steps = random.between(1, 4), random.between(1, MOST_STEPS)
        lengths = sorted(with_fields(random, 2000, 2044) & ~SIGN for _ in range(random.between(1, 4) if kind == EVOLVE else 1))
        tau = random.choice((LARGEST, with_fields(random, 2030, 2046) & ~SIGN, with_fields(random, 1990, 2040) & ~SIGN))
        sort = large_for(lengths[-1] if kind == EVOLVE else tau)
        yield run_inputs(random, kind, n, increasing(random, 0, lengths), steps, tau, sort)


def next_to_each_other(random, count):
    """Segments whose ends are neighbours: sample times round to one of the two ends. At the start the part is 0, and 0·∞ a NaN."""
    for k in range(count):
        n, steps, segments = random.between(1, 3), few_steps(random), random.between(2, 5)
        times = [0, with_fields(random, 1000, 1040) & ~SIGN]
        while len(times) <= segments:
            times.append(next_above(times[-1]))
        yield run_inputs(random, EVOLVE, n, times, steps, None, (moderate, moderate, huge)[k % 3])


def overflowing_samples(random, kind, count):
    """One segment, under law 2, with a difference of its lists that overflows (row 20), first in a later segment in most."""
    for _ in range(count):
        segments = random.between(1, 6)
        inputs = moderate_run(random, kind, random.between(1, 4), random.between(1, 5), segments)
        entries = len(inputs["columns"])
        if entries:
            k = random.below(inputs["segments"])
            inputs["laws"][k] = 2
            at = k * entries + random.below(entries)
            inputs["start pool"][at] = random.choice((LARGEST, LARGEST | SIGN))
            inputs["end pool"][at] = inputs["start pool"][at] ^ SIGN
        yield inputs


def past_the_end(random, kind, count):
    """An adjoint run whose steps go far past the end of its segment, and lists that are carried past it too."""
    for _ in range(count):
        n, steps = random.between(1, 4), few_steps(random)
        tau = tau_of(random, steps)
        end = to_bits(to_float(tau) * random.choice((0.01, 0.1, 1e-5, 1e-300)))
        sort = random.choice((moderate, moderate, ordinary, tiny))
        weights = growing_weights(random, n) if kind == WEIGHTED_EVOLVE_ADJOINT else None
        times, laws = [random.choice(ZEROS), end], [random.choice((2, 2, 2, 0, 1))]
        yield run_inputs(random, kind, n, times, steps, tau, sort, None, laws, weights)


NOT_WEIGHTS = (*NANS[:2], *INFINITIES, *ZEROS, ONE | SIGN, SIGN | 1)


def weights_at_fault(random, count):
    """Weights that are at fault in the list that the law uses, or that fall to 0 or below on the way (row 11)."""
    for k in range(count):
        n, steps = random.between(1, 4), random.between(1, 12)
        inputs = moderate_run(random, WEIGHTED_EVOLVE_ADJOINT, n, steps)
        at = random.below(n)
        if k % 2:
            law = random.choice((0, 1, 0, 1, 2))
            inputs["laws"] = [law]
            inputs["end weights" if law else "start weights"][at] = NOT_WEIGHTS[k // 2 % len(NOT_WEIGHTS)]
        else:
            # The adjoint starts at the last step: a weight below 0 at time 0 is met late.
            inputs.update({"laws": [2], "breakpoints": [0, to_bits(to_float(inputs["tau"]) * steps)]})
            inputs["start weights"][at], inputs["end weights"][at] = positive(random, moderate) | SIGN, positive(random, moderate)
        yield inputs


def values_before_weights(random, count):
    """A sampled value and a weight at fault in one step: row 20 stands before row 11."""
    for _ in range(count):
        inputs = moderate_run(random, WEIGHTED_EVOLVE_ADJOINT, random.between(2, 4), random.between(1, 4))
        if inputs["columns"]:
            at = random.below(len(inputs["columns"]))
            inputs["laws"], inputs["start pool"][at], inputs["end pool"][at] = [2], LARGEST, LARGEST | SIGN
        inputs[random.choice(("start weights", "end weights"))][0] = random.choice(NOT_WEIGHTS)
        yield inputs


def no_steps(random, kind, count):
    """A copy, whatever τ, the radius, the weights and the work slice are; but not another length of signal or output, and no fault
    that stands before the steps."""
    after = [fault for fault in FAULTS_OF_RUNS[kind] if fault.row in (7, 8, 10)]
    for k in range(count):
        inputs = moderate_run(random, kind, random.between(1, 5), 0)
        inputs["signal"] = signal_list(random, inputs["n"], ordinary, 30)
        for fault in after if k % 3 == 0 else [random.choice(after)]:
            if k % 3 == 2 or fault.place not in ("signal", "output"):
                fault.plant(random, inputs)
        yield inputs
    for fault in FAULTS_OF_RUNS[kind]:
        if fault.row not in (7, 8, 10, 12, 16):
            inputs = moderate_run(random, kind, random.between(2, 4), 0)
            fault.plant(random, inputs)
            yield inputs


def at_the_radius(random, kind, count):
    """The least τ that is refused and the largest that passes; and the first again with the check off. One step in one segment, so
    that the τ of a forward run is its end."""
    for _ in range(count):
        inputs = moderate_run(random, kind, random.between(1, 3), 1, 1)
        inputs["spectral bound"] = positive(random, ordinary)
        if kind == WEIGHTED_EVOLVE_ADJOINT:
            inputs["root bound"] = positive(random, moderate)
        outside = least_tau_outside(whole_bound(inputs))
        for tau, check in ((outside, 1), (outside - 1, 1), (outside, 0)):
            at = {"breakpoints": [0, tau]} if kind == EVOLVE else {"tau": tau}
            yield {**inputs, **at, "check": check}


def radius_of_a_later_segment(random, count):
    """Row 8 is met first in a later segment, and is answered before any step; in every third run an earlier one samples a value
    that is not finite."""
    found = 0
    while found < count:
        inputs = moderate_run(random, EVOLVE, random.between(1, 3), random.between(1, 3), random.between(2, 6))
        taus = lengths_of_steps(inputs)
        later = next((k for k, tau in enumerate(taus) if k and tau > 2 * max(taus[:k])), 0)
        entries = len(inputs["columns"])
        if later and entries:
            found += 1
            inputs.update({"check": 1, "spectral bound": to_bits(HALF_PI / taus[later] * 1.5)})
            if found % 3 == 0:
                inputs["laws"][0], inputs["start pool"][0], inputs["end pool"][0] = 2, LARGEST, LARGEST | SIGN
            yield inputs


def signs_of_zeros(random, kind, count):
    """Values, signals and times that are mostly zeros of either sign, and ones."""
    def amount(random):
        return random.choice((*ZEROS, *ZEROS, ONE, ONE | SIGN))

    for _ in range(count):
        n, steps = random.between(1, 3), random.between(1, 3)
        segments = random.between(1, 3) if kind == EVOLVE else 1
        times = increasing(random, random.choice(ZEROS), [ONE] * segments)
        tau = random.choice((*ZEROS, ONE, 1))
        yield run_inputs(random, kind, n, times, steps, tau, amount, [amount(random) for _ in range(n)])


def without_nodes(random, kind):
    """n = 0: an unweighted run is accepted and writes nothing; a weighted one is refused."""
    for _ in range(8):
        yield moderate_run(random, kind, 0)


def points(random, kind):
    """Document 01's: the network of its job along one segment under each law, τ 1; the samples that do not commute as start and end
    of law 2; n 1 with its entries before the first row."""
    job = {"n": 2, "row starts": [0, 2, 4], "columns": [0, 1, 0, 1]}
    lists = [[ONE, ONE | SIGN, ONE | SIGN, ONE], [ONE, 0, 0, 0], [0, ONE, ONE, 0]]
    before_the_first_row = {"n": 1, "row starts": [2, 2], "columns": [0, 0]}
    for steps in (1, 2, 5):
        for law in (0, 1, 2):
            for start, end in ((0, 0), (1, 2), (2, 1)):
                inputs = moderate_run(random, kind, 2, steps, 1, signal=[ONE, 0])
                yield written_out(kind, inputs, job, lists[start], lists[end], law)
        yield written_out(kind, moderate_run(random, kind, 1, steps, 1, signal=[ONE]), before_the_first_row, [ONE] * 2, [0] * 2, 2)


def written_out(kind, inputs, pattern, start, end, law):
    """A run along one segment from 0 to 1 with this pattern and these lists, weights 1, bound 1 and the check on."""
    n, m = pattern["n"], len(start)
    inputs.update({"start pool": list(start), "end pool": list(end), "laws": [law], "breakpoints": [0, ONE], "check": 1})
    inputs.update({name: list(part) if isinstance(part, list) else part for name, part in pattern.items()})
    inputs.update({"spectral bound": ONE, "work length": (11 if kind == WEIGHTED_EVOLVE_ADJOINT else 7) * n + 2 * m})
    if kind != EVOLVE:
        inputs["tau"] = to_bits(1.0 / inputs["steps"])
    if kind == WEIGHTED_EVOLVE_ADJOINT:
        inputs.update({"root bound": ONE, "start weights": [ONE] * n, "end weights": [ONE] * n})
    return inputs


def lookups(random, count):
    """Times at each breakpoint, next to it on both sides, in the middle between two, and outside."""
    for t in (0.0, -0.0, 1.0, 2.5, 3.0, 3.5):
        yield {"segments": 2, "breakpoints": [to_bits(x) for x in (0.0, 1.0, 3.0)], "t": to_bits(t)}
    for _ in range(count):
        first = random.choice((0, SIGN, ordinary(random), with_fields(random, 0, 2040)))
        lengths = [random.choice((ordinary, with_any_field))(random) & ~SIGN for _ in range(random.between(1, 7))]
        times = increasing(random, first, lengths)
        inside = [random.choice(times) for _ in range(3)]
        near = [next_above(time) for time in inside] + [next_above(time ^ SIGN) ^ SIGN for time in inside]
        k = random.below(len(times) - 1)
        middle = to_bits(to_float(times[k]) / 2 + to_float(times[k + 1]) / 2)
        for t in (*inside, *near, middle, times[0], times[-1], *random.choice((ZEROS, INFINITIES, NANS[:2]))):
            yield {"segments": len(times) - 1, "breakpoints": times, "t": t}


def with_any_field(random):
    return with_fields(random, 0, 1900)


def run_families(random, kind):
    """The families that every run has."""
    yield from points(random, kind)
    yield from without_nodes(random, kind)
    yield from of_moderate_values(random, kind, 70)
    yield from of_law_2(random, kind, 80)
    yield from of_each_count_of_steps(random, kind)
    yield from of_any_values(random, kind, 50)
    yield from of_small_times(random, kind, 30)
    yield from of_large_times(random, kind, 40)
    yield from overflowing_samples(random, kind, 24)
    yield from at_the_radius(random, kind, 6)
    yield from signs_of_zeros(random, kind, 20)
    if kind == EVOLVE:
        yield from next_to_each_other(random, 24)
        yield from radius_of_a_later_segment(random, 24)
    else:
        yield from past_the_end(random, kind, 24)
        yield from no_steps(random, kind, 30)
    if kind == WEIGHTED_EVOLVE_ADJOINT:
        yield from weights_at_fault(random, 64)
        yield from values_before_weights(random, 10)
    yield from refused(random, kind, 4, 30)


def inputs(random):
    """Pairs of a kind and inputs, in a fixed order."""
    pairs = [(SEGMENT_INDEX, fields) for fields in lookups(random, 40)]
    pairs += [(SEGMENT_INDEX, fields) for fields in refused(random, SEGMENT_INDEX, 12, 6)]
    for kind in (EVOLVE, *ADJOINT_RUNS):
        pairs += [(kind, fields) for fields in run_families(random, kind)]
    return pairs + list(ruled_inputs(random))
