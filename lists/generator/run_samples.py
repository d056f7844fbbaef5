"""What the inputs of runs are drawn from: a pattern, segments with lists and laws, numbers, a signal, and what is lent besides."""

from checks import outside_radius, segment_outside_radius, work_need
from ieee import SIGN, is_finite, to_bits, to_float
from list_format import EVOLVE, WEIGHTED_EVOLVE_ADJOINT
from networks import network
from random_reals import finite_list, ordinary, signal_list, with_fields
from step_samples import BOUND_SORTS, WORK_PATTERNS, moderate, positive

MOST_SEGMENTS = 7
MOST_STEPS = 50


def size(random):
    return random.between(1, 6) if random.chance(95) else random.between(7, 20)


def few_steps(random):
    return random.choice((1, 1, 2, 3, random.between(1, 8), random.between(1, MOST_STEPS)))


def tau_of(random, steps):
    """A τ of ordinary size, smaller where there are many steps, so that the signal stays within the range."""
    return with_fields(random, 1015, 1023 if steps < 8 else 1018 if steps < 60 else 1015) & ~SIGN


def increasing(random, first, increments):
    """Breakpoints from the first on, each above its predecessor and finite."""
    times = [first]
    for increment in increments:
        time = to_bits(to_float(times[-1]) + to_float(increment))
        if to_float(time) <= to_float(times[-1]):
            time = next_above(times[-1])
        times.append(time)
    return times if is_finite(times[-1]) else increasing(random, first, [random.below(1 << 60) for _ in increments])


def next_above(bits):
    """The least value above this one, which is no NaN and not the largest."""
    if bits & ~SIGN == 0:
        return 1
    return bits + 1 if bits < SIGN else bits - 1


def breakpoints_of(random, segments, steps):
    """From 0 on, with steps of ordinary size."""
    lengths = [to_bits(to_float(tau_of(random, segments * steps)) * steps) for _ in range(segments)]
    return increasing(random, random.choice((0, 0, 0, SIGN)), lengths)


def adjoint_breakpoints(random, tau, steps):
    """From 0 to somewhere about the end of the steps, or before it."""
    length = to_float(tau) * max(steps, 1)
    return increasing(random, random.choice((0, 0, 0, SIGN)), [to_bits(length * random.choice((0.5, 1.0, 1.0, 2.0, 9.0)))])


def run_inputs(random, kind, n, times, steps, tau=None, sort=moderate, signal=None, laws=None, weights=None):
    """Accepted inputs of a run along these breakpoints, unless a sample is refused during it. The check is on in about half."""
    segments = len(times) - 1
    inputs = network(random, n, sort)
    del inputs["values"]
    entries = segments * len(inputs["columns"])
    inputs.update({"segments": segments, "breakpoints": times, "steps": steps, "check": random.below(2)})
    inputs["start pool"], inputs["end pool"] = finite_list(random, entries, sort), finite_list(random, entries, sort)
    inputs["laws"] = laws or [random.below(3) for _ in range(segments)]
    if kind != EVOLVE:
        inputs["tau"] = tau
    if kind == WEIGHTED_EVOLVE_ADJOINT:
        inputs["start weights"], inputs["end weights"] = weights or growing_weights(random, n)
    inputs["signal"] = signal_list(random, n, moderate) if signal is None else signal
    inputs["output"] = signal_list(random, n, ordinary, 10)
    draw_bounds(random, kind, inputs)
    draw_work(random, kind, inputs)
    return inputs


def growing_weights(random, n):
    """Weights at the start and at the end, in most cases larger ones, so that they stay above 0 past the end."""
    start = [positive(random, moderate) for _ in range(n)]
    if random.chance(25):
        return start, [positive(random, moderate) for _ in range(n)]
    return start, [to_bits(to_float(weight) * random.choice((1.0, 1.25, 2.0))) for weight in start]


def draw_bounds(random, kind, inputs):
    """Bounds that pass rows 9 and 8; without the check where none is found soon."""
    for _ in range(100):
        inputs["spectral bound"] = positive(random, random.choice(BOUND_SORTS))
        if kind == WEIGHTED_EVOLVE_ADJOINT:
            inputs["root bound"] = positive(random, random.choice(BOUND_SORTS))
        if (segment_outside_radius if kind == EVOLVE else outside_radius)(inputs) is None:
            return
    inputs["check"] = 0


def draw_work(random, kind, inputs):
    """A work slice of just the need, or somewhat longer."""
    inputs["work length"] = work_need(kind, inputs) + (0 if random.chance(50) else random.between(1, 9))
    inputs["work"] = random.choice(WORK_PATTERNS)


def moderate_run(random, kind, n, steps=None, segments=None, **given):
    """A run of ordinary size."""
    steps = few_steps(random) if steps is None else steps
    if kind == EVOLVE:
        segments = segments or random.between(1, MOST_SEGMENTS)
        return run_inputs(random, kind, n, breakpoints_of(random, segments, steps), steps, **given)
    tau = tau_of(random, steps)
    return run_inputs(random, kind, n, adjoint_breakpoints(random, tau, steps), steps, tau, **given)
