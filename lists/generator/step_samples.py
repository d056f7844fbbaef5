"""What the inputs of steps are drawn from: two or three samples, τ, bounds, weights, a signal, and what is lent besides."""

from checks import outside_radius, work_need
from ieee import ONE, SIGN, to_bits
from list_format import OMEGA4, OMEGA4_ADJOINT, WEIGHTED_OMEGA4, WEIGHTED_OMEGA4_ADJOINT, names_of_samples
from networks import network
from random_reals import NANS, ZEROS, any_finite, finite_list, huge, ones, ordinary, signal_list, tiny, whole, with_fields

UNWEIGHTED = (OMEGA4, OMEGA4_ADJOINT)
WEIGHTED = (WEIGHTED_OMEGA4, WEIGHTED_OMEGA4_ADJOINT)
LARGEST = 0x7FEFFFFFFFFFFFFF


def moderate(random):
    """Values whose steps are of ordinary size, the commutator's part too."""
    return with_fields(random, 1020, 1025)


def moderate_tau(random):
    return with_fields(random, 1017, 1024) & ~SIGN


def positive(random, sort):
    """A value of the sort without its sign; one in place of zero."""
    return sort(random) & ~SIGN or ONE


WEIGHT_SORTS = (moderate, moderate, moderate, ordinary, ones, whole, any_finite, tiny, huge)
BOUND_SORTS = (moderate, ordinary, any_finite, tiny)
WORK_PATTERNS = (0, SIGN, ONE, ONE | SIGN, LARGEST, 1, *NANS, 0x0123456789ABCDEF)


def own_patterns(random, kind, n, sort):
    """The samples of a step that have nothing to do with each other."""
    return [network(random, n, sort) for _ in names_of_samples(kind)]


def one_pattern(random, kind, n, sort):
    """The samples of a step, of one pattern."""
    first = network(random, n, sort)
    others = names_of_samples(kind)[1:]
    return [first, *({**copied(first), "values": finite_list(random, len(first["values"]), sort)} for _ in others)]


def copied(sample):
    return {name: list(part) if isinstance(part, list) else part for name, part in sample.items()}


def equal_samples(random, kind, n, sort):
    """One sample for all; now and then with the other zeros."""
    first = network(random, n, sort)
    samples = [first]
    for _ in names_of_samples(kind)[1:]:
        samples.append(copied(first))
        if random.chance(30):
            samples[-1]["values"] = [value ^ SIGN if value in ZEROS else value for value in first["values"]]
    return samples


def one_way(random, kind, n, sort):
    """Samples, equal ones at times, that carry from the other nodes to the first and nowhere else. Their products with each
    other vanish, so that values may be large without a commutator that overflows."""
    def sample():
        entries = random.between(1, 3)
        columns = [random.between(1, n - 1) for _ in range(entries)]
        return {"n": n, "row starts": [0] + [entries] * n, "columns": columns, "values": finite_list(random, entries, sort)}

    first = sample()
    return [first, *(copied(first) if random.chance(50) else sample() for _ in names_of_samples(kind)[1:])]


def large_sample(random, n, entries):
    """A sample of n nodes and so many entries, spread over its rows."""
    starts = sorted(random.below(entries + 1) for _ in range(n)) + [entries]
    columns = [random.below(n) for _ in range(entries)]
    return {"n": n, "row starts": starts, "columns": columns, "values": finite_list(random, entries, moderate)}


def sample_of(n, starts, columns, values):
    return {"n": n, "row starts": list(starts), "columns": list(columns), "values": [to_bits(float(value)) for value in values]}


def step_inputs(random, kind, samples, tau, signal, weight_sort=None):
    """Accepted inputs of a step with these samples, τ and signal; the check is on in about half of them."""
    n = len(signal)
    inputs = {**dict(zip(names_of_samples(kind), samples)), "tau": tau, "signal": signal}
    inputs["check"] = random.below(2)
    if kind in WEIGHTED:
        for name in ("weights 1", "weights 2"):
            sort = weight_sort or random.choice(WEIGHT_SORTS)
            inputs[name] = [positive(random, sort) for _ in range(n)]
    draw_bounds(random, kind, inputs)
    inputs["output"] = signal_list(random, n, ordinary, 10)
    draw_work(random, kind, inputs)
    return inputs


def draw_bounds(random, kind, inputs):
    """Bounds that pass rows 9 and 8."""
    while True:
        inputs["spectral bound"] = positive(random, random.choice(BOUND_SORTS))
        if kind in WEIGHTED:
            inputs["root bound"] = positive(random, random.choice(BOUND_SORTS))
        if outside_radius(inputs) is None:
            return


def draw_work(random, kind, inputs):
    """A work slice of just the need, or somewhat longer."""
    need = work_need(kind, inputs)
    inputs["work length"] = need + (0 if random.chance(50) else random.between(1, 9))
    inputs["work"] = random.choice(WORK_PATTERNS)
