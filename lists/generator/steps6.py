"""The inputs of the order-6 step (document 01, part 9): the families of the order-4 steps with three samples, and some of its own."""

from itertools import permutations

from formulas import TEN_BY_3
from ieee import ONE, SIGN, to_bits, to_float
from list_format import OMEGA6
from random_reals import ZEROS, finite_list, signal_list, with_fields
from step_faults import refused
from step_samples import copied, equal_samples, moderate, moderate_tau, one_pattern, own_patterns, sample_of, step_inputs
from steps import (
    HALF_PI,
    LARGE,
    TWO_TO_MINUS_1021,
    at_the_limit,
    at_the_radius,
    large,
    of_any_values,
    of_balanced_sizes,
    of_each_tau,
    of_moderate_values,
    order_of_sums,
    signs_of_zeros,
    without_nodes,
)

# Of the largest of these 10/3 is still subnormal.
SMALLEST_TAUS = (1, 0x0004CCCCCCCCCCCC)


def points(random):
    """Document 01's points, each with the check on and bound 1: its job, entries before the first row, samples that do not commute
    in each order, second differences that vanish and that do not, and π/2."""
    def inputs(samples, tau, signal):
        bits = [to_bits(float(x)) for x in signal]
        written = step_inputs(random, OMEGA6, [copied(sample) for sample in samples], tau, bits)
        return {**written, "check": 1, "spectral bound": ONE}

    job = sample_of(2, (0, 2, 4), (0, 1, 0, 1), (1, -1, -1, 1))
    before_the_first_row = sample_of(1, (2, 2), (0, 0), (1, 2))
    first_node, swap = sample_of(2, (0, 1, 1), (0,), (1,)), sample_of(2, (0, 1, 2), (1, 0), (1, 1))
    yield inputs((job,) * 3, ONE, (1, 0))
    yield inputs((before_the_first_row,) * 3, ONE, (1,))
    for three in permutations((first_node, swap, job)):
        for tau in (ONE, to_bits(0.3)):
            yield inputs(three, tau, (1, 0))
    for single, other in ((first_node, swap), (swap, first_node), (job, swap)):
        for three in ((single, other, other), (other, single, other), (other, other, single)):
            yield inputs(three, to_bits(0.5), (1, 0))
    # The sample grows alike from node to node: B3 is 0. Then it does not.
    for values in ((1, 2, 3), (1, 2, 5)):
        yield inputs([sample_of(2, (0, 2, 3), (0, 1, 0), (value, -1, 0.5)) for value in values], to_bits(0.25), (1, -2))
    yield inputs((job,) * 3, HALF_PI, (1, 0))
    yield inputs((job,) * 3, HALF_PI - 1, (1, 0))
    empty = sample_of(3, (0, 0, 0, 0), (), ())
    no_entry, one_entry = sample_of(2, (0, 0, 0), (), ()), sample_of(2, (0, 1, 1), (1,), (-1,))
    for tau in (ONE, *ZEROS):
        yield inputs((empty,) * 3, tau, (1, 0.0, -0.0))
        for three in ((one_entry, no_entry, no_entry), (no_entry, one_entry, no_entry), (no_entry, no_entry, one_entry)):
            yield inputs(three, tau, (-0.0, -0.0))


def of_each_size(random):
    """Every n up to the largest of the common ones, with three patterns and with one."""
    for n in range(1, LARGE + 1):
        samples = (own_patterns, one_pattern)[n % 2](random, OMEGA6, n, moderate)
        yield step_inputs(random, OMEGA6, samples, moderate_tau(random), signal_list(random, n, moderate, 0))


def chain(random, n, sort):
    """A sample that carries from each node to the one before it, at times twice, and nowhere else."""
    starts, columns = [0], []
    for i in range(n):
        columns += [i + 1] * (random.choice((1, 1, 1, 2)) if i + 1 < n else 0)
        starts.append(len(columns))
    return {"n": n, "row starts": starts, "columns": columns, "values": finite_list(random, len(columns), sort)}


def along_chains(random, count, exponents, tau):
    """A signal at the last node of a chain. What comes to the node k places before it are the products of k samples and nothing
    else, so that the parts of Ω with one, two, three and more samples are seen apart. The samples have the exponent that meets τ
    again, or one somewhat smaller."""
    for _ in range(count):
        n, length, exponent = random.between(4, 7), tau(random), random.choice(exponents)

        def sort(random):
            return with_fields(random, 1023 + exponent - 2, 1023 + exponent)

        samples = [chain(random, n, sort) for _ in range(3)]
        yield step_inputs(random, OMEGA6, samples, length, [random.choice(ZEROS) for _ in range(n - 1)] + [moderate(random)])


def is_doubled_apart(tau):
    """Is (τ+τ)·10/3 not twice τ·10/3? It is twice that unless the latter is subnormal."""
    tau = to_float(tau)
    return (tau + tau) * TEN_BY_3 != 2 * (tau * TEN_BY_3)


def small_tau(random):
    """A subnormal τ for which 2·B3 by a doubled τ is not B3 + B3."""
    while True:
        tau = random.between(*SMALLEST_TAUS) >> random.below(40) or 1
        if is_doubled_apart(tau):
            return tau


def inputs(random):
    """Pairs of the kind and inputs, in a fixed order."""
    kind = OMEGA6
    parts = [
        points(random),
        without_nodes(random, kind),
        of_each_size(random),
        of_each_tau(random, kind),
        at_the_radius(random, kind, 10),
        along_chains(random, 60, (-3, -2, -1, 0, 1), moderate_tau),
        along_chains(random, 160, (1000, 1010, 1016, 1019), small_tau),
        along_chains(random, 20, (1000, 1019), lambda random: TWO_TO_MINUS_1021 + random.between(-2, 2)),
        along_chains(random, 20, (-300, -340, -400), lambda random: with_fields(random, 1123, 1223) & ~SIGN),
        of_moderate_values(random, kind, 120, own_patterns),
        of_moderate_values(random, kind, 90, one_pattern),
        of_moderate_values(random, kind, 40, equal_samples),
        of_any_values(random, kind, 120, own_patterns),
        of_any_values(random, kind, 70, one_pattern),
        of_any_values(random, kind, 40, equal_samples),
        of_balanced_sizes(random, kind, 75),
        order_of_sums(random, kind, 60),
        signs_of_zeros(random, kind, 40),
        large(random, kind),
        at_the_limit(random, kind),
        refused(random, kind, 60),
    ]
    return [(kind, fields) for part in parts for fields in part]
