"""The inputs of the order-4 steps (document 01, parts 5 to 8), family by family."""

from checks import LARGEST_N, whole_bound
from ieee import ONE, SIGN, to_bits, to_float
from list_format import OMEGA4, OMEGA6, WEIGHTED_OMEGA4_ADJOINT, names_of_samples
from random_reals import FINITE_SORTS, ZEROS, huge, ones, ordinary, signal_list, special, with_fields
from step_faults import FAULTS_OF_STEPS, ROWS_OF_PATTERNS, refused
from step_samples import (
    LARGEST,
    UNWEIGHTED,
    WEIGHTED,
    copied,
    equal_samples,
    large_sample,
    moderate,
    moderate_tau,
    one_pattern,
    one_way,
    own_patterns,
    positive,
    sample_of,
    step_inputs,
)

SMALL = 8
LARGE = 40

TWO_TO_MINUS_1021 = 0x0020000000000000  # from here on, and at 0, half of τ is exact
HALF_PI = 0x3FF921FB54442D18


def size(random):
    return random.between(1, SMALL) if random.chance(97) else random.between(SMALL + 1, LARGE)


def of_moderate_values(random, kind, count, samples):
    for _ in range(count):
        n = size(random)
        signal = signal_list(random, n, moderate, 0)
        yield step_inputs(random, kind, samples(random, kind, n, moderate), moderate_tau(random), signal, moderate)


def of_any_values(random, kind, count, samples):
    """Values of every sort, τ too, and signals with NaNs and infinities."""
    for k in range(count):
        n = size(random)
        signal = signal_list(random, n, random.choice(FINITE_SORTS), (0, 0, 8, 25)[k % 4])
        tau = moderate_tau(random) if random.chance(50) else random.choice(FINITE_SORTS)(random) & ~SIGN
        yield step_inputs(random, kind, samples(random, kind, n, random.choice(FINITE_SORTS)), tau, signal)


def of_balanced_sizes(random, kind, count):
    """Large values and a small τ, or the other way round, so that the products meet τ again within the range; the commutator's
    products overflow in some of them where the others do not, so that equal samples give a NaN."""
    for k in range(count):
        n = random.between(1, 5)
        exponent = random.choice((-1000, -700, -540, -300, 300, 505, 512, 540, 700, 1000))

        def sort(random):
            return with_fields(random, 1023 + exponent - 2, 1023 + exponent + 2)

        tau = with_fields(random, max(1023 - exponent - 2, 0), 1023 - exponent + 2) & ~SIGN
        samples = (equal_samples, own_patterns, one_pattern)[k % 3](random, kind, n, sort)
        yield step_inputs(random, kind, samples, tau, signal_list(random, n, moderate, 0), moderate)


TAUS = (
    *ZEROS,
    1,
    2,
    3,
    0x000FFFFFFFFFFFFF,
    0x0010000000000000,
    0x0010000000000001,
    TWO_TO_MINUS_1021 - 1,
    TWO_TO_MINUS_1021,
    TWO_TO_MINUS_1021 + 1,
    0x1FF0000000000000,
    ONE - 1,
    ONE,
    ONE + 1,
    HALF_PI,
    to_bits(2.0**27),
    0x5FE0000000000000,
    LARGEST,
)


def of_each_tau(random, kind):
    """Each τ of the list with moderate values, and with values large enough to meet a small τ again, or small enough for a large
    one. Zeros at the first node show Ω by itself."""
    for tau in TAUS:
        field = min(max(2046 - ((tau & ~SIGN) >> 52), 1), 2044)

        def balanced(random):
            return with_fields(random, field - 1, field + 1)

        for samples, sort in ((equal_samples, moderate), (own_patterns, moderate), (one_way, balanced), (one_way, balanced)):
            n = random.between(2, 4)
            signal = [random.choice(ZEROS), *signal_list(random, n - 1, moderate, 8)]
            yield step_inputs(random, kind, samples(random, kind, n, sort), tau, signal, moderate)


def infinite_bound(random, kind, count):
    """(bound·root bound)·root bound overflows and τ is a zero: the product of the two is a NaN, which passes."""
    for k in range(count):
        n = random.between(1, 4)
        signal = signal_list(random, n, moderate, 10)
        inputs = step_inputs(random, kind, own_patterns(random, kind, n, moderate), ZEROS[k % 2], signal)
        inputs.update({"check": 1, "spectral bound": positive(random, huge), "root bound": positive(random, huge)})
        yield inputs


def least_tau_outside(bound):
    """The least τ with bound·τ >= π/2, as bits. The bound is of ordinary size."""
    low, high = 0, LARGEST
    while low < high:
        middle = (low + high) // 2
        if bound * to_float(middle) >= to_float(HALF_PI):
            high = middle
        else:
            low = middle + 1
    return low


def at_the_radius(random, kind, count):
    """The least τ that is refused and the largest that passes; and the first again with the check off."""
    for _ in range(count):
        n = random.between(1, 4)
        signal = signal_list(random, n, moderate, 0)
        inputs = step_inputs(random, kind, own_patterns(random, kind, n, moderate), ONE, signal, moderate)
        inputs["spectral bound"] = positive(random, random.choice((ordinary, ones)))
        if kind in WEIGHTED:
            inputs["root bound"] = positive(random, random.choice((moderate, ones)))
        outside = least_tau_outside(whole_bound(inputs))
        for tau, check in ((outside, 1), (outside - 1, 1), (outside, 0)):
            yield {**inputs, "tau": tau, "check": check}


def at_the_radius_by_order(random, kind, count):
    """Bounds whose product left to right has another outcome than bound·(root bound)²: one passes where the other does not."""
    found = 0
    while found < count:
        n = random.between(1, 3)
        signal = signal_list(random, n, moderate, 0)
        inputs = step_inputs(random, kind, one_pattern(random, kind, n, moderate), ONE, signal, moderate)
        inputs.update({"check": 1, "spectral bound": positive(random, ordinary), "root bound": positive(random, moderate)})
        bound, root_bound = to_float(inputs["spectral bound"]), to_float(inputs["root bound"])
        in_order, otherwise = whole_bound(inputs), bound * (root_bound * root_bound)
        first, second = sorted((least_tau_outside(in_order), least_tau_outside(otherwise)))
        # Every second one is refused, every other one passes.
        if first != second and (in_order > otherwise) == (found % 2 == 0):
            found += 1
            yield {**inputs, "tau": first}


def order_of_sums(random, kind, count):
    """Values that cancel, so that sums show their order and zeros their signs."""
    large, one, small = to_bits(2.0**53), ONE, to_bits(2.0**-53)
    amounts = (large, large | SIGN, one, one | SIGN, small, small | SIGN, 0, SIGN)
    for k in range(count):
        n = random.between(1, 4)
        samples = (own_patterns, one_pattern, equal_samples)[k % 3](random, kind, n, lambda random: random.choice(amounts))
        signal = [random.choice((one, one | SIGN, *ZEROS, special(random))) for _ in range(n)]
        tau = random.choice((one, one, to_bits(2.0), to_bits(0.5), *ZEROS))
        yield step_inputs(random, kind, samples, tau, signal, ones if k % 2 else moderate)


def signs_of_zeros(random, kind, count):
    """Values, signals and τ that are mostly zeros of either sign."""
    def amount(random):
        return random.choice((*ZEROS, *ZEROS, ONE, ONE | SIGN))

    for k in range(count):
        n = random.between(1, 3)
        samples = (own_patterns, one_pattern, equal_samples)[k % 3](random, kind, n, amount)
        tau = random.choice((*ZEROS, ONE, 1))
        yield step_inputs(random, kind, samples, tau, [amount(random) for _ in range(n)], ones)


def points(random, kind):
    """Document 01's points, each with the check on and bound 1: its job, entries before the first row, samples that do not commute,
    and π/2."""
    def inputs(samples, tau, signal):
        n = len(signal)
        written = step_inputs(random, kind, [copied(sample) for sample in samples], tau, [to_bits(float(x)) for x in signal], ones)
        written.update({"check": 1, "spectral bound": ONE})
        if kind in WEIGHTED:
            written.update({"root bound": ONE, "weights 1": [ONE] * n, "weights 2": [ONE] * n})
        return written

    job = sample_of(2, (0, 2, 4), (0, 1, 0, 1), (1, -1, -1, 1))
    before_the_first_row = sample_of(1, (2, 2), (0, 0), (1, 2))
    first_node, swap = sample_of(2, (0, 1, 1), (0,), (1,)), sample_of(2, (0, 1, 2), (1, 0), (1, 1))
    yield inputs((job, job), ONE, (1, 0))
    yield inputs((before_the_first_row, before_the_first_row), ONE, (1,))
    for tau in (ONE, to_bits(0.5), to_bits(0.3)):
        yield inputs((first_node, swap), tau, (1, 0))
        yield inputs((swap, first_node), tau, (1, 0))
        yield inputs((first_node, swap), tau, (0, 1))
    yield inputs((job, job), HALF_PI, (1, 0))
    yield inputs((job, job), HALF_PI - 1, (1, 0))
    # Empty rows, and a row whose only product is −0 and whose sum is +0: only the signs of zeros are worked with.
    empty = sample_of(3, (0, 0, 0, 0), (), ())
    for tau in (ONE, *ZEROS):
        yield inputs((empty, empty), tau, (1, 0.0, -0.0))
    no_entry, one_entry = sample_of(2, (0, 0, 0), (), ()), sample_of(2, (0, 1, 1), (1,), (-1,))
    yield inputs((no_entry, one_entry), ONE, (-0.0, -0.0))
    yield inputs((one_entry, no_entry), ONE, (-0.0, -0.0))
    if kind in WEIGHTED:
        for bad in (SIGN, 0, SIGN | 1):
            yield {**inputs((job, job), ONE, (1, 0)), "weights 1": [bad, ONE]}
            yield {**inputs((job, job), ONE, (1, 0)), "weights 2": [ONE, bad]}


def without_nodes(random, kind):
    """n = 0: an unweighted step is accepted and writes nothing; a weighted one is refused. Then each fault outside the samples."""
    faults = [fault for fault in FAULTS_OF_STEPS[kind] if fault.row not in (*ROWS_OF_PATTERNS, 12) and fault.place != "work"]
    for fault in [None] * (12 if kind in UNWEIGHTED else 4) + faults:
        inputs = step_inputs(random, kind, own_patterns(random, kind, 0, moderate), moderate_tau(random), [])
        if fault:
            fault.plant(random, inputs)
        yield inputs


def at_the_limit(random, kind):
    """n of 4,096 and more in each sample. One case of three kinds has all 4,098 row starts."""
    for sample in names_of_samples(kind):
        for n in (LARGEST_N, LARGEST_N + 1, 2**32 + 2, 2**64 - 1):
            inputs = step_inputs(random, kind, one_pattern(random, kind, 2, moderate), ONE, signal_list(random, 2, moderate, 0))
            inputs[sample]["n"] = n
            yield inputs
    whole = {OMEGA4: "sample 1", WEIGHTED_OMEGA4_ADJOINT: "sample 2", OMEGA6: "sample 3"}
    if kind in whole:
        inputs = step_inputs(random, kind, one_pattern(random, kind, 2, moderate), ONE, signal_list(random, 2, moderate, 0))
        n = LARGEST_N + 1
        inputs[whole[kind]] = sample_of(n, (min(i, 3) for i in range(n + 1)), range(3), (1, 2, 3))
        yield inputs


# Nodes, and entries of each sample.
LARGE_SIZES = {OMEGA4: [(1000, 1040)], WEIGHTED_OMEGA4_ADJOINT: [(700, 1050)], OMEGA6: [(400, 1000), (1000, 470)]}


def large(random, kind):
    """Hundreds of nodes, and as many as a case can have."""
    for n, entries in [(100, 200), (250, 500), *LARGE_SIZES.get(kind, [])]:
        samples = [large_sample(random, n, entries) for _ in names_of_samples(kind)]
        yield step_inputs(random, kind, samples, moderate_tau(random), signal_list(random, n, moderate, 0), moderate)


def inputs_of(random, kind):
    """The inputs of one kind, in a fixed order."""
    yield from points(random, kind)
    yield from without_nodes(random, kind)
    yield from of_each_tau(random, kind)
    yield from at_the_radius(random, kind, 10)
    yield from of_moderate_values(random, kind, 60, own_patterns)
    yield from of_moderate_values(random, kind, 50, one_pattern)
    yield from of_moderate_values(random, kind, 30, equal_samples)
    yield from of_any_values(random, kind, 70, own_patterns)
    yield from of_any_values(random, kind, 30, one_pattern)
    yield from of_any_values(random, kind, 30, equal_samples)
    yield from of_balanced_sizes(random, kind, 45)
    yield from order_of_sums(random, kind, 30)
    yield from signs_of_zeros(random, kind, 20)
    if kind in WEIGHTED:
        yield from infinite_bound(random, kind, 8)
        yield from at_the_radius_by_order(random, kind, 8)
    yield from large(random, kind)
    yield from at_the_limit(random, kind)
    yield from refused(random, kind, 30)


def inputs(random):
    """Pairs of a kind and inputs."""
    return [(kind, fields) for kind in UNWEIGHTED + WEIGHTED for fields in inputs_of(random, kind)]
