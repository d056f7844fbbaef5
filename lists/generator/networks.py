"""The inputs of the calls on networks and signals (document 01, parts 1 to 3): accepted ones, and ones with faults planted."""

from itertools import combinations, product

import checks
from checks import LARGEST_N
from faults import FAULTS_OF_CALLS, FAULTS_OF_NETWORKS, count_of_values
from ieee import ONE, SIGN, to_bits
from list_format import APPLY_INTO_SLICE, AXPY_INTO_SLICE, COPY_FROM, FROM_CSR_PARTS, GERSHGORIN_BOUND_CSR
from random_reals import FINITE_SORTS, INFINITIES, NANS, ZEROS, finite_list, ordinary, signal_list, special

NETWORK_CALLS = (FROM_CSR_PARTS, GERSHGORIN_BOUND_CSR, APPLY_INTO_SLICE)
SMALL = 8
LARGE = 40


def size(random):
    return random.between(0, SMALL) if random.chance(94) else random.between(SMALL + 1, LARGE)


def network(random, n, sort):
    """An accepted network: rows of up to five entries at any columns, doubled ones too; some have entries before the first row."""
    starts = [random.between(1, 3) if n > 0 and random.chance(20) else 0]
    for _ in range(n):
        starts.append(starts[-1] + (0 if random.chance(15) else random.between(0, 5)))
    columns = [random.below(n) for _ in range(starts[-1])]
    for k in range(1, len(columns)):
        if random.chance(12):
            columns[k] = columns[k - 1]
    return {"n": n, "row starts": starts, "columns": columns, "values": finite_list(random, starts[-1], sort)}


def call_inputs(random, kind, n, percent_special=0):
    """Accepted inputs of a call on a network with n nodes."""
    inputs = network(random, n, random.choice(FINITE_SORTS))
    if kind == APPLY_INTO_SLICE:
        inputs["signal"] = signal_list(random, n, random.choice(FINITE_SORTS), percent_special)
        inputs["output"] = signal_list(random, n, ordinary, 10)
    return inputs


def of_parts(kind, n, starts, columns, values, signal=(), output=()):
    """Inputs written out."""
    inputs = {"n": n, "row starts": list(starts), "columns": list(columns), "values": list(values)}
    if kind == APPLY_INTO_SLICE:
        inputs.update(signal=list(signal), output=list(output))
    return inputs


def points(kind):
    """Small networks written out: document 01's, no nodes, entries before the first row, counts near 2^64."""
    top, one, two, nan = 2**64 - 1, ONE, to_bits(2.0), NANS[0]
    # Two points of document 01, and the network of its job.
    yield of_parts(kind, 1, [2, 2], [0, 0], [one, two], [one], [two])
    yield of_parts(kind, 0, [0], [], [])
    yield of_parts(kind, 2, [0, 2, 4], [0, 1, 0, 1], [one, one | SIGN, one | SIGN, one], [one, 0], [two, two])
    # No nodes: every column is outside.
    yield of_parts(kind, 0, [1], [0], [one])
    yield of_parts(kind, 0, [2], [5, 7], [nan, one])
    yield of_parts(kind, 0, [0], [], [], [one], [])
    yield of_parts(kind, 0, [0], [], [], [], [one])
    # A column or a value at fault before the first row.
    yield of_parts(kind, 2, [2, 3, 4], [2, 0, 0, 1], [one] * 4, [one, one], [two, two])
    yield of_parts(kind, 2, [2, 3, 4], [0, 9, 0, 2**32 - 1], [one] * 4, [one, one], [two, two])
    yield of_parts(kind, 2, [2, 3, 4], [0, 1, 0, 1], [one, nan, one, INFINITIES[1]], [one, one], [two, two])
    yield of_parts(kind, 2, [2, 3, 4], [0, 1, 0, 1], [INFINITIES[1], nan, one, one], [one, one], [two, two])
    # Row starts that no slice can have, or that another width would lose.
    yield of_parts(kind, 1, [top, top], [0], [one], [one], [two])
    yield of_parts(kind, 1, [top, 0], [], [], [one], [two])
    yield of_parts(kind, 1, [0, top], [0, 0], [one, one], [one], [two])
    yield of_parts(kind, 2, [0, top - 1, top], [0], [one], [one, one], [two, two])
    yield of_parts(kind, 2, [0, 2**63, 1], [0], [one], [one, one], [two, two])
    yield of_parts(kind, 1, [0, 2**53 + 1], [0], [one], [one], [two])
    yield of_parts(kind, 1, [0, 2**32 + 1], [0], [one], [one], [two])
    # The largest n and beyond it, with few row starts.
    for n in (LARGEST_N, LARGEST_N + 1, 2**16, 2**32 - 1, 2**32, 2**32 + 1, 2**63 - 1, 2**63, top - 1, top):
        yield of_parts(kind, n, [], [], [])
        yield of_parts(kind, n, [0, 1], [0], [one], [one], [two])


def all_small_patterns():
    """Every pattern of up to two nodes with row starts up to 2 and up to two columns and values; then all of up to one node with
    a row start too many or too few, and row starts, columns and values up to 1."""
    def patterns(n, length, most):
        for starts in product(range(most + 1), repeat=length):
            for columns, values in product(range(most + 1), repeat=2):
                yield of_parts(FROM_CSR_PARTS, n, starts, [0] * columns, [ONE] * values)

    for n in (0, 1, 2):
        yield from patterns(n, n + 1, 2)
    for n in (0, 1):
        yield from patterns(n, n, 1)
        yield from patterns(n, n + 2, 1)


def at_the_limit(random, kind):
    """n of 4,096 and 4,097 with all its row starts: without another fault, and with each fault that row 6 stands before."""
    def inputs(n):
        entries = 6
        starts = [min(i, entries) for i in range(n + 1)]
        return of_parts(kind, n, starts, range(entries), finite_list(random, entries, ordinary), [ONE], [ONE])

    if kind != APPLY_INTO_SLICE:
        yield inputs(LARGEST_N)
    yield inputs(LARGEST_N + 1)
    for fault in FAULTS_OF_NETWORKS:
        if fault.row not in (6, 1) and fault.plant is not count_of_values:
            planted = inputs(LARGEST_N + 1)
            fault.plant(random, planted)
            yield planted


def present(kind, inputs, faults):
    """Is the row of each fault met? Row 10 is met once for each slice of a wrong length."""
    rows = [check.row for check in checks.faults(kind, inputs)]
    lengths = [fault for fault in faults if fault.row == 10]
    return all(fault.row in rows for fault in faults) and rows.count(10) >= len(lengths)


def with_faults(random, kind, faults):
    """Inputs of a call in which each of the faults is present."""
    while True:
        inputs = call_inputs(random, kind, random.between(2, 6), 5)
        if len(inputs["columns"]) > 1:
            for fault in faults:
                fault.plant(random, inputs)
            if present(kind, inputs, faults):
                return inputs


def refused(random, kind, singles, pairs, triples):
    """Each fault alone, each pair of faults, and some triples, each so many times."""
    faults = FAULTS_OF_CALLS[kind]
    for fault in faults:
        for _ in range(singles):
            yield with_faults(random, kind, [fault])
    for pair in combinations(faults, 2):
        for _ in range(pairs):
            yield with_faults(random, kind, pair)
    for _ in range(triples):
        chosen = [random.choice(faults) for _ in range(3)]
        yield with_faults(random, kind, sorted(set(chosen), key=faults.index))


def order_of_sums(random):
    """Rows whose sum shows the order of its additions: values that cancel, doubled columns, zeros of both signs."""
    large, one, small = to_bits(2.0**53), ONE, to_bits(2.0**-53)
    amounts = (large, large | SIGN, one, one | SIGN, small, small | SIGN, 0, SIGN)
    for _ in range(40):
        n = random.between(1, 4)
        starts = [random.between(0, 1)]
        for _ in range(n):
            starts.append(starts[-1] + random.between(2, 6))
        columns = [random.below(n) for _ in range(starts[-1])]
        values = [random.choice(amounts) for _ in range(starts[-1])]
        signal = [random.choice((one, one, one | SIGN, special(random))) for _ in range(n)]
        yield of_parts(APPLY_INTO_SLICE, n, starts, columns, values, signal, [random.choice((one, *ZEROS)) for _ in range(n)])


def overflowing(random, kind):
    """Sums that overflow, by products of finite values or by their sum, and infinities that cancel to a NaN."""
    largest = 0x7FEFFFFFFFFFFFFF
    for _ in range(24):
        n = random.between(1, 5)
        inputs = call_inputs(random, kind, n)
        inputs["values"] = [largest - random.below(4) | random.below(2) << 63 for _ in inputs["values"]]
        if kind == APPLY_INTO_SLICE:
            inputs["signal"] = [random.choice((ONE, ONE | SIGN, to_bits(2.0), to_bits(0.5), largest)) for _ in range(n)]
        yield inputs


def two_signals(random, same, percent_special):
    """A target and a source, of one length or of two."""
    length = size(random)
    other = length
    while not same and other == length:
        other = random.choice((size(random), length + 1, max(length - 1, 0), 0, 2 * length))
    target = signal_list(random, length, random.choice(FINITE_SORTS), percent_special)
    return target, signal_list(random, other, random.choice(FINITE_SORTS), percent_special)


def copies(random, count, same):
    for _ in range(count):
        target, source = two_signals(random, same, 15)
        yield {"target": target, "source": source}


ALPHAS = (*ZEROS, ONE, ONE | SIGN, to_bits(0.5), 1, SIGN | 1, 0x7FEFFFFFFFFFFFFF, *INFINITIES, NANS[0], NANS[3])


def sums(random, count, same):
    for k in range(count):
        target, source = two_signals(random, same, random.choice((0, 0, 10)))
        alpha = ALPHAS[k // 4 % len(ALPHAS)] if k % 4 == 0 else random.choice(FINITE_SORTS)(random)
        yield {"target": target, "alpha": alpha, "source": source}


def accepted(random, kind, count):
    for k in range(count):
        yield call_inputs(random, kind, size(random), (0, 0, 8, 25)[k % 4])


def inputs(random):
    """Pairs of a kind and inputs, in a fixed order."""
    parts = [(FROM_CSR_PARTS, all_small_patterns())]
    for kind in NETWORK_CALLS:
        parts += [(kind, points(kind)), (kind, at_the_limit(random, kind)), (kind, overflowing(random, kind))]
    parts += [
        (FROM_CSR_PARTS, refused(random, FROM_CSR_PARTS, 12, 5, 20)),
        (FROM_CSR_PARTS, accepted(random, FROM_CSR_PARTS, 60)),
        (GERSHGORIN_BOUND_CSR, refused(random, GERSHGORIN_BOUND_CSR, 10, 4, 20)),
        (GERSHGORIN_BOUND_CSR, accepted(random, GERSHGORIN_BOUND_CSR, 200)),
        (APPLY_INTO_SLICE, order_of_sums(random)),
        (APPLY_INTO_SLICE, refused(random, APPLY_INTO_SLICE, 12, 4, 40)),
        (APPLY_INTO_SLICE, accepted(random, APPLY_INTO_SLICE, 450)),
        (COPY_FROM, copies(random, 100, True)),
        (COPY_FROM, copies(random, 60, False)),
        (AXPY_INTO_SLICE, sums(random, 280, True)),
        (AXPY_INTO_SLICE, sums(random, 80, False)),
    ]
    return [(kind, fields) for kind, part in parts for fields in part]
