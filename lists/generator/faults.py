"""Faults that are planted in accepted inputs, one for each way in which a row of document 01's table can be met."""

from collections import namedtuple
from itertools import combinations

import checks
from checks import LARGEST_N
from ieee import ONE
from list_format import APPLY_INTO_SLICE, FROM_CSR_PARTS, GERSHGORIN_BOUND_CSR
from random_reals import INFINITIES, NANS, ordinary

# The row of the table and the place of the check that it is to meet, and the function that plants it.
Fault = namedtuple("Fault", "row place plant")

TOP = 2**64 - 1
TOP_COLUMN = 2**32 - 1


def n_too_large(random, inputs):
    inputs["n"] = random.choice((LARGEST_N + 1, LARGEST_N + 2, 2**16, 2**32, 2**32 + inputs["n"], 2**63, TOP))


def count_of_starts(random, inputs):
    """A start too many or some too few, or another n."""
    starts = inputs["row starts"]
    how = random.below(4)
    if how == 0:
        starts.append(starts[-1])
    elif how == 1:
        del starts[random.below(len(starts))]
    elif how == 2 and len(starts) > 1:
        del starts[random.between(1, len(starts) - 1) :]
    elif inputs["n"] <= LARGEST_N:
        inputs["n"] += random.between(1, 3)


def falling_start(random, inputs):
    """One or two starts raised above the next; the last one stays."""
    starts = inputs["row starts"]
    for _ in range(random.between(1, 2) if len(starts) > 1 else 0):
        i = random.below(len(starts) - 1)
        starts[i] = TOP if random.chance(10) else min(starts[i + 1] + random.between(1, 3), TOP)


def change_length(random, values, another):
    """A slice made longer or shorter."""
    how = random.below(4)
    if how == 0 and values:
        del values[-1]
    elif how == 1 and values:
        del values[random.below(len(values)) :]
    elif how == 2:
        values.extend(another for _ in range(random.between(2, 9)))
    else:
        values.append(another)


def count_of_columns(random, inputs):
    change_length(random, inputs["columns"], 0)
    if random.chance(15) and inputs["row starts"]:
        inputs["row starts"][-1] = random.choice((TOP, 2**63, 2**53 + 1, 2**32, 2**16))


def count_of_values(random, inputs):
    change_length(random, inputs["values"], ordinary(random))


def column_outside(random, inputs):
    for _ in range(random.between(1, 2)):
        if inputs["columns"] and inputs["n"] <= TOP_COLUMN:
            at = random.below(len(inputs["columns"]))
            inputs["columns"][at] = random.choice((inputs["n"], inputs["n"], min(inputs["n"] + 1, TOP_COLUMN), TOP_COLUMN))


def value_not_finite(random, inputs):
    for _ in range(random.between(1, 2)):
        if inputs["values"]:
            inputs["values"][random.below(len(inputs["values"]))] = random.choice(NANS + 3 * INFINITIES)


def length_of(name):
    return lambda random, inputs: change_length(random, inputs[name], ONE)


FAULTS_OF_NETWORKS = (
    Fault(6, "network", n_too_large),
    Fault(1, "network", count_of_starts),
    Fault(2, "network", falling_start),
    Fault(3, "network", count_of_columns),
    Fault(3, "network", count_of_values),
    Fault(4, "network", column_outside),
    Fault(5, "network", value_not_finite),
)

FAULTS_OF_CALLS = {
    FROM_CSR_PARTS: FAULTS_OF_NETWORKS,
    GERSHGORIN_BOUND_CSR: FAULTS_OF_NETWORKS,
    APPLY_INTO_SLICE: FAULTS_OF_NETWORKS + (Fault(10, "signal", length_of("signal")), Fault(10, "output", length_of("output"))),
}


def shown(kind, inputs, faults):
    """Is each of the faults present, and the first of them the first that the call meets?"""
    met = [(check.row, check.place) for check in checks.faults(kind, inputs)]
    planted = [(fault.row, fault.place) for fault in faults]
    return met[:1] == planted[:1] and all(fault in met for fault in planted)


def with_faults(random, kind, faults, drawn_for):
    """Inputs of a call that show these faults, which stand in the order of its checks and are planted in inputs drawn for them."""
    for _ in range(10000):
        inputs = drawn_for(random, kind, faults)
        for fault in faults:
            fault.plant(random, inputs)
        if shown(kind, inputs, faults):
            return inputs
    raise ValueError(f"no inputs show {[(fault.row, fault.place) for fault in faults]}")


def alone_and_together(random, faults, times_alone, triples, can_stand_together):
    """Each fault alone, so many times; each pair of faults; and some triples."""
    chosen = [[fault] for fault in faults for _ in range(times_alone(fault))]
    chosen += combinations(faults, 2)
    while triples > 0:
        three = sorted({random.below(len(faults)) for _ in range(3)})
        if len(three) == 3 and can_stand_together([faults[i] for i in three]):
            chosen.append([faults[i] for i in three])
            triples -= 1
    return [some for some in chosen if can_stand_together(some)]
