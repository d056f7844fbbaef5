"""Refused inputs of steps: faults, one for each way in which a row of document 01's table can be met, planted alone and together."""

from checks import outside_radius, work_need
from faults import FAULTS_OF_NETWORKS, TOP, Fault, alone_and_together, change_length, length_of, with_faults
from ieee import ONE, SIGN
from list_format import OMEGA4, OMEGA4_ADJOINT, OMEGA6, WEIGHTED_OMEGA4, WEIGHTED_OMEGA4_ADJOINT, names_of_samples
from networks import network
from random_reals import INFINITIES, NANS, ZEROS, huge, ordinary, signal_list, tiny
from step_samples import moderate, moderate_tau, own_patterns, step_inputs

ROWS_OF_PATTERNS = range(1, 7)
NOT_POSITIVE = (*NANS, *2 * INFINITIES, *2 * ZEROS, ONE | SIGN, SIGN | 1, 0xFFEFFFFFFFFFFFFF)
TAUS_OUTSIDE = (*NANS, *4 * INFINITIES, ONE | SIGN, SIGN | 1, 0xFFEFFFFFFFFFFFFF)


def of_sample(sample):
    """The faults of a network, planted in one of the samples."""
    return tuple(
        Fault(row, sample, lambda random, inputs, plant=plant: plant(random, inputs[sample]))
        for row, _, plant in FAULTS_OF_NETWORKS
    )


def not_positive(name):
    def plant(random, inputs):
        inputs[name] = random.choice(NOT_POSITIVE)

    return plant


def tau_outside(random, inputs):
    inputs["tau"] = random.choice(TAUS_OUTSIDE)


def beyond_the_radius(random, inputs):
    """The check turned on and, where that is not enough, a large τ or a large bound."""
    inputs["check"] = 1
    if outside_radius(inputs) is None:
        name = random.choice(("tau", "spectral bound", "root bound" if "root bound" in inputs else "tau"))
        inputs[name] = random.choice((ordinary, huge))(random) & ~SIGN


def another_n(sample):
    """A node more in one of the later samples, without entries, or a node less where the last has none."""
    def plant(random, inputs):
        network = inputs[sample]
        starts = network["row starts"]
        if random.chance(50) and len(starts) > 1 and starts[-1] == starts[-2]:
            network["n"] -= 1
            del starts[-1]
        elif network["n"] < TOP:
            network["n"] += 1
            starts.extend(starts[-1:])

    return plant


def no_nodes(random, inputs):
    """The inputs are drawn without nodes; nothing is left to plant."""


def short_work(kind):
    """A work slice shorter than the need, and no longer than a program can well lend, whatever n is."""
    def plant(random, inputs):
        need = min(work_need(kind, inputs), 100)
        inputs["work length"] = random.choice((max(need - 1, 0), need // 2, need * 4 // 5, need * 8 // 9, 0))

    return plant


def weight_at_fault(name):
    def plant(random, inputs):
        if not inputs[name]:
            inputs[name].append(ONE)
        for _ in range(random.between(1, 2)):
            bad = tiny(random) | SIGN if random.chance(15) else random.choice(NOT_POSITIVE)
            inputs[name][random.below(len(inputs[name]))] = bad

    return plant


def count_of_weights(name):
    return lambda random, inputs: change_length(random, inputs[name], ONE)


def faults_of_step(kind):
    samples = names_of_samples(kind)
    return (
        *(fault for sample in samples for fault in of_sample(sample)),
        Fault(9, "spectral bound", not_positive("spectral bound")),
        Fault(7, "tau", tau_outside),
        Fault(8, "tau", beyond_the_radius),
        *(Fault(10, sample, another_n(sample)) for sample in samples[1:]),
        Fault(10, "signal", length_of("signal")),
        Fault(10, "output", length_of("output")),
        Fault(10, "work", short_work(kind)),
    )


def faults_of_weighted_step(kind):
    return of_sample("sample 1") + of_sample("sample 2") + (
        Fault(9, "spectral bound", not_positive("spectral bound")),
        Fault(9, "root bound", not_positive("root bound")),
        Fault(12, "sample 1", no_nodes),
        Fault(7, "tau", tau_outside),
        Fault(8, "tau", beyond_the_radius),
        Fault(10, "sample 2", another_n("sample 2")),
        Fault(10, "signal", length_of("signal")),
        Fault(10, "output", length_of("output")),
        Fault(10, "weights", count_of_weights("weights 1")),
        Fault(10, "weights", count_of_weights("weights 2")),
        Fault(10, "work", short_work(kind)),
        Fault(11, "weights 1", weight_at_fault("weights 1")),
        Fault(11, "weights 2", weight_at_fault("weights 2")),
    )


# In the order of each call's checks.
FAULTS_OF_STEPS = {
    OMEGA4: faults_of_step(OMEGA4),
    OMEGA4_ADJOINT: faults_of_step(OMEGA4_ADJOINT),
    WEIGHTED_OMEGA4: faults_of_weighted_step(WEIGHTED_OMEGA4),
    WEIGHTED_OMEGA4_ADJOINT: faults_of_weighted_step(WEIGHTED_OMEGA4_ADJOINT),
    OMEGA6: faults_of_step(OMEGA6),
}

# Without nodes: n is not above 4,096, row starts do not fall, every column is refused before a value, and no work is needed.
NOT_WITHOUT_NODES = {(6, "sample 1"), (2, "sample 1"), (5, "sample 1"), (10, "work")}


def can_stand_together(faults):
    planted = {(fault.row, fault.place) for fault in faults}
    return (12, "sample 1") not in planted or not planted & NOT_WITHOUT_NODES


def drawn_for(random, kind, faults):
    """Inputs in which the faults can be planted. Without nodes, the first sample may have entries and the second one nodes."""
    if any(fault.row == 12 for fault in faults):
        samples = [network(random, random.choice((0, 0, 3)) if k else 0, moderate) for k in (0, 1)]
        if random.chance(50):
            samples[0].update({"row starts": [2], "columns": [0, random.below(3)], "values": [ONE, ONE]})
        return step_inputs(random, kind, samples, moderate_tau(random), [])
    n = random.between(2, 5)
    signal = signal_list(random, n, ordinary, 5)
    return step_inputs(random, kind, own_patterns(random, kind, n, moderate), moderate_tau(random), signal)


def refused(random, kind, triples):
    """Each fault alone, twice in a sample and six times elsewhere; each pair of faults; and some triples."""
    def times_alone(fault):
        return 2 if fault.row in ROWS_OF_PATTERNS else 6

    for some in alone_and_together(random, FAULTS_OF_STEPS[kind], times_alone, triples, can_stand_together):
        yield with_faults(random, kind, some, drawn_for)
