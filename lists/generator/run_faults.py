"""Refused inputs of lookups and runs: faults, one for each way in which a row of document 01's table can be met, planted alone and
together."""

from checks import segment_outside_radius, work_need
from faults import FAULTS_OF_NETWORKS, TOP, Fault, alone_and_together, change_length, count_of_values, length_of, with_faults
from ieee import INFINITY, ONE, SIGN, to_bits, to_float
from list_format import EVOLVE, EVOLVE_ADJOINT, SEGMENT_INDEX, WEIGHTED_EVOLVE_ADJOINT
from random_reals import INFINITIES, NANS, ordinary
from run_samples import breakpoints_of, moderate_run, next_above
from step_faults import beyond_the_radius, not_positive, tau_outside


def segments(*counts):
    """Another count of segments."""
    def plant(random, inputs):
        inputs["segments"] = random.choice(counts)

    return plant


def breakpoint_at_fault(random, inputs):
    """A breakpoint that is its predecessor or below it, or is not finite."""
    times = inputs["breakpoints"]
    if times:
        k = random.below(len(times))
        below = [times[k - 1], times[k - 1] ^ SIGN if times[k - 1] not in (0, SIGN) else SIGN, ONE | SIGN] if k else []
        times[k] = random.choice([random.choice(NANS), *INFINITIES, *below])


def other_start(random, inputs):
    """A first breakpoint other than 0, and not above the next."""
    times = inputs["breakpoints"]
    if times:
        next_time = to_float(times[1]) if len(times) > 1 else 1.0
        times[0] = random.choice((ONE | SIGN, SIGN | 1, to_bits(next_time / 2), 0xFFEFFFFFFFFFFFFF, 1))


def unknown_law(random, inputs):
    """A law above 2. A call takes laws as bytes."""
    for _ in range(random.between(1, 2)):
        if inputs["laws"]:
            inputs["laws"][random.below(len(inputs["laws"]))] = random.choice((3, 4, 127, 128, 254, 255))


def value_not_finite(name):
    def plant(random, inputs):
        for _ in range(random.between(1, 2)):
            if inputs[name]:
                inputs[name][random.below(len(inputs[name]))] = random.choice(NANS + 3 * INFINITIES)

    return plant


def law_too_many(random, inputs):
    change_length(random, inputs["laws"], random.below(3))


def steps(*counts):
    def plant(random, inputs):
        inputs["steps"] = random.choice(counts)

    return plant


def beyond_the_radius_of_a_segment(random, inputs):
    """The check turned on and, where that is not enough, a bound that is large for one segment's τ or for all."""
    inputs["check"] = 1
    if segment_outside_radius(inputs) is None:
        inputs["spectral bound"] = random.choice((ordinary(random) & ~SIGN, 0x40F0000000000000, 0x7FE0000000000000))


def short_work(kind):
    def plant(random, inputs):
        need = min(work_need(kind, inputs), 200)
        inputs["work length"] = random.choice((max(need - 1, 0), need // 2, need * 6 // 7, need * 10 // 11, 0))

    return plant


def time_outside(random, inputs):
    """Past the last breakpoint, before the first, or a NaN."""
    times = inputs["breakpoints"] or [0]
    below = next_above(times[0] ^ SIGN) ^ SIGN if times[0] & ~SIGN < INFINITY else ONE
    above = next_above(times[-1]) if times[-1] & ~SIGN < INFINITY else ONE
    inputs["t"] = random.choice((above, below, *INFINITIES, *NANS[:3]))


PATTERN = tuple(fault for fault in FAULTS_OF_NETWORKS if fault.row != 5 and fault.plant is not count_of_values)
POOLS = (
    Fault(14, "breakpoints", length_of("breakpoints")),
    Fault(14, "start pool", length_of("start pool")),
    Fault(14, "end pool", length_of("end pool")),
    Fault(14, "laws", law_too_many),
)
NO_SEGMENTS, MANY_SEGMENTS = segments(0), segments(65536, 65537, 100000, 2**32, 2**63, TOP)
NO_STEPS, MANY_STEPS = steps(0), steps(65536, 65537, 2**32, 2**32 + 1, 2**53 + 1, 2**63, TOP)
BREAKPOINT = Fault(15, "breakpoints", breakpoint_at_fault)
LAW = Fault(19, "laws", unknown_law)
VALUES = (Fault(5, "start pool", value_not_finite("start pool")), Fault(5, "end pool", value_not_finite("end pool")))
BOUND = Fault(9, "spectral bound", not_positive("spectral bound"))
START = Fault(17, "breakpoints", other_start)
LENGTHS = (Fault(10, "signal", length_of("signal")), Fault(10, "output", length_of("output")))


def faults_of_adjoint(kind):
    weighted = kind == WEIGHTED_EVOLVE_ADJOINT
    weights = ("start weights", "end weights")
    return (
        *PATTERN,
        Fault(13, "segments", segments(0, 2, 3, 65535, 65536, TOP)),
        *POOLS,
        BREAKPOINT,
        START,
        LAW,
        *VALUES,
        BOUND,
        *((Fault(9, "root bound", not_positive("root bound")), NO_NODES) if weighted else ()),
        Fault(16, "steps", MANY_STEPS),
        Fault(7, "tau", tau_outside),
        Fault(8, "tau", beyond_the_radius),
        *LENGTHS,
        *((Fault(10, "weights", length_of(name)) for name in weights) if weighted else ()),
        Fault(10, "work", short_work(kind)),
    )


def no_nodes(random, inputs):
    """The inputs are drawn without nodes; nothing is left to plant."""


NO_NODES = Fault(12, "network", no_nodes)

# In the order of each call's checks.
FAULTS_OF_RUNS = {
    SEGMENT_INDEX: (
        Fault(13, "segments", NO_SEGMENTS),
        Fault(13, "segments", MANY_SEGMENTS),
        POOLS[0],
        BREAKPOINT,
        Fault(18, "t", time_outside),
    ),
    EVOLVE: (
        *PATTERN,
        Fault(13, "segments", NO_SEGMENTS),
        Fault(13, "segments", MANY_SEGMENTS),
        *POOLS,
        BREAKPOINT,
        LAW,
        *VALUES,
        BOUND,
        Fault(16, "steps", NO_STEPS),
        Fault(16, "steps", MANY_STEPS),
        START,
        *LENGTHS,
        Fault(10, "work", short_work(EVOLVE)),
        Fault(8, "tau", beyond_the_radius_of_a_segment),
    ),
    EVOLVE_ADJOINT: faults_of_adjoint(EVOLVE_ADJOINT),
    WEIGHTED_EVOLVE_ADJOINT: faults_of_adjoint(WEIGHTED_EVOLVE_ADJOINT),
}

# Without nodes: n is not above 4,096, row starts do not fall, every column is refused, no list has a value, and no work is needed.
NOT_WITHOUT_NODES = {(6, "network"), (2, "network"), (5, "start pool"), (5, "end pool"), (10, "work")}


def can_stand_together(faults):
    planted = {(fault.row, fault.place) for fault in faults}
    plants = [fault.plant for fault in faults]
    if NO_SEGMENTS in plants and (MANY_SEGMENTS in plants or beyond_the_radius_of_a_segment in plants):
        return False  # two counts at once; a radius of no segment
    if NO_STEPS in plants and (MANY_STEPS in plants or beyond_the_radius_of_a_segment in plants):
        return False  # two counts at once; steps of no length
    return (12, "network") not in planted or not planted & NOT_WITHOUT_NODES


def drawn_for(random, kind, faults):
    """Inputs in which the faults can be planted."""
    if kind == SEGMENT_INDEX:
        return lookup_inputs(random, random.between(1, 5))
    if not any(fault.row == 12 for fault in faults):
        return moderate_run(random, kind, random.between(2, 4), random.between(1, 4), random.between(1, 3))
    inputs = moderate_run(random, kind, 0, random.between(1, 4))
    if random.chance(50):
        inputs.update({"row starts": [2], "columns": [0, random.below(3)], "start pool": [ONE] * 2, "end pool": [ONE] * 2})
    return inputs


def lookup_inputs(random, segments):
    """A lookup within the breakpoints."""
    times = breakpoints_of(random, segments, 2)
    k = random.below(segments)
    middle = to_bits(to_float(times[k]) + (to_float(times[k + 1]) - to_float(times[k])) * 0.5)
    return {"segments": segments, "breakpoints": times, "t": random.choice((times[k], times[k + 1], middle))}


def refused(random, kind, alone, triples):
    """Each fault alone, so many times; each pair of faults; and some triples."""
    for some in alone_and_together(random, FAULTS_OF_RUNS[kind], lambda fault: alone, triples, can_stand_together):
        yield with_faults(random, kind, some, drawn_for)
