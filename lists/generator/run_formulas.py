"""Document 01's runs: part 10, the adjoint runs of part 8, and the laws of "Added by design"."""

from formulas import ROOT_3_BY_12, WEIGHTED_ROOT_3_BY_12, floats, order4_step, product_of, weighted_product_of
from ieee import is_finite, to_bits, to_float

# The sample times of a step, as parts of its length: the two literals of magnus_graph.rs.
NODES = to_float(0x3FCB0CB174DF99C8), to_float(0x3FE93CD3A2C8198E)


class Refused(Exception):
    """A row of document 01's table that is met during a run, with its values."""

    def __init__(self, row, values):
        super().__init__(row, values)
        self.row, self.values = row, values


def segment_index(times, t):
    """The segment of a time: the last one that starts at it or before."""
    return max(k for k in range(len(times) - 1) if times[k] <= t)


def at_time(law, start, end, a, b, t):
    """A list at a time: law 0 the start list holds, 1 the end list holds, 2 each value is s + ((t−a)/(b−a))·(e−s)."""
    if law < 2:
        return (start, end)[law]
    part = (t - a) / (b - a)
    return [s + part * (e - s) for s, e in zip(start, end)]


def sampled_values(values):
    """The values of a sample, unless one is not finite (row 20)."""
    for value in values:
        if not is_finite(to_bits(value)):
            raise Refused(20, [to_bits(value)])
    return values


def sampled_weights(weights):
    """The weights of a sample, unless one is not finite or <= 0 (row 11)."""
    for weight in weights:
        if not is_finite(to_bits(weight)) or weight <= 0:
            raise Refused(11, [to_bits(weight)])
    return [to_bits(weight) for weight in weights]


def run_step(inputs, k, times, start, tau, sign, signal):
    """A step of a run in segment k: two samples, then the weights of each where there are any, then the step of order 4."""
    m, law, a, b = len(inputs["columns"]), inputs["laws"][k], times[k], times[k + 1]
    sample_times = [start + node * tau for node in NODES]

    def sampled(name_of_start, name_of_end, at, length, t):
        lists = (floats(inputs[name][at : at + length]) for name in (name_of_start, name_of_end))
        return at_time(law, *lists, a, b, t)

    values = [sampled_values(sampled("start pool", "end pool", k * m, m, t)) for t in sample_times]
    products = [product_of(inputs, list_) for list_ in values]
    if "start weights" not in inputs:
        return order4_step(*products, tau, sign, ROOT_3_BY_12, signal)
    weights = [sampled_weights(sampled("start weights", "end weights", 0, inputs["n"], t)) for t in sample_times]
    products = [weighted_product_of(*pair) for pair in zip(products, weights)]
    return order4_step(*products, tau, sign, WEIGHTED_ROOT_3_BY_12, signal)


def forward_run(inputs):
    """Part 10: the segments in order; τ is (end−start)/steps, and step j starts at start + j·τ."""
    times, steps, signal = floats(inputs["breakpoints"]), inputs["steps"], floats(inputs["signal"])
    for k in range(inputs["segments"]):
        tau = (times[k + 1] - times[k]) / steps
        for j in range(steps):
            signal = run_step(inputs, k, times, times[k] + float(j) * tau, tau, 1.0, signal)
    return signal


def adjoint_run(inputs):
    """Part 8: step k of N at start (N−1−k)·τ. Zero steps copy the signal."""
    times, steps, tau = floats(inputs["breakpoints"]), inputs["steps"], to_float(inputs["tau"])
    signal = floats(inputs["signal"])
    for k in range(steps):
        signal = run_step(inputs, 0, times, float(steps - 1 - k) * tau, tau, -1.0, signal)
    return signal
