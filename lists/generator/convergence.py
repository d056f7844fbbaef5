"""The tables of docs/CONVERGENCE.md for order 4: the errors on a small network whose samples do not commute, with the steps halved."""

from decimal import Decimal, getcontext

from formulas import ROOT_3_BY_12, WEIGHTED_ROOT_3_BY_12, order4_step, product_with, weighted_product_with
from ieee import to_bits

NODES = range(3)
# L(t) = START + t·GROWTH, row by row. In both every row sums to 0. r(t) = 1 + t·ROOT_GROWTH are the roots of the weights.
START = [1.5, -1.0, -0.5, -1.0, 1.25, -0.25, -0.5, -0.25, 0.75]
GROWTH = [2.0, 0.0, -2.0, 0.0, 1.0, -1.0, -2.0, -1.0, 3.0]
ROOT_GROWTH = [0.5, -0.25, 0.25]
SIGNAL = [1.0, 0.0, -0.5]
# The sample times of a step, as parts of its length: (3 - √3)/6 and (3 + √3)/6.
FIRST, SECOND = 0.21132486540518713, 0.7886751345948129
COUNTS = [8, 16, 32, 64, 128, 256]


def sample(time):
    """The network at a time."""
    values = [to_bits(a + time * b) for a, b in zip(START, GROWTH)]
    return {"n": 3, "row starts": [0, 3, 6, 9], "columns": [0, 1, 2] * 3, "values": values}


def product_at(time, weighted):
    if weighted:
        return weighted_product_with(sample(time), [to_bits((1.0 + time * g) ** 2) for g in ROOT_GROWTH])
    return product_with(sample(time))


def run(count, sign, weighted):
    """The signal at time 1 after so many steps of order 4."""
    tau, signal = 1.0 / count, SIGNAL
    for step in range(count):
        first, second = ((step + part) * tau for part in (FIRST, SECOND))
        literal = WEIGHTED_ROOT_3_BY_12 if weighted else ROOT_3_BY_12
        signal = order4_step(product_at(first, weighted), product_at(second, weighted), tau, sign, literal, signal)
    return signal


def matrix(rows):
    """Nine numbers, row by row, as rows of exact numbers."""
    return [[Decimal(x) for x in rows[3 * i : 3 * i + 3]] for i in NODES]


def matrices(weighted):
    """The matrices M0, M1, .. of the operator M0 + t·M1 + t²·M2 + .."""
    start, growth = matrix(START), matrix(GROWTH)
    if not weighted:
        return [start, growth]
    g = [Decimal(x) for x in ROOT_GROWTH]
    # r(t)·L(t)·r(t): the factor of row i and column j is 1 + t·(g i + g j) + t²·(g i · g j).
    factors = [[[Decimal(1), g[i] + g[j], g[i] * g[j]] for j in NODES] for i in NODES]
    sums = [[[Decimal(0) for _ in NODES] for _ in NODES] for _ in range(4)]
    for i in NODES:
        for j in NODES:
            for power in range(3):
                sums[power][i][j] += factors[i][j][power] * start[i][j]
                sums[power + 1][i][j] += factors[i][j][power] * growth[i][j]
    return sums


def solution(operator):
    """u(1) of u' = -L(t)·u to 50 digits, by the power series of u about 0, which converges everywhere. The operator L(t) is given by
    its matrices M0, M1, .."""
    terms = [[Decimal(x) for x in SIGNAL]]
    for k in range(200):
        total = [Decimal(0) for _ in NODES]
        for power, matrix in enumerate(operator):
            if power <= k:
                for i in NODES:
                    total[i] += sum(matrix[i][j] * terms[k - power][j] for j in NODES)
        terms.append([-x / (k + 1) for x in total])
    assert max(abs(x) for x in terms[-1]) < Decimal(10) ** -45
    return [sum(term[i] for term in terms) for i in NODES]


def error(signal, exact):
    """The largest over the nodes."""
    return max(abs(Decimal(x) - y) for x, y in zip(signal, exact))


def order(before, error):
    """The binary logarithm of the error's fall."""
    return f"{(before / error).ln() / Decimal(2).ln():.2f}"


def table(weighted):
    exact = solution(matrices(weighted))
    print("| steps | error, forward | order | error, sign of the commutator flipped | order |")
    print("|---|---|---|---|---|")
    before = None
    for count in COUNTS:
        errors = [error(run(count, sign, weighted), exact) for sign in (1.0, -1.0)]
        orders = [order(*pair) for pair in zip(before, errors)] if before else ["", ""]
        print(f"| {count} | {errors[0]:.3e} | {orders[0]} | {errors[1]:.3e} | {orders[1]} |")
        before = errors


getcontext().prec = 60
if __name__ == "__main__":
    for weighted in (False, True):
        print("Weighted:" if weighted else "Unweighted:", end="\n\n")
        table(weighted)
        print()
