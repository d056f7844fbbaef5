"""The tables of docs/CONVERGENCE.md for order 6: the errors on a small network whose samples do not commute and are not linear in
time, with the steps halved, and the same with a term changed."""

from collections import namedtuple
from decimal import Decimal, getcontext
from math import factorial

from convergence import GROWTH, NODES, SIGNAL, START, error, matrix, order, solution
from formulas import order6_step, product_with
from ieee import to_bits

# L(t) = START + t·GROWTH + t²·CURVATURE. In each every row sums to 0.
CURVATURE = [1.0, -1.5, 0.5, -1.5, 2.0, -0.5, 0.5, -0.5, 0.0]
# The sample times of a step, as parts of its length: (5 - √15)/10, 1/2 and (5 + √15)/10.
PARTS = 0.1127016653792583, 0.5, 0.8872983346207417
COUNTS = [2, 4, 8, 16, 32, 64]
EXACT_COUNTS = [128, 256, 512]


def product_at(time):
    values = [to_bits(a + time * (b + time * c)) for a, b, c in zip(START, GROWTH, CURVATURE)]
    return product_with({"n": 3, "row starts": [0, 3, 6, 9], "columns": [0, 1, 2] * 3, "values": values})


def run(count):
    """The signal at time 1 after so many steps of order 6, in rounded doubles."""
    tau, signal = 1.0 / count, SIGNAL
    for step in range(count):
        signal = order6_step(*(product_at((step + part) * tau) for part in PARTS), tau, signal)
    return signal


def combined(*parts):
    """The sum of multiples of matrices, each a factor and a matrix."""
    return [[sum(factor * matrix[i][j] for factor, matrix in parts) for j in NODES] for i in NODES]


def times(a, b):
    return [[sum(a[i][k] * b[k][j] for k in NODES) for j in NODES] for i in NODES]


def commutator(a, b):
    return combined((1, times(a, b)), (-1, times(b, a)))


# The factors of document 01's Ω: those of A2 in B3, of B1 in the outer bracket, and the signs of B2, B3/12, C1, C2 and the bracket.
Factors = namedtuple("Factors", "middle twenty b2 b3 c1 c2 bracket", defaults=(-2, -20, 1, 1, 1, 1, 1))

CHANGES = {
    "none": Factors(),
    "sign of C1": Factors(c1=-1),
    "sign of C2": Factors(c2=-1),
    "sign of B2": Factors(b2=-1),
    "sign of B3/12": Factors(b3=-1),
    "sign of the outer bracket": Factors(bracket=-1),
    "+20·B1 for −20·B1": Factors(twenty=20),
    "B3 from A3 − A2 + A1": Factors(middle=-1),
}


def omega6(a1, a2, a3, tau, factors):
    """Ω of document 01, part 9, by matrices."""
    b1 = combined((tau, a2))
    b2 = combined((factors.b2 * Decimal(15).sqrt() / 3 * tau, combined((1, a3), (-1, a1))))
    b3 = combined((Decimal(10) / 3 * tau, combined((1, a3), (factors.middle, a2), (1, a1))))
    c1 = combined((factors.c1, commutator(b1, b2)))
    c2 = combined((-factors.c2 / Decimal(60), commutator(b1, combined((2, b3), (1, c1)))))
    bracket = commutator(combined((factors.twenty, b1), (-1, b3), (1, c1)), combined((1, b2), (1, c2)))
    return combined((1, b1), (factors.b3 / Decimal(12), b3), (factors.bracket / Decimal(240), bracket))


def exact_run(count, operator, factors):
    """The same run in 60 decimal digits, by matrices, with the factors given."""
    tau, signal = 1 / Decimal(count), [Decimal(x) for x in SIGNAL]
    root = Decimal(15).sqrt() / 10
    for step in range(count):
        nodes = [(step + part) * tau for part in (Decimal("0.5") - root, Decimal("0.5"), Decimal("0.5") + root)]
        samples = [combined(*((-(time**power), matrix) for power, matrix in enumerate(operator))) for time in nodes]
        omega = omega6(*samples, tau, factors)
        term = signal
        for k in range(1, 7):
            term = [sum(omega[i][j] * term[j] for j in NODES) for i in NODES]
            signal = [x + y / factorial(k) for x, y in zip(signal, term)]
    return signal


def rounded_table(exact):
    print("| steps | error, rounded doubles | order |\n|---|---|---|")
    before = None
    for count in COUNTS:
        now = error(run(count), exact)
        print(f"| {count} | {now:.3e} | {order(before, now) if before else ''} |")
        before = now


def table_of_changes(exact, operator):
    heads = "".join(f" error, {count} steps | order |" if k else f" error, {count} steps |" for k, count in enumerate(EXACT_COUNTS))
    print("| change |" + heads + "\n|---|" + "---|" * (2 * len(EXACT_COUNTS) - 1))
    for name, factors in CHANGES.items():
        errors = [error(exact_run(count, operator, factors), exact) for count in EXACT_COUNTS]
        row = f"| {name} | {errors[0]:.3e} |"
        for before, now in zip(errors, errors[1:]):
            row += f" {now:.3e} | {order(before, now)} |"
        print(row)


getcontext().prec = 60
operator = [matrix(START), matrix(GROWTH), matrix(CURVATURE)]
exact = solution(operator)
rounded_table(exact)
print()
table_of_changes(exact, operator)
