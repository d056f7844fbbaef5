"""Document 01's formulas, each operation rounded by itself in the order of its words. Python's floats are binary64."""

from math import factorial, isqrt

from ieee import INFINITY, NAN, SIGN, is_nan, to_bits, to_float

# The literals for √3/12 of magnus_graph.rs and of varcoef_magnus_graph.rs.
ROOT_3_BY_12 = to_float(0x3FC279A74590331C)
WEIGHTED_ROOT_3_BY_12 = to_float(0x3FC279A74590331D)
# The constants of magnus6_graph.rs: the literal for √15/3, and quotients.
ROOT_15_BY_3 = to_float(0x3FF4A7E9CB8A3491)
TEN_BY_3, ONE_BY_12, ONE_BY_60, ONE_BY_240 = 10.0 / 3.0, 1.0 / 12.0, 1.0 / 60.0, 1.0 / 240.0


def floats(bits):
    return [to_float(value) for value in bits]


def rows(network, values):
    """The entries of each row in stored order, a value and a column each."""
    starts, columns = network["row starts"], network["columns"]
    return [[(values[k], columns[k]) for k in range(starts[i], starts[i + 1])] for i in range(network["n"])]


def gershgorin_bound(network):
    """Part 2: the largest sum of absolute values over the rows."""
    largest = 0.0
    for row in rows(network, floats(network["values"])):
        total = 0.0
        for value, _ in row:
            total = total + abs(value)
        largest = max(largest, total)
    return largest


def product_of(network, values):
    """Part 1: the product as a function of the signal. Row i starts at +0 and adds value·signal[column] in stored order."""
    entries = rows(network, values)

    def product(signal):
        sums = []
        for row in entries:
            total = 0.0
            for value, column in row:
                total = total + value * signal[column]
            sums.append(total)
        return sums

    return product


def product_with(network):
    return product_of(network, floats(network["values"]))


def scaled_sum(target, alpha, source):
    """Part 3: target + alpha·source at each place."""
    return [t + alpha * s for t, s in zip(target, source)]


def root(bits):
    """Part 4: squareRoot of IEEE 754, to nearest, ties to even, from the integer root of the scaled significand."""
    if is_nan(bits) or (bits & SIGN and bits != SIGN):
        return NAN
    if bits in (0, SIGN, INFINITY):
        return bits
    field, digits = bits >> 52, bits & (1 << 52) - 1
    significand, exponent = (digits, -1074) if field == 0 else (digits | 1 << 52, field - 1075)
    # The value is significand·2^exponent. With 120 digits more its root has over 55 digits before the point, and none is lost.
    shift = 120 + (exponent & 1)
    scaled, exponent = significand << shift, (exponent - shift) >> 1
    whole = isqrt(scaled)
    surplus = whole.bit_length() - 53
    kept, lost = whole >> surplus, whole & (1 << surplus) - 1
    half = 1 << surplus - 1
    inexact = whole * whole != scaled
    if lost > half or (lost == half and (inexact or kept & 1)):
        kept += 1
    return to_bits(kept * 2.0 ** (exponent + surplus))


def weighted_product_of(product, weights):
    """Part 5: root·(L(root·v)) at each place."""
    roots = [to_float(root(weight)) for weight in weights]

    def weighted_product(v):
        return [r * y for r, y in zip(roots, product([r * x for r, x in zip(roots, v)]))]

    return weighted_product


def weighted_product_with(network, weights):
    return weighted_product_of(product_with(network), weights)


def omega4(l1, l2, tau, sign, s, v):
    """Part 6: (−0.5·τ)·(L1v + L2v), then plus (((sign·s)·τ)·τ)·(L2(L1v) − L1(L2v)). L1 and L2 are products as functions."""
    l1_v, l2_v = l1(v), l2(v)
    half = -0.5 * tau
    commutator = ((sign * s) * tau) * tau
    return [
        half * (x + y) + commutator * (p - q)
        for x, y, p, q in zip(l1_v, l2_v, l2(l1_v), l1(l2_v))
    ]


def taylor_sum(omega, degree, v):
    """v, plus 1·Ωv, plus (1/2)·Ω²v, (1/6)·Ω³v and so on, added in that order. Each 1/k! is one rounded division."""
    answer = power = v
    for k in range(1, degree + 1):
        power = omega(power)
        answer = scaled_sum(answer, 1.0 / factorial(k), power)
    return answer


def order4_step(l1, l2, tau, sign, s, v):
    """Part 6: the Taylor sum of degree 4."""
    return taylor_sum(lambda power: omega4(l1, l2, tau, sign, s, power), 4, v)


def step(inputs, sign):
    """Parts 6 and 8: an order-4 step, forward with sign +1 and adjoint with −1."""
    l1, l2 = product_with(inputs["sample 1"]), product_with(inputs["sample 2"])
    return order4_step(l1, l2, to_float(inputs["tau"]), sign, ROOT_3_BY_12, floats(inputs["signal"]))


def weighted_step(inputs, sign):
    """Parts 7 and 8: the same with the weighted product, and with the other literal."""
    l1 = weighted_product_with(inputs["sample 1"], inputs["weights 1"])
    l2 = weighted_product_with(inputs["sample 2"], inputs["weights 2"])
    return order4_step(l1, l2, to_float(inputs["tau"]), sign, WEIGHTED_ROOT_3_BY_12, floats(inputs["signal"]))


def scaled(factor, x):
    return [factor * a for a in x]


def plus(x, y):
    return [a + b for a, b in zip(x, y)]


def minus(x, y):
    return [a - b for a, b in zip(x, y)]


def negated(x):
    return [-a for a in x]


def omega6(p1, p2, p3, tau, v):
    """Part 9: Ωv for the products p1, p2, p3 with the three samples, A = −L, in the bracketing of its file."""
    def second_difference(x):
        middle = p2(x)
        return minus(plus(plus(negated(p3(x)), middle), middle), p1(x))

    def b1(x):
        return scaled(-tau, p2(x))

    def b2(x):
        return scaled(tau * ROOT_15_BY_3, minus(p1(x), p3(x)))

    def b3(x):
        return scaled(tau * TEN_BY_3, second_difference(x))

    def c1(x):
        return minus(b1(b2(x)), b2(b1(x)))

    def twice_b3_and_c1(x):
        third = b3(x)
        return plus(plus(third, third), c1(x))

    def twice_b3_and_c1_of_b1(y):
        """The same at y = B1x, with τ doubled before its product, and with B2(B1y) formed from L2y."""
        twice_b3 = scaled((tau + tau) * TEN_BY_3, second_difference(y))
        product = p2(y)
        b2_of_b1 = scaled((tau * ROOT_15_BY_3) * -tau, minus(p1(product), p3(product)))
        return plus(twice_b3, minus(b1(b2(y)), b2_of_b1))

    def c2(x):
        return scaled(-ONE_BY_60, minus(b1(twice_b3_and_c1(x)), twice_b3_and_c1_of_b1(b1(x))))

    def left(x):
        return plus(minus(scaled(-20.0, b1(x)), b3(x)), c1(x))

    def right(x):
        return plus(b2(x), c2(x))

    bracket = minus(left(right(v)), right(left(v)))
    return plus(plus(b1(v), scaled(ONE_BY_12, b3(v))), scaled(ONE_BY_240, bracket))


def order6_step(p1, p2, p3, tau, v):
    """Part 9: the Taylor sum of degree 6."""
    return taylor_sum(lambda power: omega6(p1, p2, p3, tau, power), 6, v)


def step6(inputs):
    """Part 9: an order-6 step."""
    products = (product_with(inputs[sample]) for sample in ("sample 1", "sample 2", "sample 3"))
    return order6_step(*products, to_float(inputs["tau"]), floats(inputs["signal"]))
