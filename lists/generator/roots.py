"""The values whose roots are tested (document 01, part 4)."""

from ieee import INFINITY, SIGN, compose, to_bits
from random_reals import NANS

ALL_DIGITS = (1 << 52) - 1


def every_exponent(random):
    """Each exponent field with digits zero, all ones and random. Field 0 is zero and subnormal values."""
    for field in range(2047):
        for digits in (0, ALL_DIGITS, random.below(1 << 52)):
            yield compose(0, field, digits)


def subnormals(random):
    """Of each length in digits: a single one, all ones, random."""
    for length in range(1, 53):
        first = 1 << length - 1
        yield from (first, 2 * first - 1, first + random.below(first))


def around(bits):
    """A value above zero and its neighbours in the last bit."""
    return bits - 1, bits, bits + 1


def perfect_squares(random):
    """Squares of whole numbers of up to 26 digits, times a power of four, with their neighbours; also as subnormal values."""
    for r in range(1, 33):
        yield from around(to_bits(float(r * r)))
        yield from around(r * r)
    for length in range(6, 27):
        for _ in range(3):
            r = 1 << length - 1 | random.below(1 << length - 1)
            yield from around(to_bits(float(r * r) * 4.0 ** random.between(-480, 480)))
        yield from around(r * r)


def value(significand, exponent):
    """significand·2^exponent, for a significand of 53 digits and an exponent that keeps the value normal."""
    return compose(0, exponent + 1075, significand & ALL_DIGITS)


def scaled_to(radicand, exponent_halved):
    """The value whose root is sqrt(radicand·2^52)·2^exponent_halved, or None where it has more than 53 digits."""
    exponent = 2 * exponent_halved + 52
    if radicand >= 1 << 53:
        if radicand & 1:
            return None
        radicand, exponent = radicand >> 1, exponent + 1
    return value(radicand, exponent)


def next_to_a_middle(random):
    """(r + 1/2)² for r of 53 digits, rounded to 53 digits both ways. Below √2·2^52 the exponent is even, above it odd."""
    turn = 0x16A09E667F3BCD  # √2·2^52
    for low, high in ((1 << 52, turn), (turn, 1 << 53)):
        for _ in range(220):
            r = random.between(low, high - 1)
            exponent_halved = random.between(-560, 450)
            step = 1 if (r * r + r) >> 52 < 1 << 53 else 2
            radicand = (r * r + r) >> 52
            radicand -= radicand % step
            for rounded in (radicand, radicand + step):
                yield scaled_to(rounded, exponent_halved)


def roots_modulo(c, digits):
    """Every r below 2^digits with r² + r - c divisible by 2^digits, lifted digit by digit."""
    found = [0]
    for k in range(digits):
        found = [r + d for r in found for d in (0, 1 << k) if ((r + d) ** 2 + (r + d) - c) % (1 << k + 1) == 0]
    return found


def nearest_to_a_middle(random):
    """Values m with r² + r - c = m·2^52 for a small c: no value's root is nearer to the middle between r and r + 1."""
    for c in range(-40, 42, 2):
        for residue in roots_modulo(c, 52) + roots_modulo(c, 53):
            for r in (residue, residue + (1 << 52)):
                radicand, rest = divmod(r * r + r - c, 1 << 52)
                if 1 << 52 <= r < 1 << 53 and rest == 0 and 1 << 52 <= radicand < 1 << 54:
                    bits = scaled_to(radicand, random.between(-560, 450))
                    if bits is not None:
                        yield bits


def special(random):
    """Zeros, infinities, NaNs, the least and largest values, one and its neighbours, and negative values."""
    yield from (0, SIGN, INFINITY, INFINITY | SIGN, *NANS)
    ends = (1, 2, 3, 4, ALL_DIGITS - 1, ALL_DIGITS, 1 << 52, (1 << 52) + 1, INFINITY - 2, INFINITY - 1)
    yield from ends
    yield from around(to_bits(1.0))
    yield from around(to_bits(2.0))
    yield from (SIGN | bits for bits in ends)
    for field in range(0, 2047, 31):
        yield compose(1, field, random.below(1 << 52))
    for _ in range(16):
        yield compose(random.below(2), 2047, 1 + random.below(ALL_DIGITS))


def inputs(random):
    """The values, each once, in a fixed order."""
    parts = (special, every_exponent, subnormals, perfect_squares, next_to_a_middle, nearest_to_a_middle)
    values = {bits: None for part in parts for bits in part(random)}
    return [{"x": bits} for bits in values]
