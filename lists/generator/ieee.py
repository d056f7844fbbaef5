"""Bit patterns of binary64."""

import struct

INFINITY = 0x7FF0000000000000
ONE = 0x3FF0000000000000
SIGN = 1 << 63
NAN = 0x7FF8000000000000  # stands for every NaN that is computed


def to_float(bits):
    return struct.unpack("<d", struct.pack("<Q", bits))[0]


def to_bits(value):
    return NAN if value != value else struct.unpack("<Q", struct.pack("<d", value))[0]


def is_nan(bits):
    return bits & ~SIGN > INFINITY


def is_finite(bits):
    return bits & ~SIGN < INFINITY


def compose(sign, field, digits):
    """The value with this sign bit, exponent field and 52 digits."""
    return sign << 63 | field << 52 | digits
