"""IEEE 754 by bit patterns: an f32 is a 32-bit whole number here, and an f64 result is given by its 64 bits."""

import struct
from fractions import Fraction

POSITIVE_INFINITY = 0x7F800000
NEGATIVE_INFINITY = 0xFF800000
QUIET_NAN = 0x7FC00000
MINUS_ZERO = 0x80000000
LARGEST = 0x7F7FFFFF
NANS = (QUIET_NAN, 0xFFC00000, 0x7F800001, 0x7FBFFFFF, 0x7FFFFFFF, 0xFF800001, 0xFFFFFFFF, 0x7FC0BEEF)


def is_finite(bits):
    """True unless the pattern is an infinity's or a NaN's."""
    return (bits >> 23) & 0xFF != 0xFF


def exact_value(bits):
    """The exact value of a finite f32; minus zero is zero."""
    exponent, fraction = (bits >> 23) & 0xFF, bits & 0x7FFFFF
    significand = fraction if exponent == 0 else fraction + (1 << 23)
    power = max(exponent, 1) - 150
    value = Fraction(significand << power) if power >= 0 else Fraction(significand, 1 << -power)
    return -value if bits >> 31 else value


def nearest_f32(value):
    """The bits of an f32 next to a fraction, to choose inputs and in wrong rules: there a double rounding would do no harm."""
    return struct.unpack("<I", struct.pack("<f", float(value)))[0]


def quotient_bits(numerator, denominator):
    """The bits of the f64 nearest to an exact quotient of whole numbers (Python rounds int / int correctly)."""
    return struct.unpack("<Q", struct.pack("<d", numerator / denominator))[0]
