"""f32 patterns that a wrong float-to-whole rule gets wrong, for coordinates and for tristimulus values."""

from fractions import Fraction
from math import floor

import reference as ref
from floats import LARGEST, MINUS_ZERO, NANS, NEGATIVE_INFINITY, POSITIVE_INFINITY, exact_value, nearest_f32

ONE = nearest_f32(1)
TWO = nearest_f32(2)
LIMIT_4096 = nearest_f32(4096)
SMALLEST, LARGEST_SUBNORMAL, SMALLEST_NORMAL = 0x00000001, 0x007FFFFF, 0x00800000
TINY_NEGATIVE = 0x80000001
MINUS_ONE = nearest_f32(-1)
DARK = nearest_f32(Fraction(1, 2))  # as a Y

# One of each sort for every place of a reading: what is not finite, what is out of range, what only looks so.
SPECIALS = (NANS[0], NANS[5], POSITIVE_INFINITY, NEGATIVE_INFINITY, MINUS_ONE, TINY_NEGATIVE, MINUS_ZERO, LARGEST, 0x00000000)


def with_neighbours(bits):
    return [bits - 1, bits, bits + 1]


def exact_halves(quantity, dice, most):
    """Floats whose value times S ends in exactly one half, with the floats beside them: odd / 128 or odd / 64."""
    scale, bound = quantity
    power = 128 if scale == ref.MICRO else 64
    odds = list(range(1, power * bound, 2))
    if len(odds) > most:
        odds = odds[:20] + odds[-20:] + [dice.pick(odds) for _ in range(most - 40)]
    patterns = [nearest_f32(Fraction(odd, power)) for odd in odds]
    assert all(exact_value(bits) * scale % 1 == Fraction(1, 2) for bits in patterns)
    return [near for bits in patterns for near in with_neighbours(bits)]


def either_side_of_halves(quantity, dice, count):
    """The last float that rounds to k and the first that rounds to k + 1, for random k."""
    scale, bound = quantity
    found = []
    for _ in range(count):
        bits = nearest_f32(Fraction(2 * dice.below(min(bound, 100) * scale) + 1, 2 * scale))
        found += with_neighbours(bits)
    return found


def single_precision_product(bits, scale):
    """A wrong rule: the product with S is rounded to an f32 before the floor."""
    product = exact_value(nearest_f32(exact_value(bits) * scale))
    return floor(exact_value(nearest_f32(product + Fraction(1, 2))))


def spoilt_by_single_precision(quantity, dice, count):
    """Floats at which that wrong rule gives another whole number."""
    scale, bound = quantity
    top = nearest_f32(bound)
    found = []
    while len(found) < count:
        bits = dice.between(nearest_f32(Fraction(1, 4 * scale)), top - 1)
        if single_precision_product(bits, scale) != ref.whole_number(bits, scale):
            found.append(bits)
    return found


def small_values():
    """Zeros, subnormals, 2^-21, 2^-20 and their neighbours: what rounds to 0 or 1."""
    patterns = [0, MINUS_ZERO, SMALLEST, LARGEST_SUBNORMAL, SMALLEST_NORMAL]
    for value in (Fraction(1, 2**21), Fraction(1, 2**20), Fraction(1, 2**18), Fraction(1, 2**17)):
        patterns += with_neighbours(nearest_f32(value))
    return patterns


def upper_end(quantity):
    """The floats under the bound that round up to it (3f7ffff8 to 3f7fffff for coordinates) and the one below."""
    top = nearest_f32(quantity[1])
    return [top - k for k in range(1, 10)]


def hard_floats(quantity, dice):
    """Patterns in range and not below zero, hardest first."""
    found = small_values() + upper_end(quantity) + exact_halves(quantity, dice, 200)
    found += either_side_of_halves(quantity, dice, 150) + spoilt_by_single_precision(quantity, dice, 200)
    return [bits for bits in found if 0 <= exact_value(bits) < quantity[1]]
