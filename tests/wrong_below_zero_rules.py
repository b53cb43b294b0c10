"""Wrong rules of floats below zero for check_wrong_rules.py: near misses that document 02's No. 2 leaves room for."""

from fractions import Fraction
from math import ceil

import reference as ref
from floats import MINUS_ZERO, NEGATIVE_INFINITY, exact_value, is_finite, nearest_f32


def none_below_zero(value, quantity):
    return 0 <= value < quantity[1]


def down_to_the_whole_unit(value, quantity):
    return -Fraction(1, quantity[0]) < value < quantity[1]


def down_to_a_quarter_of_the_unit(value, quantity):
    return -Fraction(1, 4 * quantity[0]) < value < quantity[1]


def unit_of_coordinates_for_all(value, quantity):
    return -Fraction(1, 2 * ref.COORDINATE[0]) < value < quantity[1]


def unit_of_tristimulus_values_for_all(value, quantity):
    return -Fraction(1, 2 * ref.TRISTIMULUS[0]) < value < quantity[1]


def half_of_the_unit_as_a_float(value, quantity):
    return exact_value(nearest_f32(-Fraction(1, 2 * quantity[0]))) < value < quantity[1]


def product_in_single_precision(value, quantity):
    return -1 < value < quantity[1] and Fraction(-1, 2) < exact_value(nearest_f32(value * quantity[0]))


def only_coordinates_below_zero(value, quantity, in_range=ref.in_range):
    return in_range(value, quantity) and (value >= 0 or quantity == ref.COORDINATE)


def only_tristimulus_values_below_zero(value, quantity, in_range=ref.in_range):
    return in_range(value, quantity) and (value >= 0 or quantity == ref.TRISTIMULUS)


def sign_left_out(value, quantity):
    return abs(value) < quantity[1]


def away_from_zero_below_zero(bits, scale, whole_number=ref.whole_number):
    value = exact_value(bits)
    return ceil(-value * scale) if value < 0 else whole_number(bits, scale)


def one_float_below_zero_at_most(patterns, quantity, whole_numbers=ref.whole_numbers):
    numbers = whole_numbers(patterns, quantity)
    if sum(exact_value(bits) < 0 for bits in patterns) > 1:
        raise ref.Refused(ref.OUT_OF_RANGE)
    return numbers


def minus_zero_out_of_range(patterns, quantity, whole_numbers=ref.whole_numbers):
    numbers = whole_numbers(patterns, quantity)
    if MINUS_ZERO in patterns:
        raise ref.Refused(ref.OUT_OF_RANGE)
    return numbers


def minus_infinity_out_of_range(patterns, quantity, whole_numbers=ref.whole_numbers):
    if NEGATIVE_INFINITY in patterns and all(is_finite(bits) or bits == NEGATIVE_INFINITY for bits in patterns):
        raise ref.Refused(ref.OUT_OF_RANGE)
    return whole_numbers(patterns, quantity)


def luminance_below_zero_out_of_range(x, y, z, convert_xyz=ref.CONVERSIONS["xyz"]):
    ref.whole_numbers((x, y, z), ref.TRISTIMULUS)
    if exact_value(y) < 0:
        raise ref.Refused(ref.OUT_OF_RANGE)
    return convert_xyz(x, y, z)


def except_kind(kind):
    """The conversions, that of one kind of reading taking no float below zero."""
    def convert(*args, right=ref.CONVERSIONS[kind]):
        found = right(*args)
        if any(exact_value(bits) < 0 for bits in args):
            raise ref.Refused(ref.OUT_OF_RANGE)
        return found
    return {**ref.CONVERSIONS, kind: convert}


def except_place(at):
    """A `whole_numbers` that takes no float below zero in one place."""
    def whole_numbers(patterns, quantity, right=ref.whole_numbers):
        numbers = right(patterns, quantity)
        if at < len(patterns) and exact_value(patterns[at]) < 0:
            raise ref.Refused(ref.OUT_OF_RANGE)
        return numbers
    return whole_numbers


WRONG_BELOW_ZERO_RULES = (
    ("in_range", none_below_zero),
    ("in_range", down_to_the_whole_unit),
    ("in_range", down_to_a_quarter_of_the_unit),
    ("in_range", unit_of_coordinates_for_all),
    ("in_range", unit_of_tristimulus_values_for_all),
    ("in_range", half_of_the_unit_as_a_float),
    ("in_range", product_in_single_precision),
    ("in_range", only_coordinates_below_zero),
    ("in_range", only_tristimulus_values_below_zero),
    ("in_range", sign_left_out),
    ("whole_number", away_from_zero_below_zero),
    ("whole_numbers", one_float_below_zero_at_most),
    ("whole_numbers", minus_zero_out_of_range),
    ("whole_numbers", minus_infinity_out_of_range),
    ("CONVERSIONS", {**ref.CONVERSIONS, "xyz": luminance_below_zero_out_of_range}, "luminance below zero out of range"),
    *(("CONVERSIONS", except_kind(kind), "none below zero in " + kind) for kind in ("uv", "uvp", "xy", "xyz")),
    *(("whole_numbers", except_place(at), "none below zero in place %d" % (at + 1)) for at in range(3)),
)
