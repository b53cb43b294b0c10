"""Wrong rules of the curve between entries for check_wrong_rules.py: near misses that document 02's No. 3 leaves room for."""

from fractions import Fraction
from functools import lru_cache
from math import ceil, floor, prod

import reference as ref
from floats import exact_value, nearest_f32


def straight_lines(piece):
    return piece, piece + 1


def first_piece_straight(piece, entries_of=ref.entries_of):
    return (1, 2) if piece == 1 else entries_of(piece)


def last_piece_straight(piece, entries_of=ref.entries_of):
    return (23, 24) if piece == 23 else entries_of(piece)


def first_piece_through_2_to_5(piece, entries_of=ref.entries_of):
    return (2, 3, 4, 5) if piece == 1 else entries_of(piece)


def last_piece_through_20_to_23(piece, entries_of=ref.entries_of):
    return (20, 21, 22, 23) if piece == 23 else entries_of(piece)


def first_piece_through_1_to_3(piece, entries_of=ref.entries_of):
    return (1, 2, 3) if piece == 1 else entries_of(piece)


def last_piece_through_22_to_24(piece, entries_of=ref.entries_of):
    return (22, 23, 24) if piece == 23 else entries_of(piece)


def four_from_its_first_entry(piece):
    first = min(piece, 21)
    return first, first + 1, first + 2, first + 3


def four_up_to_its_last_entry(piece):
    last = max(piece + 1, 4)
    return last - 3, last - 2, last - 1, last


def three_from_the_entry_before(piece):
    first = max(piece - 1, 1)
    return first, first + 1, first + 2


def three_to_the_entry_after(piece):
    last = min(piece + 2, 24)
    return last - 2, last - 1, last


def five_entries(piece):
    first = min(max(piece - 1, 1), 20)
    return tuple(range(first, first + 5))


def six_entries(piece):
    first = min(max(piece - 2, 1), 19)
    return tuple(range(first, first + 6))


def piece_by_the_nearest_entry(place):
    nearest = min(ref.ENTRIES, key=lambda i: abs(ref.entry_place(i) - place))
    return min(nearest, 23)


def changed_in(coordinate, entries_of):
    """An `exact_point` in which one coordinate goes through other entries."""
    def exact_point(place, right=ref.exact_point):
        exact = right(place)
        exact[coordinate] = ref.on_curve(entries_of(ref.piece_of(place)), coordinate, ref.mired_at(place))
        return exact
    return exact_point


def coordinates(*order):
    """An `exact_point` that takes u's cubic (0) or v's (1) for each of the two."""
    return lambda place, right=ref.exact_point: [right(place)[coordinate] for coordinate in order]


# --- Another curve through the right entries --------------------------------------------------------------------------


def lagrange_terms(xs, ys, x):
    """The terms of Lagrange's form."""
    return [y * prod(Fraction(x - other) / (own - other) for other in xs if other != own) for own, y in zip(xs, ys)]


def stored_at(entries, coordinate):
    """The entries' mired values, and their u or v in micro."""
    return [ref.STORED[i][0] for i in entries], [ref.entry_point(i)[coordinate] for i in entries]


def terms_of_lagrange_rounded_apart(entries, coordinate, mired):
    return sum(map(ref.rounded, lagrange_terms(*stored_at(entries, coordinate), mired)))


def terms_of_newton_rounded_apart(entries, coordinate, mired):
    value, product = 0, Fraction(1)
    for k, i in enumerate(entries):
        value += ref.rounded(product * ref.divided_difference(entries[:k + 1], coordinate))
        product *= mired - ref.STORED[i][0]
    return value


def cubic_in_kelvin(entries, coordinate, mired):
    mireds, numbers = stored_at(entries, coordinate)
    return sum(lagrange_terms([Fraction(ref.MICRO, each) for each in mireds], numbers, ref.MICRO / mired))


def share_of_the_piece_in_thousandths(entries, coordinate, mired, on_curve=ref.on_curve):
    return on_curve(entries, coordinate, Fraction(ref.rounded(1000 * mired / 25) * 25, 1000))


def catmull_rom_spline(entries, coordinate, mired, on_curve=ref.on_curve):
    """With the middle slopes of the neighbours instead of the cubic through them; the two end pieces as they should be."""
    mireds, (a, b, c, d) = stored_at(entries, coordinate)
    t = Fraction(mired - mireds[1]) / (mireds[2] - mireds[1])
    if not 0 <= t <= 1:
        return on_curve(entries, coordinate, mired)
    return b + t * (c - a) / 2 + t**2 * (2 * a - 5 * b + 4 * c - d) / 2 + t**3 * (3 * b - 3 * c + d - a) / 2


def v_never_above_the_last_entry(place, right=ref.exact_point):
    u, v = right(place)
    return [u, min(v, ref.entry_point(24)[1])]


def one_cubic_about_the_nearest_entry(reading, place):
    """The piece on the right of entry m for the whole bracket."""
    piece = min(ref.nearest_entry(reading), 23)
    exact = [ref.on_curve(ref.entries_of(piece), coordinate, ref.mired_at(place)) for coordinate in (0, 1)]
    return ref.squared_distance(reading, tuple(map(ref.rounded, exact)))


# --- Another rounding -------------------------------------------------------------------------------------------------


def rounded_by(rule):
    """A `locus_point` that rounds in another way."""
    return lru_cache(maxsize=None)(lambda place: tuple(rule(exact) for exact in ref.exact_point(place)))


def halves_down(exact):
    return ceil(exact - Fraction(1, 2))


def to_the_stored_unit_first(exact):
    return 10 * ref.rounded(exact / 10)


def to_a_tenth_first(exact):
    return ref.rounded(Fraction(ref.rounded(10 * exact), 10))


def to_a_32_bit_float_first(exact):
    return ref.rounded(exact_value(nearest_f32(exact)))


def wrong_at(place, change):
    """A `locus_point` that is wrong at one place."""
    return lambda asked, right=ref.locus_point: change(*right(asked)) if asked == place else right(asked)


WRONG_LOCUS_RULES = (
    *(("entries_of", wrong) for wrong in (
        straight_lines, first_piece_straight, last_piece_straight, first_piece_through_2_to_5, last_piece_through_20_to_23,
        first_piece_through_1_to_3, last_piece_through_22_to_24, four_from_its_first_entry, four_up_to_its_last_entry,
        three_from_the_entry_before, three_to_the_entry_after, five_entries, six_entries)),
    ("piece_of", piece_by_the_nearest_entry),
    ("exact_point", changed_in(0, straight_lines), "straight lines in u"),
    ("exact_point", changed_in(1, straight_lines), "straight lines in v"),
    ("exact_point", coordinates(0, 0), "u's cubic for v"),
    ("exact_point", coordinates(1, 1), "v's cubic for u"),
    ("exact_point", coordinates(1, 0), "u and v swapped"),
    ("exact_point", v_never_above_the_last_entry),
    *(("on_curve", wrong) for wrong in (
        terms_of_lagrange_rounded_apart, terms_of_newton_rounded_apart, cubic_in_kelvin, share_of_the_piece_in_thousandths,
        catmull_rom_spline)),
    ("distance_at", one_cubic_about_the_nearest_entry),
    *(("locus_point", rounded_by(rule), "locus: " + words) for rule, words in (
        (halves_down, "halves down"), (round, "halves to the even number"), (floor, "rounded down"), (ceil, "rounded up"),
        (to_the_stored_unit_first, "to units of 0.00001"), (to_a_tenth_first, "to a tenth first"),
        (to_a_32_bit_float_first, "to a 32-bit float first"))),
    ("locus_point", wrong_at(31_337, lambda u, v: (u + 1, v)), "u one more at a single place"),
    ("locus_point", wrong_at(50_021, lambda u, v: (u, v - 1)), "v one less at a single place"),
    ("locus_point", wrong_at(12_347, lambda u, v: (v, u)), "u and v swapped at a single place"),
)
