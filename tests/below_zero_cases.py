"""Vectors for floats below zero (document 02, No. 2): conversions `uv`, `uvp`, `xy`, `xyz`, and answers through them."""

from fractions import Fraction
from itertools import product

import document_cases
import reference as ref
from answer_cases import TEXT_EDGES, WIDE_EDGES, line
from convert_cases import HUNDRED, PAIRS, QUARTER, hex_line
from dice import Dice
from floats import MINUS_ZERO, NEGATIVE_INFINITY, POSITIVE_INFINITY, QUIET_NAN, exact_value, nearest_f32
from hard_floats import (DARK, LARGEST_SUBNORMAL, LIMIT_4096, MINUS_ONE, ONE, SMALLEST, SMALLEST_NORMAL, TINY_NEGATIVE,
                         with_neighbours)
from readings import as_xyz

# Of each kind: what its floats measure, an everyday float, and how many floats it has.
KINDS = {**dict.fromkeys(PAIRS, (ref.COORDINATE, QUARTER, 2)), "xyz": (ref.TRISTIMULUS, HUNDRED, 3)}
# The next pattern, one float farther from zero, is the first that is refused.
LAST_TAKEN = {ref.COORDINATE: 0xB50637BD, ref.TRISTIMULUS: 0xB6A7C5AC}


def check_limits():
    """The two floats about -1/2 of each unit; no float is exactly that."""
    for (scale, _), last in LAST_TAKEN.items():
        assert exact_value(last + 1) * scale < Fraction(-1, 2) < exact_value(last) * scale < 0


def minus(value):
    return nearest_f32(-value)


def near_zero(quantity):
    """Floats about zero and about -1/2 of the unit, -2^-1 to -2^-149, and parts of the unit below zero."""
    last = LAST_TAKEN[quantity]
    found = list(range(last - 4, last + 6))
    small = (0, SMALLEST, SMALLEST + 1, LARGEST_SUBNORMAL, SMALLEST_NORMAL)
    found += [sign | bits for sign in (0, MINUS_ZERO) for bits in small]
    found += [minus(Fraction(1, 2**k)) for k in range(1, 150)]
    for part in (Fraction(1, 4), Fraction(3, 4), 1, Fraction(3, 2)):
        found += with_neighbours(minus(part / quantity[0]))
    return list(dict.fromkeys(found))


def zeros(quantity):
    """Floats that all count as 0."""
    return 0, MINUS_ZERO, TINY_NEGATIVE, minus(Fraction(1, 4 * quantity[0])), LAST_TAKEN[quantity]


def with_float(everyday, places, at, bits):
    patterns = [everyday] * places
    patterns[at] = bits
    return patterns


def in_each_place():
    """Every float of `near_zero` in every place of every kind, among everyday floats."""
    for kind, (quantity, everyday, places) in KINDS.items():
        for at, bits in product(range(places), near_zero(quantity)):
            yield hex_line(kind, *with_float(everyday, places, at, bits))


def beside_faults():
    """Floats on both sides of -1/2 of the unit beside each other, an everyday float, and what 2, 3 and 4 are given for."""
    for kind, (quantity, everyday, places) in KINDS.items():
        last = LAST_TAKEN[quantity]
        beyond = ONE if quantity == ref.COORDINATE else LIMIT_4096
        both_sides = (last, last + 1, TINY_NEGATIVE)
        others = (everyday, QUIET_NAN, NEGATIVE_INFINITY, POSITIVE_INFINITY, beyond, MINUS_ONE)
        dark = (DARK,) if kind == "xyz" else ()
        for patterns in product(both_sides + others + dark, repeat=places):
            if set(patterns) & set(both_sides):
                yield hex_line(kind, *patterns)


def below_zero_by_chance(dice, count):
    """Random bits: in turn within 1000 patterns of the limit, and from minus zero to 1000 patterns past it."""
    for kind, (quantity, everyday, places) in KINDS.items():
        last = LAST_TAKEN[quantity]
        for k in range(count):
            first = MINUS_ZERO if k % 2 else last - 1000
            yield hex_line(kind, *with_float(everyday, places, k // 2 % places, dice.between(first, last + 1000)))


def check_same(kind, quantity, patterns, at):
    """A reading converts to the same with each of the floats that count as 0."""
    found = {ref.converted(kind, [*patterns[:at], bits, *patterns[at + 1:]]) for bits in zeros(quantity)}
    assert len(found) == 1, (kind, patterns, at, found)


def counted_as_zero(dice, count):
    """Readings, each with 0, -0 and floats a hair below zero in one place, line after line."""
    for kind, (quantity, _, places) in KINDS.items():
        for at in [k % places for k in range(count)]:
            patterns = [dice.between(nearest_f32(Fraction(1, 100)), nearest_f32(quantity[1]) - 1) for _ in range(places)]
            check_same(kind, quantity, patterns, at)
            for patterns[at] in zeros(quantity):
                yield hex_line(kind, *patterns)


def answers_without_blue():
    """XYZ whose Z counts as 0: accepted, all answers equal; the first float that is refused; both under bad edges too."""
    first_refused = LAST_TAKEN[ref.TRISTIMULUS] + 1
    for u in range(246_000, 346_000, 9_000):
        x, y, _ = as_xyz(u, (4 * ref.MICRO - u) // 10)
        for allowance, edges in product((0, 3, 6, 14), (TEXT_EDGES, WIDE_EDGES)):
            given = {ref.answer("xyz", (x, y, z), edges, allowance) for z in zeros(ref.TRISTIMULUS)}
            assert len(given) == 1 and given.pop().refusal == 0, (x, y, allowance)
            for z in (*zeros(ref.TRISTIMULUS), first_refused):
                yield line("xyz", (x, y, z), allowance, edges)
        for z in (TINY_NEGATIVE, first_refused):
            yield line("xyz", (x, y, z), 14, (5000, 5000))


def answers_of_each_kind():
    """Through every kind, with good edges and with bad ones: 1, 2, 3 and what comes after 3, an answer where Z counts as 0."""
    for kind, (quantity, everyday, places) in KINDS.items():
        for at, bits in product(range(places), (*zeros(quantity), LAST_TAKEN[quantity] + 1, NEGATIVE_INFINITY)):
            for edges in (TEXT_EDGES, (5000,)):
                yield line(kind, with_float(everyday, places, at, bits), 14, edges)


def worked_by_hand():
    """The cases of document_cases.py."""
    for kind, args, _ in document_cases.BELOW_ZERO:
        yield hex_line(kind, *map(document_cases.bits, args))


def lines():
    check_limits()
    dice = Dice("below zero")
    for section in (in_each_place(), beside_faults(), below_zero_by_chance(dice, 120), counted_as_zero(dice, 30),
                    answers_without_blue(), answers_of_each_kind(), worked_by_hand()):
        yield from section
