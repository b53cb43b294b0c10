"""Vectors for the ready points and the coarse reader over them (document 02, No. 12): `ready K`, `coarse KIND ARGS..`.

A section yields readings, each a kind and its numbers. `lines()` tries what No. 12 says on each of them by force; after each that is
refused, and after some that are not, stands a line `answer ..`, by which the search is asked the same reading."""

from collections import Counter
from fractions import Fraction
from functools import lru_cache
from itertools import cycle, product
from math import isqrt

import document_cases
import reference as ref
from answer_cases import LARGEST_U32, TEXT_EDGES, WIDE_EDGES, any_edges, clashes
from answer_cases import line as answer_line
from below_zero_cases import KINDS as FLOAT_KINDS
from below_zero_cases import LAST_TAKEN, with_float, zeros
from convert_cases import FIRST_LIGHT, HUNDRED, LAST_DARK, NEXT_BELOW_1, NEXT_BELOW_4096, PAIRS, hex_line
from dice import Dice
from floats import NEGATIVE_INFINITY, POSITIVE_INFINITY, QUIET_NAN, exact_value, nearest_f32
from hard_floats import DARK, LIMIT_4096, MINUS_ONE, ONE, TINY_NEGATIVE
from readings import (AS_FLOATS, LIMIT_RADIUS, admitted, as_xyz, at_the_limit, behind_an_end, beside_the_limit, comes_to, entry_ties,
                      equally_far, is_admitted, near_locus)

READING_KINDS = ("whole", *AS_FLOATS)
KINDS = ("ready", *("coarse " + kind for kind in READING_KINDS))
READY = range(ref.READY_COUNT)
PER_PIECE = 68  # ready points from one entry to the next
ENDS = ref.FIRST_PLACE, ref.LAST_PLACE
ALLOWANCES = (0, 1, 5, 14, LARGEST_U32)
EDGE_LISTS = (TEXT_EDGES, WIDE_EDGES, (1600, 1601), (20_000, 20_001), tuple(range(2000, 2032)))

# Accepted readings, and the ready points that are nearest to them, all equally near: three, or two that are four or five apart. Such
# readings are rare.
RARE_TIES = (
    ((339_834, 347_245), (1517, 1518, 1519)), ((340_873, 347_249), (1526, 1527, 1528)), ((341_795, 347_251), (1534, 1535, 1536)),
    ((340_296, 400_609), (1522, 1523, 1525)), ((228_913, 267_548), (57, 61)), ((259_401, 307_340), (699, 703)),
    ((261_542, 301_862), (695, 699)), ((256_906, 298_744), (623, 628)),
)

# Accepted readings whose nearest ready place is outside the search's bracket after five steps; among more than a million strongly tinted
# readings there was none whose nearest ready place is outside after four.
OUTSIDE_AFTER_FIVE = (
    (212_965, 269_097), (222_853, 265_746), (228_887, 263_412), (231_444, 264_294), (264_805, 299_568), (344_323, 310_819),
)

# X of readings XYZ with Y = 1 and a Z of 0 that are nearest to another ready place where Z is a unit.
TURNED_BY_BLUE = (0x3F671562, 0x3F67B5F2, 0x3FB42EDC, 0x3FB4F9B1)


# --- The same reading through several kinds ---------------------------------------------------------------------------


def through(kind, reading):
    return kind, tuple(reading if kind == "whole" else AS_FLOATS[kind](*reading))


def exact_kinds(reading):
    """The kinds of float that come to exactly this reading."""
    return [kind for kind in AS_FLOATS if comes_to(kind, reading)]


def by_whole_and_float(readings, dice):
    """Each reading in whole numbers, and through a kind of float that comes to it, where one does."""
    for reading in readings:
        kinds = exact_kinds(reading)
        yield from (through(kind, reading) for kind in (["whole", dice.pick(kinds)] if kinds else ["whole"]))


def by_every_kind(readings):
    """Each reading in whole numbers, and through every kind of float that comes to it."""
    for reading in readings:
        yield from (through(kind, reading) for kind in ("whole", *exact_kinds(reading)))


def beside(reading, dice):
    """The reading, and one a micro off it in u and one in v."""
    (u, v), (du, dv) = reading, (dice.pick((-1, 1)), dice.pick((-1, 1)))
    return [(u, v), (u + du, v), (u, v + dv)]


# --- Ready points, and readings as near to one as to another ----------------------------------------------------------


def point(k):
    """u and v of ready point k."""
    return ref.ready_point(k)[1:]


def all_nearest(reading):
    """The numbers of the ready points than which none is nearer."""
    distances = [ref.squared_distance(reading, (u, v)) for _, u, v in ref.ready_points()]
    least = min(distances)
    return tuple(k for k in READY if distances[k] == least)


def square_to(p, q, out):
    """About so far from the middle of two points, at a right angle to the line through them."""
    du, dv = ref.minus(q, p)
    length = isqrt(du * du + dv * dv)
    return (p[0] + q[0]) // 2 - dv * out // length, (p[1] + q[1]) // 2 + du * out // length


def tie_of(first, last, out):
    """An accepted reading about so far out that these two ready points, and no others, are nearest to, None where none is found."""
    p, q = point(first), point(last)
    reading = equally_far(p, q, square_to(p, q, out))
    return reading if reading and is_admitted(reading) and all_nearest(reading) == (first, last) else None


def ties(dice, count, apart, nearest, farthest=LIMIT_RADIUS):
    """Accepted readings as near to one ready point as to another, so many points apart, at some distance on either side."""
    found = []
    while len(found) < count:
        first = dice.below(ref.READY_COUNT - apart)
        reading = tie_of(first, first + apart, dice.pick((-1, 1)) * dice.between(nearest, farthest))
        found += [reading] if reading else []
    return found


def ready_point_readings(dice):
    """Every ready point itself; every seventh through a kind of float too."""
    for k in READY:
        yield from by_whole_and_float([point(k)], dice) if k % 7 == 0 else [through("whole", point(k))]


def neighbour_readings(dice):
    """As near to a ready point as to the next, on the curve and far from it, and a micro beside."""
    for reading in ties(dice, 50, 1, 0, 50) + ties(dice, 70, 1, 0):
        first, *others = beside(reading, dice)
        yield from by_every_kind([first])
        yield from by_whole_and_float(others, dice)


def apart_readings(dice):
    """As near to three ready points, or to two with farther ones between them, as strongly tinted readings can be, and a micro beside."""
    for reading, nearest in RARE_TIES:
        assert is_admitted(reading) and all_nearest(reading) == nearest, (reading, nearest, all_nearest(reading))
    readings = [reading for reading, _ in RARE_TIES] + ties(dice, 50, 2, 7000) + ties(dice, 15, 3, 15_000)
    for reading in readings:
        first, *others = beside(reading, dice)
        yield from by_every_kind([first])
        yield from by_whole_and_float(others, dice)


def entry_tie_readings(dice):
    """As near to an entry as to the ready point before it, which is lower, or to the one after."""
    for i, side in product(ref.ENTRIES, (-1, 1)):
        first = PER_PIECE * (i - 1) - (side < 0)
        if 0 <= first < ref.READY_COUNT - 1:
            found = (tie_of(first, first + 1, dice.pick((-1, 1)) * dice.below(9000)) for _ in range(30))
            yield from by_whole_and_float(list(filter(None, found))[:2], dice)


def end_tie_readings(dice):
    """About as near to the first ready point as to the second, and to each of the last three as to the one beside it."""
    outs = [sign * out for out in (0, 30, 1000, 9000, 20_000, 34_000, 47_000, 49_900) for sign in (-1, 1)]
    for first, out in product((0, 1562, 1563), outs):
        p, q = point(first), point(first + 1)
        near = square_to(p, q, out)
        yield from by_whole_and_float(beside(equally_far(p, q, near) or near, dice), dice)


def leaves_bracket(reading, steps):
    """Whether the nearest ready place is outside the search's bracket after so many steps."""
    found = ref.found_after(reading, steps)
    return not found.o <= ref.nearest_ready_place(reading) <= found.p


def tinted(dice):
    """An accepted reading from 0.03 to the limit away from some piece."""
    while True:
        i, out = dice.pick(ref.ENTRIES[:-1]), dice.pick((-1, 1)) * dice.between(30_000, LIMIT_RADIUS)
        u, v = square_to(ref.entry_point(i), ref.entry_point(i + 1), out)
        reading = u + dice.between(-4000, 4000), v + dice.between(-4000, 4000)
        if is_admitted(reading):
            return reading


def outside_readings(dice):
    """Strongly tinted readings: the nearest ready place is outside the search's bracket after five steps, after six, or anywhere."""
    assert all(is_admitted(reading) and leaves_bracket(reading, 5) for reading in OUTSIDE_AFTER_FIVE)
    found = list(OUTSIDE_AFTER_FIVE)
    while len(found) < 14:
        found += [reading for reading in [tinted(dice)] if leaves_bracket(reading, 6)]
    yield from by_whole_and_float(found + [tinted(dice) for _ in range(80)], dice)


# --- Entries, the limit and the ends ----------------------------------------------------------------------------------


def entry_readings(dice):
    """As near to an entry as to the next, near the curve and up to beyond the limit."""
    yield from by_whole_and_float(entry_ties(dice, 60), dice)


def corner_readings(dice):
    """About where two neighbouring entries are both at the limit, on either side of the curve."""
    for i, side in product(ref.ENTRIES[:-1], (-1, 1)):
        p, q = ref.entry_point(i), ref.entry_point(i + 1)
        u, v = square_to(p, q, side * isqrt(ref.FARTHEST - ref.squared_distance(p, q) // 4))
        for spread in (1, 1, 4, 40, 400):
            yield through("whole", (u + dice.between(-spread, spread), v + dice.between(-spread, spread)))


def limit_readings(dice):
    """The last squared distance to an entry that is taken and the first that is refused."""
    yield from by_whole_and_float(at_the_limit()[::2], dice)
    yield from by_every_kind(beside_the_limit(dice, 15))


def between_entries(dice, i, side):
    """A reading about square to the middle of the piece from entry i, too far from every entry and not from some ready point."""
    u, v = square_to(ref.entry_point(i), ref.entry_point(i + 1), side * LIMIT_RADIUS)
    while True:
        reading = u + dice.between(-900, 900), v + dice.between(-900, 900)
        entry, ready = ref.entry_point(ref.nearest_entry(reading)), point(all_nearest(reading)[0])
        if ref.squared_distance(reading, ready) <= ref.FARTHEST < ref.squared_distance(reading, entry):
            return reading


def between_entry_readings(dice):
    """Near enough to a ready point, and too far from every entry."""
    yield from by_whole_and_float([between_entries(dice, i, side) for i, side in product(ref.ENTRIES[:-1], (-1, 1))], dice)


def end_readings(dice):
    """Just behind an end, level with it and just before it. Far out a reading behind an end may be nearer to another ready point than to
    the end's, and one that is not behind may be nearest to that."""
    readings = list(behind_an_end(1, 2, 20)) + list(behind_an_end(24, 23, 20))
    ends = {(is_admitted(reading), ref.nearest_ready_place(reading) in ENDS) for reading in readings}
    assert ends == set(product((False, True), repeat=2)), ends
    yield from by_whole_and_float(readings, dice)
    yield from by_every_kind(readings[::12])


# --- Refusals ---------------------------------------------------------------------------------------------------------


def worked_readings(dice):
    """Those of document_cases.py."""
    for kind, args, _ in document_cases.COARSE:
        yield kind, args if kind == "whole" else tuple(map(document_cases.bits, args))
    for reading, _ in document_cases.LIMITS:
        yield through("whole", reading)
    for kind, args, *_ in document_cases.CONVERSIONS + document_cases.REFUSALS + document_cases.BELOW_ZERO:
        yield kind, tuple(map(document_cases.bits, args))


def refused_readings(dice):
    """Readings for which several of 2 to 7 hold at once, and every mix of what each kind refuses and takes."""
    yield from clashes()
    fifth, third = nearest_f32(Fraction(21, 100)), nearest_f32(Fraction(32, 100))
    coordinates = (QUIET_NAN, POSITIVE_INFINITY, ONE, NEXT_BELOW_1, MINUS_ONE, fifth, third)
    yield from product(PAIRS, product(coordinates, repeat=2))
    yield from product(("xyz",), product((QUIET_NAN, NEGATIVE_INFINITY, LIMIT_4096, MINUS_ONE, HUNDRED),
                                         (QUIET_NAN, LIMIT_4096, NEXT_BELOW_4096, MINUS_ONE, DARK, 0, HUNDRED),
                                         (POSITIVE_INFINITY, MINUS_ONE, NEXT_BELOW_4096, HUNDRED)))


def dark_readings(dice):
    """Y on both sides of the least that is taken, in readings that are accepted otherwise, and that are refused after it."""
    readings = [admitted(dice) for _ in range(6)] + [(183_000, 276_000), (346_000, 360_540), (250_000, 500_000)]
    for reading, y in product(readings, (LAST_DARK - 1, LAST_DARK, FIRST_LIGHT, FIRST_LIGHT + 1, 0, TINY_NEGATIVE)):
        x, _, z = as_xyz(*reading, brightness=exact_value(y) if y != TINY_NEGATIVE else 1)
        yield "xyz", (x, y, z)


def below_zero_readings(dice):
    """Floats that count as 0 and the first that is refused, in each place of each kind; two below zero at once; XYZ without blue, which
    is accepted."""
    for kind, (quantity, everyday, places) in FLOAT_KINDS.items():
        for at, bits in product(range(places), (*zeros(quantity), LAST_TAKEN[quantity] + 1, NEGATIVE_INFINITY)):
            yield kind, tuple(with_float(everyday, places, at, bits))
        yield kind, (LAST_TAKEN[quantity], TINY_NEGATIVE, everyday)[:places]
    for u in range(246_000, 346_000, 9000):
        x, y, _ = as_xyz(u, (4 * ref.MICRO - u) // 10)
        yield from (("xyz", (x, y, z)) for z in (*zeros(ref.TRISTIMULUS), LAST_TAKEN[ref.TRISTIMULUS] + 1))
    for x in TURNED_BY_BLUE:
        without, unit = (("xyz", (x, ONE, z)) for z in (LAST_TAKEN[ref.TRISTIMULUS], nearest_f32(Fraction(1, 100_000))))
        assert 0 < ref.coarse(*without).place != ref.coarse(*unit).place > 0, x
        yield from (without, unit)


# --- Any readings -----------------------------------------------------------------------------------------------------


def near_readings(dice):
    """About the locus, through every kind."""
    for _ in range(150):
        reading = near_locus(dice, dice.pick((2, 30, 1000, 8000, 40_000)))
        yield from (through(kind, reading) for kind in READING_KINDS)
    for reading in [admitted(dice, 49_000) for _ in range(120)]:
        yield through(dice.pick(READING_KINDS), reading)


def far_readings(dice):
    """Anywhere in range and beyond it."""
    yield from (("whole", pair) for pair in product((0, 1, 250_000, 3_999_999, 4_000_000, 4_000_001, 2**31, LARGEST_U32), repeat=2))
    for _ in range(40):
        yield "whole", (dice.below(4_000_001), dice.below(4_000_001))
        yield "whole", (dice.between(150_000, 380_000), dice.between(240_000, 400_000))
        for kind in AS_FLOATS:
            top = LIMIT_4096 if kind == "xyz" else ONE
            yield kind, tuple(dice.between(top // 2, top) for _ in range(3 if kind == "xyz" else 2))


SECTIONS = (worked_readings, neighbour_readings, apart_readings, entry_tie_readings, end_tie_readings, outside_readings, entry_readings,
            corner_readings, limit_readings, between_entry_readings, end_readings, refused_readings, dark_readings, below_zero_readings,
            near_readings, far_readings, ready_point_readings)


# --- What No. 12 says -------------------------------------------------------------------------------------------------


@lru_cache(maxsize=None)
def check_nearest(reading, place):
    """The place answered is a ready one, none of them is nearer, and none that is lower is as near."""
    places = range(ref.FIRST_PLACE, ref.LAST_PLACE + 1, 38)
    distances = [ref.distance_at(reading, each) for each in places]
    at = places.index(place)
    assert all(lower > distances[at] for lower in distances[:at]), (reading, place)
    assert all(higher >= distances[at] for higher in distances[at:]), (reading, place)


def check_reading(kind, args, turn):
    """The number of the refusal, which is the search's at every allowance; each has edges of its own, which the turn moves on."""
    given = ref.coarse(kind, args)
    for allowance, edges in zip(ALLOWANCES, EDGE_LISTS[turn % len(EDGE_LISTS):] + EDGE_LISTS):
        assert ref.answer(kind, args, edges, allowance).refusal == given.refusal, (kind, args, allowance, edges)
    if given.refusal:
        assert given.place == 0, (kind, args, given)
    else:
        check_nearest(ref.CONVERSIONS[kind](*args), given.place)
    return given.refusal


def check_met(met):
    """Of every kind some reading is accepted, and some is refused with each number that it can be."""
    by_floats = {(kind, number) for kind in AS_FLOATS for number in (0, 2, 3, 5, 6, 7)}
    assert met.keys() == by_floats | {("whole", number) for number in (0, 3, 5, 6, 7)} | {("xyz", 4)}, met


# --- All of them ------------------------------------------------------------------------------------------------------


def readings():
    """(kind, numbers) of all sections, each once."""
    return dict.fromkeys((kind, tuple(args)) for section in SECTIONS for kind, args in section(Dice("coarse: " + section.__name__)))


def coarse_line(kind, args):
    return "coarse " + ("whole %d %d" % args if kind == "whole" else hex_line(kind, *args))


def lines():
    yield from ("ready %d" % k for k in READY)
    dice, met, allowances = Dice("coarse and search"), Counter(), cycle(ALLOWANCES)
    for turn, (kind, args) in enumerate(readings()):
        refusal = check_reading(kind, args, turn)
        met[kind, refusal] += 1
        yield coarse_line(kind, args)
        if refusal or dice.below(4) == 0:
            yield answer_line(kind, args, next(allowances), any_edges(dice))
    check_met(met)


def expected(line):
    command, *fields = line.split()
    if command == "ready":
        return "%d %d %d" % ref.ready_point(int(fields[0]))
    kind, *numbers = fields
    return "%d %d" % ref.coarse(kind, [int(number, 10 if kind == "whole" else 16) for number in numbers])
