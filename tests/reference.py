"""The rules of document 01, and of requests No. 1 to 3, 5, 8, 10 and 12 of document 02, in exact whole numbers and fractions: the
independent second program.

It follows the documents' own words, letters and sections and shares no code with the crates. Where a rule can be said in
another way than there, it is: the locus goes by mired and by Newton's divided differences, the bracket by its three cases, the
nearest point seen by all points seen, the class by the kelvin of each place, the power of two of a spectrum by trying one after
the other, the nearest ready place by the least of all pairs of distance and place.
"""

import re
from fractions import Fraction
from functools import lru_cache
from itertools import count
from math import floor, isqrt
from typing import NamedTuple

from floats import exact_value, is_finite, quotient_bits

# "Numbers given instead of an answer"; document 02 adds the last two.
BAD_EDGES, NOT_FINITE, OUT_OF_RANGE, TOO_DARK, TOO_FAR, TOO_HOT, TOO_COOL, UNREADABLE, BAD_LENGTHS, SAMPLE_TOO_LARGE = range(1, 11)


class Refused(Exception):
    """A number given instead of an answer."""

    def __init__(self, number):
        super().__init__(number)
        self.number = number


def rounded(value):
    """An exact value to its nearest whole number; one half goes up."""
    return floor(value + Fraction(1, 2))


# --- Readings ---------------------------------------------------------------------------------------------------------

MICRO = 1_000_000
COORDINATE = (1_000_000, 1)  # S, and the bound that the value stays under
TRISTIMULUS = (100_000, 4096)
WHOLE_LIMIT = 4_000_000
DARK = 100_000


def in_range(value, quantity):
    """Above -1/2 of the unit 1/S (document 02, No. 2), and below the bound."""
    scale, bound = quantity
    return -Fraction(1, 2 * scale) < value < bound


def whole_number(bits, scale):
    """floor(x * S + 1/2) of a float's exact value x; 0 for every float below zero that is in its range."""
    return floor(exact_value(bits) * scale + Fraction(1, 2))


def whole_numbers(patterns, quantity):
    """The floats of a reading as whole numbers; refusal 2 over all of them comes before refusal 3 over all of them."""
    if not all(is_finite(bits) for bits in patterns):
        raise Refused(NOT_FINITE)
    if not all(in_range(exact_value(bits), quantity) for bits in patterns):
        raise Refused(OUT_OF_RANGE)
    return [whole_number(bits, quantity[0]) for bits in patterns]


def convert_uv(u, v):
    return tuple(whole_numbers((u, v), COORDINATE))


def convert_uvp(u_prime, v_prime):
    u, v = whole_numbers((u_prime, v_prime), COORDINATE)
    return u, rounded(Fraction(2 * v, 3))


def convert_xy(x_bits, y_bits):
    x, y = whole_numbers((x_bits, y_bits), COORDINATE)
    n = 3 * MICRO - 2 * x + 12 * y
    return rounded(Fraction(4 * x * MICRO, n)), rounded(Fraction(6 * y * MICRO, n))


def xyz_rule(x, y, z):
    """u and v of tristimulus values in whole numbers; only their ratios count, so any unit will do."""
    n = x + 15 * y + 3 * z
    return rounded(Fraction(4 * x * MICRO, n)), rounded(Fraction(6 * y * MICRO, n))


def convert_xyz(x_bits, y_bits, z_bits):
    x, y, z = whole_numbers((x_bits, y_bits, z_bits), TRISTIMULUS)
    if y < DARK:
        raise Refused(TOO_DARK)
    return xyz_rule(x, y, z)


def convert_whole(u, v):
    if u > WHOLE_LIMIT or v > WHOLE_LIMIT:
        raise Refused(OUT_OF_RANGE)
    return u, v


# --- Spectral samples (document 02, No. 1) ----------------------------------------------------------------------------

MOST_SAMPLES = 471
SAMPLE_LIMIT = 16_777_215
TABLE_LIMIT = 4_000_000
SUM_BOUND = 2**32  # every sum is under it after the division


def check_lengths(samples, tables):
    """Refusal 9: the lengths differ, or are 0 or over 471."""
    lengths = {len(samples), *map(len, tables)}
    if len(lengths) > 1 or not 1 <= len(samples) <= MOST_SAMPLES:
        raise Refused(BAD_LENGTHS)


def check_limits(samples, tables):
    """Refusal 10: a sample or a table's number is over its limit."""
    if any(sample > SAMPLE_LIMIT for sample in samples) or any(number > TABLE_LIMIT for table in tables for number in table):
        raise Refused(SAMPLE_TOO_LARGE)


def check_lists(samples, tables):
    """Refusal 9 over all four lists comes before refusal 10 over all four."""
    check_lengths(samples, tables)
    check_limits(samples, tables)


def sum_of_products(samples, table):
    return sum(sample * number for sample, number in zip(samples, table))


def least_power(sums):
    """The first of 1, 2, 4, .. that leaves every one of the sums under 2^32."""
    return next(2**k for k in count() if all(total // 2**k < SUM_BOUND for total in sums))


def divided(sums):
    """All the sums by one power of two, rounding down."""
    power = least_power(sums)
    return [total // power for total in sums]


def convert_sums(sums):
    """u and v from the sums X, Y, Z; refusal 4 where the division leaves nothing of Y."""
    x, y, z = divided(sums)
    if y == 0:
        raise Refused(TOO_DARK)
    return xyz_rule(x, y, z)


def convert_samples(samples, x_bar, y_bar, z_bar):
    tables = x_bar, y_bar, z_bar
    check_lists(samples, tables)
    return convert_sums([sum_of_products(samples, table) for table in tables])


CONVERSIONS = {"uv": convert_uv, "uvp": convert_uvp, "xy": convert_xy, "xyz": convert_xyz, "whole": convert_whole,
               "samples": convert_samples}


def converted(kind, args):
    """u and v, or the refusal's number."""
    try:
        return CONVERSIONS[kind](*args)
    except Refused as refused:
        return refused.number


# --- The stored locus -------------------------------------------------------------------------------------------------

# i: (mired, u, v), the coordinates in units of 0.00001.
STORED = {
    1: (50, 18387, 27715), 2: (75, 18673, 28509), 3: (100, 19031, 29330), 4: (125, 19462, 30144),
    5: (150, 19962, 30923), 6: (175, 20524, 31649), 7: (200, 21142, 32313), 8: (225, 21807, 32910),
    9: (250, 22511, 33440), 10: (275, 23247, 33904), 11: (300, 24010, 34308), 12: (325, 24792, 34655),
    13: (350, 25591, 34951), 14: (375, 26400, 35200), 15: (400, 27217, 35407), 16: (425, 28039, 35577),
    17: (450, 28862, 35714), 18: (475, 29685, 35823), 19: (500, 30504, 35907), 20: (525, 31319, 35968),
    21: (550, 32128, 36012), 22: (575, 32930, 36038), 23: (600, 33723, 36051), 24: (625, 34507, 36053),
}
ENTRIES = range(1, 25)
FIRST_PLACE, LAST_PLACE = 5168, 64600


def mired_at(place):
    """A place counts steps of 25/2584 mired."""
    return Fraction(25 * place, 2584)


def kelvin_at(place):
    """The temperature: a million over the mired value."""
    return 1_000_000 / mired_at(place)


@lru_cache(maxsize=None)
def entry_place(i):
    """The place whose mired value is the entry's."""
    place = STORED[i][0] / mired_at(1)
    assert place.denominator == 1
    return int(place)


def entry_point(i):
    _, u, v = STORED[i]
    return 10 * u, 10 * v


def piece_of(place):
    """The i of the piece from entry i to entry i + 1 that holds a place; every entry but the last is in the piece that it begins."""
    return max(i for i in ENTRIES[:-1] if entry_place(i) <= place)


def entries_of(piece):
    """The four entries that a piece's cubic goes through (document 02, No. 3)."""
    if piece == 1:
        return 1, 2, 3, 4
    if piece == 23:
        return 21, 22, 23, 24
    return piece - 1, piece, piece + 1, piece + 2


@lru_cache(maxsize=None)
def divided_difference(entries, coordinate):
    """Newton's divided difference of u (0) or v (1) by mired over some entries."""
    if len(entries) == 1:
        return Fraction(entry_point(entries[0])[coordinate])
    rise = divided_difference(entries[1:], coordinate) - divided_difference(entries[:-1], coordinate)
    return rise / (STORED[entries[-1]][0] - STORED[entries[0]][0])


def on_curve(entries, coordinate, mired):
    """The polynomial in mired through some entries, by Newton's form, exactly."""
    value = divided_difference(entries, coordinate)
    for k in reversed(range(len(entries) - 1)):
        value = value * (mired - STORED[entries[k]][0]) + divided_difference(entries[:k + 1], coordinate)
    return value


def exact_point(place):
    """u and v in micro as fractions; the cubic in mired is the cubic in the place, since one is a multiple of the other."""
    entries = entries_of(piece_of(place))
    return [on_curve(entries, coordinate, mired_at(place)) for coordinate in (0, 1)]


@lru_cache(maxsize=None)
def locus_point(place):
    """u and v in whole micro, each rounded once."""
    return tuple(rounded(exact) for exact in exact_point(place))


def squared_distance(p, q):
    return (p[0] - q[0]) ** 2 + (p[1] - q[1]) ** 2


def distance_at(reading, place):
    return squared_distance(reading, locus_point(place))


# --- The search -------------------------------------------------------------------------------------------------------

MOST_STEPS = 14


@lru_cache(maxsize=None)
def F(n):
    """Fibonacci's sequence."""
    return 1 if n in (1, 2) else F(n - 1) + F(n - 2)


class Stage(NamedTuple):
    """The search after some number of steps."""

    o: int
    p: int
    a: int
    b: int
    seen: tuple  # the points looked at, in order, entry m first


class Found(NamedTuple):
    o: int
    p: int
    nearest: int  # the nearest point seen


def nearest_entry(reading):
    """Rule 1: `min` takes the first of equals."""
    return min(ENTRIES, key=lambda i: squared_distance(reading, entry_point(i)))


def bracket(m):
    """Rule 2: o, p and g, in its three cases."""
    if m == 1:
        return entry_place(1), entry_place(2), 1
    if m == 24:
        return entry_place(23), entry_place(24), 1
    return entry_place(m - 1), entry_place(m + 1), 2


def inner_points(o, g, j):
    """Rule 3: a and b after j steps."""
    return o + g * F(16 - j), o + g * F(17 - j)


def goes_left(reading, a, b):
    """Rule 4: whether a step moves p; otherwise it moves o."""
    return distance_at(reading, a) < distance_at(reading, b)


def nearest_seen(reading, seen):
    """Rule 6: of the points in the order of looking, the first of the least distance."""
    return min(seen, key=lambda place: distance_at(reading, place))


def stages(reading, steps=MOST_STEPS):
    """Rules 2 to 6: the search after 0, 1, .., `steps` steps."""
    m = nearest_entry(reading)
    o, p, g = bracket(m)
    a, b = inner_points(o, g, 0)
    reached = [Stage(o, p, a, b, (entry_place(m), a, b))]
    for j in range(1, steps + 1):
        *_, seen = reached[-1]
        o, p = (o, b) if goes_left(reading, a, b) else (a, p)
        before, (a, b) = {a, b}, inner_points(o, g, j)
        (new,) = {a, b} - before
        assert p - o == g * F(18 - j)
        reached.append(Stage(o, p, a, b, (*seen, new)))
    return reached


def found_at(reading, stage):
    return Found(stage.o, stage.p, nearest_seen(reading, stage.seen))


def found_after(reading, steps):
    """What the search has found after so many steps."""
    return found_at(reading, stages(reading, steps)[-1])


def root(n):
    """The largest whole d with d² no greater than n."""
    return isqrt(n)


def signed_duv(reading, place):
    """The root of the distance, below zero where the reading's v is below the point's."""
    d = root(distance_at(reading, place))
    return d if reading[1] >= locus_point(place)[1] else -d


# --- Classes ----------------------------------------------------------------------------------------------------------

NO_CLASS = 255


def edges_valid(edges):
    """2 to 32 edges, strictly rising, each from 1600 to 20001."""
    strictly_rising = list(edges) == sorted(set(edges))
    return 2 <= len(edges) <= 32 and strictly_rising and 1600 <= min(edges) and max(edges) <= 20001


def class_at(edges, kelvin):
    """The class that holds a temperature, from its edge up to but not at the next; 255 for none."""
    return next((j for j in range(len(edges) - 1) if edges[j] <= kelvin < edges[j + 1]), NO_CLASS)


def class_of(edges, found):
    """The one class of all three places; 255 for none."""
    of_each = {class_at(edges, kelvin_at(place)) for place in found}
    return of_each.pop() if len(of_each) == 1 else NO_CLASS


# --- Numbers given instead of an answer -------------------------------------------------------------------------------

FARTHEST = 2_500_000_000  # 0.05 (document 02, No. 8)


def minus(p, q):
    return p[0] - q[0], p[1] - q[1]


def dot(p, q):
    return p[0] * q[0] + p[1] * q[1]


def is_too_far(reading, entry):
    return squared_distance(reading, entry) > FARTHEST


def admit(reading):
    """Refusals 5, 6 and 7; otherwise the nearest entry."""
    m, entry = nearest_entry(reading), entry_point
    if is_too_far(reading, entry(m)):
        raise Refused(TOO_FAR)
    if m == 1 and dot(minus(reading, entry(1)), minus(entry(2), entry(1))) < 0:
        raise Refused(TOO_HOT)
    if m == 24 and dot(minus(reading, entry(24)), minus(entry(23), entry(24))) < 0:
        raise Refused(TOO_COOL)
    return m


class Answer(NamedTuple):
    refusal: int
    place: int = 0
    o: int = 0
    p: int = 0
    duv: int = 0
    steps: int = 0
    cls: int = 0


def accepted_answer(reading, edges, allowance):
    steps = min(allowance, MOST_STEPS)
    found = found_after(reading, steps)
    return Answer(0, found.nearest, found.o, found.p, signed_duv(reading, found.nearest), steps, class_of(edges, found))


def answer(kind, args, edges, allowance):
    """The whole answer of one call; the checks run in the table's order."""
    try:
        if not edges_valid(edges):
            raise Refused(BAD_EDGES)
        reading = CONVERSIONS[kind](*args)
        admit(reading)
        return accepted_answer(reading, edges, allowance)
    except Refused as refused:
        return Answer(refused.number)


def float_bits(given):
    """The float answer's two floats by their bits: kelvin and Duv; both all zero where the answer is refused."""
    if given.refusal:
        return 0, 0
    return quotient_bits(103_360_000, given.place), quotient_bits(given.duv, MICRO)


# --- The ready table (document 02, No. 12) ----------------------------------------------------------------------------

READY_COUNT = 1565
READY_EVERY = 38  # notches from one ready place to the next


def ready_place(k):
    """The place of ready point k, from 0."""
    return FIRST_PLACE + READY_EVERY * k


def ready_point(k):
    """The place of ready point k, and u and v of the locus there."""
    place = ready_place(k)
    return (place, *locus_point(place))


@lru_cache(maxsize=None)
def ready_points():
    """The whole table."""
    return tuple(ready_point(k) for k in range(READY_COUNT))


@lru_cache(maxsize=None)
def nearest_ready_place(reading):
    """The place of the least pair of distance and place: the nearest, and of equals the lowest."""
    _, place = min((squared_distance(reading, point), place) for place, *point in ready_points())
    return place


class CoarseAnswer(NamedTuple):
    refusal: int
    place: int = 0


def coarse(kind, args):
    """The coarse reader's whole answer: checks 2 to 4 as the reading is converted, then 5 to 7, and no others."""
    try:
        reading = CONVERSIONS[kind](*args)
        admit(reading)
        return CoarseAnswer(0, nearest_ready_place(reading))
    except Refused as refused:
        return CoarseAnswer(refused.number)


# --- The text program -------------------------------------------------------------------------------------------------

TEXT_EDGES = (1600, 2500, 3500, 5000, 20001)
DEFAULT_STEPS = 6  # of a line with two numbers (document 02, No. 10)
LONGEST_LINE = 32
LINE = re.compile(rb"([0-9]{1,7}) ([0-9]{1,7})(?: ([0-9]{1,7}))?")


def answer_line(line):
    """The printed line (no newline) for one input line (no newline)."""
    match = LINE.fullmatch(line) if len(line) <= LONGEST_LINE else None
    if not match:
        return b"%d" % UNREADABLE
    u, v = int(match[1]), int(match[2])
    allowance = DEFAULT_STEPS if match[3] is None else int(match[3])
    given = answer("whole", (u, v), TEXT_EDGES, allowance)
    if given.refusal:
        return b"%d" % given.refusal
    shown = b"-" if given.cls == NO_CLASS else b"%d" % given.cls
    return b"0 %d %d %d %d %d %s" % (given.place, given.o, given.p, given.duv, given.steps, shown)


def lines_of(text):
    """The lines of an input; the newline that ends it opens no new line."""
    lines = text.split(b"\n")
    if lines[-1] == b"":
        lines.pop()
    return lines


def answer_text(text):
    """The program's whole output."""
    return b"".join(answer_line(line) + b"\n" for line in lines_of(text))
