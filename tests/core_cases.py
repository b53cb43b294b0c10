"""Vectors for the parts of the search: `point`, `points`, `entry`, `search`, `class` and `edges`."""

from fractions import Fraction
from itertools import product
from math import floor

import document_cases
import reference as ref
from dice import Dice
from readings import (PLACES, about_piece, admitted, at_the_earlier_limit, at_the_limit, behind_an_end, beside_the_limit, best_outside,
                      comparisons, entry_ties, is_admitted, level_ties, looks, search_ties)

ON_EDGES = [place for place in PLACES if ref.kelvin_at(place).denominator == 1]
RUN = 100  # places to a line `points`
NEAREST_TO_A_HALF = 100
MULTIPLIER, MODULUS = 1_000_003, 4_294_967_291  # the checksum's; the modulus is 2^32 - 5, a prime


def off_a_half(place):
    """How far u or v at a place, before it is rounded, is from a half: the lesser of the two."""
    return min(abs(exact % 1 - Fraction(1, 2)) for exact in ref.exact_point(place))


def point_places():
    """Every 37th place and the last; the entries, and the exact halves and nearest to a half, with their neighbours."""
    hardest = sorted(PLACES, key=off_a_half)[:NEAREST_TO_A_HALF]
    assert [off_a_half(place) == 0 for place in hardest[:7]] == 6 * [True] + [False], "six places have an exact half"
    about = {place + k for place in (*map(ref.entry_place, ref.ENTRIES), *hardest) for k in (-1, 0, 1)}
    return sorted(about & set(PLACES) | set(PLACES[::37]) | {ref.LAST_PLACE})


def point_lines(dice):
    for place in point_places():
        yield "point %d" % place


def points_lines(dice):
    """Every place once, in short runs, so that a difference is located."""
    for first in PLACES[::RUN]:
        yield "points %d %d" % (first, min(first + RUN - 1, ref.LAST_PLACE))


def entry_lines(dice):
    """Ties between two entries, the limit and the one before it, both ends, each entry itself, the far corners, and any reading."""
    readings = entry_ties(dice, 300) + [ref.entry_point(i) for i in ref.ENTRIES] + [reading for reading, _ in document_cases.LIMITS]
    readings += at_the_limit() + beside_the_limit(dice, 120) + at_the_earlier_limit()
    readings += list(behind_an_end(1, 2, 20)) + list(behind_an_end(24, 23, 20))
    readings += list(product((0, 1, 4_000_000), repeat=2))
    readings += [(dice.below(600_000), dice.below(600_000)) for _ in range(300)]
    readings += [(dice.below(4_000_001), dice.below(4_000_001)) for _ in range(100)]
    for u, v in readings:
        yield "entry %d %d" % (u, v)


def search_readings(dice):
    """Plain readings, both end pieces, equal inner points, a point as near as the nearest seen, a nearest one outside the bracket, and
    readings at the limit and at the one before it."""
    readings = [admitted(dice) for _ in range(150)] + [about_piece(dice, i) for i in (1, 23) for _ in range(30)]
    readings += level_ties(dice, 40)
    readings += search_ties(dice, comparisons, 150) + search_ties(dice, looks, 100) + best_outside(dice, 60)
    readings += [reading for reading in entry_ties(dice, 60) if ref.squared_distance(
        reading, ref.entry_point(ref.nearest_entry(reading))) <= ref.FARTHEST]
    far = filter(is_admitted, at_the_limit()[::3] + beside_the_limit(dice, 20) + at_the_earlier_limit()[::9])
    return readings + list(far) + [ref.entry_point(i) for i in ref.ENTRIES]


def search_lines(dice):
    """The state after each of 0 to 14 steps."""
    for u, v in search_readings(dice):
        for steps in range(ref.MOST_STEPS + 1):
            yield "search %d %d %d" % (u, v, steps)


def rising_edges(dice, count, low=1600, high=20001):
    """A good list of `count` edges."""
    edges = set()
    while len(edges) < count:
        edges.add(dice.between(low, high))
    return sorted(edges)


def edges_about(places, dice):
    """A good list whose edges are the temperatures of the places, exactly or just beside."""
    edges = set()
    for place in places:
        kelvin = floor(ref.kelvin_at(place))
        edges |= {kelvin + dice.pick((0, 1)), kelvin + dice.pick((-1, 0, 1, 2))}
    edges |= {dice.pick((1600, 1700)), dice.pick((19_999, 20_000, 20_001))}
    return sorted(edge for edge in edges if 1600 <= edge <= 20001)


def edges_around(places, dice):
    """A good list with an edge at or just beside the coolest place and at or just beside the hottest, none between."""
    lower = max(1600, floor(ref.kelvin_at(max(places))) + dice.pick((0, 0, 1)))
    upper = min(20_001, max(lower + 1, floor(ref.kelvin_at(min(places))) + dice.pick((0, 1, 1))))
    others = {dice.between(1600, 20_001) for _ in range(dice.pick((0, 2, 4, 8)))}
    return sorted({lower, upper} | {edge for edge in others if edge < lower or edge > upper})


def class_lines(dice):
    """Places exactly on an edge and one place beside it, over edge lists of every length."""
    for _ in range(1500):
        low = dice.pick(ON_EDGES) + dice.pick((-1, 0, 0, 1))
        low = min(max(low, ref.FIRST_PLACE), ref.LAST_PLACE)
        high = min(low + dice.pick((0, 3, 6, 100, 2584, 5168, 40_000)), ref.LAST_PLACE)
        best = dice.pick((low, high, dice.between(low, high), dice.between(ref.FIRST_PLACE, ref.LAST_PLACE)))
        form = dice.pick((edges_around, edges_around, edges_about, lambda places, d: rising_edges(d, d.between(2, 32))))
        edges = form((low, high, best), dice)
        yield "class %d %d %d %s" % (low, high, best, " ".join(map(str, edges)))


BAD_NUMBERS = (0, 1599, 20_002, 65_535, 65_536 + 5000, 2**31, 2**32 - 1)


def spoilt(edges, dice):
    """A good list with one fault: equal neighbours, a fall, or a number outside its range."""
    edges, at = list(edges), dice.below(len(edges) - 1)
    fault = dice.below(3)
    if fault == 0:
        edges[at + 1] = edges[at]
    elif fault == 1:
        edges[at], edges[at + 1] = edges[at + 1], edges[at]
    else:
        edges[dice.pick((0, at, -1))] = dice.pick(BAD_NUMBERS)
    return edges


def edge_lists(dice):
    """Lengths 0, 1, 2, 31, 32, 33 and 40, the two end values, and one fault in each place."""
    yield []
    for single in (1600, 5000, 20001):
        yield [single]
    for pair in product((1599, 1600, 1601, 20_000, 20_001, 20_002), repeat=2):
        yield list(pair)
    for length in (2, 3, 31, 32, 33, 40):
        for _ in range(15):
            good = rising_edges(dice, length)
            yield good
            yield spoilt(good, dice)
            yield [1600] + good[1:-1] + [20_001]


def edges_lines(dice):
    for edges in edge_lists(dice):
        yield " ".join(["edges"] + [str(edge) for edge in edges])


def lines():
    dice = Dice("core")
    for section in (point_lines, points_lines, entry_lines, search_lines, class_lines, edges_lines):
        yield from section(dice)


def expected_entry(reading):
    """The nearest entry and its distance, or the number of refusal 5, 6 or 7."""
    try:
        m = ref.admit(reading)
    except ref.Refused as refused:
        return "%d" % refused.number
    return "%d %d" % (m, ref.squared_distance(reading, ref.entry_point(m)))


def checksum(numbers):
    """A sum that one wrong number always changes, and so do two neighbours that are swapped."""
    total = 0
    for number in numbers:
        total = (total * MULTIPLIER + number) % MODULUS
    return total


def expected_points(first, last):
    """How many places there are, and the checksum of u and v at each in turn."""
    places = range(first, last + 1)
    return "%d %d" % (len(places), checksum(number for place in places for number in ref.locus_point(place)))


def expected(line):
    """The expected line of any of these kinds."""
    kind, *fields = line.split()
    numbers = [int(field) for field in fields]
    if kind == "point":
        return "%d %d" % ref.locus_point(numbers[0])
    if kind == "points":
        return expected_points(*numbers)
    if kind == "entry":
        return expected_entry(tuple(numbers))
    if kind == "search":
        reading, steps = tuple(numbers[:2]), numbers[2]
        found = ref.found_after(reading, steps)
        return "%d %d %d %d" % (*found, ref.distance_at(reading, found.nearest))
    if kind == "class":
        return "%d" % ref.class_of(numbers[3:], ref.Found(*numbers[:3]))
    return "%d" % ref.edges_valid(numbers)
