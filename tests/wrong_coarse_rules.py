"""Wrong rules of the ready table and of the coarse reader for check_wrong_rules.py: near misses that document 02's No. 12 leaves room for.

Those of the table are tried on the vectors `ready`, those of the reader on the vectors `coarse`."""

from fractions import Fraction
from functools import lru_cache
from math import floor

import reference as ref
from floats import exact_value, is_finite, nearest_f32
from wrong_locus_rules import WRONG_LOCUS_RULES

FIRST, LAST, EVERY, COUNT = ref.FIRST_PLACE, ref.LAST_PLACE, ref.READY_EVERY, ref.READY_COUNT
PIECE = 2584  # places from one entry to the next
PER_PIECE = PIECE // EVERY
HARD_POINTS = (0, 1, PER_PIECE, 782, COUNT - 2, COUNT - 1)  # the first two, an entry, the one in the middle and the last two


# --- The table --------------------------------------------------------------------------------------------------------


def from_place(first):
    """Ready places from another first place on."""
    return lambda k: first + EVERY * k


def from_the_last_place_down(k):
    return LAST - EVERY * k


def spread_evenly_over(count):
    """So many places, evenly from the first to the last and rounded."""
    return lambda k: FIRST + (LAST - FIRST) * k // (count - 1)


def point_by(change):
    """A `ready_point` with its three numbers changed."""
    return lambda k, right=ref.ready_point: change(k, *right(k))


def wrong_at(number, *by):
    """A `ready_point` that is off by so much in place, u and v at one number."""
    return lambda k, right=ref.ready_point: tuple(n + (more if k == number else 0) for n, more in zip(right(k), by))


def locus_beside(by):
    """A `ready_point` with u and v of so many places farther on, within the locus."""
    return lambda k: (ref.ready_place(k), *ref.locus_point(min(max(ref.ready_place(k) + by, FIRST), LAST)))


def swapped_at(number):
    """A `ready_point` with u and v of the next at one number, and its own there."""
    def ready_point(k, right=ref.ready_point):
        taken = {number: number + 1, number + 1: number}.get(k, k)
        return (right(k)[0], *right(taken)[1:])
    return ready_point


@lru_cache(maxsize=None)
def in_turn():
    """u and v of all ready points in turn, as they are stored."""
    return [number for place in range(FIRST, LAST + 1, EVERY) for number in ref.locus_point(place)]


def stored_at(first, second):
    """A `ready_point` whose u and v are taken from other numbers of the stored ones."""
    return lambda k: (ref.ready_place(k), in_turn()[first(k)], in_turn()[second(k)])


def middle_of(points):
    return tuple(ref.rounded(sum(map(Fraction, numbers)) / 2) for numbers in zip(*points))


def every_other_point_between_its_neighbours(k, right=ref.ready_point):
    return middle_of((right(k - 1), right(k + 1))) if k % 2 else right(k)


@lru_cache(maxsize=None)
def steps_rounded_one_by_one(k):
    if k % PER_PIECE == 0:
        return ref.ready_place(k), *ref.locus_point(ref.ready_place(k))
    place, u, v = steps_rounded_one_by_one(k - 1)
    before, after = ref.exact_point(place), ref.exact_point(place + EVERY)
    return place + EVERY, *(number + ref.rounded(b - a) for number, a, b in zip((u, v), before, after))


# A rule of the locus is one of the table too, but for those about single places, and about distances.
TABLE_LOCUS_RULES = tuple(rule for rule in WRONG_LOCUS_RULES if rule[0] != "distance_at" and "single" not in str(rule[2:]))

WRONG_TABLE_RULES = (
    *(("READY_EVERY", every) for every in (37, 39, 19, 76, 68)),
    *(("ready_place", from_place(first), "the first ready place is %d" % first)
      for first in (FIRST + 1, FIRST + 19, FIRST + EVERY)),
    ("ready_place", from_the_last_place_down),
    *(("ready_place", spread_evenly_over(count), "%d ready places" % count) for count in (COUNT - 1, COUNT + 1)),
    *(("ready_point", wrong_at(k, *by), "%s of ready point %d off by %d" % (name, k, sum(by))) for k in HARD_POINTS
      for name, by in (("u", (0, 1, 0)), ("u", (0, -1, 0)), ("v", (0, 0, 1)), ("v", (0, 0, -1)), ("place", (1, 0, 0)))),
    *(("ready_point", swapped_at(k), "u and v of ready points %d and %d swapped" % (k, k + 1)) for k in (0, 781, COUNT - 2)),
    *(("ready_point", locus_beside(by), "u and v of %d places on" % by) for by in (1, -1, 19, EVERY, -EVERY)),
    ("ready_point", stored_at(lambda k: k, lambda k: k + 1), "one number on for each point"),
    ("ready_point", stored_at(lambda k: k, lambda k: k + COUNT), "all u before all v"),
    ("ready_point", point_by(lambda k, place, u, v: (place, v, u)), "u and v swapped in the table"),
    ("ready_point", point_by(lambda k, place, u, v: (place, u, u)), "u for v in the table"),
    ("ready_point", point_by(lambda k, place, u, v: (k, u, v)), "the number for a ready point's place"),
    *(("ready_point", point_by(lambda k, place, u, v, less=less: (place - less, u, v)), "ready places less by %d" % less)
      for less in (1, EVERY, FIRST)),
    ("ready_point", point_by(lambda k, place, u, v: (place, u // 10, v // 10)), "the table in units of 0.00001"),
    ("ready_point", point_by(lambda k, place, u, v: (place, u % 2**16, v % 2**16)), "the table in 16 bits"),
    ("ready_point", point_by(lambda k, place, u, v: (place % 2**15, u, v)), "places in 15 bits"),
    *(("ready_point", wrong) for wrong in (every_other_point_between_its_neighbours, steps_rounded_one_by_one)),
)


# --- Which ready points there are for the reader ----------------------------------------------------------------------


def table_at(places):
    """The locus at other places."""
    return lru_cache(maxsize=None)(lambda: tuple((place, *ref.locus_point(place)) for place in places))


def table_by(change):
    """The table changed."""
    return lru_cache(maxsize=None)(lambda right=ref.ready_points: tuple(change(right())))


def one_more_before_the_first(points):
    exact = [ref.on_curve((1, 2, 3, 4), coordinate, ref.mired_at(FIRST - EVERY)) for coordinate in (0, 1)]
    return ((FIRST - EVERY, *map(ref.rounded, exact)), *points)


def one_more_after_the_last(points):
    return (*points, (LAST + EVERY, *ref.locus_point(LAST + EVERY)))


def without_point(k):
    return lambda points: points[:k] + points[k + 1:]


def place_of_the_next(points):
    return [(place + EVERY, u, v) for place, u, v in points]


# --- Which of them is answered ----------------------------------------------------------------------------------------


def points_with_distances(reading):
    """(distance, place) of every ready point, by rising places."""
    return [(ref.squared_distance(reading, point), place) for place, *point in ref.ready_points()]


def nearest_by(distance):
    """The nearest ready place by another distance of du and dv."""
    return lambda reading: min((distance(*ref.minus(reading, point)), place) for place, *point in ref.ready_points())[1]


def nearest_within(ends):
    """The nearest of the ready places from one end to the other, which a rule of the reading gives; the entry's where there is none."""
    def nearest_ready_place(reading):
        low, high = ends(reading)
        among = [pair for pair in points_with_distances(reading) if low <= pair[1] <= high]
        return min(among)[1] if among else nearest_entry_place(reading)
    return nearest_ready_place


def highest_on_ties(reading):
    least, _ = min(points_with_distances(reading))
    return max(place for distance, place in points_with_distances(reading) if distance == least)


def middle_one_on_ties(reading):
    least, _ = min(points_with_distances(reading))
    tied = [place for distance, place in points_with_distances(reading) if distance == least]
    return tied[len(tied) // 2]


def entry_kept_on_ties(reading):
    least, place = min(points_with_distances(reading))
    entry = nearest_entry_place(reading)
    return entry if ref.distance_at(reading, entry) == least else place


def nearer_than(bound):
    """The nearest ready place of those that are nearer than a bound; the first place where there is none."""
    def nearest_ready_place(reading):
        least, place = min(points_with_distances(reading))
        return place if least < bound else FIRST
    return nearest_ready_place


def second_nearest(reading):
    return sorted(points_with_distances(reading))[1][1]


def nearest_entry_place(reading):
    return ref.entry_place(ref.nearest_entry(reading))


def ready_place_about(place):
    """The ready place nearest to a place."""
    return ref.ready_place(ref.rounded(Fraction(place - FIRST, EVERY)))


def by_the_search_after(steps):
    """The ready place nearest to the place that the search answers."""
    return lambda reading: ready_place_about(ref.found_after(reading, steps).nearest)


def ready_place_up_to_that_of_the_search(reading):
    place = ref.found_after(reading, ref.MOST_STEPS).nearest
    return place - (place - FIRST) % EVERY


def place_that_the_search_finds(reading):
    return ref.found_after(reading, ref.MOST_STEPS).nearest


def nearest_of_all_places(reading):
    at = nearest_entry_place(reading)
    places = range(max(FIRST, at - PIECE), min(LAST, at + PIECE) + 1)
    return min(places, key=lambda place: ref.distance_at(reading, place))


def bracket_after(steps):
    """The ends of the search's bracket."""
    return lambda reading: ref.found_after(reading, steps)[:2]


def half_a_piece_about_the_nearest_entry(reading):
    return nearest_entry_place(reading) - PIECE // 2, nearest_entry_place(reading) + PIECE // 2


def piece_from_the_nearest_entry(reading):
    return nearest_entry_place(reading), nearest_entry_place(reading) + PIECE


def piece_up_to_the_nearest_entry(reading):
    return nearest_entry_place(reading) - PIECE, nearest_entry_place(reading)


def first_that_the_next_is_not_nearer_than(reading):
    pairs = points_with_distances(reading)
    return next((here[1] for here, after in zip(pairs, pairs[1:]) if here[0] <= after[0]), LAST)


def last_that_the_one_before_is_not_nearer_than(reading):
    pairs = points_with_distances(reading)
    return next((here[1] for before, here in zip(pairs[-2::-1], pairs[::-1]) if here[0] < before[0]), FIRST)


def from_neighbour_to_neighbour(reading):
    """From the nearest entry on to the nearer neighbour, as long as one is nearer."""
    distances = [distance for distance, _ in points_with_distances(reading)]
    at, before = PER_PIECE * (ref.nearest_entry(reading) - 1), None
    while at != before:
        before, at = at, min(range(max(at - 1, 0), min(at + 2, COUNT)), key=lambda k: (distances[k], k != at))
    return ref.ready_place(at)


def by_halving(reading):
    """As though the distance fell and then rose."""
    distances = [distance for distance, _ in points_with_distances(reading)]
    low, high = 0, COUNT - 1
    while low < high:
        middle = (low + high) // 2
        low, high = (low, middle) if distances[middle] <= distances[middle + 1] else (middle + 1, high)
    return ref.ready_place(low)


def signed(number, bits):
    """The lowest bits of a number, as one with a sign."""
    return (number + 2 ** (bits - 1)) % 2**bits - 2 ** (bits - 1)


DISTANCES = {
    "by u alone": lambda du, dv: abs(du), "by v alone": lambda du, dv: abs(dv), "by |du| + |dv|": lambda du, dv: abs(du) + abs(dv),
    "by the larger of |du| and |dv|": lambda du, dv: max(abs(du), abs(dv)), "by du² and |dv|": lambda du, dv: du * du + abs(dv),
    "by the root of the distance": lambda du, dv: ref.root(du * du + dv * dv),
    "by the distance in u' and v'": lambda du, dv: 4 * du * du + 9 * dv * dv,
    "by a distance in 32 bits": lambda du, dv: (du * du + dv * dv) % 2**32,
    "by a distance in 32 bits with a sign": lambda du, dv: signed(du * du + dv * dv, 32),
    "by a distance in 31 bits": lambda du, dv: (du * du + dv * dv) % 2**31,
    "by du and dv in 16 bits": lambda du, dv: (du % 2**16) ** 2 + (dv % 2**16) ** 2,
    "by du and dv in 16 bits with a sign": lambda du, dv: signed(du, 16) ** 2 + signed(dv, 16) ** 2,
    "by squares in 32 bits": lambda du, dv: du * du % 2**32 + dv * dv % 2**32,
    "by a distance in single precision": lambda du, dv: nearest_f32(du * du + dv * dv),
    "by du and dv in tens of micro": lambda du, dv: (du // 10) ** 2 + (dv // 10) ** 2,
    "by du² - dv²": lambda du, dv: abs(du * du - dv * dv), "by (du + dv)²": lambda du, dv: (du + dv) ** 2,
}


# --- The checks -------------------------------------------------------------------------------------------------------


def is_far(reading):
    return ref.is_too_far(reading, ref.entry_point(ref.nearest_entry(reading)))


def is_far_from_the_nearest_ready_point(reading):
    return min(points_with_distances(reading))[0] > ref.FARTHEST


def is_far_from_the_last_entry_up_to_the_nearest_ready_point(reading):
    return ref.is_too_far(reading, ref.entry_point((ref.nearest_ready_place(reading) - FIRST) // PIECE + 1))


def is_far_from_the_entry_nearest_to_the_nearest_ready_point(reading):
    return ref.is_too_far(reading, ref.entry_point((ref.nearest_ready_place(reading) - FIRST + PIECE // 2) // PIECE + 1))


def is_behind(reading, m, end, beyond):
    return ref.nearest_entry(reading) == m and ref.dot(ref.minus(reading, end), ref.minus(beyond, end)) < 0


def is_hot(reading):
    return is_behind(reading, 1, ref.entry_point(1), ref.entry_point(2))


def is_cool(reading):
    return is_behind(reading, 24, ref.entry_point(24), ref.entry_point(23))


def is_hot_by_the_second_ready_point(reading):
    return is_behind(reading, 1, ref.entry_point(1), ref.ready_point(1)[1:])


def is_cool_by_the_last_ready_point_but_one(reading):
    return is_behind(reading, 24, ref.entry_point(24), ref.ready_point(COUNT - 2)[1:])


def where_nearest_to(end, check):
    return lambda reading: ref.nearest_ready_place(reading) == end and check(reading)


def nearest_to(end):
    """Whether an end is the nearest ready place to a reading other than its own."""
    return lambda reading: ref.nearest_ready_place(reading) == end and ref.distance_at(reading, end) > 0


CHECKS = {5: is_far, 6: is_hot, 7: is_cool}
# The names of the second program whose wrong rules, wherever they stand, are tried on the coarse reader too. Which of two equal entries is
# the nearest, `nearest_entry`, it does not show: both are as far, and neither is behind an end.
CHECK_NAMES = ("admit", "whole_number", "whole_numbers", "rounded", "dot", "FARTHEST", "is_too_far", "DARK", "WHOLE_LIMIT", "in_range",
               "CONVERSIONS")


def admit_by(*numbers, changed={}):
    """An `admit` that makes these checks in this order, some of them changed."""
    def admit(reading):
        for number in numbers:
            if {**CHECKS, **changed}[number](reading):
                raise ref.Refused(number)
        return ref.nearest_entry(reading)
    return admit


def out_of_range_before_not_finite(patterns, quantity):
    if not all(ref.in_range(exact_value(bits), quantity) for bits in patterns if is_finite(bits)):
        raise ref.Refused(ref.OUT_OF_RANGE)
    if not all(map(is_finite, patterns)):
        raise ref.Refused(ref.NOT_FINITE)
    return [ref.whole_number(bits, quantity[0]) for bits in patterns]


def not_finite_is_out_of_range(patterns, quantity, right=ref.whole_numbers):
    if not all(map(is_finite, patterns)):
        raise ref.Refused(ref.OUT_OF_RANGE)
    return right(patterns, quantity)


def not_finite_is_zero(patterns, quantity, right=ref.whole_numbers):
    return right([bits if is_finite(bits) else 0 for bits in patterns], quantity)


def any_range(value, quantity):
    return True


def not_below(value, quantity):
    return -Fraction(1, 2 * quantity[0]) < value


def below_the_bound(value, quantity):
    return value < quantity[1]


def up_to_the_bound(value, quantity):
    return -Fraction(1, 2 * quantity[0]) < value <= quantity[1]


def converted_by(kind, change):
    """The conversions, that of one kind of reading changed."""
    return {**ref.CONVERSIONS, kind: lambda *args, right=ref.CONVERSIONS[kind]: change(right, *args)}


def is_dark(y):
    return is_finite(y) and ref.whole_number(y, ref.TRISTIMULUS[0]) < ref.DARK


def dark_first(right, x, y, z):
    if is_dark(y):
        raise ref.Refused(ref.TOO_DARK)
    return right(x, y, z)


def dark_before_out_of_range(right, x, y, z):
    if all(map(is_finite, (x, y, z))):
        return dark_first(right, x, y, z)
    return right(x, y, z)


def without_dark(right, x, y, z):
    x, y, z = ref.whole_numbers((x, y, z), ref.TRISTIMULUS)
    return ref.xyz_rule(x, max(y, 1), z)


def dark_where_black(right, x, y, z):
    if ref.whole_numbers((x, y, z), ref.TRISTIMULUS)[1] == 0:
        raise ref.Refused(ref.TOO_DARK)
    return without_dark(right, x, y, z)


def dark_before_rounding(right, x, y, z):
    found = right(x, y, z)
    if exact_value(y) < 1:
        raise ref.Refused(ref.TOO_DARK)
    return found


def dark_after_the_others(right, x, y, z):
    ref.admit(without_dark(right, x, y, z))
    return right(x, y, z)


def limit_of_u_alone(right, u, v):
    return right(u, min(v, ref.WHOLE_LIMIT))


def limit_of_v_alone(right, u, v):
    return right(min(u, ref.WHOLE_LIMIT), v)


def whole_numbers_over_one_out_of_range(right, u, v):
    return right(*(number if number < ref.MICRO else ref.WHOLE_LIMIT + 1 for number in (u, v)))


def any_whole_numbers(right, u, v):
    return u, v


# --- The answer -------------------------------------------------------------------------------------------------------


def answer_by(change):
    """The coarse reader's answer, with another place where it is accepted."""
    def coarse(kind, args, right=ref.coarse):
        given = right(kind, args)
        return given if given.refusal else given._replace(place=change(given.place))
    return coarse


def with_place(number, place_of):
    """A place beside the refusals from a number on, by a rule of the reading, or of entry 1's where there is none."""
    def coarse(kind, args, right=ref.coarse):
        given, reading = right(kind, args), ref.converted(kind, args)
        known = ref.entry_point(1) if isinstance(reading, int) else reading
        return given._replace(place=place_of(known)) if given.refusal >= number else given
    return coarse


def number_instead(number, other):
    """One refusal's number given as another's."""
    def coarse(kind, args, right=ref.coarse):
        given = right(kind, args)
        return given._replace(refusal=other) if given.refusal == number else given
    return coarse


def by_the_floats_themselves(kind, args, right=ref.coarse):
    given = right(kind, args)
    if given.refusal or kind != "uv":
        return given
    return given._replace(place=min(points_with_distances([exact_value(bits) * ref.MICRO for bits in args]))[1])


def refused_where_the_search_finds_a_farther_place(kind, args, right=ref.coarse):
    given = right(kind, args)
    if given.refusal:
        return given
    reading = ref.CONVERSIONS[kind](*args)
    found = ref.found_after(reading, ref.MOST_STEPS).nearest
    return given if ref.distance_at(reading, found) <= ref.distance_at(reading, given.place) else ref.CoarseAnswer(ref.TOO_FAR)


PLACES = {
    "the number for the place": lambda place: (place - FIRST) // EVERY, "a number from 1": lambda place: (place - FIRST) // EVERY + 1,
    "the place from the first on": lambda place: place - FIRST, "the entry for the place": lambda place: (place - FIRST) // PIECE + 1,
    "the next ready place": lambda place: min(place + EVERY, LAST), "the ready place before": lambda place: max(place - EVERY, FIRST),
    "the place in 15 bits": lambda place: place % 2**15, "the kelvin for the place": lambda place: floor(ref.kelvin_at(place)),
    "the middle of two ready places": lambda place: place + 19, "the entry's place": lambda place: place - (place - FIRST) % PIECE,
}

WRONG_COARSE_RULES = (
    *(("ready_points", table_at(range(FIRST, LAST + 1, every)), "the reader's table at every %d places" % every)
      for every in (37, 39, 19, 76)),
    *(("ready_points", table_at(range(first, LAST + 1, EVERY)), "the reader's table from %d on" % first)
      for first in (FIRST + 1, FIRST + 19, FIRST + EVERY - 1)),
    *(("ready_points", table_by(change), words) for change, words in (
        (without_point(0), "the first point missing"), (without_point(COUNT - 1), "the last point missing"),
        (without_point(782), "a point in the middle missing"), (without_point(PER_PIECE), "entry 2 missing"),
        (one_more_before_the_first, "one more before the first"), (one_more_after_the_last, "one more after the last"),
        (place_of_the_next, "the place of the next"))),
    *(("nearest_ready_place", nearest_by(distance), words) for words, distance in DISTANCES.items()),
    *(("nearest_ready_place", wrong) for wrong in (
        highest_on_ties, middle_one_on_ties, entry_kept_on_ties, second_nearest, nearest_entry_place, ready_place_up_to_that_of_the_search,
        place_that_the_search_finds, nearest_of_all_places, first_that_the_next_is_not_nearer_than,
        last_that_the_one_before_is_not_nearer_than, from_neighbour_to_neighbour, by_halving)),
    *(("nearest_ready_place", nearer_than(bound), "only nearer than %d" % bound) for bound in (ref.FARTHEST, 2**31, 900_000_001)),
    *(("nearest_ready_place", by_the_search_after(steps), "about the search's place after %d steps" % steps) for steps in (0, 6, 14)),
    *(("nearest_ready_place", nearest_within(bracket_after(steps)), "within the bracket after %d steps" % steps) for steps in (5, 6, 14)),
    *(("nearest_ready_place", nearest_within(ends), "only in " + ends.__name__.replace("_", " ")) for ends in (
        half_a_piece_about_the_nearest_entry, piece_from_the_nearest_entry, piece_up_to_the_nearest_entry)),
    *(("admit", admit_by(*numbers), "check %s left out" % left) for numbers, left in (
        ((6, 7), "5"), ((5, 7), "6"), ((5, 6), "7"), ((5,), "6 and 7"), ((), "5 to 7"))),
    ("admit", admit_by(6, 7, 5), "5 after 6 and 7"),
    *(("admit", admit_by(5, 6, 7, changed={5: check}), check.__name__.replace("_", " ")) for check in (
        is_far_from_the_nearest_ready_point, is_far_from_the_last_entry_up_to_the_nearest_ready_point,
        is_far_from_the_entry_nearest_to_the_nearest_ready_point)),
    *(("admit", admit_by(5, 6, 7, changed={number: check}), check.__name__.replace("_", " ")) for number, check in (
        (6, is_hot_by_the_second_ready_point), (7, is_cool_by_the_last_ready_point_but_one))),
    *(("admit", admit_by(5, 6, 7, changed={number: where_nearest_to(end, check)}), "%d only where the end is nearest" % number)
      for number, end, check in ((6, FIRST, is_hot), (7, LAST, is_cool))),
    *(("admit", admit_by(5, 6, 7, changed={number: nearest_to(end)}), "%d where the end is nearest" % number)
      for number, end in ((6, FIRST), (7, LAST))),
    *(("whole_numbers", wrong) for wrong in (out_of_range_before_not_finite, not_finite_is_out_of_range, not_finite_is_zero)),
    *(("in_range", wrong) for wrong in (any_range, not_below, below_the_bound, up_to_the_bound)),
    *(("CONVERSIONS", converted_by("xyz", wrong), wrong.__name__.replace("_", " ")) for wrong in (
        dark_first, dark_before_out_of_range, without_dark, dark_where_black, dark_before_rounding, dark_after_the_others)),
    *(("CONVERSIONS", converted_by("whole", wrong), wrong.__name__.replace("_", " ")) for wrong in (
        limit_of_u_alone, limit_of_v_alone, whole_numbers_over_one_out_of_range, any_whole_numbers)),
    *(("CONVERSIONS", {**ref.CONVERSIONS, kind: ref.CONVERSIONS[other]}, "%s taken as %s" % (kind, other)) for kind, other in (
        ("uv", "uvp"), ("uvp", "uv"), ("xy", "uv"), ("uv", "xy"), ("uvp", "xy"), ("xy", "uvp"))),
    *(("CONVERSIONS", converted_by(kind, lambda right, *args: right(*args)[::-1]), "u and v of %s swapped" % kind)
      for kind in ("uv", "uvp", "xy", "xyz", "whole")),
    ("CONVERSIONS", converted_by("xyz", lambda right, x, y, z: right(z, y, x)), "X and Z swapped"),
    *(("coarse", with_place(number, place_of), "the %s place beside refusals from %d" % (words, number)) for number in (2, 5, 6, 7)
      for words, place_of in (("nearest", ref.nearest_ready_place), ("first", lambda reading: FIRST), ("entry's", nearest_entry_place))),
    *(("coarse", number_instead(*pair), "%d given as %d" % pair)
      for pair in ((2, 3), (3, 2), (4, 3), (4, 5), (5, 3), (6, 7), (7, 6), (6, 5), (7, 5))),
    *(("coarse", answer_by(change), words) for words, change in PLACES.items()),
    *(("coarse", wrong) for wrong in (by_the_floats_themselves, refused_where_the_search_finds_a_farther_place)),
)
