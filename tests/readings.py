"""Readings in whole micro that are hard for the search and its refusals, and the same readings as floats of each kind."""

from fractions import Fraction
from itertools import product
from math import gcd, isqrt

import reference as ref
from floats import nearest_f32

LIMIT_RADIUS = isqrt(ref.FARTHEST)
EARLIER_LIMIT = 900_000_000  # the limit before No. 8, now well inside
PLACES = range(ref.FIRST_PLACE, ref.LAST_PLACE + 1)


def is_admitted(reading):
    try:
        return min(reading) >= 0 and bool(ref.admit(reading))
    except ref.Refused:
        return False


def near_locus(dice, spread):
    """A reading within `spread` micro of a random place in u and in v."""
    u, v = ref.locus_point(dice.between(ref.FIRST_PLACE, ref.LAST_PLACE))
    return u + dice.between(-spread, spread), v + dice.between(-spread, spread)


def admitted(dice, spread=35_000):
    """A reading that refusals 5 to 7 let through."""
    while True:
        reading = near_locus(dice, dice.pick((0, 3, 50, 1000, spread)))
        if is_admitted(reading):
            return reading


def squares_summing_to(total):
    """Every (du, dv) with du^2 + dv^2 = total."""
    found = set()
    for a in range(isqrt(total) + 1):
        b = isqrt(total - a * a)
        if a * a + b * b == total:
            found |= {(a, b), (-a, b), (a, -b), (-a, -b)}
    return sorted(found)


def about_entries(offsets):
    """Each offset from each entry, where that is the nearest one."""
    for i, (du, dv) in product(ref.ENTRIES, offsets):
        u, v = ref.entry_point(i)
        if ref.nearest_entry((u + du, v + dv)) == i:
            yield u + du, v + dv


def at_distances(*totals):
    """Readings at exactly these squared distances from entry m."""
    return list(about_entries([offset for total in totals for offset in squares_summing_to(total)]))


def at_the_limit():
    """Readings at squared distance exactly 2,500,000,000 (taken) and 2,500,000,001 = 50,000^2 + 1 (refused) from entry m, and at the
    next ones that two whole numbers have, 6 under and 4 over."""
    return at_distances(ref.FARTHEST, ref.FARTHEST + 1, ref.FARTHEST - 6, ref.FARTHEST + 4)


def at_the_earlier_limit():
    """Readings at the limit before No. 8 and one over."""
    return at_distances(EARLIER_LIMIT, EARLIER_LIMIT + 1)


def beside_the_limit(dice, count):
    """Pairs of readings in any direction from entry m, one micro apart in u or in v: the last that is taken and the first that is not."""
    found = []
    while len(found) < 2 * count:
        i, along, side, turn = dice.pick(ref.ENTRIES), dice.between(-LIMIT_RADIUS, LIMIT_RADIUS), dice.pick((-1, 1)), dice.pick((-1, 1))
        (u, v), across = ref.entry_point(i), isqrt(ref.FARTHEST - along**2)
        pair = [(u + du, v + dv) for du, dv in ((along, side * far)[::turn] for far in (across, across + 1))]
        if all(ref.nearest_entry(reading) == i for reading in pair):
            assert [ref.squared_distance(reading, (u, v)) <= ref.FARTHEST for reading in pair] == [True, False]
            found += pair
    return found


def on_line(a, b, c, near):
    """A whole point with a*x + b*y = c close to `near`, or None where the line has none."""
    g = gcd(a, b)
    if g == 0 or c % g:
        return None
    a, b, c = a // g, b // g, c // g
    x = c * pow(a, -1, abs(b)) if abs(b) > 1 else 0
    if b == 0:
        return c // a, near[1]
    k = round(Fraction(near[0] - x, b))
    x += k * b
    return x, (c - a * x) // b


def behind_an_end(m, other, steps):
    """Readings about entry m whose dot with the direction to entry `other` is the last below 0, 0, or the first above."""
    corner, end = ref.entry_point(m), ref.entry_point(other)
    du, dv = end[0] - corner[0], end[1] - corner[1]
    unit = gcd(du, dv)
    length = isqrt(du * du + dv * dv)
    for sign in (-1, 0, 1):
        for k in range(-steps, steps + 1):
            along = (-dv * LIMIT_RADIUS * k // (steps * length), du * LIMIT_RADIUS * k // (steps * length))
            offset = on_line(du, dv, sign * unit, along)
            reading = corner[0] + offset[0], corner[1] + offset[1]
            if ref.nearest_entry(reading) == m:
                assert ref.dot(offset, (du, dv)) == sign * unit
                yield reading


def equally_far(p, q, near):
    """A whole point as far from p as from q, close to `near`, or None."""
    a, b = 2 * (q[0] - p[0]), 2 * (q[1] - p[1])
    return on_line(a, b, q[0] ** 2 + q[1] ** 2 - p[0] ** 2 - p[1] ** 2, near)


def entry_ties(dice, count):
    """Readings equally far from their two nearest entries: the lower entry wins."""
    found = []
    while len(found) < count:
        i = dice.between(1, 23)
        p, q = ref.entry_point(i), ref.entry_point(i + 1)
        near = p[0] + dice.between(-33_000, 33_000), p[1] + dice.between(-41_000, 41_000)
        reading = equally_far(p, q, near)
        if reading and min(reading) >= 0:
            far = sorted(ref.squared_distance(reading, ref.entry_point(k)) for k in ref.ENTRIES)
            if far[0] == far[1] <= 2 * ref.FARTHEST:
                found.append(reading)
    return found


def comparisons(reading):
    """The inner points (a, b) that each of the 14 steps compares."""
    return [(stage.a, stage.b) for stage in ref.stages(reading)[:-1]]


def looks(reading):
    """Each point looked at before the last step, with the nearest point seen before it."""
    seen = ref.stages(reading)[-2].seen
    return [(seen[k], ref.nearest_seen(reading, seen[:k])) for k in range(1, len(seen))]


def has_tie(reading, pairs):
    """Whether two of the compared places are equally far and not the same place."""
    return any(p != q and ref.distance_at(reading, p) == ref.distance_at(reading, q) for p, q in pairs(reading))


def search_ties(dice, pairs, count):
    """Readings moved onto the line of equal distance between two places that the search compares."""
    found = []
    while len(found) < count:
        reading = admitted(dice)
        p, q = dice.pick(pairs(reading))
        moved = equally_far(ref.locus_point(p), ref.locus_point(q), reading)
        if moved and is_admitted(moved) and has_tie(moved, pairs):
            found.append(moved)
    return found


def about_piece(dice, i):
    """A reading about the piece from entry i to entry i + 1: on the locus, or beside it and above or below."""
    while True:
        u, v = ref.locus_point(dice.between(ref.entry_place(i), ref.entry_place(i + 1)))
        reading = u + dice.pick((0, 0, 1, -1)), v + dice.pick((0, 0, 1, -1, 2, -2, 4, -4, 300, -300))
        if is_admitted(reading):
            return reading


def level_ties(dice, count):
    """Readings midway between two inner points of equal v, as the last piece has them, where v rises to its top and falls again."""
    found = []
    while len(found) < count:
        reading = about_piece(dice, 23)
        points = [(ref.locus_point(a), ref.locus_point(b)) for a, b in comparisons(reading)]
        level = [(p, q) for p, q in points if p != q and p[1] == q[1]]
        moved = equally_far(*dice.pick(level), reading) if level else None
        if moved and is_admitted(moved) and has_tie(moved, comparisons):
            found.append(moved)
    return found


def square_to_an_entry(dice):
    """A reading nearly square to the locus at an entry, where the cubics of two pieces meet, a little at an angle."""
    i = dice.between(2, 23)
    (u, v), before, after = ref.entry_point(i), ref.entry_point(i - 1), ref.entry_point(i + 1)
    du, dv = after[0] - before[0], after[1] - before[1]
    out, along = dice.between(-49_000, 49_000), dice.between(-60, 60)
    length = isqrt(du * du + dv * dv)
    return u + (along * du - out * dv) // length, v + (along * dv + out * du) // length


def leaves_bracket(reading):
    return any(not o <= nearest <= p for o, p, nearest in (ref.found_at(reading, stage) for stage in ref.stages(reading)))


def best_outside(dice, count):
    """Readings whose nearest point seen leaves the bracket during the search."""
    found = []
    while len(found) < count:
        reading = square_to_an_entry(dice)
        if is_admitted(reading) and leaves_bracket(reading):
            found.append(reading)
    return found


# --- The same reading as floats ---------------------------------------------------------------------------------------


def as_uv(u, v):
    return [nearest_f32(Fraction(u, ref.MICRO)), nearest_f32(Fraction(v, ref.MICRO))]


def as_uvp(u, v):
    return as_uv(u, (3 * v + 1) // 2)


def as_xy(u, v):
    n = 2 * u - 8 * v + 4 * ref.MICRO
    return [nearest_f32(Fraction(3 * u, n)), nearest_f32(Fraction(2 * v, n))]


def as_xyz(u, v, brightness=100):
    v = max(v, 1)
    x, z = Fraction(3 * u, 2 * v), Fraction(4 * ref.MICRO - u - 10 * v, 2 * v)
    return [nearest_f32(part * brightness) for part in (x, 1, z)]


AS_FLOATS = {"uv": as_uv, "uvp": as_uvp, "xy": as_xy, "xyz": as_xyz}


def comes_to(kind, reading):
    """Whether the floats of a kind come to exactly this reading; whole numbers do."""
    return kind == "whole" or ref.converted(kind, AS_FLOATS[kind](*reading)) == reading
