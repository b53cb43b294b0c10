"""Vectors for the whole answer through every entry point: `answer KIND ARGS.. ALLOWANCE EDGES..`."""

from fractions import Fraction
from itertools import product
from math import floor

import document_cases
import reference as ref
from core_cases import edge_lists, edges_about, edges_around, rising_edges, spoilt
from dice import Dice
from floats import NEGATIVE_INFINITY, QUIET_NAN, nearest_f32
from hard_floats import DARK, LIMIT_4096, MINUS_ONE, ONE
from readings import (AS_FLOATS, about_piece, admitted, as_xyz, at_the_earlier_limit, at_the_limit, behind_an_end, beside_the_limit,
                      best_outside, comes_to, comparisons, entry_ties, level_ties, looks, near_locus, search_ties)

LARGEST_U32 = 2**32 - 1
ALLOWANCES = tuple(range(16)) + (100, 2**31, LARGEST_U32)
REFINEMENTS = (*range(16), LARGEST_U32)  # the allowances at which demand 3 compares one reading
TEXT_EDGES = ref.TEXT_EDGES
WIDE_EDGES = (1600, 20001)


def line(kind, args, allowance, edges):
    fields = [str(arg) if kind == "whole" else "%08x" % arg for arg in args]
    return " ".join(["answer", kind, *fields, str(allowance), *map(str, edges)])


def through(kind, reading, allowance, edges):
    """The line that hands a whole-micro reading to one entry point."""
    args = reading if kind == "whole" else AS_FLOATS[kind](*reading)
    return line(kind, args, allowance, edges)


def any_edges(dice):
    """A short good list, often the program's own."""
    if dice.below(3) == 0:
        return TEXT_EDGES
    return rising_edges(dice, dice.pick((2, 2, 3, 4, 5, 6)))


def document_lines(dice):
    """The document's listing, (P) and "Also run" cases, at the allowances it names."""
    for text, _ in document_cases.LISTING[:-1]:
        u, v, *steps = map(int, text.split())
        for allowance in steps + [13, 14, 15, LARGEST_U32]:
            yield line("whole", (u, v), allowance, TEXT_EDGES)
            yield through("uv", (u, v), allowance, TEXT_EDGES)
    for kind, args, _ in document_cases.CONVERSIONS:
        yield line(kind, list(map(document_cases.bits, args)), 14, TEXT_EDGES)
    for kind, args, edges, _ in document_cases.REFUSALS:
        for allowance in (0, 14):
            yield line(kind, list(map(document_cases.bits, args)), allowance, edges)


def near_lines(dice):
    """Readings about the locus through every kind, at every allowance."""
    for _ in range(1700):
        reading = near_locus(dice, dice.pick((0, 2, 30, 1000, 8000, 40_000)))
        for kind in ("whole", *AS_FLOATS):
            yield through(kind, reading, dice.pick(ALLOWANCES), any_edges(dice))


def far_lines(dice):
    """Readings anywhere in range, nearly all too far, with the largest values."""
    for _ in range(250):
        yield line("whole", (dice.below(4_000_001), dice.below(4_000_001)), dice.pick(ALLOWANCES), any_edges(dice))
        yield line("whole", (dice.between(150_000, 380_000), dice.between(240_000, 400_000)), dice.pick(ALLOWANCES), any_edges(dice))
        for kind, top in (("uv", ONE), ("uvp", ONE), ("xy", ONE), ("xyz", LIMIT_4096)):
            places = 3 if kind == "xyz" else 2
            yield line(kind, [dice.between(top // 2, top) for _ in range(places)], dice.pick(ALLOWANCES), any_edges(dice))
    for u, v in product((0, 4_000_000, 4_000_001, LARGEST_U32), repeat=2):
        yield line("whole", (u, v), 14, TEXT_EDGES)


def limit_lines(dice):
    """The last squared distance that is taken and the first that is refused, through every kind that comes to the reading exactly, at
    small and large allowances; then the limit before No. 8."""
    for reading in at_the_limit() + beside_the_limit(dice, 60):
        for kind in filter(lambda kind: comes_to(kind, reading), ("whole", *AS_FLOATS)):
            yield through(kind, reading, dice.pick(ALLOWANCES), any_edges(dice))
    for reading in at_the_earlier_limit():
        yield through(dice.pick(("whole", *AS_FLOATS)), reading, dice.pick(ALLOWANCES), any_edges(dice))


def end_lines(dice):
    """Both ends with a dot just below, at and just above zero."""
    for m, other in ((1, 2), (24, 23)):
        for reading in behind_an_end(m, other, 40):
            for kind in ("whole", "uvp"):
                yield through(kind, reading, dice.pick(ALLOWANCES), any_edges(dice))


def entry_lines(dice):
    """Both sides of each entry, where the cubic changes: on the locus, and a unit or more off it."""
    for i, aside in product(ref.ENTRIES, (-40, -3, -2, -1, 0, 1, 2, 3, 40)):
        place = ref.entry_place(i) + aside
        if ref.FIRST_PLACE <= place <= ref.LAST_PLACE:
            u, v = ref.locus_point(place)
            for off in (0, dice.pick((-1, 1)), dice.pick((-500, 500))):
                yield through(dice.pick(("whole", "uv", "uvp")), (u, v + off), dice.pick((0, 2, 9, 13, 14)), any_edges(dice))


def piece_lines(dice):
    """Every piece, the two at the ends more often: in the last v rises to its top and falls again."""
    readings = [about_piece(dice, i) for i in ref.ENTRIES[:-1] for _ in range(80 if i in (1, 23) else 8)]
    for reading in readings + level_ties(dice, 60):
        for kind in ("whole", "uv"):
            yield through(kind, reading, dice.pick((0, 1, 2, 3, 7, 14)), any_edges(dice))


def tie_lines(dice):
    """Equal distances: between entries, between the inner points, and between a new point and the nearest seen."""
    readings = entry_ties(dice, 250) + search_ties(dice, comparisons, 350) + search_ties(dice, looks, 250)
    for reading in readings:
        for kind in ("whole", "uv", "uvp"):
            yield through(kind, reading, dice.pick(ALLOWANCES), any_edges(dice))


def outside_lines(dice):
    """The nearest point seen lies outside the bracket: it is answered all the same, and the class looks at all three."""
    for reading in best_outside(dice, 120):
        for allowance in (2, 4, 6, 9, 14):
            yield through("whole", reading, allowance, edges_around(ref.found_after(reading, allowance), dice))


def tight_edge_lines(dice):
    """Edges at or one kelvin beside the temperatures of o, p and the nearest point seen."""
    for k in range(1400):
        reading, allowance = admitted(dice), dice.below(15)
        found = ref.found_after(reading, allowance)
        for form in (edges_around, edges_about):
            yield through(("whole", "uv", "uvp")[k % 3], reading, allowance, form(found, dice))


def exact_edge_lines(dice):
    """Brackets whose ends are whole kelvins (20000, 10000, 8000, 5000, 4000, 2500, 2000, 1600) with edges just there."""
    whole_kelvins = [i for i in ref.ENTRIES if 40_000 % (i + 1) == 0]
    for i in whole_kelvins:
        for m in {max(i - 1, 1), i, min(i + 1, 24)}:
            for shift in (-1, 0, 1):
                edge = floor(ref.kelvin_at(ref.entry_place(i))) + shift
                if 1600 < edge < 20_001:
                    yield line("whole", ref.entry_point(m), 0, (1600, edge, 20_001))
                    yield through("uv", ref.entry_point(m), 14, (1600, edge, 20_001))


def edge_list_lines(dice):
    """Good and bad edge lists of every length before every kind of reading."""
    for edges in edge_lists(dice):
        for kind in ("whole", dice.pick(tuple(AS_FLOATS))):
            yield through(kind, admitted(dice, 1000), dice.pick(ALLOWANCES), edges)


BEHIND_FIRST, BEHIND_LAST = (183_000, 276_000), (346_000, 360_540)
FAR_BEHIND_FIRST, FAR_BEHIND_LAST = (140_000, 230_000), (420_000, 361_000)
FAR_ASIDE = (250_000, 500_000)


def clashes():
    """(kind, args): readings at which two or more of refusals 2 to 7 hold at once, in every pair that can."""
    beyond, infinite = nearest_f32(5000), NEGATIVE_INFINITY
    for bad, out in product((QUIET_NAN, infinite), (ONE, MINUS_ONE)):  # 2 and 3
        for kind in ("uv", "uvp", "xy"):
            yield kind, (bad, out)
            yield kind, (out, bad)
    for bad in (QUIET_NAN, infinite):  # 2 and 4; 2, 3 and 4
        yield from (("xyz", args) for args in ((bad, DARK, DARK), (DARK, DARK, bad), (bad, DARK, beyond), (beyond, 0, bad)))
    yield from (("xyz", args) for args in ((beyond, DARK, DARK), (DARK, 0, beyond), (DARK, MINUS_ONE, DARK)))  # 3 and 4
    for reading in (FAR_ASIDE, BEHIND_FIRST, BEHIND_LAST, FAR_BEHIND_FIRST, FAR_BEHIND_LAST):  # 4 with 5, 6, 7
        yield "xyz", as_xyz(*reading, brightness=Fraction(99, 100))
        yield "xyz", as_xyz(*reading, brightness=2)
    for reading in (FAR_BEHIND_FIRST, FAR_BEHIND_LAST, BEHIND_FIRST, BEHIND_LAST, FAR_ASIDE):  # 5 with 6, 5 with 7
        yield "whole", reading
        yield from ((kind, AS_FLOATS[kind](*reading)) for kind in ("uv", "uvp", "xy"))
    for pair in ((4_000_001, 0), (0, 4_000_001), (LARGEST_U32, LARGEST_U32)):
        yield "whole", pair


def refusal_pair_lines(dice):
    """Each clash under good edges and under bad ones (1 comes before all), at three allowances."""
    bad_lists = ((), (5000,), (5000, 5000), (1599, 5000), (5000, 20_002), tuple(range(2000, 2033)))
    for kind, args in clashes():
        for allowance in (0, 14, LARGEST_U32):
            yield line(kind, args, allowance, TEXT_EDGES)
            yield line(kind, args, allowance, dice.pick(bad_lists))
            yield line(kind, args, allowance, spoilt(rising_edges(dice, 3), dice))


def refinement_readings(dice):
    """Readings of every kind for demand 3, hard ones among them, refused ones too."""
    hard = search_ties(dice, comparisons, 12) + search_ties(dice, looks, 10) + best_outside(dice, 10) + entry_ties(dice, 6)
    hard += [about_piece(dice, i) for i in (1, 2, 22, 23) for _ in range(2)] + level_ties(dice, 5)
    hard += [admitted(dice) for _ in range(40)] + [(183_000, 276_000), (345_070, 330_529), (345_070, 310_530), (345_070, 310_529)]
    for k, reading in enumerate(hard):
        yield ("whole", "uv", "uvp", "xy", "xyz")[k % 5], reading


def check_refinement(kind, args, edges):
    """Demand 3 on what the reference expects: one call at every allowance, each compared with every later one."""
    given = [ref.answer(kind, args, edges, n) for n in REFINEMENTS]
    if given[0].refusal:
        assert all(later == given[0] for later in given)
        return
    reading = ref.CONVERSIONS[kind](*args)
    g = ref.bracket(ref.nearest_entry(reading))[2]
    for k, (allowance, first) in enumerate(zip(REFINEMENTS, given)):
        assert first.refusal == 0 and first.steps == min(allowance, 14)
        assert first.p - first.o == g * ref.F(18 - first.steps)
        for later in given[k:]:
            assert first.o <= later.o and later.p <= first.p
            assert ref.distance_at(reading, later.place) <= ref.distance_at(reading, first.place)
            assert first.cls in (ref.NO_CLASS, later.cls)
            if first.steps == later.steps:
                assert first == later and ref.float_bits(first) == ref.float_bits(later)


def refinement_lines(dice):
    """The same reading at every allowance from 0 to 15, and at the largest."""
    for kind, reading in refinement_readings(dice):
        args = reading if kind == "whole" else AS_FLOATS[kind](*reading)
        edges = edges_around(ref.found_after(reading, dice.below(15)), dice)
        check_refinement(kind, args, edges)
        for allowance in REFINEMENTS:
            yield line(kind, args, allowance, edges)


SECTIONS = (document_lines, near_lines, far_lines, limit_lines, end_lines, entry_lines, piece_lines, tie_lines, outside_lines,
            tight_edge_lines, exact_edge_lines, edge_list_lines, refusal_pair_lines, refinement_lines)


def lines():
    for section in SECTIONS:
        yield from section(Dice(section.__name__))


def answered(kind, args, fields):
    """`refusal place low high duv steps class KELVINBITS DUVBITS`; the fields are `ALLOWANCE EDGES..`."""
    allowance, *edges = map(int, fields)
    given = ref.answer(kind, args, edges, allowance)
    return "%d %d %d %d %d %d %d %016x %016x" % (*given, *ref.float_bits(given))


def expected(text):
    _, kind, *fields = text.split()
    count = 3 if kind == "xyz" else 2
    args = [int(field, 10 if kind == "whole" else 16) for field in fields[:count]]
    return answered(kind, args, fields[count:])
