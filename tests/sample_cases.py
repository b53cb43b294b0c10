"""Vectors for spectral samples: `list LETTER NUMBERS..`, `samples`, and `answer samples ALLOWANCE EDGES..`.

A section yields cases: the four lists, and the lines that ask about them. `lines()` puts before each case the `list` lines that
it needs, so that a table which stays is written once."""

from bisect import bisect_left
from itertools import permutations, product
from operator import itemgetter

import document_cases
import reference as ref
import spectra
from answer_cases import (ALLOWANCES, BEHIND_FIRST, BEHIND_LAST, FAR_BEHIND_FIRST, LARGEST_U32, REFINEMENTS, TEXT_EDGES, answered,
                          any_edges, check_refinement, line, refinement_readings)
from convert_cases import converted_line
from core_cases import edge_lists, edges_around, rising_edges, spoilt
from dice import Dice
from readings import admitted, at_the_limit, behind_an_end, beside_the_limit, is_admitted
from sample_lists import Lists, changes, flat, has_sums, shifted, sums_to, with_number, with_sums

KINDS = ("list", "samples", "answer samples")
CONVERSION = "samples"
LIMITS = Lists(ref.SAMPLE_LIMIT, ref.TABLE_LIMIT, ref.TABLE_LIMIT, ref.TABLE_LIMIT)
STEPS = (10, 5, 1)  # nm between the samples: 48, 95 and 471 of them


def answer_line(allowance, edges):
    return line("samples", (), allowance, edges)


def admitted_reading(lists):
    """The reading that the lists come to, None where it is refused."""
    try:
        reading = ref.convert_samples(*lists)
    except ref.Refused:
        return None
    return reading if is_admitted(reading) else None


def edges_for(reading, allowance, dice):
    """Good edges; every other time an answer has two of them about its range."""
    if reading is None or dice.below(2):
        return any_edges(dice)
    return edges_around(ref.found_after(reading, min(allowance, ref.MOST_STEPS)), dice)


def asked(lists, dice, answers=1):
    """The case of some lists: their conversion, and whole answers at random allowances."""
    reading = admitted_reading(lists)
    allowances = [dice.pick(ALLOWANCES) for _ in range(answers)]
    return lists, [CONVERSION] + [answer_line(allowance, edges_for(reading, allowance, dice)) for allowance in allowances]


def summing_to(sums, dice):
    """The case of lists with given sums."""
    return asked(shifted(with_sums(sums), dice), dice)


def exact_sums(reading, dice):
    """Sums, divided or not, that come to a reading exactly."""
    sums = sums_to(reading, 2 ** dice.between(30, 54))
    assert ref.convert_sums(sums) == reading
    return sums


# --- The first lists, and those of document_cases.py ------------------------------------------------------------------


def unset_cases(dice):
    """Before the first `list` line all four lists are empty."""
    yield Lists(), [CONVERSION, answer_line(14, TEXT_EDGES), answer_line(14, (5000,))]


def worked_cases(dice):
    for lists, _ in document_cases.SPECTRA:
        yield asked(Lists(*lists), dice, 2)


# --- Light over CIE's tables ------------------------------------------------------------------------------------------

TEMPERATURES = (800, 1200, 1500, 1590, 1599, 1600, 1601, 1610, 1650, 1700, 1800, 2000, 2200, 2500, 2700, 2856, 3000, 3500, 4000, 4500,
                5000, 5500, 6000, 6500, 7500, 9000, 10_000, 12_000, 15_000, 18_000, 19_500, 19_900, 20_000, 20_100, 20_500, 22_000,
                25_000, 30_000, 50_000, 100_000)
PEAKS = (ref.SAMPLE_LIMIT, 255, 1, None)  # the largest sample, None for watts as they come


def blackbody_lists(wavelengths, tables, kelvin, peak=ref.SAMPLE_LIMIT):
    light = spectra.blackbody(wavelengths, kelvin)
    return Lists(spectra.scaled(light, peak) if peak else spectra.in_watts(light), *tables)


def blackbody_cases(dice):
    """Blackbodies from both ends of the locus, between them and beyond."""
    for step, kelvin, peak in product(STEPS, TEMPERATURES, PEAKS):
        yield asked(blackbody_lists(*spectra.observer(step), kelvin, peak), dice)


PARTS = ((1, 555, 555), (1, 555, 556), (5, 380, 780), (1, 360, 829), (1, 361, 830))  # 1, 2, 81, 470 and 470 samples


def part_cases(dice):
    """Blackbodies over parts of the tables."""
    for part, kelvin in product(PARTS, (1700, 3000, 6500, 15_000)):
        yield asked(blackbody_lists(*spectra.observer(*part), kelvin), dice)


def equal_energy_cases(dice):
    for step, power in product(STEPS, (1, 2, 255, 65_536, ref.SAMPLE_LIMIT)):
        wavelengths, tables = spectra.observer(step)
        yield asked(Lists((power,) * len(wavelengths), *tables), dice, 2)


def line_places():
    """Every wavelength of the coarser tables, every third of the finest, and all about 585 nm, where one line is near the locus."""
    coarse = [(step, nm) for step in STEPS[:-1] for nm in spectra.observer(step).wavelengths]
    return coarse + [(1, nm) for nm in (*range(360, 831, 3), *range(570, 611), 829, 830)]


def single_line_cases(dice):
    """One line and no other light."""
    for step, nm in line_places():
        wavelengths, tables = spectra.observer(step)
        power = dice.pick((1, 255, ref.SAMPLE_LIMIT, dice.between(1, ref.SAMPLE_LIMIT)))
        yield asked(Lists(spectra.lines_at(wavelengths, {nm: power}), *tables), dice)


def line_pair(wavelengths, tables, dice):
    """A bluish and a yellowish line that give a reading near the locus."""
    while True:
        blue = dice.pick([nm for nm in wavelengths if 420 <= nm <= 490])
        yellow = dice.pick([nm for nm in wavelengths if 560 <= nm <= 620])
        powers = {blue: dice.between(1, ref.SAMPLE_LIMIT), yellow: dice.between(1, ref.SAMPLE_LIMIT)}
        lists = Lists(spectra.lines_at(wavelengths, powers), *tables)
        if admitted_reading(lists):
            return lists


def line_pair_cases(dice):
    for step, _ in product(STEPS, range(40)):
        yield asked(line_pair(*spectra.observer(step), dice), dice)


GREEN, PINK = (540,), (440, 640)


def tinted(wavelengths, tables, lines, dice):
    """A blackbody with lines added that give a reading near the locus, above it for green and below it for pink."""
    while True:
        light = spectra.blackbody(wavelengths, dice.between(170, 1900) * 10)
        added = spectra.lines_at(wavelengths, dict.fromkeys(lines, sum(light) * dice.between(1, 200) // 1000))
        samples = spectra.scaled([power + more for power, more in zip(light, added)], dice.pick((255, 4095, ref.SAMPLE_LIMIT)))
        lists = Lists(samples, *tables)
        reading = admitted_reading(lists)
        if reading and (ref.signed_duv(reading, ref.found_after(reading, ref.MOST_STEPS).nearest) > 0) == (lines == GREEN):
            return lists


def tinted_cases(dice):
    for step, lines in [*product(STEPS[:-1], (GREEN, PINK) * 30), *product(STEPS[-1:], (GREEN, PINK) * 8)]:
        yield asked(tinted(*spectra.observer(step), lines, dice), dice)


# --- Any numbers, lengths and limits ----------------------------------------------------------------------------------


def random_numbers(length, top, dice):
    return tuple(dice.between(0, top) for _ in range(length))


def random_lists(length, dice):
    """Lists of any numbers: the samples are up to one random size, and the three tables up to another."""
    sample_top = min(2 ** dice.between(1, 24), ref.SAMPLE_LIMIT)
    table_top = min(2 ** dice.between(1, 22), ref.TABLE_LIMIT)
    return Lists(random_numbers(length, sample_top, dice), *(random_numbers(length, table_top, dice) for _ in range(3)))


def random_cases(dice):
    """Short lists, and some of full length."""
    for length in (*(1, 2, 3, 5, 8, 13, 21, 34) * 40, 81, 470, 471, 471):
        yield asked(random_lists(length, dice), dice)


def length_cases(dice):
    """Each choice of lists is one longer than the others, about every length that counts; all far too long."""
    for length, longer in product((0, 1, 2, 81, 469, 470, 471), product((0, 1), repeat=4)):
        yield asked(Lists(*((1000,) * (length + more) for more in longer)), dice)
    yield asked(flat(473), dice)
    yield asked(flat(512), dice)


def odd_length_cases(dice):
    """One list is empty, one shorter, or far longer than the other three; one alone is not empty."""
    lengths = [pair for n in (1, 2, 81, 470, 471, 472) for pair in ((n, 0), (n, n - 1), (n, 512), (0, n))]
    for (length, other), letter in product(lengths, Lists._fields):
        yield asked(flat(length)._replace(**{letter: (1000,) * other}), dice)


def limit_cases(dice):
    """One number at its limit, just over it, or the largest of 32 bits: first, in the middle and last, in each list."""
    places = [(length, at) for length in (1, 2, 81, 471) for at in sorted({0, length // 2, length - 1})]
    numbers = [(letter, number) for letter, limit in LIMITS._asdict().items() for number in (limit, limit + 1, 2**31, LARGEST_U32)]
    for (length, at), (letter, number) in product(places, numbers):
        yield asked(with_number(flat(length), letter, at, number), dice)


def full_cases(dice):
    """Lists of nothing but limits, numbers over them or the largest 32-bit numbers, of good lengths and of bad ones."""
    for length, more in product((1, 2, 471, 472), (0, 1)):
        yield asked(Lists(*((limit + more,) * length for limit in LIMITS)), dice)
        yield asked(flat(length, LARGEST_U32 - more), dice)


def full_list_cases(dice):
    """One list of the largest 32-bit numbers, as long as the others and one shorter."""
    for letter, length in product(Lists._fields, (470, 471)):
        yield asked(flat(471)._replace(**{letter: (LARGEST_U32,) * length}), dice)


# --- The division -----------------------------------------------------------------------------------------------------


def largest_sums(first, last):
    """About each power of two: the last sum under it, the power itself and the next sum."""
    return [2**exponent + more for exponent in range(first, last + 1) for more in (-1, 0, 1)]


def divisor(largest):
    """The power of two that a largest sum is divided by."""
    return 2 ** max(0, largest.bit_length() - 32)


def kept_or_lost_cases(dice):
    """X or Z is the largest sum, beside a Y that the division just takes to 0 or just keeps as 1; the third is small, or a tie."""
    for largest, part, tie in product(largest_sums(31, 54), range(3), (False, True)):
        power = divisor(largest)
        y, third = (power - 1, power, 2 * power - 1)[part], largest if tie else dice.below(power)
        yield summing_to(dice.pick(((largest, y, third), (third, y, largest))), dice)


def largest_sum_cases(dice):
    """X, Y or Z, two of them, or all three are the largest sum, and the others are small."""
    choices = [choice for choice in product((False, True), repeat=3) if any(choice)]
    for largest, choice in product(largest_sums(32, 54)[::5], choices):
        yield summing_to([largest if chosen else dice.below(3 * divisor(largest)) for chosen in choice], dice)


def lit_reading(dice):
    """A reading near the locus that some X, Y and Z have."""
    reading = admitted(dice)
    return reading if has_sums(reading) else lit_reading(dice)


def lamp_sum_cases(dice):
    """Readings near the locus whose largest sum is just under, at or just over a power of two."""
    for largest in largest_sums(20, 54):
        yield summing_to(sums_to(lit_reading(dice), largest), dice)


def full_sum_cases(dice):
    """The largest sums that there are, 471 · 16,777,215 · 4,000,000, beside each other and beside sums of none and of 471."""
    for numbers in product((1, ref.SAMPLE_LIMIT), *[(0, 1, ref.TABLE_LIMIT)] * 3):
        yield asked(Lists(*((number,) * ref.MOST_SAMPLES for number in numbers)), dice)


def turning_point(quotients, at):
    """The quotients X, Y, Z with one of them raised just so far that the reading's u, or v for Y, becomes another."""
    coordinate, sign = ((0, 1), (1, 1), (0, -1))[at]
    start = quotients[at]
    moved = lambda value: (*quotients[:at], value, *quotients[at + 1:])
    turned = lambda value: sign * ref.xyz_rule(*moved(value))[coordinate]
    values = range(start, start + 2**24)
    return moved(values[bisect_left(values, turned(start) + 1, key=turned)])


def just_below_turning(quotients, at, dice):
    """The case of sums that the division leaves just below a turning point: rounding one to the nearest, or up, would reach it."""
    power = 2 ** dice.between(1, 22)
    sums = [power * quotient for quotient in turning_point(quotients, at)]
    sums[at] -= dice.pick((1, power // 2, power - 1))
    return summing_to(sums, dice)


def rounding_cases(dice):
    """How the division rounds X, Y and Z, seen in readings near the locus."""
    for at in (0, 1, 2) * 60:
        yield just_below_turning(sums_to(lit_reading(dice), dice.between(2**31, 2**32 - 2**25)), at, dice)


def uneven_rounding_cases(dice):
    """The same where one sum is so much larger than the others that the power is its own."""
    for largest, at in [*permutations(range(3), 2)] * 12:
        quotients = [dice.between(2**26, 2**29) for _ in range(3)]
        quotients[largest] = dice.between(2**31, 2**32 - 1)
        yield just_below_turning(quotients, at, dice)


# --- Little or no light -----------------------------------------------------------------------------------------------


def zero_cases(dice):
    """Each choice of the four lists is all zero."""
    for length, numbers in product((1, 3, 471), product((0, 1), repeat=4)):
        yield asked(Lists(*((number,) * length for number in numbers)), dice)


def smallest_sum_cases(dice):
    """Every X, Y, Z up to 3."""
    for sums in product(range(4), repeat=3):
        yield asked(Lists((1,), *((total,) for total in sums)), dice)


def dim_cases(dice):
    """Y from 1 up to both sides of 100,000, where tristimulus values given as floats would begin to be taken."""
    readings = [lit_reading(dice) for _ in range(8)] + [BEHIND_FIRST, BEHIND_LAST, FAR_BEHIND_FIRST]
    for y, reading in product((1, 2, 3, 5, 8, 10, 50, 100, 999, 1000, 10_000, 65_536, 99_998, 99_999, 100_000, 100_001), readings):
        yield summing_to(sums_to(reading, y, picked=itemgetter(1)), dice)


# --- Refusals ---------------------------------------------------------------------------------------------------------


def answered_and_refused():
    """Lists that are answered, and lists for refusals 5 (twice), 6, 7 and 4: no light, no Y, and a Y that the division loses."""
    readings = ((255_910, 349_510), (100_000, 300_000), FAR_BEHIND_FIRST, BEHIND_FIRST, BEHIND_LAST)
    lit = [with_sums(sums_to(reading, 2**34)) for reading in readings]
    return lit + [lit[0]._replace(s=(0, 0, 0)), lit[0]._replace(y=(0, 0, 0)), with_sums((2**40, 255, 2**39))]


def with_faults(lists, large, other, dice):
    """The lists with a number over its limit in the list `large`, and `other` one longer or shorter; None for neither."""
    if large:
        number = dice.pick((getattr(LIMITS, large) + 1, LARGEST_U32))
        lists = with_number(lists, large, dice.below(len(lists.s)), number)
    if other:
        numbers = getattr(lists, other)
        lists = lists._replace(**{other: dice.pick((numbers[:-1], numbers + (dice.pick((0, 1, LARGEST_U32)),)))})
    return lists


def refusal_order_cases(dice):
    """Refusals 9 and 10 in each list, alone and together, beside each of 4 to 7, under good edges and bad ones."""
    letters = (None, *Lists._fields)
    for lists, large, other in product(answered_and_refused(), letters, letters):
        bad_edges = dice.pick(((), (5000,), (5000, 5000), tuple(range(2000, 2033)), spoilt(rising_edges(dice, 3), dice)))
        lines_asked = [answer_line(dice.pick(ALLOWANCES), edges) for edges in (any_edges(dice), bad_edges)]
        yield with_faults(lists, large, other, dice), [CONVERSION] + lines_asked


def edge_list_cases(dice):
    """Good and bad edge lists of every length, over one reading."""
    yield with_sums(sums_to((255_910, 349_510), 2**34)), [answer_line(dice.pick(ALLOWANCES), edges) for edges in edge_lists(dice)]


def end_and_limit_cases(dice):
    """Readings at the last distance that is taken and the first that is not, and on both sides of both ends of the locus."""
    readings = filter(has_sums, [*at_the_limit(), *beside_the_limit(dice, 40), *behind_an_end(1, 2, 40), *behind_an_end(24, 23, 40)])
    for reading in list(readings)[::4]:
        yield summing_to(exact_sums(reading, dice), dice)


# --- Demand 3 ---------------------------------------------------------------------------------------------------------


def refinement_lists(dice):
    """Hard readings by their sums, each refusal, then blackbodies and tinted light over CIE's tables."""
    hard = [reading for _, reading in refinement_readings(dice) if has_sums(reading)]
    lists = [with_sums(exact_sums(reading, dice)) for reading in hard[::2]]
    lists += [*answered_and_refused(), flat(472), flat(471, LARGEST_U32)]
    lists += [blackbody_lists(*spectra.observer(10), kelvin) for kelvin in (1650, 2700, 4000, 6500, 18_000)]
    return lists + [tinted(*spectra.observer(10), lines, dice) for lines in (GREEN, PINK) * 3]


def refinement_cases(dice):
    """The same lists at every allowance from 0 to 15, and at the largest."""
    for lists in refinement_lists(dice):
        edges = edges_for(admitted_reading(lists), dice.below(15), dice)
        check_refinement("samples", lists, edges)
        yield lists, [answer_line(allowance, edges) for allowance in REFINEMENTS]


SECTIONS = (unset_cases, worked_cases, refusal_order_cases, length_cases, odd_length_cases, limit_cases, full_cases, full_list_cases,
            kept_or_lost_cases, largest_sum_cases, lamp_sum_cases, full_sum_cases, rounding_cases, uneven_rounding_cases, zero_cases,
            smallest_sum_cases, dim_cases, edge_list_cases, end_and_limit_cases, random_cases, refinement_cases, single_line_cases,
            line_pair_cases, equal_energy_cases, tinted_cases, part_cases, blackbody_cases)


def cases():
    for section in SECTIONS:
        yield from section(Dice(section.__name__))


def lines():
    """The lines of each case, after the `list` lines that change what is held."""
    held = Lists()
    for lists, questions in cases():
        yield from changes(held, lists)
        yield from questions
        held = lists


def expected(text, held):
    """What is expected of a line after which these lists are held."""
    kind, *fields = text.split()
    if kind == "list":
        return "%d" % len(getattr(held, fields[0]))
    if kind == "samples":
        return converted_line("samples", held)
    return answered("samples", held, fields[1:])
