"""The text program's input and whole output: document 01's listing and the line that it gains by No. 10, then lines that a wrong
reader gets wrong."""

from itertools import product

import document_cases
import reference as ref
from dice import Dice
from readings import (about_piece, admitted, at_distances, at_the_earlier_limit, at_the_limit, behind_an_end, beside_the_limit,
                      best_outside, comparisons, entry_ties, is_admitted, level_ties, looks, near_locus, search_ties)

GOOD = b"219300 327100 2"


def as_line(*numbers):
    return " ".join(map(str, numbers)).encode()


def listing_lines(dice):
    return [line.encode() for line, _ in (*document_cases.LISTING, document_cases.TWO_NUMBERS)]


def digit_counts(dice):
    """Numbers of 1 to 9 digits in each of the three places: seven are read, eight are not."""
    for place, digits in product(range(3), range(1, 10)):
        for text in ("1" * digits, "0" * digits, "9" * digits, "2" * digits):
            numbers = ["219300", "327100", "2"]
            numbers[place] = text
            yield as_line(*numbers)
            yield as_line(*numbers[:2])


def leading_zeros(dice):
    """Zeros in front count as digits: 0000001 is a number, 00000001 is not."""
    for u, v, steps in product(("0219300", "00219300"), ("0327100", "00327100"), ("0", "00", "0000014", "00000014")):
        yield as_line(u, v, steps)
    yield from (b"0000001 0000001 0000001", b"00000001 1", b"0000000 0000000", b"0 0 0")


def range_ends(dice):
    """Both sides of 4,000,000 for u and v, and allowances to seven digits."""
    for u, v in product((0, 1, 3_999_999, 4_000_000, 4_000_001, 9_999_999), repeat=2):
        yield as_line(u, v)
        yield as_line(u, v, 14)
    for steps in (*range(20), 99, 100, 255, 256, 65_536, 4_000_001, 9_999_999, 10_000_000, 4_294_967_295):
        yield as_line(219_300, 327_100, steps)
        yield as_line(255_910, 349_510, steps)


def spacing(dice):
    """Double, leading and trailing spaces, one number, four numbers, and spaces alone."""
    yield from (b"", b" ", b"  ", b" " * 32, b" " * 33, b"1", b"1 ", b" 1", b"1  2", b" 1 2", b"1 2 ", b"1 2  3", b"1 2 3 ",
                b"1 2 3 4", b"1 2 3 4 5", b"219300", b"219300 ", b" 219300 327100", b"219300  327100", b"219300 327100 ",
                b"219300 327100  2", b"219300 327100 2 ", b"219300 327100 2 2", b"219300 327100 2 ", b"", b"")


def other_bytes(dice):
    """Every byte but the newline: before, within and after a number, in place of a space, and alone."""
    for byte in (b for b in range(256) if b != 10):
        odd = bytes([byte])
        yield from (odd, odd + GOOD, GOOD + odd, b"2193" + odd + b"00 327100", b"219300" + odd + b"327100", b"219300 327100" + odd + b"2")
    yield from (b"+219300 327100", b"219300 -1", b"-0 -0", b"1e5 2", b"219300.0 327100", b"0x10 5", b"219300,327100", b"219300\t327100",
                b"219300 327100\r", b"\xef\xbb\xbf219300 327100", b"219300 327100\x00", "２１ ３２".encode(), b"12 x", b"nan inf")


def lengths(dice):
    """Lines about 23 bytes, the longest that can be read, about 32, and far beyond, each followed by a good line."""
    yield b"0219300 0327100 0000002"
    forms = (b"1", GOOD + b" ", b"1 2 0000", b"\x00")
    for length in (*range(22, 36), 63, 64, 65, 127, 128, 255, 256, 257, 1023, 1024):
        for form in forms:
            yield (form * length)[:length]
            yield GOOD
    for length, form in zip((4096, 65_535, 65_536, 65_537, 100_000), forms + forms):
        yield (form * length)[:length]
        yield GOOD


def duv_values(dice):
    """Duv printed as 0, 1 and -1, at the ends of 16 bits, and at the limit and the one before it: every one of them must be met."""
    wanted = {sign * size: 0 for size in (0, 1, 30_000, 32_767, 32_768, 32_769, 50_000) for sign in (-1, 1)}
    around = [(ref.entry_point(i)[0] + du, ref.entry_point(i)[1] + dv) for i in ref.ENTRIES for du in (-1, 0, 1) for dv in (-1, 0, 1)]
    far = at_the_limit() + at_the_earlier_limit() + at_distances(*(size**2 for size in (32_767, 32_768, 32_769)))
    for reading in around + list(filter(is_admitted, far)):
        for steps in (0, 5, 14):
            duv = ref.answer("whole", reading, ref.TEXT_EDGES, steps).duv
            if wanted.get(duv, 20) < 20:
                wanted[duv] += 1
                yield as_line(*reading, steps)
    assert all(wanted.values()), wanted


def hard_readings(dice):
    """Ties, limits, both ends, each piece and a nearest point outside the bracket, as lines of two and of three numbers."""
    readings = at_the_limit() + beside_the_limit(dice, 40) + entry_ties(dice, 120) + search_ties(dice, comparisons, 120) + search_ties(dice, looks, 80)
    readings += best_outside(dice, 60) + list(behind_an_end(1, 2, 15)) + list(behind_an_end(24, 23, 15))
    readings += [about_piece(dice, i) for i in ref.ENTRIES[:-1]] + level_ties(dice, 20)
    for reading in readings:
        yield as_line(*reading)
        yield as_line(*reading, dice.below(16))


def plain_readings(dice, count=1200):
    """Lines of everyday use: admitted readings with an allowance, and any reading about the locus with none."""
    for _ in range(count):
        yield as_line(*admitted(dice), dice.below(16))
        yield as_line(*near_locus(dice, 50_000))


def near_an_edge(dice):
    """A reading beside a point of the locus, at an edge between two classes or within some places of it."""
    edge, aside = dice.pick(ref.TEXT_EDGES[1:-1]), dice.pick((3, 40, 400))
    u, v = ref.locus_point(103_360_000 // edge + dice.between(-aside, aside))
    return u + dice.between(-9, 9), v + dice.between(-9, 9)


def out_of_range(dice):
    return dice.pick(((4_000_001, 327_100), (219_300, 4_000_001), (9_999_999, 9_999_999)))


def outcome(reading, steps):
    """The refusal and the class at the program's edges."""
    given = ref.answer("whole", reading, ref.TEXT_EDGES, steps)
    return given.refusal, given.cls


def two_numbers(dice, count=12):
    """Readings as two numbers, beside the same with 5, 6, 7 and 14 steps (document 02, No. 10): each refusal, each class that is named at 6
    steps, each that is named at 14 steps and not at 6, and none at either."""
    refused = [((number, 0), (number, 0)) for number in (3, 5, 6, 7)]
    accepted = [((0, first), (0, last)) for last in (0, 1, 2, 3, ref.NO_CLASS) for first in sorted({last, ref.NO_CLASS})]
    wanted = dict.fromkeys(refused + accepted, count)
    while any(wanted.values()):
        reading = dice.pick((near_an_edge, admitted, lambda dice: near_locus(dice, 60_000), out_of_range))(dice)
        found = outcome(reading, 6), outcome(reading, 14)
        if wanted[found]:
            wanted[found] -= 1
            yield from (as_line(*reading, *steps) for steps in ((), (5,), (6,), (7,), (14,)))


SECTIONS = (listing_lines, digit_counts, leading_zeros, range_ends, spacing, other_bytes, lengths, duv_values,
            hard_readings, two_numbers, plain_readings)


def text_input():
    """All lines; the last has no newline."""
    lines = [line for section in SECTIONS for line in section(Dice(section.__name__))]
    return b"\n".join(lines + [b"255910 349510 0"])
