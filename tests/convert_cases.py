"""Vectors for the conversions: `uv`, `uvp`, `xy`, `xyz` (floats by their bits) and `whole`."""

from fractions import Fraction
from itertools import product
from math import gcd

import reference as ref
from dice import Dice
from floats import NANS, nearest_f32
from hard_floats import LIMIT_4096, MINUS_ONE, ONE, SPECIALS, TWO, hard_floats

PAIRS = ("uv", "uvp", "xy")
QUARTER = nearest_f32(Fraction(1, 4))
HUNDRED = nearest_f32(100)
LAST_DARK, FIRST_LIGHT = 0x3F7FFFAC, 0x3F7FFFAD  # Y that rounds to 99,999 and to 100,000
NEXT_BELOW_1, NEXT_BELOW_4096 = ONE - 1, LIMIT_4096 - 1


def hex_line(kind, *patterns):
    return " ".join([kind] + ["%08x" % bits for bits in patterns])


def hard_pairs(dice):
    """Both floats hard; every hard float stands once in each place of each kind."""
    hard = hard_floats(ref.COORDINATE, dice)
    for kind in PAIRS:
        for k, bits in enumerate(hard):
            yield hex_line(kind, bits, hard[(7 * k + 3) % len(hard)])


def hard_triples(dice):
    """Hard X, Y and Z over bright and dark Y; 3f7fffac and 3f7fffad are the two sides of refusal 4."""
    hard = hard_floats(ref.TRISTIMULUS, dice)
    for k, bits in enumerate(hard):
        yield hex_line("xyz", bits, HUNDRED, hard[(5 * k + 1) % len(hard)])
        yield hex_line("xyz", QUARTER, bits, hard[(3 * k + 2) % len(hard)])
    for y in range(LAST_DARK - 3, FIRST_LIGHT + 4):
        yield hex_line("xyz", QUARTER, y, HUNDRED)


def refusal_orders(dice):
    """Every special beside every special: 2 goes over the whole reading before 3, and 3 before 4."""
    coordinates = SPECIALS + (ONE, TWO, NEXT_BELOW_1, QUARTER)
    for kind in PAIRS:
        for patterns in product(coordinates, repeat=2):
            yield hex_line(kind, *patterns)
    tristimulus = SPECIALS[1:7] + (LIMIT_4096, NEXT_BELOW_4096, LAST_DARK, FIRST_LIGHT, HUNDRED)
    for patterns in product(tristimulus, repeat=3):
        yield hex_line("xyz", *patterns)


def nan_payloads(dice):
    """Quiet and signalling NaNs of both signs, each in each place, beside a float that is out of range."""
    for nan in NANS:
        for kind in PAIRS:
            yield hex_line(kind, nan, TWO)
            yield hex_line(kind, MINUS_ONE, nan)
        for place in range(3):
            patterns = [LIMIT_4096] * 3
            patterns[place] = nan
            yield hex_line("xyz", *patterns)


def quotient_remainders(numerators, n):
    """How far each quotient stands from a half, in units of 1/(2n)."""
    return [abs(2 * (numerator % n) - n) for numerator in numerators]


def xy_halves(dice, count):
    """xy whose u or v is a quotient that ends in exactly one half."""
    found = []
    while len(found) < count:
        h = 256 * 5 ** dice.between(2, 5) * dice.pick((1, 3, 5, 7, 9, 11, 13, 15))  # half of n
        if not 600_000 <= h <= 6_000_000:
            continue
        x = dice.below(1000) * h // gcd(h, 4 * ref.MICRO * 64) % 1_000_000
        y, rest = divmod(h - 1_500_000 + x, 6)
        if rest or not 0 <= y < 1_000_000:
            continue
        if 0 in quotient_remainders((4 * x * ref.MICRO, 6 * y * ref.MICRO), 2 * h):
            found.append((nearest_f32(Fraction(x, ref.MICRO)), nearest_f32(Fraction(y, ref.MICRO))))
    return (hex_line("xy", *patterns) for patterns in found)


def xyz_halves(dice, count):
    """XYZ whose u is exactly a half: X = odd * n / 8,000,000 with n = X + 15Y + 3Z."""
    found = []
    while len(found) < count:
        n = 8_000_000 * dice.between(1, 4)
        x = n // 8_000_000 * (2 * dice.below(900_000) + 1)
        y = dice.between(100_000, 500_000)
        z, rest = divmod(n - x - 15 * y, 3)
        if rest or z < 0:
            continue
        assert quotient_remainders((4 * x * ref.MICRO,), n) == [0]
        found.append([nearest_f32(Fraction(part, 100_000)) for part in (x, y, z)])
        assert [ref.whole_number(bits, 100_000) for bits in found[-1]] == [x, y, z]
    return (hex_line("xyz", *patterns) for patterns in found)


def near_halves(dice, count):
    """xy and XYZ whose quotient is the closest to a half of 200 random ones: one unit off in the numerator shows."""
    for _ in range(count):
        pairs = [(dice.below(1_000_000), dice.below(1_000_000)) for _ in range(200)]
        x, y = min(pairs, key=lambda p: quotient_remainders((4 * p[0] * ref.MICRO,), 3 * ref.MICRO - 2 * p[0] + 12 * p[1]))
        yield hex_line("xy", nearest_f32(Fraction(x, ref.MICRO)), nearest_f32(Fraction(y, ref.MICRO)))
        triples = [[dice.between(100_000, 16_000_000) for _ in range(3)] for _ in range(200)]
        best = min(triples, key=lambda t: quotient_remainders((6 * t[1] * ref.MICRO,), t[0] + 15 * t[1] + 3 * t[2]))
        yield hex_line("xyz", *(nearest_f32(Fraction(part, 100_000)) for part in best))


def random_patterns(dice, count):
    """Any bits at all, then bits in range."""
    for kind, places in (("uv", 2), ("uvp", 2), ("xy", 2), ("xyz", 3)):
        top = LIMIT_4096 if kind == "xyz" else ONE
        for _ in range(count):
            yield hex_line(kind, *(dice.getrandbits(32) for _ in range(places)))
            yield hex_line(kind, *(dice.below(top) for _ in range(places)))
            yield hex_line(kind, *(dice.between(nearest_f32(Fraction(1, 1000)), top) for _ in range(places)))


def ordinary_readings(dice, count):
    """Everyday values: no refusal, every quotient rounded."""
    for _ in range(count):
        for kind in PAIRS:
            yield hex_line(kind, *(nearest_f32(Fraction(dice.below(1_000_000), ref.MICRO)) for _ in range(2)))
        yield hex_line("xyz", *(nearest_f32(Fraction(dice.between(1000, 409_599), 100)) for _ in range(3)))


def whole_readings(dice, count):
    """The whole-number entry at both sides of 4,000,000 and at the ends of 32 bits."""
    ends = (0, 1, 999_999, 1_000_000, 3_999_999, 4_000_000, 4_000_001, 2**31, 2**32 - 1)
    for u, v in product(ends, repeat=2):
        yield "whole %d %d" % (u, v)
    for _ in range(count):
        yield "whole %d %d" % (dice.below(8_000_000), dice.below(8_000_000))
        yield "whole %d %d" % (dice.getrandbits(32), dice.getrandbits(22))


def lines():
    dice = Dice("conversions")
    for section in (hard_pairs(dice), hard_triples(dice), refusal_orders(dice), nan_payloads(dice), xy_halves(dice, 150),
                    xyz_halves(dice, 150), near_halves(dice, 100), random_patterns(dice, 70),
                    ordinary_readings(dice, 100), whole_readings(dice, 100)):
        yield from section


def converted_line(kind, args):
    """`0 u v`, or the refusal's number alone."""
    found = ref.converted(kind, args)
    return "%d" % found if isinstance(found, int) else "0 %d %d" % found


def expected(line):
    kind, *fields = line.split()
    return converted_line(kind, [int(field, 10 if kind == "whole" else 16) for field in fields])
