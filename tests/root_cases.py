"""Vectors for the root behind Duv (document 02, No. 5): `root N` of any N of 64 bits."""

from itertools import chain

import reference as ref
from dice import Dice

KINDS = ("root",)
LARGEST = 2**64 - 1
LARGEST_ROOT = 2**32 - 1
ROOT_LENGTHS = range(1, 33)  # in bits
EVERY_NUMBER_TO = 70_000


def with_neighbours(n):
    return n - 1, n, n + 1


def about_square(d):
    """About the smallest number whose root is d, and the largest."""
    return *with_neighbours(d * d), d * d + 2 * d


def of_length(dice, bits):
    """A random number of so many bits, the highest of them 1."""
    return 2 ** (bits - 1) + dice.below(2 ** (bits - 1))


def about_powers():
    for k in range(65):
        yield from with_neighbours(2**k)


def about_squares_of_powers():
    for k in range(33):
        for d in with_neighbours(2**k):
            yield from with_neighbours(d * d)


def largest_numbers():
    """About the square of the largest root, and the last numbers of all."""
    yield from range(LARGEST_ROOT**2 - 4, LARGEST_ROOT**2 + 5)
    yield from range(LARGEST - 8, LARGEST + 1)


def about_squares_by_chance(dice, count):
    for bits in ROOT_LENGTHS:
        for _ in range(count):
            yield from about_square(of_length(dice, bits))


def by_chance(dice, count):
    """Random numbers of every length."""
    for bits in range(1, 65):
        for _ in range(count):
            yield of_length(dice, bits)


def exact_in_each_round(dice):
    """For each length of a root and each lowest bit: a square, of which the round of that bit leaves nothing, and one less."""
    for bits in ROOT_LENGTHS:
        for lowest in range(bits):
            d = of_length(dice, bits - lowest) | 1
            yield from with_neighbours((d << lowest) ** 2)[:2]


def about_patterns(dice):
    """About squares of roots whose bits are all ones, or 1 and 0 in turn, above some bit, and random below it."""
    for bits in ROOT_LENGTHS:
        for pattern in (2**bits - 1, 2 ** (bits + 1) // 3):
            for below in (0, bits // 2, dice.below(bits)):
                yield from about_square((pattern >> below << below) + dice.below(2**below))


def of_one_digit():
    """Numbers of one base-4 digit over and over."""
    for digit in (1, 2, 3):
        yield from (digit * (4**length // 3) for length in ROOT_LENGTHS)


def numbers():
    """All of them; some come twice, and some do not fit 64 bits."""
    dice = Dice("root")
    return chain(range(EVERY_NUMBER_TO + 1), about_powers(), about_squares_of_powers(), largest_numbers(),
                 about_squares_by_chance(dice, 5), by_chance(dice, 10), exact_in_each_round(dice), about_patterns(dice),
                 of_one_digit())


def check_root(n):
    """What the reference expects, by squares: that of the root is no greater than n, and that of the next number is."""
    d = ref.root(n)
    assert d * d <= n < (d + 1) ** 2, (n, d)


def lines():
    for n in dict.fromkeys(numbers()):
        if 0 <= n <= LARGEST:
            check_root(n)
            yield "root %d" % n


def expected(line):
    _, n = line.split()
    return "%d" % ref.root(int(n))
