"""Wrong rules of the root for check_wrong_rules.py: mistakes that document 02's No. 5 leaves room for."""

from ctypes import c_float
from math import isqrt, sqrt
from operator import add, ge, gt, sub

import reference as ref

EVERY_BIT = range(31, -1, -1)
HARD_ROUNDS = (31, 30, 16, 15, 1, 0)  # by their bit: the first two, two in the middle and the last two


# --- By the bits that are tried ---------------------------------------------------------------------------------------


def bit_by_bit(n, bits=EVERY_BIT, reaches=ge):
    """The root from its highest bit to its lowest: a bit is taken where n reaches the square of what there then is."""
    root = 0
    for bit in bits:
        tried = root + (1 << bit)
        root = tried if reaches(n, tried * tried) else root
    return root


def strict_comparison(n):
    return bit_by_bit(n, reaches=gt)


def strict_in_the_round_of(bit):
    """A root that is one too small for a square which is reached exactly in the round of one bit."""
    def root(n, right=ref.root):
        d = right(n)
        return d - 1 if d * d == n and d & -d == 1 << bit else d
    return root


def without(bit):
    """A root of which one bit is not tried."""
    bits = [each for each in EVERY_BIT if each != bit]
    return lambda n: bit_by_bit(n, bits)


def sixteen_bits_for_every_number(n):
    return bit_by_bit(n, range(15, -1, -1))


def few_bits_up_to(largest, count):
    """A root that tries only so many bits for numbers up to a limit."""
    return lambda n: bit_by_bit(n, range(count - 1, -1, -1) if n <= largest else EVERY_BIT)


def half_as_many_bits_as_the_number_rounded_down(n):
    return bit_by_bit(n, range(n.bit_length() // 2 - 1, -1, -1))


# --- By what is left of the number ------------------------------------------------------------------------------------


def by_what_is_left(n, square=1 << 62, grown=add, left_after=sub):
    """The root by rounds that take away, where it is left, what its square grows by: the bit's, and twice the root times the bit."""
    twice, left = 0, n
    while square:
        growth, twice = grown(twice, square), twice >> 1
        if left >= growth:
            twice, left = twice + square, left_after(left, growth)
        square >>= 2
    return twice


def first_square_the_highest_power_of_two(n):
    return by_what_is_left(n, square=1 << n.bit_length() >> 1)


def root_not_doubled(n):
    return by_what_is_left(n, grown=lambda twice, square: (twice >> 1) + square)


def square_of_the_bit_left_out(n):
    return by_what_is_left(n, grown=lambda twice, square: twice)


def growth_of_32_bits(n):
    return by_what_is_left(n, grown=lambda twice, square: (twice + square) % 2**32)


def nothing_taken_away(n):
    return by_what_is_left(n, left_after=lambda left, growth: left)


def only_32_bits_left(n):
    return by_what_is_left(n, left_after=lambda left, growth: (left - growth) % 2**32)


def last_round_with_what_the_one_before_had(n):
    upper, left = 2 * isqrt(n >> 2), n - (4 * isqrt(n >> 4)) ** 2
    return upper + (left >= 2 * upper + 1)


# --- Another rounding, and fewer bits ---------------------------------------------------------------------------------


def rounded_to_nearest(n):
    return isqrt(4 * n) + 1 >> 1


def rounded_up(n):
    return isqrt(n - 1) + 1 if n else 0


def one_too_many(n, right=ref.root):
    return right(n) + 1


def one_too_few(n, right=ref.root):
    return max(right(n) - 1, 0)


def in_doubles(n):
    return int(sqrt(n))


def in_single_precision(n):
    return int(c_float(sqrt(c_float(n).value)).value)


def number_kept_to(bits):
    """The root of a number's lowest bits."""
    return lambda n, right=ref.root: right(n % 2**bits)


def root_kept_to(bits):
    """The lowest bits of a root."""
    return lambda n, right=ref.root: right(n) % 2**bits


def numbers_from_2_to_the_63_below_zero(n, right=ref.root):
    return right(n) if n < 2**63 else 0


# --- Newton's steps ---------------------------------------------------------------------------------------------------


def newton(n):
    """Newton's steps from a power of two down to the root."""
    guesses = [1 << (n.bit_length() + 1) // 2]
    while n < guesses[-1] ** 2:
        guesses.append((guesses[-1] + n // guesses[-1]) // 2)
    return guesses


def newton_one_step_short(n):
    return newton(n)[-2:][0]


def newton_in_four_steps(n):
    return newton(n)[:5][-1]


def newton_until_a_step_is_one(n):
    guesses = newton(n)
    return next((after for before, after in zip(guesses, guesses[1:]) if before - after == 1), guesses[-1])


WRONG_ROOT_RULES = (
    ("root", strict_comparison),
    *(("root", strict_in_the_round_of(bit), "strict in the round of bit %d" % bit) for bit in HARD_ROUNDS),
    *(("root", without(bit), "bit %d not tried" % bit) for bit in HARD_ROUNDS),
    ("root", sixteen_bits_for_every_number),
    *(("root", few_bits_up_to(4**bits, bits), "%d bits tried up to 2^%d" % (bits, 2 * bits)) for bits in (8, 16, 24)),
    ("root", few_bits_up_to(2**33 - 1, 16), "16 bits tried under 2^33"),
    *(("root", wrong) for wrong in (
        half_as_many_bits_as_the_number_rounded_down, first_square_the_highest_power_of_two, root_not_doubled, square_of_the_bit_left_out,
        growth_of_32_bits, nothing_taken_away, only_32_bits_left, last_round_with_what_the_one_before_had, rounded_to_nearest,
        rounded_up, one_too_many, one_too_few, in_doubles, in_single_precision)),
    *(("root", number_kept_to(bits), "the number kept to %d bits" % bits) for bits in (32, 63)),
    *(("root", root_kept_to(bits), "the root kept to %d bits" % bits) for bits in (16, 31)),
    ("root", numbers_from_2_to_the_63_below_zero),
    *(("root", wrong) for wrong in (newton_one_step_short, newton_in_four_steps, newton_until_a_step_is_one)),
)
