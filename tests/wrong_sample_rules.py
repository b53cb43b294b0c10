"""Wrong rules of spectral samples for check_wrong_rules.py: near misses that document 02's No. 1 leaves room for."""

from fractions import Fraction
from math import ceil

import reference as ref


def limits_before_lengths(samples, tables):
    ref.check_limits(samples, tables)
    ref.check_lengths(samples, tables)


def one_list_after_the_other(samples, tables):
    for count in range(len(tables) + 1):
        ref.check_lengths(samples, tables[:count])
        ref.check_limits(samples, tables[:count])


def dark_before_the_limits(samples, tables):
    ref.check_lengths(samples, tables)
    if ref.sum_of_products(samples, tables[1]) == 0:
        raise ref.Refused(ref.TOO_DARK)
    ref.check_limits(samples, tables)


def lists_before_the_edges(kind, args, edges, allowance, answer=ref.answer):
    given = answer(kind, args, ref.TEXT_EDGES, allowance)
    return given if given.refusal in (ref.BAD_LENGTHS, ref.SAMPLE_TOO_LARGE) else answer(kind, args, edges, allowance)


def empty_lists_taken(samples, tables, check=ref.check_lengths):
    if samples or any(tables):
        check(samples, tables)


def tables_cut_to_the_samples(samples, tables, check=ref.check_lengths):
    check(samples, [table[:len(samples)] for table in tables])


def only_the_samples_length(samples, tables, check=ref.check_lengths):
    check(samples, ())


def without_table(check, at):
    """A check of the lists that does not look at one of the tables."""
    return lambda samples, tables: check(samples, [table for k, table in enumerate(tables) if k != at])


def samples_without_limit(samples, tables, check=ref.check_limits):
    check((), tables)


def last_number_not_looked_at(samples, tables, check=ref.check_limits):
    check(samples[:-1], [table[:-1] for table in tables])


def numbers_beside_zeros_not_looked_at(samples, tables, check=ref.check_limits):
    counted = [row for row in zip(samples, *tables) if row[0] and any(row[1:])]
    kept, *others = zip(*counted) if counted else [()]
    check(kept, others)


def last_sample_left_out(samples, table, added=ref.sum_of_products):
    return added(samples[:-1], table)


def first_sample_left_out(samples, table, added=ref.sum_of_products):
    return added(samples[1:], table[1:])


def products_of_32_bits(samples, table):
    return sum(sample * number % 2**32 for sample, number in zip(samples, table))


def x_and_z_swapped(sums, convert=ref.convert_sums):
    return convert(sums[::-1])


def dark_before_the_division(sums):
    if sums[1] == 0:
        raise ref.Refused(ref.TOO_DARK)
    return ref.xyz_rule(*ref.divided(sums))


def dark_as_for_floats(sums, convert=ref.convert_sums):
    if ref.divided(sums)[1] < ref.DARK:
        raise ref.Refused(ref.TOO_DARK)
    return convert(sums)


def largest_of_x_and_y(sums, power=ref.least_power):
    return power(sums[:2])


def largest_of_y_and_z(sums, power=ref.least_power):
    return power(sums[1:])


def largest_of_x_and_z(sums, power=ref.least_power):
    return power(sums[::2])


def power_of_all_sums_together(sums, power=ref.least_power):
    return power([sum(sums)])


def at_least_halved(sums, power=ref.least_power):
    return max(2, power(sums))


def each_sum_by_its_own_power(sums):
    return [total // ref.least_power([total]) for total in sums]


def quotients_to_the_nearest(sums):
    return [ref.rounded(Fraction(total, ref.least_power(sums))) for total in sums]


def quotients_rounded_up(sums):
    return [ceil(Fraction(total, ref.least_power(sums))) for total in sums]


WRONG_SAMPLE_RULES = (
    ("answer", lists_before_the_edges),
    ("check_lists", limits_before_lengths),
    ("check_lists", one_list_after_the_other),
    ("check_lists", dark_before_the_limits),
    ("check_lengths", empty_lists_taken),
    ("check_lengths", tables_cut_to_the_samples),
    ("check_lengths", only_the_samples_length),
    ("check_lengths", without_table(ref.check_lengths, 0), "any length of x_bar"),
    ("check_lengths", without_table(ref.check_lengths, 1), "any length of y_bar"),
    ("check_lengths", without_table(ref.check_lengths, 2), "any length of z_bar"),
    ("MOST_SAMPLES", 470),
    ("MOST_SAMPLES", 472),
    ("check_limits", samples_without_limit),
    ("check_limits", without_table(ref.check_limits, 0), "any number in x_bar"),
    ("check_limits", without_table(ref.check_limits, 1), "any number in y_bar"),
    ("check_limits", without_table(ref.check_limits, 2), "any number in z_bar"),
    ("check_limits", last_number_not_looked_at),
    ("check_limits", numbers_beside_zeros_not_looked_at),
    ("SAMPLE_LIMIT", ref.SAMPLE_LIMIT - 1),
    ("SAMPLE_LIMIT", ref.SAMPLE_LIMIT + 1),
    ("TABLE_LIMIT", ref.TABLE_LIMIT - 1),
    ("TABLE_LIMIT", ref.TABLE_LIMIT + 1),
    ("sum_of_products", last_sample_left_out),
    ("sum_of_products", first_sample_left_out),
    ("sum_of_products", products_of_32_bits),
    ("convert_sums", x_and_z_swapped),
    ("convert_sums", dark_before_the_division),
    ("convert_sums", dark_as_for_floats),
    ("SUM_BOUND", 2**33, "the largest sum left under 2^33"),
    ("SUM_BOUND", 2**32 + 1, "the largest sum left at 2^32"),
    ("SUM_BOUND", 2**32 - 1, "the largest sum left under 2^32 - 1"),
    ("SUM_BOUND", 2**31, "the largest sum left under 2^31"),
    ("SUM_BOUND", 2**64, "no division"),
    ("least_power", largest_of_x_and_y),
    ("least_power", largest_of_y_and_z),
    ("least_power", largest_of_x_and_z),
    ("least_power", power_of_all_sums_together),
    ("least_power", at_least_halved),
    ("divided", each_sum_by_its_own_power),
    ("divided", quotients_to_the_nearest),
    ("divided", quotients_rounded_up),
)
