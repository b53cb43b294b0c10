"""The four lists of a spectral reading: as the vectors write and hold them, and as lists made to given sums."""

from itertools import chain, groupby, repeat
from typing import NamedTuple

import reference as ref

COARSE, FINE = 4096, 1


class Lists(NamedTuple):
    """The samples and the tables x_bar, y_bar, z_bar, by the letters of the `list` lines; at first all are empty."""

    s: tuple = ()
    x: tuple = ()
    y: tuple = ()
    z: tuple = ()


# --- As lines ---------------------------------------------------------------------------------------------------------


def run_text(number, count):
    """Equal numbers in a row: NxK for three or more."""
    return "%dx%d" % (number, count) if count > 2 else " ".join([str(number)] * count)


def run_texts(numbers):
    """The fields of a list: one for each of its runs."""
    return [run_text(number, len(list(equal))) for number, equal in groupby(numbers)]


def list_line(letter, numbers):
    return " ".join(["list", letter, *run_texts(numbers)])


def changes(held, wanted):
    """The lines after which the wanted lists are held."""
    return [list_line(letter, getattr(wanted, letter)) for letter in Lists._fields if getattr(wanted, letter) != getattr(held, letter)]


def run_of(field):
    number, _, count = field.partition("x")
    return repeat(int(number), int(count or 1))


def numbers_of(fields):
    """The numbers that the fields of a list write."""
    return tuple(chain.from_iterable(map(run_of, fields)))


def held_after(line, held):
    """The lists held after a line: only `list LETTER NUMBERS..` replaces one."""
    if not line.startswith("list "):
        return held
    _, letter, *fields = line.split()
    return held._replace(**{letter: numbers_of(fields)})


# --- To given sums ----------------------------------------------------------------------------------------------------


def flat(length, number=1000):
    """Four lists of one number: X, Y and Z are equal."""
    return Lists(*((number,) * length for _ in Lists._fields))


def with_number(lists, letter, at, number):
    """The lists with one number of one list replaced."""
    numbers = list(getattr(lists, letter))
    numbers[at] = number
    return lists._replace(**{letter: tuple(numbers)})


def spread(total, count):
    """So many table numbers that add up to the total, the first of them as large as they may be."""
    full, rest = divmod(total, ref.TABLE_LIMIT)
    return ((ref.TABLE_LIMIT,) * full + (rest,) + (0,) * count)[:count]


def with_sums(sums):
    """Lists whose X, Y and Z are exactly these: the largest samples carry most of each, samples of 4096 and 1 the rest."""
    most, rests = zip(*(divmod(total, ref.SAMPLE_LIMIT) for total in sums))
    count = max(most) // ref.TABLE_LIMIT + 1
    assert min(sums) >= 0 and count + 2 <= ref.MOST_SAMPLES
    tables = ((*spread(total, count), *divmod(rest, COARSE)) for total, rest in zip(most, rests))
    return Lists((ref.SAMPLE_LIMIT,) * count + (COARSE, FINE), *tables)


def shifted(lists, dice):
    """The same sums with the lists turned round by some places and, in one case of three, with samples that no table counts."""
    spare = ref.MOST_SAMPLES - len(lists.s)
    more = dice.between(0, min(spare, 60)) if dice.below(3) == 0 else 0
    longer = Lists(lists.s + (dice.between(1, ref.SAMPLE_LIMIT),) * more, *(table + (0,) * more for table in lists[1:]))
    turn = dice.below(len(longer.s))
    return Lists(*(numbers[turn:] + numbers[:turn] for numbers in longer))


def ratios(reading):
    """Whole numbers X, Y, Z with X + 15Y + 3Z = 12,000,000 and with exactly this u and v; Z may be below zero."""
    u, v = reading
    return 3 * u, 2 * v, 4 * ref.MICRO - u - 10 * v


def has_sums(reading):
    """Whether X, Y and Z, none of them below zero, can have this u and v."""
    return min(ratios(reading)) >= 0


def sums_to(reading, total, picked=max):
    """X, Y, Z in the reading's ratios, rounded down; the largest of them, or the one that is picked, is the total."""
    parts = ratios(reading)
    return [part * total // picked(parts) for part in parts]
