"""The lines `first` and `compare ROOM`, and what is expected of them."""

import struct
from functools import lru_cache

import core_cases
import file_differences
from record_lines import FIRST_LINE

KINDS = (FIRST_LINE, "compare")
MOST_LISTED = 115_264  # numbers that the program of crates/vectors has room for; two files of 3,600 records take 115,200 at the most


def compare_line(room):
    assert 0 <= room <= MOST_LISTED
    return "compare %d" % room


@lru_cache(maxsize=None)
def number_pattern(room):
    """What a target of entries holds at first."""
    return tuple(7 * i + 3 for i in range(room))


@lru_cache(maxsize=2000)
def checksum(numbers):
    """The checksum of `points` over a target of entries: of the 64 bits of each number the lower 32, and then the upper 32."""
    bits = struct.pack("<%dq" % len(numbers), *numbers)
    return core_cases.checksum(struct.unpack("<%dI" % (2 * len(numbers)), bits))


def compared(first, second, room):
    which, refusal, count, target = file_differences.compare_into(number_pattern(room), first, second)
    return which, refusal, count, checksum(target)


def expected(line, held):
    """What is expected of a line after which these files are held."""
    kind, *fields = line.split()
    if kind == FIRST_LINE:
        return "%d" % len(held.first)
    return " ".join(map(str, compared(held.first, held.file, *map(int, fields))))
