"""The lines `salvage LENGTH ROOM ROOM EDGES..`, and what is expected of them."""

import struct
from functools import lru_cache

import core_cases
import record_lines
import salvages
from record_lines import MOST_WRITTEN, byte_pattern

KINDS = ("salvage",)
MOST_DROPPED = 72_896  # numbers that the program of crates/vectors has room for; the file held has 72,817 records of 18 bytes at the most


def salvage_line(length, file_room, list_room, edges):
    assert 0 <= length < 2**64 and 0 <= file_room <= MOST_WRITTEN and 0 <= list_room <= MOST_DROPPED
    return " ".join(map(str, ("salvage", length, file_room, list_room, *edges)))


@lru_cache(maxsize=None)
def list_pattern(room):
    """What a list of dropped records holds at first: the pattern of other targets, with all of the upper 32 bits set."""
    return tuple(7 * i + 3 | 0xFFFF_FFFF_0000_0000 for i in range(room))


@lru_cache(maxsize=2000)
def checksum(numbers):
    """The checksum of `points` over a list: of the 64 bits of each number the lower 32, and then the upper 32."""
    bits = struct.pack("<%dQ" % len(numbers), *numbers)
    return core_cases.checksum(struct.unpack("<%dI" % (2 * len(numbers)), bits))


def salvaged(data, length, file_room, list_room, *edges):
    counts, file, dropped = salvages.salvage_into(byte_pattern(file_room), list_pattern(list_room), data, length, edges)
    return *counts, record_lines.checksum(file, 8), checksum(dropped)


def expected(line, held):
    """What is expected of a line after which this file is held."""
    return " ".join(map(str, salvaged(held.file, *map(int, line.split()[1:]))))
