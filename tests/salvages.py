"""Salvage after a full disk, No. 9 of document 02: the second program's part for it.

Every whole record is put beside the answer that reference.py gives to its u and v with its own steps as the allowance. Numbers of
records count from 0. A refusal is given first, 0 for none."""

from functools import lru_cache
from typing import NamedTuple

import reference
from record_files import BAD_RECORD_LENGTH, MOST_RECORDS, NO_ROOM, RECORDS, TOO_MANY_RECORDS, WRITTEN, file_of, over, record_at
from reference import BAD_EDGES, edges_valid

MOST_KEPT = MOST_RECORDS[WRITTEN]


class Salvaged(NamedTuple):
    kept: tuple = ()  # the records of the new file
    dropped: tuple = ()  # the numbers of the other records
    leftover: int = 0  # the bytes of no whole record


# --- The records ------------------------------------------------------------------------------------------------------


def whole_records(data, length):
    """The records of a length from the first byte on."""
    return [record_at(data, length, number) for number in range(len(data) // length)]


def left_over(data, length):
    """How many bytes stand after the last whole record."""
    return len(data) % length


@lru_cache(maxsize=None)
def answered(u, v, allowance, edges):
    """The whole answer to a reading in micro."""
    return reference.answer("whole", (u, v), edges, allowance)


def is_kept(record, edges):
    """Whether the search accepts a record's reading and answers all its fields at its step count."""
    u, v, *fields = record
    *_, steps, _ = fields
    return answered(u, v, steps, edges) == (0, *fields)


def parted(records, edges):
    """(the records that are kept, the numbers of the others)."""
    judged = [(number, record, is_kept(record, edges)) for number, record in enumerate(records)]
    return tuple(record for _, record, kept in judged if kept), tuple(number for number, _, kept in judged if not kept)


# --- A salvage --------------------------------------------------------------------------------------------------------


def has_room(kept, dropped, file_room, list_room):
    """Whether so many bytes are enough for the new file, and so many numbers for the list."""
    return len(file_of(kept)) <= file_room and len(dropped) <= list_room


def salvage(data, length, edges, file_room, list_room):
    """(refusal, what is salvaged) for targets of so many bytes and so many numbers."""
    if not edges_valid(edges):
        return BAD_EDGES, Salvaged()
    if length not in RECORDS:
        return BAD_RECORD_LENGTH, Salvaged()
    kept, dropped = parted(whole_records(data, length), edges)
    if len(kept) > MOST_KEPT:
        return TOO_MANY_RECORDS, Salvaged()
    if not has_room(kept, dropped, file_room, list_room):
        return NO_ROOM, Salvaged()
    return 0, Salvaged(kept, dropped, left_over(data, length))


def salvage_into(file, listed, data, length, edges):
    """(refusal, how many records are kept, how many are dropped, how many bytes are left over), and both targets afterwards."""
    refusal, (kept, dropped, leftover) = salvage(data, length, edges, len(file), len(listed))
    counts = refusal, len(kept), len(dropped), leftover
    return counts, over(file, b"" if refusal else file_of(kept)), over(listed, dropped)
