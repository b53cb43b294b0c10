"""What can be kept of a broken record file. docs/FILES.md tells what a salvage can know and what it cannot.

`salvage` works on memory, as the functions of record files do: it takes the bytes of the broken file, gives those of a new one, and does
no input or output."""

import ctypes
from typing import NamedTuple

from ._library import edge_list, whole
from .readings import EDGES, Refusal
from .records import EARLIER_RECORD_BYTES, MOST_WRITTEN, RECORD_BYTES, TRAILER_BYTES, asked, byte_count, room_of

RECORD_LENGTHS = RECORD_BYTES, EARLIER_RECORD_BYTES  # that a salvage takes


class Salvaged(NamedTuple):
    """What was kept of a broken file, and what was not.

    >>> Salvaged(file=bytes.fromhex("1400 0000 0000 0000"), dropped=[0, 1], leftover=7).kept
    0
    """

    file: bytes
    dropped: list[int]
    leftover: int

    @property
    def kept(self):
        """How many records the new file has; with those dropped, as many as were whole."""
        return (len(self.file) - TRAILER_BYTES) // RECORD_BYTES


for _name, _text in {
        "file": "the bytes of a new record file with the kept records in their order, 20 bytes for each, and a trailer",
        "dropped": "the numbers of the other records, counted from 0 among those that are whole, rising",
        "leftover": "how many bytes come after the last whole record; of a file that is not broken, by its own record length, these are the 8 of its trailer"}.items():
    getattr(Salvaged, _name).__doc__ = _text  # what help(Salvaged) shows


def salvage(data, record_length, edges=EDGES, file_room=None, list_room=None):
    """What can be kept of a broken file, given by its bytes or any other bytes-like object, however many: a `Salvaged`. From the first byte
    on they are taken as records of `record_length` bytes, 20 or, in a file from before, 18; whoever does not know it tries both and takes what
    keeps more, as the command `salvage` does.

    >>> from cradlekeel import Record, read_micro, read_records, salvage, to_bytes
    >>> good = to_bytes(Record.of(219300, 327100, read_micro(219300, 327100, steps=steps)) for steps in (0, 2, 14))
    >>> salvaged = salvage(good[:50], 20)
    >>> salvaged.kept, salvaged.dropped, salvaged.leftover
    (2, [], 10)
    >>> read_records(salvaged.file) == read_records(good)[:2]
    True

    A record is kept exactly when it is what `read_micro` answers now to its u and v, with these edges and as many steps as it says; every
    other one is dropped, whether it is damaged or was made with other edges or by a Cradlekeel whose answers were others.

    >>> damaged = bytearray(good)
    >>> damaged[34] ^= 1  # the lowest byte of Duv in record 1
    >>> salvage(damaged, 20).dropped
    [1]
    >>> salvage(good, 20, edges=(1600, 4500, 20001)).dropped
    [1, 2]

    Refused with 1 for edges that break their rule, with 14 for another record length, with 11 where over 3,200 records would be kept, and
    with 12 where the new file has more than `file_room` bytes or more records than `list_room` are dropped. Without these two there is
    always room.

    >>> salvage(good, 20, file_room=67)
    Traceback (most recent call last):
        ...
    cradlekeel.Refusal: refusal 12: the room is too small for the file, its records, the differences or the dropped numbers
    """
    called, length = "the broken file", whole("record_length", record_length, ctypes.c_size_t)
    records = byte_count(called, data) // length if length in RECORD_LENGTHS else 0
    file_room = room_of("file_room", file_room, RECORD_BYTES * min(records, MOST_WRITTEN) + TRAILER_BYTES)
    list_room = room_of("list_room", list_room, records)
    file, dropped = (ctypes.c_uint8 * file_room)(), (ctypes.c_uint64 * list_room)()
    found = asked("ck_salvage", {called: data}, length, *edge_list(edges), file, file_room, dropped, list_room)
    if found.refusal:
        raise Refusal(found.refusal)
    return Salvaged(bytes(file)[:RECORD_BYTES * found.kept + TRAILER_BYTES], dropped[:found.dropped], found.leftover)
