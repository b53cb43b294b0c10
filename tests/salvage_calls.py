"""The C library's `ck_salvage`, asked in the second program's terms."""

import ctypes

import c_library
from record_calls import GUARD, expect, stored
from record_lines import byte_pattern
from salvage_lines import list_pattern


class CSalvaged(ctypes.Structure):
    """ck_salvaged"""

    _fields_ = [("kept", ctypes.c_size_t), ("dropped", ctypes.c_size_t), ("leftover", ctypes.c_size_t), ("refusal", ctypes.c_uint8)]


BYTES = ctypes.c_char_p, ctypes.c_size_t
EDGES = ctypes.POINTER(ctypes.c_uint32), ctypes.c_size_t
TARGETS = ctypes.POINTER(ctypes.c_uint8), ctypes.c_size_t, ctypes.POINTER(ctypes.c_uint64), ctypes.c_size_t


def function():
    return c_library.typed("ck_salvage", (*BYTES, ctypes.c_size_t, *EDGES, *TARGETS), CSalvaged)


def c_salvage(data, length, edges, file_room, list_room):
    """(refusal, kept, dropped, left over), and both targets with their guards after a salvage over their patterns; the bytes and the edges
    must stay as they are."""
    given, lent = ctypes.create_string_buffer(data, len(data)), stored(ctypes.c_uint32, edges)
    file, listed = stored(ctypes.c_uint8, byte_pattern(file_room + GUARD)), stored(ctypes.c_uint64, list_pattern(list_room + GUARD))
    found = function()(given, len(data), length, lent, len(edges), file, file_room, listed, list_room)
    expect("the bytes after ck_salvage", given.raw, data)
    expect("the edges after ck_salvage", tuple(lent), tuple(edges))
    return (found.refusal, found.kept, found.dropped, found.leftover), bytes(file), tuple(listed)
