"""The C library's `ck_compare_files`, asked in the second program's terms."""

import ctypes

import c_library
from compare_lines import number_pattern
from record_calls import GUARD, expect, stored


class CCompared(ctypes.Structure):
    """ck_compared"""

    _fields_ = [("count", ctypes.c_size_t), ("refusal", ctypes.c_uint8), ("file", ctypes.c_uint8)]


FILE = ctypes.c_char_p, ctypes.c_size_t
TARGET = ctypes.POINTER(ctypes.c_int64), ctypes.c_size_t


def function():
    return c_library.typed("ck_compare_files", (*FILE, *FILE, *TARGET), CCompared)


def c_compare(first, second, room):
    """(which file is refused, refusal, count), and the target with its guard after a comparison over the pattern; both files must stay
    as they are."""
    files = [ctypes.create_string_buffer(file, len(file)) for file in (first, second)]
    target = stored(ctypes.c_int64, number_pattern(room + GUARD))
    found = function()(files[0], len(first), files[1], len(second), target, room)
    for name, given, file in zip(("first", "second"), files, (first, second)):
        expect("the %s file after ck_compare_files" % name, given.raw, file)
    return (found.file, found.refusal, found.count), tuple(target)
