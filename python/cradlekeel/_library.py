"""The C library: where it stands, its functions as include/cradlekeel.h declares them, and what they take."""

import ctypes
import functools
import operator
import os
import shlex
from pathlib import Path

ROOT = Path(__file__).resolve().parents[2]
_BUILT = "target/lib/libcradlekeel.so"
RECORD_BYTES = 20  # of each record that is written


class LibraryMissing(OSError):
    """The library is not built, or is older than this package."""


class WholeAnswer(ctypes.Structure):
    """`ck_whole` of include/cradlekeel.h."""

    _fields_ = [("place", ctypes.c_uint32), ("low", ctypes.c_uint32), ("high", ctypes.c_uint32), ("duv", ctypes.c_int32),
                ("refusal", ctypes.c_uint8), ("steps", ctypes.c_uint8), ("class_index", ctypes.c_uint8)]


class FloatAnswer(ctypes.Structure):
    """`ck_answer` of include/cradlekeel.h."""

    _fields_ = [("kelvin", ctypes.c_double), ("duv", ctypes.c_double), ("whole", WholeAnswer)]


class CoarseAnswer(ctypes.Structure):
    """`ck_coarse` of include/cradlekeel.h."""

    _fields_ = [("place", ctypes.c_uint32), ("refusal", ctypes.c_uint8)]


class StoredRecord(ctypes.Structure):
    """`ck_record` of include/cradlekeel.h."""

    _fields_ = [("u", ctypes.c_uint32), ("v", ctypes.c_uint32), ("place", ctypes.c_uint16), ("low", ctypes.c_uint16),
                ("high", ctypes.c_uint16), ("duv", ctypes.c_int32), ("steps", ctypes.c_uint8), ("class_index", ctypes.c_uint8)]


class Done(ctypes.Structure):
    """`ck_done` of include/cradlekeel.h."""

    _fields_ = [("count", ctypes.c_size_t), ("refusal", ctypes.c_uint8)]


class Compared(ctypes.Structure):
    """`ck_compared` of include/cradlekeel.h."""

    _fields_ = [("count", ctypes.c_size_t), ("refusal", ctypes.c_uint8), ("file", ctypes.c_uint8)]


class SalvageCounts(ctypes.Structure):
    """`ck_salvaged` of include/cradlekeel.h."""

    _fields_ = [("kept", ctypes.c_size_t), ("dropped", ctypes.c_size_t), ("leftover", ctypes.c_size_t), ("refusal", ctypes.c_uint8)]


class Kept(ctypes.Structure):
    """`ck_kept` of include/cradlekeel.h."""

    _fields_ = [("record", StoredRecord), ("kept", ctypes.c_uint8)]


class StoredLot(ctypes.Structure):
    """`ck_lot` of include/cradlekeel.h."""

    _fields_ = [("record", StoredRecord), ("job", ctypes.c_uint32), ("stamp", ctypes.c_uint16)]


class StoredBoard(ctypes.Structure):
    """`ck_board` of include/cradlekeel.h."""

    _fields_ = [("ours", ctypes.c_size_t), ("count", ctypes.c_size_t), ("lots", StoredLot * 64)]


class ToldByBoard(ctypes.Structure):
    """`ck_told` of include/cradlekeel.h."""

    _fields_ = [("lot", StoredLot), ("stamp", ctypes.c_uint16), ("refusal", ctypes.c_uint8)]


class BoardAnswer(ctypes.Structure):
    """`ck_board_answer` of include/cradlekeel.h."""

    _fields_ = [("board", StoredBoard), ("told", ToldByBoard)]


def _reading(*numbers):
    """What a function takes that answers a reading of these numbers, and what it returns."""
    return [*numbers, *_LIST, ctypes.c_uint32], FloatAnswer


_LIST = [ctypes.POINTER(ctypes.c_uint32), ctypes.c_size_t]
_FILE = [ctypes.c_void_p, ctypes.c_size_t]  # bytes that are only read go over as they are
_TARGET = [ctypes.POINTER(ctypes.c_uint8), ctypes.c_size_t]
_COLUMNS = [part for _, kind in StoredRecord._fields_ for part in (ctypes.POINTER(kind), ctypes.c_size_t)]
_KINDS = {  # the numbers of each kind of reading that is no list
    "uv": 2 * [ctypes.c_float], "uvp": 2 * [ctypes.c_float], "xy": 2 * [ctypes.c_float], "xyz": 3 * [ctypes.c_float],
    "micro": 2 * [ctypes.c_uint32]}
_FUNCTIONS = {
    **{f"ck_read_{kind}": _reading(*numbers) for kind, numbers in _KINDS.items()}, "ck_read_samples": _reading(*4 * _LIST),
    **{f"ck_coarse_{kind}": (numbers, CoarseAnswer) for kind, numbers in _KINDS.items()},
    "ck_write_records": ([*_COLUMNS, *_TARGET], Done), "ck_read_records": ([*_FILE, *_COLUMNS], Done), "ck_check_file": (_FILE, Done),
    "ck_record_at": ([*_FILE, ctypes.c_size_t], StoredRecord), "ck_record_of": ([ctypes.c_uint32, ctypes.c_uint32, WholeAnswer], Kept),
    "ck_compare_files": ([*_FILE, *_FILE, ctypes.POINTER(ctypes.c_int64), ctypes.c_size_t], Compared),
    "ck_salvage": ([*_FILE, ctypes.c_size_t, *_LIST, *_TARGET, ctypes.POINTER(ctypes.c_uint64), ctypes.c_size_t], SalvageCounts),
    "ck_board_load": (2 * _COLUMNS, BoardAnswer), "ck_board_read": ([StoredBoard, ctypes.c_uint8, ctypes.c_size_t], BoardAnswer),
    "ck_board_assign": ([StoredBoard, ctypes.c_uint8, ctypes.c_size_t, ctypes.c_uint16, ctypes.c_uint32], BoardAnswer),
}


@functools.lru_cache(maxsize=None)
def _library():
    named = os.environ.get("CRADLEKEEL_LIBRARY")
    path = Path(named) if named else ROOT / _BUILT
    if not path.is_file():
        raise LibraryMissing(
            f"CRADLEKEEL_LIBRARY names {path}, and there is no such file" if named else
            f"Cradlekeel's library is not built: there is no {path}. Run: {_make_command()}")
    return ctypes.CDLL(str(path.resolve()))  # a name without a slash would be sought in the system's folders


def _make_command():
    return f"make -C {shlex.quote(str(ROOT))} lib"


@functools.lru_cache(maxsize=None)
def c_function(name):
    """The C function `name`, once it knows what it takes and returns. None is taken from a library whose records have another length: it
    has another limit of refusal 5 too, and would misread records without a word. Nor is one for boards taken from a library whose boards
    are one house's."""
    function = _typed(name)
    if (length := _record_length()) != RECORD_BYTES:
        raise _too_old(f"writes records of {length} bytes")
    if name.startswith("ck_board_") and not _has_two_houses():
        raise _too_old("has boards of one house")
    return function


def _typed(name):
    try:
        function = getattr(_library(), name)
    except AttributeError:
        raise _too_old(f"has no function {name}") from None
    function.argtypes, function.restype = _FUNCTIONS[name]
    return function


@functools.lru_cache(maxsize=None)
def _record_length():
    """How long the records are that the library writes: the trailer's first number, in a file of no records."""
    target = (ctypes.c_uint8 * 8)()
    _typed("ck_write_records")(*len(StoredRecord._fields_) * (None, 0), target, len(target))
    return target[0]


@functools.lru_cache(maxsize=None)
def _has_two_houses():
    """Whether the library loads the partner's records too: it does where one such record, of zeros, makes a board of one lot."""
    none, one = ([part for _, kind in StoredRecord._fields_ for part in ((kind * count)(), count)] for count in (0, 1))
    board = _typed("ck_board_load")(*none, *one).board
    return (board.ours, board.count) == (0, 1)


def _too_old(what):
    named = "CRADLEKEEL_LIBRARY names it: name another, or none. To build one, run" if os.environ.get("CRADLEKEEL_LIBRARY") else "Run"
    return LibraryMissing(f"{_library()._name} {what}: it is older than this package. {named}: {_make_command()}")


def call(name, reading, edges, steps):
    """One call of the C function `name` on a reading, its result as it is; a list among the numbers goes over with its count."""
    given = [part for item in reading for part in (_as_list(item) if isinstance(item, list) else [item])]
    given += edge_list(edges)
    return c_function(name)(*given, steps)


def edge_list(edges):
    """Class edges as C takes them."""
    return _as_list([u32("an edge", edge) for edge in edges])


def _as_list(numbers):
    """Numbers that fit 32 bits as C takes them: where they stand and how many they are."""
    return (ctypes.c_uint32 * len(numbers))(*numbers), len(numbers)


def u32(name, value, index=None):
    """A whole number that fits 32 bits."""
    return whole(name if index is None else f"{name}[{index}]", value, ctypes.c_uint32)


def whole(name, value, kind):
    """A whole number that fits its type in C: ctypes would cut a larger one without a word."""
    try:
        number = operator.index(value)
    except TypeError:
        raise TypeError(f"{name} is {value!r}, which is not a whole number") from None
    if kind(number).value != number:
        sign = "a signed" if kind(-1).value < 0 else "an unsigned"
        raise ValueError(f"{name} is {number}, which does not fit {sign} whole number of {8 * ctypes.sizeof(kind)} bits")
    return number
