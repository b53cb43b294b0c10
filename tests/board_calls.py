"""The C library's functions on boards, asked in the second program's terms: a board is how many places are ours, its count and its 64
slots, and a slot the ten numbers of its lot. The structures are written from include/cradlekeel.h apart from those of the package."""

import ctypes
import struct
from typing import NamedTuple

import c_library
from record_calls import Difference, expect

SLOTS = 64
U8, U16, U32, SIZE = ctypes.c_uint8, ctypes.c_uint16, ctypes.c_uint32, ctypes.c_size_t
COLUMNS = U32, U32, U16, U16, U16, ctypes.c_int32, U8, U8
FIELDS = "u", "v", "place", "low", "high", "duv", "steps", "class", "job", "stamp"
NUMBERS = struct.Struct("=IIHHHxxiBBxxIHxx")  # a lot's ten numbers, without the bytes between them
WITH_GAPS = struct.Struct("=IIHHHHiBBHIHH")  # and with them: two before Duv, two after the class, two after the stamp
GAPS = 3


class CRecord(ctypes.Structure):
    """ck_record"""

    _fields_ = list(zip(FIELDS, COLUMNS))


class CLot(ctypes.Structure):
    """ck_lot"""

    _fields_ = [("record", CRecord), ("job", U32), ("stamp", U16)]


class CBoard(ctypes.Structure):
    """ck_board"""

    _fields_ = [("ours", SIZE), ("count", SIZE), ("lots", CLot * SLOTS)]


class CTold(ctypes.Structure):
    """ck_told"""

    _fields_ = [("lot", CLot), ("stamp", U16), ("refusal", U8)]


class CAnswer(ctypes.Structure):
    """ck_board_answer"""

    _fields_ = [("board", CBoard), ("told", CTold)]


assert list(map(ctypes.sizeof, (CRecord, CLot, CBoard, CTold, CAnswer))) == [24, 32, 2064, 36, 2104]
assert NUMBERS.size == WITH_GAPS.size == ctypes.sizeof(CLot)

TAKEN = {
    "ck_board_load": 2 * tuple(part for kind in COLUMNS for part in (ctypes.POINTER(kind), SIZE)),  # our columns, then the partner's
    "ck_board_read": (CBoard, U8, SIZE),
    "ck_board_assign": (CBoard, U8, SIZE, U16, U32),
}
NAMES = {"r": "ck_board_read", "a": "ck_board_assign"}  # by the small letters of the lines `board`


def function(name):
    return c_library.typed(name, TAKEN[name], CAnswer)


# --- Boards and answers as numbers ------------------------------------------------------------------------------------


class Shown(NamedTuple):
    """Every number of what a call gives back."""

    ours: int
    count: int
    slots: list
    refusal: int
    stamp: int
    lot: tuple


def shown(answer):
    board, told = answer.board, answer.told
    slots, lot = list(NUMBERS.iter_unpack(bytes(board.lots))), NUMBERS.unpack(bytes(told.lot))
    return Shown(board.ours, board.count, slots, told.refusal, told.stamp, lot)


def board_of(ours, count, slots, gaps):
    """A board with any counts and slots, and with any numbers in the bytes between its fields."""
    parts = ((*slot[:5], first, *slot[5:8], second, *slot[8:], third) for slot, (first, second, third) in zip(slots, gaps))
    lots = b"".join(WITH_GAPS.pack(*numbers) for numbers in parts)
    return CBoard.from_buffer_copy(ours.to_bytes(8, "little") + count.to_bytes(8, "little") + lots)


def numbered(what):
    """What a call gives back, each number with its name."""
    yield from (("the refusal", what.refusal), ("the stamp", what.stamp), ("our count", what.ours), ("the count", what.count))
    for where, lot in (("the lot told", what.lot), *(("slot %d" % place, slot) for place, slot in enumerate(what.slots))):
        yield from (("%s of %s" % (name, where), number) for name, number in zip(FIELDS, lot))


def expect_shown(call, found, expected):
    """Every number is the expected one."""
    if found != expected:
        name, number, other = next((name, a, b) for (name, a), (_, b) in zip(numbered(found), numbered(expected)) if a != b)
        raise Difference("%s: %s is %d, and the second program has %d" % (call, name, number, other))


# --- Calls ------------------------------------------------------------------------------------------------------------


def c_load(ours, theirs):
    """What `ck_board_load` gives back; the columns must stay as they are."""
    columns = [*ours, *theirs]
    given = [(kind * len(numbers))(*numbers) for kind, numbers in zip(2 * COLUMNS, columns)]
    answer = function("ck_board_load")(*(part for column in given for part in (column, len(column))))
    for column, numbers in zip(given, columns):
        expect("a column after ck_board_load", tuple(column), tuple(numbers))
    return answer


def c_call(board, kind, party, *numbers):
    """What a read or an assignment gives back."""
    return function(NAMES[kind])(board, party, *numbers)
