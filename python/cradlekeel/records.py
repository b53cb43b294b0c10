"""Record files: readings kept with their answers. docs/FILES.md has the format byte by byte.

The functions work on memory: they take and give the bytes of a file and do no input or output. `Path.read_bytes` and
`Path.write_bytes` do."""

import ctypes
import operator
from array import array
from typing import NamedTuple

from ._library import RECORD_BYTES, StoredRecord, WholeAnswer, c_function, u32, whole
from .readings import KELVIN_PLACES, NO_CLASS, Refusal

EARLIER_RECORD_BYTES, TRAILER_BYTES = 18, 8  # of each record in a file from before, and of any file's trailer
MOST_WRITTEN = 3200  # records in a file that is written, and in one that is read with records of 20 bytes
MOST_RECORDS = 3600  # in any file that is read: so many have 18 bytes each
_FIELDS = StoredRecord._fields_  # the name and the type in C of each


class Record(NamedTuple):
    """A reading and its answer in whole numbers, as a file keeps them; a record may hold any number that fits its field.

    >>> record = Record(219300, 327100, 23112, 21892, 23866, -2331, 2, 2)
    >>> record.duv, round(record.kelvin, 1)
    (-2331, 4472.1)
    """

    u: int
    v: int
    place: int
    low: int
    high: int
    duv: int
    steps: int
    class_index: int

    @property
    def kelvin(self):
        """The temperature at the place, 103,360,000 / place; None for a place of 0, which no answer has."""
        return KELVIN_PLACES / self.place if self.place else None

    @classmethod
    def of(cls, u, v, answer):
        """The record of a reading u, v in millionths and its `Answer`.

        >>> from cradlekeel import read_micro
        >>> Record.of(219300, 327100, read_micro(219300, 327100, steps=2))
        Record(u=219300, v=327100, place=23112, low=21892, high=23866, duv=-2331, steps=2, class_index=2)
        """
        class_index = NO_CLASS if answer.class_index is None else answer.class_index
        numbers = {"place": answer.place, "low": answer.low, "high": answer.high, "duv": round(answer.duv * 1_000_000),
                   "steps": answer.steps, "class_index": class_index}
        kinds = dict(WholeAnswer._fields_)
        given = {name: whole(f"the answer's {name}", number, kinds[name]) for name, number in numbers.items()}
        found = c_function("ck_record_of")(u32("u", u), u32("v", v), WholeAnswer(**given))
        if not found.kept:
            raise ValueError(f"{answer!r} has a number that a record does not keep")
        return cls(*numbers_of(found.record))


for _name, _text in {
        "u": "CIE 1960 u of the reading in millionths; 32 bits", "v": "CIE 1960 v of the reading in millionths; 32 bits",
        "place": "the position on the locus in units of 25/2584 mired; 16 bits", "low": "the hottest end of the range, as a position; 16 bits",
        "high": "the coolest end of the range, as a position; 16 bits", "duv": "Duv in millionths; 32 bits, signed",
        "steps": "the steps of the search; 8 bits", "class_index": "the class, counted from 0, or 255 for none; 8 bits"}.items():
    getattr(Record, _name).__doc__ = _text  # what help(Record) shows


def write_records(records, target):
    """Writes a file of the records to the front of a bytearray and returns how many bytes that were, 20 for each record and 8. The
    rest of the bytearray keeps what it held, and all of it where the records are refused.

    >>> target = bytearray(b"what it held")
    >>> write_records([], target)
    8
    >>> target
    bytearray(b'\\x14\\x00\\x00\\x00\\x00\\x00\\x00\\x00held')
    >>> write_records([Record(219300, 327100, 23112, 21892, 23866, -2331, 2, 2)], target)
    Traceback (most recent call last):
        ...
    cradlekeel.Refusal: refusal 12: the room is too small for the file, its records, the differences or the dropped numbers
    >>> write_records([Record(219300, 327100, 65536, 21892, 23866, -2331, 2, 2)], target)
    Traceback (most recent call last):
        ...
    ValueError: records[0].place is 65536, which does not fit an unsigned whole number of 16 bits
    """
    if not isinstance(target, bytearray):
        raise TypeError(f"the target must be a bytearray, not {type(target).__name__}")
    columns = columns_of(list(records))
    return _count(c_function("ck_write_records")(*columns, (ctypes.c_uint8 * len(target)).from_buffer(target), len(target)))


def to_bytes(records):
    """A file of the records, at most 3,200.

    >>> to_bytes([Record(219300, 327100, 23112, 21892, 23866, -2331, 2, 2)]).hex(" ", -2)
    'a458 0300 bcfd 0400 485a 8455 3a5d e5f6 ffff 0202 1400 0100 1400 0000'
    """
    records = list(records)
    target = bytearray(len(records) * RECORD_BYTES + TRAILER_BYTES)
    write_records(records, target)
    return bytes(target)


def read_records(file, room=MOST_RECORDS):
    """The records of a file, given by its bytes or any other bytes-like object; refused with 12 where they are more than `room`. A file
    from before, whose records have 18 bytes, with Duv in 2 of them instead of 4, is read too, and has up to 3,600.

    >>> read_records(bytes.fromhex("a458 0300 bcfd 0400 485a 8455 3a5d e5f6 ffff 0202 1400 0100 1400 0000"))
    [Record(u=219300, v=327100, place=23112, low=21892, high=23866, duv=-2331, steps=2, class_index=2)]
    >>> read_records(bytes.fromhex("a458 0300 bcfd 0400 485a 8455 3a5d e5f6 0202 1200 0100 1200 0000"))
    [Record(u=219300, v=327100, place=23112, low=21892, high=23866, duv=-2331, steps=2, class_index=2)]
    >>> read_records(b"u,v,steps\\n")
    Traceback (most recent call last):
        ...
    cradlekeel.Refusal: refusal 14: the record length, in the last 8 bytes of the file or to salvage by, is neither 18 nor 20: a file without one is no record file, or was cut short or added to
    >>> read_records("day.rec")
    Traceback (most recent call last):
        ...
    TypeError: a file is given by its bytes, as Path("day.rec").read_bytes() has them, not by a str
    """
    room = room_of("room", room, MOST_RECORDS)
    columns = [(kind * room)() for _, kind in _FIELDS]
    count = _count(asked("ck_read_records", {"a file": file}, *(part for column in columns for part in (column, room))))
    return list(map(Record._make, zip(*(column[:count] for column in columns))))


def check_file(file):
    """How many records a file has; refused as `read_records` refuses it.

    >>> check_file(to_bytes([]))
    0
    >>> check_file(b"")
    Traceback (most recent call last):
        ...
    cradlekeel.Refusal: refusal 13: the file is too short to be a record file: it has fewer than 8 bytes
    """
    return _count(asked("ck_check_file", {"a file": file}))


def record_at(file, index):
    """The record `index`, counted from 0, of a file; refused as `read_records` refuses the file.

    >>> file = to_bytes([Record(219300, 327100, 23112, 21892, 23866, -2331, 2, 2)])
    >>> record_at(file, 0).duv
    -2331
    >>> record_at(file, 1)
    Traceback (most recent call last):
        ...
    IndexError: the file has no record 1
    """
    if not 0 <= operator.index(index) < check_file(file):
        raise IndexError(f"the file has no record {index}")
    return Record(*numbers_of(asked("ck_record_at", {"a file": file}, index)))


def numbers_of(stored):
    """The fields of a record that C has returned, in their order."""
    return (getattr(stored, field) for field, _ in _FIELDS)


def _count(done):
    """How many bytes or records it was; a refusal is raised."""
    if done.refusal:
        raise Refusal(done.refusal)
    return done.count


def asked(name, files, *given):
    """What the C function `name` returns for files, each with what an error calls it. Their bytes are looked at before the library is
    asked for, and let go whatever happens: an exception would hold them with this call, and a bytearray that is held cannot change its
    length."""
    held = [part for called, file in files.items() for part in _as_file(called, file)]
    try:
        return c_function(name)(*held, *given)
    finally:
        del held


def room_of(name, room, most):
    """A room that the caller gives, as far as it can be needed; all that can be needed where none is given."""
    return most if room is None else min(whole(name, room, ctypes.c_size_t), most)


def byte_count(called, file):
    """How many bytes a file has."""
    return _view(called, file).nbytes


def _view(called, file):
    try:
        return memoryview(file)
    except TypeError:
        named = type(file).__name__
        raise TypeError(f'{called} is given by its bytes, as Path("day.rec").read_bytes() has them, not by a {named}') from None


def _as_file(called, file):
    """Bytes as C takes them, where they stand and how many they are; copied only where they are neither bytes nor can be written."""
    if not isinstance(file, bytes):
        view = _view(called, file)
        if view.c_contiguous and not view.readonly:
            return (ctypes.c_uint8 * view.nbytes).from_buffer(view), view.nbytes
        file = bytes(view)
    return file, len(file)


def columns_of(records, name="records"):
    """The fields of all records as C takes them, a column for each with its count; an error calls the list by its name."""
    for i, record in enumerate(records):
        if not isinstance(record, Record):
            raise TypeError(f"{name}[{i}] is {record!r}, which is not a Record")
    columns = zip(*records) if records else len(_FIELDS) * [()]
    return [part for (field, kind), numbers in zip(_FIELDS, columns) for part in (_column(name, field, kind, numbers), len(numbers))]


def _column(name, field, kind, numbers):
    try:
        stored = array(kind._type_, numbers)
    except (OverflowError, TypeError):
        for i, number in enumerate(numbers):
            whole(f"{name}[{i}].{field}", number, kind)  # raises what names the first at fault
        raise
    return (kind * len(numbers)).from_buffer(stored)
