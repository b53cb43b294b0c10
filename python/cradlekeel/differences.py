"""The differences of two record files. docs/FILES.md shows how two files are compared.

`compare_files` works on memory, as the functions of record files do: it takes the bytes of two files and does no input or output."""

import ctypes
from typing import NamedTuple

from .readings import Refusal
from .records import MOST_RECORDS, Record, asked, room_of

ONLY_FIRST, ONLY_SECOND = 8, 9
"""The `field` of a record that only the first file has, and of one that only the second has."""

FIELD_NAMES = *Record._fields[:-1], "class", "only first", "only second"  # by the number of a field
MOST_DIFFERENCES = len(Record._fields) * MOST_RECORDS  # two files never have more


class FileRefusal(Refusal):
    """One of two files cannot be read: `which` is 1 for the first and 2 for the second, `number` and `reason` are those of its refusal.

    >>> try:
    ...     compare_files(bytes(20), b"")
    ... except FileRefusal as refusal:
    ...     print(refusal.which, refusal.number, refusal)
    1 14 the first file: refusal 14: the record length, in the last 8 bytes of the file or to salvage by, is neither 18 nor 20: a file without one is no record file, or was cut short or added to
    """

    def __init__(self, which, number):
        super().__init__(number)
        self.args = which, number  # what a copy is made of
        self.which = which

    def __str__(self):
        return f"the {'second' if self.which == 2 else 'first'} file: {super().__str__()}"


class Difference(NamedTuple):
    """Where two files differ. It equals the tuple of its four numbers.

    >>> difference = Difference(record=12, field=5, first=340, second=352)
    >>> difference.field_name
    'duv'
    >>> difference == (12, 5, 340, 352)
    True
    """

    record: int
    field: int
    first: int
    second: int

    @property
    def field_name(self):
        """The field as people read it: u, v, place, low, high, duv, steps or class; "only first" for 8 and "only second" for 9.

        >>> Difference(record=14, field=ONLY_SECOND, first=0, second=0).field_name
        'only second'
        """
        return FIELD_NAMES[self.field]


for _name, _text in {
        "record": "the number of the record, counted from 0",
        "field": "0 to 7, the index of the field in `Record`; 8 where only the first file has the record, 9 where only the second has it",
        "first": "what the first file has there; 0 where only one of them has the record",
        "second": "what the second file has there; 0 where only one of them has the record"}.items():
    getattr(Difference, _name).__doc__ = _text  # what help(Difference) shows


def compare_files(first, second, room=None):
    """The differences of two files, each given by its bytes or any other bytes-like object, in a list of `Difference`: one for every
    field whose numbers differ, by record and then by field, and after them one for each record that only one file has, whose field is
    `ONLY_FIRST`, 8, or `ONLY_SECOND`, 9. An empty list means that their records are the same, be they of 18 bytes or of 20.

    >>> from cradlekeel import Record, compare_files, to_bytes
    >>> record = Record(219300, 327100, 23112, 21892, 23866, -2331, 2, 2)
    >>> bench, desk = to_bytes([record, record]), to_bytes([record._replace(duv=-2333)])
    >>> compare_files(bench, desk)
    [Difference(record=0, field=5, first=-2331, second=-2333), Difference(record=1, field=8, first=0, second=0)]
    >>> compare_files(bench, bench)
    []

    A file that cannot be read is refused as `read_records` refuses it, by `FileRefusal`, which names the first where neither can be read.
    With a `room`, more differences than that are refused with 12.

    >>> compare_files(bench, desk, room=1)
    Traceback (most recent call last):
        ...
    cradlekeel.Refusal: refusal 12: the room is too small for the file, its records, the differences or the dropped numbers
    >>> compare_files(bench, desk[:20])
    Traceback (most recent call last):
        ...
    cradlekeel.FileRefusal: the second file: refusal 14: the record length, in the last 8 bytes of the file or to salvage by, is neither 18 nor 20: a file without one is no record file, or was cut short or added to
    """
    numbers = len(Difference._fields) * room_of("room", room, MOST_DIFFERENCES)
    target = (ctypes.c_int64 * numbers)()
    compared = asked("ck_compare_files", {"the first file": first, "the second file": second}, target, numbers)
    if compared.refusal:
        raise FileRefusal(compared.file, compared.refusal) if compared.file else Refusal(compared.refusal)
    listed = iter(target[:len(Difference._fields) * compared.count])
    return list(map(Difference._make, zip(listed, listed, listed, listed)))
