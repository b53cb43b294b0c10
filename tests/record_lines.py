"""What the vectors of record files hold, their lines, and the targets that they write and read into."""

import re
from functools import lru_cache
from itertools import groupby
from typing import NamedTuple

import core_cases
import record_files
from sample_lists import numbers_of, run_texts

# What the program of crates/vectors has room for: bytes of a line, numbers of a column, bytes of the file and of the first file
# of a comparison, bytes that are written and records that are read.
LONGEST_LINE, MOST_NUMBERS, MOST_BYTES, MOST_FIRST_BYTES, MOST_WRITTEN, MOST_READ = 8191, 69_136, 1_310_720, 73_728, 65_536, 4096


class Held(NamedTuple):
    """The eight columns by the letters of the `column` lines, the file, and the first file of a comparison; at first all are empty."""

    u: tuple = ()
    v: tuple = ()
    p: tuple = ()
    l: tuple = ()
    h: tuple = ()
    d: tuple = ()
    s: tuple = ()
    c: tuple = ()
    file: bytes = b""
    first: bytes = b""

    @property
    def columns(self):
        return self[:-2]


LETTERS = Held._fields[:-2]
BITS = dict(u=32, v=32, p=16, l=16, h=16, d=32, s=8, c=8)
SIGNED = "d"


# --- As lines ---------------------------------------------------------------------------------------------------------


def column_line(letter, numbers):
    assert len(numbers) <= MOST_NUMBERS
    return " ".join(["column", letter, *run_texts(numbers)])


def words_of(data):
    """Hexadecimal bytes in one word, but HHxK for four or more equal ones."""
    runs = ((byte, len(list(equal))) for byte, equal in groupby(data))
    return "".join(" %02xx%d " % run if run[1] > 3 else "%02x" % run[0] * run[1] for run in runs).split()


def file_line(file):
    assert len(file) <= MOST_BYTES
    return " ".join(["file", *words_of(file)])


def repeats_line(parts):
    """The `file` line of some bytes after one another, each so many times: HEXxK where that is more than once."""
    assert sum(len(data) * times for data, times in parts) <= MOST_BYTES
    words = (["%sx%d" % (data.hex(), times)] if times > 1 else words_of(data) for data, times in parts if data)
    return " ".join(["file", *(word for each in words for word in each)])


def write_line(room):
    assert room <= MOST_WRITTEN
    return "write %d" % room


def read_line(*rooms):
    """For one number, that room in each of the eight columns."""
    rooms = rooms if len(rooms) > 1 else rooms * len(LETTERS)
    assert len(rooms) == len(LETTERS) and max(rooms) <= MOST_READ
    return " ".join(["read", *map(str, rooms)])


def record_line(index):
    assert index < 2**64
    return "record %d" % index


FORM_LINE, FIRST_LINE = "form", "first"


def file_lines(held, wanted):
    """The line after which a file is held, where it is not held already."""
    return [file_line(wanted)] if wanted != held else []


def changes(held, wanted):
    """The lines after which the wanted columns and files are held."""
    columns = [column_line(letter, getattr(wanted, letter)) for letter in LETTERS if getattr(wanted, letter) != getattr(held, letter)]
    if wanted.first == held.first:
        return columns + file_lines(held.file, wanted.file)
    return [*columns, *file_lines(held.file, wanted.first), FIRST_LINE, *file_lines(wanted.first, wanted.file)]


def bytes_of(words):
    """The bytes that the words of a `file` line write."""
    runs = (re.fullmatch("((?:[0-9a-f]{2})+)(?:x([0-9]+))?", word) for word in words)
    return b"".join(bytes.fromhex(run[1]) * int(run[2] or 1) for run in runs)


def held_after(line, held):
    """What is held after a line: a column or a file replaced, or the file written where the writer takes the columns."""
    kind, *fields = line.split()
    if kind == "column":
        return held._replace(**{fields[0]: numbers_of(fields[1:])})
    if kind == "file":
        return held._replace(file=bytes_of(fields))
    if kind == "first":
        return held._replace(first=held.file)
    if kind == "write":
        refusal, file = record_files.write(record_files.listed(held.columns), int(fields[0]))
        return held if refusal else held._replace(file=file)
    return held


# --- Targets ----------------------------------------------------------------------------------------------------------


def as_signed(number, bits):
    return number - 2**bits if number >= 2 ** (bits - 1) else number


@lru_cache(maxsize=None)
def pattern(letter, count):
    """What a column to read into holds at first."""
    numbers = ((7 * i + 3) % 2 ** BITS[letter] for i in range(count))
    return tuple(as_signed(number, BITS[letter]) for number in numbers) if letter in SIGNED else tuple(numbers)


@lru_cache(maxsize=None)
def byte_pattern(room):
    """What a target of bytes holds at first."""
    return bytes((7 * i + 3) % 256 for i in range(room))


@lru_cache(maxsize=2000)
def checksum(numbers, bits):
    """The checksum of `points` over a target; a number below zero counts by its bits."""
    return core_cases.checksum(number % 2**bits for number in numbers)


# --- What is expected -------------------------------------------------------------------------------------------------


def written(columns, room):
    refusal, count, target = record_files.write_into(byte_pattern(room), columns)
    return refusal, count, checksum(target, 8)


def was_read(file, rooms):
    targets = [pattern(letter, room) for letter, room in zip(LETTERS, rooms)]
    refusal, count, columns = record_files.read_into(targets, file)
    return refusal, count, *(checksum(column, BITS[letter]) for letter, column in zip(LETTERS, columns))


def expected(line, held):
    """What is expected of a line after which these columns and this file are held."""
    kind, *fields = line.split()
    if kind in ("column", "file"):
        return "%d" % len(getattr(held, fields[0] if kind == "column" else kind))
    given = {"write": lambda room: written(held.columns, room), "form": lambda: record_files.form(held.file),
             "record": lambda index: record_files.file_record(held.file, index), "read": lambda *rooms: was_read(held.file, rooms)}
    return " ".join(map(str, given[kind](*map(int, fields))))
