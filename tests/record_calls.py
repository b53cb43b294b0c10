"""The library's functions on record files, those of C and those of Python, asked in the second program's terms: columns, files and
rooms in, (refusal, result) out, with the targets that held a pattern as they are afterwards."""

import ctypes
from array import array

import cradlekeel
import record_files
from cradlekeel._library import StoredRecord, c_function
from record_lines import LETTERS, byte_pattern, pattern

KINDS = [kind for _, kind in StoredRecord._fields_]  # of the columns, in their order
GUARD = 3  # numbers of a column, or bytes of a target, beyond the room that the library is told of


class Difference(Exception):
    """The library and the second program do not agree."""


def expect(what, found, expected):
    if found != expected:
        at = next((k for k, pair in enumerate(zip(found, expected)) if pair[0] != pair[1]), min(len(found), len(expected)))
        raise Difference("%s: from place %d on the library has %s and the second program %s" % (
            what, at, str(found[at:at + 8])[:100], str(expected[at:at + 8])[:100]))


# --- C ----------------------------------------------------------------------------------------------------------------


def stored(kind, numbers):
    """A list of C that holds the numbers."""
    return (kind * len(numbers)).from_buffer(array(kind._type_, numbers))


def c_read(file, rooms):
    """(refusal, count), and the columns with their guards after `ck_read_records` over the pattern."""
    columns = [stored(kind, pattern(letter, room + GUARD)) for kind, letter, room in zip(KINDS, LETTERS, rooms)]
    given = ctypes.create_string_buffer(file, len(file))
    done = c_function("ck_read_records")(given, len(file), *(part for pair in zip(columns, rooms) for part in pair))
    expect("the bytes read from, afterwards", given.raw, file)
    return (done.refusal, done.count), [tuple(column) for column in columns]


def c_write(columns, room):
    """(refusal, count), and the target with its guard after `ck_write_records` over the pattern."""
    given = [part for kind, column in zip(KINDS, columns) for part in (stored(kind, column), len(column))]
    target = stored(ctypes.c_uint8, byte_pattern(room + GUARD))
    done = c_function("ck_write_records")(*given, target, room)
    return (done.refusal, done.count), bytes(target)


def c_form(file):
    """(refusal, count)"""
    done = c_function("ck_check_file")(file, len(file))
    return done.refusal, done.count


def c_record(file, index):
    found = c_function("ck_record_at")(file, len(file), index)
    return tuple(getattr(found, name) for name, _ in StoredRecord._fields_)


# --- Python -----------------------------------------------------------------------------------------------------------


def answered(call, otherwise):
    """(0, result) of a public function, or the refusal with something else."""
    try:
        return 0, call()
    except cradlekeel.Refusal as refusal:
        return refusal.number, otherwise


def python_read(file, room):
    return answered(lambda: cradlekeel.read_records(file, room), [])


def python_write(records, target):
    return answered(lambda: cradlekeel.write_records(records, target), 0)


def python_form(file):
    return answered(lambda: cradlekeel.check_file(file), 0)


def python_record(file, index):
    """(refusal, record); () for a record that the file has not."""
    try:
        return answered(lambda: cradlekeel.record_at(file, index), ())
    except IndexError:
        return 0, ()


def expected_record(file, index):
    """What the second program says of that."""
    refusal, count = record_files.form(file)
    return refusal, record_files.file_record(file, index) if index < count else ()
