"""Record files, No. 4 and 8 of document 02: the second program's part for them, by Python's `struct`.

A record is a tuple of its eight numbers, and a list of records a list of such tuples. A record length says how many bytes Duv has:
files of two lengths are read, and one of the two is written. What is asked for is given as (refusal, result); the refusal is 0
where there is a result.
"""

import struct

TOO_MANY_RECORDS, NO_ROOM, NO_TRAILER, BAD_RECORD_LENGTH, BAD_TRAILER = range(11, 16)

# --- The file ---------------------------------------------------------------------------------------------------------


def with_duv(letter):
    """u, v; place, o, p; Duv, signed; steps; class, 255 for none."""
    return struct.Struct("<IIHHH%sBB" % letter)


EARLIER, WRITTEN = 18, 20  # record lengths
RECORDS = {EARLIER: with_duv("h"), WRITTEN: with_duv("i")}
MOST_RECORDS = {EARLIER: 3600, WRITTEN: 3200}
TRAILER = struct.Struct("<HHI")  # record length; count; how far before the trailer record 0 begins
NO_RECORD = (0,) * 8


def listed(columns):
    """The records of eight columns; they end with the shortest column."""
    return list(zip(*columns))


def file_by(length, records):
    """Records of a length first, then the trailer."""
    body = b"".join(RECORDS[length].pack(*record) for record in records)
    return body + TRAILER.pack(length, len(records), len(body))


def file_of(records):
    """The file that is written of some records."""
    return file_by(WRITTEN, records)


def trailer_of(file):
    """Record length, count and distance as the last bytes have them."""
    return TRAILER.unpack(file[-TRAILER.size:])


def record_at(data, length, index):
    """The record at an index of bytes that begin with records of a length; zeros where they end before it is whole, or no record has
    that length."""
    end = length * (index + 1)
    return RECORDS[length].unpack(data[end - length:end]) if length in RECORDS and end <= len(data) else NO_RECORD


# --- Writer and reader ------------------------------------------------------------------------------------------------


def write(records, room):
    """(refusal, file) for a target of `room` bytes."""
    if len(records) > MOST_RECORDS[WRITTEN]:
        return TOO_MANY_RECORDS, b""
    if WRITTEN * len(records) + TRAILER.size > room:
        return NO_ROOM, b""
    return 0, file_of(records)


def form(file):
    """(refusal, count): what the reader looks at before its targets."""
    if len(file) < TRAILER.size:
        return NO_TRAILER, 0
    length, count, distance = trailer_of(file)
    if length not in RECORDS:
        return BAD_RECORD_LENGTH, 0
    if distance != length * count or len(file) != distance + TRAILER.size:
        return BAD_TRAILER, 0
    if count > MOST_RECORDS[length]:
        return TOO_MANY_RECORDS, 0
    return 0, count


def file_record(file, index):
    """The record at an index of a file, by the file's own record length; zeros where the file cannot be read or has no such record."""
    refusal, count = form(file)
    return NO_RECORD if refusal or index >= count else record_at(file, trailer_of(file)[0], index)


def read(file, room):
    """(refusal, records) for targets that have room for `room` records."""
    refusal, count = form(file)
    if refusal:
        return refusal, []
    if count > room:
        return NO_ROOM, []
    length, *_ = trailer_of(file)
    return 0, [record_at(file, length, index) for index in range(count)]


# --- Targets ----------------------------------------------------------------------------------------------------------


def over(target, given):
    """What a target holds with something put at its start: beyond that, what it held."""
    return given + target[len(given):]


def write_into(target, columns):
    """(refusal, bytes written, the target afterwards)."""
    refusal, file = write(listed(columns), len(target))
    return refusal, len(file), over(target, file)


def read_into(targets, file):
    """(refusal, records read, the eight columns afterwards); the shortest of them has room for the least."""
    refusal, records = read(file, min(map(len, targets)))
    columns = zip(*records) if records else [()] * len(targets)
    return refusal, len(records), [over(target, column) for target, column in zip(targets, columns)]
