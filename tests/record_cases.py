"""Vectors for record files: `column LETTER NUMBERS..`, `file HEX..`, `write ROOM`, `form`, `record INDEX` and `read ROOM..`.

A section yields cases: the columns or the file that are to be held, and the lines that ask about them. `lines()` puts before
each case the `column` and `file` lines that it needs. Short lists and files come before long ones."""

from itertools import product

import document_cases
import record_files
from dice import Dice
from record_lines import (BITS, FORM_LINE, LETTERS, LONGEST_LINE, MOST_READ, MOST_WRITTEN, SIGNED, Held, as_signed, changes,
                          held_after, read_line, record_line, write_line)

KINDS = ("column", "file", "write", "form", "record", "read")
WRITTEN, EARLIER = LENGTHS = 20, 18  # the record lengths that are read, that which is written first
TRAILER = 8
MOST = {WRITTEN: 3200, EARLIER: 3600}
WRAPPED = 2**16  # a count in two bytes begins again at 0 here


def file_size(count, length=WRITTEN):
    return length * count + TRAILER


def trailer(length, count, distance):
    return b"".join(number.to_bytes(size, "little") for number, size in ((length, 2), (count, 2), (distance, 4)))


def with_trailer(length, body):
    """A file of these bytes of whole records of a length; a good one where they are not too many."""
    return body + trailer(length, len(body) // length, len(body))


def any_file(length, count, dice, least=0):
    """A file of any records, whose bytes are not under the least."""
    return with_trailer(length, bytes(dice.between(least, 255) for _ in range(length * count)))


# --- Cases ------------------------------------------------------------------------------------------------------------


def columns_of(records):
    return dict(zip(LETTERS, zip(*records))) if records else dict.fromkeys(LETTERS, ())


def flat(count, number=1):
    """Eight columns of one number."""
    return dict.fromkeys(LETTERS, (number,) * count)


def looked_at(count):
    """The form of a good file of so many records, some of its records, and reading it: rooms exact, one over and one short."""
    indexes = sorted({0, count // 2, max(count, 1) - 1, count})
    rooms = (count, count + 1) if count == 0 else (count, count + 1, count - 1)
    return [FORM_LINE, *map(record_line, indexes), *map(read_line, rooms)]


def of_file(file, *rooms):
    """The case of a file, good or bad: its form, and reading it."""
    return {"file": file}, [FORM_LINE, *map(read_line, rooms or (MOST_READ if len(file) > 5000 else 5,))]


def bits_of(letter, length=WRITTEN):
    """How many bits a field has in records of a length, of which 16 bytes are for the fields other than Duv."""
    return 8 * (length - 16) if letter in SIGNED else BITS[letter]


def random_number(letter, dice, length=WRITTEN):
    """Any number that fits a field: in one case of three the least or the largest, or one of their neighbours."""
    bits = bits_of(letter, length)
    half = 2 ** (bits - 1)
    number = dice.getrandbits(bits) if dice.below(3) else dice.pick((0, 1, half - 1, half, 2 * half - 2, 2 * half - 1))
    return as_signed(number, bits) if letter in SIGNED else number


def random_records(count, dice, length=WRITTEN):
    """Records whose Duv is that of records of a length, or in one case of four of the earlier length."""
    lengths = (dice.pick((length, length, length, EARLIER)) for _ in range(count))
    return [tuple(random_number(letter, dice, each) for letter in LETTERS) for each in lengths]


def streaks(count, dice):
    """Columns whose numbers stand in runs, each column's runs of another length, so that a shifted record shows."""
    runs = zip(LETTERS, (97, 101, 103, 107, 109, 113, 127, 131))
    return {letter: sum(((random_number(letter, dice),) * size for _ in range(0, count, size)), ())[:count] for letter, size in runs}


def streaked_file(length, count, dice, runs=(60, 110)):
    """A file whose bytes stand in runs of many lengths, each longer than three records, so that its line is short."""
    body = b"".join(bytes([dice.below(256)]) * dice.between(*runs) for _ in range(count * length // runs[0] + 1))
    return with_trailer(length, body[:count * length])


# --- What is held at first, and document_cases.py ---------------------------------------------------------------------


def unset_cases(dice):
    """Before the first `column` or `file` line all are empty: the file has no trailer, and the list no record."""
    asked = [FORM_LINE, record_line(0), record_line(2**64 - 1), read_line(0), read_line(1)]
    for room in (0, 1, 7, 8, 9):
        asked += [write_line(room), FORM_LINE, record_line(0), read_line(0), read_line(2)]
    yield {}, asked


def worked_cases(dice):
    for records, *texts in document_cases.RECORD_FILES:
        for file in (bytes.fromhex(text) for text in texts if text):
            yield {"file": file}, looked_at(len(records))
        for more in (-1, 0, 1):
            yield columns_of(records), [write_line(file_size(len(records)) + more), *looked_at(len(records))]
    for text, room, _ in document_cases.UNREADABLE_FILES:
        yield of_file(bytes.fromhex(text), room)


# --- Fields -----------------------------------------------------------------------------------------------------------

ZEROS, ONES = (0,) * 8, tuple(-1 if letter in SIGNED else 2 ** BITS[letter] - 1 for letter in LETTERS)  # in every bit
UNLIKE = (0x01020304, 0x05060708, 0x090A, 0x0B0C, 0x0D0E, 0x0F10, 0x11, 0x12)  # no two bytes are alike, but for the upper two of Duv
OTHERS = ZEROS, ONES, UNLIKE
EXTREMES = {
    8: (0, 1, 14, 15, 127, 128, 254, 255),
    16: (0, 1, 127, 128, 255, 256, 0x1314, 5168, 32_767, 32_768, 64_600, 65_280, 65_534, 65_535),
    32: (0, 1, 255, 256, 65_535, 65_536, 4_000_000, 4_000_001, 0x13141516, 2**31 - 1, 2**31, 2**32 - 2, 2**32 - 1),
}
DUVS = (-2**31, -2**31 + 1, -0x13141516, -2**24, -65_537, -65_536, -65_535, -50_001, -50_000, -32_769, -32_768, -32_767, -30_001,
        -30_000, -2347, -257, -256, -255, -129, -128, -2, -1, 0, 1, 2, 127, 128, 255, 256, 0x1314, 30_000, 30_001, 32_766, 32_767,
        32_768, 32_769, 50_000, 50_001, 65_535, 65_536, 2**24 - 1, 0x13141516, 2**31 - 2, 2**31 - 1)


def extremes(letter, length=WRITTEN):
    """Numbers of a field at its ends and about its bytes, those that it has in records of a length."""
    half = 2 ** (bits_of(letter, length) - 1)
    return [duv for duv in DUVS if -half <= duv < half] if letter in SIGNED else EXTREMES[BITS[letter]]


def with_field(record, at, number):
    return *record[:at], number, *record[at + 1:]


def field_cases(dice):
    """Each field at its extremes and about its bytes, beside zeros, beside ones in every bit and beside bytes that all differ."""
    for (at, letter), others in product(enumerate(LETTERS), OTHERS):
        for number in extremes(letter):
            yield columns_of([with_field(others, at, number)]), [write_line(28), record_line(0), read_line(1)]


def earlier_field_cases(dice):
    """The same in files of the earlier length: Duv beside each, the other fields beside one of them."""
    for at, letter in enumerate(LETTERS):
        for k, number in enumerate(extremes(letter, EARLIER)):
            for others in OTHERS if letter in SIGNED else OTHERS[k % 3:k % 3 + 1]:
                yield {"file": record_files.file_by(EARLIER, [with_field(others, at, number)])}, [record_line(0), read_line(1)]


def field_place_cases(dice):
    """A byte other than zero in each place of a file of two records, one at a time."""
    for length in LENGTHS:
        for at in range(2 * length):
            body = bytearray(2 * length)
            body[at] = 0x80 + at
            yield {"file": with_trailer(length, bytes(body))}, [record_line(at // length), read_line(2)]


# --- Rooms and lengths of columns -------------------------------------------------------------------------------------


def room_cases(dice):
    """Short lists into every kind of room: none, less than a trailer, a trailer, a record less or more, one byte less or more."""
    for count in range(4):
        size = file_size(count)
        rooms = {0, 1, 7, 8, 9, 17, 18, 19, 20, 21, 26, 27, 28, 29, *(size + more for more in (-20, -18, -9, -8, -2, -1, 0, 1, 2, 8, 20, 255)),
                 file_size(count, EARLIER), 65_536}
        records = columns_of(random_records(count, dice))
        for room in sorted(room for room in rooms if room >= 0):
            yield records, [write_line(room), FORM_LINE]


def read_room_cases(dice):
    """Three records into columns of every room from 0 to 5, and one column with another room than the rest."""
    for length in LENGTHS:
        file = any_file(length, 3, dice)
        yield {"file": file}, [read_line(room) for room in range(6)]
        for at, others, room in product(range(8), (3, 4), (0, 1, 2, 3, 4, 7)):
            yield {"file": file}, [read_line(*with_field((others,) * 8, at, room))]
        for _ in range(20):
            yield {"file": file}, [read_line(*(dice.between(2, 6) for _ in LETTERS))]


def empty_read_cases(dice):
    """A file of no records into columns of no room and of some."""
    for length in LENGTHS:
        rooms = (0,), (1,), (2,), range(8), reversed(range(8))
        yield {"file": with_trailer(length, b"")}, [read_line(*each) for each in rooms]


def uneven_cases(dice):
    """Columns of different lengths: each in turn shorter than the rest, empty, or longer; rooms for the shortest and the longest."""
    for count, letter, other in product((1, 2, 5), LETTERS, (-1, None, 1)):
        columns = columns_of(random_records(count + 1, dice))
        lengths = {name: count for name in LETTERS} | {letter: 0 if other is None else count + other}
        rooms = sorted({file_size(length) for length in lengths.values()})
        short = min(lengths.values())
        asked = [write_line(rooms[0] - 1), *map(write_line, rooms), FORM_LINE, read_line(short), read_line(short + 1)]
        yield {name: columns[name][:length] for name, length in lengths.items()}, asked


def random_length_cases(dice):
    for _ in range(40):
        columns = columns_of(random_records(6, dice))
        lengths = [dice.between(1, 6) for _ in LETTERS]
        yield ({name: columns[name][:length] for name, length in zip(LETTERS, lengths)},
               [write_line(file_size(min(lengths)) + dice.pick((-1, 0, 1, 20))), FORM_LINE, read_line(min(lengths))])


# --- Damaged files ----------------------------------------------------------------------------------------------------


def cut_cases(dice):
    """A file of two records, or of one, and of none, cut at every byte, from its end and from its beginning; and one byte more."""
    for length, count in ((WRITTEN, 2), (WRITTEN, 0), (EARLIER, 1), (EARLIER, 0)):
        file = any_file(length, count, dice, 1)
        parts = [file[:at] for at in range(len(file))] + [file[at:] for at in range(len(file) + 1)]
        longer = [file[:at] + byte + file[at:] for at, byte in product((0, count * length, len(file)), (b"\0", b"\x12", b"\x14"))]
        for part in [*parts, *longer, file + file, *(file + trailer(other, 0, 0) for other in LENGTHS)]:
            wanted, asked = of_file(part, 3)
            yield wanted, [*asked, record_line(max(count, 1) - 1)]


def repeated_trailer_cases(dice):
    """Bytes that are trailers only: the last counts what lies before it as records where it fits."""
    for length, count, times in product(LENGTHS, (0, 1, 2, 4), (1, 2, 6, 9, 10)):
        yield of_file(times * trailer(length, count, count * length))
    yield of_file(5 * trailer(EARLIER, 4, 72) + trailer(WRITTEN, 2, 40))
    yield of_file(9 * trailer(WRITTEN, 2, 40) + trailer(EARLIER, 4, 72))


BAD_LENGTHS = (0, 1, 2, 4, 8, 9, 10, 16, 17, 19, 21, 22, 24, 36, 38, 40, 0x1200, 0x1400, 0x0112, 0x0114, 0x1212, 0x1414, 0x1214, 0x8012,
               0x8014, 65_535)


def bad_length_cases(dice):
    """A record length other than 18 and 20, alone; and in a file that is all of such records."""
    for bad in BAD_LENGTHS:
        yield of_file(trailer(bad, 0, 0))
        for length in LENGTHS:
            yield of_file(bytes(2 * length) + trailer(bad, 2, 2 * length))
        if bad < 100:
            yield of_file(bytes(2 * bad) + trailer(bad, 2, 2 * bad))


def other_length_cases(dice):
    """Each of the three numbers of a trailer, and the bytes before it, by one record length or by the other: 180 bytes are nine records
    of 20 and ten of 18."""
    sizes = {count: (18 * count, 20 * count) for count in (0, 1, 9, 10)}
    for count, length in product(sizes, LENGTHS):
        for distance, size in product(sorted({*sizes[count], 180 if count > 1 else 0}), repeat=2):
            body = bytes(dice.between(1, 255) for _ in range(size))
            yield of_file(body + trailer(length, count, distance), 10)
            yield {}, [record_line(0), record_line(max(count, 1) - 1)]


def wrong_counts(length, count):
    """Counts near a count, at the ends of their bytes, with its bytes swapped and with one more bit."""
    limits = {most + more for most in MOST.values() for more in (0, 1)}
    numbers = {count + 1, count + 2, count - 1, 0, 1, 255, count << 8, count + 256, count + 2**15, *limits, 65_535 // length + 1, 65_535}
    return sorted(number for number in numbers - {count} if 0 <= number < 2**16)


def wrong_distances(length, count):
    """The same for distances; those to the file's end, of a record more or less and of the other length too, and those below zero."""
    back = count * length
    near = {back + more for more in (1, -1, 8, -8, 18, -18, 20, -20, length + 8)}
    numbers = {*near, count, 0, 18 * count, 20 * count, back << 8, back << 16, back << 24, back + 2**8, back + 2**16, back + 2**24,
               back + 2**31, 2**32 - back, 2**32 - 1, 2**32 - 8}
    return sorted(number for number in numbers - {back} if 0 <= number < 2**32)


def bad_count_cases(dice):
    """A wrong count alone, with the distance that agrees with it, and with a distance that agrees with nothing."""
    for length, count in ((WRITTEN, 0), (WRITTEN, 1), (WRITTEN, 3), (EARLIER, 0), (EARLIER, 2)):
        body = bytes(dice.below(256) for _ in range(count * length))
        for other in wrong_counts(length, count):
            yield of_file(body + trailer(length, other, count * length))
            yield of_file(body + trailer(length, other, other * length))
            yield of_file(body + trailer(length, other, (other + 1) * length))


def bad_distance_cases(dice):
    """A wrong distance alone, and with the bytes that would agree with it."""
    for length, count in ((WRITTEN, 0), (WRITTEN, 1), (WRITTEN, 3), (EARLIER, 1), (EARLIER, 2)):
        for distance in wrong_distances(length, count):
            yield of_file(bytes(count * length) + trailer(length, count, distance))
            if distance < 200:
                yield of_file(bytes(distance) + trailer(length, count, distance))


def wrapping_cases(dice):
    """Counts and distances that agree where a product keeps 16 bits, or 8, or only its low half is compared."""
    for length, count, more in product(LENGTHS, (0, 2), (2**15, 2**14, 2**8, 2**7)):
        back = (count + more) * length
        for distance in (back % 2**16, back % 2**8, back):
            yield of_file(bytes(count * length) + trailer(length, count + more, distance))


def damaged(file, dice):
    """A good file with one to three of its last bytes changed, some bytes taken out, or some put in."""
    how, at = dice.below(4), max(0, len(file) - dice.between(1, 12))
    if how == 0:
        return file[:at] + file[at + dice.between(1, 3):]
    if how == 1:
        return file[:at] + bytes(dice.below(256) for _ in range(dice.between(1, 20))) + file[at:]
    changed = bytearray(file)
    for _ in range(dice.between(1, 3)):
        changed[-dice.between(1, min(TRAILER, len(file)))] = dice.pick((0, 1, 2, 17, 18, 20, 36, 40, 255, dice.below(256)))
    return bytes(changed)


def damage_cases(dice):
    for _ in range(75):
        for length in LENGTHS:
            count = dice.below(4)
            yield of_file(damaged(any_file(length, count, dice), dice), count)


# --- The order of refusals --------------------------------------------------------------------------------------------


def short_file_cases(dice):
    """Files under 8 bytes of every length: zeros, ones, and the end or the beginning of trailers that break other rules."""
    others = (*(trailer(length, 0, 0) for length in (*LENGTHS, 19)), trailer(EARLIER, 1, 0), trailer(WRITTEN, 3201, 64_020))
    for size in range(8):
        for file in (bytes(size), b"\xff" * size, *(other[8 - size:] for other in others), *(other[:size] for other in others)):
            yield of_file(file, 0, 1)


def broken_file(length, count, distance, size):
    """A file of so many bytes before its trailer, where each of the three others says another thing or the same."""
    return bytes(size) + trailer(length, count, distance)


def order_cases(dice):
    """Files of 2 records and of one too many with every choice of a wrong length, distance and size, into rooms that do and do not
    suffice."""
    for length in LENGTHS:
        for count, bad, off, more in product((2, MOST[length] + 1), (length, 19), (0, -1, 8), (0, -1, 1)):
            file = broken_file(bad, count, count * length + off, count * length + more)
            yield of_file(file, 0, count - 1, count, count + 1)


def small_order_cases(dice):
    """Refusals 14 and 15 together, and 11 beside them in files that have not so many records."""
    for length in LENGTHS:
        for bad, count, distance, size in product((length, 19), (0, 1, 2, MOST[length] + 1, 65_535), (0, 1), (0, length, length + 1)):
            yield of_file(broken_file(bad, count, count * length + distance, size), 0, 5)


# --- The record at an index -------------------------------------------------------------------------------------------

HUGE_INDEXES = (2**16, 2**31, 2**32, 2**32 + 1, 2**60, 2**63 - 1, 2**63, 2**63 + 1, 2**64 - 2, 2**64 - 1)


def wrapping_indexes(length):
    """The indexes whose products with a length just pass 2^64 and 2^32, those before them and those after."""
    return [2**bits // length + more for bits in (64, 32) for more in (0, 1, 2)]


def index_cases(dice):
    """Records within good files, just after them and far beyond."""
    for length, count in product(LENGTHS, range(5)):
        indexes = (*range(count + 3), *HUGE_INDEXES, *wrapping_indexes(length))
        yield {"file": any_file(length, count, dice, 1)}, [record_line(index) for index in indexes]


def unreadable_index_cases(dice):
    """Records of bytes without a trailer, and of files that cannot be read for each reason: there are none."""
    body = bytes(dice.between(1, 255) for _ in range(60))
    for size in (1, 8, 18, 20, 26, 28, 36, 40, 44, 48, 60):
        yield {"file": body[:size]}, [record_line(index) for index in (0, 1, 2, 2**63, *wrapping_indexes(WRITTEN)[:2])]
    for file in (body[:40] + trailer(19, 2, 40), body[:36] + trailer(EARLIER, 1, 18), body[:46] + trailer(EARLIER, 2, 36),
                 body[:40] + trailer(WRITTEN, 1, 20), body[:50] + trailer(WRITTEN, 2, 40), body[:40] + trailer(EARLIER, 2, 40),
                 body[:36] + trailer(WRITTEN, 2, 36)):
        yield {"file": file}, [record_line(index) for index in range(4)]
    for length, most in MOST.items():
        yield {"file": with_trailer(length, b"\x5a" * (length * (most + 1)))}, [record_line(index) for index in (0, most - 1, most, most + 1)]


# --- There and back ---------------------------------------------------------------------------------------------------


def checked_back(file):
    """The records of a good file, which the second program writes again as the same bytes where they were of the length written, and
    otherwise as a file that reads to the same records."""
    refusal, records = record_files.read(file, MOST[EARLIER])
    again = record_files.write(records, file_size(len(records)))
    assert refusal == 0 and again[0] == 0 and record_files.read(again[1], len(records)) == (0, records)
    assert (again[1] == file) == (record_files.trailer_of(file)[0] == WRITTEN)
    return records


def read_and_written_cases(dice):
    """Good files of any bytes are read, and what was read is written again, into exact room and into more, and read again."""
    for length, count in product((WRITTEN, WRITTEN, WRITTEN, EARLIER, EARLIER, EARLIER), (0, 1, 2, 3, 5, 8, 13)):
        file = with_trailer(length, bytes(dice.pick((0, 127, 128, 255, dice.below(256))) for _ in range(count * length)))
        yield {"file": file}, looked_at(count)
        yield columns_of(checked_back(file)), [write_line(file_size(count) + dice.pick((0, 0, 1, 100))), FORM_LINE, read_line(count)]
        yield {}, [record_line(index) for index in (0, count)]


def written_and_read_cases(dice):
    """Lists of any numbers are written and read back."""
    for count in (1, 2, 3, 4, 6, 10) * 5:
        records = random_records(count, dice)
        checked_back(record_files.file_of(records))
        yield columns_of(records), [write_line(file_size(count) + dice.below(3)), *looked_at(count)]


def kept_file_cases(dice):
    """A refused write leaves the held file, and an accepted one replaces it."""
    records, file = random_records(2, dice), with_trailer(EARLIER, bytes(range(EARLIER)))
    yield columns_of(records) | {"file": file}, [write_line(47), FORM_LINE, record_line(0), write_line(48), FORM_LINE, record_line(0)]


# --- Long lists -------------------------------------------------------------------------------------------------------


def unlike_cases(dice):
    """Lists in which no two records are alike, about 256."""
    records = random_records(257, dice)
    for count in (255, 256, 257):
        asked = [write_line(file_size(count) + more) for more in (-1, 1, 0)]
        yield columns_of(records[:count]), [*asked, *looked_at(count), record_line(254), record_line(255)]


LIMITS = (3199, 3200, 3201, 3599, 3600, 3601)  # counts at the limits of both lengths, and beside them


def most_cases(dice):
    """As many records as are written, one less, more, and counts that wrap in two bytes to 0, 1, 3,200 and 3,600."""
    most = MOST[WRITTEN]
    streaked = {letter: numbers + (1,) * WRAPPED for letter, numbers in streaks(MOST[EARLIER], dice).items()}
    for count in (*LIMITS, WRAPPED - 1, WRAPPED, WRAPPED + 1, WRAPPED + most, WRAPPED + MOST[EARLIER]):
        sizes = {file_size(short) + more for short in (most - 1, most, most + 1) for more in (-1, 0, 1)}
        few = {0, 7, 8, file_size(most), MOST_WRITTEN}
        rooms = sorted(few if count > MOST[EARLIER] + 1 else {*few, *sizes, 28, file_size(MOST[EARLIER], EARLIER)})
        asked = looked_at(count) + [record_line(index) for index in (255, 256, 1000, most - 2)] if count <= most else [FORM_LINE]
        yield {letter: numbers[:count] for letter, numbers in streaked.items()}, [*map(write_line, rooms), *asked]


def most_uneven_cases(dice):
    """One column in turn has as many numbers as are written, one more, one or none, and the others have more."""
    most = MOST[WRITTEN]
    lengths = (most, most + 1), (most, WRAPPED), (most + 1, WRAPPED), (0, WRAPPED), (1, WRAPPED)
    for (short, others), letter in product(lengths, LETTERS):
        yield flat(others) | {letter: (2,) * short}, [write_line(file_size(min(short, most))), FORM_LINE]


def most_read_cases(dice):
    """Files of records of each length at the limits of both, into rooms about their count; one too many is refused whatever the room."""
    for length, count in product(LENGTHS, LIMITS):
        yield of_file(with_trailer(length, b"\x5a" * (count * length)), 0, 1, count - 1, count, count + 1, MOST_READ)
        yield {}, [record_line(index) for index in (0, count - 1)]
        for at in range(8) if MOST[length] <= count <= MOST[length] + 1 else ():
            yield {}, [read_line(*with_field((count,) * 8, at, count - 1)), read_line(*with_field((MOST_READ,) * 8, at, count))]


def streaked_cases(dice):
    """The longest files of each length, in which records far apart are not alike."""
    for length, most in MOST.items():
        yield {"file": streaked_file(length, most, dice)}, looked_at(most) + [record_line(index) for index in (255, 256, 1000, most - 2)]


def earlier_most_cases(dice):
    """A file of the earlier length with as many records as are written is read, and they are written again, in exact room and not in a byte
    less; one with a record more is read too, and nothing is written of it."""
    most = MOST[WRITTEN]
    for count in (most, most + 1):
        file = streaked_file(EARLIER, count, dice, (300, 600))
        yield {"file": file}, looked_at(count)
        _, records = record_files.read(file, count)
        rooms = file_size(most) - 1, file_size(most), file_size(count), MOST_WRITTEN
        yield columns_of(records), [*map(write_line, rooms), *(looked_at(count) if count == most else [FORM_LINE])]


def largest_count_cases(dice):
    """Counts up to 65,535 whose distance agrees, in a file that has so many records, in one that is a byte off, and in short ones."""
    for length, most in MOST.items():
        for count in (most + 2, 4096, 2**15 - 1, 2**15, 2**15 + most, 65_535):
            distance = count * length
            for size in (distance, distance - 1, distance + 1, distance - length, length):
                yield of_file(broken_file(length, count, distance, size), 0, MOST_READ)
        for bad, distance in ((19, 65_535 * length), (length, 65_535 * length - 1)):
            yield of_file(broken_file(bad, 65_535, distance, 65_535 * length), 0, MOST_READ)


SECTIONS = (unset_cases, worked_cases, field_cases, earlier_field_cases, field_place_cases, room_cases, read_room_cases, empty_read_cases,
            uneven_cases, random_length_cases, cut_cases, repeated_trailer_cases, bad_length_cases, other_length_cases, bad_count_cases,
            bad_distance_cases, wrapping_cases, damage_cases, short_file_cases, small_order_cases, index_cases, unreadable_index_cases,
            read_and_written_cases, written_and_read_cases, kept_file_cases, unlike_cases, order_cases, most_read_cases, streaked_cases,
            most_cases, earlier_most_cases, most_uneven_cases, largest_count_cases)


def cases():
    for section in SECTIONS:
        yield from section(Dice(section.__name__))


def lines():
    """The lines of each case, after the `column` and `file` lines that change what is held."""
    held = Held()
    for wanted, questions in cases():
        for line in [*changes(held, held._replace(**wanted)), *questions]:
            assert len(line) <= LONGEST_LINE
            held = held_after(line, held)
            yield line
