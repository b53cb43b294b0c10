"""Vectors for comparisons: `first` and `compare ROOM`, after the `file` lines that they need.

A section yields cases: two files, and the rooms in which they are compared. Files are of either record length where their Duv fit
both. `check_laws` tries what No. 7 says of any two files on the second program by force, on more files than the vectors have."""

from itertools import chain, product

import document_cases
import file_differences
import record_cases
from compare_lines import MOST_LISTED, compare_line
from dice import Dice
from file_differences import NUMBERS
from record_cases import (EARLIER, LENGTHS, MOST, ONES, OTHERS, UNLIKE, WRITTEN, ZEROS, bits_of, extremes, random_number, random_records,
                          streaked_file, trailer, with_field, with_trailer)
from record_files import file_by, file_of
from record_lines import FIRST_LINE, LETTERS, LONGEST_LINE, MOST_FIRST_BYTES, SIGNED, Held, changes, file_line


# --- Cases ------------------------------------------------------------------------------------------------------------


def room_for(first, second):
    """How many numbers the entries of two files take; 0 where a file cannot be read."""
    return NUMBERS * len(file_differences.compare(first, second, MOST_LISTED)[2])


def about(first, second, *more):
    """Two files in exact room, and in so many numbers more or less, as far as there are any."""
    exact = room_for(first, second)
    return first, second, [room for room in (exact, *(exact + each for each in more)) if room >= 0]


DUV = LETTERS.index(SIGNED)


def is_narrow(duv):
    """Whether a Duv fits records of the earlier length."""
    return -2**15 <= duv < 2**15


def length_for(records, dice):
    """A record length that some records fit; in two cases of three the earlier one where they fit both."""
    return dice.pick((WRITTEN, EARLIER, EARLIER)) if all(is_narrow(record[DUV]) for record in records) else WRITTEN


def of_records(first, second, dice, *more):
    """The files of two lists, each of a record length that it fits."""
    return about(*(file_by(length_for(records, dice), records) for records in (first, second)), *more)


def another_number(letter, number, dice):
    """Another number of a field, which fits the earlier length where the first one does."""
    other = random_number(letter, dice, EARLIER if is_narrow(number) else WRITTEN)
    return other if other != number else another_number(letter, number, dice)


def with_changes(records, fields, dice):
    """The records with another number at each (record, field)."""
    changed = list(records)
    for at, field in fields:
        changed[at] = with_field(changed[at], field, another_number(LETTERS[field], records[at][field], dice))
    return changed


# --- document_cases.py ------------------------------------------------------------------------------------------------


def worked_cases(dice):
    for first, second, _ in document_cases.COMPARED_FILES:
        yield about(bytes.fromhex(first), bytes.fromhex(second), -1, 1)
    for first, second, room, _ in document_cases.UNCOMPARED_FILES:
        yield bytes.fromhex(first), bytes.fromhex(second), (room,)


# --- Which contents differ --------------------------------------------------------------------------------------------

# Numbers that another order of bytes, another sign or half of the bits would mix up.
MIXED_UP = {8: ((0x0F, 0xF0),), 16: ((0x00FF, 0xFF00), (0x0100, 0x0001), (0x1234, 0x3412), (0x7FFF, 0x8000)),
            32: ((0x000000FF, 0xFF000000), (0x00FF0000, 0x0000FF00), (0x01000000, 0x00000001), (0x01020304, 0x04030201),
                 (0x0000FFFF, 0xFFFF0000), (0x7FFFFFFF, 0x80000000))}
MIXED_UP_DUVS = ((0x00FF, -256), (0x0100, 0x0001), (0x1234, 0x3412), (-2, 2), (-1, 1), (-32_768, 32_767), (-1, 255), (-256, -1),
                 (0x0000FFFF, -65_536), (0x01000000, 1), (0x01020304, 0x04030201), (-2**31, 2**31 - 1), (-1, 65_535), (-50_000, 15_536),
                 (65_541, 5), (32_768, -32_768))


def number_pairs(letter):
    """Pairs of numbers of a field: neighbours among its extremes, the least beside each other one, and those that are mixed up."""
    numbers = extremes(letter)
    pairs = {*zip(numbers, numbers[1:]), *((numbers[0], other) for other in numbers[1::2])}
    return sorted(pairs) + list(MIXED_UP_DUVS if letter in SIGNED else MIXED_UP[bits_of(letter)])


def field_cases(dice):
    """One field is different in one record, either way round, beside zeros, ones in every bit or bytes that all differ."""
    for at, letter in enumerate(LETTERS):
        for pair in number_pairs(letter):
            others = dice.pick(OTHERS)
            one, other = (with_field(others, at, number) for number in pair)
            yield of_records([one], [other], dice, dice.pick((-1, -2, -3, -4)))
            yield of_records([other], [one], dice, dice.pick((1, 2, 3, 4, 7)))


def byte_cases(dice):
    """One byte of two records is different, beside zeros or beside bytes of 255."""
    for length in LENGTHS:
        for at in range(2 * length):
            same = bytes([dice.pick((0x00, 0xFF))]) * (2 * length)
            body = bytearray(same)
            body[at] ^= dice.pick((0x01, 0x80, 0xFF))
            yield about(with_trailer(length, same), with_trailer(length, bytes(body)), 4)


def both_lengths_cases(dice):
    """The same records in files of either length; and one field, then all of them, different in one record of three."""
    pairs = list(product(LENGTHS, repeat=2))
    for records in ([], [ZEROS], [UNLIKE], [ONES, ZEROS], [with_field(ZEROS, DUV, duv) for duv in extremes(SIGNED, EARLIER)]):
        for one, other in pairs:
            yield about(file_by(one, records), file_by(other, records), 1)
            yield about(file_by(one, records), file_by(other, records[1:]), -1)
    for (one, other), field in product(pairs, (*range(8), None)):
        records = random_records(3, dice, EARLIER)
        fields = [(dice.below(3), field)] if field is not None else [(1, each) for each in range(8)]
        yield about(file_by(one, records), file_by(other, records), 3)
        yield about(file_by(one, records), file_by(other, with_changes(records, fields, dice)), -1)


def wide_duv_cases(dice):
    """A Duv that only one of the two lengths has, beside every one that both have, from its upper half or its lower one."""
    for duv in extremes(SIGNED, EARLIER):
        for wide in (duv + 2**16, duv - 2**16, duv << 16):
            earlier, written = (file_by(length, [with_field(UNLIKE, DUV, number)]) for length, number in ((EARLIER, duv), (WRITTEN, wide)))
            yield about(*dice.pick(((earlier, written), (written, earlier))), -1)


def subset_cases(dice):
    """Every choice of fields is different in one record, the last of three."""
    for chosen in range(2**8):
        records = random_records(3, dice)
        fields = [(2, field) for field in range(8) if chosen >> field & 1]
        yield of_records(records, with_changes(records, fields, dice), dice, *((-1,) if fields else (1,)))


def two_record_cases(dice):
    """One field of record 0 and one of record 1 are different, so that fields in their order are not records in theirs."""
    for before, after in product(range(8), repeat=2):
        records = random_records(2, dice)
        yield of_records(records, with_changes(records, [(0, before), (1, after)], dice), dice, dice.pick((-5, -4, -1, 3)))


def equal_cases(dice):
    """Equal files, in no room and in some; a file beside itself with a record more, less, twice or moved."""
    for count in (0, 1, 2, 3, 5, 17):
        records = random_records(count, dice)
        yield of_records(records, records, dice, 1, 3, 4, 5)
        moved = records[1:] + records[:1], records[::-1], [*records, ZEROS], [ZEROS, *records]
        for other in (records[1:], records[:-1], records + records, *moved):
            yield of_records(records, other, dice, -1)


# --- Records that one file alone has ----------------------------------------------------------------------------------


def length_cases(dice):
    """Files of up to four records each: those that both have are equal, or differ in some fields, or in all."""
    for many, few in product(range(5), repeat=2):
        records = random_records(5, dice, dice.pick(LENGTHS))
        places = list(product(range(5), range(8)))
        for fields in ((), [dice.pick(places) for _ in range(4)], places):
            yield of_records(records[:many], with_changes(records, fields, dice)[:few], dice, *range(-4, 5), -8)


def zero_record_cases(dice):
    """Records of zeros, which are records all the same, and records that begin or end with the bytes of an empty file."""
    begins, ends = (20, 0, 0, 0, 0, 0, 0, 0), (0, 0, 0, 20, 0, 0, 0, 0)
    for records in ([ZEROS], [ZEROS] * 3, [begins], [ends], [ONES]):
        for other in ([], [ZEROS], [ONES, ZEROS], [ZEROS] * 4):
            yield of_records(records, other, dice, -1, 1)
            yield of_records(other, records, dice, -2, 2)


# --- Rooms ------------------------------------------------------------------------------------------------------------


def room_cases(dice):
    """Every room up to three more than it takes: fields that differ, extra records, and both."""
    records = random_records(3, dice, EARLIER)
    for many, few, fields in ((3, 3, ((0, 0), (1, 5), (2, 7))), (3, 0, ()), (0, 3, ()), (2, 3, ((0, 6), (1, 1))), (3, 2, ((1, 5), (1, 6)))):
        first, second = file_of(records[:many]), file_by(EARLIER, with_changes(records, fields, dice)[:few])
        yield first, second, range(room_for(first, second) + 4)


# --- Files that cannot be read ----------------------------------------------------------------------------------------

UNREADABLE = {
    13: (b"", bytes(7), b"\xff", trailer(WRITTEN, 0, 0)[1:]),
    14: (trailer(19, 0, 0), bytes(17) + trailer(17, 1, 17), trailer(0x1400, 0, 0), bytes(8), bytes(20) + trailer(40, 1, 20)),
    15: (trailer(WRITTEN, 1, 20), bytes(EARLIER) + trailer(EARLIER, 0, 0), trailer(WRITTEN, 0, 8), bytes(EARLIER) + trailer(WRITTEN, 1, 18),
         bytes(WRITTEN) + trailer(EARLIER, 1, 20), bytes(WRITTEN + 1) + trailer(WRITTEN, 1, 20)),
    11: (*(with_trailer(length, bytes((most + 1) * length)) for length, most in MOST.items()), with_trailer(WRITTEN, b"\x5a" * 72_000)),
}


def unreadable_pair_cases(dice):
    """Every two ways in which both files cannot be read, with room and without."""
    for one, other in product(UNREADABLE, repeat=2):
        for first, second in ((UNREADABLE[one][0], UNREADABLE[other][0]), (dice.pick(UNREADABLE[one]), dice.pick(UNREADABLE[other]))):
            yield first, second, (0, 6)


def one_unreadable_cases(dice):
    """Every file that cannot be read, as the first and as the second, beside an empty file, a short one and the longest; the room may not
    suffice even for what could be read."""
    good = (file_of([]), file_of(random_records(2, dice)), with_trailer(EARLIER, bytes(MOST[EARLIER] * EARLIER)))
    for bad, other in product(chain(*UNREADABLE.values()), good):
        yield bad, other, (0, 9)
        yield other, bad, (0, 9)


DAMAGES = (record_cases.cut_cases, record_cases.repeated_trailer_cases, record_cases.bad_length_cases, record_cases.other_length_cases,
           record_cases.bad_distance_cases, record_cases.wrapping_cases, record_cases.short_file_cases, record_cases.small_order_cases,
           record_cases.largest_count_cases)


def damaged_cases(dice):
    """Every other damaged file of record_cases.py, now as the first, now as the second, beside a file of one record."""
    other = file_of([UNLIKE])
    files = [wanted["file"] for section in DAMAGES for wanted, _ in section(dice) if "file" in wanted]
    for at, file in enumerate(files[::2]):
        room = dice.pick((0, 3, 4, 12, 40))
        yield (file, other, (room,)) if at % 2 and len(file) <= MOST_FIRST_BYTES else (other, file, (room,))


# --- Any files --------------------------------------------------------------------------------------------------------


def random_pair(dice):
    """A list of a few records, some of zeros, and the same with some numbers changed, some records more or less, or all moved on."""
    length = dice.pick(LENGTHS)
    records = [record if dice.below(5) else ZEROS for record in random_records(dice.below(7), dice, length)]
    places = list(product(range(len(records)), range(8)))
    fields = [dice.pick(places) for _ in range(dice.pick((0, 1, 2, 9)))] if places else []
    kept, more = dice.pick((99, 99, dice.below(7))), dice.pick((0, 0, dice.below(3)))
    other = with_changes(records, fields, dice)[:kept] + random_records(more, dice, length)
    moved = other if dice.below(6) else other[1:] + other[:1]
    return (records, moved) if dice.below(2) else (moved, records)


def random_cases(dice):
    for _ in range(200):
        yield of_records(*random_pair(dice), dice, dice.pick((-1, -2, -3, -4, -8, 1, 2, 3, 4, 11)))


# --- Long files -------------------------------------------------------------------------------------------------------


def changed_at(file, *places):
    """The file with all bits of some bytes turned round."""
    changed = bytearray(file)
    for at in places:
        changed[at] ^= 0xFF
    return bytes(changed)


def wide_number_cases(dice):
    """Record numbers that do not fit one byte: extra ones, and fields that differ about 256 and at the end."""
    for count, length in product((255, 256, 257, 300), LENGTHS):
        longer, shorter = streaked_file(length, count, dice), with_trailer(dice.pick(LENGTHS), b"\x11" * (180 * 25))
        ends = [length * record + dice.below(length) for record in (0, 253, 254, count - 1)]
        yield about(longer, changed_at(longer, *ends), -1, 4)
        yield about(longer, with_trailer(length, longer[:254 * length]), -1)
        yield about(shorter, longer, -4)


def most_cases(dice):
    """As many records as there may be, beside the same, beside others in a few bytes, beside one record less, and beside none."""
    for length, most in MOST.items():
        file, size = streaked_file(length, most, dice), most * length
        yield about(file, file, 1)
        yield about(file, changed_at(file, size - 1), -1)
        yield about(changed_at(file, 0, size // 2, size - length), file, -1)
        shorter = with_trailer(length, file[:size - length])
        yield about(file, shorter, -1)
        yield about(shorter, file, 1)
        yield about(file, file_of([]), -4)
        yield about(file_of([]), file, -1)


def limit_cases(dice):
    """Files at the limits of both lengths beside an empty one, as the first and as the second, and beside each other: those of the other
    length have the same records, or more."""
    for length, count in product(LENGTHS, (3200, 3201, 3600, 3601)):
        file = with_trailer(length, b"\x5a" * (length * count))
        yield about(file, file_of([]))
        yield about(file_by(EARLIER, []), file, -1)
    zeros = {(length, count): with_trailer(length, bytes(length * count)) for length in LENGTHS for count in (3200, 3201, 3600)}
    for one, other in (((20, 3200), (18, 3200)), ((18, 3201), (20, 3200)), ((20, 3200), (18, 3600)), ((18, 3200), (20, 3201))):
        yield about(zeros[one], zeros[other])


def every_field_cases(dice):
    """All 28,800 fields are different, and nearly all; exact room, one number less and some more."""
    size = MOST[EARLIER] * EARLIER
    zeros, ones = (with_trailer(EARLIER, bytes([byte]) * size) for byte in (0x00, 0xFF))
    yield about(zeros, ones, -1, 64)
    yield about(ones, streaked_file(EARLIER, MOST[EARLIER], dice), -1)
    yield about(with_trailer(WRITTEN, b"\xff" * (MOST[WRITTEN] * WRITTEN)), zeros, -1)


SECTIONS = (worked_cases, both_lengths_cases, field_cases, wide_duv_cases, byte_cases, subset_cases, two_record_cases, equal_cases,
            length_cases, zero_record_cases, room_cases, unreadable_pair_cases, one_unreadable_cases, damaged_cases, random_cases,
            wide_number_cases, most_cases, limit_cases, every_field_cases)


# --- The laws, by force -----------------------------------------------------------------------------------------------


def swapped(entry):
    """The entry of the files the other way round."""
    record, field, first, second = entry
    return record, {8: 9, 9: 8}.get(field, field), second, first


def mended(records, entries, most):
    """The first list, changed to what the entries say of the second; a record that only the second has stands there as its number."""
    held = {index: list(record) for index, record in enumerate(records)}
    for record, field, first, second in entries:
        if field < 8:
            assert held[record][field] == first != second
            held[record][field] = second
        elif field == 8:
            del held[record]
        else:
            held[record] = record
    assert sorted(held) == list(range(most))
    return [held[index] for index in range(most)]


def check_pair(first, second, dice):
    """The entries rise, each once; they lead from the first list to the second, whatever the record lengths; and swapping the files swaps
    them."""
    files = [file_by(length_for(records, dice), records) for records in (first, second)]
    which, refusal, entries = file_differences.compare(*files, MOST_LISTED)
    assert (which, refusal) == (0, 0) and (entries == []) == (first == second)
    places = [(field > 7, record, field) for record, field, _, _ in entries]
    assert places == sorted(set(places)), (first, second, entries)
    known = [list(record) if index < len(first) else index for index, record in enumerate(second)]
    assert mended(first, entries, len(second)) == known, (first, second, entries)
    _, _, back = file_differences.compare(*reversed(files), MOST_LISTED)
    assert back == [swapped(entry) for entry in entries], (entries, back)


def check_laws():
    dice = Dice("laws of comparisons")
    for _ in range(500):
        check_pair(*random_pair(dice), dice)


# --- All of them ------------------------------------------------------------------------------------------------------


def cases():
    for section in SECTIONS:
        yield from section(Dice("comparisons: " + section.__name__))


def lines():
    """The lines of each case, after those that change what is held. At first no file was ever made the first, and both are then empty."""
    check_laws()
    held = Held()
    yield from (compare_line(0), compare_line(5), file_line(b""), FIRST_LINE)
    for first, second, rooms in cases():
        wanted = held._replace(first=first, file=second)
        assert len(first) <= MOST_FIRST_BYTES
        for line in [*changes(held, wanted), *map(compare_line, rooms)]:
            assert len(line) <= LONGEST_LINE
            yield line
        held = wanted
