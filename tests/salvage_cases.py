"""Vectors for salvage: `salvage LENGTH ROOM ROOM EDGES..`, after the `file` lines that they need.

A section yields cases: bytes in parts, each part so many times; a record length; edges; and by how much each pair of rooms is over or
under what the new file and the list take. Short bodies come before long ones. `check_laws` tries what No. 9 says of any bytes on the
second program by force, on more bodies than the vectors have."""

from itertools import product

import document_cases
import record_files
import reference as ref
import salvages
from answer_cases import WIDE_EDGES, any_edges
from compare_cases import DUV, another_number, is_narrow
from core_cases import edges_about, edges_around, rising_edges, spoilt
from dice import Dice
from readings import (admitted, at_the_earlier_limit, at_the_limit, behind_an_end, beside_the_limit, best_outside, comparisons, entry_ties,
                      level_ties, search_ties)
from record_cases import EARLIER, LENGTHS, MOST, ONES, TRAILER, WRITTEN, ZEROS, bits_of, file_size, random_records, with_field, with_trailer
from record_files import RECORDS
from record_lines import LETTERS, LONGEST_LINE, MOST_BYTES, MOST_WRITTEN, SIGNED, as_signed, repeats_line
from salvage_lines import salvage_line

TEXT_EDGES = ref.TEXT_EDGES
STEPS, CLASS = 6, 7
ANSWERED = range(2, 8)  # the fields that the search answers
MOST_STEPS = ref.MOST_STEPS


# --- Records and bodies -----------------------------------------------------------------------------------------------


def answer_record(reading, steps, edges):
    """The record of a reading with the fields that the search finds, whether or not the reading is refused."""
    _, *fields = ref.accepted_answer(reading, edges, steps)
    return *reading, *fields


def good_record(dice, edges, length=WRITTEN):
    """The record of an accepted answer, whose Duv fits records of a length."""
    while True:
        record = answer_record(admitted(dice), dice.below(MOST_STEPS + 1), edges)
        if length == WRITTEN or is_narrow(record[DUV]):
            return record


def good_records(count, dice, edges, length=WRITTEN):
    return [good_record(dice, edges, length) for _ in range(count)]


def brought_to(number, letter, length):
    """A number by the bits that its field has in records of a length."""
    bits = bits_of(letter, length)
    return as_signed(number % 2**bits, bits) if letter in SIGNED else number % 2**bits


def packed(length, *records):
    """Records of a length after one another, each number by the bits of its field."""
    return b"".join(RECORDS[length].pack(*(brought_to(n, letter, length) for n, letter in zip(record, LETTERS))) for record in records)


def with_changed(record, field, more, length):
    """The record with another number in a field, by so much more or less."""
    return with_field(record, field, brought_to(record[field] + more, LETTERS[field], length))


def with_another(record, field, dice, length):
    """The record with another number in a field: one more or less, or any."""
    more = dice.pick((-1, 1, another_number(LETTERS[field], record[field], dice) - record[field]))
    return with_changed(record, field, more, length)


def bad_record(dice, edges, length):
    """A record that is dropped: a good one with another number where the answer has one, or numbers that are no reading's."""
    spoilt = with_another(good_record(dice, edges, length), dice.pick(ANSWERED), dice, length)
    return dice.pick((spoilt, *random_records(1, dice, length), ZEROS, ONES))


EXACT = (0, 0)


def of(data, length, edges, *more):
    """The case of some bytes, in exact rooms and in others."""
    return [(data, 1)], length, edges, (EXACT, *more)


def of_records(records, length, edges, *more):
    return of(packed(length, *records), length, edges, *more)


# --- document_cases.py, and no bytes ----------------------------------------------------------------------------------


def worked_cases(dice):
    for text, length, edges, *_ in document_cases.SALVAGED_FILES:
        yield of(bytes.fromhex(text), length, edges, (-1, 0), (1, 1), (30, 30))
    for text, length, edges, *_ in document_cases.UNSALVAGED_FILES:
        if len(text) < 1000:
            yield of(bytes.fromhex(text), length, edges, (40, 3))


def few_bytes_cases(dice):
    """No bytes, and fewer than a record has: nothing is kept, which takes 8 bytes, and all are left over."""
    for length in LENGTHS:
        for size in (0, 1, 7, 8, 9, 17, 18, 19):
            for data in (bytes(size), b"\xff" * size, with_trailer(length, b"")[:size]):
                yield of(data, length, TEXT_EDGES, (-1, 0), (-8, 0), (1, 0), (20, 2))


# --- Bodies that were cut ---------------------------------------------------------------------------------------------


def cut_cases(dice):
    """A good file of three records, cut at every byte, those of its trailer too."""
    for length in LENGTHS:
        edges = any_edges(dice)
        file = with_trailer(length, packed(length, *good_records(3, dice, edges, length)))
        for size in range(len(file) + 1):
            yield of(file[:size], length, edges, dice.pick(((0, 1), (1, 0), (-1, 0), (20, 3))))


def intact_cases(dice):
    """Good files: their trailer is left over. Then bytes after it, another file after it, and trailers alone."""
    for length, count in product(LENGTHS, (0, 1, 2, 5)):
        edges = any_edges(dice)
        file = with_trailer(length, packed(length, *good_records(count, dice, edges, length)))
        other = with_trailer(EARLIER + WRITTEN - length, b"")
        for data in (file, file + b"\0", file + bytes(length - TRAILER), file + file, file[-TRAILER:] * 9, other + file, file + other):
            yield of(data, length, edges, (-1, 0), (0, 1))


def shifted_cases(dice):
    """A byte is lost, or one more stands there, at each place of a body of three records: what follows is no longer what it was."""
    for length in LENGTHS:
        edges = any_edges(dice)
        data = packed(length, *good_records(3, dice, edges, length))
        for at in range(0, 2 * length + 2):
            yield of(data[:at] + data[at + 1:], length, edges)
            yield of(data[:at] + bytes([dice.below(256)]) + data[at:], length, edges)


# --- Records that are wrong in one field ------------------------------------------------------------------------------


def field_cases(dice):
    """Each field of the second of three records is wrong by one, up and down, or is another number."""
    for length, _ in product(LENGTHS, range(8)):
        edges = any_edges(dice)
        first, record, last = good_records(3, dice, edges, length)
        for field, more in product(range(8), (-1, 1, None)):
            other = another_number(LETTERS[field], record[field], dice) - record[field] if more is None else more
            yield of_records([first, with_changed(record, field, other, length), last], length, edges)


def bit_cases(dice):
    """Each bit of a record is the other one, before the record itself."""
    for length in LENGTHS:
        edges = any_edges(dice)
        good = packed(length, good_record(dice, edges, length))
        for bit in range(8 * length):
            changed = bytearray(good)
            changed[bit // 8] ^= 1 << bit % 8
            yield of(bytes(changed) + good, length, edges)


def moved_field_cases(dice):
    """Two fields are swapped, or one has the number that another has."""
    for length, (one, other) in product(LENGTHS, product(range(8), repeat=2)):
        edges = any_edges(dice)
        record = good_record(dice, edges, length)
        moved = with_field(record, one, record[other])
        yield of_records([moved if one < other else with_field(moved, other, record[one]), record], length, edges)


def duv_cases(dice):
    """Duv with the other sign, and numbers that agree with it in half of its bits, above and below zero."""
    for length, below in product(LENGTHS, (False, True) * 4):
        edges, record = any_edges(dice), ZEROS
        while record[DUV] == 0 or (record[DUV] < 0) != below:
            record = good_record(dice, edges, length)
        duv = record[DUV]
        others = (-duv, ~duv, duv % 2**16, duv % 2**15, duv + 2**16, duv - 2**16, duv << 16, duv + 2**31, duv + 2**15, abs(duv) + 2**31)
        yield of_records([with_field(record, DUV, other) for other in (duv, *others, duv)], length, edges)


def wide_duv_cases(dice):
    """Duv that records of 18 bytes have no room for, at either length; in those its upper half is lost."""
    for sign in (-1, 1) * 4:
        edges, record = any_edges(dice), ZEROS
        while is_narrow(record[DUV]) or record[DUV] * sign < 0:
            record = answer_record(admitted(dice, 45_000), dice.below(15), edges)
        for length in LENGTHS:
            yield of_records([record, with_changed(record, DUV, 1, length), record], length, edges)


# --- Steps ------------------------------------------------------------------------------------------------------------

LABELS = (*range(18), 28, 29, 127, 128, 142, 254, 255)


def steps_cases(dice):
    """What the search finds after each number of steps, with every number of steps on it: one of them is the record's own."""
    for length, _ in product(LENGTHS, range(2)):
        edges, record = any_edges(dice), good_record(dice, WIDE_EDGES, EARLIER)
        found = [answer_record(record[:2], steps, edges) for steps in range(MOST_STEPS + 1)]
        yield of_records(found, length, edges, (-1, 0), (1, 1))
        for each in found:
            yield of_records([with_field(each, STEPS, label) for label in LABELS], length, edges)


def many_steps_cases(dice):
    """Steps over 14 on what the search finds after 14 of them, and on what it finds after fewer."""
    for length, steps in product(LENGTHS, (15, 16, 28, 255)):
        edges, record = any_edges(dice), good_record(dice, WIDE_EDGES, EARLIER)
        found = [answer_record(record[:2], allowance, edges) for allowance in (14, 13, 0, steps % 15, steps % 16)]
        yield of_records([with_field(each, STEPS, steps) for each in found] + found[:1], length, edges, (-1, 0), (0, -1))


# --- Readings that are refused ----------------------------------------------------------------------------------------

OUT_OF_RANGE = ((ref.WHOLE_LIMIT + 1, 327_100), (219_300, ref.WHOLE_LIMIT + 1), (2**32 - 1, 2**32 - 1), (2**32 - 1, 0), (2**31, 349_510))
TOO_FAR = ((0, 0), (ref.WHOLE_LIMIT, ref.WHOLE_LIMIT), (345_070, 310_529), (255_910 + 2**16, 349_510), (255_910, 349_510 + 50_001))
BEHIND = tuple(reading for ends in ((1, 2), (24, 23)) for reading in behind_an_end(*ends, 2))


def refused_reading_cases(dice):
    """Readings out of range, too far and behind an end, or just not, with fields of zeros, with those that the search would find, and with
    no class; a good record stands between them."""
    for length, reading in product(LENGTHS, (*OUT_OF_RANGE, *TOO_FAR, *BEHIND)):
        edges, steps = any_edges(dice), dice.below(MOST_STEPS + 1)
        found = answer_record(reading, steps, edges)
        zeros = (*reading, *ZEROS[2:])
        good = good_record(dice, edges, length)
        yield of_records([zeros, found, good, with_field(found, CLASS, 255), with_field(zeros, STEPS, steps), with_field(zeros, CLASS, 255)],
                         length, edges, (0, -1))


def sample(readings, count, dice):
    return [dice.pick(readings) for _ in range(count)]


def limit_cases(dice):
    """Readings at the limit of 0.05 and beside it, and at the limit before No. 8, whose Duv every record has room for."""
    for reading in sample(at_the_limit(), 24, dice) + beside_the_limit(dice, 8):
        edges = any_edges(dice)
        yield of_records([answer_record(reading, dice.below(15), edges) for _ in range(2)], WRITTEN, edges)
    for reading, length in product(sample(at_the_earlier_limit(), 8, dice), LENGTHS):
        edges = any_edges(dice)
        yield of_records([answer_record(reading, dice.below(15), edges) for _ in range(2)], length, edges)


def hard_reading_cases(dice):
    """Readings with ties, and readings whose nearest point is outside the bracket, each at two step counts and in two bodies."""
    readings = search_ties(dice, comparisons, 6) + level_ties(dice, 3) + best_outside(dice, 8)
    readings += [reading for reading in entry_ties(dice, 8) if ref.answer("whole", reading, WIDE_EDGES, 0).refusal == 0]
    for reading in readings:
        edges = any_edges(dice)
        record = answer_record(reading, dice.below(15), edges)
        yield of_records([record, with_field(record, 2, record[3]), with_field(record, 2, record[4])], WRITTEN, edges)
        yield of_records([answer_record(reading, 14, edges), with_field(record, 3, record[4])], dice.pick(LENGTHS), edges)


# --- Edges ------------------------------------------------------------------------------------------------------------


def other_edges_cases(dice):
    """Records that were made with some edges, and the same bytes with others: only those of the same class are kept."""
    for length, _ in product(LENGTHS, range(16)):
        reading = good_record(dice, WIDE_EDGES, length)[:2]
        found = ref.found_after(reading, 14)
        lists = [dice.pick((edges_about, edges_around))(found, dice) for _ in range(3)]
        lists = [edges for edges in (*lists, TEXT_EDGES, WIDE_EDGES) if ref.edges_valid(edges)]
        records = [answer_record(reading, steps, edges) for edges, steps in product(lists, (14, 0))]
        for edges in lists:
            yield of_records(records, length, edges)


def edge_list_cases(dice):
    """Edges that are valid, and edges that are not: no edge, one, equal ones, falling ones, one out of range, and 33 of them."""
    record = good_record(dice, WIDE_EDGES, EARLIER)
    long = rising_edges(dice, 33)
    lists = [(), (1600,), (20_001,), (5000, 5000), (5000, 4000), (1599, 20_001), (1600, 20_002), (0, 5000), (1600, 2**32 - 1),
             (1600, 2500, 2500, 20_001), (1600, 3500, 2500, 20_001), WIDE_EDGES, (1600, 1601), (20_000, 20_001), long, long[:32], long[1:],
             spoilt(long[:32], dice), spoilt(long[:5], dice)]
    for edges, length in product(lists, LENGTHS):
        records = [with_field(record, CLASS, ref.class_of(edges, ref.found_after(record[:2], record[STEPS]))), record]
        yield of_records(records, length, edges, (-1, 0), (40, 2))
        yield of(b"", length, edges)


# --- Record lengths ---------------------------------------------------------------------------------------------------

BAD_LENGTHS = (0, 1, 2, 4, 8, 9, 10, 16, 17, 19, 21, 22, 36, 38, 40, 180, 255, 256, 274, 276, 360, 18 * 256, 20 * 256, 2**15 + 20,
               2**16 + 18, 2**16 + 20, 2**32 + 18, 2**32 + 20, 2**63 + 18, 2**63 + 20, 2**64 - 20, 2**64 - 18, 2**64 - 1)


def length_cases(dice):
    """Record lengths other than 18 and 20, over no bytes and over records of both."""
    for bad in BAD_LENGTHS:
        for length in LENGTHS:
            data = packed(length, *good_records(2, dice, TEXT_EDGES, length))
            yield of(data, bad, TEXT_EDGES, dice.pick(((0, 2), (40, 0), (40, 2))))
        yield of(dice.pick((b"", bytes(36), bytes(180))), bad, TEXT_EDGES)


def other_length_cases(dice):
    """A body of one record length taken for one of the other; 180 bytes are nine records of 20 and ten of 18."""
    for length, count in product(LENGTHS, (1, 2, 3, 9, 10)):
        edges = any_edges(dice)
        data = packed(length, *good_records(count, dice, edges, EARLIER))
        for taken in LENGTHS:
            yield of(data, taken, edges, (1, 0), (0, -1))
            yield of(with_trailer(length, data), taken, edges)


def both_ways_record(dice):
    """A record with no step, class 0 and a Duv from 0 on, whose first 18 bytes are the same record."""
    while True:
        reading = admitted(dice)
        record = answer_record(reading, 0, WIDE_EDGES)
        if 0 <= record[DUV] and is_narrow(record[DUV]):
            return record


def both_ways_cases(dice):
    """A first record that is kept at either length, with records of the one or the other after it."""
    for length, count in product(LENGTHS, range(3)):
        data = packed(WRITTEN, both_ways_record(dice))[:length]
        data += packed(length, *good_records(count, dice, WIDE_EDGES, EARLIER))
        for taken in LENGTHS:
            yield of(data, taken, WIDE_EDGES)


# --- Which are kept, and in what rooms --------------------------------------------------------------------------------


def mixed(pattern, dice, edges, length):
    """Records of which those are kept whose bit is 1."""
    return [(good_record if keep else bad_record)(dice, edges, length) for keep in pattern]


def pattern_cases(dice):
    """Every choice of which of five records are kept."""
    for length, pattern in product(LENGTHS, product((0, 1), repeat=5)):
        edges = any_edges(dice)
        yield of_records(mixed(pattern, dice, edges, length), length, edges, dice.pick(((-1, 0), (0, -1), (7, 1))))


def room_cases(dice):
    """Up to two records kept and up to two dropped, with each target exact, short and large, and both short."""
    for length, kept, dropped in product(LENGTHS, range(3), range(3)):
        edges = any_edges(dice)
        records = mixed((1,) * kept + (0,) * dropped, dice, edges, length)
        more = list(product((-1, 0, 1), repeat=2)) + [(-8, 0), (-20, 0), (-2 * kept, 0), (-TRAILER - 20 * kept, -dropped), (0, -dropped)]
        more += [(20 * dropped, 0), (20 * dropped - 1, 0), (0, kept), (0, 7 * dropped), (200, -1), (-1, 50)]
        yield of_records(records, length, edges, *more)


def same_record_cases(dice):
    """One record several times over, and a dropped one several times over."""
    for length, pattern in product(LENGTHS, ((1, 1, 1), (0, 0, 0), (1, 0, 1, 0), (0, 1, 1, 0))):
        edges = any_edges(dice)
        records = good_record(dice, edges, length), bad_record(dice, edges, length)
        yield of_records([records[1 - keep] for keep in pattern], length, edges, (-1, -1))


def again_cases(dice):
    """What was salvaged, salvaged again at either length: at its own every record is kept and its trailer is left over."""
    for length, _ in product(LENGTHS, range(8)):
        edges = any_edges(dice)
        pattern = [dice.below(2) for _ in range(dice.below(7))]
        data = packed(length, *mixed(pattern, dice, edges, length)) + bytes(dice.below(length))
        yield of(data, length, edges)
        _, (kept, *_) = salvages.salvage(data, length, tuple(edges), MOST_WRITTEN, len(data))
        for taken in LENGTHS:
            yield of(record_files.file_of(kept), taken, edges, (0, 1))


# --- The order of refusals --------------------------------------------------------------------------------------------


def order_cases(dice):
    """Every choice of bad edges, a bad record length, a record too many, and too little room for the file, for the list or for both."""
    for length in LENGTHS:
        good, bad = (packed(length, each(dice, TEXT_EDGES, length)) for each in (good_record, bad_record))
        for edges, count, taken in product((TEXT_EDGES, (5000, 5000)), (2, MOST[WRITTEN] + 1), (length, 19)):
            size = file_size(count) - TRAILER
            more = [(0, 0), (-1, 0), (0, -1), (-1, -1), (-TRAILER, 0), (40, 3), (size, 2), (size - 1, 2), (size, 1)]
            yield [(bad, 1), (good, count), (bad, 1)], taken, edges, more


# --- Any bodies -------------------------------------------------------------------------------------------------------


def random_body(dice, edges, length):
    """A few records, good and bad, cut somewhere near the end."""
    pattern = [dice.below(3) > 0 for _ in range(dice.below(9))]
    data = packed(length, *mixed(pattern, dice, edges, length)) + bytes(dice.pick((0, 0, dice.below(length))))
    return data[:len(data) - dice.pick((0, 0, 1, dice.below(2 * length)))] if data else data


def random_more(dice):
    return dice.pick((-20, -8, -2, -1, 0, 0, 1, 2, 8, 20)), dice.pick((-2, -1, 0, 0, 1, 3))


def random_cases(dice):
    for _ in range(160):
        length, edges = dice.pick(LENGTHS), any_edges(dice)
        taken = dice.pick((length,) * 7 + (EARLIER + WRITTEN - length, 19))
        yield of(random_body(dice, edges, length), taken, edges, random_more(dice))


# --- Long bodies ------------------------------------------------------------------------------------------------------


def pair_of(dice, length):
    """A record that is kept and one that is dropped."""
    return packed(length, good_record(dice, TEXT_EDGES, length)), packed(length, bad_record(dice, TEXT_EDGES, length))


def wide_number_cases(dice):
    """Counts and numbers of records about 256: all kept, all dropped, the last alone dropped, and each other one."""
    for length, count in product(LENGTHS, (255, 256, 257, 300)):
        good, bad = pair_of(dice, length)
        yield [(good, count)], length, TEXT_EDGES, (EXACT, (-1, 0))
        yield [(bad, count)], length, TEXT_EDGES, (EXACT, (0, -1))
        yield [(good, count), (bad, 1), (good[:-1], 1)], length, TEXT_EDGES, (EXACT, (0, -1))
        yield [(bad, 2), (good + bad, count)], length, TEXT_EDGES, (EXACT, (-1, 1))


def most_cases(dice):
    """As many records kept as a file has, one less and one more: alone, and with dropped ones before, after and between them."""
    most = MOST[WRITTEN]
    for length, count in product(LENGTHS, (most - 1, most, most + 1)):
        good, bad = pair_of(dice, length)
        three = packed(length, *good_records(3, dice, TEXT_EDGES, length))
        more = (EXACT, (-1, 0), (0, -1), (1, 1), (-TRAILER, 0))
        yield [(three, count // 3), (good, count % 3), (b"\0", 5)], length, TEXT_EDGES, more
        yield [(bad, 1), (good, count - 1600), (bad, 5), (good, 1600), (bad, 1)], length, TEXT_EDGES, more
        yield [(good + bad, count)], length, TEXT_EDGES, more
    good, bad = pair_of(dice, WRITTEN)
    yield [(good, most), (with_trailer(WRITTEN, good * most)[-TRAILER:], 1)], WRITTEN, TEXT_EDGES, (EXACT, (-1, 0))


def whole_cases(dice):
    """More whole records than any file has: none kept, or 3,200 of them, or too many; the limits of 18 bytes mean nothing here."""
    for length, whole in product(LENGTHS, (3201, 3600, 3601)):
        good, bad = pair_of(dice, length)
        yield [(bad, whole)], length, TEXT_EDGES, (EXACT, (0, -1))
        yield [(bad, whole - 3000), (good, 3000)], length, TEXT_EDGES, (EXACT, (-1, -1))
        yield [(good, whole)], length, TEXT_EDGES, (EXACT,)
        yield [(good, 3200), (bad, whole - 3200)], length, TEXT_EDGES, (EXACT, (0, -1), (-1, 0))


def wrapping_cases(dice):
    """Counts that a number of 16 bits does not hold: of whole records, of dropped ones and of kept ones; as many records as are held."""
    good, bad = pair_of(dice, EARLIER)
    yield [(bad, 2**16), (good + bad, 4)], EARLIER, TEXT_EDGES, (EXACT, (0, -1), (0, 2))
    for length, whole in ((EARLIER, 2**16 + 5), (EARLIER, 2**16), (EARLIER, 2**16 - 1), (WRITTEN, 2**16 - 1)):
        good, bad = pair_of(dice, length)
        yield [(good, whole)], length, TEXT_EDGES, (EXACT,)
        yield [(bad, whole)], length, TEXT_EDGES, (EXACT, (0, -1))
        yield [(bad, whole - 4), (good, 1), (bad, 1), (good, 2)], length, TEXT_EDGES, (EXACT, (-1, 0))
    for length in LENGTHS:
        yield [(b"\xff", MOST_BYTES)], length, TEXT_EDGES, (EXACT, (0, -1), (9, 9))


SECTIONS = (worked_cases, few_bytes_cases, cut_cases, field_cases, steps_cases, many_steps_cases, refused_reading_cases, pattern_cases,
            room_cases, edge_list_cases, other_edges_cases, length_cases, other_length_cases, both_ways_cases, duv_cases, wide_duv_cases,
            limit_cases, hard_reading_cases, moved_field_cases, bit_cases, shifted_cases, intact_cases, same_record_cases, again_cases,
            random_cases, order_cases, wide_number_cases, most_cases, wrapping_cases, whole_cases)


# --- The laws, by force -----------------------------------------------------------------------------------------------


def check_body(data, length, edges):
    """Kept and dropped ones are all whole records, and with the bytes left over all bytes; the numbers rise; the new file reads back as the
    kept ones; salvaging it again changes nothing; and the bytes cut at the end keep what stands before the cut."""
    room = MOST_WRITTEN, len(data)
    refusal, (kept, dropped, leftover) = salvages.salvage(data, length, edges, *room)
    whole = len(kept) + len(dropped)
    assert refusal == 0 and length * whole + leftover == len(data) and leftover < length
    assert list(dropped) == sorted(set(dropped)) and all(number < whole for number in dropped)
    file = record_files.file_of(kept)
    assert record_files.read(file, len(kept)) == (0, list(kept))
    assert salvages.salvage(file, WRITTEN, edges, *room) == (0, (kept, (), TRAILER))
    _, (before, *_) = salvages.salvage(data[:length * (whole // 2)], length, edges, *room)
    assert before == kept[:len(before)] and len(before) + len([n for n in dropped if n < whole // 2]) == whole // 2


def check_answers(dice):
    """Every accepted answer is kept, at each number of steps, and is not with another field, where that is no reading of its own."""
    edges = tuple(any_edges(dice))
    record = good_record(dice, edges)
    assert salvages.parted([record], edges) == ((record,), ())
    for field in ANSWERED:
        assert salvages.parted([with_field(record, field, another_number(LETTERS[field], record[field], dice))], edges) == ((), (0,))


def check_laws():
    dice = Dice("laws of salvage")
    for _ in range(300):
        length, edges = dice.pick(LENGTHS), tuple(any_edges(dice))
        check_body(random_body(dice, edges, length), length, edges)
        check_answers(dice)


# --- All of them ------------------------------------------------------------------------------------------------------


def cases():
    for section in SECTIONS:
        yield from section(Dice("salvages: " + section.__name__))


def needed(data, length, edges):
    """How many bytes and how many numbers a salvage takes, were there no limit; those of nothing where it is refused before."""
    if length not in LENGTHS or not ref.edges_valid(edges):
        return TRAILER, 0
    kept, dropped = salvages.parted(salvages.whole_records(data, length), edges)
    return min(file_size(len(kept)), MOST_WRITTEN), len(dropped)


def asked_lines(data, length, edges, more):
    """The lines of a case: rooms that are below zero are none."""
    bytes_needed, numbers_needed = needed(data, length, tuple(edges))
    rooms = dict.fromkeys((min(bytes_needed + file_more, MOST_WRITTEN), numbers_needed + list_more) for file_more, list_more in more)
    return [salvage_line(length, *each, edges) for each in rooms if min(each) >= 0]


def lines():
    """The lines of each case, after the `file` line where other bytes are held."""
    check_laws()
    held = b""
    for parts, length, edges, more in cases():
        data = b"".join(part * times for part, times in parts)
        for line in [repeats_line(parts)] * (data != held) + asked_lines(data, length, edges, more):
            assert len(line) <= LONGEST_LINE
            yield line
        held = data
