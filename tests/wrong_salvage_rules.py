"""Wrong rules of salvage for check_wrong_rules.py and fuzz_salvages: near misses that document 02's No. 9 leaves room for.

They are put into salvages.py. The first word of each rule is the name there that it stands in for."""

from itertools import permutations

import record_files as files
import reference as ref
import salvages
from record_files import BAD_RECORD_LENGTH, BAD_TRAILER, NO_ROOM, NO_TRAILER, TOO_MANY_RECORDS, file_by, form, trailer_of
from reference import BAD_EDGES, TEXT_EDGES
from salvages import Salvaged
from wrong_record_rules import (CLASS, DUV, EARLIER, FIELDS, LENGTHS, MOST, RECORD_SIZES, TRAILER, WRITTEN, Changed, Layout,
                                beyond_refused_too, by_one_length, class_255_as_0, count_in_bytes, distance_back_to_the_last_record,
                                distance_from_the_start_to_the_first_record, distance_in_records, distance_to_the_end,
                                from_the_ninth_byte_on, held_within, in_16_bits, in_16_bits_without_a_sign, last_index_for_the_count,
                                last_record_first, no_trailer_without_records, one_more_made_zero, put_at_the_end, records_of, rest_cut_off,
                                rest_made_zero, same_record_once, swapped, trailer_first, with_duv, with_trailer, without_its_sign, words)

PLACE, LOW, HIGH, STEPS = 2, 3, 4, 6
COMPARED = range(2, 8)  # the fields of an answer


# --- Whole records, and what is left over -----------------------------------------------------------------------------


def counted_by(count):
    """As many records as another rule gives of the size and the record length; zeros stand for bytes that are not there."""
    def whole_records(data, length):
        padded = data + bytes(length)
        return [salvages.record_at(padded, length, number) for number in range(count(len(data), length))]
    return whole_records


def whole_records_rounded_up(size, length):
    return -(-size // length)


def last_whole_record_left_out(size, length):
    return max(0, size // length - 1)


def eight_bytes_kept_off_for_a_trailer(size, length):
    return max(0, size - TRAILER) // length


def counted_by_records_of(other):
    return lambda size, length: min(size // length, size // other)


def at_most(most):
    return lambda size, length: min(size // length, most)


def as_many_as_a_file_has(size, length):
    return min(size // length, MOST[length])


def count_kept_to(bits):
    return lambda size, length: size // length % 2**bits


def records_up_to_the_end(data, length, whole_records=salvages.whole_records):
    return whole_records(data[len(data) % length:], length)


def first_record_left_out(data, length, whole_records=salvages.whole_records):
    return whole_records(data, length)[1:]


def record_of_zeros_ends_the_body(data, length, whole_records=salvages.whole_records):
    records = whole_records(data, length)
    return records[:next((number for number, record in enumerate(records) if not any(record)), len(records))]


def has_a_trailer(data):
    return form(data)[0] == 0


def record_length_of_the_trailer(data, length, whole_records=salvages.whole_records):
    return whole_records(data, trailer_of(data)[0] if has_a_trailer(data) else length)


def read_as(layouts):
    """The records by other layouts, one for each record length."""
    def record_at(data, length, index):
        return layouts[length].unpack(data[length * index:length * (index + 1)])
    return record_at


def nothing_left_over(data, length):
    return 0


def whole_records_for_what_is_left_over(data, length):
    return len(data) // length


def left_over_counted_in_records(data, length):
    return min(1, len(data) % length)


def bytes_missing_to_the_next_record(data, length):
    return -len(data) % length


def left_over_up_to_a_whole_record(data, length):
    return len(data) % length or min(length, len(data))


def left_over_without_8_bytes(data, length):
    return max(0, len(data) % length - TRAILER)


def good_trailer_not_left_over(data, length):
    return 0 if has_a_trailer(data) and trailer_of(data)[0] == length else len(data) % length


def left_over_by(other):
    return lambda data, length: len(data) % other


# --- The answer that a record is put beside ---------------------------------------------------------------------------


def answer_by(allowance=lambda steps: steps, edges=lambda edges: edges):
    """The answer with another allowance or with other edges."""
    def answered(u, v, steps, given, right=salvages.answered):
        return right(u, v, allowance(steps), edges(given))
    return answered


ALLOWANCES = {
    "the allowance 14 for all": lambda steps: 14, "the allowance 0 for all": lambda steps: 0, "the allowance 6 for all": lambda steps: 6,
    "an allowance of a step more": lambda steps: steps + 1, "an allowance of a step less": lambda steps: max(0, steps - 1),
    "allowances up to 13": lambda steps: min(steps, 13),
}
EDGES = {
    "the text program's edges": lambda edges: TEXT_EDGES, "one class for all": lambda edges: (1600, 20_001),
    "the first edge left out": lambda edges: edges[1:] if len(edges) > 2 else edges,
    "the last edge left out": lambda edges: edges[:-1] if len(edges) > 2 else edges,
}


def admitted_although(*numbers):
    """What the search finds of a reading that is refused with these numbers."""
    def answered(u, v, steps, edges, right=salvages.answered):
        given = right(u, v, steps, edges)
        return ref.accepted_answer((u, v), edges, steps) if given.refusal in numbers else given
    return answered


def refused_from(least):
    """Refusal 5 from a squared distance to the nearest entry on."""
    def answered(u, v, steps, edges, right=salvages.answered):
        nearest = ref.entry_point(ref.nearest_entry((u, v)))
        return ref.Answer(ref.TOO_FAR) if ref.squared_distance((u, v), nearest) >= least else right(u, v, steps, edges)
    return answered


def u_and_v_swapped(u, v, steps, edges, answered=salvages.answered):
    return answered(v, u, steps, edges)


def class_of_the_nearest_point_alone(u, v, steps, edges, answered=salvages.answered):
    given = answered(u, v, steps, edges)
    return given if given.refusal else given._replace(cls=ref.class_at(edges, ref.kelvin_at(given.place)))


# --- Which records are kept -------------------------------------------------------------------------------------------


def compared_by(same):
    """Records of which the search accepts the reading, and whose fields agree by another rule: one of the field, the record's number and the
    answer's, and of the whole answer."""
    def is_kept(record, edges):
        given = salvages.answered(record[0], record[1], record[STEPS], edges)
        return not given.refusal and all(same(field, record[field], given[field - 1], given) for field in COMPARED)
    return is_kept


def but_for(*fields):
    return lambda field, number, answered, given: field in fields or number == answered


def one_apart(other):
    return lambda field, number, answered, given: abs(number - answered) <= (field == other)


def at_least(other):
    return lambda field, number, answered, given: number >= answered if field == other else number == answered


def at_the_most(other):
    return lambda field, number, answered, given: number <= answered if field == other else number == answered


def by_lowest(bits):
    return lambda field, number, answered, given: (number - answered) % 2**bits == 0


def by_all_but_the_lowest(bits):
    return lambda field, number, answered, given: number >> bits == answered >> bits


def duv_by(change):
    return lambda field, number, answered, given: change(number) == change(answered) if field == DUV else number == answered


def any_class_where_none_is_answered(field, number, answered, given):
    return number == answered or (field == CLASS and answered == 255)


def no_class_taken_for_any(field, number, answered, given):
    return number == answered or (field == CLASS and number == 255)


def any_place_within_the_bracket(field, number, answered, given):
    return given.o <= number <= given.p if field == PLACE else number == answered


def bracket_either_way_round(field, number, answered, given):
    return number in (given.o, given.p) if field in (LOW, HIGH) else number == answered


def steps_kept_to_4_bits(field, number, answered, given):
    return number % 16 == answered if field == STEPS else number == answered


def kept_although(*numbers):
    """Records whose readings are refused with these numbers, whatever their fields."""
    def is_kept(record, edges, right=salvages.is_kept):
        return salvages.answered(record[0], record[1], record[STEPS], edges).refusal in numbers or right(record, edges)
    return is_kept


def refused_readings_with_zeros_kept(record, edges):
    _, *fields = salvages.answered(record[0], record[1], record[STEPS], edges)
    return [*record[2:]] == fields


def answer_at_any_steps_kept(record, edges):
    given = [salvages.answered(record[0], record[1], steps, edges) for steps in range(15)]
    return any(not each.refusal and each[1:5] == record[2:6] and each.cls == record[CLASS] for each in given)


def steps_over_14_taken_as_14(record, edges, is_kept=salvages.is_kept):
    return is_kept((*record[:STEPS], min(record[STEPS], 14), record[CLASS]), edges)


def records_of_zeros_kept(record, edges, is_kept=salvages.is_kept):
    return not any(record) or is_kept(record, edges)


def every_record_kept(record, edges):
    return True


def every_accepted_reading_kept(record, edges):
    return not salvages.answered(record[0], record[1], record[STEPS], edges).refusal


def no_record_kept(record, edges):
    return False


def records_without_a_class_dropped(record, edges, is_kept=salvages.is_kept):
    return record[CLASS] != 255 and is_kept(record, edges)


def records_without_steps_dropped(record, edges, is_kept=salvages.is_kept):
    return record[STEPS] > 0 and is_kept(record, edges)


def records_with_14_steps_alone_kept(record, edges, is_kept=salvages.is_kept):
    return record[STEPS] == 14 and is_kept(record, edges)


def duv_below_zero_dropped(record, edges, is_kept=salvages.is_kept):
    return record[DUV] >= 0 and is_kept(record, edges)


def duv_beyond(most):
    """Records with a larger Duv, of either sign, are dropped."""
    return lambda record, edges, is_kept=salvages.is_kept: abs(record[DUV]) <= most and is_kept(record, edges)


# --- The kept ones, and the list --------------------------------------------------------------------------------------


def listed_by(change):
    """The list of the dropped ones changed, by it and how many whole records there are."""
    def parted(records, edges, right=salvages.parted):
        kept, dropped = right(records, edges)
        return kept, tuple(change(dropped, len(records)))
    return parted


def numbers_from_1(dropped, whole):
    return (number + 1 for number in dropped)


def numbers_among_the_dropped(dropped, whole):
    return range(len(dropped))


def numbers_from_the_end(dropped, whole):
    return (whole - 1 - number for number in dropped)


def numbers_falling(dropped, whole):
    return dropped[::-1]


def how_many_are_kept_before_each(dropped, whole):
    return (number - at for at, number in enumerate(dropped))


def offsets_in_bytes(dropped, whole):
    return (WRITTEN * number for number in dropped)


def kept_ones_listed(dropped, whole):
    return sorted({*range(whole)} - {*dropped})


def last_dropped_one_left_out(dropped, whole):
    return dropped[:-1]


def first_dropped_one_alone(dropped, whole):
    return dropped[:1]


def one_number_too_many_listed(records, edges, parted=salvages.parted):
    kept, dropped = parted(records, edges)
    return kept, (*dropped, len(records))


def numbers_kept_to(bits):
    return lambda dropped, whole: (number % 2**bits for number in dropped)


def same_dropped_record_once(records, edges, parted=salvages.parted):
    kept, dropped = parted(records, edges)
    seen = {}
    return kept, tuple(number for number in dropped if seen.setdefault(records[number], number) == number)


def kept_by(change):
    """The kept ones changed."""
    def parted(records, edges, right=salvages.parted):
        kept, dropped = right(records, edges)
        return tuple(change(kept)), dropped
    return parted


def last_kept_one_first(kept):
    return kept[::-1]


def kept_ones_sorted(kept):
    return sorted(kept)


def kept_ones_by_their_place(kept):
    return sorted(kept, key=lambda record: record[PLACE])


def same_kept_record_once(kept):
    return dict.fromkeys(kept)


def steps_of_14_written(kept):
    return ((*record[:STEPS], 14, record[CLASS]) for record in kept)


def nothing_after_the_first_dropped_one(records, edges, parted=salvages.parted):
    _, dropped = parted(records, edges)
    return parted(records[:dropped[0] + 1] if dropped else records, edges)


def all_dropped_after_the_first_dropped_one(records, edges, parted=salvages.parted):
    kept, dropped = parted(records, edges)
    return (kept[:dropped[0]], tuple(range(dropped[0], len(records)))) if dropped else (kept, dropped)


def dropped_ones_at_the_end_not_listed(records, edges, parted=salvages.parted):
    kept, dropped = parted(records, edges)
    last = max({*range(len(records))} - {*dropped}, default=-1)
    return kept, tuple(number for number in dropped if number < last)


def dropped_ones_written_as_zeros(records, edges, parted=salvages.parted):
    _, dropped = parted(records, edges)
    return tuple(files.NO_RECORD if number in {*dropped} else record for number, record in enumerate(records)), dropped


# --- Rooms ------------------------------------------------------------------------------------------------------------


def room_by(enough):
    """Other rules of the rooms, by how many are kept and dropped and by both rooms."""
    return lambda kept, dropped, file_room, list_room: enough(len(kept), len(dropped), file_room, list_room)


def file_enough(kept, file_room):
    return WRITTEN * kept + TRAILER <= file_room


def exact_room_for_the_file_refused(kept, dropped, file_room, list_room):
    return file_enough(kept, file_room - 1) and dropped <= list_room


def exact_room_for_the_list_refused(kept, dropped, file_room, list_room):
    return file_enough(kept, file_room) and dropped < list_room


def exact_room_for_the_list_refused_but_for_none(kept, dropped, file_room, list_room):
    return file_enough(kept, file_room) and dropped < list_room + (dropped == 0)


def short_by(bytes_short, numbers_short):
    return lambda kept, dropped, file_room, list_room: (file_enough(kept, file_room + bytes_short) and dropped <= list_room + numbers_short)


def either_room_suffices(kept, dropped, file_room, list_room):
    return file_enough(kept, file_room) or dropped <= list_room


def room_of_the_file_alone(kept, dropped, file_room, list_room):
    return file_enough(kept, file_room)


def room_of_the_list_alone(kept, dropped, file_room, list_room):
    return dropped <= list_room


def room_for_records_of_18(kept, dropped, file_room, list_room):
    return EARLIER * kept + TRAILER <= file_room and dropped <= list_room


def none_kept_need_no_room(kept, dropped, file_room, list_room):
    return (kept == 0 or file_enough(kept, file_room)) and dropped <= list_room


def none_dropped_need_some_room(kept, dropped, file_room, list_room):
    return file_enough(kept, file_room) and dropped <= list_room > 0


def room_for_every_record_in_the_file(kept, dropped, file_room, list_room):
    return file_enough(kept + dropped, file_room) and dropped <= list_room


def room_for_every_record_in_the_list(kept, dropped, file_room, list_room):
    return file_enough(kept, file_room) and kept + dropped <= list_room


def room_of_the_list_in_bytes(kept, dropped, file_room, list_room):
    return file_enough(kept, file_room) and 8 * dropped <= list_room


def rooms_swapped(kept, dropped, file_room, list_room):
    return file_enough(kept, list_room) and dropped <= file_room


def room_for_the_dropped_ones_counted_to_16_bits(kept, dropped, file_room, list_room):
    return file_enough(kept, file_room) and dropped % 2**16 <= list_room


# --- Refusals ---------------------------------------------------------------------------------------------------------


def broken(data, length, edges, file_room, list_room):
    """Whether each rule is broken; bad edges count as the text program's, and a bad record length as that which is written."""
    taken, known = (length if length in LENGTHS else WRITTEN), (edges if ref.edges_valid(edges) else TEXT_EDGES)
    kept, dropped = salvages.parted(salvages.whole_records(data, taken), known)
    return kept, dropped, {BAD_EDGES: edges is not known, BAD_RECORD_LENGTH: length != taken, TOO_MANY_RECORDS: len(kept) > MOST[WRITTEN],
                           NO_ROOM: not salvages.has_room(kept[:MOST[EARLIER]], dropped, file_room, list_room)}


def refused_in_order(*order):
    """Salvage with its refusals in another order, or some left out."""
    def salvage(data, length, edges, file_room, list_room):
        kept, dropped, rules = broken(data, length, edges, file_room, list_room)
        refusal = next((number for number in order if rules[number]), 0)
        leftover = salvages.left_over(data, length if length in LENGTHS else WRITTEN)
        return refusal, Salvaged() if refusal else Salvaged(kept[:MOST[EARLIER]], dropped, leftover)
    return salvage


def refused_too(refusal, is_refused):
    """What is salvaged is refused in some cases more, by the bytes, the record length and what would be salvaged."""
    def salvage(data, length, edges, file_room, list_room, right=salvages.salvage):
        number, salvaged = right(data, length, edges, file_room, list_room)
        refused = number == 0 and is_refused(data, length, salvaged)
        return (refusal, Salvaged()) if refused else (number, salvaged)
    return salvage


def more_whole_records_than(most):
    return lambda data, length, salvaged: len(data) // length > most


def more_whole_records_than_a_file_has(data, length, salvaged):
    return len(data) // length > MOST[length]


def more_dropped_than(most):
    return lambda data, length, salvaged: len(salvaged.dropped) > most


def some_left_over(data, length, salvaged):
    return salvaged.leftover > 0


def neither_0_nor_8_left_over(data, length, salvaged):
    return salvaged.leftover not in (0, TRAILER)


def nothing_kept(data, length, salvaged):
    return not salvaged.kept


def something_dropped(data, length, salvaged):
    return len(salvaged.dropped) > 0


def no_bytes(data, length, salvaged):
    return not data


def fewer_than_8_bytes(data, length, salvaged):
    return len(data) < TRAILER


def a_good_file(data, length, salvaged):
    return has_a_trailer(data)


def number_instead(number, other):
    """One refusal's number for another's."""
    def salvage(data, length, edges, file_room, list_room, right=salvages.salvage):
        refusal, salvaged = right(data, length, edges, file_room, list_room)
        return other if refusal == number else refusal, salvaged
    return salvage


def length_taken_by(change):
    """The record length is first brought to another number."""
    def salvage(data, length, edges, file_room, list_room, right=salvages.salvage):
        return right(data, change(length), edges, file_room, list_room)
    return salvage


LENGTHS_TAKEN = {
    **{"the record length kept to %d bits" % bits: lambda length, bits=bits: length % 2**bits for bits in (8, 16, 32, 63)},
    "19 taken as 18": lambda length: length - (length == 19), "19 taken as 20": lambda length: length + (length == 19),
    "17 taken as 18": lambda length: length + (length == 17), "21 taken as 20": lambda length: length - (length == 21),
    "0 taken as 20": lambda length: length or WRITTEN, "every other length taken as 20": lambda length: length if length == 18 else 20,
    "every length taken as 18": lambda length: 18, "18 not taken": lambda length: 0 if length == 18 else length,
    "20 not taken": lambda length: 0 if length == 20 else length, "the lengths swapped": lambda length: {18: 20, 20: 18}.get(length, length),
}


def edges_not_looked_at_without_records(data, length, edges, file_room, list_room, salvage=salvages.salvage):
    return salvage(data, length, edges if length not in LENGTHS or len(data) >= length else TEXT_EDGES, file_room, list_room)


def length_not_looked_at_without_bytes(data, length, edges, file_room, list_room, salvage=salvages.salvage):
    return salvage(data, length if data else WRITTEN, edges, file_room, list_room)


def salvaged_of(change):
    """Where too many are kept, those that another rule takes of them, by all of them and the record length; it may refuse them too, by None."""
    def salvage(data, length, edges, file_room, list_room, right=salvages.salvage):
        refusal, salvaged = right(data, length, edges, file_room, list_room)
        if refusal != TOO_MANY_RECORDS:
            return refusal, salvaged
        kept, dropped = salvages.parted(salvages.whole_records(data, length), edges)
        taken = change(kept, length)
        if taken is None or not salvages.has_room(taken, dropped, file_room, list_room):
            return refusal, salvaged
        return 0, Salvaged(taken, dropped, salvages.left_over(data, length))
    return salvage


def the_first_3200_kept_where_there_are_more(kept, length):
    return kept[:MOST[WRITTEN]]


def as_many_kept_as_a_file_of_the_same_length_has(kept, length):
    return kept if len(kept) <= MOST[length] else None


def kept_ones_counted_to_16_bits(kept, length):
    return kept[:len(kept) % 2**16] if len(kept) % 2**16 <= MOST[WRITTEN] else None


def what_has_room_is_salvaged(data, length, edges, file_room, list_room, salvage=salvages.salvage):
    refusal, salvaged = salvage(data, length, edges, file_room, list_room)
    if refusal != NO_ROOM or file_room < TRAILER:
        return refusal, salvaged
    kept, dropped = salvages.parted(salvages.whole_records(data, length), edges)
    return 0, Salvaged(kept[:(file_room - TRAILER) // WRITTEN], dropped[:list_room], salvages.left_over(data, length))


def good_files_kept_as_they_are(data, length, edges, file_room, list_room, salvage=salvages.salvage):
    refusal, salvaged = salvage(data, length, edges, file_room, list_room)
    if refusal or not has_a_trailer(data) or trailer_of(data)[0] != length:
        return refusal, salvaged
    return 0, Salvaged(tuple(salvages.whole_records(data, length))[:MOST[WRITTEN]], (), TRAILER)


# --- Counts and targets -----------------------------------------------------------------------------------------------


def counts_by(change):
    """The four numbers that are given, changed."""
    def salvage_into(file, listed, data, length, edges, right=salvages.salvage_into):
        counts, *after = right(file, listed, data, length, edges)
        return change(*counts), *after
    return salvage_into


COUNTS = {
    "bytes of the new file for those kept": lambda refusal, kept, dropped, leftover: (refusal, WRITTEN * kept + TRAILER, dropped, leftover),
    "bytes of the kept records for those kept": lambda refusal, kept, dropped, leftover: (refusal, WRITTEN * kept, dropped, leftover),
    "kept and dropped swapped": lambda refusal, kept, dropped, leftover: (refusal, dropped, kept, leftover),
    "dropped and left over swapped": lambda refusal, kept, dropped, leftover: (refusal, kept, leftover, dropped),
    "whole records for those kept": lambda refusal, kept, dropped, leftover: (refusal, kept + dropped, dropped, leftover),
    "whole records for those dropped": lambda refusal, kept, dropped, leftover: (refusal, kept, kept + dropped, leftover),
    "dropped records left over too": lambda refusal, kept, dropped, leftover: (refusal, kept, dropped, leftover + WRITTEN * dropped),
    "those kept counted to 8 bits": lambda refusal, kept, dropped, leftover: (refusal, kept % 2**8, dropped, leftover),
    "those kept counted to 11 bits": lambda refusal, kept, dropped, leftover: (refusal, kept % 2**11, dropped, leftover),
    "those dropped counted to 8 bits": lambda refusal, kept, dropped, leftover: (refusal, kept, dropped % 2**8, leftover),
    "those dropped counted to 16 bits": lambda refusal, kept, dropped, leftover: (refusal, kept, dropped % 2**16, leftover),
}


def counted_although(number, count):
    """Counts that are given although the salvage is refused with a number."""
    def salvage_into(file, listed, data, length, edges, right=salvages.salvage_into):
        counts, *after = right(file, listed, data, length, edges)
        taken, known = (length if length in LENGTHS else WRITTEN), (edges if ref.edges_valid(edges) else TEXT_EDGES)
        kept, dropped = salvages.parted(salvages.whole_records(data, taken), known)
        all_counts = number, len(kept), len(dropped), salvages.left_over(data, taken)
        given = tuple(found if at in count else 0 for at, found in enumerate(all_counts))
        return given if counts[0] == number else counts, *after
    return salvage_into


def written_before(number, to_file, to_list):
    """As much of the file or of the list as has room is written although the salvage is then refused with a number."""
    def salvage_into(file, listed, data, length, edges, right=salvages.salvage_into):
        counts, file_after, list_after = right(file, listed, data, length, edges)
        if counts[0] != number:
            return counts, file_after, list_after
        taken, known = (length if length in LENGTHS else WRITTEN), (edges if ref.edges_valid(edges) else TEXT_EDGES)
        kept, dropped = salvages.parted(salvages.whole_records(data, taken), known)
        made = salvages.file_of(kept[:MOST[WRITTEN]])[:len(file)] if to_file else b""
        return counts, salvages.over(file, made), salvages.over(listed, dropped[:len(listed)] if to_list else ())
    return salvage_into


def cleared_before(number):
    """Both targets begin with zero although the salvage is refused with a number."""
    def salvage_into(file, listed, data, length, edges, right=salvages.salvage_into):
        counts, file_after, list_after = right(file, listed, data, length, edges)
        if counts[0] != number:
            return counts, file_after, list_after
        return counts, salvages.over(file, b"\0"[:len(file)]), salvages.over(listed, (0,)[:len(listed)])
    return salvage_into


def what_fits_written_before_12(file, listed, data, length, edges, salvage_into=salvages.salvage_into):
    counts, *after = salvage_into(file, listed, data, length, edges)
    if counts[0] != NO_ROOM:
        return counts, *after
    kept, dropped = salvages.parted(salvages.whole_records(data, length), edges)
    whole_file = salvages.file_of(kept)
    return counts, salvages.over(file, whole_file if len(whole_file) <= len(file) else b""), (
        salvages.over(listed, dropped if len(dropped) <= len(listed) else ()))


def new_file_by(make):
    """Another file in the target, by the kept ones, the number of whole records and the record length."""
    def salvage_into(file, listed, data, length, edges, right=salvages.salvage_into):
        (refusal, kept, dropped, leftover), file_after, list_after = right(file, listed, data, length, edges)
        if refusal:
            return (refusal, kept, dropped, leftover), file_after, list_after
        records = salvages.parted(salvages.whole_records(data, length), edges)[0]
        made = make(list(records), kept + dropped, length)
        return (refusal, kept, dropped, leftover), salvages.over(file, made)[:len(file)], list_after
    return salvage_into


def body_of(records):
    return files.file_of(records)[:-TRAILER]


def trailer_counts_all_records(kept, whole, length):
    return with_trailer(body_of(kept), WRITTEN, whole % 2**16, WRITTEN * len(kept))


def trailer_of_all_records(kept, whole, length):
    return with_trailer(body_of(kept), WRITTEN, whole % 2**16, WRITTEN * whole)


def trailer_counts_the_dropped_ones(kept, whole, length):
    return with_trailer(body_of(kept), WRITTEN, (whole - len(kept)) % 2**16, WRITTEN * len(kept))


def record_length_of_the_bytes_in_the_trailer(kept, whole, length):
    return with_trailer(body_of(kept), length, len(kept), length * len(kept))


def distance_by_the_record_length_of_the_bytes(kept, whole, length):
    return with_trailer(body_of(kept), WRITTEN, len(kept), length * len(kept))


def records_of_the_length_of_the_bytes(kept, whole, length):
    return file_by(length, kept)


def no_trailer(kept, whole, length):
    return body_of(kept)


def list_by(make):
    """Another list in its target, by the numbers and what it held before."""
    def salvage_into(file, listed, data, length, edges, right=salvages.salvage_into):
        (refusal, kept, dropped, leftover), file_after, list_after = right(file, listed, data, length, edges)
        made = make(list_after[:dropped], listed) if not refusal else ()
        return (refusal, kept, dropped, leftover), file_after, salvages.over(listed, tuple(made))[:len(listed)]
    return salvage_into


def end_of_the_list_marked(numbers, before):
    return *numbers, 2**64 - 1


def nothing_listed(numbers, before):
    return ()


def upper_halves_left_as_they_were(numbers, before):
    return (held >> 32 << 32 | number % 2**32 for number, held in zip(numbers, before))


ORDER = (BAD_EDGES, BAD_RECORD_LENGTH, TOO_MANY_RECORDS, NO_ROOM)


def order_rules():
    """The refusals in every other order, and with each of them left out."""
    orders = [order for order in permutations(ORDER) if order != ORDER]
    without = [(number, tuple(other for other in ORDER if other != number)) for number in ORDER]
    return (*(("salvage", refused_in_order(*order), "refusals in the order %s" % ", ".join(map(str, order))) for order in orders),
            *(("salvage", refused_in_order(*order), "no refusal %d" % number) for number, order in without))


def layout_rules(length):
    """Wrong layouts of the records of one length."""
    of, titled = (lambda **options: read_as(records_of(length, **options))), lambda title: "%s, in %d bytes" % (title, length)
    narrow = (with_duv(in_16_bits), with_duv(in_16_bits_without_a_sign)) if length == WRITTEN else ()
    changes = (class_255_as_0, with_duv(without_its_sign), *narrow)
    return (
        *(("record_at", of(big={at}), titled("big-endian " + FIELDS[at])) for at in range(6)),
        *(("record_at", of(order=swapped(at, at + 1)), titled("%s before %s" % (FIELDS[at + 1], FIELDS[at]))) for at in range(7)),
        ("record_at", of(signed=()), titled("Duv unsigned")),
        *(("record_at", of(signed=(at, DUV)), titled(FIELDS[at] + " signed")) for at in range(2, 8) if at not in (DUV, STEPS)),
        *(("record_at", of(layout=Changed, out_of=change), titled("read " + words(change))) for change in changes),
    )


def written_by(layout):
    """The new file with its records in another layout."""
    def make(kept, whole, length):
        body = b"".join(layout.pack(*record) for record in kept)
        return with_trailer(body, WRITTEN, len(kept), len(body))
    return new_file_by(make)


def written_rules():
    """Wrong layouts of the new file's records."""
    sizes, orders = RECORD_SIZES[WRITTEN], [(at, swapped(at, at + 1)) for at in range(7)]
    changes = class_255_as_0, *map(with_duv, (without_its_sign, in_16_bits_without_a_sign, in_16_bits, held_within(32_767)))
    return (
        *(("salvage_into", written_by(Layout(sizes, big={at})), "big-endian %s written" % FIELDS[at]) for at in range(6)),
        *(("salvage_into", written_by(Layout(sizes, order)), "%s written before %s" % (FIELDS[at + 1], FIELDS[at])) for at, order in orders),
        *(("salvage_into", written_by(Changed(sizes, into=change)), "written " + words(change)) for change in changes),
    )


WRONG_SALVAGE_RULES = (
    *(("whole_records", counted_by(count), words(count)) for count in (
        whole_records_rounded_up, last_whole_record_left_out, eight_bytes_kept_off_for_a_trailer, as_many_as_a_file_has)),
    ("whole_records", counted_by(counted_by_records_of(WRITTEN)), "as many records as there are of 20 bytes"),
    *(("whole_records", counted_by(at_most(most)), "at most %d records looked at" % most) for most in (3200, 3600, 65_535)),
    *(("whole_records", counted_by(count_kept_to(bits)), "whole records counted to %d bits" % bits) for bits in (8, 16)),
    *(("whole_records", wrong) for wrong in (
        records_up_to_the_end, first_record_left_out, record_of_zeros_ends_the_body, record_length_of_the_trailer)),
    *(rule for length in LENGTHS for rule in layout_rules(length)),
    *(("record_at", by_one_length(length), "records by %d bytes in every body" % length) for length in LENGTHS),
    ("record_at", from_the_ninth_byte_on),
    *(("left_over", wrong) for wrong in (
        nothing_left_over, whole_records_for_what_is_left_over, left_over_counted_in_records, bytes_missing_to_the_next_record,
        left_over_up_to_a_whole_record, left_over_without_8_bytes, good_trailer_not_left_over)),
    *(("left_over", left_over_by(length), "left over by %d bytes" % length) for length in (*LENGTHS, TRAILER)),
    *(("answered", answer_by(allowance=change), title) for title, change in ALLOWANCES.items()),
    *(("answered", answer_by(edges=change), title) for title, change in EDGES.items()),
    ("answered", admitted_although(3, 5, 6, 7), "refused readings judged by what the search finds"),
    *(("answered", admitted_although(number), "no refusal %d of a reading" % number) for number in (3, 5, 6, 7)),
    ("answered", refused_from(900_000_001), "the limit before No. 8"),
    ("answered", refused_from(ref.FARTHEST), "the limit itself too far"),
    *(("answered", wrong) for wrong in (u_and_v_swapped, class_of_the_nearest_point_alone)),
    *(("is_kept", compared_by(but_for(at)), FIELDS[at] + " not compared") for at in COMPARED),
    ("is_kept", compared_by(but_for(LOW, HIGH)), "the bracket not compared"),
    *(("is_kept", compared_by(one_apart(at)), "%s one apart taken" % FIELDS[at]) for at in COMPARED),
    *(("is_kept", compared_by(at_least(at)), "a larger %s taken" % FIELDS[at]) for at in COMPARED),
    *(("is_kept", compared_by(at_the_most(at)), "a smaller %s taken" % FIELDS[at]) for at in COMPARED if at != STEPS),
    *(("is_kept", compared_by(by_lowest(bits)), "only %d bits compared" % bits) for bits in (4, 7, 8, 15)),
    *(("is_kept", compared_by(by_all_but_the_lowest(bits)), "the lowest %d bits not compared" % bits) for bits in (1, 8)),
    *(("is_kept", compared_by(duv_by(change)), "Duv compared " + words(change)) for change in (
        in_16_bits, without_its_sign, held_within(32_767))),
    *(("is_kept", compared_by(same), words(same)) for same in (
        any_class_where_none_is_answered, no_class_taken_for_any, any_place_within_the_bracket, bracket_either_way_round, steps_kept_to_4_bits)),
    *(("is_kept", kept_although(number), "readings kept although refused with %d" % number) for number in (3, 5, 6, 7)),
    *(("is_kept", wrong) for wrong in (
        refused_readings_with_zeros_kept, answer_at_any_steps_kept, steps_over_14_taken_as_14, records_of_zeros_kept, every_record_kept,
        every_accepted_reading_kept, no_record_kept, records_without_a_class_dropped, records_without_steps_dropped,
        records_with_14_steps_alone_kept, duv_below_zero_dropped)),
    *(("is_kept", duv_beyond(most), "Duv beyond %d dropped" % most) for most in (30_000, 32_767, 49_999)),
    *(("parted", listed_by(change), words(change)) for change in (
        numbers_from_1, numbers_among_the_dropped, numbers_from_the_end, numbers_falling, how_many_are_kept_before_each, offsets_in_bytes,
        kept_ones_listed, last_dropped_one_left_out, first_dropped_one_alone)),
    *(("parted", listed_by(numbers_kept_to(bits)), "numbers kept to %d bits" % bits) for bits in (8, 16)),
    *(("parted", kept_by(change), words(change)) for change in (
        last_kept_one_first, kept_ones_sorted, kept_ones_by_their_place, same_kept_record_once, steps_of_14_written)),
    *(("parted", wrong) for wrong in (
        one_number_too_many_listed, same_dropped_record_once, nothing_after_the_first_dropped_one, all_dropped_after_the_first_dropped_one,
        dropped_ones_at_the_end_not_listed, dropped_ones_written_as_zeros)),
    *(("MOST_KEPT", most) for most in (3199, 3201, 3276, 3600, 65_535)),
    *(("has_room", room_by(enough), words(enough)) for enough in (
        exact_room_for_the_file_refused, exact_room_for_the_list_refused, exact_room_for_the_list_refused_but_for_none, either_room_suffices,
        room_of_the_file_alone, room_of_the_list_alone, room_for_records_of_18, none_kept_need_no_room, none_dropped_need_some_room,
        room_for_every_record_in_the_file, room_for_every_record_in_the_list, room_of_the_list_in_bytes, rooms_swapped,
        room_for_the_dropped_ones_counted_to_16_bits)),
    *(("has_room", room_by(short_by(*short)), "%d bytes and %d numbers short suffice" % short) for short in ((1, 0), (0, 1), (8, 0), (20, 0))),
    *order_rules(),
    *(("salvage", refused_too(TOO_MANY_RECORDS, more_whole_records_than(most)), "11 over %d whole records" % most)
      for most in (3200, 3600, 65_535)),
    ("salvage", refused_too(TOO_MANY_RECORDS, more_whole_records_than_a_file_has), words(more_whole_records_than_a_file_has)),
    ("salvage", refused_too(TOO_MANY_RECORDS, more_dropped_than(3200)), "11 over 3,200 dropped records"),
    *(("salvage", refused_too(number, wrong), "%d where %s" % (number, words(wrong))) for number, wrong in (
        (BAD_TRAILER, some_left_over), (BAD_TRAILER, neither_0_nor_8_left_over), (BAD_TRAILER, a_good_file), (NO_TRAILER, nothing_kept),
        (BAD_TRAILER, something_dropped), (NO_TRAILER, no_bytes), (NO_TRAILER, fewer_than_8_bytes))),
    *(("salvage", number_instead(*pair), "%d given as %d" % pair) for pair in (
        (BAD_EDGES, BAD_RECORD_LENGTH), (BAD_RECORD_LENGTH, BAD_EDGES), (BAD_RECORD_LENGTH, BAD_TRAILER), (TOO_MANY_RECORDS, NO_ROOM),
        (NO_ROOM, TOO_MANY_RECORDS), (NO_ROOM, NO_TRAILER))),
    *(("salvage", length_taken_by(change), title) for title, change in LENGTHS_TAKEN.items()),
    *(("salvage", salvaged_of(change), words(change)) for change in (
        the_first_3200_kept_where_there_are_more, as_many_kept_as_a_file_of_the_same_length_has, kept_ones_counted_to_16_bits)),
    *(("salvage", wrong) for wrong in (
        edges_not_looked_at_without_records, length_not_looked_at_without_bytes, what_has_room_is_salvaged, good_files_kept_as_they_are)),
    *(("salvage_into", counts_by(change), title) for title, change in COUNTS.items()),
    *(("salvage_into", counted_although(number, {at}), "%s given with refusal %d" % (name, number)) for number in ORDER
      for at, name in ((1, "those kept"), (2, "those dropped"), (3, "what is left over"))),
    *(("salvage_into", written_before(number, *to), "%s written before refusal %d" % (name, number)) for number in ORDER
      for to, name in (((True, False), "the file"), ((False, True), "the list"))),
    *(("salvage_into", cleared_before(number), "targets cleared before refusal %d" % number) for number in ORDER),
    ("salvage_into", what_fits_written_before_12),
    *(("salvage_into", new_file_by(make), words(make)) for make in (
        trailer_counts_all_records, trailer_of_all_records, trailer_counts_the_dropped_ones, record_length_of_the_bytes_in_the_trailer,
        distance_by_the_record_length_of_the_bytes, records_of_the_length_of_the_bytes, no_trailer)),
    *written_rules(),
    *(("salvage_into", list_by(make), words(make)) for make in (end_of_the_list_marked, nothing_listed, upper_halves_left_as_they_were)),
    *(("file_of", wrong) for wrong in (
        distance_to_the_end, distance_from_the_start_to_the_first_record, distance_in_records, distance_back_to_the_last_record, count_in_bytes,
        last_index_for_the_count, trailer_first, no_trailer_without_records, last_record_first, same_record_once)),
    *(("over", wrong) for wrong in (rest_made_zero, rest_cut_off, beyond_refused_too, one_more_made_zero, put_at_the_end)),
)
