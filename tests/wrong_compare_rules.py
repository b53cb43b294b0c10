"""Wrong rules of comparisons for check_wrong_rules.py and fuzz_compares: near misses that document 02's No. 7 and 8 leave room for.

They are put into file_differences.py. The first word of each rule is the name there that it stands in for."""

from itertools import combinations

import file_differences as differences
from file_differences import ONLY_IN_FIRST, ONLY_IN_SECOND
from record_files import BAD_RECORD_LENGTH, BAD_TRAILER, NO_ROOM, NO_TRAILER, TOO_MANY_RECORDS, record_at, trailer_of
from wrong_record_rules import (CLASS, DUV, FIELDS, LENGTHS, READ_CHANGES, WRITTEN, WRONG_RECORD_RULES, Changed, beyond_refused_too,
                                brought_to_what_is_answered, by_one_length, class_255_as_0, count_of_the_refused_file_given,
                                one_more_made_zero, put_at_the_end, records_of, rest_cut_off, rest_made_zero, swapped, with_duv,
                                without_its_sign, words)

NUMBERS = 4
LOW, HIGH = 3, 4


# --- Which file is named, and with what -------------------------------------------------------------------------------


def second_named_where_both_are_bad(first, second, unreadable=differences.unreadable):
    return (2, unreadable(second)[1]) if unreadable(second)[1] else unreadable(first, second)


def lower_refusal_named(first, second, unreadable=differences.unreadable):
    bad = [(unreadable(file)[1], which) for which, file in ((1, first), (2, second)) if unreadable(file)[1]]
    return min(bad)[::-1] if bad else (0, 0)


def both_named(first, second, unreadable=differences.unreadable):
    which, refusal = unreadable(first, second)
    return 3 if all(unreadable(file)[1] for file in (first, second)) else which, refusal


def refusal_of_the_other_file(first, second, unreadable=differences.unreadable):
    which, refusal = unreadable(first, second)
    return which, unreadable(second)[1] or refusal if which == 1 else refusal


def named_the_other_way_round(first, second, unreadable=differences.unreadable):
    which, refusal = unreadable(first, second)
    return (0, 2, 1)[which], refusal


def named_from_0(first, second, unreadable=differences.unreadable):
    which, refusal = unreadable(first, second)
    return max(which, 1) - 1, refusal


def no_file_named(first, second, unreadable=differences.unreadable):
    return 0, unreadable(first, second)[1]


def unreadable_second_taken_as_empty(first, second, unreadable=differences.unreadable):
    return unreadable(first)


def unreadable_first_taken_as_empty(first, second, unreadable=differences.unreadable):
    _, refusal = unreadable(second)
    return 2 if refusal else 0, refusal


def refusals_swapped(one, other):
    """The form of a file with one refusal's number for another's."""
    def form(file, right=differences.form):
        refusal, count = right(file)
        return {one: other, other: one}.get(refusal, refusal), count
    return form


# --- What a file holds ------------------------------------------------------------------------------------------------


def read_at(record_at):
    """The records of a file, each by the file, its record length and the record's number."""
    def read(file, room, right=differences.read):
        refusal, records = right(file, room)
        return refusal, [record_at(file, trailer_of(file)[0], index) for index in range(len(records))]
    return read


def read_as(layouts):
    """The records of a file by other layouts, one for each record length."""
    return read_at(lambda file, length, index: layouts[length].unpack(file[length * index:length * (index + 1)]))


def bytes_for_fields(file, length, index):
    return tuple(file[length * index:length * (index + 1)])


def fields_in_turn(*order):
    """A record with its contents in another order."""
    return lambda file, length, index: tuple(record_at(file, length, index)[at] for at in order)


def class_255_as_minus_1(*numbers):
    return *numbers[:CLASS], -1 if numbers[CLASS] == 255 else numbers[CLASS]


def held_otherwise(change):
    """What a file holds, with each ((record, field), number) changed."""
    def contents(file, right=differences.contents):
        held = right(file)
        return dict(change(record, field, number, held) for (record, field), number in held.items())
    return contents


def records_from_1(record, field, number, held):
    return (record + 1, field), number


def fields_from_1(record, field, number, held):
    return (record, field + 1), number


def fields_from_the_last(record, field, number, held):
    return (record, 7 - field), number


def records_from_the_end(record, field, number, held):
    return (len(held) // 8 - 1 - record, field), number


def records_and_fields_in_one_number(record, field, number, held):
    return (8 * record + field, field), number


def bracket_from_its_least(record, field, number, held):
    bracket = held[record, LOW], held[record, HIGH]
    return (record, field), {LOW: min(bracket), HIGH: max(bracket)}.get(field, number)


def last_record_left_out(file, contents=differences.contents):
    return {place: number for place, number in contents(file).items() if (place[0] + 1, 0) in contents(file)}


def record_of_zeros_ends_the_file(file, contents=differences.contents):
    held = contents(file)
    end = next((at for at in range(len(held) // 8) if not any(held[at, field] for field in range(8))), len(held))
    return {place: number for place, number in held.items() if place[0] < end}


# --- Which contents differ --------------------------------------------------------------------------------------------


def only_where(kept):
    """Differences of which only some are listed, by the place, both contents and all places that differ."""
    def changed(first, second, right=differences.changed):
        places = right(first, second)
        return {place for place in places if kept(place, first[place], second[place], places)}
    return changed


def first_difference_of_a_record(place, first, second, places):
    return place == min(other for other in places if other[0] == place[0])


def last_difference_of_a_record(place, first, second, places):
    return place == max(other for other in places if other[0] == place[0])


def first_record_that_differs(place, first, second, places):
    return place[0] == min(places)[0]


def first_difference_of_all(place, first, second, places):
    return place == min(places)


def larger_in_the_first(place, first, second, places):
    return first > second


def larger_in_the_second(place, first, second, places):
    return first < second


def more_than_1_apart(place, first, second, places):
    return abs(first - second) > 1


def other_size(place, first, second, places):
    return abs(first) != abs(second)


def not_zero(place, first, second, places):
    return first != 0 and second != 0


def class_of_both(place, first, second, places):
    return place[1] != CLASS or 255 not in (first, second)


def not_in_record_0(place, first, second, places):
    return place[0] > 0


def differ_by(bits):
    """Contents of which only the lowest bits are compared."""
    return lambda place, first, second, places: (first - second) % 2**bits != 0


def differ_above(bits):
    """Contents of which only the upper bits are compared."""
    return lambda place, first, second, places: first >> bits != second >> bits


def field_not_compared(field):
    return lambda place, first, second, places: place[1] != field


def duv_compared_by(bits):
    """Duv of which only the lowest bits are compared."""
    return lambda place, first, second, places: place[1] != DUV or (first - second) % 2**bits != 0


def every_content_of_both(first, second):
    return set(first.keys() & second.keys())


def every_field_of_a_record_that_differs(first, second, changed=differences.changed):
    records = {record for record, _ in changed(first, second)}
    return {place for place in first.keys() & second.keys() if place[0] in records}


def same_record_elsewhere_left_out(first, second, changed=differences.changed):
    rows = {tuple(second[record, field] for field in range(8)) for record, _ in second}
    return {place for place in changed(first, second) if tuple(first[place[0], field] for field in range(8)) not in rows}


# --- Records that one file alone has ----------------------------------------------------------------------------------


def shorter_file_taken_as_equal(these, those):
    return set()


def extra_numbered(change):
    """Extra records under other numbers: by their numbers, and how many records the other file has."""
    def extra(these, those, right=differences.extra):
        return set(change(right(these, those), len(those) // 8))
    return extra


def from_0(records, before):
    return (record - before for record in records)


def from_1(records, before):
    return (record + 1 for record in records)


def first_alone(records, before):
    return sorted(records)[:1]


def last_alone(records, before):
    return sorted(records)[-1:]


def last_left_out(records, before):
    return sorted(records)[:-1]


def first_left_out(records, before):
    return sorted(records)[1:]


def one_more(records, before):
    return {*records, max(records) + 1} if records else records


def last_of_both_too(records, before):
    return {*records, before - 1} if records and before else records


def only_beside_some_records(records, before):
    return records if before else ()


# --- Entries ----------------------------------------------------------------------------------------------------------


def entry_with(change):
    """The entry of a differing content with its four numbers changed."""
    return lambda place, first, second, entry=differences.entry: change(*entry(place, first, second))


def contents_swapped(record, field, first, second):
    return record, field, second, first


def how_far_apart_for_the_second(record, field, first, second):
    return record, field, first, second - first


def first_content_twice(record, field, first, second):
    return record, field, first, first


def second_content_twice(record, field, first, second):
    return record, field, second, second


def contents_rising(record, field, first, second):
    return record, field, min(first, second), max(first, second)


def field_before_record(record, field, first, second):
    return field, record, first, second


def contents_before_the_field(record, field, first, second):
    return record, first, second, field


def field_from_1_listed(record, field, first, second):
    return record, field + 1, first, second


def record_from_1_listed(record, field, first, second):
    return record + 1, field, first, second


def duv_listed_by_its_bits(record, field, first, second):
    return record, field, *(content % 2**32 if field == DUV else content for content in (first, second))


def duv_listed_by_16_bits(record, field, first, second):
    return record, field, *((content + 2**15) % 2**16 - 2**15 if field == DUV else content for content in (first, second))


def class_255_listed_as_minus_1(record, field, first, second):
    return record, field, *(-1 if (field, content) == (CLASS, 255) else content for content in (first, second))


def class_from_1_listed(record, field, first, second):
    return record, field, *((content + 1) % 256 if field == CLASS else content for content in (first, second))


def record_kept_to(bits):
    return lambda record, field, first, second: (record % 2**bits, field, first, second)


def contents_of_32_signed_bits(record, field, first, second):
    return record, field, *((content + 2**31) % 2**32 - 2**31 for content in (first, second))


def contents_without_their_sign(record, field, first, second):
    return record, field, abs(first), abs(second)


def fields_8_and_9_swapped(record, only_in, extra_entry=differences.extra_entry):
    return extra_entry(record, {ONLY_IN_FIRST: ONLY_IN_SECOND, ONLY_IN_SECOND: ONLY_IN_FIRST}[only_in])


def extra_entry_with(*contents):
    return lambda record, only_in: (record, only_in, *contents)


def extra_record_for_its_contents(record, only_in):
    return record, only_in, record, record


def presence_for_the_contents(record, only_in):
    return record, only_in, int(only_in == ONLY_IN_FIRST), int(only_in == ONLY_IN_SECOND)


def extra_field_before_record(record, only_in):
    return only_in, record, 0, 0


def extra_records_with_their_contents(first, second, entries=differences.entries):
    everything = {place: 0 for place in first.keys() | second.keys()}
    return entries({**everything, **first}, {**everything, **second})


def one_entry_for_all_extra_records(first, second, entries=differences.entries):
    listed = entries(first, second)
    extra = [entry for entry in listed if entry[1] > 7]
    return [entry for entry in listed if entry[1] < 8] + [(*entry[:2], len(extra), 0) for entry in extra[:1]]


def extra_records_only_without_differences(first, second, entries=differences.entries):
    listed = entries(first, second)
    return [entry for entry in listed if entry[1] < 8] or listed


def nothing_where_lengths_differ(first, second, entries=differences.entries):
    return [entry for entry in entries(first, second) if len(first) == len(second) or entry[1] > 7]


def every_entry_twice(first, second, entries=differences.entries):
    return [entry for entry in entries(first, second) for _ in range(2)]


# --- The order of entries ---------------------------------------------------------------------------------------------


def field_then_record(entry):
    record, field, _, _ = entry
    return field > 7, field, record


def extra_records_first(entry):
    record, field, _, _ = entry
    return field < 8, record, field


def last_record_first(entry):
    record, field, _, _ = entry
    return field > 7, -record, field


def last_field_first(entry):
    record, field, _, _ = entry
    return field > 7, record, -field


def last_extra_record_first(entry):
    record, field, _, _ = entry
    return field > 7, -record if field > 7 else record, field


def by_the_first_content(entry):
    record, field, first, _ = entry
    return field > 7, first, record, field


def farthest_apart_first(entry):
    record, field, first, second = entry
    return field > 7, -abs(first - second), record, field


# --- Rooms ------------------------------------------------------------------------------------------------------------


def exact_room_refused(listed, room):
    return NUMBERS * len(listed) < room


def exact_room_refused_but_for_none(listed, room):
    return not listed or NUMBERS * len(listed) < room


def numbers_short(count):
    return lambda listed, room: NUMBERS * len(listed) <= room + count


def room_counted_in_entries(listed, room):
    return len(listed) <= room


def room_counted_in_bytes(listed, room):
    return 8 * NUMBERS * len(listed) <= room


def room_of_whole_entries_and_one(listed, room):
    return len(listed) < room // NUMBERS + (not listed)


def room_refused_without_differences(listed, room):
    return 0 < room >= NUMBERS * len(listed)


def room_for_every_field_of_the_last_record(listed, room):
    return NUMBERS * 8 * (max(listed)[0] + 1 if listed else 0) <= room


def room_of_16_bits(listed, room):
    return NUMBERS * len(listed) % 2**16 <= room


def room_for_the_differing_fields_alone(listed, room):
    return NUMBERS * sum(field < 8 for _, field, _, _ in listed) <= room


# --- The comparison ---------------------------------------------------------------------------------------------------


def all_of(first, second):
    """All entries of two files that can be read."""
    return differences.entries(*map(differences.contents, (first, second)))


def room_before_the_files(least):
    """Refusal 12 in a smaller room than this before the files are looked at."""
    def compare(first, second, room, right=differences.compare):
        return (0, NO_ROOM, []) if room < least else right(first, second, room)
    return compare


def where_no_room(change):
    """What is given where the entries have no room, by all of them and the room."""
    def compare(first, second, room, right=differences.compare):
        which, refusal, listed = right(first, second, room)
        return change(all_of(first, second), room) if refusal == NO_ROOM else (which, refusal, listed)
    return compare


def what_has_room_is_listed(listed, room):
    return 0, 0, listed[:room // NUMBERS]


def no_room_names_the_first_file(listed, room):
    return 1, NO_ROOM, []


def no_room_names_the_second_file(listed, room):
    return 2, NO_ROOM, []


def no_room_gives_11(listed, room):
    return 0, TOO_MANY_RECORDS, []


def equal_files_never_refused(first, second, room, compare=differences.compare):
    return (0, 0, []) if first == second else compare(first, second, room)


def record_lengths_differ(*files):
    """Whether two files that can be read have records of different lengths."""
    return not differences.unreadable(*files)[1] and len({trailer_of(file)[0] for file in files}) > 1


def record_lengths_that_differ_refused(first, second, room, compare=differences.compare):
    return (2, BAD_RECORD_LENGTH, []) if record_lengths_differ(first, second) else compare(first, second, room)


def by_bytes_where_record_lengths_differ(first, second, room, compare=differences.compare):
    if not record_lengths_differ(first, second):
        return compare(first, second, room)
    held, other = map(differences.contents, (first, second))
    both = [differences.entry(place, held, other) for place in sorted(held.keys() & other.keys())]
    listed = both + [entry for entry in all_of(first, second) if entry[1] > 7]
    return (0, 0, listed) if differences.has_room(listed, room) else (0, NO_ROOM, [])


def duv_left_out_where_record_lengths_differ(first, second, room, compare=differences.compare):
    if not record_lengths_differ(first, second):
        return compare(first, second, room)
    listed = [entry for entry in all_of(first, second) if entry[1] != DUV]
    return (0, 0, listed) if differences.has_room(listed, room) else (0, NO_ROOM, [])


def lengths_that_differ_refused(first, second, room, compare=differences.compare):
    which, refusal, listed = compare(first, second, room)
    return (which, refusal, listed) if refusal or len(first) == len(second) else (0, BAD_TRAILER, [])


# --- The target -------------------------------------------------------------------------------------------------------


def numbers_of(listed):
    return tuple(number for entry in listed for number in entry)


def after_with(change):
    """The comparison with its count and its target afterwards changed, by the refusal, them and the target before."""
    def compare_into(target, first, second, right=differences.compare_into):
        which, refusal, count, after = right(target, first, second)
        return which, refusal, *change(refusal, count, after, target)
    return compare_into


def counted_in_numbers(refusal, count, after, target):
    return NUMBERS * count, after


def differing_fields_alone_counted(refusal, count, after, target):
    return sum(field < 8 for field in after[1:NUMBERS * count:NUMBERS]), after


def records_counted(refusal, count, after, target):
    return len(set(after[:NUMBERS * count:NUMBERS])), after


def count_kept_to(bits):
    return lambda refusal, count, after, target: (count % 2**bits, after)


def all_records_then_all_fields(refusal, count, after, target):
    listed = after[:NUMBERS * count]
    return count, tuple(number for at in range(NUMBERS) for number in listed[at::NUMBERS]) + after[NUMBERS * count:]


def end_marked(refusal, count, after, target):
    end = NUMBERS * count
    return count, after if refusal or end == len(after) else (*after[:end], -1, *after[end + 1:])


def cleared_before(*refusals):
    """The target's first number is made zero although the comparison is then refused."""
    return lambda refusal, count, after, target: (count, (0, *after[1:]) if refusal in refusals and after else after)


def listed_before_no_room(most):
    """At most so many entries are written although there is then no room for all."""
    def compare_into(target, first, second, right=differences.compare_into):
        which, refusal, count, after = right(target, first, second)
        if refusal != NO_ROOM:
            return which, refusal, count, after
        return which, refusal, count, differences.over(target, numbers_of(all_of(first, second)[:most])[:len(target)])
    return compare_into


def count_given_without_room(target, first, second, compare_into=differences.compare_into):
    which, refusal, count, after = compare_into(target, first, second)
    return which, refusal, len(all_of(first, second)) if refusal == NO_ROOM else count, after


def second_listed_beside_an_unreadable_first(target, first, second, compare_into=differences.compare_into):
    which, refusal, count, after = compare_into(target, first, second)
    listed = differences.entries({}, differences.contents(second)) if which == 1 else []
    return which, refusal, count, differences.over(after, numbers_of(listed)[:len(after)])


FILE_REFUSALS = (NO_TRAILER, BAD_RECORD_LENGTH, BAD_TRAILER, TOO_MANY_RECORDS)


def layout_rules(length):
    """Wrong layouts of the records of one length."""
    of, titled = (lambda **options: read_as(records_of(length, **options))), lambda title: "%s, in %d bytes" % (title, length)
    return (
        *(("read", of(big={at}), titled("big-endian " + FIELDS[at])) for at in range(6)),
        *(("read", of(order=swapped(at, at + 1)), titled("%s before %s" % (FIELDS[at + 1], FIELDS[at]))) for at in range(7)),
        ("read", of(signed=()), titled("Duv unsigned")),
        *(("read", of(signed=(at, DUV)), titled(FIELDS[at] + " signed")) for at in range(8) if at != DUV),
        *(("read", of(layout=Changed, out_of=change), titled(words(change))) for change in (
            class_255_as_0, class_255_as_minus_1, with_duv(without_its_sign), brought_to_what_is_answered)),
    )


# Those of record files about which files can be read; the count that goes with a refusal is of no use here.
WRONG_FORM_RULES = tuple(rule for rule in WRONG_RECORD_RULES if rule[0] == "form" and rule[1] is not count_of_the_refused_file_given)

WRONG_COMPARE_RULES = (
    *(("unreadable", wrong) for wrong in (
        second_named_where_both_are_bad, lower_refusal_named, both_named, refusal_of_the_other_file, named_the_other_way_round,
        named_from_0, no_file_named, unreadable_second_taken_as_empty, unreadable_first_taken_as_empty)),
    *(("form", refusals_swapped(*pair), "%d and %d mixed up" % pair) for pair in combinations(FILE_REFUSALS, 2)),
    *(rule for length in LENGTHS for rule in layout_rules(length)),
    *(("read", read_as(records_of(WRITTEN, Changed, out_of=change)), words(change)) for change in READ_CHANGES),
    *(("read", read_at(fields_in_turn(*swapped(at, at + 1))), "fields %d and %d swapped" % (at, at + 1)) for at in range(7)),
    *(("read", read_at(by_one_length(length)), "records by %d bytes in every file" % length) for length in LENGTHS),
    ("read", read_at(bytes_for_fields), words(bytes_for_fields)),
    *(("contents", held_otherwise(change), words(change)) for change in (
        records_from_1, fields_from_1, fields_from_the_last, records_from_the_end, records_and_fields_in_one_number,
        bracket_from_its_least)),
    *(("contents", wrong) for wrong in (last_record_left_out, record_of_zeros_ends_the_file)),
    *(("changed", only_where(kept), "only the " + words(kept)) for kept in (
        first_difference_of_a_record, last_difference_of_a_record, first_record_that_differs, first_difference_of_all)),
    *(("changed", only_where(kept), "only where " + words(kept)) for kept in (
        larger_in_the_first, larger_in_the_second, more_than_1_apart, other_size, not_zero, class_of_both, not_in_record_0)),
    *(("changed", only_where(differ_by(bits)), "only %d bits compared" % bits) for bits in (7, 8, 15, 16, 31)),
    *(("changed", only_where(differ_above(bits)), "the lowest %d bits not compared" % bits) for bits in (1, 8, 16)),
    *(("changed", only_where(field_not_compared(at)), name + " not compared") for at, name in enumerate(FIELDS)),
    *(("changed", only_where(duv_compared_by(bits)), "only %d bits of Duv compared" % bits) for bits in (8, 15, 16, 24)),
    *(("changed", wrong) for wrong in (every_content_of_both, every_field_of_a_record_that_differs, same_record_elsewhere_left_out)),
    ("extra", shorter_file_taken_as_equal),
    *(("extra", extra_numbered(change), "extra records: " + words(change)) for change in (
        from_0, from_1, first_alone, last_alone, last_left_out, first_left_out, one_more, last_of_both_too, only_beside_some_records)),
    *(("entry", entry_with(change), words(change)) for change in (
        contents_swapped, how_far_apart_for_the_second, first_content_twice, second_content_twice, contents_rising, field_before_record,
        contents_before_the_field, field_from_1_listed, record_from_1_listed, duv_listed_by_its_bits, duv_listed_by_16_bits,
        class_255_listed_as_minus_1, class_from_1_listed, contents_of_32_signed_bits, contents_without_their_sign)),
    ("entry", entry_with(record_kept_to(8)), "record numbers kept to 8 bits"),
    *(("extra_entry", wrong) for wrong in (
        fields_8_and_9_swapped, extra_record_for_its_contents, presence_for_the_contents, extra_field_before_record)),
    *(("extra_entry", extra_entry_with(*pair), "extra records with %d and %d" % pair) for pair in ((-1, -1), (1, 1), (0, 1), (1, 0))),
    *(("ONLY_IN_FIRST", field) for field in (7, 9, 10)),
    *(("ONLY_IN_SECOND", field) for field in (7, 8, 10)),
    *(("entries", wrong) for wrong in (
        extra_records_with_their_contents, one_entry_for_all_extra_records, extra_records_only_without_differences,
        nothing_where_lengths_differ, every_entry_twice)),
    *(("order", wrong) for wrong in (
        field_then_record, extra_records_first, last_record_first, last_field_first, last_extra_record_first, by_the_first_content,
        farthest_apart_first)),
    *(("has_room", wrong) for wrong in (
        exact_room_refused, exact_room_refused_but_for_none, room_counted_in_entries, room_counted_in_bytes, room_of_whole_entries_and_one,
        room_refused_without_differences, room_for_every_field_of_the_last_record, room_of_16_bits, room_for_the_differing_fields_alone)),
    *(("has_room", numbers_short(count), "%d numbers short suffice" % count) for count in (1, 2, 3, 4)),
    *(("NUMBERS", count) for count in (3, 5)),
    *(("compare", room_before_the_files(least), "12 before the files in a room under %d" % least) for least in (1, 4)),
    *(("compare", where_no_room(change), words(change)) for change in (
        what_has_room_is_listed, no_room_names_the_first_file, no_room_names_the_second_file, no_room_gives_11)),
    *(("compare", wrong) for wrong in (
        equal_files_never_refused, lengths_that_differ_refused, record_lengths_that_differ_refused, by_bytes_where_record_lengths_differ,
        duv_left_out_where_record_lengths_differ)),
    *(("compare_into", after_with(change), words(change)) for change in (
        counted_in_numbers, differing_fields_alone_counted, records_counted, all_records_then_all_fields, end_marked)),
    *(("compare_into", after_with(count_kept_to(bits)), "the count kept to %d bits" % bits) for bits in (8, 14)),
    *(("compare_into", after_with(cleared_before(number)), "target cleared before refusal %d" % number)
      for number in (*FILE_REFUSALS, NO_ROOM)),
    *(("compare_into", listed_before_no_room(most), "%d entries written before refusal 12" % most) for most in (1, 28_800)),
    *(("compare_into", wrong) for wrong in (count_given_without_room, second_listed_beside_an_unreadable_first)),
    *(("over", wrong) for wrong in (rest_made_zero, rest_cut_off, beyond_refused_too, one_more_made_zero, put_at_the_end)),
)
