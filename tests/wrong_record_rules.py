"""Wrong rules of record files for check_wrong_rules.py: near misses that document 02's No. 4 and 8 leave room for.

They are put into record_files.py. The first word of each rule is the name there that it stands in for."""

import struct
from itertools import zip_longest
from operator import itemgetter

import record_files as files
from record_files import BAD_RECORD_LENGTH, BAD_TRAILER, NO_ROOM, NO_TRAILER, TOO_MANY_RECORDS

FIELDS = ("u", "v", "place", "o", "p", "Duv", "steps", "class")
EARLIER, WRITTEN = LENGTHS = 18, 20
RECORD_SIZES, TRAILER_SIZES = {length: (4, 4, 2, 2, 2, length - 16, 1, 1) for length in LENGTHS}, (2, 2, 4)
DUV, CLASS = 5, 7
TRAILER, MOST = 8, {EARLIER: 3600, WRITTEN: 3200}


# --- Numbers in bytes -------------------------------------------------------------------------------------------------


class Layout:
    """Numbers in bytes as a `struct.Struct` has them, with any order of fields and bytes; a number is cut to its field."""

    def __init__(self, sizes, order=None, big=(), signed=(DUV,)):
        self.fields = [(at, sizes[at], "big" if at in big else "little", at in signed) for at in order or range(len(sizes))]
        self.size = sum(sizes)

    def pack(self, *numbers):
        return b"".join((numbers[at] % 256**size).to_bytes(size, order) for at, size, order, _ in self.fields)

    def unpack(self, data):
        numbers, start = {}, 0
        for at, size, order, signed in self.fields:
            numbers[at] = int.from_bytes(data[start:start + size], order, signed=signed)
            start += size
        return tuple(numbers[at] for at in sorted(numbers))


class Changed(Layout):
    """Records whose numbers are changed on the way into bytes or out of them."""

    def __init__(self, sizes, into=lambda *numbers: numbers, out_of=lambda *numbers: numbers):
        super().__init__(sizes)
        self.into, self.out_of = into, out_of

    def pack(self, *numbers):
        return super().pack(*self.into(*numbers))

    def unpack(self, data):
        return self.out_of(*super().unpack(data))


def records_of(length, layout=Layout, **options):
    """The layouts of both record lengths, where that of one length is another."""
    return {**files.RECORDS, length: layout(RECORD_SIZES[length], **options)}


def swapped(first, second, count=8):
    """The order of fields with two of them swapped."""
    order = list(range(count))
    order[first], order[second] = second, first
    return order


def class_255_as_0(*numbers):
    return *numbers[:CLASS], numbers[CLASS] % 255


def with_duv(change):
    """The numbers of a record with their Duv changed."""
    def changed(*numbers):
        return *numbers[:DUV], change(numbers[DUV]), *numbers[DUV + 1:]
    changed.__name__ = "duv_" + change.__name__
    return changed


def without_its_sign(duv):
    return abs(duv)


def with_the_sign_in_a_bit_beside_it(duv):
    return duv if duv >= 0 else 2**31 - duv


def counted_from_the_middle(duv):
    return duv + 2**31


def in_16_bits(duv):
    return (duv + 2**15) % 2**16 - 2**15


def in_16_bits_without_a_sign(duv):
    return duv % 2**16


def by_its_upper_half(duv):
    return duv >> 16


def with_its_halves_swapped(duv):
    return (duv >> 16) % 2**16 + ((duv + 2**15) % 2**16 - 2**15) * 2**16


def held_within(most):
    """A number held within so many either side of 0."""
    def held(number):
        return min(max(number, -most), most)
    held.__name__ = "held_within_%d" % most
    return held


def brought_to_what_is_answered(u, v, place, o, p, duv, steps, cls):
    place, o, p = (min(max(number, 5168), 64_600) for number in (place, o, p))
    return min(u, 4_000_000), min(v, 4_000_000), place, o, p, held_within(50_000)(duv), min(steps, 14), cls if cls < 31 else 255


# --- The file ---------------------------------------------------------------------------------------------------------


def with_trailer(body, *numbers):
    return body + files.TRAILER.pack(*numbers)


def distance_to_the_end(records, file_of=files.file_of):
    body = file_of(records)[:-TRAILER]
    return with_trailer(body, WRITTEN, len(records), len(body) + TRAILER)


def distance_from_the_start_to_the_first_record(records, file_of=files.file_of):
    return with_trailer(file_of(records)[:-TRAILER], WRITTEN, len(records), 0)


def distance_in_records(records, file_of=files.file_of):
    return with_trailer(file_of(records)[:-TRAILER], WRITTEN, len(records), len(records))


def distance_back_to_the_last_record(records, file_of=files.file_of):
    return with_trailer(file_of(records)[:-TRAILER], WRITTEN, len(records), WRITTEN * min(len(records), 1))


def count_in_bytes(records, file_of=files.file_of):
    body = file_of(records)[:-TRAILER]
    return with_trailer(body, WRITTEN, len(body) % 2**16, len(body))


def last_index_for_the_count(records, file_of=files.file_of):
    body = file_of(records)[:-TRAILER]
    return with_trailer(body, WRITTEN, max(len(records), 1) - 1, len(body))


def trailer_first(records, file_of=files.file_of):
    file = file_of(records)
    return file[-TRAILER:] + file[:-TRAILER]


def no_trailer_without_records(records, file_of=files.file_of):
    return file_of(records) if records else b""


def last_record_first(records, file_of=files.file_of):
    return file_of(records[::-1])


def same_record_once(records, file_of=files.file_of):
    return file_of([record for at, record in enumerate(records) if record not in records[:at]])


def trailer_at_the_start(file):
    return files.TRAILER.unpack(file[:TRAILER])


# --- The list of eight columns ----------------------------------------------------------------------------------------


def as_long_as_the_longest(columns):
    return list(zip_longest(*columns, fillvalue=0))


def none_where_lengths_differ(columns):
    return list(zip(*columns)) if len({*map(len, columns)}) == 1 else []


def as_long_as(at):
    """A list that goes by the length of one column."""
    return lambda columns: as_long_as_the_longest([column[:len(columns[at])] for column in columns])


def as_long_as_all_but(at):
    """A list that does not go by the length of one column."""
    def listed(columns):
        shortest = min(len(column) for k, column in enumerate(columns) if k != at)
        return as_long_as_the_longest([column[:shortest] for column in columns])
    return listed


# --- The writer -------------------------------------------------------------------------------------------------------


def written_by(length, most):
    """A writer of another record length or limit, which cuts a number to its field."""
    def write(records, room):
        if len(records) > most:
            return TOO_MANY_RECORDS, b""
        if length * len(records) + TRAILER > room:
            return NO_ROOM, b""
        layout = Layout(RECORD_SIZES[length])
        body = b"".join(layout.pack(*record) for record in records)
        return 0, with_trailer(body, length, len(records), len(body))
    return write


def the_earlier_length_written_where_it_fits(records, room, write=files.write):
    fit = all(in_16_bits(record[DUV]) == record[DUV] for record in records)
    return written_by(EARLIER, MOST[WRITTEN])(records, room) if fit else write(records, room)


def duv_beyond_16_bits_refused(records, room, write=files.write):
    fit = all(in_16_bits(record[DUV]) == record[DUV] for record in records)
    return write(records, room) if fit else (BAD_TRAILER, b"")


def room_before_the_count(records, room, write=files.write):
    return (NO_ROOM, b"") if WRITTEN * len(records) + TRAILER > room else write(records, room)


def writer_without_a_limit(records, room):
    return (0, files.file_of(records[:2**16 - 1])) if WRITTEN * len(records) + TRAILER <= room else (NO_ROOM, b"")


def count_wraps_in_the_writer(records, room, write=files.write):
    return write(records[:len(records) % 2**16], room)


def first_3200_are_written(records, room, write=files.write):
    return write(records[:MOST[WRITTEN]], room)


def exact_room_refused(records, room, write=files.write):
    return write(records, room - 1)


def a_byte_too_little_suffices(records, room, write=files.write):
    refusal, file = write(records, room + 1)
    return refusal, file[:room]


def room_without_the_trailer(records, room, write=files.write):
    refusal, file = write(records, room + TRAILER)
    return refusal, file[:room]


def room_in_whole_records(records, room, write=files.write):
    return write(records, room // WRITTEN * WRITTEN + TRAILER)


def what_has_room_is_written(records, room, write=files.write):
    return write(records[:max(0, room - TRAILER) // WRITTEN], room)


def no_room_gives_11(records, room, write=files.write):
    refusal, file = write(records, room)
    return min(refusal, TOO_MANY_RECORDS), file


def empty_list_not_written(records, room, write=files.write):
    return write(records, room if records else 0)


def other_numbers_refused_by_the_writer(records, room, write=files.write):
    taken = all(record == brought_to_what_is_answered(*record) for record in records)
    return write(records, room) if taken else (BAD_TRAILER, b"")


# --- The reader -------------------------------------------------------------------------------------------------------


def trailer_or_zeros(file):
    """A trailer's three numbers; bytes that are not there count as zeros."""
    return files.TRAILER.unpack(file[-TRAILER:].rjust(TRAILER, b"\0"))


def broken(file, room):
    """Whether a file breaks each of the reader's rules; another record length than the two counts as that which is written."""
    length, count, distance = trailer_or_zeros(file)
    own = length if length in LENGTHS else WRITTEN
    agrees = distance == own * count and len(file) == own * count + TRAILER
    return {NO_TRAILER: len(file) < TRAILER, BAD_RECORD_LENGTH: length != own, BAD_TRAILER: not agrees,
            TOO_MANY_RECORDS: count > MOST[own], NO_ROOM: count > room}


def form_in_order(*order):
    """The form with its rules in another order, or some left out."""
    def form(file):
        refusal = next((number for number in order if broken(file, 0)[number]), 0)
        return refusal, 0 if refusal else trailer_or_zeros(file)[1]
    return form


def read_in_order(*order):
    """The reader with its rules in another order, or some left out."""
    def read(file, room):
        refusal = next((number for number in order if broken(file, room)[number]), 0)
        length, count, _ = trailer_or_zeros(file)
        return refusal, [] if refusal else [files.record_at(file, length, index) for index in range(count)]
    return read


def is_either(length):
    return length in LENGTHS


def all_agree(size, distance, count, length):
    return size == distance == length * count


def form_with(is_length=is_either, agrees=all_agree, most=MOST):
    """The form with another rule for the record length; for the bytes before the trailer, the distance, the count and the record length; or
    for the most records of each length."""
    def form(file):
        if len(file) < TRAILER:
            return NO_TRAILER, 0
        length, count, distance = files.trailer_of(file)
        if not is_length(length):
            return BAD_RECORD_LENGTH, 0
        if not agrees(len(file) - TRAILER, distance, count, length):
            return BAD_TRAILER, 0
        return (TOO_MANY_RECORDS, 0) if count > most.get(length, most[WRITTEN]) else (0, count)
    return form


def any_record_length(length):
    return True


def record_length_of_18_only(length):
    return length == 18


def record_length_of_20_only(length):
    return length == 20


def record_length_of_18_to_20(length):
    return 18 <= length <= 20


def record_length_of_18_or_more(length):
    return length >= 18


def record_length_up_to_20(length):
    return length <= 20


def record_length_by_one_byte(length):
    return length % 256 in LENGTHS


def record_length_by_its_upper_byte_too(length):
    return length in LENGTHS or length // 256 in LENGTHS


def judged_with(other):
    """The bytes, the distance and the count by one record length for every file."""
    return lambda size, distance, count, length: size == distance == other * count


def distance_judged_with(other):
    return lambda size, distance, count, length: size == length * count and distance == other * count


def size_judged_with(other):
    return lambda size, distance, count, length: distance == length * count and size == other * count


def either_length_suffices(size, distance, count, length):
    return size == distance in (EARLIER * count, WRITTEN * count)


def the_other_length_judged(size, distance, count, length):
    return size == distance == (EARLIER + WRITTEN - length) * count


def count_not_compared(size, distance, count, length):
    return size == distance


def distance_not_compared(size, distance, count, length):
    return size == length * count


def size_not_compared(size, distance, count, length):
    return distance == length * count


def more_bytes_before_the_records_taken(size, distance, count, length):
    return size >= distance == length * count


def fewer_bytes_taken(size, distance, count, length):
    return size <= distance == length * count


def part_of_a_record_more_taken(size, distance, count, length):
    return distance == length * count and size // max(length, 1) == count


def a_byte_more_taken(size, distance, count, length):
    return distance == length * count and size in (distance, distance + 1)


def distance_to_the_end_taken(size, distance, count, length):
    return size == length * count and distance in (size, size + TRAILER)


def only_distance_to_the_end_taken(size, distance, count, length):
    return size == length * count == distance - TRAILER


def distance_of_0_taken(size, distance, count, length):
    return size == length * count and distance in (0, size)


def distance_up_to_the_records_taken(size, distance, count, length):
    return size == length * count and distance <= size


def product_of_16_bits(size, distance, count, length):
    return size == distance == length * count % 2**16


def distance_by_two_bytes(size, distance, count, length):
    return size == length * count and distance % 2**16 == size % 2**16


def size_by_two_bytes(size, distance, count, length):
    return distance == length * count and distance % 2**16 == size % 2**16


def distance_by_three_bytes(size, distance, count, length):
    return size == length * count and distance % 2**24 == size


def no_records_refused(size, distance, count, length):
    return count > 0 and size == distance == length * count


def by_the_record_length_of_the_file(file, form=files.form):
    refusal, count = form(file)
    if refusal != BAD_RECORD_LENGTH:
        return refusal, count
    length, count, distance = files.trailer_of(file)
    return refusal if len(file) - TRAILER == distance == length * count else BAD_TRAILER, 0


def trailer_alone_refused(file, form=files.form):
    return (NO_TRAILER, 0) if len(file) == TRAILER else form(file)


def short_file_gives_15(file, form=files.form):
    return (BAD_TRAILER, 0) if len(file) < TRAILER else form(file)


def no_bytes_read_as_no_records(file, form=files.form):
    return form(file) if file else (0, 0)


def seven_bytes_are_a_trailer(file, form=files.form):
    return form(file + b"\0" if len(file) == 7 else file)


def too_many_gives_15(file, form=files.form):
    refusal, count = form(file)
    return BAD_TRAILER if refusal == TOO_MANY_RECORDS else refusal, count


def count_below_zero_from_2_to_the_15(file, form=files.form):
    refusal, count = form(file)
    return (0, 0) if refusal == TOO_MANY_RECORDS and files.trailer_of(file)[1] >= 2**15 else (refusal, count)


def count_of_the_refused_file_given(file, form=files.form):
    refusal, count = form(file)
    return refusal, trailer_or_zeros(file)[1] if refusal else count


def exact_room_refused_by_the_reader(file, room, read=files.read):
    return read(file, room - 1)


def a_record_too_little_suffices(file, room, read=files.read):
    refusal, records = read(file, room + 1)
    return refusal, records[:room]


def what_has_room_is_read(file, room, read=files.read):
    refusal, records = read(file, MOST[EARLIER])
    return refusal, records[:room]


def read_from_the_last(file, room, read=files.read):
    refusal, records = read(file, room)
    return refusal, records[::-1]


def record_of_zeros_ends_the_list(file, room, read=files.read):
    refusal, records = read(file, room)
    return refusal, records[:next((at for at, record in enumerate(records) if not any(record)), len(records))]


def earlier_files_read_up_to_what_is_written(file, room, read=files.read):
    refusal, records = read(file, room)
    return (NO_ROOM, []) if len(records) > MOST[WRITTEN] else (refusal, records)


def other_numbers_refused_by_the_reader(file, room, read=files.read):
    refusal, records = read(file, room)
    taken = all(record == brought_to_what_is_answered(*record) for record in records)
    return (refusal, records) if taken else (BAD_TRAILER, [])


# --- The record at an index -------------------------------------------------------------------------------------------


def by_one_length(other):
    """The record at an index by one record length for every file."""
    return lambda data, length, index, record_at=files.record_at: record_at(data, other, index)


def from_the_ninth_byte_on(data, length, index, record_at=files.record_at):
    return record_at(data[TRAILER:], length, index)


def numbered_from_1(file, index, file_record=files.file_record):
    return file_record(file, index - 1) if index else files.NO_RECORD


def numbered_from_the_end(file, index, file_record=files.file_record):
    _, count = files.form(file)
    return file_record(file, count - 1 - index if index < count else index)


def last_record_left_out(file, index, file_record=files.file_record):
    return file_record(file, index) if index + 1 < files.form(file)[1] else files.NO_RECORD


def index_held_to_the_last(file, index, file_record=files.file_record):
    return file_record(file, min(index, max(1, files.form(file)[1]) - 1))


def of_any_bytes(length):
    """The record at an index of the bytes, whatever follows, by one record length."""
    return lambda file, index: files.record_at(file, length, index)


def of_any_trailer(file, index):
    return files.record_at(file, trailer_or_zeros(file)[0], index)


def although_refused_with(*numbers):
    """The record of a file that is refused with some numbers too, where the trailer counts it and the bytes have it."""
    def file_record(file, index, right=files.file_record):
        length, count, _ = trailer_or_zeros(file)
        refused = files.form(file)[0] in numbers and index < count
        return files.record_at(file[:-TRAILER], length, index) if refused else right(file, index)
    return file_record


def product_wraps_at(bits):
    """The record from the product of index and record length on, of which only so many bits are kept."""
    def file_record(file, index, right=files.file_record):
        refusal, _ = files.form(file)
        length, _, _ = trailer_or_zeros(file)
        return files.NO_RECORD if refusal else files.record_at(file[length * index % 2**bits:-TRAILER], length, 0)
    return file_record


def index_wraps_at(bits):
    return lambda file, index, file_record=files.file_record: file_record(file, index % 2**bits)


# --- Targets ----------------------------------------------------------------------------------------------------------


def rest_made_zero(target, given):
    return given + type(target)([0] * (len(target) - len(given)))


def rest_cut_off(target, given):
    return given


def beyond_refused_too(target, given, over=files.over):
    return over(target, given) if given else rest_made_zero(target, given)


def one_more_made_zero(target, given, over=files.over):
    return over(target, given + type(target)([0] * min(1, len(target) - len(given))))


def put_at_the_end(target, given):
    return target[:len(target) - len(given)] + given


def records_before_the_room(target, columns, write_into=files.write_into):
    refusal, count, after = write_into(target, columns)
    body = files.file_of(files.listed(columns)[:MOST[WRITTEN]])[:-TRAILER]
    return refusal, count, files.over(target, body[:len(target)]) if refusal == NO_ROOM else after


def first_3200_before_the_refusal(target, columns, write_into=files.write_into):
    refusal, count, after = write_into(target, columns)
    body = files.file_of(files.listed(columns)[:MOST[WRITTEN]])[:-TRAILER]
    return refusal, count, files.over(target, body[:len(target)]) if refusal == TOO_MANY_RECORDS else after


def records_written_for_bytes(target, columns, write_into=files.write_into):
    refusal, count, after = write_into(target, columns)
    return refusal, count // WRITTEN, after


def records_alone_counted(target, columns, write_into=files.write_into):
    refusal, count, after = write_into(target, columns)
    return refusal, max(0, count - TRAILER), after


def trailer_at_the_end_of_the_target(target, columns, write_into=files.write_into):
    refusal, count, after = write_into(target, columns)
    file, rest = after[:count], after[count:]
    return refusal, count, after if refusal else file[:-TRAILER] + rest + file[-TRAILER:]


def read_before(number):
    """The columns take the records that have room although the file is then refused with this number."""
    def read_into(targets, file, right=files.read_into):
        refusal, count, after = right(targets, file)
        if refusal != number:
            return refusal, count, after
        length = trailer_or_zeros(file)[0] if trailer_or_zeros(file)[0] in LENGTHS else WRITTEN
        whole = min(max(0, len(file) - TRAILER) // length, *map(len, targets))
        records = [files.record_at(file, length, index) for index in range(whole)]
        columns = zip(*records) if records else [()] * len(targets)
        return refusal, count, [files.over(target, column) for target, column in zip(targets, columns)]
    return read_into


def cleared_before(number):
    """The columns' first numbers are made zero although the file is then refused with this number."""
    def read_into(targets, file, right=files.read_into):
        refusal, count, after = right(targets, file)
        return refusal, count, [column and (0, *column[1:]) for column in after] if refusal == number else after
    return read_into


def room_of(pick):
    """The reader goes by another column's room than the shortest one's; what has no room is not put down."""
    def read_into(targets, file):
        refusal, records = files.read(file, pick([*map(len, targets)]))
        columns = zip(*records) if records else [()] * len(targets)
        return refusal, len(records), [files.over(target, column)[:len(target)] for target, column in zip(targets, columns)]
    return read_into


def least_but(at):
    """The least room but for one column's."""
    return lambda rooms: min(rooms[:at] + rooms[at + 1:])


def bytes_read_for_records(targets, file, read_into=files.read_into):
    refusal, count, after = read_into(targets, file)
    return refusal, WRITTEN * count, after


READER = (NO_TRAILER, BAD_RECORD_LENGTH, BAD_TRAILER, TOO_MANY_RECORDS, NO_ROOM)


def with_swap(first, second):
    """The reader's order with two refusals swapped."""
    return tuple({first: second, second: first}.get(number, number) for number in READER)


def without(number):
    return tuple(other for other in READER if other != number)


LENGTH_RULES = (any_record_length, record_length_of_18_only, record_length_of_20_only, record_length_of_18_to_20,
                record_length_of_18_or_more, record_length_up_to_20, record_length_by_one_byte, record_length_by_its_upper_byte_too)
AGREEMENTS = (either_length_suffices, the_other_length_judged, count_not_compared, distance_not_compared, size_not_compared,
              more_bytes_before_the_records_taken, fewer_bytes_taken, part_of_a_record_more_taken, a_byte_more_taken,
              distance_to_the_end_taken, only_distance_to_the_end_taken, distance_of_0_taken, distance_up_to_the_records_taken,
              product_of_16_bits, distance_by_two_bytes, size_by_two_bytes, distance_by_three_bytes, no_records_refused)
TRAILER_FIELDS = ("length", "count", "distance")

# The most records of each length, otherwise than they are.
LIMITS = {
    "3,600 for both lengths": {EARLIER: 3600, WRITTEN: 3600}, "3,200 for both lengths": {EARLIER: 3200, WRITTEN: 3200},
    "the limits swapped": {EARLIER: 3200, WRITTEN: 3600}, "no limit but the count's": {EARLIER: 65_535, WRITTEN: 65_535},
    **{"%d records of %d bytes" % (most, length): {**MOST, length: most} for length, numbers in (
        (EARLIER, (3599, 3601, 65_535 // 18, 65_535)), (WRITTEN, (3199, 3201, 65_535 // 20, 65_535))) for most in numbers},
}


def words(rule):
    return rule.__name__.replace("_", " ")


def layout_rules(length):
    """Wrong layouts of the records of one length."""
    of, titled = (lambda **options: records_of(length, **options)), lambda title: "%s, in %d bytes" % (title, length)
    changed = (class_255_as_0, with_duv(without_its_sign), with_duv(held_within(30_000)), with_duv(by_its_upper_half),
               brought_to_what_is_answered)
    return (
        ("RECORDS", of(big=range(8)), titled("big-endian records")),
        *(("RECORDS", of(big={at}), titled("big-endian " + FIELDS[at])) for at in range(6)),
        *(("RECORDS", of(order=swapped(at, at + 1)), titled("%s before %s" % (FIELDS[at + 1], FIELDS[at]))) for at in range(7)),
        ("RECORDS", of(order=swapped(2, 4)), titled("p, o, place")),
        ("RECORDS", of(signed=()), titled("Duv unsigned")),
        *(("RECORDS", of(signed=(at, DUV)), titled(FIELDS[at] + " signed")) for at in range(8) if at != DUV),
        *(("RECORDS", of(layout=Changed, out_of=change), titled("read " + words(change))) for change in changed),
    )


WRITTEN_CHANGES = (class_255_as_0, brought_to_what_is_answered, *map(with_duv, (
    without_its_sign, with_the_sign_in_a_bit_beside_it, counted_from_the_middle, in_16_bits, in_16_bits_without_a_sign, by_its_upper_half,
    with_its_halves_swapped, held_within(30_000), held_within(50_000), held_within(32_767))))
READ_CHANGES = tuple(map(with_duv, (in_16_bits, in_16_bits_without_a_sign, with_its_halves_swapped, held_within(50_000), held_within(32_767))))

WRONG_RECORD_RULES = (
    *layout_rules(WRITTEN),
    *layout_rules(EARLIER),
    *(("RECORDS", records_of(WRITTEN, Changed, into=change), "written " + words(change)) for change in WRITTEN_CHANGES),
    *(("RECORDS", records_of(WRITTEN, Changed, out_of=change), "read " + words(change)) for change in READ_CHANGES),
    ("TRAILER", struct.Struct(">HHI"), "big-endian trailer"),
    *(("TRAILER", Layout(TRAILER_SIZES, big={at}, signed=()), "big-endian " + name) for at, name in enumerate(TRAILER_FIELDS)),
    ("TRAILER", Layout(TRAILER_SIZES, order=(1, 0, 2), signed=()), "count before record length"),
    ("TRAILER", Layout(TRAILER_SIZES, order=(2, 0, 1), signed=()), "distance before record length"),
    ("TRAILER", Layout(TRAILER_SIZES, order=(0, 2, 1), signed=()), "distance before count"),
    ("TRAILER", Layout((2, 4, 2), signed=()), "count in 4 and distance in 2"),
    ("TRAILER", Layout((4, 4, 4), signed=()), "a trailer of 12 bytes"),
    *(("MOST_RECORDS", most, title) for title, most in LIMITS.items()),
    *(("form", form_with(most=most), title + " at the reader") for title, most in LIMITS.items()),
    ("write", written_by(EARLIER, 3600), "18 written"),
    ("write", written_by(EARLIER, 3200), "18 written, up to 3,200"),
    ("write", written_by(WRITTEN, 3600), "3,600 of 20 written"),
    *(("file_of", rule) for rule in (
        distance_to_the_end, distance_from_the_start_to_the_first_record, distance_in_records, distance_back_to_the_last_record,
        count_in_bytes, last_index_for_the_count, trailer_first, no_trailer_without_records, last_record_first, same_record_once)),
    ("trailer_of", trailer_at_the_start),
    ("listed", as_long_as_the_longest),
    ("listed", none_where_lengths_differ),
    *(("listed", as_long_as(at), "as long as " + name) for at, name in enumerate(FIELDS)),
    *(("listed", as_long_as_all_but(at), "any length of " + name) for at, name in enumerate(FIELDS)),
    *(("write", rule) for rule in (
        the_earlier_length_written_where_it_fits, duv_beyond_16_bits_refused, room_before_the_count, writer_without_a_limit,
        count_wraps_in_the_writer, first_3200_are_written, exact_room_refused,
        a_byte_too_little_suffices, room_without_the_trailer, room_in_whole_records, what_has_room_is_written, no_room_gives_11,
        empty_list_not_written, other_numbers_refused_by_the_writer)),
    *(("form", form_with(is_length=rule), words(rule)) for rule in LENGTH_RULES),
    *(("form", form_with(agrees=rule), words(rule)) for rule in AGREEMENTS),
    *(("form", form_with(agrees=rule(length)), "%s %d for every file" % (words(rule), length))
      for rule in (judged_with, distance_judged_with, size_judged_with) for length in LENGTHS),
    ("form", form_in_order(14, 13, 15, 11), "14 before 13"),
    ("form", form_in_order(15, 13, 14, 11), "15 before 13"),
    ("form", form_in_order(13, 15, 14, 11), "15 before 14"),
    ("form", form_in_order(13, 14, 11, 15), "11 before 15"),
    ("form", form_in_order(13, 11, 14, 15), "11 before 14"),
    ("form", form_in_order(11, 13, 14, 15), "11 before 13"),
    ("form", form_in_order(13, 14, 15), "no limit at the reader"),
    *(("form", rule) for rule in (
        by_the_record_length_of_the_file, trailer_alone_refused, short_file_gives_15, no_bytes_read_as_no_records,
        seven_bytes_are_a_trailer, too_many_gives_15, count_below_zero_from_2_to_the_15, count_of_the_refused_file_given)),
    ("read", read_in_order(*with_swap(NO_ROOM, TOO_MANY_RECORDS)), "12 before 11 at the reader"),
    ("read", read_in_order(13, 14, 12, 15, 11), "12 before 15"),
    ("read", read_in_order(13, 12, 14, 15, 11), "12 before 14"),
    ("read", read_in_order(12, 13, 14, 15, 11), "12 before 13"),
    *(("read", read_in_order(*with_swap(*pair)), "%d and %d swapped at the reader" % pair) for pair in zip(READER, READER[1:-1])),
    ("read", read_in_order(*without(TOO_MANY_RECORDS)), "no limit where the room suffices"),
    *(("read", rule) for rule in (
        exact_room_refused_by_the_reader, a_record_too_little_suffices, what_has_room_is_read, read_from_the_last,
        record_of_zeros_ends_the_list, earlier_files_read_up_to_what_is_written, other_numbers_refused_by_the_reader)),
    *(("record_at", by_one_length(length), "records by %d bytes in every file" % length) for length in LENGTHS),
    ("record_at", from_the_ninth_byte_on),
    *(("file_record", rule) for rule in (
        numbered_from_1, numbered_from_the_end, last_record_left_out, index_held_to_the_last, of_any_trailer)),
    *(("file_record", of_any_bytes(length), "the record of any bytes by %d" % length) for length in LENGTHS),
    *(("file_record", although_refused_with(number), "the record of a file although refused with %d" % number) for number in (15, 11)),
    *(("file_record", product_wraps_at(bits), "the product with the index in %d bits" % bits) for bits in (16, 32, 64)),
    *(("file_record", index_wraps_at(bits), "the index in %d bits" % bits) for bits in (8, 16, 32, 63)),
    *(("over", rule) for rule in (rest_made_zero, rest_cut_off, beyond_refused_too, one_more_made_zero, put_at_the_end)),
    *(("write_into", rule) for rule in (
        records_before_the_room, first_3200_before_the_refusal, records_written_for_bytes, records_alone_counted,
        trailer_at_the_end_of_the_target)),
    *(("read_into", cleared_before(number), "columns cleared before refusal %d" % number) for number in READER),
    *(("read_into", read_before(number), "columns read into before refusal %d" % number) for number in READER[1:]),
    ("read_into", room_of(max), "the room of the longest column"),
    *(("read_into", room_of(itemgetter(at)), "the room of " + name) for at, name in enumerate(FIELDS)),
    *(("read_into", room_of(least_but(at)), "any room of " + name) for at, name in enumerate(FIELDS)),
    ("read_into", bytes_read_for_records),
)
