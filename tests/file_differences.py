"""Comparing two record files, No. 7 and 8 of document 02: the second program's part for it, by dictionaries, sets and one sort.

What a file holds is a dictionary from (record, field) to number, both counted from 0. An entry is a tuple of its four numbers."""

from record_files import NO_ROOM, form, over, read

ONLY_IN_FIRST, ONLY_IN_SECOND = 8, 9  # in the place of a field: the record that one file alone has
NUMBERS = 4  # of an entry


# --- The files --------------------------------------------------------------------------------------------------------


def unreadable(*files):
    """(which file, its refusal) of the first one that cannot be read; (0, 0) where all can."""
    refusals = [form(file)[0] for file in files]
    return next(((which, refusal) for which, refusal in enumerate(refusals, 1) if refusal), (0, 0))


def contents(file):
    """What a file that can be read holds, whatever its record length."""
    _, records = read(file, len(file))
    return {(at, field): number for at, record in enumerate(records) for field, number in enumerate(record)}


# --- Entries ----------------------------------------------------------------------------------------------------------


def changed(first, second):
    """Where both files hold a number, and not the same one."""
    return {place for place, _ in first.items() - second.items()} & second.keys()


def extra(these, those):
    """The records that only these contents have."""
    return {record for record, _ in these.keys() - those.keys()}


def entry(place, first, second):
    """The entry of a place where both files hold a number."""
    return *place, first[place], second[place]


def extra_entry(record, only_in):
    return record, only_in, 0, 0


def order(entry):
    """What entries are sorted by: differing fields before extra records; then record, then field."""
    record, field, _, _ = entry
    return field in (ONLY_IN_FIRST, ONLY_IN_SECOND), record, field


def entries(first, second):
    """All entries of two files' contents."""
    differing = [entry(place, first, second) for place in changed(first, second)]
    of_first = [extra_entry(record, ONLY_IN_FIRST) for record in extra(first, second)]
    of_second = [extra_entry(record, ONLY_IN_SECOND) for record in extra(second, first)]
    return sorted(differing + of_first + of_second, key=order)


# --- A comparison -----------------------------------------------------------------------------------------------------


def has_room(listed, room):
    """Whether so many numbers are enough for a list of entries."""
    return NUMBERS * len(listed) <= room


def compare(first, second, room):
    """(which file is refused, refusal, entries) for a target of `room` numbers; 0 for no file and for no refusal."""
    which, refusal = unreadable(first, second)
    if refusal:
        return which, refusal, []
    listed = entries(contents(first), contents(second))
    return (0, 0, listed) if has_room(listed, room) else (0, NO_ROOM, [])


def compare_into(target, first, second):
    """(which file is refused, refusal, how many entries are listed, the target afterwards)."""
    which, refusal, listed = compare(first, second, len(target))
    return which, refusal, len(listed), over(target, tuple(number for each in listed for number in each))
