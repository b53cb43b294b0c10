"""The shared board, No. 6 and 11 of document 02: the second program's part for it, a dictionary from place to owner and lot.

A place is a key of the dictionary exactly where it has a lot. Each call is given a board and hands back (board, told); the
dictionary that it was given stays as it is. Told are the refusal, 0 for none; a stamp, 0 for none; and a lot, None for none."""

from typing import NamedTuple

from record_files import listed

TOO_MANY_LOTS, NO_SUCH_PLACE, STALE_STAMP, LAST_STAMP = range(16, 20)
OURS, PARTNER = PARTIES = 0, 1
MOST_LOTS = 64
NO_JOB = 0
FIRST_STAMP, LARGEST_STAMP = 0, 65_535


class Lot(NamedTuple):
    record: tuple  # its eight numbers
    job: int
    stamp: int


class Owned(NamedTuple):
    """What a place has."""

    owner: int
    lot: Lot


class Told(NamedTuple):
    refusal: int = 0
    stamp: int = 0
    lot: Lot = None


# --- The morning's load -----------------------------------------------------------------------------------------------


def at_loading(record):
    """The lot of a record: it has no job yet, and its first stamp."""
    return Lot(record, NO_JOB, FIRST_STAMP)


def of_house(owner, records):
    """A house's lots, in the order of its list."""
    return [Owned(owner, at_loading(record)) for record in records]


def in_a_row(ours, theirs):
    """The lots of both houses, ours first."""
    return [*of_house(OURS, ours), *of_house(PARTNER, theirs)]


def placed(ours, theirs):
    """The lots in their row, places from 0."""
    return dict(enumerate(in_a_row(ours, theirs)))


def counted(ours, theirs):
    """How many lots are counted at loading: those of both lists."""
    return len(ours) + len(theirs)


def refused_load(ours, theirs):
    """A board of no lots."""
    return {}, Told(TOO_MANY_LOTS)


def load(ours, theirs):
    return refused_load(ours, theirs) if counted(ours, theirs) > MOST_LOTS else (placed(ours, theirs), Told())


def load_columns(ours, theirs):
    """The same from eight columns of each house; a list ends with the shortest of its columns."""
    return load(listed(ours), listed(theirs))


# --- A read -----------------------------------------------------------------------------------------------------------


def may_touch(party, owner):
    """A party may read and assign its own places only."""
    return party == owner


def lot_at(board, party, place):
    """The lot of a place that the party may touch; None where there is no such place."""
    owned = board.get(place)
    return owned.lot if owned and may_touch(party, owned.owner) else None


def told_no_place(place, stamp=0):
    """What is told for a place that the board has not for the party, to a read and to an assignment with a stamp."""
    return Told(NO_SUCH_PLACE)


def told_lot(lot):
    """What an answered read is told."""
    return Told(lot=lot)


def read(board, party, place):
    lot = lot_at(board, party, place)
    return board, told_no_place(place) if lot is None else told_lot(lot)


# --- An assignment ----------------------------------------------------------------------------------------------------


def is_current(lot, stamp):
    return lot.stamp == stamp


def is_last(stamp):
    """Whether a stamp cannot go up."""
    return stamp == LARGEST_STAMP


def raised(stamp):
    return stamp + 1


def told_stale(lot, stamp):
    """What the holder of another stamp than the current one is told: the current one."""
    return Told(STALE_STAMP, lot.stamp)


def told_last(lot, stamp):
    return Told(LAST_STAMP)


def told_stored(before, after):
    """What is told where a job was stored, by the lot before and after."""
    return Told()


def refused(lot, stamp, job):
    """What is told where an assignment to a lot is refused; None where it is not."""
    if not is_current(lot, stamp):
        return told_stale(lot, stamp)
    return told_last(lot, stamp) if is_last(lot.stamp) else None


def stored(lot, job):
    """The lot with a job; its stamp goes up."""
    return Lot(lot.record, job, raised(lot.stamp))


def assign(board, party, place, stamp, job):
    lot = lot_at(board, party, place)
    if lot is None:
        return board, told_no_place(place, stamp)
    told = refused(lot, stamp, job)
    if told:
        return board, told
    after = stored(lot, job)
    return {**board, place: Owned(party, after)}, told_stored(lot, after)
