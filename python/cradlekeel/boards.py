"""The board: up to 64 lots that dispatchers assign to jobs, each by the stamp that he saw, so that he overwrites nothing that was stored
since. A partner house may have lots there too, and each house reaches its own only. docs/BOARD.md tells how it is used."""

import ctypes
import operator
from enum import IntEnum
from itertools import islice
from typing import NamedTuple

from ._library import StoredBoard, StoredLot, StoredRecord, c_function, whole
from .records import Record, columns_of, numbers_of

MOST_LOTS = 64


class Party(IntEnum):
    """The house in whose name a call on a board is made; its plain number is taken too.

    >>> list(map(int, Party))
    [0, 1]
    """

    OURS = 0
    PARTNER = 1


class Lot(NamedTuple):
    """A lot of a board: its record, the job that it is assigned to, and its stamp.

    >>> Lot(Record(219300, 327100, 23112, 21892, 23866, -2331, 2, 2), job=4711, stamp=1).job
    4711
    """

    record: Record
    job: int
    stamp: int


class Told(NamedTuple):
    """What a call on a board is told: nothing is raised for a refusal, since the board comes back with it. `REASONS` has a refusal's words;
    0 is none and has no words.

    >>> board, told = Board.load([])
    >>> told
    Told(refusal=0, stamp=0, lot=None)
    >>> board.read(Party.OURS, 0)[1]
    Told(refusal=17, stamp=0, lot=None)
    """

    refusal: int
    stamp: int
    lot: Lot | None


for _field, _text in {
        Lot.record: "the record, as it was loaded", Lot.job: "the job that the lot is assigned to, 0 for none; 32 bits",
        Lot.stamp: "how often a job was stored there since the board was loaded; 16 bits",
        Told.refusal: "0 loaded, read or stored; else 16 to 19, the refusal's number",
        Told.stamp: "with refusal 18 the lot's current stamp; 0 otherwise",
        Told.lot: "the lot of a read that is not refused; None otherwise"}.items():
    _field.__doc__ = _text  # what help(Lot) and help(Told) show


class Board:
    """A board of lots, at places counted from 0. It is a value: a call hands a board back beside what it is told, no call changes the
    board that it is made on, and two boards are equal where their lots are and are the same houses'. To store is to go on with the board
    that came back.

    Two dispatchers see the same lot, and the first of them to call has it:

    >>> record = Record(219300, 327100, 23112, 21892, 23866, -2331, 2, 2)
    >>> board, told = Board.load([record], [record])
    >>> board, seen_by_ann = board.read(Party.OURS, 0)
    >>> board, seen_by_ben = board.read(Party.OURS, 0)
    >>> seen_by_ann.lot == seen_by_ben.lot == Lot(record, job=0, stamp=0)
    True
    >>> board, told = board.assign(Party.OURS, place=0, stamp=seen_by_ann.lot.stamp, job=4711)
    >>> told
    Told(refusal=0, stamp=0, lot=None)
    >>> board, told = board.assign(Party.OURS, place=0, stamp=seen_by_ben.lot.stamp, job=4712)
    >>> told
    Told(refusal=18, stamp=1, lot=None)
    >>> board.lots[0].job, board.lots[0].stamp
    (4711, 1)

    The partner's places are behind ours. To each house a place of the other is one without a lot:

    >>> board.read(Party.OURS, 1)[1]
    Told(refusal=17, stamp=0, lot=None)
    >>> board.assign(Party.PARTNER, place=0, stamp=1, job=815)[1]
    Told(refusal=17, stamp=0, lot=None)
    >>> board, told = board.assign(Party.PARTNER, place=1, stamp=0, job=815)
    >>> [lot.job for lot in board.lots], [lot.job for lot in board.lots_of(Party.PARTNER)]
    ([4711, 815], [815])
    >>> board, len(board)
    (<Board of 2 lots, 1 of them the partner's>, 2)

    Whoever holds this object sees the lots of both houses, as whoever loads the board does: hand a house what its calls are told.

    `Board()` is the board of no lots, as a refused load hands it back; `Board.load(ours, theirs)` makes one of records. A board of no lots
    is false, as an empty list is, since its length is 0.
    """

    __slots__ = ("_stored",)

    def __new__(cls, *given):  # and no __init__, which could be called again and change a board
        if given:
            raise TypeError("Board() takes nothing and has no lots; use Board.load(ours, theirs)")
        return cls._holding(StoredBoard())

    @classmethod
    def _holding(cls, stored):
        """The board of a struct that no one else changes."""
        board = object.__new__(cls)
        object.__setattr__(board, "_stored", stored)
        return board

    @classmethod
    def _answered(cls, answer, lot=None):
        """The board, in a copy of its own, and what is told, as C has answered them."""
        return cls._holding(StoredBoard.from_buffer_copy(answer.board)), Told(answer.told.refusal, answer.told.stamp, lot)

    @classmethod
    def load(cls, ours, theirs=()):
        """A board of our records and, behind them, the partner's, each list in its order, with job 0 and stamp 0. More than 64 together are
        refused with 16, and the board is then one of no lots. A list comes from any iterable, of which no more than 65 are taken: more
        cannot change the answer.

        >>> record = Record(219300, 327100, 23112, 21892, 23866, -2331, 2, 2)
        >>> Board.load(64 * [record])
        (<Board of 64 lots>, Told(refusal=0, stamp=0, lot=None))
        >>> Board.load(40 * [record], 24 * [record])
        (<Board of 64 lots, 24 of them the partner's>, Told(refusal=0, stamp=0, lot=None))
        >>> Board.load(40 * [record], 25 * [record])
        (<Board of 0 lots>, Told(refusal=16, stamp=0, lot=None))
        """
        lists = ("ours", ours), ("theirs", theirs)
        columns = [part for name, records in lists for part in columns_of(list(islice(records, MOST_LOTS + 1)), name)]
        return cls._answered(c_function("ck_board_load")(*columns))

    def read(self, party, place):
        """The lot at a place of the party's, told as `lot`; refused with 17 where the board has no lot of its at that place, be it the
        other house's. The board stays.

        >>> board, told = Board.load([], [Record(219300, 327100, 23112, 21892, 23866, -2331, 2, 2)])
        >>> board, told = board.read(Party.PARTNER, 0)
        >>> told.lot.record.place, told.lot.job, told.lot.stamp
        (23112, 0, 0)
        >>> board.read(Party.OURS, 0)[1]
        Told(refusal=17, stamp=0, lot=None)
        """
        given = _party(party), _number("place", place, ctypes.c_size_t)
        answer = c_function("ck_board_read")(self._stored, *given)
        return self._answered(answer, None if answer.told.refusal else _lot_of(answer.told.lot))

    def assign(self, party, place, stamp, job):
        """Assigns the lot at a place of the party's to a job, a number of 32 bits of which 0 is no job, where `stamp` is the lot's current
        stamp: the job is then stored, and the stamp goes up by one. Refused with 17 as a read, with 18 where the stamp is not the current
        one, which is told as `stamp`, and with 19 where it is and is 65,535. With a refusal the board stays. Name the arguments: a `Lot`
        has its job before its stamp.

        >>> board, told = Board.load([Record(219300, 327100, 23112, 21892, 23866, -2331, 2, 2)])
        >>> board.assign(Party.OURS, place=0, stamp=65_536, job=4711)
        Traceback (most recent call last):
            ...
        ValueError: stamp is 65536, which does not fit an unsigned whole number of 16 bits
        >>> board.assign(2, place=0, stamp=0, job=4711)
        Traceback (most recent call last):
            ...
        ValueError: party is 2, which is neither Party.OURS, 0, nor Party.PARTNER, 1
        """
        at = _party(party), _number("place", place, ctypes.c_size_t)
        given = _number("stamp", stamp, ctypes.c_uint16), _number("job", job, ctypes.c_uint32)
        return self._answered(c_function("ck_board_assign")(self._stored, *at, *given))

    @property
    def lots(self):
        """All lots, in the order of their places: ours, then the partner's."""
        return tuple(map(_lot_of, self._stored.lots[:len(self)]))

    def lots_of(self, party):
        """The lots of a house, in the order of their places."""
        places = self.places_of(party)
        return self.lots[places.start:places.stop]

    def places_of(self, party):
        """The places of a house, as a range.

        >>> record = Record(219300, 327100, 23112, 21892, 23866, -2331, 2, 2)
        >>> board, told = Board.load([record], [record, record])
        >>> board.places_of(Party.OURS), board.places_of(Party.PARTNER)
        (range(0, 1), range(1, 3))
        """
        ours = self._stored.ours
        return range(ours) if _party(party) == Party.OURS else range(ours, len(self))

    def __len__(self):
        return self._stored.count

    def __eq__(self, other):
        return self._value() == other._value() if isinstance(other, Board) else NotImplemented

    def __hash__(self):
        return hash(self._value())

    def _value(self):
        """What makes two boards equal: how many lots are ours, and all lots."""
        return self._stored.ours, self.lots

    def __repr__(self):
        theirs = len(self.places_of(Party.PARTNER))
        owned = f", {theirs} of them the partner's" if theirs else ""
        return f"<Board of {len(self)} lot{'s' if len(self) != 1 else ''}{owned}>"

    def __setattr__(self, name, value):
        raise AttributeError(f"a board is never changed, so it has no {name} to set; assign hands a new board back")

    def __delattr__(self, name):
        raise AttributeError(f"a board is never changed, so it has no {name} to delete")

    def __reduce__(self):  # for copy and pickle; by its numbers, whatever the struct is like where they are read again
        return _board_of, self._value()


def _board_of(ours, lots):
    """The board of lots of which so many are ours."""
    stored = [StoredLot(StoredRecord(*lot.record), lot.job, lot.stamp) for lot in lots]
    return Board._holding(StoredBoard(ours, len(lots), tuple(stored)))


def _number(name, value, kind):
    """A number that a call takes after the party; a party in its place is a slip."""
    if isinstance(value, Party):
        raise TypeError(f"{name} is {value!r}, which is a party: the party comes first")
    return whole(name, value, kind)


def _lot_of(stored):
    """A lot that C has returned."""
    return Lot(Record(*numbers_of(stored.record)), stored.job, stored.stamp)


def _party(value):
    """A party, given by itself or by its number."""
    try:
        return Party(operator.index(value))
    except (TypeError, ValueError) as error:
        raise type(error)(f"party is {value!r}, which is neither Party.OURS, 0, nor Party.PARTNER, 1") from None
