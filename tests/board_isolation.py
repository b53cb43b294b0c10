"""The law of No. 11: what a party is told turns on the load of its own places, their position and its own calls.

A day is a history of both houses' calls from a load. `isolation_cases` has days for the vectors in which those three are equal for one
party and all else differs; `check_isolation` tries the law by force on the second program, on random days and on every short one."""

from itertools import product

import board_table
from board_lines import (HARD_STAMPS, History, bad_places, call_of, called, letter_of, other_than, party_of, places_of, random_job)
from board_table import OURS, PARTIES, PARTNER, Lot, Owned
from record_cases import columns_of, random_records


# --- Two days ---------------------------------------------------------------------------------------------------------


def lists_of(party, own, other):
    """The lists of a party and of the other one, ours first."""
    return (own, other) if party == OURS else (other, own)


def own_places(party, own, other):
    """Where a party's own list is placed."""
    return range(len(own)) if party == OURS else range(len(other), len(other) + len(own))


def loaded(party, own, other):
    """The columns of both lists, and a history that begins with them."""
    ours, theirs = lists_of(party, own, other)
    columns = columns_of(ours + theirs)
    return columns, History(columns, len(ours))


def call_by(party, board, dice):
    """A party's call at one of its places, in one case of six at one of the other's, in another at one that the board has not."""
    kinds = [places_of(board, party)] * 4 + [places_of(board, other_than(party)), bad_places(len(board))]
    return call_of(party, board, dice.pick(dice.pick([places for places in kinds if places])), dice)


def first_day(history, most, dice):
    """So many calls, each of either house."""
    for _ in range(most):
        history.call(*call_by(dice.pick(PARTIES), history.board, dice))


def calls_by(party, history):
    return [call for call in history.calls if party_of(call[0]) == party]


def another_day(history, party, calls, dice):
    """A party's calls once more; those of the other house that fall between are others."""
    for call in calls:
        for _ in range(dice.below(4)):
            history.call(*call_by(other_than(party), history.board, dice))
        history.call(*call)


def answers_to(party, history):
    return [told for call, told in zip(history.calls, history.told) if party_of(call[0]) == party]


def check_equal(party, places, one, other):
    """The answers to a party's calls and the lots of its places are the same on both days."""
    assert answers_to(party, one) == answers_to(party, other), (party, one.calls, other.calls)
    assert [one.board[place].lot for place in places] == [other.board[place].lot for place in places], (one.calls, other.calls)


# --- Vectors ----------------------------------------------------------------------------------------------------------

# A party, how many lots it has, and how many the other house has on two days; where the partner has lots, the same number before them.
HOUSES = ((OURS, 1, (63, 0)), (OURS, 20, (44, 7)), (OURS, 63, (0, 1)), (OURS, 0, (3, 64)),
          (PARTNER, 1, (63, 63)), (PARTNER, 24, (40, 40)), (PARTNER, 63, (1, 1)), (PARTNER, 0, (64, 5)))


def isolation_cases(dice):
    """A day; another with the same load; a third with another load of the other house. The party's own calls are those of the first."""
    for party, size, others in HOUSES:
        own, first, second = (random_records(count, dice) for count in (size, *others))
        columns, one = loaded(party, own, first)
        first_day(one, 120, dice)
        days = [History(columns, one.split), loaded(party, own, second)[1]]
        for day in days:
            another_day(day, party, calls_by(party, one), dice)
            check_equal(party, own_places(party, own, first), one, day)
        yield columns, [one, days[0]]
        yield loaded(party, own, second)[0], [days[1]]


# --- By force ---------------------------------------------------------------------------------------------------------


def any_lots(count, dice):
    """Lots with any jobs and stamps."""
    stamps = (*HARD_STAMPS, dice.getrandbits(16))
    return [Lot(record, random_job(dice), dice.pick(stamps)) for record in random_records(count, dice)]


def begun(party, own, other):
    """A history that begins with lots which earlier calls have left so."""
    _, history = loaded(party, [lot.record for lot in own], [lot.record for lot in other])
    lots = [lot for lots in lists_of(party, own, other) for lot in lots]
    history.board = {place: Owned(owned.owner, lot) for (place, owned), lot in zip(history.board.items(), lots)}
    return history


def check_random_days(dice):
    """Two days of a party, the other house with other lots and other calls; where they are not before the party's, any number of lots."""
    party, size = dice.pick(PARTIES), dice.pick((0, 1, 2, 3, 17, 63))
    before = dice.below(65 - size)
    own, first = any_lots(size, dice), any_lots(before, dice)
    second = any_lots(before if party == PARTNER and size else dice.below(65 - size), dice)
    one, other = begun(party, own, first), begun(party, own, second)
    first_day(one, 25, dice)
    another_day(other, party, calls_by(party, one), dice)
    check_equal(party, own_places(party, own, first), one, other)


SHORT_CALLS = [(letter_of(kind, party), place, *numbers) for party, place, (kind, *numbers) in product(
    PARTIES, range(3), (("r",), ("a", 0, 7), ("a", 1, 8)))]


def every_day(board, most):
    """Every day of at most so many of the short calls: the calls, what they are told, and the board at the end."""
    yield (), (), board
    for call in SHORT_CALLS if most else ():
        after, told = called(board, *call)
        for calls, answers, end in every_day(after, most - 1):
            yield (call, *calls), (told, *answers), end


def check_short_days(party, own, others):
    """Of every two short days, from whichever of the other house's lists, with the same own calls: the same own answers and lots."""
    seen = {}
    for other in others:
        board, _ = board_table.load(*lists_of(party, own, other))
        for calls, told, end in every_day(board, 3):
            mine = [(call, answer) for call, answer in zip(calls, told) if party_of(call[0]) == party]
            found = [answer for _, answer in mine], [end[place].lot for place in own_places(party, own, other)]
            assert seen.setdefault(tuple(call for call, _ in mine), found) == found, (party, own, other, calls)


ONE, ANOTHER, THIRD = ((number,) * 8 for number in (1, 2, 3))

# A party, its own list, and lists of the other house; where the partner has lots, those before them are of one length.
SHORT_LOADS = (
    (OURS, [], ([], [ONE], [ANOTHER, THIRD])), (OURS, [ONE], ([], [ANOTHER], [THIRD], [THIRD, ONE])),
    (OURS, [ONE, ONE], ([], [ANOTHER])), (PARTNER, [], ([], [ONE], [ANOTHER, THIRD])), (PARTNER, [ONE], ([ANOTHER], [THIRD])),
    (PARTNER, [ONE, ANOTHER], ([ANOTHER], [THIRD])), (PARTNER, [ONE], ([ONE, ANOTHER], [THIRD, ONE])))


def check_isolation(dice):
    for load in SHORT_LOADS:
        check_short_days(*load)
    for _ in range(250):
        check_random_days(dice)
