"""Vectors for boards: `board SPLIT WORDS..`, each a history of calls from a load, after the `column` lines that it needs.

A section yields cases: the columns that are to be held, and the histories of calls that begin with loading them. Stamps are chosen
by running the second program along, and a refused call must leave its board as it was. `check_laws` tries the laws of No. 6 and
11 on the second program by force, on more boards than the vectors have."""

from itertools import combinations, product

from board_isolation import any_lots, check_isolation, isolation_cases
from board_lines import (ALL_OURS, HARD_STAMPS, LARGEST_JOB, LARGEST_PLACE, LARGEST_STAMP, History, bad_places, board_with, call_of,
                         called, ends_of, letter_of, other_stamps, other_than, owner_at, party_of, random_call, random_job,
                         random_party, random_place, random_stamp, stamp_at)
from board_table import LAST_STAMP, NO_SUCH_PLACE, PARTIES, STALE_STAMP, Lot, Told
from dice import Dice
from record_cases import OTHERS, WRAPPED, columns_of, extremes, flat, random_records, streaks, with_field
from record_lines import LETTERS, LONGEST_LINE, MOST_NUMBERS, SIGNED, Held, changes, column_line

KINDS = ("board",)
MOST_LOTS = 64


# --- Histories --------------------------------------------------------------------------------------------------------


def go_on(history, hot, dice, most=300):
    """So many random calls more; some of them are assignments in a row."""
    for _ in range(most):
        letter, *numbers = random_call(history.board, hot, dice)
        if letter in "aA" and dice.below(15) == 0:
            letter, numbers = {"a": "n", "A": "N"}[letter], [*numbers, dice.between(1, 40)]
        history.call(letter, *numbers)


def random_history(columns, split, hot, dice):
    history = History(columns, split)
    go_on(history, hot, dice)
    return history


def trespass(history, place, dice):
    """The other house tries a place with a read, the current stamp, others and the last: it is told 17, and nothing of the lot."""
    current = stamp_at(history.board, place)
    stamps = (current, dice.pick(other_stamps(current)), max(current, 1) - 1, min(current + 1, LARGEST_STAMP), LARGEST_STAMP)
    tried = [history.by_other("r", place), *(history.by_other("a", place, stamp, random_job(dice)) for stamp in stamps)]
    assert set(tried) == {Told(NO_SUCH_PLACE)}, (place, tried)


# --- Loads of one house -----------------------------------------------------------------------------------------------


def walk(history, size, dice):
    """Each place is read, assigned with another stamp than its first and then with that; at the end all are read again."""
    places = range(min(size, MOST_LOTS) + 3)
    for place in places:
        history.by_owner("r", place)
        history.by_owner("a", place, dice.pick((1, LARGEST_STAMP)), random_job(dice))
        history.by_owner("a", place, 0, random_job(dice))
    for place in bad_places(min(size, MOST_LOTS)):
        history.call(letter_of("a", dice.pick(PARTIES)), place, 0, 5)
    for place in (*places, 63, 64, 65, LARGEST_PLACE):
        history.by_owner("r", place)


def walked(columns, size, dice, split=ALL_OURS):
    history = History(columns, split)
    walk(history, size, dice)
    return history


def size_cases(dice):
    """Lists of no records and of one, about 64, and of so many more that a count of 8 or 16 bits begins again."""
    for size in (0, 1, 2, 3, 32, 62, 63, 64, 65, 66, 128, 255, 256, 257, 320, 471):
        columns = columns_of(random_records(size, dice)) if size < 70 else streaks(size, dice)
        yield columns, [walked(columns, size, dice, split) for split in ((ALL_OURS, 0) if size in (1, 64) else (ALL_OURS,))]
    for size in (WRAPPED, WRAPPED + 1, WRAPPED + MOST_LOTS, MOST_NUMBERS):
        columns = flat(size)
        yield columns, [walked(columns, size, dice)]


DUVS = (-2**31, -2**31 + 1, -50_000, -32_769, 32_768, 65_536, 2**31 - 2, 2**31 - 1)  # none of them fits 16 bits


def extreme_records(others):
    """A record for each of eight extremes of each field, beside others."""
    for at, letter in enumerate(LETTERS):
        numbers = DUVS if letter in SIGNED else extremes(letter)
        for number in numbers[:4] + numbers[-4:]:
            yield with_field(others, at, number)


def field_cases(dice):
    """64 lots of either house, each field at its extremes, beside zeros, beside ones in every bit, and beside bytes that all differ."""
    for others in OTHERS:
        columns = columns_of(list(extreme_records(others)))
        yield columns, [walked(columns, MOST_LOTS, dice), at_the_ends(columns, 0, dice)]


def alike_cases(dice):
    """Lots of one record: only their places tell them apart."""
    for size in (2, 64):
        columns = flat(size, 7)
        yield columns, [random_history(columns, split, (0, size - 1), dice) for split in (ALL_OURS, size // 2)]


# --- Loads of both houses ---------------------------------------------------------------------------------------------


def at_the_ends(columns, split, dice):
    """Each house reads and assigns the first place, those about the split, and those about the end."""
    history = History(columns, split)
    ours, count = min(split, len(history.board)), len(history.board)
    for place, party in product(sorted({0, max(ours, 1) - 1, ours, max(count, 1) - 1, count}), PARTIES):
        history.call(letter_of("a", party), place, dice.pick((1, LARGEST_STAMP)), random_job(dice))
        history.call(letter_of("a", party), place, 0, random_job(dice))
        history.call(letter_of("r", party), place)
    return history


FAR_SPLITS = 2**8, 2**16, 2**32, 2**32 + 1, 2**63, 2**64 - 1


def split_cases(dice):
    """Lists of 64 and 65 records cut at every place, and others cut at their ends and in the middle."""
    for size in (0, 1, 2, 3, 17, 62, 63, 64, 65, 66):
        columns = columns_of(random_records(size, dice))
        splits = range(66) if size in (64, 65) else sorted({0, 1, size // 2, max(size, 1) - 1, size, size + 1})
        yield columns, [at_the_ends(columns, split, dice) for split in (*splits, *(FAR_SPLITS if size in (3, 64) else ()))]


# How many records there are together, and how many of them are ours: a count of 8 or 16 bits begins again in one list or in the sum.
WRAPS = {128: (64, 127), 256: (0, 1, 64, 128, 192, 255, 256), 257: (1, 256), 320: (64, 256), 512: (256,), 3201: (1, 3200),
         WRAPPED: (0, 1, 64, WRAPPED // 2, WRAPPED - 64, WRAPPED - 1), WRAPPED + 1: (1, WRAPPED), WRAPPED + 64: (64, WRAPPED)}


def wrap_cases(dice):
    for together, splits in WRAPS.items():
        columns = flat(together)
        histories = [at_the_ends(columns, split, dice) for split in splits]
        assert not any(history.board for history in histories)
        yield columns, histories


def uneven_cases(dice):
    """Columns of different lengths: each in turn shorter or longer than the rest, so that there are 64 lots or so, few, or none; then
    cut where every column goes on, and where some have ended."""
    pairs = (64, 63), (64, 65), (66, 65), (70, 0), (2, 1), (1, 471), (471, 2), (63, 64)
    for letter, pair in zip(LETTERS, pairs):
        for others, length in ((65, 64), pair):
            columns = {name: numbers[:length if name == letter else others] for name, numbers in streaks(471, dice).items()}
            shortest = min(others, length)
            cuts = shortest // 2, dice.pick((max(shortest, 1) - 1, shortest)), dice.pick((shortest + 1, max(others, length)))
            yield columns, [walked(columns, shortest, dice), *(at_the_ends(columns, split, dice) for split in cuts)]


# --- Stamps -----------------------------------------------------------------------------------------------------------


def drive_to(history, place, stamp, job):
    """Assignments in a row until this is the current stamp of a place."""
    current = stamp_at(history.board, place)
    if stamp > current:
        history.by_owner("n", place, current, job, stamp - current)


def try_stamps(history, place, dice):
    """Every other stamp, a read before and after; then the other house; then the current one."""
    current = stamp_at(history.board, place)
    history.by_owner("r", place)
    for stamp in other_stamps(current):
        history.by_owner("a", place, stamp, random_job(dice))
    history.by_owner("r", place)
    trespass(history, place, dice)
    history.by_owner("a", place, current, random_job(dice))


def stamp_cases(dice):
    """Stamps at which a number of 8 or 15 bits is full; those that agree with the current one in fewer bits are stale."""
    for size, place, split in ((1, 0, ALL_OURS), (64, 63, ALL_OURS), (40, 17, 17)):
        columns = columns_of(random_records(size, dice))
        history = History(columns, split)
        for stamp in (1, 2, 127, 255, 256, 257, 511, 512, 4095, 32_766, 32_767, 32_768):
            drive_to(history, place, stamp, random_job(dice))
            try_stamps(history, place, dice)
            go_on(history, (place,), dice, 5)
        yield columns, [history]


def at_the_last(history, place, dice):
    """At 65,534 and at 65,535: other stamps, the current one with any job, reads, and the other house."""
    drive_to(history, place, LARGEST_STAMP - 1, random_job(dice))
    try_stamps(history, place, dice)
    for stamp in (LARGEST_STAMP - 1, 0, 1, 2**15, LARGEST_STAMP - 2):
        assert history.by_owner("a", place, stamp, random_job(dice)) == Told(STALE_STAMP, LARGEST_STAMP)
    for job in (1, 0, LARGEST_JOB, random_job(dice)):
        assert history.by_owner("a", place, LARGEST_STAMP, job) == Told(LAST_STAMP)
        history.by_owner("r", place)
    trespass(history, place, dice)


def last_stamp_cases(dice):
    """A place driven to 65,534 and 65,535, and what happens there, among calls to the others: the only place of a house, its first
    and its last."""
    for size, place, split in ((1, 0, ALL_OURS), (2, 0, ALL_OURS), (2, 1, 1), (63, 62, ALL_OURS), (64, 0, ALL_OURS),
                               (64, 63, ALL_OURS), (64, 31, 31), (64, 31, 32), (64, 63, 40)):
        columns = columns_of(random_records(size, dice))
        history = History(columns, split)
        go_on(history, (place,), dice, 40)
        at_the_last(history, place, dice)
        go_on(history, (place,), dice, 200)
        try_stamps(history, place, dice)
        yield columns, [history]


# Assignments in a row that begin with a stale stamp, go on past the last one, or name a place that is not there.
ROWS = (("n", 0, 0, 9, 1), ("n", 0, 0, 8, 3), ("n", 0, 0, 7, 2), ("n", 1, 1, 9, 5), ("n", 3, 0, 9, 2), ("n", 64, 0, 9, 2),
        ("n", LARGEST_PLACE, 0, 9, 3), ("n", 2, 65_530, 9, 6), ("n", 2, 65_535, 9, 1), ("n", 2, 0, LARGEST_JOB, 70_000),
        ("n", 2, 65_535, 0, 2), ("n", 1, 0, 0, 65_535), ("n", 1, 65_534, 1, 1), ("n", 1, 65_535, 2, LARGEST_JOB))


def row_cases(dice):
    """Rows of assignments of the place's own house, and then of the other."""
    columns = columns_of(random_records(3, dice))
    histories = [History(columns), History(columns, 2)]
    for history in histories:
        for row in ROWS:
            history.by_owner(*row)
            history.by_owner("r", row[1])
            assert history.by_other(*row) == Told(NO_SUCH_PLACE)
        go_on(history, (0, 2), dice)
    yield columns, histories


# --- Two houses -------------------------------------------------------------------------------------------------------


def house_cases(dice):
    """Calls of both houses at their own places, at the other's and at none, most often at the first and last place of each; then each
    of these ends is tried by the other house."""
    for size, split in ((2, 1), (3, 2), (40, 25), (63, 0), (63, 62), (64, 1), (64, 32), (64, 63)):
        columns = columns_of(random_records(size, dice))
        history = History(columns, split)
        ends = ends_of(history.board)
        for _ in range(3):
            go_on(history, ends, dice, 50)
            for place in ends:
                trespass(history, place, dice)
        yield columns, [history]


# --- Assignments in either order, and two holders of one stamp --------------------------------------------------------


def random_assignment(board, place, dice):
    party = random_party(board, place, dice)
    return letter_of("a", party), place, random_stamp(stamp_at(board, place), dice), random_job(dice)


def pair_of_assignments(board, dice):
    """Two assignments at different places, each of either house."""
    places = [random_place(board, (), dice)]
    while len(places) < 2 or places[0] == places[1]:
        places[1:] = [random_place(board, (), dice)]
    return [random_assignment(board, place, dice) for place in places]


def both_orders_cases(dice):
    """The same pairs of assignments at different places in two histories, each pair in both orders."""
    for size, split in ((1, ALL_OURS), (2, 1), (3, ALL_OURS), (17, 9), (63, ALL_OURS), (64, ALL_OURS), (64, 33)):
        columns = columns_of(random_records(size, dice))
        one, other = History(columns, split), History(columns, split)
        for _ in range(150):
            pair = pair_of_assignments(one.board, dice)
            told, told_otherwise = [one.call(*call) for call in pair], [other.call(*call) for call in reversed(pair)]
            assert told == told_otherwise[::-1] and one.board == other.board, pair
        yield columns, [one, other]


def noise(board, place, dice):
    """Up to six calls that leave a place alone: reads anywhere, assignments elsewhere, and there any calls of the other house."""
    owner = owner_at(board, place)
    calls = [random_call(board, (place,), dice) for _ in range(dice.below(7))]
    calls = [(letter_of("r", owner), place) if call[1] == place and party_of(call[0]) == owner else call for call in calls]
    return [*calls, call_of(other_than(owner), board, place, dice)] if dice.below(3) == 0 else calls


def noise_there(board, place, dice):
    """The same, and assignments to the place with a stamp that is neither the current one nor the next, so that all are refused."""
    ahead = [dice.pick((2, 3, 65_534, 65_535, 2 + dice.below(65_534))) for _ in range(dice.below(4))]
    stamps = [(stamp_at(board, place) + more) % 65_536 for more in ahead]
    letter = letter_of("a", owner_at(board, place))
    return [*noise(board, place, dice), *((letter, place, stamp, random_job(dice)) for stamp in stamps)]


def two_holders(board, place, dice, between=noise):
    """Two dispatchers of a place's own house read it, and both assign it with the stamp that they saw; others call between. The calls,
    and which of them are theirs."""
    (owner, lot), calls, theirs = board[place], [], []
    read = letter_of("r", owner), place
    first, second = ((letter_of("a", owner), place, lot.stamp, random_job(dice)) for _ in range(2))
    for call in (read, read, first, second, read):
        theirs.append(len(calls))
        calls += [call, *between(board, place, dice)]
    return calls, theirs


def check_two_holders(lot, calls, told):
    """Of their calls the first assignment is stored, and the second is told 18 with the stamp that is now current."""
    _, _, (*_, job), _, _ = calls
    seen = Told(lot=lot)
    assert told == [seen, seen, Told(), Told(STALE_STAMP, lot.stamp + 1), Told(lot=Lot(lot.record, job, lot.stamp + 1))], (calls, told)


def two_holder_cases(dice):
    """Two holders of the current stamp of one place after another."""
    for size, split in ((1, ALL_OURS), (2, 1), (3, ALL_OURS), (40, 18), (63, 0), (64, ALL_OURS), (64, 32)):
        columns = columns_of(random_records(size, dice))
        histories = [History(columns, split), History(columns, split)]
        for history in histories:
            while len(history.calls) < 300:
                before, place = history.board, dice.below(size)
                calls, theirs = two_holders(before, place, dice)
                told = [history.call(*call) for call in calls]
                check_two_holders(before[place].lot, [calls[at] for at in theirs], [told[at] for at in theirs])
        yield columns, histories


# --- Random histories -------------------------------------------------------------------------------------------------


def random_cases(dice):
    """Boards of every size that matters, most of the calls at places that they have, some places more often than the others; one of
    three boards is cut anywhere."""
    for size, times in ((0, 1), (1, 3), (2, 3), (63, 4), (64, 5), (65, 1), (3, 1), (17, 2), (40, 2), (471, 1)):
        for _ in range(times):
            columns = columns_of(random_records(size, dice))
            hot = [dice.below(size) for _ in range(3)] if size else ()
            yield columns, [random_history(columns, split, hot, dice) for split in (ALL_OURS, size, dice.below(size + 1))]


# --- The laws, by force -----------------------------------------------------------------------------------------------


def random_board(dice):
    """A board that some history leads to: any owners, ours first, and any lots, jobs and stamps."""
    size = dice.pick((0, 1, 2, 3, 17, 63, 64))
    return board_with(dice.below(size + 1), any_lots(size, dice))


def after_calls(board, calls):
    """The board after some calls, and what each is told; a refused call leaves the board as it was."""
    told = []
    for call in calls:
        before, (board, answer) = board, called(board, *call)
        assert not answer.refusal or board == before, (before, call)
        told.append(answer)
    return board, told


def check_both_orders(board, pair):
    """Two assignments at different places give the same board and the same answers in either order."""
    one, told = after_calls(board, pair)
    other, told_otherwise = after_calls(board, pair[::-1])
    assert one == other and told == told_otherwise[::-1], (board, pair)


def check_every_pair():
    """Both orders of every two assignments at different places, on every board of up to two lots with hard stamps and few jobs."""
    calls = [(letter_of("a", party), *numbers) for party, *numbers in product(PARTIES, (0, 1, 2), HARD_STAMPS, (0, 7))]
    pairs = [pair for pair in combinations(calls, 2) if pair[0][1] != pair[1][1]]
    for size, ours in ((size, ours) for size in range(3) for ours in range(size + 1)):
        for stamps in product(HARD_STAMPS, repeat=size):
            board = board_with(ours, [Lot((place,) * 8, 5, stamp) for place, stamp in enumerate(stamps)])
            for pair in pairs:
                check_both_orders(board, pair)


def check_holders_of(board, dice):
    """Two holders of each of the board's stamps that is under 65,535."""
    for place in [place for place, owned in board.items() if owned.lot.stamp < LARGEST_STAMP]:
        for between in (noise, noise_there):
            calls, theirs = two_holders(board, place, dice, between)
            after, told = after_calls(board, calls)
            check_two_holders(board[place].lot, [calls[at] for at in theirs], [told[at] for at in theirs])
            assert after[place].lot == told[theirs[-1]].lot, (board, calls)


def check_laws():
    dice = Dice("laws of the board")
    check_isolation(dice)
    check_every_pair()
    for _ in range(150):
        board = random_board(dice)
        for _ in range(10):
            check_both_orders(board, pair_of_assignments(board, dice))
        check_holders_of(board, dice)


# --- All of them ------------------------------------------------------------------------------------------------------

SECTIONS = (size_cases, wrap_cases, alike_cases, uneven_cases, field_cases, last_stamp_cases, stamp_cases, row_cases, house_cases,
            both_orders_cases, two_holder_cases, isolation_cases, split_cases, random_cases)


def cases():
    for section in SECTIONS:
        yield from section(Dice("boards: " + section.__name__))


def lines():
    """The lines of each case, after the `column` lines that change what is held; at first every column is made empty."""
    check_laws()
    held = Held()
    yield from (column_line(letter, ()) for letter in LETTERS)
    for columns, histories in cases():
        wanted = held._replace(**columns)
        for line in [*changes(held, wanted), *(history.line for history in histories)]:
            assert len(line) <= LONGEST_LINE
            yield line
        held = wanted
