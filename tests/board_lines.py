"""The lines `board SPLIT WORDS..`: a history of calls in words, and what is expected of it; random calls for the histories of
board_cases.py, board_isolation.py and fuzz_boards."""

from functools import lru_cache
from itertools import product

import board_table
from board_table import OURS, PARTIES, PARTNER, Owned
from core_cases import MODULUS, MULTIPLIER, checksum
from record_lines import LETTERS

# A call is a tuple: its letter, small for our house and a capital for the partner, and the numbers that follow it.
NUMBERS = {"r": 1, "a": 3, "n": 4}  # r PLACE, a PLACE STAMP JOB, n PLACE STAMP JOB TIMES
LARGEST_STAMP = 65_535
LARGEST_JOB = 2**32 - 1
LARGEST_PLACE = 2**64 - 1
ALL_OURS = 2**64 - 1  # a split that no column reaches
PLACES = range(65)  # those that are shown after each call
NO_LOT = (0,) * 10


def board_line(split, calls):
    return " ".join(["board", str(split), *(str(word) for call in calls for word in call)])


def calls_of(words):
    """The calls that the words after the split name."""
    words = iter(words)
    return [(letter, *(int(next(words)) for _ in range(NUMBERS[letter.lower()]))) for letter in words]


def cut(columns, split):
    """Of each column the numbers before the split, which are ours, and those from it on, which are the partner's."""
    return [column[:split] for column in columns], [column[split:] for column in columns]


def letter_of(kind, party):
    return kind.upper() if party == PARTNER else kind


def party_of(letter):
    return PARTNER if letter.isupper() else OURS


# --- Calls ------------------------------------------------------------------------------------------------------------


def assign_in_a_row(board, party, place, stamp, job, times):
    """So many assignments with stamp after stamp, up to the largest; what is told is what the last of them is told."""
    for each in range(stamp, min(stamp + times, LARGEST_STAMP + 1)):
        board, told = board_table.assign(board, party, place, each, job)
    return board, told


def called(board, letter, *numbers):
    """(board, told) after a call."""
    calls = {"r": board_table.read, "a": board_table.assign, "n": assign_in_a_row}
    return calls[letter.lower()](board, party_of(letter), *numbers)


class History:
    """Calls in a row with what each is told, and the board that they lead to from a load of columns."""

    def __init__(self, columns, split=ALL_OURS):
        self.split, self.calls, self.told = split, [], []
        self.board, _ = board_table.load_columns(*cut([columns[letter] for letter in LETTERS], split))

    def call(self, *call):
        """One more call; what it is told."""
        self.calls.append(call)
        before, (self.board, told) = self.board, called(self.board, *call)
        assert not told.refusal or call[0] in "nN" or self.board == before, call
        self.told.append(told)
        return told

    def by_owner(self, kind, place, *numbers):
        """One more call, of the house that has the place."""
        return self.call(letter_of(kind, owner_at(self.board, place)), place, *numbers)

    def by_other(self, kind, place, *numbers):
        """One more call, of the house that has not the place."""
        return self.call(letter_of(kind, other_than(owner_at(self.board, place))), place, *numbers)

    @property
    def line(self):
        return board_line(self.split, self.calls)


# --- What a board has -------------------------------------------------------------------------------------------------


def board_with(ours, lots):
    """A board of some lots, so many of which are ours."""
    return {place: Owned(OURS if place < ours else PARTNER, lot) for place, lot in enumerate(lots)}


def other_than(party):
    return PARTNER if party == OURS else OURS


def owner_at(board, place):
    """Whose a place is; ours where there is no such place."""
    return board[place].owner if place in board else OURS


def stamp_at(board, place):
    """The current stamp of a place, 0 where there is no such place."""
    return board[place].lot.stamp if place in board else 0


def places_of(board, party):
    return sorted(place for place, owned in board.items() if owned.owner == party)


def ends_of(board):
    """The first and the last place of each house."""
    return sorted({place for party in PARTIES for place in (*places_of(board, party)[:1], *places_of(board, party)[-1:])})


# --- Random calls -----------------------------------------------------------------------------------------------------

JOBS = (0, 1, 255, 256, 65_535, 65_536, 2**31 - 1, 2**31, LARGEST_JOB - 1, LARGEST_JOB)
HARD_STAMPS = 0, 1, LARGEST_STAMP - 1, LARGEST_STAMP


def bad_places(size):
    """Places that a board of so many lots has not: the next ones, those about 64 and about powers of two, the largest."""
    near = {size, size + 1, 63, 64, 65, 127, 128, 255, 256, 320}
    far = {power + more for power in (2**16, 2**31, 2**32, 2**63) for more in (-1, 0, 1, 64)}
    last = {LARGEST_PLACE, LARGEST_PLACE - 1, 2**64 - 64, 2**64 - max(size, 1)}
    return sorted(place for place in near | far | last if place >= size)


def random_place(board, hot, dice):
    """A place of the board, in one case of three a hot one; in one case of eight a place that it has not."""
    if not board or dice.below(8) == 0:
        return dice.pick(bad_places(len(board)))
    return dice.pick(hot) if hot and dice.below(3) == 0 else dice.below(len(board))


def random_party(board, place, dice):
    """The house that has the place, in one case of six the other; either where there is no such place."""
    if place not in board:
        return dice.pick(PARTIES)
    return other_than(owner_at(board, place)) if dice.below(6) == 0 else owner_at(board, place)


def other_stamps(current):
    """Stamps that are not the current one: before it, after it, and those that agree with it in some of its bits."""
    near = current - 1, current + 1, current - 2, current + 2, 0, 1, current // 2, LARGEST_STAMP - 1, LARGEST_STAMP
    bits = current ^ 1, current ^ 2**8, current ^ 2**15, current % 2**8, current % 2**15
    return sorted({stamp for stamp in near + bits if 0 <= stamp <= LARGEST_STAMP} - {current})


def random_stamp(current, dice):
    """The current stamp in three cases of five."""
    return current if dice.below(5) < 3 else dice.pick((*other_stamps(current), dice.getrandbits(16)))


def random_job(dice):
    return dice.pick(JOBS) if dice.below(3) == 0 else dice.getrandbits(dice.pick((7, 16, 32)))


def call_of(party, board, place, dice):
    """A party's read of a place, or its assignment; the stamp is chosen by the lot's, whoever owns it."""
    if dice.below(3) == 0:
        return letter_of("r", party), place
    return letter_of("a", party), place, random_stamp(stamp_at(board, place), dice), random_job(dice)


def random_call(board, hot, dice):
    """A read or an assignment of either house."""
    place = random_place(board, hot, dice)
    return call_of(random_party(board, place, dice), board, place, dice)


# --- The checksum -----------------------------------------------------------------------------------------------------


def numbers_of(lot):
    """The ten numbers of a lot; Duv, the sixth of its record, by its 32 bits."""
    if lot is None:
        return NO_LOT
    *numbers, duv, steps, cls = lot.record
    return *numbers, duv % 2**32, steps, cls, lot.job, lot.stamp


def shift(count):
    """What a checksum is multiplied by when it goes on over so many numbers."""
    return pow(MULTIPLIER, count, MODULUS)


READS = list(product(PLACES, PARTIES))  # of each place, first ours and then the partner's
SHIFT_OF_TOLD, SHIFT_OF_READ, SHIFT_OF_BOARD = shift(12), shift(11), shift(11 * len(READS))


@lru_cache(maxsize=2**16)
def of_read(refusal, lot):
    """The checksum, by itself, of what one read is told."""
    return checksum((refusal, *numbers_of(lot)))


def of_board(board):
    """The checksum, by itself, of what reads of all places are told."""
    total = 0
    for place, party in READS:
        _, told = board_table.read(board, party, place)
        total = (total * SHIFT_OF_READ + of_read(told.refusal, told.lot)) % MODULUS
    return total


def with_call(total, told, shown):
    """A checksum that goes on over what a call is told and what the board then shows."""
    total = total * SHIFT_OF_TOLD + checksum((told.refusal, told.stamp, *numbers_of(told.lot)))
    return (total * SHIFT_OF_BOARD + shown) % MODULUS


# --- What is expected -------------------------------------------------------------------------------------------------


def expected(line, held):
    """`REFUSAL { REFUSAL STAMP } .. CHECKSUM` of loading the columns held and of the line's calls."""
    _, split, *words = line.split()
    board, told = board_table.load_columns(*cut(held.columns, int(split)))
    shown = of_board(board)
    numbers, total = [told.refusal], with_call(0, told, shown)
    for call in calls_of(words):
        before, (board, told) = board, called(board, *call)
        shown = shown if board is before else of_board(board)
        numbers += told.refusal, told.stamp
        total = with_call(total, told, shown)
    return " ".join(map(str, [*numbers, total]))
