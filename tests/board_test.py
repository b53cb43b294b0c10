"""Boards from Python: what the package takes and what it hands back, the vectors and random histories by it, examples/board.c, all against
the second program. abi_test.py runs it."""

import copy
import itertools
import pickle
import subprocess
import tempfile
from pathlib import Path

import board_table
import cradlekeel
import older_library
import record_cases
import record_files
from board_lines import calls_of, cut, other_than, party_of
from cradlekeel import REASONS, Board, Lot, Party, Record, Refusal, Told
from cradlekeel._library import StoredBoard
from dice import Dice
from sample_lists import numbers_of
from spectrum_test import fault_of

ROOT = Path(__file__).resolve().parent.parent
GOOD = Record(219300, 327100, 23112, 21892, 23866, -2331, 2, 2)
TOO_MANY_LOTS, NO_SUCH_PLACE, STALE_STAMP, LAST_STAMP = range(16, 20)
OURS, PARTNER = Party.OURS, Party.PARTNER
NOTHING, NO_PLACE = Told(0, 0, None), Told(NO_SUCH_PLACE, 0, None)

# --- Without the library ----------------------------------------------------------------------------------------------


def check_types():
    """The fields, their order and their texts; a board of no lots, which needs no library."""
    assert Lot._fields == ("record", "job", "stamp") and Told._fields == ("refusal", "stamp", "lot")
    assert Lot(GOOD, 1, 2) == (GOOD, 1, 2) and "16 bits" in Lot.stamp.__doc__ and "18" in Told.stamp.__doc__
    empty = Board()
    assert (len(empty), empty.lots, repr(empty), bool(empty)) == (0, (), "<Board of 0 lots>", False)
    assert [(empty.lots_of(party), empty.places_of(party)) for party in Party] == 2 * [((), range(0))]
    assert [(party.name, party.value) for party in Party] == [("OURS", 0), ("PARTNER", 1)] and pickle.loads(pickle.dumps(PARTNER)) is PARTNER
    assert empty == Board() and hash(empty) == hash(Board()) and empty != () and not empty == None  # noqa: E711
    for given in ([], [GOOD], None):
        assert "use Board.load(ours, theirs)" in str(fault_of(TypeError, lambda: Board(given)))
    assert {type_.__module__ for type_ in (Board, Lot, Party, Told)} == {"cradlekeel"}
    assert {"Board", "Lot", "Party", "Told"} <= set(cradlekeel.__all__)


def check_unchanged():
    """Nothing of a board, a lot or what is told can be set or deleted."""
    empty = Board()
    for name in ("lots", "_stored", "count", "job"):
        assert "never changed" in str(fault_of(AttributeError, lambda: setattr(empty, name, 1)))
        assert "never changed" in str(fault_of(AttributeError, lambda: delattr(empty, name)))
    assert not hasattr(empty, "__dict__")
    fault_of(AttributeError, lambda: setattr(NOTHING, "refusal", 1))
    fault_of(AttributeError, lambda: setattr(Lot(GOOD, 0, 0), "job", 1))


CALLS = {  # calls with one argument open: its name, its bits, and the call
    "place": (64, lambda board, number: board.read(OURS, number)),
    "place of an assignment": (64, lambda board, number: board.assign(PARTNER, number, 0, 0)),
    "stamp": (16, lambda board, number: board.assign(OURS, 0, number, 0)),
    "job": (32, lambda board, number: board.assign(OURS, 0, 0, number))}
BY_PARTY = (lambda board, party: board.read(party, 0), lambda board, party: board.assign(party, 0, 0, 0), Board.lots_of, Board.places_of)


def check_numbers():
    """A number that is not whole, or does not fit its type in C, is named before the library is asked."""
    for name, (bits, call) in CALLS.items():
        for bad in (-1, 2**bits, -2**bits, 2**80, 0.5, "1", None):
            kind = ValueError if isinstance(bad, int) else TypeError
            fault = str(fault_of(kind, lambda: call(Board(), bad)))
            assert fault.startswith(f"{name.split()[0]} is {bad!r}, which") and (kind is TypeError or f"{bits} bits" in fault), fault
        assert str(fault_of(TypeError, lambda: call(Board(), PARTNER))).endswith("which is a party: the party comes first")


def check_parties():
    """Who is no party is named before the library is asked, and a call without one is no call."""
    for call in BY_PARTY:
        for bad in (2, 255, 256, -1, 2**80, 0.0, 1.5, "ours", "0", None, [0]):
            fault = str(fault_of(ValueError if isinstance(bad, int) else TypeError, lambda: call(Board(), bad)))
            assert fault == f"party is {bad!r}, which is neither Party.OURS, 0, nor Party.PARTNER, 1", fault
    board = Board()
    for call in (lambda: board.read(0), lambda: board.read(place=0), lambda: board.assign(0, 0, 1),
                 lambda: board.assign(place=0, stamp=0, job=1)):
        assert "missing 1 required positional argument" in str(fault_of(TypeError, call))


def check_records():
    """What is no record is named with its list, and so is a number that does not fit its field."""
    wide = GOOD._replace(duv=2**31)
    for name, load in (("ours", Board.load), ("theirs", lambda records: Board.load([GOOD], records))):
        assert str(fault_of(TypeError, lambda: load([GOOD, tuple(GOOD)]))).startswith(f"{name}[1] is (219300, ")
        fault_of(TypeError, lambda: load(None))
        fault_of(TypeError, lambda: load([None]))
        fault = fault_of(ValueError, lambda: load(iter([GOOD, wide])))
        assert str(fault) == f"{name}[1].duv is 2147483648, which does not fit a signed whole number of 32 bits", fault


def check_reasons():
    """Every refusal has its words, and Refusal can carry each."""
    assert set(REASONS) == set(range(1, 20)) - {8}
    for number, reason in REASONS.items():
        assert str(Refusal(number)) == f"refusal {number}: {reason}" and "\n" not in reason
    assert "64" in REASONS[TOO_MANY_LOTS] and "65,535" in REASONS[LAST_STAMP]


def self_test():
    """What needs no library."""
    check_types()
    check_unchanged()
    check_numbers()
    check_parties()
    check_records()
    check_reasons()


# --- Against the second program ---------------------------------------------------------------------------------------


class Both:
    """A board of the package and one of the second program, to which the same calls are made; told and all lots are compared after each."""

    def __init__(self, ours, theirs=()):
        self.board, told = Board.load(map(Record._make, ours), map(Record._make, theirs))
        self.table, expected = board_table.load(ours, theirs)
        self.places = [[place for place, (owner, _) in self.table.items() if owner == party] for party in Party]
        self.compare("load", told, expected)

    def compare(self, what, told, expected):
        assert told == tuple(expected), f"{what}: told {told}, expected {expected}"
        lots = tuple(self.table[place].lot for place in range(len(self.table)))
        assert len(self.board) == len(self.table) and self.board.lots == lots, f"{what}: {self.board.lots}, expected {lots}"
        assert [list(self.board.places_of(party)) for party in Party] == self.places, f"{what}: expected {self.places}"

    def call(self, name, party, *numbers):
        """Makes a call; its refusal and stamp."""
        self.board, told = getattr(self.board, name)(party, *numbers)
        self.table, expected = getattr(board_table, name)(self.table, int(party), *numbers)
        self.compare((name, party, *numbers), told, expected)
        return told.refusal, told.stamp

    def assign_often(self, party, place, stamp, job, times):
        """So many assignments with stamps that rise, to 65,535 at most, compared after the last; its refusal and stamp."""
        last = min(stamp + times, 2**16) - 1
        for each in range(stamp, last):
            self.board, _ = self.board.assign(party, place, each, job)
            self.table, _ = board_table.assign(self.table, int(party), place, each, job)
        return self.call("assign", party, place, last, job)

    def check_reads(self):
        for party, place in itertools.product(Party, (*range(66), 2**32, 2**64 - 1)):
            told, expected = self.board.read(party, place)[1], board_table.read(self.table, int(party), place)[1]
            assert told == tuple(expected), f"{party} reads {place}: told {told}, expected {expected}"
        for party, places in zip(Party, self.places):
            assert self.board.lots_of(party) == tuple(self.table[place].lot for place in places), self.board.lots_of(party)


def run_history(both, words):
    """What a `board` line prints before its checksum."""
    for letter, *numbers in calls_of(words):
        kind, given = letter.lower(), (party_of(letter), *numbers)
        yield from both.assign_often(*given) if kind == "n" else both.call({"r": "read", "a": "assign"}[kind], *given)


def run_vectors():
    """Every line `board` with the columns that it finds held; how many there are."""
    held, count = dict.fromkeys("uvplhdsc", ()), 0
    calls, answers = ((ROOT / f"crates/vectors/{name}").read_text().splitlines() for name in ("stdin", "stdout"))
    for line, answer in zip(calls, answers):
        kind, *words = line.split()
        if kind == "column":
            held[words[0]] = numbers_of(words[1:])
        if kind == "board":
            split, *words = words
            lists = list(map(record_files.listed, cut(held.values(), int(split))))
            both = Both(*lists)
            told = [board_table.load(*lists)[1].refusal, *run_history(both, words)]
            assert list(map(str, told)) == answer.split()[:-1], (line, answer)
            both.check_reads()
            count += 1
    assert count, "the vectors have no line of boards"
    return count


def random_call(dice, both):
    """A read or an assignment about the board's places, by the house that has the place or by either, with the current stamp, one beside it
    or any."""
    place = dice.pick((dice.below(len(both.board) + 2), dice.below(4), 63, 64, dice.below(2**64)))
    owner, lot = both.table.get(place, (dice.pick((0, 1)), None))
    party = dice.pick((Party(owner), owner, owner, owner, other_than(owner)))
    if dice.below(3) == 0:
        return "read", party, place
    stamp = ((lot.stamp if lot else 0) + dice.pick((0, 0, 0, 0, 1, 65_535))) % 65_536
    return "assign", party, place, dice.pick((stamp, stamp, stamp, dice.below(65_536))), dice.pick((0, 1, 2**32 - 1, dice.below(2**32)))


def check_histories():
    """Random histories, some of them with a lot near its last stamp; every refusal of a call is met."""
    met = set()
    for seed in range(24):
        dice = Dice(f"histories of boards {seed}")
        both = Both(*(record_cases.random_records(dice.pick((0, 1, 2, 3, 30, most)), dice) for most in (34, 64)))
        last = len(both.board) - 1
        if both.board and seed % 8 == 0:
            both.assign_often(both.table[last].owner, last, 0, 1, 65_533 + dice.below(3))
        for _ in range(150):
            before, lots = both.board, both.board.lots
            met.add(both.call(*random_call(dice, both))[0])
            assert before.lots == lots, "a call has changed the board that it was made on"
            if both.board and dice.below(20) == 0:
                met.add(both.call("assign", both.table[last].owner, last, both.board.lots[last].stamp, 5)[0])
        both.check_reads()
    assert met == {0, NO_SUCH_PLACE, STALE_STAMP, LAST_STAMP}, met


def day_of(party, own, others, calls):
    """What a house is told on a day, call by call, and its lots at the end; the calls are those of both houses."""
    board, told = Board.load(*((own, others) if party == OURS else (others, own)))
    assert told == NOTHING
    answers = []
    for caller, name, *numbers in calls:
        board, told = getattr(board, name)(caller, *numbers)
        answers += [told] if caller == party else []
    return answers, board.lots_of(party)


def some_call(dice, party):
    """A call of a house at any place of the board, its own or not, with a stamp that may be current."""
    place, stamp, job = dice.below(12), dice.below(3), dice.below(2**32)
    return dice.pick(((party, "read", place), (party, "assign", place, stamp, job)))


def check_isolation():
    """Two days with the same load, first place and calls of one house are the same to it, whatever the other house loads and calls."""
    met = set()
    for seed in range(60):
        dice, party = Dice(f"two days {seed}"), Party(seed % 2)
        sizes = (0, 7) if party == OURS else (4, 4)  # of the other house's loads: so many places are before the partner's
        own, *others = ([Record._make(each) for each in record_cases.random_records(count, dice)] for count in (4, *sizes))
        calls = [some_call(dice, party) for _ in range(40)]
        days = [day_of(party, own, others[0], calls)]
        for records in others:
            both = [each for call in calls for each in (*(some_call(dice, Party(1 - party)) for _ in range(dice.below(4))), call)]
            days.append(day_of(party, own, records, both))
        assert days[0] == days[1] == days[2], (seed, days)
        met.update(told.refusal for told in days[0][0])
    assert met == {0, NO_SUCH_PLACE, STALE_STAMP}, met


# --- What the package hands back --------------------------------------------------------------------------------------


def check_loads():
    """Our records come from any iterable, of which at most 65 are taken, and what is given stays."""
    records = [Record._make(record) for record in record_cases.random_records(64, Dice("loads of boards"))]
    board, told = Board.load(records)
    assert told == NOTHING and board.lots == tuple(Lot(record, 0, 0) for record in records) and isinstance(board.lots[0].record, Record)
    file = cradlekeel.to_bytes(records)
    for given in (tuple(records), iter(records), (record for record in records), dict.fromkeys(records), cradlekeel.read_records(file)):
        assert Board.load(given) == (board, NOTHING)
    earlier = [record._replace(duv=place - 32_768) for place, record in enumerate(records)]
    file = record_files.file_by(record_files.EARLIER, earlier)
    assert [lot.record for lot in Board.load(cradlekeel.read_records(file))[0].lots] == earlier
    assert Board.load([]) == (Board(), NOTHING) and Board.load(()) == Board.load(iter([]))
    for count in (65, 66, 3600, 4000):
        assert Board.load(count * records[:1]) == (Board(), Told(TOO_MANY_LOTS, 0, None)), count
    for count, left in ((64, 0), (65, 0), (66, 1), (100, 35)):
        given = iter(count * records[:1])
        assert Board.load(given)[1].refusal == (TOO_MANY_LOTS if count > 64 else 0) and len(list(given)) == left, count
    assert Board.load(itertools.repeat(GOOD)) == Board.load([*65 * [GOOD], None]) == (Board(), Told(TOO_MANY_LOTS, 0, None))
    fault_of(TypeError, lambda: Board.load([*64 * [GOOD], None]))


def check_loads_of_two():
    """Ours come first and then the partner's, 64 together at most; of either iterable at most 65 are taken."""
    records = [Record._make(record) for record in record_cases.random_records(65, Dice("loads of two houses"))]
    for together, ours in itertools.product((1, 2, 63, 64), (0, 1, 2, 40, 62, 63, 64)):
        if ours <= together:
            board, told = Board.load(iter(records[:ours]), theirs=iter(records[ours:together]))
            assert told == NOTHING and board.lots == tuple(Lot(record, 0, 0) for record in records[:together]), (ours, together)
            assert (board.places_of(OURS), board.places_of(1)) == (range(ours), range(ours, together)), board
    for ours, theirs in ((65, 0), (0, 65), (64, 1), (1, 64), (32, 33), (40, 25), (64, 64), (200, 56), (3600, 0), (0, 3600)):
        lists = iter(ours * records[:1]), iter(theirs * records[:1])
        assert Board.load(*lists) == (Board(), Told(TOO_MANY_LOTS, 0, None)), (ours, theirs)
        assert [len(list(rest)) for rest in lists] == [max(count - 65, 0) for count in (ours, theirs)]
    assert Board.load([], itertools.repeat(GOOD))[1].refusal == TOO_MANY_LOTS
    assert Board.load([GOOD], []) == Board.load([GOOD]) == Board.load(ours=[GOOD], theirs=iter(())) != Board.load([], [GOOD])


def check_told():
    """A refusal is told and not raised, and the board comes back equal; what is not carried is 0 or None."""
    board, _ = Board.load([GOOD, GOOD])
    assert board.read(OURS, 0) == (board, Told(0, 0, Lot(GOOD, 0, 0))) == board.read(party=0, place=0)
    assert board.read(OURS, 2) == (board, NO_PLACE) == board.assign(OURS, 2, 9, 9)
    assert board.assign(OURS, 0, 1, 9) == (board, Told(STALE_STAMP, 0, None))
    stored, told = board.assign(OURS, place=0, stamp=0, job=2**32 - 1)
    assert told == NOTHING and stored.lots == (Lot(GOOD, 2**32 - 1, 1), Lot(GOOD, 0, 0)) and board.lots[0].job == 0
    assert stored.assign(OURS, 0, 0, 9) == (stored, Told(STALE_STAMP, 1, None))
    for party, lists in ((OURS, [[GOOD], []]), (PARTNER, [[], [GOOD]])):
        both = Both(*lists)
        assert both.assign_often(party, 0, 0, 7, 65_535) == (0, 0) and both.board.lots == (Lot(GOOD, 7, 65_535),)
        last = both.board
        assert last.assign(party, 0, 65_535, 8) == (last, Told(LAST_STAMP, 0, None))
        assert last.assign(party, 0, 65_534, 8) == (last, Told(STALE_STAMP, 65_535, None))
        assert {last.assign(1 - party, 0, stamp, 8) for stamp in (0, 65_534, 65_535)} == {(last, NO_PLACE)}


def check_told_to_others():
    """Of a place of the other house nothing is told, with the current stamp and with another, and nothing is stored; a plain number is
    taken for a party."""
    other = GOOD._replace(u=1)
    board, _ = Board.load([GOOD], [other])
    for party, place, record in ((OURS, 0, GOOD), (PARTNER, 1, other), (0, 0, GOOD), (1, 1, other)):
        stored, told = board.assign(party, place, 0, 4711)
        assert told == NOTHING and stored.read(party, place)[1] == Told(0, 0, Lot(record, 4711, 1))
        assert stored.lots_of(party) == (Lot(record, 4711, 1),) and stored.lots_of(1 - party) == board.lots_of(1 - party)
        for lots in (board, stored):
            assert lots.read(1 - party, place) == (lots, NO_PLACE)
            assert [lots.assign(1 - party, place, stamp, 9) for stamp in (0, 1, 2, 65_535)] == 4 * [(lots, NO_PLACE)]


def check_values():
    """Equal boards are equal values, whatever made them and whatever their padding holds."""
    full, _ = Board.load([GOOD])
    full.__init__()  # which does nothing to a board that there is
    assert full == Board.load([GOOD])[0] != Board()
    board, _ = Board.load([GOOD], [GOOD])
    first = board.assign(OURS, 0, 0, 5)[0].assign(PARTNER, 1, 0, 6)[0]
    second = board.assign(PARTNER, 1, 0, 6)[0].assign(OURS, 0, 0, 5)[0]
    assert first == second and hash(first) == hash(second) and len({board, first, second}) == 2
    assert first != board and board.assign(OURS, 0, 0, 0)[0] != board and first != first.lots and Board.load([GOOD])[0] != board
    owned = [Board.load(ours * [GOOD], (2 - ours) * [GOOD])[0] for ours in range(3)]
    assert len({each.lots for each in owned}) == 1 and len(set(owned)) == 3 and owned[1] == board != owned[2], owned
    padded = StoredBoard.from_buffer_copy(b"\xff" * 2064)
    padded.ours, padded.count = 1, 2
    for lot, stored in zip(padded.lots, first._stored.lots):
        for field in ("u", "v", "place", "low", "high", "duv", "steps", "class_index"):
            setattr(lot.record, field, getattr(stored.record, field))
        lot.job, lot.stamp = stored.job, stored.stamp
    other = Board._holding(padded)
    assert bytes(padded) != bytes(first._stored) and other == first and hash(other) == hash(first)
    assert first.lots[0].job == 5 and [repr(Board.load(count * [GOOD])[0]) for count in (1, 2, 64)] == [
        "<Board of 1 lot>", "<Board of 2 lots>", "<Board of 64 lots>"]
    for ours, theirs, shown in ((1, 2, "3 lots, 2"), (2, 1, "3 lots, 1"), (0, 1, "1 lot, 1")):
        assert repr(Board.load(ours * [GOOD], theirs * [GOOD])[0]) == f"<Board of {shown} of them the partner's>"


def check_copies():
    """A copy, and what was pickled, is the same value, and each house has its places there."""
    board, _ = Board.load([GOOD], [GOOD])
    board, _ = board.assign(OURS, 0, 0, 5)
    for copied in (copy.copy(board), copy.deepcopy(board), *(pickle.loads(pickle.dumps(board, form)) for form in range(6))):
        assert copied == board and type(copied) is Board and bytes(copied._stored.lots[2]) == bytes(32)
        assert copied.assign(OURS, 0, 1, 9)[1] == copied.assign(PARTNER, 1, 0, 9)[1] == NOTHING
        assert copied.read(OURS, 1)[1] == copied.read(PARTNER, 0)[1] == NO_PLACE
    for board in (Board(), Board.load([], 64 * [GOOD])[0]):
        assert copy.copy(board) == board


OLDER_BOARDS = """
struct answer { size_t count; unsigned char rest[2088]; };
struct answer ck_board_load(%s) {
    struct answer answer = {us, {0}};
    return answer;
}
void ck_board_read(void) {}
void ck_board_assign(void) {}
"""
ASKED = "Board.load([])", "Board().read(0, 0)", "Board().assign(0, 0, 0, 0)"


def check_older_library():
    """A library whose boards are one house's is told of, and no board goes to it; records do."""
    source = older_library.writer_of(record_files.WRITTEN) + OLDER_BOARDS % older_library.COLUMNS
    for call, library, ran in older_library.asked(source, (*ASKED, "to_bytes([])")):
        told = f"{library} has boards of one house: it is older than this package" in ran.stderr
        assert (ran.returncode, told) == ((1, True) if call in ASKED else (0, False)), ran


# --- examples/board.c -------------------------------------------------------------------------------------------------

EXAMPLE = ROOT / "target/abi/board"


def example_lines(ours, theirs=None):
    """What the example prints by the second program; Cleo, of the partner's house, calls where there is a second file."""
    board, _ = board_table.load(ours, theirs or [])
    words = {0: "stored", NO_SUCH_PLACE: "refusal 17: no such place", STALE_STAMP: "refusal 18: the stamp is now 1"}
    yield "Ann sees job 0 and stamp 0 at place 0, and so does Ben"
    for who, place, job in (("Ann", 0, 4711), ("Ben", 0, 4712), ("Ben", 1, 4712)):
        if place == 1:
            yield "Ben sees job 4711 and stamp 1 at place 0"
        board, told = board_table.assign(board, board_table.OURS, place, 0, job)
        yield f"{who} assigns place {place} to job {job}: {words[told.refusal]}"
    if theirs is not None:
        yield f"Cleo reads place 0: {words[board_table.read(board, board_table.PARTNER, 0)[1].refusal]}"
        for named, place, stamp in (("place 0", 0, 1), ("her first place", len(ours), 0)):
            board, told = board_table.assign(board, board_table.PARTNER, place, stamp, 815)
            yield f"Cleo assigns {named} to job 815: {words[told.refusal]}"
    for place, (owner, lot) in board.items():
        yield f"place {place}: job {lot.job}, stamp {lot.stamp}" + (", the partner's" if owner == board_table.PARTNER else "")


def run_example(*words, **options):
    return subprocess.run([EXAMPLE, *words], capture_output=True, text=True, **options)


def check_example():
    """The program shows what the second program's dispatchers are told, and says what it cannot load."""
    with tempfile.TemporaryDirectory() as folder:
        path = Path(folder) / "morning.rec"
        for count in (1, 2, 64):
            records = count * [tuple(GOOD)]
            for length in record_files.RECORDS:
                path.write_bytes(record_files.file_by(length, records))
                ran = run_example(path)
                assert (ran.stdout.splitlines(), ran.stderr, ran.returncode) == (list(example_lines(records)), "", 0), ran
        check_example_of_two(Path(folder))
        with open("/dev/full", "wb") as full:
            ran = subprocess.run([EXAMPLE, path], stdout=full, stderr=subprocess.PIPE, text=True)
        assert (ran.returncode, ran.stderr) == (1, "board: standard output could not be written\n"), ran
        none, over, most, beyond = (record_files.file_of(count * [tuple(GOOD)]) for count in (0, 65, 3200, 3201))
        earlier = record_files.file_by(record_files.EARLIER, 3600 * [tuple(GOOD)])
        too_many = "refusal 16: more than 64 records"
        for file, said in ((none, "has no records"), (over, too_many), (most, too_many), (earlier, too_many), (beyond, "refusal 11: "),
                           (most + b"\0", "refusal 14: "), (earlier + b"\0", "refusal 14: "), (b"", "refusal 13: ")):
            path.write_bytes(file)
            ran = run_example(path)
            assert (ran.returncode, ran.stdout) == (1, "") and ran.stderr.startswith(f"board: {path}") and said in ran.stderr, ran
        ran = run_example(path.parent / "missing.rec")
        assert ran.returncode == 1 and "No such file" in ran.stderr and not ran.stdout, ran
    for words in ((), ("a", "b", "c")):
        ran = run_example(*words)
        assert (ran.returncode, ran.stdout, ran.stderr) == (2, "", "usage: board OURS [THEIRS]\n"), ran


def check_example_of_two(folder):
    """The program with a partner's file, of one record, of none, and of as many or more than fit."""
    ours, theirs = folder / "ours.rec", folder / "theirs.rec"
    for counts in ((1, 1), (2, 0), (3, 2), (40, 24), (63, 1), (1, 63), (64, 0), (40, 25), (64, 1), (1, 3200)):
        lists = [count * [tuple(GOOD)] for count in counts]
        ours.write_bytes(record_files.file_of(lists[0]))
        theirs.write_bytes(record_files.file_of(lists[1]))
        ran = run_example(ours, theirs)
        refused = f"board: {ours} and {theirs}: refusal 16: more than 64 records\n"
        expected = (list(example_lines(*lists)), "", 0) if sum(counts) <= 64 else ([], refused, 1)
        assert (ran.stdout.splitlines(), ran.stderr, ran.returncode) == expected, ran
    ran = run_example(ours, folder / "missing.rec")
    assert ran.returncode == 1 and "missing.rec: No such file" in ran.stderr and not ran.stdout, ran


def run():
    """Everything that needs the library; how many vectors there are."""
    count = run_vectors()
    check_histories()
    check_isolation()
    check_loads()
    check_loads_of_two()
    check_told()
    check_told_to_others()
    check_values()
    check_copies()
    check_older_library()
    check_example()
    return count
