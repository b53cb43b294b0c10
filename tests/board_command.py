"""`cradlekeel board` as its users meet it; tests/run-program runs PARTS, each in a folder of its own.

What is expected of commands is what the second program's board is told, in the words of the command."""

import _ctypes
import codecs
import os
import pty
import signal
import subprocess
import sys
import termios

import board_table
import record_files
from command_runs import COMMAND, PATIENCE, ROOT, Copy, check, expect, no_large_files, run, shell
from dice import Dice
from kept import shown

sys.path.insert(0, str(ROOT / "python"))
from cradlekeel import REASONS

RECORDS = [(219300, 327100, 23156, 23152, 23158, -2325, 14, 2), (255910, 349510, 36176, 33592, 38760, 0, 0, 1),
           (4_294_967_295, 0, 65_535, 0, 1, -2_147_483_648, 255, 255)]
THEIRS = [(233000, 341000, 28856, 28746, 29034, 1441, 6, 2), (228000, 332000, 26162, 25984, 26272, -3610, 6, 2)]
LAST_STAMP, STALE_STAMP = 65_535, 18
PLACE = "PLACE is {}, which is not a whole number; places are counted from 0, as in {}"


def board(*words, text=b"", **options):
    return run(["board", *words], text, **options)


def file_in(folder, records=RECORDS, name="day.rec", length=record_files.WRITTEN):
    path = folder / name
    path.write_bytes(record_files.file_by(length, records))
    return path


# --- What is expected of commands -------------------------------------------------------------------------------------


HOUSES = {"ours": board_table.OURS, "partner": board_table.PARTNER}


class Lots:
    """A board of the second program, and its answers as the command prints them; a command without a house is that of `house`."""

    def __init__(self, ours, theirs=(), house="ours"):
        self.board, _ = board_table.load(ours, list(theirs))
        self.house = house

    def stamp(self, place):
        """The current stamp of a place, 0 where there is none."""
        return self.board[place].lot.stamp if place in self.board else 0

    def read(self, party, place):
        self.board, told = board_table.read(self.board, party, place)
        return f"0 {place} {told.lot.stamp} {told.lot.job} {shown(told.lot.record)}" if told.lot else f"{told.refusal}"

    def assign(self, party, place, stamp, job):
        self.board, told = board_table.assign(self.board, party, place, stamp, job)
        return f"{told.refusal} {told.stamp}" if told.refusal == STALE_STAMP else f"{told.refusal}"

    def list(self, party):
        places = sorted(place for place, (owner, _) in self.board.items() if owner == party)
        return "\n".join([*(self.read(party, place) for place in places), f"0 lots {len(places)}"])

    def answer(self, command):
        """What is printed for a good command."""
        words = command.split()
        house, name, *numbers = words if words[0] in HOUSES else (self.house, *words)
        return f"{getattr(self, name)(HOUSES[house], *map(int, numbers))}\n".encode()

    def answers(self, commands):
        return b"".join(map(self.answer, commands))


def text_of(commands):
    return "".join(f"{command}\n" for command in commands).encode()


# --- Commands ---------------------------------------------------------------------------------------------------------

BOTH = ("read 0", "read 0", "assign 0 0 4711", "assign 0 0 4712", "read 0", "assign 1 0 4712", "list")
PRINTED = b"""\
0 0 0 0 219300 327100 23156 23152 23158 -2325 14 2
0 0 0 0 219300 327100 23156 23152 23158 -2325 14 2
0
18 1
0 0 1 4711 219300 327100 23156 23152 23158 -2325 14 2
0
0 0 1 4711 219300 327100 23156 23152 23158 -2325 14 2
0 1 1 4712 255910 349510 36176 33592 38760 0 0 1
0 2 0 0 4294967295 0 65535 0 1 -2147483648 255 -
0 lots 3
"""


def check_commands(folder):
    """Two dispatchers at three lots, written out; then every command at its limits."""
    path = file_in(folder)
    expect("two dispatchers", board(path, text=text_of(BOTH)), PRINTED)
    check("the list of lots expects the same", Lots(RECORDS).answers(BOTH) == PRINTED, Lots(RECORDS).answers(BOTH))
    places = (2, 3, 63, 64, 65, 2**32, 2**64 - 1, 2**64, 2**64 + 1, 10**900)
    limits = (*(f"read {place}" for place in places), *(f"assign {place} 0 1" for place in places[1:]),
              "assign 0 65535 1", "assign 0 1 1", f"assign 0 0 {2**32 - 1}", "read 0", "assign 0 1 0", "read 0", "assign 0 2 0", "read 0", "list")
    expect("limits", board(path, text=text_of(limits)), Lots(RECORDS).answers(limits))
    check("the file is only read", path.read_bytes() == record_files.file_of(RECORDS), path)
    expect("a second run begins with the file", board(path, text=b"read 0"), Lots(RECORDS).answers(["read 0"]))
    expect("no commands", board(path))
    earlier = RECORDS[:2] * 32
    expect("a file from before", board(file_in(folder, earlier, "earlier.rec", record_files.EARLIER), text=b"list"), Lots(earlier).answers(["list"]))
    expect("a path alone, from its folder", board("day.rec", text=b"list\n", cwd=folder), Lots(RECORDS).answers(["list"]))
    expect("a name that begins with a dash", shell('cp day.rec ./-h; "$0" board -- -h', b"read 1", cwd=folder), Lots(RECORDS).answers(["read 1"]))


def check_boards(folder):
    """Boards of 0, 1, 63 and 64 lots."""
    for count in (0, 1, 63, 64):
        path = file_in(folder, (22 * RECORDS)[:count])
        commands = ["list", *(f"read {place}" for place in range(66)), *(f"assign {place} 0 {place + 1}" for place in range(66)), "list"]
        expect(f"a board of {count} lots", board(path, text=text_of(commands)), Lots((22 * RECORDS)[:count]).answers(commands))


def random_command(dice, lots, count=3):
    """A command at a place of so many lots or about them, with the stamp that is current there, one beside it, or any."""
    place = dice.pick((*range(count + 1), dice.below(70)))
    stamp = (lots.stamp(place) + dice.pick((0, 0, 0, -1, 1))) % 65_536
    job = dice.pick((0, dice.below(9), dice.below(2**32)))
    assign = f"assign {place} {dice.pick((stamp, stamp, stamp, stamp, dice.below(65_536)))} {job}"
    return dice.pick((f"read {place}", assign, "list" if dice.below(9) == 0 else "read 0"))


def check_histories(folder):
    """Random commands, thousands to a run, all that is printed compared."""
    path = file_in(folder)
    for seed in range(4):
        dice, lots, commands, answers = Dice(f"board {seed}"), Lots(RECORDS), [], b""
        for _ in range(3000):
            commands.append(random_command(dice, lots))
            answers += lots.answers(commands[-1:])
        check("they are stored and refused", min(map(lots.stamp, range(3))) > 50 and b"\n18 " in answers and b"\n17\n" in answers, lots.board)
        expect(f"history {seed}", board(path, text=text_of(commands)), answers)


def check_last_stamp(folder):
    """A stamp ends at 65,535: the current one is then refused with 19, any other with 18."""
    commands = [f"assign 0 {stamp} {stamp + 1}" for stamp in range(LAST_STAMP)]
    commands += ["read 0", "assign 0 65535 7", "assign 0 65534 7", "assign 0 0 7", "assign 1 0 7", "list"]
    ran = board(file_in(folder), text=text_of(commands))
    expect("every stamp", ran, Lots(RECORDS).answers(commands))
    last = [b"0 0 65535 65535 219300 327100 23156 23152 23158 -2325 14 2", b"19", b"18 65535", b"18 65535", b"0"]
    check("the last ones", ran.stdout.split(b"\n")[LAST_STAMP:LAST_STAMP + 5] == last, ran.stdout[-400:])


# --- Two houses -------------------------------------------------------------------------------------------------------

SHARED = ("ours read 0", "ours read 3", "partner read 3", "partner read 0", "partner assign 3 0 815", "ours assign 3 0 4711",
          "ours assign 3 1 4711", "partner assign 0 0 816", "partner assign 3 0 816", "partner assign 4 0 816", "ours assign 0 0 4711",
          "ours read 5", "partner read 5", "ours list", "partner list")
SHARED_PRINTED = b"""\
0 0 0 0 219300 327100 23156 23152 23158 -2325 14 2
17
0 3 0 0 233000 341000 28856 28746 29034 1441 6 2
17
0
17
17
17
18 1
0
0
17
17
0 0 1 4711 219300 327100 23156 23152 23158 -2325 14 2
0 1 0 0 255910 349510 36176 33592 38760 0 0 1
0 2 0 0 4294967295 0 65535 0 1 -2147483648 255 -
0 lots 3
0 3 1 815 233000 341000 28856 28746 29034 1441 6 2
0 4 1 816 228000 332000 26162 25984 26272 -3610 6 2
0 lots 2
"""


def files_of_two(folder, ours=RECORDS, theirs=THEIRS):
    return file_in(folder, ours), file_in(folder, theirs, "theirs.rec")


def check_houses(folder):
    """Both houses on one board, written out; then with a file that is both, one from before, and houses that have no lots."""
    paths = files_of_two(folder)
    expect("two houses", board(*paths, text=text_of(SHARED)), SHARED_PRINTED)
    found = Lots(RECORDS, THEIRS).answers(SHARED)
    check("the list of lots expects the same", found == SHARED_PRINTED, found)
    check("the files are only read", [path.read_bytes() for path in paths] == list(map(record_files.file_of, (RECORDS, THEIRS))), paths)
    expect("one file for both", board(paths[0], paths[0], text=text_of(SHARED)), Lots(RECORDS, RECORDS).answers(SHARED))
    earlier = file_in(folder, THEIRS, "earlier.rec", record_files.EARLIER)
    expect("a partner's file from before", board(paths[0], earlier, text=text_of(SHARED)), SHARED_PRINTED)
    for ours, theirs in ((RECORDS, ()), ((), THEIRS), ((), ())):
        expect("a house without lots", board(*files_of_two(folder, ours, theirs), text=text_of(SHARED)), Lots(ours, theirs).answers(SHARED))
    expect("no file of the partner's", board(file_in(folder), text=text_of(SHARED)), Lots(RECORDS).answers(SHARED))
    lines, commands = b" ours\tread  0 \r\n\tpartner list\r\npartner assign 3 0000 7", ("ours read 0", "partner list", "partner assign 3 0 7")
    expect("spaces", board(*files_of_two(folder), text=lines), Lots(RECORDS, THEIRS).answers(commands))


def check_limits_of_two(folder):
    """Boards of 64 lots, divided in several ways, with every place tried by both houses; and 65, which are refused."""
    commands = [f"{house} {command}" for place in range(66) for house in HOUSES
                for command in (f"read {place}", f"assign {place} 1 7", f"assign {place} 0 {place + 1}")]
    commands += ["ours list", "partner list"]
    for ours, theirs in ((64, 0), (0, 64), (63, 1), (1, 63), (40, 24), (3, 2)):
        lists = (22 * RECORDS)[:ours], (32 * THEIRS)[:theirs]
        expect(f"{ours} and {theirs} lots", board(*files_of_two(folder, *lists), text=text_of(commands)), Lots(*lists).answers(commands))
    for ours, theirs in ((64, 1), (1, 64), (65, 0), (0, 65), (40, 25), (3200, 3200)):
        paths = files_of_two(folder, ours * RECORDS[:1], theirs * THEIRS[:1])
        said = f"refusal 16: {REASONS[16]}: they have {ours} and {theirs}, {ours + theirs - 64} too many"
        expect(f"{ours} and {theirs} lots", board(*paths, text=b"list\n"), b"", f"cradlekeel: {paths[0]} and {paths[1]}: {said}\n".encode(), 1)


OWNED = {"ours": "ours", "partner": "the partner's"}


def check_party(folder):
    """With --party a run is one house's, and no line may name a house."""
    paths = files_of_two(folder)
    commands = ("list", "read 0", "read 2", "read 3", "read 4", "read 5", "assign 0 0 1", "assign 3 0 2", "assign 0 0 3", "assign 3 0 4", "list")
    expect("ours without a second file", board("--party", "ours", paths[0], text=b"list\n"), Lots(RECORDS).answer("list"))
    for house in HOUSES:
        expected = Lots(RECORDS, THEIRS, house).answers(commands)
        for words in (["--party", house, *paths], [*paths, f"--party={house}"]):
            expect(f"the view of {house}", board(*words, text=text_of(commands)), expected)
        for named in HOUSES:
            said = f"line 1: '{named}' names a house, and with --party {house} every command is {OWNED[house]}: leave the word out"
            for line in (f"{named} read 0", f"{named} list", named, f"{named} {named}"):
                ran = board("--party", house, *paths, text=f"{line}\nlist\n".encode())
                expect(line, ran, b"8\n" + Lots(RECORDS, THEIRS, house).answer("list"), f"cradlekeel: {said}\n".encode(), 1)


def check_isolation(folder):
    """What a house sees is the same whatever lots the other has, so long as the partner's places stay where they are, and whatever the
    other's commands between its own are."""
    own = 3 * ["read 0", "read 3", "assign 0 0 1", "assign 3 0 2", "assign 4 1 3", "read 9"]
    for house, other, lists in (("ours", "partner", ([], THEIRS, 61 * THEIRS[:1])), ("partner", "ours", (RECORDS, 3 * THEIRS[:1]))):
        expected = Lots(RECORDS, THEIRS, house).answers([*own, "list"])
        check("a stale stamp is told", b"\n18 1\n" in expected, expected)
        for records in lists:
            paths = files_of_two(folder, *((RECORDS, records) if house == "ours" else (records, THEIRS)))
            expect(f"what {house} sees", board("--party", house, *paths, text=text_of([*own, "list"])), expected)
            both = [line for k, each in enumerate(own) for line in (f"{other} assign {k % 6} 0 {k}", f"{house} {each}")]
            lines = board(*paths, text=text_of([*both, f"{house} list"])).stdout.splitlines(True)
            found = b"".join([*lines[1:2 * len(own):2], *lines[2 * len(own):]])
            check(f"what {house} sees between the other's commands", found == expected, found)


BAD_HOUSES = {  # lines, each with what is said of it
    "ours": "after 'ours' a command is to be named: there are read, assign, list, help, as in ours read 0",
    "partner": "after 'partner' a command is to be named: there are read, assign, list, help, as in partner read 0",
    "partner ours read 0": "'ours' is not a command: there are read, assign, list, help, each after ours or partner",
    "theirs read 0": "'theirs' is not a command: there are read, assign, list, help, each after ours or partner",
    "Partner read 3": "'Partner' is not a command: there are read, assign, list, help, each after ours or partner",
    "read 3": "read names no house, and two share the board: begin with ours or partner, as in ours read 3",
    "list": "list names no house, and two share the board: begin with ours or partner, as in ours list",
    "assign 0 0 5": "assign names no house, and two share the board: begin with ours or partner, as in ours assign 0 0 5",
    "ours list partner": "list takes no words after it and here has 1: list; a house is named before the command",
    "partner 3": "'3' is not a command: there are read, assign, list, help, each after ours or partner",
    "partner read": "read takes 1 word after it and here has none: read PLACE, as in read 0",
    "partner assign 3 65536 1": "STAMP is '65536', which is not a whole number from 0 to 65535, as in assign 0 0 4711",
    "partner # a comment": "'#' is not a command: there are read, assign, list, help, each after ours or partner",
}


def check_bad_houses(folder):
    paths = files_of_two(folder)
    for line, fault in BAD_HOUSES.items():
        ran = board(*paths, text=f"{line}\npartner list\n".encode())
        expect(line, ran, b"8\n" + Lots(RECORDS, THEIRS).answer("partner list"), f"cradlekeel: line 1: {fault}\n".encode(), 1)


def check_histories_of_two(folder):
    """Random commands of both houses, all that is printed compared."""
    paths = files_of_two(folder)
    for seed in range(2):
        dice, lots, commands, answers = Dice(f"two houses {seed}"), Lots(RECORDS, THEIRS), [], b""
        for _ in range(3000):
            commands.append(dice.pick(("ours ", "partner ")) + random_command(dice, lots, 5))
            answers += lots.answer(commands[-1])
        check("they are stored and refused", min(map(lots.stamp, range(5))) > 20 and b"\n18 " in answers and b"\n17\n" in answers, lots.board)
        expect(f"history {seed} of two houses", board(*paths, text=text_of(commands)), answers)


# --- Lines ------------------------------------------------------------------------------------------------------------


def check_lines(folder):
    """Spaces, tabs, carriage returns, a byte order mark, leading zeros, empty lines, comments, and a last line without a newline."""
    path = file_in(folder)
    read, stored = Lots(RECORDS).answers(["read 0"]), b"0\n"
    for text, answers in (
            (b"read 0", read), (b"read 0\n\n\n", read), (b"\n \n\t\n\r\nread 0\n", read), (b"  read\t 0 \t\n", read),
            (b"read 0\r\nread 0\r\n", 2 * read),
            (codecs.BOM_UTF8 + b"read 0\nread 0\n", 2 * read), (codecs.BOM_UTF8 + b"\r\nread 0\r\n", read), (codecs.BOM_UTF8, b""),
            (codecs.BOM_UTF8 + b" # read 0\nread 0\n", read), (codecs.BOM_UTF8 + b"read" + 995 * b" " + b"0\n", read),
            (b"# read 0\n#read 0\n   # list\n#\nread 0\n#", read), (b"read " + 995 * b"0" + b"\n", read),
            (b"assign 0000 " + 400 * b"0" + b" " + 400 * b"0" + b"7\n", stored),
            (b"#" + 200_000 * b"x" + b"\nread 0\n" + 900 * b" " + b"#" + 70_000 * b"y" + b"\nread 0", 2 * read),
            (b"read" + 995 * b" " + b"0\n", read), (10_000 * b"read 0\n", 10_000 * read), (3000 * b"\n", b"")):
        expect(f"{text[:40]}", board(path, text=text), answers)


BAD_LINES = {  # each with what is said of it
    "asign 0 0 1": "'asign' is not a command: there are read, assign, list, help",
    "READ 0": "'READ' is not a command: there are read, assign, list, help",
    "quit": "'quit' is not a command: there are read, assign, list, help",
    "read\r0": "'read\\r0' is not a command: there are read, assign, list, help",
    "read\f0": "'read\\x0c0' is not a command: there are read, assign, list, help",
    "read\v0": "'read\\x0b0' is not a command: there are read, assign, list, help",
    "read": "read takes 1 word after it and here has none: read PLACE, as in read 0",
    "read 0 1": "read takes 1 word after it and here has 2: read PLACE, as in read 0",
    "read 0 # a lot": "read takes 1 word after it and here has 4: read PLACE, as in read 0; a comment has a line of its own",
    "list #all": "list takes no words after it and here has 1: list; a comment has a line of its own",
    "assign": "assign takes 3 words after it and here has none: assign PLACE STAMP JOB, as in assign 0 0 4711",
    "assign 0 4711": "assign takes 3 words after it and here has 2: assign PLACE STAMP JOB, as in assign 0 0 4711",
    "assign 0 0 4711 2": "assign takes 3 words after it and here has 4: assign PLACE STAMP JOB, as in assign 0 0 4711",
    "list 0": "list takes no words after it and here has 1: list",
    "help read": "help takes no words after it and here has 1: help",
    "read x": PLACE.format("'x'", "read 0"), "read -1": PLACE.format("'-1'", "read 0"), "read +1": PLACE.format("'+1'", "read 0"),
    "read 1.0": PLACE.format("'1.0'", "read 0"), "read 0x1": PLACE.format("'0x1'", "read 0"), "read 1_0": PLACE.format("'1_0'", "read 0"),
    "read 1,000": PLACE.format("'1,000'", "read 0"), "read ²": PLACE.format(r"'\xb2'", "read 0"), "read ٣": PLACE.format(r"'\u0663'", "read 0"),
    f"read -{900 * '1'}": PLACE.format(f"'-{39 * '1'}..'", "read 0"), "assign x 0 1": PLACE.format("'x'", "assign 0 0 4711"),
    "assign 0 65536 1": "STAMP is '65536', which is not a whole number from 0 to 65535, as in assign 0 0 4711",
    f"assign 9 {900 * '1'} 1": f"STAMP is '{40 * '1'}..', which is not a whole number from 0 to 65535, as in assign 0 0 4711",
    "assign 0 -1 1": "STAMP is '-1', which is not a whole number from 0 to 65535, as in assign 0 0 4711",
    "assign 0 0 4294967296": "JOB is '4294967296', which is not a whole number from 0 to 4294967295, as in assign 0 0 4711",
    "assign 0 0 job": "JOB is 'job', which is not a whole number from 0 to 4294967295, as in assign 0 0 4711",
    "read\0 0": r"'read\x00' is not a command: there are read, assign, list, help",
    "läs 0": r"'l\xe4s' is not a command: there are read, assign, list, help",
    "\ufeffread 0": r"'\ufeffread' is not a command: there are read, assign, list, help",  # a byte order mark in a later line
    "\x1b[31mred": r"'\x1b[31mred' is not a command: there are read, assign, list, help",
    "read" + 996 * " " + "0": "a line of over 1000 bytes is longer than any command",
    1001 * " ": "a line of over 1000 bytes is longer than any command",
    300_000 * "x": "a line of over 1000 bytes is longer than any command",
    70_000 * " " + "read 0": "a line of over 1000 bytes is longer than any command",
    1000 * " " + "# too far": "a line of over 1000 bytes is longer than any command",
}


def check_bad_lines(folder):
    """A line that is not understood is answered by 8, named by its number and told what is right; the board stays and the run goes on."""
    path = file_in(folder)
    for line, fault in BAD_LINES.items():
        text = f"assign 0 0 5\n# a comment\n\n{line}\nlist\n".encode()
        good, (stored, listed) = Lots(RECORDS), (["assign 0 0 5"], ["list"])
        answers = good.answers(stored) + b"8\n" + good.answers(listed)
        expect(f"{line[:40]}", board(path, text=text), answers, f"cradlekeel: line 4: {fault}\n".encode(), 1)
    said = "".join(f"cradlekeel: line {number}: {fault}\n" for number, fault in enumerate(BAD_LINES.values(), 1)).encode()
    expect("all of them", board(path, text="\n".join(BAD_LINES).encode()), len(BAD_LINES) * b"8\n", said, 1)
    too_long = b"cradlekeel: line 1: a line of over 1000 bytes is longer than any command\n"
    expect("a line too long after a byte order mark", board(path, text=codecs.BOM_UTF8 + b"read" + 996 * b" " + b"0"), b"8\n", too_long, 1)
    halves = r'{ printf "\357\273\277read%1200s"; sleep 0.5; echo 0; } | "$0" board day.rec'
    expect("one that comes in two parts", shell(halves, cwd=folder), b"8\n", too_long, 1)
    expect("bytes that are no text", board(path, text=b"\xff\xfe\n"), b"8\n",
           b"cradlekeel: line 1: '\\ufffd\\ufffd' is not a command: there are read, assign, list, help\n", 1)
    ran = shell('printf "read 0\\nx\\nread 1\\n" | "$0" board day.rec 2>&1', cwd=folder)
    first, last = Lots(RECORDS).answers(["read 0"]), Lots(RECORDS).answers(["read 1"])
    said = f"cradlekeel: line 2: {BAD_LINES['quit'].replace('quit', 'x')}\n".encode()
    expect("a message stands after its own answer", ran, first + b"8\n" + said + last, status=1)


def check_help_line(folder):
    ran = board(file_in(folder), text=b"help\nread 0\n")
    lines = ran.stdout.decode().splitlines()
    check("help", len(lines) > 4 and not ran.stderr and ran.returncode == 0 and lines[-1].encode() + b"\n" == Lots(RECORDS).answers(["read 0"]), ran)
    for name in ("read PLACE ", "assign PLACE STAMP JOB ", "list ", "help "):
        check(f"help has {name}", any(line.startswith(name) for line in lines), ran)
    for words in (("partner help",), ("ours help",)):
        expect(f"{words[0]} is the same", board(file_in(folder), text=text_of(words)), b"".join(ran.stdout.splitlines(True)[:-1]))
    expect("help of one house is the same", board("--party", "ours", file_in(folder), text=b"help"), b"".join(ran.stdout.splitlines(True)[:-1]))
    paths, whose = files_of_two(folder), b"Every command is ours.\n"
    check("help says whose commands are", whose in ran.stdout, ran)
    for words, said in (((), b"A command but help begins with the house in whose name it is made, ours or partner, as in partner read 3.\n"),
                        (("--party", "partner"), b"Every command is the partner's.\n")):
        expect(f"help of {words}", board(*words, *paths, text=b"help"), b"".join(ran.stdout.splitlines(True)[:-1]).replace(whose, said))
    told = board("--help").stdout.decode().splitlines()
    for number in (8, 17, 18, 19):
        check(f"help says {number} as --help does", [f"  {line}" in told for line in lines if line.startswith(f"{number} ")] == [True], ran)
    check("help fits a terminal", max(map(len, lines)) <= 132, ran)


# --- Files ------------------------------------------------------------------------------------------------------------


def check_files(folder):
    """A file that is not loaded is named with the reason, and no command is read."""
    file_in(folder, (30 * RECORDS)[:65], "65.rec")
    file_in(folder, 3200 * RECORDS[:1], "3200.rec")
    file_in(folder, 3201 * RECORDS[:1], "3201.rec")
    file_in(folder, 3600 * RECORDS[:1], "3600.rec", record_files.EARLIER)
    file_in(folder, 3601 * RECORDS[:1], "3601.rec", record_files.EARLIER)
    (folder / "cut.rec").write_bytes(record_files.file_of(RECORDS)[:-1])
    (folder / "empty.rec").write_bytes(b"")
    (folder / "long.rec").write_bytes(bytes(1_310_709))
    commands = folder / "commands"
    commands.write_bytes(text_of(BOTH))
    refused = {"65.rec": 16, "3200.rec": 16, "3600.rec": 16, "3201.rec": 11, "3601.rec": 11, "cut.rec": 14, "empty.rec": 13}
    said = {name: f"refusal {number}: {REASONS[number]}" for name, number in refused.items()}
    for name in ("65.rec", "3200.rec", "3600.rec"):
        said[name] += f": it has {name.removesuffix('.rec')}; docs/BOARD.md tells how to make several files of it"
    said |= {"missing.rec": "No such file or directory", ".": "Is a directory", "long.rec": "over 1,310,708 bytes, longer than any record file"}
    file_in(folder)
    for name, why in said.items():
        two = [[name, "day.rec"], ["day.rec", name], [name, "missing.rec"]] if name not in ("65.rec", "3200.rec", "3600.rec") else []
        for names in ([name], *two):
            with commands.open("rb") as given:
                ran = subprocess.run([COMMAND, "board", *names], stdin=given, capture_output=True, timeout=PATIENCE, cwd=folder)
                expect(f"{names}", ran, b"", f"cradlekeel: {name}: {why}\n".encode(), 1)
                check(f"{names}: no command is read", os.lseek(given.fileno(), 0, os.SEEK_CUR) == 0, "something")


# --- Line by line -----------------------------------------------------------------------------------------------------


def check_talk(folder):
    """A script that waits for each answer gets it at once, also that to half a line once its other half has come."""
    lots, pipes = Lots(RECORDS), {"stdin": subprocess.PIPE, "stdout": subprocess.PIPE, "stderr": subprocess.PIPE}
    with subprocess.Popen([COMMAND, "board", file_in(folder)], bufsize=0, **pipes) as process:
        for command in 3 * BOTH:
            answer = lots.answers([command])
            process.stdin.write(f"# a comment\n{command}\n".encode())
            check(f"the answer to {command}", process.stdout.read(len(answer)) == answer, answer)
        process.stdin.write(b"\nrea")
        process.stdin.write(b"d 2\nnothing\nrea")
        answer = lots.answers(["read 2"])
        check("a line in two parts", process.stdout.read(len(answer) + 2) == answer + b"8\n", answer)
        told = process.stderr.read(len(b"cradlekeel: line 45: 'nothing'"))
        check("a message comes at once too", told == b"cradlekeel: line 45: 'nothing'", told)
        process.stdin.write(b"d 2")
        process.stdin.close()
        check("the last line", process.stdout.read() == answer and process.wait(PATIENCE) == 1, process.returncode)


def check_writes(folder):
    """Commands that one read has brought are answered before the next, by one write where the answers are short; a long output is not
    kept to the end."""
    counted = "import os, sys; from cradlekeel import __main__; real, calls = os.write, []; " \
              "os.write = lambda *given: (calls.append(given[0]), real(*given))[1]; __main__.main(sys.argv[1:]); sys.exit(calls.count(1))"
    variables, path = {**os.environ, "PYTHONPATH": str(ROOT / "python")}, file_in(folder)
    commands = folder / "commands"
    for text, least, most in ((20 * b"read 0\n", 1, 1), (b"# nothing\n", 0, 0), (1000 * b"list\n", 2, 4)):
        commands.write_bytes(text)
        with commands.open("rb") as given, open(os.devnull, "wb") as nowhere:
            ran = subprocess.run([sys.executable, "-B", "-c", counted, "board", path], stdin=given, stdout=nowhere, env=variables, timeout=PATIENCE)
        check(f"{text[:9]}: writes", least <= ran.returncode <= most, ran)


def typed(words, text):
    """What stands on a terminal where a board is run there and this is typed, and the exit status."""
    own, theirs = pty.openpty()
    attributes = termios.tcgetattr(theirs)
    attributes[3] &= ~termios.ECHO
    attributes[1] &= ~termios.OPOST
    termios.tcsetattr(theirs, termios.TCSANOW, attributes)
    with subprocess.Popen([COMMAND, "board", *words], stdin=theirs, stdout=theirs, stderr=theirs) as process:
        os.close(theirs)
        os.write(own, text + b"\x04")
        found = b""
        try:
            while block := os.read(own, 4096):
                found += block
        except OSError:  # the other side is closed
            pass
        process.wait(PATIENCE)
    os.close(own)
    return found.decode(), process.returncode


def check_terminal(folder):
    """On a terminal a refusal, and that a job is stored, is said in words after its number, and an unknown word is told how to end; without
    one they are not."""
    path, lots = file_in(folder), Lots(RECORDS)
    found, status = typed([path], b"assign 0 0 5\nassign 0 0 6\nassign 0 1 0\nread 9\nread\nquit\n")
    check("it ends at Ctrl-D", status == 1, status)
    answers = (("", f"{path}: 3 lots; help has the commands, and Ctrl-D ends"), ("0\n", "stored; the lot's stamp is now 1"),
               ("18 1\n", f"refusal 18: {REASONS[18]}"), ("0\n", "stored; the lot's stamp is now 2"), ("17\n", f"refusal 17: {REASONS[17]}"),
               ("8\n", f"line 5: {BAD_LINES['read']}"), ("8\n", f"line 6: {BAD_LINES['quit']}; Ctrl-D ends"))
    check("what stands there", found == "".join(f"{answer}cradlekeel: {said}\n" for answer, said in answers), found)
    commands = ["assign 0 1 5", "read 9", "assign 0 0 5"]
    expect("a pipe has numbers only", board(path, text=text_of(commands)), lots.answers(commands))


def check_greetings(folder):
    """A terminal is told how many lots each house has; a run of one house only of its own. What is told of its commands is as ever."""
    ours, theirs = files_of_two(folder)
    alone, none = file_in(folder, RECORDS[:1], "one.rec"), file_in(folder, [], "none.rec")
    for words, lots in (
            ([alone], f"{alone}: 1 lot"), ([ours, theirs], f"{ours}: 3 lots, ours, from place 0; {theirs}: 2 lots, the partner's, from place 3"),
            ([alone, none], f"{alone}: 1 lot, ours, from place 0; {none}: 0 lots, the partner's"),
            (["--party", "ours", ours, theirs], f"{ours}: 3 lots, ours, from place 0"),
            (["--party", "partner", ours, theirs], f"{theirs}: 2 lots, the partner's, from place 3")):
        found = typed(words, b"")
        check(f"the greeting of {words}", found == (f"cradlekeel: {lots}; help has the commands, and Ctrl-D ends\n", 0), found)
    found, status = typed([ours, theirs], b"partner read 0\npartner assign 3 0 5\nours\n")
    said = (f"17\ncradlekeel: refusal 17: {REASONS[17]}\n0\ncradlekeel: stored; the lot's stamp is now 1\n"
            f"8\ncradlekeel: line 3: {BAD_HOUSES['ours']}; Ctrl-D ends\n")
    check("what is told of commands", found.partition("\n")[2] == said and status == 1, found)


# --- Input and output that fail ---------------------------------------------------------------------------------------


def check_input(folder):
    """Where the input cannot be read to its end, what was read is answered, and a line that was cut off is not run."""
    path, no_read = file_in(folder), b"cradlekeel: cannot read standard input: "
    for sign in ("<&-", "</"):
        expect(f"standard input {sign}", shell(f'"$0" board day.rec {sign}', cwd=folder), b"", no_read + b"Bad file descriptor\n", 1)
    expect("a failure that cannot be told", shell('"$0" board day.rec </ 2>&-', cwd=folder), status=1)
    ran = shell('"$0" board day.rec 2>&-', b"x\nread 0\n", cwd=folder)
    expect("without a standard error", ran, b"8\n" + Lots(RECORDS).answers(["read 0"]), status=1)
    read_end, write_end = os.pipe()
    os.set_blocking(read_end, False)
    os.write(write_end, b"read 0\nassign 0 0 5\nread 0")
    ran = subprocess.run([COMMAND, "board", path], stdin=read_end, capture_output=True, timeout=PATIENCE)
    answers = Lots(RECORDS).answers(["read 0", "assign 0 0 5"])
    expect("a pipe that has nothing more yet and does not wait", ran, answers, no_read + b"Resource temporarily unavailable\n", 1)
    os.close(read_end)
    os.close(write_end)


def check_output(folder):
    path, no_write = file_in(folder), b"cradlekeel: cannot write standard output: "
    full, closed = no_write + b"No space left on device\n", no_write + b"Bad file descriptor\n"
    for words in ("day.rec", "--help"):
        expect("a full disk", shell(f'"$0" board {words} >/dev/full', b"list\n", cwd=folder), said=full, status=1)
        expect("a closed standard output", shell(f'"$0" board {words} >&-', b"list\n", cwd=folder), said=closed, status=1)
    expect("more input to come", shell('yes list | "$0" board day.rec >/dev/full', cwd=folder), said=full, status=1)
    expect("nothing to write to a closed output", shell('"$0" board day.rec >&-', b"# nothing\n", cwd=folder))
    with (folder / "answers").open("wb") as answers:
        words = [COMMAND, "board", path]
        ran = subprocess.run(words, input=b"list\n", stdout=answers, stderr=subprocess.PIPE, timeout=PATIENCE, preexec_fn=no_large_files)
    check("a disk that fills up", (ran.returncode, ran.stderr) == (1, no_write + b"File too large\n"), ran)
    read_end, write_end = os.pipe()
    os.close(read_end)
    ran = subprocess.run([COMMAND, "board", path], input=b"list\n", stdout=write_end, stderr=subprocess.PIPE, timeout=PATIENCE)
    check("a reader that is gone", (ran.returncode, ran.stderr) == (-signal.SIGPIPE, b""), ran)
    os.close(write_end)
    ran = shell('yes read 1 | "$0" board day.rec | head -1; echo ${PIPESTATUS[1]}', cwd=folder)
    expect("a reader that leaves after a line", ran, Lots(RECORDS).answers(["read 1"]) + b"141\n")


def check_stopped(folder):
    for stop in (signal.SIGINT, signal.SIGTERM, signal.SIGHUP):
        pipes = {"stdin": subprocess.PIPE, "stdout": subprocess.PIPE, "stderr": subprocess.PIPE}
        with subprocess.Popen([COMMAND, "board", file_in(folder)], start_new_session=True, bufsize=0, **pipes) as process:
            process.stdin.write(b"assign 0 0 1\n")
            process.stdout.read(2)
            os.killpg(process.pid, stop)
            said = process.stderr.read()
            check(f"{stop.name}", (process.wait(PATIENCE), said) == (-stop, b""), (process.returncode, said))
    check("no other file is there", os.listdir(folder) == ["day.rec"], os.listdir(folder))
    check("nothing is stored", (folder / "day.rec").read_bytes() == record_files.file_of(RECORDS), "another file")


# --- Usage and builds -------------------------------------------------------------------------------------------------

WRONG_USAGE = {(): "no file is named", ("a", "b", "c"): "more than two files are named", ("",): "no file is named",
               ("", ""): "no file is named", ("a", ""): "the name of a file is empty", ("", "a"): "the name of a file is empty",
               ("-",): "'-' is not the name of a file: standard input has the commands",
               ("a", "-"): "'-' is not the name of a file: standard input has the commands",
               ("--party", "theirs", "a"): "--party: 'theirs' is neither ours nor partner",
               ("--party=", "a"): "--party: '' is neither ours nor partner",
               ("--party", "ours"): "no file is named", ("a", "--party"): "option --party requires argument",
               ("--party", "partner", "a"): "--party partner: no file of the partner's is named, which is the second",
               ("--party", "ours", "a", "--party=partner"): "--party is given twice, as 'ours' and as 'partner'",
               ("--kelvin", "a"): "option --kelvin not recognized", ("-k", "a"): "option -k not recognized"}


def check_usage(folder):
    for word in ("-h", "--help"):
        ran = board("a", word, cwd=folder)
        lines = ran.stdout.decode().splitlines()
        usage = "usage: cradlekeel board [--party ours|partner] OURS [THEIRS] < COMMANDS"
        check(f"board {word}", lines[0] == usage and not ran.stderr and not ran.returncode, ran)
        options = {"  --party HOUSE    ours or partner: every command is made in the name of this house, whose file is named", "  -h, --help       this text"}
        check(f"board {word}: options and statuses", options <= set(lines) and "Exit status: 0" in ran.stdout.decode(), ran)
        check(f"board {word}: lines that a terminal shows", max(map(len, lines)) <= 132, max(map(len, lines)))
        for words in ("lives as long as the command", "Two runs are two boards"):
            check(f"board {word}: {words}", words in ran.stdout.decode(), ran)
    for words, fault in WRONG_USAGE.items():
        expect(f"board {words}", board(*words, cwd=folder), b"", f"cradlekeel: {fault}; see cradlekeel board --help\n".encode(), 2)
    check("nothing is made", not os.listdir(folder), os.listdir(folder))


def check_missing(folder):
    """Without a library, or with another one, nothing is read."""
    for named, words in (("/none.so", b"there is no such file"), (_ctypes.__file__, b"has no function ck_")):
        ran = run(["-B", "-m", "cradlekeel", "board", file_in(folder)], text_of(BOTH), sys.executable,
                  env={**os.environ, "PYTHONPATH": str(ROOT / "python"), "CRADLEKEEL_LIBRARY": named})
        check(f"{named} as the library", (ran.returncode, ran.stdout) == (2, b"") and words in ran.stderr, ran)


def check_copy(folder):
    copy, path = Copy(folder), file_in(folder)
    ran = run(["board", path], text_of(BOTH), copy.command, **copy.options("fail"))
    check("a build that fails", ran.returncode == 2 and not ran.stdout and b"rt: FAILED: text" in ran.stderr, ran)
    for asked, status in ((["board", "--help"], 0), (["board"], 2)):
        ran = run(asked, command=copy.command, **copy.options())
        check(f"{asked} needs nothing", ran.returncode == status and not copy.runs.read_text(), ran)
    copy.check_run("a first run builds the library", 1, ["board", path], text_of(BOTH), PRINTED)
    copy.check_run("a second run builds nothing", 0, ["board", path], text_of(BOTH), PRINTED)


PARTS = (check_commands, check_boards, check_histories, check_last_stamp, check_houses, check_limits_of_two, check_party, check_isolation,
         check_bad_houses, check_histories_of_two, check_lines, check_bad_lines, check_help_line, check_files, check_talk, check_writes,
         check_terminal, check_greetings, check_input, check_output, check_stopped, check_usage, check_missing, check_copy)
