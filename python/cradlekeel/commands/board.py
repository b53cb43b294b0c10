"""usage: cradlekeel board [--party ours|partner] OURS [THEIRS] < COMMANDS

Loads a board from a record file, as cradlekeel save keeps them: record 0 at place 0 and so on, each lot with stamp 0 and job 0,
which is none. A reading that was refused has no record and so no place. THEIRS is a partner house's file, whose lots have the
places behind ours. Then runs the commands of standard input, one to a line, and answers each by a line that begins with the number
of its refusal, 0 for none:

  read PLACE                0 PLACE STAMP JOB u v place low high duv steps class
  assign PLACE STAMP JOB    0
  list                      a line for each lot of the house as read has it, and then 0 lots COUNT
  help                      these commands, in several lines

With THEIRS a command begins with the house in whose name it is made, as in partner read 3 or ours list; without it a command is
ours. A house reads, assigns and lists its own lots only: a place of the other is to it as one without a lot, 17. With --party all
commands are made in the name of that house, and a line that names one is not understood: so the answers are those of one house, for
it to see.

To assign a lot, name the stamp that you saw with it. It goes up by one each time a job is stored, so that nothing which was stored
since is overwritten. The last eight numbers of a lot are its record, as cradlekeel show prints it; the place among them is the one
on the blackbody locus. A refused command leaves the board as it was. Its answer is the number alone, but for 18:

  8           the line is not understood; a message on standard error has its number and says what would be right
  17          the house has no lot at that place
  18 STAMP    the lot's current stamp is this one, not the one named: read the lot again, and then decide
  19          the stamp named is current and is 65535, the last: nothing more is stored there until the board is loaded anew

Spaces or tabs stand between words, and may stand before a command or a #. Empty lines and lines that begin with # have no answer;
a comment has a line of its own. A line of over 1,000 bytes is not understood; a comment may be longer. A stamp over 65535 or a job
over 4294967295 is not understood either. A last line without a newline is run as any other. Lines may end in CR LF, and a UTF-8
byte order mark before the first is skipped.

All lines that one read of standard input brings are answered before the next read, so a script that writes a line and waits gets
its answer at once. Where standard input is a terminal, a refusal is said in words too, and so is the stamp after a job is stored.

The board lives as long as the command. The files are only read, and nothing that is assigned is stored, there or anywhere else:
this is for trying a board, and for scripts that keep the command running. Two runs are two boards that know nothing of each other;
to share a board, all commands of a house go to one run. docs/BOARD.md shows how, and has an example with two dispatchers and one
with two houses.

  --party HOUSE    ours or partner: every command is made in the name of this house, whose file is named
  -h, --help       this text

Examples:
  cradlekeel board monday.rec                                       (type commands; Ctrl-D ends)
  printf 'assign 0 0 4711\\nlist\\n' | cradlekeel board monday.rec
  printf 'ours list\\npartner list\\n' | cradlekeel board monday.rec partner.rec
  echo list | cradlekeel board --party partner monday.rec partner.rec                        (what the partner's house sees)
  echo list | cradlekeel board monday.rec | awk '$2 != "lots" && $12 == 2 { print $2 }'      (the places of class 2)
  cradlekeel show --kelvin monday.rec | awk '{ print NR - 1, $0 }'                           (each place with its temperature)

The files have at most 64 records together, of 20 bytes or, from before, of 18; more are refused with 16, and docs/BOARD.md tells
how to make several files of one. THEIRS may be the file that OURS is. The first run of bin/cradlekeel board proves and builds the
library (make lib, many minutes where nothing is proved yet); later ones start at once.

Exit status: 0 every line was understood, a refusal being an answer; 1 a line was not understood, a file could not be loaded,
standard input not be read or standard output not be written, and a message on standard error says which; 2 wrong usage, or the
library is missing; 141 the reader of the answers went away, as `head` does.
"""

import codecs
import os
import re

from .. import Board, Party, Refusal
from ..boards import MOST_LOTS
from . import ANSWERED, BLOCK, FAILED, BadFile, Failed, WrongUsage, counted, options_of, say, shown, write_out
from .show import line_of, records_of

LARGEST = {"PLACE": 2**64 - 1, "STAMP": 2**16 - 1, "JOB": 2**32 - 1}  # that the library takes
TAKEN = {"read": ("PLACE",), "assign": ("PLACE", "STAMP", "JOB"), "list": (), "help": ()}  # by each command
EXAMPLES = {"read": "read 0", "assign": "assign 0 0 4711"}
HOUSES = {"ours": Party.OURS, "partner": Party.PARTNER}  # by the words that name them in a line and after --party
OWNED = {"ours": "ours", "partner": "the partner's"}
NOT_UNDERSTOOD, STALE_STAMP = 8, 18
LONGEST_LINE = 1000  # bytes, without a byte order mark; a comment may be longer

HELP = """\
read PLACE                the lot at a place: 0 PLACE STAMP JOB u v place low high duv steps class
assign PLACE STAMP JOB    gives the lot to a job, where the stamp is the lot's current one: 0
list                      a line for each lot of the house as read has it, and then: 0 lots COUNT
help                      these lines
{houses}A refused command leaves the board as it was. Its answer is the number alone, but for 18:
8           the line is not understood; a message on standard error has its number and says what would be right
17          the house has no lot at that place
18 STAMP    the lot's current stamp is this one, not the one named: read the lot again, and then decide
19          the stamp named is current and is 65535, the last: nothing more is stored there until the board is loaded anew
The end of input, Ctrl-D on a terminal, ends the board, and nothing of it is stored.
"""


class NotUnderstood(Exception):
    """A line that is no command; the message says what would be one."""


class NoSuchCommand(NotUnderstood):
    """A line whose first word names no command."""


def run(words):
    """Loads the files that the words name and runs the commands of standard input."""
    options, names = options_of(words, ["party="])
    house = options.get("--party")
    check_usage(house, names)
    board, is_typed = load(names), os.isatty(0)
    if is_typed:
        say(f"{greeting(board, house, names)}; help has the commands, and Ctrl-D ends")
    return Session(board, house, len(names) == len(HOUSES), is_typed).run()


def check_usage(house, names):
    if house not in (None, *HOUSES):
        raise WrongUsage(f"--party: {shown(house)} is neither {' nor '.join(HOUSES)}")
    if len(names) > len(HOUSES):
        raise WrongUsage("more than two files are named")
    if not all(names) or not names:
        raise WrongUsage("the name of a file is empty" if any(names) else "no file is named")
    if "-" in names:
        raise WrongUsage("'-' is not the name of a file: standard input has the commands")
    if house == "partner" and len(names) == 1:
        raise WrongUsage("--party partner: no file of the partner's is named, which is the second")


def load(names):
    """The board of our file and, where it is named, the partner's."""
    lists = list(map(records_of, names))  # the first is at fault before the second is looked at
    board, told = Board.load(*lists)
    if told.refusal:
        raise BadFile(f"{' and '.join(names)}: {Refusal(told.refusal)}: {too_many(list(map(len, lists)))}")
    return board


def too_many(counts):
    """How many records there are, and what to do about it."""
    if len(counts) == 1:
        return f"it has {counts[0]}; docs/BOARD.md tells how to make several files of it"
    return f"they have {counts[0]} and {counts[1]}, {sum(counts) - MOST_LOTS} too many"


def greeting(board, house, names):
    """How many lots there are: those of one house where it alone makes commands, and otherwise of each that has a file."""
    if house is None and len(names) == 1:
        return f"{names[0]}: {counted(len(board), 'lot')}"
    files = dict(zip(HOUSES, names))
    return "; ".join(lots_of_house(board, each, files[each]) for each in ([house] if house else HOUSES))


def lots_of_house(board, house, name):
    """How many lots a house has, whose they are, and where they begin."""
    places = board.places_of(HOUSES[house])
    begin = f", from place {places.start}" if places else ""
    return f"{name}: {counted(len(places), 'lot')}, {OWNED[house]}{begin}"


class Session:
    """A board, the house in whose name all commands are made, None where a line may name it, and must where the board is shared, and the
    answers that are not written yet."""

    def __init__(self, board, house, is_shared, is_typed):
        self.board, self.house, self.is_shared, self.is_typed = board, house, is_shared and house is None, is_typed
        self.status, self.held, self.length = ANSWERED, [], 0

    def run(self):
        """Answers standard input to its end and returns the exit status."""
        number = 0
        for lines in blocks_of_lines():
            for number, line in enumerate(lines, number + 1):
                self.run_line(number, line)
            self.write_held()
        return self.status

    def run_line(self, number, line):
        try:
            if words := words_of(line.removeprefix(codecs.BOM_UTF8) if number == 1 else line):
                party, words = party_of(self.house, self.is_shared, words)
                name, *numbers = command_of(words, ", each after ours or partner" if self.is_shared else "")
                getattr(self, name)(party, *numbers)
        except NotUnderstood as error:
            self.status = FAILED
            self.answer(f"{NOT_UNDERSTOOD}\n")
            self.say(f"line {number}: {error}{'; Ctrl-D ends' if self.is_typed and isinstance(error, NoSuchCommand) else ''}")

    def read(self, party, place):
        self.board, told = self.board.read(party, place)
        self.tell(told, "" if told.refusal else line_of_lot(place, told.lot))

    def assign(self, party, place, stamp, job):
        self.board, told = self.board.assign(party, place, stamp, job)
        self.tell(told, "0\n")
        if self.is_typed and not told.refusal:
            self.say(f"stored; the lot's stamp is now {stamp + 1}")

    def list(self, party):
        places = self.board.places_of(party)
        for place, lot in zip(places, self.board.lots_of(party)):
            self.answer(line_of_lot(place, lot))
        self.answer(f"0 lots {len(places)}\n")

    def help(self, party):
        self.answer(help_for(self.house, self.is_shared))

    def tell(self, told, answer):
        """Answers a command by this line, or by its refusal, which is said in words too to a person who types."""
        self.answer(refused(told) if told.refusal else answer)
        if told.refusal and self.is_typed:
            self.say(Refusal(told.refusal))

    def answer(self, text):
        """Holds an answer to be written with others, though not without end."""
        self.held.append(text)
        self.length += len(text)
        if self.length >= BLOCK:
            self.write_held()

    def write_held(self):
        held, self.held, self.length = "".join(self.held), [], 0
        write_out(held)

    def say(self, text):
        """Says something after the answer that it is about."""
        self.write_held()
        say(text)


def help_for(house, is_shared):
    """The lines of `help`, by whose the commands of the run are."""
    if is_shared:
        houses = "A command but help begins with the house in whose name it is made, ours or partner, as in partner read 3.\n"
    else:
        houses = f"Every command is {OWNED[house or 'ours']}.\n"
    return HELP.format(houses=houses)


def refused(told):
    return f"{told.refusal} {told.stamp}\n" if told.refusal == STALE_STAMP else f"{told.refusal}\n"


def line_of_lot(place, lot):
    return f"0 {place} {lot.stamp} {lot.job} {line_of(lot.record)}\n"


def blocks_of_lines():
    """The lines of standard input, those that one read has ended together, and the last one without its newline: a line whose end cannot
    be read is left out. Of a line that is too long no more is kept than shows that it is."""
    rest = b""
    while block := read_block():
        *lines, rest = (rest + block).split(b"\n")
        rest = rest[:len(codecs.BOM_UTF8) + LONGEST_LINE + 1]
        yield lines
    if rest:
        yield [rest]


def read_block():
    try:
        return os.read(0, BLOCK)
    except OSError as error:
        raise Failed(f"cannot read standard input: {error.strerror}") from None


def words_of(line):
    """The words of a line; none where it is empty or a comment."""
    if line[:LONGEST_LINE].lstrip().startswith(b"#"):
        return []
    if len(line) > LONGEST_LINE:
        raise NotUnderstood(f"a line of over {LONGEST_LINE} bytes is longer than any command")
    return [word.decode("utf-8", "replace") for word in re.split(rb"[ \t]+", line.removesuffix(b"\r")) if word]


def party_of(house, is_shared, words):
    """The party that makes a command, and the words without its name."""
    named, *others = words
    if named not in HOUSES:
        if is_shared and named in TAKEN and named != "help":
            raise NotUnderstood(f"{named} names no house, and two share the board: begin with ours or partner, as in ours {' '.join(words)}")
        return HOUSES[house or "ours"], words
    if house is not None:
        raise NotUnderstood(f"'{named}' names a house, and with --party {house} every command is {OWNED[house]}: leave the word out")
    if not others:
        raise NoSuchCommand(f"after '{named}' a command is to be named: there are {', '.join(TAKEN)}, as in {named} {EXAMPLES['read']}")
    return HOUSES[named], others


def command_of(words, houses):
    """The name and the numbers of a command; `houses` says where a house is to be named."""
    name, *others = words
    if name not in TAKEN:
        raise NoSuchCommand(f"{shown(name)} is not a command: there are {', '.join(TAKEN)}{houses}")
    taken, example = TAKEN[name], f", as in {EXAMPLES[name]}" if name in EXAMPLES else ""
    if len(others) != len(taken):
        hint = "; a comment has a line of its own" if any(word.startswith("#") for word in others) else ""
        hint = "; a house is named before the command" if HOUSES.keys() & set(others) else hint
        raise NotUnderstood(f"{name} takes {len(taken) or 'no'} word{'s' if len(taken) != 1 else ''} after it and here has "
                            f"{len(others) or 'none'}: {' '.join((name, *taken))}{example}{hint}")
    return name, *(number_of(word, text, example) for word, text in zip(taken, others))


def number_of(word, text, example):
    """The number that a word stands for, as the library takes it. A place beyond those is as the largest of them: no board has either."""
    number, largest = int(text) if re.fullmatch("[0-9]+", text) else None, LARGEST[word]
    if word == "PLACE":
        if number is None:
            raise NotUnderstood(f"PLACE is {shown(text)}, which is not a whole number; places are counted from 0{example}")
        return min(number, largest)
    if number is None or number > largest:
        raise NotUnderstood(f"{word} is {shown(text)}, which is not a whole number from 0 to {largest}{example}")
    return number
