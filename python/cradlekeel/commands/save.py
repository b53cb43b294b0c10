"""usage: cradlekeel save [--replace] FILE < LINES

Prints what cradlekeel < LINES prints, answer by answer as they come, and keeps every accepted one with u and v of its line in
FILE, a record file, in the order of the lines. What is refused or cannot be read is printed and not kept. cradlekeel --help
tells of lines and answers, cradlekeel show prints a record file, and docs/FILES.md has its format.

  --replace     write FILE even if it exists; without it, such a file is left alone and nothing is read
  -h, --help    this text

Examples:
  cradlekeel save monday.rec < lines.txt
  cradlekeel save --replace monday.rec < lines.txt > answers.txt

FILE is written once all lines are answered, whole or not at all, by way of a temporary file .cradlekeel-.. in the same folder. It
holds at most 3200 records: refusal 11 is said as soon as there are more, and none is kept; docs/FILES.md shows how to keep more
in several files. Where no line is accepted FILE is not written either. With --replace a link is followed, the file keeps its
mode, and one that may not be written, or is no regular file, is left alone. The command says nothing where all went well;
cradlekeel show FILE | wc -l counts what was kept.

The first run of bin/cradlekeel save proves and builds the program and the library (many minutes where nothing
is proved yet); later ones start at once.

Exit status: 0 every line is answered and FILE is written; 1 standard input could not be read, standard output or FILE not be
written, FILE exists, no line was accepted, or more than 3200 were; 2 wrong usage, or the program or the library is missing;
141 the reader of the answers went away, as `head` does. With all but 0 FILE is as it was, unless the message says that it is
written: what could not be printed is not kept.
"""

import os
import signal
import subprocess
from collections import deque
from threading import Thread

from .. import Record, Refusal, to_bytes
from .._library import ROOT
from ..readings import NO_CLASS
from ..records import MOST_WRITTEN
from . import ANSWERED, BLOCK, FAILED, BadFile, Failed, WrongUsage, options_of, say, write_out
from ._whole_file import check_place, write_whole

PROGRAM = ROOT / "target/cradlekeel"
ACCEPTED = b"0 "


def run(words):
    """Answers standard input and keeps what was accepted in the file that the words name."""
    options, names = options_of(words, ["replace"])
    if len(names) != 1:
        raise WrongUsage("more than one file is named" if names else "no file is named")
    (name,), replace = names, "--replace" in options
    if name in ("", "-"):
        raise WrongUsage(f"'{name}' is not the name of a file: standard output has the answers")
    to_bytes([])  # a library that is missing is told before anything is read
    check_place(name, replace)
    kept = Kept(name)
    answer_lines(kept)
    if kept.refused:
        return FAILED
    if not kept.records:
        raise BadFile(f"{name}: {none_accepted(kept.lines)}, so nothing is kept")
    write_whole(name, to_bytes(kept.records), replace)
    return ANSWERED


def none_accepted(lines):
    """Why there is no record, by how many lines there are."""
    few = ("there is no line", "the one line has no accepted answer")
    return few[lines] if lines < len(few) else f"none of the {lines} lines has an accepted answer"


class Kept:
    """How many lines there are, and the records of those that are accepted. With one more than a file holds they are refused, which
    is said at once, and no further one is kept."""

    def __init__(self, name):
        self.name, self.lines, self.records, self.refused = name, 0, [], False

    def take(self, line, answer):
        """Keeps a line whose answer is `0 place low high duv steps class`."""
        self.lines += 1
        if self.refused or not answer.startswith(ACCEPTED):
            return
        u, v = line.split()[:2]
        *numbers, class_index = answer.removeprefix(ACCEPTED).split()
        self.records.append(Record(int(u), int(v), *map(int, numbers), NO_CLASS if class_index == b"-" else int(class_index)))
        if len(self.records) > MOST_WRITTEN:
            self.refuse()

    def refuse(self):
        """Says why no file can have so many records."""
        self.refused = True
        try:
            to_bytes(self.records)
        except Refusal as refusal:
            say(f"{self.name}: {refusal}; nothing is kept, and the answers go on")


class Feeder(Thread):
    """Hands standard input to the program and keeps the lines that are not answered yet."""

    def __init__(self, pipe):
        super().__init__(daemon=True)
        self.pipe, self.lines, self.fault, self.ended = pipe, deque(), None, False

    def run(self):
        signal.pthread_sigmask(signal.SIG_BLOCK, signal.valid_signals())  # they are for the main thread
        try:
            for block in whole_lines():
                self.lines.extend(block.removesuffix(b"\n").split(b"\n"))
                while block:
                    block = block[self.pipe.write(block):]
        except (BrokenPipeError, ValueError):  # the program is gone, or its pipe is closed, as `ended` tells
            return
        except OSError as error:
            self.fault = error
        self.ended = True
        self.pipe.close()

    def next_line(self):
        """The line to which the next answer belongs."""
        if not self.lines:
            raise Failed("the program has answered more lines than there are")
        return self.lines.popleft()


def whole_lines():
    """Standard input in blocks of whole lines as they come, and the last line without its newline: a line whose end cannot be read is
    left out. What a line has beyond a block is dropped, since no line over 32 bytes can be read."""
    rest = b""
    while block := os.read(0, BLOCK):
        lines, newline, rest = (rest[:BLOCK] + block).rpartition(b"\n")
        if newline:
            yield lines + newline
    if rest:
        yield rest


def answer_lines(kept):
    """Has the program answer standard input, prints what it prints and keeps what it accepts."""
    if not PROGRAM.is_file():
        raise OSError(f"the program is not built: there is no {PROGRAM}; bin/cradlekeel save builds it")
    rest = b""
    pipes = {"stdin": subprocess.PIPE, "stdout": subprocess.PIPE, "stderr": subprocess.PIPE, "bufsize": 0}
    with subprocess.Popen([PROGRAM], **pipes) as process:
        feeder = Feeder(process.stdin)
        feeder.start()
        while printed := process.stdout.read(BLOCK):
            write_out(printed)
            *answers, rest = (rest + printed).split(b"\n")
            for answer in answers:
                kept.take(feeder.next_line(), answer)
        said = process.stderr.read()
    if feeder.fault:
        raise Failed(f"cannot read standard input: {feeder.fault.strerror}")
    if process.returncode or said or rest or feeder.lines or not feeder.ended:
        raise Failed(f"the program has not answered every line; its exit status is {process.returncode} {said.decode()}".rstrip())
