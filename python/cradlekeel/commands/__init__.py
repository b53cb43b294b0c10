"""What the commands of `python3 -m cradlekeel` share: each is a module here whose docstring is its help and whose
`run(words)` takes the words after its name and returns the exit status."""

import getopt
import os
import re

BLOCK = 1 << 16  # bytes that are read at once
ANSWERED, FAILED, NOT_RUN = 0, 1, 2  # exit statuses: 1 where a file, or a line of commands, could not be taken, 2 for wrong usage or no library


class HelpAsked(Exception):
    """The help of a command is asked for."""


class WrongUsage(Exception):
    """Words that a command does not take."""


class Failed(Exception):
    """Standard input that cannot be read, standard output that cannot be written, or a program that fails: the command ends here."""


class BadFile(Exception):
    """A file that cannot be read or written, or does not hold what it should; the message begins with its name."""


def write_out(text):
    """Writes text or bytes to standard output at once; a file name that cannot be decoded keeps its bytes."""
    try:
        write_all(1, os.fsencode(text))
    except OSError as error:
        raise Failed(f"cannot write standard output: {error.strerror}") from None


def say(text):
    """Writes a message to standard error; where that cannot be written, nothing is left to tell it to."""
    try:
        write_all(2, os.fsencode(f"cradlekeel: {text}\n"))
    except OSError:
        pass


def write_all(descriptor, held):
    """Writes bytes, however many times the system wants to be asked."""
    while held:
        held = held[os.write(descriptor, held):]


def shown(text):
    """A part of a file or a line as a message shows it, in ASCII and not without end."""
    return ascii(text if len(text) <= 40 else text[:40] + "..")


def counted(count, noun):
    return f"{count} {noun}{'' if count == 1 else 's'}"


def options_of(words, names):
    """The options among the words, by name, and the other words; a name that ends with `=` takes a value."""
    try:
        options, others = getopt.gnu_getopt(words, "h", ["help", *names])
    except getopt.GetoptError as error:
        raise WrongUsage(error.msg) from None
    if {"-h", "--help"} & {name for name, _ in options}:
        raise HelpAsked
    given = dict(options)
    for name, value in options:
        if value != given[name]:
            raise WrongUsage(f"{name} is given twice, as {shown(value)} and as {shown(given[name])}")
    return given, others


def whole_number(option, text):
    """The value of an option as a whole number that the library can take."""
    if not re.fullmatch("[0-9]{1,10}", text) or int(text) >= 2**32:
        raise WrongUsage(f"{option}: '{text}' is not a whole number from 0 to 4294967295")
    return int(text)


def each_file(names, work):
    """Does the work for each file and returns the exit status; a file that is at fault is told of, and the others are still done."""
    status = ANSWERED
    for name in names:
        try:
            work(name)
        except BadFile as error:
            say(error)
            status = FAILED
    return status


def bytes_of(name, most=None):
    """All that a file holds, or so many bytes of it, `-` being standard input; a read that fails is an error, so that no file is taken
    to end early."""
    try:
        if name == "-":
            return _read_all(0, most)
        descriptor = os.open(name, os.O_RDONLY)
        try:
            return _read_all(descriptor, most)
        finally:
            os.close(descriptor)
    except OSError as error:
        raise BadFile(f"{name}: {error.strerror}") from None


def _read_all(descriptor, most):
    blocks, length = [], 0
    while block := os.read(descriptor, BLOCK if most is None else min(BLOCK, most - length)):
        blocks.append(block)
        length += len(block)
    return b"".join(blocks)
