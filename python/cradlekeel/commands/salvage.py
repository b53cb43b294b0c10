"""usage: cradlekeel salvage [--length 18|20] [--edges K,K,..] [--dropped] [--replace] BROKEN NEW

Writes NEW, a good record file, of what can be kept of BROKEN, a record file that was left without its end, as by a full disk, or
is damaged. BROKEN is only read. The command says on standard output what was kept and what was dropped:

  read as records of 20 bytes: 143 kept, 7 dropped, 12 bytes left over; as records of 18 bytes, none would be kept
  dropped: 3-5, 17, 140-142

From its first byte on BROKEN is taken as records of one length, as many as are whole. A record is kept exactly when it is what
cradlekeel answers now to its u and v, with these class edges and as many steps as it says; any other is dropped. The kept ones
stay in their order. The second line has the numbers that the dropped ones have in BROKEN, counted from 0; without --dropped at
most ten runs of numbers are told, and how many records there are beyond. Where the last two whole records or more are dropped, a
third line says from which record on none is kept. Left over are the bytes after the last whole record; of a file that is not
broken, by its own record length, these are the 8 of its trailer. docs/FILES.md tells what a salvage can know and what it cannot,
and what to do with dropped records.

  --length 18|20  how many bytes a record has in BROKEN: 20 or, in a file from before, 18; without it both are tried and the one
                  that keeps more is taken, 20 where both keep as many
  --edges K,K,..  the class edges in kelvin with which BROKEN was made, 2 to 32 from 1600 to 20001, rising; without it those of
                  cradlekeel save, 1600,2500,3500,5000,20001
  --dropped       list the numbers of all dropped records, one to a line, in place of the second line and the third; this also
                  where none is kept
  --replace       write NEW even if it exists; without it, such a file is left alone and nothing is read
  -h, --help      this text

Examples:
  cradlekeel salvage broken.rec monday.rec
  cradlekeel salvage --dropped broken.rec monday.rec | tail -n +2 > dropped.txt
  head -c 57600 broken.rec | cradlekeel salvage --length 18 - first.rec      (the first 3200 records of 18 bytes)

A BROKEN of - is standard input. It may be longer than any record file, and all of it is read. NEW is never BROKEN, not by another
name either; but from a pipe the command cannot tell which file the bytes came from. NEW is written whole or not at all, as by
cradlekeel save; then the command says what was kept. NEW holds at most 3200 records: where more would be kept the salvage is
refused with 11. Where none would be kept NEW is not written, and a message says what the reason may be.

The first run of bin/cradlekeel salvage proves and builds the library (make lib, many minutes where
nothing is proved yet); later ones start at once.

Exit status: 0 NEW is written, whether records were dropped or not; 1 BROKEN could not be read, no record of it or more than 3200
would be kept, NEW exists or could not be written, or standard output not be written; 2 wrong usage, or the library is missing;
141 the reader of the lines went away, as `head` does, and NEW is written. With 1 and 2 NEW is as it was, unless the message says
that it is written.
"""

import os
import signal
import stat
from bisect import bisect_left
from collections import deque
from contextlib import contextmanager
from itertools import groupby, islice

from .. import Refusal, salvage
from ..records import MOST_WRITTEN
from ..salvages import RECORD_LENGTHS
from . import ANSWERED, BadFile, Failed, WrongUsage, bytes_of, counted, options_of, say, write_out
from ._edges import edges_of
from ._whole_file import check_place, is_same, named, write_whole

FEW = 10  # runs of dropped numbers that are told without --dropped
TOO_MANY_RECORDS = 11  # the refusal where more would be kept than a file holds
LENGTH_REASON = "another record length (--length)"
REASONS = ("other class edges (--edges), answers of an earlier Cradlekeel, first bytes that are lost, "
           "or it is no record file or damaged throughout")  # why nothing is kept of whole records


def run(words):
    """Salvages the broken file that the words name to the new one, and tells what was kept and what was not."""
    options, names = options_of(words, ["length=", "edges=", "dropped", "replace"])
    lengths, replace, with_all = lengths_of(options), "--replace" in options, "--dropped" in options
    broken, new = names_of(names)
    edges = edges_of(options)
    check_broken(broken)
    check_place(new, replace, {} if broken == "-" else {broken: "the broken file"})
    with in_memory(broken):
        tried = salvaged_by(broken, lengths, edges)
        length = max(tried, key=lambda each: kept_in(tried[each]))
        check_most(broken, new, tried, length)
        text = told(tried, length, with_all)
    if not tried[length].kept:
        if with_all:
            list_all(text)
        raise BadFile(f"{broken}: {none_kept(tried)}, so {new} is not written{why_none(tried)}")
    write_whole(new, tried[length].file, replace)
    tell(new, text)
    return ANSWERED


def names_of(words):
    """The names of the broken file and of the new one."""
    if len(words) != 2:
        raise WrongUsage("two files are to be named, as in cradlekeel salvage broken.rec new.rec")
    if not all(words):
        raise WrongUsage("a file name is empty")
    broken, new = words
    if new == "-":
        raise WrongUsage("'-' is not the name of a new file: standard output tells what was kept")
    return broken, new


def lengths_of(options):
    """The record lengths to try; of those that keep as many the first is taken."""
    if "--length" not in options:
        return RECORD_LENGTHS
    lengths = [length for length in RECORD_LENGTHS if options["--length"] == str(length)]
    if not lengths:
        raise WrongUsage(f"--length: '{options['--length']}' is neither 18 nor 20")
    return lengths


def check_broken(name):
    """Whether there is a file to read that has an end and is not changed by what is told."""
    with named(name):
        found = os.stat(0 if name == "-" else name)
    if stat.S_ISCHR(found.st_mode) or stat.S_ISBLK(found.st_mode):
        raise BadFile(f"{name}: it is a device, which is not salvaged")
    if stat.S_ISREG(found.st_mode) and is_same(1, found):
        raise BadFile(f"{name}: it is standard output itself")


@contextmanager
def in_memory(name):
    """What is done with the bytes of a file before anything is written; a message where memory has no room for it."""
    try:
        yield
    except MemoryError:
        raise BadFile(f"{name}: it is longer than memory has room for") from None


def salvaged_by(name, lengths, edges):
    """What the file comes to with each record length."""
    held = bytes_of(name)
    return {length: salvaged(held, length, edges) for length in lengths}


def salvaged(held, length, edges):
    """What bytes come to with a record length, or the refusal where more would be kept than a file holds."""
    try:
        return salvage(held, length, edges)
    except Refusal as refusal:
        if refusal.number != TOO_MANY_RECORDS:
            raise
        return refusal


def kept_in(found):
    """How many records are kept; one more than a file holds where they are refused."""
    return MOST_WRITTEN + 1 if isinstance(found, Refusal) else found.kept


def check_most(broken, new, tried, length):
    """Whether the record length that keeps the most keeps no more records than a file holds."""
    if isinstance(tried[length], Refusal):
        raise BadFile(f"{broken}: refusal {tried[length].number}: more than {MOST_WRITTEN:,} records of {length} bytes would be kept, the most "
                      f"that a file holds, so {new} is not written; docs/FILES.md tells how to salvage them part by part")


def list_all(text):
    """Lists every number where nothing is kept; the message that follows is given even where that cannot be written."""
    signal.signal(signal.SIGPIPE, signal.SIG_IGN)  # the status 141 would say that the new file is written
    try:
        write_out(text)
    except Failed as error:
        say(error)


def none_kept(tried):
    """That nothing is kept: by which lengths no record is whole, and of how many records by the others."""
    whole = {length: f"{counted(len(found.dropped), 'record')} of {length} bytes" for length, found in tried.items() if found.dropped}
    nothing = f"nothing is kept of {' or '.join(whole.values())}"
    short = tried.keys() - whole.keys()
    if not short:
        return nothing
    leftover = tried[max(short)].leftover
    if not leftover:
        return "it is empty"
    of_length = f" of {max(short)} bytes" if len(short) == 1 else ""
    no_record = f"its {counted(leftover, 'byte')} {'is' if leftover == 1 else 'are'} no whole record{of_length}"
    return f"{no_record}, and {nothing}" if whole else no_record


def why_none(tried):
    """What the reason may be that nothing is kept; none is needed where no record is whole by either length."""
    found, *others = tried.values()
    is_whole = any(each.dropped for each in tried.values())
    by_length = not others and (is_whole or found.leftover >= min(RECORD_LENGTHS))
    reasons = [*([LENGTH_REASON] if by_length else []), *([REASONS] if is_whole else [])]
    return f"; the reason may be {', '.join(reasons)}" if reasons else ""


def tell(new, text):
    """Tells what was done; where that cannot be written the file is there all the same, which the message says."""
    try:
        write_out(text)
    except Failed as error:
        raise Failed(f"{error}; {new} is written") from None


def told(tried, length, with_all):
    """The lines about what was kept and what was not, as bytes, so that nothing more is made once the new file is written."""
    found = tried[length]
    lines = [summary(tried, length), *(found.dropped if with_all else [*told_in_short(found.dropped), *told_of_end(found)])]
    return "".join(f"{line}\n" for line in lines).encode()


def summary(tried, length):
    """What one record length came to, and why it was taken where another was tried."""
    found = tried[length]
    line = f"read as records of {length} bytes: {found.kept} kept, {len(found.dropped)} dropped, {counted(found.leftover, 'byte')} left over"
    others = [f"; as records of {other} bytes, {less(kept_in(tried[other]), found.kept)} would be kept" for other in tried if other != length]
    return line + "".join(others)


def less(count, most):
    """How a count is told beside the greatest one."""
    return "none" if not count else "as many" if count == most else f"only {count}"


def told_in_short(dropped):
    """A line with the first runs of the dropped numbers, and how many there are beyond; no line where none is dropped."""
    runs = list(islice(runs_of(dropped), FEW))
    if not runs:
        return []
    beyond = len(dropped) - sum(last - first + 1 for first, last in runs)
    first_runs = ", ".join(str(first) if first == last else f"{first}-{last}" for first, last in runs)
    more = f", and {counted(beyond, 'record')} more, which --dropped lists" if beyond else ""
    return [f"dropped: {first_runs}{more}"]


def told_of_end(found):
    """A line where two records or more are dropped after the last kept one; else no line."""
    numbers = found.dropped
    at = bisect_left(range(len(numbers)), found.kept, key=lambda k: numbers[k] - k)  # as many are kept before the k-th dropped one
    if len(numbers) - at < 2:
        return []
    return [f"from record {numbers[at]} on none is kept: bytes may be lost or added there, see docs/FILES.md"]


def runs_of(numbers):
    """The first and the last of each run of rising numbers in which every one follows the one before."""
    for _, run in groupby(enumerate(numbers), lambda pair: pair[1] - pair[0]):
        _, first = next(run)
        last = deque(run, maxlen=1)
        yield first, last[0][1] if last else first
