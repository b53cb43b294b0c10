"""usage: cradlekeel show [--kelvin] FILE..

Prints the records of record files, as cradlekeel save keeps them, one to a line and file after file:

  u v place low high duv steps class

u, v and duv are in units of 0.000001. place, low and high are positions on the blackbody locus, and the temperature at a
place is 103360000 / place kelvin. A class of - is none. A FILE of - is standard input. docs/FILES.md has the format.
Files from before, with records of 18 bytes instead of 20, are shown too.

  --kelvin      the temperature at the place too, as a ninth column, in kelvin with one decimal; - where the place is 0
  -h, --help    this text

Examples:
  cradlekeel show --kelvin monday.rec
  cradlekeel show *.rec | wc -l                  (how many records)
  cradlekeel show monday.rec | awk '{ print $1, $2, 14 }' | cradlekeel      (the readings, answered again at 14 steps)

The class edges are not in the file: those of cradlekeel save are 1600, 2500, 3500, 5000 and 20001 K, and a file of another
program may have been made with others. Only the form of a file is checked: what its records say is printed as it is, and
damage inside a record is not noticed. A file that cannot be read is named on standard error with the reason and, where it
is refused, the number of its refusal, and the others are still shown:

  refusal 13: the file is shorter than 8 bytes, 14: it does not tell at its end that a record has 18 or 20 bytes,
  15: its length, or the distance at its end, does not fit the count and length of its records,
  11: it has more than 3200 records, or more than 3600 of 18 bytes

A missing file or a folder has no number, nor has what is over 1,310,708 bytes: no trailer can tell of so many records, and it
is not read to its end.

The first run of bin/cradlekeel show proves and builds the library (make lib, many minutes where
nothing is proved yet); later ones start at once.

Exit status: 0 every file is shown; 1 a file could not be read, or standard output not be written; 2 wrong usage, or the
library is missing.
"""

from .. import Refusal, check_file, read_records
from ..readings import KELVIN_PLACES, NO_CLASS
from ..records import RECORD_BYTES, TRAILER_BYTES
from . import BadFile, WrongUsage, bytes_of, each_file, options_of, write_out

LONGEST = 65_535 * RECORD_BYTES + TRAILER_BYTES  # bytes: a trailer can tell of no more records, and they are never longer


def run(words):
    """Shows each file that the words name."""
    options, names = options_of(words, ["kelvin"])
    if not names:
        raise WrongUsage("no file is named")
    worded = with_kelvin if "--kelvin" in options else line_of
    return each_file(names, lambda name: write_out("".join(f"{worded(record)}\n" for record in records_of(name))))


def records_of(name):
    """The records of a file."""
    return read_records(file_of(name))


def file_of(name):
    """The bytes of a record file."""
    held = bytes_of(name, LONGEST + 1)
    if len(held) > LONGEST:
        raise BadFile(f"{name}: over {LONGEST:,} bytes, longer than any record file")
    try:
        check_file(held)
    except Refusal as refusal:
        raise BadFile(f"{name}: {refusal}") from None
    return held


def line_of(record):
    *numbers, class_index = record
    return " ".join(map(str, (*numbers, shown_class(class_index))))


def with_kelvin(record):
    return f"{line_of(record)} {kelvin_at(record.place)}"


def shown_class(class_index):
    return "-" if class_index == NO_CLASS else str(class_index)


def kelvin_at(place):
    return f"{KELVIN_PLACES / place:.1f}" if place else "-"  # a file may hold any number
