"""usage: cradlekeel compare [--plain] FIRST SECOND

Prints where two record files, as cradlekeel save keeps them, differ: a line for each field in which they do, by record and then by
field, with what FIRST has and what SECOND has; then a line for each record that only one of them has; and then one line that sums
up:

  record 3: place 23112 | 23256 (4472.1 K | 4444.4 K)
  record 12: duv 340 | 352
  record 12: class 2 | -
  record 14: only in SECOND
  2 records differ in 3 fields; 1 only in SECOND

Where only their counts differ, that line is as in "14 records are the same; 1 only in SECOND". Where nothing differs, it is all:

  no differences in 14 records

Record 0 of FIRST, its first accepted line, is compared with record 0 of SECOND and so on, by their numbers u, v, place, low, high,
duv, steps and class. u, v and duv are in units of 0.000001. place, low and high are positions on the blackbody locus, low the hot
end of the range and high the cool one, and have the temperature in kelvin beside them, or - for a place of 0. A class of - is none.
Either file may be from before, with records of 18 bytes instead of 20: where the numbers are the same, nothing differs. One of the
files may be -, standard input. In these lines a name that has a control character is in quotes, with escapes.

  --plain       four numbers to a line and no other line: record, field, what FIRST has and what SECOND has; fields are 0 u, 1 v,
                2 place, 3 low, 4 high, 5 duv, 6 steps and 7 class, of which 255 is none; a record that only one file has is
                8 (FIRST) or 9 (SECOND), with two zeros
  -h, --help    this text

Examples:
  cradlekeel compare bench.rec desk.rec
  cradlekeel compare --plain bench.rec desk.rec | awk '$2 == 7 { print $1 }'      (the records whose class differs)
  cradlekeel compare bench.rec desk.rec | tail -n 1                               (the summary alone)

A line that was refused for one file only has no record there, and every record after it is compared with its neighbour. Where many
differ from one record on, look for that line with diff, in bash: diff <(cradlekeel show bench.rec) <(cradlekeel show desk.rec)

A file that cannot be read is named on standard error with the reason and, where it is refused, its number, as by cradlekeel show,
and nothing is printed; where neither can be read, the first is named. The first run of bin/cradlekeel compare proves and builds the
library (make lib, many minutes where nothing is proved yet); later ones start at once.

Exit status, as of cmp and diff: 0 both files have the same records; 1 they differ; 2 a file could not be read, standard output not
be written, wrong usage, or the library is missing; 141 the reader of the lines went away, as `head` does.
"""

import os
import re

from .. import ONLY_FIRST, check_file, compare_files
from . import WrongUsage, counted, options_of, write_out
from .show import file_of, kelvin_at, shown_class

SAME, DIFFERENT = 0, 1  # exit statuses
PLACES = "place", "low", "high"
CONTROL = re.compile("[\0-\x1f\x7f-\x9f\udc80-\udc9f]")  # control characters, and bytes that a terminal may take for one


def run(words):
    """Prints the differences of the two files that the words name."""
    options, names = options_of(words, ["plain"])
    if len(names) != 2 or not all(names):
        raise WrongUsage("two files are to be named, as in cradlekeel compare bench.rec desk.rec")
    if names == ["-", "-"]:
        raise WrongUsage("'-' is standard input, which can be one of the two files and not both")
    files = list(map(file_of, names))  # the first is at fault before the second is looked at
    differences = compare_files(*files)
    if "--plain" in options:
        lines = [" ".join(map(str, difference)) for difference in differences]
    else:
        in_both = min(map(check_file, files))
        lines = [*(worded(difference, names) for difference in differences), summary(differences, in_both, names)]
    write_out("".join(f"{line}\n" for line in lines))
    return DIFFERENT if differences else SAME


def worded(difference, names):
    """A difference as people read it."""
    record, field, *contents = difference
    if field >= ONLY_FIRST:
        return f"record {record}: {only_in(field, names)}"
    name = difference.field_name
    first, second = map(shown_class, contents) if name == "class" else contents
    kelvin = " ({} | {})".format(*map(with_unit, contents)) if name in PLACES else ""
    return f"record {record}: {name} {first} | {second}{kelvin}"


def with_unit(place):
    return f"{kelvin_at(place)} K" if place else kelvin_at(place)


def only_in(field, names):
    return f"only in {called(names[field - ONLY_FIRST])}"


def called(name):
    """A file's name as it is, or, where a control character would break a line or reach a terminal, in quotes with its bytes in ASCII."""
    if name == "-":
        return "standard input"
    return repr(os.fsencode(name))[1:] if CONTROL.search(name) else name


def summary(differences, in_both, names):
    """The line that sums up the differences of two files that both have so many records."""
    if not differences:
        return f"no differences in {counted(in_both, 'record')}"
    differing = [record for record, field, *_ in differences if field < ONLY_FIRST]
    if records := len(set(differing)):
        line = f"{counted(records, 'record')} {'differs' if records == 1 else 'differ'} in {counted(len(differing), 'field')}"
    elif in_both:
        line = f"{counted(in_both, 'record')} {'is' if in_both == 1 else 'are'} the same"
    else:
        line = "no record is in both"
    extra = len(differences) - len(differing)
    return f"{line}; {extra} {only_in(differences[-1].field, names)}" if extra else line
