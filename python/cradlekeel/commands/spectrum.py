"""usage: cradlekeel spectrum [--steps N] [--edges K,K,..] [--clip] FILE..

Prints what the spectrum in each file comes to, a line for each with the file's name in front: its correlated colour
temperature, its Duv, the range to which the search has narrowed the temperature, and its class; or a refusal and the
reason. A FILE of - is standard input.

A file has two columns, wavelength in whole nm and value in any unit, one row for each sample. The wavelengths rise by one
equal step; those outside 360 to 830 nm are left out. A comma, a semicolon, a tab or spaces stand between the columns; with
a semicolon or a tab, a comma in a number is a decimal comma. Empty lines and lines that begin with # are skipped, and so are
lines above the first row, unless they begin with a number or a digit. A file that lacks part of 400 to 700 nm, or whose step
is over 20 nm, is answered with a warning: light that was not measured counts as dark.

  --steps N       search at most N steps, the finest and the default being 14
  --edges K,K,..  the class edges in kelvin, 2 to 32 from 1600 to 20001, rising; class 0 is from the first to the second,
                  and so on; without it, 1600,2500,3500,5000,20001
  --clip          count values below zero as 0; without it, a file that has one is not answered
  -h, --help      this text

Examples:
  cradlekeel spectrum lamp.csv
  cradlekeel spectrum --edges 2500,3000,4000,6500 *.csv
  cut -d, -f1,3 table.csv | cradlekeel spectrum --clip -     (of three columns, the first and the third)

The values are scaled so that the largest is 16777215 and rounded to whole numbers; this scaling is not proved, what the
library makes of the numbers is. The observer is CIE's 2-degree standard observer of 1931. The first run of bin/cradlekeel
spectrum proves and builds the library (make lib, many minutes where nothing is proved yet); later ones start at once.

Exit status: 0 every file is answered, a refusal being an answer; 1 a file could not be read or has a bad row, which a
message on standard error names, or standard output could not be written; 2 wrong usage, or the library is missing.
"""

import codecs
import io
import re
from decimal import Decimal
from typing import NamedTuple

from .. import STEPS, BadSpectrum, BelowZero, Refusal, read_spectrum
from . import BadFile, WrongUsage, bytes_of, each_file, options_of, say, shown, whole_number, write_out
from ._edges import edges_of

NUMBER = re.compile(r"[+-]?(?:[0-9]+\.?[0-9]*|\.[0-9]+)(?:[eE][+-]?[0-9]{1,3})?")
LONGEST_NUMBER = 100  # characters
LEAST_FIRST, LEAST_LAST, LARGEST_STEP = 400, 700, 20  # in nm: less of the spectrum, or a coarser step, is warned of


class Row(NamedTuple):
    line: int  # its number in the file
    wavelength: int
    value: Decimal


def run(words):
    """Answers each file that the words name."""
    options, names = options_of(words, ["steps=", "edges=", "clip"])
    if not names:
        raise WrongUsage("no file is named")
    steps = whole_number("--steps", options["--steps"]) if "--steps" in options else STEPS
    edges = edges_of(options)
    return each_file(names, lambda name: answer_file(name, edges, steps, "--clip" in options))


def answer_file(name, edges, steps, clip):
    """Prints the answer to a file, and says where it has too little of the visible light."""
    rows = rows_of(name)
    write_out(f"{name}: {answer(name, rows, edges, steps, clip)}\n")
    warn_of_gaps(name, rows)


def answer(name, rows, edges, steps, clip):
    """The answer to the spectrum in a file, or its refusal, in words."""
    values = [max(row.value, 0) if clip else row.value for row in rows]
    try:
        return str(read_spectrum([row.wavelength for row in rows], values, edges, steps))
    except Refusal as refusal:
        return str(refusal)
    except BadSpectrum as error:
        where = name if error.index is None else f"{name}:{rows[error.index].line}"
        raise BadFile(f"{where}: {error}{'; --clip counts it as 0' if isinstance(error, BelowZero) else ''}") from None


def warn_of_gaps(name, rows):
    """Says where a spectrum, of which an answer was given, has too little of the visible light."""
    first, last = rows[0].wavelength, rows[-1].wavelength
    if first > LEAST_FIRST or last < LEAST_LAST:
        say(f"warning: {name}: {first} to {last} nm is not all of {LEAST_FIRST} to {LEAST_LAST} nm; light beyond it counts as dark")
    elif rows[1].wavelength - first > LARGEST_STEP:
        say(f"warning: {name}: a step of {rows[1].wavelength - first} nm is over {LARGEST_STEP} nm; light between the rows does not count")


def rows_of(name):
    """The rows of a file, without empty lines, comments and what stands above the first row."""
    rows = []
    for line, fields in enumerate(map(fields_of, io.StringIO(text_of(name), newline=None)), 1):
        if not fields or fields[0].startswith("#") or not rows and is_heading(fields[0]):
            continue
        try:
            rows.append(Row(line, *row_of(fields)))
        except ValueError as error:
            hint = "" if rows else "; a # before a line has it skipped"
            raise BadFile(f"{name}:{line}: {error}{hint}") from None
    if not rows:
        raise BadFile(f"{name}: no line begins with a wavelength")
    return rows


def text_of(name):
    """The text of a file in UTF-8, or in UTF-16 where its first bytes say so."""
    held = bytes_of(name)
    wide = held.startswith((codecs.BOM_UTF16_LE, codecs.BOM_UTF16_BE))
    return held.decode("utf-16" if wide else "utf-8-sig", "replace")


def is_heading(field):
    """Whether a line above the first row begins with this; one that begins with a digit is a row, if perhaps a bad one."""
    return number(field) is None and not field[:1].isdigit()


def fields_of(line):
    """What stands between the separators, without quotation marks and without what is empty at the end; tabs and spaces separate
    however many there are."""
    separator = ";" if ";" in line else "," if "," in line and "\t" not in line else None
    fields = [field.strip(' \t\n"') for field in line.split(separator)]
    while fields and not fields[-1]:
        fields.pop()
    return fields


def row_of(fields):
    """The wavelength and the value of a row."""
    wavelength = number(fields[0])
    if wavelength is None or wavelength != int(wavelength):
        raise ValueError(f"{shown(fields[0])} is not a wavelength in whole nm")
    if len(fields) != 2:
        raise ValueError(f"a row has two columns, wavelength and value, and this one has {len(fields)}")
    value = number(fields[1])
    if value is None:
        raise ValueError(f"{shown(fields[1])} is not a number")
    return int(wavelength), value


def number(field):
    """Exactly the number that a field says; None where it says none."""
    text = field.replace(",", ".")
    return Decimal(text) if len(text) <= LONGEST_NUMBER and NUMBER.fullmatch(text) else None
