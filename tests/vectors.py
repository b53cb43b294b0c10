"""Every vector in the order of the file, and what the reference expects of a line."""

import answer_cases
import below_zero_cases
import board_cases
import board_lines
import coarse_cases
import compare_cases
import compare_lines
import convert_cases
import core_cases
import record_cases
import record_lines
import root_cases
import salvage_cases
import salvage_lines
import sample_cases
import sample_lists

SECTIONS = (convert_cases, core_cases, answer_cases, sample_cases, below_zero_cases, record_cases, root_cases, board_cases,
            compare_cases, salvage_cases, coarse_cases)
CORE_KINDS = ("point", "points", "entry", "search", "class", "edges")
# Those that are about the columns and the files held.
FILE_KINDS = record_cases.KINDS + board_cases.KINDS + compare_lines.KINDS + salvage_lines.KINDS


def kind_of(line):
    """The first word, and for an answer and a coarse reading the second too."""
    words = line.split()
    return " ".join(words[:2] if words[0] in ("answer", "coarse") else words[:1])


def lines():
    return [line for section in SECTIONS for line in section.lines()]


def with_held(lines):
    """Each line with what is held when it is answered: for record files, boards, comparisons and salvage the columns and the files, for
    any other line the four lists of samples and tables."""
    lists, files = sample_lists.Lists(), record_lines.Held()
    for line in lines:
        if kind_of(line) in FILE_KINDS:
            files = record_lines.held_after(line, files)
            yield line, files
        else:
            lists = sample_lists.held_after(line, lists)
            yield line, lists


def expected(line, held):
    kind = kind_of(line)
    if kind in record_cases.KINDS:
        return record_lines.expected(line, held)
    if kind in board_cases.KINDS:
        return board_lines.expected(line, held)
    if kind in compare_lines.KINDS:
        return compare_lines.expected(line, held)
    if kind in salvage_lines.KINDS:
        return salvage_lines.expected(line, held)
    if kind in sample_cases.KINDS:
        return sample_cases.expected(line, held)
    if kind in CORE_KINDS:
        return core_cases.expected(line)
    if kind in root_cases.KINDS:
        return root_cases.expected(line)
    if kind in coarse_cases.KINDS:
        return coarse_cases.expected(line)
    return (answer_cases if kind.startswith("answer ") else convert_cases).expected(line)
