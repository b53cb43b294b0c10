"""Tests the vectors: each wrong rule below is put into the reference in turn, and some committed vector must then change.

    python3 tests/check_wrong_rules.py      the rules that are caught, how many, and the names of those that are not

The first six are the mistakes that document 01 warns of; the others are near misses that its rules, and those of document 02,
leave room for. Those of spectral samples are tried on the vectors of samples, those of the locus on the vectors of places and of
the search, those of record files on the vectors of record files, those of the root on the vectors of roots, those of boards on the
vectors of boards, those of comparisons on the vectors of comparisons, those of salvage on the vectors of salvage, those of the ready
table on the vectors of ready points, and those of the locus too, those of the coarse reader on the vectors of coarse readings, and those of
checks too, those of the text program on the first lines of its committed input, then on more, and at last on all of it, and the others
on the vectors of none of these. Every core tries rules. A wrong rule with which the reference cannot go on shows nothing, and ends the
check."""

import re
import sys
from collections import Counter
from contextlib import contextmanager
from fractions import Fraction
from itertools import islice, zip_longest
from pathlib import Path
from types import ModuleType
from typing import Callable, NamedTuple

sys.dont_write_bytecode = True
sys.path.insert(0, str(Path(__file__).resolve().parent))

import board_cases
import board_table
import coarse_cases
import compare_lines
import every_core
import file_differences
import record_cases
import record_files
import record_lines
import reference as ref
import root_cases
import salvage_lines
import salvages
import sample_cases
import sample_lists
import vectors
from floats import exact_value, is_finite
from hard_floats import single_precision_product
from wrong_below_zero_rules import WRONG_BELOW_ZERO_RULES
from wrong_board_rules import WRONG_BOARD_RULES
from wrong_coarse_rules import CHECK_NAMES, TABLE_LOCUS_RULES, WRONG_COARSE_RULES, WRONG_TABLE_RULES
from wrong_compare_rules import WRONG_COMPARE_RULES, WRONG_FORM_RULES
from wrong_locus_rules import WRONG_LOCUS_RULES, halves_down
from wrong_record_rules import WRONG_RECORD_RULES
from wrong_root_rules import WRONG_ROOT_RULES, rounded_to_nearest
from wrong_salvage_rules import WRONG_SALVAGE_RULES
from wrong_sample_rules import WRONG_SAMPLE_RULES
from wrong_two_number_rules import WRONG_TWO_NUMBER_RULES

CRATES = Path(__file__).resolve().parent.parent / "crates"


def too_far_by_the_point_found(reading, admit=ref.admit):
    m = ref.nearest_entry(reading)
    found = ref.distance_at(reading, ref.found_after(reading, 14).nearest)
    if found <= ref.FARTHEST < ref.squared_distance(reading, ref.entry_point(m)):
        return m
    return admit(reading)


def limit_itself_too_far(reading, entry):
    return ref.squared_distance(reading, entry) >= ref.FARTHEST


def limit_in_u_and_in_v_alone(reading, entry):
    return max(map(abs, ref.minus(reading, entry))) ** 2 > ref.FARTHEST


def limit_by_the_whole_root(reading, entry):
    return ref.root(ref.squared_distance(reading, entry)) > ref.root(ref.FARTHEST)


def distance_kept_to(bits, signed=False):
    """The limit on a distance of which so few bits are kept."""
    def is_too_far(reading, entry):
        kept = ref.squared_distance(reading, entry) % 2**bits
        return kept - (2**bits if signed and kept >= 2 ** (bits - 1) else 0) > ref.FARTHEST
    return is_too_far


def class_of_the_nearest_point_alone(edges, found, classed=ref.class_of):
    return classed(edges, ref.Found(found.nearest, found.nearest, found.nearest))


def left_on_equal_distances(reading, a, b):
    return ref.distance_at(reading, a) <= ref.distance_at(reading, b)


def last_of_equally_near_points(reading, seen):
    return min(reversed(seen), key=lambda place: ref.distance_at(reading, place))


def named_class(edges, found, holds):
    """The first class for which `holds` is true of its two edges and each of the three temperatures."""
    kelvins = [ref.kelvin_at(place) for place in found]
    pairs = enumerate(zip(edges, edges[1:]))
    return next((j for j, (low, high) in pairs if all(holds(low, kelvin, high) for kelvin in kelvins)), ref.NO_CLASS)


def lower_edge_left_out(edges, found):
    return named_class(edges, found, lambda low, kelvin, high: low < kelvin < high)


def upper_edge_belongs(edges, found):
    return named_class(edges, found, lambda low, kelvin, high: low <= kelvin <= high)


def class_without_the_nearest_point(edges, found, classed=ref.class_of):
    return classed(edges, found._replace(nearest=found.o))


def kelvins_rounded_to_nearest(place, kelvin_at=ref.kelvin_at):
    return Fraction(ref.rounded(kelvin_at(place)))


def one_float_after_the_other(patterns, quantity):
    for bits in patterns:
        if not is_finite(bits):
            raise ref.Refused(ref.NOT_FINITE)
        if not ref.in_range(exact_value(bits), quantity):
            raise ref.Refused(ref.OUT_OF_RANGE)
    return [ref.whole_number(bits, quantity[0]) for bits in patterns]


def range_of_the_whole_number(patterns, quantity):
    if not all(is_finite(bits) for bits in patterns):
        raise ref.Refused(ref.NOT_FINITE)
    numbers = [ref.whole_number(bits, quantity[0]) for bits in patterns]
    if not all(0 <= number < quantity[0] * quantity[1] for number in numbers):
        raise ref.Refused(ref.OUT_OF_RANGE)
    return numbers


def highest_of_equal_entries(reading):
    return min(reversed(ref.ENTRIES), key=lambda i: ref.squared_distance(reading, ref.entry_point(i)))


def end_brackets_over_two_pieces(m, bracket=ref.bracket):
    return bracket(min(max(m, 2), 23))


def root_rounded_to_nearest(reading, place):
    root = rounded_to_nearest(ref.distance_at(reading, place))
    return root if reading[1] >= ref.locus_point(place)[1] else -root


def equal_v_is_negative(reading, place):
    root = ref.root(ref.distance_at(reading, place))
    return root if reading[1] > ref.locus_point(place)[1] else -root


def dot_of_zero_refused(p, q, dot=ref.dot):
    return dot(p, q) or -1


def never_behind(p, q):
    return 0


def last_point_not_looked_at(reading, steps):
    last = ref.stages(reading, steps)[-1]
    return ref.found_at(reading, last._replace(seen=last.seen[:-1]))


def edges_after_the_reading(kind, args, edges, allowance, answer=ref.answer):
    given = answer(kind, args, ref.TEXT_EDGES, allowance)
    return given if given.refusal else answer(kind, args, edges, allowance)


def carriage_return_ends_a_line(text, lines_of=ref.lines_of):
    return lines_of(text.replace(b"\r", b"\n"))


def carriage_return_before_the_newline_dropped(text, lines_of=ref.lines_of):
    return [line.removesuffix(b"\r") for line in lines_of(text)]


def final_newline_opens_a_line(text):
    return text.split(b"\n")


def last_line_needs_its_newline(text):
    return text.split(b"\n")[:-1]


def space_at_an_end_dropped(line, answer_line=ref.answer_line):
    return answer_line(line.strip(b" "))


def number_pattern(digits, between=b" "):
    number = b"([0-9]{%s})" % digits
    return re.compile(number + between + number + b"(?:" + between + number + b")?")


WRONG_RULES = (
    ("admit", too_far_by_the_point_found),
    ("class_of", class_of_the_nearest_point_alone),
    ("goes_left", left_on_equal_distances),
    ("nearest_seen", last_of_equally_near_points),
    ("whole_number", single_precision_product),
    ("class_of", lower_edge_left_out),
    ("class_of", upper_edge_belongs),
    ("class_of", class_without_the_nearest_point),
    ("kelvin_at", kelvins_rounded_to_nearest),
    ("whole_numbers", one_float_after_the_other),
    ("whole_numbers", range_of_the_whole_number),
    ("rounded", halves_down),
    ("nearest_entry", highest_of_equal_entries),
    ("bracket", end_brackets_over_two_pieces),
    ("signed_duv", root_rounded_to_nearest),
    ("signed_duv", equal_v_is_negative),
    ("dot", dot_of_zero_refused),
    ("dot", never_behind),
    ("found_after", last_point_not_looked_at),
    ("answer", edges_after_the_reading),
    ("MOST_STEPS", 13),
    ("FARTHEST", ref.FARTHEST - 1),
    ("FARTHEST", ref.FARTHEST + 1),
    ("FARTHEST", 900_000_000, "the limit before No. 8"),
    ("FARTHEST", 2**31 - 1, "the limit held to 31 bits"),
    *(("is_too_far", wrong) for wrong in (limit_itself_too_far, limit_in_u_and_in_v_alone, limit_by_the_whole_root)),
    ("is_too_far", distance_kept_to(32), "the distance kept to 32 bits"),
    ("is_too_far", distance_kept_to(32, signed=True), "the distance kept to 32 bits, signed"),
    ("DARK", ref.DARK + 1),
    ("DARK", ref.DARK - 1),
    ("WHOLE_LIMIT", ref.WHOLE_LIMIT - 1),
    ("WHOLE_LIMIT", ref.WHOLE_LIMIT + 1),
)
WRONG_TEXT_RULES = (
    ("lines_of", carriage_return_ends_a_line),
    ("lines_of", carriage_return_before_the_newline_dropped),
    ("lines_of", final_newline_opens_a_line),
    ("lines_of", last_line_needs_its_newline),
    ("answer_line", space_at_an_end_dropped),
    ("LINE", number_pattern(b"1,8"), "eight digits read"),
    ("LINE", number_pattern(b"1,6"), "seven digits not read"),
    ("LINE", number_pattern(b"1,7", b" +"), "several spaces between numbers"),
    ("TEXT_EDGES", (*ref.TEXT_EDGES[:-1], 20_000)),
)


def forget():
    """Nothing that was worked out of the reference before is used again."""
    for item in (*vars(ref).values(), *vars(salvages).values()):
        if hasattr(item, "cache_clear"):
            item.cache_clear()


@contextmanager
def put_in(part, name, wrong):
    """The reference, or its part for record files, boards, comparisons or salvage, with one wrong rule. What is worked out of the reference
    uses none of those parts."""
    right = getattr(part, name)
    setattr(part, name, wrong)
    if part is ref:
        forget()
    try:
        yield
    finally:
        setattr(part, name, right)
        if part is ref:
            forget()


PLACE_KINDS = ("point", "points")
READY_KINDS = coarse_cases.KINDS[:1]
COARSE_KINDS = coarse_cases.KINDS[1:]


def shown(line, held):
    """A vector's line; for spectral samples the lists that it is about too, and for record files, boards, comparisons and salvage the
    columns and the files."""
    kind, about = vectors.kind_of(line), []
    if kind in sample_cases.KINDS:
        about = [text.removeprefix("list ") for text in sample_lists.changes(sample_lists.Lists(), held)]
    if kind in vectors.FILE_KINDS:
        about = [text.removeprefix("column ") for text in record_lines.changes(record_lines.Held(), held)]
    return ", ".join([line, *about])


def first_caught(committed):
    """The first vector whose answer changes."""
    return next((shown(line, held) for line, held, answer in committed if vectors.expected(line, held) != answer), None)


def of_kinds(committed, holds):
    """The vectors for whose kind `holds` is true."""
    return [vector for vector in committed if holds(vectors.kind_of(vector[0]))]


def first_caught_text(texts):
    """The first input whose output changes, by the first of its lines that is answered otherwise."""
    for text, output in texts:
        found = ref.answer_text(text)
        if found != output:
            pairs = enumerate(zip_longest(found.split(b"\n"), output.split(b"\n")))
            at = next(k for k, (given, wanted) in pairs if given != wanted)
            return "line %d of %d, %r" % (at + 1, output.count(b"\n"), b"".join(text.split(b"\n")[at:at + 1]))
    return None


def committed_texts():
    """(input, output) of the text program for its first 16, 32, .. lines with their newlines, and at last for all of them."""
    text, output = ((CRATES / "cradlekeel" / name).read_bytes() for name in ("stdin", "stdout"))
    lines, answers = (whole.split(b"\n") for whole in (text, output))
    counts = [16 << k for k in range(20) if 16 << k < len(lines)]
    first = lambda rows, count: b"".join(row + b"\n" for row in rows[:count])
    return [(first(lines, count), first(answers, count)) for count in counts] + [(text, output)]


def turn_of(line, answer):
    """What the turns are among: the kinds of vectors, and of those about a reading the refusals too."""
    kind = vectors.kind_of(line)
    about_a_reading = kind in ref.CONVERSIONS or kind in COARSE_KINDS or kind.startswith("answer ")
    return kind, answer.split()[0] if about_a_reading else None


def committed_vectors():
    """(line, what is held, answer) of each committed vector, the kinds in turn, so that every kind is met early."""
    lines, answers = ((CRATES / "vectors" / name).read_text().splitlines() for name in ("stdin", "stdout"))
    count = Counter()
    turns = []
    for (line, held), answer in zip(vectors.with_held(lines), answers):
        turn = turn_of(line, answer)
        count[turn] += 1
        turns.append((count[turn], (line, held, answer)))
    return [vector for _, vector in sorted(turns, key=lambda ranked: ranked[0])]


def title_of(name, wrong, title=None):
    """What a rule is called: its own title, the words of its function's name, or the value that it gives to a name."""
    return title or (wrong.__name__.replace("_", " ") if callable(wrong) else "%s = %s" % (name, wrong))


# --- All of them ------------------------------------------------------------------------------------------------------


class Group(NamedTuple):
    """Wrong rules, what shows each of them, None where nothing does, and the part of the second program that they are put into."""

    rules: tuple
    shown_by: Callable
    part: ModuleType = ref


# Wrong rules of others that the coarse reader could have too, by the names that they stand in for.
CHECK_RULES = tuple(rule for rule in WRONG_RULES + WRONG_BELOW_ZERO_RULES if rule[0] in CHECK_NAMES)


def titled(words, rules):
    """The rules with words before their titles."""
    return tuple((*rule[:2], "%s: %s" % (words, title_of(*rule))) for rule in rules)


def vector_groups(committed):
    """The groups of rules that vectors show, and all vectors that are of a group of their own."""
    apart = []

    def group(rules, kinds, part=ref):
        shown_by = of_kinds(committed, lambda kind: kind in kinds)
        apart.extend(shown_by)
        return Group(rules, lambda: first_caught(shown_by), part)

    groups = [
        group(WRONG_LOCUS_RULES, (*PLACE_KINDS, "search")),
        group(WRONG_SAMPLE_RULES, sample_cases.KINDS),
        group(WRONG_RECORD_RULES, record_cases.KINDS, record_files),
        group(WRONG_ROOT_RULES, root_cases.KINDS),
        group(WRONG_BOARD_RULES, board_cases.KINDS, board_table),
        group(WRONG_COMPARE_RULES + WRONG_FORM_RULES, compare_lines.KINDS, file_differences),
        group(WRONG_SALVAGE_RULES, salvage_lines.KINDS, salvages),
        group(WRONG_TABLE_RULES + titled("table", TABLE_LOCUS_RULES), READY_KINDS),
        group(WRONG_COARSE_RULES + titled("coarse", CHECK_RULES), COARSE_KINDS),
    ]
    kinds_apart = (*PLACE_KINDS, *sample_cases.KINDS, *root_cases.KINDS, *coarse_cases.KINDS, *vectors.FILE_KINDS)
    others = of_kinds(committed, lambda kind: kind not in kinds_apart)
    return [Group(WRONG_RULES + WRONG_BELOW_ZERO_RULES, lambda: first_caught(others)), *groups], apart


def with_wrong_rule(group, rule):
    """The task of trying one wrong rule."""
    def task():
        with put_in(group.part, *rule[:2]):
            return group.shown_by()
    return task


PARTS = 32  # of the vectors that the right rules are tried on


def right_tasks(apart, texts):
    """What differs with the right rules, in parts: (title, task) of each."""
    for k in range(PARTS):
        yield "answers of the right rules", lambda part=apart[k::PARTS]: first_caught(part)
    yield "lines that the right rules print", lambda: first_caught_text(texts)


def wrong_tasks(groups):
    """What shows each wrong rule: (title, task) of each."""
    for group in groups:
        for rule in group.rules:
            yield title_of(*rule), with_wrong_rule(group, rule)


def done(tasks):
    """(title, what it gives) of each task in turn; one that cannot go on ends the check."""
    try:
        yield from zip([title for title, _ in tasks], every_core.results([task for _, task in tasks]))
    except every_core.Ended as ended:
        sys.exit("check_wrong_rules: the reference cannot go on: " + tasks[ended.number][0])


def main():
    committed, texts = committed_vectors(), committed_texts()
    groups, apart = vector_groups(committed)
    groups.append(Group(WRONG_TEXT_RULES + WRONG_TWO_NUMBER_RULES, lambda: first_caught_text(texts)))
    rights, wrongs, missed = list(right_tasks(apart, texts)), list(wrong_tasks(groups)), []
    found = done(rights + wrongs)
    for title, differs in islice(found, len(rights)):
        assert differs is None, "%s differ: %s" % (title, differs[:200])
    for title, caught in found:
        print("%-44s %s" % (title, "caught by: " + caught[:70] if caught else "NOT CAUGHT"))
        missed += [] if caught else [title]
    if missed:
        sys.exit("check_wrong_rules: not caught: " + ", ".join(missed))
    print("check_wrong_rules: all %d wrong rules are caught" % len(wrongs))


if __name__ == "__main__":
    main()
