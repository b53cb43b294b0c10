"""Coarse readings from Python: the vectors of them by C and by the package, what the package takes, gives and raises, and examples/panel.c,
all against the second program. abi_test.py runs it."""

import subprocess
from decimal import Decimal
from fractions import Fraction
from inspect import signature
from itertools import product
from math import floor
from pathlib import Path

import cradlekeel
import older_library
import reference as ref
from cradlekeel._library import c_function
from dice import Dice
from floats import nearest_f32
from reading_calls import for_c, for_python, numbers_of
from readings import near_locus
from record_files import WRITTEN
from spectrum_test import fault_of

ROOT = Path(__file__).resolve().parent.parent
# By the kind of reading: the function of the package, the C function, and the function of the package that searches.
READERS = {"uv": (cradlekeel.coarse_uv, "ck_coarse_uv", cradlekeel.read_uv),
           "uvp": (cradlekeel.coarse_uv_prime, "ck_coarse_uvp", cradlekeel.read_uv_prime),
           "xy": (cradlekeel.coarse_xy, "ck_coarse_xy", cradlekeel.read_xy),
           "xyz": (cradlekeel.coarse_xyz, "ck_coarse_xyz", cradlekeel.read_xyz),
           "whole": (cradlekeel.coarse_micro, "ck_coarse_micro", cradlekeel.read_micro)}

# --- Without the library ----------------------------------------------------------------------------------------------


def check_functions():
    """Each takes the numbers of its reading by the names that the search has for them, and neither edges nor steps."""
    for reader, _, search in READERS.values():
        taken = list(signature(reader).parameters)
        assert [*taken, "edges", "steps"] == list(signature(search).parameters), reader
        assert reader.__name__ in cradlekeel.__all__ and "ready place" in reader.__doc__, reader


def check_whole_numbers():
    """What is no whole number, or does not fit 32 bits, is named and not handed over."""
    wrong = (-1, ValueError), (2**32, ValueError), (2**32 + 219300, ValueError), (0.5, TypeError), ("1", TypeError), (None, TypeError)
    for (bad, kind), name in product(wrong, ("u", "v")):
        given = {"u": 219300, "v": 327100, name: bad}
        assert str(fault_of(kind, lambda: cradlekeel.coarse_micro(**given))).startswith(f"{name} is {bad!r}, which"), name


def self_test():
    check_functions()
    check_whole_numbers()
    assert {panel_line(words)[1] for words in PANELS} == {0, 1}, "the panels should have both temperatures and refusals"


# --- With the library -------------------------------------------------------------------------------------------------


def c_coarse(kind, numbers):
    """(refusal, place) by the C function."""
    found = c_function(READERS[kind][1])(*for_c(kind, numbers))
    return found.refusal, found.place


def raised_or(function):
    """(0, what a call returns), or the number of the refusal that it raises, whose words it has, and 0."""
    try:
        return 0, function()
    except cradlekeel.Refusal as refusal:
        assert str(refusal) == f"refusal {refusal.number}: {cradlekeel.REASONS[refusal.number]}", refusal
        return refusal.number, 0


def python_coarse(kind, given):
    """The same by the package, of the numbers as it takes them."""
    refusal, place = raised_or(lambda: READERS[kind][0](*given))
    assert type(place) is int, (kind, given, place)
    return refusal, place


def check_both(what, kind, numbers, expected):
    for found in (c_coarse(kind, numbers), python_coarse(kind, for_python(kind, numbers))):
        assert found == expected, f"{what}: expected {expected}, found {found}"


def run_vectors():
    """Every vector of a ready point or of a coarse reading; how many there are."""
    calls, answers = ((ROOT / f"crates/vectors/{name}").read_text().splitlines() for name in ("stdin", "stdout"))
    kinds, ready = [], 0
    for line, answer in zip(calls, answers):
        command, *fields = line.split()
        if command == "ready":
            place, u, v = map(int, answer.split())
            check_both(line, "whole", [u, v], (0, place))
            ready += 1
        elif command == "coarse":
            kinds.append(fields[0])
            check_both(line, fields[0], numbers_of(fields[0], fields[1:]), tuple(map(int, answer.split())))
    assert ready and set(kinds) == READERS.keys(), f"the vectors have {ready} ready points, and coarse readings of {set(kinds)}"
    return ready + len(kinds)


# A reading of a kind for each refusal that there is, by document 01.
REFUSED = (
    ("uv", (float("nan"), 2), 2), ("xy", (0.3, float("inf")), 2), ("xyz", (5000, 0, float("nan")), 2), ("uvp", (1, 0.5), 3),
    ("uv", (0.25, -0.000001), 3), ("xyz", (4096, 0, 0), 3), ("whole", (4_000_001, 0), 3), ("xyz", (1, 0.99999, 1), 4), ("uv", (0, 0), 5),
    ("whole", (345_070, 310_529), 5), ("whole", (183_000, 276_000), 6), ("xy", (0.25, 0.25), 6), ("whole", (346_000, 360_540), 7))


def check_refusals():
    """Every number that a coarse reading can be refused with is raised, and by the search too, whatever the edges and the steps."""
    assert {number for *_, number in REFUSED} == set(range(2, 8))
    for kind, given, number in REFUSED:
        assert python_coarse(kind, given) == (number, 0), (kind, given)
        for edges, steps in product((cradlekeel.EDGES, (1600, 1601), (2000, 20001)), (0, 6, 14, 2**32 - 1)):
            assert raised_or(lambda: READERS[kind][2](*given, edges=edges, steps=steps))[0] == number, (kind, given, edges, steps)


def outcome(function, given):
    """What comes of a call: the kind and the words of what it raises, or that it returns."""
    try:
        function(*given)
    except Exception as error:
        return type(error), str(error)
    return None


def check_types():
    """Each number may be what it may be for the search, and what is none is told in the same words."""
    forms = (1, 0, True, Fraction(1, 4), Decimal("0.25"), "0.25", b"0.25", None, 0.25j, (0.25,), object)
    for kind, (reader, _, search) in READERS.items():
        good = (255_910, 349_510) if kind == "whole" else (0.25, 0.375, 2.0)[:len(signature(reader).parameters)]
        for at, form in product(range(len(good)), forms):
            given = (*good[:at], form, *good[at + 1:])
            assert outcome(reader, given) == outcome(search, given), (kind, given)
        for count in (0, 1, len(good) + 1):
            assert outcome(reader, (*good, 0.5)[:count])[0] is TypeError, (kind, count)
    assert cradlekeel.coarse_uv(Fraction(1, 4), Decimal("0.375")) == cradlekeel.coarse_uv(0.25, 0.375)
    assert cradlekeel.coarse_uv(v=0.375, u=0.25) == cradlekeel.coarse_uv(0.25, 0.375) != cradlekeel.coarse_uv(0.25, 0.37)


def as_doubles(kind, u, v):
    """A point as a reading of a kind, in doubles."""
    n = 2 * u - 8 * v + 4
    return {"uv": (u, v), "uvp": (u, 1.5 * v), "xy": (3 * u / n, 2 * v / n), "xyz": (150 * u / v, 100.0, (400 - 100 * u) / (2 * v) - 500)}[kind]


def check_doubles():
    """Doubles are answered as the singles nearest to them, at random points near the locus and far from it."""
    dice, met = Dice("coarse readings of doubles"), set()
    for kind, spread in product(("uv", "uvp", "xy", "xyz"), 25 * (10, 2000, 50_000, 80_000)):
        given = as_doubles(kind, *((number + dice.below(10**9) / 10**9) / 10**6 for number in near_locus(dice, spread)))
        expected = ref.coarse(kind, [nearest_f32(number) for number in given])
        assert python_coarse(kind, given) == expected, (kind, given, expected)
        met.add((kind, expected.refusal))
    assert met >= set(product(("uv", "uvp", "xy", "xyz"), (0, 5))), met


ASKED = ("coarse_uv(0.25, 0.35)", "coarse_uv_prime(0.25, 0.5)", "coarse_xy(0.3, 0.3)", "coarse_xyz(95, 100, 109)",
         "coarse_micro(219300, 327100)")


def check_older_library():
    """A library from before there was a ready table is told of, function by function; records go to it."""
    missing = dict(zip(ASKED, (name for _, name, _ in READERS.values())))
    for call, library, ran in older_library.asked(older_library.writer_of(WRITTEN), (*ASKED, "to_bytes([])")):
        told = f"cradlekeel.LibraryMissing: {library} has no function {missing.get(call)}: it is older than this package." in ran.stderr
        assert (ran.returncode, told) == ((1, True) if call in missing else (0, False)), ran


# --- examples/panel.c -------------------------------------------------------------------------------------------------

EXAMPLE = ROOT / "target/abi/panel"
# Temperatures at both ends and between, and each refusal that the two kinds can meet.
PANELS = ("micro 219300 327100", "micro 183870 277150", "micro 345070 360530", "micro 0255910 0349510", "micro 345070 310529", "micro 0 0",
          "micro 4000001 0", "micro 327100 9999999", "micro 183000 276000", "micro 346000 360540", "xy 0.3127 0.3290", "xy 0.4476 0.4074",
          "xy 0.33 0.42", "xy nan 0.3", "xy 0.3 -inf", "xy 0.3 1", "xy -0.0000006 0.3", "xy -0.0000005 0.3", "xy 0.23 0.23", "xy 0.5065 0.3231")
NO_PANELS = ("", "micro", "xy", "micro 219300", "xy 0.3127", "219300 327100", "0.3127 0.3290", "micro 219300 327100 6", "xy 0.3127 0.3290 6",
             "micro -219300 327100", "micro +219300 327100", "micro 219300 32710O", "micro 0.2193 0.3271", "micro 10219300 327100",
             "xy 0,3127 0,3290", "xy x y", "uv 0.2193 0.3271", "Micro 219300 327100")


def panel_line(words):
    """What the example prints by the second program, up to a refusal's words, and its exit status."""
    kind, *numbers = words.split()
    reading = ("whole", [*map(int, numbers)]) if kind == "micro" else ("xy", [nearest_f32(float(number)) for number in numbers])
    refusal, place = ref.coarse(*reading)
    return (f"refusal {refusal}: ", 1) if refusal else (f"place {place}, {floor(ref.kelvin_at(place) + Fraction(1, 2))} K\n", 0)


def run_example(*words):
    return subprocess.run([EXAMPLE, *words], capture_output=True, text=True)


def check_example():
    for words in PANELS:
        (expected, status), ran = panel_line(words), run_example(*words.split())
        assert ran.stdout.startswith(expected) and ran.stdout.count("\n") == 1, f"{words}: expected {expected}, found {ran}"
        assert (ran.returncode, ran.stderr) == (status, "") and "(null)" not in ran.stdout, f"{words}: {ran}"
    spaced = ["micro", " 219300", "327100"], ["micro", "219300 ", "327100"], ["micro", "", ""], ["xy", "", "0.3"]
    for words in (*map(str.split, NO_PANELS), *spaced):
        ran = run_example(*words)
        assert (ran.returncode, ran.stdout) == (2, "") and ran.stderr.startswith("usage: panel micro U V | panel xy X Y"), f"{words}: {ran}"


def run():
    """Everything that needs the library; how many vectors there are."""
    count = run_vectors()
    check_refusals()
    check_types()
    check_doubles()
    check_older_library()
    check_example()
    return count
