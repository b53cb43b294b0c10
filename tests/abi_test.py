"""Runs the vectors of answers, of coarse readings, of record files, of their differences, of salvages and of boards of
tests/make_vectors.py through python/cradlekeel, that package's own examples, and examples/.

    python3 tests/abi_test.py               (tests/run-abi calls it, with the programs of examples/ compiled to target/abi/)
    python3 tests/abi_test.py --self-test   what needs no library: that its absence is said, how spectra are scaled, which records do
                                            not fit, what is expected of the lamps and panels, and what the documents show
"""

import _ctypes
import doctest
import os
import re
import shlex
import shutil
import struct
import subprocess
import sys
import tempfile
from collections import Counter
from inspect import signature
from math import expm1
from pathlib import Path

sys.dont_write_bytecode = True
ROOT = Path(__file__).resolve().parent.parent
sys.path.insert(0, str(ROOT / "python"))

import board_test
import coarse_test
import compare_test
import cradlekeel
import cradlekeel._library
import readme_commands
import record_test
import reference
import salvage_test
import spectrum_test
import vectors
from reading_calls import for_c, for_python, numbers_of
from worded import spectrum_answer, table, worded

READERS = {"uv": (cradlekeel.read_uv, "ck_read_uv"), "uvp": (cradlekeel.read_uv_prime, "ck_read_uvp"),
           "xy": (cradlekeel.read_xy, "ck_read_xy"), "xyz": (cradlekeel.read_xyz, "ck_read_xyz"),
           "whole": (cradlekeel.read_micro, "ck_read_micro"), "samples": (cradlekeel.read_samples, "ck_read_samples")}


def parsed(line, held):
    """kind, numbers (floats by their bits; of samples the four lists held), steps and edges of `answer KIND NUMBERS.. STEPS EDGES..`."""
    _, kind, *fields = line.split()
    count = {"xyz": 3, "samples": 0}.get(kind, 2)
    numbers = numbers_of(kind, fields[:count])
    steps, *edges = map(int, fields[count:])
    return kind, list(map(list, held)) if kind == "samples" else numbers, steps, edges


def c_answer(kind, numbers, steps, edges):
    """What the C function answers, written as tests/answer_cases.py writes it."""
    found = cradlekeel._library.call(READERS[kind][1], for_c(kind, numbers), edges, steps)
    w = found.whole
    bits = struct.unpack("<QQ", struct.pack("<dd", found.kelvin, found.duv))
    return "%d %d %d %d %d %d %d %016x %016x" % (w.refusal, w.place, w.low, w.high, w.duv, w.steps, w.class_index, *bits)


def python_answer(kind, numbers, steps, edges):
    """The same through the module's public function, with the Answer or the Refusal put back into that form."""
    try:
        a = READERS[kind][0](*for_python(kind, numbers), edges=edges, steps=steps)
    except cradlekeel.Refusal as refusal:
        assert refusal.reason in str(refusal)
        return "%d 0 0 0 0 0 0 %016x %016x" % (refusal.number, 0, 0)
    assert a.kelvin_range == (103_360_000 / a.high, 103_360_000 / a.low)
    class_index = 255 if a.class_index is None else a.class_index
    bits = struct.unpack("<QQ", struct.pack("<dd", a.kelvin, a.duv))
    return "0 %d %d %d %d %d %d %016x %016x" % (a.place, a.low, a.high, round(a.duv * 1e6), a.steps, class_index, *bits)


def check_vector(call, expected):
    for run in (c_answer, python_answer):
        found = run(*call)
        assert found == expected, f"{run.__name__}: {call}\nexpected {expected}\nfound    {found}"


def run_vectors():
    calls = (ROOT / "crates/vectors/stdin").read_text().splitlines()
    answers = (ROOT / "crates/vectors/stdout").read_text().splitlines()
    assert len(calls) == len(answers), "the vectors' input and output have different numbers of lines"
    counts = Counter()
    for (line, held), expected in zip(vectors.with_held(calls), answers):
        if line.startswith("answer "):
            call = parsed(line, held)
            check_vector(call, expected)
            counts[call[0]] += 1
    assert counts.keys() == READERS.keys(), f"the vectors have answer lines of {list(counts)} only"
    return counts.total()


def check_whole_numbers():
    """What does not fit 32 bits is refused before ctypes would cut it."""
    for call in (lambda: cradlekeel.read_micro(2**32 + 255910, 349510), lambda: cradlekeel.read_micro(255910, -1),
                 lambda: cradlekeel.read_uv(0.25, 0.35, steps=-1), lambda: cradlekeel.read_uv(0.25, 0.35, steps=2**32),
                 lambda: cradlekeel.read_uv(0.25, 0.35, edges=(1600, 2**32 + 20001))):
        try:
            call()
        except cradlekeel.Refusal as refusal:
            raise AssertionError("refused by the library") from refusal
        except ValueError as error:
            assert "32 bits" in str(error)
        else:
            raise AssertionError("taken")


def run_python(words, library, root):
    """A run of Python in a folder, with its package on the path and the variable that names the library set or not."""
    variables = {name: value for name, value in os.environ.items() if name != "CRADLEKEEL_LIBRARY"}
    variables |= {"PYTHONPATH": str(root / "python")} | ({"CRADLEKEEL_LIBRARY": library} if library else {})
    return subprocess.run([sys.executable, "-B", *words], env=variables, capture_output=True, text=True, cwd=root)


def check_missing_library():
    """Without a library, or with another, the message says what to run or which file the variable names, be it by a name alone; in a
    folder with a space."""
    call = "import cradlekeel; cradlekeel.read_xy(0.3127, 0.3290)"
    with tempfile.TemporaryDirectory(prefix="no library ") as folder:
        root = Path(folder).resolve()
        for part in ("python", "data"):
            shutil.copytree(ROOT / part, root / part, ignore=shutil.ignore_patterns("__pycache__"))
        make, absent, other = f"make -C {shlex.quote(str(root))} lib", str(root / "absent.so"), _ctypes.__file__
        here = shutil.copy(other, root / "other.so").name
        for named, words in ((None, make), (absent, f"CRADLEKEEL_LIBRARY names {absent}"), (other, "has no function ck_"),
                             (here, f"{root / here} has no function ck_")):
            ran = run_python(["-c", call], named, root)
            assert ran.returncode == 1 and "cradlekeel.LibraryMissing" in ran.stderr and words in ran.stderr, ran.stderr
            for command, files in (("spectrum", 1), ("show", 1), ("board", 1), ("compare", 2), ("salvage", 2)):
                ran = run_python(["-m", "cradlekeel", command, *files * [str(ROOT / "examples/incandescent.csv")]], named, root)
                assert (ran.returncode, ran.stdout, ran.stderr.count("\n")) == (2, "", 1) and words in ran.stderr, ran


def check_default_steps():
    """A call that gives no number takes all 14 steps, not the six of a line of two numbers."""
    for reader in (*(reader for reader, _ in READERS.values()), cradlekeel.read_spectrum):
        assert signature(reader).parameters["steps"].default == cradlekeel.STEPS == reference.MOST_STEPS, reader
    given = cradlekeel.read_micro(219300, 327100)
    assert given.steps == 14 and given == cradlekeel.read_micro(219300, 327100, steps=14), given


LAMP_EXAMPLES = ("examples/lamp.c", "examples/lamp.py")
# x and y of lamps with a class, without one, strongly tinted, and with each refusal that x and y can meet.
LAMPS = ("0.3127 0.3290", "0.4476 0.4074", "0.3451 0.3515", "0.33 0.42", "nan 0.3", "0.3 1", "0.3 0.45", "0.23 0.23", "0.5065 0.3231",
         "-0.0000005 0.3", "-0.0000006 0.3")
NO_LAMPS = ("", "0.3127", "0,3127 0,3290", "x y", "0.3127 0.3290 5000")
BLACKBODIES = ("1500", "1650.5", "2856", "19000", "1e5")
NO_BLACKBODIES = ("", "0", "-1", "nan", "inf", "2856K", "2856 6500")


def lamp_line(lamp):
    """What an example prints by the second program, up to a refusal's words, and its exit status."""
    bits = [struct.unpack("<I", struct.pack("<f", float(number)))[0] for number in lamp.split()]
    given = reference.answer("xy", bits, reference.TEXT_EDGES, reference.MOST_STEPS)
    return (worded(given), 1) if given.refusal else (worded(given) + "\n", 0)


def blackbody_line(kelvin):
    """What examples/samples.c prints by the second program, and its exit status."""
    power = [nm**-5.0 / expm1(1.4388e7 / (nm * float(kelvin))) for nm in table()]
    given = spectrum_answer(table(), power)
    return (f"refusal {given.refusal}; include/cradlekeel.h says why\n", 1) if given.refusal else (",".join(worded(given).split(",")[:2]) + "\n", 0)


def check_blackbodies():
    command = ROOT / "target/abi/samples"
    for kelvin in BLACKBODIES:
        ran = subprocess.run([command, kelvin], capture_output=True, text=True, cwd=ROOT)
        assert (ran.stdout, ran.returncode) == blackbody_line(kelvin) and not ran.stderr, f"{kelvin}: {ran}"
    for words in NO_BLACKBODIES:
        ran = subprocess.run([command, *words.split()], capture_output=True, text=True, cwd=ROOT)
        assert ran.returncode == 2 and ran.stderr.startswith("usage: samples") and not ran.stdout, f"{words}: {ran}"


def check_lamps():
    for command in ([ROOT / "target/abi/lamp"], [sys.executable, ROOT / "examples/lamp.py"]):
        for lamp in LAMPS:
            expected, status = lamp_line(lamp)
            ran = subprocess.run([*command, *lamp.split()], capture_output=True, text=True)
            assert ran.stdout.startswith(expected) and ran.stdout.count("\n") == 1, f"{lamp}: expected {expected}, found {ran}"
            assert ran.returncode == status and not ran.stderr, f"{lamp}: {ran}"
        for words in NO_LAMPS:
            ran = subprocess.run([*command, *words.split()], capture_output=True, text=True)
            assert ran.returncode == 2 and ran.stderr.startswith("usage: lamp") and not ran.stdout, f"{words}: {ran}"


def check_shown(where, shown, example):
    """A document shows lines of an example, and each stands in it, in the same order."""
    rest = iter((ROOT / example).read_text().splitlines())
    lines = [line for line in shown if line.strip()]
    assert lines, f"{where} shows nothing of {example}"
    for line in lines:
        assert line in rest, f"{where} shows a line that {example} does not have there: {line}"


def header_blocks():
    """Each example that the header shows: the indented lines after the words that name a file of examples/."""
    found = []
    for line in (ROOT / "include/cradlekeel.h").read_text().splitlines():
        if named := re.search(r"From (examples/\w+\.c)\b", line):
            found.append((named[1], []))
        elif found and line.startswith(" *     "):
            found[-1][1].append(line[3:])
    return found


PAGE_BLOCK = re.compile(r"<!-- (examples/\S+) -->\s*```\w+\n(.*?)```", re.DOTALL)


def check_documents():
    """The examples in the header, and the pages' blocks under a comment that names a file of examples/: one for each on a page."""
    shown = [("include/cradlekeel.h", *block) for block in header_blocks()]
    assert [example for _, example, _ in shown] == ["examples/lamp.c", "examples/board.c"], f"the header shows {shown}"
    for page in readme_commands.PAGES:
        blocks = PAGE_BLOCK.findall((ROOT / page).read_text(encoding="utf-8"))
        assert len(set(dict(blocks))) == len(blocks), f"{page} has two blocks of one file"
        shown += [(page, example, block.splitlines()) for example, block in blocks]
    named = [example for page, example, _ in shown if page == "README.md"]
    assert set(LAMP_EXAMPLES) <= set(named), f"README.md has blocks of {named}"
    for page, example, block in shown:
        check_shown(page, block, example)
    return len(shown)


def self_test():
    """What needs no library, so that a fault in it shows before anything is proved."""
    check_missing_library()
    for statuses in ({lamp_line(lamp)[1] for lamp in LAMPS}, {blackbody_line(kelvin)[1] for kelvin in BLACKBODIES}):
        assert statuses == {0, 1}, "the lamps, and the blackbodies, should have both answers and refusals"
    record_test.self_test()
    compare_test.self_test()
    salvage_test.self_test()
    board_test.self_test()
    coarse_test.self_test()
    scaled, blocks, commands = spectrum_test.self_test(), check_documents(), readme_commands.self_test()
    print(f"abi_test.py: {len(LAMPS)} lamps and {len(BLACKBODIES)} blackbodies computed, {scaled} spectra scaled; {blocks} blocks and "
          f"{commands} commands of the pages read")


def doctests():
    """The examples of the package's own documentation, by name. A public class is asked for its methods, since it is named by the package
    and stands in a module of it, so that neither of the two is asked for them; the methods that `Party` has of `int` are Python's."""
    finder, classes = doctest.DocTestFinder(), [item for item in map(cradlekeel.__dict__.get, cradlekeel.__all__) if isinstance(item, type)]
    modules = cradlekeel, cradlekeel.readings, cradlekeel.records, cradlekeel.differences, cradlekeel.salvages, cradlekeel.spectra
    found = [test for module in modules for test in finder.find(module)]
    found += [test for item in classes for test in finder.find(item, f"cradlekeel.{item.__name__}", False, vars(cradlekeel))]
    return {test.name: test for test in found if "._member_type_" not in test.name}


def run_doctests():
    """The failures among the examples of the package's own documentation, and how many examples there are."""
    runner, tests = doctest.DocTestRunner(), doctests()
    assert tests["cradlekeel.Record.of"].examples and tests["cradlekeel.Board.load"].examples, "the methods have no examples"
    for test in tests.values():
        runner.run(test)
    return runner.failures, runner.tries


def main():
    if sys.argv[1:] == ["--self-test"]:
        return self_test()
    if sys.argv[1:]:
        sys.exit(__doc__)
    count = run_vectors()
    check_whole_numbers()
    check_default_steps()
    parts = spectrum_test, record_test, compare_test, salvage_test, board_test, coarse_test
    spectra, files, pairs, salvages, boards, coarse = (part.run() for part in parts)
    check_lamps()
    check_blackbodies()
    blocks, commands = check_documents(), readme_commands.run(with_library=True)
    failed, attempted = run_doctests()
    print(f"abi_test.py: {count} vectors of answers, {coarse} of coarse readings, {files} of record files, each by C and by Python, {pairs} of "
          f"comparisons, {salvages} of salvages and {boards} of boards by Python; {spectra} spectra; {attempted} examples, {failed} failures; "
          f"{len(LAMPS)} lamps by each of two programs and {len(BLACKBODIES)} blackbodies; {blocks} blocks and {commands} commands of the pages")
    sys.exit(failed != 0)


if __name__ == "__main__":
    main()
