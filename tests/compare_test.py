"""Comparisons of record files from Python: what the package takes and what it lists, the vectors and random files by it, examples/compare.c,
all against the second program. abi_test.py runs it."""

import copy
import pickle
import subprocess
import tempfile
from functools import partial
from itertools import product
from pathlib import Path

import cradlekeel
import file_differences
import record_cases
import record_files
import vectors
from cradlekeel import ONLY_FIRST, ONLY_SECOND, REASONS, Difference, FileRefusal, Record, Refusal, compare_files
from dice import Dice
from record_calls import expect
from record_cases import EARLIER, LENGTHS, MOST
from record_files import file_by, file_of
from record_test import FORMS, check_lets_go
from spectrum_test import fault_of

ROOT = Path(__file__).resolve().parent.parent
GOOD = Record(219300, 327100, 23112, 21892, 23866, -2331, 2, 2)
UNREADABLE = {13: b"", 14: bytes(8), 15: record_files.TRAILER.pack(20, 1, 20), 11: file_of(3201 * [GOOD])}  # by their refusals
AMPLE = 10**6  # numbers of a target

# --- Without the library ----------------------------------------------------------------------------------------------


def check_types():
    """The fields of a difference, their order and their texts; it is the tuple of its numbers."""
    difference = Difference(12, 5, 340, 352)
    assert Difference._fields == ("record", "field", "first", "second") and "counted from 0" in Difference.record.__doc__
    assert difference == (12, 5, 340, 352) == tuple(difference) and (difference.record, difference.second) == (12, 352)
    assert (ONLY_FIRST, ONLY_SECOND) == (8, 9) and [name[:5] for name in Record._fields].index("class") == 7
    for text, item in (("8 where only the first", Difference.field), ("9 where only the second", Difference.field),
                       ("in a list of `Difference`", compare_files), ("`ONLY_FIRST`, 8, or `ONLY_SECOND`, 9", compare_files)):
        assert text in item.__doc__, text
    assert [Difference(0, field, 0, 0).field_name for field in range(10)] == [*NAMES, "only first", "only second"]
    named = {"Difference", "FileRefusal", "ONLY_FIRST", "ONLY_SECOND", "compare_files"}
    assert named <= set(cradlekeel.__all__) and {type_.__module__ for type_ in (Difference, FileRefusal)} == {"cradlekeel"}


def check_file_refusals():
    """A refusal of a file is a refusal that says which file; it is copied whole."""
    for number in UNREADABLE:
        for which, word in ((1, "first"), (2, "second")):
            refusal = FileRefusal(which, number)
            assert isinstance(refusal, Refusal) and isinstance(refusal, ValueError)
            for each in (refusal, copy.copy(refusal), pickle.loads(pickle.dumps(refusal))):
                assert (type(each), each.which, each.number, each.reason) == (FileRefusal, which, number, REASONS[number])
                assert str(each) == f"the {word} file: refusal {number}: {REASONS[number]}"
            assert repr(refusal) == f"FileRefusal({which}, {number})"


def check_arguments():
    """A file that is not given by its bytes is called by its place, and a room that is no count of differences is named."""
    file = file_of([GOOD])
    for bad, kind in (("day.rec", "str"), (Path("day.rec"), "PosixPath"), ([18, 0], "list"), (None, "NoneType"), (7, "int")):
        for files, called in (((bad, file), "the first file"), ((file, bad), "the second file"), ((bad, bad), "the first file")):
            fault = str(fault_of(TypeError, lambda: compare_files(*files)))
            assert fault == f'{called} is given by its bytes, as Path("day.rec").read_bytes() has them, not by a {kind}', fault
    for room, kind in ((-1, ValueError), (2**64, ValueError), (0.5, TypeError), ("1", TypeError)):
        assert str(fault_of(kind, lambda: compare_files(file, file, room))).startswith(f"room is {room!r}, which")
    fault_of(TypeError, lambda: compare_files(file))


def check_let_go():
    """What is raised holds neither file."""
    held, other = bytearray(99), bytearray(file_of([GOOD]))
    given = (held, None), (None, held), (held, other), (other, held), (held, held), (other, other, -1), (other, bytearray(8))
    check_lets_go([partial(compare_files, *files) for files in given], held, other)


def self_test():
    """What needs no library."""
    check_types()
    check_file_refusals()
    check_arguments()
    check_let_go()


# --- Against the second program ---------------------------------------------------------------------------------------


def python_compare(first, second, room=None):
    """(which file is refused, refusal, differences) of `compare_files`; 0 for no file and for no refusal."""
    try:
        return 0, 0, compare_files(first, second, room)
    except FileRefusal as refusal:
        return refusal.which, refusal.number, []
    except Refusal as refusal:
        return 0, refusal.number, []


def check_pair(first, second):
    """Two files in all the room that it takes, in exactly that and in less; how many differences there are."""
    found = file_differences.compare(first, second, AMPLE)
    count = len(found[2])
    for room in (None, count, count + 1, 28_800, 2**64 - 1):
        expect(f"compare_files, room {room}", python_compare(first, second, room), found)
    for room in {0, count // 2, count - 1} if count else ():
        expect(f"compare_files, room {room}", python_compare(first, second, room), file_differences.compare(first, second, 4 * room))
    return count


def run_vectors():
    """Every vector `compare`; what was checked is also how its committed answer begins. A room of numbers is one of whole differences."""
    calls, answers = ((ROOT / f"crates/vectors/{name}").read_text().splitlines() for name in ("stdin", "stdout"))
    count = 0
    for (line, held), answer in zip(vectors.with_held(calls), answers):
        kind, *numbers = line.split()
        if kind == "compare":
            (room,) = map(int, numbers)
            which, refusal, listed = python_compare(held.first, held.file, room // 4)
            expect(line, (which, refusal, listed), file_differences.compare(held.first, held.file, room))
            assert [str(which), str(refusal), str(len(listed))] == answer.split()[:3], (line, answer)
            count += 1
    assert count, "the vectors have no line of comparisons"
    return count


def check_files():
    """Random files of any two counts and record lengths, files that share some records or fields, and files that cannot be read, either way
    round."""
    dice = Dice("comparisons from Python")
    for count, other in ((0, 0), (0, 1), (1, 1), (2, 5), (9, 9), (40, 3)):
        for one_length, two_length in product(LENGTHS, repeat=2):
            first, second = (record_cases.random_records(each, dice, min(one_length, two_length)) for each in (count, other))
            for one, two in ((first, second), (first, first), (first, first[:count // 2] + second), (second[:1] + first[1:], first)):
                check_pair(file_by(one_length, one), file_by(two_length, two))
    unreadable = (*UNREADABLE.values(), file_by(EARLIER, 3601 * [GOOD]))
    for one, two in product((*unreadable, file_of([GOOD])), (*unreadable, file_by(EARLIER, []))):
        check_pair(one, two)


OTHER = Record(4_294_967_295, 0, 65_535, 0, 1, 2**31 - 1, 255, 255)


def check_by_hand():
    """Differences that are worked out by hand, in their order, signed and as plain whole numbers."""
    first, second = file_of([GOOD, GOOD._replace(duv=-2**31)]), file_of([GOOD._replace(v=1, class_index=255), OTHER, GOOD])
    expected = [(0, 1, 327100, 1), (0, 7, 2, 255), (1, 0, 219300, 4_294_967_295), (1, 1, 327100, 0), (1, 2, 23112, 65_535), (1, 3, 21892, 0),
                (1, 4, 23866, 1), (1, 5, -2**31, 2**31 - 1), (1, 6, 2, 255), (1, 7, 2, 255), (2, 9, 0, 0)]
    found = compare_files(first, second)
    assert found == expected and {type(each) for each in found} == {Difference} and {type(n) for each in found for n in each} == {int}
    swapped = [(record, 8 if field == 9 else field, b, a) for record, field, a, b in expected]
    assert compare_files(second, first) == swapped and compare_files(second, second) == []
    assert python_compare(first, second, 11)[:2] == (0, 0) and python_compare(first, second, 10) == (0, 12, [])
    assert python_compare(first, first, 0) == (0, 0, []) and python_compare(b"", b"", 0) == (1, 13, [])
    assert python_compare(first, b"", 0) == (2, 13, []) and python_compare(b"", first, 0) == (1, 13, [])
    earlier, cut = file_by(EARLIER, [GOOD]), GOOD._replace(duv=GOOD.duv + 2**16)
    assert compare_files(earlier, file_of([GOOD])) == [] == compare_files(file_of([GOOD]), earlier)
    assert compare_files(earlier, file_of([cut])) == [(0, 5, GOOD.duv, cut.duv)] and compare_files(second, earlier)[0] == (0, 1, 1, 327100)


def check_most():
    """As many records as a file of each length has, equal, all different, one field in each, none on one side, and beside those of the other
    length."""
    most = record_cases.random_records(3600, Dice("the most comparisons"), EARLIER)
    other = [tuple(number ^ 1 for number in record) for record in most]
    one_field = [(*record[:i % 8], record[i % 8] ^ 1, *record[i % 8 + 1:]) for i, record in enumerate(most)]
    pairs = ((most, most), (most, other), (most, one_field), (most, []), ([], most), (most[:-1], most))
    for length, count in MOST.items():
        found = [check_pair(*(file_by(length, records[:count]) for records in pair)) for pair in pairs[:-1]]
        assert found == [0, 8 * count, count, count, count], (length, found)
    assert check_pair(*(file_by(EARLIER, records) for records in pairs[-1])) == 1
    assert check_pair(file_of(most[:3200]), file_by(EARLIER, most)) == 400 and check_pair(file_by(EARLIER, other), file_of(most[:3200])) == 26_000


def check_bytes_like():
    """Either file may be any bytes-like object, is not changed by being compared, and can be changed afterwards."""
    first, second = (file_by(length, record_cases.random_records(3, Dice(f"bytes-like {length}"), length)) for length in LENGTHS)
    expected = file_differences.compare(first, second, AMPLE)
    for form in FORMS:
        for other in (form, bytes):
            given = form(first), other(second)
            assert python_compare(*given) == expected and python_compare(*given[::-1])[2] != expected[2]
            assert (bytes(given[0]), bytes(given[1])) == (first, second)
    held = bytearray(first)
    assert compare_files(held, held) == [] and python_compare(held, second, 1) == (0, 12, [])
    held.append(0)
    assert python_compare(second, held)[:2] == (2, record_files.form(bytes(held))[0])


# --- examples/compare.c -----------------------------------------------------------------------------------------------

EXAMPLE = ROOT / "target/abi/compare"
NAMES = ("u", "v", "place", "low", "high", "duv", "steps", "class")


def example_line(entry, paths):
    record, field, first, second = entry
    return f"record {record}: " + (f"only in {paths[field - 8]}" if field > 7 else f"{NAMES[field]} {first} | {second}")


def run_example(*words, **options):
    return subprocess.run([EXAMPLE, *words], capture_output=True, text=True, **options)


def check_example():
    """The program prints what the second program lists, ends as cmp does, and names a file that it cannot compare."""
    with tempfile.TemporaryDirectory() as folder:
        paths = [Path(folder) / name for name in ("bench.rec", "desk.rec")]
        most = record_cases.random_records(3600, Dice("examples/compare.c"), EARLIER)
        for records, lengths in ((([], []), (20, 20)), (([GOOD], [GOOD]), (18, 20)), (([GOOD, GOOD], [GOOD, OTHER]), (18, 20)),
                                 (([GOOD, OTHER], [OTHER]), (20, 20)), (([], [GOOD]), (20, 18)), ((most, most[1:]), (18, 18)),
                                 ((most[:3200], most), (20, 18))):
            files = [file_by(*each) for each in zip(lengths, records)]
            for path, file in zip(paths, files):
                path.write_bytes(file)
            entries = file_differences.compare(*files, AMPLE)[2]
            ran, lines = run_example(*paths), [example_line(entry, paths) for entry in entries]
            assert (ran.stdout.splitlines(), ran.stderr, ran.returncode) == (lines, "", 1 if entries else 0), ran
        with open("/dev/full", "wb") as full:
            ran = subprocess.run([EXAMPLE, *paths], stdout=full, stderr=subprocess.PIPE, text=True)
        assert (ran.returncode, ran.stderr) == (2, "compare: standard output could not be written\n"), ran
        check_example_on_bad_files(paths)
    for words in ((), ("a",), ("a", "b", "c")):
        ran = run_example(*words)
        assert (ran.returncode, ran.stdout, ran.stderr) == (2, "", "usage: compare FIRST SECOND\n"), ran


def example_fault(paths, *files):
    """How the example's message begins: it reads both files before they are compared."""
    for path, file in zip(paths, files):
        if len(file) > 3600 * 18 + 8:
            return f"compare: {path}: longer than any record file\n"
    which, number = file_differences.unreadable(*files)
    return f"compare: {paths[which - 1]}: refusal {number}: "


def check_example_on_bad_files(paths):
    good = file_of([GOOD])
    for one in (*UNREADABLE.values(), file_by(EARLIER, 3601 * [GOOD]), good):
        for two in UNREADABLE.values():
            paths[0].write_bytes(one), paths[1].write_bytes(two)
            said = example_fault(paths, one, two)
            ran = run_example(*paths)
            assert (ran.returncode, ran.stdout) == (2, "") and ran.stderr.startswith(said), (ran, said)
    paths[1].unlink()
    for words in (paths, paths[::-1]):
        ran = run_example(*words)
        assert (ran.returncode, ran.stdout) == (2, "") and "desk.rec: No such file" in ran.stderr, ran


def run():
    """Everything that needs the library; how many vectors there are."""
    count = run_vectors()
    check_by_hand()
    check_files()
    check_most()
    check_bytes_like()
    check_let_go()
    check_example()
    return count
