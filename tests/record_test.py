"""Record files from Python: the vectors by the functions of C and of the package, what the package takes and names, docs/FILES.md and
examples/records.c, all against the second program. abi_test.py runs it."""

import array
import mmap
import re
import subprocess
import tempfile
from collections import Counter
from functools import lru_cache
from itertools import product
from pathlib import Path

import cradlekeel
import older_library
import record_cases
import record_files
import reference as ref
import vectors
from command_runs import no_large_files
from cradlekeel import Record
from kept import kept
from record_calls import (GUARD, answered, c_form, c_read, c_record, c_write, expect, expected_record, python_form, python_read,
                          python_record, python_write)
from record_cases import EARLIER, LENGTHS, MOST, WRITTEN
from record_files import file_by, file_of
from record_lines import LETTERS, byte_pattern, pattern
from spectrum_test import fault_of

ROOT = Path(__file__).resolve().parent.parent


# --- Without the library ----------------------------------------------------------------------------------------------

GOOD = Record(219300, 327100, 23112, 21892, 23866, -2331, 2, 2)
LIMITS = dict(u=(0, 2**32 - 1), v=(0, 2**32 - 1), place=(0, 65_535), low=(0, 65_535), high=(0, 65_535),
              duv=(-2**31, 2**31 - 1), steps=(0, 255), class_index=(0, 255))


def check_records_that_do_not_fit():
    """A number that is not whole, or does not fit its field, is named by its record and field; so is what is no record."""
    for field, (least, largest) in LIMITS.items():
        for bad, kind in ((least - 1, ValueError), (largest + 1, ValueError), (2**80, ValueError), (0.5, TypeError), ("1", TypeError)):
            records = [GOOD, GOOD, GOOD._replace(**{field: bad}), GOOD._replace(u=-1)]
            for call in (lambda: cradlekeel.to_bytes(records[:3]), lambda: cradlekeel.write_records(iter(records[:3]), bytearray(99))):
                fault = fault_of(kind, call)
                assert str(fault).startswith(f"records[2].{field} is {bad!r}, which"), fault
    fault = fault_of(TypeError, lambda: cradlekeel.to_bytes([GOOD, tuple(GOOD)]))
    assert str(fault).startswith("records[1] is (219300, "), fault


def check_other_arguments():
    for target in (bytes(99), memoryview(bytearray(99)), array.array("B", bytes(99)), [], None):
        fault = fault_of(TypeError, lambda: cradlekeel.write_records([GOOD], target))
        assert type(target).__name__ in str(fault), fault
    for call in (lambda: cradlekeel.read_records("text"), lambda: cradlekeel.check_file([18, 0]), lambda: cradlekeel.record_at(None, 0)):
        fault_of(TypeError, call)
    for room, kind in ((-1, ValueError), (2**64, ValueError), (0.5, TypeError)):
        assert str(fault_of(kind, lambda: cradlekeel.read_records(bytes(8), room))).startswith("room is ")
    for index in (-1, -2**64):
        fault_of(IndexError, lambda: cradlekeel.record_at(file_of([GOOD]), index))
    fault_of(TypeError, lambda: cradlekeel.record_at(file_of([GOOD]), 0.5))


def check_names_for_files():
    """The name of a file in place of its bytes is told as that."""
    for call in (cradlekeel.read_records, cradlekeel.check_file, lambda file: cradlekeel.record_at(file, 0)):
        for file, named in (("day.rec", "str"), (Path("day.rec"), "PosixPath"), ([18, 0], "list"), (None, "NoneType")):
            fault = str(fault_of(TypeError, lambda: call(file)))
            assert 'Path("day.rec").read_bytes()' in fault and fault.endswith(f"not by a {named}"), fault


def check_record_values():
    """A record is equal by value and cannot be changed."""
    assert GOOD == Record(*GOOD) and hash(GOOD) == hash(Record(*GOOD)) and GOOD != GOOD._replace(steps=3)
    assert Record._fields == tuple(LIMITS) and "class_index=2" in repr(GOOD)
    records = cradlekeel.records
    assert (records.RECORD_BYTES, records.EARLIER_RECORD_BYTES, records.TRAILER_BYTES) == (WRITTEN, EARLIER, 8)
    assert (records.MOST_WRITTEN, records.MOST_RECORDS) == (MOST[WRITTEN], MOST[EARLIER])
    fault_of(AttributeError, lambda: setattr(GOOD, "u", 1))
    assert GOOD.kelvin == 103_360_000 / 23112 and GOOD._replace(place=0).kelvin is None
    for field, (_, largest) in LIMITS.items():
        bits = (largest + 1).bit_length() - (field != "duv")
        assert f"; {bits} bits" in getattr(Record, field).__doc__, f"the text of {field} that help() shows"


def check_lets_go(calls, *held):
    """What each call raises holds no bytearray: it can change its length while the exception is kept."""
    for call in calls:
        try:
            call()
        except (ValueError, TypeError, IndexError, OSError):  # Refusal is a ValueError, and a library that is missing an OSError
            for each in held:
                each.append(0)
                each.pop()
        else:
            raise AssertionError("nothing is raised")


def check_let_go():
    held, calls = bytearray(99), (
        lambda: cradlekeel.record_at(held, 9), lambda: cradlekeel.record_at(held, "1"), lambda: cradlekeel.record_at(held, 0),
        lambda: cradlekeel.check_file(held), lambda: cradlekeel.read_records(held), lambda: cradlekeel.read_records(held, -1),
        lambda: cradlekeel.write_records(6 * [GOOD], held), lambda: cradlekeel.write_records([GOOD._replace(u=-1)], held))
    check_lets_go(calls, held)


# --- docs/FILES.md ----------------------------------------------------------------------------------------------------

ROW = re.compile(r"^\| (\d+) \| ((?:[0-9a-f]{2} ?)+) \| (record \d|trailer) \| ([a-z ]+) \| (-?\d+) \|", re.MULTILINE)
DUMP = re.compile(r"^    (\d{7})((?: [0-9a-f]{2})*)$", re.MULTILINE)
FROM_BEFORE = re.compile(r'"earlier\.rec"\)\.write_bytes\(bytes\.fromhex\("""([^"]*)"""\)\)')
NAMES = tuple(LIMITS)[:-1] + ("class",)  # the page has the names that people read


def page_file():
    """The bytes of the page's file of two records, its records and its trailer as its table explains them."""
    page = (ROOT / "docs/FILES.md").read_text(encoding="utf-8")
    file, fields = b"", {}
    for at, text, part, field, value in ROW.findall(page):
        assert int(at) == len(file), f"docs/FILES.md: {field} of {part} is not at byte {at}"
        file += bytes.fromhex(text)
        fields.setdefault(part, {})[field] = int(value)
    dumped = DUMP.findall(page)
    assert b"".join(bytes.fromhex(text) for _, text in dumped) == file and int(dumped[-1][0]) == len(file), "the table is not the dump"
    trailer = fields.pop("trailer")
    assert tuple(trailer) == ("record length", "count", "distance") and set(map(tuple, map(dict.keys, fields.values()))) == {NAMES}
    return file, [tuple(record.values()) for record in fields.values()], tuple(trailer.values())


def check_page():
    """The second program reads the page's bytes to the page's records, which are its own answers to the page's lines."""
    file, records, trailer = page_file()
    assert len(records) == 2 and record_files.read(file, 2) == (0, records) and record_files.trailer_of(file) == trailer
    assert records == [record for u, v, *_, steps, _ in records for record in kept(u, v, steps)] and file_of(records) == file
    assert earlier_page_file() == file_by(EARLIER, records), "the page's file from before has other records"


def earlier_page_file():
    """The bytes of the page's file from before."""
    (text,) = FROM_BEFORE.findall((ROOT / "docs/FILES.md").read_text(encoding="utf-8").replace("target/", ""))
    return bytes.fromhex(text)


def check_page_by_library():
    file, records, _ = page_file()
    assert cradlekeel.read_records(file) == records and cradlekeel.to_bytes(Record(*record) for record in records) == file
    assert cradlekeel.read_records(earlier_page_file()) == records


def self_test():
    """What needs no library."""
    check_records_that_do_not_fit()
    check_other_arguments()
    check_names_for_files()
    check_record_values()
    check_let_go()
    check_page()


# --- The vectors ------------------------------------------------------------------------------------------------------


@lru_cache(maxsize=2)
def records_of(columns):
    return [Record(*record) for record in record_files.listed(columns)]


def check_write(held, room):
    refusal, count, after = record_files.write_into(byte_pattern(room), held.columns)
    done, target = c_write(held.columns, room)
    expect("ck_write_records", done, (refusal, count))
    expect("its target", target, after + byte_pattern(room + GUARD)[room:])
    target = bytearray(byte_pattern(room))
    expect("write_records", python_write(records_of(held.columns), target), (refusal, count))
    expect("its target", bytes(target), after)
    return refusal, count


def check_form(held):
    for ask in (c_form, python_form):
        expect(ask.__name__, ask(held.file), record_files.form(held.file))
    return record_files.form(held.file)


def check_record(held, index):
    record = record_files.file_record(held.file, index)
    expect("ck_record_at", c_record(held.file, index), record)
    expect("record_at", python_record(held.file, index), expected_record(held.file, index))
    return record


def check_read(held, *rooms):
    refusal, count, after = record_files.read_into([pattern(*pair) for pair in zip(LETTERS, rooms)], held.file)
    done, columns = c_read(held.file, rooms)
    expect("ck_read_records", done, (refusal, count))
    for letter, room, column, target in zip(LETTERS, rooms, columns, after):
        expect(f"its column {letter}", column, target + pattern(letter, room + GUARD)[room:])
    expect("read_records", python_read(held.file, min(rooms)), record_files.read(held.file, min(rooms)))
    return refusal, count


CHECKS = {"write": check_write, "form": check_form, "record": check_record, "read": check_read}


def run_vectors():
    """Every vector of record files; what was checked is also how its committed answer begins."""
    calls, answers = ((ROOT / f"crates/vectors/{name}").read_text().splitlines() for name in ("stdin", "stdout"))
    counts = Counter()
    for (line, held), answer in zip(vectors.with_held(calls), answers):
        kind, *numbers = line.split()
        if kind in CHECKS:
            found = CHECKS[kind](held, *map(int, numbers))
            assert list(map(str, found)) == answer.split()[:len(found)], (line, answer)
            counts[kind] += 1
    assert counts.keys() == CHECKS.keys(), f"the vectors have lines of {list(counts)} only"
    return counts.total()


# --- What the package takes -------------------------------------------------------------------------------------------


def mapped(file):
    held = mmap.mmap(-1, len(file))
    held[:] = file
    return held


FORMS = (bytes, bytearray, memoryview, mapped, lambda file: memoryview(bytearray(file)), lambda file: array.array("H", file),
         lambda file: memoryview(b"".join(bytes([byte, 0]) for byte in file))[::2], lambda file: memoryview(b"." + file + b".")[1:-1])


def check_bytes_like():
    """A file may be any bytes-like object, is not changed by being read, and can be changed afterwards."""
    records = record_cases.random_records(5, record_cases.Dice("bytes-like"), EARLIER)
    for form, length, count in product(FORMS, LENGTHS, (1, 5)):
        file = file_by(length, records[:count])
        given = form(file)
        assert cradlekeel.read_records(given) == records[:count] and cradlekeel.check_file(given) == count
        assert cradlekeel.record_at(given, count - 1) == records[count - 1] and bytes(given) == file
        assert python_read(given, count - 1) == (record_files.NO_ROOM, [])
    held = bytearray(file_of(records))
    cradlekeel.check_file(held), cradlekeel.read_records(held), cradlekeel.record_at(held, 4)
    held.append(0)
    assert cradlekeel.write_records([], held) == 8
    del held[8:]
    assert held == file_of([])


def check_rooms():
    """As much room as anyone asks for, and no more records than a file of its length has."""
    for length, most in MOST.items():
        for room in (3600, 3601, 2**40, 2**64 - 1):
            assert cradlekeel.read_records(file_by(length, [GOOD]), room) == [GOOD]
        assert cradlekeel.read_records(file_by(length, most * [GOOD])) == most * [GOOD]
        assert python_read(file_by(length, most * [GOOD]), most - 1) == (record_files.NO_ROOM, [])
        assert python_read(file_by(length, (most + 1) * [GOOD]), 2**40) == (record_files.TOO_MANY_RECORDS, [])


def check_indexes():
    """A record that a file has not is no record, whatever the number; a file that cannot be read is refused first."""
    for length in LENGTHS:
        file = file_by(length, [GOOD, GOOD])
        assert cradlekeel.record_at(file, 1) == GOOD
        for index in (-1, 2, 3, 2**63, 2**64 - 1, 2**64, 2**80, -2**64):
            assert "the file has no record" in str(fault_of(IndexError, lambda: cradlekeel.record_at(file, index)))
        assert python_record(file[1:], 0) == python_record(file[1:], 2**70) == (record_files.BAD_TRAILER, ())


def check_earlier_files():
    """A file from before is read to its records; written again they are of the length that is written now, unless they are too many."""
    records = [*map(Record._make, record_cases.random_records(MOST[WRITTEN] + 1, record_cases.Dice("files from before"), EARLIER))]
    for count in (0, 1, 5, MOST[WRITTEN], MOST[WRITTEN] + 1):
        read = cradlekeel.read_records(file_by(EARLIER, records[:count]))
        assert read == records[:count]
        target = bytearray(WRITTEN * count + 8)
        if count > MOST[WRITTEN]:
            assert python_write(read, target) == (record_files.TOO_MANY_RECORDS, 0) and not any(target)
            assert answered(lambda: cradlekeel.to_bytes(read), b"") == (record_files.TOO_MANY_RECORDS, b"")
        else:
            assert cradlekeel.to_bytes(read) == file_of(records[:count]) and cradlekeel.read_records(cradlekeel.to_bytes(read)) == read


ASKED = "to_bytes([])", "read_micro(219300, 327100)"


def check_older_library():
    """A library that writes records of 18 bytes, as it did before, is told of, and neither records nor readings go to it."""
    for _, library, ran in older_library.asked(older_library.writer_of(EARLIER) + "void ck_read_micro(void) {}", ASKED):
        assert ran.returncode == 1 and f"{library} writes records of 18 bytes: it is older than this package" in ran.stderr, ran
        assert "CRADLEKEEL_LIBRARY names it" in ran.stderr, ran


def check_records_of_answers():
    """`Record.of` on answers of the second program's text input, with a class and without, and on an answer that no reading has."""
    classes = set()
    for line in (line.split() for line in (ROOT / "crates/cradlekeel/stdin").read_bytes().splitlines()[-600:]):
        u, v, steps = map(int, (*line, ref.DEFAULT_STEPS)[:3])
        for record in kept(u, v, steps):
            classes.add(record[7])
            assert Record.of(u, v, cradlekeel.read_micro(u, v, steps=steps)) == record, line
    assert {0, 1, 2, 3, 255} <= classes, classes
    answer = cradlekeel.read_micro(219300, 327100)
    other = lambda field, number: cradlekeel.readings.Answer(**{**vars(answer), field: number})
    for field, bad in (("place", 65_536), ("low", 2**32), ("high", -1), ("duv", 2147.483648), ("duv", -2147.483649), ("steps", 256),
                       ("class_index", -1)):
        fault_of(ValueError, lambda: Record.of(219300, 327100, other(field, bad)))
    for duv in (0, 30_001, 32_767, 32_768, 50_000, 2**31 - 1, -1, -32_768, -32_769, -50_000, -2**31):
        assert Record.of(1, 2, other("duv", duv / ref.MICRO)) == (1, 2, answer.place, answer.low, answer.high, duv, answer.steps, answer.class_index)
    for u, v in ((-1, 0), (0, 2**32)):
        fault_of(ValueError, lambda: Record.of(u, v, answer))


# --- examples/records.c -----------------------------------------------------------------------------------------------

EXAMPLE = ROOT / "target/abi/records"
LAMPS = ((255910, 349510), (219300, 327100), (183000, 276000))


def lamp_records():
    return [record for lamp in LAMPS for record in kept(*lamp, ref.MOST_STEPS)]


def shown_record(record):
    u, v, place, _, _, duv, _, cls = record
    kelvin = f"{float(ref.kelvin_at(place)):.1f} K, " if place else ""
    return f"{u} {v}: {kelvin}Duv {duv / ref.MICRO:+.6f}, {'no class' if cls == 255 else f'class {cls}'}\n"


def run_example(*words, **options):
    return subprocess.run([EXAMPLE, *words], capture_output=True, text=True, **options)


def check_example():
    """The program keeps what the second program keeps, shows it, overwrites nothing and leaves nothing half written."""
    with tempfile.TemporaryDirectory() as folder:
        path = Path(folder) / "lamps.rec"
        ran = run_example("save", path, preexec_fn=no_large_files)
        assert ran.returncode == 1 and "File too large" in ran.stderr and not path.exists(), ran
        told = "183000 276000 is refused with 6 and not kept\n"
        ran = run_example("save", path)
        assert (ran.stdout, ran.stderr, ran.returncode) == (told, "", 0) and path.read_bytes() == file_of(lamp_records()), ran
        ran = run_example("show", path)
        assert (ran.stdout, ran.stderr, ran.returncode) == ("".join(map(shown_record, lamp_records())), "", 0), ran
        with open("/dev/full", "wb") as full:
            ran = subprocess.run([EXAMPLE, "show", path], stdout=full, stderr=subprocess.PIPE, text=True)
        assert (ran.returncode, ran.stderr) == (1, "records: standard output could not be written\n"), ran
        path.write_bytes(b"kept")
        ran = run_example("save", path)
        assert ran.returncode == 1 and "File exists" in ran.stderr and path.read_bytes() == b"kept", ran
        check_example_on_files(path)
    for words in ((), ("save",), ("show", "a", "b"), ("keep", "a")):
        ran = run_example(*words)
        assert ran.returncode == 2 and ran.stderr.startswith("usage: records") and not ran.stdout, ran


def check_example_on_files(path):
    """Any record of either length is shown, and what is no file is refused by its number."""
    longest = file_by(EARLIER, 3600 * [(1, 2, 0, 0, 0, -32_768, 255, 255)])
    for file, count in ((longest, 3600), (file_of(3200 * [(1, 2, 0, 0, 0, -2**31, 255, 255)]), 3200), (file_of([(1, 2, 3, 4, 5, 2**31 - 1, 0, 0)]), 1)):
        path.write_bytes(file)
        assert run_example("show", path).stdout == count * shown_record(record_files.file_record(file, 0))
    for file in (b"", b"no record file", longest[18:], b"." + longest, longest + longest, file_of(3201 * [GOOD]), file_of(3600 * [GOOD]),
                 file_by(EARLIER, 3601 * [GOOD])):
        path.write_bytes(file)
        ran = run_example("show", path)
        number = record_files.form(file[:len(longest) + 1])[0]  # it reads one byte more than a file can have
        assert ran.returncode == 1 and f": refusal {number}: " in ran.stderr and not ran.stdout, (number, ran)
    ran = run_example("show", path.parent / "missing.rec")
    assert ran.returncode == 1 and "No such file" in ran.stderr, ran


def run():
    """Everything that needs the library; how many vectors there are."""
    count = run_vectors()
    check_page_by_library()
    check_bytes_like()
    check_let_go()
    check_rooms()
    check_indexes()
    check_earlier_files()
    check_older_library()
    check_records_of_answers()
    check_example()
    return count
