"""Salvages from Python: what the package takes and gives, the vectors and random files by it, examples/salvage.c, all against the second
program. abi_test.py runs it."""

import subprocess
import tempfile
from functools import partial
from itertools import product
from pathlib import Path

import cradlekeel
import salvages
import vectors
from command_runs import no_large_files
from cradlekeel import EDGES, Record, Salvaged, salvage
from dice import Dice
from kept import kept
from record_calls import expect
from record_cases import LENGTHS, WRITTEN
from record_files import TRAILER, file_by, file_of
from record_test import FORMS, check_lets_go
from spectrum_test import fault_of

ROOT = Path(__file__).resolve().parent.parent
GOOD = Record(219300, 327100, 23112, 21892, 23866, -2331, 2, 2)
AMPLE = 10**6  # bytes of a file, and numbers of a list
OTHER_EDGES = (1600, 4500, 20001)

# --- Without the library ----------------------------------------------------------------------------------------------


def check_types():
    """The fields of what is salvaged, their order and their texts, and how many records the file has."""
    salvaged = Salvaged(file_of([GOOD, GOOD]), [1], 7)
    assert Salvaged._fields == ("file", "dropped", "leftover") and salvaged == (file_of([GOOD, GOOD]), [1], 7)
    assert [Salvaged(file_of(count * [GOOD]), [], 0).kept for count in (0, 1, 2, 3200)] == [0, 1, 2, 3200]
    for text, item in (("in their order", Salvaged.file), ("counted from 0", Salvaged.dropped), ("the 8 of its trailer", Salvaged.leftover),
                       ("how many bytes come after the last whole record", Salvaged.leftover), ("what `read_micro` answers now", salvage)):
        assert text in item.__doc__, text
    assert {"Salvaged", "salvage"} <= set(cradlekeel.__all__) and Salvaged.__module__ == "cradlekeel"


def check_names_for_files():
    """The name of a file in place of its bytes is told as that."""
    for bad, kind in (("day.rec", "str"), (Path("day.rec"), "PosixPath"), ([20, 0], "list"), (None, "NoneType"), (7, "int")):
        fault = str(fault_of(TypeError, lambda: salvage(bad, 20)))
        assert fault == f'the broken file is given by its bytes, as Path("day.rec").read_bytes() has them, not by a {kind}', fault
    fault_of(TypeError, lambda: salvage(bytes(40)))


def check_numbers():
    """A number that is none or does not fit is named."""
    wrong = (-1, ValueError), (2**64, ValueError), (0.5, TypeError), ("20", TypeError)
    for (bad, kind), name in product(wrong, ("record_length", "file_room", "list_room")):
        given = {"record_length": 20, name: bad}
        assert str(fault_of(kind, lambda: salvage(bytes(40), **given))).startswith(f"{name} is {bad!r}, which"), name
    for edges, kind in (((1600, 2**32), ValueError), ((1600, -1), ValueError), ((1600, 2.5), TypeError), (("1600", 2500), TypeError)):
        assert str(fault_of(kind, lambda: salvage(bytes(40), 20, edges))).startswith("an edge is "), edges


def check_let_go():
    """What is raised does not hold the bytes."""
    held = bytearray(file_of([GOOD]))
    given = (19,), (20, (1, 2)), (20, EDGES, 27), (20, EDGES, -1), (20, [2.5]), ("20",), (20, EDGES, 0, 0)
    check_lets_go([partial(salvage, held, *words) for words in given], held)


def self_test():
    """What needs no library."""
    check_types()
    check_names_for_files()
    check_numbers()
    check_let_go()


# --- Against the second program ---------------------------------------------------------------------------------------


def expected(data, length, edges=EDGES, file_room=AMPLE, list_room=AMPLE):
    """(refusal, what is salvaged) by the second program, in the package's terms; None where it is refused."""
    refusal, (records, dropped, leftover) = salvages.salvage(data, length, tuple(edges), file_room, list_room)
    return refusal, None if refusal else (file_of(records), list(dropped), leftover)


def python_salvage(data, length, edges=EDGES, file_room=None, list_room=None):
    """(refusal, what is salvaged) of `salvage`; None where it is refused."""
    try:
        return 0, salvage(data, length, edges, file_room, list_room)
    except cradlekeel.Refusal as refusal:
        return refusal.number, None


def check_salvage(what, data, length, edges=EDGES):
    """A salvage in all the room that it takes, in exactly that, and one short in each target; the numbers of the dropped."""
    refusal, found = expected(data, length, edges)
    for rooms in ((None, None), (2**64 - 1, 2**64 - 1), (64_008, len(data) // 18)):
        expect(f"{what}, rooms {rooms}", python_salvage(data, length, edges, *rooms), (refusal, found))
    if refusal:
        return []
    file, dropped, leftover = found
    exact = len(file), len(dropped)
    assert len(data) == length * ((len(file) - 8) // 20 + len(dropped)) + leftover, what
    for rooms in (exact, (exact[0] + 1, exact[1]), (exact[0], exact[1] + 1), (exact[0] - 1, exact[1]), (exact[0], exact[1] - 1), (0, 0), (7, 0)):
        if min(rooms) >= 0:
            expect(f"{what}, rooms {rooms}", python_salvage(data, length, edges, *rooms), expected(data, length, edges, *rooms))
    return dropped


def body_by(length, records):
    """The records without a trailer."""
    return file_by(length, records)[:-TRAILER.size]


def some_records(count, dice):
    """Records of accepted readings, near the locus and far, at any step count, by the second program; their Duv fits both lengths."""
    found = []
    while len(found) < count:
        found += [record for record in kept(dice.between(170_000, 380_000), dice.between(260_000, 390_000), dice.below(15)) if abs(record[5]) < 2**15]
    return found


def check_by_hand():
    """Salvages that are worked out by hand, from a record of line 3 of the listing, with the Duv that document 02's No. 3 gives it."""
    wrong = [GOOD._replace(**{field: getattr(GOOD, field) + 10}) for field in Record._fields]
    for length in LENGTHS:
        body = body_by(length, [GOOD, *wrong, GOOD])
        salvaged = salvage(body + b"7 bytes", length)
        assert salvaged == (file_of([GOOD, GOOD]), [*range(1, 9)], 7) and salvaged.kept == 2, salvaged
        assert type(salvaged) is Salvaged and type(salvaged.file) is bytes and {type(number) for number in salvaged.dropped} == {int}
        assert salvage(file_by(length, [GOOD]), length) == (file_of([GOOD]), [], 8)
        assert salvage(body, length, OTHER_EDGES) == (file_of([]), [*range(10)], 0)
        assert salvage(b"", length) == (file_of([]), [], 0) and salvage(bytes(length - 1), length) == (file_of([]), [], length - 1)
    assert python_salvage(body, 18, EDGES, 48, 8)[0] == 0 and python_salvage(body, 18, EDGES, 47, 8) == (12, None)
    assert python_salvage(body, 18, EDGES, 48, 7) == (12, None) and python_salvage(b"", 20, EDGES, 7) == (12, None)
    assert python_salvage(body, 19, ()) == (1, None) and python_salvage(body, 19, EDGES, 0, 0) == (14, None)


def check_cuts():
    """A file of either length, cut at every byte from the front and from the back, whichever length is asked for."""
    records = some_records(4, Dice("cut files"))
    for written, length in product(LENGTHS, repeat=2):
        file = file_by(written, records)
        for at in range(len(file) + 1):
            dropped = check_salvage(f"cut at {at}", file[:at], length)
            assert written != length or dropped == [], (at, dropped)
            check_salvage(f"from {at} on", file[at:], length)


def check_fields():
    """Each field of a record among good ones wrong by one, by a high bit, or at the ends of its range."""
    one, *_, other = records = some_records(5, Dice("wrong fields"))
    changes = [(at, number) for at in range(8) for number in (one[at] + 1, one[at] - 1, one[at] ^ 0x80, 0, 1)]
    changes += [(at, 255) for at in (6, 7)] + [(6, 15), (6, 14), (0, 4_000_001), (1, 4_000_001), (0, 2**32 - 1), (5, -32_768), (5, 32_767)]
    for length, (at, number) in product(LENGTHS, changes):
        if number < 0 and at != 5 or number > 255 and at > 5:
            continue
        body = body_by(length, [other, (*one[:at], number, *one[at + 1:]), *records])
        check_salvage(f"field {at} is {number}", body, length)


def check_others():
    """Other edges, records of refused readings, steps over 14, and Duv that 18 bytes cannot hold."""
    records = some_records(40, Dice("other salvages"))
    refused = [(0, 0, *GOOD[2:]), (183000, 276000, *GOOD[2:]), (4_000_001, 327100, *GOOD[2:]), (0, 0, 0, 0, 0, 0, 0, 0)]
    slow = [(*record[:6], steps, record[7]) for record in kept(219300, 327100, 14) for steps in (13, 14, 15, 28, 255)]
    wide = [record for u, v in ((345070, 310530), (337230, 410510), (345070, 327763)) for record in kept(u, v, 3)]
    assert max(abs(record[5]) for record in wide) >= 2**15 and len(wide) == 3
    for edges in (EDGES, OTHER_EDGES, (1600, 20001), (2700, 3000), range(1600, 20001, 600), (1600,), (1600, 1600), range(1600, 1633), ()):
        for length in LENGTHS:
            check_salvage(f"edges {edges}", body_by(length, records + refused + slow), length, edges)
        check_salvage(f"edges {edges}", body_by(WRITTEN, wide + records), WRITTEN, edges)


def check_any_bytes():
    """Any bytes, by any record length."""
    dice = Dice("any bytes")
    for size, length in product((0, 1, 17, 18, 19, 20, 21, 36, 40, 179, 180, 181, 1000), (0, 1, 17, 18, 19, 20, 21, 36, 2**32 + 18, 2**64 - 1)):
        check_salvage(f"{size} bytes by {length}", bytes(dice.below(256) for _ in range(size)), length)


def check_most():
    """3,200 and 3,201 records kept, with dropped ones about them and more whole records than any file has."""
    bad = GOOD._replace(duv=0)
    for length, (count, others) in product(LENGTHS, ((3200, 0), (3201, 0), (3200, 1), (3199, 600), (3201, 600), (1, 70_000), (0, 70_000))):
        half = others // 2
        data = body_by(length, [bad]) * half + body_by(length, [GOOD]) * count + body_by(length, [bad]) * (others - half) + bytes(5)
        dropped = check_salvage(f"{count} kept and {others} dropped", data, length)
        assert dropped == ([] if count > 3200 else [*range(half), *range(half + count, count + others)]), (count, others)
    assert python_salvage(body_by(20, [GOOD]) * 3201, 20, EDGES, 0, 0) == (11, None)


def check_again():
    """What is salvaged can be read, and is salvaged to itself."""
    for length in LENGTHS:
        records = some_records(30, Dice("salvaged again"))
        data = bytearray(body_by(length, records))
        data[5 * length] ^= 1
        once = salvage(data, length)
        assert cradlekeel.read_records(once.file) == records[:5] + records[6:] and salvage(once.file, 20) == (once.file, [], 8)


def check_bytes_like():
    """The data may be any bytes-like object, is not changed by being salvaged, and can be changed afterwards."""
    file = file_of(some_records(3, Dice("bytes-like")))
    for form, length in product(FORMS, LENGTHS):
        given = form(file)
        assert python_salvage(given, length) == expected(file, length) and bytes(given) == file
    held = bytearray(file)
    first = salvage(held, 20)
    held.append(0)
    assert salvage(held, 20) == (*first[:2], 9)


def run_vectors():
    """Every vector `salvage`; what was checked is also how its committed answer begins."""
    calls, answers = ((ROOT / f"crates/vectors/{name}").read_text().splitlines() for name in ("stdin", "stdout"))
    count = 0
    for (line, held), answer in zip(vectors.with_held(calls), answers):
        kind, *numbers = line.split()
        if kind == "salvage":
            length, file_room, list_room, *edges = map(int, numbers)
            refusal, found = python_salvage(held.file, length, edges, file_room, list_room)
            expect(line, (refusal, found), expected(held.file, length, edges, file_room, list_room))
            counts = (found.kept, len(found.dropped), found.leftover) if found else (0, 0, 0)
            assert [*map(str, (refusal, *counts))] == answer.split()[:4], (line, answer)
            count += 1
    assert count, "the vectors have no line of salvages"
    return count


# --- examples/salvage.c -----------------------------------------------------------------------------------------------

EXAMPLE = ROOT / "target/abi/salvage"


def run_example(*words, **options):
    return subprocess.run([EXAMPLE, *words], stdout=options.pop("stdout", subprocess.PIPE), stderr=subprocess.PIPE, text=True, **options)


def check_example():
    """The program writes and prints what the second program salvages, and nothing where nothing is kept or a file is there."""
    bad = GOOD._replace(place=1)
    with tempfile.TemporaryDirectory() as folder:
        broken, new = Path(folder) / "broken.rec", Path(folder) / "new.rec"
        for length, records in product(LENGTHS, ([GOOD], [GOOD, bad, GOOD], [bad, GOOD], 3200 * [GOOD], 9000 * [bad] + [GOOD])):
            data = body_by(length, records) + b"left"
            broken.write_bytes(data)
            _, (file, dropped, leftover) = expected(data, length)
            lines = [f"{(len(file) - 8) // 20} kept, {len(dropped)} dropped, {leftover} bytes left over", *(f"record {n} is dropped" for n in dropped)]
            ran = run_example(str(length), broken, new)
            assert (ran.stdout.splitlines(), ran.stderr, ran.returncode, new.read_bytes()) == (lines, "", 0, file), (length, ran)
            ran = run_example(str(length), broken, new)
            assert (ran.stdout, ran.returncode, new.read_bytes()) == ("", 1, file) and ran.stderr == f"{new}: File exists\n", ran
            new.unlink()
        check_example_faults(broken, new)
    for words in ((), ("20", "a"), ("a", "b"), ("19", "a", "b"), ("", "a", "b"), ("20", "a", "b", "c")):
        ran = run_example(*words)
        assert (ran.returncode, ran.stdout, ran.stderr) == (2, "", "usage: salvage 18|20 BROKEN NEW\n"), ran


def check_example_faults(broken, new):
    """What cannot be read or kept is told, and no file is made; nor is one where the disk is full."""
    for data, said in ((b"", "nothing can be kept"), (bytes(99), "nothing can be kept"), (3201 * body_by(20, [GOOD]), "over 3,200 records would be kept")):
        broken.write_bytes(data)
        ran = run_example("20", broken, new)
        assert (ran.stdout, ran.stderr, ran.returncode) == ("", f"salvage: {broken}: {said}\n", 1) and not new.exists(), ran
    for name, said in ((new.parent / "none.rec", "No such file or directory"), (new.parent, "Is a directory")):
        ran = run_example("20", name, new)
        assert (ran.stdout, ran.stderr, ran.returncode) == ("", f"{name}: {said}\n", 1) and not new.exists(), ran
    broken.write_bytes(body_by(20, [GOOD]))
    ran = run_example("20", broken, new, preexec_fn=no_large_files)
    assert (ran.stdout, ran.stderr, ran.returncode) == ("", f"{new}: File too large\n", 1) and not new.exists(), ran
    with open("/dev/full", "wb") as full:
        ran = run_example("20", broken, new, stdout=full)
    assert (ran.returncode, ran.stderr) == (1, "salvage: standard output could not be written\n") and new.read_bytes() == file_of([GOOD]), ran


def run():
    """Everything that needs the library; how many vectors there are."""
    count = run_vectors()
    check_by_hand()
    check_cuts()
    check_fields()
    check_others()
    check_any_bytes()
    check_most()
    check_again()
    check_bytes_like()
    check_let_go()
    check_example()
    return count
