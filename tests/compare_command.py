"""`cradlekeel compare` as its users meet it; tests/run-program runs PARTS, each in a folder of its own.

What is expected of two files is what the second program lists, in the words of the command."""

import _ctypes
import os
import subprocess
import sys
from itertools import product

import file_differences
import record_cases
from command_runs import COMMAND, PATIENCE, ROOT, Copy, check, expect, no_large_files, run, shell
from dice import Dice
from kept import shown_class
from record_cases import EARLIER, LENGTHS, MOST
from record_command import BAD_FILES, EARLIER_EXTREMES, EXTREMES, count_writes, kelvin, refused
from record_files import WRITTEN, file_by, file_of

ONE = (219300, 327100, 23112, 21892, 23866, -2331, 2, 2)
OTHER = (219300, 327100, 23256, 20672, 25840, -2347, 0, 255)
FIELDS = "u", "v", "place", "low", "high", "duv", "steps", "class"
SAME, DIFFERENT, TROUBLE = 0, 1, 2
INPUT = "standard input"  # what lines call -


def compare(*words, text=b"", **options):
    return run(["compare", *words], text, **options)


def file_for(records):
    """A file of some records: one from before where they are more than are written now."""
    return file_by(EARLIER if len(records) > MOST[WRITTEN] else WRITTEN, records)


def files_in(folder, **lists):
    """Makes a file of each list of records, and returns their names as they are given to a command in that folder."""
    for name, records in lists.items():
        (folder / f"{name}.rec").write_bytes(file_for(records))
    return [f"{name}.rec" for name in lists]


# --- What is expected -------------------------------------------------------------------------------------------------


def entries_of(first, second):
    return file_differences.compare(file_for(first), file_for(second), 10**6)[2]


def plain_lines(first, second):
    return "".join("%d %d %d %d\n" % entry for entry in entries_of(first, second)).encode()


def with_unit(place):
    return f"{kelvin(place)} K" if place else "-"


def worded(entry, names):
    record, field, *contents = entry
    if field > 7:
        return f"record {record}: only in {names[field - 8]}\n"
    first, second = map(shown_class, contents) if field == 7 else contents
    places = " ({} | {})".format(*map(with_unit, contents)) if field in (2, 3, 4) else ""
    return f"record {record}: {FIELDS[field]} {first} | {second}{places}\n"


def plural(count, one, many):
    return f"{count} {one if count == 1 else many}"


def summed_up(first, second, names):
    differing = [record for record, field, _, _ in entries_of(first, second) if field < 8]
    both, extra = min(len(first), len(second)), abs(len(first) - len(second))
    if differing:
        line = f"{plural(len(set(differing)), 'record differs', 'records differ')} in {plural(len(differing), 'field', 'fields')}"
    elif extra:
        line = plural(both, "record is", "records are") + " the same" if both else "no record is in both"
    else:
        line = f"no differences in {plural(both, 'record', 'records')}"
    return line + (f"; {extra} only in {names[len(second) > len(first)]}" if extra else "") + "\n"


def printed(first, second, *names):
    lines = [worded(entry, names) for entry in entries_of(first, second)]
    return "".join([*lines, summed_up(first, second, names)]).encode()


def expect_compared(what, folder, first, second):
    """Both forms of what is printed of two lists, and the status."""
    names = files_in(folder, first=first, second=second)
    status = SAME if first == second else DIFFERENT
    expect(what, compare(*names, cwd=folder), printed(first, second, *names), status=status)
    expect(f"{what}: --plain", compare("--plain", *names, cwd=folder), plain_lines(first, second), status=status)


# --- What is printed --------------------------------------------------------------------------------------------------

LINES = b"""\
record 1: place 23112 | 23256 (4472.1 K | 4444.4 K)
record 1: low 21892 | 20672 (4721.4 K | 5000.0 K)
record 1: high 23866 | 25840 (4330.8 K | 4000.0 K)
record 1: duv -2331 | -2347
record 1: steps 2 | 0
record 1: class 2 | -
record 2: u 219300 | 4294967295
record 2: v 327100 | 0
record 2: place 23112 | 0 (4472.1 K | -)
record 2: low 21892 | 1 (4721.4 K | 103360000.0 K)
record 2: high 23866 | 65535 (4330.8 K | 1577.2 K)
record 2: duv -2331 | 2147483647
record 2: steps 2 | 255
record 2: class 2 | 254
record 3: only in desk.rec
record 4: only in desk.rec
2 records differ in 14 fields; 2 only in desk.rec
"""
PLAIN = b"""\
1 2 23112 23256
1 3 21892 20672
1 4 23866 25840
1 5 -2331 -2347
1 6 2 0
1 7 2 255
2 0 219300 4294967295
2 1 327100 0
2 2 23112 0
2 3 21892 1
2 4 23866 65535
2 5 -2331 2147483647
2 6 2 255
2 7 2 254
3 9 0 0
4 9 0 0
"""
BENCH = [ONE, ONE, ONE]
DESK = [ONE, OTHER, (4_294_967_295, 0, 0, 1, 65_535, 2_147_483_647, 255, 254), OTHER, ONE]


def check_written_out(folder):
    """Every kind of line, written out; and the same of the second program."""
    bench, desk = files_in(folder, bench=BENCH, desk=DESK)
    expect("every kind of line", compare(bench, desk, cwd=folder), LINES, status=DIFFERENT)
    expect("the numbers alone", compare("--plain", bench, desk, cwd=folder), PLAIN, status=DIFFERENT)
    check("the second program expects the same", printed(BENCH, DESK, bench, desk) == LINES and plain_lines(BENCH, DESK) == PLAIN, "another")
    expect("the files the other way round", compare(desk, bench, cwd=folder), printed(DESK, BENCH, desk, bench), status=DIFFERENT)
    check("the files are only read", (folder / bench).read_bytes() == file_of(BENCH) and (folder / desk).read_bytes() == file_of(DESK), folder)


SUMMARIES = {  # of two lists
    b"no differences in 0 records\n": ([], []), b"no differences in 1 record\n": ([ONE], [ONE]),
    b"no differences in 2 records\n": ([ONE, OTHER], [ONE, OTHER]),
    b"no record is in both; 1 only in second.rec\n": ([], [ONE]), b"no record is in both; 3 only in first.rec\n": ([ONE, ONE, OTHER], []),
    b"1 record is the same; 2 only in first.rec\n": ([ONE, ONE, ONE], [ONE]),
    b"2 records are the same; 2 only in second.rec\n": ([ONE, OTHER], [ONE, OTHER, ONE, ONE]),
    b"1 record differs in 1 field\n": ([ONE], [(*ONE[:7], 3)]), b"1 record differs in 6 fields\n": ([ONE, ONE], [OTHER, ONE]),
    b"2 records differ in 2 fields\n": ([ONE, ONE], 2 * [(1, *ONE[1:])]),
    b"1 record differs in 1 field; 1 only in first.rec\n": ([ONE, ONE], [(*ONE[:6], 3, 2)]),
    b"3 records differ in 18 fields; 2 only in second.rec\n": (3 * [ONE], 5 * [OTHER]),
}


def check_summaries(folder):
    for line, lists in SUMMARIES.items():
        expect_compared(line.decode(), folder, *lists)
        ran = compare("first.rec", "second.rec", cwd=folder)
        check(f"the last line {line}", ran.stdout.endswith(line) and (ran.stdout == line or b"\n" + line in ran.stdout), ran)
        check(f"{line}: no differences", (b"no differences" in ran.stdout) == (ran.returncode == SAME), ran)


def check_lists(folder):
    """Lists of the second program's dice, and the most records that there can be, which are in files from before: equal, all different, one
    field in each, one longer."""
    dice = Dice("cradlekeel compare")
    for count, other in ((0, 3), (1, 1), (5, 5), (7, 4), (4, 7), (60, 60)):
        first, second = record_cases.random_records(count, dice), record_cases.random_records(other, dice)
        expect_compared(f"{count} and {other} records", folder, first, second)
        expect_compared(f"{count} and {other} records, the first the same", folder, first, first[:count // 2] + second)
    most = record_cases.random_records(3600, dice, EARLIER)
    for what, second in (("equal", most), ("one field in each", [(u ^ 1, *rest) for u, *rest in most]), ("one less", most[:-1]),
                         ("all different", [(*(n ^ 1 for n in record),) for record in most]), ("none", [])):
        expect_compared(f"3600 records: {what}", folder, most, second)
    expect_compared("3200 and 3600 records", folder, most[:3200], most)
    check("28,800 differences", len(entries_of(most, [(*(n ^ 1 for n in record),) for record in most])) == 28_800, "fewer")


def check_lengths(folder):
    """Files of either record length: the same records are the same, and what differs is printed as ever."""
    names = ["first.rec", "second.rec"]
    for (one, other), (first, second) in product(product(LENGTHS, repeat=2), ((EARLIER_EXTREMES,) * 2, ([ONE, OTHER], [ONE, ONE, OTHER]), ([], [ONE]))):
        for name, file in zip(names, (file_by(one, first), file_by(other, second))):
            (folder / name).write_bytes(file)
        status = SAME if first == second else DIFFERENT
        expect(f"records of {one} and {other} bytes", compare(*names, cwd=folder), printed(first, second, *names), status=status)
    earlier, wide = [(*ONE[:5], 15_536, 0, 0)], [(*ONE[:5], -50_000, 0, 0)]
    (folder / "first.rec").write_bytes(file_by(EARLIER, earlier))
    (folder / "second.rec").write_bytes(file_of(wide))
    expect("Duv that agree in 16 bits", compare("--plain", *names, cwd=folder), b"0 5 15536 -50000\n", status=DIFFERENT)


# --- Which files are compared -----------------------------------------------------------------------------------------

NAMES = (b"a b.rec", b"\xff\xfe.rec", b"\xc3\xa9t\xc3\xa9.rec", b"%s {0} \\n.rec", b"--plain", b"a|b", b"record 0: only in x", b"'x'", b"./-")
QUOTED = {b"two\nlines": rb"'two\nlines'", b"\x1b[31mred": rb"'\x1b[31mred'", b"tab\t\r\\": rb"'tab\t\r\\'", b"it's\x7f": b'"it\'s\\x7f"',
          b"\xc3\xa9\x01\xff": rb"'\xc3\xa9\x01\xff'", b"\xc2\x9b31m": rb"'\xc2\x9b31m'", b"\x9b31m": rb"'\x9b31m'"}


def check_names(folder):
    """A line names a file as it is given, in quotes where it has a control character; one that begins with a dash comes after --."""
    for name, called in {**dict(zip(NAMES, NAMES)), **QUOTED}.items():
        (folder / os.fsdecode(name)).write_bytes(file_of([ONE]))
        (folder / "short.rec").write_bytes(file_of([]))
        ran = compare("--", "short.rec", name, cwd=folder)
        said = b"record 0: only in " + called + b"\nno record is in both; 1 only in " + called + b"\n"
        expect(f"a file of the name {name}", ran, said, status=DIFFERENT)
        (folder / os.fsdecode(name)).write_bytes(b"")
        expect(f"{name}, refused", compare("--", "short.rec", name, cwd=folder), b"", refused(os.fsdecode(name), 13) + b"\n", TROUBLE)
        missing = b"cradlekeel: " + name + b": No such file or directory\n"
        (folder / os.fsdecode(name)).unlink()
        expect(f"{name}, missing", compare("--", name, "short.rec", cwd=folder), b"", missing, TROUBLE)
    expect("a path", compare(folder / "short.rec", folder / "short.rec"), b"no differences in 0 records\n")


def check_one_file(folder):
    """A file beside itself, by one name, two names and a link, and standard input as either file."""
    (name,) = files_in(folder, all=EXTREMES)
    os.link(folder / name, folder / "same.rec")
    os.symlink(name, folder / "link.rec")
    for other in (name, "same.rec", "link.rec", f"./{name}"):
        expect(f"{name} and {other}", compare(name, other, cwd=folder), b"no differences in 6 records\n")
        expect(f"{name} and {other}: --plain", compare(name, other, "--plain", cwd=folder))
    text = file_of(EXTREMES[:-1])
    expect("standard input first", compare("-", name, text=text, cwd=folder), printed(EXTREMES[:-1], EXTREMES, INPUT, name), status=DIFFERENT)
    expect("standard input second", compare(name, "-", text=text, cwd=folder), printed(EXTREMES, EXTREMES[:-1], name, INPUT), status=DIFFERENT)
    ran = shell('"$0" compare <(cat all.rec) <(cat all.rec)', cwd=folder)
    expect("two pipes", ran, b"no differences in 6 records\n")


# --- Files that cannot be read ----------------------------------------------------------------------------------------


def check_bad_files(folder):
    """A file that cannot be read is named with its number and reason, the first where neither can; nothing is printed."""
    (good,) = files_in(folder, good=EXTREMES)
    for number, files in BAD_FILES.items():
        for k, file in enumerate(files):
            bad = f"{number}-{k}.rec"
            (folder / bad).write_bytes(file)
            said = refused(bad, number) + b"\n"
            expect(f"{bad} first", compare(bad, good, cwd=folder), b"", said, TROUBLE)
            expect(f"{bad} second", compare(good, bad, cwd=folder), b"", said, TROUBLE)
            expect(f"{bad} twice", compare("--plain", bad, bad, cwd=folder), b"", said, TROUBLE)
    for one in BAD_FILES:
        for other in BAD_FILES:
            ran = compare(f"{one}-0.rec", f"{other}-1.rec", cwd=folder)
            expect(f"neither can be read: {one} and {other}", ran, b"", refused(f"{one}-0.rec", one) + b"\n", TROUBLE)


def check_missing_files(folder):
    """What cannot be opened or is too long for a record file is named too, the first where neither can be read."""
    good, empty = files_in(folder, good=EXTREMES, none=[])
    (folder / "bad.rec").write_bytes(b"")
    os.mkfifo(folder / "pipe")
    long = b"over 1,310,708 bytes, longer than any record file"
    faults = {"missing.rec": b"No such file or directory", ".": b"Is a directory", "/dev/zero": long, "good.rec/x": b"Not a directory"}
    for name, fault in faults.items():
        said = b"cradlekeel: " + name.encode() + b": " + fault + b"\n"
        expect(f"{name} first", compare(name, good, cwd=folder), b"", said, TROUBLE)
        expect(f"{name} second", compare(empty, name, cwd=folder), b"", said, TROUBLE)
        expect(f"{name} and a refused file", compare(name, "bad.rec", cwd=folder), b"", said, TROUBLE)
        expect(f"a refused file and {name}", compare("bad.rec", name, cwd=folder), b"", refused("bad.rec", 13) + b"\n", TROUBLE)
    expect("the second is not waited for", compare("bad.rec", "pipe", cwd=folder), b"", refused("bad.rec", 13) + b"\n", TROUBLE)
    expect("a closed standard input", shell('"$0" compare - good.rec <&-', cwd=folder), b"",
           b"cradlekeel: -: Bad file descriptor\n", TROUBLE)
    expect("no standard input", compare(good, "-", cwd=folder), b"", refused("-", 13) + b"\n", TROUBLE)
    expect("a failure that cannot be told", shell('"$0" compare none missing 2>&-', cwd=folder), status=TROUBLE)


# --- Output that fails ------------------------------------------------------------------------------------------------


def check_output(folder):
    """Output that cannot be written is trouble, whether the files differ or not."""
    first, second = files_in(folder, first=3600 * [ONE], second=3600 * [OTHER])
    no_write = b"cradlekeel: cannot write standard output: "
    for words in (f"{first} {second}", f"--plain {first} {second}", f"{first} {first}", "--help"):
        full, closed = (shell(f'"$0" compare {words} {sign}', cwd=folder) for sign in (">/dev/full", ">&-"))
        expect(f"{words}: a full disk", full, said=no_write + b"No space left on device\n", status=TROUBLE)
        expect(f"{words}: a closed standard output", closed, said=no_write + b"Bad file descriptor\n", status=TROUBLE)
    expect("nothing to write to a closed output", shell(f'"$0" compare --plain {first} {first} >&-', cwd=folder))
    with (folder / "differences").open("wb") as differences:
        words = [COMMAND, "compare", folder / first, folder / second]
        ran = subprocess.run(words, stdout=differences, stderr=subprocess.PIPE, timeout=PATIENCE, preexec_fn=no_large_files)
    check("a disk that fills up", (ran.returncode, ran.stderr) == (TROUBLE, no_write + b"File too large\n"), ran)
    ran = shell(f'"$0" compare {first} {second} | head -1; echo ${{PIPESTATUS[0]}}', cwd=folder)
    expect("a reader that leaves after a line", ran, LINES.splitlines(True)[0].replace(b"record 1", b"record 0") + b"141\n")
    for words in ([first, second], ["--plain", first, second], [first, first]):
        check("one write", count_writes(["compare", *words], folder) == 1, words)


# --- Usage and builds -------------------------------------------------------------------------------------------------

TWO_FILES = "two files are to be named, as in cradlekeel compare bench.rec desk.rec"
WRONG_USAGE = {(): TWO_FILES, ("a",): TWO_FILES, ("a", "b", "c"): TWO_FILES, ("a", ""): TWO_FILES, ("", "b"): TWO_FILES, ("--plain", "a"): TWO_FILES,
               ("-", "-"): "'-' is standard input, which can be one of the two files and not both",
               ("--kelvin", "a", "b"): "option --kelvin not recognized", ("-p", "a", "b"): "option -p not recognized",
               ("--plain=1", "a", "b"): "option --plain must not have an argument"}


HELP = ("it is all: no differences in 14 records", "low the hot end of the range and high the cool one", "in bash: diff <(cradlekeel show bench.rec)",
        "A line that was refused for one file only has no record there", "141 the reader of the lines went away",
        "with the reason and, where it is refused, its number", "with records of 18 bytes instead of 20")


def check_usage(folder):
    for word in ("-h", "--help"):
        ran = compare("a", word, cwd=folder)
        text, lines = ran.stdout.decode(), ran.stdout.decode().splitlines()
        check(f"compare {word}", lines[0] == "usage: cradlekeel compare [--plain] FIRST SECOND" and not ran.stderr and not ran.returncode, ran)
        check(f"compare {word}: options and statuses", "  -h, --help    this text" in lines and "0 both files have the same records" in text, ran)
        missing = [said for said in HELP if said not in " ".join(text.split())]
        check(f"compare {word}: what has to be said", not missing, missing)
        check(f"compare {word}: lines that a terminal shows", max(map(len, lines)) <= 132, max(map(len, lines)))
    for words, fault in WRONG_USAGE.items():
        expect(f"compare {words}", compare(*words, cwd=folder), b"", f"cradlekeel: {fault}; see cradlekeel compare --help\n".encode(), TROUBLE)
    check("nothing is made", not os.listdir(folder), os.listdir(folder))


def check_missing(folder):
    """Without a library, or with another one, nothing is compared."""
    names = files_in(folder, first=[ONE], second=[OTHER])
    for named, words in (("/none.so", b"there is no such file"), (_ctypes.__file__, b"has no function ck_")):
        ran = run(["-B", "-m", "cradlekeel", "compare", *names], command=sys.executable, cwd=folder,
                  env={**os.environ, "PYTHONPATH": str(ROOT / "python"), "CRADLEKEEL_LIBRARY": named})
        check(f"{named} as the library", (ran.returncode, ran.stdout) == (TROUBLE, b"") and words in ran.stderr, ran)


def check_copy(folder):
    copy, words = Copy(folder), ["compare", *(folder / name for name in files_in(folder, first=[ONE], same=[ONE]))]
    ran = run(words, command=copy.command, **copy.options("fail"))
    check("a build that fails", ran.returncode == TROUBLE and not ran.stdout and b"rt: FAILED: text" in ran.stderr, ran)
    for asked, status in ((["compare", "--help"], 0), (["compare"], TROUBLE)):
        ran = run(asked, command=copy.command, **copy.options())
        check(f"{asked} needs nothing", ran.returncode == status and not copy.runs.read_text(), ran)
    copy.check_run("a first run builds the library", 1, words, b"", b"no differences in 1 record\n")
    copy.check_run("a second run builds nothing", 0, words, b"", b"no differences in 1 record\n")


FAULTY = """
import sys
from cradlekeel import __main__
from cradlekeel.commands import compare
compare.compare_files = lambda *files: 1 // 0
sys.exit(__main__.main(["compare", *sys.argv[1:]]))"""


def check_fault(folder):
    """A fault of the command itself is trouble too, and not taken for a difference."""
    environment = dict(os.environ, PYTHONPATH=str(ROOT / "python"))
    ran = subprocess.run([sys.executable, "-c", FAULTY, *files_in(folder, one=[ONE]) * 2], capture_output=True, cwd=folder, env=environment)
    check("a fault", ran.returncode == TROUBLE and not ran.stdout and b"ZeroDivisionError" in ran.stderr, ran)


PARTS = (check_written_out, check_summaries, check_lists, check_lengths, check_names, check_one_file, check_bad_files, check_missing_files, check_output,
         check_usage, check_missing, check_fault, check_copy)
