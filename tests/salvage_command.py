"""`cradlekeel salvage` as its users meet it; tests/run-program runs PARTS, each in a folder of its own.

What is expected of a broken file is what the second program salvages, in the words of the command."""

import _ctypes
import fcntl
import os
import shutil
import signal
import stat
import subprocess
import sys
import termios
import time

import write_faults
from command_runs import COMMAND, PATIENCE, ROOT, Copy, check, expect, run, shell
from compare_command import plural
from dice import Dice
from record_cases import LENGTHS
from record_command import count_writes
from record_files import file_by, file_of
from reference import TEXT_EDGES
from salvage_test import GOOD, OTHER_EDGES, body_by, expected, some_records
from write_faults import OLD, Writing, holds

BAD = GOOD._replace(duv=-2330)
BODY = body_by(20, [GOOD, BAD, BAD, GOOD, BAD]) + b"left over"
FILE = file_of([GOOD, GOOD])
TOLD = b"""\
read as records of 20 bytes: 2 kept, 3 dropped, 9 bytes left over; as records of 18 bytes, none would be kept
dropped: 1-2, 4
"""
EXISTS = "the file exists; --replace replaces it"


def salvage(*words, text=b"", **options):
    return run(["salvage", *words], text, **options)


def broken_in(folder, data=BODY):
    """Makes a broken file and returns its name as it is given to a command in that folder."""
    (folder / "broken.rec").write_bytes(data)
    return "broken.rec"


def nothing_made(what, folder, *others):
    check(f"{what}: nothing is made", sorted(os.listdir(folder)) == sorted(("broken.rec", *others)), os.listdir(folder))


# --- What is expected -------------------------------------------------------------------------------------------------


def kept_by(data, length, edges):
    """How many records are kept; 3,201 where that is refused."""
    refusal, found = expected(data, length, edges)
    return 3201 if refusal else (len(found[0]) - 8) // 20


def in_runs(numbers):
    """The runs of numbers that follow one another, as they are written."""
    runs = []
    for number in numbers:
        if runs and number == runs[-1][-1] + 1:
            runs[-1].append(number)
        else:
            runs.append([number])
    return [str(run[0]) if len(run) == 1 else f"{run[0]}-{run[-1]}" for run in runs], list(map(len, runs))


def dropped_line(dropped):
    if not dropped:
        return ""
    runs, counts = in_runs(dropped)
    more = sum(counts[10:])
    beyond = f", and {plural(more, 'record', 'records')} more, which --dropped lists" if more else ""
    return f"dropped: {', '.join(runs[:10])}{beyond}\n"


END = "from record {} on none is kept: bytes may be lost or added there, see docs/FILES.md\n"


def end_line(dropped, count):
    """The line about the end of so many whole records where the last two of them, or more, are dropped."""
    start = 1 + max(set(range(count)) - set(dropped))  # after the last that is kept
    return END.format(start) if count - start >= 2 else ""


def in_short(data, length, dropped):
    """What is told after the first line without --dropped."""
    return dropped_line(dropped) + end_line(dropped, len(data) // length)


def in_full(dropped):
    return "".join(f"{number}\n" for number in dropped)


def summed_up(data, length, edges, other=None):
    """The first line, where the other length was tried too."""
    file, dropped, leftover = expected(data, length, edges)[1]
    kept = (len(file) - 8) // 20
    line = f"read as records of {length} bytes: {kept} kept, {len(dropped)} dropped, {plural(leftover, 'byte', 'bytes')} left over"
    if other is None:
        return f"{line}\n"
    fewer = kept_by(data, other, edges)
    return f"{line}; as records of {other} bytes, {'none' if not fewer else 'as many' if fewer == kept else f'only {fewer}'} would be kept\n"


def check_salvaged(what, folder, data, length, other=None, edges=TEXT_EDGES):
    """What is written and printed in both forms of a file whose records have a length, where the other was tried too or that is given."""
    name, (file, dropped, _) = broken_in(folder, data), expected(data, length, edges)[1]
    words = [name, "new.rec", *(["--edges", ",".join(map(str, edges))] if edges != TEXT_EDGES else []), *([] if other else ["--length", str(length)])]
    first = summed_up(data, length, edges, other)
    for more, rest in (([], in_short(data, length, dropped)), (["--dropped", "--replace"], in_full(dropped))):
        expect(f"{what}, {more}", salvage(*words, *more, cwd=folder), (first + rest).encode())
        check(f"{what}: the file", holds(folder / "new.rec") == file and holds(folder / name) == data, holds(folder / "new.rec"))
    (folder / "new.rec").unlink()
    nothing_made(what, folder)


# --- What is kept and told --------------------------------------------------------------------------------------------


def check_written_out(folder):
    """Written out here: what is kept, dropped and left over, in short and in full, and the files."""
    name = broken_in(folder)
    expect("what is told", salvage(name, "new.rec", cwd=folder), TOLD)
    check("the new file", holds(folder / "new.rec") == FILE, holds(folder / "new.rec"))
    expect("which can be shown", run(["show", "new.rec"], cwd=folder), 2 * b"219300 327100 23112 21892 23866 -2331 2 2\n")
    ran = salvage("--length", "20", "--dropped", name, "all.rec", cwd=folder)
    expect("a length, and all numbers", ran, b"read as records of 20 bytes: 2 kept, 3 dropped, 9 bytes left over\n1\n2\n4\n")
    ran = salvage("new.rec", "again.rec", cwd=folder)
    expect("what was salvaged", ran, b"read as records of 20 bytes: 2 kept, 0 dropped, 8 bytes left over; as records of 18 bytes, none would be kept\n")
    check("is salvaged to itself", holds(folder / "again.rec") == holds(folder / "all.rec") == FILE, holds(folder / "again.rec"))
    check("the broken file is only read", holds(folder / name) == BODY, holds(folder / name))
    check("nothing else is left", sorted(os.listdir(folder)) == ["again.rec", "all.rec", "broken.rec", "new.rec"], os.listdir(folder))


def check_cases(folder):
    """Files of either length with damage, cut, with other edges, and longer than any file."""
    dice = Dice("cradlekeel salvage")
    records = some_records(60, dice)
    for length, other in (LENGTHS, LENGTHS[::-1]):
        whole = file_by(length, records)
        damaged = bytearray(whole)
        for at in (0, 5 * length + 3, 6 * length, 7 * length + 9, 50 * length + length - 1):
            damaged[at] ^= 0x40
        odd = b"".join(body_by(length, [record, BAD]) for record in records[:30])
        for what, data in (("whole", whole), ("damaged", bytes(damaged)), ("cut", whole[:length * 9 + 1]), ("odd ones", odd + b"x"),
                           ("lost bytes", whole[:50 * length] + whole[50 * length + 3:]), ("one beyond", odd[:22 * length]),
                           ("one of many", 4000 * body_by(length, [BAD]) + body_by(length, [GOOD]))):
            check_salvaged(f"{what}, {length} of both", folder, data, length, other)
        check_salvaged(f"damaged, {length}", folder, bytes(damaged), length)
        check_salvaged(f"other edges, {length}", folder, whole, length, other, OTHER_EDGES)


def check_end(folder):
    """Written out here: where the last two whole records or more are dropped, a line says so; with --dropped there is none."""
    for records, dropped, end in (([GOOD, BAD], "1", ""), ([GOOD, BAD, BAD], "1-2", END.format(1)), ([BAD, BAD, GOOD], "0-1", ""),
                                  ([BAD, GOOD, GOOD, BAD, BAD, BAD], "0, 3-5", END.format(3)), ([GOOD, BAD, BAD, GOOD, BAD], "1-2, 4", ""),
                                  (50 * [GOOD] + 10 * [BAD], "50-59", END.format(50))):
        name, kept = broken_in(folder, body_by(20, records) + b"left over"), records.count(GOOD)
        first = f"read as records of 20 bytes: {kept} kept, {len(records) - kept} dropped, 9 bytes left over\n"
        expect(f"{dropped} of {len(records)}", salvage("--length", "20", "--replace", name, "new.rec", cwd=folder), f"{first}dropped: {dropped}\n{end}".encode())
        ran = salvage("--length", "20", "--replace", "--dropped", name, "new.rec", cwd=folder)
        expect(f"all of {dropped}", ran, (first + in_full(k for k, record in enumerate(records) if record == BAD)).encode())


def check_runs(folder):
    """Written out here: ten runs of numbers are told, and how many records there are in those beyond; - is a record that is dropped."""
    ten = "--+-+---+-+-+-+-+-+-+-+"
    told = "dropped: 0-1, 3, 5-7, 9, 11, 13, 15, 17, 19, 21"
    for signs, counts, more in ((ten, "10 kept, 13 dropped", ""), (ten + "-+", "11 kept, 14 dropped", ", and 1 record more, which --dropped lists"),
                                (ten + "--+-+", "12 kept, 16 dropped", ", and 3 records more, which --dropped lists")):
        name = broken_in(folder, body_by(20, [GOOD if sign == "+" else BAD for sign in signs]))
        first = f"read as records of 20 bytes: {counts}, 0 bytes left over\n"
        expect(signs, salvage("--length", "20", "--replace", name, "new.rec", cwd=folder), f"{first}{told}{more}\n".encode())


BOTH = body_by(18, [GOOD]) + b"--" + body_by(20, [GOOD])  # as many of either length


def check_lengths(folder):
    """The length that keeps more is taken, 20 where both keep as many; 3,201 is more than any."""
    check_salvaged("as many of both", folder, BOTH, 20, 18)
    check("one of each", kept_by(BOTH, 18, TEXT_EDGES) == kept_by(BOTH, 20, TEXT_EDGES) == 1, BOTH)
    check_salvaged("18 where it is asked for", folder, BOTH, 18)
    check_salvaged("one of 18, two of 20", folder, BOTH + body_by(20, [GOOD]), 20, 18)
    check_salvaged("two of 18, one of 20", folder, body_by(18, [GOOD, GOOD]) + bytes(4) + body_by(20, [GOOD]), 18, 20)
    tail = body_by(18, 3201 * [GOOD])
    data = body_by(20, [GOOD]) + bytes(16) + tail  # 36 bytes before the records of 18
    check("over 3,200 of 18, and one of 20", (kept_by(data, 18, TEXT_EDGES), kept_by(data, 20, TEXT_EDGES) > 0) == (3201, True), data[:99])
    for words, length in (([], 18), (["--length", "18"], 18)):
        expect(f"refusal 11, {words}", salvage(broken_in(folder, data), "new.rec", *words, cwd=folder), b"", too_many(length, "new.rec"), 1)
    nothing_made("refusal 11", folder)
    check_salvaged("the other length is asked for", folder, data, 20)


def too_many(length, new):
    return (f"cradlekeel: broken.rec: refusal 11: more than 3,200 records of {length} bytes would be kept, the most that a file holds, "
            f"so {new} is not written; docs/FILES.md tells how to salvage them part by part\n").encode()


def check_most(folder):
    """3,200 records are kept, whatever is dropped beside them; of more, none; part by part, as docs/FILES.md has it, all are."""
    for length in LENGTHS:
        check_salvaged("3200", folder, body_by(length, 3200 * [GOOD]), length)
        check_salvaged("3200 among others", folder, body_by(length, 600 * [BAD] + 3200 * [GOOD] + 600 * [BAD]), length, sum(LENGTHS) - length)
        for count in (3201, 3600, 10_000):
            (folder / "old.rec").write_bytes(OLD)
            name = broken_in(folder, body_by(length, count * [GOOD]))
            for words in (["new.rec"], ["--replace", "old.rec"]):
                expect(f"{count}", salvage(name, *words, cwd=folder), b"", too_many(length, words[-1]), 1)
            check("nothing is written", holds(folder / "old.rec") == OLD, holds(folder / "old.rec"))
            (folder / "old.rec").unlink()
            nothing_made(f"{count}", folder)
    broken_in(folder, body_by(18, 3600 * [GOOD]))
    ran = shell('head -c 57600 broken.rec | "$0" salvage - a.rec > /dev/null && tail -c +57601 broken.rec | "$0" salvage - b.rec > /dev/null', cwd=folder)
    expect("part by part", ran)
    check("all are kept", [holds(folder / name) for name in ("a.rec", "b.rec")] == [file_of(n * [GOOD]) for n in (3200, 400)], os.listdir(folder))


REASON = ("; the reason may be {}other class edges (--edges), answers of an earlier Cradlekeel, first bytes that are lost, "
          "or it is no record file or damaged throughout")
OTHER_LENGTH = "another record length (--length)"
NONE_KEPT = {  # broken files, each with what is said of it where no length is given
    b"": "it is empty", b"x": "its 1 byte is no whole record", bytes(17): "its 17 bytes are no whole record",
    bytes(18): "its 18 bytes are no whole record of 20 bytes, and nothing is kept of 1 record of 18 bytes",
    body_by(20, [GOOD])[:19]: "its 19 bytes are no whole record of 20 bytes, and nothing is kept of 1 record of 18 bytes",
    bytes(20): "nothing is kept of 1 record of 20 bytes or 1 record of 18 bytes",
    bytes(400): "nothing is kept of 20 records of 20 bytes or 22 records of 18 bytes",
    body_by(20, 10 * [BAD]): "nothing is kept of 10 records of 20 bytes or 11 records of 18 bytes",
    body_by(20, 10 * [GOOD])[1:]: "nothing is kept of 9 records of 20 bytes or 11 records of 18 bytes",
    100_000 * b"219300 327100 2\n": "nothing is kept of 80000 records of 20 bytes or 88888 records of 18 bytes",
}
NONE_BY_LENGTH = (  # a broken file and the length that is given, with what is said of it and the reason
    (body_by(18, 3 * [GOOD]), 20, "nothing is kept of 2 records of 20 bytes", REASON.format(f"{OTHER_LENGTH}, ")),
    (body_by(20, 3 * [GOOD]), 18, "nothing is kept of 3 records of 18 bytes", REASON.format(f"{OTHER_LENGTH}, ")),
    (body_by(18, [GOOD]), 20, "its 18 bytes are no whole record of 20 bytes", f"; the reason may be {OTHER_LENGTH}"),
    (body_by(18, [GOOD]) + b"x", 20, "its 19 bytes are no whole record of 20 bytes", f"; the reason may be {OTHER_LENGTH}"),
    (bytes(17), 20, "its 17 bytes are no whole record of 20 bytes", ""),  # nor would they be one of 18
    (bytes(17), 18, "its 17 bytes are no whole record of 18 bytes", ""), (b"x", 18, "its 1 byte is no whole record of 18 bytes", ""),
    (b"", 20, "it is empty", ""),
)


def not_written(why, new, reason):
    return f"cradlekeel: broken.rec: {why}, so {new} is not written{reason}\n".encode()


def all_dropped(data, length, other=None, edges=TEXT_EDGES):
    """What --dropped prints where nothing is kept."""
    return (summed_up(data, length, edges, other) + in_full(expected(data, length, edges)[1][1])).encode()


def check_none_kept(folder):
    """Where nothing is kept no file is made, one that exists stays, and it is said what the reason may be; --dropped lists all the same."""
    (folder / "old.rec").write_bytes(OLD)
    for data, why in NONE_KEPT.items():
        name, reason = broken_in(folder, data), REASON.format("") if "nothing" in why else ""
        expect(f"{data[:20]}", salvage(name, "new.rec", cwd=folder), b"", not_written(why, "new.rec", reason), 1)
        ran = salvage(name, "--replace", "old.rec", "--dropped", cwd=folder)
        expect(f"all of {data[:20]}", ran, all_dropped(data, 20, 18), not_written(why, "old.rec", reason), 1)
        check("nothing is written", holds(folder / "old.rec") == OLD, holds(folder / "old.rec"))
        nothing_made(f"{data[:20]}", folder, "old.rec")
    twelve = b"read as records of 20 bytes: 0 kept, 12 dropped, 0 bytes left over\n0\n1\n2\n3\n4\n5\n6\n7\n8\n9\n10\n11\n"
    ran = salvage(broken_in(folder, body_by(20, 12 * [BAD])), "new.rec", "--length", "20", "--dropped", cwd=folder)
    expect("twelve, written out here", ran, twelve, not_written("nothing is kept of 12 records of 20 bytes", "new.rec", REASON.format(f"{OTHER_LENGTH}, ")), 1)


def check_none_by(folder):
    """The same with a length or edges that are not the file's."""
    for data, length, why, reason in NONE_BY_LENGTH:
        words, said = [broken_in(folder, data), "new.rec", "--length", str(length)], not_written(why, "new.rec", reason)
        expect(f"{len(data)} bytes by {length}", salvage(*words, cwd=folder), b"", said, 1)
        expect(f"all of {len(data)} bytes by {length}", salvage(*words, "--dropped", cwd=folder), all_dropped(data, length), said, 1)
    data, edges = body_by(18, 3 * [GOOD]), "1600,4500,20001"
    said = not_written("nothing is kept of 2 records of 20 bytes or 3 records of 18 bytes", "new.rec", REASON.format(""))
    expect("edges that are not the file's", salvage(broken_in(folder, data), "new.rec", "--edges", edges, cwd=folder), b"", said, 1)
    ran = salvage("broken.rec", "new.rec", "--edges", edges, "--dropped", cwd=folder)
    expect("all with these edges", ran, all_dropped(data, 20, 18, OTHER_EDGES), said, 1)
    nothing_made("none kept", folder)


# --- The broken file --------------------------------------------------------------------------------------------------


def check_broken(folder):
    """A broken file that cannot be read is named, and nothing is made."""
    name = broken_in(folder)
    device = "it is a device, which is not salvaged"
    for given, said in (("none.rec", "No such file or directory"), (".", "Is a directory"), ("broken.rec/x", "Not a directory"),
                        ("/dev/zero", device), ("/dev/full", device), ("/dev/null", device), ("x" * 256, "File name too long")):
        expect(given, salvage(given, "new.rec", cwd=folder), b"", f"cradlekeel: {given}: {said}\n".encode(), 1)
    expect("standard input without end", shell('"$0" salvage - new.rec </dev/zero', cwd=folder), b"", f"cradlekeel: -: {device}\n".encode(), 1)
    expect("a closed standard input", shell('"$0" salvage - new.rec <&-', cwd=folder), b"", f"cradlekeel: -: {device}\n".encode(), 1)
    expect("no standard input", salvage("-", "new.rec", cwd=folder), b"", b"cradlekeel: -: it is empty, so new.rec is not written\n", 1)
    expect("a failure that cannot be told", shell('"$0" salvage none.rec new.rec 2>&-', cwd=folder), status=1)
    bound = ["setpriv", "--bounding-set=-dac_override,-dac_read_search"] if os.geteuid() == 0 else []
    if not bound or shutil.which("setpriv"):
        (folder / name).chmod(0)
        program, *words = [*bound, COMMAND, "salvage", folder / name, folder / "new.rec"]
        expect("one that may not be read", run(words, b"", program), b"", f"cradlekeel: {folder / name}: Permission denied\n".encode(), 1)
    nothing_made("a broken file that cannot be read", folder)


def check_input(folder):
    """Standard input, a pipe, a link and names of any bytes as the broken file."""
    name = broken_in(folder)
    expect("standard input", salvage("-", "a", text=BODY, cwd=folder), TOLD)
    expect("a pipe", shell('"$0" salvage <(cat broken.rec) b', cwd=folder), TOLD)
    (folder / "link").symlink_to(name)
    expect("a link", salvage("link", "c", cwd=folder), TOLD)
    odd = b"\xff\xfe day\n.rec"
    shutil.copy(folder / name, os.fsencode(folder) + b"/" + odd)
    expect("a name that is not UTF-8", salvage(odd, b"\xff new", cwd=folder), TOLD)
    expect("the same again", salvage(odd, b"\xff new", cwd=folder), b"", b"cradlekeel: \xff new: " + EXISTS.encode() + b"\n", 1)
    expect("names that begin with a dash", salvage("--", "./-", "--dropped", cwd=folder), b"", b"cradlekeel: ./-: No such file or directory\n", 1)
    expect("a new one that does", salvage("--length", "20", "--", name, "--dropped", cwd=folder), TOLD.replace(b"; as records of 18 bytes, none would be kept", b""))
    check("all are the same", {holds(folder / new) for new in ("a", "b", "c", "--dropped", os.fsdecode(b"\xff new"))} == {FILE}, os.listdir(folder))


def check_long(folder):
    """A broken file is read to its end, be it longer than any trailer can tell; one that memory has no room for is told of."""
    record, bad = body_by(20, [GOOD]), body_by(20, [BAD])
    name = broken_in(folder, 70_000 * bad + record + 30_000 * bad + record + b"end")
    told = b"read as records of 20 bytes: 2 kept, 100000 dropped, 3 bytes left over\ndropped: 0-69999, 70001-100000\n"
    expect("2,000,043 bytes", salvage("--length", "20", name, "new.rec", cwd=folder), told)
    check("its file", holds(folder / "new.rec") == FILE, holds(folder / "new.rec"))
    with (folder / "huge.rec").open("wb") as huge:
        huge.truncate(1 << 40)
    ran = shell('ulimit -v 400000; "$0" salvage huge.rec huge-new.rec', cwd=folder)
    expect("a terabyte", ran, b"", b"cradlekeel: huge.rec: it is longer than memory has room for\n", 1)
    check("nothing is made of it", sorted(os.listdir(folder)) == ["broken.rec", "huge.rec", "new.rec"], os.listdir(folder))


def check_memory(folder):
    """With little memory the new file is written and told of, or there is none."""
    name, new = broken_in(folder, body_by(20, [GOOD]) + bytes(20_000_000)), folder / "new.rec"
    for limit in (110_000, 140_000, 165_000, 400_000):  # KB
        ran = shell(f'ulimit -v {limit}; rm -f new.rec; "$0" salvage --length 20 {name} new.rec', cwd=folder)
        is_told = ran.returncode == 0 and b"1 kept, 1000000 dropped" in ran.stdout and holds(new) == file_of([GOOD])
        check(f"with {limit} KB", is_told or (ran.returncode != 0 and not new.exists()), ran)


# --- The new file -----------------------------------------------------------------------------------------------------


def check_same_file(folder):
    """The new file is never the broken one, by whatever name, nor what is read or told."""
    name = broken_in(folder)
    (folder / "link.rec").symlink_to(name)
    os.link(folder / name, folder / "other.rec")
    (folder / "sub").mkdir()
    others = f"./sub/../{name}", "link.rec", "other.rec", str(folder / name)
    for broken, new in ((name, name), *((name, other) for other in others), *((other, name) for other in others), ("link.rec", "other.rec")):
        said = f"cradlekeel: {new}: it is the broken file itself\n".encode()
        expect(f"{broken} to {new}", salvage("--replace", broken, new, cwd=folder), b"", said, 1)
    expect("without --replace", salvage(name, "link.rec", cwd=folder), b"", b"cradlekeel: link.rec: it is the broken file itself\n", 1)
    ran = shell('"$0" salvage --replace - broken.rec <link.rec', cwd=folder)
    expect("standard input as the new file", ran, b"", b"cradlekeel: broken.rec: it is standard input itself\n", 1)
    ran = shell('"$0" salvage broken.rec new.rec >>other.rec', cwd=folder)
    expect("standard output as the broken file", ran, b"", b"cradlekeel: broken.rec: it is standard output itself\n", 1)
    (folder / "new.rec").write_bytes(OLD)
    ran = shell('"$0" salvage --replace broken.rec new.rec >>new.rec', cwd=folder)
    expect("standard output as the new file", ran, b"", b"cradlekeel: new.rec: it is standard output itself\n", 1)
    check("both are as they were", (holds(folder / name), holds(folder / "new.rec")) == (BODY, OLD), os.listdir(folder))
    check("nothing is made", sorted(os.listdir(folder)) == ["broken.rec", "link.rec", "new.rec", "other.rec", "sub"], os.listdir(folder))


def check_existing(folder):
    """Without --replace a file that exists is left alone and nothing is read; with it the file is replaced, links are followed, and the
    file keeps its mode."""
    name, new, nothing = broken_in(folder), folder / "new.rec", folder / "nothing.rec"
    new.write_bytes(OLD)
    nothing.symlink_to("far.rec")
    for place in ("new.rec", "nothing.rec"):
        with (folder / name).open("rb") as given:
            ran = subprocess.run([COMMAND, "salvage", "-", place], stdin=given, capture_output=True, timeout=PATIENCE, cwd=folder)
            expect(f"{place} exists", ran, b"", f"cradlekeel: {place}: {EXISTS}\n".encode(), 1)
            check("nothing is read", os.lseek(given.fileno(), 0, os.SEEK_CUR) == 0, "something")
    check("they are left alone", holds(new) == OLD and sorted(os.listdir(folder)) == [name, "new.rec", "nothing.rec"], os.listdir(folder))
    new.chmod(0o604)
    expect("--replace", salvage("--replace", name, "new.rec", cwd=folder), TOLD)
    check("it is replaced, and keeps its mode", (holds(new), stat.S_IMODE(new.stat().st_mode)) == (FILE, 0o604), new.stat())
    expect("--replace follows a link to nothing", salvage("--replace", name, "nothing.rec", cwd=folder), TOLD)
    check("where it led", nothing.is_symlink() and holds(folder / "far.rec") == FILE, os.listdir(folder))
    check("nothing else is left", sorted(os.listdir(folder)) == [name, "far.rec", "new.rec", "nothing.rec"], os.listdir(folder))


def check_places(folder):
    """Names that no new file can have are told before anything is read."""
    name = broken_in(folder)
    (folder / "sub").mkdir()
    os.mkfifo(folder / "pipe")
    device = "it is a device or a pipe, which is not replaced"
    for words, said in ((["none/new.rec"], "there is no folder none"), (["broken.rec/new.rec"], "Not a directory"), (["sub"], "it is a folder"),
                        (["--replace", "sub"], "it is a folder"), (["sub/"], "it is a folder"), (["pipe"], device), (["--replace", "pipe"], device),
                        (["/dev/null"], device), (["x" * 256], "File name too long")):
        broken = name if "pipe" in words else "pipe"  # which nobody writes to, so that a read would wait for ever
        expect(f"{words}", salvage(broken, *words, cwd=folder), b"", f"cradlekeel: {words[-1]}: {said}\n".encode(), 1)
    nothing_made("no place", folder, "sub", "pipe")


def check_full_disk(folder):
    """A file that cannot be written to its end is not there, and one that was there stays; nothing is told as done."""
    for words, kept in ((["new.rec"], None), (["--replace", "old.rec"], OLD)):
        (folder / "old.rec").write_bytes(OLD)
        path, words = folder / words[-1], [broken_in(folder), *words]
        ran = run(["-c", 'ulimit -f 0; exec "$0" salvage "$@"', COMMAND, *words], b"", "bash", cwd=folder)
        expect("no room on the disk", ran, b"", f"cradlekeel: {path.name}: File too large\n".encode(), 1)
        check("the file is as it was", holds(path) == kept, holds(path))
        nothing_made("a full disk", folder, "old.rec")


def check_faults(folder):
    write_faults.check_faults(folder, Writing(["salvage", "-"], BODY, b"", TOLD, FILE))


def check_stopped(folder):
    """Stopped while the broken file is read, as by Ctrl-C, it leaves nothing."""
    for stop in (signal.SIGINT, signal.SIGTERM, signal.SIGHUP):
        pipes = dict.fromkeys(("stdin", "stdout", "stderr"), subprocess.PIPE)
        with subprocess.Popen([COMMAND, "salvage", "-", folder / "new.rec"], start_new_session=True, bufsize=0, **pipes) as process:
            process.stdin.write(BODY)
            until = time.monotonic() + PATIENCE
            while process.poll() is None and is_unread(process.stdin) and time.monotonic() < until:
                time.sleep(0.01)
            unread = is_unread(process.stdin)
            os.killpg(process.pid, stop)
            said = process.stderr.read()
            check(f"{stop.name}: it is being read", not unread, "something unread")
            check(f"{stop.name}", (process.wait(PATIENCE), said) == (-stop, b""), (process.returncode, said))
        check(f"{stop.name} leaves nothing", not os.listdir(folder), os.listdir(folder))


def is_unread(pipe):
    """Whether a pipe still holds something that was written to it."""
    return any(fcntl.ioctl(pipe, termios.FIONREAD, bytes(4)))


# --- Output that fails ------------------------------------------------------------------------------------------------


def check_output(folder):
    """Where it cannot be told what was kept, the new file is written, which the message says."""
    no_write, written = b"cradlekeel: cannot write standard output: ", b"; new.rec is written\n"
    name = broken_in(folder)
    for sign, fault in ((">/dev/full", b"No space left on device"), (">&-", b"Bad file descriptor")):
        expect(sign, shell(f'"$0" salvage {name} new.rec {sign}', cwd=folder), b"", no_write + fault + written, 1)
        check(f"{sign}: it is written", holds(folder / "new.rec") == FILE, os.listdir(folder))
        (folder / "new.rec").unlink()
        expect(f"--help {sign}", shell(f'"$0" salvage --help {sign}', cwd=folder), b"", no_write + fault + b"\n", 1)
    (folder / "many.rec").write_bytes(200_000 * body_by(20, [BAD]) + body_by(20, [GOOD]))
    ran = shell('"$0" salvage --length 20 --dropped many.rec new.rec | head -1; echo ${PIPESTATUS[0]}', cwd=folder)
    expect("a reader that leaves after a line", ran, b"read as records of 20 bytes: 1 kept, 200000 dropped, 0 bytes left over\n141\n")
    check("it is written", holds(folder / "new.rec") == file_of([GOOD]) and not [n for n in os.listdir(folder) if n[0] == "."], os.listdir(folder))
    check_output_of_none(folder)
    check("one write", count_writes(["salvage", name, "last.rec"], folder) == 1, "another number")


def check_output_of_none(folder):
    """Where nothing is kept and the numbers cannot be written, that is said, and so is the message; a reader that goes away is no other case."""
    (folder / "none.rec").write_bytes(200_000 * body_by(20, [BAD]))
    why = "nothing is kept of 200000 records of 20 bytes"
    said = not_written(why, "no.rec", REASON.format(f"{OTHER_LENGTH}, ")).replace(b"broken.rec", b"none.rec")
    for sign, fault in ((">/dev/full", b"No space left on device"), (">&-", b"Bad file descriptor")):
        ran = shell(f'"$0" salvage --length 20 --dropped none.rec no.rec {sign}', cwd=folder)
        expect(f"none kept {sign}", ran, b"", b"cradlekeel: cannot write standard output: " + fault + b"\n" + said, 1)
    ran = shell('"$0" salvage --length 20 --dropped none.rec no.rec | head -1; echo ${PIPESTATUS[0]}', cwd=folder)
    first = b"read as records of 20 bytes: 0 kept, 200000 dropped, 0 bytes left over\n"
    expect("none kept, and a reader that leaves", ran, first + b"1\n", b"cradlekeel: cannot write standard output: Broken pipe\n" + said)
    check("no file is made", not (folder / "no.rec").exists(), os.listdir(folder))


# --- Usage and builds -------------------------------------------------------------------------------------------------

TWO_FILES = "two files are to be named, as in cradlekeel salvage broken.rec new.rec"
BAD_EDGES = "--edges: the class edges must be 2 to 32 whole kelvins from 1600 to 20001, strictly rising"
EMPTY, NO_LENGTH = "a file name is empty", "--length: '19' is neither 18 nor 20"
WRONG_USAGE = {(): TWO_FILES, ("a",): TWO_FILES, ("a", "b", "c"): TWO_FILES, ("",): TWO_FILES, ("--dropped", "a"): TWO_FILES,
               ("a", ""): EMPTY, ("", "b"): EMPTY, ("", ""): EMPTY, ("", "-"): EMPTY, ("--edges", "x", "a", ""): EMPTY,
               ("--length", "19"): NO_LENGTH, ("--length", "19", "a", ""): NO_LENGTH, ("--length", "19", "a", "-"): NO_LENGTH,
               ("a", "-"): "'-' is not the name of a new file: standard output tells what was kept",
               ("--length", "19", "a", "b"): NO_LENGTH, ("--length=", "a", "b"): "--length: '' is neither 18 nor 20",
               ("--length", "020", "a", "b"): "--length: '020' is neither 18 nor 20", ("--length", "a b", "a", "b"): "--length: 'a b' is neither 18 nor 20",
               ("a", "b", "--length"): "option --length requires argument", ("--edges", "2700", "a", "b"): BAD_EDGES,
               ("--edges", "3000,2700", "a", "b"): BAD_EDGES, ("--edges", "1600,x", "a", "b"): "--edges: 'x' is not a whole number from 0 to 4294967295",
               ("--dropped=1", "a", "b"): "option --dropped must not have an argument", ("-l", "a", "b"): "option -l not recognized",
               ("--kelvin", "a", "b"): "option --kelvin not recognized"}
HELP = ("the one that keeps more is taken, 20 where both keep as many", "NEW is never BROKEN, not by another name either", "BROKEN is only read",
        "from a pipe the command cannot tell which file the bytes came from", "then the command says what was kept",
        "without --dropped at most ten runs of numbers are told", "from which record on none is kept", "this also where none is kept",
        "NEW is written whole or not at all", "where more would be kept the salvage is refused with 11", "these are the 8 of its trailer",
        "Where none would be kept NEW is not written", "counted from 0", "141 the reader of the lines went away",
        "unless the message says that it is written", "and all of it is read")


def check_usage(folder):
    for word in ("-h", "--help"):
        ran = salvage("a", word, cwd=folder)
        text, lines = ran.stdout.decode(), ran.stdout.decode().splitlines()
        used = "usage: cradlekeel salvage [--length 18|20] [--edges K,K,..] [--dropped] [--replace] BROKEN NEW"
        check(f"salvage {word}", lines[0] == used and not ran.stderr and not ran.returncode, ran)
        check(f"salvage {word}: options and statuses", "  -h, --help      this text" in lines and "Exit status: 0 NEW is written" in text, ran)
        missing = [said for said in HELP if said not in " ".join(text.split())]
        check(f"salvage {word}: what has to be said", not missing, missing)
        check(f"salvage {word}: lines that a terminal shows", max(map(len, lines)) <= 132, max(map(len, lines)))
    for words, fault in WRONG_USAGE.items():
        expect(f"salvage {words}", salvage(*words, cwd=folder), b"", f"cradlekeel: {fault}; see cradlekeel salvage --help\n".encode(), 2)
    check("nothing is made", not os.listdir(folder), os.listdir(folder))


def check_missing(folder):
    """Without a library, or with another one, nothing is made."""
    for named, words in (("/none.so", b"there is no such file"), (_ctypes.__file__, b"has no function ck_")):
        ran = run(["-B", "-m", "cradlekeel", "salvage", broken_in(folder), "new.rec"], command=sys.executable, cwd=folder,
                  env={**os.environ, "PYTHONPATH": str(ROOT / "python"), "CRADLEKEEL_LIBRARY": named})
        check(f"{named} as the library", (ran.returncode, ran.stdout) == (2, b"") and words in ran.stderr, ran)
        nothing_made(named, folder)


def check_copy(folder):
    """The library is built where that is due, and the program is not needed."""
    copy, words = Copy(folder), ["salvage", "--replace", folder / broken_in(folder), folder / "new.rec"]
    ran = run(words, command=copy.command, **copy.options("fail"))
    check("a build that fails", ran.returncode == 2 and not ran.stdout and b"rt: FAILED: text" in ran.stderr, ran)
    for asked, status in ((["salvage", "--help"], 0), (["salvage"], 2)):
        ran = run(asked, command=copy.command, **copy.options())
        check(f"{asked} needs nothing", ran.returncode == status and not copy.runs.read_text(), ran)
    copy.check_run("a first run builds the library", 1, words, b"", TOLD)
    copy.check_run("a second run builds nothing", 0, words, b"", TOLD)


PARTS = (check_written_out, check_cases, check_end, check_runs, check_lengths, check_most, check_none_kept, check_none_by, check_broken, check_input,
         check_long, check_memory, check_same_file, check_existing, check_places, check_full_disk, check_faults, check_stopped, check_output, check_usage,
         check_missing, check_copy)
