"""`cradlekeel save` and `cradlekeel show` as their users meet them; tests/run-program runs PARTS, each in a folder of its own."""

import os
import shutil
import signal
import stat
import subprocess
import sys
from decimal import ROUND_HALF_EVEN, Decimal
from pathlib import Path

import record_files
import reference as ref
import write_faults
from command_runs import COMMAND, PATIENCE, PROGRAM, ROOT, Copy, check, expect, run, shell
from kept import file_of, kept_of, shown
from write_faults import OLD, Writing, holds, left_alone

sys.path.insert(0, str(ROOT / "python"))
from cradlekeel import REASONS

LINES = b"219300 327100 0\n219300 327100 2\n0 0\n12 x\n\n183000 276000\n255910 349510"
ANSWERS = ref.answer_text(LINES)
FILE = file_of(LINES)


def save(*words, text=LINES, **options):
    return run(["save", *words], text, **options)


def show(*words, text=b"", **options):
    return run(["show", *words], text, **options)


def earlier_file(records):
    """A file from before, with records of 18 bytes."""
    return record_files.file_by(record_files.EARLIER, records)


def refused(name, number):
    return os.fsencode(f"cradlekeel: {name}: refusal {number}: {REASONS[number]}")


# --- What is kept -----------------------------------------------------------------------------------------------------

INPUTS = {
    "accepted, refused and unreadable lines": LINES, "a newline at the end": LINES + b"\n",
    "one line without a newline": b"255910 349510", "leading zeros": b"0219300 0327100 0000002\n000 1\n",
    "the same line often": 100 * b"219300 327100 3\n", "NUL bytes": b"219300 327100\0\n\0\n\0\0\0\n219300 327100 1\n\0",
    "carriage returns": b"219300 327100\r\n255910 349510 1\n", "numbers over their limit": b"4000001 1\n1 9999999\n219300 327100 9999999\n",
    "a long line among others": b"255910 349510 1\n" + 300_000 * b"7" + b"\n219300 327100 2\n" + 70_000 * b" " + b"\n255910 349510 2\n",
    "a long line at the end": b"219300 327100 2\n" + 200_000 * b"219300 327100 2",
    "Duv to the limit": b"345070 327763 0\n345070 327762 0\n345070 310530 0\n345070 310529 0\n337230 410510 0\n",
}


def check_kept(folder):
    """Answers are printed as ever, and the file has those that are accepted; the second program says which."""
    for k, (what, text) in enumerate(INPUTS.items()):
        path = folder / f"{k}.rec"
        expect(what, save(path, text=text), ref.answer_text(text))
        check(f"{what}: the file", holds(path) == file_of(text), holds(path))
        lines = "".join(f"{shown(record)}\n" for record in kept_of(text)).encode()
        expect(f"{what}: what is shown", show(path), lines)
    text = (ROOT / "crates/cradlekeel/stdin").read_bytes()[-50_000:]
    expect("the text program's vectors", save(folder / "vectors.rec", text=text), ref.answer_text(text))
    check("their file", holds(folder / "vectors.rec") == file_of(text) and len(kept_of(text)) > 1000, len(kept_of(text)))
    expect("a name alone, from its folder", save("here.rec", cwd=folder), ANSWERS)
    check("the file there", holds(folder / "here.rec") == FILE, left_alone(folder / "here.rec"))
    expect("a name that begins with a dash", save("--", "-h", cwd=folder), ANSWERS)
    check("nothing else is left", not [name for name in os.listdir(folder) if name.startswith(".")], os.listdir(folder))


NONE_ACCEPTED = {  # inputs, each with what is said of it
    b"": "there is no line", b"\n": "the one line has no accepted answer", b"0 0": "the one line has no accepted answer",
    b"0 0\nx\n": "none of the 2 lines has an accepted answer", FILE: "the one line has no accepted answer",
    b"u,v,steps\n0.2193,0.3271,2\n\n": "none of the 3 lines has an accepted answer",
    4000 * b"183000 276000\n": "none of the 4000 lines has an accepted answer",
}


def check_none_accepted(folder):
    """Where no line is accepted the answers are printed, no file is made, and one that exists stays."""
    old = folder / "old.rec"
    old.write_bytes(OLD)
    for text, why in NONE_ACCEPTED.items():
        for words in ([folder / "new.rec"], ["--replace", old]):
            said = f"cradlekeel: {words[-1]}: {why}, so nothing is kept\n".encode()
            expect(f"{text[:40]} {words}", save(*words, text=text), ref.answer_text(text), said, 1)
        check("nothing is written", holds(old) == OLD and not left_alone(old), os.listdir(folder))


def check_most(folder):
    """3,200 records are kept, whatever is refused beside them; of more, none."""
    line, path = b"219300 327100 2\n", folder / "most.rec"
    four = line + b"0 0\n" + line + b"x\n"
    expect("3200 accepted lines", save(path, text=1600 * four), 1600 * ref.answer_text(four))
    check("their file", holds(path) == record_files.file_of(3200 * kept_of(line)), path)
    path.write_bytes(OLD)
    for count in (3201, 3600, 100_000):
        for words in ([folder / "new.rec"], ["--replace", path]):
            said = refused(words[-1], 11) + TOO_MANY_KEPT
            expect(f"{count} accepted lines", save(*words, text=count * line), count * ref.answer_text(line), said, 1)
        check("nothing is written", holds(path) == OLD and not left_alone(path), os.listdir(folder))


TOO_MANY_KEPT = b"; nothing is kept, and the answers go on\n"


def check_most_at_once(folder):
    """One record too many is told before the input ends, and the answers go on."""
    line, path = b"219300 327100 2\n", folder / "most.rec"
    answer, said = ref.answer_text(line), refused(path, 11) + TOO_MANY_KEPT
    pipes = dict.fromkeys(("stdin", "stdout", "stderr"), subprocess.PIPE)
    with subprocess.Popen([COMMAND, "save", path], **pipes) as process:
        process.stdin.write(1601 * (line + b"0 0\n"))
        process.stdin.flush()
        first = process.stdout.read(len(1601 * (answer + b"5\n")))
        process.stdin.write(1599 * line)
        process.stdin.flush()
        check("3200 answers", first + process.stdout.read(1599 * len(answer)) == 1601 * (answer + b"5\n") + 1599 * answer, first[:99])
        os.set_blocking(process.stderr.fileno(), False)
        check("nothing is said of 3200", not process.stderr.read(), said)
        os.set_blocking(process.stderr.fileno(), True)
        process.stdin.write(line)
        process.stdin.flush()
        check("3201 are told before the input ends", process.stderr.read(len(said)) == said, said)
        last = process.communicate(2 * line, PATIENCE)
        check("and only once", last == (3 * answer, b"") and process.returncode == 1 and not os.listdir(folder), (last, process.returncode))


JOIN = '"$0" show {} > lines.txt && cut -d" " -f1,2,7 lines.txt | "$0" save --replace both.rec > answers.txt'  # as docs/FILES.md has it


def check_joined(folder):
    """Two files become one, be one of them from before, and where one of them is bad what stood there stays."""
    for name, file in (("a.rec", FILE), ("b.rec", earlier_file(kept_of(b"255910 349510 3"))), ("cut.rec", FILE[:40]), ("both.rec", OLD)):
        (folder / name).write_bytes(file)
    for names in ("a.rec cut.rec", "cut.rec a.rec", "a.rec none.rec"):
        check(f"{names}: told", shell(JOIN.format(names), cwd=folder).returncode == 1, names)
        check(f"{names}: nothing is lost", holds(folder / "both.rec") == OLD, holds(folder / "both.rec"))
    expect("two good files", shell(JOIN.format("a.rec b.rec"), cwd=folder))
    check("are joined", holds(folder / "both.rec") == file_of(LINES + b"\n255910 349510 3"), holds(folder / "both.rec"))


def check_answers_come(folder):
    """An answer comes before the input ends, and the file after it."""
    path = folder / "slow.rec"
    with subprocess.Popen([COMMAND, "save", path], stdin=subprocess.PIPE, stdout=subprocess.PIPE, bufsize=0) as process:
        process.stdin.write(b"219300 327100\n2193")
        first = ref.answer_text(b"219300 327100")
        check("an answer comes before the input ends", process.stdout.read(len(first)) == first, first)
        check("no file before that", not os.listdir(folder), os.listdir(folder))
        process.stdin.write(b"00 327100")
        process.stdin.close()
        check("a line in two halves", process.stdout.read() == first and process.wait(PATIENCE) == 0, process.returncode)
    check("the file at the end", holds(path) == file_of(b"219300 327100\n219300 327100"), holds(path))


# --- The file's place -------------------------------------------------------------------------------------------------


def check_existing(folder):
    """Without --replace a file that exists is left alone and nothing is read; with it the file is replaced."""
    (folder / "kept").mkdir()
    path, lines = folder / "kept/day.rec", folder / "lines.txt"
    said = f"cradlekeel: {path}: the file exists; --replace replaces it\n".encode()
    path.write_bytes(OLD)
    lines.write_bytes(LINES)
    with lines.open("rb") as given:
        ran = subprocess.run([COMMAND, "save", path], stdin=given, capture_output=True, timeout=PATIENCE)
        expect("a file that exists", ran, b"", said, 1)
        check("nothing is read", os.lseek(given.fileno(), 0, os.SEEK_CUR) == 0, "something")
    check("it is left alone", holds(path) == OLD and not left_alone(path), os.listdir(path.parent))
    expect("--replace", save("--replace", path), ANSWERS)
    check("it is replaced", holds(path) == FILE and not left_alone(path), os.listdir(path.parent))
    path.unlink()
    expect("--replace where there is none", save(path, "--replace"), ANSWERS)
    check("it is made", holds(path) == FILE and not left_alone(path), os.listdir(path.parent))


def check_appearing(folder):
    """A file that appears while the lines are read is left alone too; with --replace it is replaced."""
    for words, kept, said, status in (([], OLD, b"the file exists; --replace replaces it\n", 1), (["--replace"], FILE, b"", 0)):
        path = folder / "day.rec"
        path.unlink(missing_ok=True)
        pipes = dict.fromkeys(("stdin", "stdout", "stderr"), subprocess.PIPE)
        with subprocess.Popen([COMMAND, "save", *words, path], bufsize=0, **pipes) as process:
            process.stdin.write(LINES[:16])
            process.stdout.read(1)
            path.write_bytes(OLD)
            found, told = process.communicate(LINES[16:], PATIENCE)
        check(f"a file that appears, {words}", (found, process.returncode) == (ANSWERS[1:], status) and told.endswith(said), told)
        check("what it then is", holds(path) == kept and not left_alone(path), os.listdir(folder))


def check_links(folder):
    """--replace follows a link; without it a link is a file that exists, even one to nothing."""
    (folder / "far").mkdir()
    kept, link, nothing, loop = folder / "far/kept.rec", folder / "link.rec", folder / "nothing.rec", folder / "loop.rec"
    link.symlink_to("far/kept.rec")
    nothing.symlink_to("far/new.rec")
    loop.symlink_to("loop.rec")
    kept.write_bytes(OLD)
    for name in (link, nothing):
        said = f"cradlekeel: {name}: the file exists; --replace replaces it\n".encode()
        expect("a link without --replace", save(name), b"", said, 1)
    check("nothing is made", os.listdir(folder / "far") == ["kept.rec"] and holds(kept) == OLD, os.listdir(folder / "far"))
    expect("a link that leads nowhere", save("--replace", loop), b"", f"cradlekeel: {loop}: Too many levels of symbolic links\n".encode(), 1)
    expect("a link", save("--replace", link), ANSWERS)
    expect("a link to nothing", save("--replace", nothing), ANSWERS)
    check("both lead where they led", link.is_symlink() and nothing.is_symlink() and holds(folder / "far/new.rec") == FILE, folder)
    check("the file behind the link is replaced", holds(kept) == FILE and sorted(os.listdir(folder / "far")) == ["kept.rec", "new.rec"], folder)


def check_places(folder):
    """Names that no file can have are told before anything is read."""
    (folder / "sub").mkdir()
    os.mkfifo(folder / "pipe")
    (folder / "file").write_bytes(OLD)
    device = "it is a device or a pipe, which is not replaced"
    for words, said in (
            (["none/day.rec"], "there is no folder none"), (["--replace", "none/day.rec"], f"there is no folder {folder.resolve()}/none"),
            (["file/day.rec"], "Not a directory"), (["sub"], "it is a folder"), (["--replace", "sub"], "it is a folder"),
            (["sub/"], "it is a folder"), (["--replace", "new/"], "it is a folder"), (["--replace", "."], "it is a folder"),
            (["--replace", "pipe"], device), (["pipe"], device), (["/dev/null"], device), (["--replace", "/dev/null"], device),
            (["x" * 256], "File name too long")):
        expect(f"{words}", save(*words, cwd=folder), b"", f"cradlekeel: {words[-1]}: {said}\n".encode(), 1)
    check("nothing is made", sorted(os.listdir(folder)) == ["file", "pipe", "sub"] and not os.listdir(folder / "sub"), os.listdir(folder))
    for stream, sign in (("input", "<"), ("output", ">>")):
        ran = shell(f'"$0" save --replace file {sign}file', cwd=folder)
        expect(f"standard {stream} itself", ran, b"", f"cradlekeel: file: it is standard {stream} itself\n".encode(), 1)
    check("it is left alone", holds(folder / "file") == OLD, holds(folder / "file"))
    longest = folder / ("x" * 255)
    expect("the longest name", save(longest), ANSWERS)
    odd = os.fsencode(folder) + b"/\xff\xfe day\n.rec"
    expect("a name that is not UTF-8", save(odd), ANSWERS)
    expect("the same again", save(odd), b"", b"cradlekeel: " + odd + b": the file exists; --replace replaces it\n", 1)
    check("both are there", holds(longest) == FILE and Path(os.fsdecode(odd)).read_bytes() == FILE, os.listdir(folder))


def check_modes(folder):
    """A new file has the mode that the umask leaves; a replaced one keeps its own and, where that may be, its owner."""
    for mask, mode in (("022", 0o644), ("027", 0o640), ("077", 0o600)):
        ran = shell(f'umask {mask}; "$0" save {mask}.rec', LINES, cwd=folder)
        expect(f"umask {mask}", ran, ANSWERS)
        check(f"umask {mask}: the mode", stat.S_IMODE((folder / f"{mask}.rec").stat().st_mode) == mode, mode)
    old = folder / "old.rec"
    for mode in (0o600, 0o604, 0o664):
        old.write_bytes(OLD)
        old.chmod(mode)
        expect(f"a file of mode {mode:o}", shell('umask 022; "$0" save --replace old.rec', LINES, cwd=folder), ANSWERS)
        check("keeps it", stat.S_IMODE(old.stat().st_mode) == mode and holds(old) == FILE, oct(old.stat().st_mode))
    if os.geteuid() == 0:
        os.chown(old, 12345, 54321)
        expect("a file of another owner", save("--replace", old), ANSWERS)
        check("keeps its owner", (old.stat().st_uid, old.stat().st_gid) == (12345, 54321), old.stat())


def check_permissions(folder):
    """What the caller may not write is left alone; as root, without the right to write what it may not."""
    bound = ["setpriv", "--bounding-set=-dac_override,-dac_read_search"] if os.geteuid() == 0 else []
    if bound and shutil.which("setpriv") is None:
        return
    closed, unseen, kept = folder / "closed", folder / "unseen", folder / "kept.rec"
    for path, mode in ((closed, 0o555), (unseen, 0o333)):
        path.mkdir()
        path.chmod(mode)
    kept.write_bytes(OLD)
    kept.chmod(0o444)
    program, *bound = [*bound, COMMAND]
    bare = lambda *words: run([*bound, *words], LINES, program)
    no_file, no_write = "no file can be made in its folder", "it may not be written, so it is not replaced"
    for words, name, said in ((["save"], closed / "day.rec", no_file), (["save", "--replace"], kept, no_write)):
        expect(f"{words}", bare(*words, name), b"", f"cradlekeel: {name}: {said}\n".encode(), 1)
    expect("a folder that cannot be read", bare("save", unseen / "day.rec"), ANSWERS)
    check("the others are left alone", holds(kept) == OLD and not os.listdir(closed) and holds(unseen / "day.rec") == FILE, os.listdir(closed))
    kept.chmod(0)
    expect("show", bare("show", kept), b"", f"cradlekeel: {kept}: Permission denied\n".encode(), 1)
    for path in (closed, unseen):
        path.chmod(0o755)


# --- Whole or not at all ----------------------------------------------------------------------------------------------


def check_faults(folder):
    write_faults.check_faults(folder, Writing(["save"], LINES, ANSWERS, b"", FILE))


def check_full_disk(folder):
    """A file that cannot be written to its end is not there, and one that was there stays."""
    for words, kept in (([folder / "new.rec"], None), (["--replace", folder / "old.rec"], OLD)):
        (folder / "old.rec").write_bytes(OLD)
        path = words[-1]
        ran = run(["-c", 'ulimit -f 0; exec "$0" save "$@"', COMMAND, *words], LINES, "bash")
        expect("no room on the disk", ran, ANSWERS, f"cradlekeel: {path}: File too large\n".encode(), 1)
        check("nothing is left", holds(path) == kept and os.listdir(folder) == ["old.rec"], os.listdir(folder))


def check_stopped(folder):
    """Stopped while the lines are read, as by Ctrl-C, it leaves nothing."""
    for stop in (signal.SIGINT, signal.SIGTERM, signal.SIGHUP):
        pipes = dict.fromkeys(("stdin", "stdout", "stderr"), subprocess.PIPE)
        with subprocess.Popen([COMMAND, "save", folder / "day.rec"], start_new_session=True, bufsize=0, **pipes) as process:
            process.stdin.write(LINES[:16])
            process.stdout.read(1)
            os.killpg(process.pid, stop)
            said = process.stderr.read()
            check(f"{stop.name}", (process.wait(PATIENCE), said) == (-stop, b""), (process.returncode, said))
        check(f"{stop.name} leaves nothing", not os.listdir(folder), os.listdir(folder))


# --- Input and output that fail ---------------------------------------------------------------------------------------


def check_input(folder):
    """Where the input cannot be read to its end, what was read is answered and nothing is kept."""
    no_read = b"cradlekeel: cannot read standard input: "
    for sign in ("<&-", "</"):
        expect(f"standard input {sign}", shell(f'"$0" save day.rec {sign}', cwd=folder), b"", no_read + b"Bad file descriptor\n", 1)
    expect("a failure that cannot be told", shell('"$0" save day.rec </ 2>&-', cwd=folder), status=1)
    read_end, write_end = os.pipe()
    os.set_blocking(read_end, False)
    os.write(write_end, b"219300 327100\n0 0\n2193")
    ran = subprocess.run([COMMAND, "save", folder / "day.rec"], stdin=read_end, capture_output=True, timeout=PATIENCE)
    answers = ref.answer_text(b"219300 327100\n0 0\n")
    expect("a pipe that has nothing more yet and does not wait", ran, answers, no_read + b"Resource temporarily unavailable\n", 1)
    os.close(read_end)
    os.close(write_end)
    check("nothing is kept", not os.listdir(folder), os.listdir(folder))


def check_output(folder):
    """Where the answers cannot be printed, nothing is kept."""
    no_write = b"cradlekeel: cannot write standard output: "
    expect("a full disk", shell('"$0" save day.rec >/dev/full', LINES, cwd=folder), said=no_write + b"No space left on device\n", status=1)
    expect("a closed standard output", shell('"$0" save day.rec >&-', LINES, cwd=folder), said=no_write + b"Bad file descriptor\n", status=1)
    expect("more input to come", shell('yes 1 1 | "$0" save day.rec >/dev/full', cwd=folder), said=no_write + b"No space left on device\n", status=1)
    read_end, write_end = os.pipe()
    os.close(read_end)
    words = [COMMAND, "save", folder / "day.rec"]
    ran = subprocess.run(words, input=LINES, stdout=write_end, stderr=subprocess.PIPE, timeout=PATIENCE)
    check("a reader that is gone", (ran.returncode, ran.stderr) == (-signal.SIGPIPE, b""), ran)
    os.close(write_end)
    ran = shell('yes 219300 327100 | "$0" save day.rec | head -1; echo ${PIPESTATUS[1]}', cwd=folder)
    expect("a reader that leaves after a line", ran, ref.answer_text(b"219300 327100") + b"141\n")
    check("nothing is kept", not os.listdir(folder), os.listdir(folder))


PROGRAMS = {  # in place of the program, each with what is wrong with it
    "it answers nothing": "cat >/dev/null", "it ends at once": "sleep 0.3", "it ends with a status": '"$REAL"; exit 7',
    "it is killed": "head -c 1 >/dev/null; kill -9 $$", "it says something": '"$REAL"; echo no >&2',
    "it leaves a line out": '"$REAL" | tail -n +2', "its last line is cut": '"$REAL" | head -c -1',
    "it prints more than answers": '"$REAL"; printf 8', "it prints a line more": '"$REAL"; echo 8',
}


# Runs the command with another program.
OTHER_PROGRAM = """
import sys
from pathlib import Path
from cradlekeel import __main__
from cradlekeel.commands import save

save.PROGRAM = Path(sys.argv[1])
sys.exit(__main__.main(sys.argv[2:]))
"""
NOT_ALL = b"cradlekeel: the program has not answered every line; its exit status is "
TOO_MANY = b"cradlekeel: the program has answered more lines than there are\n"


def check_program(folder):
    """A program that does not answer every line is told of, and nothing is kept; so is one that ends before the input does."""
    program, path = folder / "program", folder / "day.rec"
    words = [sys.executable, "-B", "-c", OTHER_PROGRAM, program, "save", path]
    options = {"env": {**os.environ, "PYTHONPATH": str(ROOT / "python"), "REAL": str(PROGRAM)}, "capture_output": True, "timeout": PATIENCE}
    for what, text in PROGRAMS.items():
        program.write_text(f"#!/bin/sh\n{text}\n")
        program.chmod(0o755)
        ran = subprocess.run(words, input=LINES + b"\n" + 100_000 * b"0 0\n", **options)  # more than a pipe holds
        told = ran.stderr.startswith((NOT_ALL, TOO_MANY)) and ran.stderr.count(b"\n") == 1
        check(what, told and ran.returncode == 1 and not path.exists(), ran)
    program.write_text("#!/bin/sh\n")
    read_end, write_end = os.pipe()
    ran = subprocess.run(words, stdin=read_end, **options)
    check("it ends before the input does", ran.stderr == NOT_ALL + b"0\n" and ran.returncode == 1 and not path.exists(), ran)
    os.close(read_end)
    os.close(write_end)


def check_missing(folder):
    """Without the program or the library nothing is read."""
    path, environment = folder / "day.rec", {**os.environ, "PYTHONPATH": str(ROOT / "python")}
    no_library = {"CRADLEKEEL_LIBRARY": "/none.so"}
    for what, named, words in (("program", {}, b"the program is not built"), ("library", no_library, b"there is no such file")):
        ran = run(["-B", "-c", OTHER_PROGRAM, folder / "none", "save", path], LINES, sys.executable, env=environment | named)
        check(f"no {what}", (ran.returncode, ran.stdout) == (2, b"") and words in ran.stderr and not path.exists(), ran)


# --- What is shown ----------------------------------------------------------------------------------------------------

EXTREMES = [(0,) * 8, (2**32 - 1, 2**32 - 1, 65_535, 65_535, 65_535, 2**31 - 1, 255, 254), (1, 2, 3, 4, 5, -2**31, 6, 255),
            (219300, 327100, 23112, 21892, 23866, -2331, 2, 2), (5, 6, 1, 0, 65_535, -1, 0, 0), (7, 8, 64, 7, 8, 0, 1, 30)]


# The same as a file from before can have them.
EARLIER_EXTREMES = [(*numbers, min(max(duv, -32_768), 32_767), steps, cls) for *numbers, duv, steps, cls in EXTREMES]


def kelvin(place):
    """103,360,000 over the place with one decimal, worked out in decimals."""
    return (Decimal(103_360_000) / place).quantize(Decimal("0.1"), ROUND_HALF_EVEN) if place else "-"


def shown_lines(records, with_kelvin=False):
    return "".join(f"{shown(record)} {kelvin(record[2])}\n" if with_kelvin else f"{shown(record)}\n" for record in records).encode()


def check_shown(folder):
    (folder / "all.rec").write_bytes(record_files.file_of(EXTREMES))
    (folder / "none.rec").write_bytes(record_files.file_of([]))
    (folder / "places.rec").write_bytes(earlier_file([(1, 1, place, 1, 1, 1, 1, 1) for place in range(1, 65_536, 19)]))
    (folder / "earlier.rec").write_bytes(earlier_file(EARLIER_EXTREMES))
    expect("a file", show(folder / "all.rec"), shown_lines(EXTREMES))
    expect("a file with kelvin", show("--kelvin", folder / "all.rec"), shown_lines(EXTREMES, True))
    check("which is that of document 01", b" 4472.1\n" in show("--kelvin", folder / "all.rec").stdout, "another temperature")
    expect("a file from before", show(folder / "earlier.rec"), shown_lines(EARLIER_EXTREMES))
    places = record_files.read(holds(folder / "places.rec"), 3600)[1]
    check("which has more records than are written", len(places) > 3200, len(places))
    expect("the temperature at many places", show(folder / "places.rec", "--kelvin"), shown_lines(places, True))
    expect("no records", show("none.rec", "--kelvin", cwd=folder))
    ran = show("all.rec", "none.rec", "places.rec", "earlier.rec", "all.rec", cwd=folder)
    expect("several files, in their order", ran, shown_lines(EXTREMES + places + EARLIER_EXTREMES + EXTREMES))
    expect("standard input", show("-", text=record_files.file_of(EXTREMES)), shown_lines(EXTREMES))
    ran = show("-", "all.rec", "-", text=earlier_file(places), cwd=folder)
    expect("standard input twice", ran, shown_lines(places + EXTREMES), refused("-", 13) + b"\n", 1)


BAD_FILES = {  # by the refusal that each meets
    13: (b"", b"\x12\0\0\0\0\0\0"), 14: (b"219300 327100\n", record_files.file_of(EXTREMES)[:-1], record_files.file_of(EXTREMES) + b"\n", bytes(20)),
    15: (record_files.file_of(EXTREMES)[20:], b"\0" + record_files.file_of([]), record_files.file_of(EXTREMES)[:20] + record_files.file_of([]),
         bytes(18) + record_files.TRAILER.pack(20, 1, 18)),
    11: (record_files.file_of(3201 * EXTREMES[:1]), record_files.file_of(65_535 * EXTREMES[:1]), earlier_file(3601 * EXTREMES[:1])),
}


def check_bad_files(folder):
    """Each file that cannot be read is named with its number and reason, and the files about it are shown."""
    (folder / "good.rec").write_bytes(record_files.file_of(EXTREMES))
    names, said = ["good.rec"], b""
    for number, files in BAD_FILES.items():
        for k, file in enumerate(files):
            check(f"the second program refuses it with {number}", record_files.form(file)[0] == number, (number, k))
            (folder / f"{number}-{k}.rec").write_bytes(file)
            names.append(f"{number}-{k}.rec")
            said += refused(names[-1], number) + b"\n"
    expect("bad files", show(*names, "good.rec", cwd=folder), shown_lines(2 * EXTREMES), said, 1)
    said = b"cradlekeel: missing.rec: No such file or directory\ncradlekeel: .: Is a directory\n"
    expect("a missing file and a folder", show("missing.rec", "good.rec", ".", cwd=folder), shown_lines(EXTREMES), said, 1)
    expect("a closed standard input", shell('"$0" show - <&-'), b"", b"cradlekeel: -: Bad file descriptor\n", 1)


def check_long_files(folder):
    """What is longer than any trailer can tell is not read to its end, and the other files are shown."""
    (folder / "good.rec").write_bytes(record_files.file_of(EXTREMES))
    longest = record_files.file_of(65_535 * EXTREMES[:1])
    check("the longest file of a trailer", len(longest) == 1_310_708, len(longest))
    (folder / "longest.rec").write_bytes(longest)
    (folder / "over.rec").write_bytes(b"\0" + longest)
    with (folder / "huge.rec").open("wb") as huge:
        huge.truncate(1 << 40)
    said = refused("longest.rec", 11) + b"\n"
    for name in ("over.rec", "huge.rec", "/dev/zero"):
        said += f"cradlekeel: {name}: over 1,310,708 bytes, longer than any record file\n".encode()
    ran = show("good.rec", "longest.rec", "over.rec", "huge.rec", "/dev/zero", "good.rec", cwd=folder)
    expect("files that are too long", ran, shown_lines(2 * EXTREMES), said, 1)
    ran = shell('"$0" show - </dev/zero', cwd=folder)
    expect("standard input without end", ran, b"", b"cradlekeel: -: over 1,310,708 bytes, longer than any record file\n", 1)


def check_show_output(folder):
    (folder / "day.rec").write_bytes(earlier_file(3600 * EXTREMES[:1]))
    no_write = b"cradlekeel: cannot write standard output: "
    for words in ("day.rec", "--help"):
        expect("a full disk", shell(f'"$0" show {words} >/dev/full', cwd=folder), said=no_write + b"No space left on device\n", status=1)
        expect("a closed standard output", shell(f'"$0" show {words} >&-', cwd=folder), said=no_write + b"Bad file descriptor\n", status=1)
    ran = shell(f'"$0" show {40 * "day.rec "} | head -1; echo ${{PIPESTATUS[0]}}', cwd=folder)
    expect("a reader that leaves after a line", ran, shown_lines(EXTREMES[:1]) + b"141\n")
    check("a file is printed by one write", count_writes(["show", "day.rec"], folder) == 1, "another number")


def count_writes(words, folder):
    """How many writes to standard output a command makes."""
    counted = "import os, sys; from cradlekeel import __main__; real, calls = os.write, []; " \
              "os.write = lambda *given: (calls.append(given[0]), real(*given))[1]; __main__.main(sys.argv[1:]); sys.exit(calls.count(1))"
    options = {"env": {**os.environ, "PYTHONPATH": str(ROOT / "python")}, "cwd": folder, "timeout": PATIENCE}
    with open(os.devnull, "wb") as nowhere:
        return subprocess.run([sys.executable, "-B", "-c", counted, *words], stdout=nowhere, **options).returncode


# --- Usage and builds -------------------------------------------------------------------------------------------------

WRONG_USAGE = ([], ["--replace"], ["-"], [""], ["a", "b"], ["--replace", "-"], ["--replace=1", "a"], ["-r", "a"], ["--kelvin", "a"])
WRONG_SHOW = ([], ["--kelvin"], ["--replace", "a"], ["--kelvin=1", "a"], ["-k", "a"])


def check_usage(folder):
    for name, ask, wrong in (("save", save, WRONG_USAGE), ("show", show, WRONG_SHOW)):
        for word in ("-h", "--help"):
            ran = ask("a", word, cwd=folder)
            lines = ran.stdout.decode().splitlines()
            check(f"{name} {word}", lines[0].startswith(f"usage: cradlekeel {name} [--") and not ran.stderr and not ran.returncode, ran)
            check(f"{name} {word}: options and statuses", "  -h, --help    this text" in lines and "Exit status: 0" in ran.stdout.decode(), ran)
            check(f"{name} {word}: lines that a terminal shows", max(map(len, lines)) <= 132, max(map(len, lines)))
        for words in wrong:
            ran = ask(*words, cwd=folder)
            told = ran.stderr.endswith(f"; see cradlekeel {name} --help\n".encode()) and ran.stderr.count(b"\n") == 1
            check(f"{name} {words} is wrong usage", told and not ran.stdout and ran.returncode == 2, ran)
    for words, fault in (([], b"no command is named"), (["saev", "a"], b"'saev' is not a command")):
        ran = run(["-B", "-m", "cradlekeel", *words], command=sys.executable, env={**os.environ, "PYTHONPATH": str(ROOT / "python")}, cwd=folder)
        expect(f"a command {words}", ran, b"", b"cradlekeel: " + fault + b": there are board, compare, salvage, save, show, spectrum; see cradlekeel --help\n", 2)
    check("nothing is made", not os.listdir(folder), os.listdir(folder))


def check_first_run(folder):
    """With the real toolchain: program and library are built where that is due, which is said, and not again."""
    ran = save(folder / "first.rec", patience=20 * PATIENCE)
    check("a first run", (ran.stdout, ran.returncode) == (ANSWERS, 0) and ran.stderr.count(b"\n") in (0, 2, 4), ran)
    expect("what is built is taken without a word", save(folder / "second.rec"), ANSWERS)
    expect("and shown", show(folder / "second.rec"), shown_lines(kept_of(LINES)))


def check_copy(folder):
    copy, path = Copy(folder), folder / "day.rec"
    ran = run(["save", path], LINES, copy.command, **copy.options("fail"))
    check("a build that fails", ran.returncode == 2 and not ran.stdout and b"rt: FAILED: text" in ran.stderr and not path.exists(), ran)
    for asked, status in ((["save", "--help"], 0), (["save"], 2), (["show", "--help"], 0), (["show"], 2)):
        ran = run(asked, command=copy.command, **copy.options())
        check(f"{asked} needs nothing", ran.returncode == status and not copy.runs.read_text(), ran)
    copy.check_run("a first run builds program and library", 2, ["save", path], LINES, ANSWERS)
    check("the file", holds(path) == FILE, holds(path))
    copy.check_run("a second run builds nothing", 0, ["save", "--replace", path], LINES, ANSWERS)
    copy.program.unlink()
    copy.check_run("show needs no program", 0, ["show", path], b"", shown_lines(kept_of(LINES)))
    copy.check_run("save does", 1, ["save", "--replace", path], LINES, ANSWERS)


PARTS = (check_first_run, check_kept, check_none_accepted, check_most, check_most_at_once, check_joined, check_answers_come, check_existing,
         check_appearing, check_links, check_places, check_modes, check_permissions, check_faults, check_full_disk, check_stopped,
         check_input, check_output, check_program, check_missing, check_shown, check_bad_files, check_long_files, check_show_output,
         check_usage, check_copy)
