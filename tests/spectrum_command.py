"""`cradlekeel spectrum` as its users meet it; tests/run-program runs PARTS, each in a folder of its own."""

import codecs
import os
import shutil
import signal
import subprocess
import sys
from decimal import Decimal

import reference as ref
from command_runs import COMMAND, PATIENCE, ROOT, Copy, check, expect, run, shell
from worded import spectrum_answer, worded

sys.path.insert(0, str(ROOT / "python"))
from cradlekeel import REASONS

EXAMPLE = ROOT / "examples/incandescent.csv"
ROWS = [tuple(line.split(",")) for line in EXAMPLE.read_text().splitlines()[2:]]


def words_of(rows, edges=ref.TEXT_EDGES, steps=ref.MOST_STEPS):
    """The answer to rows of wavelength and value, both as text."""
    wavelengths, values = zip(*rows)
    given = spectrum_answer(map(int, wavelengths), map(Decimal, values), edges, steps)
    return worded(given) + REASONS.get(given.refusal, "")


def lines(names, rows=ROWS, **options):
    """What is printed for files that all hold the rows."""
    return "".join(f"{name}: {words_of(rows, **options)}\n" for name in names).encode()


def spectrum(*words, text=b"", **options):
    return run(["spectrum", *words], text, **options)


def written(folder, files):
    """The names of files, once they hold what is given."""
    for name, text in files.items():
        (folder / name).write_bytes(text if isinstance(text, bytes) else text.encode())
    return list(files)


def table(form, rows=ROWS, end="\n"):
    return "".join(form.format(nm=nm, value=value, comma=value.replace(".", ",")) + end for nm, value in rows)


# --- Files that are answered ------------------------------------------------------------------------------------------

BETWEEN = "\n# a comment, and cells without content:\n ; \n,\n"
PLAIN = table("{nm},{value}")
FORMS = {
    "commas.csv": PLAIN, "a comma and a space.csv": table("{nm}, {value}"), "spaces.txt": table("  {nm}   {value} "),
    "tabs.tsv": table("{nm}\t{value}"), "several tabs.tsv": table("{nm}\t\t{value}"), "semicolons.csv": table("{nm} ; {value}"),
    "decimal commas.csv": table("{nm},0;{comma}"), "decimal commas.tsv": table("{nm}\t{comma}"), "decimals.csv": table("{nm}.0,{value}"),
    "exponents.csv": table("{nm}e0,{value}E+00"), "signs.csv": table("+{nm},+{value}"), "scaled.csv": table("{nm},{value}e-30"),
    "windows.csv": "\ufeff" + table("{nm},{value}", end="\r\n"), "returns.csv": table("{nm},{value}", end="\r"),
    "no newline at the end.csv": PLAIN[:-1], "comments.csv": table("{nm},{value}", end=BETWEEN),
    "header.csv": "# made in a test\nA lamp;of 2856 K\n\nnm,W/m²\n" + PLAIN, "latin.csv": b"nm,\xb5W\n" + PLAIN.encode(),
    "mixed.csv": table("{nm},{value}", ROWS[:9]) + table("{nm} {value}", ROWS[9:]), "an empty column.csv": table("{nm},{value},, "),
    "quotation marks.csv": '"nm","W"\n' + table('"{nm}","{value}"'), "little.csv": codecs.BOM_UTF16_LE + PLAIN.encode("utf-16-le"),
    "big.csv": codecs.BOM_UTF16_BE + PLAIN.encode("utf-16-be"),
}


def check_first_run(folder):
    """With the real toolchain: the library is built where that is due, which is said, and not again."""
    ran = spectrum(EXAMPLE, patience=10 * PATIENCE)
    check("a first run", (ran.stdout, ran.returncode) == (lines([EXAMPLE]), 0) and ran.stderr.count(b"\n") in (0, 2), ran)
    expect("a library that is built is taken without a word", spectrum(EXAMPLE), lines([EXAMPLE]))


def check_forms(folder):
    names = written(folder, FORMS)
    expect("files of every form, in their order", spectrum(*names, cwd=folder), lines(names))
    expect("one file", spectrum(EXAMPLE, cwd="/"), lines([EXAMPLE]))
    expect("standard input", spectrum("-", text=EXAMPLE.read_bytes()), lines(["-"]))
    both = spectrum("-", EXAMPLE, "-", text=EXAMPLE.read_bytes())
    expect("standard input twice", both, lines(["-", EXAMPLE]), b"cradlekeel: -: no line begins with a wavelength\n", 1)
    expect("a name after --", spectrum("--", "-h.csv", cwd=folder), b"", b"cradlekeel: -h.csv: No such file or directory\n", 1)


def check_names(folder):
    """Names are printed byte for byte, and a module that lies about is not Python's own."""
    name = os.fsencode(folder) + b"/\xff\xfe lamp\n.csv"
    shutil.copy(EXAMPLE, name)
    expect("a name that is not UTF-8", spectrum(name), name + b": " + words_of(ROWS).encode() + b"\n")
    if sys.version_info >= (3, 11):
        written(folder, {"fractions.py": "raise SystemExit(9)"})
        expect("a folder with a module of Python's name", spectrum(EXAMPLE, cwd=folder), lines([EXAMPLE]))


WIDE = [(str(nm), "-1" if not 360 <= nm <= 830 else str(nm)) for nm in range(200, 1101, 10)]
BELOW = [(nm, "-0.25" if nm in ("385", "780") else value) for nm, value in ROWS]
CLIPPED = [(nm, "0" if value == "-0.25" else value) for nm, value in BELOW]
GREEN = [(str(nm), str(int(nm == 520))) for nm in range(380, 781, 20)]
DARK = [(nm, "0.0") for nm, _ in ROWS]
SMALL = [(nm, "1e-999") for nm, _ in ROWS[:-1]] + [("780", "9e999")]


def check_options(folder):
    wide, below, green, dark, small = written(folder, {name: table("{nm},{value}", rows) for name, rows in (
        ("wide.csv", WIDE), ("below.csv", BELOW), ("green.csv", GREEN), ("dark.csv", DARK), ("small.csv", SMALL))})
    expect("wavelengths beyond the tables, and what stands there", spectrum(wide, cwd=folder), lines([wide], WIDE))
    expect("values below zero with --clip", spectrum(below, "--clip", cwd=folder), lines([below], CLIPPED))
    expect("refusals", spectrum(green, dark, cwd=folder), lines([green], GREEN) + lines([dark], DARK))
    expect("numbers of every size", spectrum(small, cwd=folder), lines([small], SMALL))
    for steps in (0, 6, 15, 2**32 - 1):
        expect(f"--steps {steps}", spectrum("--steps", str(steps), EXAMPLE), lines([EXAMPLE], steps=steps))
    expect("--edges", spectrum(EXAMPLE, "--edges=2500, 2855,2856,20000"), lines([EXAMPLE], edges=(2500, 2855, 2856, 20000)))
    expect("both", spectrum("--edges=1600,20001", "--steps=0", EXAMPLE), lines([EXAMPLE], edges=(1600, 20001), steps=0))


GAPS = {  # the wavelengths of a file, and what it is warned of
    range(400, 701, 20): "", range(390, 711, 5): "",
    range(401, 703, 1): "401 to 702 nm is not all of 400 to 700 nm; light beyond it counts as dark",
    range(400, 700, 1): "400 to 699 nm is not all of 400 to 700 nm; light beyond it counts as dark",
    range(555, 556): "555 to 555 nm is not all of 400 to 700 nm; light beyond it counts as dark",
    range(400, 701, 25): "a step of 25 nm is over 20 nm; light between the rows does not count",
}


def check_gaps(folder):
    """Too little of the visible light is answered with a warning."""
    for wavelengths, words in GAPS.items():
        rows = [(str(nm), "1") for nm in wavelengths]
        (name,) = written(folder, {"gaps.csv": table("{nm},{value}", rows)})
        said = f"cradlekeel: warning: {name}: {words}\n".encode() if words else b""
        expect(f"{wavelengths}", spectrum(name, cwd=folder), lines([name], rows), said)


# --- Files that are not -----------------------------------------------------------------------------------------------

FIRST = "nm,value\n380,1\n385,1\n"  # the bad row is line 4
BAD_ROWS = {
    "38o,1": "'38o' is not a wavelength in whole nm", "390.5,1": "'390.5' is not a wavelength in whole nm",
    ",1": "'' is not a wavelength in whole nm", "3 90,1": "'3 90' is not a wavelength in whole nm",
    "1e1000,1": "'1e1000' is not a wavelength in whole nm", "9" * 101 + ",1": f"'{'9' * 40}..' is not a wavelength in whole nm",
    "390": "a row has two columns, wavelength and value, and this one has 1",
    "390,1,2": "a row has two columns, wavelength and value, and this one has 3",
    "390,0,5": "a row has two columns, wavelength and value, and this one has 3",
    "390,one": "'one' is not a number", "390,": "a row has two columns, wavelength and value, and this one has 1", "390,.": "'.' is not a number",
    "390,nan": "'nan' is not a number", "390,-inf": "'-inf' is not a number", "390,1e1000": "'1e1000' is not a number",
    "390,1_0": "'1_0' is not a number", "390,0x1": "'0x1' is not a number", "390;1.234,5": "'1.234,5' is not a number",
    "390,\x1b[1m\u00b5": r"'\x1b[1m\xb5' is not a number",
    "395,1": "395 nm follows 385 nm after a step of 5 nm; the steps must be equal",
    "385,1": "385 nm follows 385 nm; wavelengths must rise", "380,1": "380 nm follows 385 nm; wavelengths must rise",
    "390,-0.5": "the value at 390 nm is -0.5, which is below zero; --clip counts it as 0",
}
BAD_FILES = {
    "": "no line begins with a wavelength", "nm,value\n# none\n": "no line begins with a wavelength",
    "wavelength 380\n": "no line begins with a wavelength",
    "900,1\n905,1\n": "no wavelength is from 360 to 830 nm, where CIE's table is",
}
BAD_FIRST_ROW = "nm,value\n38o,1\n385,1\n"


def check_bad_rows(folder):
    """Each bad row is named by file and line, and the files about it are answered."""
    files = {f"{k}.csv": FIRST + row + "\n395,1\n" for k, row in enumerate(BAD_ROWS)}
    said = [f"cradlekeel: {name}:4: {words}\n" for name, words in zip(files, BAD_ROWS.values())]
    names = written(folder, files)
    ran = spectrum(EXAMPLE, *names, EXAMPLE, cwd=folder)
    expect("bad rows", ran, lines([EXAMPLE, EXAMPLE]), "".join(said).encode(), 1)
    (name,) = written(folder, {"first.csv": BAD_FIRST_ROW})
    expect("a bad first row is no heading", spectrum(name, cwd=folder), b"",
           b"cradlekeel: first.csv:2: '38o' is not a wavelength in whole nm; a # before a line has it skipped\n", 1)
    names = written(folder, {f"file {k}.csv": text for k, text in enumerate(BAD_FILES)})
    said = [f"cradlekeel: {name}: {words}\n" for name, words in zip(names, BAD_FILES.values())]
    expect("files that are no spectra", spectrum(*names, cwd=folder), b"", "".join(said).encode(), 1)


def check_unreadable(folder):
    missing = folder / "missing.csv"
    said = f"cradlekeel: {missing}: No such file or directory\ncradlekeel: {folder}: Is a directory\n".encode()
    expect("a missing file and a folder", spectrum(missing, EXAMPLE, folder), lines([EXAMPLE]), said, 1)
    expect("a closed standard input", shell('"$0" spectrum - <&-'), b"", b"cradlekeel: -: Bad file descriptor\n", 1)
    expect("a folder as standard input", shell('"$0" spectrum - </'), b"", b"cradlekeel: -: Bad file descriptor\n", 1)
    expect("a failure that cannot be told", shell('"$0" spectrum - </ 2>&-'), status=1)
    read_end, write_end = os.pipe()
    os.set_blocking(read_end, False)
    os.write(write_end, EXAMPLE.read_bytes())
    ran = subprocess.run([COMMAND, "spectrum", "-"], stdin=read_end, capture_output=True, timeout=PATIENCE)
    expect("a pipe that has nothing more yet and does not wait", ran, b"", b"cradlekeel: -: Resource temporarily unavailable\n", 1)
    os.close(read_end)
    os.close(write_end)


def check_unwritable(folder):
    no_write = b"cradlekeel: cannot write standard output: "
    full, closed = no_write + b"No space left on device\n", no_write + b"Bad file descriptor\n"
    for words in ("examples/incandescent.csv", "--help"):
        expect("a full disk", shell(f'"$0" spectrum {words} >/dev/full', cwd=ROOT), said=full, status=1)
        expect("a closed standard output", shell(f'"$0" spectrum {words} >&-', cwd=ROOT), said=closed, status=1)
    read_end, write_end = os.pipe()
    os.close(read_end)
    ran = subprocess.run([COMMAND, "spectrum", EXAMPLE], stdout=write_end, stderr=subprocess.PIPE, timeout=PATIENCE)
    check("a reader that is gone", (ran.returncode, ran.stderr) == (-signal.SIGPIPE, b""), ran)
    os.close(write_end)
    many = "$(yes examples/incandescent.csv | head -n 1500)"  # more lines of output than a pipe holds
    ran = shell(f'"$0" spectrum {many} | head -1; echo ${{PIPESTATUS[0]}}', cwd=ROOT)
    expect("a reader that leaves after a line", ran, lines(["examples/incandescent.csv"]) + b"141\n")


WRONG_USAGE = (
    [], ["--clip"], ["--stepz", "3", "f"], ["-s", "f"], ["f", "--steps"], ["--steps", "x", "f"], ["--steps", "-1", "f"], ["--steps=", "f"],
    ["--steps", str(2**32), "f"], ["--steps", " 3", "f"], ["--edges", "", "f"], ["--edges", "1600,", "f"], ["--edges", "1600;2500", "f"],
    ["--edges", f"1600,{2**32}", "f"], ["--clip=1", "f"], ["--edges", "5000", "f"], ["--edges=2500,2500", "f"],
)


def check_usage(folder):
    for word in ("-h", "--help"):
        ran = spectrum(EXAMPLE, word)
        shown = ran.stdout.startswith(b"usage: cradlekeel spectrum") and not ran.stderr
        check(f"{word} prints the usage", shown and ran.returncode == 0, ran)
    for words in WRONG_USAGE:
        ran = spectrum(*words)
        told = ran.stderr.endswith(b"; see cradlekeel spectrum --help\n") and ran.stderr.count(b"\n") == 1
        check(f"{words} is wrong usage", told and not ran.stdout and ran.returncode == 2, ran)
    package = {"command": sys.executable, "env": {**os.environ, "PYTHONPATH": str(ROOT / "python")}}
    ran = run(["-B", "-m", "cradlekeel", "--help"], **package)
    named = all(b"\n  " + name + b" " in ran.stdout for name in (b"save", b"show", b"spectrum"))
    check("the package names its commands", named and not ran.stderr and not ran.returncode, ran)
    for words in ([], ["keep"], ["--steps", "3"]):
        ran = run(["-B", "-m", "cradlekeel", *words], **package)
        check(f"{words} is no command", not ran.stdout and ran.stderr.endswith(b"; see cradlekeel --help\n") and ran.returncode == 2, ran)
    expect("the package without the command", run(["-B", "-m", "cradlekeel", "spectrum", EXAMPLE], **package), lines([EXAMPLE]))


# --- The library's build ----------------------------------------------------------------------------------------------


def check_copy(folder):
    copy, words, out = Copy(folder), ["spectrum", EXAMPLE], lines([EXAMPLE])
    path = "/usr/bin:/bin"
    if shutil.which("rt", path=path) is None:
        ran = run(words, command=copy.command, **copy.options(path=path))
        check("no toolchain", ran.returncode == 2 and not ran.stdout and b"rt) is not on the PATH" in ran.stderr, ran)
    ran = run(words, command=copy.command, **copy.options("fail"))
    told = b"rt: FAILED: text" in ran.stderr and ran.stderr.endswith(b"cradlekeel: make lib failed, so nothing is run\n")
    check("a build that fails", ran.returncode == 2 and not ran.stdout and told, ran)
    for asked, status in ((["spectrum", "--help"], 0), (["spectrum"], 2)):
        ran = run(asked, command=copy.command, **copy.options())
        check(f"{asked} needs no library", ran.returncode == status and not copy.runs.read_text(), ran)
    named = copy.options()
    named["env"]["CRADLEKEEL_LIBRARY"] = str(ROOT / "target/lib/libcradlekeel.so")
    expect("a library that the caller names", run(words, command=copy.command, **named), out)
    copy.check_run("a path with a space, and a first run", 1, words, b"", out)
    copy.check_run("a second run builds nothing", 0, words, b"", out)
    expect("a library that is built needs no toolchain", run(words, command=copy.command, **copy.options(path=path)), out)
    (folder / "link").symlink_to(copy.command)
    copy.check_run("a link to the command", 0, words, b"", out, folder / "link")
    (copy.root / "crates.txt").touch()
    copy.check_run("a source that is newer is proved", 1, words, b"", out)


def check_bare_path(folder):
    """Without python3 nothing can be run; without make, a library that is there is taken."""
    copy, words = Copy(folder), ["spectrum", EXAMPLE]
    copy.check_run("a first run", 1, words, b"", lines([EXAMPLE]))
    tools = folder / "few tools"
    tools.mkdir()
    for tool in ("bash", "dirname", "readlink"):
        (tools / tool).symlink_to(shutil.which(tool))
    expect("no python3", run(words, command=copy.command, **copy.options(path=str(tools))), b"",
           b"cradlekeel: python3 is not on the PATH\n", 2)
    (tools / "python3").symlink_to(sys.executable)
    expect("no make", run(words, command=copy.command, **copy.options(path=str(tools))), lines([EXAMPLE]))
    (copy.root / "target/lib/libcradlekeel.so").unlink()
    ran = run(words, command=copy.command, **copy.options(path=str(tools)))
    check("neither make nor a library", ran.returncode == 2 and not ran.stdout and b"make is not on the PATH" in ran.stderr, ran)


def check_builds_at_once(folder):
    Copy(folder).check_at_once(["spectrum", EXAMPLE], b"", lines([EXAMPLE]))


PARTS = (check_first_run, check_forms, check_names, check_options, check_gaps, check_bad_rows, check_unreadable, check_unwritable, check_usage,
         check_copy, check_bare_path, check_builds_at_once)
