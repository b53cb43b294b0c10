"""Runs of bin/cradlekeel and what is expected of them, for tests/run-program: in the repository, and in copies with a stand-in for rt; and a
full disk, for the programs of examples/ too."""

import os
import resource
import shutil
import signal
import subprocess
import sys
from pathlib import Path

ROOT = Path(__file__).resolve().parent.parent
COMMAND = ROOT / "bin/cradlekeel"
PROGRAM = ROOT / "target/cradlekeel"
LINKED = ROOT / "crates/cradlekeel/out/cradlekeel"
LIBRARY = ROOT / "target/lib/libcradlekeel.a"
PATIENCE = 60  # seconds that one run may take; a build gets ten times as many
checks = 0


def check(what, holds, found):
    global checks
    checks += 1
    if not holds:
        sys.exit(f"run-program: FAILED: {what}\n  found: {found}")


def expect(what, ran, out=b"", said=b"", status=0):
    found = (ran.stdout, ran.stderr, ran.returncode)
    check(f"{what}\n  expected: {(out, said, status)}", found == (out, said, status), found)


def run(words=(), text=b"", command=COMMAND, patience=PATIENCE, **options):
    return subprocess.run([command, *words], input=text, capture_output=True, timeout=patience, **options)


def shell(script, text=b"", **options):
    """A run by a line of bash in which $0 is the command."""
    return run(["-c", f"set -o pipefail; {script}", str(COMMAND)], text, "bash", **options)


def no_large_files():
    """Has a write beyond 20 bytes fail, as it does on a full disk."""
    signal.signal(signal.SIGXFSZ, signal.SIG_IGN)
    resource.setrlimit(resource.RLIMIT_FSIZE, (20, 20))


# Stands for rt in a copy: `rt run` in crates/cradlekeel links PROGRAM, unless it stands there whole, and runs it, and `rt lib` in
# crates/cct_c copies LIBRARY.
STAND_IN = """#!/bin/sh
[ -f ../../crates.txt ] || exit 9
echo run >>"$RT_RUNS"
mkdir -p out
case $RT_MODE in
slow) sleep 1 ;;
fail) echo "rt: FAILED: text" && exit 1 ;;
half) head -c 99 "$RT_PROGRAM" >out/cradlekeel && chmod +x out/cradlekeel && sleep 60 ;;
esac
case "${PWD##*/} $*" in
"cradlekeel run") { cmp -s "$RT_PROGRAM" out/cradlekeel || cp "$RT_PROGRAM" out/cradlekeel; } && out/cradlekeel ;;
"cct_c lib") cp "$RT_LIBRARY" out/libcct_c.a ;;
*) exit 9 ;;
esac
"""


class Copy:
    """The command in a folder of its own, whose name has a space, with the stand-in for rt."""

    def __init__(self, folder):
        self.root, self.runs = folder / "a copy", folder / "runs"
        self.command, self.program = self.root / "bin/cradlekeel", self.root / "target/cradlekeel"
        self.linked = self.root / "crates/cradlekeel/out/cradlekeel"
        for part in ("bin", "python", "data"):
            shutil.copytree(ROOT / part, self.root / part, ignore=shutil.ignore_patterns("__pycache__"))
        shutil.copy2(ROOT / "Makefile", self.root)
        for crate in ("cradlekeel", "cct_c"):
            (self.root / "crates" / crate / "src").mkdir(parents=True)
        (self.root / "crates.txt").touch()
        (folder / "tools").mkdir()
        (folder / "tools/rt").write_text(STAND_IN)
        (folder / "tools/rt").chmod(0o755)
        self.path = f"{folder / 'tools'}:{os.environ['PATH']}"

    def options(self, mode="", path=None):
        self.runs.write_text("")
        given = {"RT_RUNS": self.runs, "RT_MODE": mode, "RT_PROGRAM": PROGRAM, "RT_LIBRARY": LIBRARY}
        return {"env": {**os.environ, "PATH": path or self.path, **given}}

    def start(self, mode, words=()):
        pipes = {"stdin": subprocess.PIPE, "stdout": subprocess.PIPE, "stderr": subprocess.PIPE}
        return subprocess.Popen([self.command, *words], start_new_session=True, **pipes, **self.options(mode))

    def check_run(self, what, builds, words, text, out, command=None):
        """A run with so many builds that gives the output."""
        ran = run(words, text, command or self.command, **self.options())
        check(what, (ran.stdout, ran.returncode) == (out, 0) and self.runs.read_text().count("run") == builds, ran)
        check(f"{what}: a build says two lines", ran.stderr.count(b"\n") == 2 * builds, ran)

    def check_at_once(self, words, text, out):
        """Two first runs at once, of which one builds."""
        both, told = [self.start("slow", words) for _ in range(2)], b""
        for process in both:
            found, said = process.communicate(text, PATIENCE)
            check("two first runs at once", (found, process.returncode) == (out, 0), (found, said, process.returncode))
            told += said
        check("of which one builds", self.runs.read_text().count("run") == told.count(b"built in") == 1, told)
