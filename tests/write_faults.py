"""Faults in every function of `os` that a command calls while it writes its file, for tests/run-program: the file is as it was or whole."""

import os
import signal
import sys
from typing import NamedTuple

from command_runs import ROOT, check, run

OLD = b"what stood there before"

# Runs a command with a fault in the system's call of a number, counted while the file is written.
FAULTY = """
import errno, importlib, os, signal, sys
from cradlekeel import __main__

at, how, refuses_links = int(sys.argv[1]), sys.argv[2], sys.argv[3] == "nolinks"
command = importlib.import_module("cradlekeel.commands." + sys.argv[4])
write_whole, writing, calls = command.write_whole, False, []

def faulty(name, function):
    def call(*words, **options):
        if writing:
            calls.append(name)
        if writing and len(calls) == at:
            if how != "fail":
                os.kill(os.getpid(), signal.SIGKILL if how == "kill" else signal.SIGTERM)
            else:
                raise OSError(errno.EIO, os.strerror(errno.EIO))
        if writing and name == "link" and refuses_links:
            raise OSError(errno.EPERM, os.strerror(errno.EPERM))
        return function(*words, **options)
    return call

def counted(*words):
    global writing
    writing = True
    try:
        write_whole(*words)
    finally:
        writing = False

for name in ("stat", "open", "fchown", "fchmod", "write", "fsync", "close", "link", "replace", "unlink"):
    setattr(os, name, faulty(name, getattr(os, name)))
command.write_whole = counted
status = __main__.main(sys.argv[4:])
if len(calls) < at:
    sys.exit("no fault in " + " ".join(calls))
sys.exit(status or "no word of " + calls[at - 1])
"""
NO_FAULT = b"no fault in "


class Writing(NamedTuple):
    """A command that writes a file, which is named last."""

    words: list
    text: bytes  # its standard input
    before: bytes  # what it prints before the file is written
    after: bytes  # and afterwards
    file: bytes


def holds(path):
    """What a file holds; None where there is none."""
    return path.read_bytes() if path.exists() else None


def left_alone(path):
    """What stands beside a file: nothing should."""
    return [other.name for other in path.parent.iterdir() if other != path]


def faulty(at, how, links, writing, words):
    variables = {**os.environ, "PYTHONPATH": str(ROOT / "python")}
    return run(["-B", "-c", FAULTY, str(at), how, links, *writing.words, *words], writing.text, sys.executable, env=variables)


def check_faults(folder, writing):
    """Whichever call fails, and wherever it is stopped or killed, the file is as it was or whole, and no other is left."""
    new, replaced = (None, []), (OLD, ["--replace"])
    for how, links, (before, words) in (
            ("fail", "links", new), ("fail", "links", replaced), ("fail", "nolinks", new), ("stop", "links", new), ("stop", "links", replaced),
            ("stop", "nolinks", new), ("kill", "links", new), ("kill", "links", replaced)):
        path = folder / "day.rec"
        calls = check_each_fault(path, how, links, writing, before, words)
        check(f"{how}, {links}, {words}: a run without a fault is whole", holds(path) == writing.file and not left_alone(path), calls)
        synced, named = calls.index("fsync"), calls.index("replace" if before or links == "nolinks" else "link")
        check("what it replaces is looked at, and its owner and mode are kept", not before or {"stat", "fchown", "fchmod"} <= {*calls}, calls)
        check("it is synced before it has its name, and its folder then", synced < named and "fsync" in calls[named:], calls)


def check_each_fault(path, how, links, writing, before, words):
    """A fault in each call, until there are no more; the names of the calls."""
    for at in range(1, 99):
        path.write_bytes(OLD) if before else path.unlink(missing_ok=True)
        ran = faulty(at, how, links, writing, [*words, path])
        if ran.stderr.startswith(NO_FAULT):
            break
        check_fault(f"{how} at call {at}, {links}, {words}", how, ran, writing, path, before)
    return ran.stderr.decode().removeprefix(NO_FAULT.decode()).split()


def check_fault(what, how, ran, writing, path, before):
    """What is said of a fault, and what it leaves; only of a temporary file that cannot be removed there is no word."""
    no_word = ran.stderr == b"no word of unlink\n"
    printed = writing.before + writing.after if no_word else writing.before
    check(f"{what}: what is printed, and a file as it was or whole", ran.stdout == printed and holds(path) in (before, writing.file), ran)
    if no_word:
        check(f"{what}: whole", holds(path) == writing.file and len(left_alone(path)) <= 1, ran)
    elif how == "fail":
        told = ran.stderr.endswith(b"Input/output error\n") and ran.stderr.count(b"\n") == 1 and ran.returncode == 1
        check(f"{what}: told", told and (holds(path) == before or b": written, but its folder could not be synced: " in ran.stderr), ran)
    else:
        ended = -(signal.SIGKILL if how == "kill" else signal.SIGTERM)
        check(f"{what}: ends with no word", (ran.stderr, ran.returncode) == (b"", ended), ran)
    for name in left_alone(path):
        expected = how == "kill" or no_word
        check(f"{what}: its temporary file stays only where it was killed or could not remove it", expected and name.startswith(".cradlekeel-"), name)
        (path.parent / name).unlink()
