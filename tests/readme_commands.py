"""The commands that README.md and the pages of docs/ below show with `$ ` in their indented blocks, run again: each must print the lines
under it.

A command goes on over further lines while bash finds it incomplete. One with no lines under it is only run, and must succeed.
tests/run-abi runs those that need the C library, tests/run-program all others, so that every command runs in one of the two."""

import os
import re
import subprocess
from pathlib import Path
from typing import NamedTuple

ROOT = Path(__file__).resolve().parent.parent
FENCE = re.compile(r"^ *```.*?^ *```[^\n]*$", re.MULTILINE | re.DOTALL)
INDENT, PROMPT = "    ", "$ "
NEEDS_LIBRARY = re.compile(
    r"\b(?:gcc|g\+\+|python3|target/lib|target/lamp|target/panel|target/samples|target/\w+\.rec|cradlekeel (?:board|compare|salvage|save|show|spectrum))(?![\w-])")
LEFT_OUT = ("make lib", ".ci/run")  # tests/run-abi and the gate run these themselves
PAGES = ("README.md", "docs/FILES.md", "docs/BOARD.md")
SAVING = (*PAGES, "examples/board.c", "examples/compare.c", "examples/salvage.c")  # what tells to save files, the examples in a comment
FEWEST = 3  # on each page
PATIENCE = 120  # seconds that one command may take


class Command(NamedTuple):
    text: str
    shown: tuple  # the lines under it

    @property
    def needs_library(self):
        return NEEDS_LIBRARY.search(self.text) is not None


def indented_blocks(text):
    """The lines of each run of indented lines outside fences, without their indent; blank lines do not end a run."""
    blocks = [[]]
    for line in FENCE.sub("", text).splitlines():
        if line.startswith(INDENT) or not line.strip():
            blocks[-1].append(line[len(INDENT):])
        else:
            blocks.append([])
    return blocks


def is_incomplete(text):
    """Whether bash wants more lines."""
    if text.endswith(("|", "\\")):
        return True
    said = subprocess.run(["bash", "-n"], input=text, capture_output=True, text=True, env={**os.environ, "LC_ALL": "C"}).stderr
    return "unexpected EOF" in said or "unexpected end of file" in said or "here-document" in said


def commands_of(block):
    """The commands of one block, each with the lines up to the next."""
    starts = [k for k, line in enumerate(block) if line.startswith(PROMPT)]
    for start, end in zip(starts, [*starts[1:], len(block)]):
        text, at = block[start][len(PROMPT):].rstrip(), start + 1
        while at < end and is_incomplete(text):
            text, at = text + "\n" + block[at].rstrip(), at + 1
        assert not is_incomplete(text), "a command does not end: " + text
        yield Command(text, tuple("\n".join(block[at:end]).rstrip().splitlines()))


def commands(text):
    """Every command that is to be run."""
    found = [command for block in indented_blocks(text) for command in commands_of(block)]
    return [command for command in found if not command.text.startswith(LEFT_OUT)]


def page_commands(page):
    found = commands((ROOT / page).read_text(encoding="utf-8"))
    assert len(found) >= FEWEST, f"{page} shows {len(found)} commands; {FEWEST} is the fewest"
    return found


SAVED = re.compile(r"([^|$*]*)\| bin/cradlekeel save --replace (target/\S+)")


def check_saved(texts):
    """What the texts save under one name is the same, so that they can be followed in any order; how many names there are."""
    found = {(name, made.strip()) for text in texts for made, name in SAVED.findall(text)}
    names = [name for name, _ in found]
    assert len(set(names)) == len(names), f"two things are saved under one name: {sorted(found)}"
    return len(names)


def all_commands():
    """Every command of every page, in its order."""
    return [command for page in PAGES for command in page_commands(page)]


def fault(command):
    """What a command does otherwise than its page shows; None where nothing."""
    ran = subprocess.run(["bash", "-c", command.text], cwd=ROOT, stdin=subprocess.DEVNULL, stdout=subprocess.PIPE,
                         stderr=subprocess.STDOUT, text=True, timeout=PATIENCE)
    if not command.shown:
        return f"{command.text}\nended with status {ran.returncode}: {ran.stdout}" if ran.returncode else None
    if tuple(ran.stdout.splitlines()) == command.shown:
        return None
    return "\n".join((command.text, "the page shows:", *command.shown, "it printed:", ran.stdout))


def run(with_library):
    """Runs the commands that need the library, or those that do not, and counts them."""
    chosen = [command for command in all_commands() if command.needs_library == with_library]
    assert chosen, "the pages show no command " + ("that needs the library" if with_library else "for the program alone")
    for command in chosen:
        found = fault(command)
        assert found is None, "a command of a page: " + found
    return len(chosen)


SAMPLE = """
A sentence with `$ false`, and a block.

    $ printf 'a\\nb\\n' |
        sed '
          s/a/c/'
    c
    b
    $ true

    $ echo "d

    e"
    d

    e

    $ make lib        # left out
    no prompt
```sh
    $ echo in a fence
```
    $ gcc --version && target/lamp
    $ bin/cradlekeel spectrum lamp.csv
    $ bin/cradlekeel compare bench.rec desk.rec
    $ bin/cradlekeel salvage broken.rec new.rec
    $ printf '1 2\\n' | bin/cradlekeel save day.rec
    $ od target/day.rec
    $ bin/cradlekeel board day.rec <<'END'
    read 0
    END
    17
"""


def is_refused(check, given):
    try:
        check(given)
    except AssertionError:
        return True
    return False


def self_test():
    """The sample is read as it should be, and a wrong output, a wrong status, two files of one name and a command without an end are
    found."""
    found = commands(SAMPLE)
    assert [len(command.shown) for command in found] == [2, 0, 3, 0, 0, 0, 0, 0, 0, 1], found
    assert [command.needs_library for command in found] == 3 * [False] + 7 * [True], found
    assert [fault(command) for command in found[:3]] == [None, None, None], found
    assert fault(found[0]._replace(shown=("c",))) and fault(found[2]._replace(text="echo d"))
    assert fault(Command("false", ()))
    assert check_saved((ROOT / name).read_text(encoding="utf-8") for name in SAVING) >= FEWEST
    saved = "$ echo {} | bin/cradlekeel save --replace target/a.rec\n"
    assert check_saved([saved.format("a"), 2 * saved.format("a")]) == 1
    assert is_refused(check_saved, [saved.format("a") + saved.format("b")]), "two files of one name go unnoticed"
    assert is_refused(commands, "    $ echo 'no end\n"), "a command without an end goes unnoticed"
    return len(all_commands())
