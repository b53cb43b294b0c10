"""Writes the test vectors of the repository, or with --check says where a committed file differs from them.

    python3 tests/make_vectors.py           write every file and print how many lines each kind has
    python3 tests/make_vectors.py --check   write nothing; name the first difference and exit with 1
"""

import sys
import time
from collections import Counter
from itertools import zip_longest
from pathlib import Path

sys.dont_write_bytecode = True
sys.path.insert(0, str(Path(__file__).resolve().parent))

import document_cases
import reference
import spectra
import text_cases
import vectors

ROOT = Path(__file__).resolve().parent.parent


def vector_files():
    """The vectors program's input and what it must write, one vector to a line."""
    lines = vectors.lines()
    answers = [vectors.expected(line, held) for line, held in vectors.with_held(lines)]
    summary = Counter(map(vectors.kind_of, lines))
    print("vectors: %d lines (%s)" % (len(lines), ", ".join("%s %d" % pair for pair in summary.items())))
    return {"crates/vectors/stdin": joined(lines), "crates/vectors/stdout": joined(answers)}


def text_files():
    """The text program's input and its whole output."""
    given = text_cases.text_input()
    answers = reference.answer_text(given)
    summary = Counter(line.split(b" ")[0].decode() for line in answers.splitlines())
    print("text: %d lines (%s)" % (sum(summary.values()), ", ".join("%s: %d" % pair for pair in sorted(summary.items()))))
    return {"crates/cradlekeel/stdin": given, "crates/cradlekeel/stdout": answers}


def joined(lines):
    return "".join(line + "\n" for line in lines).encode()


def first_difference(path, wanted):
    """None where the file holds the wanted bytes; otherwise a sentence that names the first line that differs."""
    if not path.exists():
        return "%s is missing" % path
    held = path.read_bytes()
    if held == wanted:
        return None
    pairs = zip_longest(held.split(b"\n"), wanted.split(b"\n"))
    number, (old, new) = next((k, pair) for k, pair in enumerate(pairs, 1) if pair[0] != pair[1])
    return "%s line %d: the file has %r, the reference gives %r" % (path, number, (old or b"")[:120], (new or b"")[:120])


def check(files):
    for name, wanted in files.items():
        difference = first_difference(ROOT / name, wanted)
        if difference:
            sys.exit("make_vectors: " + difference)


def write(files):
    for name, wanted in files.items():
        path = ROOT / name
        path.parent.mkdir(parents=True, exist_ok=True)
        path.write_bytes(wanted)
        print("wrote %s (%d bytes)" % (name, len(wanted)))


PARTS = (vector_files, text_files)


def main():
    if sys.argv[1:] not in ([], ["--check"]):
        sys.exit(__doc__)
    started = time.monotonic()
    document_cases.check()
    spectra.check_table()
    files = {name: wanted for part in PARTS for name, wanted in part().items()}
    (check if sys.argv[1:] else write)(files)
    print("make_vectors: %s in %.1f s" % ("no difference" if sys.argv[1:] else "written", time.monotonic() - started))


if __name__ == "__main__":
    main()
