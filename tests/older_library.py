"""Libraries as they were before, in a few lines of C, and what the package says when it is given one."""

import os
import subprocess
import sys
import tempfile
from pathlib import Path

ROOT = Path(__file__).resolve().parent.parent

COLUMNS = ("const void *u, size_t us, const void *v, size_t vs, const void *p, size_t ps, const void *l, size_t ls, "
           "const void *h, size_t hs, const void *d, size_t ds, const void *s, size_t ss, const void *c, size_t cs")
WRITER = """
#include <stddef.h>
struct done { size_t count; unsigned char refusal; };
struct done ck_write_records(%s, unsigned char *file, size_t room) {
    struct done done = {8, 0};
    for (size_t i = 0; i < room && i < 8; i++) file[i] = i == 0 ? %d : 0;
    return done;
}
"""


def writer_of(length):
    """The C of a library that writes files of no records, which have so many bytes each."""
    return WRITER % (COLUMNS, length)


def asked(source, calls):
    """Each call of the package with a library of this C: the call, the library, and how the run ended."""
    with tempfile.TemporaryDirectory() as folder:
        text, library = Path(folder) / "older.c", Path(folder) / "older.so"
        text.write_text(source)
        subprocess.run(["gcc", "-shared", "-fPIC", text, "-o", library], check=True)
        variables = {**os.environ, "PYTHONPATH": str(ROOT / "python"), "CRADLEKEEL_LIBRARY": str(library)}
        for call in calls:
            words = [sys.executable, "-B", "-c", f"import cradlekeel; cradlekeel.{call}"]
            yield call, library, subprocess.run(words, env=variables, capture_output=True, text=True)
