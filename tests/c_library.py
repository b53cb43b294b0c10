"""Functions of the built C library, with the types of include/cradlekeel.h, written apart from those of the package."""

import ctypes
import os
from functools import lru_cache
from pathlib import Path

ROOT = Path(__file__).resolve().parent.parent


@lru_cache(maxsize=None)
def typed(name, taken, given):
    """A function by the types of what it takes and of what it gives; the library is that of the variable CRADLEKEEL_LIBRARY, or the
    one that `make lib` builds."""
    path = Path(os.environ.get("CRADLEKEEL_LIBRARY") or ROOT / "target/lib/libcradlekeel.so").resolve()
    found = ctypes.CDLL(str(path))[name]
    found.argtypes, found.restype = taken, given
    return found
