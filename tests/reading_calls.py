"""The numbers of a reading, floats by their bits as the lines of the vectors have them, made into what the C functions take and into what
those of the package take."""

import struct
from ctypes import c_float

WHOLE_NUMBERS = ("whole", "samples")  # the kinds of reading that have no floats


def numbers_of(kind, fields):
    """The numbers that the words of a line write down."""
    return [int(field, 10 if kind in WHOLE_NUMBERS else 16) for field in fields]


def for_c(kind, numbers):
    """A float goes over bit by bit."""
    return numbers if kind in WHOLE_NUMBERS else [c_float.from_buffer_copy(struct.pack("<I", bits)) for bits in numbers]


def for_python(kind, numbers):
    """A float goes over by its value; a NaN may lose some of its bits."""
    return numbers if kind in WHOLE_NUMBERS else [struct.unpack("<f", struct.pack("<I", bits))[0] for bits in numbers]
