"""Correlated colour temperature, Duv and temperature class of one colour reading, answered by Cradlekeel's proved library, a coarse
temperature of it for a panel, files of such answers, the differences of two such files, what can be salvaged of a broken one, and a board
on which the answers are assigned to jobs.

>>> import cradlekeel
>>> answer = cradlekeel.read_xy(0.3127, 0.3290)
>>> round(answer.kelvin), answer.duv, answer.class_index
(6510, 0.003191, 3)

Build the library first: `make lib` in the repository's root, and again after `.ci/run`, which empties target/. The
variable CRADLEKEEL_LIBRARY names a library in another place. Only Python's standard library is used. examples/lamp.py is a
whole program, and `python3 -m cradlekeel --help` names the commands of the package itself.

The library takes single-precision floats. A Python float is a double, and it is rounded to the nearest single when it is
handed over: 0.3127 is answered as 0.312700003385543823..., 0.99999999 becomes 1 and is refused, -0.0000005 becomes
-0.000000499999998737..., which is in range and counts as 0, and 1e39 becomes an infinity. What then happens to the single is
exact. `read_micro`, `coarse_micro` and `read_samples` take whole numbers and round nothing; `read_spectrum` makes whole numbers of a meter's
values, which is tested and not proved.

For a panel that shows a temperature and nothing else, `coarse_xy` and its like look no further than 1,565 places of the locus, 25/68 mired
apart, whose points the library has ready in a table. They take no edges and no steps, and give the nearest of these places, which is
103,360,000 / place in kelvin.

>>> place = cradlekeel.coarse_xy(0.3127, 0.3290)
>>> place, round(103_360_000 / place)
(15884, 6507)

`to_bytes` and `read_records` make a file of records, readings with their answers, and read it, in memory: they take and give its
bytes and do no input or output. A file from before, whose records have 18 bytes instead of 20, is read as well.

>>> record = cradlekeel.Record.of(219300, 327100, cradlekeel.read_micro(219300, 327100, steps=2))
>>> cradlekeel.read_records(cradlekeel.to_bytes([record])) == [record]
True

`compare_files` lists the differences of two files: the number of a record, its field, and what each file has there.

>>> file, other = cradlekeel.to_bytes([record]), cradlekeel.to_bytes([record._replace(duv=-2333)])
>>> cradlekeel.compare_files(file, other)
[Difference(record=0, field=5, first=-2331, second=-2333)]

`salvage` takes the bytes of a file that was left without its end, as by a full disk, and gives those of a new one with every record that
is what the library answers now.

>>> salvaged = cradlekeel.salvage(file[:-1], record_length=20)
>>> salvaged.kept, salvaged.dropped, salvaged.leftover, salvaged.file == file
(1, [], 7, True)

A `Board` has up to 64 records as lots that dispatchers assign to jobs. It is a value: each call hands a board back, and with it what the
call is told. Whoever assigns a lot names the stamp that he saw; if it is not the current one, nothing is stored and he is told. A call is
made in the name of a `Party`: a partner house may have lots there too, and each house reaches its own places only.

>>> ours = cradlekeel.Party.OURS
>>> board, told = cradlekeel.Board.load([record])
>>> board, told = board.assign(ours, place=0, stamp=0, job=4711)
>>> board, told = board.assign(ours, place=0, stamp=0, job=4712)
>>> told.refusal, told.stamp, board.lots[0].job
(18, 1, 4711)

A reading that has no answer, and a file that cannot be read, raise `Refusal`, of two files `FileRefusal`, which says which; a call on a
board raises none, and tells it. A whole number that does not fit its bits, as a field of a record has 8, 16 or 32, raises `ValueError`,
and what is no whole number there `TypeError`. The library writes to nothing that it is given but the target of `write_records`.
"""

from ._library import LibraryMissing
from .boards import Board, Lot, Party, Told
from .differences import ONLY_FIRST, ONLY_SECOND, Difference, FileRefusal, compare_files
from .readings import (EDGES, REASONS, STEPS, Answer, Refusal, coarse_micro, coarse_uv, coarse_uv_prime, coarse_xy, coarse_xyz, read_micro,
                       read_samples, read_uv, read_uv_prime, read_xy, read_xyz)
from .records import MOST_RECORDS, MOST_WRITTEN, Record, check_file, read_records, record_at, to_bytes, write_records
from .salvages import Salvaged, salvage
from .spectra import BadSpectrum, BelowZero, cie_1931, read_spectrum

__all__ = ["EDGES", "MOST_RECORDS", "MOST_WRITTEN", "ONLY_FIRST", "ONLY_SECOND", "REASONS", "STEPS", "Answer", "BadSpectrum", "BelowZero",
           "Board", "Difference", "FileRefusal", "LibraryMissing", "Lot", "Party", "Record", "Refusal", "Salvaged", "Told", "check_file",
           "cie_1931", "coarse_micro", "coarse_uv", "coarse_uv_prime", "coarse_xy", "coarse_xyz", "compare_files", "read_micro", "read_records",
           "read_samples", "read_spectrum", "read_uv", "read_uv_prime", "read_xy", "read_xyz", "record_at", "salvage", "to_bytes",
           "write_records"]

for _public in (Answer, BadSpectrum, BelowZero, Board, Difference, FileRefusal, LibraryMissing, Lot, Party, Record, Refusal, Salvaged, Told):
    _public.__module__ = __name__  # a traceback names them as their users do, as in cradlekeel.Refusal
