"""Writes the table of the ready points (document 02, No. 12) into the crate that stores it, or with --check says where it differs.

    python3 tests/make_table.py             write the file
    python3 tests/make_table.py --check     write nothing; name the first difference and exit with 1
"""

import sys
from pathlib import Path

sys.dont_write_bytecode = True
sys.path.insert(0, str(Path(__file__).resolve().parent))

import document_cases
import reference
from make_vectors import ROOT, first_difference

TABLE = "crates/table/src/points.rt"


def numbers():
    """u and v of each ready point in turn."""
    return [number for _, u, v in reference.ready_points() for number in (u, v)]


def table_text():
    """The file as `rt fmt` lays it out, twelve numbers to a line: all have six digits."""
    given = numbers()
    lines = [given[at:at + 12] for at in range(0, len(given), 12)]
    head = "// u and v of the %s ready points in turn, in micro; tests/make_table.py writes this file.\n" % format(len(given) // 2, ",")
    return head + "pub const READY: [u32; %d] = [\n" % len(given) + "".join("    %s,\n" % ", ".join(map(str, line)) for line in lines) + "];\n"


def check(wanted):
    difference = first_difference(ROOT / TABLE, wanted)
    if difference:
        sys.exit("make_table: " + difference)
    print("make_table: no difference in %d numbers" % len(numbers()))


def write(wanted):
    path = ROOT / TABLE
    path.parent.mkdir(parents=True, exist_ok=True)
    path.write_bytes(wanted)
    print("wrote %s (%d numbers, %d bytes)" % (TABLE, len(numbers()), len(wanted)))


def main():
    if sys.argv[1:] not in ([], ["--check"]):
        sys.exit(__doc__)
    document_cases.check_ready_points()
    (check if sys.argv[1:] else write)(table_text().encode())


if __name__ == "__main__":
    main()
