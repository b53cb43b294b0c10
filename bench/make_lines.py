"""Writes N lines of input for the text program: readings about the locus, most accepted, one in fifty refused or unreadable.

    python3 bench/make_lines.py N

The same N gives the same lines on every machine.
"""

import random
import sys
from pathlib import Path

sys.dont_write_bytecode = True
sys.path.insert(0, str(Path(__file__).resolve().parent.parent / "tests"))

from reference import FIRST_PLACE, LAST_PLACE, MOST_STEPS, locus_point

HARD_LINES = ("0 0", "183000 276000", "346000 360540", "4000001 0", "12 x", "", "219300  327100", "1 2 3 4", "x" * 40)
SPREAD = 6000


def line(dice):
    """Two numbers, or three with a number of steps."""
    if dice.random() < 0.02:
        return HARD_LINES[int(dice.random() * len(HARD_LINES))]
    u, v = locus_point(FIRST_PLACE + int(dice.random() * (LAST_PLACE - FIRST_PLACE + 1)))
    u, v = (int(at + (2 * dice.random() - 1) * SPREAD) for at in (u, v))
    return f"{u} {v}" if dice.random() < 0.6 else f"{u} {v} {int(dice.random() * (MOST_STEPS + 1))}"


def main():
    dice = random.Random(1)
    for _ in range(int(sys.argv[1])):
        sys.stdout.write(line(dice) + "\n")


if __name__ == "__main__":
    main()
