"""What the CIE 1931 x and y of a lamp come to. Once `make lib` has built the library:

    python3 examples/lamp.py 0.3127 0.3290
"""

import sys
from pathlib import Path

sys.path.insert(0, str(Path(__file__).resolve().parent.parent / "python"))
import cradlekeel

EDGES = (1600, 2500, 3500, 5000, 20001)  # class 0 is 1600 K to under 2500 K, and so on

try:
    x, y = map(float, sys.argv[1:])
except ValueError:
    print("usage: lamp.py X Y    (CIE 1931, as: lamp.py 0.3127 0.3290)", file=sys.stderr)
    sys.exit(2)
try:
    a = cradlekeel.read_xy(x, y, edges=EDGES, steps=14)
except cradlekeel.Refusal as refusal:
    print(refusal)
    sys.exit(1)
print(a)  # in words; a.kelvin, a.duv, a.kelvin_range and a.class_index are its parts
