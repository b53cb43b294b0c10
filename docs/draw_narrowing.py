"""Draws docs/narrowing.svg from what the program prints for one reading at 0 to 14 steps.

    python3 docs/draw_narrowing.py [PROGRAM]     (PROGRAM: target/cradlekeel)
"""

import subprocess
import sys
from html import escape
from pathlib import Path
from typing import NamedTuple

ROOT = Path(__file__).resolve().parent.parent
READING = (219300, 327100)
KELVIN_PLACES = 103_360_000
EDGES = (3500, 5000)  # those of the program's five that are near the reading

# Colours of Okabe and Ito that stay apart for colour-blind readers; a range without a class is also hollow.
NAMED, UNNAMED, INK, SOFT, RULE = "#0072b2", "#d55e00", "#1f2328", "#59636e", "#d1d9e0"
BANDS = ("#f6f8fa", "#eaf2f8", "#f6f8fa")

WIDTH, HEIGHT = 1000, 642
TOP, ROW, COUNT = 158, 27, 15
BOTTOM = TOP + ROW * COUNT


class Row(NamedTuple):
    steps: int
    coolest: float
    hottest: float
    kelvin: float
    cls: str


def printed_rows(program):
    """What the program prints for the reading at 0, 1, .., 14 steps."""
    lines = "".join("%d %d %d\n" % (*READING, steps) for steps in range(COUNT))
    printed = subprocess.run([program], input=lines, capture_output=True, text=True, check=True).stdout
    rows = []
    for line in printed.splitlines():
        _, place, low, high, _, steps, cls = line.split()
        rows.append(Row(int(steps), *(KELVIN_PLACES / int(at) for at in (high, low, place)), cls))
    return rows


def text(x, y, words, size=14, colour=INK, anchor="start", weight="normal"):
    return (f'<text x="{x:.1f}" y="{y:.1f}" font-size="{size}" fill="{colour}" text-anchor="{anchor}" '
            f'font-weight="{weight}">{escape(words)}</text>')


def line(x1, y1, x2, y2, colour=RULE, width=1.0, dash=""):
    dashed = f' stroke-dasharray="{dash}"' if dash else ""
    return f'<line x1="{x1:.1f}" y1="{y1:.1f}" x2="{x2:.1f}" y2="{y2:.1f}" stroke="{colour}" stroke-width="{width}"{dashed}/>'


def box(x1, y1, x2, y2, fill, stroke="none", radius=0.0):
    return (f'<rect x="{x1:.1f}" y="{y1:.1f}" width="{x2 - x1:.1f}" height="{y2 - y1:.1f}" rx="{radius}" fill="{fill}" '
            f'stroke="{stroke}" stroke-width="1.8"/>')


class Panel(NamedTuple):
    """A stretch of the temperature axis, drawn from `left` to `right`."""

    left: float
    right: float
    coolest: float
    hottest: float

    def x(self, kelvin):
        return self.left + (self.right - self.left) * (kelvin - self.coolest) / (self.hottest - self.coolest)

    def holds(self, row):
        return self.coolest <= row.coolest and row.hottest <= self.hottest


WHOLE = Panel(92, 500, 3330, 5310)
CLOSE = Panel(536, 716, 4446, 4512)
STEPS_END, RANGE_END, WIDTH_END, CLASS_END = 68, 858, 918, WIDTH - 24


def row_middle(row):
    return TOP + ROW * (row.steps + 0.5)


def row_marks(panel, row):
    """The range as a bar and the answer as an upright mark."""
    middle, colour = row_middle(row), UNNAMED if row.cls == "-" else NAMED
    left, right = panel.x(row.coolest), panel.x(row.hottest)
    if right - left < 3:
        left, right = (left + right) / 2 - 1.5, (left + right) / 2 + 1.5
    fill = "#ffffff" if row.cls == "-" else colour
    bar = box(left, middle - 6, right, middle + 6, fill, colour, 2)
    at = panel.x(row.kelvin)
    return bar + line(at, middle - 10.5, at, middle + 10.5, INK, 2.2)


def axis(panel, ticks):
    found = [line(panel.left, BOTTOM, panel.right, BOTTOM, SOFT)]
    for kelvin in ticks:
        found.append(line(panel.x(kelvin), BOTTOM, panel.x(kelvin), BOTTOM + 5, SOFT))
        found.append(text(panel.x(kelvin), BOTTOM + 21, f"{kelvin} K", 13, SOFT, "middle"))
    return found


def class_bands():
    """The classes behind the left panel, with the edges between them."""
    bounds = (WHOLE.coolest, *EDGES, WHOLE.hottest)
    found = []
    for k, (low, high) in enumerate(zip(bounds, bounds[1:])):
        found.append(box(WHOLE.x(low), TOP, WHOLE.x(high), BOTTOM, BANDS[k]))
    for edge in EDGES:
        found.append(line(WHOLE.x(edge), TOP - 8, WHOLE.x(edge), BOTTOM, INK, 1.4, "5 4"))
        found.append(text(WHOLE.x(edge), TOP - 14, f"{edge} K", 13, INK, "middle", "600"))
    found.append(text(sum(map(WHOLE.x, EDGES)) / 2, TOP - 14, "class 2", 13, NAMED, "middle", "600"))
    return found


def close_up(rows):
    """The right panel: the last rows on a wider scale, tied to where they stand in the left one."""
    shown = [row for row in rows if CLOSE.holds(row)]
    top = row_middle(shown[0]) - ROW / 2
    left, right = WHOLE.x(CLOSE.coolest), WHOLE.x(CLOSE.hottest)
    found = [f'<rect x="{left:.1f}" y="{top:.1f}" width="{right - left:.1f}" height="{BOTTOM - top:.1f}" fill="none" stroke="{SOFT}"/>',
             line(right, top, CLOSE.left, top - ROW, SOFT), line(right, BOTTOM, CLOSE.left, BOTTOM, SOFT),
             box(CLOSE.left, top - ROW, CLOSE.right, BOTTOM, BANDS[1]), line(CLOSE.left, top - ROW, CLOSE.left, BOTTOM, SOFT),
             text((CLOSE.left + CLOSE.right) / 2, top - 8, f"steps {shown[0].steps} to {shown[-1].steps}, closer", 13, SOFT, "middle")]
    return found + [row_marks(CLOSE, row) for row in shown] + axis(CLOSE, (4450, 4475, 4500))


def table(rows):
    """The same in numbers."""
    heads = ((STEPS_END, "steps"), (RANGE_END, "range, K"), (WIDTH_END, "width"), (CLASS_END, "class"))
    found = [text(x, TOP - 14, head, 13, SOFT, "end", "600") for x, head in heads]
    for row in rows:
        y, width, colour = row_middle(row) + 5, row.hottest - row.coolest, UNNAMED if row.cls == "-" else NAMED
        found.append(text(STEPS_END, y, str(row.steps), 14, INK, "end"))
        found.append(text(RANGE_END, y, f"{row.coolest:.1f} – {row.hottest:.1f}", 13, INK, "end"))
        found.append(text(WIDTH_END, y, f"{width:.1f}", 13, SOFT, "end"))
        found.append(text(CLASS_END, y, "none" if row.cls == "-" else row.cls, 13, colour, "end", "600"))
    return found


def heading(rows):
    named = next(row for row in rows if row.cls != "-")
    u, v = (coordinate / 1e6 for coordinate in READING)
    title = f"One reading, narrowed step by step: u = {u:.4f}, v = {v:.4f}"
    below = ("The range of temperature that cradlekeel prints after 0 to 14 golden-section steps, against the class edges.",
             f"Class {named.cls} is named from step {named.steps} on: only then does the whole range lie in it, for an edge belongs to "
             "the class above.")
    return [text(24, 42, title, 21, INK, weight="600")] + [text(24, 69 + 22 * k, words, 14, SOFT) for k, words in enumerate(below)]


def legend():
    y = HEIGHT - 20
    return [box(92, y - 11, 118, y + 1, "#ffffff", UNNAMED, 2), text(126, y, "range, no class named", 13),
            box(292, y - 11, 318, y + 1, NAMED, NAMED, 2), text(326, y, "range, class named", 13),
            line(486, y - 15, 486, y + 5, INK, 2.2), text(495, y, "the answer: nearest point the search came by", 13)]


def drawing(rows):
    parts = [box(0, 0, WIDTH, HEIGHT, "#ffffff")] + heading(rows) + class_bands()
    parts += [line(24, row_middle(row) + ROW / 2, WIDTH - 24, row_middle(row) + ROW / 2, RULE, 0.6) for row in rows]
    parts += close_up(rows) + [row_marks(WHOLE, row) for row in rows] + axis(WHOLE, (3500, 4000, 4500, 5000))
    return "\n".join(parts + table(rows) + legend())


def main():
    rows = printed_rows(sys.argv[1] if sys.argv[1:] else str(ROOT / "target/cradlekeel"))
    head = (f'<svg xmlns="http://www.w3.org/2000/svg" viewBox="0 0 {WIDTH} {HEIGHT}" width="{WIDTH}" height="{HEIGHT}" '
            'font-family="Helvetica, Arial, sans-serif" role="img">')
    title = "<title>The range of one reading at 0 to 14 steps</title>"
    (ROOT / "docs/narrowing.svg").write_text(f"{head}\n{title}\n{drawing(rows)}\n</svg>\n")


if __name__ == "__main__":
    main()
