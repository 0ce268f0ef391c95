"""Colour bars: a trace that changes a screen from line to line.

Every second line gives ULA colour 17, which is paper 1 and border 1, the next colour of a rainbow. Port $FE makes every
other eight lines of the border black, and register $26 bends the display into a wave.

    python3 bars.py [TRACE-FILE]

The file is bars.trace in the current folder where none is named. It runs in any folder once the package is installed
(pip install ./bindings/python), and in a checkout with bindings/python on PYTHONPATH."""

from __future__ import annotations

import colorsys
import math
import sys
from pathlib import Path
from typing import Iterator

import narephon
from narephon import PortEntry, RegisterEntry

LINES = 256
# Lines 32 to 223 show the display; the others are border alone.
FIRST, LAST = 32, 223
# $43 for the ULA's first palette with an index that stays, and the index of paper 1 and border 1.
STAYS, PAPER_1 = 0x80, 17
BAR, WAVE, SWING = 8, 96, 10


def rainbow(line: int) -> int:
    """A colour as $41 takes it, RRRGGGBB: one turn of the hues from top to bottom."""
    red, green, blue = colorsys.hsv_to_rgb(line / LINES, 1, 1)
    return round(red * 7) << 5 | round(green * 7) << 2 | round(blue * 3)


def swing(line: int) -> int:
    """How far a line of the display is moved, as $26 takes it: to the left, or back by going on to 256."""
    return round(SWING * math.sin((line - FIRST) * 2 * math.pi / WAVE)) % 256


def entries() -> Iterator[narephon.Entry]:
    """The writes, line by line; what stays as it was is not written again."""
    yield RegisterEntry(0, 0x43, STAYS)
    yield RegisterEntry(0, 0x40, PAPER_1)
    moved = 0
    for line in range(LINES):
        if line % 2 == 0:
            yield RegisterEntry(line, 0x41, rainbow(line))
        if line % BAR == 0:
            yield PortEntry(line, 0xFE, line // BAR % 2)
        if FIRST <= line <= LAST and swing(line) != moved:
            moved = swing(line)
            yield RegisterEntry(line, 0x26, moved)


def main() -> None:
    file = Path(sys.argv[1] if len(sys.argv) > 1 else "bars.trace")
    trace = narephon.make_trace(entries())
    file.write_bytes(trace)
    print(f"{len(trace) // 4} entries: {file}")


if __name__ == "__main__":
    main()
