"""One screen in all six orders of its layers, a picture of three panels by two:

    SLU  LSU  SUL
    LUS  USL  ULS

U, the ULA's screen, is a frame and three bars, and transparent between them. L, Layer 2, is a disc with a band of
priority dots across it, and S, the sprites, are five squares. Where all three are transparent the fallback shows.

    python3 orders.py [PNG-FILE]

The file is orders.png in the current folder where none is named. It runs in any folder once the package is installed
(pip install ./bindings/python), and in a checkout with bindings/python on PYTHONPATH. It writes its PNG by parts of the
package that are not for other programs."""

from __future__ import annotations

import sys
from pathlib import Path
from typing import Callable, List

import narephon
from narephon import _calls, _png

Lines = List[List[int]]

# Register $15 bits 4-2 of each panel.
ORDERS = ((0b000, 0b001, 0b010), (0b011, 0b100, 0b101))
LINES = 256
GAP = 8

# Colours as registers $4A and $41 take them. PAPER is what $14 has after a reset, so that it is transparent.
FALLBACK, BARS, PAPER, FRAME = 0xDB, 0x0F, 0xE3, 0x02
# Colours as a line has them, with a digit each for red, green and blue.
DISC, BAND, SQUARE, EDGE, WHITE = 0o760, 0o701, 0o152, 0o021, 0o777

# The left upper corners of the squares, the uppermost first.
CORNERS = ((12, 16), (70, 56), (128, 96), (186, 136), (244, 176))
SIDE, RIM = 64, 4


def state() -> bytes:
    """A record with a frame, which is border 1, and ink 1 on transparent paper."""
    record = narephon.write_port(narephon.reset(), 0xFE, 1)
    for register, value in ((0x4A, FALLBACK), (0x40, 1), (0x41, BARS), (0x40, 16), (0x41, PAPER), (0x41, FRAME)):
        record = narephon.write_register(record, register, value)
    return record


def bars() -> bytes:
    """A ULA bank with three bars of ink 1 from top to bottom, four columns wide."""
    row = bytes(0xFF if column % 10 in (4, 5, 6, 7) else 0 for column in range(32))
    return (row * 192 + bytes([1]) * 768).ljust(narephon.BANK, b"\0")


def disc(x: int, y: int) -> int:
    """A pixel of Layer 2."""
    if (x - 159.5) ** 2 + (y - 127.5) ** 2 > 88 ** 2:
        return narephon.TRANSPARENT
    return narephon.PRIORITY + BAND if 116 <= y < 140 else DISC


def squares(x: int, y: int) -> int:
    """A pixel of the sprites."""
    for left, top in CORNERS:
        nearest = min(x - left, y - top, left + SIDE - 1 - x, top + SIDE - 1 - y)  # how far the nearest side is
        if nearest >= 0:
            return SQUARE if nearest >= RIM else EDGE
    return narephon.TRANSPARENT


def layer(pixel: Callable[[int, int], int]) -> Lines:
    """Every line of a layer, two dots to a pixel."""
    return [[pixel(dot // 2, y) for dot in range(narephon.DOTS)] for y in range(LINES)]


def panel(order: int, layer2: Lines, sprites: Lines) -> Lines:
    """The screen in an order, every second dot of its lines."""
    record, bank = narephon.write_register(state(), 0x15, order << 2), bars()
    return [narephon.draw_layers(record, bank, bank, layer2[y], sprites[y], y)[::2] for y in range(LINES)]


def beside(left: Lines, middle: Lines, right: Lines) -> Lines:
    """Three panels in a row, with gaps between them."""
    gap = [WHITE] * GAP
    return [[*first, *gap, *second, *gap, *third] for first, second, third in zip(left, middle, right)]


def picture() -> Lines:
    """All six panels."""
    layer2, sprites = layer(disc), layer(squares)
    upper, lower = [beside(*[panel(order, layer2, sprites) for order in row]) for row in ORDERS]
    return [*upper, *[[WHITE] * len(upper[0])] * GAP, *lower]


def main() -> None:
    file = Path(sys.argv[1] if len(sys.argv) > 1 else "orders.png")
    lines = picture()
    file.write_bytes(_png.encoded(len(lines[0]), _calls._rows(lines)))
    print(f"SLU LSU SUL above, LUS USL ULS below: {file}")


if __name__ == "__main__":
    main()
