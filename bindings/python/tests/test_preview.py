"""A preview is the lines that are drawn, each twice, in their screen values, or refused as a line is."""

from __future__ import annotations

import unittest

import narephon
from narephon import Reply
from support import REPOSITORY, Case, pixels, sample, written

BANK = bytes(16384)


def every_colour() -> tuple[bytes, bytes]:
    """A record and a bank of LoRes in which all 256 colours of the ULA's palette show, no two alike."""
    record = written(narephon.reset(), (0x15, 128), (0x40, 0))
    for index in range(256):
        record = written(record, (0x44, index), (0x44, index % 2))
    return record, bytes(range(256)) * 64


class Previews(Case):
    def drawn(self, record: bytes, ula: bytes, tile: bytes) -> None:
        """The preview's every pixel is the screen value of the dot that is drawn there."""
        rows = pixels(narephon.preview_png(record, ula, tile))
        values = [narephon.screen_value(colour) for colour in range(512)]
        self.assertEqual(len(rows), 512)
        for line in range(256):
            expected = [values[dot] for dot in narephon.draw(record, ula, tile, line)]
            self.assertEqual(rows[2 * line], expected)
            self.assertEqual(rows[2 * line + 1], expected)

    def test_each_pixel_is_the_drawn_dot(self) -> None:
        self.drawn(*sample())
        self.drawn(narephon.reset(), BANK, BANK)
        record, bank = every_colour()
        self.drawn(record, bank, BANK)

    def test_every_colour_shows(self) -> None:
        record, bank = every_colour()
        rows = pixels(narephon.preview_png(record, bank, BANK))
        self.assertGreaterEqual(len({pixel for row in rows for pixel in row}), 255)

    def test_the_example_picture(self) -> None:
        picture = (REPOSITORY / "docs" / "example.png").read_bytes()
        self.assertEqual(pixels(narephon.preview_png(*sample())), pixels(picture))

    def test_refused_as_a_line_is(self) -> None:
        record = narephon.reset()
        plus = narephon.write_port(narephon.write_port(record, 0xBF3B, 64), 0xFF3B, 1)
        timex = narephon.write_port(written(record, (0x08, 4)), 0xFF, 3)
        for reply, arguments in (
            (Reply.BANK_LENGTH, (record, BANK[1:], BANK)), (Reply.BANK_LENGTH, (record, BANK, BANK + b"\0")),
            (Reply.WRONG_COUNT, (record[1:], BANK, BANK)),
            (Reply.LORES_WITH_TILES, (written(record, (0x15, 128), (0x6B, 128)), BANK, BANK)),
            (Reply.NEXT_WITH_PLUS, (written(plus, (0x43, 1)), BANK, BANK)),
            (Reply.NO_MODE, (timex, BANK, BANK)),
            (Reply.FAR_OFFSET, (written(record, (0x6B, 128), (0x2F, 1), (0x30, 64)), BANK, BANK)),
        ):
            self.refused(reply, narephon.draw, *arguments, 0)
            self.refused(reply, narephon.preview_png, *arguments)


if __name__ == "__main__":
    unittest.main()
