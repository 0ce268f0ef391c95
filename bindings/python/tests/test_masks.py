"""The guide's table of ink masks: every attribute is drawn under each of them, and every other byte is refused."""

from __future__ import annotations

import re
import unittest

import narephon
from narephon import Reply
from support import REPOSITORY, Case, written

ROW = r"^\| (\d+) \| (\d) \| 0 to (\d+) \| (?:128 to (\d+)|none) \| ink (\d+)(?:, paper (\d+))? \|$"
# The transparent colour of a reset. With the same fallback a dot of that colour shows it all the same.
FALLBACK = 0xE3
SAMPLE = 0x5C


def rows() -> list[list[int]]:
    """The table's rows: mask, ones, last ink, last paper, the sample's ink and paper; FALLBACK where there is none."""
    guide = (REPOSITORY / "docs" / "GUIDE.md").read_text(encoding="utf-8")
    return [[int(cell or FALLBACK) for cell in row.groups()] for row in re.finditer(ROW, guide, re.M)]


def indexed() -> bytes:
    """A record with ULANext on, in which index i of the ULA palette has a colour whose half is i."""
    return written(narephon.reset(), (0x4A, FALLBACK), (0x43, 1), (0x40, 0), *[(0x41, index) for index in range(256)])


def bank() -> bytes:
    """Cells of four pixels of paper and four of ink, with the attributes 0 to 255 in the first eight rows of them."""
    return bytes([0x0F]) * 0x1800 + bytes(range(256)) * 3 + bytes(16384 - 0x1B00)


def drawn(record: bytes) -> list[tuple[int, int]]:
    """The indices of ink and paper that each attribute shows."""
    ula, shown = bank(), []
    for line in range(32, 96, 8):
        dots = narephon.draw(record, ula, ula, line)
        shown += [(dots[place + 8] // 2, dots[place] // 2) for place in range(64, 576, 16)]
    return shown


class Masks(Case):
    def test_every_attribute_under_every_mask(self) -> None:
        record, table = indexed(), rows()
        self.assertEqual([row[0] for row in table], [1, 3, 7, 15, 31, 63, 127, 255])
        for mask, ones, last_ink, last_paper, ink, paper in table:
            with self.subTest(mask=mask):
                shown = drawn(written(record, (0x42, mask)))
                room = 2 ** ones
                inks = [attribute % room for attribute in range(256)]
                papers = [FALLBACK if mask == 255 else 128 + attribute // room for attribute in range(256)]
                self.assertEqual(shown, list(zip(inks, papers)))
                self.assertEqual((mask, last_ink, last_paper), (room - 1, max(inks), max(papers)))
                self.assertEqual(shown[SAMPLE], (ink, paper))

    def test_no_other_byte_is_a_mask(self) -> None:
        record = narephon.reset()
        masks = [row[0] for row in rows()]
        for value in set(range(256)) - set(masks):
            with self.subTest(value=value):
                self.refused(Reply.OUT_OF_BOUNDS, narephon.write_register, record, 0x42, value)


if __name__ == "__main__":
    unittest.main()
