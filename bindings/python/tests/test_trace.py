"""Traces: made of their entries, lines and previews drawn by them, and what is refused."""

from __future__ import annotations

import unittest
from typing import Any

import narephon
from narephon import PortEntry, Refused, RegisterEntry, Reply
from support import Case, pixels, replaced, sample, written

BANK = bytes(narephon.BANK)
RECORD = narephon.reset()
NONE = narephon.make_trace([])
# Lines 0 to 31 are border, black after a reset: red from line 4 on, and from line 8 on the colour of two halves.
BARS = narephon.make_trace([
    RegisterEntry(0, 0x40, 16), RegisterEntry(4, 0x41, 0xE0), RegisterEntry(4, 0x40, 16), RegisterEntry(6, 0x44, 0x1C),
    RegisterEntry(8, 0x44, 1),
])
# What makes a line 5, 6, 7 and 8 from lines 10, 30, 50 and 70 on, and what ends it ten lines later.
REFUSING = narephon.make_trace([
    RegisterEntry(0, 0x08, 4), PortEntry(10, 0xFF, 3), PortEntry(20, 0xFF, 0),
    RegisterEntry(30, 0x15, 0x80), RegisterEntry(30, 0x6B, 0x80), RegisterEntry(40, 0x15, 0), RegisterEntry(40, 0x6B, 0),
    PortEntry(50, 0xBF3B, 64), PortEntry(50, 0xFF3B, 1), RegisterEntry(50, 0x43, 1), RegisterEntry(60, 0x43, 0),
    RegisterEntry(70, 0x6B, 0x80), RegisterEntry(70, 0x2F, 2), RegisterEntry(80, 0x2F, 0),
])
REFUSED = {1: Reply.NO_MODE, 3: Reply.LORES_WITH_TILES, 5: Reply.NEXT_WITH_PLUS, 7: Reply.FAR_OFFSET}


def told(line: list[int] | Refused) -> tuple[Reply, int | None]:
    """What a line was refused by, and the place."""
    return (line.reply, line.place) if isinstance(line, Refused) else (Reply.DONE, None)


class Making(Case):
    def test_the_bytes(self) -> None:
        self.assertEqual(NONE, b"\0\1\1")
        self.assertEqual(narephon.NO_ENTRIES, NONE)
        entries = [RegisterEntry(3, 0x41, 0xE0), PortEntry(3, 0xFE, 2), PortEntry(4, 0xFF, 6), PortEntry(200, 0xBF3B, 64),
                   PortEntry(255, 0xFF3B, 1)]
        wanted = [0, 21, 1, 3, 0, 0x41, 0xE0, 3, 1, 0, 2, 4, 1, 1, 6, 200, 1, 2, 64, 255, 1, 3, 1]
        self.assertEqual(narephon.make_trace(entries), bytes(wanted))
        self.assertEqual(narephon.make_trace(iter(entries)), bytes(wanted))
        self.assertEqual(narephon.make_trace(entries[:1] * 64)[:3], b"\1\1\1")

    def test_the_longest(self) -> None:
        entry = RegisterEntry(0, 0x14, 7)
        self.assertEqual(narephon.make_trace([entry] * 16383)[:3], b"\xff\xfd\1")
        self.refused(Reply.BAD_TRACE, narephon.make_trace, [entry] * 16384)

    def test_other_ports(self) -> None:
        for port in (0, 3, 0xFD, 0x1FE, 0xFE00, 0xBF3A, 0xFF3C, 0xFFFF):
            self.refused(Reply.BAD_TRACE, narephon.make_trace, [PortEntry(0, port, 0)])

    def test_numbers_that_do_not_fit(self) -> None:
        for entry, said in ((RegisterEntry(256, 0, 0), "line is 256"), (RegisterEntry(0, -1, 0), "number is -1"),
                            (RegisterEntry(0, 0, 256), "value is 256"), (PortEntry(-1, 0xFE, 0), "line is -1"),
                            (PortEntry(0, 0xFE, 256), "value is 256"), (PortEntry(0, 1 << 16, 0), "port is 65536")):
            with self.assertRaisesRegex(ValueError, f"^{said}, which (8|16) unsigned bits cannot hold$"):
                narephon.make_trace([entry])

    def test_what_is_no_entry(self) -> None:
        for entry in ((0, 0, 0), None, 5):
            with self.assertRaisesRegex(TypeError, "^an entry must be a RegisterEntry or a PortEntry, not "):
                narephon.make_trace([entry])  # type: ignore[list-item]


class Drawing(Case):
    def each_alone(self, record: bytes, trace: bytes, ula: bytes, tile: bytes) -> list[list[int] | Refused]:
        """The carried lines, each of which is what it is alone."""
        lines = narephon.draw_carried(record, trace, ula, tile)
        self.assertEqual(len(lines), 256)
        for place, line in enumerate(lines):
            if isinstance(line, Refused):
                self.refused_at(line.reply, line.place, narephon.draw_traced, record, trace, ula, tile, place)
            else:
                self.assertEqual(narephon.draw_traced(record, trace, ula, tile, place), line)
        return lines

    def test_bars(self) -> None:
        lines = self.each_alone(RECORD, BARS, BANK, BANK)
        self.assertEqual(lines[:10], [[colour] * 640 for colour in (0, 0, 0, 0, 448, 448, 448, 448, 57, 57)])

    def test_without_entries_it_is_the_plain_line(self) -> None:
        """Of an old record too, as the sample's is."""
        old, ula, tile = sample()
        self.assertEqual(len(old), narephon.OLD_RECORD)
        for record in (old, narephon.move_up(old)):
            lines = self.each_alone(record, NONE, ula, tile)
            self.assertEqual(lines, [narephon.draw(record, ula, tile, line) for line in range(256)])

    def test_a_refused_entry(self) -> None:
        """It refuses its line and all after it; what comes after it is not tried."""
        for refused, reply in ((RegisterEntry(9, 0, 0), Reply.NO_REGISTER), (RegisterEntry(9, 0x42, 5), Reply.OUT_OF_BOUNDS),
                               (PortEntry(9, 0xBF3B, 128), Reply.OUT_OF_BOUNDS)):
            trace = narephon.make_trace([PortEntry(0, 0xFE, 1)] * 300 + [refused, RegisterEntry(9, 1, 0)])
            lines = self.each_alone(RECORD, trace, BANK, BANK)
            self.assertEqual([told(line) for line in lines], [(Reply.DONE, None)] * 9 + [(reply, 300)] * 247)
        self.refused_at(Reply.NO_REGISTER, 0, narephon.draw_traced, RECORD,
                        narephon.make_trace([RegisterEntry(0, 0, 0)]), BANK, BANK, 0)

    def test_what_it_prints(self) -> None:
        with self.assertRaises(Refused) as caught:
            narephon.draw_traced(RECORD, narephon.make_trace([RegisterEntry(5, 0x42, 5)]), BANK, BANK, 5)
        self.assertEqual(str(caught.exception), "refused 10: the value is out of its bounds (place 0)")

    def test_a_refused_line_does_not_stop_later_ones(self) -> None:
        lines = self.each_alone(RECORD, REFUSING, BANK, BANK)
        wanted = [(REFUSED.get(line // 10, Reply.DONE), None) for line in range(256)]
        self.assertEqual([told(line) for line in lines], wanted)

    def test_what_is_given_stays(self) -> None:
        given = [bytearray(RECORD), bytearray(BARS), bytearray(BANK), bytearray(BANK)]
        before = [part[:] for part in given]
        narephon.draw_traced(*given, 100)
        narephon.draw_carried(*given)
        self.assertEqual(given, before)


class Refusals(Case):
    def refused_whole(self, reply: Reply, *given: Any) -> None:
        """Every line and all of them."""
        for line in (0, 255):
            self.refused(reply, narephon.draw_traced, *given, line)
        self.refused(reply, narephon.draw_carried, *given)
        record, trace, *banks = given
        self.refused(reply, narephon.preview_png, record, *banks, trace)

    def test_no_trace(self) -> None:
        good = narephon.make_trace([RegisterEntry(0, 0, 0), PortEntry(200, 0xFF3B, 0)])
        for bad in (b"", good[:1], good[:2], good[:7], good + b"\0", replaced(good, 0, 1), replaced(good, 1, 8),
                    replaced(good, 2, 0), replaced(good, 2, 2), replaced(good, 4, 2), replaced(good, 8, 255),
                    replaced(good, 9, 4), b"\0\4\1\0\0\0"):
            self.refused_whole(Reply.BAD_TRACE, RECORD, bad, BANK, BANK)
        falls = replaced(good, 3, 201)
        self.refused_whole(Reply.LINES_FALL, RECORD, falls, BANK, BANK)
        self.refused_whole(Reply.BAD_TRACE, RECORD, replaced(falls, 9, 4), BANK, BANK)

    def test_the_first_of_several(self) -> None:
        """Each step adds what is refused before all that was wrong already. No place in the record is told."""
        bad = b"\0\1\2"
        field = replaced(RECORD, 35, 8)
        version = replaced(field, 2, 1)
        for reply, record in ((Reply.BAD_TRACE, RECORD), (Reply.BAD_FIELD, field), (Reply.WRONG_VERSION, version),
                              (Reply.WRONG_COUNT, version[1:])):
            self.refused_whole(reply, record, bad, BANK, BANK)
        for ula, tile in ((BANK[1:], BANK), (BANK, BANK[1:])):
            self.refused_whole(Reply.BANK_LENGTH, b"", bad, ula, tile)
            self.refused(Reply.NO_LINE, narephon.draw_traced, b"", bad, ula, tile, 256)

    def test_judged_before_entries(self) -> None:
        """The border 8 in the record, which the entry would mend, refuses all."""
        mended = narephon.make_trace([PortEntry(0, 0xFE, 1)])
        self.assertEqual(len(narephon.draw_traced(RECORD, mended, BANK, BANK, 0)), narephon.DOTS)
        self.refused_whole(Reply.BAD_FIELD, replaced(RECORD, 35, 8), mended, BANK, BANK)

    def test_arguments(self) -> None:
        for line in (-1, 1 << 32):
            with self.assertRaisesRegex(ValueError, "^line is .* 32 unsigned bits cannot hold$"):
                narephon.draw_traced(RECORD, NONE, BANK, BANK, line)
        with self.assertRaisesRegex(TypeError, "^trace must be bytes"):
            narephon.draw_carried(RECORD, [0, 1, 1], BANK, BANK)  # type: ignore[arg-type]


class Previews(Case):
    def test_by_a_trace(self) -> None:
        record, ula, tile = sample()
        rows = pixels(narephon.preview_png(record, ula, tile, BARS))
        lines = narephon.draw_carried(record, BARS, ula, tile)
        self.assertNotEqual(lines, narephon.draw_carried(record, NONE, ula, tile))
        for line, dots in enumerate(lines):
            shown = [narephon.screen_value(dot) for dot in dots]  # type: ignore[union-attr]
            self.assertEqual(rows[2 * line:2 * line + 2], [shown, shown])

    def test_on_a_desk(self) -> None:
        """The member's own record is drawn by, whoever sits before her."""
        desk = narephon.Desk()
        for member in (7, 0x0700, 65535):
            desk.open(member)
        desk.write_register(0x0700, 0x40, 16)
        desk.write_register(0x0700, 0x41, 0x1C)
        before = bytes(desk)
        record = written(RECORD, (0x40, 16), (0x41, 0x1C))
        for trace in (NONE, BARS):
            self.assertEqual(desk.preview_png(0x0700, BANK, BANK, trace), narephon.preview_png(record, BANK, BANK, trace))
            self.assertEqual(desk.preview_png(65535, BANK, BANK, trace), narephon.preview_png(RECORD, BANK, BANK, trace))
        self.assertEqual(bytes(desk), before)
        self.refused(Reply.NOT_OPEN, desk.preview_png, 8, BANK, BANK, b"")
        self.refused(Reply.BAD_TRACE, desk.preview_png, 7, BANK, BANK, b"")

    def test_the_first_refused_line(self) -> None:
        record, ula, tile = sample()
        self.refused(Reply.NO_MODE, narephon.preview_png, RECORD, BANK, BANK, REFUSING)
        entry = narephon.make_trace([PortEntry(0, 0xFE, 1), RegisterEntry(255, 0, 0)])
        self.refused_at(Reply.NO_REGISTER, 1, narephon.preview_png, record, ula, tile, entry)


if __name__ == "__main__":
    unittest.main()
