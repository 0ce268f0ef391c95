"""Records of both versions: moved up and back, loaded, read and drawn as they are, and none changed while it is old."""

from __future__ import annotations

import unittest

import narephon
from narephon import Reply
from support import Case, replaced, sample, written

BANK = bytes(narephon.BANK)
# A screen scrolled by 13 and 65, in LoRes too.
NEW = written(narephon.reset(), (0x32, 13), (0x33, 65), (0x26, 13), (0x27, 65))


def old_of(record: bytes) -> bytes:
    """The old record of one, by hand: without the bytes of $26 and $27."""
    return bytes([8, 100, 1]) + record[3:21] + record[23:]


OLD = old_of(NEW)


class Moves(Case):
    def test_up_and_back(self) -> None:
        places = written(NEW, (0x32, 1), (0x33, 2), (0x26, 3), (0x27, 4))
        self.assertEqual(places[19:23], bytes([1, 2, 3, 4]))
        self.assertEqual(narephon.move_up(OLD), NEW)
        self.assertEqual(narephon.move_back(NEW), OLD)

    def test_what_is_given_stays(self) -> None:
        for move, record in ((narephon.move_up, OLD), (narephon.move_back, NEW), (narephon.load_record, OLD)):
            given = bytearray(record)
            self.assertIsInstance(move(given), bytes)
            self.assertEqual(given, record)

    def test_refusals(self) -> None:
        for record in (OLD[1:], OLD + b"\0", b""):
            self.refused_at(Reply.WRONG_COUNT, 0, narephon.move_up, record)
        for record in (NEW[1:], NEW + b"\0", b""):
            self.refused_at(Reply.WRONG_COUNT, 0, narephon.move_back, record)
        for write in ((0x26, 12), (0x27, 66), (0x32, 14), (0x33, 0)):
            apart = written(NEW, write)
            self.refused(Reply.PAIRS_DIFFER, narephon.move_back, apart)
            self.refused_at(Reply.BAD_FIELD, 2150, narephon.move_back, replaced(apart, 2150, 2))
        with self.assertRaisesRegex(TypeError, "^record must be bytes"):
            narephon.move_up("record")  # type: ignore[arg-type]

    def test_the_other_version(self) -> None:
        for record in (NEW, replaced(NEW, 35, 8), replaced(NEW, 2, 1)):
            self.refused_at(Reply.WRONG_VERSION, 2, narephon.move_up, record)
        for record in (OLD, replaced(OLD, 33, 8), replaced(OLD, 2, 2)):
            self.refused_at(Reply.WRONG_VERSION, 2, narephon.move_back, record)

    def test_a_field(self) -> None:
        # What follows $33, at 20, stands two places before in an old record: the clips' turns are at 29 and 30.
        for place, byte in ((6, 16), (20, 192), (29, 4), (30, 4), (31, 2), (32, 1), (33, 8), (102, 2), (2148, 2)):
            self.refused_at(Reply.BAD_FIELD, place, narephon.move_up, replaced(OLD, place, byte))
        for place, byte in ((6, 16), (22, 192), (31, 4), (32, 4), (33, 2), (34, 1), (35, 8), (104, 2), (2150, 2)):
            self.refused_at(Reply.BAD_FIELD, place, narephon.move_back, replaced(NEW, place, byte))


class Loading(Case):
    def test_either_version(self) -> None:
        own = written(NEW, (0x26, 14))
        for given, record in ((OLD, NEW), (NEW, NEW), (own, own), (memoryview(OLD).cast("H"), NEW)):
            loaded = narephon.load_record(given)
            self.assertEqual(loaded, record)
            self.assertIsInstance(loaded, bytes)

    def test_refusals(self) -> None:
        for record in (b"", OLD[1:], NEW[1:], NEW[2:], OLD + b"\0"):
            self.refused_at(Reply.WRONG_COUNT, 0, narephon.load_record, record)
        self.refused_at(Reply.WRONG_VERSION, 2, narephon.load_record, replaced(OLD, 2, 2))
        self.refused_at(Reply.BAD_FIELD, 33, narephon.load_record, replaced(OLD, 33, 8))
        self.refused_at(Reply.BAD_FIELD, 35, narephon.load_record, replaced(NEW, 35, 8))


class Old(Case):
    """What is done with an old record itself."""

    def test_reading(self) -> None:
        self.assertTrue(narephon.is_record(OLD))
        narephon.check_record(OLD)
        self.assertEqual(narephon.read_register(OLD, 0x26), 13)
        self.assertEqual(narephon.read_register(OLD, 0x27), 65)
        self.assertEqual(narephon.read_port(OLD, 0xFF3B), 0)
        self.assertEqual(narephon.write_scr(OLD, BANK), bytes(6912))

    def test_drawing(self) -> None:
        record, ula, tile = sample()
        self.assertEqual(len(record), narephon.OLD_RECORD)
        # $32 and $33: they are 0 in the sample, which a lost scroll would be too.
        scrolled = record[:19] + bytes([16, 40]) + record[21:]
        moved = narephon.move_up(scrolled)
        for line in range(256):
            self.assertEqual(narephon.draw(scrolled, ula, tile, line), narephon.draw(moved, ula, tile, line))

    def test_what_is_not_changed(self) -> None:
        self.refused(Reply.WRONG_VERSION, narephon.next_frame, OLD)
        self.refused(Reply.WRONG_VERSION, narephon.write_register, OLD, 0x14, 7)
        self.refused(Reply.WRONG_VERSION, narephon.write_port, OLD, 0xFE, 2)
        self.refused(Reply.WRONG_VERSION, narephon.read_scr, OLD, BANK, bytes(6912))


# What Scrolls writes: colours 2 and 3, and the two offsets.
COLOURS = ((0x40, 2), (0x41, 0xE0), (0x41, 0x1C))
ULA, LORES = ((0x26, 13), (0x27, 65)), ((0x32, 13), (0x33, 65))


class Scrolls(Case):
    def first_dot(self, record: bytes) -> int:
        """The display's first dot; the bank has a pixel of ink 2 in column 1 of row 65, in LoRes a 3 at pixel 13."""
        bank = bytearray(BANK)
        bank[0x0901], bank[0x1901], bank[32 * 128 + 6] = 0x80, 0x0A, 3
        return narephon.draw(record, bytes(bank), BANK, 32)[64]

    def test_each_has_its_own(self) -> None:
        for writes, plain, in_lores in ((ULA, 448, 0), (LORES, 0, 56), (ULA + LORES, 448, 56)):
            record = written(narephon.reset(), *COLOURS, *writes)
            self.assertEqual(self.first_dot(record), plain)
            self.assertEqual(self.first_dot(written(record, (0x15, 0x80))), in_lores)

    def test_an_old_record_has_one(self) -> None:
        for control, colour in ((0, 448), (0x80, 56)):
            old = old_of(written(narephon.reset(), *COLOURS, *LORES, (0x15, control)))
            self.assertEqual(self.first_dot(old), colour)
            self.assertEqual(self.first_dot(narephon.move_up(old)), colour)

    def test_the_bound(self) -> None:
        self.assertEqual(narephon.read_register(written(NEW, (0x27, 191)), 0x27), 191)
        self.refused(Reply.OUT_OF_BOUNDS, narephon.write_register, NEW, 0x27, 192)


if __name__ == "__main__":
    unittest.main()
