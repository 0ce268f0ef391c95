"""The binding's own promises: bytes in, bytes out, refusals raised with their number, what is given stays."""

from __future__ import annotations

import re
import unittest

import narephon
from narephon import Reply
from support import REPOSITORY, Case, replaced

BANK = bytes(16384)


class Records(Case):
    def test_reset_and_frames(self) -> None:
        record = narephon.reset()
        self.assertEqual((len(record), record[:3]), (2152, bytes([8, 102, 2])))
        after = record
        for _ in range(256):
            after = narephon.next_frame(after)
        self.assertEqual(after, record)

    def test_writes_and_reads(self) -> None:
        record = narephon.reset()
        after = narephon.write_register(record, 0x31, 192)
        self.assertEqual(narephon.read_register(after, 0x31), 192)
        self.assertEqual(narephon.read_register(record, 0x31), 0)
        after = narephon.write_port(after, 0xFF, 62)
        self.refused(Reply.NO_REGISTER, narephon.read_port, after, 0xFF)
        after = narephon.write_register(after, 0x08, 4)
        self.assertEqual(narephon.read_port(after, 0xFF), 62)

    def test_refusals(self) -> None:
        record = narephon.reset()
        self.refused(Reply.NO_REGISTER, narephon.write_register, record, 0, 0)
        self.refused(Reply.OUT_OF_BOUNDS, narephon.write_register, record, 0x42, 5)
        self.refused(Reply.WRONG_COUNT, narephon.write_register, record[:-1], 0x42, 7)
        self.refused(Reply.WRONG_VERSION, narephon.write_register, replaced(record, 2, 3), 0x42, 7)
        self.refused(Reply.BAD_FIELD, narephon.write_register, replaced(record, 8, 5), 0x42, 7)
        self.refused(Reply.WRONG_COUNT, narephon.next_frame, b"")


class Checking(Case):
    """What is a record, what is wrong with one that is none, and where."""

    def wrong(self, reply: Reply, place: int, record: bytes) -> None:
        self.assertIs(narephon.is_record(record), False)
        self.refused_at(reply, place, narephon.check_record, record)
        self.refused_at(reply, place, narephon.load_record, record)

    def test_a_record(self) -> None:
        narephon.check_record(narephon.reset())
        self.assertIs(narephon.is_record(narephon.reset()), True)

    def test_the_number(self) -> None:
        record = narephon.reset()
        for damaged in (b"", record[:1], b"\0\0", record[:-1], record + b"\0"):
            self.wrong(Reply.WRONG_COUNT, 0, damaged)
        for place, byte in ((0, 0), (1, 101), (1, 100)):
            self.wrong(Reply.WRONG_COUNT, 0, replaced(record, place, byte))
        counted = bytes([8, 103, 2]) + bytes(2150)  # 2,151 bytes follow, which is no record's number
        self.wrong(Reply.WRONG_COUNT, 0, counted)

    def test_the_version(self) -> None:
        for version in (0, 1, 3, 255):
            self.wrong(Reply.WRONG_VERSION, 2, replaced(narephon.reset(), 2, version))

    def test_each_field(self) -> None:
        # $43, $42, $4C, $68, $6B, $2F, $6E, $6F, $33, $27, both turns, the flag, the byte that none holds, the border,
        # $BF3B, ULAplus, and the first and last colour of each palette.
        for place, byte in ((6, 16), (8, 5), (10, 16), (11, 2), (12, 1), (14, 4), (17, 64), (18, 64), (20, 192),
                            (22, 192), (31, 4), (32, 4), (33, 2), (34, 1), (35, 8), (37, 128), (38, 2), (104, 2),
                            (614, 2), (616, 2), (1126, 2), (1128, 2), (1638, 2), (1640, 2), (2150, 255)):
            self.wrong(Reply.BAD_FIELD, place, replaced(narephon.reset(), place, byte))

    def test_the_first_of_several(self) -> None:
        record = narephon.reset()
        for reply, place, byte in ((Reply.BAD_FIELD, 2150, 2), (Reply.BAD_FIELD, 35, 8), (Reply.BAD_FIELD, 34, 1),
                                   (Reply.BAD_FIELD, 6, 16), (Reply.WRONG_VERSION, 2, 1), (Reply.WRONG_COUNT, 0, 9)):
            record = replaced(record, place, byte)
            self.wrong(reply, place, record)


class Drawing(Case):
    def test_a_line(self) -> None:
        record = narephon.write_register(narephon.write_register(narephon.reset(), 0x40, 16), 0x41, 0xFF)
        self.assertEqual(narephon.draw(record, BANK, BANK, 0), [511] * 640)
        self.assertEqual(narephon.screen_value(455), 0xFF00FF)

    def test_refusals(self) -> None:
        record = narephon.reset()
        self.refused(Reply.NO_LINE, narephon.draw, record, BANK, BANK, 256)
        self.refused(Reply.BANK_LENGTH, narephon.draw, record, b"", BANK, 0)
        self.refused(Reply.WRONG_COUNT, narephon.draw, b"", BANK, BANK, 0)
        self.refused(Reply.BAD_FIELD, narephon.draw, replaced(record, 2150, 2), BANK, BANK, 0)
        self.refused(Reply.OUT_OF_BOUNDS, narephon.screen_value, 512)


class Packing(Case):
    def test_one_tile(self) -> None:
        packing = narephon.pack(bytes(40960), 1, 15)
        self.assertEqual(packing.count, 1)
        self.assertEqual(packing.map, bytes([0, 240]) * 1280)
        self.assertEqual(packing.definitions, bytes(8192))
        self.assertEqual(narephon.fewest(bytes(40960)), 1)

    def test_fewest_is_what_a_packing_counts(self) -> None:
        # Six cells that differ in their top row alone: pixel 1 at its left end and none at its right, so no turn makes
        # one into another.
        tops = b"".join([bytes([0x10 + 2 * (column % 2), 0, column % 3, 0]) for column in range(40)])
        picture = (tops + bytes(7 * 160)) * 32
        self.assertEqual((narephon.fewest(picture), narephon.pack(picture).count), (6, 6))

    def test_refusals(self) -> None:
        self.refused(Reply.TOO_MANY_TILES, narephon.pack, bytes(40960), 0, 0)
        self.refused(Reply.PACKING_BOUNDS, narephon.pack, bytes(40960), 257, 0)
        self.refused(Reply.PACKING_BOUNDS, narephon.pack, bytes(40960), 256, 16)
        for call in (narephon.pack, narephon.fewest):
            self.refused(Reply.BUFFER_LENGTH, call, bytes(40959))
            self.refused(Reply.TOO_MANY_TILES, call, different_cells())


def different_cells() -> bytes:
    """A picture of more than 256 cells that cannot be turned into each other: its top row counts them."""
    tops = [bytes([cell // 256, cell % 256, 0, 0]) for cell in range(1280)]
    return b"".join([b"".join(tops[start:start + 40]) + bytes(7 * 160) for start in range(0, 1280, 40)])


class Arguments(Case):
    def test_bytes_of_each_kind(self) -> None:
        record = narephon.write_register(narephon.reset(), 0x4A, 0xFF)
        expected = narephon.draw(record, BANK, BANK, 0)
        for kind in (bytearray, memoryview):
            self.assertEqual(narephon.draw(kind(record), kind(BANK), kind(BANK), 0), expected)
        every_second = memoryview(bytes([byte for byte in record for _ in range(2)]))[::2]
        self.assertEqual(narephon.next_frame(every_second), narephon.next_frame(record))

    def test_what_is_given_stays(self) -> None:
        record = bytearray(narephon.reset())
        before = bytes(record)
        after = narephon.write_register(record, 0x31, 192)
        self.refused(Reply.OUT_OF_BOUNDS, narephon.write_register, record, 0x42, 5)
        self.assertEqual(record, before)
        self.assertIsInstance(after, bytes)

    def test_what_is_no_bytes(self) -> None:
        record = narephon.reset()
        for given, kind in (("record", "str"), ([0] * 2152, "list"), (None, "NoneType"), (2152, "int")):
            with self.assertRaises(TypeError) as caught:
                narephon.next_frame(given)  # type: ignore[arg-type]
            said = f"record must be bytes, a bytearray or a memoryview, not {kind}"
            self.assertEqual(str(caught.exception), said)
        with self.assertRaisesRegex(TypeError, "^tile must be bytes"):
            narephon.draw(record, BANK, "tile", 0)  # type: ignore[arg-type]

    def test_what_is_no_number(self) -> None:
        for given, kind in (("7", "str"), (7.0, "float"), (None, "NoneType")):
            with self.assertRaises(TypeError) as caught:
                narephon.write_register(narephon.reset(), 0x42, given)  # type: ignore[arg-type]
            self.assertEqual(str(caught.exception), f"value must be an int, not {kind}")

    def test_numbers_that_do_not_fit(self) -> None:
        record = narephon.reset()
        for call in (lambda: narephon.write_register(record, 0x142, 7), lambda: narephon.read_port(record, 65536),
                     lambda: narephon.draw(record, BANK, BANK, -1), lambda: narephon.pack(bytes(40960), 1 << 32)):
            with self.assertRaisesRegex(ValueError, "unsigned bits cannot hold$"):
                call()


class Header(Case):
    """What the wrapper has of the C header."""

    def setUp(self) -> None:
        self.header = (REPOSITORY / "bindings" / "c" / "narephon.h").read_text(encoding="utf-8")

    def test_the_replies(self) -> None:
        stated = re.findall(r"^    NAREPHON_(\w+) = (\d+),? +/\* (.*) \*/$", self.header, re.MULTILINE)
        self.assertEqual([(reply.name, str(int(reply)), reply.sentence) for reply in Reply], stated)

    def test_the_version(self) -> None:
        stated = re.findall(r'^#define NAREPHON_VERSION "(.*)"$', self.header, re.MULTILINE)
        self.assertEqual(stated, [narephon.__version__])

    def test_the_lengths_and_the_numbers_of_dots(self) -> None:
        stated = re.findall(r"^#define NAREPHON_((?!VERSION)\w+) (\d+)$", self.header, re.MULTILINE)
        self.assertEqual([name for name, _ in stated], ["RECORD", "OLD_RECORD", "BANK", "DOTS", "LINES", "FRAME_DOTS",
                                                       "PICTURE", "MAP", "DEFINITIONS", "SCREEN", "DESK", "SEATS",
                                                       "TRANSPARENT", "PRIORITY"])
        for name, number in stated:
            self.assertEqual(getattr(narephon, name), int(number), name)

    def test_the_calls(self) -> None:
        stated = re.findall(r"^uint8_t narephon_(desk_|)(\w+)\(", self.header, re.MULTILINE)
        names = [f"narephon_{desk}{call}" for desk, call in stated]
        self.assertEqual(sorted(names), sorted(narephon._library._SIGNATURES))
        for desk, call in stated:
            self.assertTrue(getattr(narephon.Desk if desk else narephon, call).__doc__, call)


if __name__ == "__main__":
    unittest.main()
