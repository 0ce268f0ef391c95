"""Screen files: each form read and written back, what stays, what is refused, and files that other programs made."""

from __future__ import annotations

import unittest
from array import array

import narephon
from narephon import Reply
from support import Case, outside, written

# A length, where its colours are, and what port $FF becomes.
FORMS = ((6912, None, 0), (6976, 6912, 0), (12288, None, 2), (12352, 12288, 2), (12289, None, 38), (12353, 12289, 38))


def screen_file(length: int) -> bytes:
    """A file of a form that tells each of its bytes by its place; the port byte of mode 6 is 38."""
    file = bytearray(place % 251 for place in range(length))
    if length % 64 == 1:
        file[12288] = 38
    return bytes(file)


def filled(file: bytes, bank: bytes) -> bytes:
    """The bank after the file's parts are put into it."""
    if len(file) < 12288:
        return file[:0x1B00] + bank[0x1B00:]
    return file[:0x1800] + bank[0x1800:0x2000] + file[0x1800:0x3000] + bank[0x3800:]


class Reading(Case):
    def test_each_form(self) -> None:
        bank = bytes([255]) * narephon.BANK
        record = written(narephon.reset(), (0x15, 0x80), (0x43, 0x31), (0x44, 77))
        for length, place, port in FORMS:
            file = screen_file(length)
            screen = narephon.read_scr(record, bank, file)
            self.assertEqual(screen.bank, filled(file, bank))
            self.assertEqual(narephon.read_port(screen.record, 0xFF), port)
            self.assertEqual(narephon.read_register(screen.record, 0x15), 0)
            self.assertEqual(narephon.read_register(screen.record, 0x43), 0x30)
            self.assertEqual(screen.record[33:35], bytes([1, 77]))  # the half is still held
            self.assertEqual((screen.record[38], len(screen.colours)), (0, 0) if place is None else (1, 64))
            if place is not None:
                self.assertEqual(screen.record[40:104], file[place:])
            self.assertEqual(narephon.write_scr(screen.record, screen.bank), file)

    def test_the_colours_are_the_files_own(self) -> None:
        file = bytearray(screen_file(6976))
        screen = narephon.read_scr(narephon.reset(), bytes(narephon.BANK), file)
        self.assertIsInstance(screen.colours, memoryview)
        self.assertIs(screen.colours.obj, file)
        self.assertEqual(screen.colours, file[6912:])
        file[6912] = 200
        self.assertEqual(screen.colours[0], 200)

    def test_bytes_of_each_kind(self) -> None:
        record, bank, file = narephon.reset(), bytes(narephon.BANK), screen_file(12352)
        expected = narephon.read_scr(record, bank, file)
        every_second = memoryview(bytes(byte for byte in file for _ in range(2)))[::2]
        for given in (bytearray(file), memoryview(file), memoryview(file).cast("H"), every_second):
            screen = narephon.read_scr(bytearray(record), memoryview(bank), given)
            self.assertEqual(screen, expected)
            self.assertEqual(bytes(screen.colours), file[12288:])
        for given in ("screen.scr", memoryview(array("H", range(9000)))[::2]):
            with self.assertRaisesRegex(TypeError, "^file must be bytes"):
                narephon.read_scr(record, bank, given)  # type: ignore[arg-type]

    def test_a_refused_file_can_be_resized(self) -> None:
        file = bytearray(6911)
        with self.assertRaises(narephon.Refused):
            narephon.read_scr(narephon.reset(), bytes(narephon.BANK), file)
        try:
            narephon.read_scr(narephon.reset(), bytes(narephon.BANK), file)
        except narephon.Refused:
            file.append(0)
        self.assertEqual(len(file), 6912)

    def test_what_is_given_stays(self) -> None:
        given = [bytearray(narephon.reset()), bytearray(narephon.BANK), bytearray(screen_file(12353))]
        before = [bytes(part) for part in given]
        narephon.read_scr(*given)
        narephon.write_scr(*given[:2])
        self.assertEqual(given, before)

    def test_refusals(self) -> None:
        record, bank, file = narephon.reset(), bytes(narephon.BANK), screen_file(12289)
        for length in (0, 1, 6911, 6913, 6975, 6977, 12287, 12290, 12351, 12354, 16384):
            self.refused(Reply.NO_FORM, narephon.read_scr, record, bank, bytes(length))
        for port in range(256):
            if port % 8 != 6:
                self.refused(Reply.NO_FORM, narephon.read_scr, record, bank, file[:-1] + bytes([port]))
        self.refused(Reply.WRONG_COUNT, narephon.read_scr, record[1:], bank, b"")
        self.refused(Reply.WRONG_COUNT, narephon.read_scr, b"", bank, file)
        self.refused(Reply.BANK_LENGTH, narephon.read_scr, b"", bank[1:], b"")
        self.refused(Reply.BANK_LENGTH, narephon.read_scr, record, b"", file)


class Writing(Case):
    def test_the_reset_screen(self) -> None:
        bank = bytes(place % 253 for place in range(narephon.BANK))
        self.assertEqual(narephon.write_scr(narephon.reset(), bank), bank[:6912])

    def test_refusals(self) -> None:
        record, bank = written(narephon.reset(), (0x08, 4)), bytes(narephon.BANK)
        for port in range(8):
            if port not in (0, 2, 6):
                self.refused(Reply.NO_FORM, narephon.write_scr, narephon.write_port(record, 0xFF, port), bank)
        self.refused(Reply.NO_FORM, narephon.write_scr, written(record, (0x15, 0x80)), bank)
        self.refused(Reply.WRONG_COUNT, narephon.write_scr, record[1:], bank)
        self.refused(Reply.BANK_LENGTH, narephon.write_scr, record[1:], bank + b"\0")


class Outside(Case):
    """Files that other programs made. What they show is held to outside pictures by tools/screens."""

    def test_each_writes_back(self) -> None:
        for name in ("struct0.6912.scr", "struct0p.6976.scr", "struct2.12288.scr", "struct6_4.12289.scr"):
            file = outside(name)
            screen = narephon.read_scr(narephon.reset(), bytes(narephon.BANK), file)
            self.assertEqual(narephon.write_scr(screen.record, screen.bank), file)


if __name__ == "__main__":
    unittest.main()
