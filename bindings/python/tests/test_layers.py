"""Lent lines of Layer 2 and of sprites: the six orders dot by dot, priority, the fallback, and what is refused."""

from __future__ import annotations

import re
import unittest
from array import array

import narephon
from narephon import Refused, Reply
from support import REPOSITORY, Case, replaced, sample, written

# The guide's table of orders: the name, bits 4-2, and the byte of $15.
ROW = r"^\| ([SLU]{3}) \| ([01]{3}) \| (\d+) \|"
BANK = bytes(narephon.BANK)
CLEAR = [narephon.TRANSPARENT] * narephon.DOTS
# What may show: the fallback, which is $12 widened, ink, Layer 2, a sprite, and a priority dot.
COLOURS = {"F": 37, "U": 448, "L": 0, "S": 511, "P": 455}
NUMBERS = {**COLOURS, "P": narephon.PRIORITY + 455, "-": narephon.TRANSPARENT}
# Ink 0 is $E0; paper and border 0 are the $E3 that $14 has after a reset, and so transparent.
RECORD = written(narephon.reset(), (0x4A, 0x12), (0x40, 0), (0x41, 0xE0), (0x40, 16), (0x41, 0xE3))
# Of every two pixels the left one is paper and the right one ink.
SCREEN = (bytes([0x55]) * 0x1800).ljust(narephon.BANK, b"\0")
# Twelve pixels. Of sprites, Layer 2 and ULA there are in turn none, U, L, LU, S, SU, SL and SLU, and then priority dots
# with none, U, S and SU.
LAYER2, SPRITES = "--LL--LLPPPP", "----SSSS--SS"
# What they show, by register $15 bits 4-2.
ORDERS = {
    0b000: "FULLSSSSPPPP",  # SLU
    0b001: "FULLSSLLPPPP",  # LSU
    0b010: "FULUSSSSPPPP",  # SUL
    0b011: "FULLSULLPPPP",  # LUS
    0b100: "FULUSUSUPPPP",  # USL
    0b101: "FULUSULUPPPP",  # ULS
}


def lent(pixels: str) -> list[int]:
    """A line that is transparent but for the first pixels of the display."""
    dots = [NUMBERS[letter] for letter in pixels for _ in range(2)]
    return CLEAR[:64] + dots + CLEAR[64 + len(dots):]


def ordered(order: int, record: bytes = RECORD) -> bytes:
    """The record in an order of the layers."""
    return written(record, (0x15, order << 2))


def put(line: list[int], place: int, number: int) -> list[int]:
    """The line with one number replaced."""
    return line[:place] + [number] + line[place + 1:]


def drawn(record: bytes) -> list[int]:
    """The first line of the display, with the twelve pixels."""
    return narephon.draw_layers(record, SCREEN, BANK, lent(LAYER2), lent(SPRITES), 32)


def topmost(order: str, place: int) -> str:
    """What one of the twelve pixels shows in an order by its name."""
    there = {"S": SPRITES[place], "L": LAYER2[place], "U": "-U"[place % 2]}
    shown = [letter for letter in order if there[letter] != "-"] or ["F"]
    return "P" if there["L"] == "P" else shown[0]


class Orders(Case):
    def test_the_guides_table(self) -> None:
        rows = re.findall(ROW, (REPOSITORY / "docs" / "GUIDE.md").read_text(encoding="utf-8"), re.M)
        self.assertEqual([int(bits, 2) for _, bits, _ in rows], list(ORDERS))
        for name, bits, control in rows:
            self.assertEqual(int(control), int(bits, 2) << 2)
            self.assertEqual("".join([topmost(name, place) for place in range(12)]), ORDERS[int(bits, 2)], name)

    def test_each_order_dot_by_dot(self) -> None:
        for order, shown in ORDERS.items():
            dots = drawn(ordered(order))
            self.assertEqual(dots[64:88], [COLOURS[letter] for letter in shown for _ in range(2)], shown)
            self.assertEqual(dots[:64] + dots[88:], [37] * 64 + [37, 37, 448, 448] * 122 + [37] * 64)

    def test_the_other_bits_of_the_register(self) -> None:
        for order in ORDERS:
            for others in (0x63, 0x40, 0x21):
                self.assertEqual(drawn(written(RECORD, (0x15, order << 2 | others))), drawn(ordered(order)))

    def test_priority_is_above_all(self) -> None:
        """Every colour can be a priority dot, and the two dots of a pixel can differ."""
        above = [narephon.PRIORITY + place % 512 for place in range(640)]
        for order in ORDERS:
            dots = narephon.draw_layers(ordered(order), SCREEN, BANK, above, [0] * 640, 100)
            self.assertEqual(dots, [place % 512 for place in range(640)])

    def test_the_transparent_colour_is_not_tried_on_lent_dots(self) -> None:
        """454 and 455 are $E3, which makes the ULA's paper transparent."""
        for order in ORDERS:
            for layer2, sprites in (([454, 455] * 320, CLEAR), (CLEAR, [454, 455] * 320)):
                dots = narephon.draw_layers(ordered(order), BANK, BANK, layer2, sprites, 0)
                self.assertEqual(dots, [454, 455] * 320)

    def test_tiles_are_of_the_ulas_layer(self) -> None:
        """The ULA is off, and every pixel of every tile is 1, which is $1C."""
        tiles = written(RECORD, (0x68, 0x80), (0x6B, 0x80), (0x6F, 32), (0x43, 0x30), (0x40, 1), (0x41, 0x1C))
        bank = bytes(0x2000) + bytes([0x11]) * 0x2000
        for order, shown in ((0b010, 56), (0b011, 0), (0b101, 56)):
            dots = narephon.draw_layers(ordered(order, tiles), BANK, bank, [0] * 640, CLEAR, 7)
            self.assertEqual(dots, [shown] * 640)

    def test_the_fallback_as_paper_is_a_colour(self) -> None:
        """Paper of ULANext's mask 255 has the fallback's colour, and hides what is below it."""
        paper = written(RECORD, (0x43, 1), (0x42, 255))
        for order, shown in ((0b001, 0), (0b010, 37), (0b011, 0), (0b101, 37)):
            dots = narephon.draw_layers(ordered(order, paper), BANK, BANK, [0] * 640, CLEAR, 32)
            self.assertEqual(dots, [shown] * 640)


class Transparent(Case):
    def test_both_lines_give_the_plain_line(self) -> None:
        """Of an old record too, as the sample's is."""
        old, ula, tile = sample()
        self.assertEqual(len(old), narephon.OLD_RECORD)
        for record in (old, *[ordered(order, narephon.move_up(old)) for order in ORDERS]):
            for line in range(256):
                plain = narephon.draw(record, ula, tile, line)
                self.assertEqual(narephon.draw_layers(record, ula, tile, CLEAR, CLEAR, line), plain)


class Refusals(Case):
    def refused_of(self, reply: Reply, layer2: list[int], sprites: list[int], record: bytes = RECORD) -> None:
        self.refused(reply, narephon.draw_layers, record, SCREEN, BANK, layer2, sprites, 32)

    def test_what_they_print(self) -> None:
        for order, sprites, said in (
            (0b111, CLEAR, "refused 19: $15 bits 4-2 are 110 or 111, which is no order of the layers"),
            (0b101, [1024] * 640, "refused 20: a number of the Layer 2 line or of the sprite line is not allowed"),
        ):
            with self.assertRaises(Refused) as caught:
                narephon.draw_layers(ordered(order), SCREEN, BANK, CLEAR, sprites, 32)
            self.assertEqual(str(caught.exception), said)

    def test_no_order(self) -> None:
        for control in (0b11000, 0b11100, 0b1111011, 0b11101):
            record = written(RECORD, (0x15, control))
            self.refused_of(Reply.NO_ORDER, CLEAR, CLEAR, record)
            self.assertEqual(narephon.draw(record, SCREEN, BANK, 32), narephon.draw(RECORD, SCREEN, BANK, 32))

    def test_numbers_that_are_not_allowed(self) -> None:
        for place in (0, 1, 320, 639):
            for number in (513, 1023, 1536, 1537, 65535):
                self.refused_of(Reply.BAD_DOT, put(CLEAR, place, number), CLEAR)
            for number in (513, 1023, 1024, 1535, 1536, 65535):
                self.refused_of(Reply.BAD_DOT, CLEAR, put(CLEAR, place, number))

    def test_the_ends_of_what_is_allowed(self) -> None:
        for number, shown in ((0, 0), (511, 511), (512, 37), (1024, 0), (1535, 511)):
            self.assertEqual(narephon.draw_layers(RECORD, BANK, BANK, put(CLEAR, 639, number), CLEAR, 32)[639], shown)
        for number, shown in ((0, 0), (511, 511), (512, 37)):
            self.assertEqual(narephon.draw_layers(RECORD, BANK, BANK, CLEAR, put(CLEAR, 639, number), 32)[639], shown)

    def test_hidden_numbers_are_judged(self) -> None:
        self.refused_of(Reply.BAD_DOT, put(CLEAR, 5, 513), [0] * 640)
        self.refused_of(Reply.BAD_DOT, [narephon.PRIORITY] * 640, put(CLEAR, 5, 513))
        self.refused_of(Reply.BAD_DOT, put(CLEAR, 66, 513), put(CLEAR, 66, 513), ordered(0b101))

    def test_lengths(self) -> None:
        for wrong in ([], CLEAR[1:], CLEAR + [0], [513] * 641):
            self.refused_of(Reply.BUFFER_LENGTH, wrong, CLEAR)
            self.refused_of(Reply.BUFFER_LENGTH, CLEAR, wrong)

    def test_the_first_of_several(self) -> None:
        """Each step adds what is refused before all that was wrong already."""
        bad, orderless = put(CLEAR, 0, 513), ordered(0b110)
        far = written(orderless, (0x6B, 128), (0x2F, 1), (0x30, 64))
        timex = narephon.write_port(written(far, (0x08, 4)), 0xFF, 3)
        both = written(narephon.write_port(narephon.write_port(timex, 0xBF3B, 64), 0xFF3B, 1), (0x43, 1))
        lores = written(both, (0x15, 0b10011000))
        field = replaced(lores, 2150, 2)
        version = replaced(field, 2, 1)
        steps = [(Reply.BAD_DOT, RECORD), (Reply.NO_ORDER, orderless), (Reply.FAR_OFFSET, far), (Reply.NO_MODE, timex),
                 (Reply.NEXT_WITH_PLUS, both), (Reply.LORES_WITH_TILES, lores), (Reply.BAD_FIELD, field),
                 (Reply.WRONG_VERSION, version), (Reply.WRONG_COUNT, version[1:])]
        for reply, record in steps:
            self.refused(reply, narephon.draw_layers, record, BANK, BANK, bad, bad, 255)
        for layer2, sprites in ((bad[1:], bad), (bad, bad[1:])):
            self.refused(Reply.BUFFER_LENGTH, narephon.draw_layers, b"", BANK, BANK, layer2, sprites, 255)
            for ula, tile in ((BANK[1:], BANK), (BANK, BANK[1:])):
                self.refused(Reply.BANK_LENGTH, narephon.draw_layers, b"", ula, tile, layer2, sprites, 255)
                self.refused(Reply.NO_LINE, narephon.draw_layers, b"", ula, tile, layer2, sprites, 256)


class Arguments(Case):
    def test_numbers_of_each_kind(self) -> None:
        self.assertIsInstance(drawn(RECORD), list)
        for kind in (tuple, lambda line: array("H", line), lambda line: memoryview(array("H", line))):
            dots = narephon.draw_layers(RECORD, SCREEN, BANK, kind(lent(LAYER2)), kind(lent(SPRITES)), 32)
            self.assertEqual(dots, drawn(RECORD))

    def test_what_is_given_stays(self) -> None:
        given = [bytearray(RECORD), bytearray(SCREEN), bytearray(BANK), lent(LAYER2), array("H", CLEAR)]
        before = [part[:] for part in given]
        narephon.draw_layers(*given, 32)
        self.refused(Reply.NO_LINE, narephon.draw_layers, *given, 256)
        self.assertEqual(given, before)

    def test_numbers_that_do_not_fit(self) -> None:
        for number in (-1, 65536, 65536 + 512, 1 << 64):
            wrong = put(CLEAR, 639, number)
            for name, lines in (("layer2", (wrong, CLEAR)), ("sprites", (CLEAR, wrong))):
                with self.assertRaises(ValueError) as caught:
                    narephon.draw_layers(RECORD, SCREEN, BANK, *lines, 32)
                said = f"{name}[639] is {number}, which 16 unsigned bits cannot hold"
                self.assertEqual(str(caught.exception), said)
        for line in (-1, 1 << 32):
            with self.assertRaisesRegex(ValueError, "^line is .* unsigned bits cannot hold$"):
                narephon.draw_layers(RECORD, SCREEN, BANK, CLEAR, CLEAR, line)

    def test_what_is_no_line(self) -> None:
        for given, said in ((None, "layer2 must be a sequence of numbers, not NoneType"),
                            (640, "layer2 must be a sequence of numbers, not int"),
                            ("0" * 640, "layer2[0] must be an int, not str"),
                            ([0.0] * 640, "layer2[0] must be an int, not float")):
            with self.assertRaises(TypeError) as caught:
                narephon.draw_layers(RECORD, SCREEN, BANK, given, CLEAR, 32)  # type: ignore[arg-type]
            self.assertEqual(str(caught.exception), said)
        with self.assertRaisesRegex(TypeError, "^sprites must be a sequence"):
            narephon.draw_layers(RECORD, SCREEN, BANK, CLEAR, None, 32)  # type: ignore[arg-type]


if __name__ == "__main__":
    unittest.main()
