"""The desk: its bytes, members kept apart, methods that do what the functions do with a record, and what is refused."""

from __future__ import annotations

import unittest
from typing import Any, Callable

import narephon
from narephon import Desk, Refused, Reply
from support import Case, guide_lines, replaced, sample, written

SEAT = 2155
FREE = bytes(SEAT)
RESET = narephon.reset()
BANK = bytes(narephon.BANK)
# The methods that need the member's seat, each with arguments that nothing is wrong with.
ON_A_SEAT: dict[str, tuple[Any, ...]] = {
    "close": (), "next_frame": (), "write_register": (0x40, 1), "write_port": (0xFE, 1), "read_register": (0x40,),
    "read_port": (0xFF3B,), "draw": (BANK, BANK, 0), "preview_png": (BANK, BANK),
}
# The four ports, and numbers that have half of one.
PORTS = (0xFE, 0xFF, 0xBF3B, 0xFF3B, 0x1FE, 0xFFFF, 0x3B, 0xFF00)


def held(member: int, record: bytes = RESET) -> bytes:
    """A held seat, by hand."""
    return bytes([1, member // 256, member % 256]) + record


def laid(*seats: bytes) -> bytes:
    """The bytes of a desk with these seats first, and free ones after them."""
    return b"".join(seats).ljust(16 * SEAT, b"\0")


def answer(call: Callable[..., Any], *arguments: Any) -> tuple[str, Any]:
    """What a call gives, or the reply that it is refused by."""
    try:
        return "given", call(*arguments)
    except Refused as refused:
        return "refused", refused.reply


def with_a_record(record: bytes, name: str, *arguments: Any) -> tuple[tuple[str, Any], bytes]:
    """The answer that the method of a name has to give, and the record after it, by the function of that name."""
    kind, given = answer(getattr(narephon, name), record, *arguments)
    if kind == "given" and name in ("next_frame", "write_register", "write_port"):
        return (kind, None), given
    return (kind, given), record


class Seats(Case):
    def test_a_started_desk_is_all_0(self) -> None:
        self.assertEqual(bytes(Desk()), bytes(34480))

    def test_open_takes_the_first_free_seat(self) -> None:
        desk = Desk()
        for member in (258, 7, 65535):
            desk.open(member)
        self.assertEqual(bytes(desk), laid(held(258), held(7), held(65535)))
        desk.close(258)
        desk.close(7)
        self.assertEqual(bytes(desk), laid(FREE, FREE, held(65535)))
        desk.open(0)
        self.assertEqual(bytes(desk), laid(held(0), FREE, held(65535)))

    def test_close_gives_the_state_up(self) -> None:
        """To the last byte, which is that of colour 255 of the second tilemap palette."""
        desk = Desk()
        desk.open(7)
        for register, value in ((0x43, 0x70), (0x40, 255), (0x41, 0xFF), (0x44, 0xE3)):
            desk.write_register(7, register, value)
        self.assertEqual(bytes(desk)[2154], 0xFF)
        desk.close(7)
        self.assertEqual(bytes(desk), bytes(34480))
        desk.open(7)
        self.assertEqual(bytes(desk), laid(held(7)))

    def test_start_looks_at_the_length_alone(self) -> None:
        for stored in (laid(held(7)), b"\xff" * 34480, bytes(34480)):
            desk = Desk(stored)
            desk.start()
            self.assertEqual(bytes(desk), bytes(34480))
        for length in (0, 1, 2155, 34479, 34481):
            desk = Desk(b"\xff" * length)
            self.refused(Reply.BUFFER_LENGTH, desk.start)
            self.assertEqual(bytes(desk), b"\xff" * length)

    def test_members_by_the_whole_number(self) -> None:
        desk, members = Desk(), (0, 1, 255, 256, 257, 65280, 65535)
        for colour, member in enumerate(members):
            desk.open(member)
            desk.write_register(member, 0x4A, colour)
        for colour, member in enumerate(members):
            self.assertEqual(desk.read_register(member, 0x4A), colour)
        for member in (2, 254, 512, 65281, 65534):
            self.refused(Reply.NOT_OPEN, desk.read_register, member, 0x4A)

    def test_a_full_desk(self) -> None:
        desk, seats = Desk(), [held(member) for member in range(16)]
        for member in range(16):
            desk.open(member)
        for member in (16, 256, 65535):
            self.refused(Reply.DESK_FULL, desk.open, member)
        for member in range(16):
            self.refused(Reply.ALREADY_OPEN, desk.open, member)
        self.assertEqual(bytes(desk), laid(*seats))
        desk.close(9)
        self.refused(Reply.ALREADY_OPEN, desk.open, 15)
        desk.open(16)
        self.assertEqual(bytes(desk), laid(*seats[:9], held(16), *seats[10:]))


class Apart(Case):
    def test_each_has_its_own_half_of_a_colour(self) -> None:
        """$44 takes the upper eight bits first and then the lowest, and only then moves the index on."""
        desk = Desk()
        for member, half in ((7, 0xE3), (8, 0x1C)):
            desk.open(member)
            desk.write_register(member, 0x40, 12)
            desk.write_register(member, 0x44, half)
        desk.write_register(8, 0x44, 1)
        self.assertEqual((desk.read_register(7, 0x40), desk.read_register(8, 0x40)), (12, 13))
        desk.write_register(7, 0x44, 0)
        for member, half, low in ((7, 0xE3, 0), (8, 0x1C, 1)):
            self.assertEqual(desk.read_register(member, 0x40), 13)
            desk.write_register(member, 0x40, 12)
            self.assertEqual((desk.read_register(member, 0x41), desk.read_register(member, 0x44)), (half, low))

    def crowd(self, desk: Desk, turn: int) -> None:
        """Calls of others between those of member 300: writes of the same registers, seats opened and closed, and
        refused calls."""
        desk.write_register(301, 0x44, turn % 2)
        desk.write_port(301, 0xFE, turn % 8)
        desk.next_frame(301)
        for member in range(400, 414):
            desk.open(member)
        self.refused(Reply.DESK_FULL, desk.open, 44)  # the low byte of 300
        self.refused(Reply.ALREADY_OPEN, desk.open, 301)
        self.refused(Reply.NOT_OPEN, desk.close, 44)
        self.refused(Reply.NO_REGISTER, desk.write_register, 413, 0, 0)
        self.refused(Reply.OUT_OF_BOUNDS, desk.write_register, 413, 0x42, 5)
        self.refused(Reply.NO_LINE, desk.draw, 413, BANK, BANK, 256)
        for member in range(400, 414):
            desk.close(member)

    def test_whatever_others_do(self) -> None:
        own: list[tuple[Any, ...]] = [
            ("write_register", 0x40, 200), ("write_register", 0x44, 0xFF), ("read_register", 0x40), ("next_frame",),
            ("write_register", 0x42, 5), ("write_register", 0x44, 1), ("read_register", 0x40), ("write_port", 0xFE, 3),
            ("write_port", 0xBF3B, 64), ("write_port", 0xFF3B, 1), ("read_port", 0xFF3B), ("draw", BANK, BANK, 0),
            ("write_register", 0x43, 1), ("draw", BANK, BANK, 0), ("draw", BANK, BANK, 256), ("read_register", 0),
        ]
        desk, record = Desk(), RESET
        for member in (300, 301):
            desk.open(member)
        for turn, (name, *arguments) in enumerate(own):
            self.crowd(desk, turn)
            expected, record = with_a_record(record, name, *arguments)
            self.assertEqual(answer(getattr(desk, name), 300, *arguments), expected, name)
        self.crowd(desk, len(own))
        self.assertEqual(bytes(desk)[:SEAT], held(300, record))


class AsWithARecord(Case):
    """A method does with the state in a seat what the function does with the record, and no other byte changes."""

    def same(self, record: bytes, name: str, *arguments: Any) -> None:
        desk = Desk(laid(held(1), FREE, held(2, record), held(3)))
        expected, after = with_a_record(record, name, *arguments)
        self.assertEqual(answer(getattr(desk, name), 2, *arguments), expected)
        self.assertEqual(bytes(desk), laid(held(1), FREE, held(2, after), held(3)))

    def test_every_register(self) -> None:
        half = written(RESET, (0x08, 4), (0x43, 0x30), (0x40, 77), (0x44, 0xAB))
        for number in range(256):
            for record in (RESET, half):
                self.same(record, "read_register", number)
                for value in (0, 7, 255):
                    self.same(record, "write_register", number, value)

    def test_every_port(self) -> None:
        plus = narephon.write_port(written(RESET, (0x08, 4)), 0xBF3B, 5)
        for port in PORTS:
            for record in (RESET, plus):
                self.same(record, "read_port", port)
                for value in (0, 64, 255):
                    self.same(record, "write_port", port, value)

    def test_frames(self) -> None:
        record = RESET
        for _ in range(257):
            self.same(record, "next_frame")
            record = narephon.next_frame(record)

    def test_every_line_and_the_preview(self) -> None:
        old, ula, tile = sample()
        record = narephon.move_up(old)
        for line in range(256):
            self.same(record, "draw", ula, tile, line)
        self.same(record, "preview_png", ula, tile)

    def test_what_a_line_is_refused_by(self) -> None:
        plus = narephon.write_port(narephon.write_port(RESET, 0xBF3B, 64), 0xFF3B, 1)
        timex = narephon.write_port(written(RESET, (0x08, 4)), 0xFF, 3)
        for reply, record, banks, line in (
            (Reply.NO_LINE, RESET, (BANK[1:], BANK), 256), (Reply.BANK_LENGTH, timex, (BANK[1:], BANK), 255),
            (Reply.BANK_LENGTH, timex, (BANK, BANK + b"\0"), 255),
            (Reply.LORES_WITH_TILES, written(RESET, (0x15, 128), (0x6B, 128)), (BANK, BANK), 255),
            (Reply.NEXT_WITH_PLUS, written(plus, (0x43, 1)), (BANK, BANK), 255),
            (Reply.NO_MODE, timex, (BANK, BANK), 255),
            (Reply.FAR_OFFSET, written(RESET, (0x6B, 128), (0x2F, 1), (0x30, 64)), (BANK, BANK), 255),
        ):
            self.same(record, "draw", *banks, line)
            desk = Desk(laid(held(2, record)))
            self.refused(reply, desk.draw, 2, *banks, line)
            if line < 256:
                self.refused(reply, desk.preview_png, 2, *banks)

    def test_wherever_the_seat_is(self) -> None:
        others = [held(member) for member in range(15)]
        for place in range(16):
            for around in (others, [FREE] * 15):
                desk = Desk(laid(*around[:place], held(99), *around[place:]))
                desk.write_register(99, 0x4A, 5)
                self.assertEqual(desk.read_register(99, 0x4A), 5)
                seat = held(99, written(RESET, (0x4A, 5)))
                self.assertEqual(bytes(desk), laid(*around[:place], seat, *around[place:]))
                desk.close(99)
                self.assertEqual(bytes(desk), laid(*around[:place], FREE, *around[place:]))


class NotWellFormed(Case):
    def bad(self, stored: bytes) -> None:
        """Every call but start is refused by 21, whoever it names, and leaves the bytes. 7 has a seat in most of these
        desks, 8 in none."""
        desk = Desk(stored)
        for member in (7, 8):
            for name, arguments in {"open": (), **ON_A_SEAT}.items():
                self.refused(Reply.BAD_DESK, getattr(desk, name), member, *arguments)
        self.assertEqual(bytes(desk), stored)

    def test_the_length(self) -> None:
        good = laid(held(7))
        for stored in (b"", b"\0", held(7), bytes(34479), bytes(34481), good[:-1], good + b"\0", good + good):
            self.bad(stored)

    def test_the_first_byte(self) -> None:
        for byte in (0, 2, 255):
            self.bad(laid(replaced(held(7), 0, byte)))
            self.bad(laid(held(7), FREE, replaced(held(9), 0, byte)))

    def test_a_stray_byte_in_a_free_seat(self) -> None:
        for seat in (1, 8, 15):
            for place in (0, 1, 2, 3, 5, 1000, 2154):
                self.bad(replaced(laid(held(7)), seat * SEAT + place, 1))

    def test_a_number_twice(self) -> None:
        self.bad(laid(held(7), held(7)))
        self.bad(laid(held(7), FREE, held(7, written(RESET, (0x4A, 5)))))
        self.bad(laid(held(0), held(7), held(0)))
        self.bad(laid(held(9), held(7), *[FREE] * 13, held(9)))
        self.bad(laid(*[held(member) for member in range(15)], held(14)))

    def test_the_record(self) -> None:
        old = narephon.move_back(RESET)
        narephon.check_record(old)
        # Of version 1, with two bytes after it to fill the seat; the number, the version, and fields.
        for record in (old + b"\0\0", replaced(RESET, 1, 100), replaced(RESET, 2, 1), replaced(RESET, 6, 16),
                       replaced(RESET, 34, 1), replaced(RESET, 35, 8), replaced(RESET, 2150, 2)):
            self.bad(laid(held(7, record)))
            self.bad(laid(held(7), *[FREE] * 14, held(9, record)))

    def test_a_full_desk(self) -> None:
        self.bad(laid(*[held(member) for member in range(1, 16)], held(20, replaced(RESET, 35, 8))))


class Refusals(Case):
    def test_no_seat(self) -> None:
        closed = Desk(laid(held(7), held(8)))
        closed.close(8)
        full = Desk(laid(*[held(member) for member in range(100, 116)]))
        for desk in (Desk(), closed, full):
            before = bytes(desk)
            for name, arguments in ON_A_SEAT.items():
                self.refused(Reply.NOT_OPEN, getattr(desk, name), 8, *arguments)
            self.assertEqual(bytes(desk), before)

    def test_what_a_call_is_refused_by_besides(self) -> None:
        """Only where the member has a seat: else it is 23. A half-sent colour is still held."""
        stored = laid(held(7, written(RESET, (0x44, 0xE3))))
        desk = Desk(stored)
        for reply, name, arguments in (
            (Reply.NO_REGISTER, "write_register", (0, 0)), (Reply.OUT_OF_BOUNDS, "write_register", (0x42, 5)),
            (Reply.NO_REGISTER, "write_port", (0x1FE, 0)), (Reply.OUT_OF_BOUNDS, "write_port", (0xBF3B, 128)),
            (Reply.NO_REGISTER, "read_register", (0,)), (Reply.NO_REGISTER, "read_port", (0xFE,)),
            (Reply.NO_LINE, "draw", (BANK, BANK, 256)), (Reply.BANK_LENGTH, "draw", (BANK, b"", 0)),
            (Reply.BANK_LENGTH, "preview_png", (b"", BANK)),
        ):
            self.refused(reply, getattr(desk, name), 7, *arguments)
            self.refused(Reply.NOT_OPEN, getattr(desk, name), 8, *arguments)
            self.assertEqual(bytes(desk), stored, name)

    def test_what_they_print(self) -> None:
        full = laid(*[held(member) for member in range(16)])
        for stored, name, member, said in (
            (b"", "open", 7,
             "refused 21: the desk has the wrong length, a seat that is not of its form, or a number seated twice"),
            (full, "open", 7, "refused 22: the member already has a seat"),
            (full, "close", 16, "refused 23: the member has no seat"),
            (full, "open", 16, "refused 24: all sixteen seats are held"),
        ):
            with self.assertRaises(Refused) as caught:
                getattr(Desk(stored), name)(member)
            self.assertEqual(str(caught.exception), said)


class Stored(Case):
    def test_bytes_of_any_length_are_held(self) -> None:
        for stored in (b"", b"\1", bytes(range(256)), b"\xff" * 34480, bytes(100000)):
            self.assertEqual(bytes(Desk(stored)), stored)

    def test_a_stored_desk_is_taken_up_again(self) -> None:
        desk = Desk(laid(held(300, written(RESET, (0x40, 12), (0x44, 0xE3)))))
        again = Desk(bytes(desk))
        again.write_register(300, 0x44, 1)
        again.write_register(300, 0x40, 12)
        self.assertEqual((again.read_register(300, 0x41), again.read_register(300, 0x44)), (0xE3, 1))
        self.assertEqual(desk.read_register(300, 0x41), 0)

    def test_bytes_of_each_kind(self) -> None:
        stored = laid(held(7))
        for given in (bytearray(stored), memoryview(stored), memoryview(stored).cast("H")):
            self.assertEqual(bytes(Desk(given)), stored)

    def test_what_is_given_stays(self) -> None:
        stored = laid(held(7))
        given = bytearray(stored)
        desk = Desk(given)
        desk.write_register(7, 0x4A, 5)
        self.assertEqual(given, stored)
        given[0] = 2
        self.assertEqual(desk.read_register(7, 0x4A), 5)

    def test_what_is_taken_stays(self) -> None:
        desk = Desk()
        taken = bytes(desk)
        desk.open(7)
        self.assertIsInstance(taken, bytes)
        self.assertEqual(taken, bytes(34480))


class Arguments(Case):
    def setUp(self) -> None:
        self.desk = Desk(laid(held(7)))

    def tearDown(self) -> None:
        self.assertEqual(bytes(self.desk), laid(held(7)))

    def raised(self, error: type[Exception], said: str, name: str, *arguments: Any) -> None:
        with self.assertRaises(error) as caught:
            getattr(self.desk, name)(*arguments)
        self.assertEqual(str(caught.exception), said)

    def test_what_is_no_member(self) -> None:
        for name, arguments in {"open": (), **ON_A_SEAT}.items():
            for member, kind in (("Rufus", "str"), (7.0, "float"), (None, "NoneType"), (b"\0\7", "bytes")):
                self.raised(TypeError, f"member must be an int, not {kind}", name, member, *arguments)
            for member in (-1, 65536, 65536 + 7):
                said = f"member is {member}, which 16 unsigned bits cannot hold"
                self.raised(ValueError, said, name, member, *arguments)

    def test_numbers_that_do_not_fit(self) -> None:
        for name, argument, bits, around in (
            ("write_register", "number", 8, lambda wrong: (wrong, 0)),
            ("write_register", "value", 8, lambda wrong: (0x40, wrong)),
            ("write_port", "port", 16, lambda wrong: (wrong, 0)),
            ("write_port", "value", 8, lambda wrong: (0xFE, wrong)),
            ("read_register", "number", 8, lambda wrong: (wrong,)),
            ("read_port", "port", 16, lambda wrong: (wrong,)),
            ("draw", "line", 32, lambda wrong: (BANK, BANK, wrong)),
        ):
            for wrong in (-1, 1 << bits):
                said = f"{argument} is {wrong}, which {bits} unsigned bits cannot hold"
                self.raised(ValueError, said, name, 7, *around(wrong))
            self.raised(TypeError, f"{argument} must be an int, not str", name, 7, *around("7"))

    def test_what_is_no_bytes(self) -> None:
        said = "must be bytes, a bytearray or a memoryview, not"
        for name, more in (("draw", (0,)), ("preview_png", ())):
            self.raised(TypeError, f"ula {said} str", name, 7, "ula", BANK, *more)
            self.raised(TypeError, f"tile {said} NoneType", name, 7, BANK, None, *more)
        for given, kind in (("desk", "str"), ([0] * 34480, "list"), (34480, "int"), (self.desk, "Desk")):
            with self.assertRaises(TypeError) as caught:
                Desk(given)  # type: ignore[arg-type]
            self.assertEqual(str(caught.exception), f"stored {said} {kind}")


class Shared(Case):
    """The guide's lines for more than sixteen members."""

    def bot(self, *stored: bytes) -> dict[str, Any]:
        """What the lines define, with desks that were stored."""
        names: dict[str, Any] = {}
        exec(guide_lines("desk_of"), names)
        names["desks"].extend([Desk(desk) for desk in stored])
        return names

    def setUp(self) -> None:
        """Forty members, each with its own number as fallback."""
        bot = self.bot()
        for member in range(40):
            bot["desk_of"](member).write_register(member, 0x4A, member)
        self.stored = [bytes(desk) for desk in bot["desks"]]

    def fallbacks(self, bot: dict[str, Any], members: list[int]) -> list[int]:
        return [bot["desk_of"](member).read_register(member, 0x4A) for member in members]

    def seats(self, bot: dict[str, Any]) -> list[list[int]]:
        """The numbers on each desk, seat by seat, without the free ones."""
        starts = range(0, 34480, SEAT)
        desks = [bytes(desk) for desk in bot["desks"]]
        return [[desk[at + 1] * 256 + desk[at + 2] for at in starts if desk[at]] for desk in desks]

    def test_the_first_desk_with_room(self) -> None:
        bot = self.bot(*self.stored)
        self.assertEqual(self.seats(bot), [[*range(16)], [*range(16, 32)], [*range(32, 40)]])
        bot["close"](20)
        self.assertEqual(self.fallbacks(bot, [40, 41]), [0, 0])
        self.assertEqual(self.seats(bot), [[*range(16)], [16, 17, 18, 19, 40, *range(21, 32)], [*range(32, 40), 41]])

    def test_nobody_sits_on_two_desks(self) -> None:
        """Asked for after a restart, and with room on a desk before their own."""
        bot = self.bot(*self.stored)
        bot["close"](3)
        others = [member for member in reversed(range(40)) if member != 3]
        self.assertEqual(self.fallbacks(bot, others), others)
        self.assertEqual([len(desk) for desk in self.seats(bot)], [15, 16, 8])

    def test_a_desk_that_is_none_is_left(self) -> None:
        bad = replaced(self.stored[0], 0, 2)
        bot = self.bot(bad, *self.stored[1:])
        for member in (0, 20, 40):
            self.refused(Reply.BAD_DESK, bot["desk_of"], member)
        self.assertEqual([bytes(desk) for desk in bot["desks"]], [bad, *self.stored[1:]])


if __name__ == "__main__":
    unittest.main()
