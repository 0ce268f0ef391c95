"""The desk: the states of sixteen members in one buffer, by member number."""

from __future__ import annotations

from typing import Any

from ._calls import BytesLike, _answered, _banks, _byte, _dots, _lent, _narephon, _within
from ._trace import NO_ENTRIES, preview_png

DESK = 34480
SEATS = 16

_SEAT = DESK // SEATS
_HEAD = 3  # of a seat, before its record: whether it is held, and the number


class Desk:
    """Sixteen seats, each free or held by a member with a state. A member is a number, 0 to 65,535, never a nickname.

    ``Desk()`` is a started desk, with every seat free. ``Desk(stored)`` has a copy of stored bytes, and ``bytes(desk)``
    gives them to be stored, all ``DESK`` of them. Stored bytes are judged by each call, not here: every method but
    ``start`` refuses a desk of the wrong length, with a seat that is not of its form, or with a number seated twice by
    reply 21. Every method but ``start`` and ``open`` refuses a member who has no seat by reply 23.

    A method that has the name of a function does what that does with a record, with the state in the member's seat, and
    changes the desk itself; nothing of another member changes. Where several refusals hold, it is the first in the
    order that the method names, and a refused call leaves every byte as it was. One desk is not to be used by two
    threads at once.
    """

    def __init__(self, stored: BytesLike | None = None) -> None:
        # one buffer as long as the desk lives: a call is lent it as it is, and copies nothing
        self._lent = _lent("stored", bytes(DESK) if stored is None else stored)
        if stored is None:
            self.start()

    def __bytes__(self) -> bytes:
        buffer, length = self._lent
        return bytes(buffer)[:length]  # for no bytes there is a buffer of one

    def _seat(self, member: int) -> tuple[Any, ...]:
        """What a call on a member's seat is lent first: the desk itself, and the number."""
        _within(16, member=member)
        return (*self._lent, member)

    def _record(self, member: int) -> bytes:
        """The record in the member's seat, or ``Refused`` with reply 21 or 23, as the read of a register is."""
        self.read_register(member, 0x14)
        desk, held = bytes(self), b"\1" + member.to_bytes(2, "big")
        seats = [desk[place:place + _SEAT] for place in range(0, DESK, _SEAT)]
        return next(seat[_HEAD:] for seat in seats if seat[:_HEAD] == held)

    def start(self) -> None:
        """Frees all seats, whatever the desk holds; every state on it is given up.

        Raises ``Refused`` with reply 3 where the desk was made of stored bytes that are not ``DESK`` in number.
        """
        _answered(_narephon.narephon_desk_start(*self._lent))

    def open(self, member: int) -> None:
        """Gives the member the first free seat, with the reset state.

        Raises ``Refused`` with reply 21; with 22 where the member has a seat, also on a full desk; or with 24 where all
        sixteen are held.
        """
        _answered(_narephon.narephon_desk_open(*self._seat(member)))

    def close(self, member: int) -> None:
        """Frees the member's seat; the state in it is given up. Raises ``Refused`` with reply 21 or 23."""
        _answered(_narephon.narephon_desk_close(*self._seat(member)))

    def next_frame(self, member: int) -> None:
        """Moves the member's state one frame on, from 255 to 0. Raises ``Refused`` with reply 21 or 23."""
        _answered(_narephon.narephon_desk_next_frame(*self._seat(member)))

    def write_register(self, member: int, number: int, value: int) -> None:
        """Writes a byte, ``value``, to the register of that ``number`` in the member's state.

        Raises ``Refused`` with reply 21, 23, 9 or 10; a half-sent colour is then still held.
        """
        _within(8, number=number, value=value)
        _answered(_narephon.narephon_desk_write_register(*self._seat(member), number, value))

    def write_port(self, member: int, port: int, value: int) -> None:
        """Writes a byte, ``value``, to a port of the member's state: $FE, $FF, $BF3B or $FF3B.

        Raises ``Refused`` with reply 21, 23, 9 or 10.
        """
        _within(16, port=port)
        _within(8, value=value)
        _answered(_narephon.narephon_desk_write_port(*self._seat(member), port, value))

    def read_register(self, member: int, number: int) -> int:
        """The byte that the register of that ``number`` reads as in the member's state.

        A read moves nothing. Raises ``Refused`` with reply 21, 23 or 9.
        """
        _within(8, number=number)
        return _byte(_narephon.narephon_desk_read_register, *self._seat(member), number)

    def read_port(self, member: int, port: int) -> int:
        """The byte that a port of the member's state reads as: $FF3B, or $FF while register $08 bit 2 is set.

        A read moves nothing. Raises ``Refused`` with reply 21, 23 or 9.
        """
        _within(16, port=port)
        return _byte(_narephon.narephon_desk_read_port, *self._seat(member), port)

    def draw(self, member: int, ula: BytesLike, tile: BytesLike, line: int) -> list[int]:
        """A line, 0 to 255, of the member's screen as 640 nine-bit colours.

        ``ula`` and ``tile`` are the two banks of ``BANK`` bytes, which may be the same. Raises ``Refused`` with reply
        21, 23, 1, 2, 6, 7, 5 or 8; desk and banks stay as they were, as they do where the line is drawn.
        """
        _within(32, line=line)
        return _dots(_narephon.narephon_desk_draw, (*self._seat(member), *_banks(ula, tile)), line)

    def preview_png(self, member: int, ula: BytesLike, tile: BytesLike, trace: BytesLike = NO_ENTRIES) -> bytes:
        """The member's whole screen as a PNG file, 640 × 512, as the function of that name makes it.

        ``ula`` and ``tile`` are the two banks of ``BANK`` bytes, which may be the same. Raises ``Refused`` with reply 21
        or 23, and then as that function does, before anything is made; desk and banks stay as they were.
        """
        return preview_png(self._record(member), ula, tile, trace)
