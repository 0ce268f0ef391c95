"""Narephon from Python: lines, registers, records, traces, desks, screen files and tile packing of ZX Spectrum Next screens.

A member's whole video state is a record of ``RECORD`` bytes that the caller keeps. Every function takes bytes
(``bytes``, ``bytearray`` or ``memoryview``) and gives ``bytes`` back; what it is given it never changes. A line is taken
as any sequence of numbers, and given as a list of them. The colours of a screen file alone are given as a part of the
file itself, a ``memoryview``. A refused call raises ``Refused``, which holds the ``Reply`` and prints its number and
sentence; where several refusals hold, it is the first in the order that a function names. Bytes that are no record are
refused by reply 16, 17 or 18, and ``check_record``, ``load_record`` and the two moves tell the place as well. An
argument of another type raises ``TypeError``, and a number that the library's parameter cannot hold ``ValueError``,
before the library is called. A function keeps nothing between calls, so that functions may run side by side in threads.

A trace is a recording of register and port writes, each stamped with the line that it comes at: ``make_trace`` makes the
bytes of one, and ``draw_traced``, ``draw_carried`` and ``preview_png`` draw by it.

A ``Desk`` keeps the states of up to ``SEATS`` members, by member number, in place of a record for each. Its methods have
the names of the functions, take the member in place of the record, and change the desk itself, so that one desk is used
by one thread at a time.

Records are made in version 2. One of version 1, which versions before 0.3.0 made, is an old record of ``OLD_RECORD``
bytes: it lacks registers $26 and $27, which scroll the ULA, and its $32 and $33 stand for them. A function that only
reads a record, but for the two moves, takes both versions. One that gives a changed record back takes version 2 alone,
and an old record is reply 17 there: ``load_record`` makes it new.

The library is the file that the environment variable NAREPHON_LIBRARY names; else the one inside the package, as
installed; else that of the checkout in which the package stands, as ``bindings/build`` makes it.
"""

from __future__ import annotations

import ctypes
from typing import Any, NamedTuple, Sequence

from ._calls import (
    DOTS, BytesLike, _answered, _banks, _byte, _dots, _lent, _lent_line, _narephon, _within, screen_value,
)
from ._desk import DESK, SEATS, Desk
from ._trace import (
    FRAME_DOTS, LINES, NO_ENTRIES, Entry, PortEntry, RegisterEntry, draw_carried, draw_traced, make_trace, preview_png,
)
from .replies import Refused, Reply

__all__ = [
    "BANK", "DEFINITIONS", "DESK", "DOTS", "FRAME_DOTS", "LINES", "MAP", "NO_ENTRIES", "OLD_RECORD", "PICTURE", "PRIORITY",
    "RECORD", "SCREEN", "SEATS", "TRANSPARENT", "BytesLike", "Desk", "Entry", "Packing", "PortEntry", "Refused",
    "RegisterEntry", "Reply", "Screen", "check_record", "draw", "draw_carried", "draw_layers", "draw_traced", "fewest",
    "is_record", "load_record", "make_trace", "move_back", "move_up", "next_frame", "pack", "preview_png", "read_port",
    "read_register", "read_scr", "reset", "screen_value", "write_port", "write_register", "write_scr",
]

__version__ = "0.7.1"

RECORD = 2152
OLD_RECORD = 2150
BANK = 16384
PICTURE = 40960
MAP = 2560
DEFINITIONS = 8192
SCREEN = 12353

# Numbers of a lent line besides the colours: a transparent dot, and what is added to the colour of a priority dot.
TRANSPARENT = 512
PRIORITY = 1024


class Packing(NamedTuple):
    """A packed picture: how many tiles its map names, the map and the 256 definitions."""

    count: int
    map: bytes
    definitions: bytes


class Screen(NamedTuple):
    """A screen file that was read: the record and the bank after it, and the part of the file with its 64 colours."""

    record: bytes
    bank: bytes
    colours: memoryview


def _viewed(file: BytesLike) -> memoryview:
    """The bytes of an argument themselves, not a copy. A view of other items is one of its bytes."""
    view = memoryview(file)
    return view if view.format == "B" and view.ndim == 1 else view.cast("B")


def _viewable(file: BytesLike) -> None:
    """Raises ``TypeError`` for a view of larger items that leaves some out. No view is held on to: it would keep a
    ``bytearray`` from being resized after a refusal."""
    with memoryview(file) as view:
        if not view.c_contiguous and (view.format, view.ndim) != ("B", 1):
            raise TypeError("file must be bytes, or larger items with none left out")


def reset() -> bytes:
    """The record of the reset state, which a new member starts with. It is never refused."""
    record, length = _lent("record", bytes(RECORD))
    _answered(_narephon.narephon_reset(record, length))
    return bytes(record)


def _checked(record: BytesLike) -> tuple[int, ctypes.c_uint32]:
    """The reply to a record, and the place that was set."""
    place = ctypes.c_uint32()
    return _narephon.narephon_check_record(*_lent("record", record), ctypes.byref(place)), place


def check_record(record: BytesLike) -> None:
    """Judges whether the bytes are a record of a lawful state, of either version, and changes nothing.

    Raises ``Refused`` with reply 16, 17 or 18 where they are not, and the place of what is wrong. The other functions
    judge their record by themselves.
    """
    _answered(*_checked(record))


def is_record(record: BytesLike) -> bool:
    """Whether the bytes are a record of a lawful state, as ``check_record`` judges; never refused, changes nothing."""
    return _checked(record)[0] == Reply.DONE


def move_up(record: BytesLike) -> bytes:
    """An old record moved up: the record of version 2 of its state, $26 and $27 being its $32 and $33, so that every
    line is drawn as before.

    Raises ``Refused`` with reply 16, 17 or 18 and the place, a record of version 2 with 17; the record given stays as it
    was.
    """
    target, length = _lent("target", bytes(RECORD))
    place = ctypes.c_uint32()
    _answered(_narephon.narephon_move_up(*_lent("record", record), target, length, ctypes.byref(place)), place)
    return bytes(target)


def move_back(record: BytesLike) -> bytes:
    """A record of version 2 moved back: the old record of its state, which versions before 0.3.0 take. It has one while
    $26 is $32 and $27 is $33.

    Raises ``Refused`` with reply 16, 17 or 18 and the place, an old record with 17; or with reply 15, without one. The
    record given stays as it was.
    """
    target, length = _lent("target", bytes(OLD_RECORD))
    place = ctypes.c_uint32()
    _answered(_narephon.narephon_move_back(*_lent("record", record), target, length, ctypes.byref(place)), place)
    return bytes(target)


def load_record(record: BytesLike) -> bytes:
    """A stored record, of either version, as one that every function takes: an old one moved up, one of version 2 as it
    is. Raises ``Refused`` as ``check_record`` does; the record given stays as it was.
    """
    check_record(record)
    stored = bytes(record)
    return stored if len(stored) == RECORD else move_up(stored)


def next_frame(record: BytesLike) -> bytes:
    """The record one frame on, from 255 to 0.

    Raises ``Refused`` with reply 16, 17 or 18; the record given stays as it was.
    """
    after, length = _lent("record", record)
    _answered(_narephon.narephon_next_frame(after, length))
    return bytes(after)


def write_register(record: BytesLike, number: int, value: int) -> bytes:
    """The record after a write of a byte, ``value``, to the register of that ``number``.

    Raises ``Refused`` with reply 16, 17, 18, 9 or 10; the record given stays as it was, a half-sent colour included.
    """
    _within(8, number=number, value=value)
    after, length = _lent("record", record)
    _answered(_narephon.narephon_write_register(after, length, number, value))
    return bytes(after)


def write_port(record: BytesLike, port: int, value: int) -> bytes:
    """The record after a write of a byte, ``value``, to a port: $FE, $FF, $BF3B or $FF3B.

    Raises ``Refused`` with reply 16, 17, 18, 9 or 10; the record given stays as it was.
    """
    _within(16, port=port)
    _within(8, value=value)
    after, length = _lent("record", record)
    _answered(_narephon.narephon_write_port(after, length, port, value))
    return bytes(after)


def read_register(record: BytesLike, number: int) -> int:
    """The byte that the register of that ``number`` reads as. A read moves nothing.

    Raises ``Refused`` with reply 16, 17, 18 or 9.
    """
    _within(8, number=number)
    return _byte(_narephon.narephon_read_register, *_lent("record", record), number)


def read_port(record: BytesLike, port: int) -> int:
    """The byte that a port reads as: $FF3B, or $FF while register $08 bit 2 is set. A read moves nothing.

    Raises ``Refused`` with reply 16, 17, 18 or 9.
    """
    _within(16, port=port)
    return _byte(_narephon.narephon_read_port, *_lent("record", record), port)


def _screen(record: BytesLike, ula: BytesLike, tile: BytesLike) -> tuple[Any, ...]:
    """What every line of a screen is drawn from, lent."""
    return (*_lent("record", record), *_banks(ula, tile))


def draw(record: BytesLike, ula: BytesLike, tile: BytesLike, line: int) -> list[int]:
    """A line, 0 to 255, of a member's screen as 640 nine-bit colours.

    ``ula`` and ``tile`` are the two banks of ``BANK`` bytes, which may be the same. Raises ``Refused`` with reply 1, 2,
    16, 17, 18, 6, 7, 5 or 8; record and banks stay as they were, as they do where the line is drawn.
    """
    _within(32, line=line)
    return _dots(_narephon.narephon_draw, _screen(record, ula, tile), line)


def draw_layers(record: BytesLike, ula: BytesLike, tile: BytesLike, layer2: Sequence[int], sprites: Sequence[int],
                line: int) -> list[int]:
    """A line, 0 to 255, of a member's screen with finished lines of Layer 2 and of sprites, as 640 nine-bit colours.

    ``ula`` and ``tile`` are the two banks of ``BANK`` bytes, which may be the same. ``layer2`` and ``sprites`` have
    ``DOTS`` numbers each: a colour, 0 to 511, or ``TRANSPARENT``; a colour of ``layer2`` + ``PRIORITY`` is a priority
    dot, which is above all. Register $15 bits 4-2 are the order of the layers, topmost first, with U for ULA and
    tilemap: 000 SLU, 001 LSU, 010 SUL, 011 LUS, 100 USL, 101 ULS. The topmost that is not transparent shows, and the
    fallback where all three are.

    Raises ``Refused`` with reply 1, 2, 3, 16, 17, 18, 6, 7, 5, 8, 19 or 20; what is given stays as it was, as it does
    where the line is drawn.
    """
    _within(32, line=line)
    lent = (*_screen(record, ula, tile), *_lent_line("layer2", layer2), *_lent_line("sprites", sprites))
    return _dots(_narephon.narephon_draw_layers, lent, line)


def read_scr(record: BytesLike, bank: BytesLike, file: BytesLike) -> Screen:
    """The record and the bank after a screen file (.scr) is read into them, and the file's ULAplus colours.

    The file's length tells its form: 6,912 bytes are mode 0, 12,288 mode 2, and 12,289 mode 6 with the byte of port $FF
    at its end, whose low three bits are 6; each may have 64 colours behind it. Of the bank, which has ``BANK`` bytes,
    $0000 to $1AFF change in mode 0, and $0000 to $17FF and $2000 to $37FF in the others. In the record LoRes and ULANext go off, $08 bit 2 is set, and port $FF becomes 0, 2 or the file's byte; with
    colours ULAplus goes on and has them as its registers, without it goes off. ``colours`` is a ``memoryview`` of the
    file's own last 64 bytes, empty where it has none; a ``bytearray`` cannot be resized while it lives.

    Raises ``Refused`` with reply 2, 16, 17, 18 or 14; record, bank and file stay as they were, as they do where it is
    read.
    """
    after, length = _lent("record", record)
    filled, bank_length = _lent("bank", bank)
    lent, file_length = _lent("file", file)
    _viewable(file)
    place = ctypes.c_uint32()
    _answered(_narephon.narephon_read_scr(after, length, filled, bank_length, lent, file_length, ctypes.byref(place)))
    return Screen(bytes(after), bytes(filled), _viewed(file)[place.value or file_length:])


def write_scr(record: BytesLike, bank: BytesLike) -> bytes:
    """The screen file of a record and a bank of ``BANK`` bytes, in the form of its mode, 0, 2 or 6, with LoRes off.

    The ULAplus registers are its colours where ULAplus is on. Raises ``Refused`` with reply 2, 16, 17, 18 or 14; record
    and bank stay as they were, as they do where it is written.
    """
    file, file_length = _lent("file", bytes(SCREEN))
    length = ctypes.c_uint32()
    _answered(_narephon.narephon_write_scr(*_lent("record", record), *_lent("bank", bank), file, file_length,
                                           ctypes.byref(length)))
    return bytes(file[:length.value])


def pack(picture: BytesLike, allowed: int = 256, offset: int = 0) -> Packing:
    """A picture packed into a map and definitions with the fewest tiles there can be.

    ``picture`` is 256 rows of 160 bytes, two pixels a byte, the left one in the high half; ``allowed`` is the most
    tiles that the map may name, up to 256; ``offset`` is the palette offset of every entry, up to 15. Raises
    ``Refused`` with reply 3, 12 or 11; the picture stays as it was.
    """
    _within(32, allowed=allowed, offset=offset)
    map_bytes, map_length = _lent("map", bytes(MAP))
    definitions, definitions_length = _lent("definitions", bytes(DEFINITIONS))
    count = ctypes.c_uint32()
    _answered(_narephon.narephon_pack(*_lent("picture", picture), allowed, offset, map_bytes, map_length,
                                      definitions, definitions_length, ctypes.byref(count)))
    return Packing(count.value, bytes(map_bytes), bytes(definitions))


def fewest(picture: BytesLike) -> int:
    """The fewest tiles that draw a picture: what ``pack`` counts with 256 allowed, without a map and definitions.

    Raises ``Refused`` with reply 3 or 11; the picture stays as it was.
    """
    count = ctypes.c_uint32()
    _answered(_narephon.narephon_fewest(*_lent("picture", picture), ctypes.byref(count)))
    return count.value
