"""Traces: register and port writes, each stamped with the line that it comes at, and lines drawn by them."""

from __future__ import annotations

import ctypes
from typing import Any, Iterable, NamedTuple, Sequence, Union

from . import _png
from ._calls import DOTS, BytesLike, _answered, _banks, _lent, _narephon, _refusal, _rows, _within
from .replies import OF_ENTRY, Refused, Reply

LINES = 256
FRAME_DOTS = 163840

# The trace that draws each line as it is drawn without one.
NO_ENTRIES = b"\0\1\1"

# the ports by the numbers that a trace has for them
_PORTS = (0xFE, 0xFF, 0xBF3B, 0xFF3B)


class RegisterEntry(NamedTuple):
    """A write of a byte, ``value``, to the register of that ``number``, from ``line`` on."""

    line: int
    number: int
    value: int


class PortEntry(NamedTuple):
    """A write of a byte, ``value``, to a port, $FE, $FF, $BF3B or $FF3B, from ``line`` on."""

    line: int
    port: int
    value: int


Entry = Union[RegisterEntry, PortEntry]


def _entry(entry: Entry) -> bytes:
    """The four bytes of an entry: its line, kind, number and value."""
    if isinstance(entry, RegisterEntry):
        _within(8, **entry._asdict())
        return bytes([entry.line, 0, entry.number, entry.value])
    if not isinstance(entry, PortEntry):
        raise TypeError(f"an entry must be a RegisterEntry or a PortEntry, not {type(entry).__name__}")
    _within(8, line=entry.line, value=entry.value)
    _within(16, port=entry.port)
    if entry.port not in _PORTS:
        raise Refused(Reply.BAD_TRACE)
    return bytes([entry.line, 1, _PORTS.index(entry.port), entry.value])


def make_trace(entries: Iterable[Entry]) -> bytes:
    """The trace of these entries, in their order: the number of bytes following, high byte first; the version, 1; and
    four bytes an entry.

    Raises ``Refused`` with reply 25 for a port that is none of the four, or where there are more than 16,383 entries,
    the most that the number can tell. Lines that fall are left to the drawing, which refuses them by 26.
    """
    following = b"\1" + b"".join([_entry(entry) for entry in entries])
    if len(following) >= 1 << 16:
        raise Refused(Reply.BAD_TRACE)
    return len(following).to_bytes(2, "big") + following


def _traced(record: BytesLike, trace: BytesLike, ula: BytesLike, tile: BytesLike) -> tuple[Any, ...]:
    """What lines are drawn from by a trace, lent."""
    return (*_lent("record", record), *_lent("trace", trace), *_banks(ula, tile))


def draw_traced(record: BytesLike, trace: BytesLike, ula: BytesLike, tile: BytesLike, line: int) -> list[int]:
    """A line, 0 to 255, of a member's screen as 640 nine-bit colours, by the state that the one in the record becomes
    with every entry of the trace stamped ``line`` or less, done in turn.

    ``ula`` and ``tile`` are the two banks of ``BANK`` bytes, which may be the same. Raises ``Refused`` with reply 1, 2,
    16, 17, 18, 25 or 26; with that of an entry, 9 or 10, and its place, counted from 0; or with 6, 7, 5 or 8. The whole
    trace is judged before an entry is tried, and entries after a refused one are not tried. What is given stays as it
    was, as it does where the line is drawn.
    """
    _within(32, line=line)
    place = ctypes.c_uint32()
    dots = (ctypes.c_uint16 * DOTS)()
    lent = _traced(record, trace, ula, tile)
    _answered(_narephon.narephon_draw_traced(*lent, line, dots, DOTS, ctypes.byref(place)), place, OF_ENTRY)
    return dots[:]


def draw_carried(record: BytesLike, trace: BytesLike, ula: BytesLike, tile: BytesLike) -> list[list[int] | Refused]:
    """Lines 0 to 255 of a member's screen, drawn one after the other with the state carried along, so that each entry
    of the trace is done once. Each is what ``draw_traced`` gives for it, or the ``Refused`` that it raises.

    Raises ``Refused`` with reply 2, 16, 17, 18, 25 or 26. What refuses a line, 5, 6, 7, 8, 9 or 10, does not stop later
    ones; from a refused entry on, every line is refused by it. The record is judged once, before any entry. What is
    given stays as it was.
    """
    dots = (ctypes.c_uint16 * FRAME_DOTS)()
    replies = (ctypes.c_uint8 * LINES)()
    places = (ctypes.c_uint16 * LINES)()
    lent = _traced(record, trace, ula, tile)
    _answered(_narephon.narephon_draw_carried(*lent, dots, FRAME_DOTS, replies, LINES, places, LINES))
    lines = [dots[DOTS * line:DOTS * line + DOTS] for line in range(LINES)]
    return [_refusal(reply, place, OF_ENTRY) if reply else line for line, reply, place in zip(lines, replies, places)]


def _drawn(lines: Sequence[list[int] | Refused]) -> Iterable[list[int]]:
    """The lines, where none is refused; else the first refusal is raised."""
    for line in lines:
        if isinstance(line, Refused):
            raise line
        yield line


def preview_png(record: BytesLike, ula: BytesLike, tile: BytesLike, trace: BytesLike = NO_ENTRIES) -> bytes:
    """A member's whole screen as a PNG file, 640 × 512: each of the 256 lines twice, in the colours' screen values.

    ``ula`` and ``tile`` are the two banks of ``BANK`` bytes, which may be the same. The lines are drawn by ``trace``,
    if one is given. Raises ``Refused`` with reply 2, 16, 17, 18, 25 or 26, or as the first line does that is refused,
    before anything is made; what is given stays as it was.
    """
    rows = _rows(list(_drawn(draw_carried(record, trace, ula, tile))))
    return _png.encoded(DOTS, [row for row in rows for _ in range(2)])
