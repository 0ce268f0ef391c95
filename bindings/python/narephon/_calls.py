"""What the functions, the traces and the desk share: the library, arguments checked and lent, replies raised, lines drawn.

The package takes these names into its own, so those that are not for other programs open with an underscore here too.
"""

from __future__ import annotations

import ctypes
from typing import Any, Callable, Container, Sequence, Union

from . import _library
from .replies import PLACED, Refused, Reply

DOTS = 640

_COLOURS = 512

BytesLike = Union[bytes, bytearray, memoryview]

_narephon = _library.load()


def _lent(name: str, data: BytesLike) -> tuple[ctypes.Array[ctypes.c_uint8], int]:
    """A copy of the argument's bytes that a call may be lent, and their number; never a null pointer."""
    if not isinstance(data, (bytes, bytearray, memoryview)):
        raise TypeError(f"{name} must be bytes, a bytearray or a memoryview, not {type(data).__name__}")
    copy = bytes(data)
    return (ctypes.c_uint8 * max(len(copy), 1)).from_buffer_copy(copy or b"\0"), len(copy)


def _lent_line(name: str, dots: Sequence[int]) -> tuple[ctypes.Array[ctypes.c_uint16], int]:
    """A copy of the argument's numbers that a call may be lent, and how many they are; never a null pointer."""
    try:
        copy = list(dots)
    except TypeError:
        raise TypeError(f"{name} must be a sequence of numbers, not {type(dots).__name__}") from None
    # a name for each of 640 numbers takes longer than the line: they are named only where one is wrong
    if not all(isinstance(dot, int) and 0 <= dot < 1 << 16 for dot in copy):
        _within(16, **{f"{name}[{place}]": dot for place, dot in enumerate(copy)})
    return (ctypes.c_uint16 * max(len(copy), 1))(*copy), len(copy)


def _within(bits: int, **numbers: int) -> None:
    """Raises ``ValueError`` for a number that the library's parameter cannot hold, which ctypes would cut."""
    for name, number in numbers.items():
        if not isinstance(number, int):
            raise TypeError(f"{name} must be an int, not {type(number).__name__}")
        if not 0 <= number < 1 << bits:
            raise ValueError(f"{name} is {number}, which {bits} unsigned bits cannot hold")


def _refusal(reply: int, place: int | None, placed: Container[Reply]) -> Refused:
    """The refusal of a reply, with the place that was set where the reply is one of those that tell it: the call sets 0
    also where nothing is told."""
    refused = Reply(reply)
    return Refused(refused, place if refused in placed else None)


def _answered(reply: int, place: ctypes.c_uint32 | None = None, placed: Container[Reply] = PLACED) -> None:
    """Raises ``Refused`` for every reply but 0."""
    if reply:
        raise _refusal(reply, None if place is None else place.value, placed)


def _byte(call: Callable[..., int], *lent: Any) -> int:
    """The byte that the call reads of what it is lent, or ``Refused``."""
    value = ctypes.c_uint8()
    _answered(call(*lent, ctypes.byref(value)))
    return value.value


def _banks(ula: BytesLike, tile: BytesLike) -> tuple[Any, ...]:
    """The two banks of a screen, lent."""
    return (*_lent("ula", ula), *_lent("tile", tile))


def _dots(call: Callable[..., int], lent: tuple[Any, ...], line: int) -> list[int]:
    """A line that the call draws from what it is lent, or ``Refused``."""
    dots = (ctypes.c_uint16 * DOTS)()
    _answered(call(*lent, line, dots, DOTS))
    return dots[:]


def screen_value(colour: int) -> int:
    """A nine-bit colour as red × 65,536 + green × 256 + blue. Raises ``Refused`` with reply 10 above 511."""
    _within(32, colour=colour)
    value = ctypes.c_uint32()
    _answered(_narephon.narephon_screen_value(colour, ctypes.byref(value)))
    return value.value


def _rows(lines: Sequence[Sequence[int]]) -> list[bytes]:
    """Lines of dots as rows of a picture, in the colours' screen values."""
    pixels = [screen_value(colour).to_bytes(3, "big") for colour in range(_COLOURS)]
    return [b"".join([pixels[dot] for dot in dots]) for dots in lines]
