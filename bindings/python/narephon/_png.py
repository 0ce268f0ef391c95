"""A PNG file of 8-bit red, green and blue."""

from __future__ import annotations

import struct
import zlib
from typing import Sequence

_SIGNATURE = b"\x89PNG\r\n\x1a\n"
_EIGHT_BIT_RGB = bytes([8, 2, 0, 0, 0])  # depth, colour type, compression, filter method, no interlace
_UNFILTERED = b"\0"


def _chunk(kind: bytes, data: bytes) -> bytes:
    """A chunk: its length, kind, data and check sum."""
    return struct.pack(">I", len(data)) + kind + data + struct.pack(">I", zlib.crc32(kind + data))


def encoded(width: int, rows: Sequence[bytes]) -> bytes:
    """The file of a picture: each row has three bytes for each of its `width` pixels."""
    head = struct.pack(">II", width, len(rows)) + _EIGHT_BIT_RGB
    pixels = zlib.compress(b"".join([_UNFILTERED + row for row in rows]))
    return _SIGNATURE + _chunk(b"IHDR", head) + _chunk(b"IDAT", pixels) + _chunk(b"IEND", b"")
