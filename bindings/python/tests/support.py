"""What the tests share: the repository's files, Python run apart from this one, and readers of PNG and PPM files."""

from __future__ import annotations

import os
import re
import shutil
import struct
import subprocess
import sys
import tempfile
import unittest
import zlib
from pathlib import Path
from typing import Any, Callable

import narephon
from narephon import Refused, Reply

PYTHON = Path(__file__).resolve().parents[1]
REPOSITORY = PYTHON.parents[1]
LIBRARY = Path(narephon._narephon._name)
NAME = "libnarephon.so"


class Case(unittest.TestCase):
    def refused_at(self, reply: Reply, place: int | None, call: Callable[..., Any], *arguments: Any) -> None:
        with self.assertRaises(Refused) as caught:
            call(*arguments)
        self.assertIs(caught.exception.reply, reply)
        self.assertEqual(caught.exception.place, place)

    def refused(self, reply: Reply, call: Callable[..., Any], *arguments: Any) -> None:
        """Refused with no place told."""
        self.refused_at(reply, None, call, *arguments)


def sample() -> tuple[bytes, bytes, bytes]:
    """The example screen: its record, which is an old one, its ULA bank and its tile bank."""
    folder = REPOSITORY / "bindings" / "rust" / "compare" / "sample"
    return (folder / "record").read_bytes(), (folder / "ula").read_bytes(), (folder / "tile").read_bytes()


def sample_trace() -> bytes:
    """The example screen's trace, of colour bars."""
    return (REPOSITORY / "bindings" / "rust" / "compare" / "sample" / "trace").read_bytes()


def guide() -> str:
    return (REPOSITORY / "docs" / "GUIDE.md").read_text(encoding="utf-8")


def guide_lines(word: str) -> str:
    """The lines of Python in the guide that have a word in them."""
    (lines,) = [block for block in re.findall(r"^```python\n(.*?)^```$", guide(), re.M | re.DOTALL) if word in block]
    return lines


def replaced(record: bytes, place: int, byte: int) -> bytes:
    """The record with one byte replaced."""
    return record[:place] + bytes([byte]) + record[place + 1:]


def written(record: bytes, *writes: tuple[int, int]) -> bytes:
    """The record after writes to registers."""
    for register, value in writes:
        record = narephon.write_register(record, register, value)
    return record


def outside(name: str) -> bytes:
    """A screen file that another program made."""
    return (REPOSITORY / "crates" / "sample_screens" / "data" / name).read_bytes()


def checkout(folder: Path) -> Path:
    """A copy in the folder of what a checkout has for Python, with its library; gives its bindings/python."""
    python = folder / "bindings" / "python"
    shutil.copytree(str(PYTHON), str(python), ignore=shutil.ignore_patterns("__pycache__", "*.so"))
    shutil.copy(str(REPOSITORY / "LICENSE"), str(folder))
    shutil.copy(str(REPOSITORY / "bindings" / "build"), str(folder / "bindings"))
    made = folder / "target" / "bindings"
    made.mkdir(parents=True)
    shutil.copy(str(LIBRARY), str(made / NAME))
    return python


class InFolder(Case):
    """Tests with a folder of their own."""

    def setUp(self) -> None:
        folder = tempfile.TemporaryDirectory()
        self.addCleanup(folder.cleanup)
        self.folder = Path(folder.name).resolve()


class Copied(InFolder):
    """Tests on a copy of a checkout, with its library."""

    def setUp(self) -> None:
        super().setUp()
        self.repository = self.folder / "repository"
        self.package = checkout(self.repository)
        self.made = self.repository / "target" / "bindings" / NAME


def python(folder: Path, *arguments: str, **environment: str) -> subprocess.CompletedProcess[str]:
    """Python run in the folder with no environment but the one given."""
    return subprocess.run([sys.executable, *arguments], cwd=str(folder), env=environment, stdout=subprocess.PIPE,
                          stderr=subprocess.PIPE, encoding="utf-8")


def environment_of(package: Path, library: str | None = None) -> dict[str, str]:
    """An environment in which the package's folder is found, and NAREPHON_LIBRARY names the library given."""
    named = {} if library is None else {"NAREPHON_LIBRARY": library}
    return {"PYTHONPATH": os.fspath(package), **named}


def chunks(file: bytes) -> list[tuple[bytes, bytes]]:
    """The chunks of a PNG file, each with its kind; a wrong signature or check sum is an error."""
    assert file[:8] == b"\x89PNG\r\n\x1a\n"
    found, place = [], 8
    while place < len(file):
        length, kind = struct.unpack_from(">I4s", file, place)
        data = file[place + 8:place + 8 + length]
        (check,) = struct.unpack_from(">I", file, place + 8 + length)
        assert check == zlib.crc32(kind + data)
        found.append((kind, data))
        place += 12 + length
    return found


def pixels(file: bytes) -> list[list[int]]:
    """The rows of a PNG file of unfiltered 8-bit RGB, each pixel as red × 65,536 + green × 256 + blue."""
    (head, size), *middle, (end, nothing) = chunks(file)
    width, height, *kind = struct.unpack(">IIBBBBB", size)
    assert (head, end, nothing, kind) == (b"IHDR", b"IEND", b"", [8, 2, 0, 0, 0])
    data = zlib.decompress(b"".join([part for name, part in middle if name == b"IDAT"]))
    stride = 1 + 3 * width
    assert len(data) == height * stride
    rows = [data[place:place + stride] for place in range(0, len(data), stride)]
    assert all([row[0] == 0 for row in rows])
    return [[int.from_bytes(row[place:place + 3], "big") for place in range(1, stride, 3)] for row in rows]
