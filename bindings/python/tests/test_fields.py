"""The guide's table of a record's fields: it has every byte of both versions, and just what it allows is taken."""

from __future__ import annotations

import re
import unittest
from typing import Iterable, NamedTuple

import narephon
from narephon import Refused, Reply
from support import REPOSITORY, Case, replaced

ROW = r"^\| (-|\d+(?: to \d+)?) \| (\d+(?: to \d+)?) \| ([^|]+) \| ([^|]+) \|$"
# What the first two rows are refused by, and where; any other by 18 at the byte's own place.
HEAD = {"number of bytes following": (Reply.WRONG_COUNT, 0), "version": (Reply.WRONG_VERSION, 2)}
BYTES = range(256)


class Field(NamedTuple):
    """A row of the table, by the places of one version; none where that version lacks the field."""

    places: range
    name: str
    words: str


def places(cell: str) -> range:
    ends = [int(end) for end in re.findall(r"\d+", cell)]
    return range(ends[0], ends[-1] + 1) if ends else range(0)


def fields(version: int) -> list[Field]:
    guide = (REPOSITORY / "docs" / "GUIDE.md").read_text(encoding="utf-8")
    return [Field(places(row[version - 1]), *row[2:]) for row in re.findall(ROW, guide, re.M)]


def taken(words: str, offset: int, record: bytes, held: int) -> Iterable[int]:
    """The bytes that a row's words allow at an offset in its places, in a record that is good otherwise."""
    numbers = [int(number.replace(",", "")) for number in re.findall(r"\d+(?:,\d{3})*", words)]
    bits = re.fullmatch(r"bits (\d)-(\d) are ((?:[01]+(?:, | or )?)+)", words)
    if words == "any byte":
        return BYTES
    if re.fullmatch(r"at most \d+", words):
        return range(numbers[0] + 1)
    if bits:
        high, low, values = int(bits[1]), int(bits[2]), [int(value, 2) for value in re.findall("[01]+", bits[3])]
        return [byte for byte in BYTES if byte % (2 << high) >> low in values]
    if re.fullmatch(r"(?:\d+, )*\d+ or \d+", words):
        return numbers
    if words == "0 while held is 0":
        return BYTES if held else [0]
    if words == "at most 511, so its high byte at most 1":
        return BYTES if offset % 2 else [0, 1]
    if re.fullmatch(r"[\d,]+ or [\d,]+, high byte first, and just as many follow", words):
        return [number.to_bytes(2, "big")[offset] for number in numbers if number == len(record) - 2]
    if re.fullmatch(r"\d in a record of [\d,]+ bytes, \d in one of [\d,]+", words):
        return [version for version, length in zip(numbers[::2], numbers[1::2]) if length == len(record)]
    raise ValueError(f"the table says {words!r}, which is not known here")


def tried(field: Field, place: int) -> Iterable[int]:
    """Every byte, but at most places of a palette some: a colour's high byte is 0 or 1."""
    inside = field.places[4:-4]
    return (0, 1, 2, 128, 255) if len(field.places) == 512 and place in inside else BYTES


def judged(record: bytes) -> tuple[Reply, int | None]:
    try:
        narephon.check_record(record)
    except Refused as refused:
        return refused.reply, refused.place
    return Reply.DONE, None


def holding(record: bytes, version: int, held: int) -> bytes:
    """The record with the field `held` replaced. The held byte is 0, which is lawful either way."""
    (place,) = [field.places[0] for field in fields(version) if field.name == "held"]
    return replaced(record, place, held)


class Fields(Case):
    def setUp(self) -> None:
        self.records = {1: narephon.move_back(narephon.reset()), 2: narephon.reset()}

    def test_every_place_once(self) -> None:
        for version, record in self.records.items():
            told = [place for field in fields(version) for place in field.places]
            self.assertEqual(told, list(range(len(record))))

    def test_every_byte(self) -> None:
        for version, held in ((1, 0), (1, 1), (2, 0), (2, 1)):
            record = holding(self.records[version], version, held)
            for field in fields(version):
                with self.subTest(version=version, held=held, field=field.name):
                    self.agrees(field, record, held)

    def agrees(self, field: Field, record: bytes, held: int) -> None:
        for offset, place in enumerate(field.places):
            good = set(taken(field.words, offset, record, held))
            bad = HEAD.get(field.name, (Reply.BAD_FIELD, place))
            for byte in tried(field, place):
                expected = (Reply.DONE, None) if byte in good else bad
                self.assertEqual(judged(replaced(record, place, byte)), expected, f"byte {byte} at place {place}")

    def test_registers_and_ports(self) -> None:
        """A write to a register or port that a row names changes just the byte of that row."""
        record = self.records[2]
        writes = {"register": narephon.write_register, "port": narephon.write_port}
        named = [(field, re.fullmatch(r"(register|port) \$([0-9A-F]+)", field.name)) for field in fields(2)]
        for field, name in named:
            if name:
                (place,) = field.places
                value = [byte for byte in taken(field.words, 0, record, 0) if byte != record[place]][0]
                after = writes[name[1]](record, int(name[2], 16), value)
                self.assertEqual(after, replaced(record, place, value), field.name)
        self.assertEqual(len([name for _, name in named if name]), 20 + 2)


if __name__ == "__main__":
    unittest.main()
