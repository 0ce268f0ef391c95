"""A bot's members, kept apart by their numbers. Two of them share a nickname and have seats on one desk: one has sent
half a nine-bit colour, the other sends a byte of her own, and neither reaches the other. A third hands in an old
record, which is moved up when it is loaded, and a fourth a damaged one, of which the bot says what is wrong and where;
a stored record cannot be put on a desk, so these two are served by the functions on a record. The bot then writes a
preview of a member's screen.

    python3 bot.py [PNG-FILE]

The file is preview.png in the current folder where none is named. It runs in any folder once the package is installed
(pip install ./bindings/python), and in a checkout with bindings/python on PYTHONPATH."""

import sys
from pathlib import Path

import narephon

# Black, blue, red, magenta, green, cyan, yellow and white, as register $41 takes them.
COLOURS = (0x00, 0x02, 0xA0, 0xA2, 0x14, 0x16, 0xB4, 0xB6)


def keep_apart(desk: narephon.Desk) -> None:
    """Members 7 and 8 are both called Rufus."""
    for member in (7, 8):
        desk.open(member)
        desk.write_register(member, 0x40, 12)
    desk.write_register(7, 0x44, 0xE3)
    desk.write_register(8, 0x44, 0x1C)
    desk.write_register(8, 0x44, 1)
    print("member 8 finished her colour: index", desk.read_register(8, 0x40))
    print("member 7 still holds his half: index", desk.read_register(7, 0x40))
    desk.write_register(7, 0x44, 0)
    for member in (7, 8):
        desk.write_register(member, 0x40, 12)
        colour = desk.read_register(member, 0x41) * 2 + desk.read_register(member, 0x44)
        print(f"member {member}: colour", colour)


def old_record() -> bytes:
    """A record as versions before 0.3.0 stored it, of a screen scrolled by 16 and 40."""
    record = narephon.reset()
    for register, value in ((0x26, 16), (0x27, 40), (0x32, 16), (0x33, 40)):
        record = narephon.write_register(record, register, value)
    return narephon.move_back(record)


def take_old() -> None:
    """Member 9 hands in an old record, and writes a register that it did not have."""
    record = narephon.write_register(narephon.load_record(old_record()), 0x26, 24)
    print("member 9 scrolls by", narephon.read_register(record, 0x26), "and", narephon.read_register(record, 0x27))


def tell_damaged() -> None:
    """Member 10's record has a border of 8, where 7 is the most; it stands at 33 in an old record."""
    stored = old_record()
    try:
        narephon.load_record(stored[:33] + bytes([8]) + stored[34:])
    except narephon.Refused as refused:
        print("member 10 has a damaged record:", refused)


def inks_and_papers() -> bytes:
    """A ULA bank that shows each ink, from top to bottom, on each paper, from left to right."""
    bitmap = bytes([0xF0]) * 6144
    attributes = bytes(row // 3 + 8 * (column // 4) for row in range(24) for column in range(32))
    return (bitmap + attributes).ljust(narephon.BANK, b"\0")


def main() -> None:
    desk = narephon.Desk()
    keep_apart(desk)
    take_old()
    tell_damaged()
    for first in (0, 16):  # the inks, and the papers with the border
        desk.write_register(8, 0x40, first)
        for colour in COLOURS:
            desk.write_register(8, 0x41, colour)
    file = Path(sys.argv[1] if len(sys.argv) > 1 else "preview.png")
    file.write_bytes(desk.preview_png(8, inks_and_papers(), bytes(narephon.BANK)))
    print(f"member 8: preview in {file}")


if __name__ == "__main__":
    main()
