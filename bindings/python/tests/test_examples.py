"""The example programs, the guide's lines that run two of them, its Python for a trace, and the README's examples, run
as a reader runs them."""

from __future__ import annotations

import re
import unittest

import narephon
from support import (
    LIBRARY, PYTHON, REPOSITORY, InFolder, environment_of, guide, guide_lines, outside, pixels, python, sample, sample_trace,
    written,
)

# A line of the guide that runs an example: the program and the file that it writes.
LINE = r"^    PYTHONPATH=bindings/python python3 (\S+) (\S+)$"
# The screen values of the colours that orders.py shows: the fallback, U's bars and frame, L's disc and band, S.
FALLBACK, BARS, FRAME, DISC, BAND, SQUARE = 0xDADAFF, 0x006FFF, 0x0000B5, 0xFFDA00, 0xFF0025, 0x25B54A
# Some of its pixels in SLU, LSU, SUL, LUS, USL and ULS.
ORDERS = {
    (40, 100): [FALLBACK] * 6,
    (160, 128): [BAND] * 6,
    (20, 40): [SQUARE, SQUARE, SQUARE, FRAME, FRAME, FRAME],  # S and U
    (160, 60): [DISC, DISC, BARS, DISC, BARS, BARS],  # L and U
    (110, 100): [SQUARE, DISC, SQUARE, DISC, SQUARE, DISC],  # S and L
    (160, 105): [SQUARE, DISC, SQUARE, DISC, BARS, BARS],  # all three
}


def panels(picture: list[list[int]]) -> list[list[list[int]]]:
    """The six panels of 320 × 256, which stand 8 apart."""
    return [[row[left:left + 320] for row in picture[top:top + 256]] for top in (0, 264) for left in (0, 328, 656)]


class Examples(InFolder):
    def setUp(self) -> None:
        super().setUp()
        self.environment = environment_of(PYTHON, str(LIBRARY))

    def printed(self, *arguments: str) -> list[str]:
        """What Python prints."""
        run = python(self.folder, *arguments, **self.environment)
        self.assertEqual((run.returncode, run.stderr), (0, ""))
        return run.stdout.splitlines()

    def example(self, name: str, *arguments: str) -> list[str]:
        """What an example program prints."""
        return self.printed(str(PYTHON / "examples" / name), *arguments)

    def picture(self, name: str) -> list[list[int]]:
        """The pixels of a PNG file that was written."""
        return pixels((self.folder / name).read_bytes())

    def test_the_bot_keeps_members_apart(self) -> None:
        self.assertEqual(self.example("bot.py"), [
            "member 8 finished her colour: index 13", "member 7 still holds his half: index 12",
            "member 7: colour 454", "member 8: colour 57", "member 9 scrolls by 24 and 40",
            "member 10 has a damaged record: refused 18: a field of the record is out of its bounds (place 33)",
            "member 8: preview in preview.png",
        ])

    def test_the_bot_writes_a_preview(self) -> None:
        self.example("bot.py")
        rows = self.picture("preview.png")
        self.assertEqual(rows[0], [0] * 640)
        self.assertEqual(rows[64 + 3 * 48][64:64 + 16], [0xB500B5] * 8 + [0] * 8)
        self.assertEqual(rows[64 + 2 * 160][575], 0xB5B5B5)
        self.example("bot.py", "other.png")
        self.assertEqual((self.folder / "other.png").read_bytes(), (self.folder / "preview.png").read_bytes())

    def guides_line(self, name: str) -> tuple[list[str], str]:
        """What the guide's line with an example prints, and the file that it writes."""
        ((program, file),) = [line for line in re.findall(LINE, guide(), re.M) if line[0].endswith(f"/{name}")]
        return self.printed(str(REPOSITORY / program), file), file

    def test_the_guides_picture(self) -> None:
        said, file = self.guides_line("orders.py")
        self.assertEqual(said, [f"SLU LSU SUL above, LUS USL ULS below: {file}"])
        self.assertEqual(self.picture(file), pixels((REPOSITORY / "docs" / "orders.png").read_bytes()))

    def test_the_guides_bars(self) -> None:
        said, file = self.guides_line("bars.py")
        self.assertEqual(said, [f"241 entries: {file}"])
        self.assertEqual((self.folder / file).read_bytes(), sample_trace())
        shown = narephon.preview_png(*sample(), sample_trace())
        self.assertEqual(pixels(shown), pixels((REPOSITORY / "docs" / "bars.png").read_bytes()))

    def test_the_guides_trace(self) -> None:
        """A bar of each colour in border 1; for that of $14, which is 1 in the sample, the fallback, which is 0."""
        self.printed("-c", guide_lines("make_trace"))
        trace = (self.folder / "bars.trace").read_bytes()
        lines = narephon.draw_carried(sample()[0], trace, *sample()[1:])
        self.assertEqual([line[0] for line in lines if isinstance(line, list)],
                         [0 if colour == 1 else colour * 2 + (colour % 4 > 0) for colour in range(256)])

    def test_the_orders_differ(self) -> None:
        self.example("orders.py")
        rows = self.picture("orders.png")
        self.assertEqual((len(rows), len(rows[0])), (520, 976))
        six = panels(rows)
        for place, panel in enumerate(six):
            self.assertNotIn(panel, six[:place])
        for (x, y), shown in ORDERS.items():
            self.assertEqual([panel[y][x] for panel in six], shown, f"{x}, {y}")

    def test_the_readme(self) -> None:
        examples = re.findall(r"```python\n(.*?)```", (PYTHON / "README.md").read_text(encoding="utf-8"), re.DOTALL)
        for name, data in zip(("record", "ula", "tile"), sample()):
            (self.folder / name).write_bytes(data)
        (self.folder / "screen.scr").write_bytes(outside("struct6_4.12289.scr"))
        for code in examples:
            self.printed("-c", code)
        self.assertEqual((self.folder / "preview.png").read_bytes(), narephon.preview_png(*sample()))
        moved = (self.folder / "record").read_bytes()
        self.assertEqual((len(sample()[0]), moved), (2150, written(narephon.move_up(sample()[0]), (0x26, 8))))
        desk = narephon.Desk((self.folder / "desk").read_bytes())
        self.assertEqual([desk.read_register(member, 0x40) for member in (7, 8)], [0, 1])
        # Port byte $26: the ink is 4, bright green, and paper and border are 3, bright magenta.
        shown = {pixel for row in self.picture("screen.png") for pixel in row}
        self.assertEqual(shown, {0x00FF00, 0xFF00FF})


if __name__ == "__main__":
    unittest.main()
