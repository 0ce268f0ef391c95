"""Which library is loaded, and what is said where none can be."""

from __future__ import annotations

import shutil
import unittest
from pathlib import Path

from support import LIBRARY, NAME, Copied, environment_of, python

USED = "import narephon; print(narephon._narephon._name)"
INSTALL = ("run bindings/build and then `pip install ./bindings/python` in the Narephon repository, "
           "or set NAREPHON_LIBRARY to a libnarephon.so")
NAMED = "set NAREPHON_LIBRARY, which names it, to a libnarephon.so that bindings/build made, or unset it"


class Finding(Copied):
    def setUp(self) -> None:
        super().setUp()
        self.build = f"run bindings/build in {self.repository}"
        self.inside = self.package / "narephon" / NAME

    def used(self, package: Path, expected: Path, library: str | None = None) -> None:
        """The package loads the library expected."""
        run = python(self.folder, "-c", USED, **environment_of(package, library))
        self.assertEqual((run.stdout, run.stderr), (f"{expected}\n", ""))

    def fails(self, package: Path, what: str, remedy: str, library: str | None = None) -> None:
        """The import ends with an ImportError alone, which opens with what is wrong and ends with the remedy."""
        run = python(self.folder, "-c", USED, **environment_of(package, library))
        self.assertEqual((run.returncode, run.stdout, run.stderr.count("Traceback")), (1, "", 1))
        said = run.stderr.splitlines()[-1]
        self.assertEqual(said[:len(what) + 13], f"ImportError: {what}")
        self.assertEqual(said[-len(remedy) - 2:], f"; {remedy}")

    def installed(self) -> Path:
        """A folder with the package alone, as pip leaves it but for the library."""
        site = self.folder / "site"
        shutil.copytree(str(self.package / "narephon"), str(site / "narephon"))
        return site

    def older(self, path: Path, call: str) -> None:
        """Puts a library at the path that has all calls but one."""
        name = call.encode()
        path.write_bytes(LIBRARY.read_bytes().replace(name + b"\0", name[:-1] + b"_\0"))

    def test_the_order(self) -> None:
        self.used(self.package, self.made)
        shutil.copy(str(LIBRARY), str(self.inside))
        self.used(self.package, self.inside)
        named = self.folder / "named.so"
        shutil.copy(str(LIBRARY), str(named))
        self.used(self.package, named, str(named))
        self.used(self.package, named, "named.so")
        self.used(self.package, self.inside, "")

    def test_a_missing_library(self) -> None:
        self.made.unlink()
        self.fails(self.package, f"there is no library file {self.made};", self.build)
        site = self.installed()
        self.fails(site, f"there is no library file {site / 'narephon' / NAME};", INSTALL)

    def test_a_wrong_name(self) -> None:
        for path in (self.folder / "nowhere.so", self.folder):
            self.fails(self.package, f"there is no library file {path};", NAMED, str(path))

    def test_a_file_that_is_no_library(self) -> None:
        self.made.write_bytes(b"")
        self.fails(self.package, f"the library {self.made} cannot be loaded (", self.build)
        text = self.folder / "text.so"
        text.write_text("not a library, but long enough to be one " * 4)
        self.fails(self.package, f"the library {text} cannot be loaded (", NAMED, str(text))

    def test_an_older_library(self) -> None:
        self.older(self.made, "narephon_fewest")
        self.fails(self.package, f"the library {self.made} has no narephon_fewest: it is older", self.build)
        site = self.installed()
        inside = site / "narephon" / NAME
        self.older(inside, "narephon_check_record")
        self.fails(site, f"the library {inside} has no narephon_check_record: it is older", INSTALL)


if __name__ == "__main__":
    unittest.main()
