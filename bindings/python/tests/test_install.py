"""The wheel: its files, that it is the same each time, that pip installs it, and what is said where none is made."""

from __future__ import annotations

import base64
import email
import hashlib
import importlib.util
import os
import sysconfig
import unittest
import zipfile
from pathlib import Path

import narephon
from support import LIBRARY, NAME, PYTHON, REPOSITORY, Copied, python

BUILD = "import narephon_backend, sys; print(getattr(narephon_backend, sys.argv[1])(sys.argv[2]))"
INSTALLED = "import narephon; print(narephon.__file__, narephon.__version__, len(narephon.reset()))"
INFORMATION = f"narephon-{narephon.__version__}.dist-info"
OFFLINE = {"PIP_CONFIG_FILE": os.devnull, "PIP_DISABLE_PIP_VERSION_CHECK": "1", "PIP_NO_INDEX": "1"}


class Installing(Copied):
    def setUp(self) -> None:
        super().setUp()
        self.missing = f"narephon: run bindings/build in the repository first: there is no {self.made}"

    def works(self, site: Path) -> None:
        """The package in the folder is imported by a Python with an empty environment."""
        run = python(site, "-c", INSTALLED)
        self.assertEqual(run.stderr, "")
        self.assertEqual(run.stdout, f"{site / 'narephon' / '__init__.py'} {narephon.__version__} 2152\n")


class Wheel(Installing):
    def hook(self, name: str, into: str) -> tuple[int, str, str]:
        """A call of the backend on a new folder: its exit status, output and errors."""
        (self.folder / into).mkdir()
        run = python(self.folder, "-c", BUILD, name, into, PYTHONPATH=str(self.package / "backend"))
        return run.returncode, run.stdout, run.stderr

    def wheel(self, into: str = "wheels") -> Path:
        """A wheel made into a new folder."""
        status, name, errors = self.hook("build_wheel", into)
        self.assertEqual((status, errors), (0, ""))
        return self.folder / into / name.strip()

    def test_what_is_in_the_wheel(self) -> None:
        with zipfile.ZipFile(str(self.wheel())) as archive:
            files = {name: archive.read(name) for name in archive.namelist()}
        sources = [source.name for source in (PYTHON / "narephon").glob("*.py")]
        package = [f"narephon/{name}" for name in (*sources, "py.typed", NAME)]
        information = [f"{INFORMATION}/{name}" for name in ("LICENSE", "METADATA", "RECORD", "WHEEL")]
        self.assertEqual(sorted(files), sorted(package + information))
        self.assertEqual(files[f"narephon/{NAME}"], LIBRARY.read_bytes())
        self.assertEqual(files[f"{INFORMATION}/LICENSE"], (REPOSITORY / "LICENSE").read_bytes())
        for name in sources:
            self.assertEqual(files[f"narephon/{name}"], (PYTHON / "narephon" / name).read_bytes())

    def test_what_the_wheel_says_of_itself(self) -> None:
        wheel = self.wheel()
        with zipfile.ZipFile(str(wheel)) as archive:
            metadata = email.message_from_bytes(archive.read(f"{INFORMATION}/METADATA"))
            about = email.message_from_bytes(archive.read(f"{INFORMATION}/WHEEL"))
        platform = sysconfig.get_platform().replace("-", "_").replace(".", "_")
        self.assertEqual(wheel.name, f"narephon-{narephon.__version__}-py3-none-{platform}.whl")
        self.assertEqual((about["Tag"], about["Root-Is-Purelib"]), (f"py3-none-{platform}", "false"))
        self.assertEqual((metadata["Name"], metadata["Version"]), ("narephon", narephon.__version__))
        self.assertEqual(metadata.get_payload(decode=True), (PYTHON / "README.md").read_bytes())

    def test_the_list_of_files(self) -> None:
        with zipfile.ZipFile(str(self.wheel())) as archive:
            expected = []
            for name in archive.namelist()[:-1]:
                data = archive.read(name)
                digest = base64.urlsafe_b64encode(hashlib.sha256(data).digest()).decode().rstrip("=")
                expected.append(f"{name},sha256={digest},{len(data)}")
            expected.append(f"{INFORMATION}/RECORD,,")
            self.assertEqual(archive.read(f"{INFORMATION}/RECORD").decode().splitlines(), expected)

    def test_the_same_wheel_each_time(self) -> None:
        first = self.wheel()
        os.utime(str(self.made), (0, 0))
        self.assertEqual(first.read_bytes(), self.wheel("again").read_bytes())
        with zipfile.ZipFile(str(first)) as archive:
            entries = archive.infolist()
        self.assertEqual({entry.date_time for entry in entries}, {(1980, 1, 1, 0, 0, 0)})
        names = [entry.filename for entry in entries]
        self.assertEqual(names[:-1], sorted(names[:-1]))

    def test_an_unpacked_wheel_works(self) -> None:
        site = self.folder / "site"
        with zipfile.ZipFile(str(self.wheel())) as archive:
            archive.extractall(str(site))
        self.works(site)

    def test_no_library_no_wheel(self) -> None:
        self.made.unlink()
        self.assertEqual(self.hook("build_wheel", "wheels"), (1, "", f"{self.missing}\n"))
        self.assertEqual(list((self.folder / "wheels").iterdir()), [])

    def test_no_source_distribution(self) -> None:
        said = ("narephon: no source distribution is made, since the library is built in the repository: "
                "make a wheel, `pip wheel ./bindings/python`\n")
        self.assertEqual(self.hook("build_sdist", "sources"), (1, "", said))


@unittest.skipUnless(importlib.util.find_spec("pip"), "NOT RUN: this Python has no pip")
class Pip(Installing):
    def pip(self, site: Path) -> tuple[int, str]:
        """The package installed into the folder: pip's exit status and all that it said."""
        run = python(self.repository, "-m", "pip", "install", "--target", str(site), "./bindings/python",
                     PATH=os.environ["PATH"], **OFFLINE)
        return run.returncode, run.stdout + run.stderr

    def test_pip_installs(self) -> None:
        site = self.folder / "site"
        status, said = self.pip(site)
        self.assertEqual(status, 0, said)
        self.works(site)
        (self.repository / "bindings").rename(self.folder / "elsewhere")
        self.works(site)

    def test_pip_says_what_is_missing(self) -> None:
        self.made.unlink()
        status, said = self.pip(self.folder / "site")
        self.assertEqual(status, 1)
        self.assertIn(self.missing, [line.strip() for line in said.splitlines()])
        self.assertNotIn("Traceback", said)


if __name__ == "__main__":
    unittest.main()
