"""Makes the wheel of the package, for pip: the package itself, and the library that bindings/build has made."""

from __future__ import annotations

import base64
import hashlib
import re
import sysconfig
import zipfile
from pathlib import Path
from typing import Any

_HERE = Path(__file__).resolve().parents[1]
_REPOSITORY = _HERE.parents[1]
_LIBRARY = _REPOSITORY / "target" / "bindings" / "libnarephon.so"
_SOURCE = _HERE / "narephon"
_TIME = (1980, 1, 1, 0, 0, 0)  # the earliest that a zip file can say
_PLAIN_FILE = 0o100644 << 16
_UNIX = 3

_METADATA = """\
Metadata-Version: 2.1
Name: narephon
Version: {version}
Summary: ZX Spectrum Next lines, registers, records, desks, screen files and tile packing, proved
License: MIT
Requires-Python: >=3.7
Description-Content-Type: text/markdown

{readme}"""

_WHEEL = """\
Wheel-Version: 1.0
Generator: narephon_backend
Root-Is-Purelib: false
Tag: {tag}
"""


def _version() -> str:
    """The version, which stands in the package and nowhere else."""
    source = (_SOURCE / "__init__.py").read_text(encoding="utf-8")
    stated = re.search(r'^__version__ = "([^"]+)"$', source, re.MULTILINE)
    if stated is None:
        raise SystemExit("narephon: narephon/__init__.py states no __version__")
    return stated[1]


def _tag() -> str:
    """Any Python 3, no Python binary interface, and this machine, for which the library was made."""
    return "py3-none-" + re.sub("[-. ]", "_", sysconfig.get_platform())


def _library() -> bytes:
    """The library; where it is missing, the build ends with one sentence that says what to do."""
    if not _LIBRARY.is_file():
        raise SystemExit(f"narephon: run bindings/build in the repository first: there is no {_LIBRARY}")
    return _LIBRARY.read_bytes()


def _package() -> dict[str, bytes]:
    """The installed files by name."""
    sources = [*_SOURCE.glob("*.py"), _SOURCE / "py.typed"]
    files = {f"narephon/{source.name}": source.read_bytes() for source in sources}
    files["narephon/libnarephon.so"] = _library()
    return files


def _information(version: str) -> dict[str, bytes]:
    """What a wheel says of itself, but for the list of its files."""
    readme = (_HERE / "README.md").read_text(encoding="utf-8")
    return {
        "LICENSE": (_REPOSITORY / "LICENSE").read_bytes(),
        "METADATA": _METADATA.format(version=version, readme=readme).encode(),
        "WHEEL": _WHEEL.format(tag=_tag()).encode(),
    }


def _listed(name: str, data: bytes) -> str:
    """A file's line in RECORD: its name, hash and length."""
    digest = base64.urlsafe_b64encode(hashlib.sha256(data).digest()).rstrip(b"=").decode()
    return f"{name},sha256={digest},{len(data)}\n"


def _entry(name: str) -> zipfile.ZipInfo:
    """A file's head in the wheel, the same whenever and wherever it is made."""
    entry = zipfile.ZipInfo(name, _TIME)
    entry.create_system = _UNIX
    entry.external_attr = _PLAIN_FILE
    return entry


def build_wheel(wheel_directory: str, config_settings: Any = None, metadata_directory: Any = None) -> str:
    """Writes the wheel into the directory and gives its file name (PEP 517)."""
    version = _version()
    information = f"narephon-{version}.dist-info"
    files = _package()
    files.update({f"{information}/{name}": data for name, data in _information(version).items()})
    names = sorted(files)
    record = f"{information}/RECORD"
    listed = "".join([_listed(name, files[name]) for name in names])
    wheel = f"narephon-{version}-{_tag()}.whl"
    with zipfile.ZipFile(Path(wheel_directory) / wheel, "w") as archive:
        for name in names:
            archive.writestr(_entry(name), files[name])
        archive.writestr(_entry(record), f"{listed}{record},,\n")
    return wheel


def build_sdist(sdist_directory: str, config_settings: Any = None) -> str:
    """Refused: the library is proved and made in the repository, which a source archive of the package has not."""
    raise SystemExit("narephon: no source distribution is made, since the library is built in the repository: "
                     "make a wheel, `pip wheel ./bindings/python`")
