"""The shared library: where it stands, its calls, and what to do where it cannot be used."""

from __future__ import annotations

import ctypes
import os
from pathlib import Path
from typing import NamedTuple

_NAME = "libnarephon.so"
_BYTES = (ctypes.POINTER(ctypes.c_uint8), ctypes.c_size_t)
_SEAT = (*_BYTES, ctypes.c_uint16)  # a desk, and the member whose seat it is about
_NUMBERS = (ctypes.POINTER(ctypes.c_uint16), ctypes.c_size_t)
_BYTE = ctypes.POINTER(ctypes.c_uint8)
_WORD = ctypes.POINTER(ctypes.c_uint32)
_SIGNATURES = {
    "narephon_reset": [*_BYTES],
    "narephon_check_record": [*_BYTES, _WORD],
    "narephon_move_up": [*_BYTES, *_BYTES, _WORD],
    "narephon_move_back": [*_BYTES, *_BYTES, _WORD],
    "narephon_next_frame": [*_BYTES],
    "narephon_write_register": [*_BYTES, ctypes.c_uint8, ctypes.c_uint8],
    "narephon_write_port": [*_BYTES, ctypes.c_uint16, ctypes.c_uint8],
    "narephon_read_register": [*_BYTES, ctypes.c_uint8, _BYTE],
    "narephon_read_port": [*_BYTES, ctypes.c_uint16, _BYTE],
    "narephon_draw": [*_BYTES, *_BYTES, *_BYTES, ctypes.c_uint32, *_NUMBERS],
    "narephon_draw_layers": [*_BYTES, *_BYTES, *_BYTES, *_NUMBERS, *_NUMBERS, ctypes.c_uint32, *_NUMBERS],
    "narephon_draw_traced": [*_BYTES, *_BYTES, *_BYTES, *_BYTES, ctypes.c_uint32, *_NUMBERS, _WORD],
    "narephon_draw_carried": [*_BYTES, *_BYTES, *_BYTES, *_BYTES, *_NUMBERS, *_BYTES, *_NUMBERS],
    "narephon_read_scr": [*_BYTES, *_BYTES, *_BYTES, _WORD],
    "narephon_write_scr": [*_BYTES, *_BYTES, *_BYTES, _WORD],
    "narephon_screen_value": [ctypes.c_uint32, _WORD],
    "narephon_pack": [*_BYTES, ctypes.c_uint32, ctypes.c_uint32, *_BYTES, *_BYTES, _WORD],
    "narephon_fewest": [*_BYTES, _WORD],
    "narephon_desk_start": [*_BYTES],
    "narephon_desk_open": [*_SEAT],
    "narephon_desk_close": [*_SEAT],
    "narephon_desk_next_frame": [*_SEAT],
    "narephon_desk_write_register": [*_SEAT, ctypes.c_uint8, ctypes.c_uint8],
    "narephon_desk_write_port": [*_SEAT, ctypes.c_uint16, ctypes.c_uint8],
    "narephon_desk_read_register": [*_SEAT, ctypes.c_uint8, _BYTE],
    "narephon_desk_read_port": [*_SEAT, ctypes.c_uint16, _BYTE],
    "narephon_desk_draw": [*_SEAT, *_BYTES, *_BYTES, ctypes.c_uint32, *_NUMBERS],
}


class _Source(NamedTuple):
    """A library to be loaded, and what to do where that cannot be done."""

    path: Path
    remedy: str


def _source() -> _Source:
    """The library that NAREPHON_LIBRARY names; else the one inside the package; else a checkout's."""
    named = os.environ.get("NAREPHON_LIBRARY")
    if named:
        return _Source(Path(os.path.abspath(named)),
                       "set NAREPHON_LIBRARY, which names it, to a libnarephon.so that bindings/build made, or unset it")
    package = Path(__file__).resolve().parent
    inside = package / _NAME
    repository = package.parent.parent.parent
    if os.path.isfile(inside) or not os.path.isfile(repository / "bindings" / "build"):
        return _Source(inside, "run bindings/build and then `pip install ./bindings/python` in the Narephon "
                               "repository, or set NAREPHON_LIBRARY to a libnarephon.so")
    return _Source(repository / "target" / "bindings" / _NAME, f"run bindings/build in {repository}")


def _opened(source: _Source) -> ctypes.CDLL:
    """The library, or ImportError where it is missing or no library of this machine."""
    path = str(source.path)
    if not os.path.isfile(path):
        raise ImportError(f"there is no library file {path}; {source.remedy}", name="narephon", path=path)
    try:
        return ctypes.CDLL(path)
    except OSError as error:
        why = str(error).replace(f"{path}: ", "")
        raise ImportError(f"the library {path} cannot be loaded ({why}); {source.remedy}",
                          name="narephon", path=path) from None


def load() -> ctypes.CDLL:
    """The library with every call's types. Raises ImportError, which says what was tried and what to do."""
    source = _source()
    library = _opened(source)
    for name, arguments in _SIGNATURES.items():
        if not hasattr(library, name):
            raise ImportError(f"the library {source.path} has no {name}: it is older than this package, or another "
                              f"library; {source.remedy}", name="narephon", path=str(source.path))
        call = getattr(library, name)
        call.argtypes = arguments
        call.restype = ctypes.c_uint8
    return library
