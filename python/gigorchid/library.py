"""Finds and loads the shared library, once and only when it is first needed, and gives its functions.

The library is the first of these that is there: the file that GIGORCHID_LIBRARY names, which alone is looked for where
it is set; that of the package that this folder was installed with; the one built in this checkout; the one that the
system's loader finds.
"""

import ctypes
import hashlib
import os
from collections.abc import Callable
from functools import cache
from pathlib import Path
from typing import Any, NamedTuple

SONAME = "libgigorchid.so.0"
VARIABLE = "GIGORCHID_LIBRARY"
PREFIX = "gigorchid_"

_SLICE: tuple[type, ...] = (ctypes.c_void_p, ctypes.c_size_t)
_NUMBER: tuple[type, ...] = (ctypes.c_uint32,)

# Every function of include/gigorchid.h, without its prefix, and its arguments; each answers a uint32_t.
PROTOTYPES: dict[str, tuple[type, ...]] = {
    "simulate_words": _SLICE * 4,
    "check_words": _SLICE * 3,
    "convert_words": _SLICE * 4,
    "search_words": _SLICE * 3 + _NUMBER * 2 + _SLICE,
    "normal_words": _SLICE * 5,
    "simulate_nodes": _SLICE * 4,
    "check_nodes": _SLICE * 3,
    "convert_nodes": _SLICE * 4,
    "normal_nodes": _SLICE * 5,
    "read_corridor": _NUMBER * 2 + _SLICE * 2,
    "read_demands": _NUMBER * 2 + _SLICE * 2,
    "read_record": _NUMBER * 2 + _SLICE * 2,
    "read_plan": _NUMBER * 2 + _SLICE * 2,
    "write_corridor": _NUMBER * 2 + _SLICE * 2,
    "write_demands": _NUMBER * 2 + _SLICE * 2,
    "write_record": _NUMBER * 2 + _SLICE * 2,
    "write_plan": _NUMBER * 2 + _SLICE * 2,
    "check_files": _NUMBER * 2 + _SLICE * 3,
    "convert_files": _NUMBER * 2 + _SLICE * 4,
}


class LibraryMissing(OSError):
    """No shared library could be loaded; the message says which were tried."""


class FunctionMissing(LibraryMissing):
    """The library that was loaded lacks a function: it is of another version, or another library."""


class _Place(ctypes.Structure):
    """Dl_info of the C library's dladdr: where a function was loaded from."""

    _fields_ = [
        ("file", ctypes.c_char_p),
        ("base", ctypes.c_void_p),
        ("symbol", ctypes.c_char_p),
        ("address", ctypes.c_void_p),
    ]


class _Loaded(NamedTuple):
    """What is known of the library once it is loaded."""

    functions: dict[str, Callable[..., int]]
    path: Path
    digest: str


def candidates() -> list[str]:
    """The places where the library is looked for, in order."""
    told = os.environ.get(VARIABLE)
    if told:
        return [os.path.abspath(told)]
    folder = Path(__file__).resolve().parent
    packaged = folder.parents[2] / "x86_64-linux-gnu" / SONAME
    built = folder.parents[1] / "target" / "lib" / SONAME
    return [str(packaged), str(built), SONAME]


def function(name: str) -> Callable[..., int]:
    """The library's function of that name, without the prefix."""
    return _loaded().functions[name]


def path() -> Path:
    """The file that the functions really come from."""
    return _loaded().path


def digest() -> str:
    """The SHA-256 of that file, as it was when it was loaded, in hexadecimal."""
    return _loaded().digest


@cache
def _loaded() -> _Loaded:
    """Loads the library."""
    places = candidates()
    # A file that is there but cannot be loaded is an error: another library in its place would go unnoticed.
    chosen = next(filter(os.path.exists, places), places[-1])
    try:
        library = ctypes.CDLL(chosen)
    except OSError as error:
        raise LibraryMissing(f"no library of Gigorchid could be loaded: {error}; tried {', '.join(places)}") from error
    functions = {name: _bound(library, name, chosen) for name in PROTOTYPES}
    file = _file_of(functions["check_words"])
    return _Loaded(functions, file, hashlib.sha256(file.read_bytes()).hexdigest())


def _bound(library: ctypes.CDLL, name: str, chosen: str) -> Callable[..., int]:
    """One of the library's functions, with its prototype."""
    try:
        bound = library[PREFIX + name]
    except AttributeError as error:
        raise FunctionMissing(f"the library {chosen} has no function {PREFIX}{name}") from error
    bound.argtypes = PROTOTYPES[name]
    bound.restype = ctypes.c_uint32
    return bound


def _file_of(loaded: Any) -> Path:
    """The file that a function was loaded from."""
    place = _Place()
    found = ctypes.CDLL(None).dladdr(ctypes.cast(loaded, ctypes.c_void_p), ctypes.byref(place))
    if not found:
        raise LibraryMissing("the loader does not tell where the library was loaded from")
    return Path(os.fsdecode(place.file)).resolve()
