"""The shared library, and calls of its entries: numbers go as words, lent memory as a pointer and its length.

Which entries there are and what each is given stands in _layout.py, which is made from the header."""

from __future__ import annotations

import ctypes
import functools
import operator
from typing import Any, Callable, List, Tuple

from . import _layout as h
from ._find import library_path

GREATEST_WORD = 2**64 - 1
MAJOR = 10000  # RG_VERSION has so many for each first number of a release, and a hundredth of it for each second
POINTERS = {
    "words": ctypes.POINTER(ctypes.c_uint64),
    "words out": ctypes.POINTER(ctypes.c_uint64),
    "bytes": ctypes.c_char_p,
    "bytes out": ctypes.POINTER(ctypes.c_uint8),
    "readings": ctypes.POINTER(ctypes.c_int32),
    "readings out": ctypes.POINTER(ctypes.c_int32),
}


def release(version: int) -> str:
    """The number of a release as it is written: 10000 is 1.0, and 10203 is 1.2.3."""
    major, minor, patch = version // MAJOR, version // 100 % 100, version % 100
    return "%d.%d.%d" % (major, minor, patch) if patch else "%d.%d" % (major, minor)


def version_of(found: Any) -> int:
    """The number of a library's release; 0 where it does not say it."""
    if not hasattr(found, "rg_version"):
        return 0
    found.rg_version.restype = ctypes.c_uint64
    return int(found.rg_version())


def loaded(path: str) -> ctypes.CDLL:
    """The library of a file, where it goes with the header that the layouts were made from: the first number of a release goes up where an entry or a layout
    is no longer what it was. A library that is older may have the same first number and lack entries."""
    try:
        found = ctypes.CDLL(path)
    except OSError as error:
        raise ImportError("the library of ragymolev cannot be loaded: %s" % error, path=path) from error
    version = version_of(found)
    if not version:
        raise ImportError("%s is no library of ragymolev: it has no rg_version" % path, path=path)
    same = version // MAJOR == h.RG_VERSION // MAJOR
    lacking = ", ".join(name for name in h.ENTRIES if not hasattr(found, name))
    if lacking or not same:
        why = "it lacks " + lacking if same else "the first numbers must be the same"
        raise ImportError("%s is ragymolev %s, and this package is made for %s: %s" % (path, release(version), release(h.RG_VERSION), why), path=path)
    return found


@functools.lru_cache(maxsize=None)
def library() -> ctypes.CDLL:
    """The library, loaded when it is first asked."""
    return loaded(library_path())


@functools.lru_cache(maxsize=None)
def entry_of(name: str) -> Tuple[Callable[..., int], Tuple[str, ...]]:
    kinds = h.ENTRIES[name]
    types: List[Any] = []
    for kind in kinds:
        types += [ctypes.c_uint64] if kind == "number" else [POINTERS[kind], ctypes.c_size_t]
    entry = getattr(library(), name)
    entry.restype = ctypes.c_uint64
    entry.argtypes = types
    return entry, kinds


def word(number: int) -> int:
    """A number as a word. One that is none stands for the greatest word, and the library refuses it by its own number."""
    number = operator.index(number)
    return number if 0 <= number <= GREATEST_WORD else GREATEST_WORD


def ask(name: str, *given: Any) -> int:
    """Calls an entry: 0, or the number of its refusal."""
    entry, kinds = entry_of(name)
    if len(given) != len(kinds):
        raise TypeError("%s is given %d values, not %d" % (name, len(kinds), len(given)))
    passed: List[Any] = []
    for kind, value in zip(kinds, given):
        passed += [word(value)] if kind == "number" else [value, len(value)]
    return entry(*passed)
