"""Where the shared library is: RAGYMOLEV_LIBRARY of the environment; else beside this package; else in the prefix or the checkout that the package lies in;
else an installed one."""

from __future__ import annotations

import ctypes.util
import os
import sys
from typing import Iterator

HERE = os.path.dirname(os.path.abspath(__file__))
NAME = "libragymolev.so"
VARIABLE = "RAGYMOLEV_LIBRARY"


def above() -> Iterator[str]:
    """The folders that this package lies in, the nearest first."""
    folder = HERE
    while folder != os.path.dirname(folder):
        folder = os.path.dirname(folder)
        yield folder


def candidates() -> Iterator[str]:
    """Where a file of the library may be. A checkout has it once it is made from the archive; python/README.md has the command."""
    yield os.path.join(HERE, NAME)
    for folder in above():
        yield os.path.join(folder, "lib", NAME)
        yield os.path.join(folder, "target", "staticlib", NAME)
    for prefix in sys.prefix, sys.base_prefix, "/usr/local":
        yield os.path.join(prefix, "lib", NAME)


def library_path() -> str:
    """The file to load; a name alone where only the system's loader knows it."""
    named = os.environ.get(VARIABLE)
    found = named or next(filter(os.path.isfile, candidates()), None) or ctypes.util.find_library("ragymolev")
    if not found:
        raise ImportError("there is no %s beside the package, in a checkout or installed; %s can name one" % (NAME, VARIABLE))
    return found
