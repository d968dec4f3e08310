"""Files: their bytes, and refusals that name the file and the line that decides."""

from __future__ import annotations

import os
from typing import Any, Callable, List, Tuple, Union

from . import _layout as h
from ._lend import blank_test, one, words
from ._library import ask
from ._refused import Refused, call, nothing_more

Path = Union[str, os.PathLike]
ANY_CUTOFF = 1  # a test is the same at every cutoff


def bytes_of(path: Path) -> bytes:
    """A file as far as it is looked at: one byte more than the longest that is read."""
    with open(path, "rb") as file:
        return file.read(h.RG_FILE_BYTES + 1)


def plain_bytes(file: Any) -> bytes:
    """Bytes that are handed in. A number is none: `bytes` would make so many zeros of it."""
    return bytes(memoryview(file))


def line_of(file: bytes, either: bool) -> int:
    """The line for which a file is refused, one without readings or one of either kind."""
    line = one()
    call("rg_locate", file, int(either), line)
    return line[0]


def call_on_file(name: str, source: str, either: bool, file: bytes, *given: Any, why: Callable[[int], str] = nothing_more) -> None:
    """Calls an entry that reads a file; a refusal of the file names it, and its line."""
    number = ask(name, file, *given)
    if number != h.RG_ACCEPTED:
        raise Refused(number, why(number), file=source, line=line_of(file, either))


def is_test(file: bytes) -> bool:
    """Whether a file is one of a recorded test."""
    return ask("rg_read_test", file, ANY_CUTOFF, *blank_test(), words(h.RG_TABLE_WORDS)) == h.RG_ACCEPTED


def comments(path: Path) -> Tuple[bytes, ...]:
    """The comment lines of a file of either kind, without the ends of their lines."""
    file, span = bytes_of(path), words(h.RG_SPAN_WORDS)
    found: List[bytes] = []
    while True:
        number = ask("rg_comment", file, len(found) + 1, span)
        if number == h.RG_NO_COMMENT:
            return tuple(found)
        if number != h.RG_ACCEPTED:
            raise Refused(number, file=str(path), line=line_of(file, True))
        found.append(file[span[h.RG_SPAN_START] :][: span[h.RG_SPAN_LENGTH]])
