"""Refusals: what the library does not take, as an exception with the number and the words of the manual, section 7."""

from __future__ import annotations

from typing import Any, Callable, Optional

from . import _layout as h
from ._lend import one, room
from ._library import ask


def words_of(number: int) -> str:
    """The words of a refusal's number, as the library says them: there they stand once."""
    said, length = room(h.RG_WORDS_BYTES), one()
    ask("rg_words", number, said, length)
    return bytes(said[: length[0]]).decode("ascii")


class Refused(ValueError):
    """The library refused what it was given.

    `number` and `words` are those of the manual, section 7; `reason` says what is the matter, where there is more to say; of a file that was read `file`
    and `line` name the line that decides, one past the last where the end of the file decides, 0 where the file is too long."""

    def __init__(self, number: int, reason: str = "", file: Optional[str] = None, line: Optional[int] = None) -> None:
        super().__init__(number, reason, file, line)
        self.number = number
        self.reason = reason
        self.file = file
        self.line = line

    @property
    def words(self) -> str:
        """The words of the number."""
        return words_of(self.number)

    def __str__(self) -> str:
        place = "" if self.file is None else "%s:%d: " % (self.file, self.line) if self.line else "%s: " % self.file
        return "%srefused %d: %s%s" % (place, self.number, self.words, ": " + self.reason if self.reason else "")


def nothing_more(number: int) -> str:
    return ""


def call(name: str, *given: Any, why: Callable[[int], str] = nothing_more) -> None:
    """Calls an entry, and raises its refusal. `why` says more about a number: which value or which pair it is; the library has decided before."""
    number = ask(name, *given)
    if number != h.RG_ACCEPTED:
        raise Refused(number, why(number))
