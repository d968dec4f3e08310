"""Ladders, and the iterator that lists them: in batches, paused between any two of them, and pickled where it stands."""

from __future__ import annotations

import functools
import itertools
from typing import Any, Iterator, List, NamedTuple, Tuple

from . import _layout as h
from ._lend import Rows, table_rows, up_to_zero, words
from ._library import MAJOR, release, word
from ._lists import Listing, begins
from ._pairs import Pairs
from ._refused import Refused

AT_ONCE = 64  # ladders in a batch


@functools.total_ordering
class Ladder(Pairs):
    """A ladder of a table: a chain that no other chain of the table contains.

    Ladders are equal where they hold the same pairs. Those of one list are ordered as the list is, by their pick sequences, place by place; ladders of
    different tables, sides or preferences have no order."""

    __slots__ = ("_listing",)

    _listing: Listing

    def __init__(self, listing: Listing, rows: Rows) -> None:
        listing = listing if isinstance(listing, Listing) else Listing(*listing)  # what is pickled has three values in its place, and no name of a file
        super().__init__(listing.table.gauges, listing.table.cases, rows)
        object.__setattr__(self, "_listing", listing)

    @property
    def table(self) -> Any:
        """The table that it is a ladder of."""
        return self._listing.table

    @property
    def picks(self) -> Tuple[int, ...]:
        """The pick sequence: of the gauges not yet taken the one with most cases in the ladder, the first in the order on a tie. Of a ladder that was
        listed by cases it is one of cases."""
        return self._listing.sequence(self.rows)

    def _places(self) -> List[int]:
        return [self._listing.order.index(pick) for pick in self.picks]

    def __lt__(self, other: object) -> bool:
        if not isinstance(other, Ladder) or self._listing != other._listing:
            return NotImplemented
        return self._places() < other._places()

    def __reduce__(self) -> Tuple[Any, ...]:
        return Ladder, (tuple(self._listing), self.rows)


class State(NamedTuple):
    """Where an iterator stands: the words of its run ahead of the last batch and behind it, how many ladders the batch has, those of them that are still to
    come, the last of them first, and whether the list is over behind them. It is put in place whole, so that a call that is interrupted leaves it as it
    was."""

    ahead: Any
    run: Any
    size: int
    left: List[Rows]
    over: bool


def fresh(run: Any) -> State:
    """Where an iterator stands that has listed nothing ahead."""
    return State(run, run, 0, [], False)


class Ladders(Iterator[Ladder]):
    """The ladders of a list, or of a part of it, one after the other. `Table.ladders` and `Table.parts` give them.

    Nothing is listed ahead but one batch. Between two ladders it can be left alone for any time, copied (`copy.copy`) and pickled: what comes of it goes on
    exactly where it was, in another process too. `picks` are those that the ladders of a part begin with, none of the whole list."""

    def __init__(self, listing: Listing, run: Any, picks: Tuple[int, ...] = ()) -> None:
        self._listing = listing
        self._state = fresh(run)
        self.picks = picks

    def __iter__(self) -> "Ladders":
        return self

    def __next__(self) -> Ladder:
        while not self._state.left:
            if self._state.over:
                raise StopIteration
            self._state = self._next_batch()
        return Ladder(self._listing, self._state.left.pop())

    def _next_batch(self) -> State:
        """Of a part, a batch that leaves the run in the part is all of the part; else it closes the part, and its first ladders may be of it."""
        ahead = self._state.run
        run = words(h.RG_RUN_WORDS, ahead)
        over, found = self._listing.batch(run, AT_ONCE)
        if not begins(run, self.picks):
            over, found = True, tuple(itertools.takewhile(self._is_of_part, found))
        return State(ahead, run, len(found), list(found)[::-1], over)

    def _is_of_part(self, rows: Rows) -> bool:
        return self._listing.sequence(rows)[: len(self.picks)] == self.picks

    def __repr__(self) -> str:
        """The table's size, the side, and the picks of a part."""
        by_cases = ", by cases" if self._listing.by_cases else ""
        part = ", those that begin with picks %s" % " ".join(map(str, self.picks)) if self.picks else ""
        return "<Ladders of a table %d by %d%s%s>" % (self._listing.table.gauges, self._listing.table.cases, by_cases, part)

    def __getstate__(self) -> Tuple[Any, ...]:
        """Numbers alone: the release, which is the first in every release, and the words of the run behind the last ladder that was taken, which have the
        table, the side and the preference. Ladders that were listed ahead are not stored: what is stored can all be judged."""
        return h.RG_VERSION, tuple(self._run_here()), self.picks

    def _run_here(self) -> Any:
        """The run behind the last ladder that was taken: ladders of the last batch are listed again, where some are left of it or the list is over."""
        state = self._state
        if not state.left and not state.over:
            return state.run
        run, taken = words(h.RG_RUN_WORDS, state.ahead), state.size - len(state.left)
        if taken:
            self._listing.batch(run, taken)
        return run

    def __setstate__(self, stored: Tuple[Any, ...]) -> None:
        """Goes on from what another process stored, where the library takes it."""
        check_release(stored[0])
        _, run, picks = stored
        if len(run) != h.RG_RUN_WORDS:
            raise ValueError("a paused run has %d words, not %d" % (h.RG_RUN_WORDS, len(run)))
        self._state, self.picks = fresh(words(h.RG_RUN_WORDS, map(word, run))), tuple(picks)
        self._listing = listing_of(self._state.run)
        if not begins(self._state.run, self.picks):
            raise Refused(h.RG_PAUSED, "its picks do not begin with %s, as those of its part do" % " ".join(map(str, self.picks)))


def check_release(version: int) -> None:
    """That runs of this release have the layout that they have here: the first number goes up where a layout is no longer what it was."""
    if version // MAJOR != h.RG_VERSION // MAJOR:
        raise ValueError("this list was paused by ragymolev %s, and %s does not know its layout" % (release(version), release(h.RG_VERSION)))


def listing_of(run: Any) -> Listing:
    """The list that a run is of, where the library takes it as one. Its first word tells another layout from this one."""
    from ._table import Table  # which stands above this file

    side = run[h.RG_RUN_SIDE]
    if side not in (h.RG_SIDE_GAUGES, h.RG_SIDE_CASES):
        raise Refused(h.RG_PAUSED, "its first word is %d, and that of this layout is %d or %d" % (side, h.RG_SIDE_GAUGES, h.RG_SIDE_CASES))
    table = Table(*table_rows(run[h.RG_RUN_TABLE :][: h.RG_TABLE_WORDS]))
    listing = Listing.of(table, up_to_zero(run[h.RG_RUN_ORDER :][: h.RG_ORDER_WORDS]), side == h.RG_SIDE_CASES)
    listing.judge(run)
    return listing
