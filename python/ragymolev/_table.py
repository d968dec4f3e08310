"""Tables, and the questions that can be asked of one. The library answers; here are only the words that are lent to it, and what is made of its answers."""

from __future__ import annotations

import functools
import operator
from collections.abc import Mapping, Set
from typing import Any, Callable, Iterable, List, Optional, Tuple, Union

from . import _arrays, _witness
from . import _layout as h
from ._answers import Count, Cover, Proposal, Rivals
from ._check import MOST_MISSING, Report, check_list
from ._files import Path, bytes_of, call_on_file, is_test, plain_bytes
from ._ladders import Ladder, Ladders
from ._lend import Rows, chain_rows, chain_words, one, room, table_rows, table_words, words
from ._library import GREATEST_WORD, word
from ._lists import Listing
from ._pairs import Chain, Pair, Pairs, pair_of, pairs_of, rows_in
from ._parts import parts_of
from ._refused import Refused, call

Row = Union[int, Iterable[int]]
Order = Optional[Iterable[int]]


def row_of(row: Row) -> int:
    """A row as a number: a number as it is, cases by number as their bits. Truth values are neither."""
    row = _arrays.plain(row)
    cases = [_arrays.plain(case) for case in row] if hasattr(row, "__iter__") else []
    if isinstance(row, bool) or any(isinstance(case, bool) or operator.index(case) < 1 for case in cases):
        raise ValueError("a row has the numbers of its cases, from 1; Table.from_array takes zeros and ones")
    if not hasattr(row, "__iter__"):
        return operator.index(row)
    return sum(1 << (case - 1) for case in set(map(operator.index, cases)))


def reason_of_table(gauges: int, cases: int, rows: Rows, number: int) -> str:
    """Its size, where that is refused; else what lies outside of it."""
    if number == h.RG_SHAPE:
        return "%d by %d" % (gauges, cases)
    if any(rows[gauges:]):
        return "%d rows for %d gauges" % (len(rows), gauges)
    return next(("%d:%d of %d cases" % (gauge, case, cases) for gauge, case in pairs_of(rows) if case > cases), "")


class Table(Pairs):
    """A response table: G gauges and L cases, each 1 to 64, and the pairs of a gauge and a case that it responds to.

    It is read from a file, or made from rows or from an array. It is never changed; a commit gives a new one."""

    __slots__ = ()

    def __init__(self, gauges: int, cases: int, rows: Rows) -> None:
        rows = tuple(rows)
        table = table_words(gauges, cases, rows)
        call("rg_write", table, room(h.RG_TABLE_BYTES), one(), why=lambda number: reason_of_table(gauges, cases, rows, number))
        super().__init__(*table_rows(table))

    # --- where tables come from

    @classmethod
    def read(cls, path: Path) -> "Table":
        """The table of a file of pairs. A file of readings is one of `Test.read`, and has a table at each cutoff."""
        return cls.from_bytes(bytes_of(path), str(path))

    @classmethod
    def from_bytes(cls, file: bytes, name: str = "bytes") -> "Table":
        """The table of a file of pairs that is in memory; a refusal calls it by the name."""
        table = words(h.RG_TABLE_WORDS)
        file = plain_bytes(file)
        call_on_file("rg_read", name, False, file, table, why=lambda number: "it has readings: Test.read takes it" if is_test(file) else "")
        return cls(*table_rows(table))

    @classmethod
    def from_rows(cls, rows: Iterable[Row], cases: Optional[int] = None) -> "Table":
        """The table of rows, one for each gauge: a number whose bit c - 1 stands for case c, or the cases by number. Without `cases` the highest case of
        all rows is the last."""
        if isinstance(rows, Pairs):
            return cls(rows.gauges, rows.cases if cases is None else operator.index(cases), rows.rows)
        if len(getattr(rows, "shape", ())) > 1:
            raise ValueError("rows are numbers or cases by number; Table.from_array takes an array of gauges by cases")
        if isinstance(rows, (Mapping, Set)):
            raise ValueError("rows stand one after the other, one for each gauge, and not in a %s" % type(rows).__name__)
        numbers = tuple(row_of(row) for row in rows)
        highest = max((row.bit_length() for row in numbers), default=0)
        return cls(len(numbers), highest if cases is None else operator.index(cases), numbers)

    @classmethod
    def from_array(cls, array: Any) -> "Table":
        """The table of an array of NumPy, a sparse array or matrix of SciPy, or lists of lists: gauges down, cases across.

        A pair is where the value is not zero, be it true, negative or infinite. A value that is no number (NaN, None of a masked array, a text) is a
        `ValueError`. Readings are made a table by `Test.from_array` and a cutoff."""
        if isinstance(array, Pairs):
            return cls(array.gauges, array.cases, array.rows)
        gauges, cases, entries = _arrays.entries_of(array)
        rows = [0] * min(gauges, h.RG_MOST)
        for (gauge, case), value in entries.items():
            rows[gauge] |= bool(value) << case
        return cls(gauges, cases, tuple(rows))

    def __reduce__(self) -> Tuple[Any, ...]:
        return Table, (self.gauges, self.cases, self.rows)

    # --- its ladders

    def ladders(self, order: Order = None, by_cases: bool = False, needed: bool = False) -> Ladders:
        """All ladders, each once, as an iterator that can be paused, copied and pickled.

        They come in gauge order, by their pick sequences; `by_cases` lists them by cases. `order` is a preference, each gauge once (each case by cases), the
        most trusted first. With `needed` only those come that hold a deciding pair: a ladder is in some irreducible cover exactly when it holds one."""
        listing = Listing.of(self, order, by_cases)
        return Ladders(listing, listing.start(needed))

    def parts(self, number: int, order: Order = None, by_cases: bool = False, needed: bool = False) -> List[Ladders]:
        """The same list in so many parts or more, where the table has so many ladders: iterators that can be pickled and listed anywhere.

        One after the other they are the list: that is all that is promised. How many ladders a part has, and how long it takes, is not: the list is split by
        picks and not by what follows them, so that one part can have many times the mean, and with `needed` some may have none. `planner parts` makes them
        about even. Where several workers list them, let there be some times as many parts as workers, and let each take the next."""
        return parts_of(Listing.of(self, order, by_cases), needed, number)

    def count(self, order: Order = None, budget: Optional[int] = None) -> Count:
        """How many ladders there are, without listing them: by one call for each pick sequence that a gauge run can come to, at most as many as the budget
        has, which is 1,000,000 where none is given. The number is the same under every preference, the calls are not."""
        count = words(h.RG_COUNT_WORDS)
        listing = Listing.of(self, order)
        call("rg_count", *listing.lent(), h.RG_BUDGET if budget is None else budget, count, why=lambda number: listing.why(number) or str(budget))
        counted = count[h.RG_COUNT_OUTCOME] == h.RG_COUNTED
        return Count(count[h.RG_COUNT_LADDERS] if counted else None, count[h.RG_COUNT_CALLS])

    def cover(self, budget: Optional[int] = None) -> Cover:
        """The fewest ladders that together hold every pair, of a table up to 8 by 8 with at most 1,024 ladders. The budget is one of ladders to try,
        1,000,000 where none is given. A thread that asks this should have 2 MB of stack."""
        cover = words(h.RG_COVER_WORDS)
        more = {h.RG_OVER_BUDGET: str(budget), h.RG_ABOVE_EIGHT: "%d by %d" % (self.gauges, self.cases)}
        call("rg_cover", self._words(), h.RG_BUDGET if budget is None else budget, cover, why=lambda number: more.get(number, ""))
        if cover[h.RG_COVER_OUTCOME] != h.RG_COVERED:
            return Cover(None, cover[h.RG_COVER_TRIED])
        starts = [h.RG_COVER_CHAINS + i * h.RG_CHAIN_WORDS for i in range(cover[h.RG_COVER_NUMBER])]
        return Cover(tuple(self._ladder(cover[start : start + h.RG_CHAIN_WORDS]) for start in starts), cover[h.RG_COVER_TRIED])

    def check(
        self, ladders: Iterable[Chain], order: Order = None, by_cases: bool = False, needed: bool = False, most_missing: int = MOST_MISSING
    ) -> Report:
        """Whether a list of ladders, in any order, is complete and has each once; else what is wrong with it. `needed` asks it of the list of those that
        hold a deciding pair. The check ends where so many are missing."""
        return check_list(Listing.of(self, order, by_cases), needed, ladders, most_missing)

    # --- sets of pairs of it

    def judge(self, chain: Chain) -> str:
        """What a set of pairs of the table is: `ladder`, `chain` (and no ladder) or `no chain`."""
        rows, answer = rows_in(chain, self.gauges), one()
        call("rg_judge_ladder", self._words(), chain_words(rows), answer, why=self._why(rows))
        if answer[0] == h.RG_YES:
            return "ladder"
        call("rg_judge_chain", self._words(), chain_words(rows), answer)
        return "chain" if answer[0] == h.RG_YES else "no chain"

    def grow(self, chain: Chain, order: Order = None) -> Ladder:
        """The first ladder that contains a chain, in gauge order under a preference."""
        ladder, listing, rows = words(h.RG_CHAIN_WORDS), Listing.of(self, order), rows_in(chain, self.gauges)
        call("rg_grow", *listing.lent(), chain_words(rows), ladder, why=lambda number: listing.why(number) or self._why(rows)(number))
        return Ladder(listing, chain_rows(ladder))

    def order(self, chain: Chain, ladder: Chain) -> Tuple[Pair, ...]:
        """The pairs that a chain lacks of a ladder, in an order to wire them: after each of them the set is still a chain."""
        put, count, first, last = room(h.RG_PAIR_BYTES), one(), rows_in(chain, self.gauges), rows_in(ladder, self.gauges)
        why = functools.partial(_witness.reason_of_wiring, self, first, last)
        call("rg_wiring", self._words(), chain_words(first), chain_words(last), put, count, why=why)
        return tuple((put[2 * i], put[2 * i + 1]) for i in range(count[0]))

    def explain(self, ladder: Chain, pair: Pair, order: Order = None, by_cases: bool = False) -> int:
        """Why a pair of the table is left out of a ladder: by the first picked gauge that does not respond under the pair's case. By cases it is the first
        picked case that the pair's gauge does not respond under."""
        listing, rows = Listing.of(self, order, by_cases), rows_in(ladder, self.gauges)
        refusal = listing.refusal_of(rows)
        if refusal != h.RG_ACCEPTED:
            raise Refused(refusal, listing.why(refusal) or self._why(rows)(refusal))
        return listing.explain(rows, pair_of(pair))

    def rivals(self, pair: Pair) -> Rivals:
        """The rivals of a pair g:c, which are the pairs h:d such that the table has neither g:d nor h:c: no ladder holds a pair and a rival of it. And
        whether the pair decides: no other pair's rivals strictly contain its own."""
        found, answer, pair = words(h.RG_PAIRS_WORDS), one(), pair_of(pair)
        call("rg_rivals", self._words(), *pair, found, why=lambda number: "%d:%d" % pair)
        call("rg_decides", self._words(), *pair, answer)
        return Rivals(pairs_of(found), answer[0] == h.RG_YES)

    # --- trial, then commit

    def trial(self, ladder: Chain, place: Pair) -> Proposal:
        """What flipping the entry at a place (gauge, case) would do to a ladder."""
        proposed, rows, place = words(h.RG_PROPOSAL_WORDS), rows_in(ladder, self.gauges), pair_of(place)
        why = lambda number: "%d:%d" % place if number == h.RG_PLACE else self._why(rows)(number)
        call("rg_trial", self._words(), chain_words(rows), *place, proposed, why=why)
        return Proposal(self, tuple(proposed))

    def commit(self, proposal: Proposal) -> "Table":
        """The table with the entry of a proposal flipped, where that is what the trial on this table gives."""
        if not isinstance(proposal, Proposal):
            raise TypeError("a commit takes what a trial gave, a Proposal, not %r" % (proposal,))
        flipped, other = words(h.RG_TABLE_WORDS), "" if proposal.table == self else "the trial was made on another table"
        call("rg_commit", words(h.RG_PROPOSAL_WORDS, map(word, proposal._words)), self._words(), flipped, why=lambda number: other)
        return Table(*table_rows(flipped))

    def _why(self, rows: Rows) -> Callable[[int], str]:
        """Why a set of pairs is refused, by number."""
        return functools.partial(_witness.reason_of_set, self, rows)

    def _ladder(self, chain: Any) -> Ladder:
        return Ladder(Listing.of(self), chain_rows(chain))


def make(gauges: int, cases: int, start: int, density: int) -> Table:
    """A sample table, the same for everybody who gives the same four numbers: the start is not zero, and of 256 places `density` have a pair, on
    average."""
    if not 0 <= operator.index(start) <= GREATEST_WORD:
        raise ValueError("a start has 64 bits")
    table, four = words(h.RG_TABLE_WORDS), (gauges, cases, start, density)
    call("rg_sample", *four, table, why=lambda number: "%d by %d" % four[:2] if number == h.RG_SHAPE else "start %d, density %d" % four[2:])
    return Table(*table_rows(table))
