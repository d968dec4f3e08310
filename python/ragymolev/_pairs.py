"""Sets of pairs: what tables, ladders and chains have in common. A row is a number whose bit c - 1 stands for case c."""

from __future__ import annotations

import operator
from typing import Any, Dict, Iterable, Iterator, Tuple, Union

from . import _arrays
from . import _layout as h
from ._files import Path
from ._lend import Rows, one, room, table_words
from ._refused import Refused, call

Pair = Tuple[int, int]
MOST_SHOWN = 30  # pairs that a set is shown with; one of more is shown by how many they are


def cases_of(row: int) -> Iterator[int]:
    """The cases of a row, in ascending order."""
    case = 1
    while row:
        if row & 1:
            yield case
        row, case = row >> 1, case + 1


def pairs_of(rows: Iterable[int]) -> Tuple[Pair, ...]:
    """The pairs of rows, by gauge, then case."""
    return tuple((gauge, case) for gauge, row in enumerate(rows, 1) for case in cases_of(row))


def pair_of(pair: Pair) -> Pair:
    """A pair that is handed in: two whole numbers, and no truth values, which are those of an array."""
    values = _arrays.plain(pair)
    if not isinstance(values, (list, tuple)) or len(values) != 2 or any(isinstance(value, bool) for value in map(_arrays.plain, values)):
        raise TypeError("a pair is (gauge, case), not %r" % (pair,))
    return operator.index(values[0]), operator.index(values[1])


def rows_of(pairs: Iterable[Pair], gauges: int) -> Rows:
    """The rows of pairs, at least as many as there are gauges. A pair that no table can have is refused as one that this table does not have."""
    rows: Dict[int, int] = {}
    for gauge, case in map(pair_of, pairs):
        if not (1 <= gauge <= h.RG_MOST and 1 <= case <= h.RG_MOST):
            raise Refused(h.RG_NOT_IN_TABLE, "%d:%d" % (gauge, case))
        rows[gauge] = rows.get(gauge, 0) | 1 << (case - 1)
    return tuple(rows.get(gauge, 0) for gauge in range(1, max([gauges, *rows]) + 1))


class Pairs:
    """A set of pairs of `gauges` gauges and `cases` cases. `rows` has a number for each gauge, whose bit c - 1 stands for case c.

    It can be asked for a pair (`(3, 1) in pairs`), gone through by gauge and then case, written as a file, hashed, compared and pickled."""

    __slots__ = ("gauges", "cases", "rows")

    gauges: int
    cases: int
    rows: Rows

    def __init__(self, gauges: int, cases: int, rows: Rows) -> None:
        for name, value in (("gauges", gauges), ("cases", cases), ("rows", rows)):
            object.__setattr__(self, name, value)

    def __setattr__(self, name: str, value: Any) -> None:
        raise AttributeError("%s cannot be changed" % type(self).__name__)

    def __delattr__(self, name: str) -> None:
        raise AttributeError("%s cannot be changed" % type(self).__name__)

    @property
    def pairs(self) -> Tuple[Pair, ...]:
        """The pairs, by gauge, then case."""
        return pairs_of(self.rows)

    def _words(self) -> Any:
        """The words of the table of these pairs."""
        return table_words(self.gauges, self.cases, self.rows)

    def __contains__(self, pair: Pair) -> bool:
        gauge, case = pair_of(pair)
        return 1 <= gauge <= len(self.rows) and 1 <= case <= self.cases and bool(self.rows[gauge - 1] >> (case - 1) & 1)

    def __iter__(self) -> Iterator[Pair]:
        return iter(self.pairs)

    def __len__(self) -> int:
        return sum(bin(row).count("1") for row in self.rows)

    def __bool__(self) -> bool:
        """Also a set without pairs is one."""
        return True

    def __eq__(self, other: object) -> bool:
        if type(other) is not type(self):
            return NotImplemented
        return self._same() == other._same()

    def __hash__(self) -> int:
        return hash(self._same())

    def _same(self) -> Tuple[int, int, Rows]:
        return self.gauges, self.cases, self.rows

    def __str__(self) -> str:
        return " ".join("%d:%d" % pair for pair in self.pairs)

    def __repr__(self) -> str:
        """Its size and its pairs, or how many they are."""
        pairs = str(self) if len(self) <= MOST_SHOWN else "%d pairs" % len(self)
        return "<%s %d by %d: %s>" % (type(self).__name__, self.gauges, self.cases, pairs)

    def __bytes__(self) -> bytes:
        """The file of these pairs, as the library writes it."""
        written, length = room(h.RG_TABLE_BYTES), one()
        call("rg_write", self._words(), written, length)
        return bytes(written[: length[0]])

    def write(self, path: Path) -> None:
        """Writes the file of these pairs."""
        with open(path, "wb") as file:
            file.write(bytes(self))

    def to_array(self) -> Any:
        """A NumPy array of truth values, gauges down and cases across. NumPy must be installed."""
        return _arrays.dense(self.gauges, self.cases, dict.fromkeys(self.pairs, True), "bool")

    def to_sparse(self) -> Any:
        """The same as a sparse matrix of SciPy, in coordinates. SciPy must be installed."""
        return _arrays.sparse(self.gauges, self.cases, dict.fromkeys(self.pairs, True), "bool")


Chain = Union[Pairs, Iterable[Pair]]


def rows_in(chain: Chain, gauges: int) -> Rows:
    """The rows of a set of pairs that is handed in for a table of so many gauges: its own, or those of its pairs, as many as the table has. A pair of a
    gauge that the table does not have is refused as one that it does not have, and not for the row count, which nobody has given."""
    if isinstance(chain, Pairs):
        return chain.rows
    if isinstance(chain, (str, bytes)):
        raise TypeError("a set of pairs is a Table, a Ladder or pairs (gauge, case), not %r; Table.read reads a file" % (chain,))
    rows = rows_of(chain, gauges)
    if len(rows) > gauges:
        raise Refused(h.RG_NOT_IN_TABLE, "%d:%d" % pairs_of(rows)[-1])
    return rows
