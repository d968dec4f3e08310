"""Recorded tests: what a logger's file holds, and its table at a cutoff."""

from __future__ import annotations

import numbers
from typing import Any, Callable, Dict, Tuple

from . import _arrays
from . import _layout as h
from ._files import ANY_CUTOFF, Path, bytes_of, call_on_file, plain_bytes
from ._lend import blank_test, one, room, table_rows, words
from ._library import word
from ._pairs import Pair, Pairs, pairs_of
from ._refused import Refused, call, nothing_more
from ._table import Table

KINDS = {h.RG_PATTERN: "pattern", h.RG_INTEGER: "integer"}


def written(test: Any, readings: Any, why: Callable[[int], str] = nothing_more) -> bytes:
    """The file of a test, where the library takes it."""
    put, length = room(h.RG_TEST_BYTES), one()
    call("rg_write_test", test, readings, put, length, why=why)
    return bytes(put[: length[0]])


def place_of(gauge: int, case: int) -> int:
    """Where the reading of a place stands; gauge and case from 1."""
    return (gauge - 1) * h.RG_MOST + case - 1


class Test:
    """A recorded test: a file of readings in microstrain, or of pairs alone. `Test.table(cutoff)` is its table: a pair exists where the magnitude of the
    reading reaches the cutoff.

    Tests are equal where they are of one kind and shape, with the same entries and the same readings; a listed zero differs from an absent entry."""

    __slots__ = ("_file", "_test", "_readings")
    __test__ = False  # pytest takes it for no test of its own

    def __init__(self, file: bytes, name: str = "bytes") -> None:
        self._test, self._readings = blank_test()
        call_on_file("rg_read_test", name, True, plain_bytes(file), ANY_CUTOFF, self._test, self._readings, words(h.RG_TABLE_WORDS))
        self._file = written(self._test, self._readings)

    @classmethod
    def read(cls, path: Path) -> "Test":
        """The test of a file of either kind."""
        return cls(bytes_of(path), str(path))

    @classmethod
    def from_bytes(cls, file: bytes, name: str = "bytes") -> "Test":
        """The test of a file that is in memory; a refusal calls it by the name."""
        return cls(file, name)

    @classmethod
    def from_array(cls, array: Any) -> "Test":
        """The test of an array of readings, of NumPy, SciPy or lists of lists: gauges down, cases across. Of a sparse array the entries are those that it
        holds, of any other all places. A reading is cut towards zero: its magnitude reaches a whole cutoff exactly where its whole part does."""
        if isinstance(array, Pairs):
            raise ValueError("a %s has pairs and no readings" % type(array).__name__)
        gauges, cases, entries = _arrays.entries_of(array)
        test, readings = blank_test()
        test[h.RG_TEST_KIND], test[h.RG_TEST_GAUGES], test[h.RG_TEST_CASES] = h.RG_INTEGER, word(gauges), word(cases)
        for (gauge, case), value in entries.items():
            test[h.RG_TEST_ROWS + gauge] |= 1 << case
            readings[place_of(gauge + 1, case + 1)] = cut((gauge, case), value)
        return cls(written(test, readings, lambda number: "%d by %d" % (gauges, cases) if number == h.RG_SHAPE else largest(entries)))

    @property
    def kind(self) -> str:
        """`pattern` or `integer`."""
        return KINDS[self._test[h.RG_TEST_KIND]]

    @property
    def gauges(self) -> int:
        """How many gauges it has."""
        return self._test[h.RG_TEST_GAUGES]

    @property
    def cases(self) -> int:
        """How many cases it has."""
        return self._test[h.RG_TEST_CASES]

    @property
    def readings(self) -> Dict[Pair, int]:
        """The reading at each entry, by gauge, then case; 0 at all of a pattern test."""
        rows = self._test[h.RG_TEST_ROWS : h.RG_TEST_ROWS + self.gauges]
        return {pair: self._readings[place_of(*pair)] for pair in pairs_of(rows)}

    def to_array(self) -> Any:
        """The readings as a NumPy array of whole numbers, gauges down and cases across; 0 also where there is no entry. NumPy must be installed."""
        return _arrays.dense(self.gauges, self.cases, self._held(), "int64")

    def to_sparse(self) -> Any:
        """The same as a sparse matrix of SciPy, in coordinates, which holds every entry, a listed zero too: `Test.from_array` makes the same test of it. SciPy
        must be installed."""
        return _arrays.sparse(self.gauges, self.cases, self._held(), "int64")

    def _held(self) -> Dict[Pair, int]:
        if self.kind != KINDS[h.RG_INTEGER]:
            raise ValueError("a pattern test has no readings: its pairs are an array by table(1).to_array()")
        return self.readings

    def table(self, cutoff: int) -> Table:
        """The table at a cutoff from 1 to 1,000,000."""
        table = words(h.RG_TABLE_WORDS)
        call("rg_read_test", self._file, cutoff, *blank_test(), table, why=lambda number: str(cutoff))
        return Table(*table_rows(table))

    def __bytes__(self) -> bytes:
        """The file of this test, as the library writes it."""
        return self._file

    def write(self, path: Path) -> None:
        """Writes the file of this test."""
        with open(path, "wb") as file:
            file.write(self._file)

    def __eq__(self, other: object) -> bool:
        if not isinstance(other, Test):
            return NotImplemented
        answer = one()
        call("rg_equal", self._test, self._readings, other._test, other._readings, answer)
        return bool(answer[0] == h.RG_YES)

    def __hash__(self) -> int:
        return hash(self._file)

    def __repr__(self) -> str:
        return "<Test %s %d by %d: %d entries>" % (self.kind, self.gauges, self.cases, len(self.readings))

    def __reduce__(self) -> Tuple[Any, ...]:
        return Test, (self._file,)


def shown(place: _arrays.Place, value: Any) -> str:
    return "gauge %d, case %d: %r" % (place[0] + 1, place[1] + 1, value)


def largest(entries: Dict[_arrays.Place, Any]) -> str:
    """The first of the readings with the greatest magnitude: where some are out of range, it is."""
    place = max(entries, key=lambda place: abs(entries[place]))
    return shown(place, entries[place])


def cut(place: _arrays.Place, value: Any) -> int:
    """A reading, cut towards zero. One that no memory holds is refused as one that is out of range."""
    if isinstance(value, numbers.Complex) and not isinstance(value, numbers.Real):
        raise ValueError(shown(place, value) + " is no reading")
    if not abs(value) < 2**31:
        raise Refused(h.RG_BAD_READING, shown(place, value))
    return int(value)
