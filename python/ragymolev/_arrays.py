"""Arrays of NumPy and SciPy, taken and given. Neither has to be installed: what is taken is asked for what it can do (`tocoo`, `__array__`, `tolist`), and
lists of lists are taken as well. Gauges go down and cases across, both from 0 as in every array.

What is taken is looked at value by value: each is a number, and not NaN, which is neither a response nor none. Of an array that is larger than any table
nothing is looked at but its shape, which the library refuses."""

from __future__ import annotations

import numbers
from collections.abc import Mapping, Set
from typing import Any, Dict, List, Tuple

from . import _layout as h

Place = Tuple[int, int]
TWO = "an array of gauges by cases has two dimensions"


def plain(values: Any) -> Any:
    """An array as lists of numbers of Python; anything else as it is."""
    if not hasattr(values, "tolist") and hasattr(values, "__array__"):
        values = values.__array__()
    return values.tolist() if hasattr(values, "tolist") else values


def shape_of(array: Any) -> Tuple[int, int]:
    shape = tuple(array.shape)
    if len(shape) != 2:
        raise ValueError("%s, not %d" % (TWO, len(shape)))
    return int(shape[0]), int(shape[1])


def listed(array: Any) -> List[List[Any]]:
    """Lists of lists. A set has no places: it is a row of cases, which is no row of an array."""
    if isinstance(array, (Mapping, Set)) or not hasattr(array, "__iter__"):
        raise ValueError(TWO)
    rows = [plain(row) for row in array]
    if any(isinstance(row, (Mapping, Set, str, bytes)) or not hasattr(row, "__iter__") for row in rows):
        raise ValueError("%s, and its rows are lists of values" % TWO)
    return [list(row) for row in rows]


def dense_entries(rows: List[List[Any]], cases: int) -> Dict[Place, Any]:
    """Every place of lists that are as long as each other."""
    if any(len(row) != cases for row in rows):
        raise ValueError("the rows of an array have one length")
    return {(g, c): value for g, row in enumerate(rows) for c, value in enumerate(row)}


def sparse_entries(array: Any) -> Dict[Place, Any]:
    """What a sparse array holds. A place that it holds more than once has the sum, as everywhere in SciPy."""
    stored = array.tocoo()
    entries: Dict[Place, Any] = {}
    for gauge, case, value in zip(plain(stored.row), plain(stored.col), plain(stored.data)):
        place = int(gauge), int(case)
        entries[place] = entries[place] + value if place in entries else value
    return entries


def held_by(array: Any) -> Tuple[int, int, Dict[Place, Any]]:
    """G, L, and what stands at each place; nothing of an array that is larger than any table."""
    if not hasattr(array, "shape"):
        rows = listed(plain(array))
        gauges, cases = len(rows), len(rows[0]) if rows else 0
        return gauges, cases, dense_entries(rows, cases) if fits(gauges, cases) else {}
    gauges, cases = shape_of(array)
    if not fits(gauges, cases):
        return gauges, cases, {}
    return gauges, cases, sparse_entries(array) if hasattr(array, "tocoo") else dense_entries(listed(plain(array)), cases)


def fits(gauges: int, cases: int) -> bool:
    return gauges <= h.RG_MOST and cases <= h.RG_MOST


def number_of(place: Place, value: Any) -> Any:
    """A value as a number of Python, also where it is a single one of NumPy."""
    value = value.item() if hasattr(value, "item") else value
    if not isinstance(value, numbers.Number) or value != value:
        raise ValueError("gauge %d, case %d: %r is no number" % (place[0] + 1, place[1] + 1, value))
    return value


def entries_of(array: Any) -> Tuple[int, int, Dict[Place, Any]]:
    """G, L, and the numbers that an array holds by place."""
    gauges, cases, entries = held_by(array)
    return gauges, cases, {place: number_of(place, value) for place, value in entries.items()}


def dense(gauges: int, cases: int, values: Dict[Place, Any], kind: str) -> Any:
    """Values by gauge and case, both from 1, as an array of NumPy; zero everywhere else."""
    import numpy

    array = numpy.zeros((gauges, cases), dtype=kind)
    for (gauge, case), value in values.items():
        array[gauge - 1, case - 1] = value
    return array


def sparse(gauges: int, cases: int, values: Dict[Place, Any], kind: str) -> Any:
    """The same as a matrix of SciPy, in coordinates. It holds these values, also a zero among them, and no others."""
    import scipy.sparse

    across = [g - 1 for g, _ in values], [c - 1 for _, c in values]
    return scipy.sparse.coo_matrix((list(values.values()), across), shape=(gauges, cases), dtype=kind)
