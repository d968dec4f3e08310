"""Memory that is lent to the library, in the layouts of its header: the words of a table, of a chain, of a preference."""

from __future__ import annotations

import ctypes
import operator
from typing import Any, Iterable, Sequence, Tuple

from . import _layout as h
from ._library import GREATEST_WORD, word

Rows = Tuple[int, ...]


def words(count: int, first: Iterable[int] = ()) -> Any:
    """So many words, the first of them as given, zeros behind."""
    return (ctypes.c_uint64 * count)(*first)


def room(count: int) -> Any:
    """So many bytes."""
    return (ctypes.c_uint8 * count)()


def one() -> Any:
    return words(h.RG_ONE_WORDS)


def numbers() -> Any:
    return words(h.RG_NUMBERS_WORDS)


def blank_test() -> Tuple[Any, Any]:
    """The words of a recorded test, and its readings."""
    return words(h.RG_TEST_WORDS), (ctypes.c_int32 * h.RG_READINGS)()


def up_to_zero(found: Sequence[int]) -> Tuple[int, ...]:
    """Numbers by place, without the zeros behind them."""
    count = next((i for i, number in enumerate(found) if number == 0), len(found))
    return tuple(found[:count])


def check_row(row: int) -> int:
    row = operator.index(row)
    if not 0 <= row <= GREATEST_WORD:
        raise ValueError("%d is no row: a row has a bit for each of %d cases" % (row, h.RG_MOST))
    return row


def table_words(gauges: int, cases: int, rows: Rows) -> Any:
    """The words of a table. Of one that is too large no rows are put: the library refuses it by its numbers alone."""
    made = words(h.RG_TABLE_WORDS)
    made[h.RG_TABLE_GAUGES], made[h.RG_TABLE_CASES] = word(gauges), word(cases)
    if gauges <= h.RG_MOST and cases <= h.RG_MOST:
        if len(rows) > h.RG_ROWS:
            raise ValueError("a table has at most %d rows, not %d" % (h.RG_ROWS, len(rows)))
        made[h.RG_TABLE_ROWS : h.RG_TABLE_ROWS + len(rows)] = [check_row(row) for row in rows]
    return made


def table_rows(table: Any) -> Tuple[int, int, Rows]:
    """G, L and the G rows of a table's words."""
    gauges = table[h.RG_TABLE_GAUGES]
    return gauges, table[h.RG_TABLE_CASES], tuple(table[h.RG_TABLE_ROWS : h.RG_TABLE_ROWS + gauges])


def chain_words(rows: Rows) -> Any:
    """The words of a chain: its row count is that of the rows."""
    made = words(h.RG_CHAIN_WORDS)
    made[h.RG_CHAIN_COUNT] = len(rows)
    made[h.RG_CHAIN_ROWS : h.RG_CHAIN_ROWS + len(rows)] = list(rows)
    return made


def chain_rows(chain: Sequence[int]) -> Rows:
    """The rows of a chain's words, as many as its row count says."""
    return tuple(chain[h.RG_CHAIN_ROWS : h.RG_CHAIN_ROWS + chain[h.RG_CHAIN_COUNT]])


def order_words(order: Iterable[int]) -> Any:
    """The words of a preference. One of more numbers than any table has is lent as one of none, which is no arrangement either."""
    chosen = [word(number) for number in order]
    return words(h.RG_ORDER_WORDS, chosen if len(chosen) <= h.RG_ORDER_WORDS else ())
