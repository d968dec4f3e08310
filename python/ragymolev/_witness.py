"""What shows that the library's answer about a set of pairs is right: a pair that the table lacks, two pairs that clash, a pair that can be added. The
library has judged the set before, and nothing is decided here."""

from __future__ import annotations

import itertools

from . import _layout as h
from ._lend import Rows, chain_rows, chain_words, one, room, words
from ._lists import Listing
from ._pairs import Pairs, cases_of
from ._refused import call


def first_case(row: int) -> int:
    return next(cases_of(row))


def foreign_pair(table: Pairs, rows: Rows) -> str:
    """The first pair, by gauge and then case, that the table lacks; nothing where there is none."""
    lacking = ((g, row & ~have) for g, (row, have) in enumerate(zip(rows, table.rows), 1) if row & ~have)
    return next(("%d:%d" % (gauge, first_case(row)) for gauge, row in lacking), "")


def clashing_pairs(rows: Rows) -> str:
    """The first two pairs g:c and h:d of a set that has neither g:d nor h:c; nothing of a chain."""
    for (g, first), (other, second) in itertools.combinations(enumerate(rows, 1), 2):
        if first & ~second and second & ~first:
            return "%d:%d and %d:%d clash" % (g, first_case(first & ~second), other, first_case(second & ~first))
    return ""


def pair_to_add(table: Pairs, rows: Rows) -> str:
    """The pair that comes next on the way from a chain to the ladder that it grows to; nothing of a ladder."""
    ladder, put, count = words(h.RG_CHAIN_WORDS), room(h.RG_PAIR_BYTES), one()
    lent, chain = Listing.of(table).lent(), chain_words(rows)
    call("rg_grow", *lent, chain, ladder)
    call("rg_wiring", lent[0], chain, chain_words(chain_rows(ladder)), put, count)
    return "%d:%d can be added" % (put[0], put[1]) if count[0] else ""


def reason_of_set(table: Pairs, rows: Rows, number: int) -> str:
    """Why a set of pairs is refused with 12, 13, 14 or 25, the last of a chain or of a set that is none; nothing where it is not the set that is refused."""
    if number == h.RG_ROW_COUNT and len(rows) != table.gauges:
        return "it has %d gauges, the table %d" % (len(rows), table.gauges)
    if number == h.RG_NOT_IN_TABLE:
        return foreign_pair(table, rows)
    if number == h.RG_NO_CHAIN:
        return clashing_pairs(rows)
    return clashing_pairs(rows) or pair_to_add(table, rows) if number == h.RG_NO_LADDER else ""


def reason_of_wiring(table: Pairs, chain: Rows, ladder: Rows, number: int) -> str:
    """The same of a chain and a ladder: the chain is looked at first, but for 25, which is of the ladder, also where that lacks a pair of the chain."""
    if number != h.RG_NO_LADDER:
        return reason_of_set(table, chain, number) or reason_of_set(table, ladder, number)
    lacking = Pairs(table.gauges, table.cases, ladder)
    return reason_of_set(table, ladder, number) or "it is one, and lacks %s of the chain" % foreign_pair(lacking, chain)
