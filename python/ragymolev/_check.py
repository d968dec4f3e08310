"""Lists that are checked. A list is said to be complete only where the run, called to its end, handed out as many ladders as the list has entries, and each
was one of them; so that it rests on what is promised of the run, and on nothing that is decided here."""

from __future__ import annotations

from typing import Dict, Iterable, List, NamedTuple, Optional, Tuple

from . import _layout as h
from . import _witness
from ._ladders import Ladder, Ladders
from ._lend import Rows, chain_words, one
from ._lists import Listing
from ._pairs import Chain, rows_in
from ._refused import Refused, call

MOST_MISSING = 10000
NOT_OF_TABLE = "not of this table"
NO_CHAIN = "no chain"
ONLY_CHAIN = "a chain and no ladder"
REPEATED = "repeated"
OTHER_LIST = "a ladder of another list"
KINDS = NOT_OF_TABLE, NO_CHAIN, ONLY_CHAIN, REPEATED, OTHER_LIST


class Fault(NamedTuple):
    """What is wrong with an entry of a list: its number, from 1, the kind of the fault, and what shows it."""

    entry: int
    kind: str
    reason: str

    def __str__(self) -> str:
        return "entry %d: %s: %s" % self


class Report(NamedTuple):
    """What a check came to. It is true where the list is complete and has each ladder once.

    `ladders` is how many the run handed out, `entries` how many the list has, `matched` how many were both. Where the check ended before the run, since so
    many were missing, `ended` is false, and ladders of another list are not told."""

    ladders: int
    entries: int
    matched: int
    ended: bool
    missing: Tuple[Ladder, ...]
    faults: Tuple[Fault, ...]

    @property
    def complete(self) -> bool:
        """Whether the list is complete and has each ladder once: three counts, and no fault is looked at."""
        return self.ended and self.ladders == self.matched == self.entries

    def __bool__(self) -> bool:
        return self.complete

    def of_kind(self, kind: str) -> Tuple[Fault, ...]:
        """The faults of one kind, by the entries' numbers."""
        return tuple(fault for fault in self.faults if fault.kind == kind)

    @property
    def not_of_table(self) -> Tuple[Fault, ...]:
        """Entries that have a pair that the table lacks, or another number of gauges."""
        return self.of_kind(NOT_OF_TABLE)

    @property
    def no_chain(self) -> Tuple[Fault, ...]:
        """Entries that are no chain."""
        return self.of_kind(NO_CHAIN)

    @property
    def only_chain(self) -> Tuple[Fault, ...]:
        """Entries that are a chain and no ladder."""
        return self.of_kind(ONLY_CHAIN)

    @property
    def repeated(self) -> Tuple[Fault, ...]:
        """Entries that are the same as one before them."""
        return self.of_kind(REPEATED)

    @property
    def other_list(self) -> Tuple[Fault, ...]:
        """Ladders that the list asked for does not have: they hold no deciding pair."""
        return self.of_kind(OTHER_LIST)

    def __str__(self) -> str:
        """The faults, the missing ladders and the verdict, a line each."""
        lines = [str(fault) for fault in self.faults] + ["missing: %s" % ladder for ladder in self.missing]
        return "\n".join(lines + [self.verdict])

    @property
    def verdict(self) -> str:
        """The last line: complete, or how many of what."""
        if self.complete:
            return "complete: %s, each once" % numbered(self.ladders, "ladder", "ladders")
        more = "" if self.ended else " or more"
        counts = ["%d%s missing" % (len(self.missing), more)]
        counts += ["%d %s" % (len(self.of_kind(kind)), kind) for kind in KINDS if self.of_kind(kind)]
        head = "not complete" if self.missing else "not each once"
        return "%s: %s, %s: %s" % (head, numbered(self.ladders, "ladder", "ladders", more), numbered(self.entries, "entry", "entries"), ", ".join(counts))


def numbered(number: int, single: str, several: str, more: str = "") -> str:
    return "%d%s %s" % (number, more, single if number == 1 and not more else several)


class Entries:
    """The entries of a list, each judged by the library."""

    def __init__(self, listing: Listing) -> None:
        self.listing = listing
        self.count = 0
        self.first: Dict[Rows, int] = {}  # by the rows of each entry, the first that has them
        self.faults: List[Fault] = []

    def take(self, chain: Chain) -> None:
        self.count += 1
        try:
            rows = rows_in(chain, self.listing.table.gauges)
        except Refused as refused:
            self.faults.append(Fault(self.count, NOT_OF_TABLE, refused.reason))
            return
        fault = self.fault_of(rows)
        if fault:
            self.faults.append(fault)
        self.first.setdefault(rows, self.count)

    def fault_of(self, rows: Rows) -> Optional[Fault]:
        refusal = self.listing.refusal_of(rows)
        if refusal == h.RG_ACCEPTED:
            return Fault(self.count, REPEATED, "the same as entry %d" % self.first[rows]) if rows in self.first else None
        return Fault(self.count, *self.kind_of(refusal, rows))

    def kind_of(self, refusal: int, rows: Rows) -> Tuple[str, str]:
        """What kind of fault a refusal is, and what shows it."""
        table, answer = self.listing.table, one()
        reason = _witness.reason_of_set(table, rows, refusal)
        if refusal in (h.RG_ROW_COUNT, h.RG_NOT_IN_TABLE):
            return NOT_OF_TABLE, reason
        if refusal != h.RG_NO_LADDER:
            raise Refused(refusal)
        call("rg_judge_chain", table._words(), chain_words(rows), answer)
        return ONLY_CHAIN if answer[0] == h.RG_YES else NO_CHAIN, reason

    def left_over(self, found: Dict[Rows, int]) -> List[Fault]:
        """The ladders that the run, at its end, has not handed out."""
        wrong = {fault.entry for fault in self.faults}
        others = [number for rows, number in self.first.items() if rows not in found and number not in wrong]
        return [Fault(number, OTHER_LIST, "it holds no deciding pair") for number in others]


def check_list(listing: Listing, needed: bool, ladders: Iterable[Chain], most_missing: int) -> Report:
    """Judges every entry, then goes through the list with the run."""
    run = Ladders(listing, listing.start(needed))
    entries = Entries(listing)
    for chain in ladders:
        entries.take(chain)
    found: Dict[Rows, int] = {}
    missing: List[Ladder] = []
    handed = 0
    for ladder in run:
        handed += 1
        if ladder.rows in entries.first:
            found[ladder.rows] = handed
        else:
            missing.append(ladder)
            if len(missing) >= most_missing:
                return Report(handed, entries.count, len(found), False, tuple(missing), tuple(entries.faults))
    faults = sorted(entries.faults + entries.left_over(found))
    return Report(handed, entries.count, len(found), True, tuple(missing), tuple(faults))
