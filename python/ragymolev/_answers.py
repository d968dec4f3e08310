"""What the questions of a table are answered with."""

from __future__ import annotations

from typing import Any, NamedTuple, Optional, Tuple

from . import _layout as h
from ._ladders import Ladder
from ._lend import chain_rows
from ._lists import Listing
from ._pairs import Pair

EFFECTS = {
    h.RG_STILL_LADDER: "still a ladder",
    h.RG_ONLY_CHAIN: "only a chain",
    h.RG_NOT_WITHIN: "no longer within the table",
}


class Count(NamedTuple):
    """How many ladders a table has, and the calls that counting took. Where these were more than the budget it is spent: `ladders` is None then, and
    `calls` the budget."""

    ladders: Optional[int]
    calls: int


class Cover(NamedTuple):
    """The fewest ladders that hold every pair, and how many were tried. Where these were more than the budget it is spent: `ladders` is None then, and
    `tried` the budget."""

    ladders: Optional[Tuple[Ladder, ...]]
    tried: int


class Rivals(NamedTuple):
    """The rivals (conflicts) of a pair, by gauge, then case, and whether the pair decides (is essential): no other pair's rivals strictly contain its own."""

    pairs: Tuple[Pair, ...]
    decides: bool


class Proposal:
    """What a trial gives and a commit takes: the table, a ladder of it, the place of an entry, and what the ladder would be over the table with that entry
    flipped. Proposals are equal where all of this is; they can be pickled."""

    __slots__ = ("_listing", "_words")

    def __init__(self, table: Any, proposed: Tuple[int, ...]) -> None:
        self._listing = Listing.of(table)
        self._words = tuple(proposed)

    @property
    def table(self) -> Any:
        """The table that the trial was made on."""
        return self._listing.table

    @property
    def ladder(self) -> Ladder:
        """The ladder that was tried."""
        return Ladder(self._listing, chain_rows(self._words[h.RG_PROPOSAL_CHAIN :]))

    @property
    def place(self) -> Pair:
        """The place of the entry: gauge, case."""
        return self._words[h.RG_PROPOSAL_GAUGE], self._words[h.RG_PROPOSAL_CASE]

    @property
    def verdict(self) -> str:
        """`still a ladder`, `only a chain` or `no longer within the table`."""
        return EFFECTS[self._words[h.RG_PROPOSAL_EFFECT]]

    def __eq__(self, other: object) -> bool:
        return self._words == other._words if isinstance(other, Proposal) else NotImplemented

    def __hash__(self) -> int:
        return hash(self._words)

    def __repr__(self) -> str:
        return "<Proposal %d:%d: %s>" % (*self.place, self.verdict)

    def __reduce__(self) -> Tuple[Any, ...]:
        return Proposal, (self.table, self._words)
