"""Parts of a list: each is an iterator of its own, and all of them, one after the other, are the list.

Which parts there are, and that they are the list, the library says. How even they are nobody promises: a list is split by picks, and not by how many ladders
follow them, as the command `planner parts` does it (command/weights.c)."""

from __future__ import annotations

import operator
from typing import Any, List, NamedTuple, Tuple

from ._ladders import Ladders
from ._lists import Listing


class Part(NamedTuple):
    """The picks that its ladders begin with, its run, and the picks that can follow."""

    picks: Tuple[int, ...]
    run: Any
    candidates: Tuple[int, ...]


def part_of(listing: Listing, picks: Tuple[int, ...], run: Any) -> Part:
    return Part(picks, run, listing.candidates(run))


def split(listing: Listing, part: Part) -> List[Part]:
    """The parts of a part: one for each pick that can follow."""
    return [part_of(listing, part.picks + (pick,), listing.part(part.run, pick)) for pick in part.candidates]


def split_shortest(listing: Listing, parts: List[Part], number: int) -> List[Part]:
    """The parts of the fewest picks are split, from the first on, until there are so many."""
    fewest = min(len(part.picks) for part in parts if part.candidates)
    made: List[Part] = []
    for i, part in enumerate(parts):
        splits = part.candidates and len(part.picks) == fewest and len(made) + len(parts) - i < number
        made += split(listing, part) if splits else [part]
    return made


def parts_of(listing: Listing, needed: bool, number: int) -> List[Ladders]:
    """So many parts or more, where the table has so many ladders."""
    number, parts = operator.index(number), [part_of(listing, (), listing.start(needed))]
    while len(parts) < number and any(part.candidates for part in parts):
        parts = split_shortest(listing, parts, number)
    return [Ladders(listing, part.run, part.picks) for part in parts]
