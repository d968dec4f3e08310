"""Which list is meant: the table, the side and the preference. Everything that the library answers by side and preference is asked here."""

from __future__ import annotations

import operator
from typing import Any, Iterable, NamedTuple, Optional, Sequence, Tuple

from . import _layout as h
from ._lend import Rows, chain_rows, chain_words, numbers, one, order_words, up_to_zero, words
from ._library import ask
from ._pairs import Pair, Pairs
from ._refused import call

# Each by side: of a gauge run, of a case run.
START = "rg_start_gauges", "rg_start_cases"
RUN = "rg_run_gauges", "rg_run_cases"
LIST = "rg_list_gauges", "rg_list_cases"
SEQUENCE = "rg_sequence_gauges", "rg_sequence_cases"
CANDIDATES = "rg_candidates_gauges", "rg_candidates_cases"
PART = "rg_part_gauges", "rg_part_cases"
EXPLAIN = "rg_explain_gauge", "rg_explain_case"


class Listing(NamedTuple):
    """A table, a side and a preference: what says in which order its ladders are listed, and which pick sequence each has."""

    table: Pairs
    by_cases: bool
    order: Tuple[int, ...]

    @classmethod
    def of(cls, table: Pairs, order: Optional[Iterable[int]] = None, by_cases: bool = False) -> "Listing":
        """Without an order it is the plain one: 1, 2, 3 and on. Zeros behind an order say nothing, as in the layout."""
        last = table.cases if by_cases else table.gauges
        chosen = list(range(1, last + 1) if order is None else map(operator.index, order))
        while chosen and chosen[-1] == 0:
            chosen.pop()
        return cls(table, bool(by_cases), tuple(chosen))

    def lent(self) -> Tuple[Any, Any]:
        """The words of the table and of the preference."""
        return self.table._words(), order_words(self.order)

    def why(self, number: int) -> str:
        """The preference, where that is refused."""
        if number != h.RG_PREFERENCE:
            return ""
        numbered = "%d cases" % self.table.cases if self.by_cases else "%d gauges" % self.table.gauges
        return "%s for %s" % (",".join(map(str, self.order)) or "none", numbered)

    def start(self, needed: bool) -> Any:
        """A fresh run of all ladders, or of those that hold a deciding pair."""
        run = words(h.RG_RUN_WORDS)
        call(START[self.by_cases], *self.lent(), int(bool(needed)), run, why=self.why)
        return run

    def judge(self, run: Any) -> None:
        """That a run is one, as a call without a move finds; what no moves lead to is refused."""
        call(RUN[self.by_cases], words(h.RG_RUN_WORDS, run), 0, words(h.RG_STEP_WORDS))

    def refusal_of(self, rows: Rows) -> int:
        """The refusal of a set of pairs as a ladder; 0 where it is one."""
        return ask(SEQUENCE[self.by_cases], *self.lent(), chain_words(rows), numbers())

    def sequence(self, rows: Rows) -> Tuple[int, ...]:
        """The pick sequence of a ladder, from the ladder alone."""
        found = numbers()
        call(SEQUENCE[self.by_cases], *self.lent(), chain_words(rows), found)
        return up_to_zero(found)

    def batch(self, run: Any, ladders: int) -> Tuple[bool, Tuple[Rows, ...]]:
        """Goes on with a run for so many ladders, as far as the greatest budget leads: whether that was its end, and the ladders by rows."""
        size = self.table.gauges
        batch = words(h.RG_BATCH_WORDS + ladders * size)
        call(LIST[self.by_cases], run, h.RG_BUDGET, batch)
        starts = [h.RG_BATCH_WORDS + i * size for i in range(batch[h.RG_BATCH_LADDERS])]
        return batch[h.RG_BATCH_OUTCOME] == h.RG_END, tuple(tuple(batch[start : start + size]) for start in starts)

    def candidates(self, run: Any) -> Tuple[int, ...]:
        """The picks that can follow those of a part, in the order of the preference."""
        found = numbers()
        call(CANDIDATES[self.by_cases], run, found)
        return up_to_zero(found)

    def part(self, run: Any, pick: int) -> Any:
        """The part of a run that has one pick more."""
        longer = words(h.RG_RUN_WORDS)
        call(PART[self.by_cases], run, pick, longer)
        return longer

    def at_ladder(self, rows: Rows) -> Any:
        """A run that is paused where it has just handed out this ladder."""
        run = self.start(False)
        for pick in self.sequence(rows):
            run = self.part(run, pick)
        step = words(h.RG_STEP_WORDS)
        call(RUN[self.by_cases], run, 1, step)
        if step[h.RG_STEP_OUTCOME] != h.RG_HANDED_OUT or chain_rows(step[h.RG_STEP_CHAIN :]) != rows:
            raise AssertionError("a run at the pick sequence of a ladder hands that ladder out")
        return run

    def explain(self, rows: Rows, pair: Pair) -> int:
        """The pick that leaves a pair out of a ladder."""
        pick = one()
        call(EXPLAIN[self.by_cases], self.at_ladder(rows), *pair, pick, why=lambda number: "%d:%d" % pair)
        return pick[0]


def begins(run: Any, picks: Sequence[int]) -> bool:
    """Whether the picks of a run begin with these."""
    made = run[h.RG_RUN_PICKS : h.RG_RUN_PICKS + run[h.RG_RUN_COUNT]]
    return tuple(made[: len(picks)]) == tuple(picks)
