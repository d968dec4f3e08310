"""Counting, growing, judging, pairs, covers, orders and trials, beside the second implementation."""

import copy
import itertools
import pickle
import random
import unittest

from ragymolev import Count, Refused, Table

from . import plain

planner = plain.planner


def refusal_of(call, *given, **named):
    """The number of the refusal that a call raises; 0 where it raises none."""
    try:
        call(*given, **named)
    except Refused as refused:
        return refused.number
    return 0


class Chains(unittest.TestCase):
    def compare(self, table, chain, any_):
        made, ladders = plain.made(table), planner.ladders(table)
        self.assertEqual(made.judge(chain), "ladder" if chain in ladders else "chain" if planner.is_chain(chain) else "no chain")
        order = list(range(1, table[0] + 1))
        any_.shuffle(order)
        if not planner.is_chain(chain):
            self.assertEqual(refusal_of(made.grow, chain), 14)
            return
        grown = next(s for _, s in planner.listing(table, False, order, False) if chain <= s)
        self.assertEqual(frozenset(made.grow(chain, order)), grown)
        wired, last = set(chain), any_.choice([s for s in ladders if chain <= s])
        for pair in made.order(chain, last):
            self.assertEqual(pair, next(p for p in sorted(last - wired) if planner.is_chain(wired | {p})))
            wired.add(pair)
        self.assertEqual(wired, last)

    def test_every_set_of_every_small_table(self):
        any_ = random.Random(7)
        for table in plain.small_tables(2):
            for chain in plain.subsets(sorted(table[2])):
                self.compare(table, chain, any_)

    def test_sets_of_larger_tables(self):
        any_ = random.Random(8)
        for table in plain.random_tables(150, 9, 4):
            pairs = sorted(table[2])
            self.compare(table, frozenset(any_.sample(pairs, any_.randint(0, len(pairs)))), any_)
            self.compare(table, frozenset(any_.sample(sorted(planner.ladders(table)[0]), 0)), any_)

    def test_any_form_of_a_set(self):
        k7 = Table.read(plain.of_example("k7.mtx"))
        for chain in (k7, k7.pairs, list(k7), set(k7), iter(k7), ((g, c) for g, c in k7)):
            self.assertEqual(plain.K2.judge(chain), "chain")
        self.assertEqual(plain.K2.judge(next(plain.K2.ladders())), "ladder")

    def test_sets_that_are_not_of_the_table(self):
        self.assertEqual(refusal_of(plain.K2.judge, Table.from_rows([0, 0], 3)), 12)
        for pair in ((1, 1), (4, 1), (1, 4), (64, 64), (65, 1), (1, 65), (0, 1), (1, 0), (-1, 2), (2**70, 1)):
            for ask in (plain.K2.judge, plain.K2.grow, lambda s: plain.K2.order([], s), lambda s: plain.K2.trial(s, (1, 1))):
                self.assertEqual(refusal_of(ask, [(1, 2), pair]), 13, pair)
        with self.assertRaises(TypeError):
            plain.K2.judge([(1.0, 2)])


class Pairs(unittest.TestCase):
    def test_rivals_of_every_pair(self):
        for table in itertools.chain(plain.small_tables(2), plain.random_tables(60, 10)):
            made = plain.made(table)
            for place in plain.places(table[0] + 1, table[1] + 1):
                if place not in table[2]:
                    self.assertEqual(refusal_of(made.rivals, place), 19)
                    continue
                found = made.rivals(place)
                self.assertEqual((frozenset(found.pairs), found.decides), (planner.rivals(table, place), planner.decides(table, place)))
        self.assertEqual(refusal_of(plain.K2.rivals, (-1, 2**80)), 19)

    def test_explained(self):
        any_ = random.Random(11)
        for table in plain.random_tables(60, 12, 4):
            made = plain.made(table)
            for by_cases in (False, True):
                order = list(range(1, table[by_cases] + 1))
                any_.shuffle(order)
                for picks, ladder in planner.listing(table, by_cases, order, False):
                    for pair in sorted(table[2]):
                        if pair in ladder:
                            self.assertEqual(refusal_of(made.explain, ladder, pair, order, by_cases), 22)
                            continue
                        lacking = [x for x in picks if ((pair[0], x) if by_cases else (x, pair[1])) not in table[2]]
                        self.assertEqual(made.explain(ladder, pair, order, by_cases), lacking[0])

    def test_explain_refuses(self):
        ladder = next(plain.K2.ladders())
        self.assertEqual(refusal_of(plain.K2.explain, ladder, (1, 1)), 19)
        self.assertEqual(refusal_of(plain.K2.explain, [(1, 2)], (2, 1)), 25)
        self.assertEqual(refusal_of(plain.K2.explain, ladder, (2, 1), [1, 1, 2]), 27)


class Numbers(unittest.TestCase):
    def test_counts(self):
        for table in itertools.chain(plain.small_tables(2), plain.random_tables(40, 13)):
            sequences = [p for p, _ in planner.listing(table, False, range(1, table[0] + 1), False)]
            calls = len({p[:i] for p in sequences for i in range(len(p) + 1)})
            made = plain.made(table)
            self.assertEqual(made.count(), (len(sequences), calls))
            self.assertEqual(made.count(budget=calls), (len(sequences), calls))
            self.assertEqual(made.count(budget=calls - 1), Count(None, calls - 1))

    def test_count_under_a_preference(self):
        self.assertEqual(plain.K2.count(order=[3, 2, 1]).ladders, 6)
        self.assertEqual(refusal_of(plain.K2.count, [1]), 27)

    def test_budgets(self):
        for ask in (plain.K2.count, plain.K2.cover):
            self.assertEqual([refusal_of(ask, budget=budget) for budget in (0, 1000000, 1000001, -1, 2**64)], [0, 0, 18, 18, 18])
        self.assertEqual(plain.lacks_diagonal(12).count(), (None, 1000000))

    def test_covers(self):
        for table in itertools.chain(plain.small_tables(2), plain.random_tables(40, 14, 4)):
            entries, tried = [s for _, s in planner.listing(table, False, range(1, table[0] + 1), False)], [0]
            due = next(c for c in (planner.cover(entries, table[2], k, tried, 10**6) for k in itertools.count()) if c is not None)
            made = plain.made(table)
            found = made.cover()
            self.assertEqual(([frozenset(ladder) for ladder in found.ladders], found.tried), (due, tried[0]))
            self.assertTrue(set(found.ladders) <= set(made.ladders()))
            if tried[0]:
                self.assertEqual(made.cover(budget=tried[0] - 1), (None, tried[0] - 1))

    def test_covers_that_are_refused(self):
        self.assertEqual(refusal_of(Table.from_rows([0] * 9, 1).cover), 23)
        self.assertEqual(refusal_of(plain.lacks_diagonal(8).cover), 24)


class Trials(unittest.TestCase):
    def test_every_place_of_every_ladder(self):
        for table in itertools.chain(plain.small_tables(2), plain.random_tables(20, 15, 3)):
            made = plain.made(table)
            for ladder in made.ladders():
                for place in plain.places(table[0], table[1]):
                    proposal, new = made.trial(ladder, place), planner.flipped(table, place)
                    pairs = frozenset(ladder)
                    due = "still a ladder" if pairs in planner.ladders(new) else "only a chain" if pairs <= new[2] else "no longer within the table"
                    self.assertEqual((proposal.verdict, proposal.place, proposal.ladder, proposal.table), (due, place, ladder, made))
                    self.assertEqual(made.commit(proposal), plain.made(new))
                    self.assertEqual(refusal_of(made.commit(proposal).commit, proposal), 26)

    def test_refused(self):
        ladder = next(plain.K2.ladders())
        self.assertEqual(refusal_of(plain.K2.trial, ladder, (4, 1)), 7)
        self.assertEqual(refusal_of(plain.K2.trial, ladder, (1, -1)), 7)
        self.assertEqual(refusal_of(plain.K2.trial, [(1, 2)], (1, 1)), 25)

    def test_pickled_and_compared(self):
        ladder = next(plain.K2.ladders())
        proposal = plain.K2.trial(ladder, (3, 3))
        for again in (pickle.loads(pickle.dumps(proposal)), copy.copy(proposal), plain.K2.trial(ladder, (3, 3))):
            self.assertEqual((again, hash(again), plain.K2.commit(again)), (proposal, hash(proposal), plain.K2.commit(proposal)))
        self.assertNotEqual(proposal, plain.K2.trial(ladder, (3, 2)))
        self.assertEqual(repr(proposal), "<Proposal 3:3: only a chain>")
        changed = copy.copy(proposal)
        changed._words = proposal._words[:-1] + (2**70,)
        self.assertEqual(refusal_of(plain.K2.commit, changed), 26)
