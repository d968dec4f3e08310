"""Lists of ladders, on both sides, under preferences, all or the needed ones, beside the second implementation."""

import pickle
import random
import unittest

from ragymolev import Ladder, Refused, Table

from . import plain


def orders(count, any_):
    """No preference, and one."""
    order = list(range(1, count + 1))
    any_.shuffle(order)
    return [None, order]


class Lists(unittest.TestCase):
    def compare(self, table, any_):
        made = plain.made(table)
        for by_cases in (False, True):
            for order in orders(table[by_cases], any_):
                plainly = order or list(range(1, table[by_cases] + 1))
                for needed in (False, True):
                    due = plain.planner.listing(table, by_cases, plainly, needed)
                    got = list(made.ladders(order, by_cases, needed))
                    self.assertEqual([(ladder.picks, frozenset(ladder.pairs)) for ladder in got], due, (table, by_cases, order, needed))

    def test_all_tables_up_to_two_by_three(self):
        any_ = random.Random(1)
        for table in plain.small_tables():
            if table[0] * table[1] < 9:
                self.compare(table, any_)

    def test_tables_of_three_by_three(self):
        any_ = random.Random(2)
        for table in plain.small_tables():
            if table[0] * table[1] == 9 and any_.random() < 0.3:
                self.compare(table, any_)

    def test_larger_tables(self):
        any_ = random.Random(3)
        for table in plain.random_tables(40, 4):
            self.compare(table, any_)

    def test_every_ladder_of_every_table(self):
        for table in plain.small_tables():
            got = {frozenset(ladder.pairs) for ladder in plain.made(table).ladders()}
            self.assertEqual(got, set(plain.planner.ladders(table)))

    def test_a_table_without_pairs(self):
        table = Table.from_rows([0, 0], 3)
        self.assertEqual([ladder.pairs for ladder in table.ladders()], [()])
        self.assertEqual(list(table.ladders(needed=True)), [])

    def test_the_last_gauge_and_the_last_case(self):
        table = Table.from_rows([1 << 63] * 64)
        (ladder,) = table.ladders(order=range(64, 0, -1))
        self.assertEqual(ladder.picks, tuple(range(64, 0, -1)))
        self.assertIn((64, 64), ladder)


class Ladders(unittest.TestCase):
    def test_pairs_rows_and_picks(self):
        ladder = next(plain.K2.ladders())
        self.assertEqual(ladder.pairs, ((1, 2), (1, 3), (2, 3)))
        self.assertEqual(ladder.rows, (0b110, 0b100, 0))
        self.assertEqual(ladder.picks, (1, 2))
        self.assertEqual((ladder.gauges, ladder.cases, ladder.table), (3, 3, plain.K2))
        self.assertEqual(list(ladder), [(1, 2), (1, 3), (2, 3)])
        self.assertEqual(len(ladder), 3)
        self.assertEqual(str(ladder), "1:2 1:3 2:3")
        self.assertEqual(repr(ladder), "<Ladder 3 by 3: 1:2 1:3 2:3>")

    def test_contains(self):
        ladder = next(plain.K2.ladders())
        inside = {place for place in plain.places(4, 4) if place in ladder}
        self.assertEqual(inside, {(1, 2), (1, 3), (2, 3)})
        for place in ((0, 2), (1, 0), (-1, 1), (70, 70)):
            self.assertNotIn(place, ladder)
            self.assertNotIn(place, plain.K2)

    def test_picks_of_a_case_list_are_cases(self):
        picks = [ladder.picks for ladder in plain.K2.ladders(by_cases=True, order=[3, 1, 2])]
        self.assertEqual(picks, [(3, 1), (3, 2), (1, 3), (1, 2), (2, 3), (2, 1)])

    def test_equal_by_pairs_whatever_the_list(self):
        by_gauges, by_cases = set(plain.K2.ladders()), set(plain.K2.ladders(by_cases=True))
        self.assertEqual(by_gauges, by_cases)
        self.assertEqual(len(by_gauges), 6)
        self.assertNotEqual(next(plain.K2.ladders()), plain.K2)
        self.assertFalse(next(plain.K2.ladders()) == 3)

    def test_ordered_as_the_list(self):
        for by_cases in (False, True):
            listed = list(plain.lacks_diagonal(4).ladders(order=[2, 4, 1, 3], by_cases=by_cases))
            mixed = listed[:]
            random.Random(5).shuffle(mixed)
            self.assertEqual(sorted(mixed), listed)
            self.assertTrue(listed[0] < listed[1] <= listed[1] < max(mixed))
            self.assertFalse(listed[0] > listed[1])

    def test_ladders_of_two_lists_have_no_order(self):
        first, other = next(plain.K2.ladders()), next(plain.K2.ladders(order=[3, 1, 2]))
        with self.assertRaises(TypeError):
            first < other  # pylint: disable=pointless-statement
        self.assertTrue(first < list(plain.K2.ladders(order=[1, 2, 3]))[1])

    def test_pickled(self):
        for ladder in plain.K2.ladders(order=[2, 1, 3], by_cases=True):
            again = pickle.loads(pickle.dumps(ladder))
            self.assertEqual((again, again.picks, again.table), (ladder, ladder.picks, ladder.table))

    def test_not_changed(self):
        ladder = next(plain.K2.ladders())
        for name in ("rows", "gauges", "other"):
            with self.assertRaises(AttributeError):
                setattr(ladder, name, 1)
        with self.assertRaises(AttributeError):
            del ladder.rows

    def test_a_preference_that_is_none(self):
        for order in ([1, 2], [1, 2, 2], [1, 2, 4], [0, 1, 2], [1, 2, 3, 4], [-1, 2, 3], [2**70, 2, 3], range(1, 66), [3, 2, 1, 0, 1]):
            for by_cases in (False, True):
                with self.assertRaises(Refused) as refused:
                    plain.K2.ladders(order=order, by_cases=by_cases)
                self.assertEqual(refused.exception.number, 27)
        self.assertEqual(len(list(plain.K2.ladders(order=[3, 2, 1, 0, 0]))), 6)

    def test_a_preference_longer_than_any(self):
        table = Table.from_rows([1] * 64)
        self.assertEqual(len(list(table.ladders(order=range(1, 65)))), 1)
        with self.assertRaises(Refused) as refused:
            table.ladders(order=range(1, 66))
        self.assertEqual(refused.exception.number, 27)

    def test_a_class_of_its_own(self):
        self.assertIsInstance(plain.K2.grow([]), Ladder)
