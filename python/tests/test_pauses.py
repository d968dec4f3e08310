"""An iterator that is paused, copied or pickled goes on exactly where it was."""

import copy
import itertools
import pickle
import pickletools
import subprocess
import sys
import unittest
from unittest import mock

import ragymolev
from ragymolev import Refused, Table, _layout, _library, _lists, make

from . import plain

WAYS = [{}, {"by_cases": True}, {"order": [3, 1, 5, 2, 4]}, {"needed": True}, {"by_cases": True, "order": [5, 4, 3, 2, 1], "needed": True}]


class Pauses(unittest.TestCase):
    def test_pickled_at_every_place(self):
        for table in (plain.K2, plain.lacks_diagonal(5)):  # the second has 120 ladders: a batch and a part of one
            for way in WAYS if table.gauges == 5 else [{}]:
                whole = list(table.ladders(**way))
                for k in range(len(whole) + 2):
                    run = table.ladders(**way)
                    self.assertEqual(list(itertools.islice(run, k)), whole[:k])
                    again = pickle.loads(pickle.dumps(run))
                    self.assertEqual(list(again), whole[k:], (way, k))
                    self.assertEqual(list(run), whole[k:])

    def test_pickled_between_every_two(self):
        run, got = plain.lacks_diagonal(5).ladders(), []
        while True:
            run = pickle.loads(pickle.dumps(run))
            ladder = next(run, None)
            if ladder is None:
                break
            got.append(ladder)
        self.assertEqual(got, list(plain.lacks_diagonal(5).ladders()))

    def test_every_protocol(self):
        for protocol in range(pickle.HIGHEST_PROTOCOL + 1):
            run = plain.lacks_diagonal(5).ladders(order=[5, 4, 1, 2, 3])
            listed = [next(run) for _ in range(70)]
            again = pickle.loads(pickle.dumps(run, protocol))
            self.assertEqual(listed + list(again), list(plain.lacks_diagonal(5).ladders(order=[5, 4, 1, 2, 3])))

    def test_in_another_process(self):
        """Bytes alone go over, and what is left comes back by pick sequences."""
        table = plain.lacks_diagonal(5)
        going_on = "import pickle, sys; print([ladder.picks for run in pickle.load(sys.stdin.buffer) for ladder in run])"
        for way in ({}, {"by_cases": True, "order": [2, 4, 1, 5, 3], "needed": True}):
            run, parts = table.ladders(**way), table.parts(3, **way)
            for one in (run, parts[1]):
                next(one)
            ended = subprocess.run([sys.executable, "-c", going_on], input=pickle.dumps([run, *parts]), stdout=subprocess.PIPE, check=True)
            self.assertEqual(ended.stdout.decode().strip(), str([ladder.picks for one in (run, *parts) for ladder in one]))

    def test_a_copy_goes_its_own_way(self):
        for copied in (copy.copy, copy.deepcopy):
            for taken in (1, 63, 64, 65):
                run = plain.lacks_diagonal(5).ladders()
                list(itertools.islice(run, taken))
                other = copied(run)
                self.assertEqual(next(run), next(other))
                rest = list(run)
                self.assertEqual(list(other), rest)
                self.assertEqual(len(rest), 119 - taken)

    def test_what_comes_of_a_pickle_is_of_the_same_list(self):
        run = plain.K2.ladders(order=[3, 1, 2, 0], by_cases=True)
        first, again = next(run), pickle.loads(pickle.dumps(run))
        self.assertEqual(repr(again), repr(run))
        second = next(again)
        self.assertTrue(first < second)
        self.assertEqual((second.table, second), (plain.K2, next(run)))

    def test_pickles_name_nothing_but_the_package(self):
        table, ladder = plain.K2, next(plain.K2.ladders())
        for given in (table, ladder, table.ladders(), table.check([]), table.cover(), table.rivals((1, 2)), table.trial(ladder, (1, 1))):
            named = [argument for _, argument, _ in pickletools.genops(pickle.dumps(given)) if isinstance(argument, str)]
            self.assertIn("ragymolev", named)
            self.assertFalse([name for name in named if name.startswith("ragymolev.")], given)

    def test_what_is_pickled_can_all_be_judged(self):
        """The release, the words of a run that the library takes, and the picks of a part that the run is in: no ladder that was listed ahead."""
        for taken in (0, 1, 5, 6, 24, 25):  # of 120 ladders in 5 parts
            run = plain.lacks_diagonal(5).parts(5)[1]
            last = [*itertools.islice(run, taken)][-1:]
            version, words, picks = run.__getstate__()
            self.assertEqual((version, picks), (_layout.RG_VERSION, (2,)))
            at = words[_layout.RG_RUN_PICKS :][: words[_layout.RG_RUN_COUNT]]
            self.assertEqual(at, last[0].picks if last else (2,))

    def test_over_stays_over(self):
        run = plain.K2.ladders()
        self.assertEqual(len(list(run)), 6)
        for _ in range(3):
            self.assertIsNone(next(run, None))
        self.assertIsNone(next(pickle.loads(pickle.dumps(run)), None))

    def test_a_call_that_is_interrupted_leaves_it_as_it_was(self):
        table, batch = plain.lacks_diagonal(5), _lists.Listing.batch
        whole, run = list(table.ladders()), table.ladders()
        got = list(itertools.islice(run, 64))  # the whole first batch

        def interrupted(listing, words, ladders):
            batch(listing, words, ladders)
            raise KeyboardInterrupt

        with mock.patch.object(_lists.Listing, "batch", interrupted), self.assertRaises(KeyboardInterrupt):
            next(run)
        self.assertEqual(got + list(run), whole)

    def stored(self, change):
        """An iterator that is paused within the list, as stored, with its words changed."""
        run = plain.K2.ladders()
        next(run)
        version, words, *others = run.__getstate__()
        return run, (version, change(words), *others)

    def test_a_damaged_run_is_refused_at_once(self):
        places = _layout.RG_RUN_COUNT, _layout.RG_RUN_PHASE, _layout.RG_RUN_PICKS, _layout.RG_RUN_TABLE, _layout.RG_RUN_TABLE + 2, _layout.RG_RUN_ORDER
        for place, value, number in zip(places, (1, 7, 2**64, 65, 2**63, 2), (15, 15, 15, 10, 11, 27)):
            run, stored = self.stored(lambda words: words[:place] + (value,) + words[place + 1 :])
            with self.assertRaises(Refused) as refused:
                run.__setstate__(stored)
            self.assertEqual(refused.exception.number, number, place)
        run, stored = self.stored(lambda words: words[:-1])
        with self.assertRaisesRegex(ValueError, "a paused run has 199 words, not 198"):
            run.__setstate__(stored)

    def test_a_part_that_its_run_is_not_in(self):
        run, (version, words, _) = self.stored(lambda words: words)
        with self.assertRaises(Refused) as refused:
            run.__setstate__((version, words, (3, 1)))
        self.assertEqual((refused.exception.number, refused.exception.reason), (15, "its picks do not begin with 3 1, as those of its part do"))

    def test_a_run_of_another_layout(self):
        """Its first word tells it."""
        run, stored = self.stored(lambda words: (3,) + words[1:])
        with self.assertRaises(Refused) as refused:
            run.__setstate__(stored)
        self.assertEqual((refused.exception.number, refused.exception.reason), (15, "its first word is 3, and that of this layout is 1 or 2"))

    def test_a_pickle_of_another_release(self):
        """Of what stands behind the number of the release nothing is looked at."""
        run, here = plain.K2.ladders(), ragymolev.__version__
        with mock.patch.object(ragymolev.Ladders, "__getstate__", lambda run: (_layout.RG_VERSION + 20300, "other", "things")):
            stored = pickle.dumps(run)
        other = _library.release(_layout.RG_VERSION + 20300)
        with self.assertRaises(ValueError) as refused:
            pickle.loads(stored)
        self.assertEqual(str(refused.exception), "this list was paused by ragymolev %s, and %s does not know its layout" % (other, here))
        run.__setstate__((_layout.RG_VERSION // 10000 * 10000 + 9999, *run.__getstate__()[1:]))
        self.assertEqual(len(list(run)), 6)

    def test_shown(self):
        self.assertEqual(repr(plain.K2.ladders()), "<Ladders of a table 3 by 3>")
        self.assertEqual(repr(plain.K2.parts(4, by_cases=True)[0]), "<Ladders of a table 3 by 3, by cases, those that begin with picks 1 2>")

    def test_a_long_list_begins_at_once(self):
        table = Table.from_rows([(2**64 - 1) ^ 1 << i for i in range(64)])
        first = list(itertools.islice(table.ladders(), 200))
        self.assertEqual(first, sorted(first))
        again = pickle.loads(pickle.dumps(table.ladders()))
        self.assertEqual(list(itertools.islice(again, 200)), first)

    def test_two_tables_at_once(self):
        got = list(zip(plain.lacks_diagonal(4).ladders(), plain.lacks_diagonal(4).ladders(by_cases=True)))
        self.assertEqual({one for one, _ in got}, {other for _, other in got})


class Parts(unittest.TestCase):
    def test_one_after_the_other_they_are_the_list(self):
        tables = [plain.K2, plain.lacks_diagonal(4), Table.from_rows([0], 1), Table.read(plain.of_example("girder.mtx"))]
        for table in tables + [plain.made(table) for table in plain.random_tables(15, 6)]:
            for way in ({}, {"by_cases": True}, {"needed": True}):
                whole = list(table.ladders(**way))
                for number in (1, 2, 3, 5, 100):
                    parts = table.parts(number, **way)
                    self.assertEqual([ladder for part in parts for ladder in part], whole, (table, way, number))
                    self.assertGreaterEqual(len(parts), min(number, table.count().ladders))

    def test_the_fewest_picks_are_split_first(self):
        table = plain.lacks_diagonal(4)
        self.assertEqual([part.picks for part in table.parts(1)], [()])
        self.assertEqual([part.picks for part in table.parts(-1)], [()])
        self.assertEqual([part.picks for part in table.parts(4)], [(1,), (2,), (3,), (4,)])
        self.assertEqual([part.picks for part in table.parts(5)], [(1, 2), (1, 3), (1, 4), (2,), (3,), (4,)])
        with self.assertRaises(TypeError):
            table.parts(2.5)

    def test_what_the_readme_says_of_their_lengths(self):
        lengths = [len(list(part)) for part in make(12, 12, 7, 150).parts(64)]
        self.assertEqual((len(lengths), round(max(lengths) * len(lengths) / sum(lengths))), (66, 8))

    def test_pickled_at_every_place(self):
        table = plain.lacks_diagonal(5)
        for part in table.parts(3):
            whole = list(copy.copy(part))
            for k in range(len(whole) + 1):
                run = copy.copy(part)
                self.assertEqual(list(itertools.islice(run, k)) + list(pickle.loads(pickle.dumps(run))), whole)

    def test_a_part_longer_than_a_batch(self):
        table = plain.lacks_diagonal(6)
        lengths = [len(list(part)) for part in table.parts(2)]
        self.assertEqual(lengths, [120] * 6)
