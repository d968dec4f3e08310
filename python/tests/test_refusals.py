"""Refusals are exceptions with the number and the words of the manual; calls that are not well formed never reach the library."""

import pickle
import re
import unittest

from ragymolev import Refused, Table, Test, _layout, _library, make, words_of

from . import plain

BANNER = b"%%MatrixMarket matrix coordinate pattern general\n"
LADDER = next(plain.K2.ladders())


def flip_twice():
    proposal = plain.K2.trial(LADDER, (3, 3))
    plain.K2.commit(proposal).commit(proposal)


def damaged_run():
    ladders = plain.K2.ladders()
    version, words, *others = ladders.__getstate__()
    ladders.__setstate__((version, words[:-2] + (1, 0), *others))


# What is refused with each number. 16, 17 and 100 come from memory that is too short and from comments that are not there, which the package does not ask for.
REFUSED = {
    1: lambda: Table.from_bytes(b" " * 65537),
    2: lambda: Table.from_bytes(b""),
    3: lambda: Table.from_bytes(BANNER + b"%" * 1025),
    4: lambda: Table.from_bytes(BANNER + b"1 1\n"),
    5: lambda: Table.from_bytes(BANNER + b"65 1 0\n"),
    6: lambda: Table.from_bytes(BANNER + b"1 1 1\n1\n"),
    7: lambda: Table.from_bytes(BANNER + b"1 1 1\n1 2\n"),
    8: lambda: Table.from_bytes(BANNER + b"1 1 2\n1 1\n1 1\n"),
    9: lambda: Table.from_bytes(BANNER + b"1 1 1\n"),
    10: lambda: Table.from_rows([]),
    11: lambda: Table.from_rows([{3}], 2),
    12: lambda: plain.K2.judge(Table.from_rows([0], 3)),
    13: lambda: plain.K2.judge([(1, 1)]),
    14: lambda: plain.K2.grow([(1, 2), (2, 3), (3, 1)]),
    15: damaged_run,
    18: lambda: plain.K2.count(budget=1000001),
    19: lambda: plain.K2.rivals((1, 1)),
    20: lambda: Test.from_array([[1000001]]),
    21: lambda: Test.from_array([[1]]).table(0),
    22: lambda: plain.K2.explain(LADDER, (1, 2)),
    23: lambda: Table.from_rows([0] * 9, 1).cover(),
    24: lambda: plain.lacks_diagonal(8).cover(),
    25: lambda: plain.K2.trial([], (1, 1)),
    26: flip_twice,
    27: lambda: plain.K2.ladders(order=[1]),
    28: lambda: make(1, 1, 0, 0),
}


class Refusals(unittest.TestCase):
    def test_each(self):
        for number, refused in REFUSED.items():
            with self.assertRaises(Refused, msg=number) as raised:
                refused()
            self.assertEqual((raised.exception.number, raised.exception.words), (number, words_of(number)))
            self.assertIn("refused %d: %s" % (number, words_of(number)), str(raised.exception))
            again = pickle.loads(pickle.dumps(raised.exception))
            self.assertEqual((again.number, str(again), again.line), (number, str(raised.exception), raised.exception.line))

    def test_words_are_the_manuals(self):
        with open(plain.ROOT + "/docs/MANUAL.md", encoding="utf-8") as file:
            manual = dict(re.findall(r"(?m)^\| (\d+) \| ([^|]*[^| ]) +\|", file.read()))
        said = {str(number): words_of(number) for number in range(1, 101)}
        numbered = {number: words for number, words in said.items() if words != "a number without words"}
        self.assertEqual(numbered, {number: words for number, words in manual.items() if number in said})
        self.assertEqual([*map(int, numbered)], sorted([*REFUSED, 16, 17, 100]))

    def test_words_of_other_numbers(self):
        self.assertEqual(words_of(0), "accepted")
        self.assertEqual({words_of(number) for number in (29, 101, 2**64 - 1, 2**64, -1)}, {"a number without words"})

    def test_a_refusal_is_a_wrong_value(self):
        with self.assertRaises(ValueError):
            REFUSED[10]()


# What is said behind the words of a number: which value, or which pair.
REASONS = [
    (lambda: Table.from_rows([]), "10: G or L not in 1..64: 0 by 0"),
    (lambda: Table.from_array([[1] * 65]), "10: G or L not in 1..64: 1 by 65"),
    (lambda: Test.from_array([[1] * 65]), "10: G or L not in 1..64: 1 by 65"),
    (lambda: make(0, 1, 1, 1), "10: G or L not in 1..64: 0 by 1"),
    (lambda: Table.from_rows([{1}, {2, 3}], 2), "11: a bit at L or above, or a row past G not zero: 2:3 of 2 cases"),
    (lambda: Table(1, 2, iter([1, 1])), "11: a bit at L or above, or a row past G not zero: 2 rows for 1 gauges"),
    (lambda: plain.K2.judge(Table.from_rows([0, 0], 3)), "12: row count not G: it has 2 gauges, the table 3"),
    (lambda: plain.K2.judge([(1, 2), (2, 2)]), "13: a pair not in the table: 2:2"),
    (lambda: plain.K2.grow([(4, 1)]), "13: a pair not in the table: 4:1"),
    (lambda: plain.K2.grow([(1, 2), (2, 3), (3, 1)]), "14: not a chain: 1:2 and 2:3 clash"),
    (lambda: plain.K2.count(budget=-1), "18: budget above 1,000,000: -1"),
    (lambda: plain.K2.cover(budget=1000001), "18: budget above 1,000,000: 1000001"),
    (lambda: plain.K2.rivals((1, 1)), "19: the pair named is not in the table: 1:1"),
    (lambda: plain.K2.explain(LADDER, (3, 3)), "19: the pair named is not in the table: 3:3"),
    (lambda: Test.from_array([[7, -1000001.5]]), "20: reading outside -1,000,000..1,000,000: gauge 1, case 2: -1000001.5"),
    (lambda: Test.from_array([[7], [1e300]]), "20: reading outside -1,000,000..1,000,000: gauge 2, case 1: 1e+300"),
    (lambda: Test.from_array([[1]]).table(0), "21: cutoff not in 1..1,000,000: 0"),
    (lambda: plain.K2.explain(LADDER, (1, 2)), "22: the pair is in the ladder: 1:2"),
    (lambda: Table.from_rows([0] * 9, 1).cover(), "23: G or L above 8: 9 by 1"),
    (lambda: plain.K2.explain([(1, 2)], (2, 1)), "25: not a ladder of the table: 1:3 can be added"),
    (lambda: plain.K2.trial([(1, 2), (2, 1)], (1, 1)), "25: not a ladder of the table: 1:2 and 2:1 clash"),
    (lambda: plain.K2.order([(1, 2)], [(1, 2)]), "25: not a ladder of the table: 1:3 can be added"),
    (lambda: plain.K2.order([(2, 1)], LADDER), "25: not a ladder of the table: it is one, and lacks 2:1 of the chain"),
    (lambda: plain.K2.order([(1, 1)], LADDER), "13: a pair not in the table: 1:1"),
    (lambda: plain.K2.order([], [(2, 2)]), "13: a pair not in the table: 2:2"),
    (lambda: plain.K2.order([(1, 2), (2, 1)], LADDER), "14: not a chain: 1:2 and 2:1 clash"),
    (flip_twice, "26: the proposal is not what the trial on the current table gives: the trial was made on another table"),
    (lambda: plain.K2.ladders(order=[1, 1, 2]), "27: the preference is no arrangement: 1,1,2 for 3 gauges"),
    (lambda: plain.K2.explain(LADDER, (2, 1), [1], True), "27: the preference is no arrangement: 1 for 3 cases"),
    (lambda: plain.K2.grow([], [4, 1, 2]), "27: the preference is no arrangement: 4,1,2 for 3 gauges"),
    (lambda: plain.K2.count(order=[]), "27: the preference is no arrangement: none for 3 gauges"),
    (lambda: make(1, 1, 0, 300), "28: the start is zero or the density above 256: start 0, density 300"),
    (lambda: plain.K2.trial(LADDER, (4, 1)), "7: g or c outside 1..G, 1..L: 4:1"),
]


class Reasons(unittest.TestCase):
    def test_each(self):
        for refused, said in REASONS:
            with self.assertRaises(Refused, msg=said) as raised:
                refused()
            self.assertEqual(str(raised.exception), "refused " + said)

    def test_pairs_that_are_none(self):
        for pair in (1, (1,), (1, 2, 3), "1:2", "12", None, (True, 2), {1, 2}):
            for asked in (plain.K2.rivals, lambda pair: plain.K2.trial(LADDER, pair), lambda pair: plain.K2.judge([pair]), lambda pair: pair in plain.K2):
                with self.assertRaisesRegex(TypeError, r"a pair is \(gauge, case\), not "):
                    asked(pair)

    def test_sets_and_proposals_that_are_none(self):
        for asked in (plain.K2.judge, plain.K2.grow, lambda name: plain.K2.order([], name), lambda name: plain.K2.check([name])):
            with self.assertRaisesRegex(TypeError, "not 'k6.mtx'; Table.read reads a file"):
                asked("k6.mtx")
        with self.assertRaisesRegex(TypeError, "a commit takes what a trial gave, a Proposal, not 'proposal'"):
            plain.K2.commit("proposal")

    def test_a_traceback_names_the_package(self):
        self.assertEqual(Refused.__module__, "ragymolev")


class Calls(unittest.TestCase):
    def test_every_entry_of_the_header_is_there(self):
        for name in _layout.ENTRIES:
            self.assertTrue(_library.entry_of(name))

    def test_too_few_or_too_many_values(self):
        for given in ((), (b"",), (b"", 1, 2)):
            with self.assertRaises(TypeError):
                _library.ask("rg_read", *given)

    def test_words(self):
        self.assertEqual([_library.word(n) for n in (0, 7, 2**64 - 1, 2**64, -1)], [0, 7] + [2**64 - 1] * 3)
        for number in (1.0, "1", None):
            with self.assertRaises(TypeError):
                _library.word(number)
