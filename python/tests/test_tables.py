"""Where tables come from and go to: files, rows, arrays, sample tables."""

import copy
import os
import pickle
import random
import sys
import tempfile
import unittest
from pathlib import Path
from unittest import mock

from ragymolev import Refused, Table, Test, comments, make

from . import plain
from .stand_ins import Array, Frame, NumPy, Sparse

K3 = Table.from_rows([{1, 2}, {1, 2}, {2, 3}])
FILE = b"%%MatrixMarket matrix coordinate pattern general\n3 3 6\n1 1\n1 2\n2 1\n2 2\n3 2\n3 3\n"


class Files(unittest.TestCase):
    def test_read(self):
        self.assertEqual(Table.read(plain.of_example("k3.mtx")), K3)
        self.assertEqual(Table.read(Path(plain.of_example("k3.mtx"))), K3)
        self.assertEqual(Table.from_bytes(FILE), K3)
        self.assertEqual(Table.from_bytes(bytearray(FILE)), K3)

    def test_written(self):
        self.assertEqual(bytes(K3), FILE)
        with tempfile.TemporaryDirectory() as folder:
            name = os.path.join(folder, "k3.mtx")
            K3.write(name)
            self.assertEqual(Table.read(name), K3)
            ladder = next(K3.ladders())
            ladder.write(Path(name))
            self.assertEqual(Table.read(name).pairs, ladder.pairs)

    def test_every_table_reads_back(self):
        for table in plain.random_tables(50, 20, 9):
            made = plain.made(table)
            self.assertEqual(bytes(made).decode(), plain.planner.write(table))
            self.assertEqual(Table.from_bytes(bytes(made)), made)

    def test_the_largest(self):
        full = Table.from_rows([2**64 - 1] * 64)
        self.assertEqual(len(bytes(full)), 23484)
        self.assertEqual(Table.from_bytes(bytes(full)), full)

    def test_a_refusal_names_file_and_line(self):
        with self.assertRaises(Refused) as refused:
            Table.read(plain.of_example("malformed.mtx"))
        self.assertEqual((refused.exception.number, refused.exception.line), (7, 5))
        self.assertEqual(str(refused.exception), "%s:5: refused 7: g or c outside 1..G, 1..L" % plain.of_example("malformed.mtx"))

    def test_a_file_of_readings(self):
        with self.assertRaises(Refused) as refused:
            Table.read(plain.of_example("logger.mtx"))
        said = "%s:1: refused 2: first line is not the banner: it has readings: Test.read takes it" % plain.of_example("logger.mtx")
        self.assertEqual((refused.exception.number, str(refused.exception)), (2, said))

    def test_damaged_files(self):
        any_ = random.Random(21)
        for _ in range(400):
            data = bytearray(FILE)
            for _ in range(any_.randint(1, 3)):
                data[any_.randrange(len(data))] = any_.choice(b"0123 9%\n\rx")
            due = plain.planner.read(bytes(data), False)
            if isinstance(due, int):
                with self.assertRaises(Refused) as refused:
                    Table.from_bytes(data)
                self.assertEqual((refused.exception.number, refused.exception.line), (due, due.line))
            else:
                self.assertEqual(bytes(Table.from_bytes(data)).decode(), plain.planner.written(*due[1:4]))

    def test_too_long(self):
        with tempfile.TemporaryDirectory() as folder:
            name = os.path.join(folder, "long")
            with open(name, "wb") as file:
                file.write(FILE + b" " * 70000)
            with self.assertRaises(Refused) as refused:
                Table.read(name)
        self.assertEqual((refused.exception.number, refused.exception.line), (1, 0))
        self.assertEqual(str(refused.exception), name + ": refused 1: file longer than 65,536 bytes")

    def test_what_is_no_file_in_memory(self):
        for given in (5, "text", [1, 2], None):  # `bytes` would make five zeros of the first
            for take in (Table.from_bytes, Test.from_bytes):
                with self.assertRaisesRegex(TypeError, "a bytes-like object is required"):
                    take(given)
        self.assertEqual(Table.from_bytes(memoryview(FILE)), Table.from_bytes(FILE))

    def test_a_file_that_is_not_there(self):
        with self.assertRaises(FileNotFoundError):
            Table.read(plain.of_example("none.mtx"))

    def test_comments(self):
        self.assertEqual(comments(plain.of_example("k2.mtx")), (b"% K2: each gauge lacks one case: six ladders.",))
        self.assertEqual(len(comments(plain.of_example("logger.mtx"))), 2)
        with self.assertRaises(Refused) as refused:
            comments(plain.of_example("malformed.mtx"))
        self.assertEqual((refused.exception.number, refused.exception.line), (7, 5))


class Rows(unittest.TestCase):
    def test_cases_by_number_or_bits(self):
        for rows in ([{1, 2}, [2, 1], (3, 2)], [3, 3, 6], [3, {1, 2}, iter([2, 3, 3])]):
            self.assertEqual(Table.from_rows(rows), K3)
        self.assertEqual((K3.gauges, K3.cases, K3.rows, len(K3)), (3, 3, (3, 3, 6), 6))
        self.assertEqual(Table.from_rows(K3.rows, K3.cases), K3)

    def test_more_cases(self):
        table = Table.from_rows([1], 5)
        self.assertEqual((table.gauges, table.cases), (1, 5))
        self.assertNotEqual(table, Table.from_rows([1]))

    def refused(self, number, *given):
        with self.assertRaises(Refused) as refused:
            Table.from_rows(*given)
        self.assertEqual(refused.exception.number, number)

    def test_refused(self):
        self.refused(10, [])
        self.refused(10, [0])
        self.refused(10, [1] * 65)
        self.refused(10, [1], 65)
        self.refused(10, [1], 0)
        self.refused(10, [1], -1)
        self.refused(10, [[65]])
        self.refused(10, [1], 2**80)
        self.refused(11, [{1, 2}, {3}], 2)
        with self.assertRaises(Refused) as refused:
            Table(1, 2, (1, 1))
        self.assertEqual(refused.exception.number, 11)

    def test_no_rows(self):
        for rows in ([{0}], [{-1}], [[65]], [-1], [2**64], [True, False], {1: [2]}, {3, 6}):
            with self.assertRaises(ValueError):
                Table.from_rows(rows, 64)
        with self.assertRaisesRegex(ValueError, "a table has at most 64 rows, not 65"):
            Table(1, 2, [1] + [0] * 64)
        with self.assertRaisesRegex(TypeError, "'str' object cannot be interpreted as an integer"):
            Table(1, 2, ["1"])
        for rows in ([1.5], ["x"], [None], 3):
            with self.assertRaises(TypeError):
                Table.from_rows(rows)

    def test_copied_pickled_and_never_changed(self):
        for again in (copy.copy(K3), copy.deepcopy(K3), pickle.loads(pickle.dumps(K3))):
            self.assertEqual((again, hash(again)), (K3, hash(K3)))
        with self.assertRaises(AttributeError):
            K3.rows = ()
        self.assertTrue(Table.from_rows([0], 1))
        self.assertEqual(repr(K3), "<Table 3 by 3: 1:1 1:2 2:1 2:2 3:2 3:3>")


class Arrays(unittest.TestCase):
    VALUES = [[1, 2, 0], [0.5, -3, 0], [False, True, 7]]

    def test_stand_ins(self):
        array = Array((3, 3), self.VALUES)
        for given in (array, Frame(array), self.VALUES, [tuple(row) for row in self.VALUES]):
            self.assertEqual(Table.from_array(given), K3)

    def test_sparse(self):
        entries = [(0, 0, 1), (0, 1, 2), (1, 0, 0.5), (1, 1, -3), (2, 1, True), (2, 2, 7), (0, 2, 0), (1, 2, 4), (1, 2, -4)]
        self.assertEqual(Table.from_array(Sparse((3, 3), entries)), K3)
        self.assertEqual(Table.from_array(Sparse((2, 5), [])), Table.from_rows([0, 0], 5))

    def test_wrong_arrays(self):
        for given in (Array((3,), [1, 2, 3]), Array((1, 1, 1), [[[1]]]), [[1, 2], [1]], Sparse((2,), []), [1, 0], 3, ["11"], [{1, 2}, {1, 2}], {1: 2}, {1}):
            with self.assertRaises(ValueError):
                Table.from_array(given)
        for value in (float("nan"), None, "1", [1], object()):
            for given in ([[1, 0], [0, value]], Array((2, 2), [[1, 0], [0, value]]), Sparse((2, 2), [(1, 1, value)])):
                with self.assertRaisesRegex(ValueError, "gauge 2, case 2: .* is no number"):
                    Table.from_array(given)

    def test_wrong_sizes(self):
        """Of an array that is too large nothing but the shape is looked at."""
        for given in (Array((0, 3), []), Array((3, 0), [[], [], []]), [], [[]], [[1] * 65], [[1]] * 65, Array((65, 1), None), Sparse((1, 65), None)):
            with self.assertRaises(Refused) as refused:
                Table.from_array(given)
            self.assertEqual(refused.exception.number, 10)

    def test_sets_of_pairs(self):
        ladder = next(K3.ladders())
        for again in (Table.from_array(ladder), Table.from_rows(ladder), Table.from_rows(ladder, 3)):
            self.assertEqual((type(again), again.pairs, again.cases), (Table, ladder.pairs, 3))
        self.assertEqual(Table.from_rows(K3, 4).cases, 4)

    def test_given(self):
        with mock.patch.dict(sys.modules, {"numpy": NumPy()}):
            array = K3.to_array()
        self.assertEqual((array.shape, array.dtype, set(array)), ((3, 3), "bool", {(g - 1, c - 1) for g, c in K3}))


class Samples(unittest.TestCase):
    def test_as_the_second_implementation_makes_them(self):
        any_ = random.Random(24)
        for _ in range(40):
            four = any_.randint(1, 9), any_.randint(1, 9), any_.randrange(1, 2**64), any_.randint(0, 256)
            self.assertEqual(bytes(make(*four)), plain.planner.answer(["make", *map(str, four)], b"")[1])

    def test_refused(self):
        for number, four in ((10, (0, 1, 1, 1)), (10, (1, 65, 0, 300)), (28, (1, 1, 0, 1)), (28, (1, 1, 1, 257)), (28, (1, 1, 1, -1)), (10, (-1, 1, 1, 1))):
            with self.assertRaises(Refused) as refused:
                make(*four)
            self.assertEqual(refused.exception.number, number)
        for start in (-1, 2**64):
            with self.assertRaises(ValueError) as wrong:
                make(1, 1, start, 1)
            self.assertNotIsInstance(wrong.exception, Refused)
