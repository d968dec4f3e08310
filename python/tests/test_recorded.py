"""Recorded tests: files of either kind, arrays of readings, cutoffs, equality."""

import copy
import os
import pickle
import random
import tempfile
import unittest

from ragymolev import Refused, Table, Test

from . import plain
from .stand_ins import Array, Sparse

LOGGER = plain.of_example("logger.mtx")


def number_of(call, *given):
    try:
        call(*given)
    except Refused as refused:
        return refused.number
    return 0


class Files(unittest.TestCase):
    def test_at_every_cutoff(self):
        with open(LOGGER, "rb") as file:
            kind, gauges, cases, entries, _ = plain.planner.read(file.read(), True)
        test = Test.read(LOGGER)
        self.assertEqual((test.kind, test.gauges, test.cases, test.readings), (kind, gauges, cases, entries))
        self.assertEqual(list(test.readings), sorted(entries))
        for cutoff in (1, 2, 100, 101, 150, 200, 1000, 1000000):
            self.assertEqual(set(test.table(cutoff)), {p for p, v in entries.items() if abs(v) >= cutoff})
        self.assertEqual([number_of(test.table, cutoff) for cutoff in (0, -1, 1000001, 2**70)], [21] * 4)

    def test_pairs_alone(self):
        test = Test.read(plain.of_example("k2.mtx"))
        self.assertEqual((test.kind, test.table(1000000)), ("pattern", plain.K2))
        self.assertEqual(set(test.readings.values()), {0})

    def test_written_and_equal(self):
        test = Test.read(LOGGER)
        with tempfile.TemporaryDirectory() as folder:
            name = os.path.join(folder, "test.mtx")
            test.write(name)
            self.assertEqual(Test.read(name), test)
        for again in (Test(bytes(test)), copy.copy(test), pickle.loads(pickle.dumps(test))):
            self.assertEqual((again, hash(again)), (test, hash(test)))
        self.assertNotEqual(test, Test.read(plain.of_example("k2.mtx")))
        self.assertFalse(test == 3)
        self.assertEqual(repr(test), "<Test integer 5 by 4: 14 entries>")

    def test_a_listed_zero_is_an_entry(self):
        head = b"%%MatrixMarket matrix coordinate integer general\n"
        self.assertNotEqual(Test(head + b"1 1 1\n1 1 0\n"), Test(head + b"1 1 0\n"))

    def test_refused(self):
        with self.assertRaises(Refused) as refused:
            Test.from_bytes(b"%%MatrixMarket matrix coordinate integer general\n1 1 1\n1 1 -1000001\n", "log")
        self.assertEqual(str(refused.exception), "log:3: refused 20: reading outside -1,000,000..1,000,000")


class Arrays(unittest.TestCase):
    def test_readings_are_cut_towards_zero(self):
        test = Test.from_array(Array((2, 2), [[99.99, -250.5], [0, -1000000.5]]))
        self.assertEqual(test.readings, {(1, 1): 99, (1, 2): -250, (2, 1): 0, (2, 2): -1000000})
        self.assertEqual(test.table(100), Table.from_rows([[2], [2]], 2))

    def test_sparse(self):
        self.assertEqual(Test.from_array(Sparse((2, 3), [(0, 2, 7), (1, 0, 0)])).readings, {(1, 3): 7, (2, 1): 0})

    def test_every_array_and_cutoff(self):
        any_ = random.Random(30)
        for _ in range(60):
            gauges, cases = any_.randint(1, 5), any_.randint(1, 5)
            rows = [[any_.choice([0, 1, -1, 49.9, 50, -50.1, 1e6]) for _ in range(cases)] for _ in range(gauges)]
            for cutoff in (1, 50, 51, 1000000):
                due = {(g, c) for g, row in enumerate(rows, 1) for c, v in enumerate(row, 1) if abs(v) >= cutoff}
                self.assertEqual(set(Test.from_array(rows).table(cutoff)), due)

    def test_refused(self):
        given = [[[1000001]], [[-1000001]], [[2**31]], [[-(2**31)]], [[1e300]], [[float("inf")]], [[1] * 65], []]
        self.assertEqual([number_of(Test.from_array, rows) for rows in given], [20] * 6 + [10] * 2)
        for given, said in (([[float("nan")]], "gauge 1, case 1: nan is no number"), ([[1j]], "gauge 1, case 1: 1j is no reading"), (plain.K2, "no readings")):
            with self.assertRaisesRegex(ValueError, said):
                Test.from_array(given)
