"""Arrays of NumPy and SciPy themselves, taken and given. Where they are not installed these tests are skipped; the same forms without them are tried by
stand-ins, in test_tables and test_recorded."""

import unittest
import warnings

from ragymolev import Refused, Table, Test

from . import plain

try:
    import numpy
except ImportError:
    numpy = None
try:
    import scipy.sparse as scipy_sparse
except ImportError:
    scipy_sparse = None

FORMS = "coo", "csr", "csc", "lil", "dok", "dia", "bsr"
K3 = Table.from_rows([{1, 2}, {1, 2}, {2, 3}])
LARGE = 10**6
LOGGER = plain.of_example("logger.mtx")


def tables(seed):
    return [plain.made(table) for table in plain.random_tables(30, seed)] + [Table.from_rows([0, 0], 3), Table.from_rows([2**64 - 1] * 64)]


class Case(unittest.TestCase):
    def setUp(self):
        """Forms that NumPy and SciPy advise against are tried too."""
        quiet = warnings.catch_warnings()
        quiet.__enter__()
        self.addCleanup(quiet.__exit__, None, None, None)
        warnings.simplefilter("ignore")

    def refused(self, number, call, *given):
        with self.assertRaises(Refused) as refused:
            call(*given)
        self.assertEqual(refused.exception.number, number)


@unittest.skipUnless(numpy, "NumPy is not installed")
class Dense(Case):
    def test_there_and_back(self):
        for table in tables(22):
            array = table.to_array()
            self.assertEqual((array.shape, array.dtype), ((table.gauges, table.cases), numpy.dtype(bool)))
            self.assertEqual({(int(g) + 1, int(c) + 1) for g, c in numpy.argwhere(array)}, set(table))
            self.assertEqual(Table.from_array(array), table)

    def test_ladders_there_and_back(self):
        for table in tables(25)[:-1]:
            for ladder in table.ladders():
                self.assertEqual(Table.from_array(ladder.to_array()).pairs, ladder.pairs)
                self.assertEqual(Table.from_array(ladder), Table.from_array(ladder.to_array()))

    def test_kinds_of_numbers(self):
        array = K3.to_array()
        for kind in ("bool", "int8", "uint8", ">i2", "int64", "uint64", "float16", "<f4", ">f8", "longdouble", "complex64", "object"):
            self.assertEqual(Table.from_array(array.astype(kind)), K3, kind)
        for factor in (-1, 0.25, -3e-300, numpy.inf, 1j):
            self.assertEqual(Table.from_array(numpy.where(array, factor, 0)), K3, factor)
        self.assertEqual(Table.from_array(numpy.where(array, 1.0, -0.0)), K3)

    def test_what_is_no_number(self):
        for value in (numpy.nan, numpy.float32("nan"), complex(0, numpy.nan), None, "1", numpy.datetime64("2020-01-01"), [1]):
            array = numpy.array(K3.to_array(), dtype=object)
            array[1, 2] = value
            for take in (Table.from_array, Test.from_array):
                with self.assertRaisesRegex(ValueError, "gauge 2, case 3: .* is no number"):
                    take(array)
        with self.assertRaisesRegex(ValueError, "gauge 1, case 2: nan is no number"):
            Table.from_array(numpy.array([[1, numpy.nan]]))
        with self.assertRaisesRegex(ValueError, "gauge 1, case 1: None is no number"):
            Table.from_array(numpy.ma.masked_equal([[0, 1]], 0))
        with self.assertRaisesRegex(ValueError, "gauge 1, case 1: '0' is no number"):
            Table.from_array(numpy.array([["0", "1"]]))

    def test_as_they_lie_in_memory(self):
        array = K3.to_array()
        turned = Table.from_rows([{g for g, c in K3 if c == case} for case in (1, 2, 3)])
        wide = numpy.zeros((6, 9), dtype=int)
        wide[::2, 1::3] = array
        forms = [array.T.copy().T, numpy.asfortranarray(array), wide[::2, 1::3], array[::-1][::-1], numpy.asmatrix(array)]
        for form in forms + [list(array), [list(row) for row in array]]:
            self.assertEqual(Table.from_array(form), K3)
        self.assertEqual(Table.from_array(array.T), turned)
        self.assertEqual(Table.from_array(numpy.broadcast_to([0, 1], (64, 2))), Table.from_rows([{2}] * 64))
        array.setflags(write=False)
        self.assertEqual(Table.from_array(array), K3)

    def test_wrong_dimensions(self):
        for array in (numpy.array(1), numpy.ones(3), numpy.ones((1, 1, 1)), numpy.ones((2, 2, 2)).tolist()):
            for take in (Table.from_array, Test.from_array):
                with self.assertRaises(ValueError):
                    take(array)
        for shape in ((0, 0), (0, 3), (3, 0)):
            self.refused(10, Table.from_array, numpy.zeros(shape))

    def test_too_large(self):
        """Of an array like the last nothing can be copied."""
        for shape in ((65, 1), (1, 65), (65, 65), (LARGE, 1), (1, LARGE), (LARGE, LARGE)):
            for take in (Table.from_array, Test.from_array):
                self.refused(10, take, numpy.broadcast_to(numpy.int8(1), shape))

    def test_an_array_is_no_rows(self):
        for array in (K3.to_array(), K3.to_array().astype(int), numpy.ones((2, 2), dtype=int)):
            with self.assertRaisesRegex(ValueError, "Table.from_array"):
                Table.from_rows(array)
        true = numpy.array([True, True])
        for rows in ([[True, False]], [[1, 0]], [[True, True]], [true], true, [list(true)], true.astype(object)):
            with self.assertRaisesRegex(ValueError, "Table.from_array"):
                Table.from_rows(rows)

    def test_an_array_is_no_pairs(self):
        """One of two cases has rows of two values, as pairs have."""
        ladder = Table.from_rows([3]).grow([])
        for array in (ladder.to_array(), [[True, True]], list(ladder.to_array()), [list(ladder.to_array()[0])]):
            with self.assertRaisesRegex(TypeError, r"a pair is \(gauge, case\), not "):
                ladder.table.judge(array)
        self.assertEqual(ladder.table.judge(Table.from_array(ladder.to_array())), "ladder")

    def test_single_numbers(self):
        rows, array = numpy.array(K3.rows, dtype="uint64"), K3.to_array()
        self.assertEqual(Table.from_rows(rows, numpy.int8(3)), K3)
        self.assertEqual(Table.from_rows([numpy.flatnonzero(row) + 1 for row in array]), K3)
        self.assertEqual(list(K3.ladders(order=numpy.array([3, 1, 2]))), list(K3.ladders(order=[3, 1, 2])))
        self.assertEqual(K3.count(budget=numpy.int32(7)), K3.count(budget=7))
        self.assertEqual(K3.rivals(numpy.array([1, 1])), K3.rivals((1, 1)))
        self.assertIn(numpy.array([1, 1]), K3)
        for ladder in K3.ladders():
            self.assertEqual(K3.judge(numpy.argwhere(ladder.to_array()) + 1), "ladder")

    def test_readings(self):
        array = numpy.array([[99.9, -250.5, 0], [1e6, -1e6, 0.5]])
        test = Test.from_array(array)
        self.assertEqual(test.to_array().tolist(), numpy.trunc(array).astype(int).tolist())
        self.assertEqual(test.to_array().dtype, numpy.dtype("int64"))
        self.assertEqual(Test.from_array(test.to_array()), test)
        for cutoff in (1, 99, 100, 251, LARGE):
            self.assertEqual(test.table(cutoff), Table.from_array(abs(array) >= cutoff))
        for value in (1000001, -numpy.inf, 2.0**40):
            self.refused(20, Test.from_array, numpy.array([[value]]))
        with self.assertRaisesRegex(ValueError, "gauge 1, case 1: .* is no reading"):
            Test.from_array(numpy.array([[1j]]))

    def test_readings_of_a_file(self):
        test = Test.read(LOGGER)
        array = test.to_array()
        self.assertEqual({(g, c): array[g - 1, c - 1] for g, c in test.readings}, test.readings)
        self.assertEqual(test.table(200), Table.from_array(abs(array) >= 200))
        with self.assertRaisesRegex(ValueError, "no readings"):
            Test.read(plain.of_example("k2.mtx")).to_array()


@unittest.skipUnless(numpy and scipy_sparse, "NumPy or SciPy is not installed")
class Documents(unittest.TestCase):
    def test_examples(self):
        self.assertEqual(plain.said_of_examples("python/README.md", plain.section_of(plain.text_of("python/README.md"), "Arrays")), "")


@unittest.skipUnless(scipy_sparse, "SciPy is not installed")
class Sparse(Case):
    def forms_of(self, array):
        """The same in each form of SciPy, as a matrix and, from 1.8 on, as an array."""
        for form in FORMS:
            for kind in ("_matrix", "_array"):
                if hasattr(scipy_sparse, form + kind):
                    yield getattr(scipy_sparse, form + kind)(array)

    def test_every_form(self):
        for table in tables(23):
            held = table.to_sparse()
            self.assertEqual((held.shape, held.dtype.kind, held.nnz), ((table.gauges, table.cases), "b", len(table)))
            self.assertEqual(held.toarray().tolist(), table.to_array().tolist())
            self.assertEqual(Table.from_array(held), table)
            for form in self.forms_of(held.astype("int8")):
                self.assertEqual(Table.from_array(form), table, type(form))

    def test_kinds_of_numbers(self):
        for kind in ("bool", "int8", "uint64", "float32", "float64", "complex128"):
            for form in self.forms_of(K3.to_array().astype(kind)):
                self.assertEqual(Table.from_array(form), K3, kind)
        for form in self.forms_of(K3.to_array() * -2.5):
            self.assertEqual(Table.from_array(form), K3)

    def test_ladders_there_and_back(self):
        for ladder in plain.lacks_diagonal(4).ladders():
            self.assertEqual(Table.from_array(ladder.to_sparse()).pairs, ladder.pairs)

    def test_zeros_and_sums(self):
        held = scipy_sparse.coo_matrix(([1, 1, -1, 0, 5], ([0, 1, 1, 2, 2], [0, 1, 1, 2, 0])), shape=(3, 3))
        self.assertEqual(Table.from_array(held), Table.from_rows([{1}, set(), {1}], 3))
        self.assertEqual(Test.from_array(held).readings, {(1, 1): 1, (2, 2): 0, (3, 1): 5, (3, 3): 0})

    def test_wrong_ones(self):
        for value in (float("nan"), complex(0, float("nan"))):
            with self.assertRaisesRegex(ValueError, "gauge 2, case 1: .*nan.* is no number"):
                Table.from_array(scipy_sparse.csr_matrix(([value], ([1], [0])), shape=(2, 2)))
        for shape in ((65, 1), (1, 65), (LARGE, LARGE)):
            self.refused(10, Table.from_array, scipy_sparse.coo_matrix(shape))
            self.refused(10, Test.from_array, scipy_sparse.csr_matrix(shape))
        self.refused(10, Table.from_array, scipy_sparse.coo_matrix((0, 3)))

    def test_readings_there_and_back(self):
        listed_zero = Test(b"%%MatrixMarket matrix coordinate integer general\n2 2 2\n1 1 0\n2 1 -7\n")
        none = Test(b"%%MatrixMarket matrix coordinate integer general\n2 2 0\n")
        for test in (Test.read(LOGGER), listed_zero, none):
            held = test.to_sparse()
            self.assertEqual((held.nnz, held.dtype), (len(test.readings), numpy.dtype("int64")))
            self.assertEqual(Test.from_array(held), test)
            self.assertEqual(Test.from_array(held.tocsr()), test)
        with self.assertRaisesRegex(ValueError, "no readings"):
            Test.read(plain.of_example("k2.mtx")).to_sparse()
