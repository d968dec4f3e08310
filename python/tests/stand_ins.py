"""Small stand-ins: for what NumPy and SciPy hand over, so that the package is tried with their forms where neither is installed; and for libraries of other
releases."""

from ragymolev import _layout


class Array:
    """As numpy.ndarray: a shape, and lists of numbers."""

    def __init__(self, shape, values):
        self.shape, self.values = shape, values

    def tolist(self):
        return self.values


class Frame:
    """As pandas.DataFrame: no `tolist`, but it can be made an array."""

    def __init__(self, array):
        self.array, self.shape = array, array.shape

    def __array__(self, dtype=None):
        return self.array


class Coordinates:
    """As scipy.sparse.coo_matrix: places from 0, with a value each."""

    def __init__(self, shape, entries):
        self.shape = shape
        self.row, self.col, self.data = (Array((len(entries),), [entry[i] for entry in entries]) for i in range(3))


class Sparse:
    """As any other sparse matrix of SciPy: it turns into coordinates."""

    def __init__(self, shape, entries):
        self.shape, self.entries = shape, entries

    def tocoo(self):
        return Coordinates(self.shape, self.entries)


class Zeros(dict):
    """As an array of numpy.zeros: it holds what is put into it."""

    def __init__(self, shape, dtype):
        super().__init__()
        self.shape, self.dtype = shape, dtype


class NumPy:
    """As the module numpy, as far as it is asked."""

    zeros = Zeros


class Library:
    """As ctypes.CDLL of a release: the entries of the header but for those that it lacks. Each answers the number of the release."""

    def __init__(self, version, lacking=()):
        for name in set(_layout.ENTRIES) - set(lacking):
            setattr(self, name, Entry(version))


class Entry:
    """As a function of a library."""

    def __init__(self, answer):
        self.answer = answer

    def __call__(self):
        return self.answer
