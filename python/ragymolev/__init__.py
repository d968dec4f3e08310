"""Ragymolev: the ladders of a response table, from a library whose list is proved complete.

    from ragymolev import Table
    table = Table.read("table.mtx")
    for ladder in table.ladders():
        print(ladder.picks, ladder.pairs)

A table is read (`Table.read`), made from rows (`Table.from_rows`), from an array (`Table.from_array`), from a recorded test at a cutoff
(`Test.read(path).table(200)`) or from four numbers (`make`). Its methods put the questions; what the library refuses is raised as `Refused`. The package
lends memory to the shared library, calls it, and gives its answers in types of Python; only a list that is checked is compared here."""

from . import _layout, _library
from ._answers import Count, Cover, Proposal, Rivals
from ._check import Fault, Report
from ._files import comments
from ._ladders import Ladder, Ladders
from ._pairs import Pairs
from ._recorded import Test
from ._refused import Refused, words_of
from ._table import Table, make

__all__ = ["Count", "Cover", "Fault", "Ladder", "Ladders", "Pairs", "Proposal", "Refused", "Report", "Rivals", "Table", "Test", "comments", "make", "words_of"]

for _public in (Count, Cover, Fault, Ladder, Ladders, Pairs, Proposal, Refused, Report, Rivals, Table, Test):
    _public.__module__ = __name__  # what is pickled, and what a traceback says, does not name the file that a class stands in
del _public

__version__ = _library.release(_layout.RG_VERSION)
