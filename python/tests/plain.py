"""The second implementation, .ci/plain_planner.py, and tables to compare with it: there a table is G, L and a set of pairs. And the examples of documents."""

import doctest
import importlib.machinery
import importlib.util
import itertools
import os
import random
import re
import sys

from ragymolev import Table

ROOT = os.path.dirname(os.path.dirname(os.path.dirname(os.path.abspath(__file__))))


def loaded(name, path):
    """A file of Python as a module, whatever its name ends with."""
    loader = importlib.machinery.SourceFileLoader(name, os.path.join(ROOT, path))
    module = importlib.util.module_from_spec(importlib.util.spec_from_loader(name, loader))
    before, sys.dont_write_bytecode = sys.dont_write_bytecode, True
    loader.exec_module(module)
    sys.dont_write_bytecode = before
    return module


planner = loaded("plain_planner", ".ci/plain_planner.py")


def places(gauges, cases):
    return list(itertools.product(range(1, gauges + 1), range(1, cases + 1)))


def subsets(items):
    return (frozenset(chosen) for n in range(len(items) + 1) for chosen in itertools.combinations(items, n))


def small_tables(most=3):
    """Every table of at most so many gauges and cases."""
    for gauges, cases in places(most, most):
        for pairs in subsets(places(gauges, cases)):
            yield gauges, cases, pairs


def random_tables(number, seed, most=5):
    any_ = random.Random(seed)
    for _ in range(number):
        gauges, cases, density = any_.randint(1, most), any_.randint(1, most), any_.random()
        yield gauges, cases, frozenset(place for place in places(gauges, cases) if any_.random() < density)


def made(table):
    """The same table of the package."""
    gauges, cases, pairs = table
    return Table.from_rows([{c for g, c in pairs if g == gauge} for gauge in range(1, gauges + 1)], cases)


def of_example(name):
    return os.path.join(ROOT, "examples", name)


K2 = Table.from_rows([{2, 3}, {1, 3}, {1, 2}])


def lacks_diagonal(n):
    """The table of which gauge g lacks case g alone: n! ladders."""
    return Table.from_rows([set(range(1, n + 1)) - {g} for g in range(1, n + 1)], n)


def text_of(name):
    with open(os.path.join(ROOT, name), encoding="utf-8") as file:
        return file.read()


def section_of(text, title):
    """A section of a document, up to the next; nothing where it has none of this title."""
    found = re.search(r"(?ms)^## %s$.*?(?=^## |\Z)" % title, text)
    return found[0] if found else ""


def said_of_examples(name, text):
    """What is said of the examples in a text, run in the repository: nothing where all of them give what stands there, and there are some."""
    test = doctest.DocTestParser().get_doctest(re.sub(r"(?m)^```.*$", "", text), {}, name, name, 0)
    said = [] if test.examples else ["%s has no examples" % name]
    before = os.getcwd()
    os.chdir(ROOT)
    try:
        doctest.DocTestRunner(verbose=False).run(test, out=said.append)
    finally:
        os.chdir(before)
    return "".join(said)
