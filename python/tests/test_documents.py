"""The package is documented and its types are annotated; the examples in the documents give what stands there."""

import importlib
import inspect
import os
import pkgutil
import typing
import unittest

import ragymolev

from . import plain

# Where a table comes from and goes to, and what it is asked.
METHODS = (
    "read from_bytes from_rows from_array write to_array to_sparse ladders parts count grow judge rivals explain cover order trial commit check".split()
)


def functions_of(thing):
    """A function, or by name the functions and properties that a class has of its own."""
    if not inspect.isclass(thing):
        return {thing.__name__: thing}
    members = {name: member.fget if isinstance(member, property) else getattr(member, "__func__", member) for name, member in vars(thing).items()}
    return {name: member for name, member in members.items() if inspect.isfunction(member) and member.__module__.startswith("ragymolev")}


def modules():
    """Every file of the package."""
    return [ragymolev] + [importlib.import_module("ragymolev." + found.name) for found in pkgutil.iter_modules(ragymolev.__path__)]


def defined_in(module):
    """The functions and classes that stand in a file."""
    things = [thing for thing in vars(module).values() if inspect.isfunction(thing) or inspect.isclass(thing)]
    return [thing for thing in things if thing.__module__ == module.__name__ or module is ragymolev]


class Package(unittest.TestCase):
    def test_every_name_is_documented(self):
        for name in ragymolev.__all__:
            thing = getattr(ragymolev, name)
            self.assertTrue(inspect.getdoc(thing), name)
            for method, function in functions_of(thing).items():
                self.assertTrue(method.startswith("_") or inspect.getdoc(function), "%s.%s" % (name, method))

    def test_every_method_is_there(self):
        for name in METHODS:
            self.assertTrue(callable(getattr(ragymolev.Table, name)), name)

    def test_every_type_is_annotated(self):
        seen = 0
        for thing in [thing for module in modules() for thing in defined_in(module)]:
            for function in functions_of(thing).values():
                hints = typing.get_type_hints(function, vars(inspect.getmodule(function)))
                parameters = inspect.signature(function).parameters
                self.assertEqual(set(hints), {p for p in parameters if p not in ("self", "cls")} | {"return"}, function)
                seen += 1
        self.assertGreater(seen, 150)
        self.assertTrue(os.path.isfile(os.path.join(os.path.dirname(ragymolev.__file__), "py.typed")))

    def test_every_file_says_what_it_is(self):
        folder = os.path.dirname(ragymolev.__file__)
        for name in sorted(os.listdir(folder)):
            if name.endswith(".py"):
                with open(os.path.join(folder, name), encoding="utf-8") as file:
                    text = file.read()
                self.assertTrue(text.startswith('"""'), name)
                self.assertLessEqual(max(map(len, text.split("\n"))), 160, name)


class Examples(unittest.TestCase):
    def test_documents(self):
        """What needs NumPy and SciPy stands in a section of its own, which test_arrays runs."""
        for name in ("README.md", "python/README.md"):
            text = plain.text_of(name)
            self.assertEqual(plain.said_of_examples(name, text.replace(plain.section_of(text, "Arrays"), "")), "")
