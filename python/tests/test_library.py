"""The library is looked for where it should be; one that cannot go with the package is not loaded, and it is said why."""

import os
import subprocess
import sys
import tempfile
import unittest
from unittest import mock

import ragymolev
import wheel_backend
from ragymolev import _find, _layout, _library

from . import plain
from .stand_ins import Library

FIRST = _layout.RG_VERSION // 10000 * 10000
SAID = "/some/file.so is ragymolev %%s, and this package is made for %s: %%s" % ragymolev.__version__


class Found(unittest.TestCase):
    def test_by_the_environment(self):
        with mock.patch.dict(os.environ, {_find.VARIABLE: "/some/file.so"}):
            self.assertEqual(_find.library_path(), "/some/file.so")

    def found_in(self, *files):
        """Which of some files of a folder the package `prefix/python/ragymolev` takes; none where it finds none."""
        with tempfile.TemporaryDirectory() as folder:
            for name in files:
                os.makedirs(os.path.join(folder, os.path.dirname(name)), exist_ok=True)
                with open(os.path.join(folder, name), "wb"):
                    pass
            here = os.path.join(folder, "prefix", "python", "ragymolev")
            with mock.patch.object(_find, "HERE", here), mock.patch.object(_find.sys, "prefix", os.path.join(folder, "own")):
                with mock.patch.dict(os.environ, {_find.VARIABLE: ""}), mock.patch.object(_find.ctypes.util, "find_library", lambda name: None):
                    return os.path.relpath(_find.library_path(), folder)

    def test_in_their_order(self):
        name = _find.NAME
        files = ["prefix/python/ragymolev/" + name, "prefix/lib/" + name, "prefix/target/staticlib/" + name, "own/lib/" + name]
        while files:
            self.assertEqual(self.found_in(*files), files[0])
            files.pop(0)

    def test_by_the_loader_last(self):
        with mock.patch.object(_find, "candidates", lambda: iter(())), mock.patch.dict(os.environ, {_find.VARIABLE: ""}):
            with mock.patch.object(_find.ctypes.util, "find_library", lambda name: "lib%s.so.1" % name):
                self.assertEqual(_find.library_path(), "libragymolev.so.1")
            with mock.patch.object(_find.ctypes.util, "find_library", lambda name: None), self.assertRaisesRegex(ImportError, _find.VARIABLE):
                _find.library_path()


class Loaded(unittest.TestCase):
    def refused(self, found, said):
        """What is said where the file has this library."""
        with mock.patch.object(_library.ctypes, "CDLL", lambda path: found), self.assertRaises(ImportError) as refused:
            _library.loaded("/some/file.so")
        self.assertEqual((str(refused.exception), refused.exception.path), (said, "/some/file.so"))

    def test_the_release_is_that_of_the_header(self):
        self.assertEqual(_library.library().rg_version(), _layout.RG_VERSION)
        with open(os.path.join(plain.ROOT, "VERSION"), encoding="ascii") as file:
            self.assertEqual(ragymolev.__version__, file.read().strip())

    def test_releases(self):
        self.assertEqual([_library.release(version) for version in (10000, 10003, 10200, 123456)], ["1.0", "1.0.3", "1.2", "12.34.56"])

    def test_the_same_first_number(self):
        for version in (FIRST, FIRST + 1, FIRST + 9999):
            found = Library(version)
            with mock.patch.object(_library.ctypes, "CDLL", lambda path: found):
                self.assertIs(_library.loaded("/some/file.so"), found)

    def test_another_first_number(self):
        for version in (FIRST + 10000, FIRST + 20301, FIRST - 1):
            said = SAID % (_library.release(version), "the first numbers must be the same")
            self.refused(Library(version), said)
            self.refused(Library(version, lacking=["rg_words"]), said)

    def test_entries_that_are_not_there(self):
        self.refused(Library(FIRST + 1, lacking=["rg_grow", "rg_words"]), SAID % (_library.release(FIRST + 1), "it lacks rg_words, rg_grow"))
        self.refused(Library(0, lacking=["rg_version"]), "/some/file.so is no library of ragymolev: it has no rg_version")

    def test_from_outside(self):
        """Not by stand-ins: a file that is none, one that is no library, and one of something else."""
        with tempfile.NamedTemporaryFile(suffix=".so") as file:
            for path, said in (("/none.so", "cannot be loaded: /none.so"), (file.name, "cannot be loaded: " + file.name), ("libc.so.6", "no rg_version")):
                asked = [sys.executable, "-c", "import ragymolev; ragymolev.make(1, 1, 1, 1)"]
                ended = subprocess.run(asked, env={**os.environ, _find.VARIABLE: path}, stdout=subprocess.PIPE, stderr=subprocess.PIPE, check=False)
                last = ended.stderr.decode().strip().split("\n")[-1]
                self.assertEqual(ended.returncode, 1)
                self.assertTrue(last.startswith("ImportError: ") and said in last, last)


class Wheel(unittest.TestCase):
    def test_an_archive_that_cannot_be_linked(self):
        """No traceback, but what is wrong: no compiler, and one that fails."""
        for compiler, said in (("/none/cc", "No such file or directory: '/none/cc'"), ("false", "returned non-zero exit status 1.")):
            with mock.patch.dict(os.environ, {"CC": compiler}), self.assertRaises(SystemExit) as ended:
                wheel_backend.linked()
            self.assertIn("libragymolev.a cannot be linked into a shared library: ", str(ended.exception))
            self.assertTrue(str(ended.exception).endswith(said), str(ended.exception))
