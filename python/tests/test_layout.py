"""The generated file is that of the header; a name that is gone from the header is found."""

import os
import re
import shutil
import subprocess
import tempfile
import unittest
from unittest import mock

from ragymolev import _layout

from . import plain

tool = plain.loaded("python_layout", "tools/python-layout")


def used_in(path, form):
    """The first name of a form that a file uses."""
    return next(name for name in sorted(tool.names_in(tool.read(path))) if re.fullmatch(form, name))


class Generated(unittest.TestCase):
    def test_made_again(self):
        self.assertEqual(tool.read(tool.LAYOUT), tool.made())

    @unittest.skipUnless(shutil.which("cc"), "there is no C compiler")
    def test_numbers_are_those_that_a_compiler_reads(self):
        names = [name for name in vars(_layout) if name.startswith("RG_")]
        self.assertGreater(len(names), 50)
        lines = "".join('printf("%%s %%lld\\n", "%s", (long long)%s);' % (name, name) for name in names)
        with tempfile.TemporaryDirectory() as folder:
            program = os.path.join(folder, "numbers")
            with open(program + ".c", "w", encoding="ascii") as file:
                file.write('#include "ragymolev.h"\n#include <stdio.h>\nint main(void) { %s return 0; }\n' % lines)
            subprocess.run(["cc", "-I" + os.path.join(plain.ROOT, "include"), "-o", program, program + ".c"], check=True)
            said = subprocess.run([program], check=True, stdout=subprocess.PIPE).stdout.decode()
        self.assertEqual(said.split("\n")[:-1], ["%s %d" % (name, getattr(_layout, name)) for name in names])

    def test_entries(self):
        self.assertEqual(_layout.ENTRIES["rg_read"], ("bytes", "words out"))
        self.assertEqual(_layout.ENTRIES["rg_version"], ())

    def wrong(self, old, new, said):
        """What the tool says where the header is another."""
        read = tool.read
        changed = lambda name: re.sub(old, new, read(name)) if name == tool.HEADER else read(name)
        self.assertNotEqual(changed(tool.HEADER), read(tool.HEADER))
        with mock.patch.object(tool, "read", changed), self.assertRaisesRegex(tool.Wrong, said):
            tool.made()

    def test_a_name_that_is_gone(self):
        for path, form in (("python/ragymolev/_recorded.py", "RG_.*"), ("python/ragymolev/_table.py", "rg_.*"), ("examples/ladders.f90", "RG_BATCH_M.*")):
            name = used_in(path, form)
            self.wrong(r"\b%s\b" % name, name + "_gone", "%s uses .*%s.*, which include/ragymolev.h does not have" % (path, name))

    def test_an_entry_of_another_form(self):
        self.wrong(r"rg_grow\(const uint64_t \*table, ", "rg_grow(const float *table, ", "rg_grow has a parameter")
        self.wrong(r"uint64_t rg_count\(", "void rg_count(", "rg_count answers void")

    def test_a_number_of_fortran(self):
        name, number = re.search(r"\b(RG_\w+) *= *(\d+)", tool.read("examples/ladders.f90")).groups()
        said = "ladders.f90 has %s as %s, and include/ragymolev.h as 7%s" % (name, number, number)
        self.wrong(r"(#define %s) " % name, r"\1 7", said)

    def test_a_header_without_entries(self):
        with mock.patch.object(tool, "users", dict):
            self.wrong(r"uint64_t rg_", "void rg_", "include/ragymolev.h has no numbers or no entries")

    def test_forms_of_numbers(self):
        lines = ["RG_A 3", "RG_B (RG_A + 0x10u * 2)", "RG_C RG_NONE", 'RG_D "1"', "RG_E(x) x", "RG_F 1UL << 4"]
        found = tool.numbers_of("".join("# define %s\n" % line for line in lines))
        self.assertEqual(found, {"RG_A": 3, "RG_B": 35, "RG_F": 16})
