"""Lists that are checked, beside the second implementation's `check`."""

import os
import random
import re
import tempfile
import unittest

from ragymolev import Table

from . import plain

planner = plain.planner


def damaged(listed, table, any_):
    """A list with some entries dropped, repeated, moved or changed."""
    entries = [set(ladder) for ladder in listed if any_.random() < 0.9]
    for _ in range(any_.randrange(4)):
        entry = set(any_.choice(listed))
        change = any_.randrange(4)
        if change == 1 and entry:
            entry.remove(any_.choice(sorted(entry)))
        elif change == 2:
            entry.add((any_.randint(1, table[0]), any_.randint(1, table[1])))
        elif change == 3:
            entry = {pair for pair in table[2] if any_.random() < 0.5}
        entries.insert(any_.randint(0, len(entries)), entry)
    if any_.random() < 0.5:
        any_.shuffle(entries)
    return entries


def plainly(table, entries, options):
    """What the second implementation says of a list: its faults, its missing ladders and its last line."""
    with tempfile.TemporaryDirectory() as folder:
        names = [os.path.join(folder, name) for name in ("table", "list")]
        for name, data in zip(names, (planner.write(table), "".join(planner.write((table[0], table[1], entry)) for entry in entries))):
            with open(name, "w", encoding="ascii") as file:
                file.write(data)
        status, out, _, _ = planner.answer(["check", *options, *names], b"")
    lines = out.decode().split("\n")
    faults = {re.sub(r", line \d+$", "", line.split(": ", 1)[1]) for line in lines if re.search(r":\d+: entry \d+: ", line)}
    return status == 0, faults, lines[-2]


class Checks(unittest.TestCase):
    def compare(self, table, entries, order=None, by_cases=False, needed=False):
        options = ["--needed"] * needed + ["--by-cases"] * by_cases + (["--prefer", ",".join(map(str, order))] if order else [])
        complete, faults, last = plainly(table, entries, options)
        report = plain.made(table).check(entries, order, by_cases, needed)
        self.assertEqual((report.complete, bool(report), report.verdict), (complete, complete, last), (table, entries))
        self.assertEqual({str(fault) for fault in report.faults}, faults)
        listed = [ladder for ladder in plain.made(table).ladders(order, by_cases, needed)]
        self.assertEqual(list(report.missing), [ladder for ladder in listed if set(ladder) not in entries])

    def test_damaged_lists(self):
        any_ = random.Random(16)
        for table in plain.random_tables(120, 17, 4):
            by_cases = any_.random() < 0.5
            order = any_.sample(range(1, table[by_cases] + 1), table[by_cases]) if any_.random() < 0.5 else None
            needed = any_.random() < 0.3
            listed = [s for _, s in planner.listing(table, by_cases, order or range(1, table[by_cases] + 1), False)]
            self.compare(table, damaged(listed, table, any_), order, by_cases, needed)

    def test_every_part_of_a_list(self):
        table = (3, 3, frozenset(plain.K2.pairs))
        for entries in plain.subsets([frozenset(ladder) for ladder in plain.K2.ladders()]):
            report = plain.K2.check(entries)
            self.assertEqual((report.complete, report.matched, report.ladders), (len(entries) == 6, len(entries), 6))
            self.assertEqual(len(report.missing) + len(entries), 6)
        self.compare(table, [frozenset(ladder) for ladder in plain.K2.ladders()])

    def test_complete(self):
        table = plain.lacks_diagonal(5)
        report = table.check(reversed(list(table.ladders())))
        self.assertTrue(report)
        self.assertEqual(str(report), "complete: 120 ladders, each once")
        self.assertEqual((report.missing, report.faults), ((), ()))
        self.assertTrue(table.check(table.ladders(by_cases=True)))

    def test_each_fault(self):
        listed = list(plain.K2.ladders())
        entries = listed[:5] + [listed[1], [(1, 2), (1, 3)], [(1, 1)], [(70, 1)], [(1, 2), (2, 3), (3, 1)], Table.from_rows([1, 1], 3)]
        report = plain.K2.check(entries)
        lines = [
            "entry 6: repeated: the same as entry 2",
            "entry 7: a chain and no ladder: 2:3 can be added",
            "entry 8: not of this table: 1:1",
            "entry 9: not of this table: 70:1",
            "entry 10: no chain: 1:2 and 2:3 clash",
            "entry 11: not of this table: it has 2 gauges, the table 3",
            "missing: 2:1 3:1 3:2",
            "not complete: 6 ladders, 11 entries: 1 missing, 3 not of this table, 1 no chain, 1 a chain and no ladder, 1 repeated",
        ]
        self.assertEqual(str(report).split("\n"), lines)
        kinds = report.not_of_table, report.no_chain, report.only_chain, report.repeated, report.other_list
        self.assertEqual([[fault.entry for fault in faults] for faults in kinds], [[8, 9, 11], [10], [7], [6], []])
        self.assertEqual(report.missing, (listed[5],))

    def test_not_each_once(self):
        listed = list(plain.K2.ladders())
        self.assertEqual(plain.K2.check(listed + listed[:1]).verdict, "not each once: 6 ladders, 7 entries: 0 missing, 1 repeated")

    def test_a_ladder_of_another_list(self):
        table = Table.from_rows([{1}, {1, 2}, {2, 3}])
        report = table.check(table.ladders(), needed=True)
        self.assertEqual(str(report.other_list[0]), "entry 2: a ladder of another list: it holds no deciding pair")
        self.assertFalse(report)
        self.assertTrue(table.check(table.ladders(needed=True), needed=True))

    def test_the_check_ends_where_many_are_missing(self):
        table = plain.lacks_diagonal(12)
        report = table.check([next(table.ladders()), []], most_missing=100)
        self.assertEqual((report.ended, report.complete, len(report.missing), report.ladders, report.matched), (False, False, 100, 101, 1))
        verdict = "not complete: 101 or more ladders, 2 entries: 100 or more missing, 1 a chain and no ladder"
        self.assertEqual(report.verdict, verdict)
        self.assertEqual(table.check([], most_missing=1).verdict, "not complete: 1 or more ladders, 0 entries: 1 or more missing")
