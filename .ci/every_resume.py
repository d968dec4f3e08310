"""Stops the command `planner list` after every move and goes on from what it saved, until the list is complete: of every small table, by gauges and by
cases, all ladders or the needed ones, under a preference, as files and by picks, the whole list and parts. What was written, piece by piece, is the undivided
list, byte for byte. Then every byte of a saved run is changed, and it is cut at every length: each is refused and nothing is listed.
usage: every_resume.py PROGRAM FOLDER. The last line counts; the exit status is 0 where nothing was otherwise."""

import itertools
import os
import random
import re
import subprocess
import sys

PROGRAM, FOLDER = os.path.abspath(sys.argv[1]), sys.argv[2]
EXAMPLES = os.path.join(os.path.dirname(os.path.dirname(os.path.abspath(__file__))), "examples")
stops, lists, damaged, faults = 0, 0, 0, []


def run(*words):
    done = subprocess.run([PROGRAM, *words], stdin=subprocess.DEVNULL, capture_output=True, check=False)
    return done.returncode, done.stdout, done.stderr.decode()


def fault(*what):
    faults.append(what)
    print("every resume:", *what)


def write_table(gauges, cases, bits):
    pairs = [(g, c) for i, (g, c) in enumerate(itertools.product(range(1, gauges + 1), range(1, cases + 1))) if bits >> i & 1]
    with open("table", "w", encoding="ascii") as file:
        file.write("%%%%MatrixMarket matrix coordinate pattern general\n%d %d %d\n" % (gauges, cases, len(pairs)))
        file.writelines("%d %d\n" % pair for pair in pairs)
    return "table"


def ladders_in(text, picks):
    return len(re.findall(b"^[0-9-]" if picks else b"^%%Mat", text, re.MULTILINE))


def in_pieces(table, options, budget):
    """The list by pieces of so many moves each."""
    global stops, lists
    due, pieces, words = run("list", *options, table), b"", list(options)
    picks = "--picks" in options
    lists += 1
    while True:
        status, out, said = run("list", "--save", "run", "--budget", str(budget), *words, table)
        pieces += out
        if status != 4:
            break
        stops += 1
        with open("run", "rb") as file:
            saved = file.read()
        counts = re.search(rb"\nladders ([0-9]+)\nbytes ([0-9]+)\n", saved)
        if not counts or int(counts[1]) != ladders_in(pieces, picks) or int(counts[2]) != len(pieces) or " %d ladder" % int(counts[1]) not in said:
            return fault(table, options, budget, "the saved run says something else than was written", saved, said)
        words = ["--resume", "run"]
    if (status, pieces) != due[:2] or status or said or os.path.exists("run") or os.path.exists("run.new"):
        return fault(table, options, budget, "ends with", status, said, "and the pieces are", pieces, "not", due[1])
    return None


def some_options(any_, gauges, cases):
    """Options of a run, with picks or without."""
    options = [option for option in ("--by-cases", "--needed", "--picks") if any_.randrange(2)]
    if any_.randrange(3) == 0:
        order = list(range(1, (cases if "--by-cases" in options else gauges) + 1))
        any_.shuffle(order)
        options += ["--prefer", ",".join(map(str, order))]
    return options


def every_part(any_, table, options):
    """The pieces of some part of the list with these options."""
    lines = run("parts", *[w for w in options if w != "--picks"], table, str(any_.randint(1, 4)))[1].decode().split()
    in_pieces(table, ["--part", any_.choice(lines)] + [w for w in options if w == "--picks"], any_.choice([1, 1, 2, 5]))


def small_tables():
    any_ = random.Random(41)
    for gauges, cases in ((1, 1), (1, 2), (2, 1), (2, 2), (2, 3), (3, 2)):
        for bits in range(1 << gauges * cases):
            table = write_table(gauges, cases, bits)
            in_pieces(table, some_options(any_, gauges, cases), 1)
            every_part(any_, table, some_options(any_, gauges, cases))
    for bits in any_.sample(range(512), 40):
        table = write_table(3, 3, bits)
        in_pieces(table, some_options(any_, 3, 3), any_.choice([1, 2]))
        every_part(any_, table, some_options(any_, 3, 3))


def examples():
    for name, options in itertools.product(("k2", "k3", "girder"), ([], ["--by-cases"], ["--needed", "--picks"])):
        for budget in (1, 7):
            in_pieces(os.path.join(EXAMPLES, name + ".mtx"), options, budget)


def refused(data, what):
    """A damaged run is refused, nothing is written, and it is left as it was."""
    global damaged
    damaged += 1
    with open("run", "wb") as file:
        file.write(data)
    status, out, said = run("list", "--resume", "run", "--save", "run", os.path.join(EXAMPLES, "k2.mtx"))
    if status != 3 or out or not re.fullmatch("run: refused (15|27|102): .*\n", said) or open("run", "rb").read() != data:
        fault(what, "is not refused:", status, out, said)


def damages():
    line = run("parts", "--prefer", "3,1,2", os.path.join(EXAMPLES, "k2.mtx"), "3")[1].decode().split()[1]
    run("list", "--save", "run", "--budget", "3", "--part", line, os.path.join(EXAMPLES, "k2.mtx"))
    with open("run", "rb") as file:
        data = file.read()
    for at, byte in enumerate(data):
        refused(data[:at] + bytes([byte ^ 1]) + data[at + 1 :], "byte %d changed" % at)
    for at in range(0, len(data), 5):
        refused(data[:at], "the first %d bytes" % at)
    for more in (b"\n", b"x", b"\0", data):
        refused(data + more, "%r behind it" % more)
    refused(data.replace(b"\n", b"\r\n"), "CR LF")
    refused(b"x" * 70000, "70,000 bytes")
    os.remove("run")


os.chdir(FOLDER)
small_tables()
examples()
damages()
print("every resume: %d stops of %d lists, %d damaged runs, %d faults" % (stops, lists, damaged, len(faults)))
sys.exit(1 if faults else 0)
