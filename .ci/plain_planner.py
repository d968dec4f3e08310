"""The command `planner` a second time, from its documents and the definitions alone: for small tables. It shares nothing with the library or the command.

`answer(words, standard_input)` gives the exit status, what is written to standard output, the number of the refusal, if any, and the line of the file that
it is about. In order: sets of pairs, ladders and lists; the file; words and options; the subcommands; lists that are checked; files of other programs. A
ladder's pick sequence comes from the ladder alone, and the sequences that a run can come to are the beginnings of these, so that no candidate is looked at
here; where a budget stops a list, moves are counted by walking through these beginnings. `SAVED` has the name of the file that the last answer saves a run
in, and what it then has, or none where it is not there."""

import decimal
import itertools
import os
import re

BUDGET = 1000000


class Ends(Exception):
    """The command ends without its answer: with a status, where it is 3 with a number, of a file with a line, and with what was written before."""

    def __init__(self, status, number=None, line=None, out=b""):
        super().__init__(status, number)
        self.status, self.number, self.line, self.out = status, number, line, out


def refuse_if(condition, number):
    if condition:
        raise Ends(3, number)


class Refused(int):
    """The number of a file's refusal, and the line that decides."""

    def __new__(cls, number, line):
        self = super().__new__(cls, number)
        self.line = line
        return self


def accepted(got):
    """What was read, unless it was refused."""
    if isinstance(got, Refused):
        raise Ends(3, int(got), got.line)
    return got


# --- sets of pairs; a table is G, L and a set of pairs (g, c)


def is_chain(pairs):
    return all((g, d) in pairs or (h, c) in pairs for (g, c) in pairs for (h, d) in pairs)


def turned(pairs):
    return frozenset((c, g) for (g, c) in pairs)


def widest(order, others, pairs):
    """For numbers in an order, each with what it and all before it have in common: a chain."""
    left, chain = set(others), set()
    for x in order:
        left &= {y for y in others if (x, y) in pairs}
        chain |= {(x, y) for y in left}
    return frozenset(chain)


def ladders(table):
    """Every chain lies in the widest chain of some order of the gauges; as well of the cases, whichever are fewer."""
    gauges, cases, pairs = table
    if cases < gauges:
        return [turned(s) for s in ladders((cases, gauges, turned(pairs)))]
    made = {widest(order, range(1, cases + 1), pairs) for order in itertools.permutations(range(1, gauges + 1))}
    return [s for s in made if not any(s < t for t in made)]


def sequence(ladder, by_cases, place):
    """Of those not yet taken the one with most pairs there, the lowest place on a tie; and so on."""
    numbers = [pair[by_cases] for pair in ladder]
    return tuple(sorted(set(numbers), key=lambda x: (-numbers.count(x), place[x])))


def rivals(table, pair):
    (g, c), pairs = pair, table[2]
    return frozenset((h, d) for (h, d) in pairs if h != g and d != c and (g, d) not in pairs and (h, c) not in pairs)


def decides(table, pair):
    return not any(rivals(table, pair) < rivals(table, other) for other in table[2])


def listing(table, by_cases, order, needed):
    """The list: sequences and ladders, in order."""
    place = {x: i for i, x in enumerate(order)}
    deciding = {pair for pair in table[2] if decides(table, pair)}
    kept = [s for s in ladders(table) if not needed or s & deciding]
    return sorted(((sequence(s, by_cases, place), s) for s in kept), key=lambda entry: [place[x] for x in entry[0]])


def flipped(table, pair):
    return table[0], table[1], table[2] ^ {pair}


# --- the file


def read(data, either):
    """A refusal, or kind, G, L, entries with readings, comments."""
    if len(data) > 65536:
        return Refused(1, 0)
    lines = data.split(b"\n")
    ended = [line[:-1] if line.endswith(b"\r") else line for line in lines[:-1]] + lines[-1:] * (lines[-1] != b"" or len(lines) == 1)
    banner = re.fullmatch(rb"%%MatrixMarket (?i:matrix coordinate (pattern|integer) general)", ended[0])
    if not banner or (banner[1].lower() == b"integer" and not either):
        return Refused(2, 1)
    integer = banner[1].lower() == b"integer"
    size, entries, comments = None, {}, []
    for n, line in enumerate(ended[1:], 2):
        if len(line) > 1024:
            return Refused(3, n)
        if size is None and line.startswith(b"%"):
            comments.append(line)
            continue
        fields = [field for field in re.split(rb"[ \t]+", line) if field]
        if not fields:
            continue
        if size is None:
            if len(fields) != 3 or not all(re.fullmatch(rb"[0-9]{1,9}", field) for field in fields):
                return Refused(4, n)
            size = [int(field) for field in fields]
            if not (1 <= size[0] <= 64 and 1 <= size[1] <= 64):
                return Refused(5, n)
            continue
        forms = [rb"[0-9]{1,9}"] * 2 + [rb"[+-]?[0-9]{1,9}"] * integer
        if len(fields) != len(forms) or not all(re.fullmatch(form, field) for form, field in zip(forms, fields)):
            return Refused(6, n)
        g, c, v = int(fields[0]), int(fields[1]), int(fields[2]) if integer else 0
        if not (1 <= g <= size[0] and 1 <= c <= size[1]):
            return Refused(7, n)
        if abs(v) > 1000000:
            return Refused(20, n)
        if (g, c) in entries:
            return Refused(8, n)
        if len(entries) == size[2]:
            return Refused(9, n)
        entries[g, c] = v
    if size is None:
        return Refused(4, len(ended) + 1)
    if len(entries) < size[2]:
        return Refused(9, len(ended) + 1)
    return "integer" if integer else "pattern", size[0], size[1], entries, comments


def written(gauges, cases, entries, kind="pattern"):
    lines = ["%%%%MatrixMarket matrix coordinate %s general" % kind, "%d %d %d" % (gauges, cases, len(entries))]
    lines += ["%d %d" % pair + (" %d" % entries[pair] if kind == "integer" else "") for pair in sorted(entries)]
    return "".join(line + "\n" for line in lines)


def write(table):
    return written(*table)


# --- words and options

RUNS = {"--by-cases", "--needed", "--prefer", "--cutoff"}
COMMANDS = {  # arguments with the file, how many more, whether the first is a file, options
    "list": (1, 0, True, RUNS | {"--budget", "--part", "--picks", "--save", "--resume"}),
    "check": (1, 1, True, RUNS | {"--part", "--picks"}),
    "ladder": (1, 1, True, RUNS - {"--needed"}),
    "parts": (2, 0, True, RUNS),
    "join": (2, 10**9, False, {"--cutoff", "--again"}),
    "count": (1, 0, True, RUNS | {"--budget", "--part", "--parts"}),
    "judge": (2, 0, True, {"--cutoff"}),
    "grow": (2, 0, True, {"--prefer", "--cutoff"}),
    "rivals": (2, 0, True, {"--cutoff"}),
    "explain": (3, 0, True, RUNS),
    "cover": (1, 0, True, {"--cutoff", "--budget"}),
    "order": (3, 0, True, {"--cutoff"}),
    "trial": (3, 0, True, {"--cutoff"}),
    "commit": (2, 0, True, {"--cutoff"}),
    "make": (4, 0, False, set()),
    "comments": (1, 1, True, set()),
    "convert": (1, 0, True, {"--cutoff"}),
    "import": (1, 0, True, set()),
    "equal": (2, 0, True, set()),
    "show": (1, 1, True, RUNS),
}
FLAGS = {"--by-cases", "--needed", "--picks", "--again"}
VALUED = {"--prefer", "--cutoff", "--budget", "--part", "--parts", "--save", "--resume"}
SAVED = {}


def wanted(form, text):
    if not re.fullmatch(form, text):
        raise Ends(2)
    return text


def number(text):
    return int(wanted("[0-9]+", text))


def parts_of(text):
    if not 1 <= number(text) <= 1000000:
        raise Ends(2)
    return number(text)


def numbers(text):
    return [int(x) for x in wanted("[0-9]+(,[0-9]+)*", text).split(",")]


def pair_of(text):
    return tuple(int(x) for x in wanted("[0-9]+:[0-9]+", text).split(":"))


def is_option(word):
    return word.startswith("-") and word != "-"


class Request:
    def __init__(self, words, standard_input):
        at = 0
        while at < len(words) and is_option(words[at]) and words[at] != "--":
            at += 2 if words[at] in VALUED else 1
        if at >= len(words) or words[at] not in COMMANDS:
            raise Ends(2)
        self.name, self.word, self.option, self.input = words[at], [], {}, standard_input
        least, more, reads, options = COMMANDS[self.name]
        self.take(words[:at] + words[at + 1 :], options, least + more)
        if reads and len(self.word) == least - 1:
            self.word.insert(0, "-")
        if len(self.word) < least:
            raise Ends(2)
        self.cutoff = number(self.option["--cutoff"]) if "--cutoff" in self.option else None
        self.parts = parts_of(self.option["--parts"]) if "--parts" in self.option else None
        self.budget = number(self.option.get("--budget", str(BUDGET)))
        self.prefer = numbers(self.option["--prefer"]) if "--prefer" in self.option else None
        self.by_cases, self.needed = "--by-cases" in self.option, "--needed" in self.option

    def take(self, words, options, most):
        words, ended = list(words), False
        while words:
            word = words.pop(0)
            if not ended and word == "--":
                ended = True
            elif not ended and is_option(word):
                name, equals, value = word.partition("=")
                if name not in options or name in self.option or (equals and name in FLAGS) or (name not in FLAGS and not equals and not words):
                    raise Ends(2)
                self.option[name] = "" if name in FLAGS else value if equals else words.pop(0)
            else:
                self.word.append(word)
                if len(self.word) > most:
                    raise Ends(2)

    def bytes_of(self, word):
        if word == "-":
            if self.input is None:
                raise Ends(2)
            data, self.input = self.input, None
            return data
        if not os.path.isfile(word):
            raise Ends(1)
        with open(word, "rb") as file:
            return file.read()

    def table(self):
        data = self.bytes_of(self.word[0])
        refuse_if(self.cutoff is not None and not 1 <= self.cutoff <= 1000000, 21)
        kind, gauges, cases, entries, _ = accepted(read(data, self.cutoff is not None))
        return gauges, cases, frozenset(p for p, v in entries.items() if kind == "pattern" or abs(v) >= self.cutoff)

    def chain(self, word):
        """The G of the file, and its pairs."""
        got = accepted(read(self.bytes_of(word), False))
        return got[1], frozenset(got[3])

    def order(self, count):
        order = list(range(1, count + 1)) if self.prefer is None else self.prefer
        refuse_if(sorted(order) != list(range(1, count + 1)), 27)
        return order


def check_chain(table, chain):
    refuse_if(chain[0] != table[0], 12)
    refuse_if(not chain[1] <= table[2], 13)
    return chain[1]


# --- the subcommands


def sum_of(data):
    total = 0xCBF29CE484222325
    for byte in data:
        total = (total ^ byte) * 0x100000001B3 % 2**64
    return "%016x" % total


def checksum(table):
    rows = [sum(1 << (c - 1) for (g, c) in table[2] if g == i) for i in range(1, 65)]
    return sum_of(b"".join(word.to_bytes(8, "little") for word in [table[0], table[1]] + rows))


def part_of(line, table):
    """The options and the picks of a part's line."""
    form = "([0-9a-f]{16})/(gauges|cases)/(all|needed)/(plain|[0-9,]+)/(-|[0-9,]+)"
    fields = re.fullmatch(form, line)
    refuse_if(not fields, 101)
    lists = [field for field in (fields[4], fields[5]) if field not in ("plain", "-")]
    refuse_if(not all(re.fullmatch("[0-9]+(,[0-9]+)*", field) and field.count(",") < 64 for field in lists), 101)
    picks = () if fields[5] == "-" else tuple(int(x) for x in fields[5].split(","))
    refuse_if(any(x > 64 for x in picks), 101)
    refuse_if(fields[1] != checksum(table), 102)
    by_cases = fields[2] == "cases"
    order = list(range(1, table[by_cases] + 1)) if fields[4] == "plain" else [int(x) for x in fields[4].split(",")]
    refuse_if(sorted(order) != list(range(1, table[by_cases] + 1)), 27)
    whole = listing(table, by_cases, order, False)
    refuse_if(not any(picks == s[: len(picks)] for s, _ in whole), 15)
    return by_cases, order, fields[3] == "needed", picks


def asked(r):
    """The list that is asked for, or the part: sequences and ladders; and the side, the order and the picks of the part."""
    if "--part" in r.option and (r.by_cases or r.needed or r.prefer):
        raise Ends(2)
    table = r.table()
    if "--part" in r.option:
        by_cases, order, needed, picks = part_of(r.option["--part"], table)
    else:
        by_cases, order, needed, picks = r.by_cases, r.order(table[r.by_cases]), r.needed, ()
    return table, [(p, s) for p, s in listing(table, by_cases, order, needed) if p[: len(picks)] == picks], by_cases, order, picks


def picks_line(p):
    return (",".join(map(str, p)) or "-") + "\n"


class Listing:
    """A list or part that is written: what its line says, where its run stands, and what was written so far."""

    def __init__(self, r, line, table):
        self.table, self.of_part, self.picks = table, "--part" in r.option, "--picks" in r.option
        self.by_cases, self.order, self.needed, self.part = part_of(line, table)
        self.line = "/".join([checksum(table), "cases" if self.by_cases else "gauges", "needed" if self.needed else "all",
                              "plain" if line.split("/")[3] == "plain" else ",".join(map(str, self.order)), picks_line(self.part)[:-1]])
        self.whole = listing(table, self.by_cases, self.order, False)
        self.kept = dict(listing(table, self.by_cases, self.order, self.needed))
        self.state, self.ladders, self.bytes, self.sum = ("down", self.part, 0), 0, 0, sum_of(b"")

    def following(self, picks):
        """The picks behind these, in the order of the run."""
        return sorted({p[len(picks)] for p, _ in self.whole if p[: len(picks)] == picks and len(p) > len(picks)}, key=self.order.index)

    def moved(self, state):
        """The state after one more move: rules 1 to 5 of the manual."""
        phase, picks, back = state
        behind = self.following(picks)
        if phase == "down":
            return ("down", picks + (behind[0],), 0) if behind else ("handed", picks, 0)
        later = behind[behind.index(back) + 1 :] if phase == "back" else []
        if later:
            return "down", picks + (later[0],), 0
        return ("back", picks[:-1], picks[-1]) if picks and phase != "ended" else ("ended", (), 0)

    def within(self):
        return self.state[0] != "ended" and self.state[1][: len(self.part)] == self.part

    def run(self, budget):
        """What so many moves write; the moves that are left, none where the list is not at its end then."""
        out = ""
        while budget and self.within():
            budget -= 1
            self.state = self.moved(self.state)
            if self.state[0] == "handed" and self.state[1] in self.kept:
                ladder = self.kept[self.state[1]]
                out += picks_line(self.state[1]) if self.picks else write((*self.table[:2], ladder))
                self.ladders += 1
        self.bytes += len(out)
        return out, not self.within()

    def text(self):
        """What is saved of it."""
        phase = self.state[0] + (" %d" % self.state[2] if self.state[0] == "back" else "")
        head = "ragymolev run 1\npart %s\nof %s\nwrites %s\n" % (self.line, "part" if self.of_part else "list", "picks" if self.picks else "ladders")
        text = head + "phase %s\npicks %sladders %d\nbytes %d\nsum %s\n" % (phase, picks_line(self.state[1]), self.ladders, self.bytes, self.sum)
        return text + "check %s\n" % sum_of(text.encode())


def add_sum(total, data):
    total = int(total, 16)
    for byte in data:
        total = (total ^ byte) * 0x100000001B3 % 2**64
    return "%016x" % total


def resumed(r, table):
    """The listing of a saved run; 15 for everything that is not as it was saved."""
    data = r.bytes_of(r.option["--resume"])[:65537]
    form = (rb"ragymolev run 1\npart ([^\n]*)\nof (part|list)\nwrites (ladders|picks)\nphase (down|handed|ended|back ([0-9]+))\npicks (-|[0-9,]+)\n"
            rb"ladders ([0-9]+)\nbytes ([0-9]+)\nsum ([0-9a-f]{16})\ncheck ([0-9a-f]{16})\n")
    fields = re.fullmatch(form, data)
    refuse_if(not fields or fields[10].decode() != sum_of(data[: data.rindex(b"check ")]), 15)
    picks = picks_in(fields[6].decode())
    refuse_if(picks is None, 15)
    try:
        it = Listing(r, fields[1].decode("latin-1"), table)
    except Ends as end:
        raise Ends(3, 15 if end.number == 101 else end.number)
    it.of_part, it.picks = fields[2] == b"part", fields[3] == b"picks"
    it.state = fields[4].split()[0].decode(), picks, int(fields[5] or 0)
    it.ladders, it.bytes, it.sum = int(fields[7]), int(fields[8]), fields[9].decode()
    state, states = ("down", (), 0), []
    while state not in states:
        states.append(state)
        state = it.moved(state)
    refuse_if(it.text().encode() != data or it.ladders >= 2**64 or it.bytes >= 2**64 or it.state not in states or it.state[1][: len(it.part)] != it.part, 15)
    return it


def started(r):
    """The listing that is asked for."""
    given = {"--by-cases", "--needed", "--prefer", "--part", "--picks"} & set(r.option)
    if r.option.get("--save") in ("", "-") or ("--resume" in r.option and given) or ("--part" in r.option and given - {"--part", "--picks"}):
        raise Ends(2)
    table = r.table()
    if "--resume" in r.option:
        return resumed(r, table)
    order = ",".join(map(str, r.order(table[r.by_cases]))) if r.prefer else "plain"
    whole = "/".join([checksum(table), "cases" if r.by_cases else "gauges", "needed" if r.needed else "all", order, "-"])
    return Listing(r, r.option.get("--part", whole), table)


def do_list(r):
    it, save = started(r), r.option.get("--save")
    if save and os.path.lexists(save) and not (os.path.isfile(r.option.get("--resume", "")) and os.path.samefile(save, r.option["--resume"])):
        raise Ends(1)
    out, complete = it.run(r.budget if "--budget" in r.option else 2**64)
    it.sum = add_sum(it.sum, out.encode())
    if save:
        SAVED[save] = None if complete else it.text().encode()
    if not complete:
        raise Ends(4, None, None, out.encode())
    return out + ("%% whole %s %s %d bytes %d sum %s\n" % (it.line, "picks" if it.picks else "ladders", it.ladders, it.bytes, it.sum) if it.of_part else "")


def picks_in(text):
    """A pick sequence as it is typed; none for anything else."""
    if text == "-":
        return ()
    return tuple(int(x) for x in text.split(",")) if re.fullmatch("[0-9]+(,[0-9]+)*", text) and text.count(",") < 64 else None


def what_picks_are(entries, picks):
    """The ladder of a sequence; or the refusal, and a pick that may follow."""
    if not any(picks == p[: len(picks)] for p, _ in entries):
        return 15, None
    following = [p[len(picks)] for p, _ in entries if p[: len(picks)] == picks and len(p) > len(picks)]
    return (105, following[0]) if following else (0, next(s for p, s in entries if p == picks))


def do_ladder(r):
    one = len(r.word) == 2 and r.word[1] != "-"
    if one and picks_in(r.word[1]) is None:
        raise Ends(2)
    table = r.table()
    entries = listing(table, r.by_cases, r.order(table[r.by_cases]), False)
    lines = [r.word[1]] if one else [line.strip(b" \t\r").decode("latin-1") for line in r.bytes_of("-").split(b"\n") if not line.startswith(b"%")]
    out = ""
    for line in lines:
        if not line:
            continue
        picks = picks_in(line)
        why, ladder = what_picks_are(entries, picks) if picks is not None else (104, None)
        if why:
            raise Ends(3, why, None, out.encode())
        out += write((table[0], table[1], ladder))
    return out


def split(sequences, order, enough):
    """The part with most ladders is split, the first of them on a tie: until there are enough, and then on, up to 16 times as many, until the largest has
    at most three times the mean; where it never has, the first number of parts is taken at which it was least. One of a single ladder is never split."""
    ladders_in = lambda p: sum(s[: len(p)] == p for s in sequences)
    parts, best = [()], None
    while True:
        p = max(parts, key=ladders_in)
        uneven = ladders_in(p) * len(parts) / len(sequences)
        if ladders_in(p) == 1 or (len(parts) >= enough and uneven <= 3):
            return parts
        if len(parts) >= enough and (best is None or uneven < best[0]):
            best = (uneven, list(parts))
        if len(parts) >= min(16 * enough, 1000000):
            return best[1]
        i = parts.index(p)
        parts[i : i + 1] = sorted({s[: len(p) + 1] for s in sequences if s[: len(p)] == p}, key=lambda s: order.index(s[-1]))


def split_of(r, enough):
    """The lines of the parts, and the ladders of each that are listed."""
    table = r.table()
    order = r.order(table[r.by_cases])
    preference = ",".join(map(str, order)) if r.prefer else "plain"
    head = "/".join([checksum(table), "cases" if r.by_cases else "gauges", "needed" if r.needed else "all", preference])
    kept = [p for p, _ in listing(table, r.by_cases, order, r.needed)]
    for p in split([s for s, _ in listing(table, r.by_cases, order, False)], order, enough):
        yield head + "/" + picks_line(p)[:-1], sum(s[: len(p)] == p for s in kept)


def do_parts(r):
    enough = parts_of(r.word[1])
    return "".join(line + "\n" for line, _ in split_of(r, enough))


def of(n, what):
    return "%d %s%s" % (n, what, "" if n == 1 else "s")


def count_parts(r):
    if "--part" in r.option or "--budget" in r.option:
        raise Ends(2)
    counts = list(split_of(r, r.parts))
    total = "total %s in %s\n" % (of(sum(n for _, n in counts), "ladder"), of(len(counts), "part"))
    return "".join("%s %d\n" % count for count in counts) + total


def do_count(r):
    if r.parts is not None:
        return count_parts(r)
    if "--part" in r.option:
        it = started(r)
        if not it.run(r.budget if "--budget" in r.option else 2**64)[1]:
            raise Ends(4)
        return of(it.ladders, "ladder") + "\n"
    if r.by_cases or r.needed:
        raise Ends(2)
    table = r.table()
    sequences = [p for p, _ in listing(table, False, r.order(table[0]), False)]
    refuse_if(r.budget > BUDGET, 18)
    calls = len({p[:i] for p in sequences for i in range(len(p) + 1)})
    if calls > r.budget:
        raise Ends(4)
    return of(len(sequences), "ladder") + ", " + of(calls, "call") + "\n"


def do_judge(r):
    table = r.table()
    chain = check_chain(table, r.chain(r.word[1]))
    return "ladder\n" if chain in ladders(table) else "chain\n" if is_chain(chain) else "no chain\n"


def do_grow(r):
    table, chain = r.table(), r.chain(r.word[1])
    order = r.order(table[0])
    pairs = check_chain(table, chain)
    refuse_if(not is_chain(pairs), 14)
    return write((table[0], table[1], next(s for _, s in listing(table, False, order, False) if pairs <= s)))


def do_rivals(r):
    pair = pair_of(r.word[1])
    table = r.table()
    refuse_if(pair not in table[2], 19)
    first, rest = write((table[0], table[1], rivals(table, pair))).split("\n", 1)
    return "%s\n%% rivals of %d:%d, which %s\n%s" % (first, *pair, "decides" if decides(table, pair) else "does not decide", rest)


def ladder_named(r, table, order, by_number, chain):
    """The sequence and the ladder of a number in the list, or of a chain."""
    entries = listing(table, r.by_cases, order, r.needed and by_number)
    if by_number:
        refuse_if(not 1 <= int(r.word[1]) <= len(entries), 103)
        return entries[int(r.word[1]) - 1]
    ladder = check_chain(table, chain)
    found = [entry for entry in entries if entry[1] == ladder]
    refuse_if(not found, 25)
    return found[0]


def do_show(r):
    table, ladder = r.table(), frozenset()
    gauges, cases = list(range(1, table[0] + 1)), list(range(1, table[1] + 1))
    if len(r.word) == 2:
        by_number = re.fullmatch("[0-9]+", r.word[1])
        chain = None if by_number else r.chain(r.word[1])
        order = r.order(table[r.by_cases])
        ladder = ladder_named(r, table, order, by_number, chain)[1]
        place = {x: i for i, x in enumerate(order)}
        plain = {x: x for x in range(1, 65)}
        first = [sequence(ladder, side, place if side == r.by_cases else plain) for side in (False, True)]
        gauges = list(first[0]) + [g for g in gauges if g not in first[0]]
        cases = list(first[1]) + [c for c in cases if c not in first[1]]
    lines = ["    " + "".join(" %2d" % c for c in cases)]
    lines += ["%3d " % g + "".join("  " + ("#" if (g, c) in ladder else "o" if (g, c) in table[2] else ".") for c in cases) for g in gauges]
    lines += ["gauges down, cases across: " + ("# a pair of the ladder, o one that it leaves out, . no pair" if len(r.word) == 2 else "o a pair, . none")]
    return "".join(line + "\n" for line in lines)


def do_explain(r):
    pair, by_number = pair_of(r.word[2]), re.fullmatch("[0-9]+", r.word[1])
    table = r.table()
    chain = None if by_number else r.chain(r.word[1])
    order = r.order(table[r.by_cases])
    refuse_if(by_number and pair not in table[2], 19)
    picks, ladder = ladder_named(r, table, order, by_number, chain)
    refuse_if(pair not in table[2], 19)
    refuse_if(pair in ladder, 22)
    lacks = lambda x: ((pair[0], x) if r.by_cases else (x, pair[1])) not in table[2]
    return "%s %d\n" % ("case" if r.by_cases else "gauge", next(x for x in picks if lacks(x)))


def cover(entries, uncovered, k, tried, budget):
    """The rule of R-7: the ladders found, or none; `tried` counts."""
    if not uncovered:
        return []
    for s in entries if k else []:
        if min(uncovered) in s:
            if tried[0] == budget:
                raise Ends(4)
            tried[0] += 1
            rest = cover(entries, uncovered - s, k - 1, tried, budget)
            if rest is not None:
                return [s] + rest
    return None


def do_cover(r):
    table = r.table()
    refuse_if(r.budget > BUDGET, 18)
    refuse_if(table[0] > 8 or table[1] > 8, 23)
    entries = [s for _, s in listing(table, False, range(1, table[0] + 1), False)]
    refuse_if(len(entries) > 1024, 24)
    tried = [0]
    found = next(c for c in (cover(entries, table[2], k, tried, r.budget) for k in itertools.count()) if c is not None)
    return "%s, %d tried\n" % (of(len(found), "ladder"), tried[0]) + "".join(write((table[0], table[1], s)) for s in found)


def do_order(r):
    table, chain, ladder = r.table(), r.chain(r.word[1]), r.chain(r.word[2])
    chain = check_chain(table, chain)
    refuse_if(not is_chain(chain), 14)
    ladder = check_chain(table, ladder)
    refuse_if(ladder not in ladders(table) or not chain <= ladder, 25)
    lines = ""
    while chain != ladder:
        pair = next(p for p in sorted(ladder - chain) if is_chain(chain | {p}))
        chain |= {pair}
        lines += "%d:%d\n" % pair
    return lines


def proposal(table, ladder, place):
    new = flipped(table, place)
    verdict = "no longer within the table" if not ladder <= new[2] else "still a ladder" if ladder in ladders(new) else "only a chain"
    return "ragymolev proposal\nverdict %s\nplace %d:%d\ntable\n%sladder\n%s" % (verdict, *place, write(table), write((table[0], table[1], ladder)))


def do_trial(r):
    place = pair_of(r.word[2])
    table, ladder = r.table(), r.chain(r.word[1])
    refuse_if(not (1 <= place[0] <= table[0] and 1 <= place[1] <= table[1]), 7)
    ladder = check_chain(table, ladder)
    refuse_if(ladder not in ladders(table), 25)
    return proposal(table, ladder, place)


def do_commit(r):
    """A proposal that a trial on the table gives, as the trial writes it. Another form of the same files is not tried here."""
    table = r.table()
    data = r.bytes_of(r.word[1]).decode("latin-1")
    place = re.search("\nplace ([0-9]{1,3}):([0-9]{1,3})\n", data)
    refuse_if(not place, 26)
    place = int(place[1]), int(place[2])
    inside = 1 <= place[0] <= table[0] and 1 <= place[1] <= table[1]
    refuse_if(not inside or all(proposal(table, s, place) != data for s in ladders(table)), 26)
    return write(flipped(table, place))


def do_make(r):
    gauges, cases, state, density = (number(word) for word in r.word)
    refuse_if(not (1 <= gauges <= 64 and 1 <= cases <= 64), 10)
    refuse_if(state == 0 or density > 256, 28)
    pairs = set()
    for place in itertools.product(range(1, gauges + 1), range(1, cases + 1)):
        state ^= state << 13 & 2**64 - 1
        state ^= state >> 7
        state ^= state << 17 & 2**64 - 1
        if state % 256 < density:
            pairs.add(place)
    return write((gauges, cases, pairs))


def do_comments(r):
    only = number(r.word[1]) if len(r.word) == 2 else None
    got = accepted(read(r.bytes_of(r.word[0]), True))
    refuse_if(only is not None and not 1 <= only <= len(got[4]), 17)
    return b"".join(line + b"\n" for k, line in enumerate(got[4], 1) if only in (None, k))


def do_convert(r):
    if r.cutoff is not None:
        return write(r.table())
    got = accepted(read(r.bytes_of(r.word[0]), True))
    return written(got[1], got[2], got[3], got[0])


def do_equal(r):
    a, b = (accepted(read(r.bytes_of(word), True)) for word in r.word)
    return (0, "equal\n") if a[:4] == b[:4] else (5, "not equal\n")


# --- lists that are checked


def entries_of(data, picks):
    """Line and text of each entry."""
    lines = data.split(b"\n")
    if picks:
        return [(n, line.strip(b" \t\r")) for n, line in enumerate(lines, 1) if line.strip(b" \t\r") and not line.startswith(b"%")]
    whole = re.compile(rb"%[ \t]+whole[ \t]+[^ \t]+[ \t]+(ladders|picks)[ \t]+[0-9]+[ \t]+bytes[ \t]+[0-9]+[ \t]+sum[ \t]+[0-9a-f]{16}[ \t]*\r*")
    entries, within = [], False
    for n, line in enumerate(lines):
        ended = line + b"\n" * (n + 1 < len(lines))
        if whole.fullmatch(line):  # the last line of a part stands between entries
            within = False
        elif re.match(rb"(\xef\xbb\xbf)?%%matrixmarket", line, re.IGNORECASE) or (not within and line.strip(b" \t\r")):
            entries.append([n + 1, ended])
            within = True
        elif within:
            entries[-1][1] += ended
    return [(n, text) for n, text in entries]


def fault_of(table, chain, found):
    """What is wrong with a set that is no ladder."""
    gauges, pairs = chain
    if gauges != table[0]:
        return "not of this table: the file has %d gauges, the table %d" % (gauges, table[0])
    if not pairs <= table[2]:
        return "not of this table: %d:%d" % min(pairs - table[2])
    row = lambda g: {c for (h, c) in pairs if h == g}
    for g, h in itertools.combinations(range(1, gauges + 1), 2):
        if row(g) - row(h) and row(h) - row(g):
            return "no chain: %d:%d and %d:%d clash" % (g, min(row(g) - row(h)), h, min(row(h) - row(g)))
    ladder = next(s for _, s in found if pairs <= s)
    return "a chain and no ladder: %d:%d can be added" % next(p for p in sorted(ladder - pairs) if is_chain(pairs | {p}))


def judged(table, everything, plainly, line, text, picks):
    """The line and the fault of an entry, or its ladder."""
    if not picks:
        got = read(text, False)
        if isinstance(got, Refused):
            return line + max(got.line, 1) - 1, "unreadable: refused %d" % got, None
        pairs = frozenset(got[3])
        if got[1] == table[0] and any(pairs == s for _, s in everything):
            return line, None, pairs
        return line, fault_of(table, (got[1], pairs), plainly), None
    sequence_typed = picks_in(text.decode("latin-1"))
    if sequence_typed is None:
        return line, "unreadable: refused 104", None
    why, what = what_picks_are(everything, sequence_typed)
    if why == 15:
        return line, "not of this table: no ladder begins with these picks", None
    return (line, "a chain and no ladder: pick %d can be added" % what, None) if why else (line, None, what)


def do_check(r):
    table, due, by_cases, order, part = asked(r)
    everything, plainly = listing(table, by_cases, order, False), listing(table, False, range(1, table[0] + 1), False)
    place_of = {s: i for i, (_, s) in enumerate(everything)}
    picks = "--picks" in r.option
    word = r.word[1] if len(r.word) == 2 else "-"
    name = "standard input" if word == "-" else word
    first, seen, faults, highest, descends = {}, [], [], -1, None
    for number_of_entry, (line, text) in enumerate(entries_of(r.bytes_of(word), picks), 1):
        line, fault, ladder = judged(table, everything, plainly, line, text, picks)
        seen.append(fault)
        place = -1
        if ladder is not None:
            place = place_of[ladder]
            if descends is None and place < highest:
                descends = number_of_entry
            highest = max(highest, place)
            if ladder in first:
                fault = "repeated: the same as entry %d, line %d" % first[ladder]
            elif all(ladder != s for _, s in due):
                inside = everything[place][0][: len(part)] == part
                fault = "a ladder of another list: " + ("it holds no deciding pair" if inside else "it is not of this part")
            first.setdefault(ladder, (number_of_entry, line))
            seen[-1] = fault
        if fault:
            faults.append((number_of_entry, place, "%s:%d: entry %d: %s\n" % (name, line, number_of_entry, fault)))
    if descends:
        faults.sort(key=lambda f: (0, f[0]) if f[0] < descends else (1, f[0]) if f[1] < 0 else (2, f[1], f[0]))
    missing = [(p, s) for p, s in due if s not in first]
    if not faults and not missing:
        return 0, "complete: %s, each once\n" % of(len(due), "ladder")
    return 5, "".join(f[2] for f in faults) + missing_text(table, missing, picks) + counted(len(due), len(missing), seen)


def missing_text(table, missing, picks):
    if not missing:
        return ""
    more = ", the first 10 here and %d more" % (len(missing) - 10) if len(missing) > 10 else ""
    return "missing: %s%s\n" % (of(len(missing), "ladder"), more) + "".join(picks_line(p) if picks else write((table[0], table[1], s)) for p, s in missing[:10])


def counted(ladders_due, missing, seen):
    kinds = ["unreadable", "not of this table", "no chain", "a chain and no ladder", "repeated", "a ladder of another list"]
    counts = [(sum(1 for fault in seen if fault and fault.startswith(kind)), kind) for kind in kinds]
    entries = "1 entry" if len(seen) == 1 else "%d entries" % len(seen)
    head = "not complete" if missing else "not each once"
    return "%s: %s, %s: %d missing" % (head, of(ladders_due, "ladder"), entries, missing) + "".join(", %d %s" % c for c in counts if c[0]) + "\n"


# --- parts that are joined


def lines_of_parts(data, table):
    """Of each line the list that it is a part of, and its picks."""
    lines = data.decode("latin-1").split("\n")
    lines = lines[:-1] if lines[-1] == "" else lines
    found = []
    for n, line in enumerate(lines or [""], 1):
        try:
            by_cases, order, needed, picks = part_of(line, table)
        except Ends as end:
            raise Ends(3, end.number, n) from None
        found.append(((by_cases, tuple(order), needed), picks, line))
    return found


def outputs_of(data, table, of_list, parts):
    """Picks, kind and text of each output that is whole and of some part; and whether there was anything else."""
    found, faulty, body = [], not data, b""
    for line in data.splitlines(True) if b"\r" not in data else re.findall(rb"[^\n]*\n|[^\n]+$", data):
        if not line.startswith(b"% "):
            body += line
            continue
        said = re.fullmatch(rb"% whole ([^ \n]+) (ladders|picks) (0|[1-9][0-9]*) bytes (0|[1-9][0-9]*) sum ([0-9a-f]{16})\n", line)
        try:
            by_cases, order, needed, picks = part_of(said[1].decode("latin-1") if said else "", table)
            entries = body.count(b"\n") if said[2] == b"picks" else len(re.findall(rb"^%%", body, re.MULTILINE))
            whole = (int(said[3]), int(said[4]), said[5].decode()) == (entries, len(body), sum_of(body))
            whole = whole and (by_cases, tuple(order), needed) == of_list and picks in parts
        except Ends:
            whole = False
        found += [(picks, said[2], body)] if whole else []
        faulty, body = faulty or not whole, b""
    return found, faulty or body != b""


def do_join(r):
    if "-" in r.word[2:]:
        raise Ends(2)
    table = r.table()
    lines = lines_of_parts(r.bytes_of(r.word[1]), table)
    of_list = lines[0][0]
    whole = [s for s, _ in listing(table, of_list[0], list(of_list[1]), False)]
    parts = {picks: line for _, picks, line in lines}
    # Every ladder begins with one line, and no line is there twice.
    if any(l != of_list for l, _, _ in lines) or any(sum(s[: len(p)] == p for _, p, _ in lines) != 1 for s in whole):
        return 5, ""
    found, faulty = [], False
    for word in r.word[2:]:
        more, wrong = outputs_of(r.bytes_of(word), table, of_list, parts) if os.path.exists(word) else ([], True)
        found, faulty = found + more, faulty or wrong
    kinds = [kind for _, kind, _ in found]
    most = b"picks" if 2 * kinds.count(b"picks") > len(kinds) else b"ladders"
    there = {picks: text for picks, kind, text in found if kind == most}
    in_order = sorted(parts, key=lambda p: [of_list[1].index(x) for x in p])
    again = "".join(parts[p] + "\n" for p in in_order if p not in there)
    if "--again" in r.option:
        return (5 if again else 0), again
    return (5, "") if faulty or again or len(found) != len(parts) else (0, b"".join(there[p] for p in in_order))


# --- files of other programs


def reading_of(text):
    """A decimal number cut towards zero; none for anything else."""
    if not re.fullmatch(rb"[+-]?([0-9]+\.?[0-9]*|\.[0-9]+)([eEdD][+-]?[0-9]{1,9})?", text):
        return None
    with decimal.localcontext() as exactly:
        exactly.prec, exactly.Emax, exactly.Emin = 400, 999999999, -999999999
        number_read = decimal.Decimal(text.decode().lower().replace("d", "e"))
        return 10**9 if number_read.adjusted() > 30 and number_read else int(number_read)


def imported(data):
    """A refusal, or kind, G, L and entries."""
    lines = re.split(rb"\r\n|\r|\n", data[3:] if data.startswith(b"\xef\xbb\xbf") else data)
    lines = lines[:-1] if lines[-1] == b"" else lines
    words = [word.lower() for word in re.split(rb"[ \t]+", lines[0]) if word] if lines else []
    if len(words) < 5 or words[:2] != [b"%%matrixmarket", b"matrix"] or words[2] not in (b"coordinate", b"array"):
        return Refused(2, 1)
    if words[3] not in (b"pattern", b"integer", b"real", b"double") or words[4] not in (b"general", b"symmetric", b"skew-symmetric"):
        return Refused(2, 1)
    array, readings, mirrored, skew = words[2] == b"array", words[3] != b"pattern", words[4] != b"general", words[4] == b"skew-symmetric"
    if array and not readings:
        return Refused(2, 1)
    kept = [(n, [f for f in re.split(rb"[ \t]+", line) if f]) for n, line in enumerate(lines[1:], 2) if not line.startswith(b"%")]
    kept = [(n, fields) for n, fields in kept if fields]
    end = len(lines) + 1
    if not kept or len(kept[0][1]) != (2 if array else 3) or not all(re.fullmatch(rb"[0-9]+", f) for f in kept[0][1][:2]):
        return Refused(4, kept[0][0] if kept else end)
    (at, size), rest = kept[0], kept[1:]
    gauges, cases = int(size[0]), int(size[1])
    if not (1 <= gauges <= 64 and 1 <= cases <= 64) or (mirrored and gauges != cases):
        return Refused(5, at)
    if not array and not re.fullmatch(rb"[0-9]+", size[2]):
        return Refused(4, at)
    places = [(g, c) for c in range(1, cases + 1) for g in range(1, gauges + 1) if not mirrored or g > c or (g == c and not skew)]
    wanted_entries, entries, count = len(places) if array else int(size[2]), {}, 0
    for n, fields in rest:
        if len(fields) != (1 if array else 2 + readings):
            return Refused(6, n)
        if not array and not all(re.fullmatch(rb"[0-9]+", f) for f in fields[:2]):
            return Refused(6, n)
        value = reading_of(fields[-1]) if readings else 0
        if value is None:
            return Refused(6, n)
        if abs(value) > 1000000:
            return Refused(20, n)
        if array and count == wanted_entries:
            return Refused(9, n)
        g, c = places[count] if array else (int(fields[0]), int(fields[1]))
        if not (1 <= g <= gauges and 1 <= c <= cases) or (skew and g == c):
            return Refused(7, n)
        if count == wanted_entries:
            return Refused(9, n)
        count += 1
        for place, sign in {(g, c): 1, **({(c, g): -1 if skew else 1} if mirrored and g != c else {})}.items():
            if place in entries:
                return Refused(8, n)
            entries[place] = sign * value
    if count != wanted_entries:
        return Refused(9, end)
    return "integer" if readings else "pattern", gauges, cases, entries


def do_import(r):
    got = accepted(imported(r.bytes_of(r.word[0])))
    return written(got[1], got[2], got[3], got[0])


def answer(words, standard_input):
    """Exit status, standard output, number of the refusal, and its line."""
    SAVED.clear()
    try:
        request = Request(words, standard_input)
        out = globals()["do_" + request.name](request)
    except Ends as end:
        return end.status, end.out, end.number, end.line or None
    status, out = out if isinstance(out, tuple) else (0, out)
    return status, out if isinstance(out, bytes) else out.encode(), None, None
