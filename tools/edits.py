"""Reads the must-fail edits as text: their pieces, and which functions each piece changes.

An edit is a file crates/NAME/must-fail/LABEL.edit. A piece of it is a line `# name`, words of which the last line ends in "Fails: `f`.", and one or more
replacements: `file:` (which holds for what follows), `old:` and `new:`, a line each, for rt reads no second line. What stands above the first `# name`
is the head of the file. tools/edit-logs, tools/bundle and tools/names are built on it.

In order: pieces; functions and constants of a source file; the functions that a piece changes; calls among functions.
"""

import os
import re

ROOT = os.path.dirname(os.path.dirname(os.path.abspath(__file__)))


class Piece:
    def __init__(self, name):
        self.name, self.words, self.pairs = name, [], []

    @property
    def fails(self):
        """The functions or laws after "Fails: ": `f`, or `f`, `g` and `h`."""
        return fails(" ".join(self.words))

    @property
    def of_laws(self):
        return all(f.startswith("specs/") for f, _, _ in self.pairs)


def fails(words):
    found = re.search(r"Fails: (`[^`]+`(?:(?:,| and|, and) `[^`]+`)*)\.$", words)
    return re.findall(r"`([^`]+)`", found[1]) if found else []


def parse(text):
    """(pieces, faults) of an edit's text. A fault is a line that rt passes over and that is neither a head, nor a name, nor words."""
    pieces, faults, file, old, blank = [], [], "", None, True
    for number, line in enumerate(text.split("\n"), 1):
        if line.startswith("# "):
            pieces.append(Piece(line[2:].strip()))
        elif line.startswith("file: "):
            file = line[len("file: "):]
        elif line.startswith("old: "):
            old = line[len("old: "):]
        elif line.startswith("new:"):
            if not pieces or old is None:
                faults.append(f"line {number}: a replacement that belongs to no piece, or has no `old:`")
            else:
                new = line[len("new:"):]
                pieces[-1].pairs.append((file, old, new[1:] if new.startswith(" ") else new))
            old = None
        elif line.strip():
            if pieces and pieces[-1].pairs:
                faults.append(f"line {number}: rt passes over it, and it is no words of a piece: {line.strip()[:60]}")
            elif pieces:
                pieces[-1].words.append(line.strip())
    for piece in pieces:
        if not piece.pairs:
            faults.append(f"`{piece.name}` replaces nothing")
        if not piece.fails:
            faults.append(f"`{piece.name}` names no function or law (\"Fails: `f`.\" at the end of its words)")
        if len(" ".join(piece.words).split("Fails:")[0].split()) < 3:
            faults.append(f"`{piece.name}` does not say what it does")
    if not pieces:
        faults.append("it has no piece (a line `# name`)")
    return pieces, faults


def crates_with_edits(crates):
    return [c for c in sorted(os.listdir(crates)) if os.path.isdir(os.path.join(crates, c, "must-fail"))]


def edits(crates, crate):
    """(label, text) of each edit of a crate."""
    folder = os.path.join(crates, crate, "must-fail")
    for name in sorted(os.listdir(folder)) if os.path.isdir(folder) else []:
        if name.endswith(".edit"):
            with open(os.path.join(folder, name), encoding="utf-8") as file:
                yield name[: -len(".edit")], file.read()


# --- functions and constants of a source file


def blank(text):
    """The text with comments and strings blanked, of the same length."""
    return re.sub(r'//[^\n]*|b?"(?:\\.|[^"\\])*"|b?\'(?:\\.|[^\'\\])\'', lambda m: re.sub(r"[^\n]", " ", m[0]), text)


def module_of(path):
    """src/a/b.rt -> ('a', 'b'); lib.rt, main.rt -> ()."""
    parts = path[len("src/"): -len(".rt")].split("/")
    return tuple(parts[:-1] if parts[-1] in ("lib", "main", "mod") else parts)


USES = re.compile(r"^use \w+::(?:(\w+)|\{([^}]*)\});", re.M)


def brought(text):
    """The names that the `use` lines of a text bring in from other crates."""
    return {n for a, b in USES.findall(text) for n in re.findall(r"\w+", a or b)}


OWNERS_AND_ITEMS = re.compile(
    r"\bimpl(?:<[^>{]*>)?\s+(?:(?:\w+::)*(?P<of>\w+)(?:<[^>{]*>)?\s+for\s+)?(?P<type>\w+)(?:<[^>{]*>)?\s*\{"
    r"|\btrait\s+(?P<trait>\w+)[^{;]*\{|\bfn\s+(?P<fn>\w+)|\bconst\s+(?P<const>\w+)\s*:"
)


class Source:
    """The functions and constants of one file: spans of signatures and of bodies."""

    def __init__(self, path, text):
        self.path, self.text, self.plain = path, text, blank(text)
        self.functions, self.constants = [], []  # (name, start, body's start, body's end), (name, start, end)
        owner, owner_end = "", -1
        # what a line brings in from another crate, constants among it: (names, start, end)
        self.uses = [(brought(m[0]), m.start(), m.end() - 1) for m in USES.finditer(self.plain)]
        for m in OWNERS_AND_ITEMS.finditer(self.plain):
            if m.start() > owner_end:
                owner = ""
            if m["type"]:
                # rattle calls what an `impl` of a trait has by the type and the trait
                owner, owner_end = m["type"] + (m["of"] or ""), self.close(m.end() - 1)
            elif m["trait"]:
                owner, owner_end = m["trait"], self.close(m.end() - 1)
            elif m["fn"]:
                name = "::".join(module_of(path) + ((owner,) if owner else ()) + (m["fn"],))
                self.functions.append((name, m.start(), *self.body(m.end())))
            else:
                # a trait's constant has no value
                value = re.compile(r"[^=;]*=").match(self.plain, m.end())
                self.constants.append((m["const"], m.start(), self.plain.index(";", value.end() if value else m.end())))

    def close(self, at):
        depth = 0
        for i in range(at, len(self.plain)):
            depth += {"{": 1, "}": -1}.get(self.plain[i], 0)
            if depth == 0:
                return i
        return len(self.plain)

    def body(self, at):
        """The braces of a function's body; those of a clause follow `requires`, `ensures` or `ghost`, with a word at most."""
        while True:
            # a trait's function ends without a body
            bare = re.compile(r"[^{};]*;").match(re.sub(r"\[[^\]]*\]", lambda m: " " * len(m[0]), self.plain[at:at + 2000]))
            if bare:
                return at + bare.end() - 1, at + bare.end() - 1
            start = self.plain.index("{", at)
            end = self.close(start)
            if not re.search(r"\b(requires|ensures|ghost)\b\s*[\w\-']*\s*$", self.plain[at:start]):
                return start, end
            at = end + 1


def sources_of(crates, crate):
    base, found = os.path.join(crates, crate), {}
    for folder, _, files in os.walk(os.path.join(base, "src")):
        for name in files:
            if name.endswith(".rt"):
                path = os.path.relpath(os.path.join(folder, name), base)
                with open(os.path.join(folder, name), encoding="utf-8") as file:
                    found[path] = Source(path, file.read())
    return found


# --- the functions that a piece changes


def users(sources, constant):
    """The functions whose bodies name a constant, or None where a signature does."""
    found = set()
    for source in sources.values():
        for name, start, open_, close in source.functions:
            if re.search(r"\b" + constant + r"\b", source.plain[start:open_]):
                return None
            if re.search(r"\b" + constant + r"\b", source.plain[open_:close]):
                found.add(name)
    return found or None


def changed_by(sources, pair):
    """The functions that a replacement changes, or None where it changes something else than bodies and constants."""
    path, old, new = pair
    if path not in sources or sources[path].text.count(old) != 1:
        return None
    source = sources[path]
    start = source.text.index(old)
    end = start + len(old)
    for name, begin, open_, close in source.functions:
        if open_ <= start and end <= close + 1:
            return {name}
        if begin <= start < open_:
            return None
    for name, begin, last in source.constants:
        if begin - 4 <= start and end <= last + 1:
            return users(sources, name)
    for names, begin, last in source.uses:
        if begin == start and end == last + 1:
            # the constants that the line no longer brings in
            found = [users(sources, n) if n.isupper() else None for n in names - brought(new)]
            return set().union(*found) if found and None not in found else None
    return None


def changed(sources, piece):
    """The functions that a piece of code changes; None where one of its replacements is no part of a body or a constant."""
    found = set()
    for pair in piece.pairs:
        got = changed_by(sources, pair)
        if got is None:
            return None
        found |= got
    return found


# --- calls among the functions of a crate


def calls(sources):
    """For each function the functions of its crate that its body calls."""
    bodies = {name: s.plain[open_:close] for s in sources.values() for name, _, open_, close in s.functions}
    found = {}
    for name, body in bodies.items():
        module = name.split("::")[:-1]
        found[name] = set()
        for m in re.finditer(r"((?:\w+::)*)(\w+)\s*\(", body):
            words = [w for w in m[1].split("::") if w and w not in ("crate", "self", "super")] + [m[2]]
            for other in bodies:
                near = len(words) == 1 and other == "::".join(module + words)
                if other == "::".join(words) or near or (len(words) > 1 and other.endswith("::" + "::".join(words))):
                    found[name].add(other)
    return found


def reaches(called):
    """All that each function reaches by calls."""
    found = {f: set(c) for f, c in called.items()}
    more = True
    while more:
        more = False
        for f in found:
            new = set().union(*[found[g] for g in found[f]]) - found[f] if found[f] else set()
            more = more or bool(new)
            found[f] |= new
    return found


def of_both_sides(folder, crate):
    """The functions of a crate that are generic over the side of a table, by themselves or by their `impl`."""
    found = set()
    for source in sources_of(folder, crate).values():
        spans = [(m.start(), source.close(m.end() - 1)) for m in re.finditer(r"\bimpl<S: Side>[^{]*\{", source.plain)]
        for name, start, body, _ in source.functions:
            if "S: Side" in source.plain[start:body] or any(a < start < b for a, b in spans):
                found.add(name)
    return found
