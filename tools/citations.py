"""Reads documents as text: what stands in backquotes, the paths outside of them, and the links, line by line. tools/names asks the tree about them.

What is no citation is blanked first: programs and outputs between fences, and what a tool writes between two comments. Then a document is taken apart into
units, a table's cell or a paragraph each, and a unit into clauses: in a cell these end with a semicolon.
"""

import os
import re

import sources

NOTE_LINE = "Names that are gone since: "
MADE = r"<!-- (?:printed by|the table of) .*?<!-- end"
PLACE = r"(?:crates/)?[\w*]+/(?:specs|proofs|src|must-fail)(?:/[\w+*.-]+)*"
FOLDER = r"(?:tests|tools|\.ci|docs|command|crates|fuzz|examples|bench|include|python)/[\w+*./-]+"
FILE = r"[\w-]+\.(?:c|h|rt|rs|antt|py|md|f90|mtx|edit)\b"


class Citation:
    """A text that a document cites: in backquotes (`quoted`), or as a path; `where` is its line, `at` its place in the unit."""

    def __init__(self, text, where, at, end, quoted):
        self.text, self.where, self.at, self.end, self.quoted = text, where, at, end, quoted


class Unit:
    """A cell or a paragraph with its first line."""

    def __init__(self, text, where, cell):
        self.text, self.where, self.cell = text, where, cell

    def line(self, at):
        return self.where + self.text.count("\n", 0, at)


def documents():
    """(documents, notes) by their paths from the root."""
    found = ["README.md", "python/README.md"]
    for where in ("docs", "docs/trace"):
        folder = os.path.join(sources.ROOT, where)
        found += [f"{where}/{n}" for n in sorted(os.listdir(folder) if os.path.isdir(folder) else []) if n.endswith(".md")]
    notes = sorted(n for n in os.listdir(os.path.join(sources.ROOT, "docs", "requests")) if n.endswith(".md"))
    return found, [f"docs/requests/{n}" for n in notes]


def blanked(text):
    """The text without what is no citation, line for line."""
    hide = lambda m: re.sub(r"[^\n]", " ", m[0])
    text = re.sub(r"^( *)```.*?^\1```", hide, text, flags=re.S | re.M)
    return re.sub(MADE, hide, text, flags=re.S)


def cells(line):
    """(column, text) of each cell of a table's row; a bar in backquotes, or behind a backslash, ends none."""
    start, quoted = 1, False
    for i in range(1, len(line)):
        quoted ^= line[i] == "`"
        if line[i] == "|" and not quoted and line[i - 1] != "\\":
            yield start, line[start:i]
            start = i + 1


def units(text):
    """The units of a document."""
    held, first = [], 0
    for number, line in enumerate(blanked(text).split("\n") + [""], 1):
        opens = re.match(r"\s*(?:[-*]|\d+\.) |#", line)
        if held and (not line.strip() or line.startswith("|") or opens):
            yield Unit("\n".join(held), first, False)
            held = []
        if line.startswith("|"):
            for _, cell in cells(line):
                yield Unit(cell, number, True)
        elif line.strip():
            first = first if held else number
            held.append(line)


def citations(unit):
    """What a unit cites, in order: backquoted texts, and outside of them paths and names of files."""
    found, shown = [], unit.text
    for m in re.finditer(r"`([^`]+)`", unit.text):
        found.append(Citation(re.sub(r"\s+", " ", m[1]), unit.line(m.start()), m.start(), m.end(), True))
        shown = shown[: m.start()] + " " * len(m[0]) + shown[m.end() :]
    shown = re.sub(r"\]\([^)]*\)", lambda m: " " * len(m[0]), shown)
    for m in re.finditer(rf"(?<![\w/.*-])(?:{PLACE}|{FOLDER}|{FILE})", shown):
        text = m[0].rstrip(".,/") if not m[0].endswith("..") else m[0]
        found.append(Citation(text, unit.line(m.start()), m.start(), m.start() + len(text), False))
    return sorted(found, key=lambda c: c.at)


def clauses(unit):
    """(start, end) of each clause of a cell, which ends at a semicolon outside of backquotes; a paragraph is one."""
    if not unit.cell:
        return [(0, len(unit.text))]
    plain = re.sub(r"`[^`]*`", lambda m: "`" * len(m[0]), unit.text)
    ends = [m.start() for m in re.finditer(";", plain)] + [len(plain)]
    return list(zip([0] + [e + 1 for e in ends], ends))


def links(text):
    """(line, target) of each link within the tree."""
    for number, line in enumerate(blanked(text).split("\n"), 1):
        for target in re.findall(r"\]\(([^)\s]+)\)", line):
            if not re.match(r"\w+:", target):
                yield number, target


def headings(text):
    """The anchors of a document's headings, as its readers' pages make them."""
    found = set()
    for line in re.findall(r"^#+ (.*)$", re.sub(r"^```.*?^```", "", text, flags=re.S | re.M), re.M):
        words = re.sub(r"[^\w\- ]", "", line.lower().replace("`", ""))
        found.add(words.strip().replace(" ", "-"))
    return found


def note_parts(text):
    """(the note, the names that its last line lists or None)."""
    body, mark, line = text.partition("\n" + NOTE_LINE)
    return body, set(re.findall(r"`([^`]+)`", re.sub(r"\s+", " ", line))) if mark else None


def note_line(names):
    """The last line of a note, wrapped."""
    lines, parts = [NOTE_LINE.rstrip()], [f"`{n}`" for n in sorted(names)]
    for i, part in enumerate(parts):
        part += "," if i + 1 < len(parts) else "."
        if len(lines[-1]) + 1 + len(part) > 160:
            lines.append(part)
        else:
            lines[-1] += " " + part
    return "\n".join(lines) + "\n"
