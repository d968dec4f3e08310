"""Reads the repository's sources as text: the crates, the declarations of an antt file, its imports, and the contracts of a Rattle file.

It knows the layout that `rt fmt` gives and no more: a declaration starts at its section's margin with its signature, and its clauses and fields
follow. tools/trust-list, tools/pins, tools/unused and tools/names are built on it.
"""

import os
import re

ROOT = os.path.dirname(os.path.dirname(os.path.abspath(__file__)))


class Declaration:
    def __init__(self, name, public, kind, line, owner=None):
        self.name, self.public, self.kind, self.line, self.owner = name, public, kind, line, owner
        self.text = []


def crates():
    """The names in crates.txt, in order; what kind of crate it is may stand behind a name."""
    names = []
    with open(os.path.join(ROOT, "crates.txt")) as f:
        for line in f:
            line = line.split("#")[0].strip()
            if line:
                names.append(line.split(":")[0].split()[0])
    return names


def is_library(crate):
    return os.path.exists(os.path.join(ROOT, "crates", crate, "src", "lib.rt"))


def files(crate, folder, ending):
    found = []
    for where, _, names in os.walk(os.path.join(ROOT, "crates", crate, folder)):
        found += [os.path.join(where, n) for n in names if n.endswith(ending)]
    return sorted(found)


def public_parts(crate):
    """(file, names) of what other crates can call: the root and the modules that it declares `pub`, with None for all their public names, and
    the modules that a file above gives names of on by `pub use`, with these names. A type that is given on has its methods with it, in whichever file."""
    found, todo = [], [(os.path.join(ROOT, "crates", crate, "src", "lib.rt"), None)]
    while todo:
        path, names = todo.pop()
        found.append((path, names))
        text, beside = read(path), os.path.dirname(path)
        for name in re.findall(r"^pub mod (\w+);", text, re.M):
            todo.append((os.path.join(beside, name + ".rt"), None))
        given = {}
        for module, names_given in given_on(text):
            given.setdefault(module, set()).update(names_given)
        for module, inner in given.items():
            if os.path.exists(os.path.join(beside, module + ".rt")):
                todo.append((os.path.join(beside, module + ".rt"), inner))
    return found


def given_on(text):
    """(module, names) of each `pub use` of a Rattle file."""
    return [(m, re.findall(r"\w+", a or b)) for m, a, b in re.findall(r"^pub use (\w+)::(?:(\w+)|\{([^}]*)\});", text, re.M)]


OWNER = re.compile(r"^(?:pub )?(?:impl|trait)(?:<[^{}]*?>)? (\w+)(?:<[^{}]*?>)?(?:: [^{]*)? \{$")


def owners(text):
    """For each line of a Rattle file the type whose methods it stands among, or the trait; nothing elsewhere, and in what a type has of a trait."""
    found, owner = [], ""
    for line in text.split("\n"):
        m = OWNER.match(line)
        owner = m[1] if m else "" if line == "}" else owner
        found.append(owner)
    return found


def read(path):
    with open(path, encoding="utf-8") as f:
        return f.read()


def is_of_a_function(path, text):
    """Whether a file of proofs/ is a function's own proof: a whole one, or the invariants or answers that rattle asks for, and not a file of laws."""
    name = os.path.basename(path)
    return name == "Proof.antt" or name in ("Invariants.antt", "Answers.antt") and bool(re.search(r"\.(?:Given|Goals) as goal;?$", text, re.M))


def strip_comments(text, mark="--"):
    kept = []
    for line in text.split("\n"):
        at = re.search(r"(^|\s)" + re.escape(mark) + r"(\s|$)", line)
        kept.append(line[: at.start()] if at else line)
    return "\n".join(kept)


TOKEN = re.compile(r"[^\s(){};,⌜⌝\[\]\"]+|\[\]")


def tokens(text):
    """The names in a text. A part behind a dot is a field or a name in a module, and comes as '.part'."""
    found = []
    for word in TOKEN.findall(text):
        parts = word.split(".")
        for i, part in enumerate(parts):
            if part:
                found.append(part if i == 0 else "." + part)
    return found


def cites(text):
    """The plain names in a text, field names and qualified parts among them without their dot."""
    return {t.lstrip(".") for t in tokens(text)}


def spellings(name):
    """How a declared or imported name is written where it is used: an operator, with ◌ for each thing that it takes, by its parts, or whole."""
    return [p for p in name.split("◌") if p] + [name] if "◌" in name else [name]


USE = re.compile(r"^\s*(?:ghost )?(?:pub )?use ([^\s{;]+?)(?:\.\{(.*?)\})?(?: as (\S+?))?;?$", re.M | re.S)


def imports(text):
    """(module, [(name, local name)]) for each `use` line; a module taken whole is its own last part."""
    found = []
    for m in USE.finditer(text):
        module, names, alias = m.group(1), m.group(2), m.group(3)
        if names is None:
            last = alias or module.split(".")[-1]
            found.append((module, [(last, last)]))
        else:
            pairs = []
            for n in names.split(","):
                n = n.strip()
                if n:
                    a = n.split(" as ")
                    pairs.append((a[0].strip(), a[-1].strip()))
            found.append((module, pairs))
    return found


HEAD = re.compile(r"^(\s*)(?:(abbrev|unfoldable|infix[lr]?)\s+)?(pub\s+)?(?:(abbrev|unfoldable)\s+)?(?:(data|record)\s+)?(\S+)(.*)$")


def declarations(text):
    """The declarations of an antt file, sections (`module _ .. where`) seen through; of a data its constructors, of a record its fields."""
    found, current, section_margins, where_margin = [], None, [0], None
    lines = strip_comments(text).split("\n")
    for number, line in enumerate(lines, 1):
        if not line.strip() or re.match(r"^\s*(use|pub mod|mod|open)\b", line):
            continue
        margin = len(line) - len(line.lstrip())
        if re.match(r"^\s*module _", line):
            while section_margins and margin < section_margins[-1]:
                section_margins.pop()
            section_margins.append(margin + 2)
            current = None
            continue
        if current is None and not line.rstrip().endswith("where") and margin > section_margins[-1]:
            continue
        while len(section_margins) > 1 and margin < section_margins[-1]:
            section_margins.pop()
        if margin != section_margins[-1]:
            if current is not None:
                current.text.append(line)
                if current.kind in ("data", "record"):
                    m = re.match(r"^\s*(pub )?(\S+(?: \S+)*?) :(?: |$)", line)
                    if m and margin == section_margins[-1] + 2:
                        for n in m.group(2).split():
                            current.parts.append((n, bool(m.group(1)) or current.kind == "data", number))
            continue
        m = HEAD.match(line)
        first, public, second, shape, name, rest = m.group(2), m.group(3), m.group(4), m.group(5), m.group(6), m.group(7)
        if first and first.startswith("infix"):
            continue
        if name == "unfolding":
            if current is not None:
                current.text.append(line)
            continue
        signature = re.match(r"^\s*:(\s|$)", rest) or shape
        if signature and (current is None or current.name != name or shape):
            current = Declaration(name, bool(public), shape or first or second or "law", number)
            current.parts = []
            found.append(current)
        if current is not None:
            current.text.append(line)
    for d in found:
        d.text = "\n".join(d.text)
    return found


def contracts(text):
    """(function, public, line, text of its clauses) for each function of a Rattle file."""
    found, lines, i = [], text.split("\n"), 0
    while i < len(lines):
        m = re.match(r"^\s*(pub )?(?:extern \"C\" )?fn (\w+)", lines[i])
        if not m:
            i += 1
            continue
        start, clause = i, []
        while i < len(lines) and not lines[i].rstrip().endswith("{") and lines[i].strip() != "{" and not lines[i].rstrip().endswith(";"):
            i += 1
            if i < len(lines) and re.match(r"^\s*(requires|ensures|ghost)\b", lines[i]):
                break
        while i < len(lines) and lines[i].strip() != "{" and not (not clause and lines[i].rstrip().endswith("{")):
            clause.append(lines[i])
            i += 1
            if clause[-1].rstrip().endswith("};"):  # a trait's function, without a body
                break
        found.append((m.group(2), bool(m.group(1)), start + 1, "\n".join(clause)))
        i += 1
    return found
