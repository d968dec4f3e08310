"""What the tree has by name: files; what each antt and Rattle file declares, and the fields of what is declared; the pieces of the must-fail edits; the
header; the Python package; the options of the command and of the scripts; the words of the rim's code. tools/names looks names up in it.

In order: files; Rattle sources; the header; the Python package; the rim; all of it (`Tree`). It reads texts alone, by tools/sources.py and tools/edits.py.
"""

import ast
import os
import re

import edits
import sources
from trust import clauses_of, is_own

RIM = ("command/", "include/", "python/", "bench/", "examples/", "fuzz/", "tests/", "tools/", ".ci/", "install", "ladders", "planner", "pyproject.toml")
# The words of these files are no evidence: data, and the names' own tool and tests.
NO_EVIDENCE = ("fuzz/seeds/", "tools/names", "tools/inventory.py", "tools/citations.py", "tools/lookup.py", ".ci/names-tests")


# --- files


def files():
    """Every file of the tree by its path from the root; not what builds leave: target/ and the crates' out/."""
    found = set()
    for where, folders, names in os.walk(sources.ROOT):
        folders[:] = [f for f in folders if f not in (".git", "__pycache__", "out") and os.path.join(where, f) != os.path.join(sources.ROOT, "target")]
        found |= {os.path.relpath(os.path.join(where, n), sources.ROOT) for n in names}
    return found


def folders_of(paths):
    return {p[:i] for p in paths for i in range(len(p)) if p[i] == "/"}


def text_of(path):
    try:
        return sources.read(os.path.join(sources.ROOT, path))
    except UnicodeDecodeError:
        return ""


# --- Rattle sources


def types_of(plain):
    """The fields or variants of each struct and enum, by its name; a tuple struct has none. A name that is given to a type has what the type has, and a
    trait is among them too."""
    found = {}
    for m in re.finditer(r"\b(struct|enum)\s+(\w+)(?:<[^>{(;]*>)?\s*(\{[^}]*\})?", plain):
        inner = m[3] or ""
        found[m[2]] = set(re.findall(r"(\w+)\s*:", inner) if m[1] == "struct" else re.findall(r"^\s+(\w+)", inner, re.M))
    for name, of in re.findall(r"^pub type (\w+)(?:<[^>]*>)? = (\w+)", plain, re.M):
        found[name] = found.get(of, set())
    for name in re.findall(r"^pub trait (\w+)", plain, re.M):
        found[name] = set()
    return found


def rattle(path, text):
    """(names with their module and type in front, types with their fields) of a Rattle source; the path is below its crate."""
    source, fields = edits.Source(path, text), types_of(edits.blank(text))
    module = edits.module_of(path)
    names = {f[0] for f in source.functions} | {"::".join(module[:i]) for i in range(1, len(module) + 1)}
    for t, parts in fields.items():
        names |= {"::".join(module + (t,))} | {"::".join(module + (t, p)) for p in parts}
    owners, aliases = sources.owners(text), re.findall(r"^pub type (\w+)(?:<[^>]*>)? = (\w+)", source.plain, re.M)
    for line, owner in zip(text.split("\n"), owners):
        name = re.match(r"\s*(?:pub )?fn (\w+)", line) if owner else None
        for of in [owner] + [a for a, t in aliases if t == owner] if name else []:
            names.add("::".join(module + (of, name[1])))
    for m in re.finditer(r"\bconst\s+(\w+)\s*:", source.plain):
        owner = re.findall(r"^impl\s+(\w+)|^(\})", source.plain[: m.start()], re.M)
        names.add("::".join(module + ((owner[-1][0],) if owner and owner[-1][0] else ()) + (m[1],)))
    return names, fields


# --- the header


def header():
    """(names, structs with their members) of include/ragymolev.h."""
    text = text_of("include/ragymolev.h")
    structs = {}
    for name, inner in re.findall(r"typedef struct (\w+) \{(.*?)\n\}", text, re.S):
        inner = re.sub(r"/\*.*?\*/", "", inner, flags=re.S)
        structs[name] = {w for d in inner.split(";") for w in re.findall(r"(\w+)(?:\[[^\]]*\])*\s*(?:,|$)", d.strip())}
    names = set(re.findall(r"#define (\w+)", text)) | set(structs) | set(re.findall(r"\b(rg_\w+)\(", text))
    return names, structs


# --- the Python package


def python_names():
    """(names, classes with their parts) of python/ragymolev: classes, functions, arguments; methods and attributes."""
    names, classes = set(), {}
    for path in sorted(p for p in files() if p.startswith("python/ragymolev/") and p.endswith(".py")):
        for node in ast.walk(ast.parse(text_of(path))):
            if isinstance(node, (ast.FunctionDef, ast.ClassDef)):
                names.add(node.name)
            if isinstance(node, ast.arg):
                names.add(node.arg)
            if isinstance(node, ast.ClassDef):
                classes.setdefault(node.name, set()).update(parts_of(node))
    return names, classes


def parts_of(node):
    found = {n.name for n in node.body if isinstance(n, ast.FunctionDef)}
    found |= {n.target.id for n in node.body if isinstance(n, ast.AnnAssign) and isinstance(n.target, ast.Name)}
    return found | {n.attr for n in ast.walk(node) if isinstance(n, ast.Attribute) and isinstance(n.value, ast.Name) and n.value.id == "self"}


# --- the rim: what is not proved


def code(path, text):
    """A text of the rim without its comments; help texts and lists stay whole."""
    if path.endswith((".c", ".h", ".rs")):
        return re.sub(r"/\*.*?\*/|//[^\n]*", " ", text, flags=re.S)
    if path.endswith((".txt", ".mtx", ".f90")):
        return text
    return re.sub(r"^\s*#[^\n]*", "", text, flags=re.M)


def options_of(text):
    return set(re.findall(r"(?<![\w-])--[a-z][a-z-]*", text))


class Tree:
    """All of it. `places` has the names of each file of a crate, `fields` the parts of each record, type, struct and class."""

    def __init__(self):
        self.files = files()
        self.folders = folders_of(self.files)
        self.all_paths = self.files | self.folders
        self.crates = sources.crates()
        self.kit_crates = set(re.findall(r"\w+", re.sub(r"#.*|^\w+[^:\n]*:", "", text_of("crates.txt"), flags=re.M))) - set(self.crates)
        self.places, self.fields, self.paths, self.clauses, self.pieces, self.labels, self.kit, self.calls = {}, {}, {}, {}, {}, {}, set(), ""
        for crate in self.crates:
            self.read_logic(crate)
            self.read_rattle(crate)
            self.read_edits(crate)
        self.header, structs = header()
        self.python, classes = python_names()
        for of in (structs, classes):
            for name, parts in of.items():
                self.fields.setdefault(name, set()).update(parts)
        self.rim = {p: text_of(p) for p in sorted(self.files) if p.startswith(RIM) and not p.startswith(NO_EVIDENCE)}
        self.code = "\n".join(code(p, t) for p, t in self.rim.items())
        self.words = set(re.findall(r"[A-Za-z_](?:[\w-]*\w)?", self.code))
        self.options = options_of("\n".join(self.rim.values()))
        self.stems = {os.path.basename(p) for p in self.all_paths} | {os.path.splitext(os.path.basename(p))[0] for p in self.rim}
        self.subcommands = {os.path.basename(p)[:-4] for p in self.files if p.startswith("command/help/")}
        self.declared = set().union(*self.places.values(), *self.pieces.values(), *self.labels.values(), *self.fields.values())
        self.declared |= {n.split("::")[-1] for names in self.paths.values() for n in names} | self.header | self.python | set(self.crates) | self.kit

    def read_logic(self, crate):
        for path in sources.files(crate, "specs", ".antt") + sources.files(crate, "proofs", ".antt"):
            text, names = sources.read(path), set()
            for d in sources.declarations(text):
                parts = {p for p, _, _ in d.parts}
                names |= {d.name} | parts
                self.fields.setdefault(d.name, set()).update(parts)
            self.places[os.path.relpath(path, os.path.join(sources.ROOT, "crates"))[: -len(".antt")]] = names
            self.kit |= {n for module, given in sources.imports(text) if not is_own(module) for n, _ in given}

    def read_rattle(self, crate):
        for path in sources.files(crate, "src", ".rt"):
            text, below = sources.read(path), os.path.relpath(path, os.path.join(sources.ROOT, "crates", crate))
            names, fields = rattle(below, text)
            self.calls += sources.strip_comments(text, "//")
            self.paths.setdefault(crate, set()).update(names)
            self.places[f"{crate}/{below}"] = {n.split("::")[-1] for n in names} | {f for parts in fields.values() for f in parts}
            for name, parts in fields.items():
                self.fields.setdefault(name, set()).update(parts)
            for name, _, _, clauses in sources.contracts(text):
                self.clauses.setdefault((crate, name), set()).update({n for n, _ in clauses_of(clauses)} if clauses.strip() else ())

    def read_edits(self, crate):
        self.pieces[crate], self.labels[crate] = set(), set()
        for label, text in edits.edits(os.path.join(sources.ROOT, "crates"), crate):
            self.labels[crate].add(label)
            self.pieces[crate] |= {p.name for p in edits.parse(text)[0]}
