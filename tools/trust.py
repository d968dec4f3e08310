"""Follows the names of contracts and definitions through the imports: what a promise rests on.

In order: a file of definitions; what is reached from a text (`Trust`); the clauses of a contract; the public entries; the records that are claims of a theorem
alone; all that rests on trust (`collect`). tools/trust-list and tools/pins are built on it.
"""

import functools
import os
import re

import sources


def module_file(module):
    """The file of a module `Rattle.crate.specs.A.B` of a crate of the repository, as (crate, path below the crate); likewise in proofs."""
    m = re.match(r"^Rattle\.(\w+)\.(specs|proofs)\.(.+)$", module)
    return (m.group(1), m.group(2) + "/" + m.group(3).replace(".", "/")) if m and m.group(1) in own() else None


@functools.lru_cache(maxsize=None)
def own():
    return frozenset(sources.crates())


def is_own(module):
    """Whether a module is of a crate of the repository, and not of the kit."""
    parts = module.split(".")
    return parts[0] == "Rattle" and len(parts) > 1 and parts[1] in own()


class Specs:
    """A specs file: what each of its names means, and what its imports mean."""

    def __init__(self, crate, path):
        text = sources.read(os.path.join(sources.ROOT, "crates", crate, path + ".antt"))
        self.at = {}
        for d in sources.declarations(text):
            self.at[d.name] = d
            for part, _, _ in d.parts:
                if d.kind == "data":
                    self.at[part] = d
        self.order = [d.name for d in sources.declarations(text)]
        self.imports = {}
        for module, names in sources.imports(text):
            for name, local in names:
                self.imports[local] = (module, name)


class Trust:
    def __init__(self, but=()):
        self.but = set(but)
        self.specs, self.needed, self.kit, self.declared, self.wrong = {}, {}, {}, {}, []

    def file(self, crate, path):
        if (crate, path) not in self.specs:
            self.specs[crate, path] = Specs(crate, path)
        return self.specs[crate, path]

    def has_law(self, crate, path, law, record):
        """Whether a file of proofs/ has a public law whose statement names the record."""
        try:
            specs = self.file(crate, path)
        except OSError:
            return False
        return law in specs.at and specs.at[law].public and record in sources.tokens(specs.at[law].text)

    def follow(self, imports, own, text, where):
        """Follows every name of a text: own is the Specs that the text stands in, or None for a contract."""
        written = set()
        for t in sources.tokens(sources.strip_comments(text)):
            written.add(t)
        for local, (module, name) in imports.items():
            if any(s in written for s in sources.spellings(local)):
                self.reach(module, name, where)
        if own is not None:
            for name in own[2].at:
                if any(s in written for s in sources.spellings(name)):
                    self.need(own[0], own[1], name)

    def reach(self, module, name, where):
        if not is_own(module):
            self.kit.setdefault(module, set()).add(name)
            return
        place = module_file(module)
        if place is None:
            self.wrong.append(f"{where} takes `{name}` from {module}, which is no file of a crate")
            return
        crate, path = place
        if path.startswith("specs/declared/"):
            parts = path.split("/")
            self.declared.setdefault(crate, set()).add(parts[-2] if parts[-1] == "TheVariants" else parts[-1])
            return
        self.need(crate, path, name)

    def need(self, crate, path, name):
        specs = self.file(crate, path)
        if name not in specs.at:
            self.wrong.append(f"crates/{crate}/{path}.antt has no `{name}`")
            return
        d = specs.at[name]
        if d.name in self.but:
            return
        seen = self.needed.setdefault((crate, path), set())
        if d.name in seen:
            return
        seen.add(d.name)
        self.follow(specs.imports, (crate, path, specs), d.text, f"crates/{crate}/{path}.antt")


def clauses_of(contract):
    """(name, text) of each clause of a contract; one without a name is `is`."""
    parts = [p for p in re.split(r"^(?=\s*(?:requires|ensures)\b)", contract, flags=re.M) if p.strip()]
    return [(re.match(r"\s*(?:requires|ensures)\s*(\w*)", p).group(1) or "is", p) for p in parts]


def clause_of(clauses, wanted):
    """The clauses of a contract that are wanted: all of them for None, else those of that name."""
    return "".join(text for name, text in clauses_of(clauses) if wanted is None or name == wanted)


PROMISED = re.compile(r"^impl(?:<.*?>)? (?:\w+::)*(\w+)(?:<.*>)? for (\w+)(?:<[^{}]*>)? \{$")


def promised_by_types(text):
    """(type's trait, line, text) for what each `impl` of a trait promises of a type: its lines `ghost NAME = { .. };`, as clauses of that name."""
    found, lines, i = [], text.split("\n"), 0
    while i < len(lines):
        m = PROMISED.match(lines[i])
        i += 1
        while m and i < len(lines) and lines[i] != "}":
            g = re.match(r"^\s+ghost (\w+) = ", lines[i])
            start = i
            while g and not lines[i].rstrip().endswith("};"):
                i += 1
            if g:
                said = "\n".join(lines[start : i + 1]).replace(f"ghost {g[1]} =", f"ensures {g[1]}", 1)
                found.append((m[2], m[1], start + 1, said))
            i += 1
    return found


def entries():
    """(crate, file, imports, function, line, contract) for every public function with a contract of every library crate, those of a public trait among
    them, and for what a public type promises as an iterator, an error or the like, by its trait's name."""
    for crate in sources.crates():
        if not sources.is_library(crate):
            continue
        parts = sources.public_parts(crate)
        types = set().union(*(given or () for _, given in parts))
        for path, given in parts:
            text = sources.read(path)
            owners = sources.owners(text)
            traits = set(re.findall(r"^pub trait (\w+)", text, re.M))
            public_types = set(re.findall(r"^pub (?:struct|enum) (\w+)", text, re.M)) if given is None else given
            imports = {}
            for module, names in sources.imports("\n".join(l for l in text.split("\n") if l.strip().startswith("ghost use"))):
                for name, local in names:
                    imports[local] = (module, name)
            for name, public, line, clauses in sources.contracts(text):
                owner = owners[line - 1]
                if (public or owner in traits) and clauses and (given is None or name in given or owner in types):
                    yield crate, path, imports, name, line, sources.strip_comments(clauses, "//")
            said = {}
            for owner, trait, line, clause in promised_by_types(text):
                if owner in public_types or owner in types:
                    at, clauses = said.get((owner, trait), (line, ""))
                    said[owner, trait] = at, clauses + clause + "\n"
            for (owner, trait), (line, clauses) in said.items():
                yield crate, path, imports, f"{owner}'s {trait}", line, sources.strip_comments(clauses, "//")


THEOREM = re.compile(r"^((?:--.*\n)*)-- Theorem alone: `([^`]+)` in (proofs/[\w/]+)\.antt.*\n(?:--.*\n)*pub record (\S+)", re.M)


class Theorem:
    """A record of specs/ that says above it that a theorem alone has it: its crate, its file below that, its law and the law's file, and the words above."""

    def __init__(self, crate, path, record, law, file, words):
        self.crate, self.path, self.record, self.law, self.file, self.words = crate, path, record, law, file, words


def theorems():
    found = []
    for crate in sources.crates():
        for path in sources.files(crate, "specs", ".antt"):
            below = os.path.relpath(path, os.path.join(sources.ROOT, "crates", crate))[: -len(".antt")]
            for words, law, file, record in THEOREM.findall(sources.read(path)):
                found.append(Theorem(crate, below, record, law, file, " ".join(re.sub(r"^[\s-]+", "", w) for w in words.split("\n")).strip()))
    return found


def collect(asked_for=None, but=()):
    """What the public contracts, and the theorems that no contract has, rest on; of these entries alone where some are given."""
    trust = Trust(but)
    for claim in theorems() if asked_for is None else []:
        trust.need(claim.crate, claim.path, claim.record)
        if not trust.has_law(claim.crate, claim.file, claim.law, claim.record):
            trust.wrong.append(f"crates/{claim.crate}/{claim.file}.antt has no public law `{claim.law}` that says `{claim.record}`")
    for e in asked_for or []:
        m = re.match(r"^(\w+)/((?:specs|proofs)/[\w/]+):(\S+)$", e)
        if m:
            trust.need(*m.groups())
    asked = None if asked_for is None else [re.match(r"^(\w+)::(\w+)(?::(\w+))?$", e) for e in asked_for if "/" not in e]
    if asked is not None and not all(asked):
        trust.wrong.append("an entry is CRATE::FUNCTION, CRATE::FUNCTION:CLAUSE or CRATE/PATH:NAME")
        return trust
    met = set()
    for crate, path, imports, name, line, contract in entries():
        wanted = [(None, None)] if asked is None else [(m.group(0), m.group(3)) for m in asked if m.group(1) == crate and m.group(2) == name]
        for entry, clause in wanted:
            text = clause_of(contract, clause)
            if text:
                met.add(entry)
                trust.follow(imports, None, text, f"{os.path.relpath(path, sources.ROOT)}:{line}")
    for m in asked or []:
        if m.group(0) not in met:
            trust.wrong.append(f"no public function with a contract is {m.group(0)}")
    return trust
