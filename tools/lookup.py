"""Looks one citation of a document up in the tree, by its shape: True where the tree has it, False where it lacks it, None where it is no name. The head of
tools/names says which shapes there are.

In order: words; paths; names with `::`; names with a dot; command lines; expressions; any of these (`known`).
"""

import fnmatch
import functools
import re

from inventory import options_of

# What is named though the tree has it not, and why.
OTHERS = {
    "strerror": "of C",
    "MAX_ARG_STRLEN": "of Linux",
    "-Wcast-qual": "of the compilers",
}

WORD = r"[A-Za-z_ℕℤ](?:[\w'?·-]*[\w'?])?"


def like(names, pattern):
    """Whether some name is as the pattern says; `..` and `*` stand for any letters."""
    pattern = pattern.replace("..", "*")
    if "*" not in pattern:
        return pattern in names
    wanted = re.compile(fnmatch.translate(pattern))
    return any(wanted.match(n) for n in names)


def word(tree, text):
    if text.startswith(("RG_", "rg_")):
        return text in tree.header
    return text in OTHERS or text in tree.declared or text in tree.subcommands or text in tree.stems or text in tree.words


def part_of_word(tree, text):
    return like(tree.declared, text + "*" if text[-1] in "_-" else "*" + text)


def path(tree, text):
    """A path from the root, from crates/, or within a crate; a part in capitals stands for any."""
    text = re.sub(r"^\./", "", text).rstrip("/")
    if text == "target" or text.startswith("target/"):
        return None
    pattern = re.sub(r"(?<![^/.])[A-Z]+(?![^/.])", "*", text)
    for front in ("", "crates/", "crates/*/", "crates/*/must-fail/"):
        if any(like(tree.all_paths, front + pattern + end) for end in ("", ".antt", ".edit")):
            return True
    return bool(re.search(r"(?<![\w.-])" + re.escape(pattern).replace(r"\*", r"\S*") + r"(?![\w-])", tree.code))


def qualified(tree, text):
    """`crate::function`, `Type::method`, `crate::module::function`, `crate::function:clause`; of the kit's crates what a source calls."""
    text, _, clause = re.sub(r"[ ({].*", "", text).replace("::", "\0").partition(":")
    parts = text.split("\0")
    if clause:
        return clause in tree.clauses.get((parts[0], parts[-1]), ())
    ends = lambda names, last: any(n == last or n.endswith("::" + last) for n in names)
    if parts[0] in tree.paths and ends(tree.paths[parts[0]], "::".join(parts[1:])):
        return True
    if any(ends(names, "::".join(parts)) for names in tree.paths.values()):
        return True
    return bool(re.search(r"(?<![\w:])" + "::".join(parts) + r"\(", tree.calls))


def dotted(tree, text, record):
    """`Record.field`, `.field` of the record before it, `struct.member`, `Class.method`, `file.c`, `.ending`."""
    owner, field = re.match(r"([\w-]*)\.([\w-]+)", text).groups()
    if not owner:
        return field in tree.fields.get(record, ()) or any(f.endswith(text) for f in tree.files)
    owners = [o for o in (owner, "rg_" + owner, owner.capitalize()) if o in tree.fields]
    if any(field in tree.fields[o] for o in owners) or text in tree.stems:
        return True
    if re.fullmatch(r"[A-Z]+", owner):
        return None
    return not owners and bool(re.search(r"(?<![\w.])" + re.escape(text) + r"(?![\w])", tree.code))


def options(words, text):
    """Whether the text of a script, or a help, has the options among these words, and those in small letters."""
    return options_of(" ".join(words)) <= options_of(text) and all(re.search(rf"\b{w}\b", text) for w in words if re.fullmatch("[a-z]+", w))


def command_line(tree, words):
    """`tools/x --option`, `./planner list --picks`, `list --picks`, `check FILE`; None where it is no command line."""
    first = re.sub(r"^\./", "", words[0])
    if first == "planner" and re.fullmatch(r"[a-z]+", words[1]) and words[1] != "help":
        return command_line(tree, words[1:]) if words[1] in tree.subcommands else False
    if first in tree.subcommands and all(re.fullmatch(r"\[?[A-Z]+\]?|\.\.\]?|\[[A-Z]+|-|[\d,]+|--.*|\[[A-Z]+\]\]", w) for w in words[1:]):
        return options(words[1:], tree.rim[f"command/help/{first}.txt"] + tree.rim["command/help/planner.txt"])
    if first in tree.rim:
        return options(words[1:], tree.rim[first] + tree.rim["command/help/planner.txt"] * (first == "planner"))
    return False if re.fullmatch(r"(?:\.ci|tools|bench)/[\w.-]+", first) else None


def expression(tree, words):
    """A definition with what it is given: each word of two letters or more is looked up."""
    if not re.fullmatch(r"[A-Z]\w*[a-z]\w*|[a-z]+[A-Z]\w*", words[0]):
        return None
    return all(w in tree.declared for w in re.findall(WORD, " ".join(words)) if len(w) > 1)


@functools.lru_cache(maxsize=None)
def known(tree, text, record=None):
    """Whether the tree has what is cited; None where it is no name."""
    if re.fullmatch(r"[A-Za-z][\w-]*[-_]|[-_][A-Za-z][\w-]*", text):
        return part_of_word(tree, text) or word(tree, text)
    if re.fullmatch(WORD, text):
        return word(tree, text)
    if re.fullmatch(r"[\w.*-]*(?:\*|\.\.)[\w.*-]*", text) and re.search(r"\w", text):
        return like(tree.declared | tree.stems, text)
    if re.fullmatch(r"[\w+.*/-]*/[\w+.*/-]*", text) and re.search(r"\w", text):
        return path(tree, text)
    if re.fullmatch(r"\w+/[\w/]+:\S+", text):
        place, _, name = text.partition(":")
        return name in tree.places.get(place, ())
    if re.match(r"[\w-]+(?:::[\w-]+)+(?::\w+)?(?:\W|$)", text):
        return qualified(tree, text)
    if re.fullmatch(r"[\w-]*\.[A-Za-z][\w-]*(?:\(.*\)|\[\w*\])?", text):
        return dotted(tree, text, record)
    if re.fullmatch(WORD + r"\(.*\)", text):
        return word(tree, text.partition("(")[0])
    if re.match(r"--[a-z]", text):
        return options_of(text) <= tree.options
    words = text.split()
    return (command_line(tree, words) if len(words) > 1 else None) if expression(tree, words) is None else expression(tree, words)
