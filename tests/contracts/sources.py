"""The contracts of the public functions, as the crates' sources have them."""

import re

FUNCTION = re.compile(r'^( *)pub (?:extern "C" )?fn (\w+)', re.MULTILINE)
TYPE = re.compile(r"^impl(?:<[^>]*>)? (?:[^{]* for )?(\w+)", re.MULTILINE)
COMMENT = re.compile(r"//.*")
ALIAS = re.compile(r"^ghost use .* as ([\w-]+);", re.MULTILINE)
CLAUSE = re.compile(r"\b(requires|ensures)\b[\s\w*]*(?=\{)")
BRACKETS = {"(": ")", "{": "}"}


def crates(root):
    for line in (root / "crates.txt").read_text().splitlines():
        if line and not line.startswith("#"):
            yield line.split(":")[0].split()[0]


def functions(root):
    """Each public function by its crate, its module, for a method its type, and its name, with what it requires and what it ensures."""
    for crate in crates(root):
        for path in sorted((root / "crates" / crate / "src").glob("*.rt")):
            module = "" if path.stem in ("lib", "main") else f"{path.stem}::"
            text = COMMENT.sub("", path.read_text())
            aliases = ALIAS.findall(text)
            for found in FUNCTION.finditer(text):
                owner = f"{TYPE.findall(text, 0, found.start())[-1]}::" if found[1] else ""
                yield f"{crate}::{module}{owner}{found[2]}", Contract(aliases, *clauses(text, text.index("(", found.end())))


class Contract:
    """What a function requires and ensures: each as one text, of several clauses joined by `and`, or `–`."""

    def __init__(self, aliases, required, ensured):
        self.aliases = aliases
        self.requires = " and ".join(plain(clause) for clause in required) or "–"
        self.ensures = " and ".join(plain(clause) for clause in ensured) or "–"

    def without_aliases(self, text):
        """A file may know a file of definitions by a name of its own; the table may leave that out."""
        for alias in self.aliases:
            text = re.sub(rf"(?<![\w.-]){re.escape(alias)}\.", "", text)
        return text


def clauses(text, at):
    """The clauses between a function's arguments, which begin at `at`, and its body."""
    kept = {"requires": [], "ensures": []}
    at = closed(text, at)
    while found := CLAUSE.search(text, at, text.index("{", at) + 1):
        at = closed(text, found.end())
        kept[found[1]].append(text[found.end() + 1 : at - 1])
    return kept["requires"], kept["ensures"]


def closed(text, at):
    """Where the bracket that opens at `at` has been closed."""
    opening, closing, depth = text[at], BRACKETS[text[at]], 0
    while True:
        depth += {opening: 1, closing: -1}.get(text[at], 0)
        at += 1
        if depth == 0:
            return at


def plain(clause):
    """A clause on one line, without brackets around all of it."""
    text = " ".join(clause.split())
    return text[1:-1] if text.startswith("(") and closed(text, 0) == len(text) else text
