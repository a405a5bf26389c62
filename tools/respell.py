#!/usr/bin/env python3
"""Spells the definitions and lemmas that this repository declares as today's Rattle does: words in snake case, facts and types in camel case.

usage: tools/respell.py [FOLDER]

Run once, behind the kit's port.py. A name turns if a file of specs/ or proofs/ declares it (a lemma, a definition, a field, a constructor)
with a dash or a prime sign. A name that the kit has too turns only in the files that declare it. Where two names would fall together, nothing is
written. In .rt files only `ghost use` lines and clauses turn; in comments only what stands in backticks.
"""
import collections, os, re, sys

ROOT = sys.argv[1] if len(sys.argv) > 1 else "."
NAME = r"""[^\s(){}.;,@"«»`]+"""
WORD = re.compile(NAME)
DECLARED = re.compile(r"^\s*(?!let\b|use\b|λ)(?:(?:pub|abbrev|unfoldable|record|data|axiom|ruleset)\s+)*((?:" + NAME + r"\s+)+)(?:[({].*?[)}]\s+)*:(?:\s|$)")
USE = re.compile(r"\buse ([^\s;{]+)\.\{([^}]*)\}")


def texts():
    for folder, folders, names in os.walk(os.path.join(ROOT, "crates")):
        folders[:] = sorted(f for f in folders if f not in ("out", "target"))
        for name in sorted(names):
            if name.endswith((".antt", ".rt")):
                yield os.path.join(folder, name)


def is_of_functions(path):
    inner = path.split(os.sep + "crates" + os.sep, 1)[-1].split(os.sep)
    return len(inner) > 3 and inner[1] == "proofs"


def spelled(name):
    name = name.replace("′", "'")
    if name[:1].isupper():
        return "".join(part[:1].upper() + part[1:] for part in name.split("-"))
    return name.replace("-", "_")


crates = {line.split(":")[0].strip() for line in open(os.path.join(ROOT, "crates.txt")) if ":" in line and not line.startswith("#")}
declared, imported, foreign, here = set(), collections.defaultdict(set), set(), collections.defaultdict(set)
for path in texts():
    with open(path, encoding="utf-8") as f:
        text = f.read()
    for module, items in USE.findall(text):
        steps = module.split(".")
        if steps[0] == "Rattle" and len(steps) > 1 and steps[1] in crates:
            continue
        for item in items.split(","):
            imported[path].update(item.replace(" as ", " ").split())
    if path.endswith(".antt") and not is_of_functions(path):
        for line in text.split("\n"):
            found = DECLARED.match(line)
            if found and not line.strip().startswith("--"):
                here[path].update(word for word in found[1].split() if re.search("[A-Za-z]", word))
                declared |= here[path]
for names in imported.values():
    foreign |= names
declared |= {part for name in declared if "◌" in name for part in name.split("◌") if re.search("[a-z]", part)}

table = {name: spelled(name) for name in declared if spelled(name) != name}
meets = collections.defaultdict(set)
for name in declared | foreign:
    meets[table.get(name, name)].add(name)
clashes = {new: olds for new, olds in meets.items() if len(olds) > 1}
if clashes:
    sys.exit(f"respell: fall together: {clashes}")


def turned(text, table):
    return WORD.sub(lambda m: table.get(m[0], m[0]), text)


def in_ticks(comment, table):
    return re.sub(r"`[^`]*`", lambda m: turned(m[0], table), comment)


def antt(text, table):
    lines = []
    for line in text.split("\n"):
        cut = re.search(r"(?:^|\s)--(?:\s|$)", line)
        at = cut.start() if cut else len(line)
        parts = re.split(r'("(?:[^"\\]|\\.)*")', line[:at])
        code = "".join(p if p[:1] == '"' else turned(p, table) for p in parts)
        lines.append(code + in_ticks(line[at:], table))
    return "\n".join(lines)


def rt(text, table):
    clause = re.compile(r"^\s*(?:requires|ensures|ghost)\b")
    out, depth = [], 0
    for line in text.split("\n"):
        if line.strip().startswith("//"):
            out.append(in_ticks(line, table))
            continue
        if depth or clause.match(line):
            out.append(turned(line, table))
            depth += line.count("{") - line.count("}")
            depth = max(depth, 0)
        else:
            out.append(line)
    return "\n".join(out)


count = 0
for path in texts():
    mine = {old: new for old, new in table.items() if old not in imported[path] and (old not in foreign or old in here[path])}
    with open(path, encoding="utf-8") as f:
        text = f.read()
    new = (antt if path.endswith(".antt") else rt)(text, mine)
    if new != text:
        count += 1
        with open(path, "w", encoding="utf-8") as f:
            f.write(new)
print(f"respell: {len(table)} names, {count} files")
