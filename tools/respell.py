#!/usr/bin/env python3
"""Brings this repository's own names in antt to today's spelling: words in snake case. Run once, after port.py of the kit.

usage: tools/respell.py        (at the top of the repository)

A name is the repository's own where a file of specs/ or proofs/ declares it: a definition, a lemma, a field, a constructor, a
parameter or a `let`. A dash and a capital within it become `_`. Where two names would fall together in one file, the one with
dashes, which is the lemma, gets `_lem`. What a file imports from the library keeps its spelling there, and so do the functions,
types and parameters of src/. Pages and must-fail edits cite the same names and are turned alike.
"""
import collections
import re
from pathlib import Path

END = r"\s(){}\[\],;.`·"
NAME = rf"[^{END}]+"
HEAD = re.compile(rf"\s*((?:(?:abbrev|pub|opaque|unfoldable|record|data)\s+)*)({NAME}(?:\s+{NAME})*)\s+:(?:\s|$)")
LET = re.compile(rf"\blet ({NAME})\s*(?=[:=]\s)")
BOUND = re.compile(rf"[({{]((?:{NAME}\s+)+):\s")
USE = re.compile(r"^(\s*(?:pub |ghost )?use )([\w.+'-]+)\.\{([^{}]*)\}", re.M)
WORDS = {"abbrev", "pub", "opaque", "unfoldable", "record", "data", "where", "module", "use"}


def turned(name):
    """The name in snake case; a type or a symbol keeps its capitals."""
    if name.startswith("-") or name.endswith("-") or not re.match(r"[^\W\d_A-Z]", name):
        return name
    name = name.replace("-", "_")
    return re.sub(r"(?<=[a-z0-9'])([A-Z])(?=[a-z0-9'_↔]|$)", lambda m: "_" + m[1].lower(), name)


def declared(text):
    for line in text.splitlines():
        if line.lstrip().startswith("--"):
            continue
        head = HEAD.match(line)
        if head:
            yield from (n for n in head[2].split() if n not in WORDS)
        for it in LET.finditer(line):
            yield it[1]
        for it in BOUND.finditer(line):
            yield from it[1].split()


def from_library(text):
    """What a file imports from elsewhere than this repository's crates."""
    names = set()
    for it in USE.finditer(text):
        if not re.match(rf"Rattle\.(?:{'|'.join(CRATES)})\.", it[2] + "."):
            names |= {n.strip() for n in it[3].split(",")}
    return names


def tokens(text):
    return set(re.findall(NAME, text))


CRATES = sorted(p.name for p in Path("crates").iterdir() if p.is_dir())
antt = sorted(p for p in Path("crates").rglob("*.antt") if "out" not in p.parts)
source = sorted(p for p in Path("crates").rglob("*.rt") if "out" not in p.parts)
edits = sorted(Path("crates").rglob("*.edit"))
pages = [Path("README.md"), *sorted(Path("docs").rglob("*.md"))]

# lemmas that port.py gave the name that a definition comes to
for path, name in (("crates/exchange/proofs/Choice/Sums.antt", "sum_over"), ("crates/exchange/proofs/Choice/End.antt", "sum_over"), ("crates/line/proofs/DealLaws.antt", "start_test")):
    path = Path(path)
    if path.exists():
        path.write_text(re.sub(rf"(?<![\w'-]){name}(?![\w'-])", name + "_lem", path.read_text(encoding="utf-8")), encoding="utf-8")

own = set()
for path in antt:
    own |= set(declared(path.read_text(encoding="utf-8")))
# a parameter or a field of src/ stood with a dash in proofs
for path in source:
    own |= {n.replace("_", "-") for n in re.findall(r"\b[a-z]\w*_\w+\b", path.read_text(encoding="utf-8"))}
new = {n: turned(n) for n in own if turned(n) != n}

# names that would fall together
together = collections.defaultdict(set)
for path in antt:
    here = tokens(path.read_text(encoding="utf-8"))
    groups = collections.defaultdict(set)
    for n in here:
        groups[new.get(n, n)].add(n)
    for to, names in groups.items():
        if len(names) > 1:
            together[to] |= names
FUNCTIONS = {n for p in source for n in re.findall(r"\bfn (\w+)", p.read_text(encoding="utf-8"))}
for to, names in sorted(together.items()):
    lemmas = sorted(n for n in names if "-" in n)
    if len(lemmas) == 1 and any("-" not in n for n in names):
        other = [n for n in names if n not in lemmas]
        if other == [to] and to in FUNCTIONS and lemmas[0].replace("-", "_") == to and not any(re.match(r"\s*(?:\w+ )*" + re.escape(lemmas[0]) + r"\s+:", line) for p in antt if p.name not in ("Proof.antt",) for line in p.read_text(encoding="utf-8").splitlines()):
            continue  # a function of src/ and the dashed form that its proofs had
        new[lemmas[0]] = to + "_lem"
        print(f"together: {', '.join(sorted(names))}: the lemma is {to}_lem")
    else:
        print(f"together, look: {', '.join(sorted(names))} -> {to}")


def respell(text, keep, code):
    def one(it):
        name = it[0]
        if name in keep or name not in new:
            return name
        if code and "-" not in name and turned(name) == name:
            return name
        return new[name]

    return re.sub(NAME, one, text)


count = 0
for path in antt + source + edits:
    old = path.read_text(encoding="utf-8")
    text = respell(old, from_library(old), path.suffix != ".antt")
    if text != old:
        path.write_text(text, encoding="utf-8")
        count += 1
for path in pages:
    old = path.read_text(encoding="utf-8")
    text = re.sub(r"`[^`\n]+`", lambda it: respell(it[0], set(), True), old)
    if text != old:
        path.write_text(text, encoding="utf-8")
        count += 1
print(f"{len(new)} names, {count} files")
