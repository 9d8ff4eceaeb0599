#!/usr/bin/env python3
"""Counts the places of docs/DESIGN-PASS.md in the sources of a tree: tools/places.py [FOLDER] [POINT]."""

import collections
import glob
import re
import sys

ROOT = sys.argv[1] if len(sys.argv) > 1 else "."
POINT = sys.argv[2] if len(sys.argv) > 2 else ""
KINDS = {"Form", "Refusal", "Objective", "Side"}  # plain kinds: no value that is there or not
NONE_IN_WORDS = re.compile(
    r"\b0 (?:for more|for a row without|where|if there is none|past)|zero where|most \+ 1|more than the most|number of (?:items|rows) if|plus 1; 0"
)
TOGETHER = [
    ("sides", "units", "costs", "values"),
    ("l", "s"),
    ("header", "costs", "values"),
    ("places", "sums"),
    ("places", "sums", "order"),
    ("count", "places", "sums", "order"),
    ("held", "caps", "floors"),
    ("reached", "firsts"),
]


def sources():
    for path in sorted(glob.glob(ROOT + "/crates/*/src/**/*.rt", recursive=True)):
        yield path.split("crates/", 1)[1], open(path, encoding="utf-8").read()


def show(point, title, places):
    if POINT in ("", point):
        print(f"{point} {title}: {len(places)}")
        if POINT:
            for place in places:
                print("   ", place)


def lines(pattern):
    found = re.compile(pattern)
    return [f"{name}:{n}: {line.strip()}" for name, text in sources() for n, line in enumerate(text.splitlines(), 1) if found.search(line)]


def functions():
    for name, text in sources():
        for m in re.finditer(r"\bfn (\w+)[^(;{]*\(([^)]*)\)", text):
            yield name, m.group(1), [p.split(":")[0].replace("mut ", "").strip() for p in m.group(2).split(",") if ":" in p]


enums = [e for e in lines(r"^\s*(pub(\(crate\))? )?enum \w+") if re.search(r"enum (\w+)", e).group(1) not in KINDS]
show("1", "own enums that are no plain kinds", enums)
show("1", "structs with a flag or a reply beside a value", lines(r"^\s*pub(\(crate\))? (found|rises|reply): \w+,"))
show("1", "a number for none, by the comment", [p for p in lines(r"^\s*//") if NONE_IN_WORDS.search(p)])
show("2", "functions named by a type or a part", lines(r"\bfn \w*(_u8|_u16|_u32|_u64|wide\w*|_units|_amounts|_payments|_deliveries|_moves|_costs|_values|_caps|_floors)\("))
show("3", "loops without for", lines(r"^\s*(while|loop)\b"))
show("3", "for loops and iterator chains", lines(r"^\s*for |\.iter\(\)|\.into_iter\(\)|\.all\(|\.sum\("))
show("4", "casts by as", lines(r"\bas (u8|u16|u32|u64|usize|i64)\b"))
show("4", "functions that only convert or compare", lines(r"\bfn (wide\w*|byte|both|larger|lesser|low_byte|number_of|refusal_number|form_of|form_bit|form_number|side_of|mark_byte|bits|minus)\("))
for group in TOGETHER:
    show("5", "functions that take " + ", ".join(group), [f"{f}: {n}" for f, n, ps in functions() if all(p in ps for p in group)])
show("5", "functions with more than six parameters", [f"{f}: {n} ({len(ps)})" for f, n, ps in functions() if len(ps) > 6])
facts = collections.Counter()
for name, text in sources():
    for m in re.finditer(r"^\s*requires(?: \w+)? \{ (.*) \}", text, re.M):
        for word in set(re.findall(r"\b([A-Z]\w+)\b", m.group(1))) - {"Table", "UnitPrices", "Ladder"}:
            facts[(name.split("/")[0], word)] += 1
show("5", "facts that three or more functions of a crate require", [f"{c}: {w} in {n}" for (c, w), n in sorted(facts.items()) if n >= 3])
show("6", "arrays and areas of fixed size", lines(r"= \[.*; ?\d+\]|: &?(mut )?\[\w+; ?\d+\]"))
show("7", "a bool that chooses what is done", lines(r"\b(priced|front|rises|present|stand): bool"))
