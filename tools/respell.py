#!/usr/bin/env python3
"""Spells the repository's own definitions and lemmas as Rattle's libraries do: words in snake case, types in camel case.

usage: tools/respell.py        at the top of the repository, once

It goes through specs/, proofs/, the clauses of src/ and the pages. Of two names that would fall together one gets the name that OTHERWISE gives it.
Functions of src/, exported names, strings, inputs and outputs stay as they are.
"""

import os
import re

NAME = r"[^\s(){}.;,@\"«»:]+"
DECLARED = re.compile(r"(?m)^\s*(?:(?:pub|abbrev|unfoldable|pattern|record|data|axiom)\s+)*(%s)(?:\s*\{[^{}\n]*\})*(?:\s*\([^()\n]*\))*\s+:(?=\s)" % NAME)
TYPES = re.compile(r"(?m)(?:record|data)\s+(%s)" % NAME)
WORD = re.compile(r"[^\s(){}.;,@\"«»:`|*&<>\[\]!]+")
SPAN = re.compile(r"`[^`\n]+`")
OTHERWISE = {
    "past-num": "past_num_of",
    "privilege-ends": "privilege_ends_so",
    "start-past": "start_past_first",
    "verdict-at": "verdict_at_is",
    "verdict-of": "finding_numbered",
}
# A name of one proof that would meet a name in snake case.
BEFORE = {"crates/round/specs/Round/Gathered.antt": {"past_to": "past_onward"}}
PAGES = ["README.md", "CONTRIBUTING.md", "docs/READING.md", "docs/TRACE.md", "docs/RULES.md", "docs/DECISIONS.md", "docs/REQUESTS.md", "docs/EDITS.md", "docs/BENCHMARKS.md"]


def files(ending):
    for folder, folders, names in os.walk("crates"):
        folders[:] = sorted(f for f in folders if f != "out")
        for name in sorted(names):
            if name.endswith(ending):
                yield os.path.join(folder, name)


def of_function(path):
    return re.search(r"/proofs/[^/]+/", path) is not None


def spelled(name):
    if name in OTHERWISE:
        return OTHERWISE[name]
    if name[0].isupper():
        return re.sub(r"-(\w)", lambda m: m.group(1).upper(), name)
    words = re.sub(r"(?<=[a-z0-9])[A-Z]", lambda m: "_" + m[0].lower(), name)
    return words.replace("-", "_")


def table():
    names = set()
    for path in files(".antt"):
        if not of_function(path):
            with open(path, encoding="utf-8") as f:
                text = f.read()
            names |= set(DECLARED.findall(text)) | set(TYPES.findall(text))
    return {n: spelled(n) for n in names if spelled(n) != n}


def turned(text, names):
    return WORD.sub(lambda m: names.get(m[0], m[0]), text)


def rewrite(path, turn):
    with open(path, encoding="utf-8") as f:
        old = f.read()
    new = turn(old)
    if new != old:
        with open(path, "w", encoding="utf-8") as f:
            f.write(new)


def main():
    names = table()
    for path in files(".antt"):
        rewrite(path, lambda t: turned(turned(t, BEFORE.get(path, {})), names))
    for path in files(".rt"):
        rewrite(path, lambda t: turned(t, names))
    for path in PAGES:
        if os.path.exists(path):
            rewrite(path, lambda t: SPAN.sub(lambda m: turned(m[0], names), t))
    for old, new in sorted(names.items()):
        print(f"{old}\t{new}")


main()
