#!/usr/bin/env python3
"""Brings the texts of the must-fail edits to the spelling that tools/respell.py gave the definitions.

usage: tools/respell_edits.py        at the top of the repository, once, after tools/respell.py

An edit's first line, which says what is wrong, names a law here and there and is respelled too.
"""

import glob
import re

WORD = re.compile(r"[^\s(){}.;,@\"«»:`|*&<>\[\]!]+")
# Names that this repository shares with the library's: the library's spelling.
SHARED = {
    "getD": "get_or",
    "graphOf": "graph_of",
    "sizeOf": "size_of",
    "edgeAt": "edge_at",
    "isCall": "is_call",
}
OTHERWISE = {"privilege-ends": "privilege_ends_so"}


def declared():
    names = set()
    for path in glob.glob("crates/*/specs/**/*.antt", recursive=True):
        with open(path, encoding="utf-8") as f:
            names |= set(WORD.findall(f.read()))
    return names


def spelled(word, names):
    if word in SHARED:
        return SHARED[word]
    if word in OTHERWISE:
        return OTHERWISE[word]
    if word[0].isupper() or not re.search(r"[a-z0-9][A-Z]|\w-\w", word):
        return word
    new = re.sub(r"(?<=[a-z0-9])[A-Z]", lambda m: "_" + m[0].lower(), word).replace("-", "_")
    return new if new in names else word


def main():
    names = declared()
    for path in sorted(glob.glob("crates/*/must-fail/*.edit")):
        with open(path, encoding="utf-8") as f:
            lines = f.read().split("\n")
        specs = any(line.startswith("file: specs/") for line in lines)
        for i, line in enumerate(lines):
            said = not re.match(r"(file|old|new): ", line)
            if said or specs and not line.startswith("file: "):
                lines[i] = WORD.sub(lambda m: spelled(m[0], names), line)
                if not said:
                    lines[i] = re.sub(r"\((\w+)((?: \.\w+)+)\)", lambda m: m[1] + m[2].replace(' .', '.'), lines[i])
                    lines[i] = re.sub(r"(?<=\w) \.(?=\w)", ".", lines[i])
        text = "\n".join(lines)
        with open(path, "w", encoding="utf-8") as f:
            f.write(text)


main()
