#!/usr/bin/env python3
"""Says which public calls with a `requires` only tests make, and no crate that is proved.

    tools/callers.py [TOP]

A `requires` that nobody can meet proves anything. So each public call that has one, and that the crates of tests/crates make, has a
caller among the crates of crates.txt; where no other crate makes it, a function of `callers` does. It prints a line for each that has
none, and the status is then 1. tools/check_documents.py asks this too.

Calls are told by their names alone: where two functions have one name, a caller of one counts for both.
"""
import re
import sys
from pathlib import Path

import ledger

CLAUSE = re.compile(r"\b(?:requires|ensures|decreases)\b(?: \*)?(?: \w+)? \{")
CALL = re.compile(r"(\bfn\s+)?\b(\w+)\s*(?:::<[^(){};]*>)?\(")
RENAMED = re.compile(r"\b(\w+) as \w+")
# A function up to its body, where a clause may begin that spans lines.
HEAD = re.compile(r"\bfn (\w+)\b.*?(?: \{\n|^\s*\{\}?$)", re.M | re.S)


def code_of(text):
    """Returns a source without comments, `ghost use` and clauses."""
    text = re.sub(r"//.*|^\s*ghost use .*;$", "", text, flags=re.M)
    parts, at = [], 0
    for found in CLAUSE.finditer(text):
        if found.start() < at:
            continue
        parts.append(text[at : found.start()])
        depth, at = 1, found.end()
        while depth and at < len(text):
            depth += (text[at] == "{") - (text[at] == "}")
            at += 1
    return "".join([*parts, text[at:]])


def called_in(paths):
    """Returns the names of what these files call."""
    names = set()
    for path in paths:
        code = code_of(path.read_text())
        names.update(it[2] for it in CALL.finditer(code) if not it[1])
        names.update(it[1] for it in RENAMED.finditer(code))
    return names


def findings(top):
    """Returns the public calls with a `requires` of each crate that tests alone make."""
    sources = {crate: sorted((top / "crates" / crate / "src").rglob("*.rt")) for crate in ledger.crates(top)}
    tested = called_in((top / "tests/crates").glob("*/src/**/*.rt.txt"))
    proved = called_in(path for paths in sources.values() for path in paths)
    for crate, paths in sources.items():
        for path in paths:
            text = path.read_text()
            asking = {it[1] for it in HEAD.finditer(text) if "requires" in it[0]}
            names = (name for name, is_public, _ in ledger.calls_of(text) if is_public)
            lonely = [it for it in names if it.split("::")[-1] in (tested & asking) - proved]
            yield from (f"{crate}: {it} has a requires, and only tests call it: give it a caller in the crate callers" for it in lonely)


def main(words):
    if words and words[0].startswith("-"):
        sys.exit(__doc__)
    found = list(findings(Path(words[0]).resolve() if words else Path(__file__).resolve().parent.parent))
    print("\n".join(found), end="\n" if found else "")
    return 1 if found else 0


if __name__ == "__main__":
    sys.exit(main(sys.argv[1:]))
