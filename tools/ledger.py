#!/usr/bin/env python3
"""The ledger of clauses: which public calls have which clauses, read from the crates' sources.

    tools/ledger.py [CRATE ..]
    tools/ledger.py --check [TOP]

prints the ledger of all crates, or of those that are named, as a page of Markdown: by crate and file each public call with an
`ensures`, and the names of its clauses. A call with one clause without a name stands there alone. Methods stand after the name
of their type, as `Board::draw`. What is private isn't listed.

With --check it compares docs/PROVED.md with the sources, and prints a line for each finding; the status is then 1, else 0.
tools/check_documents.py does the same. Of a table with a column named 'Carried by' each cell is empty or has the form

    `crate`: `call` (`clause`, `clause`), `call`; `crate`: `call`

and each call is a public one of its crate with these clauses, or a definition of the crate's specs/ with a capital letter, whose
fields stand in parentheses. Each crate in crates.txt that has a public call with a clause is named in some such cell or in ALONE.
"""
import re
import sys
from pathlib import Path

COLUMN = "Carried by"
# Crates of which the table of another crate speaks, and the one that only calls.
ALONE = {"callers"}
ITEM = r"`[\w:]+`(?: \(`\w+`(?:, `\w+`)*\))?"
GROUP = re.compile(rf"`(\w+)`: ({ITEM}(?:, {ITEM})*)")
ITEMS = re.compile(r"`([\w:]+)`(?: \(([^)]*)\))?")
FUNCTION = re.compile(r"(pub(?:\(\w+\))? )?(?:const |unsafe )*fn (\w+)")
CLAUSE = re.compile(r"ensures(?: (\w+))? \{")
FIELD = re.compile(r"\s+pub (\w+) :")
DEFINED = re.compile(r"(?:[a-z]+ )*pub (?:[a-z]+ )*([A-Z]\w*)(?= |$)")


def crates(top):
    """Returns the names of the crates, in the order of crates.txt."""
    lines = (it.split("#")[0] for it in (top / "crates.txt").read_text().splitlines())
    return [it.split(":")[0].split()[0] for it in lines if ":" in it]


def subject(head):
    """Returns the type of an `impl` or the name of a trait, without what it is generic over."""
    while re.search(r"<[^<>]*>", head):
        head = re.sub(r"<[^<>]*>", "", head.replace("->", ""))
    names = re.match(r"(?:pub )?(?:unsafe )?(?:impl|trait) ?(?:[\w:]+ for )?(?:&\S* )?(\w+)", head)
    return names[1] if names else "?"


def calls_of(text):
    """Returns the functions of a file as pairs of the name and its clauses, with whether it is public."""
    inside, is_open, head, current, found = None, False, None, None, []
    for line in text.splitlines():
        if head is not None or re.match(r"(pub )?(unsafe )?(impl|trait)\b", line):
            head = f"{head or ''} {line}".strip()
            if line.endswith("{"):
                inside, is_open, head = subject(head), "trait " in head.split("{")[0], None
            elif line.endswith("}"):
                head = None
            continue
        if line.startswith("}"):
            inside = None
        begun = FUNCTION.match(line.strip())
        if begun:
            name = f"{inside}::{begun[2]}" if inside else begun[2]
            current = (name, begun[1] == "pub " or is_open and bool(inside), [])
            found.append(current)
        if current:
            current[2].extend(it or "" for it in CLAUSE.findall(line))
            if line.strip() in ("{", "{}") or line.endswith(";"):
                current = None
    return found


def ledger(top):
    """Returns for each crate and file its public calls with clauses: {crate: {file: {call: [clause, ..]}}}."""
    found = {}
    for crate in crates(top):
        found[crate] = files = {}
        for path in sorted((top / "crates" / crate / "src").rglob("*.rt")):
            for name, is_public, clauses in calls_of(path.read_text()):
                if is_public and clauses:
                    listed = files.setdefault(str(path.relative_to(top / "crates" / crate / "src")), {}).setdefault(name, [])
                    listed.extend(it for it in clauses if it not in listed)
    return found


def definitions(top, crate):
    """Returns the public definitions of a crate that begin with a capital letter, with their fields."""
    found, last = {}, None
    for path in sorted((top / "crates" / crate / "specs").glob("*.antt")):
        for line in path.read_text().splitlines():
            field, defined = FIELD.match(line), DEFINED.match(line)
            if field and last:
                found[last].append(field[1])
            elif defined:
                last = defined[1]
                found.setdefault(last, [])
    return found


def cells(lines):
    """Returns the cells of the columns named COLUMN, each with the number of its line."""
    at = None
    for number, line in enumerate(lines, 1):
        row = [it.strip() for it in line.strip().strip("|").split("|")] if line.startswith("|") else []
        if not row:
            at = None
        elif COLUMN in row:
            at = row.index(COLUMN)
        elif at is not None and not line.startswith("|--"):
            yield number, row[at] if at < len(row) else ""


def wrong_items(crate, items, calls, defined):
    """Returns what is wrong with the calls that a cell names of a crate."""
    for name, clauses in ITEMS.findall(items):
        known = calls.get(name, defined.get(name))
        if known is None:
            yield f"{crate} has no public call {name} with a clause"
            continue
        yield from (f"{crate}: {name} has no clause {it}" for it in re.findall(r"\w+", clauses) if it not in known)


def findings(top):
    """Returns all findings of docs/PROVED.md, each with its line."""
    calls = {crate: {name: it for file in files.values() for name, it in file.items()} for crate, files in ledger(top).items()}
    named = set(ALONE)
    for number, cell in cells((top / "docs/PROVED.md").read_text().splitlines()):
        for group in filter(None, re.split(r"; (?=`\w+`:)", cell)):
            parts = GROUP.fullmatch(group)
            if not parts:
                yield number, f"isn't of the form of a cell '{COLUMN}': {group}"
            elif parts[1] not in calls:
                yield number, f"no crate {parts[1]}"
            else:
                named.add(parts[1])
                yield from ((number, it) for it in wrong_items(parts[1], parts[2], calls[parts[1]], definitions(top, parts[1])))
    yield from ((1, f"no table names a call of {crate}") for crate in calls if calls[crate] and crate not in named)


def page(top, names):
    """Returns the ledger as a page of Markdown."""
    lines = ["# The ledger of clauses", "", "Made by tools/ledger.py of the crates' sources."]
    for crate, files in ledger(top).items():
        if files and (not names or crate in names):
            lines += ["", f"## {crate}"]
            for file, calls in files.items():
                lines += ["", f"{file}:", ""]
                for name, clauses in calls.items():
                    shown = ", ".join(f"`{it}`" for it in clauses if it)
                    lines.append(f"- `{name}`" + (f" ({shown})" if shown else ""))
    return "\n".join(lines) + "\n"


def main(words):
    here = Path(__file__).resolve().parent.parent
    if words[:1] == ["--check"]:
        top = Path(words[1]).resolve() if words[1:] else here
        found = [f"docs/PROVED.md:{number}: {it}" for number, it in findings(top)]
        print("\n".join(found), end="\n" if found else "")
        return 1 if found else 0
    unknown = sorted(set(words) - set(crates(here)))
    if unknown:
        print(f"ledger: no crate {unknown[0]}", file=sys.stderr)
        return 2
    print(page(here, words), end="")
    return 0


if __name__ == "__main__":
    sys.exit(main(sys.argv[1:]))
