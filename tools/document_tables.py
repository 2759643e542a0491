#!/usr/bin/env python3
"""Writes the tables of docs/ that the program's help and the sources say already.

    tools/document_tables.py [--check]

writes what stands in the documents of TABLES between each two marks `<!-- made: NAME -->` and `<!-- end: NAME -->`. The options are taken from the
helps in docs/crashbpf.1, which tests/gate/run.py compares with the program's own. The refusals and the places of refused options are
taken from the crates' sources: a number, and the sentence that its note says, or else that of its docstring. With --check nothing is written: each table that isn't as it would be written is named, and the status is then
1. tests/gate/run.py looks at the same.
"""
import re
import sys
from pathlib import Path

sys.dont_write_bytecode = True

import completions
import man_page

TOP = Path(__file__).resolve().parent.parent
PAGE = TOP / "docs/crashbpf.1"
CAUSES = TOP / "crates/base/src/causes.rt"
PLACES = TOP / "crates/request/src/settings.rt"
RULES = TOP / "crates/notes/src/command_notes/after.rt"
# The types of causes, with what each refuses, in the order of their numbers.
KINDS = {"Log": "log", "Request": "request", "Code": "program", "Asm": "text", "Verifier": "verifier", "Join": "join", "Work": "work"}
# What the place of a refusal counts, where it isn't 0.
COUNTED = {
    **dict.fromkeys(range(5, 10), "entry"), 10: "entry, or 0 of the log as a whole", 12: "cut, or of `join` the file", 13: "[option](#places)",
    14: "[file](#places)", 15: "entry or cut", 16: "line of the report", 32: "line, or 0 of a text without instructions", 59: "slot, or 0", 73: "missing seats",
    **dict.fromkeys([20, *range(22, 26), *range(40, 45), *range(50, 59)], "slot"), **dict.fromkeys([30, 31, 33, 34], "line"),
    **dict.fromkeys(range(61, 66), "file"), **dict.fromkeys([70, 71], "block"),
}
# What goes without an option, where that isn't `none` and the help names no default.
ABSENT = {"--images": "all images"}


def with_options_marked(text):
    """Returns a text with options in backticks, but for those of a command between quotes."""
    parts = re.split(r"((?<!\w)'[^']*')", text)
    return "".join(it if it.startswith("'") else re.sub(r"(?<!\S)(--[a-z]+(?:-[a-z]+)*)", r"`\1`", it) for it in parts)


def table(head, rows):
    """Returns a table, with options in backticks."""
    shown = [[with_options_marked(cell) for cell in row] for row in rows]
    lines = [f"| {' | '.join(row)} |\n".replace("|  |", "| |") for row in [head, *shown]]
    return "".join([lines[0], "|---" * len(head) + "|\n", *lines[1:]])


def in_order(names):
    return list(dict.fromkeys(names))


def uses_of_options(helps):
    """Returns, for each option as a help shows it, the commands that take it, each with what goes without the option."""
    uses = {}
    for command in completions.commands_in(helps):
        usage = re.search(r"Usage: .*", helps.get(command.name, ""))
        for option in command.options:
            name = option.names[-1]
            says, default = re.fullmatch(r"(.*?)(?: \[default: (.*)\])?", option.says).groups()
            absent = "required" if f"{name} <" in usage[0] else default or (ABSENT.get(name, "none") if option.value else "off")
            shown = f"{', '.join(option.names)} {option.value or ''}".strip()
            if name != "--help":
                uses.setdefault((shown, says), []).append((command.name, absent))
    return uses


def options_table():
    """Returns the table of options: what the help says of each, what goes without it, and which commands take it."""
    rows = []
    for (shown, says), uses in uses_of_options(man_page.helps_in(PAGE.read_text())).items():
        most, *others = in_order(absent for _, absent in uses)
        fewer = [f"{other} for " + ", ".join(name for name, absent in uses if absent == other) for other in others]
        rows.append([f"`{shown}`", says, "; ".join([most, *fewer]), ", ".join(name for name, _ in uses)])
    return table(["Option", "The help says", "If absent", "Taken by"], rows)


def text_of(source, name):
    return re.search(rf'const {name}: &str =\s*"([^"]*)";', source)[1]


def variants(source, name):
    """Returns the variants of an enum of numbers: each number with its sentence, by its note or by its docstring."""
    body = re.search(rf"pub enum {name} \{{\n(.*?)\n\}}", source, re.S)[1]
    found, says = [], ""
    for line in map(str.strip, body.split("\n")):
        noted = re.fullmatch(r'#\[error\("([^"]*)"(?:, (\w+))?\)\]', line)
        if noted:
            says = text_of(source, noted[2]) if noted[2] else noted[1]
        elif line.startswith("///"):
            says = line.removeprefix("///").strip()
        elif line:
            found.append((int(re.fullmatch(r"\w+ = (\d+),", line)[1]), says))
            says = ""
    return found


def split(says):
    """Returns a sentence without what stands after it in parentheses, and that as a link to the section of the document."""
    found = re.fullmatch(r"(.*?)\.? \(docs/([A-Z-]+\.md), (.*)\)", says)
    if not found:
        return says.rstrip("."), ""
    anchor = re.sub(r"[^\w\- ]", "", found[3].lower()).replace(" ", "-")
    return found[1], f"[{found[2]}, {found[3]}]({found[2]}#{anchor})"


def lowered(says):
    return says[:1].lower() + says[1:]


def refusals_table():
    source = CAUSES.read_text()
    rows = [
        [str(number), kind, says, COUNTED.get(number, "0"), rule]
        for name, kind in KINDS.items()
        for number, note in variants(source, f"{name}Cause")
        for says, rule in [split(lowered(note))]
    ]
    return table(["No", "Of", "Says", "At", "Rule"], sorted(rows, key=lambda row: int(row[0])))


def places_table():
    """Returns the table of the places of refused options."""
    source = PLACES.read_text()
    body = re.search(r"pub enum OptionPlace \{\n(.*?)\n\}", source, re.S)[1]
    numbers = [int(it) for it in re.findall(r"(?m)^\s*\w+ = (\d+),", body)]
    rule = re.search(r"fn option_rule\(.*?\n\}", RULES.read_text(), re.S)[0]
    says = dict(re.findall(r'(?m)^\s*(\d+|_) =>\s*(?:\{\s*)?"([^"]*)"', rule))
    return table(["Place", "Says"], [[str(number), lowered(says.get(str(number), says["_"]))] for number in sorted(numbers)])


# The tables of each document.
TABLES = {
    "docs/COMMANDS.md": {"options": options_table},
    "docs/REFUSALS.md": {"refusals": refusals_table, "places": places_table},
}


def made(document, text):
    """Returns a document's text with its tables written anew, and the names of those that change."""
    old = []
    for name, make in TABLES[document].items():
        before, mark, rest = text.partition(f"<!-- made: {name} -->\n")
        stands, end, after = rest.partition(f"<!-- end: {name} -->\n")
        if not mark or not end:
            sys.exit(f"{document} has no two marks for {name}")
        new = f"\n{make()}\n"
        if new != stands:
            old.append(name)
        text = before + mark + new + end + after
    return text, old


def main(words):
    differ = False
    for document in TABLES:
        text, old = made(document, (TOP / document).read_text())
        if words != ["--check"]:
            (TOP / document).write_text(text)
            continue
        for name in old:
            print(f"{document}: the table {name} isn't what tools/document_tables.py writes")
        differ |= bool(old)
    return 1 if differ else 0


if __name__ == "__main__":
    sys.exit(main(sys.argv[1:]))
