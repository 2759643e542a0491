#!/usr/bin/env python3
"""Writes the man page of crashbpf from what the program's own help says.

    tools/man_page.py [PROGRAM]

runs PROGRAM (crates/crashbpf/out/crashbpf where it isn't given) with `--help`, and with each command's `--help`, and prints
the page: each list of a help with its items in bold, each paragraph filled to the reader's width. docs/crashbpf.1 holds it;
`man -l docs/crashbpf.1` shows it. tests/gate/run.py compares the two, so help and page stay the same words. tools/completions.py makes of the page what shells complete, and tools/document_tables.py the
tables of docs/.
"""
import re
import subprocess
import sys
from pathlib import Path

PROGRAM = Path(__file__).resolve().parent.parent / "crates/crashbpf/out/crashbpf"

# What stands after the helps.
LAST = (
    ".SH FILES",
    "The folder share/crashbpf beside that of the program, mostly /usr/share/crashbpf, has README.md, the pages of docs/ and examples.",
    ".SH SEE ALSO",
    ".BR crashbpf\\-each ,",
    ".BR crashbpf\\-record ,",
    ".B crashbpf\\-files",
    "and",
    ".B crashbpf\\-cc",
    "say with \\-\\-help what they do.",
)


def help_of(program, *words):
    ran = subprocess.run([program, *words, "--help"], stdin=subprocess.DEVNULL, stdout=subprocess.PIPE, text=True, check=True)
    return ran.stdout.rstrip("\n")


def version_of(program):
    ran = subprocess.run([program, "--version"], stdin=subprocess.DEVNULL, stdout=subprocess.PIPE, text=True, check=True)
    return ran.stdout.split()[1]


def commands_in(text):
    """Returns the commands that a help lists, but `help` itself."""
    listed = text.partition("Commands:\n")[2].partition("\n\n")[0]
    return [line.split()[0] for line in listed.split("\n") if not line.split()[0] == "help"]


def escaped(text):
    """Returns lines as roff shows them: backslashes and dashes as they are, no line taken for a request."""
    lines = text.replace("\\", "\\e").replace("-", "\\-").split("\n")
    return "\n".join("\\&" + line if line[:1] in (".", "'") else line for line in lines)


def is_list(block):
    """Whether a block of a help is a title with items: `Options:`, and a line for each."""
    title, *items = block.split("\n")
    return bool(items) and re.fullmatch(r"\w+:", title) is not None and all(it.startswith("  ") for it in items)


def items_of(block):
    """Returns the items of such a block, each with what is said of it, in its lines."""
    items = []
    for line in block.split("\n")[1:]:
        if re.match(r"(?: {2}| {6})(?=\S)", line):
            items.append(re.split(r" {2,}", line.strip(), maxsplit=1))
        else:
            items[-1][1] += f"\n{line.strip()}"
    return items


def block_of(title, items):
    """Returns such a block as the help has it: what is said of the items begins in one column, each line of it."""
    begun = [f"{'      ' if item.startswith('--') else '  '}{item}" for item, _ in items]
    width = max(map(len, begun)) + 2
    return "\n".join([f"{title}:", *(item.ljust(width) + says.replace("\n", "\n" + " " * width) for item, (_, says) in zip(begun, items))])


def set_out(text):
    """Returns a help as roff: lists with their items in bold, examples as they are, and paragraphs that are filled to the reader's
    width."""
    out = []
    for block in text.split("\n\n"):
        if is_list(block):
            out.append(f".SS {block.partition(':')[0]}")
            out += [f".TP\n.B {escaped(item)}\n{escaped(says)}" for item, says in items_of(block)]
        elif block.startswith("Example"):
            # (two columns in, so that a line of 78 fits a terminal)
            out.append(f".PP\n.in 2n\n.nf\n{escaped(block)}\n.fi\n.in")
        else:
            out.append(f".PP\n{escaped(block)}")
    return "\n".join(out)


def unescaped(lines):
    return "\n".join(it.removeprefix("\\&") for it in lines).replace("\\-", "-").replace("\\e", "\\")


def helps_in(page):
    """Returns the helps that a page holds: the program's own after the name "", but its first line, and each command's."""
    helps = {}
    for section in page.split("\n.SH ")[1:]:
        name, _, text = section.partition("\n")
        if name == "DESCRIPTION" or name.startswith("CRASHBPF "):
            blocks = []
            for part in re.split(r"(?m)^(?=\.(?:SS |PP$))", text.rstrip("\n"))[1:]:
                head, *lines = part.rstrip("\n").split("\n")
                if head == ".PP":
                    blocks.append(unescaped([it for it in lines if it not in (".in 2n", ".nf", ".fi", ".in")]))
                else:
                    items = [it.rstrip("\n").split("\n") for it in "\n".join(lines).split(".TP\n.B ")[1:]]
                    blocks.append(block_of(head.removeprefix(".SS "), [[unescaped([item]), unescaped(says)] for item, *says in items]))
            helps[name.partition(" ")[2].lower()] = "\n\n".join(blocks)
    return helps


def page(program):
    """Returns the man page of the program's helps."""
    whole = help_of(program)
    about, _, rest = whole.partition("\n\n")
    parts = [
        f'.TH CRASHBPF 1 "" "crashbpf {version_of(program)}" "User Commands"\n.nh\n.ad l',
        ".SH NAME\ncrashbpf \\- " + escaped(re.sub(r"\.$", "", about[0].lower() + about[1:])),
        ".SH SYNOPSIS\n.B crashbpf\n[\\fICOMMAND\\fR [\\fIOPTIONS\\fR] \\fIFILE\\fR ...]",
        ".SH DESCRIPTION\n" + set_out(rest),
    ]
    helps = {"": rest, **{command: help_of(program, command) for command in commands_in(whole)}}
    parts += [f".SH CRASHBPF {command.upper()}\n" + set_out(text) for command, text in helps.items() if command]
    made = "\n".join([*parts, *LAST]) + "\n"
    for command, text in helps_in(made).items():
        if text != helps[command]:
            sys.exit(f"man_page: the help of '{command}' isn't found again in its page")
    return made


if __name__ == "__main__":
    program = sys.argv[1] if len(sys.argv) > 1 else str(PROGRAM)
    if program.startswith("-"):
        sys.exit(__doc__)
    sys.stdout.write(page(program))
