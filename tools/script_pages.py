#!/usr/bin/env python3
"""Makes the man page of each script in commands/ that is installed, and what the shells complete of it, from its own help.

    tools/script_pages.py FOLDER

writes, for each of SCRIPTS, the files NAME.1, NAME.bash, _NAME (zsh) and NAME.fish to FOLDER. `tools/package` takes the same when it makes
a package. So a script's help is written once.

A help has blocks with blank lines between. The first says what the script does and the second how it is called; of a help that
argparse makes it is the other way round. In any other block, indented lines are a list where something is said of an item, two or
more spaces after it or in deeper lines below; else they are shown as they are. A line before them that ends with a colon is their
title. What isn't indented is a paragraph.
"""
import functools
import os
import re
import subprocess
import sys
from dataclasses import dataclass
from pathlib import Path

sys.dont_write_bytecode = True

import completions
import man_page

TOP = Path(__file__).resolve().parent.parent
# The scripts that are installed, with where they stand in commands/.
SCRIPTS = {
    "crashbpf-cc": "cc/crashbpf-cc",
    "crashbpf-each": "each/crashbpf-each",
    "crashbpf-files": "record/crashbpf-files",
    "crashbpf-record": "record/crashbpf-record",
    "crashbpf-test": "test/crashbpf-test",
}


@dataclass
class Help:
    """A script's help: its name, what it does, how it is called, and the other blocks."""

    name: str
    about: str
    usage: str
    blocks: list

    def sentence(self):
        """Returns the first sentence of what it does, without its full stop."""
        return " ".join(self.about.split()).partition(". ")[0].rstrip(".")


@functools.cache
def read(name):
    """Returns the help that a script prints."""
    words = [sys.executable, TOP / "commands" / SCRIPTS[name], "--help"]
    ran = subprocess.run(words, stdin=subprocess.DEVNULL, stdout=subprocess.PIPE, text=True, check=True, env={**os.environ, "COLUMNS": "80"})
    first, second, *blocks = ran.stdout.rstrip("\n").split("\n\n")
    about, usage = (second, first.removeprefix("usage: ")) if first.startswith("usage: ") else (first, second)
    return Help(name, about, usage, blocks)


def titled(block):
    """Returns a block's title, where it has one, and its other lines."""
    first, *lines = block.split("\n")
    if first.endswith(":") and lines and not first.startswith(" ") and all(it.startswith(" ") for it in lines):
        return first.rstrip(":"), lines
    return None, [first, *lines]


def items_of(lines):
    """Returns the items of indented lines, each with what is said of it; or none, where nothing is said of any."""
    least = min(len(it) - len(it.lstrip()) for it in lines)
    items = []
    for line in lines:
        text = line.strip()
        if len(line) - len(line.lstrip()) == least:
            item, _, says = text.partition("  ")
            items.append([item, says.strip()])
        else:
            items[-1][1] = f"{items[-1][1]} {text}".strip()
    return items if any(says for _, says in items) else []


def is_indented(lines):
    return all(it.startswith(" ") for it in lines)


def lists_in(help_):
    """Returns the items of all lists of a help."""
    lists = (titled(it)[1] for it in help_.blocks)
    return [item for lines in lists if is_indented(lines) for item in items_of(lines)]


def as_it_stands(text):
    return f".PP\n.in 2n\n.nf\n{man_page.escaped(text)}\n.fi\n.in"


def set_out(block):
    """Returns a block as roff."""
    title, lines = titled(block)
    heading = [f".SS {title[0].upper()}{man_page.escaped(title[1:])}"] if title else []
    if not is_indented(lines):
        return f".PP\n{man_page.escaped(block)}"
    items = items_of(lines)
    if not items:
        return "\n".join([*heading, as_it_stands("\n".join(it.strip() for it in lines))])
    return "\n".join([*heading, *(f".TP\n.B {man_page.escaped(item)}\n{man_page.escaped(says)}" for item, says in items)])


def page(help_, version):
    """Returns the man page of a script."""
    about = help_.sentence()
    usage = "\n".join(it.strip() for it in help_.usage.split("\n"))
    parts = [f'.TH {man_page.escaped(help_.name.upper())} 1 "" "crashbpf {version}" "User Commands"\n.nh\n.ad l']
    parts.append(f".SH NAME\n{man_page.escaped(help_.name)} \\- {man_page.escaped(about[0].lower() + about[1:])}")
    parts.append(f".SH SYNOPSIS\n{as_it_stands(usage)}")
    parts += [".SH DESCRIPTION", f".PP\n{man_page.escaped(help_.about)}", *map(set_out, help_.blocks)]
    others = ", ".join(f".BR {man_page.escaped(it)} (1)" for it in ("crashbpf", *SCRIPTS) if it != help_.name)
    parts.append(".SH SEE ALSO\n" + others.replace(", ", " ,\n"))
    return "\n".join(parts) + "\n"


def option_of(item, says):
    """Returns an option of a list. What stands after its names is its value; words in braces are all that it may be."""
    names = re.findall(r"(?<![\w-])--?[A-Za-z][\w-]*", item)
    value = re.sub(r"^[\s,]+", "", item[item.rindex(names[-1]) + len(names[-1]):])
    words = re.fullmatch(r"\{(.*)\}", value)
    return completions.Option(names, value or None, words[1].split(",") if words else [], says)


def options_of(help_):
    """Returns the options of a script: those of its lists, and those that its call or a paragraph names, each once."""
    options, known = [], set()
    for item, says in lists_in(help_):
        found = option_of(item, says) if item.startswith("-") else None
        if found and not known & set(found.names):
            options.append(found)
            known |= set(found.names)
    named = re.sub(r"`[^`]*`", "", "\n".join([help_.usage, *help_.blocks]))
    for name in re.findall(r"(?<![\w-])--[a-z][\w-]*", named):
        if name not in known:
            options.append(completions.Option([name], None, [], f"as `{help_.name} --help` says"))
            known.add(name)
    return options


def files_of(name, version):
    """Returns the four files of a script by their names."""
    help_ = read(name)
    command = completions.Command(name, help_.sentence(), options_of(help_), [])
    return {
        f"{name}.1": page(help_, version),
        f"{name}.bash": completions.bash_alone(command),
        f"_{name}": completions.zsh_alone(command),
        f"{name}.fish": completions.fish_alone(command),
    }


def main(words):
    if len(words) != 1 or words[0].startswith("-"):
        sys.exit(__doc__)
    folder = Path(words[0])
    folder.mkdir(parents=True, exist_ok=True)
    for script in SCRIPTS:
        for name, text in files_of(script, man_page.version_of(man_page.PROGRAM)).items():
            (folder / name).write_text(text)


if __name__ == "__main__":
    main(sys.argv[1:])
