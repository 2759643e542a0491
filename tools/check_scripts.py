#!/usr/bin/env python3
"""Checks the scripts in Python by the rules of CONTRIBUTING.md. Prints a line for each finding; the status is then 1, else 0.

    tools/check_scripts.py [TOP]

Looked at are the files of Python in FOLDERS, below the folder above this one or TOP: those named *.py, and those that begin with
a line that names python3.

- Each is a program that Python takes.
- Each function that isn't plain has a docstring. Plain is one of at most STATEMENTS statements, `main`, one whose name begins with
  two underscores, and one within another function.
- Python's path is changed in at most PATHS lines.
- pyflakes says nothing of the kinds in KINDS: names that are imported or set and never used, or used and never set. Where the
  command pyflakes3 isn't there, a line says that this was left out; Debian's package pyflakes3 has it.

The last line counts: the functions, how many of them aren't plain, how many of these have no docstring, and the lines that change
Python's path.
"""
import ast
import re
import shutil
import subprocess
import sys
from pathlib import Path

sys.dont_write_bytecode = True

FOLDERS = ("commands", "examples", "tests", "tools", "bench")
# The most statements of a plain function, and the most lines that change Python's path.
STATEMENTS, PATHS = 3, 6
LINTER = "pyflakes3"
# What pyflakes finds that counts. Later versions find more kinds.
KINDS = re.compile(r"imported but unused|undefined name|assigned to but never used|redefinition of unused|missing placeholders|syntax")
PATH = re.compile(r"^\s*sys\.path(\.insert|\.append|\.extend|\[.*\]\s*=| \+=|\s*=)")


def scripts(top):
    """Returns the files of Python, in the order of their names."""
    paths = [it for folder in FOLDERS for it in sorted((top / folder).rglob("*")) if it.is_file() and "out" not in it.parts]
    return [it for it in paths if it.suffix == ".py" or not it.suffix and b"python3" in it.read_bytes().partition(b"\n")[0]]


def functions(node, is_inner=False):
    """Yields the functions below a node, each with whether another has it."""
    for it in ast.iter_child_nodes(node):
        is_function = isinstance(it, (ast.FunctionDef, ast.AsyncFunctionDef))
        if is_function:
            yield it, is_inner
        yield from functions(it, is_inner or is_function)


def is_plain(function, is_inner):
    """Says whether a function needs no docstring."""
    statements = sum(isinstance(it, ast.stmt) for it in ast.walk(function)) - 1 - (ast.get_docstring(function) is not None)
    return is_inner or function.name == "main" or function.name.startswith("__") or statements <= STATEMENTS


def by_linter(top, paths):
    """Yields what pyflakes finds, or says that it isn't there."""
    command = shutil.which(LINTER)
    if not command:
        print(f"not run: {LINTER}, since it isn't there; Debian's package {LINTER} has it")
        return
    done = subprocess.run([command, *(it.relative_to(top) for it in paths)], cwd=top, capture_output=True, text=True)
    yield from (it for it in (done.stdout + done.stderr).splitlines() if KINDS.search(it))


class Count:
    """What is counted over all scripts, and the programs that Python doesn't take."""

    def __init__(self):
        self.functions, self.needed, self.lacking, self.changes, self.broken = 0, 0, [], [], []

    def add(self, name, text):
        """Counts a script."""
        try:
            tree = ast.parse(text)
        except SyntaxError as error:
            self.broken.append(f"{name}:{error.lineno}: {error.msg}")
            return
        self.changes += [f"{name}:{number}" for number, line in enumerate(text.splitlines(), 1) if PATH.match(line)]
        for function, is_inner in functions(tree):
            self.functions += 1
            if not is_plain(function, is_inner):
                self.needed += 1
                self.lacking += [] if ast.get_docstring(function) else [f"{name}:{function.lineno}: {function.name} has no docstring"]

    def findings(self):
        """Yields what is against the rules."""
        yield from self.broken
        yield from self.lacking
        if len(self.changes) > PATHS:
            yield from (f"{it}: Python's path is changed here too, and at most {PATHS} lines of all scripts do it" for it in self.changes)

    def __str__(self):
        lacking = f"{len(self.lacking)} of these have no docstring"
        return f"{self.functions} functions, {self.needed} aren't plain, {lacking}; {len(self.changes)} lines change Python's path"


def main(words):
    if words and words[0].startswith("-"):
        sys.exit(__doc__)
    top = Path(words[0] if words else Path(__file__).parent.parent).resolve()
    paths, count = scripts(top), Count()
    for path in paths:
        count.add(path.relative_to(top), path.read_text())
    found = [*count.findings(), *by_linter(top, paths)]
    print("\n".join([*found, str(count)]))
    return 1 if found else 0


if __name__ == "__main__":
    sys.exit(main(sys.argv[1:]))
