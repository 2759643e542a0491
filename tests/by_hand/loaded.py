#!/usr/bin/python3
"""crashbpf-test for a check of examples/kv, in a fraction of the time: the check and its store's library are loaded once, and each run of
the check is a process that has them already. found.py makes its rows of stores by it.

    tests/by_hand/loaded.py WORD ..

The words are those of crashbpf-test, and so is what it prints.
"""
import importlib.machinery
import importlib.util
import shlex
import sys

sys.dont_write_bytecode = True

import rooms

rooms.enter()

from notation import TOP

from commands.shared import program
from commands.shared.verdicts import EXIT, SIGNAL, Verdict
from commands.test import judge


def loaded(name, path):
    """Loads a script as a module."""
    loader = importlib.machinery.SourceFileLoader(name, str(path))
    made = importlib.util.module_from_spec(importlib.util.spec_from_loader(name, loader))
    loader.exec_module(made)
    return made


def as_by_a_shell(ended):
    """Returns how a process ended as a shell says it, which has a status where a signal ended its command."""
    kind, number = ended.verdict
    return ended._replace(verdict=Verdict(EXIT, 128 + number)) if kind == SIGNAL else ended


def main(words):
    test = loaded("crashbpf_test", TOP / "commands/test/crashbpf-test")
    given = shlex.split(words[words.index("--check") + 1])
    for name in ("library", "store"):
        sys.modules[name] = loaded(name, TOP / f"examples/kv/{name}.py")
    check = loaded("check", given[0])
    check.adapter(given[1])

    def act():
        sys.argv = given
        return check.main() or 0

    judge.run = lambda words, *others: as_by_a_shell(program.run(words, *others, act))
    return test.main(words)


if __name__ == "__main__":
    sys.exit(main(sys.argv[1:]))
