"""What the soaks share: their options, and the loop over their runs. A soak compares many random runs, and is started by hand."""
import argparse
import tempfile
from pathlib import Path

from notation import TOP
from running import Assembler


class Soak:
    """The program under test, and the folder of its runs. What a soak compares is its `differs`."""

    def __init__(self, program, folder):
        self.program, self.folder, self.assembler = program, folder, Assembler(program)

    def differs(self, number, seed):
        """What isn't as expected of the run with that number, as a list, or None where it isn't judged."""
        raise NotImplementedError

    def said(self):
        """What is to be said at the end beside how many passed and failed."""
        return ""


def options(description, runs):
    """The options of every soak: how many runs, the seed, the number of a run to make again, and the program."""
    parser = argparse.ArgumentParser(description=description)
    parser.add_argument("--runs", type=int, default=runs)
    parser.add_argument("--seed", type=int, default=1)
    parser.add_argument("--only", type=int)
    parser.add_argument("program", nargs="?", default=str(TOP / "crates/crashbpf/out/crashbpf"))
    return parser


def run_all(given, name, make):
    """Makes runs until that many are judged as were asked for, prints what isn't as expected, and returns the exit status.

    `make(program, folder)` makes the soak. The folder is named `name` and stays where one run is made again.
    """
    passed = failed = refused = number = 0
    with tempfile.TemporaryDirectory() as room:
        folder = Path(room) if given.only is None else Path(name).resolve()
        folder.mkdir(exist_ok=True)
        soak = make(str(Path(given.program).resolve()), folder)
        while passed + failed < given.runs and (given.only is None or number == 0):
            differs = soak.differs(given.only if given.only is not None else number, given.seed)
            refused += differs is None
            passed += differs == []
            failed += bool(differs)
            for what in differs or []:
                print(f"run {number if given.only is None else given.only}: {what}", flush=True)
            number += 1
    print(f"{refused} refused or too long{soak.said()}")
    print(f"{passed} passed, {failed} failed")
    return 1 if failed else 0
