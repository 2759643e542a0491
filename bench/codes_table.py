#!/usr/bin/env python3
"""Makes bench/CODES.md of what codes.py wrote of several runs with --to: instructions a step, and how fast each code was beside DPDK.

    python3 bench/codes_table.py TEXT .. > bench/out/codes.md

The texts are of runs with --dpdk and --time. Instructions are those of the first. Codes that DPDK lacks, and loops of codes drawn at random,
are left out; the texts have them.
"""
import sys
from pathlib import Path
from statistics import median

HEAD = """# Runs by code

Each row is a loop of 32 copies of one code, as [README.md](README.md#how-it-is-measured) says. Where a cell has two numbers, the first is of
the form with an immediate and the second of that with a register. Instructions are of the processor, for one step, by callgrind.
The last column is the middle of {runs} runs, in each of which the least time of all rounds counts: above 1 ours is faster. Codes that DPDK
lacks aren't there. Last come ten checkers of `examples/`, as a whole. `bench/codes_table.py` prints this page.

| Loop | Instructions | DPDK's | DPDK's time by ours |
|---|---|---|---|
"""


def rows_of(path):
    """Returns the rows of a text by their names: instructions, DPDK's, ns, and DPDK's ns."""
    found = {}
    for line in Path(path).read_text(encoding="utf-8").splitlines():
        cells = [it.strip() for it in line.strip("|").split("|")]
        if len(cells) == 5 and cells[0] != "Loop" and not cells[0].startswith("---"):
            found[cells[0]] = cells[1:]
    return found


def ratio(name, runs):
    """Returns the middle of DPDK's time of a row by ours, over the runs."""
    return f"{median(float(it[name][3]) / max(float(it[name][2]), 0.01) for it in runs):.2f}"


def joined(runs):
    """Returns the rows of the page by their names: the cells of each form of a code, a form after the other."""
    found = {}
    for name, (ours, theirs, *_) in runs[0].items():
        if theirs and ":" not in name:
            code = name.removesuffix(" imm").removesuffix(" reg")
            found.setdefault(code, []).append((ours, theirs, ratio(name, runs)))
    return found


def main(paths):
    if not paths or any(it.startswith("-") for it in paths):
        sys.exit(__doc__)
    runs = [rows_of(it) for it in paths]
    print(HEAD.format(runs={3: "three"}.get(len(runs), len(runs))), end="")
    for code, forms in joined(runs).items():
        print(f"| {code} | {' | '.join(', '.join(cells) for cells in zip(*forms))} |")


if __name__ == "__main__":
    main(sys.argv[1:])
