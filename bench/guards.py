#!/usr/bin/env python3
"""Times runs of accepted checkers with guards, beside the same without.

    python3 bench/guards.py PROGRAM [ROUNDS]

Each checker makes 60,000 turns of a loop on each of 41 images. A round runs all pairs once; of the processor time of each
the least of ROUNDS (9) counts, and the time without guards by that with them is printed. The first five have no guarded slot
in their loop, and are to give at least 0.95. The others have one guarded load a turn, and stand beside the same load of an
address that is known; they are to give at least 0.5. It takes half a minute, and is no part of the gate. On a machine that
others use, take `chrt -f 10 taskset -c 3` in front.
"""
import resource
import subprocess
import sys
import tempfile
from pathlib import Path

sys.dont_write_bytecode = True

import rooms

rooms.enter()

from notation import F, W, log

OPTIONS = "--sectors 8 --workers 1"
LOG = [entry for turn in range(4) for entry in [*(W(turn + at, 1, 1 + 3 * turn + at) for at in range(3)), F]]


def loop(before, turn, after=""):
    """A checker that makes these instructions 60,000 times, and answers 0."""
    count = turn.count("\n")
    lines = f"mov64 r6, 0\nmov64 r1, 60000\ncall 3\njeq r0, 0, +{count + 1}\n{turn}ja -{count + 4}\nmov64 r0, 0\nexit\n"
    return before + lines + after


FROM_CONTEXT, FROM_STACK = "mov64 r7, r1\n", "mov64 r7, r10\nstdw [r10-8], 0\n"
FROM_SECTOR = "mov64 r1, 1\ncall 1\njne r0, 0, +2\nmov64 r0, 0\nexit\nmov64 r7, r0\n"
# What makes the verifier forget where r7 points to.
FORGET = "xor64 r7, 0\n"
LOAD = "ldxdw r2, [r7+8]\nadd64 r6, r2\n"
STACK = "stxdw [r10-8], r6\nldxb r2, [r7-8]\nadd64 r6, r2\nadd64 r6, 1\n"
CALL = "callf +3\n"
# A checker without guards, and one with them.
PAIRS = {
    "arithmetic": 2 * [loop("", "add64 r6, 3\nxor64 r6, 7\nmov64 r2, r6\nadd64 r2, 1\n")],
    "context": 2 * [loop(FROM_CONTEXT, LOAD)],
    "stack": 2 * [loop(FROM_STACK, STACK)],
    "call": 2 * [loop("", CALL, "mov64 r0, 7\nexit\n")],
    "call, local": 2 * [loop("", CALL, "stdw [r10-8], 6\nldxdw r0, [r10-8]\nexit\n")],
    "context, guarded": [loop(FROM_CONTEXT, LOAD), loop(FROM_CONTEXT + FORGET, LOAD)],
    "stack, guarded": [loop(FROM_STACK, STACK), loop(FROM_STACK + FORGET, STACK)],
    "sector, guarded": [loop(FROM_SECTOR, LOAD), loop(FROM_SECTOR + FORGET, LOAD)],
}


def seconds(words, folder):
    """The processor time of a run, which finds no image that fails."""
    before = resource.getrusage(resource.RUSAGE_CHILDREN)
    done = subprocess.run(words, cwd=folder, capture_output=True, text=True)
    after = resource.getrusage(resource.RUSAGE_CHILDREN)
    if done.returncode != 0:
        sys.exit(f"{' '.join(words)}: status {done.returncode} {done.stdout}{done.stderr}")
    return after.ru_utime + after.ru_stime - before.ru_utime - before.ru_stime


def main(program, rounds=9):
    program = str(Path(program).resolve())
    with tempfile.TemporaryDirectory() as name:
        folder = Path(name)
        (folder / "log").write_bytes(log(LOG))
        runs = {}
        for row, texts in PAIRS.items():
            for text, guards in zip(texts, ([], ["--guards"])):
                (folder / "text").write_text(text)
                code = folder / f"{row}{len(guards)}".replace(", ", "_")
                code.write_bytes(subprocess.run([program, "asm", "text"], cwd=folder, check=True, capture_output=True).stdout)
                runs[row, len(guards)] = [program, "explore", "log", code.name, *OPTIONS.split(), *guards]
        least = {}
        for _ in range(int(rounds)):
            for run, words in runs.items():
                least[run] = min(seconds(words, folder), least.get(run, 1e9))
        for row in PAIRS:
            print(f"{row:20} {least[row, 0] / least[row, 1]:.2f}   {1000 * least[row, 0]:6.1f} ms, with guards {1000 * least[row, 1]:6.1f}")


if __name__ == "__main__":
    if len(sys.argv) not in (2, 3):
        sys.exit(__doc__)
    main(*sys.argv[1:])
