#!/usr/bin/env python3
"""Times whole runs in which checkers read a few sectors of those that a cut may lose, beside the program before.

    python3 bench/footprints.py PROGRAM BEFORE [ROUNDS [WORD]]

Each round makes every run once with each program, by 1 and by 4 workers. Of processor time and of time on the clock the
least of ROUNDS (3) counts, and how often the second goes into the first is printed. Both programs have to print the same.
With WORD only the rows that have it in their names are run. All take some minutes, and are no part of the gate.

    one        458 writes over 64 sectors in one epoch, bound 3, a checker that reads one sector: 16,012,368 images. At least 6
    four       3,000 sectors between two flushes, bound 2, a checker that reads four of them: 4,501,503 images. At least 40
    torn       60 writes over 16 sectors, bound 2, torn, a checker that reads one sector: 399,151 images
    all        the same, with a checker that reads all. At least 0.95, as all that follow
    few        3,000 epochs of four writes, all cuts, bound 2: 75,001 images, eleven at most at a cut
    same       300 epochs of 70 writes of one sector, bound 1, a checker that reads it: each departure may be told
    half       300 epochs of 70 writes of two sectors in turn, bound 1, a checker that reads one: half of them may
"""
import resource
import subprocess
import sys
import tempfile
import time
from pathlib import Path

sys.dont_write_bytecode = True

import rooms

rooms.enter()

from notation import F, W, log


def reading(sectors):
    """A checker that reads a byte of each of those sectors, and answers 0."""
    return "".join(f"mov64 r1, {it}\ncall 1\njeq r0, 0, +1\nldxb r6, [r0+0]\n" for it in sectors) + "mov64 r0, 0\nexit\n"


MIX_ALL = """ldxdw r7, [r1+0]
mov64 r6, 0
mov64 r1, r6
call 6
add64 r6, 1
jeq r6, r7, +4
mov64 r1, 100
call 3
jeq r0, 0, +1
ja -8
mov64 r0, 0
exit
"""
PROGRAMS = {"one": reading([5]), "four": reading([5, 500, 1500, 2500]), "all": MIX_ALL}
LOGS = {
    "epoch.log": lambda: [W(it % 64, 1, 1 + it % 250) for it in range(458)],
    "between.log": lambda: [F, *(W(it, 1, 1 + it % 250) for it in range(3000)), F],
    "torn.log": lambda: [W(5 * it % 16, 1, 1 + it) for it in range(60)],
    "few.log": lambda: [e for turn in range(3000) for e in [*(W((7 * turn + it) % 512, 1, 1 + turn % 250) for it in range(4)), F]],
    "same.log": lambda: [e for _ in range(300) for e in [*(W(5, 1, 1 + it) for it in range(70)), F]],
    "half.log": lambda: [e for _ in range(300) for e in [*(W(it % 2 * 5, 1, 1 + it) for it in range(70)), F]],
}
ROWS = {
    "one": "epoch.log one --sectors 64 --cuts flush --bound 3",
    "four": "between.log four --sectors 4096 --cuts flush --bound 2",
    "torn": "torn.log one --sectors 16 --cuts flush --bound 2 --tears",
    "all": "torn.log all --sectors 16 --cuts flush --bound 2 --tears",
    "few": "few.log one --sectors 512 --cuts all --bound 2",
    "same": "same.log one --sectors 64 --cuts flush --bound 1",
    "half": "half.log one --sectors 64 --cuts flush --bound 1",
}


def timed(program, words, folder):
    """What a run prints, its processor time, and its time on the clock."""
    before, start = resource.getrusage(resource.RUSAGE_CHILDREN), time.perf_counter()
    ran = subprocess.run([program, "explore", *words.split()], cwd=folder, capture_output=True, check=True)
    took, after = time.perf_counter() - start, resource.getrusage(resource.RUSAGE_CHILDREN)
    return ran.stdout, after.ru_utime + after.ru_stime - before.ru_utime - before.ru_stime, took


def prepare(program, folder):
    """Writes the logs and the checkers to a folder."""
    for name, entries in LOGS.items():
        Path(folder, name).write_bytes(log(entries()))
    for name, text in PROGRAMS.items():
        Path(folder, "source").write_text(text)
        done = subprocess.run([program, "asm", "source"], cwd=folder, capture_output=True, check=True)
        Path(folder, name).write_bytes(done.stdout)


def main(words):
    if not 2 <= len(words) <= 4:
        sys.exit(__doc__)
    programs = [str(Path(it).resolve()) for it in words[:2]]
    rounds, word = int(words[2]) if len(words) > 2 else 3, words[3] if len(words) > 3 else ""
    with tempfile.TemporaryDirectory() as folder:
        prepare(programs[0], folder)
        for name, row in ROWS.items():
            for workers in [1, 4] if word in name else []:
                best = [[float("inf")] * 2 for _ in programs]
                printed = set()
                for _round in range(rounds):
                    for of_one, program in zip(best, programs):
                        out, *took = timed(program, f"{row} --workers {workers}", folder)
                        printed.add(out)
                        of_one[:] = map(min, of_one, took)
                processor, clock = (before / now for now, before in zip(*best))
                differs = "" if len(printed) == 1 else "  ANOTHER REPORT"
                print(f"{name:5} {workers} workers  {processor:7.2f} by processor time  {clock:7.2f} by the clock{differs}", flush=True)


if __name__ == "__main__":
    main(sys.argv[1:])
