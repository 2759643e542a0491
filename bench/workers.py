#!/usr/bin/env python3
"""Times whole runs by workers and with the cache, as ratios of one round.

    python3 bench/workers.py [PROGRAM [BEFORE]]

PROGRAM is crates/crashbpf/out/crashbpf where it isn't given; BEFORE an older program, timed beside it with one worker.
Each round makes every run once, and the best time of each counts. It takes about a minute on an idle machine, and is no
part of the gate.

    workers   4,001,222 images of one cut, two writes of 2,828 to one sector lost, and a checker of five steps that looks at
              it: by 1, 2 and 4 workers
    tears     some 4,000,000 images of one cut, two writes to that sector lost or torn, and the same checker: images a second.
              The log has as many writes as it takes, so that an older program, for which a sector is torn in fewer ways,
              makes as many images
    uneven    65,536 images in 1,024 blocks, each sixteenth of which takes 100,000 steps an image and each other 1,000, by
              1 and 4 workers. The checker looks at a sector that the log writes
    cache     18,001 images, equal but for their choice, and a checker of some 20,500 steps that looks at all 64 sectors: with no
              cache and one of 65,536
    cases     `--bound any`, by 1, 2 and 4 workers. Of one cut 78,125 cases, four writes to each of seven sectors, and a checker of 1,000
              steps that looks at all of them. Of 401 cuts 25,601, nine writes to three sectors at each, and such a checker
"""
import os
import subprocess
import sys
import tempfile
import time
from pathlib import Path

sys.dont_write_bytecode = True

import rooms

rooms.enter()

from notation import F, W, log

TOP = Path(__file__).resolve().parent.parent
ROUNDS = 3
# Looks at sector 0, which all writes of the logs of lost and torn sectors touch. So no image is told by footprints.
FIVE_STEPS = "mov64 r1, 0\ncall 5\nmov64 r2, 0\nmov64 r0, 0\nexit\n"
# Looks at sector 0, which the log writes. The images of a block have epochs that differ in their low six bits.
UNEVEN_STEPS = """mov64 r7, r1
mov64 r1, 0
call 5
ldxdw r6, [r7+8]
rsh64 r6, 6
and64 r6, 15
jeq r6, 0, +5
mov64 r1, 250
call 3
jeq r0, 0, +1
ja -4
ja +4
mov64 r1, 25000
call 3
jeq r0, 0, +1
ja -4
mov64 r0, 0
exit
"""
# Looks at each of 64 sectors, which is more than a footprint keeps.
MANY_STEPS = """mov64 r6, 0
mov64 r1, r6
call 5
add64 r6, 1
jeq r6, 64, +4
mov64 r1, 100
call 3
jeq r0, 0, +1
ja -8
mov64 r1, 5000
call 3
jeq r0, 0, +1
ja -4
mov64 r0, 0
exit
"""


def looking(sectors):
    """A checker of some 1,000 steps that looks at the first sectors, and answers 0."""
    look = "".join(f"mov64 r1, {it}\ncall 5\n" for it in range(sectors))
    return f"{look}mov64 r1, 250\ncall 3\njeq r0, 0, +1\nja -4\nmov64 r0, 0\nexit\n"


CHECKERS = {"five": FIVE_STEPS, "many": MANY_STEPS, "uneven": UNEVEN_STEPS, "seven": looking(7), "three": looking(3)}

LOGS = {
    "drops.log": lambda: [W(0, 1, 0x55)] * 2828,
    "equal.log": lambda: [W(sector % 64, 1, 0) for sector in range(1200)],
    "flushes.log": lambda: [W(0, 1, 0x55), *[F] * 65534],
    "heavy.log": lambda: [W(it % 7, 1, 1 + it) for it in range(28)],
    "cuts.log": lambda: [entry for turn in range(400) for entry in [*(W(it % 3, 1, 1 + (9 * turn + it) % 250) for it in range(9)), F]],
}

DROPS = "explore drops.log five --sectors 4096 --cuts flush --bound 2"
TEARS = "--sectors 1024 --cuts flush --bound 2 --tears"
TORN_IMAGES = 4_000_000
UNEVEN = "explore flushes.log uneven --sectors 1 --bound 0"
EQUAL = "explore equal.log many --sectors 64 --cuts flush --bound 1 --tears"
HEAVY = "explore heavy.log seven --sectors 8 --bound any"
CUTS = "explore cuts.log three --sectors 8 --bound any"

RUNS = {
    "1 worker": DROPS,
    "2 workers": f"{DROPS} --workers 2",
    "4 workers": f"{DROPS} --workers 4",
    "uneven, 1 worker": UNEVEN,
    "uneven, 4 workers": f"{UNEVEN} --workers 4",
    "no cache": EQUAL,
    "cache": f"{EQUAL} --cache 65536",
    "one cut, 1 worker": HEAVY,
    "one cut, 2 workers": f"{HEAVY} --workers 2",
    "one cut, 4 workers": f"{HEAVY} --workers 4",
    "401 cuts, 1 worker": CUTS,
    "401 cuts, 2 workers": f"{CUTS} --workers 2",
    "401 cuts, 4 workers": f"{CUTS} --workers 4",
}


def seconds(program, words, folder):
    """How long a run takes, which has to end with status 0."""
    start = time.perf_counter()
    subprocess.run([program, *words.split()], cwd=folder, stdout=subprocess.DEVNULL, stderr=subprocess.DEVNULL, check=True)
    return time.perf_counter() - start


def prepare(program, folder):
    """Writes the logs and the checkers to a folder."""
    for name, entries in LOGS.items():
        Path(folder, name).write_bytes(log(entries()))
    for name, text in CHECKERS.items():
        Path(folder, "source").write_text(text)
        done = subprocess.run([program, "asm", "source"], cwd=folder, capture_output=True, check=True)
        Path(folder, name).write_bytes(done.stdout)


def torn_log(program, name, folder):
    """Makes the shortest log with TORN_IMAGES images for that program, and answers how many it has."""
    for writes in range(64, 1024):
        Path(folder, name).write_bytes(log([W(0, 1, 0x55)] * writes))
        words = [program, "images", name, *TEARS.split()]
        images = int(subprocess.run(words, cwd=folder, capture_output=True, check=True).stdout.split()[-1])
        if images >= TORN_IMAGES:
            return images
    sys.exit("no log has that many images")


def main(words):
    program = str(Path(words[0] if words else TOP / "crates/crashbpf/out/crashbpf").resolve())
    runs = {name: (program, row) for name, row in RUNS.items()}
    runs["tears"] = (program, f"explore torn.log five {TEARS}")
    images, best = {}, {}
    with tempfile.TemporaryDirectory() as folder:
        prepare(program, folder)
        images["tears"] = torn_log(program, "torn.log", folder)
        if len(words) > 1:
            before = str(Path(words[1]).resolve())
            runs["1 worker, before"] = (before, DROPS)
            runs["4 workers, before"] = (before, f"{DROPS} --workers 4")
            runs["uneven, 4 workers, before"] = (before, f"{UNEVEN} --workers 4")
            runs["tears, before"] = (before, f"explore torn_before.log five {TEARS}")
            images["tears, before"] = torn_log(before, "torn_before.log", folder)
        for _round in range(ROUNDS):
            for name, (which, row) in runs.items():
                best[name] = min(best.get(name, 1e9), seconds(which, row, folder))
    for name, took in best.items():
        print(f"{name:26} {took:8.3f} s")
    fast = {name: count / best[name] for name, count in images.items()}
    for name, count in images.items():
        print(f"{name:22} {count} images, {fast[name]:,.0f} a second")
    print(f"processors {os.cpu_count()}")
    print(f"2 workers  {best['1 worker'] / best['2 workers']:6.2f} times one")
    print(f"4 workers  {best['1 worker'] / best['4 workers']:6.2f} times one")
    print(f"uneven     {best['uneven, 1 worker'] / best['uneven, 4 workers']:6.2f} times one, by 4 workers")
    print(f"cache      {best['no cache'] / best['cache']:6.2f} times none")
    for of in ["one cut", "401 cuts"]:
        for many in [2, 4]:
            print(f"{of:10} {best[f'{of}, 1 worker'] / best[f'{of}, {many} workers']:6.2f} times one, by {many} workers")
    if len(words) > 1:
        print(f"one worker {best['1 worker, before'] / best['1 worker']:6.2f} times before")
        for name in ["4 workers", "uneven, 4 workers"]:
            print(f"{name:17} {best[f'{name}, before'] / best[name]:6.2f} times before")
        print(f"tears      {fast['tears'] / fast['tears, before']:6.2f} times the images a second of before")


if __name__ == "__main__":
    main(sys.argv[1:])
