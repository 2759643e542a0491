#!/usr/bin/env python3
"""Times `explore --bound any` by one worker, beside `explore` of the same log and checker in the same run.

    python3 bench/cases.py PROGRAM [ROUNDS]

    20, 1,000, 20,000    a checker of that many steps, on a log where footprints tell nothing: 4,000, 400 or 100 epochs of nine writes
                         over the three sectors that it reads. A case is to cost at most 2 times an image of `explore --bound 3` where
                         the checker has 20 steps, and at most 1.3 times where it has more
    pages                a database: a copy-on-write tree in pages of eight sectors with two meta pages, twelve commits, no syncs, so 43
                         writes are in flight at the end. Its checker is cases.c. The run is to take less than 20 ms on the clock

A cost is processor time: that of the run, less that of one with no cut to judge, by how many cases or images there are. Of each the
least of ROUNDS (5) counts. The status is 1 where a row is slower than it is to be. It wants a clang for crashbpf-cc, takes half a
minute, and is no part of the gate.
"""
import os
import re
import resource
import struct
import subprocess
import sys
import tempfile
import time
from pathlib import Path

sys.dont_write_bytecode = True

import rooms

rooms.enter()

from model import mix
from notation import F, S, W, log

TOP = Path(__file__).resolve().parent.parent
# Steps of a checker, how many epochs its log has, and how often a case may cost an image.
CHECKERS = {20: (4000, 2.0), 1000: (400, 1.3), 20000: (100, 1.3)}


def checker(steps):
    """A checker that looks at three sectors, takes that many steps, and answers 0."""
    look = "".join(f"mov64 r1, {it}\ncall 1\njeq r0, 0, +2\nldxb r1, [r0+0]\nadd64 r6, r1\n" for it in range(3))
    turns = (steps - 20) // 8
    wait = f"next:\nmov64 r1, {turns}\ncall 3\njeq r0, 0, done\n" + "mul64 r6, 3\nadd64 r6, 1\n" * 2 + "ja next\ndone:\n" if turns else "mov64 r8, r6\nmov64 r9, r8\n"
    return f"mov64 r6, 0\n{look}{wait}mov64 r0, 0\nexit\n"


def epochs(count):
    return [entry for turn in range(count) for entry in [*(W(it % 3, 1, 1 + (9 * turn + it) % 250) for it in range(9)), F]]


# The database

SECTORS, PAGE, LEAVES, RECORDS = 136, 8, 4, 6


def sealed(words, rest):
    """A page of these words and sectors, with a last word with which the mixes of its sectors have the sum 1."""
    first = struct.pack(f"<{len(words)}Q", *words).ljust(512, b"\0")
    sectors = [first, *rest, *[bytes(512)] * (PAGE - 1 - len(rest))]
    seal = (1 - sum(map(mix, sectors))) % 2**64
    return b"".join(sectors)[:-8] + struct.pack("<Q", seal)


def leaf(page, commit):
    return sealed([page, commit], [struct.pack("<QQ", key, key * commit).ljust(512, b"\0") for key in range(1 + commit, 1 + commit + RECORDS)])


def meta(commit, root):
    return struct.pack("<QQQ", commit % 2, commit, root).ljust(512, b"\0") + bytes(512 * (PAGE - 1))


def database():
    """What the device held, and the entries of twelve commits: each writes a leaf or two, the root, and a meta page. A page is written
    anew where no root of the last two commits names it."""
    where = {it: (5 + 3 * it, 1) for it in range(LEAVES)}
    root, entries = 2, []

    def node(page, commit):
        return sealed([page, commit, *(value for it in where.values() for value in it)], [])

    held = {0: meta(0, 0), 1: meta(1, root), root: node(root, 1), **{page: leaf(page, commit) for page, commit in where.values()}}
    for commit in range(2, 14):
        for it in [commit % LEAVES, (commit + 1) % LEAVES][: 2 if commit < 9 else 1]:
            page, _of = where[it]
            page = 5 + 3 * it + (page - 4 - 3 * it) % 3
            where[it] = page, commit
            entries.append(S(PAGE * page, leaf(page, commit)))
        root = 2 + commit % 3
        entries += [S(PAGE * root, node(root, commit)), S(PAGE * (commit % 2), meta(commit, root))]
    return b"".join(held.get(page, bytes(512 * PAGE)) for page in range(SECTORS // PAGE)), entries


# Runs


def timed(words, folder):
    """What a run prints, its processor time, and its time on the clock."""
    before, start = resource.getrusage(resource.RUSAGE_CHILDREN), time.perf_counter()
    ran = subprocess.run(words, cwd=folder, capture_output=True, text=True)
    took, after = time.perf_counter() - start, resource.getrusage(resource.RUSAGE_CHILDREN)
    if ran.returncode > 1:
        sys.exit(f"{' '.join(words)}: {ran.stderr}")
    return ran.stdout, after.ru_utime + after.ru_stime - before.ru_utime - before.ru_stime, took


# The options of the two runs of a log, and where their last lines count.
KINDS = {"any": r" cases (\d+) failing 0 ", "3": r"images (\d+) failing 0 "}


def costs(program, rounds, steps, folder):
    """What a case costs, and what an image costs, in seconds, and how many there are of each."""
    least, counts = {}, {}
    for _round in range(rounds):
        for bound, counted in KINDS.items():
            for cuts in ("flush", "mark"):
                out, took, _clock = timed([program, "explore", f"epochs{steps}", f"p{steps}", "--sectors", "4", "--bound", bound, "--cuts", cuts], folder)
                least[bound, cuts] = min(took, least.get((bound, cuts), took))
                counts[bound, cuts] = int(re.search(counted, out)[1])
    assert counts["any", "mark"] == counts["3", "mark"] == 0
    return [((least[it, "flush"] - least[it, "mark"]) / counts[it, "flush"], counts[it, "flush"]) for it in KINDS]


def prepare(program, folder):
    """Writes the logs and the checkers."""
    for steps, (count, _most) in CHECKERS.items():
        Path(folder, f"epochs{steps}").write_bytes(log(epochs(count)))
        Path(folder, "source").write_text(checker(steps))
        Path(folder, f"p{steps}").write_bytes(subprocess.run([program, "asm", "source"], cwd=folder, capture_output=True, check=True).stdout)
    Path(folder, "crashbpf").symlink_to(program)
    base, entries = database()
    Path(folder, "base").write_bytes(base)
    Path(folder, "pages").write_bytes(log(entries))
    environment = {**os.environ, "PATH": f"{folder}:{os.environ['PATH']}"}
    words = [TOP / "commands/cc/crashbpf-cc", TOP / "bench/cases.c", "check", "pages.bpf", "--sectors", str(SECTORS)]
    subprocess.run(words, cwd=folder, env=environment, check=True, stdout=subprocess.DEVNULL)


def main(words):
    if not 1 <= len(words) <= 2:
        sys.exit(__doc__)
    program, rounds, slow = str(Path(words[0]).resolve()), int(words[1]) if len(words) > 1 else 5, 0
    with tempfile.TemporaryDirectory() as folder:
        prepare(program, folder)
        for steps, (_count, most) in CHECKERS.items():
            (case, cases), (image, images) = costs(program, rounds, steps, folder)
            slow += case > most * image
            about = f"{cases:7} cases of {1e9 * case:7.0f} ns, {images:7} images of {1e9 * image:7.0f} ns"
            print(f"{steps:6} steps  {about}  {case / image:5.2f}, at most {most}{'  TOO SLOW' if case > most * image else ''}", flush=True)
        call = [program, "explore", "pages", "pages.bpf", "--sectors", str(SECTORS), "--base", "base", "--by", "write", "--bound", "any"]
        runs = [timed(call, folder) for _round in range(4 * rounds)]
        clock = 1000 * min(took for _out, _processor, took in runs)
        slow += clock >= 20
        print(f" pages of {len(Path(folder, 'pages.bpf').read_bytes())} bytes  {clock:.1f} ms, less than 20{'  TOO SLOW' if clock >= 20 else ''}: {runs[0][0].splitlines()[-1]}")
    return 1 if slow else 0


if __name__ == "__main__":
    sys.exit(main(sys.argv[1:]))
