#!/usr/bin/env python3
"""Kills runs of crashbpf-each at random moments, goes on with them, and compares what they come to with a run that wasn't killed. By hand.

    python3 tests/by_hand/each_soak.py [PROGRAM [SECONDS [SEED]]]

PROGRAM is as in run.py. Logs, options, the number of runners and the moments are random. A run is killed by the signal 9, or stopped by
SIGINT, until it ends by itself. It prints `N passed, M failed`, and the seed.
"""
import os
import random
import signal
import subprocess
import sys
import tempfile
import time
from pathlib import Path

sys.dont_write_bytecode = True

import rooms

rooms.enter()

from each import EACH, STATE, put
from model import Run
from notation import DISCARD, FLUSH, MARK, TOP, Entry, S

# Of each image it hangs on the bytes and the marks alone what this program ends in: a status, a signal, or 0.
PROGRAM = ["sh", "-c", 'set -- $(cksum < "$1"); set -- $((($1 + $CRASH_MARKS) % 7)); [ $1 -ne 6 ] || kill -9 $$; [ $1 -lt 3 ] || exit $1', "sh", "{}"]


def some_entry(chance, sectors):
    """Any entry of a device of that many sectors, of few bytes, so that many images are the same."""
    kind, at = chance.random(), chance.randrange(sectors)
    if kind < 0.3:
        return Entry(flags=MARK, text=b"commit") if kind < 0.15 else Entry(flags=FLUSH)
    return Entry(at, 1, DISCARD) if kind < 0.4 else S(at, bytes([chance.choice((0, 1, 1, 2))]) * 512)


def some_run(chance):
    """A run of a random log with random options."""
    sectors = chance.randint(1, 6)
    entries = [some_entry(chance, sectors) for _ in range(chance.randint(4, 24))]
    return Run(entries, sectors, bound=chance.randint(0, 2), cuts=chance.choice(("all", "flush", "mark")), by=chance.choice(("sector", "write")))


def ended(folder, words, chance):
    """Starts a run again and again, ends it at a random moment, and returns how it ended at last."""
    times = 0
    while True:
        resume = ["--resume"] if Path(folder, STATE).exists() else []
        call = subprocess.Popen([EACH, *resume, *words, "--", *PROGRAM], cwd=folder, stdout=subprocess.PIPE, stderr=subprocess.PIPE)
        try:
            printed, said = call.communicate(timeout=chance.uniform(0.1, 0.6) * (1 + times / 4))
        except subprocess.TimeoutExpired:
            call.send_signal(chance.choice((signal.SIGKILL, signal.SIGKILL, signal.SIGINT)))
            printed, said = call.communicate()
            # (its runners, and so its folder, end a moment later)
            time.sleep(0.05)
        times += 1
        if call.returncode in (0, 1) or call.returncode == 2 and b"stopped" not in said and b"goes on" not in said:
            return call.returncode, printed


def main(words):
    program = Path(words[0] if words else TOP / "crates/crashbpf/out/crashbpf").resolve()
    until = time.monotonic() + float(words[1] if len(words) > 1 else 60)
    seed = int(words[2]) if len(words) > 2 else random.randrange(1 << 32)
    chance, passed, failed = random.Random(seed), 0, 0
    with tempfile.TemporaryDirectory() as path:
        os.symlink(program, Path(path, "crashbpf"))
        os.environ["PATH"] = os.pathsep.join([path, os.environ["PATH"]])
        while time.monotonic() < until:
            with tempfile.TemporaryDirectory() as folder:
                runners = [["-j", str(chance.randint(1, 6))] for _ in range(2)]
                asked = put(folder, some_run(chance))
                whole = subprocess.run([EACH, *runners[0], *asked, "--", *PROGRAM], cwd=folder, capture_output=True)
                found = ended(folder, [*runners[1], *asked], chance)
            same = found == (whole.returncode, whole.stdout) and whole.returncode in (0, 1)
            passed, failed = passed + same, failed + (not same)
            if not same:
                print(f"FAILED {' '.join(asked)}: {found!r}, and {whole!r} is right")
    print(f"seed {seed}: {passed} passed, {failed} failed")
    return 1 if failed else 0


if __name__ == "__main__":
    sys.exit(main(sys.argv[1:]))
