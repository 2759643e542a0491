#!/usr/bin/env python3
"""Tests tools/count.py: which parts run side by side, what is printed, and what counts as a failure.

    python3 tests/gate/count.py

It needs Python and `sh`, and takes some ten seconds. Prints a line for each test that failed, and last `N passed, M failed`.
"""
import os
import re
import signal
import subprocess
import sys
import tempfile
import time
from concurrent.futures import ThreadPoolExecutor
from pathlib import Path

sys.dont_write_bytecode = True
TOOL = Path(__file__).resolve().parent.parent.parent / "tools/count.py"

WELL = 'echo "2 passed, 0 failed"'


def part(name, does="sleep 0.3", counts=WELL):
    """Returns a command that writes to a common file when it begins and ends, and says its name before and after it does something."""
    return ["sh", "-c", f'echo "begin {name}" >> events; echo "{name} one"; {does}; echo "{name} two"; echo "end {name}" >> events; {counts}']


def until(event):
    """Returns a command that waits for an event of another part."""
    return f'until grep -qx "{event}" events; do sleep 0.05; done'


def gate(folder, first, **kinds):
    """Runs the tool on a first command and others by kind, and returns the lines that it prints, its status, and the events."""
    words = [*first, *(word for kind, parts in kinds.items() for it in parts for word in (f"--{kind}", *it))]
    ran = subprocess.run([sys.executable, TOOL, *words], cwd=folder, stdout=subprocess.PIPE, text=True, timeout=60)
    events = Path(folder, "events")
    return ran.stdout.splitlines(), ran.returncode, events.read_text().splitlines() if events.exists() else []


def at_once(events, names):
    """Returns how many of these parts ran at once at most."""
    most, now = 0, set()
    for event in events:
        word, name = event.split()
        if name in names:
            now ^= {name}
            most = max(most, len(now))
    return most


def side_by_side(folder):
    """All goes well: who runs beside whom, and what is printed in which order."""
    beside, after, alone = (["b1", "b2", "b3"], ["a1", "a2", "a3", "a4"], ["l1", "l2"])
    lines, status, events = gate(folder, part("first", until("end b3")), beside=map(part, beside), after=map(part, after), alone=map(part, alone))
    names = ["first", *beside, *after, *alone]
    said = [line for line in lines if re.fullmatch(r"\w+ (one|two)", line)]
    yield "the last line", lines[-1], "20 passed, 0 failed"
    yield "the status", status, 0
    yield "each part's output whole and in order", said, [f"{name} {it}" for name in names for it in ("one", "two")]
    yield "lines that count are left out", [line for line in lines[:-1] if line.startswith("2 passed")], []
    yield "how many run beside the first", at_once(events, beside), 1
    yield "the first runs beside them", at_once(events, ["first", *beside]), 2
    yield "how many run after it", at_once(events, after), 2
    early = [events.index(f"end {it}") < events.index(f"begin {other}") for it in ["first", *beside] for other in after]
    yield "after the first and those beside it", all(early), True
    yield "nothing beside those alone", at_once(events[events.index("begin l1"):], names), 1
    yield "those alone come last", max(events.index(f"end {it}") for it in names[:-2]) < events.index("begin l1"), True
    rows = [line.split("|")[-3:-1] for line in lines if line.startswith("| sh ")]
    yield "a row for each part", rows, [[" 2 ", " 0 "]] * len(names)


def left_over(folder):
    """What is left beside a short first command runs in two lanes, before what comes after it."""
    beside = [part("b1", until("end b2")), part("b2", until("begin b1"))]
    _, _, events = gate(folder, part("first", "sleep 0.1"), beside=beside, after=[part("a1")])
    yield "two lanes for what is left", at_once(events, ["b1", "b2"]), 2
    yield "and then the others", events[-2:], ["begin a1", "end a1"]


def low(folder):
    """Those beside the first have less priority, and those after it the usual one."""
    lines, _, _ = gate(folder, part("first", "sleep 0.5"), beside=[part("b", 'echo "b has $(nice)"')], after=[part("a", 'echo "a has $(nice)"')])
    yield "priorities", [it for it in lines if re.match(r"\w has ", it)], [f"b has {min(19, os.nice(0) + 5)}", f"a has {os.nice(0)}"]


def room(folder):
    """A folder is shared, and removed."""
    lines, _, _ = gate(folder, part("first", "echo kept > ROOM/it; echo place ROOM"), after=[part("a", "cat ROOM/it")])
    place = next(it for it in lines if it.startswith("place ")).split()[1]
    yield "a file of another part", "kept" in lines, True
    yield "the folder is removed", os.path.exists(place), False


# What a part does, as its command and its kind: the sums, and what is said of it.
FAULTS = {
    "it says that some failed": (part("p", counts='echo "3 passed, 2 failed"; exit 1'), "5 passed, 2 failed", "ended with status 1"),
    "it says so, and ends well": (part("p", counts='echo "3 passed, 2 failed"'), "5 passed, 2 failed", None),
    "edits that aren't refused": (part("p", counts='echo "3 refused, 1 not"; exit 1'), "5 passed, 1 failed", "ended with status 1"),
    "it says that none failed, and ends otherwise": (part("p", counts=f"{WELL}; exit 3"), "4 passed, 1 failed", "ended with status 3"),
    "it is killed": (part("p", counts=f"{WELL}; kill -9 $$"), "4 passed, 1 failed", "was ended by signal 9"),
    "it is killed at once": (part("p", does="kill -9 $$"), "2 passed, 1 failed", "was ended by signal 9, and counted nothing"),
    "it counts nothing": (part("p", counts=":"), "2 passed, 1 failed", "ended with status 0, and counted nothing"),
    "it can't be started": (["./nothing"], "2 passed, 1 failed", "can't be started: .*, and counted nothing"),
}


def fault(folder, kind, command, sums, said):
    """What a part of a kind comes to that isn't well; no part after it is started."""
    kinds = {it: [command] if it == kind else [] for it in ("beside", "after", "alone")}
    kinds["alone"] = [*kinds["alone"], part("last")]
    lines, status, events = gate(folder, part("first"), **kinds)
    yield "the last line", lines[-1], sums
    yield "the status", status, 1
    told = [it for it in lines if re.fullmatch(rf"{re.escape(' '.join(command))}: {said}", it)]
    yield "what is said of it", len(told), 0 if said is None else 1
    yield "no part after it", "begin last" in events, False


def first_fails(folder):
    """Where the first command fails nothing is started after it, and what ran beside it ends."""
    lines, status, events = gate(folder, part("first", counts="exit 1"), beside=[part("b1", "sleep 1"), part("b2")], after=[part("a")])
    yield "the last line", (lines[-1], status), ("2 passed, 1 failed", 1)
    yield "what was started", sorted(it for it in events if it.startswith("begin")), ["begin b1", "begin first"]


def runs(number):
    """Returns whether a process runs."""
    try:
        return ") Z " not in Path(f"/proc/{number}/stat").read_text()
    except OSError:
        return False


def ended(folder):
    """A signal ends what runs."""
    words = [*part("first", "sleep 60"), "--beside", *part("b", "sleep 60")]
    started = subprocess.Popen([sys.executable, TOOL, *words], cwd=folder, stdout=subprocess.DEVNULL)
    events = Path(folder, "events")
    while not events.exists() or len(events.read_text().splitlines()) < 2:
        time.sleep(0.1)
    below = subprocess.run(["ps", "-o", "pid=", "--ppid", str(started.pid)], stdout=subprocess.PIPE, text=True).stdout.split()
    started.send_signal(signal.SIGTERM)
    status = started.wait(10)
    last = time.time() + 5
    while any(map(runs, below)) and time.time() < last:
        time.sleep(0.1)
    yield "how many ran", len(below), 2
    yield "the status", status, -signal.SIGTERM
    yield "what is left", [it for it in below if runs(it)], []


def results_of(test):
    """Returns what a test finds, each with what is wanted."""
    with tempfile.TemporaryDirectory(prefix="counting-") as folder:
        return list(test(folder))


def main():
    tests = {it.__doc__.split(":")[0]: it for it in (side_by_side, left_over, low, room, first_fails, ended)}
    for name, row in FAULTS.items():
        for kind in ("beside", "after", "alone"):
            tests[f"{name}, {kind}"] = lambda folder, kind=kind, row=row: fault(folder, kind, *row)
    passed = failed = 0
    with ThreadPoolExecutor(6) as pool:
        for name, results in zip(tests, pool.map(results_of, tests.values())):
            for what, found, wanted in results:
                passed, failed = passed + (found == wanted), failed + (found != wanted)
                if found != wanted:
                    print(f"{name}: {what}: {found}, and not {wanted}")
    print(f"{passed} passed, {failed} failed")
    return 1 if failed else 0


if __name__ == "__main__":
    sys.exit(main())
