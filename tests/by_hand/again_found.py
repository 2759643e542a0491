#!/usr/bin/env python3
"""Makes those rows of docs/FOUND.md anew in which the power goes again, while a program recovers. By hand.

    python3 tests/by_hand/again_found.py [--store] [--keep FOLDER] [-j N] [NAME ..]
    python3 tests/by_hand/again_found.py --document

Each row is a recording, and a program that recovers and then judges, which crashbpf-each --again is given. NAME is a row, or the beginning of
some before a `*`; without one all are made. What a row comes to is compared with examples/found/again.json: how many first images and second
cases there are, how many fail, how they end, and which calls of recovery are lost in those that a sync helps. Where counts differ from run to run only
what fails is compared. Runs and seconds are told and stored, and not compared. With --store the file is written. With --keep recordings and
texts stay in a folder.

With --document nothing is run: the table of docs/FOUND.md has to have the rows and the figures of that file, and no others.

It wants the built program, which CRASHBPF names where it is another, FUSE, strace, and the packages that the rows name. A line tells each row.
The status is 1 where one is otherwise.
"""
import argparse
import json
import re
import resource
import subprocess
import sys
import tempfile
from dataclasses import dataclass
from pathlib import Path

sys.dont_write_bytecode = True

import rooms

rooms.enter()

from again_served import DESIGNS, EACH, RECORD
from found import CHANCE, FOUND, KV, SEED, differing, is_agreed, is_asked, made_folder, surroundings, version

STORED = FOUND / "again.json"
COUNTS = r"cuts (\d+) cases (\d+) failing (\d+) torn beyond \d+ lost beyond \d+ open (\d+) stopped (\d+)(.*)"
TOTALS = re.compile(rf"firsts (\d+) written (\d+) unexplored (\d+) {COUNTS}")
ENTRY = re.compile(r"entry \d+ epoch \d+ (?:write|flush)(?: fua)?(?: by)? ?(.*)")
SECOND = re.compile(r"cut \d+ choice \S+ then cut \d+ choice \S+ marks \d+ case \d+ (.+?) codes .* sync (?:none|(\d+)\.\.\d+)")
# A clock that stands still, without which e2fsck writes another image each time.
CLOCK = {"E2FSCK_TIME": "1000000000"}


@dataclass(frozen=True)
class Row:
    """A recording, and what recovers and judges its images. Without a program it is a design of again_served.py, which has both."""

    name: str
    # what has to be installed; the first package is the program's own
    packages: str
    program: tuple = ()
    check: tuple = ()
    # the options of the recording, and those of crashbpf-each
    recorded: tuple = ()
    options: tuple = ()
    # the command that makes what $FILES has at first
    base: tuple = ()
    # whether counts differ from run to run
    varies: bool = False


def kv(name, packages, adapter, commits, skipped=(), varies=False):
    """Returns the row of a store of which one commit is there at first. Its check opens the store, which recovers it, and makes no commit."""
    words = (adapter, "--seed", str(SEED), "--commits", str(commits), "--made", "1")
    base = (KV / "workload", adapter, "--seed", str(SEED), "--commits", "1")
    recorded = tuple(word for it in skipped for word in ("--skip", it))
    return Row(name, packages, (KV / "workload", *words), (KV / "check", *words, "--opened"), recorded, (), base, varies)


def git(command, setting=""):
    """Returns the row of a command of git, after a commit that is durable. From 300 runs on each cut ends at its first failing case."""
    name = f"again:git-{command}{'-all' * bool(setting)}"
    script = ("sh", FOUND / "git/recover.sh", command)
    return Row(name, "git", ("sh", FOUND / "git/synced.sh"), script, (), ("--cuts", "mark", "--runs", "300"), ("sh", FOUND / "git/base.sh", *setting.split()), True)


ROWS = [
    Row("again:e2fsck", "e2fsprogs"),
    Row("again:sqlite-delete", "libsqlite3-0", varies=True),
    Row("again:sqlite-wal", "libsqlite3-0", varies=True),
    kv("again:leveldb", "libleveldb1d python3-plyvel", "leveldb:sync", 2, ["LOG*", "LOCK"], varies=True),
    git("fsck"),
    git("repack"),
    git("gc"),
    git("gc", "all"),
    git("reset"),
]


def of_design(design, room):
    """Makes the log of a design in a folder. Returns the words of crashbpf-each for it."""
    design.make(room)
    log = [design.folder] if design.folder else [design.log, "--sectors", str(design.sectors)]
    first = ["--from", str(design.first)] if design.first else []
    return [*log, *first, "--by", "write", "--again"], [it.replace("../", f"{room}/") for it in design.program]


def recorded(row, room):
    """Records a row in a folder. Returns the words of crashbpf-each for it, and those of the program that judges."""
    if not row.program:
        return of_design(DESIGNS[row.name.removeprefix("again:")], room)
    base = Path(room, "base/files")
    base.mkdir(parents=True)
    subprocess.run(row.base, cwd=base, env={**surroundings(str(room)), "FILES": str(base)}, check=True, capture_output=True)
    words = [RECORD, "--files", "ext4", "--base", base, *row.recorded, f"{room}/made", "--", *row.program]
    subprocess.run(words, env=surroundings(str(room)), check=True, capture_output=True)
    return ["made", *row.options, "--again"], row.check


def seconds():
    """Returns the processor's seconds of all that was run and has ended."""
    it = resource.getrusage(resource.RUSAGE_CHILDREN)
    return it.ru_utime + it.ru_stime


def asked(row, room, runners):
    """Gives a row to crashbpf-each --again, and keeps its text. Returns what it comes to, or what was said where there is no text."""
    (asked_for, check), before = recorded(row, room), seconds()
    words = [EACH, *asked_for, "-j", str(runners), "--", *check]
    done = subprocess.run(words, cwd=room, env={**surroundings(str(room)), **CLOCK}, stdin=subprocess.DEVNULL, capture_output=True, text=True, errors="replace")
    Path(room, "text").write_text(done.stdout + done.stderr)
    if done.returncode not in (0, 1, 3):
        return " ".join(done.stderr.split()[-60:])
    runs = re.search(r"was run (\d+) times", done.stderr)
    return {**summary(done.stdout.splitlines()), "runs": int(runs[1]), "seconds": round(seconds() - before)}


def failures(lines):
    """Yields how the failing second cases of a text end, and which call of recovery is lost where a sync after it helps, else an empty text."""
    calls = []
    for line in lines:
        if line.startswith("first "):
            calls = []
        elif found := ENTRY.fullmatch(line):
            calls.append(CHANCE.sub("*", found[1]))
        elif found := SECOND.fullmatch(line):
            yield found[1], calls[int(found[2]) - 1] if found[2] else ""


def summary(lines):
    """Returns what is compared of a text."""
    firsts, written, unexplored, cuts, cases, failing, left, stopped, extent = TOTALS.fullmatch(lines[-1]).groups()
    own = next(re.fullmatch(COUNTS, it) for it in lines if it.startswith("cuts "))
    found = list(failures(lines))
    return {
        "first cases": int(own[2]),
        "first failing": int(own[3]),
        "firsts": int(firsts),
        "written": int(written),
        "unexplored": int(unexplored),
        "cases": int(cases),
        "failing": int(failing),
        "left": int(left) + int(stopped),
        "extent": extent.strip(),
        "endings": sorted({it[0] for it in found}),
        "lost": sorted({it[1] for it in found}),
    }


def is_same(row, found, stored):
    """Whether a row is as it is stored."""
    if row.varies:
        return all(found[it] == stored[it] for it in ("unexplored", "left", "extent", "endings", "lost"))
    return all(found[it] == stored[it] for it in found if it not in ("runs", "seconds", "version"))


def stored_rows():
    """Returns what is stored, by the rows' names."""
    return json.loads(STORED.read_text()) if STORED.exists() else {}


def store(name, found):
    """Stores a row; the rows stand in the order in which they are made."""
    rows = {**stored_rows(), name: found}
    STORED.write_text(json.dumps({it.name: rows[it.name] for it in ROWS if it.name in rows}, indent=1) + "\n")


def figures(it):
    """Returns the cells of docs/FOUND.md that have figures."""
    return [f"{it['written']:,} of {it['firsts']:,}", f"{it['failing']:,} of {it['cases']:,}", f"{it['runs']:,}", f"{it['seconds']:,} s"]


def told(name, it):
    """The line of a row."""
    written, failing, runs, took = figures(it)
    return f"{name}: written {written}, unexplored {it['unexplored']}, fail {failing} {it['extent']}, {runs} runs, {took}; {', '.join(it['endings'])}; {', '.join(it['lost'])}"


def is_made(row, keep, runners, is_stored):
    """Makes a row, and prints its line. Returns whether it is as it is stored."""
    lacking = [it for it in row.packages.split() if not version(it)]
    if lacking:
        print(f"{row.name}: can't be run here, there is no {', '.join(lacking)}", flush=True)
        return False
    with tempfile.TemporaryDirectory(prefix="crashbpf-found.") as room:
        at = Path(keep, row.name.replace(":", "-")) if keep else Path(room)
        at.mkdir(exist_ok=True)
        found = asked(row, at, runners)
    if isinstance(found, str):
        print(f"{row.name}: no text: {found}", flush=True)
        return False
    print(told(row.name, found), flush=True)
    known = stored_rows().get(row.name)
    if is_stored:
        store(row.name, {"version": version(row.packages.split()[0]), **found})
    elif known is None or not is_same(row, found, known):
        print(f"otherwise than stored: {told(row.name, known)}" if known else "it isn't stored", flush=True)
        return False
    return True


def main():
    reader = argparse.ArgumentParser(description=__doc__, formatter_class=argparse.RawDescriptionHelpFormatter)
    reader.add_argument("--store", action="store_true")
    reader.add_argument("--document", action="store_true")
    reader.add_argument("--keep", type=Path)
    reader.add_argument("-j", dest="runners", type=int, default=4)
    reader.add_argument("names", nargs="*")
    given = reader.parse_args()
    if given.document:
        return 0 if is_agreed(differing(stored_rows(), STORED, r"`again:.*`", lambda it: [it["version"], *figures(it)])) else 1
    keep = made_folder(given.keep)
    held = [is_made(it, keep, given.runners, given.store) for it in ROWS if is_asked(it.name, given.names)]
    return 0 if all(held) else 1


if __name__ == "__main__":
    sys.exit(main())
