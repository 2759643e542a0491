#!/usr/bin/env python3
"""Holds `crashbpf-each --bound any` against brute force on the logs of the examples, and beside the runs of `--bound 1`.

    python3 tests/by_hand/outside.py FOLDER [--parts N] [--only NAME ..] [--alone] [-j N] [PROGRAM]

For each log the program that judges is run on served images until every loss is told. Then each choice of each cut with at most N parts at
risk (8 where it isn't given) is made a plain file, as the log's entries say it, and judged there without a server. Images with the same
bytes and as many marks are judged once. Each choice has to end as its case says. A line for each log says how often the program was run and
how long that took, with `--bound 1` and for every loss, and how many choices differ. With `--alone` there are no runs of `--bound 1`. FOLDER keeps
the logs.

It needs strace, e2fsprogs, sqlite3, python3-lmdb and FUSE, and is no part of the gate. PROGRAM is as in run.py.
"""
import argparse
import hashlib
import itertools
import os
import re
import subprocess
import sys
import tempfile
import time
from dataclasses import dataclass
from pathlib import Path

sys.dont_write_bytecode = True

import rooms

rooms.enter()

from commands.each.served_log import SECTOR, LogImages, text_of
from commands.each.spot import GOOD, Cases
from notation import TOP

EACH, RECORDER, TRACE = TOP / "commands/each/crashbpf-each", TOP / "commands/record/crashbpf-record", TOP / "commands/record/trace_log.py"
RECOVERY, SAVING, EXT4 = TOP / "examples/recovery", TOP / "examples/saving", TOP / "examples/checkers/ext4"
FILES = TOP / "commands/record/crashbpf-files"
RUN = re.compile(r"note: the program was run (\d+) times, on (\d+) images, in (\d+) rounds")


@dataclass(frozen=True)
class Row:
    """A log: its name, how it is made, its options, and the program that judges. `{folder}` is the folder of the logs."""

    name: str
    made: list
    options: str
    program: list

    def words(self, folder):
        return [str(it).replace("{folder}", str(folder)) for it in [f"{{folder}}/{self.name}.log", *self.options.split()]]

    def judge(self, folder):
        return [str(it).replace("{folder}", str(folder)) for it in self.program]


def traced(name, trace, options):
    return Row(name, [TRACE, EXT4 / trace, f"{{folder}}/{name}.log", "--sectors", "4096"], f"--sectors 4096 --by write {options}", [RECOVERY / "ext4", "{}"])


def recorded(name, options, program, judge, *flags):
    """A recording of a program, and the judge of its images."""
    return Row(name, [RECORDER, *flags, f"{{folder}}/{name}", "--", *program], options, judge)


def saved(name, *words):
    """Saves of a file, judged by its folder."""
    judge = [FILES, f"{{folder}}/{name}/files.txt", "{}", "--", "sh", SAVING / "check.sh"]
    return recorded(name, f"--sectors base --base {{folder}}/{name}/base.img --by write", ["sh", SAVING / "save.sh", *words], judge, "--files", "ext4")


# Judges a database by its own check, and by the commits that were acknowledged: 1 where it is broken, 2 where a commit is gone.
CHECK = """\
[ -s db ] || exit $((CRASH_MARKS > 0 ? 2 : 0))
found=$(sqlite3 db 'PRAGMA integrity_check; SELECT count(*) FROM t;' 2>&1) || exit $((CRASH_MARKS > 0 ? 1 : 0))
[ "${found%%[!o]*}" = o ] || exit 1
[ "${found##*
}" -ge $((CRASH_MARKS > 0 ? CRASH_MARKS - 1 : 0)) ] || exit 2
"""
WRITE = """\
sqlite3 $FILES/db "PRAGMA journal_mode = $1; PRAGMA synchronous = $2; CREATE TABLE t (n, text);" ".shell mark made" \
    "INSERT INTO t VALUES (1, hex(zeroblob(300)));" ".shell mark commit-1" "INSERT INTO t VALUES (2, hex(zeroblob(300)));" ".shell mark commit-2"
"""


def database(name, journal, synchronous, *flags):
    """Commits to a database of SQLite, judged by SQLite in its folder."""
    judge = [FILES, f"{{folder}}/{name}/files.txt", "{}", "--", "sh", "{folder}/check.sh"]
    words = ["sh", "{folder}/write.sh", journal, synchronous]
    return recorded(name, f"--sectors base --base {{folder}}/{name}/base.img --by write", words, judge, "--files", "ordered", *flags)


ROWS = [
    traced("right", "right.trace", "--from 6"),
    traced("cured", "no_flush.trace", "--from 6 --flush 19,29,40,53"),
    traced("no_flush", "no_flush.trace", "--from 6 --stop-at-failing"),
    traced("in_place", "in_place.trace", "--from 29 --stop-at-failing"),
    recorded("lmdb", "--sectors 72 --by write", [RECOVERY / "lmdb_write.py"], [RECOVERY / "lmdb_check.py", "{}"]),
    recorded("lmdb_tears", "--sectors 72 --by write --tears", [RECOVERY / "lmdb_write.py"], [RECOVERY / "lmdb_check.py", "{}"]),
    recorded("lmdb_sectors", "--sectors 72 --from 20", [RECOVERY / "lmdb_write.py"], [RECOVERY / "lmdb_check.py", "{}"]),
    recorded("lmdb_nosync", "--sectors 72 --by write", [RECOVERY / "lmdb_write.py", "nosync"], [RECOVERY / "lmdb_check.py", "{}"]),
    saved("saving"),
    saved("saving_synced", "sync"),
    database("sqlite_delete", "DELETE", "FULL"),
    database("sqlite_wal", "WAL", "FULL", "--skip", "db-shm"),
]


def make(row, folder):
    """Makes the log of a row, unless it is there."""
    log = folder / f"{row.name}.log"
    if not log.exists():
        subprocess.run([str(it).replace("{folder}", str(folder)) for it in row.made], check=True, cwd=folder, stderr=subprocess.DEVNULL)
        if not log.exists():
            log.write_bytes((folder / row.name / "writes.log").read_bytes())


def each(row, folder, options, runners):
    """Runs crashbpf-each. Returns its status, what it printed on both outputs, and how many seconds it took."""
    with tempfile.TemporaryDirectory() as room:
        begun = time.monotonic()
        words = [EACH, "-j", str(runners), *row.words(folder), *options, "--", *row.judge(folder)]
        done = subprocess.run(words, cwd=room, capture_output=True, text=True, stdin=subprocess.DEVNULL)
        return done.returncode, done.stdout, done.stderr, time.monotonic() - begun


def bounded(row, folder, runners):
    """How many images `--bound 1` judges, and its seconds."""
    plain = Row(row.name, row.made, row.options.replace(" --stop-at-failing", ""), row.program)
    _status, printed, said, seconds = each(plain, folder, ["--bound", "1"], runners)
    words = [it for it in plain.words(folder)]
    exported = subprocess.run([os.environ["CRASHBPF"], "export", *words], capture_output=True).stdout
    total = re.search(rb"total (\d+) new (\d+)\n$", exported)
    return (int(total[1]), int(total[2]), seconds) if total and printed else (0, 0, said)


@dataclass
class Brute:
    """Choices that were made one by one: how many, how many different images, and how many differ from their cases."""

    choices: int = 0
    images: int = 0
    differences: int = 0


def option(row, name, folder):
    words = row.words(folder)
    return words[words.index(name) + 1] if name in words else None


def sectors_of(row, folder):
    """The size of a row's device."""
    size = option(row, "--sectors", folder)
    return Path(option(row, "--base", folder)).stat().st_size // SECTOR if size == "base" else int(size)


def cuts(row, folder):
    """The cuts at which cases are looked for."""
    words = [it for it in row.words(folder) if it != "--stop-at-failing"]
    done = subprocess.run([os.environ["CRASHBPF"], "images", *words, "--bound", "any"], capture_output=True, text=True, check=True)
    return [int(it) for it in re.findall(r"^cut (\d+) ", done.stdout, re.M)]


def ended(words, content, marks, mark, room):
    """What the program ends in on a plain file."""
    path = Path(room, "image")
    path.write_bytes(content)
    surroundings = {**os.environ, "CRASH_MARKS": str(marks), "CRASH_IMAGE": str(path), "CRASH_MARK": mark}
    done = subprocess.run([str(path) if it == "{}" else it for it in words], env=surroundings, capture_output=True, stdin=subprocess.DEVNULL)
    for it in Path(room).iterdir():
        it.unlink()
    return f"answer {done.returncode} codes -" if done.returncode >= 0 else f"signal {-done.returncode}"


def compared(row, folder, cases, parts):
    """Makes each choice of each small cut."""
    flush = option(row, "--flush", folder)
    flushes = frozenset(map(int, flush.split(","))) if flush else frozenset()
    images = LogImages(folder / f"{row.name}.log", option(row, "--base", folder), sectors_of(row, folder), "write" in row.options, flushes)
    found, known, words = Brute(), {}, row.judge(folder)
    with tempfile.TemporaryDirectory(dir="/dev/shm") as room:
        for cut in cuts(row, folder):
            risky = images.at_risk(cut)
            if len(risky) > parts:
                continue
            for fates in itertools.product(*[["whole", "drop"]] * len(risky)):
                choice = {name: fate for name, fate in zip(risky, fates) if fate != "whole"}
                image = images.image_of(cut, choice)
                content = b"".join(map(image.sector, range(images.sectors)))
                key = hashlib.sha256(content).digest(), images.marks[cut]
                if key not in known:
                    known[key] = ended(words, content, images.marks[cut], "", room)
                said = cases.endings(cut, choice)
                found.choices += 1
                if (said or [GOOD]) != [known[key]] and (said or cases.is_whole()):
                    found.differences += 1
                    print(f"  {row.name}: cut {cut} choice {text_of(choice)}: a plain file {known[key]}, its case {said or GOOD}", flush=True)
    found.images = len(known)
    assert SECTOR * images.sectors == len(content)
    return found


def try_row(row, folder, given):
    """Returns whether a row holds, and says what was found of it."""
    make(row, folder)
    total, new, before = (0, 0, 0.0) if given.alone else bounded(row, folder, given.j)
    status, printed, said, seconds = each(row, folder, ["--bound", "any"], given.j)
    ran = RUN.search(said)
    if not ran:
        print(f"{row.name}: {said.strip()}", flush=True)
        return False
    brute = compared(row, folder, Cases(printed), given.parts)
    last = printed.splitlines()[-1]
    print(f"{row.name}: bound 1 {total} images, {new} runs, {before:.1f} s; every loss {ran[1]} runs in {ran[3]} rounds, {seconds:.1f} s, status {status}, {last}", flush=True)
    print(f"  brute force to {given.parts} parts: {brute.choices} choices, {brute.images} images, {brute.differences} differences", flush=True)
    return not brute.differences


def main():
    parser = argparse.ArgumentParser(description="Compares every loss with brute force.")
    parser.add_argument("folder")
    parser.add_argument("program", nargs="?", default=str(TOP / "crates/crashbpf/out/crashbpf"))
    parser.add_argument("--parts", type=int, default=8)
    parser.add_argument("--only", nargs="*")
    parser.add_argument("--alone", action="store_true")
    parser.add_argument("-j", type=int, default=2)
    given = parser.parse_args()
    os.environ["CRASHBPF"] = str(Path(given.program).resolve())
    folder = Path(given.folder).resolve()
    folder.mkdir(exist_ok=True)
    (folder / "check.sh").write_text(CHECK)
    (folder / "write.sh").write_text(WRITE)
    held = [try_row(it, folder, given) for it in ROWS if not given.only or it.name in given.only]
    print(f"{sum(held)} passed, {len(held) - sum(held)} failed")
    return 0 if all(held) else 1


if __name__ == "__main__":
    sys.exit(main())
