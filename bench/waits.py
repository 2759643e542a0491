#!/usr/bin/env python3
"""What a user waits for, on four logs of real programs: prints the table of bench/README.md, 'What a user waits for'.

    python3 bench/waits.py [--unproved] [PROGRAM]

PROGRAM is crates/crashbpf/out/crashbpf where it isn't given. With --unproved the table says that it was built without proofs.

| Log | Recorded by | Judged by |
|---|---|---|
| LMDB without syncs | crashbpf-record, of examples/recovery/lmdb_write.py | lmdb.c; lmdb_check.py beside it |
| SQLite without syncs | crashbpf-record, of examples/checkers/rollback_journal/write.py | rollback_journal.c; `integrity_check` and the number of rows |
| FAT | crashbpf-record, of examples/checkers/fat/write.sh, or where mtools isn't there its trace | fat.c; fsck.vfat |
| ext4 without flushes before its commits | a guest, whose trace is in examples/checkers/ext4 | ext4.c; e2fsck by examples/recovery/ext4 |

Each command is run three times, the runs of `crashbpf-each` once, and the least time is printed: from the start of the process to
its end. All runs are by write, of one worker, and `crashbpf-each` lets one program run at a time. `explore` has a bound of 1. A prefix
replay is the run with `--bound 0`: at each cut all that was written before it arrived. Beside a time stands how many images fail, of
how many, and with `--bound any` how many cases.

It wants strace, sqlite3, python3-lmdb, e2fsprogs, dosfstools and mtools. A log whose programs aren't there is left out, and a line
says so. It takes some minutes; nothing else should run beside it.
"""
import os
import re
import shutil
import subprocess
import sys
import tempfile
import time
from pathlib import Path

TOP = Path(__file__).resolve().parent.parent
EXAMPLES = TOP / "examples"
CHECKERS = EXAMPLES / "checkers"
RECORD = TOP / "commands/record/crashbpf-record"
FILES = TOP / "commands/record/crashbpf-files"
EACH = TOP / "commands/each/crashbpf-each"
TRACE_LOG = TOP / "commands/record/trace_log.py"
SYSTEM = "/usr/bin/python3"
TURNS = 3
INTEGRITY = """\
db="$(mktemp -d)" && cp -a . "$db" && cd "$db" || exit 9
rows=$(sqlite3 made.db 'PRAGMA integrity_check; SELECT count(*) FROM t' 2>&1 | tr '\\n' ' ')
rm -r "$db"
case $CRASH_MARKS in 0) wanted='8|9|12';; 1) wanted='9|12';; *) wanted=12;; esac
echo "$rows" | grep -Eqx "ok ($wanted) "
"""


def run(words, folder, wanted=(0, 1)):
    """Runs a command, and returns its seconds and what it printed."""
    begin = time.monotonic()
    done = subprocess.run([str(it) for it in words], cwd=folder, stdin=subprocess.DEVNULL, capture_output=True, text=True)
    seconds = time.monotonic() - begin
    if done.returncode not in wanted:
        sys.exit(f"{' '.join(map(str, words))} ended with {done.returncode}: {done.stderr[-2000:]}")
    return seconds, done.stdout


def recorded(folder, words, *options):
    """Records a program, and returns the seconds, and the words that ask for the log."""
    seconds, said = run([RECORD, *options, folder / "made", "--", *words], folder, (0,))
    sectors = re.search(r"--sectors (\d+)", said)[1]
    base = folder / "made/base.img"
    return seconds, [folder / "made/writes.log", "--sectors", sectors, *(["--base", base] if base.exists() else [])]


def lmdb(folder):
    """Returns what is judged of LMDB, or why it isn't."""
    if not Path(SYSTEM).exists() or subprocess.run([SYSTEM, "-c", "import lmdb"], capture_output=True).returncode:
        return "python3-lmdb isn't there"
    seconds, asked = recorded(folder, [SYSTEM, EXAMPLES / "recovery/lmdb_write.py", "nosync"])
    return seconds, asked, CHECKERS / "lmdb.bpf", [SYSTEM, EXAMPLES / "recovery/lmdb_check.py", "{}"]


def sqlite(folder):
    """Returns what is judged of SQLite, or why it isn't."""
    if not shutil.which("sqlite3"):
        return "sqlite3 isn't there"
    write = CHECKERS / "rollback_journal/write.py"
    run([SYSTEM, write, "prepare", folder / "base"], folder, (0,))
    seconds, asked = recorded(folder, [SYSTEM, write, "OFF"], "--base", folder / "base")
    return seconds, asked, CHECKERS / "rollback_journal.bpf", [FILES, folder / "made/files.txt", "{}", "--", "sh", "-c", INTEGRITY]


def of_trace(folder, name, which, sectors):
    run([TRACE_LOG, CHECKERS / name / f"{which}.trace", folder / "writes.log", "--sectors", sectors], folder, (0,))
    return [folder / "writes.log", "--sectors", sectors]


def fat(folder):
    """Returns what is judged of FAT, recorded or of a stored trace, or why it isn't."""
    if not shutil.which("fsck.vfat"):
        return "fsck.vfat isn't there"
    judge = ["fsck.vfat", "-n", "{}"]
    if not shutil.which("mcopy"):
        return None, [*of_trace(folder, "fat", "right", 4400), "--from", 4], CHECKERS / "fat.bpf", judge
    run(["mkfs.vfat", "-C", "-F", "16", "-s", "1", "-r", "64", "-i", "1a2b3c4d", "--invariant", folder / "small.img", "2200"], folder, (0,))
    seconds, asked = recorded(folder, ["sh", CHECKERS / "fat/write.sh"], "--base", folder / "small.img")
    return seconds, asked, CHECKERS / "fat.bpf", judge


def ext4(folder):
    """Returns what is judged of ext4, by a stored trace, or why it isn't."""
    if not shutil.which("e2fsck"):
        return "e2fsck isn't there"
    asked = [*of_trace(folder, "ext4", "no_flush", 4096), "--from", 6]
    return None, asked, CHECKERS / "ext4.bpf", [EXAMPLES / "recovery/ext4", "{}"]


LOGS = {"LMDB, no sync": lmdb, "SQLite, no sync": sqlite, "FAT, by mtools": fat, "ext4, no flush before commits": ext4}
HEAD = ["Log", "Entries", "Recording", "`explore`", "`explore --bound any`", "`why`; `page`", "`crashbpf-each`", "Prefix replay: checker; `crashbpf-each`"]


def told(seconds):
    return f"{seconds:.2f} s" if seconds < 10 else f"{seconds:.0f} s"


def counted(text):
    """Returns how many images, or cases, fail, of how many."""
    totals = text.splitlines()[-1]
    found = re.search(r"images (\d+) failing (\d+)", totals) or re.search(r"cases (\d+) failing (\d+)", totals)
    return f"{int(found[2]):,} of {int(found[1]):,}"


def best(words, folder, turns=TURNS):
    """Runs a command some times, and returns its least time and what it printed."""
    ran = [run(words, folder) for _ in range(turns)]
    return min(seconds for seconds, _ in ran), ran[0][1]


def row(name, make, program, folder):
    """Measures a log, and returns its row, or says why not."""
    found = make(folder)
    if isinstance(found, str):
        print(f"not measured: {name}: {found}", file=sys.stderr)
        return None
    seconds, asked, checker, judge = found
    sectors = asked[asked.index("--sectors") + 1]
    run([program, "verify", checker, "--sectors", sectors, "--guards"], folder, (0,))
    entries = len(run([program, "log", *asked[:1]], folder, (0,))[1].splitlines())

    def of(command, *options, more=()):
        taken, text = best([program, command, *asked[:1], checker, *asked[1:], "--by", "write", "--guards", *more, *options], folder)
        return taken, text

    def each(*options):
        return best([EACH, "-j", 1, *asked, "--by", "write", *options, "--", *judge], folder, 1)

    explored, cases, replay = of("explore"), of("explore", "--bound", "any"), of("explore", "--bound", "0")
    why, page = of("why", "--bound", "any")[0], of("page", "--bound", "any")[0]
    judged, replayed = each("--bound", "1"), each("--bound", "0")
    cell = [f"{counted(text)}, {told(taken)}" for taken, text in (explored, cases, judged, replay, replayed)]
    return [name, str(entries), told(seconds) if seconds else "in a guest", cell[0], cell[1], f"{told(why)}; {told(page)}", cell[2], f"{cell[3]}; {cell[4]}"]


def main(words):
    unproved = "--unproved" in words
    words = [it for it in words if it != "--unproved"]
    program = Path(words[0] if words else TOP / "crates/crashbpf/out/crashbpf").resolve()
    if not os.access(program, os.X_OK):
        sys.exit(f"there is no program {program}: `rt run` in crates/crashbpf builds it")
    os.environ["PATH"] = os.pathsep.join([str(program.parent), os.environ["PATH"], "/usr/sbin", "/sbin"])
    os.environ["CRASHBPF"] = str(program)
    rows = []
    for name, make in LOGS.items():
        with tempfile.TemporaryDirectory() as folder:
            rows += [it for it in [row(name, make, program, Path(folder))] if it]
    print(f"| {' | '.join(HEAD)} |\n|{'---|' * len(HEAD)}")
    for it in rows:
        print(f"| {' | '.join(it)} |")
    if unproved:
        print("\nBy a program that was built without proofs.")


if __name__ == "__main__":
    main(sys.argv[1:])
