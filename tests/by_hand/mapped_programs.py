#!/usr/bin/env python3
"""Records databases that map their files, by crashbpf-record --mapped, and gives each crash image to them. By hand.

    python3 tests/by_hand/mapped_programs.py FOLDER [NAME]

FOLDER is made, and keeps the recordings: what is there is taken as it is. NAME is a part of the names of the rows that are wanted.
Each database makes three commits, each acknowledged by a mark (tests/programs/mapped.c), in its usual mode and in others. Of the
modes without a mapping strace sees each write, so they are what the others are compared with.

The files are recorded by the table `ordered`. Each image that lacks at most one write is judged by crashbpf-each: the database
is opened, and has to have each commit that a mark acknowledged, whole. Of each recording the image in which all arrived has to
be the files that were left.

It wants strace, a C compiler, the built program, which CRASHBPF names where it is another, and Debian's packages libgdbm-dev,
libtdb-dev, libdb5.3-dev, libkyotocabinet-dev, libtokyocabinet-dev and liblmdb-dev.
Prints a row for each: the looks, the entries of the log, the images, and how many of them fail before the first mark, and after it: where no
database can be read, a commit is lost, or one is there in part. It takes some minutes.
"""
import os
import re
import subprocess
import sys
import tempfile
from dataclasses import dataclass
from pathlib import Path

sys.dont_write_bytecode = True

import rooms

rooms.enter()

from notation import MARK, SECTOR, TOP
from rows.recording import entries_of

from commands.record import named_layout

RECORD, EACH = TOP / "commands/record", TOP / "commands/each/crashbpf-each"
PROGRAM = os.environ.get("CRASHBPF", str(TOP / "crates/crashbpf/out/crashbpf"))


@dataclass
class Row:
    """A database in a mode."""

    name: str
    database: str
    mode: str = ""
    skip: str = ""


LIBRARIES = {"GDBM": "gdbm", "TDB": "tdb", "BERKELEY": "db-5.3", "KYOTO": "kyotocabinet", "TOKYO": "tokyocabinet", "LMDB": "lmdb"}
ROWS = [
    Row("LMDB, WRITEMAP", "LMDB", "", "db-lock"),
    Row("LMDB, WRITEMAP, MAPASYNC", "LMDB", "MAPASYNC", "db-lock"),
    Row("LMDB, WRITEMAP, NOSYNC", "LMDB", "NOSYNC", "db-lock"),
    Row("LMDB, not mapped for writing", "LMDB", "NOMMAP", "db-lock"),
    Row("gdbm", "GDBM"),
    Row("gdbm, GDBM_NOMMAP", "GDBM", "NOMMAP"),
    Row("tdb", "TDB"),
    Row("tdb, TDB_NOMMAP", "TDB", "NOMMAP"),
    Row("Berkeley DB", "BERKELEY", "", "__db.00*"),
    Row("Kyoto Cabinet", "KYOTO"),
    Row("Kyoto Cabinet, a map of 0", "KYOTO", "NOMMAP"),
    Row("Tokyo Cabinet", "TOKYO"),
    Row("Tokyo Cabinet, a map of 0", "TOKYO", "NOMMAP"),
]


def built(folder, database):
    """The program of a database."""
    out = folder / f"program-{database.lower()}"
    if not out.exists():
        source = TOP / "tests/programs/mapped.c"
        subprocess.run(["cc", "-O1", f"-D{database}", "-o", out, source, f"-l{LIBRARIES[database]}"], check=True)
    return out


def recorded(folder, row):
    """Records a row. Returns its folder, and what was said."""
    out = folder / row.name.replace(" ", "_").replace(",", "")
    said = out.with_suffix(".said")
    if not (out / "writes.log").exists():
        options = ["--mapped", "--files", "ordered", *(["--skip", row.skip] if row.skip else [])]
        command = f"exec {built(folder, row.database)} write $FILES 3"
        words = [RECORD / "crashbpf-record", *options, out, "--", "sh", "-c", command]
        done = subprocess.run(words, env={**os.environ, "MODE": row.mode}, capture_output=True, text=True)
        said.write_text(done.stdout + done.stderr)
    return out, said.read_text()


def image_fault(out, skipped):
    """What is wrong with the image in which all arrived."""
    image = bytearray((out / "base.img").read_bytes())
    for it in entries_of((out / "writes.log").read_bytes()):
        image[SECTOR * it.sector : SECTOR * it.sector + len(it.data)] = it.data
    (out / "image").write_bytes(image)
    with tempfile.TemporaryDirectory() as room, open(out / "image", "rb") as stream:
        named_layout.Image(stream, named_layout.read_map((out / "files.txt").read_text())).lay_out(room)
        words = ["diff", "-r", *(["-x", skipped] if skipped else []), room, out / "files"]
        return subprocess.run(words, capture_output=True, text=True).stdout


def judged(out, row, program):
    """Judges the images of a recording. Returns how many there are, and the cuts and answers of those that fail."""
    sectors = re.search(r"sectors (\d+)", (out / "files.txt").read_text())[1]
    judge = [RECORD / "crashbpf-files", out / "files.txt", "{}", "--", "sh", "-c", f"exec {program} read . $CRASH_MARKS"]
    words = [EACH, out / "writes.log", "--sectors", sectors, "--base", out / "base.img", "--by", "write", "--bound", "1", "--", *judge]
    done = subprocess.run(words, env={**os.environ, "MODE": row.mode, "CRASHBPF": PROGRAM}, capture_output=True, text=True, cwd=out)
    total = re.search(r"(?m)^images (\d+) failing \d+ ", done.stdout)
    if not total:
        sys.exit(f"{row.name}: {done.stderr}")
    return int(total[1]), [(int(cut), answer) for cut, answer in re.findall(r"cut (\d+) program 0 (answer \d+|signal \d+|out of time)", done.stdout)]


def told(row, out, said, count, failing):
    """The row of the table."""
    entries = entries_of((out / "writes.log").read_bytes())
    first = next(at for at, it in enumerate(entries) if it.flags & MARK)
    looks = re.search(r"([\d,]+) looks", said)
    after = [answer for cut, answer in failing if cut > first]
    kinds = [sum(it == kind for it in after) for kind in ("answer 2", "answer 3")]
    columns = [row.name, looks[1] if looks else "-", len(entries), count, len(failing) - len(after), len(after) - sum(kinds), *kinds]
    return "| " + " | ".join(str(it) for it in columns) + " |"


def main(words):
    if not words:
        sys.exit(__doc__)
    folder = Path(words[0]).resolve()
    folder.mkdir(exist_ok=True)
    for row in ROWS:
        if len(words) > 1 and words[1] not in row.name:
            continue
        out, said = recorded(folder, row)
        if not (out / "writes.log").exists():
            print(f"| {row.name} | {said.strip().splitlines()[-1]} |", flush=True)
            continue
        wrong = image_fault(out, row.skip)
        if wrong:
            sys.exit(f"{row.name}: the image in which all arrived isn't the files that were left: {wrong}")
        print(told(row, out, said, *judged(out, row, built(folder, row.database))), flush=True)
    return 0


if __name__ == "__main__":
    sys.exit(main(sys.argv[1:]))
