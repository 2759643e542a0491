#!/usr/bin/env python3
"""Takes each sync out of recordings of programs that make all of them, and asks crashbpf-test's modules whether they name it again, with a
cure that holds. By hand.

    python3 tests/by_hand/taken_syncs.py FOLDER [NAME ..]
    python3 tests/by_hand/taken_syncs.py RECORDING CHECK

FOLDER is made, and keeps the recordings of the programs below, or of those that have a NAME in theirs: what is there is taken as it is.
RECORDING is another one, a folder of crashbpf-record --files, and CHECK a command for sh as of crashbpf-test. crashbpf is on the path.

For each sync of a recorded file or folder a line says what becomes of the recording without it: that nothing fails, or which syncs are
named, before which calls, and whether nothing fails with them. `again` is a sync of the same file or folder, and no other one, before a
call that came after it. Where another one is named, or more than one, it is `another`. What isn't cured is `FAILED`.

It wants strace, a C compiler, SQLite, git, and Debian's packages liblmdb-dev, libleveldb-dev, librocksdb-dev and golang-go; a program
whose packages aren't there is left out, and a line says so. The last line counts. The status is 0 where nothing fails with all syncs,
each cure holds, and of the syncs without which something fails 95 in 100 are named again.
"""
import os
import shlex
import shutil
import subprocess
import sys
from collections import Counter
from dataclasses import dataclass, field
from pathlib import Path

sys.dont_write_bytecode = True

import rooms

rooms.enter()

from notation import TOP

from commands.record import traced
from commands.record.calls import Refused
from commands.shared.recording import NAME
from commands.test.cure import Cure
from commands.test.explore import Bounded
from commands.test.judge import Judge
from commands.test.sites import named
from commands.test.source import Source

SECONDS, RUNNERS = 60, 2
PROGRAMS = TOP / "tests/programs"
# How many of a hundred have to be named again.
WANTED = 95

# A file that is replaced three times.
PYTHON = """\
import os
files = os.environ["FILES"]
for n in range(1, 4):
    with open(files + "/new", "wb") as file:
        file.write(bytes([97 + n]) * 600)
        file.flush()
        os.fsync(file.fileno())
    os.replace(files + "/new", files + "/kept")
    folder = os.open(files, os.O_RDONLY)
    os.fsync(folder)
    os.close(folder)
    with open(os.environ["RECORDING"] + "/marks", "a") as marks:
        marks.write(f"0 commit-{n}\\n")
"""
GO = """\
package main

import (
	"bytes"
	"fmt"
	"os"
	"path/filepath"
)

func must(err error) {
	if err != nil {
		panic(err)
	}
}

func main() {
	files := os.Getenv("FILES")
	for n := 1; n < 4; n++ {
		file, err := os.CreateTemp(files, "new-")
		must(err)
		_, err = file.Write(bytes.Repeat([]byte{byte('a' + n)}, 600))
		must(err)
		must(file.Sync())
		must(file.Close())
		must(os.Rename(file.Name(), filepath.Join(files, "kept")))
		folder, err := os.Open(files)
		must(err)
		must(folder.Sync())
		must(folder.Close())
		marks, err := os.OpenFile(filepath.Join(os.Getenv("RECORDING"), "marks"), os.O_WRONLY|os.O_APPEND, 0)
		must(err)
		fmt.Fprintf(marks, "0 commit-%d\\n", n)
		must(marks.Close())
	}
}
"""
RUST = """\
use std::fs::{File, OpenOptions};
use std::io::Write;
use std::os::unix::fs::FileExt;

fn main() -> std::io::Result<()> {
    let files = std::env::var("FILES").unwrap();
    let open = |name: &str| OpenOptions::new().write(true).create(true).truncate(false).open(format!("{files}/{name}"));
    let (log, index) = (open("log")?, open("index")?);
    File::open(&files)?.sync_all()?;
    for n in 1..4u8 {
        log.write_all_at(&[b'a' + n; 600], 600 * n as u64)?;
        log.sync_data()?;
        index.write_all_at(&[b'0' + n], 0)?;
        index.sync_data()?;
        let marks = format!("{}/marks", std::env::var("RECORDING").unwrap());
        OpenOptions::new().append(true).open(marks)?.write_all(format!("0 commit-{n}\\n").as_bytes())?;
    }
    Ok(())
}
"""
TABLES = "CREATE TABLE t (n, text); CREATE TABLE u (n); INSERT INTO t VALUES (0, hex(zeroblob(300))); INSERT INTO u VALUES (0);"
SQLITE = """\
found=$(sqlite3 db "PRAGMA integrity_check; SELECT (SELECT count(*) FROM t) = n + 1 AND (SELECT max(n) FROM t) = n, n FROM u" 2>&1)
case $found in
"ok
1|"*) [ "${found##*|}" -ge $((CRASH_MARKS > 0 ? CRASH_MARKS - 1 : 0)) ] && exit 0 ;;
esac
echo "$found"
exit 1
"""
GIT = """\
cd "$FILES"
for it in 1 2; do
    echo "$it" >file
    git add file
    git commit -q -m "$it"
    sync .git/refs/heads .git
    mark commit-$it
done
"""
OF_GIT = """\
git fsck --full --strict >said 2>&1 && git ls-files -s >/dev/null 2>>said || { tail -n 1 said; exit 1; }
[ $(git rev-list --count HEAD) -gt "$CRASH_MARKS" ] || { echo "a commit is gone"; exit 2; }
"""
CONFIG = "core.fsync=all core.fsyncMethod=fsync gc.auto=0 core.logAllRefUpdates=false user.name=a user.email=a@example.org".split()


def built(folder, name, text, *words):
    """The program that a compiler makes of a text. Among its words OUT and IN stand for these files."""
    out, source = folder / Path(name).stem, folder / name
    if not out.exists():
        source.write_text(text)
        environment = {**os.environ, "GOCACHE": str(folder / "cache"), "GO111MODULE": "off", "GOFLAGS": "-p=1"}
        subprocess.run([{"OUT": out, "IN": source}.get(it, it) for it in words], check=True, env=environment)
    return str(out)


def of_c(folder, name, text, *libraries):
    """A program in C that stands on libraries."""
    return built(folder, name, text, "cc", "-g", f"-I{PROGRAMS}", "-pthread", "-o", "OUT", "IN", *(f"-l{it}" for it in libraries))


def saves(folder):
    return of_c(folder, "saves.c", (PROGRAMS / "saves.c").read_text())


@dataclass
class Row:
    """A program: `made` makes what it is, in a folder, and returns its words and the check; `base` puts there what it finds."""

    name: str
    needs: tuple
    made: object
    base: object = None
    skip: list = field(default_factory=list)


def sqlite(journal, synchronous):
    """A row of SQLite in a mode."""

    def made(folder):
        script = folder / f"sqlite-{journal}.sh"
        words = [f"PRAGMA synchronous = {synchronous}; PRAGMA journal_mode = {journal};", ".shell mark begin"]
        for it in (1, 2):
            words += [f"BEGIN; INSERT INTO t VALUES ({it}, hex(randomblob(300))); UPDATE u SET n = {it}; COMMIT;", f".shell mark commit-{it}"]
        script.write_text(f'exec sqlite3 "$FILES/db" {shlex.join([".filectrl persist_wal 1", *words])}\n')
        check = folder / "sqlite-check.sh"
        check.write_text(SQLITE)
        return ["sh", str(script)], f"sh {check}"

    def base(folder):
        subprocess.run(["sqlite3", folder / "db", f"PRAGMA journal_mode = {journal}; {TABLES}"], check=True, stdout=subprocess.DEVNULL)

    return Row(f"SQLite, {journal}, {synchronous}", ("sqlite3",), made, base, ["db-shm"] if journal == "WAL" else [])


def of_count(program, before):
    """A check of a program that prints how many commits are there, or as many less `before`. Before the first mark there need be none."""
    return f'[ "$CRASH_MARKS" = 0 ] && exit; n=$({program} read . 2>&1); [ "$n" -ge $((CRASH_MARKS - {before})) ] 2>/dev/null || {{ echo "$n"; exit 1; }}'


def lmdb(folder):
    program = of_c(folder, "lmdb.c", (PROGRAMS / "lmdb.c").read_text(), "lmdb")
    return ["sh", "-c", f"exec {program} write $FILES safe 0 3"], of_count(program, 0)


def level(name):
    """What makes a program of LevelDB, or of RocksDB, whose calls have the same names."""

    def made(folder):
        program = of_c(folder, f"{name}.c", (PROGRAMS / "leveldb.c").read_text().replace("leveldb", name), name)
        return ["sh", "-c", f"exec {program} write $FILES sync 0 1 2"], of_count(program, 1)

    return made


def git(folder):
    (folder / "git.sh").write_text(GIT)
    (folder / "git-check.sh").write_text(OF_GIT)
    return ["sh", str(folder / "git.sh")], f"sh {folder}/git-check.sh"


def of_git(folder):
    """A repository with a commit, and with all syncs of git."""
    run = lambda *words: subprocess.run(["git", *words], cwd=folder, check=True)
    run("init", "-q", "-b", "main", "--template=")
    for it in CONFIG:
        run("config", *it.split("=", 1))
    run("commit", "-q", "--allow-empty", "-m", "0")


def script(folder):
    saving = TOP / "examples/saving"
    return ["sh", str(saving / "save.sh"), "sync"], f"sh {saving}/check.sh"


def in_c(how, check):
    """What makes a program of saves.c."""

    def made(folder):
        return [saves(folder), how], f"{saves(folder)} check {check}"

    return made


def python(folder):
    (folder / "save.py").write_text(PYTHON)
    return [sys.executable, str(folder / "save.py")], f"{saves(folder)} check save"


def go(folder):
    return [built(folder, "go_save.go", GO, "go", "build", "-o", "OUT", "IN")], f"{saves(folder)} check save"


def rust(folder):
    return [built(folder, "rust_append.rs", RUST, "rustc", "-g", "-o", "OUT", "IN")], f"{saves(folder)} check append"


ROWS = [
    Row("the saving script", (), script),
    Row("a C program", ("cc",), in_c("append", "append")),
    Row("two threads", ("cc",), in_c("threads", "append")),
    Row("a chain of renames", ("cc",), in_c("chain", "chain")),
    Row("a Python program", ("cc",), python),
    Row("a Go program", ("cc", "go"), go),
    Row("a Rust program", ("cc", "rustc"), rust),
    Row("LMDB", ("cc", "/usr/include/lmdb.h"), lmdb, None, ["lock.mdb"]),
    sqlite("DELETE", "EXTRA"),
    sqlite("WAL", "FULL"),
    Row("LevelDB", ("cc", "/usr/include/leveldb/c.h"), level("leveldb"), None, ["LOG*", "LOCK"]),
    Row("RocksDB", ("cc", "/usr/include/rocksdb/c.h"), level("rocksdb"), None, ["LOG*", "LOCK"]),
    Row("git", ("git",), git, of_git),
]


def recorded(folder, row):
    """Records a row, unless it is there. Returns the folder of the recording, and the check; or nothing where it is refused."""
    programs, out, base = folder / "programs", folder / row.name.replace(" ", "_").replace(",", ""), None
    programs.mkdir(exist_ok=True)
    words, check = row.made(programs)
    if not (out / NAME).exists():
        shutil.rmtree(out, ignore_errors=True)
        if row.base:
            base = out.with_suffix(".base")
            shutil.rmtree(base, ignore_errors=True)
            base.mkdir()
            row.base(base)
        out.mkdir()
        try:
            status, _ = traced.record(str(out), base and str(base), row.skip, words, traced.surroundings(str(out)), print, "ext4")
        except Refused as why:
            print(f"{row.name}: refused: {why}")
            return None
        if status:
            print(f"{row.name}: the program ended with status {status}")
    return str(out), check


def answer_without(source, sync, explorer):
    """The answer on a recording without a sync, or nothing where no case fails then."""
    source.without = frozenset([sync.call.line])
    cure = Cure(source, source.made.table, explorer)
    cure.explore()
    if not cure.answer.found.failing:
        return None
    cure.explain()
    cure.rounds()
    cure.prune()
    return cure.answer


def taken(sync, answer):
    """What became of a recording without a sync, in a word, and what is named."""
    if answer is None:
        return "can't be missed", "nothing fails without it"
    told = "; ".join(f"{named(it.log, it.target())} before {next(iter(it.instances.values())).told}" for it in answer.sites)
    told += "".join(f"; no sync helps in {it.cases}: {it.kind}" for it in answer.stay)
    if answer.cured.failing:
        return "FAILED", told
    lines = [line for it in answer.sites for (line, _), target in it.instances if target == sync.target]
    is_again = len(answer.sites) == 1 and any(it > sync.call.line for it in lines)
    return ("again" if is_again else "another"), told


def tried(recording, check):
    """Takes out each sync of a recording. Returns how many came to what."""
    source, counts = Source(recording), Counter()
    judge = Judge(["sh", "-c", check], RUNNERS, SECONDS)
    try:
        explorer, log = Bounded(judge), source.log(source.made.table)
        whole = explorer.explore(log)
        print(f"  with all syncs {len(whole.failing)} of {whole.cases} cases fail: {whole.scope}", flush=True)
        counts["failing with all syncs"] = len(whole.failing)
        for sync in [it for it in log.tracing.synced if it.target is not None and it.is_durable() and it.call.name != "msync"]:
            word, told = taken(sync, answer_without(source, sync, explorer))
            counts[word] += 1
            print(f"  calls:{sync.call.line} {sync.call.told}: {word}: {told}", flush=True)
    finally:
        judge.end()
    return counts


def recordings(words):
    """Yields what is asked for: names, and recordings with their checks."""
    if len(words) == 2 and Path(words[0], NAME).exists():
        yield words[0], words[0], words[1]
        return
    folder = Path(words[0]).resolve()
    folder.mkdir(exist_ok=True)
    for row in ROWS:
        lacks = [it for it in row.needs if not (Path(it).exists() or shutil.which(it))]
        if words[1:] and not any(it in row.name for it in words[1:]):
            continue
        if lacks:
            print(f"{row.name}: not run, since there is no {lacks[0]}")
            continue
        found = recorded(folder, row)
        if found is not None:
            yield row.name, *found


def main(words):
    if not words:
        sys.exit(__doc__)
    total = Counter()
    for name, recording, check in recordings(words):
        print(f"{name}:", flush=True)
        total += tried(recording, check)
    failing = total["again"] + total["another"] + total["FAILED"]
    print(", ".join(f"{total[it]} {it}" for it in ("again", "another", "FAILED", "can't be missed")))
    return 1 if total["failing with all syncs"] or total["FAILED"] or 100 * total["again"] < WANTED * failing else 0


if __name__ == "__main__":
    sys.exit(main(sys.argv[1:]))
