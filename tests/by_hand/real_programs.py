#!/usr/bin/env python3
"""Records databases, gives each crash image to them, and says what was found: the table of docs/RECOVERY.md. By hand.

    python3 tests/by_hand/real_programs.py [--every] FOLDER [KERNEL [NAME]]

FOLDER is made, and keeps the recordings: what is there is taken as it is, so that a run may be gone on with. KERNEL is as in
tests/by_hand/record.py: with it the same databases are recorded in a guest too, on ext4.

Of files recorded with names and sizes (`crashbpf-record --files`) there is a row for each table. Of each row the program makes three commits, each acknowledged by a mark. Each image, with as many marks, is laid out, and opened
by the program itself. It is `broken` where that fails, where its own check finds something, or where a commit is there in part.
A commit is `lost` where fewer are there than marks before the cut. The images are those of tests/models/model.py, and `crashbpf images`
has to count as many. Equal images with as many marks are judged once. One image of each row is judged by crashbpf-files too,
which has to say the same.

With `--every` each row that is no guest's is judged by `crashbpf-each --stop-at-failing` in place of that, by one runner: how often the program
was run, how many seconds of the processor that took in all, and the last line of the text. With NAME only rows whose name has it are made; KERNEL may be empty then.

It wants strace, sqlite3, liblmdb-dev, libleveldb-dev, a C compiler, and the built program, which CRASHBPF names where it is another;
with KERNEL what `guest` wants, and e2fsprogs.
Prints a row for each: the entries of its log, how many writes are lost at most, by write, how many images that gives and how many
of them differ, and how many are broken or lack a commit. At most two writes are lost, or one where two give more than 1,500 images.
"""
import functools
import hashlib
import io
import os
import re
import resource
import shutil
import subprocess
import sys
import tempfile
from concurrent.futures import ThreadPoolExecutor
from dataclasses import dataclass
from pathlib import Path

sys.dont_write_bytecode = True

import rooms

rooms.enter()

from model import Run
from notation import MARK, SECTOR, TOP, entries_of

RECORD = TOP / "commands/record"
GUEST, EACH = TOP / "examples/recording/guest", TOP / "commands/each/crashbpf-each"
PROGRAM = os.environ.get("CRASHBPF", TOP / "crates/crashbpf/out/crashbpf")
from commands.record import layout
from commands.record import named_layout
from commands.record.orders import TABLES as ORDERS

COMMITS = (1, 2, 3)
# The most images of a row that loses two writes at once.
MOST = 1500
TABLES = "CREATE TABLE t (n, text); CREATE TABLE u (n); INSERT INTO t VALUES (0, hex(zeroblob(300))); INSERT INTO u VALUES (0);"
ASKED = "PRAGMA integrity_check; SELECT (SELECT count(*) FROM t), (SELECT max(n) FROM t), (SELECT n FROM u)"
PATH = f"{os.environ['PATH']}:/usr/sbin:/sbin"


def sh(text, folder, **environment):
    return subprocess.run(["sh", "-c", text], cwd=folder, capture_output=True, text=True, errors="replace", env={**os.environ, "PATH": PATH, **environment})


def ran(words, folder):
    """Runs a program that judges, for at most twenty seconds."""
    try:
        return subprocess.run(words, cwd=folder, capture_output=True, text=True, errors="replace", timeout=20)
    except subprocess.TimeoutExpired:
        return subprocess.CompletedProcess(words, 124, "", "")


def sqlite_words(journal, synchronous):
    """The words of sqlite3 that make three commits, each of two tables, in one connection."""
    words = ['".filectrl persist_wal 1"', f'"PRAGMA synchronous = {synchronous}; PRAGMA journal_mode = {journal};"', '".shell mark begin"']
    for it in COMMITS:
        words.append(f'"BEGIN; INSERT INTO t VALUES ({it}, hex(randomblob(300))); UPDATE u SET n = {it}; COMMIT;"')
        words.append(f'".shell mark commit-{it}"')
    return f"sqlite3 $FILES/db {' '.join(words)}"


def sqlite_base(folder, journal):
    """A database that was used with such a journal, with room for what is to come."""
    more = "INSERT INTO t SELECT 9, hex(zeroblob(300)) FROM (VALUES (1), (2), (3)); DELETE FROM t WHERE n = 9;"
    done = sh(f"sqlite3 db 'PRAGMA journal_mode = {journal}; {TABLES} {more}'", folder)
    if done.returncode:
        sys.exit(f"sqlite3: {done.stderr}")


def sqlite_found(folder):
    """How many commits a database has, or what is broken."""
    done = ran(["sqlite3", "db", ASKED], folder)
    lines = done.stdout.splitlines()
    found = re.fullmatch(r"(\d+)\|(\d+)\|(\d+)", lines[-1]) if lines else None
    if done.returncode or lines[0] != "ok" or not found:
        return f"status {done.returncode}: {' '.join(lines[:2])} {done.stderr.strip()}"[:100]
    count, most, told = (int(it) for it in found.groups())
    return most if count == most + 1 and told == most else f"{count} rows up to {most}, and the other table says {told}"


def lmdb_found(folder):
    done = ran([os.environ["LMDB"], "read", "."], folder)
    return int(done.stdout) - 4 if done.returncode == 0 and done.stdout.strip().isdigit() else f"status {done.returncode}: {done.stdout.strip()}"[:100]


def lmdb_base(folder, _):
    done = sh(f"{os.environ['LMDB']} write . safe 0 4 && rm lock.mdb", folder)
    if done.returncode:
        sys.exit(f"lmdb: {done.stdout}")


def leveldb_found(folder):
    done = ran([os.environ["LEVELDB"], "read", "."], folder)
    return int(done.stdout) if done.returncode == 0 and done.stdout.strip().isdigit() else f"status {done.returncode}: {done.stdout.strip()}"[:100]


def leveldb_base(folder, _):
    done = sh(f"{os.environ['LEVELDB']} write . sync 0", folder)
    if done.returncode:
        sys.exit(f"leveldb: {done.stdout}")


# A file that is replaced three times, by a new one that gets its name.
RENAMES = """\
import os
files = os.environ["FILES"]
for number in (1, 2, 3):
    new = os.open(files + "/new", os.O_WRONLY | os.O_CREAT | os.O_TRUNC, 0o644)
    os.write(new, bytes([number]) * 700 * number)
    {sync}
    os.close(new)
    os.rename(files + "/new", files + "/kept")
    {folder}
    os.system("mark commit-%d" % number)
"""
FOLDER = "at = os.open(files, os.O_RDONLY); os.fsync(at); os.close(at)"


def renames_base(folder, _):
    Path(folder, "kept").write_bytes(b"\0" * 100)


def renames_found(folder):
    """Returns which version of the file is there, or what is wrong with it."""
    path = Path(folder, "kept")
    if not path.exists():
        return "the file isn't there"
    content = path.read_bytes()
    number = content[0] if content else 4
    return number if content == bytes([number]) * (700 * number or 100) else f"the file has {len(content)} bytes, the first of which is {number}"


# Two files: records, and how many of them there are. The five lines sync the records, or the other file in their place.
LINES = """\
import os
data, index = (os.open(os.environ["FILES"] + it, os.O_RDWR | os.O_CREAT) for it in ("/data", "/index"))
for number in (1, 2, 3):
    os.pwrite(data, bytes([number]) * 512, 512 * number)
    os.fsync({which})
    os.pwrite(index, bytes([number]), 0)
    os.fsync(index)
    os.system("mark commit-%d" % number)
"""


def lines_found(folder):
    data, index = (Path(folder, it).read_bytes() for it in ("data", "index"))
    whole = all(data[512 * it : 512 * it + 512] == bytes([it]) * 512 for it in range(1, index[0] + 1))
    return index[0] if whole else f"{index[0]} records, of which one isn't there"


@dataclass(frozen=True)
class Row:
    """A program that is recorded: what it is called, its base, its command, what is skipped, how its files are judged."""

    name: str
    base: object
    kind: str
    command: str
    skip: str | None
    found: object
    # the table by which names and sizes are recorded too
    orders: str | None = None


def named_rows():
    """What is recorded with names and sizes, by each table."""
    programs = []
    for journal, synchronous in (("DELETE", "OFF"), ("DELETE", "FULL"), ("DELETE", "EXTRA"), ("TRUNCATE", "OFF"), ("TRUNCATE", "FULL")):
        programs.append((f"SQLite {journal} {synchronous}", sqlite_base, journal, sqlite_words(journal, synchronous), None, sqlite_found))
    for kind in ("loose", "sync"):
        programs.append((f"LevelDB {kind}", leveldb_base, kind, f"exec $LEVELDB write $FILES {kind} 1 2 3", "LO[GC]*", leveldb_found))
    for name, sync, folder in (("a rename", "", ""), ("a rename, file synced", "os.fsync(new)", ""), ("a rename, file and folder synced", "os.fsync(new)", FOLDER)):
        command = f"exec {sys.executable} -c '{RENAMES.format(sync=sync, folder=folder)}'"
        programs.append((name, renames_base, "", command, None, renames_found))
    for name, *rest in programs:
        for table in ORDERS:
            yield Row(f"{name}, {table}", *rest, table)


def rows():
    """What is recorded by strace."""
    yield from named_rows()
    for journal in ("PERSIST", "WAL"):
        for synchronous in ("OFF", "NORMAL", "FULL"):
            command = sqlite_words(journal, synchronous)
            yield Row(f"SQLite {journal} {synchronous}", sqlite_base, journal, command, "db-shm" if journal == "WAL" else None, sqlite_found)
    for flags in ("safe", "NOMETASYNC", "NOSYNC", "WRITEMAP"):
        yield Row(f"LMDB {flags}", lmdb_base, flags, f"exec $LMDB write $FILES {flags} 4 3", "lock.mdb", lmdb_found)
    for name, which in (("five lines", "data"), ("five lines that sync the other file", "index")):
        yield Row(name, None, "", f"exec {sys.executable} -c '{LINES.format(which=which)}'", None, lines_found)


GUESTS = [("DELETE", "OFF"), ("DELETE", "FULL"), ("DELETE", "EXTRA"), ("PERSIST", "FULL"), ("WAL", "NORMAL"), ("WAL", "FULL"), ("PERSIST", "OFF")]


class Whole:
    """The image of a cut in which nothing is lost, and a sum of its sectors; images beside it have few sectors changed."""

    def __init__(self, run):
        self.run, self.cut, self.commits = run, 0, 0
        run.parts_over = functools.cache(run.parts_over)
        self.bytes = bytearray(run.base.ljust(SECTOR * run.sectors, b"\0"))
        self.sum, self.numbers = 0, set()

    def sector(self, number):
        return bytes(self.bytes[SECTOR * number : SECTOR * (number + 1)])

    def go_on(self, cut):
        """Goes on to a cut that isn't before the last one."""
        for entry in self.run.recorded[self.cut : cut]:
            self.commits += bool(entry.flags & MARK and entry.text.startswith(b"commit-"))
            for at in range(entry.count):
                number, new = entry.sector + at, entry.data[SECTOR * at : SECTOR * (at + 1)] or bytes(SECTOR)
                self.sum += changed_sum(number, self.sector(number), new)
                self.numbers.add(number)
                self.bytes[SECTOR * number : SECTOR * (number + 1)] = new
        self.cut = cut

    def change(self, image):
        """The sum of an image of this cut, and the sectors in which it differs."""
        numbers = {it for part, _ in image.departures for it in range(part.sector, part.sector + len(part.content) // SECTOR)}
        changed = {it: image.sector(it) for it in numbers}
        return self.sum + sum(changed_sum(number, self.sector(number), new) for number, new in changed.items()), changed

    def written(self, changed):
        """The sectors that were written before the cut, as the image has them."""
        return {it: self.sector(it) for it in self.numbers} | changed


@functools.cache
def sector_sum(number, content):
    return int.from_bytes(hashlib.sha256(number.to_bytes(8, "little") + content).digest(), "little")


def changed_sum(number, old, new):
    """By how much the sum of an image grows where a sector changes."""
    return 0 if old == new else sector_sum(number, new) - sector_sum(number, old)


class Judge:
    """What a program says of images, each once."""

    def __init__(self, found, lay):
        self.found, self.lay, self.known = found, lay, {}

    def verdict(self, before, written):
        """Returns what the database says of an image, which is `before` with these sectors."""
        content = bytearray(before)
        for number, it in written.items():
            content[SECTOR * number : SECTOR * (number + 1)] = it
        with tempfile.TemporaryDirectory() as folder:
            self.lay(content, folder)
            return self.found(folder)

    def judge(self, run):
        """How many images a run has, how many differ, how many are broken, and in how many a commit is lost."""
        keys, contents, whole = [], {}, Whole(run)
        for image in run.images():
            whole.go_on(image.cut)
            key, changed = whole.change(image)
            keys.append((key, whole.commits))
            if key not in self.known and key not in contents:
                contents[key] = whole.written(changed)
        with ThreadPoolExecutor(8) as pool:
            before = run.base.ljust(SECTOR * run.sectors, b"\0")
            self.known.update(zip(contents, pool.map(functools.partial(self.verdict, before), contents.values())))
        verdicts = [(self.known[key], marks) for key, marks in keys]
        broken = [it for it, _ in verdicts if isinstance(it, str)]
        lost = [it for it, marks in verdicts if not isinstance(it, str) and it < marks]
        for text in sorted(set(broken))[:3]:
            print(f"    broken: {text}", file=sys.stderr)
        return len(keys), len(set(keys)), len(broken), len(lost)


def counted(log, run):
    """How many images crashbpf counts."""
    done = subprocess.run([PROGRAM, "images", log, *run.options().removesuffix(" --base base").split()], capture_output=True, text=True)
    found = re.search(r"(?m)^total (\d+)$", done.stdout)
    if not found:
        sys.exit(f"crashbpf images: {done.stderr}")
    return int(found[1])


def judged(name, log, base, sectors, judge):
    """Prints the row of a recording."""
    entries = entries_of(Path(log).read_bytes())
    before = Path(base).read_bytes() if base and Path(base).exists() else b""
    first = next((at for at, it in enumerate(entries) if it.text == b"begin"), None)
    runs = [Run(entries, sectors=sectors, base=before, first=first, by="write", bound=it) for it in (1, 2)]
    run = runs[counted(log, runs[1]) <= MOST]
    count, (images, *rest) = counted(log, run), judge.judge(run)
    if count != images:
        sys.exit(f"{name}: crashbpf counts {count} images, and the model {images}")
    print("| {} | {} | {} | {} ({}) | {} | {} |".format(name, len(entries), run.bound, images, *rest), flush=True)


def traced(folder, row, is_every):
    """Records a row by strace, and judges it."""
    out, base = folder / row.name.replace(" ", "_"), folder / f"{row.name.replace(' ', '_')}.base"
    if not (out / "writes.log").exists():
        shutil.rmtree(out, ignore_errors=True)
        if row.base:
            shutil.rmtree(base, ignore_errors=True)
            base.mkdir()
            row.base(base, row.kind)
        options = [*(["--base", base] if row.base else []), *(["--skip", row.skip] if row.skip else []), *(["--files", row.orders] if row.orders else []), *(["--mapped"] if row.kind == "WRITEMAP" else [])]
        done = subprocess.run([RECORD / "crashbpf-record", *options, out, "--", "sh", "-c", row.command], capture_output=True, text=True)
        if done.returncode:
            return print(f"| {row.name} | refused: {done.stderr.strip().splitlines()[-1]} |", flush=True)
    if is_every:
        return every_loss(out, row)
    text = (out / "files.txt").read_text()
    found, sectors = ([named_layout.read_map(text)], named_layout.read_map(text)[2]) if row.orders else layout.read_map(text)

    def lay(content, room):
        if row.orders:
            return named_layout.Image(io.BytesIO(content), found[0]).lay_out(room)
        for it in found:
            Path(room, os.fsdecode(it.name)).write_bytes(content[SECTOR * it.first :][: it.length])
        return None

    judge = Judge(row.found, lay)
    judged(row.name, out / "writes.log", out / "base.img", sectors, judge)
    return by_files(out, row, judge, sectors)


def every_loss(out, row):
    """Judges every loss of a recording, each cut to its first failing case, and prints how often the program was run."""
    entries = entries_of((out / "writes.log").read_bytes())
    first = next((at for at, it in enumerate(entries) if it.text == b"begin"), 0)
    before = sum(bool(it.flags & MARK) and not it.text.startswith(b"commit-") for it in entries)
    words = [EACH, "-j", "1", "--bound", "any", "--stop-at-failing", out, "--from", str(first), "--", "/usr/bin/python3", Path(__file__).resolve(), "--found", row.found.__name__, str(before)]
    begun = taken()
    with tempfile.TemporaryDirectory() as room:
        done = subprocess.run(words, cwd=room, capture_output=True, text=True, env={**os.environ, "CRASHBPF": str(PROGRAM)}, stdin=subprocess.DEVNULL)
    ran_often = re.search(r"was run (\d+) times", done.stderr)
    print(f"| {row.name} | {ran_often[1] if ran_often else done.stderr.strip()} | {taken() - begun:.1f} s | {(done.stdout.splitlines() or [''])[-1]} |", flush=True)


def taken():
    """The seconds of the processor that all programs took that were run here."""
    it = resource.getrusage(resource.RUSAGE_CHILDREN)
    return it.ru_utime + it.ru_stime


def found_here(name, before):
    """Judges the files of the current folder, by how many marks stand before those of commits. Returns 1 where they are broken, and 2 where
    a commit is lost."""
    found = globals()[name](os.getcwd())
    return 1 if isinstance(found, str) else 2 if found < int(os.environ["CRASH_MARKS"]) - int(before) else 0


def by_files(out, row, judge, sectors):
    """Wants crashbpf-files to run a program on the same files."""
    entries = entries_of((out / "writes.log").read_bytes())
    base = (out / "base.img").read_bytes() if (out / "base.img").exists() else b""
    image = list(Run(entries, sectors=sectors, base=base, bound=0).images())[-1].content()
    (out / "image").write_bytes(image)
    done = subprocess.run([RECORD / "crashbpf-files", out / "files.txt", out / "image", "--", "sh", "-c", "cat *"], capture_output=True)
    with tempfile.TemporaryDirectory() as room:
        judge.lay(image, room)
        wanted = b"".join(it.read_bytes() for it in sorted(Path(room).iterdir()))
    if (done.returncode, done.stdout) != (0, wanted):
        sys.exit(f"{row.name}: crashbpf-files lays out other files")


def in_guest(folder, kernel, journal, synchronous):
    """Records SQLite in a guest, and judges it."""
    name = f"{journal}_{synchronous}"
    out, base, script = folder / f"guest_{name}", folder / f"guest_{name}.img", folder / f"guest_{name}.sh"
    if not (out / "writes.log").exists():
        shutil.rmtree(out, ignore_errors=True)
        with tempfile.TemporaryDirectory() as room:
            sqlite_base(room, journal)
            done = sh(f"truncate -s 8M {base} && mkfs.ext4 -q -F -E nodiscard -d {room} {base}", folder)
        if done.returncode:
            sys.exit(f"mkfs.ext4: {done.stderr}")
        script.write_text(f"mount $DEVICE /mnt || exit 1\nexport FILES=/mnt\n{sqlite_words(journal, synchronous)} || exit 1\numount /mnt\n")
        environment = {**os.environ, "PATH": PATH, "COMMANDS": "sqlite3", "BASE": str(base)}
        done = subprocess.run([GUEST, kernel, "16384", out, script], env=environment, capture_output=True, text=True)
        if done.returncode:
            print(f"| guest: SQLite {journal} {synchronous} | {done.stderr.strip()} |", flush=True)
            return

    def lay(content, room):
        Path(room, "image").write_bytes(content)
        Path(room, "dump").write_text("".join(f"dump /{it} {it}\n" for it in ("db", "db-journal", "db-wal")))
        for words in (["/sbin/e2fsck", "-fy", "image"], ["/sbin/debugfs", "-f", "dump", "image"]):
            ran(words, room)
        Path(room, "image").unlink()

    judged(f"guest: SQLite {journal} {synchronous}", out / "writes.log", base, 16384, Judge(sqlite_found, lay))


def main(words):
    if words[0] == "--found":
        return found_here(*words[1:])
    is_every, words = words[0] == "--every", words[words[0] == "--every" :]
    folder = Path(words[0]).resolve()
    folder.mkdir(exist_ok=True)
    for name in ("lmdb", "leveldb"):
        os.environ[name.upper()] = str(folder / name)
        done = sh(f"cc -O1 -w -o {name} {TOP / 'tests/programs' / name}.c -l{name}", folder)
        if done.returncode:
            sys.exit(f"cc: {done.stderr}")
    chosen = words[2] if len(words) > 2 else ""
    for row in rows():
        if chosen in row.name:
            traced(folder, row, is_every)
    if words[1:] and words[1] and not is_every:
        for journal, synchronous in GUESTS:
            if chosen in f"{journal} {synchronous}":
                in_guest(folder, Path(words[1]).resolve(), journal, synchronous)
    return 0


if __name__ == "__main__":
    sys.exit(main(sys.argv[1:]))
