#!/usr/bin/env python3
"""Records what people run, by crashbpf-record, and says what is recorded and what is refused. By hand.

    python3 tests/by_hand/kinds_of_use.py FOLDER [NAME]

Two lists: 52 kinds of use of programs (git, editors, copies, archives, packages, Python, Node, Go), and 14 databases, each in its
usual mode. FOLDER is made, and keeps the recordings: what is there is taken as it is, so that a run may be gone on with. NAME is a
part of the names of the rows that are wanted.

Each row has a script that is run in $FILES, recorded by the table `ext4`; one that makes what $FILES has at first; and one that makes what lies
outside, in $OUTSIDE. Some have a judge, which is run by crashbpf-each in a folder with the files of each image that lacks at most one
write. Where there are more than MOST such images those of the marks alone are judged, and where these are more too, none. It
wants the built program then, which CRASHBPF names where it is another; without it nothing is judged.

A row that is refused says so with the line of crashbpf-record. One whose programs aren't there says what it lacks. The rows are
compared with tests/by_hand/kinds_of_use.txt, which has what each comes to; a line says where one is otherwise. With --store it
is written, row by row.

Prints a row for each, and last how many of each list were recorded. The status is 1 where a row is otherwise, or where fewer than
LEAST of those that could be run are recorded.
"""
import json
import os
import re
import shutil
import subprocess
import sys
from dataclasses import dataclass
from pathlib import Path

sys.dont_write_bytecode = True

import rooms

rooms.enter()

from notation import TOP

RECORD, EACH = TOP / "commands/record/crashbpf-record", TOP / "commands/each/crashbpf-each"
PROGRAM = os.environ.get("CRASHBPF", str(TOP / "crates/crashbpf/out/crashbpf"))
STORED = Path(__file__).with_suffix(".txt")
SECONDS = 900
# The most images of a row that is judged, and how many of each list are recorded at least.
MOST = 300
LEAST = {"use": 48, "database": 12}
PATH = f"{os.environ['PATH']}:/usr/sbin:/sbin:" + ":".join(str(it) for it in Path("/usr/lib/postgresql").glob("*/bin"))
REMOTE = "/lib/systemd/systemd-journal-remote"


@dataclass
class Row:
    """A kind of use, or a database: the script that is recorded, what makes its surroundings, its judge."""

    name: str
    program: str
    # commands, headers and paths that it wants
    wants: str = ""
    base: str = ""
    outside: str = ""
    judge: str = ""
    mapped: bool = False
    skip: str = ""
    # a C program of tests/programs, with the words of the compiler
    build: str = ""
    list: str = "use"

    def folder_name(self):
        return re.sub(r"\W+", "_", self.name)


REPOSITORY = "git init -q . && echo one >text && git add text && git commit -qm one"
COMMIT = "echo two >text; git add text; git commit -qm two; mark two"
FSCK = "git fsck --full >&2"
TWO_TEXTS = 'grep -qxs "one\\|two" text'
JSON = """
import json, os
def save(name, is_synced, is_folder_synced):
    with open(name + '.new', 'w') as file:
        json.dump({'name': name}, file)
        file.flush()
        if is_synced:
            os.fsync(file.fileno())
    os.replace(name + '.new', name)
    if is_folder_synced:
        folder = os.open('.', os.O_RDONLY)
        os.fsync(folder)
    os.system('mark ' + name)
save('a', False, False); save('b', True, False); save('c', True, True)
"""
GO = """package main
import "os"
func check(err error) { if err != nil { panic(err) } }
func main() {
	file, err := os.Create("new")
	check(err)
	_, err = file.WriteString("two")
	check(err)
	check(file.Sync())
	check(file.Close())
	check(os.Rename("new", "text"))
}
"""
PACKAGE = """mkdir -p made/DEBIAN made/usr/share/it admin/info admin/updates
printf 'Package: it\\nVersion: 1\\nArchitecture: all\\nMaintainer: it\\nDescription: it\\n' >made/DEBIAN/control
echo one >made/usr/share/it/one; echo two >made/usr/share/it/two
dpkg-deb --root-owner-group -b made it.deb >/dev/null"""
DPKG = "dpkg --root=$FILES --force-not-root --force-script-chrootless --log=$OUTSIDE/log -i $OUTSIDE/it.deb >/dev/null; mark installed"
DPKG_BASE = "mkdir -p var/lib/dpkg/info var/lib/dpkg/updates && : >var/lib/dpkg/status && : >var/lib/dpkg/available"
REDIS = "redis-server --port 0 --unixsocket $OUTSIDE/socket --dir $FILES --save '' {} >$OUTSIDE/said & server=$!\n"
REDIS += "until redis-cli -s $OUTSIDE/socket ping >/dev/null 2>&1; do sleep 0.2; done\nredis-cli -s $OUTSIDE/socket set a 1; {}; mark set\n"
REDIS += "kill $server; wait $server || true"
SCREEN = "(sleep 5; printf '{}'; sleep 2; printf '{}') | TERM=xterm script -qec '{}' /dev/null >/dev/null"

USES = [
    Row("git add and commit", COMMIT, "git", REPOSITORY, judge=FSCK),
    Row("git add and commit, core.fsync=all", COMMIT, "git", f"{REPOSITORY} && git config core.fsync all", judge=FSCK),
    Row("git add and commit, twice", f"{COMMIT}; echo three >text; git commit -qam three; mark three", "git", REPOSITORY),
    Row("git init", "git init -q .", "git"),
    Row("git repack", "git repack -qad", "git", REPOSITORY, judge=FSCK),
    Row("git gc", "git gc -q", "git", REPOSITORY, judge=FSCK),
    Row("git clone, local", "git clone -q $OUTSIDE clone", "git", outside=REPOSITORY),
    Row("hg init and commit", "hg init .; echo one >text; hg add -q text; hg commit -q -m one -u it; mark one", "hg"),
    Row("vim", "vim -u NONE -N -es -c '%s/one/two/' -c wq text; mark two", "vim", "echo one >text", judge=TWO_TEXTS),
    Row("vim -n", "vim -n -u NONE -N -es -c '%s/one/two/' -c wq text; mark two", "vim", "echo one >text", judge=TWO_TEXTS),
    Row("nano", SCREEN.format("two\\017", "\\r\\030", "nano text"), "nano script", "echo one >text"),
    Row("emacs --batch save", "emacs --batch text --eval '(progn (insert \"two\") (save-buffer))'", "emacs", "echo one >text"),
    Row("sed -i", "sed -i s/one/two/ text; mark two", "sed", "echo one >text", judge=TWO_TEXTS),
    Row("perl -i", "perl -pi -e s/one/two/ text; mark two", "perl", "echo one >text", judge=TWO_TEXTS),
    Row("cp", "cp $OUTSIDE/source text; cp text copy", "cp", outside="seq 20000 >source"),
    Row("cp -a", "cp -a $OUTSIDE/source copy; cp -a copy another", "cp", outside="mkdir source; seq 20000 >source/a; ln -s a source/b; ln source/a source/c"),
    Row("install", "install -m 755 $OUTSIDE/source text", "install", outside="seq 20000 >source"),
    Row("cat > file", "cat $OUTSIDE/source >text; cat text >copy", "cat", outside="seq 20000 >source"),
    Row("mv inside of the folder", "mkdir in; mv text in/moved", "mv", "echo one >text"),
    Row("mv from outside", "mv $OUTSIDE/source text", "mv", outside="echo one >source"),
    Row("rsync", "rsync -a $OUTSIDE/source/ to; mark copied", "rsync", outside="mkdir source; seq 20000 >source/a; ln -s a source/b"),
    Row("rsync --fsync", "rsync -a --fsync $OUTSIDE/source/ to; mark copied", "rsync", outside="mkdir source; seq 20000 >source/a; ln -s a source/b"),
    Row("dd conv=fsync", "dd if=/dev/zero of=zeros bs=4096 count=4 conv=fsync status=none; mark written", "dd", judge='test "$CRASH_MARKS" = 0 || test "$(wc -c <zeros)" = 16384'),
    Row("tar -x", "tar -xf $OUTSIDE/it.tar", "tar", outside="mkdir in; seq 20000 >in/a; ln -s a in/b; tar -cf it.tar in"),
    Row("gzip", "gzip text; mark packed", "gzip", "seq 20000 >text", judge="gzip -tq text.gz || test -s text"),
    Row("patch", "patch -s text <$OUTSIDE/it.patch", "patch diff", "echo one >text", "echo one >a; echo two >b; diff -u a b >it.patch || true"),
    Row("sort -o", "sort -o text text; mark sorted", "sort", "printf 'two\\none\\n' >text", judge='test "$(wc -l <text)" = 2'),
    Row("tee", "seq 1000 | tee one two >/dev/null", "tee"),
    Row("ln", "ln text link", "ln", "echo one >text"),
    Row("ln -s", "ln -s text link; ln -sf other link", "ln", "echo one >text"),
    Row("truncate", "truncate -s 100 text; truncate -s 1M text", "truncate", "seq 1000 >text"),
    Row("zip", "zip -q it.zip text; zip -q it.zip other", "zip", "seq 1000 >text; seq 2000 >other"),
    Row("ar", "ar rcs it.a text; ar rcs it.a other", "ar", "seq 1000 >text; seq 2000 >other"),
    Row("gcc", "gcc -o it it.c", "gcc", "echo 'int main(void) { return 0; }' >it.c"),
    Row("ssh-keygen", "ssh-keygen -q -t ed25519 -N '' -f key", "ssh-keygen"),
    Row("openssl", "openssl genrsa -out key 2048 2>/dev/null", "openssl"),
    Row("a rotation by mv", "mv log.1 log.2; mv log log.1; echo three >log", "mv", "echo one >log.1; echo two >log"),
    Row("py_compile", "python3 -m py_compile it.py", "python3", "echo 'a = 1' >it.py"),
    Row("dpkg --root -i", DPKG, "dpkg dpkg-deb", DPKG_BASE, PACKAGE),
    Row("Python: JSON, with no sync, of the file, of the folder too", f"python3 -c \"{JSON}\"", "python3", judge='for it in a b c; do test ! -e $it || python3 -m json.tool $it >&2 || exit 1; done'),
    Row("Python: mmap", "python3 -c \"import mmap; it = open('text', 'r+b'); it = mmap.mmap(it.fileno(), 0); it[0:3] = b'two'; it.flush()\"", "python3", "echo one >text", mapped=True),
    Row("Python: shutil.copy", "python3 -c \"import os, shutil; shutil.copy(os.environ['OUTSIDE'] + '/source', 'text'); shutil.copy('text', 'copy')\"", "python3", outside="seq 20000 >source"),
    Row("Python: sqlite3", "python3 -c \"import os, sqlite3; it = sqlite3.connect('db'); it.execute('create table t (n)'); it.execute('insert into t values (1)'); it.commit(); os.system('mark one')\"", "python3", judge='test ! -s db || test "$(sqlite3 db "PRAGMA integrity_check")" = ok'),
    Row("Python: dbm.dumb", "python3 -c \"import dbm.dumb; it = dbm.dumb.open('db'); it['a'] = b'1'; it.sync(); it['b'] = b'2'; it.close()\"", "python3"),
    Row("Python: rotation of logging", "python3 -c \"import logging, logging.handlers as h; it = logging.getLogger(); it.addHandler(h.RotatingFileHandler('log', maxBytes=50, backupCount=2)); [it.warning('x' * 20) for _ in range(9)]\"", "python3"),
    Row("Python: write_text", "python3 -c \"import pathlib; pathlib.Path('text').write_text('two')\"; mark two", "python3", "echo one >text", judge=TWO_TEXTS),
    Row("Node: writeFileSync and rename", "node -e \"fs = require('fs'); fs.writeFileSync('new', 'two'); fs.renameSync('new', 'text')\"; mark two", "node", "echo one >text", judge=TWO_TEXTS),
    Row("Node: promises", "node -e \"fs = require('fs/promises'); fs.writeFile('new', 'two').then(() => fs.rename('new', 'text'))\"", "node", "echo one >text"),
    Row("Node: cpSync", "node -e \"fs = require('fs'); fs.cpSync(process.env.OUTSIDE + '/source', 'copy', {recursive: true}); fs.copyFileSync('copy/a', 'b')\"", "node", outside="mkdir source; seq 20000 >source/a"),
    Row("Go: write, sync, rename", "$OUTSIDE/it; mark two", "go", "echo one >text", f"cat >it.go <<'END'\n{GO}END\nHOME=$PWD GO111MODULE=off go build -o it it.go", TWO_TEXTS),
    Row("redis, AOF always", REDIS.format("--appendonly yes --appendfsync always", "true"), "redis-server redis-cli"),
    Row("redis, RDB", REDIS.format("", "redis-cli -s $OUTSIDE/socket save"), "redis-server redis-cli"),
]

MAPPED = 'exec $BUILT write $FILES 3'
READ = "exec $BUILT read . $CRASH_MARKS"
AS_POSTGRES = "setpriv --reuid postgres --regid postgres --clear-groups"
POSTGRES = f'chown -R postgres $FILES; for it in 1 2; do echo "insert into t values ($it)" | {AS_POSTGRES} postgres --single -D $FILES/db postgres >/dev/null; mark $it; done'
POSTGRES_BASE = f"chmod -R a+rX .. && chown postgres . && {AS_POSTGRES} sh -c 'initdb -N -A trust --no-locale -D db >/dev/null && echo \"create table t (n int)\" | postgres --single -D db postgres >/dev/null'"
ETCD = """etcd --data-dir db --listen-client-urls http://127.0.0.1:23790 --advertise-client-urls http://127.0.0.1:23790 \\
--listen-peer-urls http://127.0.0.1:23800 --snapshot-count 5 >$OUTSIDE/log 2>&1 & server=$!
for it in $(seq 100); do ! curl -fs http://127.0.0.1:23790/health >/dev/null || break; sleep 1; done
curl -fs -X POST http://127.0.0.1:23790/v3/kv/put -d '{"key": "YQ==", "value": "YQ=="}' >/dev/null; mark put; kill $server; wait $server || true"""
MAIL = """
import mailbox, os
for made in (mailbox.Maildir('maildir'), mailbox.mbox('mbox')):
    made.lock(); made.add('Subject: one\\n\\none\\n'); made.flush(); made.unlock(); os.system('mark one')
"""
JOURNAL = "__CURSOR=s=1;i=1\\n__REALTIME_TIMESTAMP=1700000000000000\\n__MONOTONIC_TIMESTAMP=1000\\n_BOOT_ID=0123456789abcdef0123456789abcdef\\nMESSAGE=it\\n\\n"
LDB = "ldb --db=db {} >/dev/null"

DATABASES = [
    Row("gdbm", MAPPED, "cc gdbm.h", judge=READ, mapped=True, build="mapped.c -DGDBM -lgdbm"),
    Row("Berkeley DB", MAPPED, "cc db.h", judge=READ, mapped=True, skip="__db.00*", build="mapped.c -DBERKELEY -ldb-5.3"),
    Row("tdb", MAPPED, "cc tdb.h", judge=READ, mapped=True, build="mapped.c -DTDB -ltdb"),
    Row("SQLite", "sqlite3 db 'create table t (n); insert into t values (1)'; mark one; sqlite3 db 'insert into t values (2)'; mark two", "sqlite3", judge='test "$CRASH_MARKS" = 0 || test "$(sqlite3 db "PRAGMA integrity_check; SELECT count(*) >= $CRASH_MARKS FROM t" | tr "\\n" " ")" = "ok 1 "'),
    Row("LevelDB", "exec $BUILT write $FILES sync 1 2 3", "cc leveldb/c.h", "$BUILT write . sync 0 && rm -f LO[GC]*", judge="$BUILT read . >&2", skip="LO[GC]*", build="leveldb.c -lleveldb"),
    Row("RocksDB", f"{LDB.format('--create_if_missing put a 1')}; mark one; {LDB.format('put b 2')}; mark two", "ldb", skip="LOG*"),
    Row("Kyoto Cabinet", MAPPED, "cc kclangc.h", judge=READ, mapped=True, build="mapped.c -DKYOTO -lkyotocabinet"),
    Row("Tokyo Cabinet", MAPPED, "cc tchdb.h", judge=READ, mapped=True, build="mapped.c -DTOKYO -ltokyocabinet"),
    Row("Redis", REDIS.format("--appendonly yes", "redis-cli -s $OUTSIDE/socket bgrewriteaof >/dev/null; sleep 1"), "redis-server redis-cli"),
    Row("PostgreSQL --single", POSTGRES, "initdb setpriv", POSTGRES_BASE),
    Row("etcd", ETCD, "etcd curl", mapped=False),
    Row("dpkg's own", f"{DPKG}; dpkg --root=$FILES --force-not-root --force-script-chrootless --log=$OUTSIDE/log -r it >/dev/null", "dpkg dpkg-deb", DPKG_BASE, PACKAGE),
    Row("Maildir and mbox of Python", f"python3 -c \"{MAIL}\"", "python3"),
    Row("journald", f"{REMOTE} -o $FILES/it.journal $OUTSIDE/it.export", REMOTE, outside=f"printf '{JOURNAL}' >it.export", mapped=True),
]
for it in DATABASES:
    it.list = "database"


def lacking(row):
    """What a row wants that isn't there."""
    headers = [it for it in row.wants.split() if it.endswith(".h")]
    commands = [it for it in row.wants.split() if not it.endswith(".h") and shutil.which(it, path=PATH) is None]
    return commands + [it for it in headers if not any(Path(folder, it).exists() for folder in ("/usr/include", "/usr/local/include"))]


def surroundings(folder, row, at):
    """The environment of the scripts of a row."""
    home = folder / "home"
    if not home.exists():
        home.mkdir()
        (home / ".gitconfig").write_text("[user]\n\tname = it\n\temail = it@it\n[gc]\n\tautoDetach = false\n[safe]\n\tdirectory = *\n")
    return {**os.environ, "HOME": str(home), "PATH": PATH, "OUTSIDE": f"{at}.outside", "BUILT": f"{at}.program", "LC_ALL": "C", "CRASHBPF": PROGRAM}


def made(script, at, environment):
    """Runs a script that makes a folder. Returns the folder."""
    at = Path(at)
    shutil.rmtree(at, ignore_errors=True)
    at.mkdir()
    done = subprocess.run(["sh", "-c", f"set -e; {script or ':'}"], cwd=at, env=environment, capture_output=True, text=True, timeout=SECONDS)
    if done.returncode:
        sys.exit(f"{at}: {done.stderr}")
    return at


def recorded(folder, row):
    """Records a row, unless that was done. Returns the folder of the recording, and what was said."""
    out = folder / row.folder_name()
    said, environment = Path(f"{out}.said"), surroundings(folder, row, out)
    if (out / "writes.log").exists():
        return out, said.read_text()
    if row.build:
        name, *words = row.build.split()
        subprocess.run(["cc", "-O1", "-o", f"{out}.program", TOP / "tests/programs" / name, *words], check=True)
    made(row.outside, f"{out}.outside", environment)
    options = ["--files", "ext4", *(["--mapped"] if row.mapped else []), *(["--skip", row.skip] if row.skip else [])]
    if row.base:
        options += ["--base", made(row.base, f"{out}.base", environment)]
    words = [RECORD, *options, out, "--", "sh", "-c", f"set -e; cd $FILES; {row.program}"]
    try:
        done = subprocess.run(words, env=environment, stdin=subprocess.DEVNULL, capture_output=True, text=True, errors="replace", timeout=SECONDS)
        said.write_text(f"status {done.returncode}\n{done.stdout}{done.stderr}")
    except subprocess.TimeoutExpired:
        said.write_text(f"crashbpf-record: not done after {SECONDS} seconds\n")
    return out, said.read_text()


def judged(folder, row, out):
    """What the images of a recording come to: in words, and whether one fails."""
    if not row.judge or not os.path.exists(PROGRAM):
        return "-", None
    environment = surroundings(folder, row, out)
    known = json.loads((out / "recording.json").read_text())
    words = ["--sectors", str(known["sectors"]), *(["--large"] if known["large"] else []), *(["--base", out / known["base"]] if known["base"] else [])]
    for cuts in ("all", "mark"):
        counted = subprocess.run([PROGRAM, "images", out / "writes.log", *words, "--by", "write", "--cuts", cuts], capture_output=True, text=True)
        found = re.search(r"(?m)^total (\d+)", counted.stdout)
        if found and 0 < int(found[1]) <= MOST:
            break
    else:
        return f"not judged: it has more than {MOST} images, and no fewer at marks" if found else f"not judged: {counted.stderr.strip()}", None
    (out / "crashbpf-each.state").unlink(missing_ok=True)
    command = [EACH, "-j", "2", "--bound", "1", "--cuts", cuts, out, "--", "sh", "-c", row.judge]
    done = subprocess.run(command, cwd=out, env=environment, capture_output=True, text=True, errors="replace")
    total = re.search(r"(?m)^images (\d+) failing (\d+) ", done.stdout)
    if not total:
        return f"not judged: {done.stderr.strip()}", None
    return f"{total[2]} of {total[1]} fail, cuts {cuts}", total[2] != "0"


def came(folder, row):
    """What a row comes to: the columns of its line, and what is stored of it, or nothing where it couldn't be run."""
    missing = lacking(row)
    if missing:
        return ["can't be run here", f"there is no {', '.join(missing)}"], None
    out, said = recorded(folder, row)
    if not (out / "writes.log").exists():
        last = [it for it in said.splitlines() if it.startswith("crashbpf-record: ")]
        return ["refused", (last or said.splitlines() or ["nothing was said"])[-1].replace(str(folder), "..")], "refused"
    entries = re.search(r"(?m)^entries (\d+) ", said)[1]
    words, fails = judged(folder, row, out)
    status = re.match(r"status (\d+)", said)[1]
    with_options = (", --mapped" if row.mapped else "") + (f", --skip '{row.skip}'" if row.skip else "")
    ended = "" if status == "0" else f", but the program ended with status {status}"
    columns = [f"recorded{with_options}{ended}", f"{entries} entries", words]
    return columns, "recorded" + ("" if fails is None else ", fails" if fails else ", none fails")


def stored():
    """What the rows came to when that was stored, by their names."""
    lines = STORED.read_text().splitlines() if STORED.exists() else []
    return dict(it.rsplit(": ", 1) for it in lines if it)


def differs(found, was):
    """Whether a row is otherwise than stored, where both were judged or one wasn't."""
    return found.split(", ")[0] != was.split(", ")[0] or ", " in found and ", " in was and found != was


def main(words):
    is_stored, words = "--store" in words, [it for it in words if it != "--store"]
    if not words:
        sys.exit(__doc__)
    folder, known, found, wrong = Path(words[0]).resolve(), stored(), {}, 0
    folder.mkdir(exist_ok=True)
    counts = {kind: [0, 0] for kind in LEAST}
    for row in USES + DATABASES:
        if len(words) > 1 and words[1] not in row.name:
            continue
        columns, outcome = came(folder, row)
        print("| " + " | ".join([row.name, *columns]) + " |", flush=True)
        if outcome is None:
            continue
        counts[row.list][0] += outcome.startswith("recorded")
        counts[row.list][1] += 1
        found[row.name] = outcome
        if is_stored:
            STORED.write_text("".join(f"{name}: {it}\n" for name, it in {**known, **found}.items()))
        if row.name in known and differs(outcome, known[row.name]):
            print(f"otherwise than stored: {row.name}: {outcome}, and not {known[row.name]}", flush=True)
            wrong += 1
    for kind, (recorded_ones, run) in counts.items():
        total = len(USES if kind == "use" else DATABASES)
        print(f"{kind}: {recorded_ones} recorded of {run} that could be run, of {total}")
        wrong += recorded_ones < LEAST[kind] - (total - run)
    return wrong > 0


if __name__ == "__main__":
    sys.exit(main(sys.argv[1:]))
