#!/usr/bin/env python3
"""Tests commands/test/crashbpf-test: which sync it names, before which call, and that the program is right with it. A row is of all commands
that are scripts: in what they end by an error that isn't expected.

    python3 tests/gate/command.py [PROGRAM]

PROGRAM is as in run.py. Small programs lack a sync each, or make their calls in a wrong order: a shell script, one in C and one in
Python. What is told of each is known by hand. A row needs strace, and that of C a compiler; where these aren't there it is left out,
and a line says so.

Prints a line for each row that failed, and last `N passed, M failed`. It takes some half a minute.
"""
import html
import json
import os
import re
import shutil
import signal
import subprocess
import sys
import time
from pathlib import Path

sys.dont_write_bytecode = True

import rooms

rooms.enter()

from commands.each.served_mount import missing as unserved
from notation import TOP
from shells import differs, try_all

COMMAND = TOP / "commands/test/crashbpf-test"
# Whether every loss is judged here. The answer with most failing cases stands first, so the order hangs on it.
IS_SERVED = not unserved()
SAVING = TOP / "examples/saving"
AT_A_TIME = 2

# Appends to a log and counts in an index: the sync of the log is of the index instead, where WRONG is defined; and with RANGE no sync of the
# index is one.
APPENDS = """\
#define _GNU_SOURCE
#include <fcntl.h>
#include <stdio.h>
#include <stdlib.h>
#include <unistd.h>
static void mark(int n)
{
	char path[4096], line[40];
	snprintf(path, sizeof path, "%s/marks", getenv("RECORDING"));
	int file = open(path, O_WRONLY | O_APPEND), length = snprintf(line, sizeof line, "0 put-%d\\n", n);
	if (write(file, line, length) != length)
		exit(1);
	close(file);
}
static void sync_log(int log, int index)
{
#ifdef WRONG
	log = index;
#endif
	if (fdatasync(log))
		exit(1);
}
int main(void)
{
	if (chdir(getenv("FILES")))
		return 1;
	int log = open("log", O_RDWR | O_CREAT, 0644), index = open("index", O_RDWR | O_CREAT, 0644), folder = open(".", O_RDONLY);
	fsync(folder);
	for (int n = 1; n < 4; n++) {
		char record[64] = {0}, count[8] = {0};
		snprintf(record, sizeof record, "record %d", n);
		snprintf(count, sizeof count, "%d", n);
		if (pwrite(log, record, 64, 64 * n) != 64)
			return 1;
		sync_log(log, index);
		if (pwrite(index, count, 8, 0) != 8)
			return 1;
#ifdef RANGE
		sync_file_range(index, 0, 0, SYNC_FILE_RANGE_WRITE);
#else
		fdatasync(index);
#endif
		mark(n);
	}
	return 0;
}
"""
COUNTS = """\
n=$(tr -d '\\0' <index 2>/dev/null)
[ "${n:-0}" -ge "$CRASH_MARKS" ] || { echo "$n are counted"; exit 2; }
for it in $(seq 1 ${n:-0}); do
    [ "$(dd if=log bs=64 skip=$it count=1 2>/dev/null | tr -d '\\0')" = "record $it" ] || { echo "record $it isn't there"; exit 1; }
done
"""
# Syncs a file before what it wrote has left the buffer.
EARLY = """\
import json, os
files = os.environ["FILES"]
for n in range(1, 3):
    with open(files + "/config.tmp", "w") as file:
        json.dump({"n": n}, file)
        os.fsync(file.fileno())
    os.rename(files + "/config.tmp", files + "/config")
    folder = os.open(files, os.O_RDONLY)
    os.fsync(folder)
    with open(os.environ["RECORDING"] + "/marks", "a") as marks:
        marks.write(f"0 saved {n}\\n")
"""
READS = """\
import json, os, sys
print("reading")
if os.path.exists("config"):
    sys.exit(json.load(open("config"))["n"] < int(os.environ["CRASH_MARKS"]))
sys.exit(os.environ["CRASH_MARKS"] != "0")
"""
# Counts what isn't there yet.
COUNTS_FIRST = """\
import os
os.chdir(os.environ["FILES"])
log, index, folder = (os.open(name, os.O_RDWR | os.O_CREAT) if name != "." else os.open(".", os.O_RDONLY) for name in ("log", "index", "."))
os.fsync(folder)
for n in range(1, 3):
    os.pwrite(index, b"%d" % n, 0)
    os.fsync(index)
    os.pwrite(log, b"record %d\\n" % n, 64 * n)
    os.fsync(log)
    with open(os.environ["RECORDING"] + "/marks", "a") as marks:
        marks.write(f"0 saved {n}\\n")
"""
# A function without debug text makes the call: its caller's line is that of the call.
LINKED = """\
#include <fcntl.h>
#include <stdio.h>
#include <stdlib.h>
#include <unistd.h>
int put(const char *from, const char *to);
int main(void)
{
	char path[4096];
	snprintf(path, sizeof path, "%s/marks", getenv("RECORDING"));
	int marks = open(path, O_WRONLY | O_APPEND), file, folder;
	if (chdir(getenv("FILES")))
		return 1;
	file = open("new", O_WRONLY | O_CREAT, 0644);
	if (write(file, "text\\n", 5) != 5)
		return 1;
	put("new", "kept");
	folder = open(".", O_RDONLY);
	fsync(folder);
	return write(marks, "0 saved\\n", 8) != 8;
}
"""
HELPER = "#include <stdio.h>\n__attribute__((used)) static const char room[8192] = {1};\nint put(const char *from, const char *to) { return rename(from, to) ? -1 : 0; }\n"
# The folder isn't synced, and the check refuses what is there at first.
NEVER_EMPTY = """\
cd "$FILES"
for it in 1 2; do echo "version $it" >new; sync new; mv new settings; mark saved-$it; done
"""
REFUSES_FIRST = '[ -e settings ] || { echo there are none; exit 3; }; grep -q "version [$CRASH_MARKS-9]" settings || { echo "it is old"; exit 1; }'
# Stores in a mapped file, and makes nothing of it durable.
STORES = """\
import mmap, os
file = os.open(os.environ["FILES"] + "/db", os.O_RDWR | os.O_CREAT, 0o644)
os.ftruncate(file, 8192)
os.fsync(file)
os.fsync(os.open(os.environ["FILES"], os.O_RDONLY))
room = mmap.mmap(file, 8192)
for n in range(1, 3):
    room[4096:4097] = bytes([n])
    with open(os.environ["RECORDING"] + "/marks", "a") as marks:
        marks.write(f"0 saved {n}\\n")
"""
# For a moment there is no file of that name.
MOVES = """\
cd "$FILES"; echo 0 >cur; sync cur; sync .; mark begun
for it in 1 2; do echo $it >new; sync new; mv cur old; mv new cur; sync .; mark saved-$it; done
"""


def run(folder, words, program=(), command=(COMMAND,), **more):
    """Runs crashbpf-test with an answer for machines. Returns what it did, and that answer, or nothing where there is none."""
    words = [*command, "--json", "answer", *words, *(["--", *program] if program else [])]
    done = subprocess.run(words, cwd=folder, capture_output=True, text=True, stdin=subprocess.DEVNULL, env={**os.environ, "TMPDIR": folder}, **more)
    path = Path(folder, "answer")
    answer = json.loads(path.read_text()) if path.exists() else None
    path.unlink(missing_ok=True)
    left = [it.name for it in Path(folder).iterdir() if it.name.startswith("crashbpf")]
    return done, answer, [f"{it} is left" for it in left]


def missing(answer):
    """What an answer says is missing: what is to be synced, before which call and line, how often, and what is lost."""
    return [(it["name"], it["before"]["text"], it["before"]["where"], it["times"], it["lost"][0]["text"]) for it in answer["missing"]]


def at(name, text, piece):
    """The only line of a text that has a piece, as it is told."""
    (line,) = [number for number, it in enumerate(text.splitlines(), 1) if piece in it]
    return f"{name}:{line}"


# What of SARIF 2.1.0 (OASIS, 3.13 to 3.30) is there: of each kind of object its properties, with ! those that have to be there.
SARIF = {
    "log": {"$schema": str, "version!": "2.1.0", "runs!": ["run"]},
    "run": {"tool!": "tool", "results": ["result"]},
    "tool": {"driver!": "component"},
    "component": {"name!": str, "rules": ["rule"]},
    "rule": {"id!": str, "shortDescription": "message"},
    "result": {"ruleId": str, "level": str, "message!": "message", "locations": ["location"], "relatedLocations": ["location"]},
    "message": {"text!": str},
    "location": {"id": int, "physicalLocation": "physical", "message": "message"},
    "physical": {"artifactLocation!": "artifact", "region": "region"},
    "artifact": {"uri!": str},
    "region": {"startLine!": int},
}


def sarif_faults(it, kind="log"):
    """What of an object isn't as SARIF has it."""
    wanted = {name.rstrip("!"): (name[-1] == "!", value) for name, value in SARIF[kind].items()}
    found = [f"{kind} has {name}" for name in it if name not in wanted] + [f"{kind} lacks {name}" for name, (must, _) in wanted.items() if must and name not in it]
    for name, value in it.items():
        _, of = wanted.get(name, (False, object))
        if isinstance(of, list):
            found += [fault for one in value for fault in sarif_faults(one, of[0])]
        elif isinstance(of, type):
            found += [] if isinstance(value, of) else [f"{name} of {kind} is {value!r}"]
        else:
            found += sarif_faults(value, of) if of in SARIF else differs(f"{name} of {kind}", value, of)
    return found


def explains(what, folder, check, program, wanted, useless=()):
    """What is wrong with what is missing, with the syncs that don't count, and with the cure, which has to hold."""
    done, answer, found = run(folder, ["--check", check, "--sarif", "sarif"], program)
    if answer is None:
        return [f"{what}: {done.returncode}: {done.stderr}"]
    sarif = json.loads(Path(folder, "sarif").read_text())
    places = [it["locations"][0]["physicalLocation"] for it in sarif["runs"][0]["results"]]
    told = [f'{it["artifactLocation"]["uri"]}:{it["region"]["startLine"]}' for it in places]
    found += sarif_faults(sarif) + differs(f"where SARIF has what {what} lacks", told, [it[2] for it in wanted])
    found += differs(f"what {what} lacks", missing(answer), wanted) + differs(f"the status of {what}", done.returncode, 1 if wanted else 0)
    said = [(it["call"]["text"], it["why"]) for one in answer["missing"] for it in one["useless"]]
    found += differs(f"the syncs of {what} that don't count", said, list(useless))
    if wanted:
        tried = answer["tried"]
        found += differs(f"what fails of {what} with the syncs", (tried["failing"], tried["strict"]["failing"]), (0, 0))
    found += differs(f"how {what} is judged", (answer["tried"] or answer["explored"])["complete"], True)
    return found


def names_saving(folder):
    """What is wrong with what is said of the example that saves settings, with both syncs, with one of them, and with none."""
    text, found = (SAVING / "save.sh").read_text(), []
    of_file, of_folder = (f'[ "$1" != sync ] || sync "{it}"' for it in ("$FILES/new", "$FILES"))
    check = f"sh {SAVING}/check.sh"
    moved = ("new", 'rename("new", "settings")', at("it.sh", text, "mv "), 3, 'write("new", 2000 bytes at 0)')
    marked = ("", "mark saved-1", at("it.sh", text, "mark \"saved"), 3, 'rename("new", "settings")')
    for name, kept, wanted, useless in (
        ("both", text, [], ()),
        ("no sync of the file", text.replace(of_file, "true"), [moved], ()),
        ("no sync of the folder", text.replace(of_folder, "true"), [marked], ()),
        ("none", text.replace(of_file, "true").replace(of_folder, "true"), [moved, marked] if IS_SERVED else [marked, moved], ()),
    ):
        Path(folder, "it.sh").write_text(kept)
        found += explains(name, folder, check, ["sh", "it.sh", "sync"], wanted, useless)
    return found


def names_python(folder):
    """What is wrong with what is said of a sync that came before the write."""
    Path(folder, "early.py").write_text(EARLY)
    Path(folder, "reads.py").write_text(READS)
    wanted = [("config.tmp", 'rename("config.tmp", "config")', at("early.py", EARLY, "os.rename"), 2, 'write("config.tmp", 8 bytes at 0)')]
    useless = [('fsync("config.tmp")', 'came before write("config.tmp", 8 bytes at 0)')]
    return explains("a program in Python", folder, f"{sys.executable} reads.py", [sys.executable, "early.py"], wanted, useless)


def names_c(folder):
    """What is wrong with what is said of a program in C that syncs another file."""
    Path(folder, "it.c").write_text(APPENDS)
    Path(folder, "counts.sh").write_text(COUNTS)
    found = []
    promised = ("index", "mark put-1", at("it.c", APPENDS, "if (write("), 3, 'pwrite("index", 8 bytes at 0)')
    for name, words, wanted, useless in (
        ("C", [], [], []),
        ("C, no sync", ["-DRANGE"], [promised], [('sync_file_range("index")', "makes nothing durable: the disk may still hold it in its cache")]),
        ("C, another file", ["-DWRONG"], [("log", 'pwrite("index", 8 bytes at 0)', at("it.c", APPENDS, "pwrite(index"), 3, 'pwrite("log", 64 bytes at 128)')], [('fdatasync("index")', 'is of "index", and has nothing of "log"')]),
    ):
        subprocess.run(["cc", "-g", *words, "-o", "it", "it.c"], cwd=folder, check=True)
        found += explains(name, folder, "sh counts.sh", ["./it"], wanted, useless)
    return found


def names_order(folder):
    """What is wrong with what is said where no sync helps."""
    Path(folder, "moves.sh").write_text(MOVES)
    check = '[ -e cur ] || { [ ! -e old ] && [ "$CRASH_MARKS" = 0 ]; } || { echo there is no cur; exit 1; }'
    done, answer, found = run(folder, ["--check", check], ["sh", "moves.sh"])
    told = [(it["why"], it["after"]["text"], it["check"]["said"]) for it in answer["helpless"]]
    found += differs("what no sync helps against", told, [("nothing lost", 'rename("cur", "old")', "there is no cur\n")])
    text = 'Right after rename("cur", "old") it fails with nothing lost, until rename("new", "cur"): the calls are in the wrong order, or have to be one.'
    found += [] if text in " ".join(done.stdout.split()) else [f"it says {done.stdout}"]
    # (without the last sync of the folder that is missing too, and isn't hidden by the order)
    Path(folder, "moves.sh").write_text(MOVES.replace("sync .; mark saved", "mark saved"))
    again, answer, left = run(folder, ["--check", check], ["sh", "moves.sh"])
    found += left + differs("what is missing", [(it["name"], it["before"]["text"], it["lost"][0]["text"]) for it in answer["missing"]], [("", "mark saved-1", 'rename("new", "cur")')])
    found += differs("what no sync helps against then", [it["why"] for it in answer["helpless"]], ["nothing lost"])
    return found + differs("the statuses", (done.returncode, again.returncode), (1, 1))


def names_linked(folder):
    """What is wrong with the lines of a program that lld linked, whose segments begin within pages."""
    Path(folder, "it.c").write_text(LINKED)
    Path(folder, "helper.c").write_text(HELPER)
    subprocess.run(["cc", "-O1", "-fomit-frame-pointer", "-c", "helper.c"], cwd=folder, check=True)
    subprocess.run(["cc", "-O1", "-g", "-fomit-frame-pointer", "-fuse-ld=lld", "-o", "it", "it.c", "helper.o"], cwd=folder, check=True)
    wanted = [("new", 'rename("new", "kept")', at("it.c", LINKED, 'put("new"'), 1, 'write("new", 5 bytes at 0)')]
    return explains("a program of lld", folder, "[ ! -e kept ] || [ -s kept ]", ["./it"], wanted)


def names_move(folder):
    """What is wrong with what is said of a call that has to be made later."""
    Path(folder, "first.py").write_text(COUNTS_FIRST)
    Path(folder, "counts.sh").write_text(COUNTS)
    done, answer, found = run(folder, ["--check", "sh counts.sh"], [sys.executable, "first.py"])
    told = [(it["why"], it["after"]["text"], it["moved"]["after"]["text"], it["moved"]["stay"], it["moved"]["missing"]) for it in answer["helpless"]]
    wanted = ("nothing lost", 'pwrite("index", 1 bytes at 0)', 'fsync("log")', 0, ['fsync of "index" before each mark, 2 times'])
    text = 'Tried: moved after fsync("log"), no sync helps in none.'
    return found + differs("what is moved", told, [wanted]) + ([] if text in " ".join(done.stdout.split()) else [f"it says {done.stdout}"])


def names_first(folder):
    """What is wrong with what is said where the check refuses what is there at first: that is told last, and hides nothing else."""
    Path(folder, "never.sh").write_text(NEVER_EMPTY)
    done, answer, found = run(folder, ["--check", REFUSES_FIRST], ["sh", "never.sh"])
    wanted = [("", "mark saved-1", at("never.sh", NEVER_EMPTY, "mark "), 2, 'rename("new", "settings")')]
    found += differs("what is missing", missing(answer), wanted)
    found += differs("what no sync helps against", [(it["why"], it["after"], it["check"]["said"]) for it in answer["helpless"]], [("at first", None, "there are none\n")])
    text = 'While it is being made, before the first mark: 2 No sync helps in .* It fails on what \\$FILES has at first, with nothing lost, until rename\\("new", "settings"\\):'
    return found + ([] if re.search(text, " ".join(done.stdout.split())) else [f"it says {done.stdout}"])


def names_mapped(folder):
    """What is wrong with what is said of a program that stores in a mapped file: without --mapped how to record it, with it what it lacks."""
    Path(folder, "stores.py").write_text(STORES)
    check = '[ "$CRASH_MARKS" = 0 ] || [ "$(od -An -tu1 -j4096 -N1 db)" -ge "$CRASH_MARKS" ]'
    done, answer, found = run(folder, ["--check", check], [sys.executable, "stores.py"])
    found += differs("the answer without --mapped", (done.returncode, answer, "--mapped looks at" in done.stderr), (2, None, True))
    done, answer, left = run(folder, ["--check", check, "--mapped"], [sys.executable, "stores.py"])
    if answer is None:
        return [*found, f"with --mapped: {done.returncode}: {done.stderr}"]
    wanted = [("db", "mark saved 1", at("stores.py", STORES, "with open"), 2, 'stores to the mapped "db"')]
    found += differs("what is missing", [(*it[:2], wanted[0][2], *it[3:]) for it in missing(answer)], wanted)
    return found + left + differs("what fails with the syncs", (answer["tried"]["failing"], answer["tried"]["complete"]), (0, True))


def says_at_once(folder):
    """What is wrong where the check fails on what the program left, where there is no mark, and where a word is refused."""
    found = []
    Path(folder, "full/of").mkdir(parents=True)
    done, answer, left = run(folder, ["--check", "echo nothing there; false"], ["sh", "-c", 'echo x >"$FILES/x"; mark made'])
    said = "crashbpf-test: the check fails on what the program left, with nothing lost: status 1. It prints:\ncrashbpf-test:   nothing there\n"
    found += differs("what is said of such a check", (done.returncode, done.stderr, answer), (2, said, None)) + left
    done, answer, left = run(folder, ["--check", "[ ! -e x ] || [ -s x ]"], ["sh", "-c", 'echo x >"$1/x"', "sh", "{}"])
    found += left + ([] if "the program makes no mark" in done.stderr else [f"of a program without marks is said {done.stderr!r}"])
    for words, program, says in (
        (["--check", "true"], [], "after -- stands the program, or --recording names a folder"),
        (["--check", "true", "--recording", "."], [], r"\. is no folder of crashbpf-record"),
        ([], ["true"], "--check"),
        (["--check", "true", "--timeout", "0"], ["true"], "--timeout is"),
        (["--check", "true", "-j", "65"], ["true"], "it is 1 to 64"),
        (["--check", "true"], ["true"], "the program changed no file of its folder"),
        (["--check", "true"], ["/no/program"], "(strace|crashbpf-test): .*/no/program"),
        (["--check", "true", "--json", "absent/answer"], ["touch", "ran"], "absent/answer: No such file"),
        (["--check", "true", "--sarif", "."], ["touch", "ran"], r"\.: Is a directory"),
        (["--check", "true", "--keep", "full"], ["touch", "ran"], "full isn't empty"),
        (["--check", "true", "--mapped", "--recording", "."], [], "--mapped are for a program that is run"),
    ):
        done, answer, left = run(folder, words, program)
        found += left + differs(f"the status of {words}", done.returncode, 2) + ([] if re.search(says, done.stderr) else [f"{words} says {done.stderr!r}"])
    return found + (["a program is run whose answer can't be written"] if Path(folder, "ran").exists() else [])


def looks_elsewhere(folder):
    """What is wrong where a check takes whatever the folder has: it is told; and where it looks at its files, nothing is."""
    Path(folder, "kept").write_text("x\n")
    program, found = ["sh", "-c", 'echo x >"$FILES/kept"; sync "$FILES/kept" "$FILES"; mark made'], []
    for check, said in ((f"grep -q x {folder}/kept", True), ('[ "$CRASH_MARKS" = 0 ] || grep -q x kept', False)):
        done, _answer, left = run(folder, ["--check", check], program)
        found += left + differs(f"the status of {check}", done.returncode in (0, 3), True)
        found += differs(f"whether it is told of {check}", "the check takes an empty folder too" in done.stderr, said)
    return found


def means(folder):
    """What is wrong with which words of a check are files of the folder at hand."""
    from commands.test.judge import absolute

    for name in ("check.sh", "kept", "data"):
        Path(folder, name).touch()
    Path(folder, "in").mkdir()
    rows = {
        "sh check.sh": f"sh {folder}/check.sh",
        "./check.sh kept ./kept .": f"{folder}/./check.sh kept ./kept .",
        "cmp data kept": f"cmp {folder}/data kept",
        "ls in .. absent /etc": "ls in .. absent /etc",
        "sh check.sh; cat data": "sh check.sh; cat data",
        "sh 'check.sh'": "sh 'check.sh'",
        "sh  check.sh": "sh  check.sh",
    }
    return [fault for check, wanted in rows.items() for fault in differs(check, absolute(check, folder, {b"kept", b"other"}), wanted)]


def keeps(folder):
    """What is wrong with what --keep keeps, and with a run that goes on from its recording."""
    found, kept = [], Path(folder, "kept")
    words = ["--check", f"sh {SAVING}/check.sh", "--no-cure"]
    done, answer, left = run(folder, [*words, "--keep", "kept", "--page", "page"], ["sh", SAVING / "save.sh"])
    page = Path(folder, "page").read_text()
    heads = ['"new" before rename(', "the folder before each mark"]
    heads = [f"<h2>{number}&ensp;fsync of {html.escape(it)}" for number, it in enumerate(heads if IS_SERVED else heads[::-1], 1)]
    lanes = re.findall("<tr><th>(.*?)</th>(.*?)</tr>", page)
    found += differs("what the page lacks", [it for it in heads if it not in page], []) + differs("what it takes from elsewhere", re.findall("src=|href=|url\\(", page), [])
    found += differs("its lanes", [it[0] for it in lanes], ["answer", "names", "new"])
    found += differs("how often something is lost, or an answer is told, in each", [(it[1].count("class=lost"), it[1].count("<b>")) for it in lanes], [(0, 6), (3, 0), (3, 0)])
    for number, it in enumerate(answer["missing"], 1):
        again = subprocess.run(["sh", kept / str(number) / "again"], cwd="/", env={**os.environ, "TMPDIR": folder}).returncode
        found += differs(f"what {number} ends in again", f"status {again}", it["check"]["ended"])
        found += differs(f"where {number} is kept", it["check"]["kept"], f"kept/{number}/files")
        found += [] if f"kept: kept/{number}/files" in done.stdout else [f"{number} isn't told: {done.stdout}"]
    again, other, more = run(folder, [*words, "--recording", "kept/recording"])
    found += differs("what is missing", [missing(it) for it in (answer, other)], [missing(other)] * 2)
    strict, other, more = run(folder, [*words, "--files", "strict", "--recording", "kept/recording"])
    found += differs("the table", (other["table"], bool(other["missing"])), ("strict", True))
    return found + left + more + differs("the statuses", [it.returncode for it in (done, again, strict)], [1, 1, 1])


def ends_well(folder):
    """What is wrong where it is ended by a signal: nothing is left, and what was found is told."""
    words = [COMMAND, "--check", f"sleep 0.3; sh {SAVING}/check.sh", "--", "sh", SAVING / "save.sh"]
    running = subprocess.Popen(words, cwd=folder, stdout=subprocess.PIPE, stderr=subprocess.PIPE, text=True, env={**os.environ, "TMPDIR": folder})
    running.stdout.readline()
    time.sleep(0.5)
    running.send_signal(signal.SIGTERM)
    printed, said = running.communicate()
    found = differs("the status", running.returncode, 2) + ([] if "stopped" in said else [f"it says {said!r}"])
    found += [f"{it} is left" for it in Path(folder).iterdir()]
    # (while it imports what it needs)
    Path(folder, "argparse.py").write_text("import os, signal\nos.kill(os.getpid(), signal.SIGINT)\n")
    done = subprocess.run([COMMAND, "--help"], capture_output=True, text=True, env={**os.environ, "PYTHONPATH": folder})
    return found + differs("what is said of an early signal", (done.returncode, done.stderr), (2, "crashbpf-test: stopped before anything was found\n"))


def agrees(folder):
    """What is wrong with the images that are made here: each is that of `crashbpf export`, with losses and tears."""
    from commands.each import product
    from commands.each.stream import RECORD, SECTOR, images, inputs
    from commands.record import traced
    from commands.test.explore import lost_of
    from commands.test.source import Source

    made = Path(folder, "made")
    made.mkdir()
    traced.record(str(made), None, [], ["sh", str(SAVING / "save.sh")], traced.surroundings(str(made)), print, "writeback")
    log = Source(str(made)).log("writeback", [(10**6, ("folder", 0))])
    given = [*log.write(folder, next(log.stretches())), "--bound", "1", "--tears"]
    total = int(subprocess.run(["crashbpf", "images", *given], capture_output=True, text=True).stdout.split()[-1])
    export, device, wrong = product.Export("crashbpf", given), bytearray(log.base), []
    inputs(export.file)
    for it in images(export.file, log.sectors, total):
        for at in range(0, len(it.records or b""), RECORD):
            start = SECTOR * int.from_bytes(it.records[at : at + 8], "little")
            device[start : start + SECTOR] = it.records[at + 8 : at + RECORD]
        if it.same is None and log.image(it.cut, lost_of(it.choice.decode())) != device:
            wrong.append(f"cut {it.cut} choice {it.choice.decode()}")
    export.close()
    return [f"{len(wrong)} of {total} images differ, as {wrong[0]}"] if wrong else []


# The command that is named, where a log has few entries.
FEW = """\
import runpy, sys
command = runpy.run_path(sys.argv[1], run_name="command")
sys.modules["commands.record.logs"].split.__defaults__ = (16,)
sys.exit(command["main"](sys.argv[2:]))
"""
# One folder isn't synced of six.
SAVES = """\
for it in 1 2 3 4 5 6; do
    yes "version $it" | head -n 200 >"$FILES/new"; sync "$FILES/new"
    mv "$FILES/new" "$FILES/settings"; [ $it = 4 ] || sync "$FILES"; mark saved-$it
done
"""


def takes_several_logs(folder):
    """What is wrong where what was recorded is several logs for crashbpf: by any number of losses and by one it says what it says of one log."""
    Path(folder, "it.sh").write_text(SAVES)
    few, found = (sys.executable, "-c", FEW, str(COMMAND)), []
    for options in ([], ["--bound", "1"]):
        words = ["--check", f"sh {SAVING}/check.sh", *options]
        (one, wanted, _), (done, answer, left) = (run(folder, words, ["sh", "it.sh"], it) for it in ((COMMAND,), few))
        if wanted is None or answer is None:
            return [f"{options}: {one.stderr} {done.stderr}"]
        found += left + differs(f"what is missing, {options}", missing(answer), missing(wanted)) + differs("the status", done.returncode, one.returncode)
        found += differs(f"how often, {options}", answer["explored"]["failing"], wanted["explored"]["failing"]) + differs("missing", len(missing(wanted)), 1)
        found += differs(f"the cure, {options}", [it["tried"]["failing"] for it in (answer, wanted)], [0, 0])
    return found


# Of each command the file of its function main, and a module that it imports.
OF_COMMANDS = {
    "each/crashbpf-each": ("each/crashbpf-each", "each/product.py"),
    "test/crashbpf-test": ("test/crashbpf-test", "test/page.py"),
    "record/crashbpf-record": ("record/crashbpf-record", "record/device.py"),
    "record/crashbpf-files": ("record/laying.py", "record/laying.py"),
    "cc/crashbpf-cc": ("cc/crashbpf-cc", "cc/against.py"),
}


def ends_unexpected(folder):
    """What is wrong where a command has an error that nothing expects, as it is imported or as it runs: the status is 2, and the last line
    says so."""
    found = []
    for command, (has_main, imported) in OF_COMMANDS.items():
        for file, planted in ((has_main, r"^def main\(.*\):\n(    \"\"\".*\n)?"), (imported, r"^import os\n")):
            copy, name = Path(folder, "commands"), Path(command).name
            shutil.copytree(TOP / "commands", copy)
            text, count = re.subn(planted, lambda it: f"{it[0]}{'    ' * it[0].startswith('def')}{{}}['planted']\n", (copy / file).read_text(), flags=re.M)
            (copy / file).write_text(text)
            done = subprocess.run([copy / command, "a", "b"], cwd=folder, capture_output=True, text=True, stdin=subprocess.DEVNULL)
            last = f"{name}: it ends without an answer, by an error that isn't expected: KeyError: 'planted'"
            says = "Traceback (most" in done.stderr, done.stderr.endswith(f"\n{last}\n")
            found += differs(f"the end of {name} with an error in {file}: {done.stderr}", (count, done.returncode, done.stdout, *says), (1, 2, "", True, True))
            shutil.rmtree(copy)
    return found


def rows():
    """Yields the name of each row and what looks at it."""
    yield "errors that aren't expected", ends_unexpected
    if not shutil.which("strace"):
        print("not run: all other rows, since there is no strace")
        return
    yield "the example that saves settings", names_saving
    yield "a program in Python", names_python
    if shutil.which("cc"):
        yield "a program in C", names_c
    else:
        print("not run: a program in C, since there is no cc")
    yield "calls in a wrong order", names_order
    if shutil.which("cc") and shutil.which("ld.lld"):
        yield "a program of lld", names_linked
    else:
        print("not run: a program of lld, since there is no cc or no ld.lld")
    yield "a call to be moved", names_move
    yield "a check that refuses the beginning", names_first
    yield "a mapped file", names_mapped
    yield "what is said at once", says_at_once
    yield "a check that looks elsewhere", looks_elsewhere
    yield "words of the check", means
    yield "what is kept", keeps
    yield "signals", ends_well
    yield "images", agrees
    yield "several logs", takes_several_logs


if __name__ == "__main__":
    sys.exit(try_all(sys.argv[1:], rows(), AT_A_TIME))
