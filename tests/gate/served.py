#!/usr/bin/env python3
"""Tests `crashbpf-each --bound any` with programs that behave and with hostile ones, and runs that are killed.

    python3 tests/gate/served.py [PROGRAM]

PROGRAM is as in run.py. What is printed is compared with the model known_model.py by a checker that looks at the same bytes. A hostile
program ends in its verdict or in a line that says why, and no mount, process or folder is left. Where images can't be served, as where there
is no FUSE, that is all that is tested: that it is refused with what is missing. A line says that the rest wasn't run.

Prints a line for each row that failed, and last `N passed, M failed`. It takes some 75 seconds of the processor, three rows at a time.
"""
import os
import re
import shutil
import signal
import subprocess
import sys
import time
from pathlib import Path

sys.dont_write_bytecode = True

import rooms

rooms.enter()

import known_model
from cases_model import ANY, Losses, cases
from cases_model import status as status_of
from commands.each.served_mount import missing
from commands.each.words import parse
from commands.shared.faults import Refusal
from known_model import Ended
from model import Checker, Run
from notation import TOP, D, F, M, W, log
from shells import differs, kill_at, try_all, wait_for_lines

EACH = TOP / "commands/each/crashbpf-each"
MACHINES, RECOVERY = TOP / "examples/many_machines", TOP / "examples/recovery"
SMALL = Run([W(0, 2, 1), W(2, 1, 2), F, W(1, 2, 3), M("one"), W(3, 1, 4), W(0, 1, 5), F, M("two"), D(0, 2)])
# Commits, each of a sector and a header that names it, without the flushes that they need.
COMMITS, MORE_COMMITS = (Run([it for number in range(1, last + 1) for it in (W(number, 1, number), W(0, 1, number))], sectors=sectors) for last, sectors in ((6, 8), (12, 16)))
WORDS, USUAL = ["disk.log", "--sectors", "4", "--bound", "any"], ["disk.log", "--sectors", "4"]
OF_COMMITS = ["disk.log", "--sectors", "8", "--bound", "any"]
RECORDS = "crashbpf-each.known"
# Another user.
NOBODY = 65534
# How many rows are tried side by side.
AT_A_TIME = 3

# Reads the first byte of sector 3, or where that is 0 those of the sectors 0 and 1.
JUDGE = """\
import os, sys
file = os.open(sys.argv[1], os.O_RDONLY)
def byte(sector):
    return os.pread(file, 1, 512 * sector)[0]
marks = int(os.environ["CRASH_MARKS"])
assert "CRASH_CUT" not in os.environ and "CRASH_CHOICE" not in os.environ
found = byte(3) or byte(0) + byte(1)
sys.exit(found % 3 if marks < 2 else found % 2)
"""


# The sector that the header names has to be there; where the program is told so a header of 4 is never good.
COMMITTED = """\
import os, sys
file = os.open(sys.argv[1], os.O_RDONLY)
def byte(sector):
    return os.pread(file, 1, 512 * sector)[0]
header = byte(0)
sys.exit(header != 0 and (byte(header) != header or len(sys.argv) > 2 and header == 4))
"""
# It looks at the header and the sector that this names, and never fails.
GOOD_HEADER = COMMITTED.replace("sys.exit(", "sys.exit(0 * (").rstrip() + ")\n"
# The same judge as JUDGE, as one that stays; with a word it does something else at its fourth image.
STAYS = """\
import os, sys
import stay
assert not any(it in os.environ for it in ("CRASH_CUT", "CRASH_CHOICE", "CRASH_MARKS", "CRASH_IMAGE"))
turn = 0
def check(path, marks):
    global turn
    turn += 1
    file = os.open(path, os.O_RDONLY)
    byte = lambda sector: os.pread(file, 1, 512 * sector)[0]
    found = byte(3) or byte(0) + byte(1)
    os.close(file)
    if len(sys.argv) > 1 and turn == 4:
        exec(sys.argv[1])
    return found % 3 if marks < 2 else found % 2
stay.judge(check)
"""
# Judges as COMMITTED does, and says in a file how often it was started. Without the module it says that it makes copies, and makes none.
STARTED = """\
import itertools, os, sys
import stay
with open("starts", "a") as file:
    file.write("x")
def check(path, marks):
    file = os.open(path, os.O_RDONLY)
    byte = lambda sector: os.pread(file, 1, 512 * sector)[0]
    found = byte(0) != 0 and byte(byte(0)) != byte(0)
    os.close(file)
    return int(found)
if len(sys.argv) == 1:
    stay.judge(check)
for line in itertools.chain(["\\n"], sys.stdin):
    print(f"copy {sys.argv[1]}" if line == "\\n" else check(*line.split()), flush=True)
"""


def judge(view):
    """What that program ends in."""

    def byte(sector):
        return view.sector(sector)[0]

    found = byte(3) or byte(0) + byte(1)
    return Ended(f"answer {found % 3 if view.marks() < 2 else found % 2}")


def put(folder, program=JUDGE, run=SMALL):
    Path(folder, "disk.log").write_bytes(log(run.recorded))
    Path(folder, "judge.py").write_text(program)


def started(folder, *words, program=("python3", "judge.py", "{}"), usual=WORDS):
    """Starts crashbpf-each."""
    surroundings = {**os.environ, "CRASH_CUT": "7", "TMPDIR": str(Path(folder, "runs"))}
    Path(folder, "runs").mkdir(exist_ok=True)
    pipes = {"stdin": subprocess.DEVNULL, "stdout": subprocess.PIPE, "stderr": subprocess.PIPE}
    return subprocess.Popen([EACH, *usual, *words, "--", *program], cwd=folder, env=surroundings, text=True, start_new_session=True, **pipes)


def each(folder, *words, program=("python3", "judge.py", "{}"), usual=WORDS):
    """Runs crashbpf-each. Returns its status and what it printed on both outputs."""
    running = started(folder, *words, program=program, usual=usual)
    try:
        printed, said = running.communicate(timeout=300)
    except subprocess.TimeoutExpired:
        os.kill(running.pid, signal.SIGTERM)
        printed, said = running.communicate()
        said += "it took too long"
    return running.returncode, printed, said


def left(folder):
    """The mounts and folders of runs that are left."""
    mounts = [it for it in Path("/proc/self/mountinfo").read_text().splitlines() if str(folder) in it]
    return [*mounts, *(it.name for it in Path(folder, "runs").iterdir())]


def expected(run, losses, total, program="python3 judge.py {}"):
    about = f"outside {program}\nsum {total}"
    return str(cases(run, [Checker(about, judge, of_records=True)], losses, known_model.inputs_of(run)))


def sum_in(text):
    return next((it.removeprefix("sum ") for it in text.splitlines() if it.startswith("sum ")), "")


def test_texts(folder):
    """The text is that of the model, for any number of runners, with tears, stops, ranges, flushes and by write."""
    put(folder)
    found = []
    asked = [((), SMALL, ANY), (("--stop-at-failing",), SMALL, Losses(at_failing=True)), (("--cases", "2"), SMALL, Losses(cases=2))]
    asked.append((("--tears", "--to", "2"), Run(SMALL.recorded, tears=True, last=2), ANY))
    asked.append((("--by", "write", "--flush", "5", "--from", "2", "--to", "9"), Run(SMALL.recorded, by="write", flush=(5,), first=2, last=9), ANY))
    for runners, (words, run, losses) in zip("41414", asked):
        status, printed, said = each(folder, "-j", runners, *words)
        wanted = expected(run, losses, sum_in(printed))
        found += differs(f"the text with {words}", printed, wanted)
        found += differs(f"the status with {words}: {said}", status, status_of(wanted))
    return found + differs("what is left", Path(folder, RECORDS).exists(), False)


def test_resumed(folder):
    """A run that is killed goes on with its records, and not with another program."""
    put(folder, JUDGE.replace("import os, sys", "import os, sys, time; time.sleep(0.4)"))
    kill_at(started(folder, "-j", "1"), Path(folder, RECORDS), "ran ", 3)
    found = differs("what is left of it", left(folder), [])
    with Path(folder, RECORDS).open("a") as file:
        file.write("ran cut 3 cho")
    _status, printed, said = each(folder, "--resume", program=("python3", "./judge.py", "{}"))
    found += differs("with other words", (printed, "is of another program or its words" in said), ("", True))
    text = Path(folder, "judge.py").read_text()
    Path(folder, "judge.py").write_text(text + "#\n")
    _status, printed, said = each(folder, "--resume")
    found += differs("with another program", (printed, "or a file that its words name" in said), ("", True))
    Path(folder, "judge.py").write_text(text)
    _status, printed, said = each(folder, "--resume")
    return found + differs(f"the text: {said}", printed, expected(SMALL, ANY, sum_in(printed)))


def test_killed(folder):
    """A run ends with a line where its server is killed, or its mount is taken away, and leaves nothing."""
    put(folder, JUDGE.replace("import os, sys", "import os, sys, time; time.sleep(0.4)"))
    running = started(folder, "-j", "2")
    wait_for_lines(Path(folder, RECORDS), "ran ", 1)
    children = [int(it) for it in Path(f"/proc/{running.pid}/task/{running.pid}/children").read_text().split()]
    os.kill(min(children), signal.SIGKILL)
    _printed, said = running.communicate(timeout=60)
    found = differs(f"what is said: {said}", "the server of the images has ended" in said, True)
    return found + differs("what is left", left(folder), [])


def lines_of(text, beginning):
    return [it for it in text.splitlines() if it.startswith(beginning)]


def test_cured(folder):
    """A cure finds the flushes that are missing and no other, whether it begins anew with one loss or not, and says what none cures."""
    put(folder, COMMITTED, COMMITS)
    needed = [f"flush before {2 * it + 1}" for it in range(6)]
    status, printed, said = each(folder, "--cure", usual=OF_COMMITS)
    found = differs(f"the flushes: {printed} {said}", (status, lines_of(printed, "flush before ")), (1, needed))
    found += differs("the totals", printed.splitlines()[-1:] and printed.endswith(" open 0 stopped 0 complete\n"), True)
    found += differs("the rounds of one loss", bool([it for it in lines_of(printed, "round ") if " one loss " in it]), True)
    found += differs("what is tried without", len(lines_of(printed, "without ")) >= 6, True)
    status, printed, said = each(folder, "--cure", "--to", "4", usual=OF_COMMITS)
    found += differs(f"the flushes of a few: {said}", (status, lines_of(printed, "flush before ")), (1, needed[:2]))
    status, printed, said = each(folder, "--cure", "--flush", "1,3,5,7,9,11", usual=OF_COMMITS)
    found += differs(f"where none is missing: {said}", (status, lines_of(printed, "flush before ")), (0, []))
    status, printed, said = each(folder, "--cure", program=("python3", "judge.py", "{}", "strict"), usual=OF_COMMITS)
    found += differs(f"what no flush cures: {printed} {said}", (status, bool(lines_of(printed, "no flush cures cut "))), (1, True))
    return found + differs("what is left", left(folder), [])


def test_unserved(folder):
    """Where no image can be served every loss is refused with what is missing. Where no bound was given one loss is judged, and it is said."""
    put(folder)
    hidden = ["unshare", "-m", "sh", "-c", 'mount --bind /dev/null /dev/fuse && exec "$@"', "sh"] if not missing() else []
    call = lambda *words: subprocess.run([*hidden, EACH, *words], cwd=folder, capture_output=True, text=True, stdin=subprocess.DEVNULL)
    found = []
    for words in (WORDS, [*USUAL, "--cure"], [*USUAL, "--part", "1/2"]):
        done = call(*words, "--", "python3", "judge.py", "{}")
        found += differs(f"where it was asked for: {done.stderr}", (done.returncode, done.stdout, "can't be had: " in done.stderr), (2, "", True))
    for judge, status in ((["true"], 3), (["false"], 1)):
        done = call(*USUAL, "--", *judge)
        says = "note: one loss at a time was judged, as by --bound 1, since every loss can't be: " in done.stderr and "can't be had: " in done.stderr
        found += differs(f"without a bound: {done.stderr}", (done.returncode, says), (status, True))
        bound = call(*USUAL, "--bound", "1", "--", *judge)
        found += differs(f"with a bound of 1: {bound.stderr}", (bound.returncode, bound.stdout), (0 if status == 3 else 1, done.stdout))
    if shutil.which("strace"):
        done = tested(folder, "", hidden)
        says = "a crash may lose more; every loss can't be judged: " in done.stdout and "can't be had: " in done.stdout
        found += differs(f"what crashbpf-test says: {done.stdout}", (done.returncode, says), (1, True))
    return found


# What runs a program as another user, with a device that each user may open; with a word before it without fusermount3.
AS_USER = """\
mknod -m 666 fuse c 10 229 && mount --bind fuse /dev/fuse && rm fuse || exit 1
[ "$1" = with ] || mount --bind /dev/null "$(command -v fusermount3)" || exit 1
shift
exec "$@"
"""


# What stands in place of crashbpf: it exports the same images always, or ends in another way.
SAME_AGAIN = """\
#!/bin/sh
[ "$1" = export ] || exec crashbpf "$@"
[ -e text ] || crashbpf "$@" >text
cat text
"""
ENDS_EARLY = """\
#!/bin/sh
[ "$1" = export ] || exec crashbpf "$@"
crashbpf "$@" | head -c 20
exit 7
"""


def test_asked(folder):
    """Where crashbpf wants what is known, or its text is cut off, it is refused."""
    put(folder)
    found = []
    for text, wanted in ((SAME_AGAIN, "wants images that records tell"), (ENDS_EARLY, "what crashbpf export printed is cut off")):
        Path(folder, "other").write_text(text)
        Path(folder, "other").chmod(0o755)
        done = subprocess.run([EACH, *WORDS, "--", "python3", "judge.py", "{}"], cwd=folder, capture_output=True, text=True, stdin=subprocess.DEVNULL, env={**os.environ, "CRASHBPF": "./other"})
        found += differs(f"what is said: {done.stderr}", (done.returncode, done.stdout, wanted in done.stderr), (2, "", True))
        Path(folder, RECORDS).unlink(missing_ok=True)
    return found


def test_users(folder):
    """Without root the mount is made by fusermount3, and without that in a user namespace."""
    if os.getuid() != 0 or not shutil.which("fusermount3") or subprocess.run(["test", "-r", EACH], user=NOBODY, group=NOBODY, extra_groups=[]).returncode:
        print("not run: mounts of another user, which need root, fusermount3, and scripts that such a user may read")
        return []
    put(folder)
    os.chmod(folder, 0o777)
    runs, found = Path(folder, "runs"), []
    runs.mkdir()
    runs.chmod(0o777)
    for way in ("with", "without"):
        words = ["unshare", "-m", "sh", "-c", AS_USER, "sh", way, "setpriv", f"--reuid={NOBODY}", f"--regid={NOBODY}", "--clear-groups"]
        done = subprocess.run([*words, EACH, *WORDS, "--", "python3", "judge.py", "{}"], cwd=folder, capture_output=True, text=True, stdin=subprocess.DEVNULL, env={**os.environ, "TMPDIR": str(runs)})
        found += differs(f"{way} fusermount3: {done.stderr}", (done.returncode, done.stdout), (1, expected(SMALL, ANY, sum_in(done.stdout))))
    return found + differs("what is left", left(folder), [])


def test_bounds(folder):
    """Without a bound it is every loss, but with an option of images, which is said; and --runs ends the search of all cases."""
    put(folder)
    usual, any_number = (each(folder, usual=words) for words in (USUAL, WORDS))
    found = differs(f"without a bound: {usual[2]}", usual[:2], any_number[:2])
    for option in ("--first", "--read-only"):
        status, printed, said = each(folder, option, usual=USUAL, program=["true"])
        found += differs(f"with {option}: {said}", (status, " bound 1 " in printed, f"can't be: {option} is of images" in said), (3, True, True))
    stopped = each(folder, "--stop-at-failing")[:2]
    for count, wanted in (("1000", any_number[:2]), ("1", stopped), ("3", stopped)):
        status, printed, said = each(folder, "--runs", count)
        found += differs(f"the text with --runs {count}: {said}", (status, printed), wanted)
    return found


def refused(words):
    """What words are refused with, or that they aren't."""
    try:
        parse([*words, "--", "true"])
    except Refusal as fault:
        return str(fault)
    return "nothing"


def test_options(_folder):
    """What doesn't stand beside it, or without it, is refused."""
    wrong = (
        ("of images", [*WORDS, "--first"], [*WORDS, "--read-only"]),
        ("beside --cure", [*WORDS, "--cure", "--cases", "2"], [*WORDS, "--cure", "--part", "1/2"], [*WORDS, "--cure", "--cuts", "all"], [*USUAL, "--cure", "--runs", "9"]),
        ("is 1 to ", [*WORDS, "--cases", "0"], [*WORDS, "--part", "3/2"], [*USUAL, "--bound", "1", "--part", "1/4097"], [*WORDS, "--spot", "0"], [*WORDS, "--runs", "0"]),
        ("with --bound any", *([*USUAL, "--bound", "1", *it] for it in (["--cure"], ["--at-most", "1"], ["--spot", "2"], ["--stay"], ["--runs", "9"]))),
        ("of images, and with --bound any", [*USUAL, "--first", "--cure"]),
    )
    return [it for says, *rows in wrong for words in rows for it in differs(f"{words} refused with {refused(words)}", says in refused(words), True)]


def test_parts(folder):
    """Parts are judged by processes, one of which is killed and taken up again; put together they come to the text of the run."""
    put(folder, JUDGE.replace("import os, sys", "import os, sys, time; time.sleep(0.2)"))
    surroundings = {**os.environ, "EACH": str(EACH)}
    sh = lambda text: subprocess.run(["sh", "-c", text, "sh", MACHINES], cwd=folder, env=surroundings, capture_output=True, text=True)
    done = sh(f'"$1"/lay_out_each run 3 {" ".join(WORDS)} -j 1 -- python3 judge.py {{}}')
    found = differs(f"the status of lay_out_each: {done.stderr}", done.returncode, 0)
    running = [subprocess.Popen([f"{folder}/run/run_part", f"{folder}/run", str(it)], env=surroundings, stderr=subprocess.PIPE) for it in (1, 2, 3)]
    kept = Path(folder, "run/kept.1/known")
    wait_for_lines(kept, "ran ", 1, 120)
    children = Path(f"/proc/{running[0].pid}/task/{running[0].pid}/children").read_text().split()
    os.kill(int(children[0]), signal.SIGKILL)
    found += differs("the statuses", [it.wait() for it in running], [2, 0, 0])
    done = sh('"$1"/join_each run')
    found += differs("what is missing", (done.returncode, done.stderr), (2, "join_each: not judged yet: 1\n"))
    time.sleep(2)
    before = kept.read_text().count("\nran ")
    found += differs("a part that is taken up again", (sh('run/run_part run 1').returncode, before > 0), (0, True))
    done = sh('"$1"/join_each run')
    ran = "note: the program was run 0 times" in done.stderr
    found += differs(f"the text: {done.stderr}", (ran, done.stdout), (True, expected(SMALL, ANY, sum_in(done.stdout))))
    records = [Path(folder, f"run/text.{it}").read_text().count("\nran ") for it in (1, 2, 3)]
    return found + differs("the records of each part", all(records), True)


def test_part_statuses(folder):
    """The status of a part is 1 where something fails, else 3 where something at its cuts wasn't looked at, else 0; so is that of all parts
    put together."""
    put(folder, GOOD_HEADER, COMMITS)
    few = [*OF_COMMITS, "--flush", "1,2,8"]
    of = lambda part, *words: each(folder, *words, "--part", part, usual=few)[0]
    # (these parts have the cuts 1 and 2, at each of which one part may be lost; 8; and 12)
    found = differs("the statuses where --cases stops", [of(part, "--cases", "2") for part in ("1/3", "2/3", "3/3")], [0, 3, 3])
    found += differs("where more is lost than --at-most", [of("1/1", "--at-most", "1", "--to", last) for last in ("3", "6")], [0, 3])
    found += differs("of a part that is judged to the end", of("2/3"), 0)
    found += differs("of more parts than cuts", of("5/5"), 0)
    text = f'"$1"/lay_out_each run 2 {" ".join(few)} --cases 2 -- python3 judge.py {{}} && run/run_part run 1 && run/run_part run 2 && exec "$1"/join_each run'
    done = subprocess.run(["sh", "-c", text, "sh", MACHINES], cwd=folder, env={**os.environ, "EACH": str(EACH)}, capture_output=True, text=True)
    found += differs(f"of parts that are put together: {done.stderr}", (done.returncode, "was run 0 times" in done.stderr), (3, True))
    put(folder, COMMITTED, COMMITS)
    return found + differs("where something fails", [of(part, "--cases", "2") for part in ("1/3", "2/3")], [0, 1])


# Counts its runs in a file, which is no part of an image, and answers by their number; it looks at no sector.
COUNTS = """\
with open("turns", "a") as file:
    turn = file.tell()
    file.write("x")
raise SystemExit({})
"""


def test_compared(folder):
    """In a run of few images too the first one that fails and the last one that doesn't are run again, and another answer is refused."""
    found = []
    for answers, first, then in (("turn == 1", "answer 1 codes -", "answer 0 codes -"), ("turn > 2", "answer 0 codes -", "answer 1 codes -")):
        put(folder, COUNTS.format(answers))
        status, printed, said = each(folder, "-j", "1")
        found += differs(f"what is said of {answers}: {said}", (status, printed, f"image: {first}, then {then}, at cut" in said), (2, "", True))
        found += differs("how often it was run", Path(folder, "turns").stat().st_size in (4, 5), True)
        Path(folder, "turns").unlink()
        Path(folder, RECORDS).unlink()
    put(folder, COUNTS.format("0"))
    status, printed, said = each(folder, "-j", "1")
    says = "the program was run 3 times, on 3 images, in 1 rounds, and on 1 of them once more at the end" in said
    return found + differs(f"what is said of one that doesn't fail: {said}", (status, says), (0, True))


def test_stays(folder):
    """A program that stays comes to the same text, also where it ends in between, and what isn't an answer is refused."""
    put(folder, STAYS)
    shutil.copy(RECOVERY / "stay.py", folder)
    found = []
    for name, act in (("stays", "pass"), ("is killed", "os.kill(os.getpid(), 11)"), ("ends", "os._exit(9)"), ("fails", "raise ValueError")):
        words = ["python3", "judge.py", *([act] if act != "pass" else [])]
        status, printed, said = each(folder, "--stay", "-j", "2", program=words)
        found += differs(f"the text where it {name}: {said}", lines_of(printed, "cut"), lines_of(expected(SMALL, ANY, "1"), "cut"))
    wrong = [("os._exit(0)", "this one ended without one"), ("os.write(answers.fileno(), b'good' + bytes([10]))", "by b'good")]
    for act, wanted in wrong:
        Path(folder, "judge.py").write_text(STAYS.replace("stay.judge(check)", "answers = os.fdopen(os.dup(1), 'w')\nstay.judge(check)"))
        status, printed, said = each(folder, "--stay", "-j", "1", program=["python3", "judge.py", act])
        found += differs(f"what is said of {act}: {printed} {said}", wanted in said, True)
        Path(folder, RECORDS).unlink(missing_ok=True)
    Path(folder, "judge.py").write_text(STAYS.replace("return found", "return turn % 2 or found"))
    status, printed, said = each(folder, "--stay", "-j", "1", "--tears", program=["python3", "judge.py"])
    found += differs(f"one that counts its images: {printed} {said}", (status, "ends otherwise" in said), (2, True))
    return found + differs("what is left", left(folder), [])


def test_copies(folder):
    """A program that makes copies is started once, and once more for each image that is run again at the end. One that says so wrongly is
    started for each image that is run again."""
    put(folder, STARTED, MORE_COMMITS)
    shutil.copy(RECOVERY / "stay.py", folder)
    found, texts = [], []
    for words in ([], ["1"], [str(os.getpid())]):
        status, printed, said = each(folder, "--stay", "-j", "1", program=["python3", "judge.py", *words], usual=["disk.log", "--sectors", "16", "--bound", "any"])
        note = re.search(r"run (\d+) times, on (\d+) images, in \d+ rounds, and on (\d+) of them once more", said)
        runs, images, compared = (int(note[it]) for it in (1, 2, 3)) if note else (0, 0, 0)
        starts = Path(folder, "starts")
        found += differs(f"how often it was started, with {words}: {said}", starts.stat().st_size, 1 + compared + (runs - images if words else 0))
        found += differs("how often images were run again", (runs - images > 0, compared), (True, 2))
        starts.unlink()
        texts.append(lines_of(printed, "cut"))
    return found + differs("the texts", texts[1:], texts[:1] * 2)


# A hostile program, the options beside it, and a part of what is printed on either output.
HOSTILE = {
    "endless reads": ("import sys\nwhile True: open(sys.argv[1], 'rb').read()", ["--timeout", "1", "--stop-at-failing"], " out of time choice - "),
    "a million files": ("import os, sys\nfor it in range(10 ** 6): os.mknod(f'{os.path.dirname(sys.argv[1])}/{it}')", ["-j", "1", "--timeout", "250"], "made more than 10000 files"),
    "many bytes": ("import sys\nwith open(sys.argv[1], 'r+b') as file:\n for it in range(1000): file.write(bytes(1 << 20))", [], "or wrote more than"),
    "many processes": ("import os, sys\nfor it in range(30):\n if os.fork() == 0: open(sys.argv[1], 'rb').read(); os._exit(0)\nopen(sys.argv[1], 'rb').read()", [], "complete\n"),
    "left running": ("import os, sys, time\nif os.fork() == 0: os.setsid(); time.sleep(1000)", [], "left processes running"),
    "beyond the end": ("import os, sys\nfile = os.open(sys.argv[1], os.O_RDWR)\nos.pwrite(file, b'1', 1 << 44)\ntry: os.pwrite(file, b'1', 1 << 60)\nexcept OSError: sys.exit(0)\nsys.exit(1)", [], "failing 0 "),
    "the clock": ("import sys, time\nfile = open(sys.argv[1], 'rb', buffering=0)\nfile.seek(512 * (time.time_ns() // 1000 % 4)); sys.exit(file.read(1)[0] + time.time_ns() // 1000 % 5)", [], "crashbpf-each: "),
    "the image is gone": ("import os, sys\nos.unlink(sys.argv[1])", [], "failing 0 "),
    "killed by itself": ("import os\nos.kill(os.getpid(), 11)", ["--stop-at-failing"], " signal 11 choice - "),
    "the mount is taken away": ("import os, subprocess, sys\nsubprocess.run(['umount', '-l', os.path.dirname(os.path.dirname(sys.argv[1]))])", [], "its mount is gone"),
}


def hostile(name):
    """A check of a hostile program."""
    program, words, wanted = HOSTILE[name]

    def check(folder):
        put(folder, program)
        status, printed, said = each(folder, *([] if "-j" in words else ["-j", "2"]), *words)
        found = differs(f"what is said, status {status}: {printed[-300:]} {said[-300:]}", wanted in printed + said, True)
        return found + differs("what is left", left(folder), [])

    return check


def test_full(folder):
    """Records that can't be written end the run with a line."""
    room = Path(folder, "full")
    room.mkdir()
    text = f"mount -t tmpfs -o size=16k none {room} && cd {room} && cp {folder}/disk.log {folder}/judge.py . && (dd if=/dev/zero of=rest bs=512 2>/dev/null; true) && exec {EACH} {' '.join(WORDS)} -- python3 judge.py {{}}"
    put(folder)
    done = subprocess.run(["unshare", "-m", "sh", "-c", text], capture_output=True, text=True)
    return differs(f"what is said: {done.stderr}", (done.returncode, "No space left" in done.stderr), (2, True))


def tested(folder, word, hidden=()):
    """Runs crashbpf-test on the example that saves settings, with a word after it."""
    saving = TOP / "examples/saving"
    words = [*hidden, TOP / "commands/test/crashbpf-test", "-j", "2", "--no-lines", "--check", f"sh {saving}/check.sh", "--", "sh", saving / "save.sh", *word.split()]
    return subprocess.run(words, cwd=folder, capture_output=True, text=True, stdin=subprocess.DEVNULL)


def test_program(folder):
    """What crashbpf-test says of every loss: both syncs that are missing, and with them that nothing is lost."""
    if not shutil.which("strace"):
        print("not run: crashbpf-test with every loss, which needs strace")
        return []
    found = []
    for word, wanted in (("", (1, True, True)), ("sync", (0, False, False))):
        done = tested(folder, word)
        says = ["  fsync of the folder before each mark, 3 times" in done.stdout, '  fsync of "new" before rename("new", "settings"), 3 times' in done.stdout]
        found += differs(f"what is said of {word}: {done.stdout}{done.stderr}", (done.returncode, *says), wanted)
        complete = "none fails, complete" if not word else "none fails: every loss of whole writes was explored"
        found += differs(f"the end of {done.stdout}", complete in done.stdout, True)
    return found


ROWS = {
    "crashbpf-test": test_program,
    "texts": test_texts,
    "a run that is resumed": test_resumed,
    "a cure": test_cured,
    "parts": test_parts,
    "statuses of parts": test_part_statuses,
    "images that are run again": test_compared,
    "a program that stays": test_stays,
    "copies of one": test_copies,
    "where there is no FUSE": test_unserved,
    "options": test_options,
    "bounds": test_bounds,
    "other users": test_users,
    "what is asked of crashbpf": test_asked,
    "a server that is killed": test_killed,
    **{name: hostile(name) for name in HOSTILE},
    "a disk that is full": test_full,
}


def is_served():
    """Whether images can be served here; else a line says what is missing."""
    said = missing()
    if said:
        print(f"not run: all rows of images that are served. {said}")
    return not said


def main():
    rows = ROWS if is_served() else {"where images can't be served": test_unserved}
    return try_all(sys.argv[1:], rows.items(), AT_A_TIME)


if __name__ == "__main__":
    sys.exit(main())
