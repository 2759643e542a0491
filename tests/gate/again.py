#!/usr/bin/env python3
"""Tests `crashbpf-each --again`: a power cut while the program is at work on an image.

    python3 tests/gate/again.py [PROGRAM]

PROGRAM is as in run.py. What is printed is compared with the model again_model.py, by programs that read, write and sync their image as those
of the model do. The store of examples/recovery/replay.py fails by --again alone, and is cured by the sync that is named. Hostile programs end
in a verdict or in a note, and leave nothing. Where images can't be served a line says so, and nothing is run.

Prints a line for each row that failed, and last `N passed, M failed`. It takes some 55 seconds of the processor, three rows at a time.
"""
import inspect
import random
import shutil
import subprocess
import sys
from pathlib import Path

sys.dont_write_bytecode = True

import rooms

rooms.enter()

import again_model
from again_model import program_of, some_steps
from cases_model import ANY, Losses
from notation import TOP, D, F, M, S, W
from parts_model import WideRun
from served import AT_A_TIME, RECORDS, each, is_served, left, put, refused, started, sum_in
from shells import differs, kill_at, try_all

REPLAY, RECORD = TOP / "examples/recovery/replay.py", TOP / "commands/record/crashbpf-record"
# The device of a program of the model, and what runs one.
DEVICE = '''\
import mmap, os, sys
class Device:
    def open(self, flags):
        return os.open(sys.argv[1], os.O_RDWR | flags)
    def read(self, at, size):
        file = self.open(0)
        found = os.pread(file, size, at)
        os.close(file)
        return found
    def write(self, at, data, forced, direct):
        file = self.open(os.O_DSYNC * forced | os.O_DIRECT * direct)
        if direct:
            buffer = mmap.mmap(-1, len(data))
            buffer.write(data)
            data = buffer
        assert os.pwrite(file, data, at) == len(data)
        os.close(file)
    def sync(self):
        file = self.open(0)
        os.fsync(file)
        os.close(file)
'''
SMALL = WideRun([W(0, 2, 1), W(2, 1, 2), F, W(1, 2, 3), M("one"), W(3, 1, 4), W(9, 1, 5), D(0, 1)], 10)
USUAL = ["disk.log", "--sectors", "10", "--bound", "any", "--again"]
# Three kinds of programs: by the page cache, with O_DSYNC, and with O_DIRECT.
STEPS = [
    ([("read", 600, 64, 2), ("write", 1024, 1024, 2), ("write", 3 * 512, 100, 3), ("sync", 0, 0, 2), ("write", 0, 512, 2), ("read", 4700, 1, 2), ("write", 4600, 64, 4)], 10, False, False, 5),
    ([("read", 0, 64, 2), ("write", 1500, 64, 3), ("write", 3900, 700, 3), ("write", 0, 512, 4), ("read", 1030, 64, 2)], 10, True, False, 4),
    ([("read", 1030, 64, 2), ("write", 1024, 512, 3), ("write", 512, 1024, 4), ("sync", 0, 0, 2), ("write", 4608, 512, 3), ("read", 4608, 1, 2)], 10, False, True, 7),
]


def script(steps):
    """Returns the text of a program of the model."""
    return f"{DEVICE}{inspect.getsource(program_of)}sys.exit(program_of(*{steps!r})(Device(), int(os.environ['CRASH_MARKS'])))\n"


def expected(run, steps, losses, printed):
    return again_model.again(run, program_of(*steps), f"outside python3 judge.py {{}}\nsum {sum_in(printed)}", losses)


def text_differs(folder, run, steps, words=(), losses=ANY, usual=USUAL):
    """Returns what is printed otherwise than by the model."""
    put(folder, script(steps), run)
    status, printed, said = each(folder, *words, usual=usual)
    wanted = expected(run, steps, losses, printed)
    return differs(f"the text with {words}: {said}", (status, printed), (again_model.status(wanted), wanted))


def test_texts(folder):
    """The text is that of the model: by page, with O_DSYNC, with O_DIRECT."""
    return [it for steps in STEPS for it in text_differs(folder, SMALL, steps)]


def test_options(folder):
    """The text is that of the model with each option, and for any number of runners."""
    by_write = WideRun(SMALL.recorded, 10, by="write", flush=(5,), first=2, last=7)
    found = text_differs(folder, by_write, STEPS[0], ("--by", "write", "--flush", "5", "--from", "2", "--to", "7", "-j", "1"))
    found += text_differs(folder, SMALL, STEPS[1], ("--at-most", "1"), Losses(most=1))
    found += text_differs(folder, SMALL, STEPS[0], ("--stop-at-failing", "-j", "4"), Losses(at_failing=True))
    found += text_differs(folder, SMALL, STEPS[2], ("--cases", "2"), Losses(cases=2))
    torn = WideRun([S(0, bytes([1] * 64 + [2] * 448)), F, W(9, 1, 3)], 10, tears=True, by="write")
    return found + text_differs(folder, torn, STEPS[0], ("--tears", "--by", "write", "--torn", "2"), Losses(torn=2))


def test_runs(folder):
    """Where more is wanted than --runs says, each search ends at its first failing case from there on, on the second level too."""
    put(folder, script(STEPS[0]), SMALL)
    for most in (1, 9, 1000):
        status, printed, said = each(folder, "--runs", str(most), usual=USUAL)
        wanted = expected(SMALL, STEPS[0], Losses(at_failing=most < 1000), printed)
        found = differs(f"the text with --runs {most}: {said}", (status, printed), (again_model.status(wanted), wanted))
        if found:
            return found
    return []


def test_random(folder):
    """The text is that of the model, for programs by chance."""
    chance, found = random.Random(7), []
    for _ in range(3):
        found += text_differs(folder, SMALL, some_steps(chance, 10))
    return found


def test_replay(folder):
    """The replay that can't begin again is found by --again alone, and cured by the sync that is named."""
    if not shutil.which("strace"):
        print("not run: a replay that is recorded, which needs strace")
        return []
    done = subprocess.run([RECORD, "made", "--", REPLAY, "write"], cwd=folder, capture_output=True, text=True)
    found = differs(f"the recording: {done.stderr}", done.returncode, 0)
    usual = ["made/writes.log", "--sectors", "48", "--by", "write", "--bound", "any"]
    status, printed, said = each(folder, program=(REPLAY, "check", "{}"), usual=usual)
    found += differs(f"without it: {printed[-300:]} {said}", (status, printed.endswith(" complete\n")), (0, True))
    status, printed, said = each(folder, "--again", program=(REPLAY, "check", "{}"), usual=usual)
    named = [it for it in printed.splitlines() if " then cut 3 choice 1:drop " in it and it.endswith(" sync 2..2")]
    found += differs(f"with it: {printed} {said}", (status, bool(named)), (1, True))
    status, printed, said = each(folder, "--again", program=(REPLAY, "check", "{}", "sync"), usual=usual)
    return found + differs(f"cured: {printed} {said}", (status, printed.endswith(" complete\n")), (0, True))


# A file that is replaced by way of a journal. Recovery makes the new file, renames it and removes the journal, and syncs as it is told.
REPLACED = """\
import os, sys
act, syncs = sys.argv[1], sys.argv[2:]
def sync(path):
    if not syncs or path in syncs:
        file = os.open(path, os.O_RDONLY)
        os.fsync(file)
        os.close(file)
def put(path, content):
    with open(path, "wb") as file:
        file.write(content)
    sync(path)
def replay():
    if os.path.exists("journal") and len(open("journal", "rb").read()) == 1000:
        put("new", open("journal", "rb").read())
        os.rename("new", "data")
        sync(".")
        os.unlink("journal")
if act == "write":
    os.chdir(os.environ["FILES"])
    put("journal", bytes([1]) * 1000)
    sync(".")
    with open(os.environ["RECORDING"] + "/marks", "a") as marks:
        marks.write("0 commit\\n")
    replay()
    sys.exit()
syncs = syncs or ["nothing"]
replay()
found = open("data", "rb").read() if os.path.exists("data") else bytes(1000)
sys.exit(found not in [bytes([it]) * 1000 for it in range(int(os.environ["CRASH_MARKS"]), 2)])
"""


def test_names(folder):
    """Of recorded files what recovery makes, renames and removes is a second log too, and each sync that it lacks is found."""
    if not shutil.which("strace"):
        print("not run: files that are recorded, which needs strace")
        return []
    Path(folder, "replaced.py").write_text(REPLACED)
    program = ["python3", f"{folder}/replaced.py"]
    done = subprocess.run([RECORD, "--files", "ext4", "made", "--", *program, "write"], cwd=folder, capture_output=True, text=True)
    found = differs(f"the recording: {done.stderr}", done.returncode, 0)
    for words, wanted in ((["new", "."], 0), (["."], 1), (["new"], 0)):
        usual = ["made", "--bound", "any", "--again"]
        status, printed, said = each(folder, program=[*program, "check", *words], usual=usual)
        found += differs(f"with the syncs {words}: {printed[-600:]} {said}", (status, " unexplored 0 " in printed), (wanted, True))
        found += differs("the first level", " failing 0 " in next(it for it in printed.splitlines() if it.startswith("cuts ")), True)
    return found + differs("what is left", left(folder), [])


def test_recover(folder):
    """Of a command that recovers it is cut, and of the check after it nothing is."""
    put(folder, "import os, sys\nfile = os.open(sys.argv[1], os.O_RDWR)\nfound = os.pread(file, 1, 4608)[0]\nos.pwrite(file, bytes(512), 4608)\nos.fsync(file)\nsys.exit(found == 7)\n", SMALL)
    words = ["--recover", 'printf "\\\\7" | dd of="$CRASH_IMAGE" bs=512 seek=9 conv=notrunc 2>/dev/null; exit 3']
    status, printed, said = each(folder, *words, usual=USUAL)
    found = differs(f"what fails: {printed} {said}", (status, " failing 0 " in printed.splitlines()[-1]), (1, True))
    words = ["--recover", 'printf "\\\\6" | dd of="$CRASH_IMAGE" bs=512 seek=9 conv=notrunc 2>/dev/null; exit 3']
    status, printed, said = each(folder, *words, usual=USUAL)
    found += differs(f"what is clean: {printed} {said}", (status, " failing 0 " in printed.splitlines()[-1]), (0, True))
    status, printed, said = each(folder, "--recover", "kill -9 $$", "--stop-at-failing", usual=USUAL)
    return found + differs(f"what is killed: {printed} {said}", (status, " signal 9 " in printed), (1, True))


def test_looks(folder):
    """A program that only looks has no second level, and that is said."""
    put(folder, "import os, sys\nopen(sys.argv[1], 'rb').read()\n", SMALL)
    status, printed, said = each(folder, usual=USUAL)
    found = differs(f"the text: {printed}", (status, " written 0 unexplored 0 cuts 0 cases 0 " in printed), (0, True))
    return found + differs(f"what is noted: {said}", "there is nothing to cut" in said, True)


def test_resumed(folder):
    """A run that is killed, at the first level or at the second, goes on with the records of both, and no image is judged twice."""
    put(folder, script(STEPS[0]).replace("sys.exit(", "import time; time.sleep(0.3); sys.exit("), SMALL)
    usual, first, second = [*USUAL, "--keep", "kept"], Path(folder, "kept/known"), Path(folder, "kept/known.again")
    kill_at(started(folder, "-j", "1", usual=usual), first, "ran ", 3)
    _status, printed, said = each(folder, "--resume", usual=[it for it in usual if it != "--again"])
    found = differs(f"without --again: {said}", (printed, "isn't gone on with" in said), ("", True))
    kill_at(started(folder, "--resume", "-j", "1", usual=usual), second, "ran ", 3)
    text = second.read_text()
    for wrong, wanted in ((f"{text}ran cut 3\n", "is no record of this log"), (text.replace("inputs ", "inputs 1"), "is of another run")):
        second.write_text(wrong)
        _status, printed, said = each(folder, "--resume", usual=usual)
        found += differs(f"with other records: {said}", (printed, wanted in said), ("", True))
    second.write_text(text)
    before = len(records(first, second))
    second.write_text(f"{text}ran cut 3 cho")
    _status, printed, said = each(folder, "--resume", usual=usual)
    found += differs(f"the text: {said}", printed, expected(SMALL, STEPS[0], ANY, printed))
    after = records(first, second)
    found += differs(f"what was judged anew, {len(after) - before}: {said}", f" times, on {len(after) - before} images, " in said, True)
    return found + differs("what is left, and twice", (left(folder), len(after) - len(set(after))), ([], 0))


def records(*paths):
    """Returns the lines of files that tell an image."""
    return [it for path in paths for it in path.read_text().splitlines() if it.startswith("ran ")]


def test_refused(_folder):
    """What doesn't stand beside it, or without it, is refused."""
    wrong = (
        ("is of the log alone", ["--again", "--cure"], ["--again", "--spot", "2"], ["--again", "--part", "1/2"]),
        ("is cut by --again", ["--recover", "true"]),
        ("isn't for it", ["--again", "--recover", "true", "--stay"]),
    )
    usual = ["disk.log", "--sectors", "4", "--bound"]
    found = [it for says, *rows in wrong for words in rows for it in differs(f"{words} is refused with", says in refused([*usual, "any", *words]), True)]
    return found + differs("without every loss", "with --bound any" in refused([*usual, "1", "--again"]), True)


# A hostile program, the options beside it, and a part of what is printed on either output. `first` says whether its image is the first one.
BEGUN = "import os, sys\nfile = os.open(sys.argv[1], os.O_RDWR)\nfirst = os.pread(file, 1, 4095)[0] != 9\n"
HOSTILE = {
    "recovery that never ends": ("import time\nif first: os.pwrite(file, bytes([9]), 4095)\nelse:\n while True: os.pwrite(file, b'1', 0); time.sleep(0.01)", ["--timeout", "3", "--stop-at-failing", "--from", "8"], " out of time kept "),
    "a hundred thousand syncs": ("os.pwrite(file, bytes([9]), 4095)\nfor it in range(10 ** 5 if first else 1): os.fsync(file)", ["--timeout", "100", "--from", "8"], " written 1 unexplored 0 cuts 2 cases 3 failing 0 "),
    "ten thousand writes": ("os.pwrite(file, bytes([9]), 4095)\nfor it in range(10 ** 4 if first else 1): os.pwrite(file, b'1', 0); os.fsync(file)", ["--from", "8"], "made more than 4096 writes"),
    "twenty times the device": ("for it in range(20 * first): os.pwrite(file, bytes([9]) * 5120, 0)", ["--from", "8"], " written 1 unexplored 0 "),
    "beyond the end": ("os.pwrite(file, bytes([9]), 5120)", ["--from", "8"], "wrote beyond the end of its image"),
    "another size": ("os.ftruncate(file, 4096); os.ftruncate(file, 5120)", ["--from", "8"], "changed the size of its image"),
    "the image is gone": ("os.unlink(sys.argv[1])", ["--from", "8"], "renamed or removed its image"),
    "another image": ("other = sys.argv[1] + '.new'\nopen(other, 'wb').write(bytes(5120))\nos.rename(other, sys.argv[1])", ["--from", "8"], "renamed or removed its image"),
    "a mapping": ("import mmap\nmmap.mmap(file, 4096)[0] = 7", ["--from", "8"], "by a shared mapping"),
    "killed when it comes again": ("os.pwrite(file, bytes([9]), 4095)\nif not first: os.kill(os.getpid(), 11)", ["--from", "8"], " signal 11 kept "),
}
# Those that come to an end all the same, where each loss is told.
ENDING = ("a hundred thousand syncs", "twenty times the device")
# The same of recorded files with names, of which one is `data`. Their program is run in the folder of these, and writes `more` at first.
NAMED = "import os, sys\nfirst = not os.path.exists('more')\nopen('more', 'wb').write(b'1')\n"
NAMED_HOSTILE = (
    ("for it in range(70): open('more', 'wb').write(bytes(1 << 20))", "or wrote more than 67108864 bytes"),
    ("file = os.open('data', os.O_RDWR)\nfor it in range(5000): os.fsync(file)", "made more than 4096 writes"),
    ("import mmap\nmmap.mmap(os.open('data', os.O_RDWR), 1)[0] = 7", "stored to a file by a shared mapping"),
    ("os.pwrite(os.open(os.environ['CRASH_IMAGE'], os.O_RDWR), b'1', 0)", "wrote to its image beside the files of it"),
    ("open(os.environ['CRASH_IMAGE'], 'rb').read(1)", "looks at its image beside the files of it"),
    ("if first: os.mkfifo('pipe')", "made something that is no file, folder or link"),
    ("if first: os.rename('data', '../data')", "renamed something into the files of its image, or out of them"),
    ("import time\nwhile not first: open('more', 'wb').write(b'1'); time.sleep(0.01)", " out of time kept "),
)


def test_named_hostile(folder):
    """Of recorded files each program that can't be followed is told, and none is clean."""
    if not shutil.which("strace"):
        print("not run: hostile recoveries of files that are recorded, which need strace")
        return []
    done = subprocess.run([RECORD, "--files", "ext4", "made", "--", "sh", "-c", 'echo 1 >"$FILES/data"; sync "$FILES/data"'], cwd=folder, capture_output=True, text=True)
    found = differs(f"the recording: {done.stderr}", done.returncode, 0)
    usual = ["made", "--bound", "any", "--again", "--from", "4", "--stop-at-failing"]
    for text, wanted in NAMED_HOSTILE:
        Path(folder, "judge.py").write_text(NAMED + text + "\n")
        seconds = "3" if "out of time" in wanted else "100"
        status, printed, said = each(folder, "--timeout", seconds, program=("python3", f"{folder}/judge.py"), usual=usual)
        found += differs(f"what is said of {text}, status {status}: {printed[-400:]} {said[-300:]}", (wanted in printed + said, status == 0), (True, False))
        # (a run that is refused leaves them)
        for it in Path(folder).glob(f"{RECORDS}*"):
            it.unlink()
    return found + differs("what is left", left(folder), [])


def hostile(name):
    """A check of a hostile program."""
    program, words, wanted = HOSTILE[name]

    def check(folder):
        put(folder, BEGUN + program, SMALL)
        status, printed, said = each(folder, "-j", "2", *words, usual=USUAL)
        found = differs(f"what is said, status {status}: {printed[-400:]} {said[-300:]}", wanted in printed + said, True)
        is_clean = status == 0
        found += differs("whether it is clean", is_clean, name in ENDING)
        return found + differs("what is left", left(folder), [])

    return check


ROWS = {
    "texts": test_texts,
    "options": test_options,
    "a number of runs": test_runs,
    "programs by chance": test_random,
    "a replay": test_replay,
    "files with names": test_names,
    "a command that recovers": test_recover,
    "a program that only looks": test_looks,
    "a run that is resumed": test_resumed,
    "what is refused": test_refused,
    "files with names, hostile": test_named_hostile,
    **{name: hostile(name) for name in HOSTILE},
}


def main():
    return try_all(sys.argv[1:], (ROWS if is_served() else {}).items(), AT_A_TIME)


if __name__ == "__main__":
    sys.exit(main())
