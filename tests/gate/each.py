#!/usr/bin/env python3
"""Tests commands/each/crashbpf-each: what a program gets of each image, what is reported, and what becomes of programs that misbehave.

    python3 tests/gate/each.py [PROGRAM]

PROGRAM is as in run.py. What a program gets, and the report, are compared with those of the model. Then mke2fs and debugfs write a
small ext2 file system, a log is made of what they wrote, and its images are given to e2fsck, whose statuses are compared with those
on the model's images; where these programs aren't there that row is left out, and a line says so.

Prints a line for each row that failed, and last `N passed, M failed`. It takes some ten seconds.
"""
import hashlib
import io
import os
import pty
import re
import shutil
import signal
import struct
import subprocess
import sys
import time
from pathlib import Path

sys.dont_write_bytecode = True

import rooms

rooms.enter()

import report_model
from commands.each import stream
from commands.shared import faults, recording
from designs import DESIGNS
from model import Run, escaped, number_of_report
from notation import MARK, TOP, D, F, M, S, W, log
from page_model import page_of_report
from shells import differs, sh, try_all

EACH = TOP / "commands/each/crashbpf-each"
# Of ext2: the sectors of the device and of a block.
SECTORS, BLOCK = 256, 2
TOOLS = ("mke2fs", "debugfs", "e2fsck")
STATE = "crashbpf-each.state"
# How many rows are tried side by side.
AT_A_TIME = 4
SMALL = Run([W(0, 2, 1), W(2, 1, 2), F, W(1, 2, 3), M('"end" \t1'), W(3, 1, 4), F, M("two"), D(0, 2)], bound=1)


def put(folder, run):
    """Writes the log of a run and its base, and returns the words that name them with their options."""
    Path(folder, "disk.log").write_bytes(log(run.recorded))
    Path(folder, "base").write_bytes(run.base)
    return ["disk.log", *run.options().split()]


def each(folder, words, program, **more):
    """Runs crashbpf-each, and returns its status and what it printed."""
    return subprocess.run([EACH, *words, "--", *program], cwd=folder, capture_output=True, text=True, stdin=subprocess.DEVNULL, **more)


def sh_words(text):
    """The words of a program that is a shell's commands, to which $1 is the file."""
    return ["sh", "-c", text, "sh", "{}"]


def firsts(run):
    """Each image of a run with the first that has the same bytes and as many marks."""
    seen, found = {}, []
    for image in run.images():
        first = seen.setdefault((image.content(), image.marks()), image)
        found.append((image, first))
    return found


def told(words):
    return " ".join(escaped(it.encode()).replace(" ", r"\x{20}") or '""' for it in words)


def report(run, words, text_of, first=False):
    """The report of a run of a program, of which a function says by what words it fails on an image, or none."""
    head = f"sectors {run.sectors} entries {len(run.entries)} cuts {run.cuts} bound {run.bound} tears {'yes' if run.tears else 'no'}"
    head += f" first {'yes' if first else 'no'}{' by write' if run.by == 'write' else ''}{run.told()}{run.told_of_base()}"
    lines, total = [], 0
    for image, of in firsts(run):
        total += 1
        text = text_of(of)
        if text:
            lines.append(f"image {image.number} cut {image.cut} program 0 {text} choice {image.choice()}\n")
    last = f"images {total} failing {len(lines)} lines {len(lines)}\n"
    if first:
        last = f"images {total} first {lines[0].split()[1] if lines else 'none'}\n"
        lines = lines[:1]
    said = [] if first else [f"inputs {number_of_report(run)} programs 1\n"]
    return "".join(["crash report 2\n", *said, head, "\n", f"program 0 outside {told(words)}\n", *lines, last])


# The notes of marks that promise too much, and of what a bound leaves out, which `says_notes` tests.
NOTE = r"crashbpf-each: note: (marks that promise|a write before each of them|at \d+ of \d+ cuts) [^\r\n]*\r?\n"


def ended(what, done, status, printed, said=""):
    """What is wrong with how a call ended: its status, its output, and the last line that it said."""
    found = differs(f"the status of {what}", done.returncode, status) + differs(f"the output of {what}", done.stdout, printed)
    # (on a slow machine the progress is said too)
    lines = "".join(it for it in done.stderr.splitlines(keepends=True) if not it.startswith("progress: ") and not re.fullmatch(NOTE, it))
    return found + ([] if re.fullmatch(said, lines) else [f"{what} says {lines!r}"])


def refused(what, done, says=""):
    """What is wrong with a refusal: the status 2, nothing on standard output, and one line."""
    return ended(what, done, 2, "", f"crashbpf-each: {says}.*\n")


def environment(of):
    marks = [it for it in of.run.entries[: of.cut] if it.flags & MARK]
    return f"{of.marks()} {escaped(marks[-1].text) if marks else ''} {of.cut} {of.choice()}"


def gives_images(folder, run, runners):
    """What is wrong with the bytes and the words that a program gets, what is kept of it, and the report."""
    words = put(folder, run)
    program = sh_words('[ "$1" = "$CRASH_IMAGE" ] && sha256sum < "$1" && echo "$CRASH_MARKS $CRASH_MARK $CRASH_CUT $CRASH_CHOICE" >&2; exit 3')
    done = each(folder, ["-j", runners, "--keep", "kept", *words], program)
    found = ended("it", done, 1, report(run, program, lambda of: "answer 3 codes -"))
    wanted = {}
    for image, of in firsts(run):
        if image is of:
            wanted[f"{of.number}.image"] = of.content()
            wanted[f"{of.number}.said"] = f"{hashlib.sha256(of.content()).hexdigest()}  -\n{environment(of)}\n".encode()
    kept = {it.name: it.read_bytes() for it in Path(folder, "kept").iterdir()}
    return found + [f"{name} isn't as it should be" for name in sorted(wanted.keys() | kept.keys()) if wanted.get(name) != kept.get(name)]


def gives_large(folder):
    """What is wrong with the images of a device that takes --large."""
    run = Run([W(0, 1, 1), W(20000, 1, 2)], sectors=20480)
    program = sh_words('[ "$(wc -c < "$1")" = 10485760 ] && [ "$(du -k "$1" | cut -f 1)" -lt 100 ]')
    return ended("it", each(folder, [*put(folder, run), "--large"], program), 0, report(run, program, lambda of: None))


def gives_sized(folder):
    """What is wrong with the images of a device as large as its base."""
    run, program = Run([W(0, 1, 1), W(3, 1, 2)], sectors=4, base=bytes(range(256)) * 8), ["false"]
    words = put(folder, run)
    at = words.index("--sectors") + 1
    return ended("it", each(folder, [*words[:at], "base", *words[at + 1 :]], program), 1, report(run, program, lambda of: "answer 1 codes -"))


def tells_verdicts(folder):
    """What is wrong with the words of verdicts, for each number of runners, and with each image judged once."""
    words, found = put(folder, SMALL), []
    text = 'echo $CRASH_CUT $CRASH_CHOICE >> judged; case $CRASH_CUT in 0) kill -9 $$ ;; 1) exit 255 ;; 4) sleep 60 ;; 6) kill $$ ;; esac'
    says = {0: "signal 9", 1: "answer 255 codes -", 4: "out of time", 6: "signal 15"}
    for runners in ("-j1", "-j=3", "-j 16"):
        done = each(folder, ["--timeout", "3", *runners.split(), *words], sh_words(text))
        if runners == "-j=3":
            found += refused(runners, done, "-j is 1 to 64")
            continue
        found += ended(runners, done, 1, report(SMALL, sh_words(text), lambda of: says.get(of.cut)))
    judged = Path(folder, "judged").read_text().splitlines()
    wanted = [f"{of.cut} {of.choice()}" for image, of in firsts(SMALL) if image is of]
    found += differs("what is judged", sorted(judged), sorted(2 * wanted))
    for limit in (9, 0):
        program = sh_words(f"[ $CRASH_CUT -lt {limit} ]") if limit else ["sh", "-c", "exit 1"]
        done = each(folder, ["--first", "-j", "4", *words], program)
        found += ended(f"--first {limit}", done, 1, report(SMALL, program, lambda of: "answer 1 codes -" if of.cut >= limit else None, True))
    done = each(folder, ["--first", *words], ["true"])
    return found + ended("--first", done, 0, report(SMALL, ["true"], lambda of: None, True))


# A map of one file, of 700 bytes, on a device of four sectors.
MAP = "crashbpf files 1\nsectors 4\nfirst 0 sectors 2 length 700 name db\nend\n"


def takes_recordings(folder):
    """What is wrong where a folder of a recording stands in place of a log, with a map of files and without one."""
    run, found = Run([W(0, 2, 1), F, M("one"), W(0, 1, 2)], by="write", base=bytes(range(256)) * 4), []
    put(folder, run)
    Path(folder, "it").mkdir()
    for name, to in (("disk.log", recording.LOG), ("base", "base.img")):
        shutil.move(Path(folder, name), Path(folder, "it", to))
    Path(folder, "it/files.txt").write_text(MAP)
    text = 'od -A n -t x1 -N 1 -j 512 "$1"; [ "$(wc -c < "$1")" = 2048 ]'
    for given, judge, options in (
        (None, sh_words(text), run),
        ("files.txt", ["sh", "-c", '[ "$(wc -c < db)" = 700 ] && [ "$PWD" = "$FILES" ]'], run),
        ("files.txt", ["./false"], Run(run.recorded, by="write", base=run.base, bound=2)),
    ):
        recording.Recording(str(Path(folder, "it")), 4, base="base.img", map=given).write()
        Path(folder, "false").write_text("#!/bin/sh\nexit 1\n")
        Path(folder, "false").chmod(0o755)
        done = each(folder, ["it", "--bound", str(options.bound)], judge)
        words = [re.search(r"outside (\S+)", done.stdout)[1], "it/files.txt", "{}", "--", *judge] if given else judge
        words = [f"{folder}/false" if it == "./false" else it for it in words]
        says = "answer 1 codes -" if judge == ["./false"] else None
        found += ended(f"{judge}", done, 1 if says else 0, report(options, words, lambda of: says))
    for text, says in (("", "it/recording.json can't be read"), ("{}", "it/recording.json is of another version"), ('{"version": 1, "sectors": 4}', "it/recording.json can't be read")):
        Path(folder, "it/recording.json").write_text(text)
        found += refused(repr(text), each(folder, ["it"], ["true"]), says)
    return found


def takes_several_logs(folder):
    """What is wrong where a folder of a recording has several logs: a text for each, the status of all, and what wants one of them."""
    (base, later), found, printed = (bytes(range(256)) * 8, bytes([5]) * 2048), [], ""
    runs = [Run([W(0, 1, 1), F, M("one"), W(3, 1, 3)], by="write", base=base), Run([M("one"), W(3, 1, 3), F, W(1, 1, 2), M("two")], by="write", first=3, base=later)]
    for number, run in enumerate(runs, 1):
        put(folder, run)
        at = Path(folder, "it", recording.LOGS, str(number))
        at.mkdir(parents=True)
        for name, to in (("disk.log", recording.LOG), ("base", "base.img")):
            shutil.move(Path(folder, name), Path(at, to))
        recording.Recording(str(at), 4, base="base.img", first=run.first or 0).write()
        printed += report(run, sh_words('[ "$CRASH_MARKS" -lt 2 ]'), lambda of: None if of.marks() < 2 else "answer 1 codes -")
    recording.Recording(str(Path(folder, "it")), 4, logs=2).write()
    said = "".join(f"crashbpf-each: note: of 2 logs it/logs/{number}\n" for number in (1, 2))
    found += ended("two logs", each(folder, ["it", "--bound", "1", "--keep", "kept"], sh_words('[ "$CRASH_MARKS" -lt 2 ]')), 1, printed, said)
    found += differs("what is kept", sorted(it.name for it in Path(folder, "kept").iterdir()), ["1", "2"])
    found += ended("one of them", each(folder, ["it/logs/2", "--bound", "1"], sh_words("true")), 0, report(runs[1], sh_words("true"), lambda of: None))
    for name in ("--resume", "--from=1", "--cure", "--again", "--part=1/2"):
        found += refused(name, each(folder, ["it", name], ["true"]), f"{name.split('=')[0]} is of one log, and it has 2: name one of them, as it/logs/1")
    return found


def image_blocks(path):
    data = path.read_bytes()
    return [data[at : at + 512 * BLOCK] for at in range(0, len(data), 512 * BLOCK)]


def ext2_log(folder):
    """Returns the entries of a log of ext2: its making, and then files that are made and removed, each in blocks as they lie."""
    os.environ["E2FSPROGS_FAKE_TIME"] = "1767225600"
    disk = Path(folder, "disk.img")
    Path(folder, "large").write_bytes(b"x" * 3000)
    steps = {
        "made": f"mke2fs -q -F -t ext2 -b {512 * BLOCK} -N 16 -m 0 -E nodiscard {disk}",
        "large written": f"debugfs -w -R 'write {folder}/large large' {disk}",
        "folder made": f"debugfs -w -R 'mkdir folder' {disk}",
        "large removed": f"debugfs -w -R 'rm large' {disk}",
    }
    disk.write_bytes(bytes(512 * SECTORS))
    entries = []
    for name, step in steps.items():
        before = image_blocks(disk)
        done = sh(folder, step)
        if done.returncode:
            sys.exit(f"{step}: {done.stderr}")
        changed = [(at, block) for at, (old, block) in enumerate(zip(before, image_blocks(disk))) if old != block]
        entries += [*(S(at * BLOCK, block) for at, block in changed), F, M(name)]
    return entries


def gives_ext2(folder):
    """What is wrong with the images of ext2 that e2fsck gets, from the end of mke2fs on, as copies and as the file itself."""
    entries = ext2_log(folder)
    made = next(number for number, it in enumerate(entries) if it.flags & MARK) + 1
    run = Run(entries, sectors=SECTORS, cuts="flush", by="write", first=made)
    words, statuses, found = put(folder, run), {}, []

    def text_of(image):
        if image.number not in statuses:
            Path(folder, "image").write_bytes(image.content())
            statuses[image.number] = sh(folder, "e2fsck -fn image").returncode
        return f"answer {statuses[image.number]} codes -" if statuses[image.number] else None

    wanted = report(run, ["e2fsck", "-fn", "{}"], text_of)
    for way in ([], ["--read-only"]):
        found += ended(f"e2fsck {way}", each(folder, [*way, *words], ["e2fsck", "-fn", "{}"]), 1, wanted)
    # Before and after each step all is well; a step that lost a part of itself left something to repair.
    whole = [statuses[of.number] for image, of in firsts(run) if not image.departures]
    return found + differs("the statuses where nothing departs", whole, [0] * len(whole))


# Programs that misbehave: what they do, how their images fail, and what is said at the end.
WILD = {
    "writes into the image": ('sha256sum "$1" >> ../sums; head -c 2048 /dev/zero | tr "\\0" x > "$1"', None, ""),
    "removes the image": ('rm "$1"; mkdir "$1" "$1/a"; touch "$1-wal" ; ln -s /etc ../run/x; chmod 0 .', None, ""),
    "leaves a process": ('sleep 60 & setsid sleep 61 & (setsid sh -c "sleep 62 & sleep 63" &) ; exit 2', "answer 2 codes -", "note: after 10 images the program left processes running, which were ended\n"),
    "ignores signals": ("trap '' HUP INT TERM; sleep 60; sleep 60", "out of time", ""),
    "closes its output": ("exec >&- 2>&-; exit 5", "answer 5 codes -", ""),
    "kills its session": ("kill -9 0", "signal 9", ""),
    "prints much": ("yes | head -c 3000000; exit 1", "answer 1 codes -", ""),
    "prints for ever": ("cat /dev/zero", "out of time", ""),
}


def left_running(folder):
    """The processes whose environment names a folder."""
    found = []
    for it in Path("/proc").glob("[0-9]*"):
        try:
            if f"TMPDIR={folder}/tmp".encode() in Path(it, "environ").read_bytes():
                found.append(Path(it, "cmdline").read_bytes())
        except OSError:
            pass
    return found


def with_folder(folder):
    """Surroundings in which the runners' files stand in a folder of the test's."""
    Path(folder, "tmp").mkdir(exist_ok=True)
    return {**os.environ, "TMPDIR": f"{folder}/tmp"}


def ends_programs(folder):
    """What is wrong where programs misbehave: each verdict is its own, and nothing is left."""
    run = Run([W(0, 1, 1), F, W(1, 1, 2), M("end"), W(2, 1, 3)], bound=2)
    words, found = put(folder, run), []
    for what, (text, says, note) in WILD.items():
        program = sh_words(f'cd "$(dirname "$1")"; {text}')
        done = each(folder, ["-j", "8", "--keep", "kept", "--timeout", "0.4" if says == "out of time" else "30", *words], program, env=with_folder(folder))
        count = len({of.number for _image, of in firsts(run)})
        note = re.sub(r"\d+ images", f"{count} images", note)
        found += ended(what, done, 1 if says else 0, report(run, program, lambda of: says), f"crashbpf-each: {note}" if note else "")
        found += differs(f"what {what} leaves", (left_running(folder), list(Path(folder, "tmp").iterdir())), ([], []))
        for it in Path(folder, "kept").glob("*.said"):
            size, end = it.stat().st_size, it.read_bytes()[-50:]
            if "prints" in what and not (65536 < size < 65700 and b" bytes more were printed]\n" in end):
                found.append(f"{it.name} of a program that {what} has {size} bytes, and ends {end!r}")
        shutil.rmtree(Path(folder, "kept"))
    return found


def sees_changes(folder):
    """What is wrong where a program with --read-only changes the file."""
    words, found = put(folder, SMALL), []
    texts = {
        "writes": 'printf x | dd of="$1" bs=1 conv=notrunc',
        "writes and sets the time": 'touch -r "$1" ../t; printf x | dd of="$1" bs=1 conv=notrunc; touch -r ../t "$1"',
        "touches": 'touch -d 2001-01-01 "$1"',
        "is longer": 'echo >> "$1"',
        "is another": 'cp "$1" "$1.new"; mv "$1.new" "$1"',
        "is gone": 'rm "$1"',
    }
    for what, text in texts.items():
        done = each(folder, ["--read-only", *words], sh_words(f'[ "$CRASH_MARKS" -eq 0 ] || {{ {text}; }} 2> /dev/null'))
        found += refused(what, done, r"the program changed (the file|bytes) of image \d+")
        Path(folder, STATE).unlink(missing_ok=True)
    # What no time tells: bytes that were changed through memory.
    Path(folder, "mapped").write_text(
        "import mmap, sys\nwith open(sys.argv[1], 'r+b') as file:\n    with mmap.mmap(file.fileno(), 0) as it:\n        it[5] = 77\n"
    )
    found += refused("bytes in memory", each(folder, ["--read-only", *words], [sys.executable, "mapped", "{}"]), r"the program changed ")
    Path(folder, STATE).unlink(missing_ok=True)
    done = each(folder, ["--read-only", "-j", "2", *words], sh_words('cat "$1"; touch beside "$1.beside"; exit 1'))
    return found + ended("what is beside it", done, 1, report(SMALL, sh_words('cat "$1"; touch beside "$1.beside"; exit 1'), lambda of: "answer 1 codes -"))


def fills_the_disk(folder):
    """What is wrong where there is no room for what is to be written: a limit of each file stands for a disk that is full."""
    words, found = put(folder, SMALL), []
    limited = [sys.executable, "-c", "import os, resource, signal, sys; signal.signal(signal.SIGXFSZ, signal.SIG_IGN); "
               "resource.setrlimit(resource.RLIMIT_FSIZE, (int(sys.argv[1]),) * 2); os.execvp(sys.argv[2], sys.argv[2:])"]
    for size in (0, 1000, 2048 + 100, 600):
        done = subprocess.run([*limited, str(size), EACH, *words, "--", "sh", "-c", "exit 1"], cwd=folder, capture_output=True, text=True)
        if done.returncode == 1:
            found += differs(f"the report with files of {size} bytes", done.stdout, report(SMALL, ["sh", "-c", "exit 1"], lambda of: "answer 1 codes -"))
        else:
            found += refused(f"files of {size} bytes", done, r".*(File too large|No space left)")
        Path(folder, STATE).unlink(missing_ok=True)
    full = sh(folder, f'"$1" disk.log {SMALL.options()} -- false > /dev/full', EACH)
    found += refused("a full disk", full, r".*No space left")
    again = each(folder, ["--resume", *words], ["false"])
    return found + ended("what goes on after it", again, 1, report(SMALL, ["false"], lambda of: "answer 1 codes -"))


def stopped(folder, words, program, number, whole):
    """Starts a run, ends it by a signal as soon as some images are judged, and returns how it ended and what it said."""
    call = subprocess.Popen([EACH, *words, "--", *program], cwd=folder, stdout=subprocess.PIPE, stderr=subprocess.PIPE, text=True, env=with_folder(folder), start_new_session=True)
    while len(list(Path(folder).glob("judged.*"))) < whole and call.poll() is None:
        time.sleep(0.01)
    call.send_signal(number)
    printed, said = call.communicate(timeout=30)
    deadline = time.monotonic() + 10
    while (left_running(folder) or list(Path(folder, "tmp").iterdir())) and time.monotonic() < deadline:
        time.sleep(0.01)
    return call.returncode, printed, said


def goes_on(folder):
    """What is wrong with what is left where a run is stopped, and with how it goes on."""
    words, found = [*put(folder, SMALL), "-j", "2"], []
    program = sh_words("touch judged.$CRASH_CUT.$CRASH_CHOICE; [ $CRASH_CUT -lt 5 ] || [ -e go ] || exec sleep 60; [ $CRASH_CUT -gt 3 ]")
    wanted = report(SMALL, program, lambda of: "answer 1 codes -" if of.cut <= 3 else None)
    judged = sum(1 for image, of in firsts(SMALL) if image is of and of.cut < 5)
    for number in (signal.SIGINT, signal.SIGTERM, signal.SIGHUP, signal.SIGKILL):
        status, printed, said = stopped(folder, words, program, number, judged + 2)
        line = "crashbpf-each: stopped; with --resume the same words go on\n"
        found += differs(f"how {number.name} ends it", (status, printed, said), (2, "", line) if number != signal.SIGKILL else (-9, "", ""))
        found += differs(f"what {number.name} leaves", (left_running(folder), list(Path(folder, "tmp").iterdir())), ([], []))
        again = each(folder, words, ["true"])
        found += refused("a run beside what was stopped", again, f"{STATE} is of a run that was stopped")
        kept = Path(folder, STATE).read_bytes()
        found += refuses_others(folder, words, program) if number == signal.SIGINT else []
        # A line that was being written, as the death of a process may leave it.
        Path(folder, STATE).write_bytes(kept + b"image 7 answ")
        Path(folder, "go").touch()
        for it in Path(folder).glob("judged.*"):
            it.unlink()
        done = each(folder, ["--resume", *words[:-1], "3"], program)
        found += ended(f"what goes on after {number.name}", done, 1, wanted)
        again = sum(1 for it in Path(folder).glob("judged.[0-4].*"))
        found += [] if again <= (1 if number == signal.SIGKILL else 0) else [f"{again} images were judged twice after {number.name}"]
        found += [] if not Path(folder, STATE).exists() else ["a run that is done leaves its state"]
        for it in (*Path(folder).glob("judged.*"), Path(folder, "go")):
            it.unlink()
    return found


def refuses_others(folder, words, program):
    """What is wrong where a state is of another run, is damaged, or is another's at the time. It is left as it is."""
    state, found = Path(folder, STATE), []
    kept = state.read_bytes()
    shutil.copy(Path(folder, "disk.log"), Path(folder, "other.log"))
    with open(Path(folder, "other.log"), "ab") as file:
        file.write(b"x")
    Path(folder, "other.base").write_bytes(b"x" * 512)
    cases = {
        "log": (["other.log", *words[1:]], program),
        "base": ([*words, "--base", "other.base"], program),
        "options": ([*words, "--timeout", "9"], program),
        "options ": ([*words, "--first"], program),
        "program or its words": (words, [*program, "x"]),
    }
    for what, (other, judge) in cases.items():
        found += refused(f"another {what}", each(folder, ["--resume", *other], judge), f"{STATE} isn't gone on with: it is of another {what.strip()}")
        found += differs("the state", state.read_bytes(), kept)
    lines = kept.splitlines(keepends=True)
    verdict = lines[5]
    damaged = {
        "twice": kept + verdict,
        "empty": b"",
        "headless": b"".join(lines[1:]),
        "zeros": kept + bytes(100) + b"\n",
        "other": kept + verdict.replace(b"answer", b"answers"),
        "large": kept + b"image 07 answer 1 codes -\n",
        "not text": kept + b"\xff\n",
    }
    for what, data in damaged.items():
        state.write_bytes(data)
        found += refused(f"a state that is {what}", each(folder, ["--resume", *words], program), f"{STATE} isn't gone on with: ")
    state.write_bytes(kept)
    holder = subprocess.Popen([sys.executable, "-c", f"import fcntl, time; file = open({str(state)!r}); fcntl.flock(file, fcntl.LOCK_EX); print(flush=True); time.sleep(60)"], stdout=subprocess.PIPE)
    holder.stdout.readline()
    found += refused("another at the time", each(folder, ["--resume", *words], program), f"another run goes on with {STATE}")
    holder.kill()
    holder.communicate()
    return found


def exported(folder, run):
    """What `crashbpf export` prints of a run."""
    return subprocess.run(["crashbpf", "export", *put(folder, run)], cwd=folder, capture_output=True, check=True).stdout


def read_export(text, total):
    """The images of the text of an export."""
    file = io.BytesIO(text)
    stream.inputs(file)
    return list(stream.images(file, 4, total))


def refuses_cut_exports(folder):
    """What is wrong with exports that are cut off anywhere, or say what can't be: none is taken for one of fewer images."""
    run = Run([W(0, 1, 1), W(1, 1, 2), F, M("end"), W(0, 1, 3)])
    text, total = exported(folder, run), len(firsts(run))
    found = differs("the number of images", len(read_export(text, total)), total)
    head, last = text[: text.rindex(b"total ")], text[text.rindex(b"total ") :]
    count = int(last.split()[3])
    others = [text[:end] for end in range(len(text))] + [text + b"\n", text + last, head + head + last, last, b"total 0 new 0\n"]
    others += [text.replace(b" same 0\n", b" same 9\n"), text.replace(b" same ", b" new ", 1), text.replace(b" new 1\n", b" new 2\n", 1)]
    others += [text.replace(b"inputs ", b"inputs 0", 1), text.split(b"\n", 1)[1], text.replace(b"\n", b" programs 1\n", 1)]
    others += [text.replace(b"image 1 ", b"image 2 ", 1), text.replace(b" new 1\n", b" new 01\n", 1), text.replace(b"choice -", b"choice ", 1)]
    others += [head + b"total %d new %d\n" % it for it in ((total + 1, count), (total, count + 1), (total - 1, count), (total, 0))]
    at = text.index(b" new 1\n") + len(b" new 1\n")
    others += [text[:at] + struct.pack("<Q", it) + text[at + 8 :] for it in (4, 2**63)]
    for other in others:
        try:
            read_export(other, total)
            found.append(f"an export is taken: {other[-60:]!r}")
        except faults.Refusal:
            pass
    # Exports that a process prints, which may end otherwise than its text says.
    words = put(folder, run)
    Path(folder, "text").write_bytes(text)
    for tail, status, says in (("head -c 700 text", 0, "what crashbpf export printed is cut off"), ("cat text", 3, r"crashbpf export ended with 3: no memory"), ("head -c 700 text", 2, r"what crashbpf export printed is cut off.*; it ended with 2: no memory"), ("cat text; kill -9 $$", 0, "crashbpf export ended with -9")):
        Path(folder, "other").write_text(f'#!/bin/sh\n[ "$1" = export ] || exec crashbpf "$@"\n{tail}; [ {status} = 0 ] || echo no memory >&2\nexit {status}\n')
        Path(folder, "other").chmod(0o755)
        found += refused(f"{tail}, {status}", each(folder, words, ["true"], env={**os.environ, "CRASHBPF": "./other"}), says)
        Path(folder, STATE).unlink(missing_ok=True)
    return found


REFUSED = {
    "": "usage: ",
    "disk.log --sectors 4": "usage: ",
    "disk.log --sectors 4 --": "usage: ",
    "disk.log --sectors 4 -- ''": "usage: ",
    "disk.log -- true": "usage: ",
    "--sectors 4 -- true": "usage: ",
    "disk.log disk.log --sectors 4 -- true": "usage: ",
    "disk.log --sectors 4 --images 0..1 -- true": "there is no option '--images'",
    "disk.log --sectors 4 --workers 2 -- true": "there is no option '--workers'",
    "disk.log --sectors 4 --bound -- true": "--bound wants a value",
    "disk.log --sectors 4 --sectors 4 -- true": "--sectors stands there twice",
    "disk.log --sectors 04 -- true": "--sectors is 1 to 33554432",
    "disk.log --sectors 33554433 -- true": "--sectors is 1 to 33554432",
    "disk.log --sectors 20000 --bound 1 -- true": "crashbpf refuses the log disk.log, or its options: refused 13 at 1",
    "disk.log --sectors 1 --bound 1 -- true": "crashbpf refuses the log disk.log, or its options: refused 9 at 0",
    "disk.log --sectors 4 --bound 4 -- true": "crashbpf refuses the log disk.log, or its options: refused 13 at 2",
    "disk.log --sectors 4 --base disk.log -- true": "crashbpf refuses the log disk.log, or its options: refused 13 at 14",
    "disk.log --sectors 4 --base absent -- true": ".*No such file.*absent",
    "disk.log --sectors base -- true": "--sectors base takes the size from the file of --base, and there is none",
    "disk.log --sectors base --base absent -- true": "'absent': .*No such file.*",
    "disk.log --sectors base --base . -- true": "--sectors base wants a file of whole sectors of 512 bytes after --base",
    "disk.log --sectors=base --base /dev/null -- true": "--sectors base wants a file of whole sectors of 512 bytes after --base",
    "absent --sectors 4 -- true": ".*No such file.*absent",
    ". --sectors 4 -- true": r"\. is no folder of crashbpf-record: it has no recording\.json",
    "/dev/null --sectors 4 --bound 1 -- true": "/dev/null is no regular file",
    "-j 0 disk.log --sectors 4 -- true": "-j is 1 to 64",
    "-j 65 disk.log --sectors 4 -- true": "-j is 1 to 64",
    "--timeout 0 disk.log --sectors 4 -- true": "--timeout is ",
    "--timeout 1e3 disk.log --sectors 4 -- true": "--timeout is ",
    "--timeout 86401 disk.log --sectors 4 -- true": "--timeout is ",
    "--keep full disk.log --sectors 4 -- true": "full isn't empty",
    "--keep disk.log disk.log --sectors 4 -- true": ".*File exists",
    "--resume disk.log --sectors 4 --bound 1 -- true": f"there is no {STATE} to go on with",
    "disk.log --sectors 4 -- ./absent": "there is no program ./absent",
    "disk.log --sectors 4 -- ./disk.log": "there is no program ./disk.log",
    "disk.log --sectors 4 -- ./broken {}": "the program can't be run: .*Exec format error",
}


def refuses(folder):
    """What is wrong with the refusals; nothing is left by them."""
    put(folder, SMALL)
    Path(folder, "full").mkdir()
    Path(folder, "full/file").touch()
    Path(folder, "broken").write_bytes(b"\0\0\0\0")
    Path(folder, "broken").chmod(0o755)
    surroundings, found = with_folder(folder), []
    before = sorted(Path(folder).rglob("*"))
    for words, says in REFUSED.items():
        done = subprocess.run(["sh", "-c", f'"$1" {words}', "sh", EACH], cwd=folder, capture_output=True, text=True, env=surroundings, stdin=subprocess.DEVNULL)
        found += refused(words, done, says)
        found += differs(f"what {words!r} leaves", sorted(Path(folder).rglob("*")), before)
    return found


def takes_any_name(folder):
    """What is wrong where files and words have odd names."""
    run, found = Run([W(0, 1, 1)]), []
    for name in ("x=y", "a b", "*", "two\nlines", "$(touch stolen)", 'q"\\', "", "é\t"):
        program = ["sh", "-c", '[ "$1" = "$2" ] && [ -f "$3" ]', "sh", name, name, "{}"]
        for file in [it for it in (f"./{name}", name) if name and not name.startswith("-")] or ["disk.log"]:
            words = put(folder, run)
            if file != "disk.log":
                Path(folder, "disk.log").rename(Path(folder, file))
            done = each(folder, [file, *words[1:]], program)
            found += ended(repr(name), done, 0, report(run, program, lambda of: None))
            Path(folder, file).unlink()
    return found + (["a word was run"] if Path(folder, "stolen").exists() else [])


def says_notes(folder):
    """What is wrong with what is said of marks and of what a bound leaves out."""
    marked = [W(0, 1, 1), W(1, 1, 2), M("saved"), F, W(2, 1, 3)]
    synced = [W(0, 1, 1), F, M("saved"), W(2, 1, 3)]
    promise = "crashbpf-each: note: marks that promise what nothing made durable: entries 2\n"
    lost = "crashbpf-each: note: a write before each of them may still be lost there: it has no flush after it, and isn't FUA\n"
    beyond = "crashbpf-each: note: at 2 of 3 cuts a crash may lose more than 1 part, and such images aren't judged\n"
    found = []
    for name, run, words, wanted in (
        ("a mark before its flush", Run(marked), [], promise + lost + beyond),
        ("two writes by a bound of two", Run(marked, bound=2), [], promise + lost),
        ("a mark after its flush", Run(synced), [], ""),
        ("two writes of a range", Run(marked), ["--from", "4"], promise + lost),
    ):
        done = each(folder, [*put(folder, run), *words], ["true"])
        said = "".join(it for it in done.stderr.splitlines(keepends=True) if not it.startswith("progress: "))
        found += differs(f"the status of {name}", done.returncode, 0) + differs(f"what is said of {name}", said, wanted)
    return found


def says_progress(folder):
    """What is wrong with the line that a terminal is shown."""
    ours, theirs = pty.openpty()
    call = subprocess.Popen([EACH, *put(folder, SMALL), "-j", "1", "--", "sleep", "0.1"], cwd=folder, stdout=subprocess.PIPE, stderr=theirs)
    printed = call.communicate()[0].decode()
    os.set_blocking(ours, False)
    said = os.read(ours, 1 << 16).decode()
    os.close(ours)
    os.close(theirs)
    total = len(firsts(SMALL))
    line = rf"\r\x1b\[Kprogress: (\d+) of {total} images, \d+ of them judged, 0 failing; (\d+) left(, some \d+ s)?"
    right = re.fullmatch(rf"({line})+\r\x1b\[K({NOTE})*", said)
    found = differs("the report", printed, report(SMALL, ["sleep", "0.1"], lambda of: None))
    return found + ([] if right and all(int(it[0]) + int(it[1]) == total for it in re.findall(line, said)) else [f"a terminal is shown {said!r}"])


def rows():
    """Yields the name of each row and what looks at it; those of ext2 where its programs are there."""
    tears = Run(SMALL.recorded, bound=1, tears=True, cuts="flush")
    by_write = Run(SMALL.recorded, bound=2, by="write", flush=(1, 5), first=2, last=5, base=bytes(range(256)) * 5)
    yield "images by sector, with tears", lambda folder: gives_images(folder, tears, "2")
    yield "images by write, with a flush, a range and a base", lambda folder: gives_images(folder, by_write, "1")
    yield "a run without images", lambda folder: gives_images_of_none(folder)
    yield "images of a large device", gives_large
    yield "images of a device as large as its base", gives_sized
    yield "folders of recordings", takes_recordings
    yield "folders with several logs", takes_several_logs
    yield "verdicts", tells_verdicts
    yield "a log of two slots", gives_design
    yield "reports that go back to why, page and cure", goes_back
    if all(map(shutil.which, TOOLS)):
        yield "images of ext2", gives_ext2
    else:
        print(f"not run: images of ext2, since there is no {' or no '.join(it for it in TOOLS if not shutil.which(it))}")
    yield "programs that misbehave", ends_programs
    yield "programs that change the file", sees_changes
    yield "disks that are full", fills_the_disk
    yield "runs that are stopped", goes_on
    yield "exports that are cut off", refuses_cut_exports
    yield "refusals", refuses
    yield "odd names", takes_any_name
    yield "notes", says_notes
    yield "progress", says_progress


def gives_images_of_none(folder):
    run = Run([W(0, 1, 1)], cuts="mark")
    return ended("it", each(folder, put(folder, run), ["false"]), 0, report(run, ["false"], lambda of: "answer 1 codes -"))


def gives_design(folder):
    """What is wrong with the report of a log of the examples, by the sums of its images as a shell can compare them."""
    run = Run(DESIGNS["two_slots/wrong"].recorded, 4)
    words, bad = put(folder, run), {of.content() for image, of in firsts(run) if image.cut % 3 == 1}
    Path(folder, "bad").write_text("".join(f"{hashlib.sha256(it).hexdigest()}\n" for it in bad))
    program = sh_words('! sha256sum < "$1" | cut -c 1-64 | grep -q -F -f - bad')
    return ended("it", each(folder, words, program), 1, report(run, program, lambda of: "answer 1 codes -" if of.content() in bad else None))


def told_back(folder, words, run, text):
    """What is wrong with what `why`, `page` and `cure` tell of a report, and what `cure` does."""
    Path(folder, "report").write_text(text)
    of, found, out = report_model.read(run, text.encode()), [], ""
    for command, tell in [("why", report_model.causes), ("page", page_of_report), ("cure", report_model.places)]:
        done = subprocess.run(["crashbpf", command, "disk.log", "--report", "report", *words[1:]], cwd=folder, capture_output=True, text=True)
        found += differs(f"what {command} tells", (done.returncode, done.stdout), (int(bool(of.lines)), tell(run, of)))
        out = done.stdout
    return found, out


def goes_back(folder):
    """What is wrong with what is told of a report, of the report of the next run, with the flushes that `cure` names, and of other options."""
    entries = DESIGNS["two_slots/wrong"].recorded
    words, program = put(folder, Run(entries, 4)), sh_words('[ "$CRASH_CHOICE" = - ] || exit 7')
    found, out = told_back(folder, words, Run(entries, 4), each(folder, words, program).stdout)
    added = out.splitlines()[-1].removeprefix("untried ").split()
    if len(added) != 2:
        return [*found, f"cure names no flushes: {out!r}"]
    next_run = Run(entries, 4, flush=tuple(int(it) for it in added[1].split(",")))
    found += told_back(folder, [*words, *added], next_run, each(folder, [*words, *added], program).stdout)[0]
    done = subprocess.run(["crashbpf", "why", "disk.log", "--report", "report", *words[1:]], cwd=folder, capture_output=True, text=True)
    return found + differs("why without the flushes", (done.returncode, done.stderr.splitlines()[:1]), (2, ["refused 16 at 2"]))


if __name__ == "__main__":
    sys.exit(try_all(sys.argv[1:], rows(), AT_A_TIME))
