#!/usr/bin/env python3
"""Tests examples/many_machines, and what docs/CI.md does with a stored report.

    python3 tests/gate/many_machines.py [PROGRAM]

PROGRAM is as in run.py. Runs are laid out in parts, which are judged by processes side by side, some of them killed and run
again, and joined: that is the report of the run. Last the commands in docs/CI.md, 'Known failures', are run: on the report that
is stored, and on others.

Prints a line for each row that failed, and last `N passed, M failed`.
"""
import os
import re
import shutil
import signal
import subprocess
import sys
import time
from pathlib import Path

sys.dont_write_bytecode = True

import rooms

rooms.enter()

from designs import DESIGNS
from model import Run
from notation import TOP, F, M, W, log
from parts_model import PART_LINE, joined, layout
from shells import differs, sh, try_all, wait_for_lines

MACHINES = TOP / "examples/many_machines"
LOGS = TOP / "examples"
EACH = TOP / "commands/each/crashbpf-each"
os.environ["EACH"] = str(EACH)


def laid_out(folder, run, parts, options=""):
    """Lays out a run of the checker of two_slots in the folder `run`, and returns the report of one process."""
    Path(folder, "disk.log").write_bytes(log(run.recorded))
    shutil.copy(TOP / "examples/two_slots/checker.bpf", folder)
    whole = sh(folder, f"crashbpf explore disk.log checker.bpf {run.options()} {options}")
    done = sh(folder, f'"$1"/lay_out run {parts} disk.log {run.options()} -- checker.bpf {options}', MACHINES)
    return whole, differs("how many parts there are", done.stdout.strip(), str(parts))


# Judges all parts of a run that are missing, four at a time.
JUDGE = 'seq $(wc -l < "$1/parts") | xargs -P 4 -n 1 "$1/run_part" "$1"'


def judges_in_parts(folder, run, parts, options=""):
    """What is wrong with a run in parts, some of which are lost and judged again."""
    whole, found = laid_out(folder, run, parts, options)
    none = sh(folder, '"$1"/join_all run', MACHINES)
    found += differs("the status where no part is judged", none.returncode, 2)
    found += differs("what is judged by processes", sh(folder, JUDGE, "run").returncode, 0)
    # One text is lost with its machine, and of another one a piece lies there under no name of a text.
    Path(folder, "run/text.2").unlink()
    Path(folder, "run/begun.3.there.77").write_bytes(Path(folder, "run/text.3").read_bytes()[:50])
    Path(folder, "run/text.3").unlink()
    lost = sh(folder, '"$1"/join_all run', MACHINES)
    found += differs("what is missing", (lost.returncode, lost.stderr), (2, "join_all: not judged yet: 2 3\n"))
    kept = Path(folder, "run/text.1").stat().st_mtime_ns
    found += differs("what is judged again", sh(folder, JUDGE, "run").returncode, 0)
    found += differs("when a text that was there was written", Path(folder, "run/text.1").stat().st_mtime_ns, kept)
    joined = sh(folder, '"$1"/join_all run', MACHINES)
    return found + differs("the report", (joined.returncode, joined.stdout), (whole.returncode, whole.stdout))


def kills_a_part(folder, run):
    """What is wrong where the process of a part is killed, and where a part is refused."""
    whole, found = laid_out(folder, run, 4)
    # A program that is killed by the signal 9 before its text is whole.
    Path(folder, "killed").write_text('#!/bin/sh\necho crash part 1\nkill -9 $$\n')
    Path(folder, "killed").chmod(0o755)
    done = sh(folder, 'CRASHBPF=$PWD/killed run/run_part run 2')
    found += [] if done.returncode > 1 else [f"a part that was killed ended with {done.returncode}"]
    found += [] if not Path(folder, "run/text.2").exists() else ["a part that was killed left a text"]
    found += differs("the status of a part that isn't there", sh(folder, "run/run_part run 5").returncode, 2)
    os.rename(Path(folder, "disk.log"), Path(folder, "hidden.log"))
    found += differs("the status of a part that is refused", sh(folder, "run/run_part run 2").returncode, 2)
    os.rename(Path(folder, "hidden.log"), Path(folder, "disk.log"))
    # From another folder, by the path of the run.
    done = sh("/", JUDGE, Path(folder, "run"))
    found += differs("what is judged from another folder", done.returncode, 0)
    joined = sh(folder, '"$1"/join_all run', MACHINES)
    return found + differs("the report", (joined.returncode, joined.stdout), (whole.returncode, whole.stdout))


def refused(what, done, name, says=""):
    """What is wrong with a refusal of a script: the status 2, nothing on standard output, and a last line."""
    last = (done.stderr.splitlines() or [""])[-1]
    right = done.returncode == 2 and not done.stdout and last.startswith(f"{name}: {says}")
    return [] if right else [f"{what} ended with {done.returncode}, {done.stdout!r} and {done.stderr!r}"]


# Words of lay_out, and what it says of them.
NOT_LAID = {
    "": "usage: ",
    "new 4 disk.log --sectors 4": "usage: ",
    "new 4 disk.log -- ": "usage: ",
    "new 4 disk.log --sectors 4 -- checker.bpf -- checker.bpf": "usage: ",
    "new four disk.log --sectors 4 -- checker.bpf": "PARTS is ",
    "new 0 disk.log --sectors 4 -- checker.bpf": "PARTS is ",
    "new 04 disk.log --sectors 4 -- checker.bpf": "PARTS is ",
    "new -4 disk.log --sectors 4 -- checker.bpf": "PARTS is ",
    "new '' disk.log --sectors 4 -- checker.bpf": "PARTS is ",
    "new 18446744073709551617 disk.log --sectors 4 -- checker.bpf": "PARTS is ",
    "new 1048577 disk.log --sectors 4 -- checker.bpf": "crashbpf images refuses ",
    "new 4 absent.log --sectors 4 -- checker.bpf": "crashbpf images refuses ",
    "new 4 checker.bpf --sectors 4 -- checker.bpf": "crashbpf images refuses ",
    "new 4 disk.log --sectors 4 --base absent -- checker.bpf": "crashbpf images refuses ",
    "new 4 disk.log --sectors 4 --bounds 2 -- checker.bpf": "crashbpf images refuses ",
    "new 4 disk.log --sectors 4 --help -- checker.bpf": "crashbpf images says no number ",
    "new 4 disk.log --sectors 4 --": "crashbpf explore refuses ",
    "new 4 disk.log --sectors 4 -- --workers 2": "crashbpf explore refuses ",
    "new 4 disk.log --sectors 4 -- absent.bpf": "crashbpf explore refuses ",
    "new 4 disk.log --sectors 4 -- checker.bpf absent.bpf": "crashbpf explore refuses ",
    "new 4 disk.log --sectors 4 -- disk.log": "crashbpf explore refuses ",
    "new 4 disk.log --sectors 4 -- checker.bpf --images 0..1": "crashbpf explore refuses ",
    "new 4 disk.log --sectors 4 -- checker.bpf --trace 2": "crashbpf explore refuses ",
    "new 4 disk.log --sectors 4 -- checker.bpf --help": "the words after -- ",
    "new 4 disk.log --sectors 4 -- checker.bpf --bound 2": "the words after -- ",
    "new 4 disk.log --sectors 4 -- 'checker.bpf\n'": "no word may have a newline",
    "'ne\nw' 4 disk.log --sectors 4 -- checker.bpf": "no word may have a newline",
    "there 4 disk.log --sectors 4 -- checker.bpf": "",
    "absent/new 4 disk.log --sectors 4 -- checker.bpf": "the folder ",
    "new 4 disk.log --sectors 4 -- checker.bpf >/dev/full": "the number of parts ",
}


def lays_out_no_other(folder):
    """What is wrong with runs that can't be laid out: no folder is left, and none that was there is touched."""
    found = laid_out(folder, Run(DESIGNS["two_slots/wrong"].recorded, 4), 3)[1]
    Path(folder, "there").mkdir()
    Path(folder, "there/kept").touch()
    before = sorted(it.name for it in Path(folder).iterdir())
    for words, says in NOT_LAID.items():
        found += refused(words, sh(folder, f'"$1"/lay_out {words}', MACHINES), "lay_out", says)
        found += differs(f"what is there after {words!r}", sorted(it.name for it in Path(folder).iterdir()), before)
    return found + ([] if Path(folder, "there/kept").exists() else ["a folder that was there isn't"])


def takes_odd_folders(folder):
    """What is wrong where the folder, the log and the checker have odd names."""
    whole, found = laid_out(folder, Run(DESIGNS["two_slots/wrong"].recorded, 4), 3)
    os.rename(Path(folder, "disk.log"), Path(folder, "-x=y.log"))
    os.rename(Path(folder, "checker.bpf"), Path(folder, "$(touch stolen) *"))
    for name in ("-n", "a b\\", "$(touch stolen)", "%s"):
        words = [MACHINES, name, "./-x=y.log", "$(touch stolen) *"]
        done = sh(folder, '"$1"/lay_out "$2" 2 "$3" --sectors 4 -- "$4" && for it in 1 2; do "./$2/run_part" "$2" $it; done; "$1"/join_all "$2"', *words)
        found += differs(f"what the run in {name!r} is", (done.returncode, done.stdout, done.stderr), (1, "2\n" + whole.stdout, ""))
    return found + (["a word was run"] if Path(folder, "stolen").exists() else [])


# Words that are no number of a part. Some are a script for sed.
NO_PART = ["0", "01", "-1", "+1", " 1", "1 ", "", "x", "$", "1,2", "1p;2", "1w stolen\n1", "1e touch stolen\n1", "1.0", "5", str(2**32 + 1), str(2**64 + 1)]


def judges_no_other_part(folder):
    """What is wrong with words of run_part that name no part, and with runs that were changed."""
    found = laid_out(folder, Run(DESIGNS["two_slots/wrong"].recorded, 4), 4)[1]
    for words in [[it] for it in NO_PART] + [[], ["1", "2"]]:
        found += refused(f"the part {words!r}", sh(folder, 'run/run_part run "$@"', *words), "run_part")
    found += refused("a part of no folder", sh(folder, "run/run_part absent 1"), "run_part", "no run is laid out in ")
    # The log, a program or the parts are no longer those that were laid out.
    for name, content in (("disk.log", log([W(0, 1, 1)])), ("checker.bpf", b"\x95" + bytes(7)), ("run/parts", b"0..1\n0..1\n")):
        kept = Path(folder, name).read_bytes()
        Path(folder, name).write_bytes(content)
        found += refused(f"a part with another {name}", sh(folder, f"run/run_part run {'3' if 'parts' in name else '2'}"), "run_part")
        Path(folder, name).write_bytes(kept)
    left = sorted(it.name for it in Path(folder, "run").iterdir())
    found += differs("what is left", left, ["parts", "run", "run_part", "survey", "where", "words"])
    return found + differs("what is there", sorted(it.name for it in Path(folder).iterdir()), ["checker.bpf", "disk.log", "run"])


def at_once(folder, text, words, times=32):
    """What the same command prints, each of many times at once, and with which status."""
    calls = [subprocess.Popen(["sh", "-c", text, "sh", *map(str, words)], cwd=folder, stdout=subprocess.PIPE, text=True) for _ in range(times)]
    return {(it.communicate()[0], it.returncode) for it in calls}


def goes_at_once(folder, run):
    """What is wrong where a part is judged many times at once, and where a run is joined many times at once."""
    whole, found = laid_out(folder, run, 4)
    found += differs("what is judged", sh(folder, JUDGE, "run").returncode, 0)
    text = Path(folder, "run/text.2").read_text()
    Path(folder, "run/text.2").unlink()
    found += differs("what a part ends with", at_once(folder, "run/run_part run 2", [], 8), {("", 0)})
    found += differs("the text of a part", Path(folder, "run/text.2").read_text(), text)
    found += differs("what joins print", at_once(folder, '"$1"/join_all run', [MACHINES]), {(whole.stdout, whole.returncode)})
    left = {it.name.partition(".")[0] for it in Path(folder, "run").iterdir()}
    return found + differs("what is left", left, {"parts", "run", "run_part", "survey", "text", "where", "words"})


def joins_whole_runs_alone(folder):
    """What is wrong where the list of parts, a text or what comes out isn't that of the whole run."""
    whole, found = laid_out(folder, Run(DESIGNS["two_slots/wrong"].recorded, 4, bound=2), 4)
    found += differs("what is judged", sh(folder, JUDGE, "run").returncode, 0)
    join = '"$1"/join_all run'
    files = {it: Path(folder, "run", it).read_text() for it in ("parts", "survey", "run", "text.1", "text.4")}
    parts = files["parts"].splitlines(keepends=True)
    total = parts[-1].strip().partition("..")[2]
    lists = {
        "short": parts[:-1],
        "headless": parts[1:],
        "turned": [parts[1], parts[0], *parts[2:]],
        "with a gap": [parts[0], *parts[2:]],
        "twice": [*parts, parts[-1]],
        "empty": [],
        "cut": ["".join(parts)[:-1]],
        "one part of all": [f"0..{total}\n"],
    }
    for name, lines in lists.items():
        Path(folder, "run/parts").write_text("".join(lines))
        found += refused(f"a list of parts that is {name}", sh(folder, join, MACHINES), "join_all")
        # the same where the survey has been changed with it
        survey = [it for it in files["survey"].splitlines(keepends=True) if not it.startswith("part ")]
        Path(folder, "run/survey").write_text("".join([*survey, *(f"part {it}" for it in lines)]))
        if name != "one part of all":
            found += refused(f"a survey that is {name}", sh(folder, join, MACHINES), "join_all")
        for kept in ("parts", "survey"):
            Path(folder, "run", kept).write_text(files[kept])
    changed = {
        "run": files["run"].replace(f"{total} ", "9 "),
        "text.1": files["text.4"],
        "text.4": files["text.4"][:-1],
        "survey": files["survey"].replace(f"total {total}", "total 9"),
    }
    for name, content in changed.items():
        Path(folder, "run", name).write_text(content)
        found += refused(f"a run with another {name}", sh(folder, join, MACHINES), "join_all")
        Path(folder, "run", name).write_text(files[name])
    # What programs print that end as if all were well.
    last = whole.stdout.splitlines()[-1]
    for printed in ("", files["text.1"], whole.stdout[:-1], whole.stdout.replace(last + "\n", ""), whole.stdout.replace(last, last.replace(total, "9", 1)), whole.stdout[1:]):
        Path(folder, "printed").write_text(printed)
        Path(folder, "other").write_text("#!/bin/sh\ncat printed\nexit 1\n")
        Path(folder, "other").chmod(0o755)
        found += refused(f"{printed!r}", sh(folder, f"CRASHBPF=./other {join}", MACHINES), "join_all")
    Path(folder, "printed").write_text(whole.stdout)
    Path(folder, "other").write_text("#!/bin/sh\ncat printed\n")
    found += refused("a report whose status is 0", sh(folder, f"CRASHBPF=./other {join}", MACHINES), "join_all")
    found += refused("a full disk", sh(folder, f"{join} > /dev/full", MACHINES), "join_all")
    found += refused("no folder", sh(folder, '"$1"/join_all absent', MACHINES), "join_all")
    joined = sh(folder, join, MACHINES)
    found += differs("the report", (joined.returncode, joined.stdout), (whole.returncode, whole.stdout))
    return found + differs("what is left", list(Path(folder, "run").glob("steps*")), [])


def joins_many_parts(folder):
    """What is wrong with a run of more parts than are joined at a time. Its texts are made of its report."""
    run = Run([*DESIGNS["two_slots/wrong"].recorded, W(0, 4, 7)], 4, bound=2, tears=True)
    whole, found = laid_out(folder, run, 1003)
    head = [it for it in whole.stdout.splitlines(keepends=True) if it.startswith(("sectors ", "program "))]
    failing = [it for it in whole.stdout.splitlines(keepends=True) if it.startswith("image ")]
    inputs = Path(folder, "run/run").read_text()
    for number, part in enumerate(Path(folder, "run/parts").read_text().split(), 1):
        begin, end = map(int, part.split(".."))
        lines = [it for it in failing if begin <= int(it.split()[1]) < end]
        count = len({it.split()[1] for it in lines})
        text = ["crash part 1\n", f"part {part} of {inputs}", *head, *lines, f"images {end - begin} failing {count} lines {len(lines)}\n"]
        Path(folder, f"run/text.{number}").write_text("".join(text))
    joined = sh(folder, '"$1"/join_all run', MACHINES)
    found += differs("the report", (joined.returncode, joined.stdout, joined.stderr), (whole.returncode, whole.stdout, ""))
    Path(folder, "run/text.1002").write_text(Path(folder, "run/text.1001").read_text())
    return found + refused("a text that is there twice", sh(folder, '"$1"/join_all run', MACHINES), "join_all")


def leaves_nothing(folder):
    """What is wrong with what scripts leave where a signal ends them."""
    found = laid_out(folder, Run(DESIGNS["two_slots/wrong"].recorded, 4), 2)[1]
    found += differs("what is judged", sh(folder, JUDGE, "run").returncode, 0)
    Path(folder, "run/text.2").rename(Path(folder, "text"))
    Path(folder, "slow").write_text('#!/bin/sh\n[ "$1" != "$SLOW" ] || { echo "$1" > going; exec sleep 60; }\nexec crashbpf "$@"\n')
    Path(folder, "slow").chmod(0o755)
    calls = [("lay_out", it, f"{MACHINES}/lay_out new 2 disk.log --sectors 4 -- checker.bpf") for it in ("images", "explore")]
    calls += [("run_part", "explore", "run/run_part run 2"), ("join_all", "join", f"{MACHINES}/join_all run")]
    for name, command, words in calls:
        if name == "join_all":
            Path(folder, "text").rename(Path(folder, "run/text.2"))
        before = sorted(Path(folder).rglob("*"))
        for number in (signal.SIGTERM, signal.SIGINT, signal.SIGHUP):
            surroundings = {**os.environ, "CRASHBPF": str(Path(folder, "slow")), "SLOW": command}
            call = subprocess.Popen(words.split(), cwd=folder, env=surroundings, stdout=subprocess.PIPE, stderr=subprocess.PIPE, start_new_session=True)
            while not Path(folder, "going").exists() and call.poll() is None:
                time.sleep(0.02)
            call.send_signal(number)
            try:
                printed = call.communicate(timeout=20)[0]
            except subprocess.TimeoutExpired:
                os.killpg(call.pid, signal.SIGKILL)
                printed = call.communicate()[0]
            found += differs(f"what {name} ends with at {number.name}", (call.returncode, printed), (2, b""))
            Path(folder, "going").unlink(missing_ok=True)
            found += differs(f"what {name} leaves at {number.name}", sorted(Path(folder).rglob("*")), before)
            shutil.rmtree(Path(folder, "new"), ignore_errors=True)
    return found


def compared(folder, commands, stored, keep):
    """What is wrong with commands of docs/CI.md that compare a run with what is stored of one; `keep` stores it."""
    Path(folder, "check.bpf").write_bytes((TOP / "examples/two_slots/checker.bpf").read_bytes())
    found = []
    # The log of which a report is stored, the log at hand, and the status.
    for known, at_hand, status in (("wrong", "wrong", 0), ("wrong", "right", 1), ("right", "wrong", 1), ("right", "right", 0)):
        shutil.copy(LOGS / f"two_slots/{known}.log", Path(folder, "writes.log"))
        Path(folder, stored).unlink(missing_ok=True)
        sh(folder, keep)
        shutil.copy(LOGS / f"two_slots/{at_hand}.log", Path(folder, "writes.log"))
        done = sh(folder, commands)
        found += differs(f"the status of {at_hand} beside {known}", done.returncode, status)
    Path(folder, "writes.log").write_bytes(b"no log")
    return found + differs("the status of a refusal", sh(folder, commands).returncode, 2)


def known_failures(folder):
    """What is wrong with both commands of docs/CI.md that compare, each beside what was stored of its own report."""
    text = (TOP / "docs/CI.md").read_text().partition("## Known failures")[2].partition("\n## ")[0]
    blocks = re.findall(r"```sh\n(.*?)```", text, re.S)
    if len(blocks) != 2:
        return ["docs/CI.md hasn't both commands"]
    by_report, answers = blocks
    # The second block stands in place of the third line of the first.
    lines = by_report.splitlines(keepends=True)
    by_answers = "".join([*lines[:2], answers, *lines[3:]])
    found = compared(folder, by_report, "known.report", by_report.replace("new.report", "known.report"))
    return found + compared(folder, by_answers, "known.answers", by_answers.replace("new.answers", "known.answers"))


def cases_in_parts(folder):
    """What is wrong with the commands of the page that judge cases in parts, beside the run of all cuts."""
    page = (MACHINES / "README.md").read_text().partition("**With any number of losses**")[2]
    commands = re.search(r"\n\n((?:    .*\n)+)", page)[1]
    found = []
    for design in ("two_slots/wrong", "two_slots/right"):
        shutil.copy(LOGS / f"{design}.log", Path(folder, "disk.log"))
        shutil.copy(TOP / "examples/two_slots/checker.bpf", Path(folder, "check.bpf"))
        shutil.rmtree(Path(folder, "texts"), ignore_errors=True)
        done = sh(folder, commands)
        whole = sh(folder, "crashbpf explore disk.log check.bpf --sectors 64 --bound any")
        found += differs(f"what is joined of {design}", (done.returncode, Path(folder, "cases").read_text()), (whole.returncode, whole.stdout))
        found += [] if len(list(Path(folder, "texts").iterdir())) > 2 else ["there are no parts"]
    return found


# A program of yours: by two bytes of the image it accepts it, rejects it, is killed, or takes too long. Without the file `go` it goes no further
# than the image without a byte.
JUDGE_OWN = """\
first=$(od -A n -t u1 -N 1 "$1") last=$(od -A n -t u1 -j 1536 -N 1 "$1")
[ $((first)) = 0 ] || [ -e go ] || exec sleep 60
case $((first)).$CRASH_MARKS.$((last)) in 1.*) exit 201 ;; 2.0.*) kill -9 $$ ;; 3.*.7) sleep 60 ;; esac
"""
OWN = Run([W(0, 1, 1), W(1, 1, 2), F, W(0, 1, 2), M("one"), W(2, 1, 4), F, W(0, 1, 3), W(3, 1, 7)], 4, bound=2)
OF_OWN = "--timeout 2 -- sh judge {}"


def own_texts(folder, run, parts, options=""):
    """Puts a log and a program of yours there. Returns the run by one process, and the texts of its parts, which are made of the report of all
    failing images."""
    Path(folder, "disk.log").write_bytes(log(run.recorded))
    Path(folder, "judge").write_text(JUDGE_OWN)
    Path(folder, "go").touch()
    of_all = sh(folder, f'"$EACH" disk.log {run.options()} {OF_OWN}')
    whole = sh(folder, f'"$EACH" disk.log {run.options()} {options} {OF_OWN}') if options else of_all
    lines = of_all.stdout.splitlines(keepends=True)
    head = [it for it in whole.stdout.splitlines(keepends=True) if it.startswith(("sectors ", "program "))]
    total, texts = int(lines[-1].split()[1]), []
    for start, end in layout(total, parts):
        failing = [it for it in lines if it.startswith("image ") and start <= int(it.split()[1]) < end]
        count = f"first {failing[0].split()[1] if failing else 'none'}" if options else f"failing {len(failing)} lines {len(failing)}"
        failing = failing[:1] if options else failing
        texts.append("".join([PART_LINE, f"part {start}..{end} of {total} inputs {lines[1].split()[1]}\n", *head, *failing, f"images {end - start} {count}\n"]))
    return whole, texts


def kills_own_part(folder, part):
    """What is wrong where a part of a program of yours is killed after its first image."""
    Path(folder, "go").unlink()
    running = subprocess.Popen(["run/run_part", "run", str(part)], cwd=folder, stderr=subprocess.PIPE, text=True)
    state = Path(folder, f"run/kept.{part}/state")
    wait_for_lines(state, "image ", 1)
    os.kill(int(Path(f"/proc/{running.pid}/task/{running.pid}/children").read_text().split()[0]), signal.SIGKILL)
    found = differs("a part that was killed", (running.wait(), Path(folder, f"run/text.{part}").exists()), (2, False))
    Path(folder, "go").touch()
    # (what the killed process started ends by itself)
    time.sleep(2)
    return found + differs("what is left of it", state.read_text().count("\nimage "), 1)


def judges_own_in_parts(folder, run, parts, options="", killed=None):
    """What is wrong with the parts of a run of a program of yours with a bound, one of which may be killed and taken up again, and with their
    join."""
    whole, texts = own_texts(folder, run, parts, options)
    done = sh(folder, f'"$1"/lay_out_each run {parts} disk.log {run.options()} {options} -j 1 {OF_OWN}', MACHINES)
    found = differs(f"the status of lay_out_each: {done.stderr}", done.returncode, 0)
    found += kills_own_part(folder, killed) if killed else []
    none = sh(folder, '"$1"/join_each run', MACHINES)
    found += differs("the status where no part is judged", (none.returncode, none.stdout), (2, ""))
    found += differs("what is judged by processes", sh(folder, JUDGE, "run").returncode, 0)
    judged = {it.name: it.read_text() for it in Path(folder, "run").glob("text.*")}
    wanted = {f"text.{number}": text for number, text in enumerate([*texts, *[""] * (parts - len(texts))], 1)}
    found += [f"{it} is {judged.get(it)!r}, and {wanted.get(it)!r} is right" for it in sorted(judged.keys() | wanted.keys()) if judged.get(it) != wanted.get(it)]
    joined_by = sh(folder, '"$1"/join_each run', MACHINES)
    return found + differs("the report", (joined_by.returncode, joined_by.stdout, joined_by.stderr), (whole.returncode, whole.stdout, ""))


# Lines of a part of a program of yours, and what stands there in their place: no part has these, but the last two.
CHANGED = {
    "crash part 1\n": ["crash part 2\n", "crash report 2\n", "", "crash cases 1\n"],
    "program 0 outside sh judge {}\n": ["program 0 slots 2 budget 2\n", "program 0 outside \n", "program 1 outside sh judge {}\n", "program 0 outside sh judge {}\nprogram 1 outside x\n"],
    "signal 9 ": ["signal 0 ", "signal 128 ", "signal 09 ", "signal  9 ", "stray at slot 9 ", "fault 81 slot 0 ", "out of steps ", "answer 0 codes - ", "answer 256 codes - ", "answer 1 codes 1 "],
    "program 0 signal 9 choice": ["program 1 signal 9 choice", "signal 9 choice"],
    " bound 2 ": [" bound 4 ", " bound 1 "],
    "of 23 inputs ": ["of 22 inputs ", "of 023 inputs ", "of 23 inputs 1"],
    "outside sh judge {}": ["outside sh other {}", "outside sh judge  {}"],
    "signal 9": ["signal 127", "out of time"],
}


def refuses_other_parts(folder):
    """What is wrong with parts of a program of yours that aren't joined: all is compared with the model."""
    whole, texts = own_texts(folder, OWN, 4)
    other = own_texts(folder, Run(OWN.recorded[:-1] + [W(3, 1, 8)], 4, bound=2), 4)[1]
    lists = [texts, texts[::-1], texts[:1], texts[1:], texts[:2] + texts[3:], [*texts, texts[1]], texts[:3], [texts[0], *other[1:]], [*other[:2], *texts[2:]], [other[3], *texts[:3]]]
    failing = next(number for number, it in enumerate(texts) if " signal 9 " in it)
    for line, others in CHANGED.items():
        assert line in texts[failing], line
        lists += [[*texts[:failing], texts[failing].replace(line, it, 1), *texts[failing + 1 :]] for it in others]
    lists += [[texts[0][:-1], *texts[1:]], [texts[0] + "x", *texts[1:]], [*texts[:3], texts[3] + texts[3]]]
    found = differs("the join of the model", joined([it.encode() for it in texts], outside=True), (1, whole.stdout.encode()))
    for number, some in enumerate(lists):
        for place, text in enumerate(some):
            Path(folder, f"t{place}").write_text(text)
        status, wanted = joined([it.encode() for it in some], outside=True)
        done = sh(folder, '"$EACH" --join "$@"', *(f"t{it}" for it in range(len(some))))
        if status < 2:
            found += differs(f"join {number}", (done.returncode, done.stdout.encode(), done.stderr), (status, wanted, ""))
        else:
            said = f"crashbpf-each: refused {wanted[0]} at {wanted[1]}"
            found += differs(f"join {number}", (done.returncode, done.stdout, done.stderr.startswith(said)), (2, "", True)) + ([] if done.stderr.startswith(said) else [f"{said}: {done.stderr}"])
    return found + refused("no part", sh(folder, '"$EACH" --join'), "crashbpf-each", "--join takes ") + refused("no file", sh(folder, '"$EACH" --join absent'), "crashbpf-each", "")


def rows():
    """Yields the name of each row and what looks at it."""
    writes = DESIGNS["two_slots/wrong"].recorded
    yield "a run in parts", lambda folder: judges_in_parts(folder, Run(writes, 4, bound=2, tears=True), 16, "--workers 2")
    yield "the first failing image of a run in parts", lambda folder: judges_in_parts(folder, Run(writes, 4, bound=2), 5, "--first")
    yield "the cases of a run in parts", cases_in_parts
    yield "a program of yours in parts", lambda folder: judges_own_in_parts(folder, OWN, 5, killed=1)
    yield "more parts than images", lambda folder: judges_own_in_parts(folder, Run([W(0, 1, 1)], 4), 5)
    yield "the first failing image of a program of yours in parts", lambda folder: judges_own_in_parts(folder, OWN, 4, "--first")
    yield "parts of a program of yours that aren't joined", refuses_other_parts
    yield "a part that is killed", lambda folder: kills_a_part(folder, Run(writes, 4, bound=2, tears=True))
    yield "runs that can't be laid out", lays_out_no_other
    yield "odd names of runs", takes_odd_folders
    yield "no part of a run", judges_no_other_part
    yield "parts and joins at once", lambda folder: goes_at_once(folder, Run(writes, 4, bound=2, tears=True))
    yield "what isn't the whole run", joins_whole_runs_alone
    yield "more than a thousand parts", joins_many_parts
    yield "signals", leaves_nothing
    yield "known failures", known_failures


if __name__ == "__main__":
    sys.exit(try_all(sys.argv[1:], rows()))
