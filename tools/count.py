#!/usr/bin/env python3
"""Runs the parts of the gate, some of them side by side, and ends with one line that counts over all of them.

    tools/count.py COMMAND .. [--beside COMMAND ..] .. [--after COMMAND ..] .. [--alone COMMAND ..] ..

The first command begins at once. Those after `--beside` need nothing of it: they run beside it, one at a time, with less
priority. Where it ended before them, the rest of them run in two lanes. When all these have ended, those after `--after` run in two
lanes, in their order. Last come those after `--alone`, which nothing may disturb. `ROOM` in a word stands for a folder that all commands share,
and that is removed at the end.

What each part prints is printed whole, in the order of the words above, but for its last line `N passed, M failed`, or `N refused,
M not` of wrong bodies, each of which is to be refused. Then comes a table of what each part took, and what it counted. The last
line has the sums. A part that fails, has no such line, is ended by a signal or can't be started counts as one failure where it
counted none. When a part has failed, no other is started, and those that run are waited for. The status is 0 where nothing failed.
What runs is ended where this is ended by a signal. tests/gate/count.py tests it.
"""
import os
import queue
import re
import shutil
import signal
import subprocess
import sys
import tempfile
import threading
import time

COUNTS = re.compile(r"(\d+) (?:passed|refused), (\d+) (?:failed|not)")
KINDS = ("--beside", "--after", "--alone")
# How many parts run side by side when the first has ended. Most of them use all processors by themselves.
LANES = 2
# The nice value of what runs beside the first command: some quarter of a processor where all are at work. With less it would hold its
# memory for longer.
LOW = 5
# How often it is looked whether a part printed more, in seconds.
LOOKS = 0.2


class Part:
    """A command, the file that gets what it prints, and what came of it."""

    def __init__(self, words, room, output):
        self.words, self.output = [re.sub(r"\bROOM\b", room, it) for it in words], output
        self.name = re.sub(r"^(nice -n \d+ )?(python3 )?", "", " ".join(words))
        self.begun, self.ended = threading.Event(), threading.Event()
        self.group = self.fault = None
        self.wall = self.seconds = 0.0
        self.passed = self.failed = 0
        self.has_counted = False

    def run(self, is_low):
        """Runs the command to its end, with less priority where that is asked for."""
        began = time.time()
        try:
            self.wait(is_low)
        except OSError as error:
            self.fault = f"can't be started: {error}"
        self.wall = time.time() - began
        self.count()
        self.begun.set()
        self.ended.set()

    def wait(self, is_low):
        """Starts the command and waits for it."""

        def prepare():
            # A group of its own, to end it by; no session, since Linux may give each an equal share of the processors.
            os.setpgid(0, 0)
            os.nice(LOW if is_low else 0)

        with open(self.output, "wb") as out:
            started = subprocess.Popen(self.words, stdin=subprocess.DEVNULL, stdout=out, stderr=subprocess.STDOUT, preexec_fn=prepare)
        self.group = started.pid
        self.begun.set()
        _, status, used = os.wait4(started.pid, 0)
        started.returncode = os.waitstatus_to_exitcode(status)
        self.group, self.seconds = None, used.ru_utime + used.ru_stime
        if started.returncode < 0:
            self.fault = f"was ended by signal {-started.returncode}"
        elif started.returncode:
            self.fault = f"ended with status {started.returncode}"

    def count(self):
        """Reads what it counted. What failed without a count is one failure."""
        if os.path.exists(self.output):
            with open(self.output, encoding="utf-8", errors="replace") as file:
                for line in file:
                    found = COUNTS.fullmatch(line.strip())
                    if found:
                        self.passed, self.failed, self.has_counted = int(found[1]), int(found[2]), True
        if not self.has_counted:
            self.fault = f"{self.fault or 'ended with status 0'}, and counted nothing"
        if self.fault and not self.failed:
            self.failed = 1


class Gate:
    """The parts by kind, and whether one of them failed."""

    def __init__(self, room, parts):
        self.room, self.parts = room, parts
        self.first, self.is_stopped = parts[0][1], False

    def of(self, kind):
        return [part for it, part in self.parts if it == kind]

    def run(self, part, is_low=False):
        """Runs a part, but where one failed before."""
        if self.is_stopped:
            part.begun.set()
            part.ended.set()
            return
        part.run(is_low)
        self.is_stopped = self.is_stopped or part.failed > 0

    def lane(self, left, is_low=False):
        """Begins a lane that runs what is left of a queue of parts, in its order, and returns its thread."""

        def run_all():
            while True:
                try:
                    part = left.get_nowait()
                except queue.Empty:
                    return
                self.run(part, is_low and not self.first.ended.is_set())

        thread = threading.Thread(target=run_all)
        thread.start()
        return thread

    def queue(self, kind):
        """Returns the parts of a kind as a queue."""
        left = queue.SimpleQueue()
        for part in self.of(kind):
            left.put(part)
        return left

    def work(self):
        """Runs all parts."""
        beside, after = self.queue("--beside"), self.queue("--after")
        lanes = [self.lane(beside, is_low=True)]
        self.run(self.first)
        lanes += [self.lane(beside) for _ in range(LANES - 1)]
        for it in lanes:
            it.join()
        for it in [self.lane(after) for _ in range(LANES)]:
            it.join()
        for part in self.of("--alone"):
            self.run(part)

    def end(self, number, _frame):
        """Ends what runs, and this process. What its threads meet by that is no news."""
        self.is_stopped, threading.excepthook = True, lambda _: None
        for _, part in self.parts:
            if part.group:
                try:
                    os.killpg(part.group, signal.SIGTERM)
                except OSError:
                    pass
        shutil.rmtree(self.room, ignore_errors=True)
        signal.signal(number, signal.SIG_DFL)
        os.kill(os.getpid(), number)


def parts_in(words, room):
    """Returns the commands in the words, each with its kind."""
    found = [("first", [])]
    for word in words:
        if word in KINDS:
            found.append((word, []))
        else:
            found[-1][1].append(word)
    if not all(command for _, command in found):
        sys.exit(__doc__)
    return [(kind, Part(command, room, f"{room}/output-{number}")) for number, (kind, command) in enumerate(found)]


def lines_of(part):
    """Yields the lines that a part prints, as it prints them, but for those that count."""
    part.begun.wait()
    if not os.path.exists(part.output):
        return
    with open(part.output, encoding="utf-8", errors="replace", newline="\n") as file:
        begun = ""
        while True:
            is_last = part.ended.is_set()
            line = begun + file.readline()
            if line.endswith("\n") or line and is_last:
                begun = ""
                if not COUNTS.fullmatch(line.strip()):
                    yield line if line.endswith("\n") else f"{line}\n"
            elif is_last:
                return
            else:
                begun = line
                time.sleep(LOOKS)


def tell(part):
    """Prints what a part prints, and at its end what was wrong with it."""
    for line in lines_of(part):
        print(line, end="", flush=True)
    part.ended.wait()
    if part.fault:
        print(f"{part.name}: {part.fault}", flush=True)
    elif not part.has_counted:
        print(f"{part.name}: wasn't started, since another part failed", flush=True)


def table(parts):
    """Returns the table of what the parts took and counted."""
    lines = ["", "| Part | Wall, minutes | Processor, minutes | Passed | Failed |", "|---|---|---|---|---|"]
    for part in parts:
        lines.append(f"| {part.name} | {part.wall / 60:.1f} | {part.seconds / 60:.1f} | {part.passed} | {part.failed} |")
    return "\n".join(lines)


def main(words):
    with tempfile.TemporaryDirectory(prefix="crashbpf-gate-") as room:
        gate = Gate(room, parts_in(words, room))
        for number in (signal.SIGTERM, signal.SIGHUP, signal.SIGINT):
            signal.signal(number, gate.end)
        began = time.time()
        work = threading.Thread(target=gate.work)
        work.start()
        parts = [part for _, part in gate.parts]
        for part in parts:
            tell(part)
        work.join()
    print(table(parts))
    print(f"| all | {(time.time() - began) / 60:.1f} | {sum(it.seconds for it in parts) / 60:.1f} | | |\n")
    failed = sum(it.failed for it in parts)
    print(f"{sum(it.passed for it in parts)} passed, {failed} failed")
    return 1 if failed else 0


if __name__ == "__main__":
    sys.exit(main(sys.argv[1:]))
