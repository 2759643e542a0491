"""Explores every loss of any number of writes: what crashbpf-each finds with `--bound any`, on images that it serves.

All failing cases are found up to a number of runs of the check, and from there on each cut's first one. What fails is judged once more on
files that are laid out, and has to end alike. Where images can't be served it explores as `Bounded` does.
"""
import os
import re
import subprocess
import sys
import tempfile
from pathlib import Path

from commands.each.served_mount import missing
from commands.each.spot import CASE
from commands.shared import recording
from commands.shared.faults import Refusal
from commands.test.explore import Bounded, Case, Found, choice_of, lost_of, whole_loss

EACH, MAP = str(Path(__file__).resolve().parents[1] / "each/crashbpf-each"), "files.txt"
# After as many runs a cut is left at its first failing case, and at as many cases: a check that reads all that is in flight has very many.
MOST_RUNS, MOST_CASES = 500, 500
TOTALS = re.compile(r"cuts \d+ cases (\d+) failing \d+ torn beyond \d+ lost beyond \d+ open \d+ stopped (\d+)( complete| of these cuts)?")
RUNS = re.compile(r"note: the program was run (\d+) times")


def first_line(said):
    """Returns why crashbpf-each doesn't do what was asked for."""
    lines = [it.removeprefix("crashbpf-each: ") for it in said.splitlines() if it.startswith("crashbpf-each: ") and ": note: " not in it]
    return lines[0] if lines else "crashbpf-each says nothing"


class Every(Bounded):
    """Explores every loss. `check` are the words of the check, `runners` how many run at a time, `seconds` what each may take."""

    def __init__(self, judge, check, runners, seconds, say=lambda text: None):
        self.check, self.lacking = check, missing()
        super().__init__(judge, None if self.lacking else 1, False, say)
        self.options = ["--bound", "any", "--runs", str(MOST_RUNS), "--cases", str(MOST_CASES), "-j", str(runners), "--timeout", str(seconds)]

    def explore(self, log, until=None):
        """Explores a log. It ends early where `until` says so of a case that fails, which one lost write may show already."""
        if self.lacking:
            found = super().explore(log, until)
            found.scope += "" if found.complete else f"; every loss can't be judged: {self.lacking}"
            return found
        found = super().explore(log, until) if until else Found()
        return found if found.stopped else self.every(log)

    def every(self, log):
        """Judges every loss of a log."""
        self.say("every loss of any number of writes")
        failing, count, left = [], 0, 0
        is_whole = True
        for stretch in log.stretches():
            text, runs = self.judged(log, stretch)
            lines = text.splitlines()
            totals = TOTALS.fullmatch(lines[-1]) if lines else None
            if not totals:
                raise Refusal("crashbpf-each prints no text of cases")
            self.judge.runs += runs
            failing += [self.case(log, it, stretch) for it in map(CASE.fullmatch, lines) if it]
            count, left, is_whole = count + int(totals[1]), left + int(totals[2]), is_whole and bool(totals[3])
        stopped = "" if is_whole else f"; at {left} cuts not to the end"
        scope = f"every loss of any number of writes, each of them whole{stopped}"
        return Found(list(dict.fromkeys(failing)), count, scope, is_whole, cut_short=left != 0)

    def case(self, log, line, stretch):
        """Returns a failing case, which has to fail alike where its files are laid out."""
        cut, lost = stretch.whole_cut(int(line["cut"])), whole_loss(lost_of(line["choice"]), stretch)
        seen = log.at(cut, lost)
        verdict = self.judge.of(seen, cut, choice_of(lost)).verdict
        if verdict.text() != line["ending"]:
            raise Refusal(f"the check ends otherwise on files that are laid out, {verdict.text()} and not {line['ending']}, at cut {cut} choice {choice_of(lost)}")
        return Case(cut, lost, seen.key)

    def judged(self, log, stretch):
        """Returns the text of cases that crashbpf-each prints of what a log for it has, and how often it ran the check."""
        with tempfile.TemporaryDirectory(dir=self.judge.folder) as folder:
            is_large = "--large" in log.write(folder, stretch)
            Path(folder, MAP).write_text(log.map_text())
            recording.Recording(folder, log.sectors, is_large, base="base.img", map=MAP, first=stretch.first).write()
            words = [sys.executable, EACH, *self.options, folder, "--", *self.check]
            running = subprocess.Popen(words, cwd=folder, stdin=subprocess.DEVNULL, stdout=subprocess.PIPE, stderr=subprocess.PIPE, env={**os.environ, "CRASHBPF": self.program})
            try:
                printed, said = running.communicate()
            finally:
                running.terminate()
                running.wait()
        said = said.decode(errors="replace")
        if running.returncode not in (0, 1, 3):
            raise Refusal(f"every loss can't be judged: {first_line(said)}")
        ran = RUNS.search(said)
        return printed.decode(), int(ran[1]) if ran else 0
