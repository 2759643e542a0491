"""Every loss of any number: rounds of what is wanted, judged on served images, until nothing is wanted any more."""
import contextlib
import functools
import os
import sys
from collections import deque
from typing import NamedTuple

from commands.each import product
from commands.each.again import Again
from commands.each.asking import AskedStep
from commands.each.crew import Crew
from commands.each.curing import Cure
from commands.each.progress import Progress
from commands.each.known import Known
from commands.each.records import Records, head_of, record
from commands.each.runner import ALONE, COMPARED, FIRST, STARTED
from commands.each.second_records import AgainRecords
from commands.each.served_mount import Mount
from commands.each.served_runner import ServedRunner
from commands.each.spot import Cases, compare
from commands.each.step import Step, images_of
from commands.each.stream import Image
from commands.shared.faults import Refusal
from commands.shared.verdicts import OUT_OF_TIME, SIGNAL, Verdict

RECORDS = "crashbpf-each.known"
SECONDS = 0.25
# Each image of as many is run again.
AGAIN = 16
KILLED = 9


class Job(NamedTuple):
    """An image to run, in which turn; and what it came to before, or None where it wasn't run or that doesn't count."""

    image: Image
    turn: int = FIRST
    verdict: Verdict | None = None
    looked: str = ""


class Seen(NamedTuple):
    """What was seen of a run: what it ended in, at which sectors it looked, and what it did to its image where that was noted."""

    verdict: Verdict
    looked: str
    log: bytes


def is_doubtful(verdict):
    """Whether it may be the machine that was slow or short of memory, and not the image."""
    return verdict.kind == OUT_OF_TIME or verdict == (SIGNAL, KILLED)


def first_number(folder):
    """Returns a number above those of the images that are kept in a folder, if there is one."""
    kept = [it.split(".")[0] for it in os.listdir(folder)] if folder else []
    return max((int(it) + 1 for it in kept if it.isdigit()), default=0)


class Rounds:
    """The rounds of a run. `runs` counts how often the program was run, `judged` the images."""

    def __init__(self, given, records, crew, marks):
        self.records, self.crew, self.marks, self.most = records, crew, marks, given.runs
        self.is_told = None
        self.round = self.runs = self.judged = self.failing = self.left = self.compared = 0
        self.jobs, self.at, self.alone, self.first = deque(), {}, deque(), first_number(given.keep)
        # The first image that failed and the last one that didn't, by whether they are good, each with what it came to.
        self.ends = {}

    def go(self, step):
        """Judges until a step wants nothing, and returns that step. Where more is wanted than --runs says, one that ends each cut at its first
        failing case goes on."""
        while wanted := step.wanted():
            stops = step.given.has("--stop-at-failing")
            if not stops and self.most is not None and self.records.known.count + len(wanted) > self.most:
                step = step.asking({"--stop-at-failing": True})
                continue
            self.round, self.is_told, before = self.round + 1, step.is_told, self.judged
            self.judge(map(Job, wanted), len(wanted), stops)
            if self.judged == before:
                raise Refusal("crashbpf wants images that records tell: this is a bug of crashbpf-each")
        return step

    def compare(self):
        """Runs the first image that failed and the last one that didn't once more, of those since this was done last. Returns whether one of
        them is a second record."""
        jobs, before, self.ends = list(self.ends.values()), self.records.known.count, {}
        self.judge(jobs, len(jobs), False)
        self.compared += len(jobs)
        return self.records.known.count != before

    def go_to_end(self, step):
        """Judges until a step wants nothing, and compares. Returns that step."""
        step = self.go(step)
        return self.go(step) if self.compare() else step

    def go_on(self, again):
        """Judges what a second crash leaves, until nothing is wanted. What is found stands in other records."""
        self.records = again
        self.go_to_end(again)

    def judge(self, jobs, count, stops):
        """Does the jobs of a round, as many at a time as there are runners, and in the end by itself what was doubtful."""
        progress, before = Progress(count), self.judged
        self.jobs.extend(jobs)
        try:
            while self.jobs or self.at or self.alone:
                self.hand_out()
                self.hear(stops)
                progress.say(self.judged - before, self.judged - before, self.failing)
        finally:
            progress.end()

    def hand_out(self):
        """Gives jobs to idle runners, but for images that a record tells by now; one that is doubtful only where all are idle."""
        while self.jobs and (seat := self.crew.idle()) is not None:
            job = self.jobs.popleft()
            if job.turn != FIRST or not self.is_told(job.image):
                self.tell(seat, job)
        if not self.at and self.alone:
            self.tell(self.crew.idle(), self.alone.popleft())

    def tell(self, seat, job):
        """Tells a runner of an image, under a number of its own."""
        if job.image.marks > len(self.marks):
            raise Refusal(f"image {job.image.number} has more marks than the log")
        number, self.runs = self.first + self.runs, self.runs + 1
        self.at[number] = job
        seat.tell(job.image._replace(number=number), self.marks[job.image.marks - 1] if job.image.marks else b"", job.turn)

    def hear(self, stops):
        """Waits for verdicts, but not for long."""
        for number, verdict, left, said in self.crew.heard(SECONDS):
            job = self.at.pop(number)
            self.left += left
            looked, _end, log = said.partition(b"\n")
            self.settle(job, Seen(verdict, looked.decode(), log), stops)

    def pass_over(self, failing):
        """Leaves out what comes after a failing image at its cut: it isn't wanted any more."""
        self.jobs = deque(it for it in self.jobs if it.turn != FIRST or it.image.cut != failing.cut or it.image.number < failing.number)

    def settle(self, job, seen, stops):
        """Records a verdict, or compares it with the one before."""
        verdict, looked, log = seen
        if is_doubtful(verdict) and job.turn == FIRST:
            self.alone.append(job._replace(turn=ALONE))
        elif job.verdict is None:
            self.records.add(job.image, verdict, looked, log)
            self.judged += 1
            self.failing += not verdict.is_good()
            if not verdict.is_good() and stops:
                self.pass_over(job.image)
            if self.judged % AGAIN == 0:
                self.jobs.append(job._replace(turn=COMPARED, verdict=verdict, looked=looked))
            if verdict.is_good() or not is_doubtful(verdict) and False not in self.ends:
                self.ends[verdict.is_good()] = job._replace(turn=STARTED, verdict=verdict, looked=looked)
        elif verdict != job.verdict:
            self.records.write(f"{record(job.image, verdict, looked)}\n")
            where = f"cut {job.image.cut} choice {job.image.choice.decode().partition(' of ')[0]}"
            raise Refusal(f"run again on one image the program ends otherwise, so it looks at more than the image: {job.verdict.text()}, then {verdict.text()}, at {where}")
        elif looked != job.looked:
            self.records.add(job.image, verdict, looked, log)


def of_part(program, given):
    """Returns the words for the cuts of a part, or none where there are more parts than cuts."""
    part, parts = given.part
    ranges = product.parts(program, given, parts)
    return given.asking(dict(zip(("--from", "--to"), ranges[part - 1]))) if part <= len(ranges) else None


class Answer(NamedTuple):
    """The exit status, what is printed, what is noted, and the words of the run that the text is of."""

    status: int
    text: bytes
    said: list
    given: object


def judged_part(step, rounds, path):
    """Judges a part. Its text are its records, and its status is that of the text of its cuts."""
    given = of_part(step.program, step.given)
    status = 0 if given is None else rounds.go_to_end(step.of(given)).text()[0]
    with open(path, "rb") as file:
        return Answer(status, file.read(), [], step.given)


def answer(given, step, rounds, path):
    """Does what is asked for: a cure, a part, or the text of cases."""
    if given.cure:
        cure = Cure(step, rounds)
        status, text, said = cure.go()
        return Answer(status, text, said, cure.step.given)
    if given.part:
        return judged_part(step, rounds, path)
    step = rounds.go_to_end(step)
    if given.again:
        again = Again(step, rounds.records.second)
        rounds.go_on(again)
        return Answer(*again.text(), again.given)
    return Answer(*step.text(), step.given)


def judged_any(given, program, folder, say, test_unchanged):
    """Judges every loss, and prints what is asked for. Returns the exit status."""
    path = os.path.join(given.keep, "known") if given.keep else RECORDS
    marks, notes = product.marks(program, given)
    known = Known(images_of(given), head_of(product.inputs(program, given, folder), given))
    # (a second level goes on with the cases of the first, so there the search of both is that of a script)
    step = Step(program, given, folder, known) if given.again else AskedStep(program, given, known, path)
    records, done = AgainRecords(path, known, given.resume, given.skipped) if given.again else Records(path, known, given.resume), False
    try:
        with served_rounds(given, records, marks, folder) as rounds:
            found = answer(given, step, rounds, path)
        if given.spot:
            compare(found.given, program, Cases(found.text.decode()), marks, folder)
        test_unchanged()
        sys.stdout.buffer.write(found.text)
        sys.stdout.buffer.flush()
        done = True
    finally:
        records.end(bool(given.keep) or not done and known.count > 0)
    for note in [*notes, *found.said]:
        say(note)
    compared = f", and on {rounds.compared} of them once more at the end" if rounds.compared else ""
    say(f"note: the program was run {rounds.runs - rounds.compared} times, on {rounds.judged} images, in {rounds.round} rounds{compared}")
    if given.spot:
        say("note: as plain files {} choices by the seed {} end as their cases do".format(*given.spot))
    if rounds.left:
        say(f"note: after {rounds.left} images the program left processes running, which were ended")
    return found.status


@contextlib.contextmanager
def served_rounds(given, records, marks, folder):
    """Gives rounds on a mount of their own, which is gone afterwards."""
    mount = Mount(folder, records.known.images, given.runners, logs=records.second.logs if given.again else None)
    try:
        crew = Crew(folder, given, functools.partial(ServedRunner, mount=mount))
        try:
            mount.handed_over()
            yield Rounds(given, records, crew, marks)
        finally:
            crew.end()
    finally:
        mount.end()
