"""Records of a program in place of checkers, and the texts that are told by them, in the plainest form.

Written from docs/OUTPUT.md, 'Records of a program of yours', and from nothing of what is tested. The search is that of cases_model.py, with
records as the judge.
"""
import re
from collections import Counter
from dataclasses import dataclass

from cases_model import ANY, TORN, Cut, View, at_risk, cases, image_said, judged_cuts, status
from export_model import exported_images
from model import Checker, Run, covered
from notation import log
from parts_model import NUMBER, WideRun, number_of

TITLE = "crash known 1"
INPUTS = re.compile(f"inputs ({NUMBER})")
PROGRAM = re.compile(r"program 0 (outside [ -~]+)")
SUM = re.compile(r"sum [!-~]{1,128}")
RANGE = f"{NUMBER}(?:-{NUMBER})?"
RECORD = re.compile(
    f"ran cut (?P<cut>{NUMBER}) choice (?P<choice>[!-~]+) marks (?P<marks>{NUMBER}) "
    f"(?:answer (?P<answer>{NUMBER})|signal (?P<signal>{NUMBER})|out of time) looked (?P<looked>-|{RANGE}(?:,{RANGE})*)"
)
# How many records a text may have, how many bytes, and how many cases a run.
MOST_RECORDS, MOST_BYTES, MOST_CASES = 1 << 20, 1 << 30, 1 << 24
# Numbers of refusals.
TOO_MANY, NO_RECORD, OTHER_RUN, CONTRADICTED = 12, 17, 18, 19


class Refused(Exception):
    """A refusal: its number and its place."""


@dataclass(frozen=True)
class Record:
    """A record: its line, the number of its marks, what the program ended in, and what each sector holds at which it looked, in order."""

    line: int
    marks: int
    text: str
    found: dict

    @property
    def good(self):
        return self.text == "answer 0 codes -"

    def tells(self, image, marks):
        """Whether it tells an image, which is given as a function of a sector."""
        return marks == self.marks and all(image(sector) == content for sector, content in self.found.items())

    def contradicts(self, other):
        both = [it for it in self.found if it in other.found]
        return (self.marks, self.text == other.text) == (other.marks, False) and all(self.found[it] == other.found[it] for it in both)


# The text of records


def inputs_line(run):
    """Returns what a run's images hang on beside the log."""
    return f"sectors {run.sectors} entries {len(run.entries)} by {run.by}{run.told_of_base()}\n"


def inputs_of(run, content=None):
    """The number of a run, by the bytes of its log."""
    return number_of([log(run.recorded) if content is None else content, inputs_line(run).encode()])


def unflushed(run):
    """The run of all images that a record may be of."""
    return WideRun(run.recorded, run.sectors, tears=True, by=run.by, base=run.base)


def ending_of(found):
    """What a record's program ended in, as a report has it; None where no program does."""
    if found["answer"] is not None:
        return f"answer {found['answer']} codes -" if int(found["answer"]) <= 255 else None
    if found["signal"] is not None:
        return f"signal {found['signal']}" if 1 <= int(found["signal"]) <= 127 else None
    return "out of time"


def looked_of(text, sectors):
    """The sectors of a list of ranges, in order; None where it is none of a device with that many sectors."""
    found = {}
    for it in [] if text == "-" else text.split(","):
        first, _, last = it.partition("-")
        first, last = int(first), int(last or first)
        if last >= sectors or "-" in it and first >= last or any(sector in found for sector in range(first, last + 1)):
            return None
        found.update(dict.fromkeys(range(first, last + 1)))
    return list(found)


def record_of(number, line, whole):
    """The record of a line of a text of records; None where it is none of the log."""
    found = RECORD.fullmatch(line)
    if not found or int(found["cut"]) > len(whole.entries):
        return None
    text, looked = ending_of(found), looked_of(found["looked"], whole.sectors)
    image = image_said(whole, int(found["cut"]), found["choice"])
    if None in (text, looked, image) or image.marks() != int(found["marks"]):
        return None
    return Record(number, image.marks(), text, {it: image.sector(it) for it in looked})


@dataclass(frozen=True)
class Known:
    """What a text of records has: the lines of its head after the first, none of an empty file, and its records."""

    head: list
    records: list


def head_fault(place, line, inputs, head):
    """Refuses a line of a head, which is the one that stands there in the first head too."""
    if not (INPUTS, PROGRAM, SUM)[place].fullmatch(line):
        return NO_RECORD
    if place == 0 and line != f"inputs {inputs}" or head[place : place + 1] not in ([], [line]):
        return OTHER_RUN
    return None


def read_known(content, run, inputs):
    """Reads the bytes of a text of records, which has to be of this run. A refusal says its number and its line."""
    if len(content) > MOST_BYTES:
        raise Refused(NO_RECORD, 0)
    whole, head, records, place = unflushed(run), [], [], None
    lines = content.decode("latin-1").split("\n")
    for number, line in enumerate(lines[:-1], 1):
        if place is not None:
            fault = head_fault(place, line, inputs, head)
            if fault:
                raise Refused(fault, number)
            head += [line] if len(head) == place else []
            place = place + 1 if place < 2 else None
        elif line == TITLE:
            place = 0
        else:
            record = record_of(number, line, whole) if head else None
            if record is None or len(records) == MOST_RECORDS:
                raise Refused(NO_RECORD, number)
            records.append(record)
    if lines[-1] or place is not None:
        raise Refused(NO_RECORD, len(lines))
    return Known(head, records)


def test_agree(records):
    """Refuses the first record that contradicts an earlier one."""
    for number, it in enumerate(records):
        if any(it.contradicts(other) for other in records[:number]):
            raise Refused(CONTRADICTED, it.line)


# The search


def judge_of(records):
    """What stands for a program: it is looked up what it ended in, and at which sectors it looked."""
    by_marks = {}
    for it in records:
        by_marks.setdefault(it.marks, []).append(it)

    def judge(view):
        shown, marks = {}, view.marks()

        def sector(number):
            if number not in shown:
                shown[number] = super(View, view).sector(number)
            return shown[number]

        record = next((it for it in by_marks.get(marks, []) if it.tells(sector, marks)), None)
        if record is not None:
            view.looked.update(record.found)
        return record

    return judge


@dataclass(frozen=True)
class Told:
    """A run with what is known of a program: the records as a checker, and the number of the inputs."""

    run: Run
    checker: Checker
    inputs: int
    known: Known
    losses: object

    def cuts(self):
        """Yields each explored cut, and what its cases are."""
        total = 0
        for cut in (Cut(self.run, number) for number in judged_cuts(self.run, self.losses)):
            found = cut.explore(self.checker, self.losses)
            total += len(found.leaves) + len(found.open)
            if total > MOST_CASES:
                raise Refused(TOO_MANY, cut.number)
            yield cut, found


def told(run, content, losses=ANY, inputs=None):
    """A run with the bytes of a text of records. Whatever of it is refused is."""
    wide = WideRun(run.recorded, run.sectors, run.cuts, run.bound, run.tears, run.by, run.flush, run.first, run.last, run.base)
    inputs = inputs_of(wide) if inputs is None else inputs
    known = read_known(content, wide, inputs)
    test_agree(known.records)
    about = f"{PROGRAM.fullmatch(known.head[1])[1]}\n{known.head[2]}" if known.head else ""
    return Told(wide, Checker(about, judge_of(known.records), of_records=True), inputs, known, losses)


def explored(it):
    """What `explore` prints by records, and its status."""
    text = cases(it.run, [it.checker], it.losses, it.inputs)
    return status(text), text.encode()


def wanted(it):
    """The images that are wanted: those of the representatives of open cases, in the order of the search."""
    found = [case.representative() for _cut, found in it.cuts() for case in found.open]
    return [View(number, image.cut, image.departures, it.run) for number, image in enumerate(found)]


def exported(it):
    """What `export` prints by records: with their number."""
    return exported_images(it.run, wanted(it), it.inputs)


def notes(it):
    """What is noted of records beside what is told by them."""
    seen = set(covered(it.run))
    blind = it.known.records and not any(seen & set(record.found) for record in it.known.records)
    return ["program 0: looked at no sector that an entry writes, in no record, so no loss changes what it ends in"] * bool(blind)


# What who judges writes


@dataclass(frozen=True)
class Ended:
    """What a judge ends in, as a record and as a report say it."""

    said: str

    @property
    def text(self):
        return self.said + " codes -" * self.said.startswith("answer")

    @property
    def good(self):
        return self.said == "answer 0"


def ranges(sectors):
    """Sectors in the order of their first looks, as a record has them."""
    found = []
    for it in sectors:
        if found and found[-1][1] + 1 == it:
            found[-1][1] = it
        else:
            found.append([it, it])
    return ",".join(f"{first}-{last}" if first < last else f"{first}" for first, last in found) or "-"


def head_text(inputs, words, total):
    return f"{TITLE}\ninputs {inputs}\nprogram 0 outside {words}\nsum {total}\n"


def record_text(image, ending, looked):
    """The line of a record: `ending` is as a record has it, `answer 3`."""
    return f"ran cut {image.cut} choice {image.choice()} marks {image.marks()} {ending} looked {ranges(looked)}\n"


# How many rounds there may be


def most_rounds(run, losses):
    """After how many rounds nothing is wanted any more."""
    parts = max((len(at_risk(run, it)) for it in judged_cuts(run, losses)), default=0)
    return (len(TORN) - 1 if run.tears else 1) * parts + 1


def kinds(it):
    """How many cases of each kind all cuts have."""
    found = Counter()
    for _cut, own in it.cuts():
        found.update(told=len(own.leaves), open=len(own.open), beyond=own.torn_beyond + own.lost_beyond, pending=len(own.pending))
    return found
