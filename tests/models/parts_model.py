"""Runs in parts, and their join, in the plainest form.

Written from docs/OUTPUT.md ('The text of a part', 'The text of `images`'), docs/COMMANDS.md ('Joining parts') and docs/CRASH-MODEL.md ('Order and
numbers of the images', 'How many there are'), and from nothing of the program under test. A run may have any number of
images: they are counted, and each is found by its number, by binomials alone.
"""
import random
import re
from dataclasses import dataclass
from functools import cache, lru_cache
from itertools import accumulate, takewhile
from math import comb

from model import LOST, LOST_OR_TORN, Image, Run, failing_lines, head, number_of
from notation import FIRST_LINE, FLUSH, FUA, SECTOR, log

PART_LINE = "crash part 1\n"

# How many images a process judges, and how many parts a run is laid out in.
MOST_JUDGED = 1 << 24
MOST_PARTS = 1 << 20


class WideRun(Run):
    """A run that finds the parts of a sector and of a cut without looking at all parts of the log each time."""

    def __init__(self, *words, **more):
        super().__init__(*words, **more)
        self.over = {}
        for part in self.parts:
            for place in range(len(part.content) // SECTOR):
                self.over.setdefault(part.sector + place, []).append(part)

    def parts_over(self, number):
        return self.over.get(number, [])

    def volatile(self, cut):
        durable = max((number for number in range(cut) if self.entries[number].flags & FLUSH), default=0)
        return [it for it in self.parts if durable <= it.entry < cut and not self.entries[it.entry].flags & FUA]


def fates_of(run):
    return LOST_OR_TORN if run.tears else LOST


def departing(parts, count, fates):
    """In how many ways that many of that many parts depart."""
    return comb(parts, count) * fates**count


@cache
def cuts_of(run):
    """The wanted cuts of a run, each with the parts that are on their way and the number of its images."""
    on_way = [(cut, run.volatile(cut)) for cut in run.wanted_cuts()]
    return [(cut, parts, sum(departing(len(parts), lost, len(fates_of(run))) for lost in range(run.bound + 1))) for cut, parts in on_way]


def count(run):
    """How many images a run has."""
    return sum(images for _cut, _parts, images in cuts_of(run))


def first_beyond(run, most):
    """The cut with which the images are more than `most`."""
    total = 0
    for cut, _parts, images in cuts_of(run):
        total += images
        if total > most:
            return cut
    return None


def departures_at(parts, count, fates, number):
    """Of the ways to let `count` of these parts depart the one with that number: by the first part, its fate, then the others."""
    if count == 0:
        return ()

    def before(place):
        """How many ways begin with a part before that place."""
        return departing(len(parts), count, len(fates)) - departing(len(parts) - place, count, len(fates))

    least, most = 0, len(parts)
    while most - least > 1:
        middle = (least + most) // 2
        least, most = (middle, most) if before(middle) <= number else (least, middle)
    beyond = number - before(least)
    others = departing(len(parts) - least - 1, count - 1, len(fates))
    fate, rest = divmod(beyond, others)
    return ((parts[least], fates[fate]), *departures_at(parts[least + 1 :], count - 1, fates, rest))


def image_at(run, number):
    """The image of a number."""
    left, fates = number, fates_of(run)
    for cut, parts, images in cuts_of(run):
        if left < images:
            break
        left -= images
    for lost in range(run.bound + 1):
        ways = departing(len(parts), lost, len(fates))
        if left < ways:
            return Image(number, cut, departures_at(parts, lost, fates, left), run)
        left -= ways
    raise IndexError(number)


@cache
def lines_at(run, checkers, number):
    """The failing lines of the image of a number."""
    return failing_lines(image_at(run, number), checkers)


def survey(run, parts=None):
    """What `images` prints, with --parts how the run is laid out."""
    text = ""
    for cut, on_way, images in cuts_of(run):
        text += f"cut {cut} epoch {run.epoch(cut)} marks {run.marks(cut)} volatile {len(on_way)} images {images}\n"
    text += f"total {count(run)}\n"
    return text + ("".join(f"part {start}..{end}\n" for start, end in layout(count(run), parts)) if parts else "")


def layout(total, parts):
    """That many images in that many parts, or fewer: their lengths differ by at most one, and the longer ones come first."""
    parts = max(min(parts, total), 1)
    each, rest = divmod(total, parts)
    ends = list(accumulate([each + 1] * rest + [each] * (parts - rest)))
    return list(zip([0, *ends[:-1]], ends))


def found(run, checkers, start, end, first=False):
    """The failing lines of the images from `start` to below `end`, the last line, and whether one fails."""
    lines, failing, least = [], 0, "none"
    for number in range(start, end):
        more = lines_at(run, tuple(checkers), number)
        if more and least == "none":
            least = number
        failing += 1 if more else 0
        lines += more if not first or least == number else []
    last = f"images {end - start} first {least}" if first else f"images {end - start} failing {failing} lines {len(lines)}"
    return [*lines, last], failing > 0


def part(run, checkers, start, end, inputs, first=False):
    """What `explore --images START..END` prints."""
    lines, _fails = found(run, checkers, start, end, first)
    text = PART_LINE + f"part {start}..{end} of {count(run)} inputs {inputs}\n" + head(run, checkers, first)
    return text + "".join(f"{it}\n" for it in lines)


def report(run, checkers, first=False):
    """What `explore` prints."""
    lines, _fails = found(run, checkers, 0, count(run), first)
    return FIRST_LINE + head(run, checkers, first) + "".join(f"{it}\n" for it in lines)


def inputs_of(run, programs):
    return number_of([log(run.recorded), *programs])


def shuffled(name, parts):
    """These parts in another order, which is the same at each run of the tests."""
    order = list(parts)
    random.Random(name).shuffle(order)
    return order


# The text of a part, read

NUMBER = "(?:0|[1-9][0-9]*)"
NUMBERS = f"{NUMBER}(?:,{NUMBER})*"
SPAN = re.compile(f"part ({NUMBER})[.][.]({NUMBER}) of ({NUMBER}) inputs ({NUMBER})")
OPTIONS = re.compile(
    f"sectors ({NUMBER}) entries ({NUMBER}) cuts (?:all|flush|mark) bound ({NUMBER}) tears (?P<tears>yes|no) first (?P<first>yes|no)(?P<by> by write)?"
    f"(?: flush (?P<flush>{NUMBERS}))?(?: from (?P<from>{NUMBER}))?(?: to (?P<to>{NUMBER}))?(?: base (?P<base>{NUMBER}))?"
)
PROGRAM = re.compile(f"program ({NUMBER}) slots ({NUMBER}) (budget|limit) ({NUMBER})(?: guards ({NUMBER}))?")
SECTOR_NAME = f"({NUMBER})[.]({NUMBER}):(?:drop|head[1-7]|tail[1-7])"
WRITE_NAME = f"({NUMBER}):(?:drop|head[1-7]|tail[1-7])"
CHOICE = "(?P<choice>[^ ]+)"
BEGUN = f"image ({NUMBER}) cut ({NUMBER}) program ({NUMBER}) "
FAILING = re.compile(
    f"{BEGUN}(?:answer (?P<answer>{NUMBER}) codes (?P<codes>-|{NUMBERS})|fault (?:8[0-8]) slot (?P<slot>{NUMBER})|stray at slot (?P<stray>{NUMBER})|out of steps) choice {CHOICE}"
)
# Of a program of yours
OUTSIDE = re.compile("program 0 outside [ -~]+")
FAILING_OUTSIDE = re.compile(f"{BEGUN}(?:answer (?P<answer>{NUMBER}) codes -|signal (?P<signal>{NUMBER})|out of time) choice {CHOICE}")
LAST = re.compile(f"images ({NUMBER}) failing ({NUMBER}) lines ({NUMBER})")
LAST_OF_FIRST = re.compile(f"images ({NUMBER}) first ({NUMBER}|none)")


@dataclass(frozen=True)
class Read:
    """A part as its text has it: its images, of how many, the number of the inputs, the lines of the head and the failing ones."""

    start: int
    end: int
    images: int
    inputs: int
    head: tuple
    first: bool
    lines: tuple

    def run(self):
        return self.images, self.inputs, self.head


def below(bits, *numbers):
    return all(number is None or int(number) < 2**bits for number in numbers)


@dataclass(frozen=True)
class ReadHead:
    """What the head of a part says that its lines have to fit: entries, bound, tears, whether parts are writes, cuts, programs."""

    lines: int
    entries: int
    bound: int
    tears: bool
    first: bool
    by_write: bool
    start: int
    end: int
    programs: int
    outside: bool


def is_choice(head, cut, text):
    """Whether a text is that of lost and torn parts as a run with that head may have them at a cut."""
    names = [] if text == "-" else text.split(",")
    found = [re.fullmatch(WRITE_NAME if head.by_write else SECTOR_NAME, name) for name in names]
    if not all(found) or not all(below(32, *it.groups()) for it in found) or len(names) > head.bound:
        return False
    parts = [tuple(map(int, it.groups())) for it in found]
    rising = all(one < other for one, other in zip(parts, parts[1:]))
    return rising and all(it[0] < cut for it in parts) and (head.tears or all(it.endswith("drop") for it in names))


def read_span(line):
    """Returns the numbers in the first line of a part, or None where they can't be."""
    span = SPAN.fullmatch(line)
    if not span:
        return None
    start, end, images, inputs = map(int, span.groups())
    right = start <= end <= images < 2**63 and inputs < 2**64 and (start < end or images == 0)
    return (start, end, images, inputs) if right else None


def is_program(line, number):
    """Whether a line says a program of a run: its number, slots, steps, and guarded slots of a verified one."""
    found = PROGRAM.fullmatch(line)
    if not found or int(found[1]) != number:
        return False
    slots, guards = int(found[2]), found[5]
    return 1 <= slots <= 4096 and int(found[4]) <= 1_000_000_000 and (guards is None or (found[3] == "budget" and int(guards) <= slots))


def read_head(lines, outside=False):
    """What the options and programs say with which these lines begin; or the program of yours."""
    options = OPTIONS.fullmatch(lines[0])
    if not options:
        return None
    sectors, entries, bound = map(int, options.group(1, 2, 3))
    flushes = list(map(int, options["flush"].split(","))) if options["flush"] else []
    start, end = int(options["from"] or 0), int(options["to"] or entries)
    right = 1 <= sectors <= 1 << 25 and entries <= 1 << 16 and bound <= 3 and below(64, options["base"])
    cuts = start <= end <= entries and len(flushes) <= 64 and all(it < entries for it in flushes)
    programs = list(takewhile(lambda line: line.startswith("program "), lines[1:]))
    fit = len(programs) == 1 and OUTSIDE.fullmatch(programs[0]) if outside else 1 <= len(programs) <= 8 and all(is_program(it, number) for number, it in enumerate(programs))
    if not (right and cuts and fit):
        return None
    tears, first = options["tears"] == "yes", options["first"] == "yes"
    return ReadHead(1 + len(programs), entries, bound, tears, first, options["by"] is not None, start, end, len(programs), outside)


@lru_cache(100_000)
def read_failing(head, line):
    """The image and the program of a failing line of a run with that head."""
    found = (FAILING_OUTSIDE if head.outside else FAILING).fullmatch(line)
    if not found or found["answer"] == "0":
        return None
    cut = int(found[2])
    if not (head.start <= cut <= head.end and int(found[3]) < head.programs and is_choice(head, cut, found["choice"])):
        return None
    if head.outside:
        right = below(32, found[2]) and below(64, found[1]) and int(found["answer"] or 1) <= 255 and 1 <= int(found["signal"] or 1) <= 127
        return (int(found[1]), 0) if right else None
    codes = found["codes"].split(",") if found["codes"] not in (None, "-") else []
    small = below(32, found[2]) and below(8, found[3]) and below(64, found[1], found["answer"], found["slot"], found["stray"], *codes)
    return (int(found[1]), int(found[3])) if small and len(codes) <= 16 else None


def last_of(start, end, first, marks):
    """Returns the last line of a part."""
    images = [image for image, _program in marks]
    if first:
        return f"images {end - start} first {images[0] if images else 'none'}"
    return f"images {end - start} failing {len(set(images))} lines {len(images)}"


@lru_cache(10_000)
def read_part(text, outside=False):
    """The part of a text, of checkers or of a program of yours, None where it isn't the text of one."""
    try:
        lines = text.decode().split("\n")
    except UnicodeDecodeError:
        return None
    span = read_span(lines[1]) if len(lines) >= 5 and lines[0] == PART_LINE[:-1] and lines[-1] == "" else None
    head = read_head(lines[2:-2], outside) if span else None
    if not head:
        return None
    length, first = head.lines, head.first
    failing = lines[2 + length : -2]
    marks = [read_failing(head, it) for it in failing]
    ordered = None not in marks and all(one < other for one, other in zip(marks, marks[1:]))
    within = ordered and all(span[0] <= image < span[1] for image, _program in marks)
    alone = within and (not first or len({image for image, _program in marks}) <= 1)
    right = alone and lines[-2] == last_of(span[0], span[1], first, marks)
    return Read(*span, tuple(lines[2 : 2 + length]), first, tuple(failing)) if right else None


MOST_JOINED = 4096
MOST_BYTES = 1 << 30


def size_of(text):
    """How many bytes count of a text: of one that doesn't begin as a part no more than its first ones."""
    return len(text) if text.startswith(PART_LINE.encode()) else min(len(text), len(PART_LINE))


def joined(texts, some=False, outside=False):
    """What `join` makes of texts, with `some` what `join --part` does, and with `outside` what `crashbpf-each --join` does: its status and the
    bytes, or 2 and the number and the place of the refusal."""
    if len(texts) > MOST_JOINED:
        return 2, (65, MOST_JOINED)
    sizes = list(accumulate(map(size_of, texts)))
    if sizes[-1] > MOST_BYTES:
        return 2, (65, next(number for number, size in enumerate(sizes) if size > MOST_BYTES))
    parts = [read_part(it, outside) for it in texts]
    if None in parts:
        return 2, (61, parts.index(None))
    strange = [number for number, it in enumerate(parts) if it.run() != parts[0].run()]
    if strange:
        return 2, (62, strange[0])
    row = sorted(enumerate(parts), key=lambda it: it[1].start)
    for (_file, one), (file, other) in zip(row, row[1:]):
        if one.end != other.start:
            return 2, (63 if one.end < other.start else 64, file)
    if not some and row[0][1].start > 0:
        return 2, (63, row[0][0])
    if not some and row[-1][1].end < row[-1][1].images:
        return 2, (63, len(texts))
    return joined_row([it for _file, it in row], outside)


def joined_row(row, outside=False):
    """The status and the bytes of parts in a row."""
    start, end, of = row[0].start, row[-1].end, row[0]
    with_lines = [it for it in row if it.lines]
    lines = [line for it in (with_lines[:1] if of.first else with_lines) for line in it.lines]
    whole = (start, end) == (0, of.images)
    begun = FIRST_LINE if whole else PART_LINE + f"part {start}..{end} of {of.images} inputs {of.inputs}\n"
    begun += f"inputs {of.inputs} programs 1\n" if outside and not of.first else ""
    head = read_head(of.head, outside)
    last = last_of(start, end, of.first, [read_failing(head, it) for it in lines])
    return (1 if lines else 0), (begun + "".join(f"{it}\n" for it in [*of.head, *lines, last])).encode()
