"""The crash model and the report once more, in the plainest form.

Written from docs/CRASH-MODEL.md, docs/OUTPUT.md and, for `mix`, docs/MACHINE.md, and from nothing of the program under
test. It is slow and keeps everything in lists; rows use it where a report is too long to be written down. What programs
answer isn't worked out: a checker is a function of an image that stands for a program of the folder programs/.
"""
import functools
import re
import struct
from dataclasses import dataclass, field, replace

from notation import DISCARD, FIRST_LINE, FLUSH, FUA, MARK, SECTOR, log

ZEROS = bytes(SECTOR)
HEADS = [f"head{eighths}" for eighths in range(1, 8)]
TAILS = [f"tail{eighths}" for eighths in range(1, 8)]

# By which the mixes of lanes, and of the sectors of a device, are joined to one number.
JOIN_FACTOR = 16777619

# What may become of a part that isn't whole, in order, without tears and with them.
LOST = ["drop"]
LOST_OR_TORN = [*LOST, *HEADS, *TAILS]


@dataclass(frozen=True)
class Part:
    """What departs as one: a sector of an entry, or all sectors of one. It covers the device from `sector` on."""

    name: str
    entry: int
    sector: int
    content: bytes

    def covers(self, number):
        return self.sector <= number < self.sector + len(self.content) // SECTOR


@dataclass(frozen=True)
class Image:
    """A crash image: its number, its cut, which parts depart from the log, and the log."""

    number: int
    cut: int
    departures: tuple
    run: object

    def epoch(self):
        return self.run.epoch(self.cut)

    def marks(self):
        return self.run.marks(self.cut)

    def choice(self):
        return ",".join(f"{part.name}:{fate}" for part, fate in self.departures) or "-"

    def sector(self, number):
        """The 512 bytes of a sector."""
        fates = {part.name: fate for part, fate in self.departures}
        found = self.run.initial_sector(number)
        for part in self.run.parts_over(number):
            if part.entry < self.cut:
                found = written(part, number, found, fates.get(part.name, "whole"))
        return found

    def content(self):
        return b"".join(self.sector(number) for number in range(self.run.sectors))


def kept(fate, size):
    """Which bytes of a part of `size` bytes reach the device: from the first of two positions to before the second."""
    if fate == "whole":
        return 0, size
    if fate == "drop":
        return 0, 0
    some = size // 8 * int(fate[-1])
    return (0, some) if fate in HEADS else (size - some, size)


def written(part, number, old, fate):
    """What a part with that fate makes of a sector that it covers."""
    start = SECTOR * (number - part.sector)
    first, end = (min(max(at - start, 0), SECTOR) for at in kept(fate, len(part.content)))
    return old[:first] + part.content[start + first : start + end] + old[end:]


def parts_of(number, entry, by):
    """The parts of an entry: its sectors, or all of it where it has some."""
    discards = entry.flags & DISCARD
    if by == "write":
        content = bytes(SECTOR * entry.count) if discards else entry.data
        return [Part(f"{number}", number, entry.sector, content)] if entry.count else []
    return [
        Part(f"{number}.{place}", number, entry.sector + place, ZEROS if discards else entry.data[SECTOR * place : SECTOR * (place + 1)])
        for place in range(entry.count)
    ]


def departures(parts, count, fates):
    """All ways to let `count` of the parts depart, in order: by the first part, its fate, then the others."""
    if count == 0:
        yield ()
        return
    for place, part in enumerate(parts):
        for fate in fates:
            for others in departures(parts[place + 1 :], count - 1, fates):
                yield ((part, fate), *others)


class Run:
    """A log, the size of the device, and which images are wanted. `recorded` is the log without the flushes that are added,
    `base` the first bytes of what the device held before entry 0."""

    def __init__(self, entries, sectors=4, cuts="all", bound=1, tears=False, by="sector", flush=(), first=None, last=None, base=b""):
        self.recorded = entries
        entries = [replace(it, flags=it.flags | FLUSH) if number in flush else it for number, it in enumerate(entries)]
        self.entries, self.sectors, self.cuts, self.bound, self.tears, self.by = entries, sectors, cuts, bound, tears, by
        self.flush, self.first, self.last, self.base = flush, first, last, base
        self.parts = [part for number, entry in enumerate(entries) for part in parts_of(number, entry, by)]

    def options(self):
        """The options of the command line that ask for this run."""
        words = f"--sectors {self.sectors} --cuts {self.cuts} --bound {self.bound}{' --tears' if self.tears else ''}"
        words += " --by write" if self.by == "write" else ""
        words += f" --flush {','.join(str(it) for it in self.flush)}" if self.flush else ""
        words += f" --from {self.first}" if self.first is not None else ""
        words += f" --to {self.last}" if self.last is not None else ""
        return words + (" --base base" if self.base else "")

    def parts_over(self, number):
        """The parts that cover a sector, in order."""
        return [part for part in self.parts if part.covers(number)]

    def initial_sector(self, number):
        """What a sector held before entry 0."""
        return self.base[SECTOR * number : SECTOR * (number + 1)].ljust(SECTOR, b"\0")

    def told_of_base(self):
        """What is told of the initial content, where some is given: its number."""
        if not self.base:
            return ""
        joined = 0
        for number in range(self.sectors):
            joined = (joined * JOIN_FACTOR + mix(self.initial_sector(number))) % 2**64
        return f" base {joined}"

    def told(self):
        """What is told of the cuts after their kind: the flushes that were added, and the range."""
        flush = ",".join(str(it) for it in self.flush) or None
        words = (("flush", flush), ("from", self.first), ("to", self.last))
        return "".join(f" {word} {value}" for word, value in words if value is not None)

    def flushes(self, start, end):
        """How many flush entries there are from `start` to before `end`."""
        return sum(1 for it in self.entries[start:end] if it.flags & FLUSH)

    def epoch(self, cut):
        return self.flushes(0, cut)

    def marks(self, cut):
        return sum(1 for it in self.entries[:cut] if it.flags & MARK)

    def wanted_cuts(self):
        """The cuts of the kind that stand in the range."""
        first = 0 if self.first is None else self.first
        last = len(self.entries) if self.last is None else self.last
        return [cut for cut in self.cuts_of_kind() if first <= cut <= last]

    def cuts_of_kind(self):
        """Returns the cuts of the kind that is asked for."""
        count = len(self.entries)
        if self.cuts == "all":
            return list(range(count + 1))
        if self.cuts == "flush":
            return [cut for cut in range(count) if self.entries[cut].flags & FLUSH] + [count]
        return [cut for cut in range(1, count + 1) if self.entries[cut - 1].flags & MARK]

    def volatile(self, cut):
        """The parts before the cut that aren't forced and that no flush after their entry made durable."""
        return [
            part
            for part in self.parts
            if part.entry < cut
            and not self.entries[part.entry].flags & FUA
            and self.flushes(part.entry + 1, cut) == 0
        ]

    def choices(self, cut):
        """Yields the choices of a cut, in their order."""
        fates = LOST_OR_TORN if self.tears else LOST
        parts = self.volatile(cut)
        for count in range(self.bound + 1):
            yield from departures(parts, count, fates)

    def images(self):
        """Yields the images of the run, in their order."""
        number = 0
        for cut in self.wanted_cuts():
            for choice in self.choices(cut):
                yield Image(number, cut, choice, self)
                number += 1

    def survey(self):
        """What `images` prints."""
        text, total = "", 0
        for cut in self.wanted_cuts():
            count = sum(1 for _choice in self.choices(cut))
            total += count
            about = f"cut {cut} epoch {self.epoch(cut)} marks {self.marks(cut)}"
            text += f"{about} volatile {len(self.volatile(cut))} images {count}\n"
        return text + f"total {total}\n"


@dataclass(frozen=True)
class Checker:
    """A program as the report sees it: `about` is `slots L budget N` or `slots L limit N`; `judge` answers the answer and
    the codes of an image. In place of a program there may be records of one."""

    about: str
    judge: object
    of_records: bool = False


def failing_line(image, number, answer, codes):
    codes = ",".join(str(it) for it in codes) or "-"
    return f"image {image.number} cut {image.cut} program {number} answer {answer} codes {codes} choice {image.choice()}"


def failing_lines(image, checkers):
    """The lines of the programs that fail on an image."""
    found = []
    for number, checker in enumerate(checkers):
        answer, codes = checker.judge(image)
        if answer != 0:
            found.append(failing_line(image, number, answer, codes))
    return found


def head(run, checkers, first):
    """Returns the head of the report."""
    text = f"sectors {run.sectors} entries {len(run.entries)} cuts {run.cuts} bound {run.bound}"
    text += f" tears {'yes' if run.tears else 'no'} first {'yes' if first else 'no'}"
    text += (" by write" if run.by == "write" else "") + run.told() + run.told_of_base() + "\n"
    return text + "".join(f"program {number} {it.about}\n" for number, it in enumerate(checkers))


# By which the bytes of a run's inputs are joined to one number.
INPUT_FACTOR = 1099511628211


def number_of(files):
    """A number of the bytes of a run's log and programs, file by file."""
    number = 0
    for content in files:
        plain = content.rstrip(b"\0")
        for byte in plain:
            number = (number * INPUT_FACTOR + byte + 1) % 2**64
        # zeros at the end, all at once
        factor = pow(INPUT_FACTOR, len(content) - len(plain), (INPUT_FACTOR - 1) << 64)
        number = (number * factor + (factor - 1) // (INPUT_FACTOR - 1)) % 2**64
        for byte in len(content).to_bytes(8, "little"):
            number = (number * INPUT_FACTOR + byte + 1) % 2**64
    return number


def number_of_report(run):
    """The number of the log of a run and of the line of its options, as a report has that line."""
    return number_of([log(run.recorded), head(run, [], False).encode()])


def marked(run, report, programs=None):
    """A report that says in its second line of which log and options it is, and of how many programs."""
    title, rest = report[: len(FIRST_LINE)], report[len(FIRST_LINE) :]
    count = len(re.findall(r"(?m)^program ", rest)) if programs is None else programs
    return f"{title}inputs {number_of_report(run)} programs {count}\n{rest}"


def explored(run, checkers, first=False):
    """What `explore` prints."""
    total, failing, found, least = 0, 0, [], "none"
    for image in run.images():
        total += 1
        more = failing_lines(image, checkers) if not (first and failing) else []
        failing += 1 if more else 0
        found += more
        if more and least == "none":
            least = image.number
    last = f"images {total} first {least}" if first else f"images {total} failing {failing} lines {len(found)}"
    return FIRST_LINE + head(run, checkers, first) + "".join(f"{it}\n" for it in [*found, last])


@dataclass(frozen=True)
class Noted(Image):
    """An image that notes at which sectors a checker looks."""

    looked: set = field(default_factory=set)

    def sector(self, number):
        self.looked.add(number)
        return super().sector(number)


def is_blind(run, checker):
    """Whether a checker passes at each wanted cut, where nothing is lost or torn, and looks at no more than 32 sectors there, none of
    which an entry covers. Where many flushes and marks stand before the last wanted cut, nothing is found."""
    cuts = run.wanted_cuts()
    if cuts and run.epoch(cuts[-1]) + run.marks(cuts[-1]) > max(1024, len(cuts) // 16):
        return False
    for cut in cuts:
        image = Noted(0, cut, (), run)
        if checker.judge(image)[0] != 0 or len(image.looked) > 32 or any(run.parts_over(it) for it in image.looked):
            return False
    return bool(cuts)


def blind_notes(run, checkers):
    """What is noted of checkers that look at nothing of what the log writes."""
    words = "looks at no sector that an entry writes, so no crash makes it fail"
    return [f"program {number}: {words}" for number, checker in enumerate(checkers) if is_blind(run, checker)]


def is_lost_at(run, number, mark):
    """Whether a write may still lose a sector at a mark: it isn't FUA, there is no flush after it, and no FUA entry covers the sector
    again."""
    entry = run.entries[number]
    if entry.flags & (FUA | DISCARD | MARK) or run.flushes(number + 1, mark + 1):
        return False
    again = [it for it in run.entries[number + 1 : mark] if it.flags & FUA]
    return any(not any(it.sector <= sector < it.sector + it.count for it in again) for sector in range(entry.sector, entry.sector + entry.count))


def promise_notes(run):
    """What is noted of marks that promise what nothing made durable: since the mark before there is a write that may be lost."""
    marks = [number for number, entry in enumerate(run.entries) if entry.flags & MARK]
    found = [mark for before, mark in zip([-1, *marks], marks) if any(is_lost_at(run, number, mark) for number in range(before + 1, mark))]
    if not found:
        return []
    more = f" and {len(found) - 8} more" if len(found) > 8 else ""
    return [
        f"marks that promise what nothing made durable: entries {', '.join(str(it) for it in found[:8])}{more}",
        "a write before each of them may still be lost there: it has no flush after it, and isn't FUA",
    ]


def forced_notes(run):
    """What is noted of entries with FUA where parts are torn."""
    forced = sum(1 for it in run.entries if it.flags & FUA and it.count)
    if not (run.tears and run.bound and forced):
        return []
    words = "no image loses or tears one, though a crash may while it is in flight; 'crashbpf explore --bound any' does (docs/CRASH-MODEL.md, What a clean report doesn't say)"
    return [f"entries with FUA: {forced}; {words}"]


def cut_notes(run):
    """What is noted where no cut is wanted, and of a log without a flush where the cuts before flushes are asked for."""
    if not run.wanted_cuts():
        ranged = run.first is not None or run.last is not None
        how = "take a wider --from and --to, or ask without --cuts" if ranged else "the log has no mark, so --cuts mark has no cut; ask without --cuts"
        return [f"no cut is asked for: no image was judged; {how}"]
    flushed = any(it.flags & FLUSH for it in run.entries)
    return ["no entry is a flush, so --cuts flush has the one cut at the end; ask without --cuts"] if run.cuts == "flush" and not flushed else []


def one_loss_notes(run, command="explore"):
    """What is noted of a run in whose images at most one part is lost or torn, as it is without an option."""
    words = "is lost or torn; --bound any explores every loss (docs/CRASH-MODEL.md, What a clean report doesn't say)"
    return [f"in each image at most 1 {run.by} {words}"] if command == "explore" and run.bound == 1 else []


def departures_of(image):
    return {(part.name, fate) for part, fate in image.departures}


def groups(failing):
    """For each smallest of the failing images of a cut how many of them stand under it: each under the first that is a part
    of it, by its departures."""
    count = {}
    for image in failing:
        first = next(it for it in failing if departures_of(it) <= departures_of(image))
        count[first] = count.get(first, 0) + 1
    return sorted(count.items(), key=lambda it: it[0].number)


# Where a flush helps


def window_of(image):
    """The first and the last entry before which a flush takes an image away; none where no flush does."""
    if not image.departures:
        return None
    run, first = image.run, image.departures[0][0].entry
    lost = [part.entry for part, fate in image.departures if fate == "drop"]

    def may_end(number):
        entry = run.entries[number]
        return bool(entry.flags & MARK) or len(parts_of(number, entry, run.by)) > lost.count(number)

    ends = [number for number in range(first + 1, image.cut) if may_end(number)]
    return (first + 1, ends[-1]) if ends else None


def holds(window, place):
    return window[0] <= place <= window[1]


def missing_flushes(windows):
    """The places that are picked for windows, rising: each with the first entry before which its flush may stand, and how many
    windows are counted there."""
    places = []
    for window in sorted(windows, key=lambda it: it[1]):
        if not any(holds(window, place) for place in places):
            places.append(window[1])
    counted = [[] for _place in places]
    for window in windows:
        counted[next(number for number, place in enumerate(places) if holds(window, place))].append(window)
    return [(place, max(first for first, _last in own), len(own)) for place, own in zip(places, counted)]


def failures_of(run, checkers):
    """The failing lines of a run, each with the number of its program and the window of its image, and how many images fail."""
    found, failing = [], 0
    for image in run.images():
        window, before = window_of(image), len(found)
        for number, checker in enumerate(checkers):
            answer, codes = checker.judge(image)
            if answer != 0:
                found.append((failing_line(image, number, answer, codes), number, window))
        failing += 1 if len(found) > before else 0
    return found, failing


def with_flushes(run, places):
    """This run over the log with these flushes added."""
    flush = (*run.flush, *places)
    return Run(run.recorded, run.sectors, run.cuts, run.bound, run.tears, run.by, flush, run.first, run.last, run.base)


def cure_rounds(run, checkers):
    """The runs of a cure: each with its failures, how many images fail, and the places that are picked, none in the last."""
    places = [None]
    while places:
        found, failing = failures_of(run, checkers)
        places = missing_flushes([window for _line, _program, window in found if window is not None])
        yield run, found, failing, places
        run = with_flushes(run, [place for place, _first, _count in places])


def uncured_text(found, programs):
    """How the programs fail, and the first failure that no flush takes away."""
    text = ""
    for number in range(programs):
        windows = [window for _line, program, window in found if program == number]
        text += f"program {number} failing {len(windows)} uncured {windows.count(None)}\n"
    uncured = [line for line, _program, window in found if window is None]
    return text + (f"no flush cures {uncured[0]}\n" if uncured else "")


def cured(run, checkers):
    """What `cure` prints, where no run has too many images."""
    rounds = list(cure_rounds(run, checkers))
    text = "crash cure 1\n" + head(run, checkers, False) + uncured_text(rounds[0][1], len(checkers))
    for number, (_run, _found, _failing, places) in enumerate(rounds, 1):
        for place, first, count in places:
            text += f"round {number} flush before {place} from {first} failing {count}\n"
    last, found, failing, _places = rounds[-1]
    return text + f"images {sum(1 for _image in last.images())} failing {failing} lines {len(found)}\n"


# An image in words

FLAGS = [(FLUSH, "flush"), (FUA, "fua"), (DISCARD, "discard"), (MARK, "mark"), (16, "metadata")]


def escaped(text):
    """Bytes of a foreign text: printable ASCII but `"` and `\\` as it is, any other byte by its number."""
    return "".join(chr(it) if 32 <= it < 127 and it not in b'"\\' else f"\\x{{{it:x}}}" for it in text)


def entry_line(run, number):
    """An entry as `log` prints it."""
    entry = run.entries[number]
    text = f"entry {number} epoch {run.epoch(number)}"
    text += " write" if entry.count and not entry.flags & DISCARD else ""
    text += "".join(f" {word}" for flag, word in FLAGS if entry.flags & flag)
    text += f" sector {entry.sector} count {entry.count}" if entry.count else ""
    return text + (f' text "{escaped(entry.text)}"' if entry.flags & MARK else "")


def place_of(entry, sector, count):
    where = f"sector {sector}" if count == 1 else f"{count} sectors from {sector} on"
    return f"entry {entry}, {where}"


def place(part):
    return place_of(part.entry, part.sector, len(part.content) // SECTOR)


def departed(part, fate, more=""):
    """The line of a lost or torn part, with more that is said of its place."""
    some = len(part.content) // 8 * int(fate[-1]) if fate != "drop" else 0
    arrived = "nothing of it" if fate == "drop" else f"only its {'first' if fate in HEADS else 'last'} {some} bytes"
    return f"departed: {place(part)}{more}: {arrived} arrived"


def row(number, content, start):
    """Sixteen bytes as xxd prints them."""
    some = content[start : start + 16]
    pairs = " ".join(some[at : at + 2].hex() for at in range(0, 16, 2))
    characters = "".join(chr(it) if 32 <= it < 127 else "." for it in some)
    return f"{SECTOR * number + start:08x}: {pairs}  {characters}"


def sector_lines(number, whole, found):
    """In what a sector differs."""
    places = [at for at in range(SECTOR) if whole[at] != found[at]]
    if not places:
        return
    yield f"sector {number}: {len(places)} of {SECTOR} bytes differ, the first is byte {places[0]}"
    first = places[0] // 16 * 16
    for start in range(first, min(first + 64, SECTOR), 16):
        if whole[start : start + 16] != found[start : start + 16]:
            yield f"< {row(number, whole, start)}"
            yield f"> {row(number, found, start)}"


def last_line(run, what, flag, cut):
    found = [number for number in range(cut) if run.entries[number].flags & flag]
    return f"last {what}: {entry_line(run, found[-1]) if found else 'none'}"


def covered(run):
    """The sectors that an entry covers, rising: in all others two images are the same."""
    return sorted({number for entry in run.entries for number in range(entry.sector, entry.sector + entry.count)})


def shown_lines(run, image):
    """Yields the lines of what `show` says of an image, but for its differences."""
    cut, whole = image.cut, Image(image.number, image.cut, (), run)
    yield (
        f"sectors {run.sectors} entries {len(run.entries)} cuts {run.cuts} bound {run.bound}"
        f" tears {'yes' if run.tears else 'no'} by {run.by}{run.told()}"
    )
    yield f"cut {cut} epoch {image.epoch()} marks {image.marks()} choice {image.choice()}"
    yield from (departed(part, fate) for part, fate in image.departures)
    parts = run.volatile(cut)
    yield f"volatile parts: {len(parts)}"
    yield from (f"volatile: {place(part)}" for part in parts[:32])
    yield from (f"before the cut: {entry_line(run, number)}" for number in range(max(cut - 4, 0), cut))
    yield last_line(run, "flush", FLUSH, cut)
    yield last_line(run, "mark", MARK, cut)
    for number in covered(run):
        yield from sector_lines(number, whole.sector(number), image.sector(number))


def shown(run, image):
    """What `show` prints."""
    return "".join(f"{it}\n" for it in shown_lines(run, image))


@functools.lru_cache(maxsize=None)
def mix(sector):
    """The mix of the 512 bytes of a sector."""
    words = struct.unpack("<64Q", sector)
    mixed = 0
    for lane in range(8):
        of_lane = 0
        for row in range(8):
            of_lane = (of_lane * 1000003 + words[8 * row + lane]) % 2**64
        mixed = (mixed * JOIN_FACTOR + of_lane) % 2**64
    return mixed


# What the programs of the folder programs/ answer


def first_byte(image):
    return image.sector(0)[0], ()


def byte_64(image):
    return image.sector(0)[64], ()


def whole_image(image):
    """Returns the answer of the checker that mixes all sectors."""
    answer = 0
    for number in range(min(image.run.sectors, 64)):
        answer = (answer * 31 + mix(image.sector(number))) % 2**64
    return answer, ()


def epoch_and_marks(image):
    return image.epoch() * 2**32 + image.marks(), ()


def sectors_0_and_1(image):
    first, second = image.sector(0), image.sector(1)
    last_word, next_word = struct.unpack("<Q", first[504:]), struct.unpack("<Q", second[:8])
    return 1, (int(first == ZEROS), int(first == second), *last_word, *next_word)


# What the checkers of examples/ answer


def word(sector, at):
    """The word that begins at a byte of a sector."""
    return struct.unpack_from("<Q", sector, at)[0]


def two_slots(image):
    """By examples/two_slots/checker.s: of the slots whose mix is 1 the one with the greatest number vouches for a payload."""
    slots = [(word(image.sector(it), 0), it) for it in (0, 1) if mix(image.sector(it)) == 1]
    number, slot = max(slots, default=(0, 0))
    if number < image.marks():
        return 2, ()
    if number == 0 or mix(image.sector(slot + 2)) == word(image.sector(slot), 8):
        return 0, ()
    return 1, (number,)


def journal(image):
    """By examples/journal/checker.s: each record that the header counts is there, and each that a mark acknowledged is
    counted."""
    count = word(image.sector(0), 0)
    if count < image.marks():
        return 2, ()
    if count >= image.run.sectors:
        return 3, ()
    for number in range(1, count + 1):
        record = image.sector(number)
        if mix(record) != 1 or word(record, 0) != number:
            return 1, (number,)
    return 0, ()


def page_of(image, commit):
    """The page of a commit, and whether the mixes of its sectors have the sum 1."""
    first = 8 + commit % 2 * 8
    sectors = [image.sector(first + place) for place in range(8)]
    return sectors, sum(mix(it) for it in sectors) % 2**64 == 1


def pages(image):
    """By examples/pages/checker.s: of the commit that the header names the page is taken, or where its sum is wrong that of
    the commit before; it has to be that of the commit."""
    named = word(image.sector(0), 0)
    if named < image.marks():
        return 2, ()
    for commit in [named, named - 1]:
        if commit < image.marks():
            return 2, ()
        if commit == 0:
            return 0, ()
        sectors, whole = page_of(image, commit)
        if whole:
            found = word(sectors[0], 0)
            return (0, ()) if found == commit else (1, (found,))
    return 2, ()


def is_node(image, sector, commit):
    """Whether a sector has a whole node of that commit."""
    if sector >= image.run.sectors:
        return False
    node = image.sector(sector)
    return mix(node) == 1 and word(node, 0) == commit


def tree(image):
    """By examples/tree/checker.s: the root node that the header names and the two leaves that it names are there, each of the
    commit of which it is to be."""
    header = image.sector(0)
    commit, root = word(header, 0), word(header, 8)
    if commit < image.marks():
        return 2, ()
    if commit == 0:
        return 0, ()
    if not is_node(image, root, commit):
        return 1, (root,)
    node = image.sector(root)
    for at in [8, 24]:
        leaf, of = word(node, at), word(node, at + 8)
        if not is_node(image, leaf, of):
            return 1, (leaf,)
    return 0, ()


def version_at(image, first, page):
    """The version of a page where it is whole in two sectors, else 0."""
    sectors = [image.sector(first), image.sector(first + 1)]
    whole = sum(mix(it) for it in sectors) % 2**64 == 1 and word(sectors[0], 8) == page
    return word(sectors[0], 0) if whole else 0


def double_write(image):
    """By examples/double_write/checker.s: each page is whole in its place, or zeros there, or its copy is whole; and it has the
    version that a mark acknowledged. Commits 1, 3, .. write the pages 0 and 1, the others 2 and 3."""
    for page in range(4):
        acknowledged = (image.marks() + 1 - page // 2) // 2
        version = version_at(image, 2 * page, page)
        if version == 0 and any(image.sector(2 * page + it) != ZEROS for it in (0, 1)):
            version = version_at(image, 8 + 2 * (page % 2), page)
            if version == 0:
                return 1, (page,)
        if version < acknowledged:
            return 2, (page,)
    return 0, ()


def one(_image):
    return 1, ()


def zero(_image):
    return 0, ()
