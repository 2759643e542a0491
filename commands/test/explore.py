"""Explores what crashes leave of a log, and says in which cases the check fails.

An explorer has one method, `explore(log, until)`: it answers what it found. What it explores is its own affair, and it says so: in
words, and whether that is every loss. `Bounded` takes the images of crashbpf with at most some losses at once. Before these it judges
at each mark the images that a user is told the most by: with all lost that a crash may lose there, and with each file and the names as
they were before what is in flight of them.
"""
import os
import subprocess
import tempfile
from dataclasses import dataclass, field
from itertools import chain

from commands.each import product
from commands.shared.faults import Refusal
from commands.each.stream import RECORD, SECTOR, images, inputs
from commands.test.log import DROP

# Without --bound one loss at once is explored, and where nothing fails as many as take no more images than this.
FEW, MOST_BOUND = 2000, 3


@dataclass(frozen=True)
class Case:
    """Something that a crash leaves: the cut, what is lost or torn, and by what key its verdict is known."""

    cut: int
    lost: frozenset
    key: bytes

    def choice(self):
        return choice_of(self.lost)


@dataclass
class Found:
    """What was found: the cases that fail, how many cases there were, which losses those have, and whether that is every loss."""

    failing: list = field(default_factory=list)
    cases: int = 0
    scope: str = ""
    complete: bool = False
    # whether it was ended before all was judged, and whether some cuts were, so that more may fail there
    stopped: bool = False
    cut_short: bool = False


def choice_of(lost):
    """What is lost or torn, as crashbpf writes it."""
    return ",".join(f"{number}:{fate}" for number, fate in sorted(lost)) or "-"


def lost_of(choice):
    """What is lost or torn, by what crashbpf wrote."""
    pairs = [] if choice == "-" else [it.split(":") for it in choice.split(",")]
    return frozenset((int(number), fate) for number, fate in pairs)


def whole_loss(lost, stretch):
    """What is lost or torn of all entries, by what is of those that one log for crashbpf has."""
    return frozenset((stretch.numbers[number], fate) for number, fate in lost)


def dropped(numbers):
    return frozenset((it, DROP) for it in numbers)


def ahead(log):
    """What is judged first: at each mark, and at the end, all lost; and each file, and the names, as before what is in flight of them."""
    cuts = [cut for cut in log.cuts() if cut and log.passed[cut] > log.passed[cut - 1]]
    for cut in dict.fromkeys([*cuts, len(log.entries)]):
        flying, places = log.in_flight(cut), {}
        for it in flying:
            place = log.entries[it].file
            places.setdefault(log.files.get(place, place), []).append(it)
        yield from ((cut, dropped(it)) for it in [[], flying, *places.values()])


class Bounded:
    """Explores all cuts with at most some losses at once. The images are those of `crashbpf export`."""

    def __init__(self, judge, bound=None, tears=False, say=lambda text: None):
        self.judge, self.bound, self.tears, self.say, self.program = judge, bound, tears, say, product.found()

    def words(self, given, bound):
        return [*given, "--bound", str(bound), *(["--tears"] if self.tears else [])]

    def total(self, given, bound):
        """How many images there are."""
        done = subprocess.run([self.program, "images", *self.words(given, bound)], stdin=subprocess.DEVNULL, capture_output=True)
        last = done.stdout.decode().splitlines()[-1:]
        if done.returncode or not last or not last[0].startswith("total "):
            raise Refusal(f"crashbpf refuses the log: {product.first_line(done.stderr)}")
        return int(last[0].split()[1])

    def explore(self, log, until=None):
        """Explores a log. It ends early where `until` says so of a case that fails."""
        # (it stands in memory where there is room)
        most = max(len(log.in_flight(cut)) for cut in log.cuts())
        bounds = [self.bound] if self.bound is not None else range(1, MOST_BOUND + 1)
        found = None
        with tempfile.TemporaryDirectory(dir=self.judge.folder) as folder:
            taken = list(self.written(log, folder))
            for bound in bounds:
                totals = [self.total(given, bound) for _, given in taken]
                if found is not None and (found.failing or found.complete or sum(totals) > FEW):
                    break
                images = (self.exported(log, stretch, given, bound, total) for (stretch, given), total in zip(taken, totals))
                found = self.all(chain(self.first(log), *images), until)
                found.complete = bound >= most and not found.stopped
                found.scope = self.scope(log, bound, most)
        return found

    @staticmethod
    def written(log, folder):
        """Yields each log for crashbpf, which it writes: what it has, and the words for it."""
        for number, stretch in enumerate(log.stretches()):
            room = os.path.join(folder, str(number))
            os.mkdir(room)
            yield stretch, log.write(room, stretch)

    def all(self, cases, until):
        """What is found of cases."""
        found, waiting = Found(), []
        for case in cases:
            waiting.append(case)
            if until and self.fails(case) and until(case):
                found.stopped = True
                break
        self.judge.settle()
        found.cases = len({(it.cut, it.lost) for it in waiting})
        found.failing = list(dict.fromkeys(it for it in waiting if not self.judge.judged[it.key].is_good()))
        return found

    def fails(self, case):
        """Whether a case is known to fail by now."""
        judged = self.judge.judged.get(case.key)
        return judged is not None and not judged.is_good()

    def scope(self, log, bound, most):
        """Which losses are explored, in words."""
        lost = "lost or torn" if self.tears else "lost"
        if bound >= most:
            return "every loss of any number of writes" + (", each of them whole or torn" if self.tears else ", each of them whole")
        more = sum(len(log.in_flight(cut)) > bound for cut in log.cuts())
        return f"up to {bound} {'write' if bound == 1 else 'writes'} {lost} at once; at {more} of {len(log.cuts())} cuts a crash may lose more"

    def first(self, log):
        """What is judged before all images."""
        for cut, lost in ahead(log):
            seen = log.at(cut, lost)
            self.judge.ask(seen, cut, choice_of(lost))
            yield Case(cut, lost, seen.key)

    def exported(self, log, stretch, given, bound, total):
        """The images of a log that crashbpf exports, each handed to the judge."""
        export = product.Export(self.program, self.words(given, bound))
        device, keys = bytearray(stretch.base), {}
        try:
            inputs(export.file)
            for it in images(export.file, log.sectors, total):
                lost, cut = whole_loss(lost_of(it.choice.decode()), stretch), stretch.whole_cut(it.cut)
                if it.same is None:
                    for at in range(0, len(it.records), RECORD):
                        start = SECTOR * int.from_bytes(it.records[at : at + 8], "little")
                        device[start : start + SECTOR] = it.records[at + 8 : at + RECORD]
                    seen = log.seen(device, cut)
                    keys[it.number] = seen.key
                    self.judge.ask(seen, cut, choice_of(lost))
                self.say(f"{it.number} of {total} images, {self.judge.runs} runs of the check")
                yield Case(cut, lost, keys[it.number if it.same is None else it.same])
            export.end_in_order()
        except Refusal as error:
            raise export.refusal(error) from None
        finally:
            export.close()
