"""A checker compared with a tool, on mutants of real images: where one calls an image good and the other doesn't.

Each mutant is judged by the checker's program, by its native build, and by the tool. Of each kind of difference some mutants are made as
small as they can be, and these are told. Which mutants there are is told by the seed alone.
"""
import os
import shutil
import sys
from collections import Counter
from pathlib import Path

from commands.cc.crew import Crew
from commands.cc.exploring import Program
from commands.cc.judging import BUILDS, LATE, PLACE, TOOL, Given, Judge, Mutant, answer_of, changed, differing, is_compared
from commands.cc.mutants import SECTOR
from commands.cc.native import COMPILER, NO_MENDING, command, reads
from commands.cc.program import OUTSIDE, SPENT, NoProgram
from commands.cc.shrinking import smallest

AGREE, DISAGREE = 0, 1
MUTANTS, MOST_MUTANTS, MOST_PROCESSES = 500, 1000000, 256
SMALL_DEVICE, LARGE_DEVICE = 16384, 33554432
# The most kinds of differences of which mutants are made small, the most mutants of each, and the most parts of one that are tried; fewer
# where each takes as long as may be.
KINDS, SHRUNK, MOST_TRIED, MOST_SLOW = 12, 6, 400, 20
# What a shell ends with where it finds no command, or one that can't be run.
NOT_FOUND = ("status 126", "status 127")
# How many bytes of a stretch are shown, and how many stretches.
BYTES, STRETCHES = 16, 8


def read_images(asked):
    """Returns the images, each with its name and its bytes."""
    command_, *names = asked.against
    if PLACE not in command_:
        raise NoProgram(f"the command of --against has no {PLACE}: {command_}", f"--against 'TOOL {PLACE}' IMAGE..: {PLACE} is the path of an image")
    if not names:
        raise NoProgram("--against has no image after its command", "real images, on which the checker and the tool agree: --against 'TOOL {}' IMAGE..")
    return [(name, read_image(name, asked)) for name in names]


def read_image(name, asked):
    """Returns the bytes of an image."""
    try:
        if os.path.exists(asked.out) and os.path.samefile(name, asked.out):
            raise NoProgram(f"{asked.out} is an image of --against, and would be overwritten", "the words are CHECKER.c FUNCTION OUT.bpf")
        size = os.path.getsize(name)
        most = SECTOR * (LARGE_DEVICE if asked.large else SMALL_DEVICE)
        if not size or size % SECTOR or size > most:
            raise NoProgram(f"the image {name} has {size} bytes, and has to be 1 to {most // SECTOR} sectors of {SECTOR}", *["--large allows more"] * (size > most))
        return Path(name).read_bytes()
    except OSError as it:
        raise NoProgram(f"the image {name} can't be read: {it.strerror}") from None


def look_for(program, use):
    """Refuses where a program isn't there."""
    if not shutil.which(program):
        raise NoProgram(f"there is no program {program} on the path, and --against asks {use}")


class Comparison:
    """What is compared, and what is found."""

    def __init__(self, asked, work, images):
        self.asked, self.work, self.images = asked, work, images
        self.notes, self.program, self.crew = [], None, None

    def run(self, built):
        """Compares, prints what is found, and returns the status."""
        given = self.given()
        path = os.path.join(self.work.folder, "against.bpf")
        Path(path).write_bytes(built.code)
        self.program = Program(path, built, self.asked, self.work)
        self.crew = Crew(self.asked.processes, lambda number: Judge(given, Path(self.work.folder, f"judge{number}")))
        try:
            said = self.judged()
            found = list(self.smallest(said))
        finally:
            self.crew.end()
        mended = ", most with their sums mended" if given.mends else ""
        print(f"compared on {len(self.images)} images and {self.asked.mutants} mutants, seed {self.asked.seed}{mended}")
        print(counts_text(said))
        self.tell(found, len(said))
        print(*(f"cc: note: {it}\n" for it in [*self.notes, *notes_on(said)]), sep="", end="", file=sys.stderr)
        return DISAGREE if found else AGREE

    def given(self):
        """Builds the checker natively, and returns what is asked of all images."""
        asked, native = self.asked, os.path.join(self.work.folder, "native")
        done = self.work.run(command(asked.path, asked.function, native, [f"-D{it}" for it in asked.definitions]))
        if done.returncode != 0:
            raise NoProgram(f"{done.stderr.rstrip()}\ncc: {COMPILER} didn't compile {asked.path} as a native program", "see its errors above")
        context = ["--marks", str(asked.marks), "--epoch", str(asked.epoch)]
        source = Path(asked.path).read_text(errors="replace")
        reads = [self.reads(native, content) for _, content in self.images]
        return Given(native, context, asked.against[0], self.images, source, reads, asked.seed, self.mends(native), asked.timeout)

    def reads(self, native, content):
        """Where the native build reads in an image."""
        path = os.path.join(self.work.folder, "read")
        Path(path).write_bytes(content)
        return reads(self.work.run([native, "--reads", path]).stdout)

    def mends(self, native):
        """Whether the source mends sums. Those of a real image should be right as they are."""
        path = os.path.join(self.work.folder, "mended")
        for name, content in self.images:
            Path(path).write_bytes(content)
            status = self.work.run([native, "--mend", path]).returncode
            if status == NO_MENDING:
                return False
            if status != 0:
                raise NoProgram(f"mend_sums ended with status {status} on {name}", "it has to do with any content of an image")
            others = differing(content, Path(path).read_bytes())
            if others:
                self.notes.append(f"mend_sums changes {len(others)} bytes of {name} as it is: are these other sums than the tool's?")
        return True

    def judged(self):
        """Returns what is said of the images as they are, and of the mutants."""
        count = len(self.images)
        found = self.crew.answers([(it, None) for it in range(count)])
        for it in found:
            if it.tool in NOT_FOUND:
                raise NoProgram(f"the command of --against can't be run: {it.why or it.tool}", f"sh runs it, with the path of an image in place of {PLACE}")
        found += self.crew.answers([(it, None) for it in range(count, count + self.asked.mutants)])
        self.ask_program(found)
        return found

    def ask_program(self, said):
        """Completes what is said of mutants by what the program answers."""
        images = [changed(self.images[it.mutant.image][1], it.differences) for it in said]
        for it, end in zip(said, self.program.ends(images)):
            it.program = end

    def smallest(self, said):
        """Yields the kinds of differences, the most frequent first, with how many are of each, and the smallest of some of them."""
        kinds = {}
        for it in said:
            for kind in it.kinds():
                kinds.setdefault(kind, []).append(it)
        kinds = dict(sorted(kinds.items(), key=lambda it: (it[0][0] == TOOL, -len(it[1]))))
        told = list(kinds.items())[:KINDS]
        chosen = [(kind, it) for kind, found in told for it in sorted(found, key=lambda it: len(it.mutant.changes))[:SHRUNK]]
        shrunk = self.shrunk(chosen)
        for kind, found in kinds.items():
            yield kind, len(found), distinct([it for (own, _), it in zip(chosen, shrunk) if own == kind])

    def shrunk(self, chosen):
        """Returns for mutants and kinds of difference the smallest parts that are of that kind, found side by side: what is said of each,
        and whether it is known to be the smallest."""
        searches = [smallest(it.mutant.changes, MOST_SLOW if LATE in kind else MOST_TRIED) for kind, it in chosen]
        found, asked, answers = {}, {}, dict.fromkeys(range(len(chosen)))
        while answers:
            for number, own in answers.items():
                try:
                    asked[number] = searches[number].send(own)
                except StopIteration as end:
                    found[number] = end.value
            held = iter(self.hold([(*chosen[number], part) for number, parts in asked.items() for part in parts]))
            answers = {number: [next(held) for _ in parts] for number, parts in asked.items()}
            asked = {}
        return self.confirmed(chosen, [found[it] for it in range(len(chosen))])

    def hold(self, trials):
        """Returns for each part of a mutant's changes whether it is of the mutant's kind of difference. Where the native build answered as
        the program did for the whole, it is asked alone."""
        tasks = [(Mutant(whole.mutant.image, part, whole.mutant.mended), wanted_of(whole)) for _, whole, part in trials]
        found = self.crew.answers(tasks)
        alone = [whole.program in (whole.native, answer_of(whole.native)) for _, whole, _ in trials]
        self.ask_program([it for it, is_alone in zip(found, alone) if not is_alone])
        for it in found:
            it.program = it.program or it.native
        return [kind in it.kinds() for it, (kind, _, _) in zip(found, trials)]

    def confirmed(self, chosen, found):
        """Returns what all say of the smallest mutants; of one that isn't of its kind by the program, what is said of the whole."""
        pairs = [(it, Mutant(it.mutant.image, changes, it.mutant.mended)) for (_, it), (changes, _) in zip(chosen, found)]
        asked = self.crew.answers([(mutant, None) for whole, mutant in pairs if mutant != whole.mutant])
        self.ask_program(asked)
        asked = iter(asked)
        said = [whole if mutant == whole.mutant else next(asked) for whole, mutant in pairs]
        return [(it, known) if kind in it.kinds() else (whole, False) for (kind, whole), it, (_, known) in zip(chosen, said, found)]

    def tell(self, found, count):
        """Prints the differences, and keeps the mutants that are told."""
        number = 0
        for kind, times, shrunk in found:
            print(f"{kind_text(kind)}: {times} of {count}")
            for it in shrunk:
                number += 1
                print(f"    {number}: {self.text_of(it, kind)}")
                if self.asked.keep:
                    self.keep(f"{number}.img", it[0])

    def keep(self, name, said):
        """Keeps a mutant as a file."""
        path = os.path.join(self.asked.keep, name)
        try:
            os.makedirs(self.asked.keep, exist_ok=True)
            Path(path).write_bytes(changed(self.images[said.mutant.image][1], said.differences))
        except OSError as it:
            raise NoProgram(f"the file {path} can't be written: {it.strerror}") from None

    def text_of(self, shrunk, kind):
        """Where a mutant differs from its image, and what is said of it."""
        said, is_smallest = shrunk
        name, before = self.images[said.mutant.image]
        parts = [f"{name} {differences_text(said, before)}"]
        parts += [f"the program: {said.program}"] if kind[1] != "answer 0" or kind[0] == BUILDS else []
        parts += [f"the native build: {said.native}"] if kind[0] == BUILDS else []
        parts += [f"the tool: {said.why}"] if kind[0] == TOOL and said.why else []
        return "; ".join(parts if is_smallest else [*parts, "there may be a smaller one"])


def wanted_of(said):
    """What the native build has to answer for a part of a mutant: what it answers for the whole, where that counts."""
    return answer_of(said.native) if is_compared(said.answer()) else None


def distinct(shrunk):
    """The smallest mutants that differ from an image at different places, those with the fewest changes first."""
    found = {}
    for it in sorted(shrunk, key=lambda it: len(it[0].mutant.changes)):
        found.setdefault((it[0].mutant.image, tuple(at for at, _ in it[0].mutant.changes)), it)
    return list(found.values())


def counts_text(said):
    """How many are good by whom."""
    counts = Counter((it.answer() == "answer 0", it.tool == "status 0") for it in said)
    names = {(True, True): "good by both", (False, False): "bad by both", (True, False): "good by the checker alone", (False, True): "good by the tool alone"}
    return ", ".join(f"{name} {counts[key]}" for key, name in names.items())


def kind_text(kind):
    """What differs."""
    where, answer, other = kind
    if where == BUILDS:
        return f"the program and the native build differ ({answer}, {other})"
    good = "good by the checker alone" if answer == "answer 0" else "good by the tool alone"
    return f"{good} (checker: {answer}, tool: {other})"


def differences_text(said, before):
    """The stretches of bytes in which a mutant differs from its image."""
    own, stretches = {at for at, _ in said.mutant.changes}, []
    for at, after in said.differences:
        it = (at, before[at], after, at not in own)
        last = stretches[-1][-1] if stretches else None
        if last and (last[0] + 1, last[3]) == (at, it[3]):
            stretches[-1].append(it)
        else:
            stretches.append([it])
    more = len(stretches) - STRETCHES
    texts = [stretch_text(it) for it in stretches[:STRETCHES]] + [f"{more} more stretches"] * (more > 0)
    return ", ".join(texts) or "as it is"


def stretch_text(stretch):
    """The place of a stretch, and its bytes before and after."""
    at, is_mended, count = stretch[0][0], stretch[0][3], len(stretch)
    before, after = (bytes(it[which] for it in stretch[:BYTES]).hex() for which in (1, 2))
    rest = f".. ({count} bytes)" if count > BYTES else ""
    return f"{'mended ' * is_mended}byte {at} (sector {at // SECTOR}+{at % SECTOR}) {before}{rest} -> {after}{rest}"


def notes_on(said):
    """Yields what isn't a difference, and had better be known."""
    for text, ends in (("strays", "stray"), ("spends the turns of a loop", f"answer {SPENT}"), ("reads past the end of a table", f"answer {OUTSIDE}")):
        found = [it.program for it in said if it.answer() == ends]
        if found:
            yield f"the program {text} on {len(found)}, which the native build isn't asked about: {found[0]}"
    for tool, count in sorted(Counter(it.tool for it in said).items()):
        if tool == LATE or tool.startswith("signal"):
            yield f"the tool ends with {tool} on {count}"
    goods = {it.tool == "status 0" for it in said}
    if len(goods) == 1:
        yield f"the tool finds all of them {'good' if goods == {True} else 'bad'}, so little was compared"
