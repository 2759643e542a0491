"""What a checker's native build and a tool say of mutants of images, one after the other."""
import os
import shlex
from dataclasses import dataclass, field
from pathlib import Path
from random import Random

from commands.cc.mutants import SECTOR, Drawer, filled_sectors
from commands.cc.native import answers
from commands.cc.program import OUTSIDE, SPENT
from commands.cc.work import NotRun
from commands.shared.program import run, tidy
from commands.shared.verdicts import EXIT, OUT_OF_TIME

PLACE = "{}"
LATE = "no answer in time"
# How many changes a mutant has, mostly few; and how often it is mended, where it can be.
TIMES, MENDED = (1, 1, 1, 1, 2, 3), 0.75
# How often it is drawn again where nothing was changed.
DRAWS = 20
# The two kinds of differences.
TOOL, BUILDS = "tool", "builds"


@dataclass
class Given:
    """What is asked, and of which images: the native build and the words in front of its image, the tool's command, the images with their
    names, the checker's source and where it reads in each image, the seed, whether it mends sums, and how many seconds a program may run."""

    native: str
    context: list
    command: str
    images: list
    source: str
    reads: list
    seed: str
    mends: bool
    seconds: int


@dataclass
class Mutant:
    """An image with changes: the number of the image, the changes as places and bytes, and whether its sums are mended."""

    image: int
    changes: list
    mended: bool


@dataclass
class Said:
    """What is said of a mutant: how the program, the native build and the tool end, and the first line that the tool prints. Beside it are
    the mutant, and all bytes in which it differs from its image."""

    mutant: Mutant
    differences: list
    native: str = ""
    tool: str = ""
    why: str = ""
    program: str = ""

    def answer(self):
        return answer_of(self.program)

    def kinds(self):
        """In which ways these differ."""
        if (self.answer() == "answer 0") != (self.tool == "status 0"):
            yield TOOL, self.answer(), self.tool
        # Codes aren't told of a good image.
        if is_compared(self.answer()) and self.program not in (self.native, answer_of(self.native)):
            yield BUILDS, self.answer(), answer_of(self.native)


def answer_of(end):
    """An end without its codes or its place."""
    return end.partition(" codes ")[0].partition(" at ")[0]


def is_compared(answer):
    """Whether the native build has to answer the same: no native build strays, reads past tables or spends the turns of plain loops."""
    return answer not in ("stray", f"answer {SPENT}", f"answer {OUTSIDE}")


def differing(before, after):
    """The bytes in which two images of one size differ, as places and bytes of the second."""
    found = []
    for start in range(0, len(before), SECTOR):
        one, other = before[start : start + SECTOR], after[start : start + SECTOR]
        if one != other:
            found += [(start + at, other[at]) for at in range(len(other)) if one[at] != other[at]]
    return found


def changed(before, changes):
    """The bytes of an image with changes."""
    content = bytearray(before)
    for at, it in changes:
        content[at] = it
    return bytes(content)


@dataclass
class Judge:
    """Judges mutants in a folder of its own. `hang_up` is a file that can be read where nobody waits any more."""

    given: Given
    folder: Path
    drawers: dict = field(default_factory=dict)
    hang_up: int = -1

    def __call__(self, task, hang_up):
        """Does a task: a mutant or its number, and what the native build has to answer so that the tool is asked (none: anything)."""
        asked, wanted = task
        self.hang_up = hang_up
        return self.said(self.mutant(asked) if isinstance(asked, int) else asked, wanted)

    def mutant(self, number):
        """Returns the mutant of that number; of the first numbers it is an image as it is."""
        given = self.given
        if number < len(given.images):
            return Mutant(number, [], False)
        rng = Random(f"{given.seed} {number - len(given.images)}")
        image = rng.randrange(len(given.images))
        mended = given.mends and rng.random() < MENDED
        before, changes = given.images[image][1], []
        for _ in range(DRAWS):
            changes = changes or differing(before, self.drawer(image).changed(before, rng, TIMES))
        return Mutant(image, changes, mended)

    def drawer(self, image):
        """Returns what draws changes of an image."""
        if image not in self.drawers:
            content = self.given.images[image][1]
            self.drawers[image] = Drawer(self.given.source, len(content) // SECTOR, filled_sectors(content), self.given.reads[image])
        return self.drawers[image]

    def said(self, mutant, wanted):
        """Returns what is said of a mutant."""
        path, differences = self.made(mutant)
        said = Said(mutant, differences, self.native(path))
        if wanted in (None, answer_of(said.native)):
            said.tool, said.why = self.tool(path)
        return said

    def made(self, mutant):
        """Writes a mutant to a file of its image's name, with nothing beside it. Returns its path, and where it differs from the image."""
        self.folder.mkdir(exist_ok=True)
        tidy(self.folder)
        name, before = self.given.images[mutant.image]
        path = self.folder / Path(name).name
        path.write_bytes(changed(before, mutant.changes))
        if not mutant.mended:
            return path, mutant.changes
        ended = self.run([self.given.native, "--mend", path])
        if not ended.verdict.is_good():
            raise NotRun(f"mend_sums ended with {text_of(ended)} on a mutant of {name}", "it has to do with any content of an image")
        return path, differing(before, path.read_bytes())

    def run(self, words):
        """Runs a program, from which nothing is left."""
        with open(os.devnull) as nothing:
            return run([os.fsencode(str(it)) for it in words], os.environ, self.given.seconds, self.hang_up, nothing.fileno())

    def native(self, path):
        """How the native build ends on an image."""
        ended = self.run([self.given.native, *self.given.context, path])
        found = answers(ended.said.decode(errors="replace"))
        if ended.verdict.kind != EXIT or ended.verdict.number > 1 or not found:
            return text_of(ended)
        return "answer {} codes {}".format(*found[-1])

    def tool(self, path):
        """How the tool ends on an image, and the first line that it prints."""
        ended = self.run(["sh", "-c", self.given.command.replace(PLACE, shlex.quote(str(path)))])
        first = ended.said.decode(errors="replace").replace(str(path), path.name).strip().split("\n")[0]
        return text_of(ended), "".join(it for it in first if it.isprintable())[:160]


def text_of(ended):
    """How a run ended: with a status, by a signal, or not in time."""
    kind, number = ended.verdict
    return LATE if kind == OUT_OF_TIME else f"{'status' if kind == EXIT else 'signal'} {number}"
