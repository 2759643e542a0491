"""What is asked of crashbpf: the head of the report and how many images there are, the texts of the marks, and the images."""
import os
import re
import shutil
import subprocess
import tempfile
from pathlib import Path

from commands.each.words import FLAGS, OF_LOG, VALUED
from commands.shared.faults import Refusal

# A program of one instruction, `exit`: with `--checked 0` it takes no step, so that crashbpf tells what a run is without one.
EXIT = b"\x95" + bytes(7)
PART = re.compile(r"part 0\.\.[01] of (0|[1-9]\d*) inputs (\d+)", re.A)
MARK = re.compile(rb'entry \d+ .*\bmark\b.* text "(.*)"')
PROMISES = ("note: marks that promise ", "note: a write before each of them ")
RISK = re.compile(r"cut (\d+) epoch \d+ marks \d+ at risk (\d+) in flight \d+", re.A)
PART_OF_CUTS = re.compile(r"part --from (\d+) --to (\d+)", re.A)
PART_OF_IMAGES = re.compile(r"part (\d+)\.\.(\d+)", re.A)
NO_IMAGE = "refused 13 at 17"
# On which options the images hang of which records are.
OF_RECORDS = ("--sectors", "--base", "--by", "--large")
# By which the bytes of files are summed, and what takes that back.
FACTOR = 1099511628211
INVERSE = pow(FACTOR, -1, 2**64)


def found():
    """Returns the path of crashbpf: the one of $CRASHBPF, that beside this program, or that on the path."""
    named = os.environ.get("CRASHBPF") or "crashbpf"
    path = shutil.which(named)
    if path is None:
        raise Refusal(f"there is no program {named} on the path")
    return path


def first_line(said):
    """Returns the first line of what crashbpf said on standard error, or that it said nothing."""
    lines = [it for it in said.decode(errors="replace").splitlines() if it and not it.startswith("note: ")]
    return lines[0] if lines else "it says nothing"


def notes_in(said):
    """Returns the notes of what crashbpf said on standard error, but those of marks that promise too much, which `marks` has."""
    return [it for it in said.decode(errors="replace").splitlines() if it.startswith("note: ") and not it.startswith(PROMISES)]


def asked(program, words):
    """Runs crashbpf, and returns its status and what it printed on both outputs."""
    try:
        done = subprocess.run([program, *words], stdin=subprocess.DEVNULL, capture_output=True)
    except (OSError, ValueError) as error:
        raise Refusal(f"{program} can't be run: {error}") from None
    return done.returncode, done.stdout, done.stderr


def explored(program, folder, words):
    """Explores by a program that takes no step. A file is made in the folder, and taken away. Returns the status and what is printed."""
    path = Path(folder, "exit")
    path.write_bytes(EXIT)
    try:
        return asked(program, ["explore", *words, str(path), "--checked", "0"])
    finally:
        path.unlink()


def part(program, given, folder, words):
    """Returns the first lines of the text of a part of a run, and what its second line counts and sums."""
    for images in ("0..1", "0..0"):
        status, printed, said = explored(program, folder, [*words, "--images", images])
        if status != 2 or first_line(said) != NO_IMAGE:
            break
    lines = printed.decode(errors="replace").split("\n")
    found = PART.fullmatch(lines[1]) if status in (0, 1) and len(lines) > 3 else None
    if not found or lines[0] != "crash part 1" or not lines[2].startswith("sectors "):
        raise Refusal(f"crashbpf refuses the log {given.log}, or its options: {first_line(said)}")
    return lines, int(found[1]), int(found[2])


def images_of_part(program, given, total):
    """Returns the first of the images that are judged and the one after the last: all, or those of a part, of which there are none where there
    are more parts than images."""
    if given.part is None:
        return 0, total
    part, parts = given.part
    status, printed, said = asked(program, ["images", *given.of_images(), "--images", "--parts", str(parts)])
    if status != 0:
        raise Refusal(first_line(said))
    found = [(int(it[1]), int(it[2])) for it in map(PART_OF_IMAGES.fullmatch, printed.decode().splitlines()) if it]
    return found[part - 1] if part <= len(found) else (total, total)


def head(program, given, folder):
    """Returns the line of the options, as the report has it, and the number of all images."""
    lines, total, _inputs = part(program, given, folder, [*given.of_images(), *["--first"] * given.first])
    return lines[2], total


def summed(number, content, back=False):
    """Goes on with the number of some files (docs/OUTPUT.md, 'The text of a part') by the bytes of one more, or takes those of the last back."""
    found = [*content, *len(content).to_bytes(8, "little")]
    for byte in reversed(found) if back else found:
        number = ((number - byte - 1) * INVERSE if back else number * FACTOR + byte + 1) % 2**64
    return number


def inputs(program, given, folder):
    """Returns the number of the inputs of records: of the log, and of what its images hang on beside that. crashbpf sums the log with the
    program of one instruction, whose bytes are taken back."""
    lines, _total, number = part(program, given, folder, [*given.of_images(OF_RECORDS), "--bound", "0"])
    device, _cuts, more = lines[2].partition(" cuts ")
    by, base = "write" if " by write" in more else "sector", more.partition(" base ")[2]
    said = f"{device} by {by}{' base ' if base else ''}{base}\n"
    return summed(summed(number, EXIT, True), said.encode())


def case_options(program, given, folder):
    """Returns the line of the options, as a text of cases has it, and the notes beside such a text that aren't of a checker."""
    status, printed, said = explored(program, folder, given.of_step())
    lines = printed.decode(errors="replace").split("\n")
    options = lines[2] if lines[1:2] and lines[1].startswith("inputs ") else lines[1] if len(lines) > 2 else ""
    if status not in (0, 1) or lines[0] != "crash cases 1" or not options.startswith("sectors "):
        raise Refusal(f"crashbpf refuses the log {given.log}, or its options: {first_line(said)}")
    return options, [it for it in notes_in(said) if not it.startswith("note: program ")]


def marks(program, given):
    """Returns the text of each mark of the log, in order, as `crashbpf log` prints it, and its notes of those that promise too much."""
    status, printed, said = asked(program, ["log", *given.of_images(OF_LOG)])
    if status != 0:
        raise Refusal(f"crashbpf refuses the log {given.log}: {first_line(said)}")
    notes = [it for it in said.decode(errors="replace").splitlines() if it.startswith(PROMISES)]
    return [it[1] for it in map(MARK.fullmatch, printed.split(b"\n")) if it], notes


def laid_out(program, given, *more):
    """Returns the lines that tell how a run with any number of losses is laid out."""
    words = given.of_images([it for it in (*VALUED, *FLAGS, "--at-most") if it != "--bound"])
    status, printed, said = asked(program, ["images", *words, "--bound", "any", *more])
    if status != 0:
        raise Refusal(first_line(said))
    return printed.decode().splitlines()


def risks(program, given):
    """Returns each cut at which cases are looked for, with the number of parts at risk there."""
    return [(int(it[1]), int(it[2])) for it in map(RISK.fullmatch, laid_out(program, given)) if it]


def parts(program, given, count):
    """Returns the first and the last cut of each part of a run that is laid out in as many, or in fewer where it has fewer cuts."""
    return [(it[1], it[2]) for it in map(PART_OF_CUTS.fullmatch, laid_out(program, given, "--parts", str(count))) if it]


def beyond(program, given):
    """Returns a note of the cuts at which more parts may be lost at once than the bound has, or no note where there is none."""
    bound = int(given.value("--bound") or 1)
    try:
        found = risks(program, given)
    except Refusal as fault:
        return [f"note: at how many cuts more is lost than --bound {bound} has isn't known: {fault}"]
    more = sum(risk > bound for _cut, risk in found)
    parts = "part" if bound == 1 else "parts"
    return [f"note: at {more} of {len(found)} cuts a crash may lose more than {bound} {parts}, and such images aren't judged"] * (more > 0)


class Export:
    """The process of `crashbpf export` with some words, and its output as a file."""

    def __init__(self, program, words):
        self.said = tempfile.TemporaryFile()
        self.process = subprocess.Popen([program, "export", *words], stdin=subprocess.DEVNULL, stdout=subprocess.PIPE, stderr=self.said, bufsize=1 << 20, start_new_session=True)
        self.file = self.process.stdout

    def end_in_order(self):
        """Waits for the end of the process, whose status has to be 0."""
        status = self.process.wait()
        if status != 0:
            raise Refusal(f"crashbpf export ended with {status}: {self.first_line()}")

    def status_now(self):
        """Returns the status of the process where it has ended, or is about to, and None where it goes on."""
        try:
            return self.process.wait(1)
        except subprocess.TimeoutExpired:
            return None

    def first_line(self):
        self.said.seek(0)
        return first_line(self.said.read(65536))

    def refusal(self, error):
        """Returns why the text can't be taken. A refusal of crashbpf is why it is cut off."""
        status = self.status_now()
        return Refusal(f"{error}; it ended with {status}: {self.first_line()}" if status else str(error))

    def close(self):
        """Ends the process of the export, and closes its files."""
        self.process.kill()
        self.process.wait()
        self.file.close()
        self.said.close()
