"""What a run has come to so far, as a file that it leaves where it is stopped: `--resume` goes on from there.

    crashbpf-each state 1
    log (SHA-256 of the log)
    base (that of the file of --base, or of nothing)
    options (that of the options on which verdicts hang)
    words (that of the words of the program)
    image 13 answer 4 codes -

The first lines say of which run it is, and another isn't gone on with. Then a line follows for each image that was judged. A last line
without an end was being written when the process was killed, and isn't there.
"""
import fcntl
import hashlib
import os
import re

from commands.shared.faults import Refusal
from commands.shared.verdicts import EXIT, OUT_OF_TIME, SIGNAL, Verdict

TITLE = "crashbpf-each state 1"
LINE = re.compile(r"image (0|[1-9]\d*) (?:answer (\d+) codes -|signal (\d+)|(out of time))", re.A)
PIECE = 1 << 20
# What each sum of the first lines is of, for who is told that it is another.
SAID = {"log": "log", "base": "base", "options": "options", "words": "program or its words"}


def sum_of_file(path):
    """Returns the SHA-256 of a regular file."""
    total = hashlib.sha256()
    if path is not None:
        with open(path, "rb", opener=lambda name, flags: os.open(name, flags | os.O_NONBLOCK)) as file:
            if not os.path.isfile(path):
                raise Refusal(f"{path} is no regular file")
            while piece := file.read(PIECE):
                total.update(piece)
    return total.hexdigest()


def sum_of_words(words):
    return hashlib.sha256(b"".join(b"%d %s\n" % (len(it), it) for it in map(os.fsencode, words))).hexdigest()


def sums(given):
    """Returns what a run is known by."""
    return {
        "log": sum_of_file(given.log),
        "base": sum_of_file(given.value("--base")),
        "options": sum_of_words(given.told()),
        "words": sum_of_words(given.program),
    }


def verdict_of(line):
    """Returns the number of an image and its verdict by a line of a state, or None for another line."""
    it = LINE.fullmatch(line)
    if not it:
        return None
    number, status, ended_by, late = it.groups()
    if late:
        return int(number), Verdict(OUT_OF_TIME, 0)
    return int(number), Verdict(EXIT, int(status)) if status else Verdict(SIGNAL, int(ended_by))


class Journal:
    """A file to which a run appends lines. A run that is stopped leaves it, and one with `--resume` goes on with it."""

    def __init__(self, path, resume):
        self.path = path
        flags = os.O_RDWR | os.O_CLOEXEC | (0 if resume else os.O_CREAT)
        try:
            self.file = os.open(path, flags, 0o666)
            fcntl.flock(self.file, fcntl.LOCK_EX | fcntl.LOCK_NB)
        except BlockingIOError:
            raise Refusal(f"another run goes on with {path}") from None
        except FileNotFoundError:
            raise Refusal(f"there is no {path} to go on with") from None
        if not resume and os.fstat(self.file).st_size:
            raise Refusal(f"{path} is of a run that was stopped: --resume goes on with it, and without the file it begins anew")

    def begin(self, head, resume):
        """Writes the head of a new file, or takes up one that is there by the class's own `go_on`."""
        if resume:
            self.go_on(head)
        else:
            self.write("".join(f"{it}\n" for it in head))

    def whole_lines(self):
        """Returns the lines that have their end, and how many bytes these are. What stands after them was being written when a run was
        killed."""
        with open(self.path, "rb") as file:
            data = file.read()
        whole = data[: data.rfind(b"\n") + 1]
        return whole.decode(errors="replace").split("\n")[:-1], len(whole)

    def append_at(self, size):
        """Cuts the file off, and goes on there."""
        os.ftruncate(self.file, size)
        os.lseek(self.file, 0, os.SEEK_END)

    def write(self, text):
        data = text.encode()
        while data:
            data = data[os.write(self.file, data) :]


class State(Journal):
    """The file of a run, and its verdicts by the number of the image."""

    def __init__(self, path, known_by, resume):
        super().__init__(path, resume)
        self.verdicts = {}
        self.begin([TITLE, *(f"{name} {value}" for name, value in known_by.items())], resume)

    def go_on(self, head):
        """Takes the verdicts of the file, which has to be of this run."""
        lines, size = self.whole_lines()
        for wanted, found in zip(head, [*lines, *[""] * len(head)]):
            if wanted != found:
                name = wanted.split()[0]
                other = f"it is of another {SAID[name]}" if name in SAID and lines[:1] == [TITLE] else "it is no state of a run"
                raise Refusal(f"{self.path} isn't gone on with: {other}")
        for number, line in enumerate(lines[len(head) :], len(head) + 1):
            found = verdict_of(line)
            if found is None or found[0] in self.verdicts:
                raise Refusal(f"{self.path} isn't gone on with: line {number} is no verdict")
            self.verdicts[found[0]] = found[1]
        self.append_at(size)

    def add(self, number, verdict):
        self.write(f"image {number} {verdict.text()}\n")
        self.verdicts[number] = verdict

    def end(self, done):
        """Closes the file. It is left where the run wasn't done and has come to a verdict."""
        if done or not self.verdicts:
            os.unlink(self.path)
        os.close(self.file)
