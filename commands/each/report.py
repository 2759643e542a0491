"""The report of a run, as `crashbpf explore` prints one of a checker."""
import os
import shutil
import sys
import tempfile

TITLE, PART = "crash report 2\n", "crash part 1\n"


def escaped(word, also=""):
    """Returns a word as `crashbpf log` prints the text of a mark: printable ASCII but for `"` and `\\`, any other byte by its number."""
    plain = (chr(it) if 32 <= it < 127 and chr(it) not in '"\\' + also else f"\\x{{{it:x}}}" for it in os.fsencode(word))
    return "".join(plain)


def told(words):
    """Returns the words of a program in one line, with a space between them: one in a word stands there by its number."""
    return " ".join(escaped(it, " ") or '""' for it in words)


class Report:
    """The failing lines, in the order of their images, and how many there are."""

    def __init__(self):
        self.lines, self.count, self.first = tempfile.TemporaryFile(), 0, None
        # The number that says of which log and options it is. The report of the first failing image alone doesn't say that.
        self.inputs = None

    def add(self, number, cut, choice, verdict):
        """Adds the failing line of an image."""
        self.lines.write(f"image {number} cut {cut} program 0 {verdict.text()} choice {choice.decode()}\n".encode())
        self.count += 1
        self.first = number if self.first is None else self.first

    def opening(self, given, images, total):
        """Returns the lines before the options: those of the report, or of the text of a part of these images."""
        if given.part:
            return f"{PART}part {images.start}..{images.stop} of {total} inputs {self.inputs}\n"
        return TITLE if given.first else f"{TITLE}inputs {self.inputs} programs 1\n"

    def write(self, options, given, images, total):
        """Prints the report of a range of the images of a run on standard output. `total` is how many the run has."""
        if given.first:
            last = f"images {len(images)} first {'none' if self.first is None else self.first}\n"
        else:
            last = f"images {len(images)} failing {self.count} lines {self.count}\n"
        out = sys.stdout.buffer
        out.write(f"{self.opening(given, images, total)}{options}\nprogram 0 outside {told(given.program)}\n".encode())
        self.lines.seek(0)
        shutil.copyfileobj(self.lines, out)
        out.write(last.encode())
        out.flush()
