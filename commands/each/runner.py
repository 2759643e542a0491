"""A runner: a process that lets the program judge one image after the other, as it is told.

It is told of an image by a message: the sizes and numbers of `TOLD`, the choice, the text of the mark, and records. It answers by one of
`ANSWER`, with the words of a refusal after it, or with what is said beside the verdict. It ends where the other side is closed, whatever it is
at, and takes its folder away.
"""
import os
import shutil
import signal
import struct
import sys
import traceback
from contextlib import suppress
from functools import partial
from pathlib import Path
from typing import NamedTuple

from commands.each.image_file import ImageFile
from commands.shared.faults import Refusal
from commands.shared.program import Gone, adopt, run, tidy

# Of an image its number, cut and marks, the turn, the lengths of the choice and of the mark's text, and the number of bytes of records.
TOLD = struct.Struct("<QQQBIIQ")
# The turn of an image: it is run for the first time; again alone, since what it came to doesn't count; or again, to be compared, by a program
# that judged no image before, which in the last case was started for it.
FIRST, ALONE, COMPARED, STARTED = range(4)
# Whether it is a refusal, the kind and the number of the verdict, whether processes were left, and the length of what is said.
ANSWER = struct.Struct("<?BQ?I")
SAYS_MORE = b"\n[crashbpf-each: %d bytes more were printed]\n"


def exactly(file, size):
    """Returns that many bytes of a file, or raises Gone where it ends before."""
    data = file.read(size)
    if len(data) != size:
        raise Gone
    return data


class Told(NamedTuple):
    """An image to judge: its number, its cut and marks, its turn, its choice, the text of the last mark, and the records of what it changes."""

    number: int
    cut: int
    marks: int
    turn: int
    choice: bytes
    mark: bytes
    records: bytes


class Runner:
    """What each runner has: its channel, the path of the image, and what it is to run."""

    def __init__(self, given, channel, path):
        self.given, self.channel, self.path = given, channel, path
        self.asked = channel.makefile("rb", 1 << 18)
        self.words = [self.path if it == "{}" else os.fsencode(it) for it in given.program]
        # (crashbpf-files needs no Python of its own, which takes longer to start than most programs that judge)
        self.act = partial(given.inside, [os.fsdecode(it) for it in self.words[1:]]) if given.inside else None
        self.nothing = os.open(os.devnull, os.O_RDONLY | os.O_CLOEXEC)

    def go(self):
        """Judges images as they are told, until nobody tells one more."""
        while True:
            number, cut, marks, turn, *sizes = TOLD.unpack(exactly(self.asked, TOLD.size))
            it = Told(number, cut, marks, turn, *(exactly(self.asked, size) for size in sizes))
            ended, said = self.judge(it)
            self.channel.sendall(ANSWER.pack(False, *ended.verdict, ended.left, len(said)) + said)

    def surroundings(self, it):
        """Returns what the program finds in its environment. With any number of losses nothing says where the image stands in the log."""
        found = {**os.environb, b"CRASH_MARKS": b"%d" % it.marks, b"CRASH_IMAGE": self.path, b"CRASH_MARK": it.mark}
        place = {b"CRASH_CUT": b"%d" % it.cut, b"CRASH_CHOICE": it.choice}
        if not self.given.is_any():
            return {**found, **place}
        return {name: value for name, value in found.items() if name not in place}

    def end(self):
        """Ends what outlives an image."""

    def run(self, it):
        return run(self.words, self.surroundings(it), self.given.seconds, self.channel.fileno(), self.nothing, self.act)

    def keep(self, number, ended):
        """Keeps a failing image, and what the program printed of it; each has its name when it is whole."""
        said, image = (Path(self.given.keep, f"{number}.{kind}") for kind in ("said", "image"))
        more = SAYS_MORE % ended.more if ended.more else b""
        begun = said.with_suffix(f".begun.{os.getpid()}")
        try:
            begun.write_bytes(ended.said + more)
            begun.rename(said)
            self.copy(begun)
            begun.rename(image)
        finally:
            begun.unlink(missing_ok=True)


class FileRunner(Runner):
    """A runner that holds the file of one image, and patches it as it is told."""

    def __init__(self, folder, given, channel):
        self.room = Path(folder, "run")
        self.room.mkdir()
        watched = given.read_only
        path = self.room / "image" if watched else Path(folder, "image")
        self.image = ImageFile(path, given.sectors(), given.value("--base"), watched)
        super().__init__(given, channel, os.fsencode(self.room / "image"))

    def judge(self, it):
        """Runs the program on the image that the file has now."""
        self.image.patch(it.records)
        if self.given.read_only:
            self.image.watch()
        else:
            self.image.copy(self.path)
        ended = self.run(it)
        if self.given.read_only:
            self.image.test_unchanged(it.number)
        if self.given.keep and not ended.verdict.is_good():
            self.keep(it.number, ended)
        tidy(self.room, ["image"] if self.given.read_only else [])
        return ended, b""

    def copy(self, path):
        self.image.copy(path)


def tell_refusal(channel, text):
    """Tells the words of a refusal in place of an answer."""
    said = text.encode(errors="replace")[:4096]
    with suppress(OSError):
        channel.sendall(ANSWER.pack(True, 0, 0, False, len(said)) + said)


def serve(folder, given, channel, make):
    """Is a runner in a folder of its own, until the other side is closed. Returns to nobody. `make` makes it of these three."""
    for it in (signal.SIGINT, signal.SIGTERM, signal.SIGHUP, signal.SIGQUIT):
        signal.signal(it, signal.SIG_IGN)
    adopt()
    runner = None
    try:
        runner = make(folder, given, channel)
        runner.go()
    except (Gone, BrokenPipeError, ConnectionError):
        pass
    except (Refusal, OSError) as error:
        tell_refusal(channel, str(error))
    except Exception as error:
        traceback.print_exc()
        tell_refusal(channel, f"a runner ended by an error that isn't expected: {error!r}")
    finally:
        if runner is not None:
            with suppress(Refusal, OSError):
                runner.end()
        shutil.rmtree(folder, ignore_errors=True)
        # The folder of all runners is the main process's, but it may have been killed; the last one finds it empty.
        try:
            os.rmdir(os.path.dirname(folder))
        except OSError:
            pass
        sys.stderr.flush()
        os._exit(0)
