"""The records of both levels of a run whose power goes again, by which `--resume` goes on with both.

Those of the second level stand in a file of their own, beside that of the log's records. After a head it has a line for what the program did
to each image of the log that it accepts, and one for how it ended on each image that a second crash left:

    log cut 19 choice 7:drop marks 1 looked 0-7,64-71 is (the name of the second log, and its bytes, by base 64)
    ran cut 19 choice 7:drop then cut 4 choice 2:drop of NAME VIEW marks 1 answer 0 looked 0-7,64-71
"""
import base64
import os
import re

from commands.each.cases import TORN, WHOLE
from commands.each.known import RANGE, Record, sectors_of, verdict_of
from commands.each.records import Records, record
from commands.each.second_images import SECOND, image_said
from commands.each.second_log import NAME, SecondLogs
from commands.each.served_log import fates_of
from commands.each.state import Journal
from commands.shared.faults import Refusal

TITLE = "crash again known 1"
# Sectors have smaller numbers, those of devices of second logs too.
MOST_SECTORS = 1 << 62
LOOKED = rf"looked (?P<looked>-|{RANGE}(?:,{RANGE})*)"
LOG = re.compile(rf"log cut (?P<cut>\d{{1,9}}) choice (?P<choice>\S+) marks (?P<marks>\d{{1,9}}) {LOOKED} is (?P<log>[A-Za-z0-9+/=]+)", re.A)
ENDED = r"(?:answer (?P<answer>\d{1,9})|signal (?P<signal>\d{1,9})|(?P<late>out of time))"
RAN = re.compile(rf"ran cut (?P<cut>\d{{1,9}}) choice (?P<choice>{SECOND.pattern}) marks (?P<marks>\d{{1,9}}) {ENDED} {LOOKED}", re.A)


class SecondRecords(Journal):
    """The file of the second level. `known` has the records of both levels, and `logs` the second logs of an earlier run. Names of `skipped`
    weren't recorded."""

    def __init__(self, path, known, resume, skipped):
        super().__init__(path, resume)
        self.known, self.logs, self.lines = known, SecondLogs(skipped), []
        self.begin([TITLE, *known.head[1:]], resume)

    def go_on(self, head):
        """Takes up the file, which has to be of this run. Its records of images wait until the second logs are known."""
        lines, size = self.whole_lines()
        if lines[: len(head)] != head:
            raise Refusal(f"{self.path} isn't gone on with: it is of another run")
        for number, line in enumerate(lines[len(head) :], len(head) + 1):
            if found := RAN.fullmatch(line):
                self.lines.append((number, found))
            elif not self.is_log(LOG.fullmatch(line)):
                raise self.refusal(number)
        self.append_at(size)

    def refusal(self, number):
        return Refusal(f"{self.path} isn't gone on with: line {number} is no record of this log")

    def first_image(self, cut, choice, marks):
        """Returns an image of the log, or None where a cut has no such choice."""
        images = self.known.images
        return self.known.image_said(cut, choice) if cut < len(images.marks) and images.marks[cut] == marks else None

    def is_log(self, found):
        """Takes the line of a second log. It is that of the record that tells its image by the same looks."""
        image = found and self.first_image(int(found["cut"]), found["choice"], int(found["marks"]))
        if not image:
            return False
        content = base64.b64decode(found["log"])
        if self.logs.keep(content[NAME:], image).encode() != content[:NAME]:
            return False
        it = self.known.telling(image, int(found["marks"]))
        if it is not None and it.log is None and it.looked == sectors_of(found["looked"], MOST_SECTORS):
            it.log = content
        return True

    def take(self, logs):
        """Takes the records of images whose second logs are among those."""
        for number, it in self.lines:
            name, verdict = SECOND.fullmatch(it["choice"])[4], verdict_of(it["answer"], it["signal"], it["late"])
            if name in logs.found:
                image, looked = self.second_image(it, logs), sectors_of(it["looked"], MOST_SECTORS)
                if None in (image, verdict, looked):
                    raise self.refusal(number)
                self.known.add(Record(self.known.count, verdict, looked), image, int(it["marks"]))
        self.lines = []

    def second_image(self, it, logs):
        """Returns the image of a record, or None where there is none such."""
        cut, (own, number, after, name, _) = int(it["cut"]), SECOND.fullmatch(it["choice"]).groups()
        if self.first_image(cut, own, int(it["marks"])) is None or int(number) > len(logs[name].entries) or fates_of(after) is None:
            return None
        image = image_said(self.known.images, cut, it["choice"], logs)
        parts = image.images.of_second(int(number))
        is_known = all((cut + entry, place) in parts and fate in TORN and fate != WHOLE for (entry, place), fate in fates_of(after))
        return image if is_known else None

    def add_log(self, image, looked, log):
        """Adds what the program did to an image of the log, with its looks."""
        self.write(f"log cut {image.cut} choice {image.choice.decode()} marks {image.marks} looked {looked} is {base64.b64encode(log).decode()}\n")

    def add(self, image, verdict, looked):
        """Adds how the program ended on an image that a second crash left."""
        self.write(f"{record(image, verdict, looked)}\n")

    def end(self, is_kept):
        """Closes the file, and takes it away unless it is kept."""
        if not is_kept:
            os.unlink(self.path)
        os.close(self.file)


class AgainRecords(Records):
    """The records of both levels."""

    def __init__(self, path, known, resume, skipped):
        super().__init__(path, known, resume)
        self.second = SecondRecords(f"{path}.again", known, resume and os.path.exists(f"{path}.again"), skipped)

    def add(self, image, verdict, looked, log):
        """Adds what the program did to an image of the log that it accepts, and then the record of the image."""
        if verdict.is_good():
            self.second.add_log(image, looked, log)
        super().add(image, verdict, looked, log)

    def end(self, is_kept):
        """Closes the files, and takes them away unless they are kept."""
        super().end(is_kept)
        self.second.end(is_kept)
