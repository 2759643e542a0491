"""The second level of a run: the power goes again, while the program is at work on the image of a case that it accepts.

Each such case has a second log, which was noted when its image was judged. Its cuts are searched like those of the log, by the records of
both levels (docs/CRASH-MODEL.md, 'A crash while recovery is at work').
"""
from commands.each.again_lines import First, text
from commands.each.cases import Cut, Search
from commands.each.known import Record, sectors_of
from commands.each.second_images import SecondImages, image_said
from commands.each.second_log import NAME, SecondLogs
from commands.each.second_records import MOST_SECTORS
from commands.each.step import Searched, asked_of
from commands.each.stream import Image
from commands.shared.faults import Refusal

LOOKS = "note: the program wrote to no image that it accepts, so there is nothing to cut: it has no second level"


class Again:
    """What a step of the second level is made of. For the rounds it is the records too, which `second` has in a file."""

    def __init__(self, step, second):
        self.known, self.second, self.logs, self.unlogged = step.known, second, SecondLogs(), {}
        self.take(step)

    def take(self, step):
        """Takes the step of the first level, which wants nothing."""
        self.step, self.given, self.asked, self.firsts, self.searched = step, step.given, asked_of(step.given), None, None
        self.cases = [(it, number, case) for it in step.searched.searches for number, case in enumerate(it.found.leaves) if case.record.is_good()]

    def asking(self, changes):
        """Asks with other options from here on, of both levels."""
        step = self.step.asking(changes)
        step.searched.search()
        self.take(step)
        return self

    # What the rounds ask

    def wanted(self):
        """Returns the images that are wanted: those of which it isn't known what the program does to them, as it may be after --resume, then
        those that a second crash leaves."""
        if self.searched is None:
            wanted = self.images_without_log()
            if wanted:
                return wanted
            self.begin()
        return self.searched.wanted()

    def is_told(self, image):
        """Whether a record tells an image that was wanted, by now."""
        return (image.cut, image.choice) not in self.unlogged and self.known.telling(self.image(image), image.marks) is not None

    def add(self, image, verdict, looked, log):
        """Takes what was found of an image."""
        record = self.unlogged.get((image.cut, image.choice))
        if record is not None:
            if record.verdict != verdict:
                raise Refusal(f"run again on one image the program ends otherwise, at cut {image.cut} choice {image.choice.decode()}")
            record.log = log
            self.second.add_log(image, looked, log)
            return
        self.second.add(image, verdict, looked)
        try:
            self.known.add(Record(self.known.count, verdict, sectors_of(looked, MOST_SECTORS)), self.image(image), image.marks)
        except Refusal:
            where = f"cut {image.cut} choice {image.choice.decode().partition(' of ')[0]}"
            raise Refusal(f"what was seen contradicts an earlier run, so the program looks at more than the image, at {where}") from None

    def write(self, line):
        self.second.write(line)

    def text(self):
        """Returns the status, the text, and the notes."""
        self.searched.search()
        status, found = text(self.step, self.firsts, self.searched.searches)
        notes = self.step.text()[2]
        return status, found.encode(), [*notes, *self.notes()]

    # Second logs

    def image(self, image):
        return image_said(self.known.images, image.cut, image.choice.decode(), self.logs)

    def images_without_log(self):
        """Returns an image for each record of a first case of which it isn't known what the program did."""
        found = {}
        for it, _number, case in self.cases:
            if case.record.log is None and case.record not in found.values():
                cut, choice = it.cut.images.said(it.cut.number, it.cut.choice(case))
                found[Image(len(found), cut, it.cut.images.marks[cut], choice.encode(), None, None)] = case.record
        self.unlogged = {(image.cut, image.choice): record for image, record in found.items()}
        return list(found)

    def begin(self):
        """Begins the searches of all second logs."""
        self.unlogged, self.firsts = {}, [self.first(*it) for it in self.cases]
        self.second.take(self.logs)
        self.searched = Searched([search for first in self.firsts if first.is_explored() for search in self.searches(first)], self.known)

    def first(self, search, number, case):
        """Returns a first case, with its second log."""
        name, content = case.record.log[:NAME].decode(), case.record.log[NAME:]
        self.logs.put(name, content, search.cut.image(case))
        return First(search, number, case, name, self.logs[name])

    def searches(self, first):
        """Returns the searches of the cuts of a second log."""
        log, cut = first.log, first.search.cut
        images = SecondImages(cut.images, cut.number, log, first.name)
        for number in range(len(log.entries) + 1):
            if self.asked.most is not None or log.is_last_cut(number):
                place = cut.number + number
                search = Search(Cut(images, place, self.asked), images.number_of(place, first.search.whole), first.case.known)
                first.searches.append(search)
                yield search

    def notes(self):
        """Returns what is noted of second logs."""
        if self.firsts and not any(it.is_written() for it in self.firsts):
            return [LOOKS]
        unexplored = {}
        for it in self.firsts:
            if it.log.why:
                unexplored.setdefault(it.log.why, []).append(it)
        return [f"note: {len(them)} second logs aren't explored: {why}, first at {them[0].place()}" for why, them in unexplored.items()]
