"""What a run with any number of losses asks for, and its step where a second level follows: by the records so far it says which images are
wanted, and in the end the text of cases.

Without a second level crashbpf does that (`asking.py`). This search is a script's, and isn't proved. crashbpf tests the log and its options,
and says at which cuts cases are looked for and how many parts are at risk there: what the search takes for that is compared.
"""
from commands.each import product
from commands.each.case_lines import TITLE, text
from commands.each.cases import MOST_TORN, Asked, Cut, Search
from commands.each.second_images import SeenImages
from commands.each.served_log import FLUSH, FUA, MARK, LogImages
from commands.each.stream import Image
from commands.shared.faults import Refusal

MOST_CASES = 1 << 24
BLIND = "note: program 0: looked at no sector that an entry writes, in no record, so no loss changes what it ends in"


def number_of(given, name):
    return int(given.value(name)) if given.has(name) else None


def asked_of(given):
    """Returns what is asked of losses."""
    torn = (number_of(given, "--torn") or MOST_TORN) if given.has("--tears") else 0
    return Asked(given.has("--tears"), torn, number_of(given, "--at-most"), given.has("--stop-at-failing"), number_of(given, "--cases"))


def images_of(given, flushes=()):
    """Returns the images of the log."""
    make = SeenImages if given.again else LogImages
    return make(given.log, given.value("--base"), given.sectors(), given.value("--by") == "write", flushes)


def flushes_of(given):
    return frozenset(map(int, given.value("--flush").split(","))) if given.value("--flush") else frozenset()


def is_last_cut(entries, cut):
    """Whether no later cut has the images of this one."""
    here = entries[cut][2] & (FLUSH | MARK) if cut < len(entries) else 0
    return bool(cut == len(entries) or here or cut and entries[cut - 1][2] & FUA)


def cuts_of(given, entries):
    """Returns the cuts at which cases are looked for, rising."""
    kind, first, last = given.value("--cuts") or "all", number_of(given, "--from") or 0, number_of(given, "--to")
    cuts = range(first, (len(entries) if last is None else last) + 1)
    if kind == "flush":
        return [it for it in cuts if it == len(entries) or entries[it][2] & FLUSH]
    if kind == "mark":
        return [it for it in cuts if it and entries[it - 1][2] & MARK]
    return [it for it in cuts if given.has("--at-most") or is_last_cut(entries, it) or it == last]


def searches_of(images, asked, cuts):
    """Returns the searches of some cuts of a log."""
    wholes = list(images.numbers())
    return [Search(Cut(images, it, asked), wholes[it]) for it in cuts]


class Searched:
    """Some cuts, searched as far as records tell."""

    def __init__(self, searches, known):
        self.searches, self.known = searches, known

    def search(self):
        """Searches as far as the records tell."""
        total = 0
        for it in self.searches:
            found = it.go(self.known)
            total += len(found.leaves) + len(found.open)
            if total > MOST_CASES:
                raise Refusal(f"there are more than {MOST_CASES} cases at cut {it.cut.number}: --stop-at-failing, --cases or --at-most has fewer")

    def wanted(self):
        """Returns the images that are wanted, each once: the representatives of the open cases."""
        self.search()
        found = {}
        for it, case in ((it, case) for it in self.searches for case in it.found.open):
            marks = it.cut.images.marks[it.cut.number]
            cut, choice = it.cut.images.said(it.cut.number, it.cut.choice(case))
            found.setdefault((marks, it.whole ^ it.cut.changed(case)), Image(len(found), cut, marks, choice.encode(), None, None))
        return list(found.values())

    def text(self, options, title=TITLE):
        """Returns what is counted over all cuts, and the text of cases."""
        self.search()
        return text(self.known.head[1:], options, self.searches, title)


class Step:
    """The step of a run by its records."""

    def __init__(self, program, given, folder, known):
        self.program, self.given, self.folder, self.known = program, given, folder, known
        self.options, self.notes = product.case_options(program, given, folder)
        images = images_of(given, flushes_of(given))
        self.searched = Searched(searches_of(images, asked_of(given), cuts_of(given, images.entries)), known)
        if [(it.cut.number, len(it.cut.parts)) for it in self.searched.searches] != product.risks(program, given):
            raise Refusal("crashbpf looks for cases at other cuts, or has other parts at risk there: this is a bug of crashbpf-each")

    def asking(self, changes):
        """Returns the step with other options."""
        return Step(self.program, self.given.asking(changes), self.folder, self.known)

    def wanted(self):
        return self.searched.wanted()

    def is_told(self, image):
        """Whether a record tells an image that was wanted, by now."""
        return self.known.telling(self.known.images.image(image.cut, image.choice.decode()), image.marks) is not None

    def text(self):
        """Returns the status and the text of cases by all records, and the notes."""
        totals, found = self.searched.text(self.options)
        return totals.status(), found.encode(), [*self.notes, *[BLIND] * self.known.are_blind, *totals.notes()]
