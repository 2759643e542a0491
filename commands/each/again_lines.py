"""The text of a run whose power goes again (docs/OUTPUT.md, 'Records of a program of yours')."""
from commands.each.case_lines import COMPLETE, OF_THESE, Fates, Totals, listed, window
from commands.each.records import ranges
from commands.each.served_log import FLUSH, FUA, text_of

TITLE = "crash again 1"


class First:
    """A first case: its search and its number there, its second log with the name of that, and the searches of the second cuts."""

    def __init__(self, search, number, case, name, log):
        self.search, self.number, self.case, self.name, self.log = search, number, case, name, log
        self.searches = []

    def is_written(self):
        return bool(self.log.entries or self.log.why)

    def is_explored(self):
        return bool(self.log.entries)

    def failing(self):
        return [(it, number, case) for it in self.searches for number, case in it.found.failing()]

    def place(self):
        return f"cut {self.search.cut.number} choice {text_of(self.search.cut.choice(self.case))}"

    def lines(self):
        """Yields the lines of a first case of which second cases fail: its own, those of its second log, and those of the cases."""
        cut, totals = self.search.cut, Totals([it.found for it in self.searches])
        counts = f"entries {len(self.log.entries)} cuts {totals.cuts} cases {totals.cases} failing {totals.failing}"
        place = f"cut {cut.number} case {self.number} choice {text_of(cut.choice(self.case))}"
        yield f"first {place} marks {cut.images.marks[cut.number]} {counts}"
        for number, entry in enumerate(self.log.entries):
            yield f"entry {number} epoch {self.log.flushes[number]} {entry_said(entry, self.log.has_files())}"
        for search, number, case in self.failing():
            yield second_line(search.cut, number, case)


def entry_said(entry, has_files):
    """Returns what a line says of an entry of a second log."""
    if entry.call is not None:
        return f"{'flush' if entry.flags & FLUSH else 'write'}{' fua' if entry.flags & FUA else ''} by {entry.call}"
    if entry.flags & FLUSH:
        return f"flush file {entry.file}" if has_files else "flush"
    return f"write{' fua' if entry.flags & FUA else ''} sectors {ranges([entry.numbers[it] for it in entry.held])}"


def second_line(cut, number, case):
    """Returns the line of a failing second case, which is the one of that number among the leaves of its cut."""
    images, begin = cut.images, cut.images.cut
    own, after = images.halves(cut.choice(case))
    fates = [Fates(cut, case, [it for it in cut.parts if it[0] < begin]), Fates(cut, case, [it for it in cut.parts if it[0] >= begin], begin)]
    found = window(cut, case, begin)
    sync = "{}..{}".format(*(it - begin for it in found)) if found else "none"
    among = " among {} then {}".format(*(listed(it.among) for it in fates)) if any(it.among for it in fates) else ""
    place = f"cut {begin} choice {text_of(own)} then cut {cut.number - begin} choice {text_of(after)}"
    kept, free = " then ".join(it.kept for it in fates), " then ".join(str(it.free) for it in fates)
    return f"{place} marks {images.marks[0]} case {number} {case.record.verdict.text()} kept {kept}{among} free {free} sync {sync}"


def text(step, firsts, searches):
    """Returns the status, and the text: that of the log's cases, then what fails after a second crash, and the totals of both."""
    totals, own = step.searched.text(step.options, TITLE)
    seconds, unexplored = Totals([it.found for it in searches]), sum(bool(it.log.why) for it in firsts)
    extent = next((it for it in (COMPLETE, OF_THESE) if own.endswith(f"{it}\n")), "")
    is_complete = bool(extent) and seconds.is_complete() and not unexplored
    last = f"firsts {len(firsts)} written {sum(it.is_written() for it in firsts)} unexplored {unexplored} {seconds.counted()}"
    lines = [line for it in firsts if it.failing() for line in it.lines()]
    status = 1 if totals.failing or seconds.failing else 0 if is_complete else 3
    return status, own + "".join(f"{it}\n" for it in [*lines, f"{last}{extent if is_complete else ''}"])
