"""The text of cases by the records of a program (docs/OUTPUT.md, 'Records of a program of yours')."""
from commands.each.served_log import WHOLE, name_of, text_of

TITLE = "crash cases 1"
COMPLETE, OF_THESE = " complete", " of these cuts"


def window(cut, case, begin=0):
    """Returns the first and the last entry before which a flush takes all images of a case away, or None where there is none; of the entries
    from one on."""
    gone = [entry for (entry, _place), fates in case.known.items() if WHOLE not in fates and entry >= begin]
    if not gone:
        return None
    risky, stay = {entry for entry, _place in cut.parts}, {entry for (entry, _place), fates in case.known.items() if "drop" not in fates}
    for entry in range(cut.number - 1, min(gone), -1):
        if cut.images.is_mark(entry) or cut.images.has_parts(entry) and (entry not in risky or entry in stay):
            return min(gone) + 1, entry
    return None


def listed(words):
    return ",".join(words) or "-"


class Fates:
    """What is said of the fates that a case leaves some parts: which are kept, which have some of the fates, and how many may have any. `first`
    is the number of the entry that is told as 0."""

    def __init__(self, cut, case, parts, first=0):
        fates = [(name_of((part[0] - first, part[1])), case.known.get(part, cut.fates)) for part in parts]
        self.kept = listed([name for name, some in fates if some == (WHOLE,)])
        self.among = [f"{name}:{'+'.join(some)}" for name, some in fates if 1 < len(some) < len(cut.fates)]
        self.free = sum(len(some) == len(cut.fates) for _name, some in fates)


def case_line(cut, number, case):
    """Returns the line of a failing case, which is the one of that number among the leaves of its cut."""
    images, fates = cut.images, Fates(cut, case, cut.parts)
    place = f"cut {cut.number} epoch {images.flushes[cut.number]} marks {images.marks[cut.number]} program 0 case {number}"
    found = window(cut, case)
    helps = "{}..{}".format(*found) if found else "none"
    some = f" among {listed(fates.among)}" if fates.among else ""
    return f"{place} {case.record.verdict.text()} choice {text_of(cut.choice(case))} kept {fates.kept}{some} free {fates.free} flush {helps}"


class Totals:
    """What the last line counts, over all cuts."""

    def __init__(self, found):
        self.cuts, self.cases, self.failing = len(found), sum(len(it.leaves) for it in found), sum(len(it.failing()) for it in found)
        self.torn, self.lost = sum(it.torn_beyond for it in found), sum(it.lost_beyond for it in found)
        self.open, self.stopped = sum(len(it.open) for it in found), sum(bool(it.pending) for it in found)

    def is_complete(self):
        return not any((self.torn, self.lost, self.open, self.stopped))

    def counted(self):
        """Returns the words of the counts."""
        counted = f"cuts {self.cuts} cases {self.cases} failing {self.failing} torn beyond {self.torn} lost beyond {self.lost}"
        return f"{counted} open {self.open} stopped {self.stopped}"

    def line(self, is_of_all):
        """Returns the last line; `is_of_all` says whether each cut of the log was asked for."""
        return self.counted() + ("" if not self.is_complete() else COMPLETE if is_of_all else OF_THESE)

    def status(self):
        return 1 if self.failing else 0 if self.is_complete() else 3

    def notes(self):
        """Returns what is noted where nothing fails and something wasn't looked at."""
        counts = ((self.open, "cases are open"), (self.stopped, "cuts were stopped"), (self.torn + self.lost, "cases were left out"))
        return [] if self.failing else [f"note: {count} {what}" for count, what in counts if count]


def text(head, options, searches, title=TITLE):
    """Returns the text of cases: its title, the lines of a head of records after its first, that of the options after the inputs, a line for
    each failing case, and the totals."""
    found = [it.found for it in searches]
    inputs, *program = head
    lines = [case_line(it.cut, number, case) for it in searches for number, case in it.found.failing()]
    totals = Totals(found)
    is_of_all = " cuts all " in options and not any(f" {word} " in options for word in ("from", "to"))
    return totals, "".join(f"{it}\n" for it in [title, inputs, options, *program, *lines, totals.line(is_of_all)])
