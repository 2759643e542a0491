"""Of each failing case a fact: what was lost, no more than it needs to fail, and the need, the entry at which it begins to fail.

Both are found by walking back over the cuts while the check fails with what is lost of the earlier entries: the case of a late cut
becomes one of the first cut at which the same failure shows. It has to fail at each cut between, since what fails earlier may be
another failure. Then each loss is left out that isn't needed.

Where it fails with nothing lost, at some cuts in a row, no loss is to blame: these are a stretch, with a fact of its own. A walk may
lead into one, as where the check refuses what is there before anything was saved: all that is lost then looks as if it began there.
So the need is looked for above the stretch. It is the first entry after which the check says something else than in the stretch, or a
mark; a case in which it says the same up to its cut is one of the stretch.
"""
from dataclasses import dataclass, field

from commands.record.disk import MARK
from commands.test.explore import Case, choice_of


@dataclass
class Fact:
    """Why cases fail: the need, what was lost, and the case that shows it."""

    need: int
    lost: frozenset
    shown: Case
    cases: list = field(default_factory=list)

    def numbers(self):
        return sorted(number for number, _ in self.lost)


class Facts:
    """The facts of a log."""

    def __init__(self, log, judge):
        self.log, self.judge, self.known = log, judge, {}

    def key(self, cut, lost):
        """Judges a case that may be new, and returns the key of its verdict."""
        found = self.known.get((cut, lost))
        if found is None:
            seen = self.log.at(cut, lost)
            self.judge.of(seen, cut, choice_of(lost))
            found = self.known[cut, lost] = seen.key
        return found

    def judged(self, cut, lost):
        return self.judge.judged[self.key(cut, lost)]

    def fails(self, cut, lost):
        return not self.judged(cut, lost).is_good()

    def is_broken(self, cut):
        """Whether it fails at a cut with nothing lost."""
        return self.fails(cut, frozenset())

    def is_same(self, cut, lost):
        """Whether the check says of a case what it says one cut before, and no mark stands between."""
        if self.log.entries[cut - 1].kind == MARK:
            return False
        one, other = self.judged(cut, lost), self.judged(cut - 1, before(cut, lost))
        return (one.text(), one.lines()) == (other.text(), other.lines())

    def walked(self, cut, lost):
        """The first cut back to which it fails all along, and what is lost there."""
        while cut > 0:
            less = before(cut, lost)
            # (what fails right after a mark with nothing lost is that mark's)
            if not less and self.log.entries[cut - 1].kind == MARK or not self.fails(cut - 1, less):
                break
            cut, lost = cut - 1, less
        return cut, lost

    def above(self, low, cut, lost):
        """Where a case that is walked back into a stretch begins to be another failure than that: the cut, and what is lost there; or
        the stretch, with nothing lost, where it never does."""
        for at in range(low, cut + 1):
            if not self.is_broken(at) and not self.is_same(at, of_cut(at, lost)):
                return at, of_cut(at, lost)
        return low, frozenset()

    def begun(self, cut, lost):
        """The first cut at which a case is the failure that it is, what is lost there, and whether a walk leads from there into a stretch."""
        low, less = self.walked(cut, lost)
        hidden = self.is_broken(low) and not self.is_broken(cut)
        return (*self.above(low, cut, lost), True) if hidden else (low, less, False)

    def needed(self, cut, lost, hidden):
        """What is lost and can't be left out. Above a stretch it has to stay another failure than that."""
        for it in sorted(lost):
            less = lost - {it}
            if self.fails(cut, less) and not (hidden and not self.begun(cut, less)[1]):
                lost = less
        return lost

    def of(self, case):
        """The fact of a case."""
        cut, lost, known = case.cut, case.lost, None
        while (cut, lost) != known:
            known = cut, lost
            cut, lost, hidden = self.begun(cut, lost)
            lost = self.needed(cut, lost, hidden)
        return Fact(cut - 1, lost, Case(cut, lost, self.key(cut, lost)))

    def all(self, failing, say=lambda text: None):
        """The facts of failing cases. A case that has what a fact lost, and what that needs, is taken for one of it."""
        found = {}
        for turn, case in enumerate(sorted(failing, key=lambda it: (len(it.lost), it.cut, sorted(it.lost)))):
            say(f"{turn} of {len(failing)} failing cases explained, {self.judge.runs} runs of the check")
            fact = next((it for it in found.values() if it.lost and it.lost <= case.lost and it.need < case.cut and not self.is_lost(it.need, case)), None)
            if fact is None:
                fact = self.of(case)
                fact = found.setdefault((fact.need, fact.lost), fact)
            fact.cases.append(case)
        return list(found.values())

    def is_lost(self, number, case):
        return any(number == it for it, _ in case.lost)


def of_cut(cut, lost):
    """What of that is lost at a cut."""
    return frozenset(it for it in lost if it[0] < cut)


def before(cut, lost):
    """What of that is lost one cut before."""
    return of_cut(cut - 1, lost)
