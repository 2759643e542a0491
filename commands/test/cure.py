"""Tries a cure: syncs are put into the recording, right before the calls that need them, and what crashes leave then is explored again.

In rounds: what still fails has facts of its own, which add sites. Then each site is left out once, and stays out where nothing new fails
without it. At last the log is made by the table `strict` too, with the same syncs.
"""
from dataclasses import dataclass, field

from commands.test.facts import Facts
from commands.test.moved import Moves
from commands.test.sites import NOTHING_LOST, Sites

ROUNDS, MOST_MOVED = 8, 3


@dataclass
class Answer:
    """What was found: of the program as it is, and with the syncs of the sites."""

    log: object = None
    found: object = None
    facts: list = field(default_factory=list)
    sites: list = field(default_factory=list)
    helpless: list = field(default_factory=list)
    # with the syncs: what was found of it, the failures that stay; by `strict` too
    cured: object = None
    stay: list = field(default_factory=list)
    strict: object = None
    # what it lacks there
    by_strict: list = field(default_factory=list)
    rounds: int = 0


class Cure:
    """Explains what fails in a recording, and tries the syncs that would cure it."""

    def __init__(self, source, table, explorer, place=lambda call: None, say=lambda text: None):
        self.source, self.table, self.explorer, self.place, self.say = source, table, explorer, place, say
        self.answer = Answer()

    def explored(self, table, syncs, until=None):
        """What is found of the recording with syncs."""
        log = self.source.log(table, syncs)
        return log, self.explorer.explore(log, until)

    def explore(self):
        """Explores the recording as it is."""
        self.answer.log, self.answer.found = self.explored(self.table, ())

    def explain(self):
        """Finds the sites of what fails."""
        it = self.answer
        it.facts = Facts(it.log, self.explorer.judge).all(it.found.failing, self.say)
        sites = Sites(it.log, self.place)
        it.sites, it.helpless = sites.picked(it.facts), sites.helpless(it.facts)

    def syncs(self, sites):
        return {pair for it in sites for pair in it.syncs()}

    def rounds(self):
        """Adds sites until nothing fails that a sync helps against."""
        it = self.answer
        while it.cured is None:
            it.rounds += 1
            before = self.syncs(it.sites)
            log, found = self.explored(self.table, before)
            facts = Facts(log, self.explorer.judge).all(found.failing, self.say)
            sites = Sites(log, self.place)
            picked = sites.picked(facts)
            more = [site for site in picked if site.syncs() - before]
            if more and it.rounds < ROUNDS:
                for site in more:
                    self.join(site)
            else:
                # (with these sites, and no others)
                it.stay, it.cured = [*sites.helpless(facts), *picked], found

    def join(self, site):
        """Puts a site with those that are known, or to the one with the same key."""
        same = next((it for it in self.answer.sites if it.key == site.key), None)
        if same is None:
            self.answer.sites.append(site)
        else:
            same.instances |= site.instances
            same.others |= site.others

    def prune(self):
        """Leaves out sites without which nothing more fails, the least of them first."""
        it = self.answer
        known = {case.key for case in it.cured.failing}
        for site in sorted(it.sites, key=lambda one: one.cases):
            if len(it.sites) == 1:
                return
            rest = [one for one in it.sites if one is not site]
            _, found = self.explored(self.table, self.syncs(rest), lambda case: case.key not in known)
            if not found.cut_short and all(case.key in known for case in found.failing):
                it.sites, it.cured = rest, found

    def move(self):
        """Tries to move calls, where no sync helps against their order."""
        it, moves = self.answer, Moves(self.source, self.table, self.explorer)
        for one in it.helpless[:MOST_MOVED]:
            if one.kind == NOTHING_LOST:
                one.moved = moves.best(it.log, one, sum(other.cases for other in it.helpless))

    def go(self):
        """Tries the syncs of the sites."""
        it = self.answer
        self.rounds()
        self.prune()
        if self.table != "strict":
            log, it.strict = self.explored("strict", self.syncs(it.sites))
            facts = Facts(log, self.explorer.judge).all(it.strict.failing, self.say)
            it.by_strict = Sites(log, self.place).picked(facts)
