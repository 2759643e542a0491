"""Which sync is missing: candidates of each fact, counted by sites of the source, and the fewest sites that take all failing cases away.

A candidate is a sync of what was lost, right before the call that needs it. Candidates of one site are the same line of the source, or
the same words of a program: names count without digits and long hex, a file by the call that made it, and all marks of a program are
one site.
"""
import os
from dataclasses import dataclass, field

from commands.record.disk import WRITE
from commands.record.known import SYNCS
from commands.record.mapped import STORE
from commands.record.told import command, quoted
from commands.test.plain import plain
from commands.test.source import place_of

# What a sync costs a program, in order.
COST = {"file": 0, "folder": 1}


@dataclass
class Site:
    """A sync that is missing at a place of the source: of what, before which call, and the facts that it takes away."""

    key: tuple
    log: object
    instances: dict = field(default_factory=dict)
    facts: list = field(default_factory=list)
    cases: int = 0
    # the same sync at the other calls of the place, where nothing fails without it: whoever writes it there makes these too
    others: set = field(default_factory=set)

    @property
    def kind(self):
        return self.key[0]

    def order_facts(self):
        """Puts the facts in the order in which they are told: after a mark first, then what was lost last before its need, then the first one."""
        self.facts.sort(key=lambda it: (self.log.passed[it.shown.cut] == 0, it.need - min(it.numbers()), it.need))
        first = self.first()
        mine = [it for it in self.instances if it[0] == place_of(self.log.call(first.need))]
        self.instances = {it: self.instances[it] for it in [*mine, *self.instances]}

    def times(self):
        return len({place for place, _ in self.instances})

    def target(self):
        """What is synced, the first time."""
        return next(iter(self.instances))[1]

    def first(self):
        return self.facts[0]

    def lost(self):
        """The entry that was lost of what is synced, as the first fact has it."""
        fact = self.first()
        return next((it for it in fact.numbers() if self.target() in self.log.targets(it, fact.need)), fact.numbers()[0])

    def syncs(self):
        """Pairs of the place before a call and of what is synced there."""
        return set(self.instances) | self.others


@dataclass
class Helpless:
    """Failures against which no sync helps: of which kind, and the facts."""

    kind: str
    key: tuple
    log: object
    facts: list = field(default_factory=list)
    # the move of its calls with which least fails, where one was tried
    moved: object = None

    @property
    def cases(self):
        return sum(len(it.cases) for it in self.facts)

    def first(self):
        return self.facts[0]


NOTHING_LOST, AT_MARK, ONE_CALL, AT_ONCE, AT_FIRST = "nothing lost", "mark", "one call", "at once", "at first"


class Sites:
    """The sites of the facts of a log. `place` says where in the source a call was made, if that is known."""

    def __init__(self, log, place=lambda call: None):
        self.log, self.place = log, place

    def role(self, target):
        """What a file or folder is to the program: for a file by the call that opened it first."""
        kind, number = target
        if kind == "folder":
            return plain(os.fsdecode(self.log.tree.called[number]) + "/")
        opened = self.log.tracing.opened.get(number)
        return (opened and self.place(opened)) or plain(os.fsdecode(self.log.tree.files[number].first))

    def need(self, call):
        """What a call is at all its times."""
        words = call.maker.words if call.maker else ()
        form = form_of(call)
        if form == "mark":
            return "mark", self.place(call) or os.path.basename(words[0]) if words else ""
        where = self.place(call)
        return (form, where) if where else (plain(call.told), plain(command(words)))

    def candidates(self, fact):
        """The syncs that would take a fact away: pairs of the place before the need's call and of what is synced."""
        call, found = self.log.call(fact.need), []
        for number in fact.numbers():
            lost = self.log.call(number)
            if call is not None and lost is not None and is_before(lost, call):
                found += [(place_of(call), it) for it in self.log.targets(number, fact.need)]
        return list(dict.fromkeys(found))

    def all(self, facts):
        """The sites of facts by their keys."""
        found = {}
        for fact in facts:
            call = self.log.call(fact.need)
            for place, target in self.candidates(fact):
                key = (target[0], self.role(target), self.need(call))
                site = found.setdefault(key, Site(key, self.log))
                site.instances.setdefault((place, target), call)
                if fact not in site.facts:
                    site.facts.append(fact)
        return found

    def picked(self, facts):
        """The fewest sites that take facts away, picked one after the other: the most failing cases first, then what costs less."""
        open_facts = [it for it in facts if self.candidates(it)]
        sites, found = list(self.all(open_facts).values()), []
        while open_facts:
            def gain(site):
                return sum(len(it.cases) for it in site.facts if it in open_facts)

            best = max(sites, key=lambda it: (gain(it), -COST[it.kind], -len(it.instances)))
            taken = [it for it in best.facts if it in open_facts]
            # (an instance stands for the facts that it is taken for)
            site = Site(best.key, self.log, facts=taken, cases=gain(best))
            for fact in taken:
                site.instances |= {it: best.instances[it] for it in self.candidates(fact) if it in best.instances}
            site.order_facts()
            site.others = set(self.others(site))
            found.append(site)
            open_facts = [it for it in open_facts if it not in taken]
        return found

    def others(self, site):
        """The sync of a site at the other calls of its place: of the file or folder with that role that changed last before each. Where a
        function opens all files, its line is the role of each; so the name has to be that of one that is synced, too."""
        kind, role, need = site.key
        names = {plain(name_of(self.log, it)) for _, it in site.instances}
        changed, known = None, {place for place, _ in site.instances}
        for number, it in enumerate(self.log.entries):
            call = it.call
            if call is None or call.name in SYNCS:
                continue
            if place_of(call) not in known:
                known.add(place_of(call))
                if changed is not None and form_of(call) == need[0].partition("(")[0] and self.need(call) == need:
                    yield place_of(call), changed
            if it.kind == WRITE:
                alike = (one for one in self.log.targets(number) if one[0] == kind and self.role(one) == role)
                changed = next((one for one in alike if plain(name_of(self.log, one)) in names), changed)

    def helpless(self, facts):
        """The facts against which no sync helps, by their kinds."""
        found = {}
        for fact in facts:
            if not self.candidates(fact):
                kind = self.kind(fact)
                call = self.log.call(fact.need)
                key = (kind, self.need(call) if call is not None else None)
                found.setdefault(key, Helpless(kind, key, self.log)).facts.append(fact)
        return sorted(found.values(), key=lambda it: -it.cases)

    def kind(self, fact):
        """Why no sync helps against a fact."""
        if fact.need < 0:
            return AT_FIRST
        if not fact.lost:
            return AT_MARK if self.log.is_mark(fact.need) else NOTHING_LOST
        call = self.log.call(fact.need)
        return ONE_CALL if any(self.log.call(it) is call for it in fact.numbers()) else AT_ONCE


def form_of(call):
    """What kind of call it is, in a word."""
    return "mark" if call.told.startswith("mark ") else call.told.partition("(")[0]


def is_before(lost, call):
    """Whether a sync can stand between two calls, of which the first is lost. None stands between what was stored from one call to the next."""
    return lost is not call and bool(lost.ended) and lost.ended < call.line and not (lost.line == call.line and call.name == STORE)


def name_of(log, target):
    """The path that a file or folder had first, below $FILES."""
    kind, number = target
    return os.fsdecode(log.tree.called[number] if kind == "folder" else log.tree.files[number].first)


def named(log, target):
    """A file or folder as a reader says it."""
    name = quoted(os.fsencode(name_of(log, target)))
    return name if target[0] == "file" else f"the folder {name}" if name != '""' else "the folder"

