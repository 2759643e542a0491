"""Where no sync helps since calls are in a wrong order: whether it is right with a call moved after a later one.

The recording is followed anew with the line of the call after that of another. What a call does to bytes and names stays the same where it
tells its place, as pwrite and rename do, and where it is moved past calls of its own process alone; the others aren't tried. Whether the program
reads in between what the call changes isn't known. All calls of a site are moved at once, each as far.
"""
from dataclasses import dataclass

from commands.record.calls import Refused
from commands.test.facts import Facts
from commands.test.sites import Sites

# Calls that tell themselves where they write; how many later calls are tried, at most.
MOVABLE = {"pwrite64", "pwritev", "pwritev2", "rename", "renameat", "renameat2", "link", "linkat", "unlink", "unlinkat", "rmdir"}
MOST = 6


@dataclass
class Moved:
    """A move that was tried: after which call, for the first of those that are moved; how many cases stay against which no sync helps; and
    the log with the syncs that are missing then."""

    after: object
    stay: int
    sites: list


def later(log, call):
    """The calls after which one can be moved: those of the same process that changed or synced something, up to the next mark."""
    found = {}
    calls = [*(it.call for it in log.entries if it.call is not None), *(it.call for it in log.tracing.synced)]
    for it in sorted(calls, key=lambda one: one.line):
        if it.line > call.line and it.line not in found:
            if it.process != call.process or it.told.startswith("mark ") or it.ended != it.line:
                break
            found[it.line] = it
    return list(found.values())


def reordered(lines, moves):
    """Lines of strace in which some stand after others, or nothing where that is past a line of another process, or past another move. Moves
    are pairs of numbers from 1 on."""
    found, moves = list(lines), sorted(moves)
    if any(one[1] >= other[0] for one, other in zip(moves, moves[1:])):
        return None
    for first, last in moves[::-1]:
        process = lines[first - 1].split(None, 1)[0]
        if any(it.split(None, 1)[0] != process for it in lines[first - 1 : last]):
            return None
        found[first - 1 : last] = [*lines[first:last], lines[first - 1]]
    return found


class Moves:
    """Tries moves in a recording."""

    def __init__(self, source, table, explorer):
        self.source, self.table, self.explorer = source, table, explorer

    def calls(self, log, helpless):
        """The calls of a failure, each once."""
        found = {call.line: call for fact in helpless.facts if (call := log.call(fact.need)) is not None}
        return [found[it] for it in sorted(found)]

    def best(self, log, helpless, total):
        """The move with which least stays against which no sync helps, or nothing where that is as much as without it, which is `total`."""
        calls = self.calls(log, helpless)
        if not calls or any(it.name not in MOVABLE or it.ended != it.line for it in calls) or log.tracing.mapped is not None:
            return None
        after, tried = [later(log, it) for it in calls], []
        with open(self.source.calls, "rb") as file:
            lines = file.read().splitlines(keepends=True)
        for turn in range(min([MOST, *map(len, after)])):
            moves = [(call.line, it[turn].line) for call, it in zip(calls, after)]
            found = self.explained(reordered(lines, moves))
            if found is not None:
                sites, stay = found
                # (what fails more than before is no reason to move anything)
                tried.append(Moved(after[0][turn], sum(it.cases for it in stay), sites))
        best = min(tried, key=lambda it: (it.stay, len(it.sites)), default=None)
        return best if best is not None and best.stay < total else None

    def explained(self, lines):
        """What fails of a recording with these lines: the syncs that it lacks, and what no sync helps against; or nothing where it can't be
        followed."""
        if lines is None:
            return None
        try:
            log = self.source.log(self.table, lines=lines)
        except Refused:
            return None
        facts = Facts(log, self.explorer.judge).all(self.explorer.explore(log).failing)
        return Sites(log).picked(facts), Sites(log).helpless(facts)
