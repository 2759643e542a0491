"""The answer as a reader sees it."""
from commands.record.told import command
from commands.test.sites import AT_FIRST, AT_MARK, AT_ONCE, NOTHING_LOST, ONE_CALL, Site, named
from commands.test.syncs import Syncs

MOST, WIDTH = 10, 78
# How much of a program's words is told.
SHORT = 46


def many(count, one, more=None):
    return f"{count} {one if count == 1 else more or one + 's'}"


def seconds(value):
    return f"{value:.1f} s"


def beside(left, right):
    """A line with a word at its right end."""
    return f"{left.ljust(WIDTH - len(right))}  {right}" if right else left


def wrapped(text, indent="   "):
    """A text in lines of a width."""
    lines, line = [], ""
    for word in text.split(" "):
        if line and len(indent) + len(line) + 1 + len(word) > WIDTH + 10:
            lines.append(indent + line)
            line = word
        else:
            line = f"{line} {word}" if line else word
    return [*lines, indent + line]


def call_text(log, number):
    """The call of an entry, as people write it."""
    call = log.call(number)
    return call.told if call is not None else "a sync that was tried"


def head(site):
    """Which sync is missing before which call."""
    call, count = next(iter(site.instances.values())), site.times()
    before = "each mark" if call.told.startswith("mark ") and count > 1 else call.told
    others = len({target for _, target in site.instances}) - 1 if count == 1 else 0
    like = f" and {others} more of its kind" if others else ""
    return f"fsync of {named(site.log, site.target())}{like} before {before}" + (f", {many(count, 'time')}" if count > 1 else "")


class Text:
    """Prints answers. `where` says of a call the line of its source, or the words of its program; `judge` has what the check said, and
    `kept` says where the files of an answer are kept."""

    def __init__(self, table, where, judge, kept):
        self.table, self.where, self.judge, self.kept, self.usual, self.last = table, where, judge, kept, set(), ""

    def lines_of_site(self, number, site):
        """The lines of a sync that is missing."""
        log, fact, target, call = site.log, site.first(), site.target(), next(iter(site.instances.values()))
        yield from self.placed(f"{number}  {head(site)}", call)
        lost = log.call(site.lost())
        mark = log.is_mark(fact.need)
        text = f"{call.told} promises it, and {lost.told} may be lost." if mark else f"{call.told} reaches the disk, and {lost.told} doesn't."
        yield from self.placed(f"   {text}", lost)
        useless = Syncs(log, self.table).useless(fact, target)
        for sync, why in useless:
            yield from self.placed(f"   {sync.told} {why}.", sync)
        if not useless:
            yield "   No sync is made between them."
        yield from self.said(number, site)

    def placed(self, text, call):
        """A line with the place of a call at its end, or on a line of its own; without it where the one before has the same."""
        where = self.where(call)
        where, self.last = "" if where == self.last else where, where
        if len(text) + len(where) + 2 <= WIDTH + 10:
            yield beside(text, where)
        else:
            yield from wrapped(text.strip(), text[: len(text) - len(text.lstrip())])
            yield from [f"{'':6}{where}"] if where else []

    def reason(self, case):
        """What the check says of a case: its last line that it doesn't print where all is well, and what it ended in."""
        judged = self.judge.judged[case.key]
        lines = [it for it in judged.lines() if it not in self.usual]
        return (f'"{lines[-1].strip()}", ' if lines else "") + judged.text()

    def said(self, number, it):
        """What the check says then."""
        case = it.first().shown
        marks, mark = it.log.marks(case.cut)
        after = f"after mark {mark.decode(errors='replace')}" if marks else "before the first mark"
        kept = self.kept(number)
        yield from wrapped(f"The check then: {self.reason(case)}, {after}" + (f"; kept: {kept}" if kept else ""))

    def lines_of_helpless(self, number, it):
        """The lines of failures against which no sync helps."""
        fact, log = it.first(), it.log
        need, call = call_text(log, fact.need) if fact.need >= 0 else "", log.call(fact.need)
        if it.kind == AT_FIRST:
            end = self.right_again(log, fact.need)
            until = f", until {call_text(log, end)}" if end is not None else ""
            text = f"It fails on what $FILES has at first, with nothing lost{until}: the check has to accept that before a mark."
        elif it.kind == AT_MARK:
            text = f"At {need} it fails with nothing lost: the mark promises what wasn't written."
        elif it.kind == NOTHING_LOST:
            end = self.right_again(log, fact.need)
            until = f", until {call_text(log, end)}" if end is not None else ""
            text = f"Right after {need} it fails with nothing lost{until}: the calls are in the wrong order, or have to be one."
        elif it.kind == ONE_CALL:
            text = f"{need} may arrive in parts, and no sync can stand within a call."
        else:
            assert it.kind == AT_ONCE
            text = f"{need} and {call_text(log, fact.numbers()[0])} were made at once, so no sync stands between them."
        head = f"{number}  No sync helps in {many(it.cases, 'case')}:"
        yield from self.placed(head, call) if call is not None else [head]
        yield from wrapped(text)
        if it.moved is not None:
            yield from self.lines_of_move(it.moved)
        yield from self.said(number, it)

    def lines_of_move(self, moved):
        """What became of a move of the call."""
        stays = f"in {many(moved.stay, 'case')}" if moved.stay else "in none"
        yield from self.placed(f"   Tried: moved after {moved.after.told}, no sync helps {stays}.", moved.after)
        for site in moved.sites:
            yield from wrapped(f"It lacks {head(site)} then.")
        yield "   That holds where the program doesn't read in between what the call changes."

    def right_again(self, log, need):
        """The entry with which it is right again, where it fails with nothing lost after an entry."""
        return next((it for it in range(need + 1, len(log.entries)) if self.is_good(log, it + 1)), None)

    def is_good(self, log, cut):
        judged = self.judge.judged.get(log.at(cut).key)
        return judged is not None and judged.is_good()

    def answers(self, answers, early):
        """The lines of all answers, of the first ten in full. From `early` on they are of the time before the first mark."""
        for number, it in enumerate(answers[:MOST], 1):
            self.last = ""
            yield ""
            if number - 1 == early:
                yield from ["While it is being made, before the first mark:", ""]
            yield from self.lines_of_site(number, it) if isinstance(it, Site) else self.lines_of_helpless(number, it)
        if len(answers) > MOST:
            yield from ["", f"and {len(answers) - MOST} more, which --json has"]


def words_of(call):
    """The words of the program that made a call."""
    return command(call.maker.words) if call.maker else ""


def short(words):
    """Words of a program, cut off where a line has no room for more."""
    return words if len(words) <= SHORT else f"{words[: SHORT - 2]}.."


def cure_lines(answer, table, took):
    """What became of the syncs that were tried."""
    found, count = answer.cured, len(answer.sites)
    with_them = "with it" if count == 1 else f"with these {count}"
    stay = sum(it.cases for it in answer.stay)
    yield ""
    if found.failing:
        yield beside(f"tried      {with_them}, by table {table}: {found.cases} cases, {len(found.failing)} still fail", took)
        if stay == len(found.failing):
            yield "           these are the ones against which no sync helps"
    else:
        yield beside(f"tried      {with_them}, by table {table}: {found.cases} cases, none fails{', complete' if found.complete else ''}", took)
    if not found.complete:
        yield f"           so far: {found.scope}"
    if answer.strict is not None:
        strict = answer.strict
        done = f"{len(strict.failing)} of {strict.cases} cases fail" if strict.failing else f"{strict.cases} cases, none fails{', complete' if strict.complete else ', so far'}"
        yield f"           by table strict, as for btrfs: {done}"
        for site in answer.by_strict:
            yield f"           there it lacks {head(site)}"
