"""The answer as a page for a browser: the calls in a row, files as lanes, what was lost in red; below, each answer in words.

It is one file, without anything from outside, in the browser's light or dark look. A wide row of calls is scrolled within the page.
"""
import os
from html import escape

from commands.record.disk import MARK, WRITE
from commands.record.orders import Names
from commands.test.sites import Site
from commands.test.syncs import Syncs
from commands.test.text import head, many

# How many calls are shown, at most: those around what was lost.
MOST, AROUND = 300, 6
STYLE = """\
:root { color-scheme: light dark; --ink: #1c1e21; --dim: #5a6068; --paper: #fff; --line: #d5d9de; --write: #7b8794; --sync: #1f7a3d; --lost: #b3261e; }
@media (prefers-color-scheme: dark) {
  :root { --ink: #e6e8ea; --dim: #a5adb6; --paper: #16181b; --line: #3a3f45; --write: #8b96a3; --sync: #58c27a; --lost: #ff7b72; }
}
* { box-sizing: border-box; }
body { margin: 0 auto; max-width: 60rem; padding: 1rem; font: 15px/1.5 system-ui, sans-serif; color: var(--ink); background: var(--paper); overflow-wrap: anywhere; }
h1 { font-size: 1.3rem; } h2 { font-size: 1.05rem; margin: 1.6rem 0 .3rem; }
p { margin: .3rem 0; } .dim { color: var(--dim); } .lost { color: var(--lost); } code { font-family: ui-monospace, monospace; font-size: .92em; }
.row { overflow-x: auto; border: 1px solid var(--line); margin: 1rem 0; }
table { border-collapse: collapse; font-size: 12px; }
th { text-align: left; font-weight: normal; position: sticky; left: 0; background: var(--paper); padding: 2px 8px; white-space: nowrap; max-width: 11rem; overflow: hidden; text-overflow: ellipsis; }
td { width: 16px; min-width: 16px; height: 20px; padding: 0; text-align: center; border-left: 1px solid transparent; }
tr + tr > * { border-top: 1px solid var(--line); } td.mark { border-left: 2px solid var(--ink); }
i { display: inline-block; width: 10px; height: 10px; vertical-align: middle; font-style: normal; }
i.write { background: var(--write); } i.sync { border: 2px solid var(--sync); border-radius: 50%; } i.lost { background: var(--lost); }
td b { color: var(--lost); } ul { margin: .2rem 0; padding-left: 1.2rem; }
"""
LEGEND = '<p class="dim"><i class="write"></i> changed <i class="sync"></i> synced <i class="lost"></i> lost, <b>1</b> where the sync of answer 1 is missing, a thick line: a mark</p>'


def code(text):
    return f"<code>{escape(text)}</code>"


class Page:
    """The page of a run. `where` says where a call was made, `reason` what the check says of a case."""

    def __init__(self, log, table, where, reason):
        self.log, self.table, self.where, self.reason = log, table, where, reason

    def lane(self, entry):
        """The lane of an entry: a file, or the names; marks have none."""
        if entry.kind == MARK:
            return None
        file = self.log.files.get(entry.file, entry.file)
        return "names" if isinstance(entry.file, Names) else os.fsdecode(getattr(file, "first", None) or file.name)

    def cells(self, lost):
        """The calls in their order, by their lines; and of each pair of a lane and a call what stands there."""
        calls, cells, marks = {}, {}, set()
        for number, it in enumerate(self.log.entries):
            if it.call is None:
                continue
            calls[it.call.line] = it.call
            if it.kind == MARK:
                marks.add(it.call.line)
            elif it.kind == WRITE and self.log.origin(number) == number and cells.get((self.lane(it), it.call.line)) != "lost":
                cells[self.lane(it), it.call.line] = "lost" if number in lost else "write"
        for it in self.log.tracing.synced:
            if it.target is not None and it.is_durable():
                calls[it.call.line] = it.call
                for lane in {lane for lane, _ in cells} if it.target[0] == "all" else [self.synced(it.target)]:
                    cells[lane, it.call.line] = "sync"
        return calls, cells, marks

    def synced(self, target):
        """The lane of what a sync is of: that of all names, for a folder."""
        return os.fsdecode(self.log.tree.files[target[1]].first) if target[0] == "file" else "names"

    def near(self, calls, wanted):
        """The lines of the calls that are shown: all, or where these are too many those around the wanted ones."""
        lines = sorted(calls)
        if len(lines) <= MOST:
            return lines
        places = [at for at, line in enumerate(lines) if line in wanted]
        return [line for at, line in enumerate(lines) if any(abs(at - it) <= AROUND for it in places)][:MOST]

    def table_of(self, answers):
        """The row of the calls, with a lane for each file."""
        lost, needs = set(), {}
        for number, it in enumerate(answers, 1):
            # (of each call what was lost last before it)
            found = {fact.need: fact for fact in sorted(it.facts, key=lambda one: one.numbers()[:1])}
            for need in sorted(found):
                lost |= set(found[need].numbers())
                if (call := self.log.call(need)) is not None:
                    needs.setdefault(call.line, []).append(str(number))
        calls, cells, marks = self.cells(lost)
        lines = self.near(calls, {line for (_, line), what in cells.items() if what == "lost"} | set(needs))
        lanes = list(dict.fromkeys(lane for lane, line in sorted(cells, key=lambda it: it[1]) if line in lines))
        yield '<div class="row" tabindex="0"><table>'
        told = {line: f"<b>{','.join(found)}</b>" for line, found in needs.items()}
        signs = {place: f"<i class={what}></i>" for place, what in cells.items()}
        for title, inner in (("answer", told), *((lane, {line: signs.get((lane, line), "") for line in lines}) for lane in lanes)):
            yield f"<tr><th>{escape(title)}</th>{''.join(self.cell(calls[it], it in marks, inner.get(it, '')) for it in lines)}</tr>"
        yield "</table></div>"
        yield LEGEND
        if len(lines) < len(calls):
            yield f'<p class="dim">{len(lines)} of {len(calls)} calls are shown, those around what was lost.</p>'

    def cell(self, call, is_mark, inner):
        words = ", ".join(it for it in (call.told, self.where(call)) if it)
        return f'<td{" class=mark" if is_mark else ""} title="{escape(words)}">{inner}</td>'

    def call(self, call):
        """A call with its place."""
        where = self.where(call)
        return code(call.told) + (f' <span class="dim">{escape(where)}</span>' if where else "")

    def answer(self, number, it):
        """An answer in words."""
        fact, need = it.first(), self.log.call(it.first().need)
        title = head(it) if isinstance(it, Site) else f"No sync helps in {many(it.cases, 'case')}: {it.kind}"
        yield f"<h2>{number}&ensp;{escape(title)}</h2>"
        if need is not None:
            yield f"<p>{'Before' if isinstance(it, Site) else 'After'} {self.call(need)}</p>"
        lost = [call for one in fact.numbers() if (call := self.log.call(one)) is not None]
        if lost:
            yield f'<p>Lost: {", ".join(f"<span class=lost>{self.call(one)}</span>" for one in lost)}</p>'
        useless = Syncs(self.log, self.table).useless(fact, it.target()) if isinstance(it, Site) else []
        if useless:
            yield f"<ul>{''.join(f'<li>{self.call(one)} {escape(why)}' for one, why in useless)}</ul>"
        yield f'<p class="dim">The check then: {escape(self.reason(fact.shown))}</p>'

    def text(self, title, lines, answers):
        """The whole page."""
        # (with syncs that were tried an answer's entries are numbered otherwise, so these are told in words alone)
        shown = [it for it in answers if it.log is self.log]
        yield f'<!DOCTYPE html><html lang="en"><meta charset="utf-8"><meta name="viewport" content="width=device-width"><title>{escape(title)}</title>'
        yield f"<style>{STYLE}</style><h1>{escape(title)}</h1>"
        for it in lines:
            yield f"<p>{escape(it)}</p>"
        yield from self.table_of(shown)
        for number, it in enumerate(shown, 1):
            yield from self.answer(number, it)
        yield "</html>"


def of_run(run, text):
    """The page of a run of crashbpf-test, of which `text` tells what the check says."""
    it = run.answer
    page = Page(it.log, run.table, run.where, text.reason)
    lines = [f"{run.source.made.program and ' '.join(run.source.made.program)}; check: {run.given.check}; table {run.table}"]
    lines += [f"{it.found.cases} cases, {len(it.found.failing)} fail: {it.found.scope}"]
    if it.cured is not None:
        lines.append(f"With {many(len(it.sites), 'sync')} put in {len(it.cured.failing)} of {it.cured.cases} cases fail{'' if it.cured.complete else ', so far'}")
    return "\n".join(page.text("What a crash may lose", lines, run.answers)) + "\n"

