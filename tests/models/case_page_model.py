"""The page of `page --bound any`, in the plainest form, written from docs/OUTPUT.md, 'The page of `page`'.

As in page_model.py, the parts that are the same on each page are taken from where they stand (crates/page_parts/src/dress.rt).
"""
from cases_model import ANY, Cut, head, judged_cuts, window_of
from model import entry_line, missing_flushes
from page_model import LINES, OF_CUT, OF_FOLDED, OF_PROGRAM, advice, dress, folded, folded_list, html, legend, shade, share, strip

# How many parts of a case are shown in each colour.
OF_COLOUR = 32


def state(case, part):
    """What becomes of a part at risk in a case."""
    fates = case.fates(part)
    if len(fates) == len(case.cut.fates):
        return "free"
    if fates == ["whole"]:
        return "kept"
    return "some" if "whole" in fates else "lost"


def part_cell(case, window, part):
    inside = " in" if window and window[0] <= part.entry <= window[1] else ""
    return f"<b class='p {state(case, part)}{inside}' title='{'+'.join(case.fates(part))}'>{part.name}</b>\n"


def part_cells(case, window):
    """The first parts of each colour, in the order of all parts."""
    parts = case.cut.parts
    shown = [part for at, part in enumerate(parts) if sum(state(case, it) == state(case, part) for it in parts[:at]) < OF_COLOUR]
    rest = len(parts) - len(shown)
    return "".join(part_cell(case, window, part) for part in shown) + (f"<small>{rest} more parts</small>\n" if rest else "")


def case_row(case, number, ending):
    """A failing case: what the program ends in, the parts at risk over the entries, and where a flush takes it away."""
    window = window_of(case)
    said = "no flush takes it away"
    if window:
        first, last = window
        said = f"a flush before {f'entry {last}' if first == last else f'any of the entries {first} to {last}'} takes it away"
    return f"<div class='case'>case {number}: {html(ending)}; {said}\n<div class='log'>\n{part_cells(case, window)}</div></div>\n"


class Found:
    """A cut of which the cases were found, with one program."""

    def __init__(self, cut, found):
        self.cut, self.number, self.run = cut, cut.number, cut.run
        self.cases = len(found.leaves)
        self.beyond = found.torn_beyond, found.lost_beyond
        self.failing = [(number, case, ending) for number, (case, ending, good) in enumerate(found.leaves) if not good]

    def count(self):
        return f"{len(self.failing)} of {self.cases} cases fail"

    def share(self):
        return share(self.cases, len(self.failing))[0]

    def cell(self, program):
        """Returns the cut's cell in the row: a link where a case fails."""
        classes = f"c {self.share()}{shade(self.run, self.number)}"
        if not self.failing:
            return f"<i class='{classes}'></i>\n"
        return f"<a tabindex='-1' class='{classes}' href='#p{program}c{self.number}' title='cut {self.number}: {self.count()}'></a>\n"

    def folded_cell(self, program, start, beyond, fails, listed):
        place = f"c{self.number}" if listed else "more"
        title = f"cut {self.number}: {self.count()}; of cuts {start} to {beyond - 1} fail: {fails}"
        return f"<a tabindex='-1' class='c {self.share()}{shade(self.run, start)}' href='#p{program}{place}' title='{title}'></a>\n"

    def text(self, program, left, is_open):
        """What is said of it, where that many cases may be shown, and how many are."""
        some = self.failing[: min(OF_CUT, left)]
        text = f"<details class='cut {self.share()}'{' open' if is_open else ''}><summary><b>cut {self.number}</b>"
        text += f" <span>epoch {self.run.epoch(self.number)}, marks {self.run.marks(self.number)}</span> <span>{self.count()}</span>"
        text += f" <progress max='{self.cases}' value='{len(self.failing)}'></progress> </summary>\n<div id='p{program}c{self.number}'>\n"
        text += "".join(case_row(case, number, ending) for number, case, ending in some)
        rest = len(self.failing) - len(some)
        text += f"<p class='about'>{rest} more cases of this cut: crashbpf why lists them.</p>\n" if rest else ""
        return text + "</div></details>\n", len(some)


def verdict(cuts, complete):
    """Returns the sentence that begins a program's part of the page."""
    bad, all_cases = [it for it in cuts if it.failing], sum(it.cases for it in cuts)
    if not cuts:
        return "<p class='none'>The log has no wanted cut: no case was judged.</p>\n"
    if bad:
        return f"<p class='bad'>{sum(len(it.failing) for it in bad)} of {all_cases} cases fail, at {len(bad)} of {len(cuts)} cuts.</p>\n"
    if not complete:
        return f"<p class='none'>Cases were left out, and nothing is said of them. No other fails, of {all_cases} at {len(cuts)} cuts.</p>\n"
    return f"<p class='good'>No case fails, of {all_cases} at {len(cuts)} cuts.</p>\n"


def program_text(run, program, about, cuts):
    """Returns the part of the page of one program."""
    complete = all(cut.beyond == (0, 0) for cut in cuts)
    windows = [window_of(case) for cut in cuts for _number, case, _ending in cut.failing]
    flushes = missing_flushes([it for it in windows if it])
    text = f"<section aria-labelledby='p{program}'>\n<h2 id='p{program}'>Program {program}: {about}</h2>\n" + verdict(cuts, complete)
    text += advice(program, flushes, windows.count(None), "cases")
    text += strip(run, program, flushes, cuts, "cases") + legend("cases") + dress("CASE_KEYS")
    left, bad = OF_FOLDED if folded(run) else OF_PROGRAM, [it for it in cuts if it.failing]
    for cut in bad[:LINES]:
        more, some = cut.text(program, left, cut is bad[0])
        text, left = text + more, left - some
    if len(bad) > LINES:
        text += f"<p class='about' id='p{program}more'>{len(bad) - LINES} more cuts at which cases fail: crashbpf why lists them.</p>\n"
    return text + "</section>\n"


def page_of(run, about, programs):
    """The page with that text about the run, of programs: what is said of each, and what was found with it at each cut."""
    name = f"entries {len(run.entries)}, sectors {run.sectors}"
    torn, lost = (sum(cut.beyond[it] for _said, cuts in programs for cut in cuts) for it in (0, 1))
    about += "" if torn == lost == 0 else f"torn beyond {torn} lost beyond {lost}\n"
    style = dress("STYLE") + dress("CASE_STYLE") + dress("STYLE_END")
    text = f"{dress('OPENING')}{name}{style}{name}</h1>\n<pre class='about'>{html(about)}</pre>\n</header>\n<main>\n"
    text += "".join(program_text(run, program, said, cuts) for program, (said, cuts) in enumerate(programs))
    rows = "".join(f"<li id='e{it}'>{html(entry_line(run, it))}\n</li>\n" for it in range(len(run.entries)))
    listed = f"<section aria-labelledby='entries'>\n<h2 id='entries'>Entries</h2>\n<ol>\n{rows}</ol>\n</section>\n"
    return text + (folded_list(run) if folded(run) else listed) + dress("CLOSING")


def page(run, checkers, losses=ANY):
    """What `page --bound any` prints."""
    cuts = [Cut(run, number) for number in judged_cuts(run, losses)]
    found = [[Found(cut, cut.explore(checker, losses)) for cut in cuts] for checker in checkers]
    return page_of(run, head(run, checkers, losses), [(it.about, own) for it, own in zip(checkers, found)])
