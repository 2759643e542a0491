"""The page of `page` once more, in the plainest form, written from docs/OUTPUT.md, 'The page of `page`', and of what docs/CRASH-MODEL.md
says of flushes that are missing.

The parts that are the same on each page, its style, the keys of its entries and its script, are taken from where they stand
(crates/page_parts/src/dress.rt); nothing else is taken from the program under test.
"""
import re

from model import FLAGS, entry_line, escaped, head, missing_flushes, shown, window_of
from notation import DISCARD, MARK, TOP
from why_model import Failing, folded_groups, judged

# How many groups of a cut and of a program are shown, how long a text may be, and how many flushes are named.
OF_CUT, OF_PROGRAM, LONGEST, NAMED = 8, 500, 16384, 16

# Above how many entries their cells are narrow.
MANY = 400

# From how many entries on a log is folded, how many groups of a program are shown then, and how many failing cuts have a line.
LARGE, OF_FOLDED, LINES = 1000, 100, 1000

NAMES = {"&": "&amp;", "<": "&lt;", ">": "&gt;", '"': "&quot;", "'": "&#39;"}

# The shares of failing images: class, words, and at most one in how many.
NONE = ("s0", "no image fails", None)
BOUNDED = [(f"s{number + 1}", f"up to 1 in {most}", most) for number, most in enumerate((100, 10, 2))]
MORE, ALL = ("s4", "more", None), ("s5", "all of them", None)

DRESS = (TOP / "crates/page_parts/src/dress.rt").read_text()


def dress(name):
    """A part that is the same on each page."""
    text = re.search(rf'{name}: &str =\s+"(.*?)";\n', DRESS, re.S).group(1)
    return text.replace("\\\\", "\\")


def html(text):
    return "".join(NAMES.get(it, it) for it in text)


def mark_label(text):
    """The text of a mark: its characters where it is UTF-8, else its bytes as `log` shows them."""
    try:
        characters = text.decode()
    except UnicodeDecodeError:
        return html(escaped(text))
    odd = [chr(it) for it in (*range(32), *range(127, 160), 92)]
    return "".join(f"\\x{{{ord(it):x}}}" if it in odd else html(it) for it in characters)


def shade(run, place):
    return " o" if run.epoch(place) % 2 else ""


def entry_cell(run, number):
    """Returns the cell of an entry in the row of the log."""
    entry = run.entries[number]
    words = ["write"] if entry.count and not entry.flags & DISCARD else []
    words += [word for flag, word in FLAGS if entry.flags & flag and word != "metadata"]
    words = [word for word in ("write", "flush", "fua", "discard", "mark") if word in words]
    label = f" {mark_label(entry.text)}" if entry.flags & MARK else ""
    classes = "".join(f" {word}" for word in words)
    return f"<a tabindex='-1' class='e{shade(run, number)}{classes}' href='#e{number}'>{number}{label}</a>\n"


def share(images, failing):
    """Which share of the images of a cut fails."""
    if failing in (0, images):
        return ALL if failing else NONE
    return next((it for it in BOUNDED if failing * it[2] <= images), MORE)


def legend(kind="images"):
    """Returns the legend below the row."""
    keys = "".join(f"<span><b class='{it[0]}'></b>{it[1]}</span>" for it in (NONE, *BOUNDED, MORE, ALL))
    others = "<span><b class='mark'></b>mark</span><span><b class='even'></b><b class='odd'></b>epochs in turn</span>"
    lack = "<span><b class='lack'></b>flush missing</span>"
    return f"{dress('LEGEND')}{lack}{others}<span>{kind} of a cut that fail:</span>" + keys.replace("no image", f"no {kind[:-1]}") + "</p>\n"


def flush_cell(program, flush, kind="images"):
    """Returns the cell of a missing flush."""
    last, first, count = flush
    place = f"{last}" if first == last else f"{last}, or any from {first} on"
    title = f"a flush is missing before entry {place}; failing {kind}: {count}"
    return f"<a tabindex='-1' class='lack' id='p{program}f{last}' href='#e{last}' title='{title}'>flush missing</a>\n"


def advice(program, flushes, uncured, kind="images"):
    """What flushes would do."""
    text = ""
    if flushes:
        named = [f"<a href='#p{program}f{last}'>{last}</a>" for last, _first, _count in flushes]
        named = named[:NAMED] + ([f"{len(named) - NAMED} more"] if len(named) > NAMED else [])
        listed = ", ".join(named[:-1]) + " and " + named[-1] if len(named) > 1 else named[0]
        entries = "each of the entries" if len(named) > 1 else "entry"
        text += f"<p class='cure'>A flush right before {entries} {listed} takes every failing {kind[:-1]} away against which a flush helps."
        text += " This isn't tried here: crashbpf cure tries flushes where it runs programs; with --report it only names them.</p>\n"
    if uncured:
        text += f"<p class='order'>Against {uncured} of the failing {kind} no flush helps: the order of the writes is wrong there,"
        text += " or a write that may arrive in part is taken for whole.</p>\n"
    return text


def folded(run):
    """Where the blocks of a log begin, with those of its entries and where its cuts end; nothing where it isn't folded."""
    count = len(run.entries)
    width = count // LARGE + 1
    starts = range(0, count + 1, width) if count >= LARGE else []
    return [(start, min(start + width, count), start + width) for start in starts]


class Cut:
    """A wanted cut: how many images it has, and those on which a program fails, with what it ends in on each."""

    def __init__(self, run, number, failing):
        self.run, self.number, self.failing = run, number, failing
        self.images = sum(1 for _choice in run.choices(number))

    def share(self):
        return share(self.images, len(self.failing))[0]

    def count(self):
        return f"{len(self.failing)} of {self.images} images fail"

    def cell(self, program):
        """Returns the cut's cell in the row: a link where an image fails."""
        classes = f"c {self.share()}{shade(self.run, self.number)}"
        if not self.failing:
            return f"<i class='{classes}'></i>\n"
        title = f"cut {self.number}: {self.count()}"
        return f"<a tabindex='-1' class='{classes}' href='#p{program}c{self.number}' title='{title}'></a>\n"

    def folded_cell(self, program, start, beyond, fails, listed):
        """That of the block's cuts, where this is the first at which images fail, of that many."""
        place = f"c{self.number}" if listed else "more"
        title = f"cut {self.number}: {self.count()}; of cuts {start} to {beyond - 1} fail: {fails}"
        return f"<a tabindex='-1' class='c {self.share()}{shade(self.run, start)}' href='#p{program}{place}' title='{title}'></a>\n"

    def text(self, program, left, is_open):
        """What is said of it, where that many groups may be shown, and how many are."""
        found = folded_groups(self.failing)
        some = found[: min(OF_CUT, left)]
        run, number = self.run, self.number
        text = f"<details class='cut {self.share()}'{' open' if is_open else ''}><summary><b>cut {number}</b>"
        text += f" <span>epoch {run.epoch(number)}, marks {run.marks(number)}</span> <span>{self.count()}</span>"
        text += f" <progress max='{self.images}' value='{len(self.failing)}'></progress> "
        text += f"<code>{found[0][0].image.choice()}</code> <small>first of {len(found)}</small>"
        text += f"</summary>\n<div id='p{program}c{number}'>\n"
        text += "".join(group(run, it, is_open and at == 0) for at, it in enumerate(some))
        if len(found) > len(some):
            text += f"<p class='about'>{len(found) - len(some)} more groups of this cut: crashbpf why lists them.</p>\n"
        return text + "</div></details>\n", len(some)


def sided(text):
    """The lines of a text, each marked by its side."""
    sides = {"<": " class='whole'", ">": " class='wrong'"}
    return "".join(f"<span{sides.get(it[0], '')}>{html(it)}</span>" for it in text.splitlines(keepends=True))


def group(run, own, is_open):
    """A group: its example, and how many images stand under it."""
    image, ends = own[0].image, own[0].outcome
    said = "all" if all(it.outcome == ends for it in own) else "some"
    text = f"<details{' open' if is_open else ''}><summary><code>{image.choice()}</code>"
    text += f" <small>image {image.number}, group of {len(own)}, {said}: {html(ends)}</small></summary>\n"
    if image.departures:
        text += "<p class='sides'><span class='whole'>&lt; where nothing is lost</span>"
        text += " <span class='wrong'>&gt; this image, which fails</span></p>\n"
    words = shown(run, image)
    if len(words) <= LONGEST:
        text += f"<pre>{sided(words)}</pre>\n"
    else:
        text += f"<p class='about'>Its text has {len(words)} bytes: crashbpf show prints it.</p>\n"
    return text + "</details>\n"


def folded_strip(run, program, flushes, cuts, kind="images"):
    """The same of a large log, by its blocks."""
    bad = [cut for cut in cuts if cut.failing]
    blocks = folded(run)
    text = f"<p class='about'>A cell stands for up to {blocks[0][2]} entries, and the one before it for as many cuts,"
    text += f" in the colour of the first at which {kind} fail.</p>\n"
    text += "<div tabindex='0' role='group' aria-label='The log: arrow keys move' class='log many'>\n"
    for start, end, beyond in blocks:
        own = [cut for cut in bad if start <= cut.number < beyond]
        before = sum(1 for cut in bad if cut.number < start)
        passing = f"<i class='c s0{shade(run, start)}'></i>\n"
        if own:
            text += own[0].folded_cell(program, start, beyond, len(own), before < LINES)
        elif any(start <= cut.number < beyond for cut in cuts):
            text += passing
        lacking = [it for it in flushes if start <= it[0] < beyond]
        for flush in [it for it in lacking if it in flushes[:NAMED]] or lacking[:1]:
            text += flush_cell(program, flush, kind).replace(f"href='#e{flush[0]}'", f"href='#e{start}'")
        if start < end:
            there = run.entries[start:end]
            words = " write" if any(it.count and not it.flags & DISCARD for it in there) else ""
            words += " mark" if any(it.flags & MARK for it in there) else ""
            text += f"<a tabindex='-1' class='e{shade(run, start)}{words}' href='#e{start}'>{start} to {end - 1}</a>\n"
    return text + "</div>\n"


def short_line(run, number):
    """An entry as it stands in a block: its line in `log` without the words before its numbers."""
    return entry_line(run, number).replace("entry ", "", 1).replace("epoch ", "", 1)


def folded_list(run):
    """The entries of a large log, by its blocks."""
    text = "<section aria-labelledby='entries'>\n<h2 id='entries'>Entries</h2>\n"
    text += "<p class='about'>Each by its number, its epoch and what it asks of the device.</p>\n"
    for start, end, _beyond in folded(run):
        if start < end:
            lines = "".join(html(short_line(run, it)) + "\n" for it in range(start, end))
            text += f"<details id='e{start}'><summary>entries {start} to {end - 1}</summary>\n<pre>{lines}</pre></details>\n"
    return text + "</section>\n"


def strip(run, program, flushes, cuts, kind="images"):
    """The row of entries and cuts, with the flushes that are missing."""
    if folded(run):
        return folded_strip(run, program, flushes, cuts, kind)
    cells = {cut.number: cut.cell(program) for cut in cuts}
    lacking = {it[0]: flush_cell(program, it, kind) for it in flushes}
    narrow = " many" if len(run.entries) > MANY else ""
    text = f"<div tabindex='0' role='group' aria-label='The log: arrow keys move' class='log{narrow}'>\n"
    for number in range(len(run.entries)):
        text += cells.get(number, "") + lacking.get(number, "") + entry_cell(run, number)
    return text + cells.get(len(run.entries), "") + "</div>\n"


def verdict(cuts):
    """Returns the sentence that begins a program's part of the page."""
    bad = [cut for cut in cuts if cut.failing]
    if not cuts:
        return "<p class='none'>The log has no wanted cut: no image was judged.</p>\n"
    if bad:
        return f"<p class='bad'>{sum(len(cut.failing) for cut in bad)} images fail, at {len(bad)} of {len(cuts)} cuts.</p>\n"
    return f"<p class='good'>No image fails, at {len(cuts)} cuts.</p>\n"


def program_text(run, program, said, cuts):
    """Returns the part of the page of one program."""
    windows = [window_of(it.image) for cut in cuts for it in cut.failing]
    flushes = missing_flushes([it for it in windows if it])
    text = f"<section aria-labelledby='p{program}'>\n<h2 id='p{program}'>Program {program}: {html(said)}</h2>\n" + verdict(cuts)
    text += advice(program, flushes, windows.count(None)) + strip(run, program, flushes, cuts) + legend()
    left, bad = OF_FOLDED if folded(run) else OF_PROGRAM, [cut for cut in cuts if cut.failing]
    for cut in bad[:LINES]:
        more, some = cut.text(program, left, cut == bad[0])
        text, left = text + more, left - some
    if len(bad) > LINES:
        text += f"<p class='about' id='p{program}more'>{len(bad) - LINES} more cuts at which images fail: crashbpf why lists them.</p>\n"
    return text + "</section>\n"


def page_of(run, about, programs):
    """The page with that text about the run, of programs: what is said of each, and on which images it fails."""
    name = f"entries {len(run.entries)}, sectors {run.sectors}"
    text = f"{dress('OPENING')}{name}{dress('STYLE')}{dress('STYLE_END')}{name}</h1>\n<pre class='about'>{html(about)}</pre>\n</header>\n<main>\n"
    for program, (said, own) in enumerate(programs):
        cuts = [Cut(run, number, [it for it in own if it.image.cut == number]) for number in run.wanted_cuts()]
        text += program_text(run, program, said, cuts)
    rows = "".join(f"<li id='e{it}'>{html(entry_line(run, it))}\n</li>\n" for it in range(len(run.entries)))
    listed = f"<section aria-labelledby='entries'>\n<h2 id='entries'>Entries</h2>\n<ol>\n{rows}</ol>\n</section>\n"
    return text + (folded_list(run) if folded(run) else listed) + dress("CLOSING")


def page(run, checkers):
    """What `page` prints of checkers."""
    images = list(run.images())
    failing = [[own for own in (judged(it, checker) for it in images) if own] for checker in checkers]
    failed = {it.image.number for own in failing for it in own}
    about = head(run, checkers, False) + f"images {len(images)} failing {len(failed)} lines {sum(len(own) for own in failing)}\n"
    return page_of(run, about, [(it.about, own) for it, own in zip(checkers, failing)])


def page_of_report(run, report):
    """What `page --report` prints of a report that report_model.py read."""
    said = [re.sub("^program [0-9] ", "", it) for it in report.head.splitlines()[1:]]
    failing = [[Failing(it.image, it.outcome) for it in report.lines if it.program == number] for number in range(report.programs)]
    return page_of(run, report.head + report.last, list(zip(said, failing)))
