"""`image` and `show` with `--bound any`: images of choices of any number of parts, those in flight among them, compared with the model
(docs/COMMANDS.md, Commands; docs/OUTPUT.md, The text of `show`). The choice of each failing case of the designs names its image, on
which the checker ends as the case says."""
import random

from cases_model import any_shown, at_risk, cases, ended, image_of, image_said, read_line
from designs import DESIGNS, EXAMPLES, checker_of, data, folder_of
from designs import LOGS as STORED
from machine_model import judged
from model import Run
from notation import DISCARD, FLUSH, FUA, SECTOR, Entry, F, M, Row, S, Something, W, files, refused

from rows.modelled import LOGS, noise


def words_of(run):
    return run.options().replace(f"--bound {run.bound}", "--bound any")


def told(name, run, cut, said, recorded=None):
    """The image of a choice as bytes and in words."""
    image = image_said(run, cut, said)
    assert image is not None, (cut, said)
    log = files(run.recorded) if recorded is None else {"log": recorded}
    log = {**log, "base": run.base} if run.base else log
    short = said if len(said) < 60 else f"{said[:40]}.. of {len(image.departures)} parts"
    for command, text in (("image", image.content()), ("show", any_shown(run, image))):
        yield Row(f"{command} any: {name}, cut {cut} and choice {short}, {words_of(run)}", f"{command} log --cut {cut} --choice {said} {words_of(run)}", log, text)


# The designs: each failing case


def of_design(which):
    """Yields rows on the failing cases of a design, each of which its checker has to reject as the model says."""
    run, program = DESIGNS[which], data(EXAMPLES / f"{folder_of(which)}/checker.bpf")
    failing = [it for it in cases(run, [checker_of(which)]).splitlines() if it.startswith("cut ")]
    for number, line in enumerate(failing):
        words, ending = read_line(line)
        cut = int(words["cut"])
        image = image_said(run, cut, words["choice"])
        # the checker ends as the case says, by its model and by its own code on the machine
        assert ended(checker_of(which).judge(image))[0] == ending == ended(judged(program, image))[0], (which, line)
        rows = list(told(f"{which}, case {number}", run, cut, words["choice"], data(STORED / f"{which}.log")))
        yield from rows if number < 3 else rows[:1]


# Logs, and some choices of each of some cuts


def some_choices(run, chance):
    """Choices of some cuts, of few parts and of all of them."""
    for cut in run.wanted_cuts():
        parts = at_risk(run, cut)
        fates = ["drop", "head1", "head5", "tail3", "tail7"] if run.tears else ["drop"]
        for lost in sorted({0, min(1, len(parts)), len(parts) // 2, len(parts)}):
            gone = chance.sample(parts, lost)
            yield cut, image_of(run, cut, {part: chance.choice(fates) if part in gone else "whole" for part in parts}).choice()


FORCED = [W(0, 2, 0x11), W(1, 2, 0x22, FUA), M("m"), S(2, noise("forced", 3), FUA | FLUSH), Entry(flags=FUA | FLUSH), Entry(1, 2, DISCARD | FUA), W(0, 4, 0x33)]
RUNS = [
    *(Run(entries, sectors, tears=tears, by=by) for sectors, entries in LOGS.values() for tears, by in [(False, "sector"), (True, "write")]),
    *(Run(FORCED, 8, tears=tears, by=by) for tears in (False, True) for by in ("sector", "write")),
    Run(FORCED, 8, "flush", tears=True, flush=(1,), last=6),
    Run(FORCED, 8, "mark", base=noise("held", 3)),
    Run([W(number % 40, 1, 1 + number) for number in range(120)], 40),
]


# of which each choice is tried
ALL = range(len(RUNS) - 7, len(RUNS) - 1)


def of_runs():
    """Yields rows on choices of the runs, all of them or some."""
    chance = random.Random("any images")
    for number, run in enumerate(RUNS):
        choices = sorted(set(some_choices(run, chance)))
        for cut, said in choices if number in ALL else chance.sample(choices, min(4, len(choices))):
            yield from told(f"run {number}", run, cut, said)


# What is written down: a write in flight, which no image with a bound lacks

FLIGHT = [W(0, 1, 0x11), W(1, 2, 0x22, FUA)]
WRITTEN = """sectors 4 entries 2 cuts all bound any tears no by sector
cut 2 epoch 0 marks 0 choice 0.0:drop,1.1:drop
departed: entry 0, sector 0: nothing of it arrived
departed: entry 1, sector 2, in flight: nothing of it arrived
volatile parts: 1
volatile: entry 0, sector 0
in flight: entry 1, 2 sectors from 1 on
before the cut: entry 0 epoch 0 write sector 0 count 1
before the cut: entry 1 epoch 0 write fua sector 1 count 2
last flush: none
last mark: none
sector 0: 512 of 512 bytes differ, the first is byte 0
< 00000000: 1111 1111 1111 1111 1111 1111 1111 1111  ................
> 00000000: 0000 0000 0000 0000 0000 0000 0000 0000  ................
< 00000010: 1111 1111 1111 1111 1111 1111 1111 1111  ................
> 00000010: 0000 0000 0000 0000 0000 0000 0000 0000  ................
< 00000020: 1111 1111 1111 1111 1111 1111 1111 1111  ................
> 00000020: 0000 0000 0000 0000 0000 0000 0000 0000  ................
< 00000030: 1111 1111 1111 1111 1111 1111 1111 1111  ................
> 00000030: 0000 0000 0000 0000 0000 0000 0000 0000  ................
sector 2: 512 of 512 bytes differ, the first is byte 0
< 00000400: 2222 2222 2222 2222 2222 2222 2222 2222  \"\"\"\"\"\"\"\"\"\"\"\"\"\"\"\"
> 00000400: 0000 0000 0000 0000 0000 0000 0000 0000  ................
< 00000410: 2222 2222 2222 2222 2222 2222 2222 2222  \"\"\"\"\"\"\"\"\"\"\"\"\"\"\"\"
> 00000410: 0000 0000 0000 0000 0000 0000 0000 0000  ................
< 00000420: 2222 2222 2222 2222 2222 2222 2222 2222  \"\"\"\"\"\"\"\"\"\"\"\"\"\"\"\"
> 00000420: 0000 0000 0000 0000 0000 0000 0000 0000  ................
< 00000430: 2222 2222 2222 2222 2222 2222 2222 2222  \"\"\"\"\"\"\"\"\"\"\"\"\"\"\"\"
> 00000430: 0000 0000 0000 0000 0000 0000 0000 0000  ................
"""
IN_FLIGHT = [
    Row("show any: a write in flight", "show log --sectors 4 --bound any --cut 2 --choice 0.0:drop,1.1:drop", files(FLIGHT), WRITTEN),
    Row("image any: a write in flight", "image log --sectors 4 --bound any --cut 2 --choice 0.0:drop,1.1:drop", files(FLIGHT), bytes(SECTOR) + b"\x22" * SECTOR + bytes(2 * SECTOR)),
    refused("image any: it is not at risk with a bound", "image log --sectors 4 --bound 3 --cut 2 --choice 0.0:drop,1.1:drop", files(FLIGHT), "refused 13 at 11"),
]

# What is refused

LOG = files([W(0, 1, 1, FUA), W(1, 2, 2), F, W(0, 1, 3, FLUSH), W(3, 1, 4)])


def no_choice(why, words):
    return [refused(f"{it} any: {why}", f"{it} log --sectors 4 --bound any {words}", LOG, "refused 13 at 11") for it in ("image", "show")]


REFUSED = [
    *no_choice("a part that isn't at risk there", "--cut 3 --choice 1.0:drop"),
    *no_choice("a write with FUA that has ended", "--cut 2 --choice 0.0:drop"),
    *no_choice("a sector that the entry hasn't", "--cut 2 --choice 1.2:drop"),
    *no_choice("a tear without --tears", "--cut 2 --choice 1.0:head1"),
    *no_choice("departures that don't rise", "--cut 2 --choice 1.1:drop,1.0:drop"),
    *no_choice("a part twice", "--cut 2 --choice 1.0:drop,1.0:drop"),
    *no_choice("a part twice, torn and lost", "--tears --cut 2 --choice 1.0:drop,1.0:head1"),
    *no_choice("a part that is whole", "--cut 2 --choice 1.0:whole"),
    *no_choice("a part by write where parts are sectors", "--cut 2 --choice 1:drop"),
    *no_choice("a sector where parts are writes", "--by write --cut 2 --choice 1.0:drop"),
    *no_choice("a cut past the end", "--cut 6 --choice -"),
    *no_choice("a cut that isn't wanted", "--cuts flush --cut 1 --choice -"),
    *no_choice("a cut before the range", "--from 2 --cut 1 --choice -"),
    *no_choice("a number with a zero in front", "--cut 2 --choice 01.0:drop"),
    *no_choice("a number past 32 bits", "--cut 2 --choice 4294967297.0:drop"),
    *no_choice("no fate", "--cut 2 --choice 1.0"),
    *no_choice("no name", "--cut 2 --choice ,"),
    *no_choice("a hyphen and a name", "--cut 2 --choice -,1.0:drop"),
    *no_choice("an eighth past the last", "--tears --cut 2 --choice 1.0:head8"),
    *no_choice("a comma at the end", "--cut 2 --choice 1.0:drop,"),
    *no_choice("a comma in front", "--cut 2 --choice ,1.0:drop"),
    *no_choice("a long text", f"--cut 2 --choice {','.join(['1.0:drop'] * 5000)}"),
    *(
        refused(f"any image: {why}", words, LOG, line)
        for why, words, line in [
            ("a number", "image log 0 --sectors 4 --bound any", "refused 13 at 2"),
            ("a number of show", "show log 0 --sectors 4 --bound any", "refused 13 at 2"),
            ("--images", "image log --sectors 4 --bound any --images --cut 2 --choice -", "refused 13 at 17"),
            ("the options before --images", "show log --sectors 0 --bound any --images --cut 2 --choice -", "refused 13 at 1"),
            ("the word of the cuts", "image log --sectors 4 --bound any --cuts none --cut 9 --choice x", "refused 13 at 7"),
            ("no such entry", "image log --sectors 4 --bound any --flush 9 --cut 9 --choice x", "refused 15 at 9"),
            ("past the device", "show log --sectors 2 --bound any --cut 9 --choice x", "refused 9 at 1"),
        ]
    ),
    refused("any image: --images before the file", "image log --sectors 4 --bound any --images --cut 2 --choice -", {}, "refused 13 at 17"),
    refused("any image: no file", "image log --sectors 4 --bound any --cut 2 --choice -", {}, "refused 14 at 0"),
    refused("any image: the log before the choice", "show log --sectors 4 --bound any --cut 1 --choice x", {"log": b""}, "refused 1 at 0"),
]
FAULTY = [
    "image log --sectors 4 --bound any --cut 2",
    "show log --sectors 4 --bound any --choice -",
    "image log --sectors 4 --bound any --torn 1 --tears --cut 2 --choice -",
    "show log --sectors 4 --bound any --at-most 1 --cut 2 --choice -",
    "show log 0 --sectors 4 --bound any --cut 2 --choice -",
]
FAULTS = [Row(f"any image: fault of the command line: {words}", words, LOG, status=2, error=Something()) for words in FAULTY]

ROWS = [*(row for which in DESIGNS for row in of_design(which)), *of_runs(), *IN_FLIGHT, *REFUSED, *FAULTS]
