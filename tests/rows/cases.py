"""`--bound any`: every loss of any number of writes, as the cases that a checker can tell apart (docs/CRASH-MODEL.md, 'Any number of
losses'; docs/OUTPUT.md, 'The text of cases'). Whole texts, compared with the model (cases_model.py) to the byte, and some that are
written down; each option, and each refusal with its place."""
import random
from dataclasses import replace
from itertools import product
from math import comb

import model
from cases_model import ANY, Losses, at_risk, cases, first_case, judged_cuts, status
from designs import DESIGNS, EXAMPLES, JOURNAL_AT_ONCE, JOURNAL_RIGHT, JOURNAL_WRONG, JUDGES, checker_of, data, double_write, folder_of, tree, two_slots
from designs import LOGS as STORED
from machine_model import Ended, judged
from model import Checker, Run
from notation import FLUSH, FUA, M, OfInputs, Row, S, Something, W, code, explore, files, lines, named, program, refused

from rows.footprints import BY_NUMBER, RUNS as NARROW
from rows.footprints import CHECKERS as NARROW_CHECKERS
from rows.large import BASED as LARGE_BASED, CHECKER as LARGE_CHECKER, MIXES, RUNS as LARGE_RUNS
from rows.modelled import CHECKERS, LOGS, PROGRAMS, noise


def words_of(run, losses):
    """The options of the command line."""
    return run.options().replace(f"--bound {run.bound}", losses.options())


def told(name, run, programs, checkers, losses=ANY, more="", text=None):
    """A row of a run, by the model where no text is given."""
    text = cases(run, checkers, losses) if text is None else text
    options = f"{words_of(run, losses)}{more}"
    row = explore(f"cases: {name}, {options}", options, run.recorded, programs, text, status(text))
    return replace(row, files={**row.files, "base": run.base}) if run.base else row


# The table of designs: the run, its checker, how many cases there are and how many of them fail.

ROOT_BPF = data(EXAMPLES / "tree/root.bpf")
ROOT = ROOT_BPF, Checker("slots 26 budget 24", lambda view: judged(ROOT_BPF, view))


def of_design(folder):
    return data(EXAMPLES / f"{folder}/checker.bpf"), Checker(*JUDGES[folder])


ONE_TORN = dict(by="write", tears=True)
TABLE = [
    ("tree, wrong, root", Run(tree(0), 8), ROOT, 13, 3),
    ("tree, right, root", Run(tree(FLUSH), 8), ROOT, 13, 0),
    ("two_slots, wrong", Run(two_slots(0)), of_design("two_slots"), 13, 3),
    ("two_slots, right", Run(two_slots(FLUSH)), of_design("two_slots"), 13, 0),
    ("journal, wrong", Run(JOURNAL_WRONG, 8), of_design("journal"), 11, 3),
    ("journal, right", Run(JOURNAL_RIGHT, 8), of_design("journal"), 10, 0),
    ("journal, at once", Run(JOURNAL_AT_ONCE, 8), of_design("journal"), 11, 3),
    ("double_write, wrong", Run(double_write(0), 12), of_design("double_write"), 142, 90),
    ("double_write, wrong", Run(double_write(0), 12, by="write"), of_design("double_write"), 16, 0),
    ("double_write, wrong", Run(double_write(0), 12, **ONE_TORN), of_design("double_write"), 310, 126),
]


def design(name, run, checker, count, failing):
    """A row of the table."""
    row = told(name, run, checker[0], [checker[1]])
    assert f" cases {count} failing {failing} " in row.out, f"{name}: {row.out.splitlines()[-1]}"
    return row


def stored(which):
    """A design of examples/ by its file: the text that is stored, which is the model's."""
    run = DESIGNS[which]
    text = cases(run, [checker_of(which)])
    assert text.encode() == data(EXAMPLES / f"{which}.cases"), f"{which}.cases isn't the model's"
    program_file = data(EXAMPLES / f"{folder_of(which)}/checker.bpf")
    return explore(f"cases: {which}, by its file", words_of(run, ANY), data(STORED / f"{which}.log"), program_file, text, status(text))


DESIGN_ROWS = [*(design(*it) for it in TABLE), *map(stored, DESIGNS)]


# Texts that are written down

# Byte 0 of sector 0 where byte 0 of sector 1 is set, else 0.
SECOND_FIRST = program("mov64 r1, 1; call 1; jeq r0, 0, +6; ldxb r0, [r0+0]; jeq r0, 0, +4; mov64 r1, 0; call 1; jeq r0, 0, +1; ldxb r0, [r0+0]; exit")
# 1, and code 7, where sector 0 is zeros though sector 1 isn't.
IN_ORDER = program("mov64 r1, 1; call 5; jne r0, 0, +7; mov64 r1, 0; call 5; jeq r0, 0, +4; mov64 r1, 7; call 4; mov64 r0, 1; exit; mov64 r0, 0; exit")
ZERO = program("mov64 r1, 0; call 5; exit")
NOT_ZERO = program("mov64 r1, 0; call 5; xor64 r0, 1; exit")
# How many of the sectors 0 and 1 are zeros.
ZEROS = program("mov64 r1, 0; call 5; mov64 r6, r0; mov64 r1, 1; call 5; add64 r0, r6; exit")
MARKS = program("ldxdw r0, [r1+16]; exit")

# A write of which the third piece alone differs from zeros, and the fates that show it and those that don't.
THIRD = S(0, bytes(128) + b"\xaa" * 64 + bytes(320))
SHOW = "whole+head3+head4+head5+head6+head7+tail6+tail7"
HIDE = "drop+head1+head2+tail1+tail2+tail3+tail4+tail5"
FATES = [f"{side}{eighths}" for side in ("head", "tail") for eighths in range(1, 8)]


def torn(cut, mark, name="0.0"):
    """The lines of a write that is torn: each way is a case of its own."""
    return "".join(f"cut {cut} epoch 0 marks {mark} program 0 case {number} answer 1 codes - choice {name}:{it} kept - free 0 flush none\n" for number, it in enumerate(FATES, 2))


def written(name, options, entries, programs, text):
    """A row whose text is written down, without its first line, and without the number of the inputs that a run of a range of the cuts has."""
    text = lines(text) if text.startswith("\n") else text
    is_range = {"--from", "--to"} & set(options.split())
    text = OfInputs(f"crash cases 1\ninputs ?\n{text}") if is_range else f"crash cases 1\n{text}"
    return explore(f"cases: {name}, {options}", f"--sectors 4 {options}", entries, programs, text, status(text))


BOTH = [W(0, 1, 0xAA), W(1, 1, 0xBB)]
ORDERED = [*BOTH, W(2, 1, 1), M("m")]
WRITTEN = [
    written(
        "two writes",
        "--bound any",
        BOTH,
        SECOND_FIRST,
        """
        sectors 4 entries 2 cuts all bound any tears no
        program 0 slots 10 budget 10
        cut 2 epoch 0 marks 0 program 0 case 0 answer 170 codes - choice - kept 0.0,1.0 free 0 flush none
        cuts 1 cases 3 failing 1 torn beyond 0 lost beyond 0 complete
        """,
    ),
    # what isn't looked at may be lost besides: with the second write lost nothing is known of the first
    written(
        "two writes, one lost",
        "--bound any --at-most 1 --by write",
        BOTH,
        SECOND_FIRST,
        """
        sectors 4 entries 2 cuts all bound any tears no at-most 1 by write
        program 0 slots 10 budget 10
        cut 2 epoch 0 marks 0 program 0 case 0 answer 170 codes - choice - kept 0,1 free 0 flush none
        cuts 3 cases 5 failing 1 torn beyond 0 lost beyond 0 complete
        """,
    ),
    written(
        "two writes, one lost, and both are looked at",
        "--bound any --at-most 1",
        BOTH,
        ZEROS,
        """
        sectors 4 entries 2 cuts all bound any tears no at-most 1
        program 0 slots 7 budget 7
        cut 0 epoch 0 marks 0 program 0 case 0 answer 2 codes - choice - kept - free 0 flush none
        cut 1 epoch 0 marks 0 program 0 case 0 answer 1 codes - choice - kept 0.0 free 0 flush none
        cut 1 epoch 0 marks 0 program 0 case 1 answer 2 codes - choice 0.0:drop kept - free 0 flush none
        cut 2 epoch 0 marks 0 program 0 case 1 answer 1 codes - choice 1.0:drop kept 0.0 free 0 flush none
        cut 2 epoch 0 marks 0 program 0 case 2 answer 1 codes - choice 0.0:drop kept 1.0 free 0 flush 1..1
        cuts 3 cases 6 failing 5 torn beyond 0 lost beyond 1
        """,
    ),
    # the window ends with what can't be lost, and with the mark
    written(
        "the first is lost, the second isn't",
        "--bound any",
        ORDERED,
        [IN_ORDER, MARKS],
        """
        sectors 4 entries 4 cuts all bound any tears no
        program 0 slots 12 budget 10
        program 1 slots 2 budget 2
        cut 3 epoch 0 marks 0 program 0 case 1 answer 1 codes 7 choice 0.0:drop kept 1.0 free 1 flush 1..1
        cut 4 epoch 0 marks 1 program 0 case 1 answer 1 codes 7 choice 0.0:drop kept 1.0 free 1 flush 1..3
        cut 4 epoch 0 marks 1 program 1 case 0 answer 1 codes - choice - kept - free 3 flush none
        cuts 2 cases 8 failing 3 torn beyond 0 lost beyond 0 complete
        """,
    ),
    written(
        "the flush of the window",
        "--bound any --flush 1 --from 3 --to 3",
        ORDERED,
        IN_ORDER,
        """
        sectors 4 entries 4 cuts all bound any tears no flush 1 from 3 to 3
        program 0 slots 12 budget 10
        cuts 1 cases 2 failing 0 torn beyond 0 lost beyond 0 of these cuts
        """,
    ),
    # forced_in_flight of docs/CRASH-MODEL.md, of which no image of `--bound 1` fails
    written(
        "a write with FUA in flight",
        "--bound any --tears",
        [W(0, 1, 0xAA, FUA)],
        named("ends_agree"),
        "sectors 4 entries 1 cuts all bound any tears yes torn 1\nprogram 0 slots 11 budget 9\n"
        + torn(1, 0)
        + "cuts 1 cases 16 failing 14 torn beyond 0 lost beyond 0 complete\n",
    ),
    written(
        "a write with FUA that has ended",
        "--bound any --tears --from 2",
        [W(0, 1, 0xAA, FUA), M("m")],
        named("ends_agree"),
        """
        sectors 4 entries 2 cuts all bound any tears yes torn 1 from 2
        program 0 slots 11 budget 9
        cuts 1 cases 1 failing 0 torn beyond 0 lost beyond 0 of these cuts
        """,
    ),
    written(
        "one piece that differs",
        "--bound any --tears --torn 3",
        [THIRD],
        [ZERO, NOT_ZERO],
        f"""
        sectors 4 entries 1 cuts all bound any tears yes torn 3
        program 0 slots 3 budget 3
        program 1 slots 4 budget 4
        cut 1 epoch 0 marks 0 program 0 case 1 answer 1 codes - choice 0.0:drop kept - among 0.0:{HIDE} free 0 flush none
        cut 1 epoch 0 marks 0 program 1 case 0 answer 1 codes - choice - kept - among 0.0:{SHOW} free 0 flush none
        cuts 1 cases 4 failing 2 torn beyond 0 lost beyond 0 complete
        """,
    ),
    written(
        "no cut",
        "--bound any --cuts mark",
        BOTH,
        ZERO,
        """
        sectors 4 entries 2 cuts mark bound any tears no
        program 0 slots 3 budget 3
        cuts 0 cases 0 failing 0 torn beyond 0 lost beyond 0 of these cuts
        """,
    ),
    written(
        "an empty log",
        "--bound any --tears --torn 2 --at-most 64",
        [],
        ZERO,
        """
        sectors 4 entries 0 cuts all bound any tears yes torn 2 at-most 64
        program 0 slots 3 budget 3
        cut 0 epoch 0 marks 0 program 0 case 0 answer 1 codes - choice - kept - free 0 flush none
        cuts 1 cases 1 failing 1 torn beyond 0 lost beyond 0 complete
        """,
    ),
]


# Runs by the model

# How many cases a run may have of which the model is to make the text, if a checker looks at everything.
FEW = 150


def ways(run, losses):
    """How many choices a run has with as many torn as is asked."""
    fates = 14 if run.tears else 0
    counts = [len(at_risk(run, cut)) for cut in judged_cuts(run, losses)]
    return sum(comb(parts, torn) * fates**torn * 2 ** (parts - torn) for parts in counts for torn in range(min(parts, losses.most_torn(run)) + 1))


def runs():
    """Runs of the logs of modelled.py by all options, with what is asked of losses, by name."""
    chance = random.Random("cases")
    ranges = [{}, {}, dict(first=2), dict(last=3), dict(flush=(2, 1)), dict(first=1, last=3, flush=(3,))]
    for name, (sectors, entries) in LOGS.items():
        for cuts, by, tears in product(["all", "flush", "mark"], ["sector", "write"], [False, True]):
            more, held = chance.choice(ranges), noise(f"under {name}", 2)[: chance.choice([0, 0, 700])]
            losses = Losses(chance.choice([None, 1, 2, 3]) if tears else None, chance.choice([None, None, 1, 2]))
            run = Run(entries, sectors, cuts, 1, tears, by, base=held, **more)
            if max(more.get("flush", (0,))) < len(entries) and ways(run, losses) <= FEW:
                yield name, run, losses


def by_some(name, run, number):
    """Checkers that look at a few sectors of many, alone and together."""
    made = [(program(text), Checker(about, judge)) for text, about, judge in NARROW_CHECKERS.values()]
    losses = [ANY, Losses(None, 2)][number % 2]
    run = Run(run.recorded, run.sectors, ["all", run.cuts][number % 2], run.bound, run.tears, run.by)
    alone = [told(f"{name}, {word}", run, it[0], [it[1]], losses) for word, it in list(zip(NARROW_CHECKERS, made))[number % 3 :: 3]]
    together = told(f"{name}, all", run, [it[0] for it in made], [it[1] for it in made], losses, " --workers 4")
    return [*alone, together, told(f"{name}, by number", run, BY_NUMBER[0], [BY_NUMBER[1]], losses, " --checked 9")]


MODELLED = [
    *(told(name, run, PROGRAMS, CHECKERS, losses) for name, run, losses in runs()),
    *(row for number, (name, run) in enumerate(NARROW.items()) for row in by_some(name, run, number)),
]


# Many writes in flight


def read(sectors):
    """A checker that answers the sum of the first bytes of these sectors, as a text, and what the report says of it."""
    text = "; ".join(["mov64 r6, 0", *(f"mov64 r1, {it}; call 1; jeq r0, 0, +2; ldxb r1, [r0+0]; add64 r6, r1" for it in sectors), "mov64 r0, r6", "exit"])
    count = 5 * len(sectors) + 3
    return program(text), Checker(f"slots {count} budget {count}", lambda view: (sum(view.sector(it)[0] for it in sectors), ()))


SIXTY = Run([W(it, 1, 1 + it) for it in range(60)], 64)
READS_THREE = read([5, 20, 40])
# 2^60 images at the last cut
OF_THREE = told("60 writes in flight, of which three are looked at", SIXTY, READS_THREE[0], [READS_THREE[1]])
assert "cuts 1 cases 8 failing 7 torn beyond 0 lost beyond 0 complete\n" in OF_THREE.out and " free 57 " in OF_THREE.out

# A sum over 25 sectors has 2^25 cases by sector, which are refused 12 after minutes; that is tried by hand.
WIDE = Run([S(0, noise("wide", 25)), W(30, 1, 1), S(0, noise("wide again", 25))], 32, by="write")
READS_ALL = read(range(25))
OF_ALL = told("a sum over 25 sectors", WIDE, READS_ALL[0], [READS_ALL[1]])
assert "cuts 1 cases 3 " in OF_ALL.out and "complete" in OF_ALL.out

MANY = [
    OF_THREE,
    OF_ALL,
    told("60 writes in flight, one torn", Run(SIXTY.entries, 64, tears=True), READS_THREE[0], [READS_THREE[1]]),
    told("60 writes in flight, two lost", SIXTY, READS_THREE[0], [READS_THREE[1]], Losses(None, 2)),
    told("a sum over 25 sectors, torn", Run(WIDE.entries, 32, by="write", tears=True), READS_ALL[0], [READS_ALL[1]], Losses(2, None)),
    told("large", LARGE_RUNS[3], MIXES, [LARGE_CHECKER], ANY, " --large"),
    told("large, based", LARGE_BASED, MIXES, [LARGE_CHECKER], Losses(None, 2), " --large"),
]


# What runs end in beside a verdict

# the first word of sector 0 is added to the address of the sector
INDEXED = "mov64 r1, 0; call 1; jne r0, 0, +2; mov64 r0, 0; exit; ldxdw r2, [r0+0]; add64 r0, r2; ldxb r0, [r0+0]; exit"
# turns round while sector 0 is zeros
SPINS = "mov64 r1, 0; call 5; jeq r0, 1, -1; mov64 r0, 0; exit"


def indexed(ending):
    """Returns a checker that answers the byte to which the first word points, and ends so where that is outside of the sector."""

    def judge(view):
        place = model.word(view.sector(0), 0)
        return (view.sector(0)[place], ()) if place < 512 else Ended(ending)

    return judge


def spins(view):
    return Ended("out of steps") if not any(view.sector(0)) else (0, ())


def at(place, rest=0):
    """A sector whose first word is that, and whose other bytes are these."""
    return place.to_bytes(8, "little") + bytes([rest]) * 504


INDEXES = Run([S(0, at(5)), S(0, at(600, 3)), S(0, at(9, 3)), W(1, 1, 9)], 4, tears=True)
ENDINGS = [
    told("strays", INDEXES, program(INDEXED), [Checker("slots 9 budget 7 guards 1", indexed("stray at slot 7"))], Losses(2, None), " --guards"),
    told("faults", INDEXES, program(INDEXED), [Checker("slots 9 limit 20", indexed("fault 83 slot 7"))], Losses(2, None), " --checked 20"),
    told("spent steps", Run(INDEXES.entries, 4, by="write"), program(SPINS), [Checker("slots 5 limit 9", spins)], ANY, " --checked 9"),
    told("no step", Run(BOTH), ZERO, [Checker("slots 3 limit 0", lambda view: Ended("out of steps"))], ANY, " --checked 0"),
]
assert all(word in row.out for word, row in zip(["stray at slot 7", "fault 83 slot 7", "out of steps", "out of steps"], ENDINGS))


# The first failing case alone


def first(row, run, programs, checkers, losses=ANY, more=""):
    """A row of a run by --first: what `told` gives, and what the model says of the first."""
    text = first_case(run, checkers, losses)
    whole = told(row, run, programs, checkers, losses)
    # the text of all, where none fails; else its beginning, up to and with its first line of a case, without the number of the inputs
    head = text[: text.rindex("first cut ")] if whole.status else whole.out.replace("inputs ?\n", "")
    assert whole.out.replace("inputs ?\n", "").startswith(head), f"{row}: the first isn't the first of all"
    assert "complete" not in text or not whole.status, row
    return told(f"{row}, first", run, programs, checkers, losses, f" --first{more}", text)


def firsts():
    """Runs by the model, of each kind above."""
    yield from (first(name, run, checker[0], [checker[1]]) for name, run, checker, _count, _failing in TABLE)
    for number, (name, run, losses) in enumerate(runs()):
        if number % 4 == 0:
            yield first(name, run, PROGRAMS, CHECKERS, losses, ["", " --workers 4"][number % 8 // 4])
    for number, (name, run) in enumerate(NARROW.items()):
        made = [(program(text), Checker(about, judge)) for text, about, judge in NARROW_CHECKERS.values()]
        losses = [ANY, Losses(None, 2)][number % 2]
        run = Run(run.recorded, run.sectors, ["all", run.cuts][number % 2], run.bound, run.tears, run.by)
        yield first(f"{name}, all", run, [it[0] for it in made], [it[1] for it in made], losses)
    yield first("60 writes in flight, of which three are looked at", SIXTY, READS_THREE[0], [READS_THREE[1]])
    yield first("60 writes in flight, one torn", Run(SIXTY.entries, 64, tears=True), READS_THREE[0], [READS_THREE[1]])
    yield first("large", LARGE_RUNS[3], MIXES, [LARGE_CHECKER], ANY, " --large")
    yield first("strays", INDEXES, program(INDEXED), [Checker("slots 9 budget 7 guards 1", indexed("stray at slot 7"))], Losses(2, None), " --guards")


# Of 2^25 cases the second fails, and 2^25 more cases come after it: a run of all is refused 12 after minutes.
TWENTY_FIVE = Run([W(it, 1, 1) for it in range(25)], 32)
# the sum of the first bytes is looked at, and it is to be 25
SUMS = "; ".join(["mov64 r6, 0", *(f"mov64 r1, {it}; call 1; jeq r0, 0, +2; ldxb r1, [r0+0]; add64 r6, r1" for it in range(25)), "mov64 r0, r6; sub64 r0, 25; exit"])
ALL_ARRIVE = program(SUMS), Checker("slots 129 budget 129", lambda view: (sum(view.sector(it)[0] for it in range(25)) - 25 & 2**64 - 1, ()))
FIRSTS = [
    *firsts(),
    told(
        "of more cases than a run may have, first",
        TWENTY_FIVE,
        ALL_ARRIVE[0],
        [ALL_ARRIVE[1]],
        ANY,
        " --first",
        first_case(TWENTY_FIVE, [ALL_ARRIVE[1]]),
    ),
    written(
        "the first of two programs",
        "--bound any --first",
        ORDERED,
        [MARKS, IN_ORDER],
        """
        sectors 4 entries 4 cuts all bound any tears no
        program 0 slots 2 budget 2
        program 1 slots 12 budget 10
        cut 3 epoch 0 marks 0 program 1 case 1 answer 1 codes 7 choice 0.0:drop kept 1.0 free 1 flush 1..1
        first cut 3 program 1 case 1
        """,
    ),
    written(
        "none fails, and some are left out",
        "--bound any --first --at-most 1 --cuts mark",
        BOTH + [M("m")],
        program("mov64 r1, 0; call 5; mov64 r1, 1; call 5; mov64 r0, 0; exit"),
        """
        sectors 4 entries 3 cuts mark bound any tears no at-most 1
        program 0 slots 6 budget 6
        cuts 1 cases 3 failing 0 torn beyond 0 lost beyond 1
        """,
    ),
]


# What is said of how far a run is: how many cases are found, by all programs at all cuts, or up to the first that fails


def counted(name, run, programs, checkers, more, count):
    text = first_case(run, checkers) if "--first" in more else None
    row = told(f"{name}, with progress", run, programs, checkers, ANY, f"{more} --progress", text)
    return replace(row, images=f"{count} cases")


PROGRESS = [
    *(counted(name, run, checker[0], [checker[1]], "", count) for name, run, checker, count, _failing in TABLE[:3]),
    counted(TABLE[0][0], TABLE[0][1], ROOT[0], [ROOT[1]], " --first", 2),
    counted("60 writes in flight", SIXTY, READS_THREE[0], [READS_THREE[1]], " --workers 4", 8),
    replace(written("no cut, with progress", "--bound any --cuts mark --progress", BOTH, ZERO, WRITTEN[8].out.split("\n", 1)[1])),
]


# What is noted beside a text without failing cases that isn't complete


def noted_beside(name, options, entries, notes):
    """A row of a checker that answers 0 and looks at sectors 0 and 1, with the notes beside its text."""
    checked = Checker("slots 6 budget 6", lambda view: (0 * len(view.sector(0) + view.sector(1)), ()))
    looks = program("mov64 r1, 0; call 5; mov64 r1, 1; call 5; mov64 r0, 0; exit")
    words = dict(zip(*[iter(options.split())] * 2))
    ends = {"--from": "first", "--to": "last"}
    run = Run(entries, 4, words.get("--cuts", "all"), tears="tears" in name, **{it: int(words[word]) for word, it in ends.items() if word in words})
    losses = Losses(int(words["--torn"]) if "--torn" in words else None, int(words["--at-most"]) if "--at-most" in words else None)
    row = told(f"notes, {name}", run, looks, [checked], losses)
    return replace(row, notes=notes)


NO_FLUSH = "no entry is a flush, so --cuts flush has the one cut at the end; ask without --cuts"
NOTED = [
    noted_beside("complete", "", BOTH, []),
    noted_beside("tears, complete", "--torn 2", BOTH, []),
    noted_beside("tears", "", BOTH, ["cases with more torn parts than 1 are left out: 196", "every loss is covered, with at most 1 of the parts torn"]),
    # of some of the cuts nothing is said but what was left out
    noted_beside("tears, of some cuts", "--from 1", BOTH, ["cases with more torn parts than 1 are left out: 196"]),
    noted_beside("tears, of the cuts before flushes", "--cuts flush", BOTH, [NO_FLUSH, "cases with more torn parts than 1 are left out: 196"]),
    noted_beside("lost, of some cuts", "--at-most 1 --to 2", BOTH, ["cases with more lost or torn parts than 1 are left out: 1"]),
    noted_beside("lost", "--at-most 1", BOTH, ["cases with more lost or torn parts than 1 are left out: 1", "without --at-most every loss is covered"]),
]


# What is refused, and where, beside the rows of commands.py

GOOD = code("b7000000000000009500000000000000")
REFUSED = {
    "--bound 1 --torn 1 --tears": 20,
    "--torn 9 --cache 5": 20,
    "--bound 2 --at-most 1 --first": 21,
    "--bound any --first --torn 0": 20,
    "--bound any --first --cache 9": 4,
    "--bound any --tears --torn 0 --at-most 0": 20,
    "--bound any --images 0..0": 17,
    # what the other options are comes first
    "--bound any --torn 1 --workers 65": 3,
    "--bound any --first --checked 1000000001": 5,
    "--bound any --first --cuts none": 7,
    "--bound any --first --by page": 10,
    "--bound any --first --flush x": 12,
    "--bound any --first --from 2 --to 1": 13,
    "--bound any --first --images 5..5": 17,
}
OTHERS = ["cure log p0", "page log p0", "images log", "export log", "image log 0", "show log 0"]
FILES = files(BOTH, GOOD)
REFUSALS = [
    *(refused(f"cases: refused, {words}", f"explore log p0 --sectors 4 {words}", FILES, f"refused 13 at {place}") for words, place in REFUSED.items()),
    # and before the files, the log and the programs
    refused("cases: options before files", "explore log p0 --sectors 4 --bound any --first --images 0..1", {}, "refused 13 at 17"),
    refused("cases: the first, no file", "explore log p0 --sectors 4 --bound any --first", {}, "refused 14 at 0"),
    refused("cases: no file", "explore log p0 --sectors 4 --bound any", {}, "refused 14 at 0"),
    refused("cases: no program", "explore log p0 --sectors 4 --bound any", files(BOTH), "refused 14 at 1"),
    refused("cases: no log", "explore log p0 --sectors 4 --bound any", {"log": b"", "p0": GOOD}, "refused 1 at 0"),
    refused("cases: past the device", "explore log p0 --sectors 1 --bound any", FILES, "refused 9 at 1"),
    refused("cases: no such entry", "explore log p0 --sectors 4 --bound any --flush 2", FILES, "refused 15 at 2"),
    refused("cases: no such cut", "explore log p0 --sectors 4 --bound any --from 3", FILES, "refused 15 at 3"),
    refused("cases: no such end", "explore log p0 --sectors 4 --bound any --to 3", FILES, "refused 15 at 3"),
    refused("cases: a program that isn't accepted", "explore log p0 p1 --sectors 4 --bound any", files(BOTH, GOOD, program("exit")), "refused 50 at 0 of program 1"),
    refused("cases: a program that isn't one", "explore log p0 p1 --sectors 4 --bound any", files(BOTH, GOOD, b"1234567"), "refused 20 at 0 of program 1"),
    refused("cases: nine programs", f"explore log {'p0 ' * 9}--sectors 4 --bound any", FILES, "refused 13 at 6"),
]

# Faults of the command line
FAULTY = [
    *(f"explore log p0 --sectors 4 --bound {it}" for it in ("anyone", "an", "all", "any,1")),
    "explore log p0 --sectors 4 --bound any --tears --torn",
    "explore log p0 --sectors 4 --bound any --at-most",
    "explore log p0 --sectors 4 --bound any --guards --checked 5",
    "explore log p0 --bound any",
    "explore log --sectors 4 --bound any",
    *(f"{words} --sectors 4 --torn 1" for words in OTHERS),
    *(f"{words} --sectors 4 --at-most 1" for words in OTHERS),
    "log log --bound any",
    "verify p0 --sectors 4 --bound any",
]
FAULTS = [Row(f"cases: fault of the command line: {words}", words, FILES, status=2, error=Something()) for words in FAULTY]

ROWS = [*DESIGN_ROWS, *WRITTEN, *MODELLED, *MANY, *ENDINGS, *FIRSTS, *PROGRESS, *NOTED, *REFUSALS, *FAULTS]
