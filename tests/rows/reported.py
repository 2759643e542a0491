"""Reports that are given in place of programs: what `why`, `page` and `cure` tell of reports of checkers and of programs that are given
images as files, compared with the models (report_model.py, page_model.py), and at which line each damaged report is refused."""
from dataclasses import replace
from functools import cache

from designs import two_slots
from model import Checker, Run, explored, marked, number_of_report, one, two_slots as slots
from notation import F, M, Long, Printable, Row, W, log, refused
from page_model import page, page_of_report
from report_model import Fault, causes, places, read
from why_model import causes as causes_of_run

from rows.modelled import CHECKERS, any_fails, runs

# How many images a run may have here.
FEW = 700

RUN = Run([W(0, 1, 0xAA), F, W(1, 1, 0xBB), W(2, 1, 0xCC), M("done")], 4, bound=2)
WRONG = Run(two_slots(0), 4, bound=2)
SLOTS = Checker("slots 39 budget 87", slots)

# 65 pairs of writes of which the first may be lost: with `--flush` for one more than it takes.
PAIRS = Run([it for byte in range(1, 66) for it in (W(0, 1, byte), W(1, 1, byte), F)], 4)
HALF = Checker("slots 9 budget 9", lambda image: (int(image.sector(0)[0] < image.sector(1)[0]), ()))


NEVER = Checker("slots 39 budget 87", lambda _image: (0, []))

# What each command tells of a report.
TELLS = {"why": causes, "page": page_of_report, "cure": places}

# What `page` and `why` tell of checkers.
OF_CHECKERS = {"why": causes_of_run, "page": page}


@cache
def own(which=0, words="sh -c exit\\x{20}3 {}"):
    """The report of a program that is given images as files: each image fails in one of four ways."""
    said = ["answer 3 codes -", "signal 11", "out of time", "answer 255 codes -"]
    images = list(RUN.images())
    lines = [f"image {it.number} cut {it.cut} program 0 {said[(it.number + which) % 4]} choice {it.choice()}\n" for it in images]
    head = explored(RUN, [])
    head = head[:head.index("images ")] + f"program 0 outside {words}\n"
    return head + "".join(lines) + f"images {len(images)} failing {len(images)} lines {len(images)}\n"


def told(name, command, run, text, status):
    """What a command tells of a report."""
    tell = TELLS[command]
    return Row(
        f"report: {command}, {name}",
        f"{command} log --report r {run.options()}",
        {"log": log(run.recorded), "r": text if isinstance(text, Long) else text.encode()},
        Long(lambda: tell(run, read(run, made(text)))),
        status,
        notes=None,
    )


# The notes of the mark of RUN, which promises what nothing made durable, and of a report that doesn't say of what it is.
PROMISES = ["marks that promise what nothing made durable: entries 4", "a write before each of them may still be lost there: it has no flush after it, and isn't FUA"]
UNMARKED = "the report doesn't say of which log it is; explore --inputs and crashbpf-each write one that does"


def made(text):
    return text.encode() if isinstance(text, str) else text.text().encode()


def of_run(command, name, run):
    """What a command tells of the report of two checkers."""
    text = explored(run, CHECKERS[:2])
    return told(name, command, run, text, 1 if any_fails(run) else 0)


def same_as(command, name, run):
    """`why` or `page` of the report of checkers is that of the checkers."""
    text = explored(run, CHECKERS[:2])
    assert TELLS[command](run, read(run, text.encode())) == OF_CHECKERS[command](run, CHECKERS[:2])
    return told(f"{name}, as of the checkers", command, run, text, 1 if any_fails(run) else 0)


def damaged(name, run, text, command="why"):
    """A text that is no report of the run is refused at the line at which that shows."""
    data = text if isinstance(text, bytes) else text.encode()
    try:
        read(run, data)
    except Fault as fault:
        line = fault.args[0]
    else:
        raise AssertionError(f"{name} is a report")
    return refused(f"report: {name}", f"{command} log --report r {run.options()}", {"log": log(run.recorded), "r": data}, f"refused 16 at {line}")


def damages():
    """Reports with one fault each."""
    text = own()
    lines = text.splitlines(keepends=True)
    yield damaged("of the first failing image alone", RUN, explored(RUN, [Checker("slots 2 budget 2", one)], first=True))
    for count in range(len(lines)):
        if count < 6 or count > len(lines) - 3:
            yield damaged(f"cut off after {count} lines", RUN, "".join(lines[:count]))
    yield damaged("cut off in a line", RUN, text[:-3])
    yield damaged("empty", RUN, "")
    yield damaged("a byte after the end", RUN, text + "\n")
    yield damaged("two reports", RUN, text + text)
    yield damaged("two lines in the other order", RUN, "".join([*lines[:4], lines[5], lines[4], *lines[6:]]))
    yield damaged("a line twice", RUN, "".join([*lines[:5], lines[4], *lines[5:]]))
    yield damaged("a line less", RUN, "".join([*lines[:5], *lines[6:]]))
    yield damaged("carriage returns", RUN, text.replace("\n", "\r\n"))
    yield damaged("no text", RUN, text.encode().replace(b"out of time", b"out of t\xff\xfee", 1))
    yield damaged("a null", RUN, text.replace("signal 11", "signal\x0011", 1))
    for old, new in [
        ("crash report 2", "crash report 1"),
        ("crash report 2", "crash part 1"),
        ("sectors 4", "sectors 5"),
        ("entries 5", "entries 6"),
        ("bound 2", "bound 1"),
        ("first no", "first no base 1"),
        ("program 0 outside", "program 1 outside"),
        ("outside sh", "outside s\x7fh"),
        ("program 0 outside sh -c exit\\x{20}3 {}\n", "program 0 outside \n"),
        ("program 0 outside sh -c exit\\x{20}3 {}\n", ""),
        ("program 0 outside sh -c exit\\x{20}3 {}\n", "program 0 slots 2 budget 2\n"),
        ("image 1 cut 1", "image 1 cut 2"),
        ("image 1 cut 1", "image 01 cut 1"),
        ("image 1 cut", "image 18446744073709551617 cut"),
        ("image 2 cut", "image 99 cut"),
        ("program 0 signal", "program 1 signal"),
        ("signal 11", "signal 128"),
        ("signal 11", "signal 0"),
        ("signal 11", "fault 83 slot 1"),
        ("answer 255 codes -", "answer 256 codes -"),
        ("answer 255 codes -", "answer 0 codes -"),
        ("answer 255 codes -", "answer 255 codes 1"),
        ("out of time", "out of steps"),
        ("0.0:drop", "0.0:head1"),
        ("0.0:drop", "2.0:drop"),
        ("lines ", "lines 1"),
        ("failing ", "failing 1"),
    ]:
        yield damaged(f"{new!r} for {old!r}", RUN, text.replace(old, new, 1))
    other = Run(RUN.recorded, 4, bound=1)
    yield damaged("with another bound", other, text)
    yield damaged("that says to be of other options", other, marked(RUN, text))
    yield damaged("that says to be of another log", Run([*RUN.recorded[:-1], M("over")], 4, bound=2), marked(RUN, text))
    said = f"inputs {number_of_report(RUN)} programs 1"
    for new in (said.replace("inputs ", "inputs 1"), said.replace("programs 1", "programs 2"), said.replace("programs 1", "programs 0"), said.replace("programs 1", "programs 9"), said.removesuffix(" programs 1"), said + " ", said.replace(" programs", "  programs")):
        yield damaged(f"with {new!r}", RUN, marked(RUN, text).replace(said, new, 1))
    yield damaged("that says of what it is after its options", RUN, text.replace("first no\n", f"first no\n{said}\n", 1))
    yield damaged("that says twice of what it is", RUN, marked(RUN, text).replace(said, f"{said}\n{said}", 1))
    yield damaged("that says of what it is, with a line less", RUN, "".join([line for line in marked(RUN, text).splitlines(keepends=True) if not line.startswith("image 1 ")]))
    two = marked(WRONG, explored(WRONG, [SLOTS, NEVER]))
    yield damaged("without the program that never fails", WRONG, two.replace(f"program 1 {NEVER.about}\n", "", 1))
    yield damaged("refused by cure as well", other, text, "cure")
    yield damaged("refused by page as well", other, text, "page")


NOT_WITH_ANY = "--report doesn't stand beside --bound any: a report has images, and with --bound any there are cases"
# Words beside which `--report` doesn't stand, and what the fault names.
MIXED = [
    ("why log p --report r --sectors 4", "--report"),
    ("why log --sectors 4 --report r --checked 9", "--report"),
    ("cure log --sectors 4 --report r --guards", "--report"),
    ("why log --sectors 4 --report r --workers 2", "--report"),
    ("cure log --sectors 4 --report r --cache 2", "--report"),
    ("why log --sectors 4 --report r --progress", "--report"),
    ("why log --sectors 4", "PROGRAM"),
    ("page log p --report r --sectors 4", "--report"),
    ("page log --sectors 4 --report r --workers 2", "--report"),
    ("page log --sectors 4", "PROGRAM"),
    ("explore log --sectors 4 --report r", "--report"),
]


ROWS = [
    told("a program of one's own", "why", RUN, own(), 1),
    told("a program of one's own", "cure", RUN, own(), 1),
    told("a program of one's own, in other ways", "why", RUN, own(1), 1),
    # beside a report that says of what it is nothing is noted of that
    replace(told("that says of what it is", "why", RUN, marked(RUN, own()), 1), notes=PROMISES),
    replace(told("that doesn't say of what it is", "why", RUN, own(2), 1), notes=[*PROMISES, UNMARKED]),
    told("that says of what it is", "cure", RUN, marked(RUN, own()), 1),
    told("that says of what it is", "page", RUN, marked(RUN, own()), 1),
    told("of two programs, and says so", "why", WRONG, marked(WRONG, explored(WRONG, [SLOTS, NEVER])), 1),
    told("two_slots, wrong", "cure", WRONG, explored(WRONG, [SLOTS]), 1),
    told("no failing line", "cure", WRONG, explored(WRONG, [Checker("slots 39 budget 87", lambda _image: (0, []))]), 0),
    told("more flushes than the option takes", "cure", PAIRS, explored(PAIRS, [HALF]), 1),
    told("a program of one's own", "page", RUN, own(), 1),
    told("words that would be markup", "page", RUN, own(words="<b>&'\\x{22}</h2> {}"), 1),
    told("no failing line", "page", WRONG, explored(WRONG, [Checker("slots 39 budget 87 guards 2", lambda _image: (0, []))]), 0),
    *(same_as("why", name, run) for name, run in list(runs())[::6] if sum(1 for _image in run.images()) <= FEW),
    *(same_as("page", name, run) for name, run in list(runs())[3::9] if sum(1 for _image in run.images()) <= FEW),
    *(of_run("cure", name, run) for name, run in list(runs())[1::12] if sum(1 for _image in run.images()) <= FEW),
    *damages(),
    *(Row(f"report: {words}", words, {"log": log(RUN.recorded), "r": own().encode()}, status=2, error=Printable("error: ", text)) for words, text in MIXED),
    *(
        Row(f"report: {command} of any number of losses", f"{command} log --report r --sectors 4 --bound any", {"log": log(RUN.recorded), "r": b""}, status=2, error="refused 13 at 2", notes=[NOT_WITH_ANY])
        for command in ("why", "cure", "page")
    ),
    Row("report: a bound that is too large", "why log --report r --sectors 4 --bound 4", {"log": log(RUN.recorded), "r": b""}, status=2, error="refused 13 at 2", notes=["--bound is 0 to 3"]),
    refused("report: no such file", f"why log --report gone {RUN.options()}", {"log": log(RUN.recorded)}, "refused 14 at 1"),
    refused("report: join takes none", "join r", {"r": own().encode()}, "refused 61 at 0"),
]
