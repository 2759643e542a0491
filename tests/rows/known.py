"""Records of a program in place of checkers (docs/OUTPUT.md, 'Records of a program of yours'): what `explore` tells of them and which images
`export` writes, compared with the model (known_model.py), at which line each damaged text is refused, and beside which words none stands."""
from cases_model import ANY, Losses
from known_model import Refused, exported, explored, head_text, inputs_of, told
from model import Run
from notation import F, M, Printable, Row, W, log, refused

from rows.modelled import noise


def pair(**options):
    """A run of two writes."""
    return Run([W(0, 1, 0xAA), W(1, 1, 0xBB)], 4, **options)


def saved(**options):
    """A run with a flush and a mark."""
    return Run([W(0, 1, 0xAA), F, W(1, 1, 0xBB), M("done"), W(2, 2, 0xCC)], 4, **options)


PAIR, SAVED = pair(), saved()
# The records of docs/OUTPUT.md: a program that reads sector 1, and sector 0 only where that is set.
LOOKS = [
    "ran cut 2 choice - marks 0 answer 0 looked 1,0",
    "ran cut 2 choice 1.0:drop marks 0 answer 0 looked 1",
    "ran cut 2 choice 0.0:drop marks 0 answer 1 looked 1,0",
]
ENDS = [
    "ran cut 5 choice - marks 1 answer 0 looked 0-3",
    "ran cut 5 choice 4.0:drop marks 1 signal 11 looked 2,1",
    "ran cut 5 choice 4.1:drop marks 1 out of time looked 3,2",
    "ran cut 3 choice 2.0:drop marks 0 answer 255 looked 1",
]
WORDS, TOTAL = "./check {}", "5f0c"
BASE = noise("records", 4)
NUMBER = 16


def records(run, lines):
    """The bytes of a text of records."""
    return (head_text(inputs_of(run), WORDS, TOTAL) + "".join(f"{it}\n" for it in lines)).encode()


def words(run, losses):
    """The options of the command line."""
    return run.options().replace(f"--bound {run.bound}", losses.options())


def files(run, content):
    return {"log": log(run.recorded), "known": content, **({"base": run.base} if run.base else {})}


def of_records(name, run, content, losses=ANY):
    """What `explore` tells of a text of records, and what `export` writes."""
    it = told(run, content, losses)
    status, text = explored(it)
    asked = f"log --known known {words(run, losses)}"
    return [
        Row(f"records: {name}", f"explore {asked}", files(run, content), text, status),
        Row(f"records: wanted, {name}", f"export {asked}", files(run, content), exported(it)),
    ]


def noted(name, content, losses, note):
    """A row with a note beside what is told of records."""
    status, text = explored(told(PAIR, content, losses))
    return Row(f"records: the note of {name}", f"explore log --known known {words(PAIR, losses)}", files(PAIR, content), text, status, notes=[note])


def damaged(name, run, content, command="explore"):
    """A text that is refused, at the line at which that shows."""
    try:
        told(run, content)
    except Refused as fault:
        line = fault.args[1]
    else:
        raise AssertionError(f"{name} are records")
    return refused(f"records: {name}, {command}", f"{command} log --known known {words(run, ANY)}", files(run, content), f"refused {NUMBER} at {line}")


def damages():
    """Texts with one fault each."""
    whole = records(PAIR, LOOKS)
    lines = whole.splitlines(keepends=True)
    for count in range(1, len(lines)):
        if count < 4:
            yield damaged(f"cut off after {count} lines", PAIR, b"".join(lines[:count]))
    yield damaged("cut off in a line", PAIR, whole[:-3])
    yield damaged("an empty line after the end", PAIR, whole + b"\n")
    yield damaged("no head", PAIR, b"".join(lines[4:]))
    yield damaged("carriage returns", PAIR, whole.replace(b"\n", b"\r\n"))
    yield damaged("another log", SAVED, whole)
    yield damaged("another sum put together", PAIR, whole + whole.replace(b"sum 5f0c", b"sum 5f0d"))
    yield damaged("another program put together", PAIR, whole + whole.replace(b"./check", b"./other"))
    for old, new in [
        ("crash known 1", "crash known 2"),
        ("inputs ", "inputs 0"),
        ("outside ./check {}\n", "outside \n"),
        ("sum 5f0c", "sum 5f 0c"),
        ("cut 2 choice -", "cut 3 choice -"),
        ("marks 0", "marks 1"),
        ("1.0:drop", "2.0:drop"),
        ("1.0:drop", "1:drop"),
        ("answer 1", "answer 256"),
        ("answer 1", "signal 0"),
        ("answer 1", "signal 128"),
        ("looked 1,0", "looked 1,1"),
        ("looked 1,0", "looked 4"),
        ("looked 1,0", "looked 1-0"),
        ("looked 1,0", "looked 01,0"),
        ("looked 1,0", "looked "),
    ]:
        yield damaged(f"{new!r} for {old!r}", PAIR, whole.replace(old.encode(), new.encode(), 1))
    yield damaged("an answer that contradicts an earlier one", PAIR, records(PAIR, [*LOOKS, LOOKS[1].replace("answer 0", "answer 7")]))
    yield damaged("an end that contradicts an earlier one", PAIR, records(PAIR, [*LOOKS, "ran cut 2 choice 1.0:drop marks 0 out of time looked -"]), "export")


# Words beside which records don't stand, and what the fault names.
MIXED = [
    ("explore log p --known known --sectors 4 --bound any", "--known"),
    *((f"explore log --known known --sectors 4 --bound any {it}", "--known") for it in ("--workers 2", "--cache 2", "--checked 9", "--guards", "--progress", "--first", "--inputs", "--images 0..1")),
    ("export log --known known --sectors 4 --bound any --images 0..1", "--known"),
    ("explore log p --sectors 4 --bound any --stop-at-failing", "--stop-at-failing"),
    ("explore log p --sectors 4 --bound any --cases 2", "--cases"),
    *((f"export log --sectors 4 --images 0..1 {it}", "--images") for it in ("--stop-at-failing", "--cases 2", "--torn 1", "--at-most 1")),
    ("export log --sectors 4 --stop-at-failing", "--known"),
    ("export log --sectors 4 --cases 2", "--known"),
    ("export log --sectors 4 --torn 1", "--known"),
    ("export log --sectors 4 --at-most 1", "--known"),
    ("explore log --sectors 4 --bound any", "PROGRAM"),
    ("why log --known known --sectors 4 --bound any", "--known"),
]

# Options that are refused, each with its place.
OUT_OF_RANGE = [
    ("--sectors 4", "22", "--known stands beside --bound any"),
    ("--sectors 4 --bound 2", "22", "--known stands beside --bound any"),
    ("--sectors 4 --torn 1", "22", "--known stands beside --bound any"),
    ("--sectors 4 --bound any --torn 1", "20", "--torn is 1 to 3, beside --bound any and --tears"),
    ("--sectors 4 --bound any --at-most 0", "21", "--at-most is 1 to 64, beside --bound any"),
    ("--sectors 4 --bound any --cases 0", "23", "--cases is 1 to 16777216"),
    ("--sectors 4 --bound any --cases 16777217", "23", "--cases is 1 to 16777216"),
    ("--sectors 4 --bound any --cases 0 --at-most 65", "21", "--at-most is 1 to 64, beside --bound any"),
    ("--sectors 0 --bound any --cases 0", "1", "--sectors is 1 to 16384, with --large to 33554432"),
    ("--sectors 4 --bound any --cases 0 --cuts none", "7", "--cuts is all, flush or mark"),
]

OPEN = "open cases, which no record tells: {}; 'crashbpf export' with the same options writes their images"
BLIND = "program 0: looked at no sector that an entry writes, in no record, so no loss changes what it ends in"
EXAMPLE = records(PAIR, LOOKS)
CONTRARY = records(PAIR, [*LOOKS, LOOKS[1].replace("answer 0", "answer 7")])
NONE_SUCH = "the file of --known isn't the text of records of this log with these --sectors, --base and --by, or is cut off: the number says at which line that shows (docs/OUTPUT.md, Records of a program of yours)"
OTHER_HEAD = "the line is one of a head, and another one than that of this log with these options, or than the first head has"
BOTH = "the records at lines 6 and 8 contradict each other: their images have the same bytes wherever the program looked on both, and it ended otherwise; so it looks at something else too, or a look was missed"
ASKED = "log --known known --sectors 4 --bound any"

ROWS = [
    *of_records("the example", PAIR, EXAMPLE),
    *of_records("of one image alone", PAIR, records(PAIR, LOOKS[:1])),
    *of_records("none", PAIR, records(PAIR, [])),
    *of_records("an empty file", PAIR, b""),
    *of_records("twice, with the head of each", PAIR, EXAMPLE + EXAMPLE),
    *of_records("in another order", PAIR, records(PAIR, LOOKS[::-1])),
    *of_records("with tears", pair(tears=True), EXAMPLE),
    *of_records("of at most one loss", PAIR, EXAMPLE, Losses(most=1)),
    *of_records("to the first failing case", PAIR, EXAMPLE, Losses(at_failing=True)),
    *of_records("of two cases", PAIR, EXAMPLE, Losses(cases=2)),
    *of_records("each end", SAVED, records(SAVED, ENDS)),
    *of_records("of some cuts", saved(first=3, last=4), records(SAVED, ENDS)),
    *of_records("with a flush", saved(flush=(4,)), records(SAVED, ENDS)),
    *of_records("of cuts before flushes", saved(cuts="flush"), records(SAVED, ENDS)),
    *of_records("over a base", pair(base=BASE), records(pair(base=BASE), LOOKS)),
    *of_records("by write", pair(by="write"), records(pair(by="write"), [it.replace(".0:", ":") for it in LOOKS])),
    *damages(),
    *(Row(f"records: {text}", text, files(PAIR, EXAMPLE), status=2, error=Printable("error: ", name)) for text, name in MIXED),
    *(
        Row(f"records: {command} {text}", f"{command} log --known known {text}", files(PAIR, EXAMPLE), status=2, error=f"refused 13 at {place}", notes=[note])
        for command in ("explore", "export")
        for text, place, note in OUT_OF_RANGE
    ),
    noted("open cases", records(PAIR, LOOKS[:1]), ANY, OPEN.format(2)),
    noted("a stopped cut", EXAMPLE, Losses(cases=1), "cuts at which the search was stopped before all cases: 1"),
    noted("records that looked at nothing of the log", records(PAIR, ["ran cut 2 choice - marks 0 answer 0 looked 3"]), ANY, BLIND),
    Row("records: no such file", "explore log --known gone --sectors 4 --bound any", files(PAIR, EXAMPLE), status=2, error="refused 14 at 1", notes=["gone can't be read"]),
    Row("records: the note of another head", f"explore {ASKED}", files(PAIR, EXAMPLE.replace(b"inputs ", b"inputs 1")), status=2, error=f"refused {NUMBER} at 2", notes=[NONE_SUCH, OTHER_HEAD]),
    Row("records: the note of a line", f"explore {ASKED}", files(PAIR, EXAMPLE[:-3]), status=2, error=f"refused {NUMBER} at 7", notes=[NONE_SUCH]),
    Row("records: the note of two that contradict each other", f"explore {ASKED}", files(PAIR, CONTRARY), status=2, error=f"refused {NUMBER} at 8", notes=[NONE_SUCH, BOTH]),
]
