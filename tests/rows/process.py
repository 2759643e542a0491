"""The process itself: files that can't be read, and a standard output that can't be written."""
# Seen to fail for planted bugs: causes 30 and 31 swapped; for each command of the help, a failed write without an end.
from model import Checker, Run, explored, one, zero
from notation import LIMITED, F, Folder, Long, Printable, Row, W, code, files, program, refused, report
from parts_model import part

GOOD = program("mov64 r0, 0; exit")
BAD = program("mov64 r0, 1; exit")
LOG = [W(0, 1, 0xAA), F]
FOLDER = Folder()

MISSING = [
    refused("no log", "explore log p0 --sectors 4", {"p0": GOOD}, "refused 14 at 0"),
    refused("no log, images", "images log --sectors 4", {}, "refused 14 at 0"),
    refused("no log, image", "image log 0 --sectors 4", {}, "refused 14 at 0"),
    refused("no program", "explore log p0 --sectors 4", files(LOG), "refused 14 at 1"),
    refused("no log, cure", "cure log p0 --sectors 4", {"p0": GOOD}, "refused 14 at 0"),
    refused("no program, cure", "cure log p0 --sectors 4", files(LOG), "refused 14 at 1"),
    refused("no second program, cure", "cure log p0 p1 --sectors 4", files(LOG, GOOD), "refused 14 at 2"),
    refused("no program, verify", "verify p --sectors 4", {}, "refused 14 at 0"),
    refused("no program, list", "list p", {}, "refused 14 at 0"),
    refused("no source", "asm s", {}, "refused 14 at 0"),
    refused("no second program", "explore log p0 p1 --sectors 4", files(LOG, GOOD), "refused 14 at 2"),
    refused("no eighth program", "explore log p0 p0 p0 p0 p0 p0 p0 p8 --sectors 4", files(LOG, GOOD), "refused 14 at 8"),
    refused("neither log nor program", "explore log p0 --sectors 4", {}, "refused 14 at 0"),
    refused("neither of two programs", "explore log p0 p1 --sectors 4", files(LOG), "refused 14 at 1"),
    refused("no program, checked", "explore log p0 --sectors 4 --checked 2", files(LOG), "refused 14 at 1"),
    refused("no folder of the log", "images there/log --sectors 4", {}, "refused 14 at 0"),
    refused("the log as a folder of itself", "images log/log --sectors 4", files(LOG), "refused 14 at 0"),
]

FOLDERS = [
    refused("a folder as log", "explore log p0 --sectors 4", files(FOLDER, GOOD), "refused 14 at 0"),
    refused("a folder as log, images", "images log --sectors 4", files(FOLDER), "refused 14 at 0"),
    refused("a folder as log, image", "image log 0 --sectors 4", files(FOLDER), "refused 14 at 0"),
    refused("a folder as program", "explore log p0 --sectors 4", files(LOG, FOLDER), "refused 14 at 1"),
    refused("a folder as second program", "explore log p0 p1 --sectors 4", files(LOG, GOOD, FOLDER), "refused 14 at 2"),
    refused("a folder as log, cure", "cure log p0 --sectors 4", files(FOLDER, GOOD), "refused 14 at 0"),
    refused("a folder as program, cure", "cure log p0 --sectors 4", files(LOG, FOLDER), "refused 14 at 1"),
    refused("a folder as program, verify", "verify p --sectors 4", {"p": FOLDER}, "refused 14 at 0"),
    refused("a folder as program, list", "list p", {"p": FOLDER}, "refused 14 at 0"),
    refused("a folder as source", "asm s", {"s": FOLDER}, "refused 14 at 0"),
]

# Empty files can be read, and are refused for what they hold.
EMPTY = [
    refused("an empty log", "explore log p0 --sectors 4", files(b"", GOOD), "refused 1 at 0"),
    refused("an empty log, images", "images log --sectors 4", files(b""), "refused 1 at 0"),
    refused("an empty program", "explore log p0 --sectors 4", files(LOG, b""), "refused 21 at 0 of program 0"),
    refused("an empty log, cure", "cure log p0 --sectors 4", files(b"", GOOD), "refused 1 at 0"),
    refused("an empty program, cure", "cure log p0 --sectors 4", files(LOG, b""), "refused 21 at 0 of program 0"),
    refused("an empty program, verify", "verify p --sectors 4", {"p": b""}, "refused 21 at 0"),
    refused("an empty program, list", "list p", {"p": b""}, "refused 21 at 0"),
    refused("an empty source", "asm s", {"s": b""}, "refused 32 at 0"),
    refused("the empty device as log", "images /dev/null --sectors 4", {}, "refused 1 at 0"),
]


def no_text(what, content):
    """A source that isn't UTF-8."""
    return refused(f"no UTF-8: {what}", "asm s", {"s": content}, "refused 14 at 0")


NO_TEXTS = [
    no_text("one byte", b"\xff"),
    no_text("in a comment", b"exit ;\xff"),
    no_text("after a fault", b"foo\n\xff"),
    no_text("a character cut short", b"exit ; \xc3"),
    no_text("a character in too many bytes", b"exit ; \xc0\xaf\n"),
    no_text("half of a pair", b"exit ; \xed\xa0\x80\n"),
    no_text("past the last character", b"exit ; \xf4\x90\x80\x80\n"),
    Row("UTF-8 in a comment", "asm s", {"s": "exit ; é, €, 😀\n"}, code("9500000000000000")),
    refused("UTF-8 outside a comment", "asm s", {"s": "exit é\n"}, "refused 31 at 1"),
    refused("a byte order mark", "asm s", {"s": "\ufeffexit\n"}, "refused 30 at 1"),
]

# A report of more than 2 MB: 17 units of which two may depart, torn or dropped.
LONG = Run([W(0, 17, 0xAA)], sectors=64, bound=2, tears=True)
LONG_FILES = files(LONG.entries, BAD)
LONG_WORDS = f"explore log p0 {LONG.options()}"
LONG_REPORT = Long(lambda: explored(LONG, [Checker("slots 2 budget 2", one)]))
GOOD_REPORT = Long(lambda: explored(LONG, [Checker("slots 2 budget 2", zero)]))

STORED_RUN = report("""
    sectors 1 entries 0 cuts all bound 0 tears no first no
    program 0 slots 2 limit 2
    images 1 failing 0 lines 0
    """)

WRITTEN = [
    Row("a report of more than 2 MB", LONG_WORDS, LONG_FILES, LONG_REPORT, 1),
    Row("the same images, none of which fails", LONG_WORDS, files(LONG.entries, GOOD), GOOD_REPORT, 0),
]


UNWRITABLE = "crashbpf: standard output can't be written"

# The text of a part that is a whole run.
SMALL = Run(LOG, 4)
WHOLE_PART = part(SMALL, [Checker("slots 2 budget 2", one)], 0, sum(1 for _image in SMALL.images()), 5).encode()


def unwritten(what, words, content):
    """A run with each kind of standard output that takes nothing. Of a pipe that nobody reads nothing is said."""
    return [
        Row(f"standard output {to}: {what}", words, content, status=2, error="" if to == "unread" else UNWRITABLE, to=to, notes=() if to == "unread" else None)
        for to in ["closed", "full", "unread"]
    ]


UNWRITTEN = [
    *unwritten("a short report", "explore log p0 --sectors 4", files(LOG, BAD)),
    *unwritten("a report without a failing line", "explore log p0 --sectors 4", files(LOG, GOOD)),
    *unwritten("a cure", "cure log p0 --sectors 4", files(LOG, BAD)),
    *unwritten("a long report", LONG_WORDS, LONG_FILES),
    *unwritten("the stored run", "", {}),
    *unwritten("images", "images log --sectors 4", files(LOG)),
    *unwritten("export", "export log --sectors 4", files(LOG)),
    *unwritten("image", "image log 0 --sectors 4", files(LOG)),
    *unwritten("an image of 8 MiB", "image log 0 --sectors 16384", files(LOG)),
    *unwritten("verify", "verify p --sectors 4", {"p": GOOD}),
    *unwritten("import", "import log", files(LOG)),
    *unwritten("asm", "asm s", {"s": "exit\n"}),
    *unwritten("list", "list p", {"p": code("9500000000000000")}),
    *unwritten("help", "--help", {}),
    *unwritten("the version", "--version", {}),
    *unwritten("why", "why log p0 --sectors 4", files(LOG, BAD)),
    *unwritten("a page", "page log p0 --sectors 4", files(LOG, BAD)),
    *unwritten("log", "log log", files(LOG)),
    *unwritten("show", "show log 0 --sectors 4", files(LOG)),
    *unwritten("check", "check p image", {"p": GOOD, "image": bytes(512)}),
    *unwritten("verify with guards", "verify p --sectors 4 --guards --list", {"p": GOOD}),
    *unwritten("the first failing image", "explore log p0 --sectors 4 --first", files(LOG, BAD)),
    *unwritten("a part", "explore log p0 --sectors 4 --images 0..1", files(LOG, BAD)),
    *unwritten("join", "join t", {"t": WHOLE_PART}),
]


def lacking(commands):
    """Which commands of the program's help have no run here whose standard output takes nothing."""
    run = {row.words.split(" ")[0] for row in UNWRITTEN}
    return [f"{it.name} has no run in rows/process.py whose output can't be written" for it in commands if it.name not in {*run, "help"}]


# A file that takes that many bytes and no more holds exactly the first bytes of the report.
FIRST_BYTES = Long(lambda: LONG_REPORT.make()[:LIMITED])

PARTLY_WRITTEN = [
    Row("a long report on a disk that fills up", LONG_WORDS, LONG_FILES, FIRST_BYTES, 2, UNWRITABLE, "limited"),
    Row("a short report on a disk that has room", "", {}, STORED_RUN, 0, "", "limited"),
]

# A refusal stands on standard error, whatever becomes of standard output.
REFUSED = [
    Row(f"standard output {to}: a refusal", "explore log p0 --sectors 0", {}, status=2, error="refused 13 at 1", to=to)
    for to in ["closed", "full", "unread"]
]

# Without a standard error the status tells it alone.
SILENT = [
    Row("no standard error: a refusal", "explore log p0 --sectors 0", {}, status=2, to="silent"),
    Row("no standard error: a missing file", "explore log p0 --sectors 4", {}, status=2, to="silent"),
    Row("no standard error: a fault of the command line", "frob", {}, status=2, to="silent"),
    Row("no standard error: a report", "", {}, STORED_RUN, to="silent"),
]



def escaped(name, words, *texts):
    """A fault of the command line, whose text shows a word as `log` shows the text of a mark."""
    return Row(f"a word in a fault: {name}", words, files(LOG, GOOD), status=2, error=Printable(*texts))


# Words that would write to a terminal, or end a line of the fault, each where `clap` puts a word into its text.
ESCAPED = [
    escaped("a colour", "fr␛[31mob", r"error: unrecognized subcommand 'fr\x{1b}[31mob'"),
    escaped("a line of its own", "frob␊images␣1␣failing␣0␣lines␣0", r"'frob\x{a}images 1 failing 0 lines 0'"),
    escaped("a carriage return", "frob␍error:", r"'frob\x{d}error:'"),
    escaped("a backspace", "frob␈", r"'frob\x{8}'"),
    escaped("DEL", "frob␡", r"'frob\x{7f}'"),
    escaped("a control character of Latin 1", "frob\x9b31m", r"'frob\x{c2}\x{9b}31m'"),
    escaped("a direction of writing", "frob\u202ebo", r"'frob\x{e2}\x{80}\x{ae}bo'"),
    escaped("an escape as it is written", r"frob\x{1b}", r"'frob\x{5c}x{1b}'"),
    escaped("an option", "explore log p0 --se␛ctors 4", r"error: unexpected argument '--se\x{1b}ctors' found"),
    escaped("an option with a value", "explore log p0 --fi␊rst=4", r"'--fi\x{a}rst'"),
    escaped("a short option", "explore log p0 -␛", "error: unexpected argument '-"),
    escaped("a number", "explore log p0 --sectors 4␊", r"error: invalid value '4\x{a}' for '--sectors <N>'"),
    escaped("a number after a sign", "explore log p0 --sectors=4␛", r"error: invalid value '4\x{1b}' for '--sectors <N>'"),
    escaped("a file too many", "images log p␊0 --sectors 4", r"'p\x{a}0'"),
    escaped("a value of a flag", "explore log p0 --sectors 4 --first=␛", "error: "),
    escaped("nothing to escape", "frob", "error: unrecognized subcommand 'frob'"),
    Row("a word that isn't UTF-8", "fr\udcffob", {}, status=2, error="error: the command line is not UTF-8"),
    Row("help, beside a word with a control character", "explore --help fr␛ob", {}, Printable("Usage: crashbpf explore")),
]

ROWS = [*MISSING, *FOLDERS, *EMPTY, *NO_TEXTS, *WRITTEN, *UNWRITTEN, *PARTLY_WRITTEN, *REFUSED, *SILENT, *ESCAPED]
