"""The designs of examples/: their logs, their checkers and their reports, compared byte by byte."""
from designs import (
    DESIGNS,
    EXAMPLES,
    FORGOTTEN,
    IN_WORDS,
    JOURNAL_WRONG,
    JUDGES,
    LOGS,
    NEW,
    RECORDS,
    SLOTS,
    checker_of,
    count,
    data,
    folder_of,
    page,
    pages,
)
from model import Run, explored, shown
from notation import Row, explore, verified


def design(name, which, checker, options, report, status):
    """A run of a design's log by one of its checkers; `report` is a file of examples/, or bytes."""
    wanted = report if isinstance(report, bytes) else data(EXAMPLES / report)
    content = data(LOGS / which)
    return explore(name, options, content, data(EXAMPLES / checker), wanted, status)


TWO_SLOTS = "--sectors 4 --bound 2 --tears"
TWO_DEPART = "--sectors 8 --bound 2 --tears"
PAGES = "--sectors 24 --by write"
WRONG_BY_C = data(EXAMPLES / "two_slots/wrong.report").replace(b"slots 39 budget 87", b"slots 42 budget 111")

REPORTS = [
    design("two_slots, right", "two_slots/right.log", "two_slots/checker.bpf", TWO_SLOTS, "two_slots/right.report", 0),
    design("two_slots, wrong", "two_slots/wrong.log", "two_slots/checker.bpf", TWO_SLOTS, "two_slots/wrong.report", 1),
    design("two_slots, by the checker in C", "two_slots/wrong.log", "two_slots/checker_c.bpf", TWO_SLOTS, WRONG_BY_C, 1),
    design("journal, right", "journal/right.log", "journal/checker.bpf", TWO_DEPART, "journal/right.report", 0),
    design("journal, wrong", "journal/wrong.log", "journal/checker.bpf", "--sectors 8 --bound 1", "journal/wrong.report", 1),
    design("pages, right", "pages/right.log", "pages/checker.bpf", f"{PAGES} --bound 2 --tears", "pages/right.report", 0),
    design("pages, wrong", "pages/wrong.log", "pages/checker.bpf", PAGES, "pages/wrong.report", 1),
    design(
        "pages, wrong, by sector",
        "pages/wrong.log",
        "pages/checker.bpf",
        "--sectors 24 --bound 3",
        "pages/wrong_by_sector.report",
        0,
    ),
    # none of the checkers takes more than 62 steps on any image here
    design(
        "two_slots, wrong, within 62 steps",
        "two_slots/wrong.log",
        "two_slots/checker.bpf",
        f"{TWO_SLOTS} --checked 62",
        data(EXAMPLES / "two_slots/wrong.report").replace(b"budget 87", b"limit 62"),
        1,
    ),
    design(
        "two_slots, wrong, first",
        "two_slots/wrong.log",
        "two_slots/checker.bpf",
        f"{TWO_SLOTS} --first",
        b"crash report 2\n"
        b"sectors 4 entries 12 cuts all bound 2 tears yes first yes\n"
        b"program 0 slots 39 budget 87\n"
        b"image 18 cut 2 program 0 answer 1 codes 1 choice 0.0:drop\n"
        b"images 823 first 18\n",
        1,
    ),
]

# What examples/README.md shows of two_slots/wrong.log

WRONG_SURVEY = """\
cut 0 epoch 0 marks 0 volatile 0 images 1
cut 1 epoch 0 marks 0 volatile 1 images 16
cut 2 epoch 0 marks 0 volatile 2 images 256
cut 3 epoch 1 marks 0 volatile 0 images 1
cut 4 epoch 1 marks 1 volatile 0 images 1
cut 5 epoch 1 marks 1 volatile 1 images 16
cut 6 epoch 1 marks 1 volatile 2 images 256
cut 7 epoch 2 marks 1 volatile 0 images 1
cut 8 epoch 2 marks 2 volatile 0 images 1
cut 9 epoch 2 marks 2 volatile 1 images 16
cut 10 epoch 2 marks 2 volatile 2 images 256
cut 11 epoch 3 marks 2 volatile 0 images 1
cut 12 epoch 3 marks 3 volatile 0 images 1
total 823
"""


# Slot 1 says commit 3, whose payload arrived with its first 64 bytes alone, or with its last 64.
BEFORE_PAYLOAD = SLOTS[2] + SLOTS[3] + b"\xa2" * 512
IMAGE_567 = BEFORE_PAYLOAD + b"\xa3" * 64 + b"\xa1" * 448
IMAGE_574 = BEFORE_PAYLOAD + b"\xa1" * 448 + b"\xa3" * 64


# The header says three records, and the third isn't there.
IMAGE_17 = count(3) + RECORDS[1] + RECORDS[2] + bytes(2560)


# The header says commit 3, and the page that it names is that of commit 1.
IMAGE_18 = count(3) + bytes(7 * 512) + page(2) + page(1)

SHOWN = [
    Row(
        "two_slots, wrong, survey",
        f"images log {TWO_SLOTS}",
        {"log": data(LOGS / "two_slots/wrong.log")},
        WRONG_SURVEY,
    ),
    Row("two_slots, image 567", f"image log 567 {TWO_SLOTS}", {"log": data(LOGS / "two_slots/wrong.log")}, IMAGE_567),
    Row("two_slots, image 574", f"image log 574 {TWO_SLOTS}", {"log": data(LOGS / "two_slots/wrong.log")}, IMAGE_574),
    Row("pages, image 18", f"image log 18 {PAGES}", {"log": data(LOGS / "pages/wrong.log")}, IMAGE_18),
    Row("journal, image 17", "image log 17 --sectors 8 --bound 1", {"log": data(LOGS / "journal/wrong.log")}, IMAGE_17),
]


def written(which, run=None, first=False, stored=None):
    """The run of a log that was written entry by entry here; its report is the stored one, or that of its first failing
    image, and the model's."""
    run = run or DESIGNS[which]
    report = explored(run, [checker_of(which)], first)
    stored = stored or which
    if not first:
        assert report.encode() == data(EXAMPLES / f"{stored}.report"), f"{stored}.report isn't the model's"
    return explore(
        f"{stored}, written here{', first' if first else ''}",
        f"{run.options()}{' --first' if first else ''}",
        run.entries,
        data(EXAMPLES / f"{folder_of(which)}/checker.bpf"),
        report,
        0 if "failing 0" in report or "first none" in report else 1,
    )


def by_file(which):
    """This run, of the log's file."""
    status = 0 if which.endswith("right") else 1
    options, folder = DESIGNS[which].options(), folder_of(which)
    return design(f"{which}, by its file", f"{which}.log", f"{folder}/checker.bpf", options, f"{which}.report", status)


def in_c(which):
    """This run, by the checker in C."""
    about = JUDGES[folder_of(which)][0].encode()
    report = data(EXAMPLES / f"{which}.report").replace(about, IN_C[folder_of(which)].encode())
    status = 0 if which.endswith("right") else 1
    return design(f"{which}, in C", f"{which}.log", f"{folder_of(which)}/checker_c.bpf", DESIGNS[which].options(), report, status)


# The checkers in C of two designs.
IN_C = {"tree": "slots 54 budget 84", "double_write": "slots 75 budget 510"}


def mended(which, options):
    """A wrong version with the flushes that were forgotten, with other options too."""
    run = DESIGNS[which]
    run = Run(run.entries, run.sectors, flush=FORGOTTEN[which], **options)
    report = explored(run, [checker_of(which)])
    assert report.endswith(" failing 0 lines 0\n")
    checker = data(EXAMPLES / f"{folder_of(which)}/checker.bpf")
    return explore(f"{which}, mended, {run.options()}", run.options(), run.entries, checker, report, 0)


# of this run 729 images fail, as examples/README.md says
TORN_JOURNAL = explored(Run(JOURNAL_WRONG, 8, bound=2, tears=True), [checker_of("journal/wrong")])
assert TORN_JOURNAL.endswith("\nimages 1271 failing 729 lines 729\n")

# and of this one 8, the page lost in each
TORN_PAGES = explored(Run(pages(0), 24, bound=2, tears=True, by="write"), [checker_of("pages/wrong")])
assert TORN_PAGES.endswith("\nimages 823 failing 8 lines 8\n")

WRITTEN = [
    *(written(which) for which in DESIGNS),
    *(by_file(which) for which in NEW),
    *(in_c(which) for which in NEW if folder_of(which) in IN_C),
    *(mended(which, dict(bound=2, by=by)) for which in FORGOTTEN for by in ["sector", "write"]),
    *(mended(which, dict(bound=2, tears=True, by="write")) for which in FORGOTTEN),
    written("two_slots/right", first=True),
    written("journal/wrong", Run(JOURNAL_WRONG, 8, bound=2, tears=True), first=True),
    written("pages/wrong", Run(pages(0), 24, bound=3), stored="pages/wrong_by_sector"),
    design(
        "pages, wrong, torn",
        "pages/wrong.log",
        "pages/checker.bpf",
        f"{PAGES} --bound 2 --tears",
        TORN_PAGES.encode(),
        1,
    ),
    design("journal, wrong, torn", "journal/wrong.log", "journal/checker.bpf", TWO_DEPART, TORN_JOURNAL.encode(), 1),
]


def told(which, run, number):
    """An image of a log that was written entry by entry here, in words: by its number, and as a line of the report names it.
    Both print what is stored, which is the model's."""
    image = list(run.images())[number]
    stored = data(EXAMPLES / f"{which}.show")
    assert shown(run, image).encode() == stored, f"{which}.show isn't the model's"
    content = {"log": data(LOGS / f"{which}.log")}
    by_line = f"--cut {image.cut} --choice {image.choice()}"
    return [
        Row(f"{which}, image {number} in words", f"show log {number} {run.options()}", content, stored),
        Row(f"{which}, {by_line} in words", f"show log {by_line} {run.options()}", content, stored),
    ]


TOLD = [row for which, number in IN_WORDS.items() for row in told(which, DESIGNS[which], number)]

CHECKERS = [
    Row(
        f"{name}, assembled",
        "asm checker.s",
        {"checker.s": data(EXAMPLES / f"{name}.s")},
        data(EXAMPLES / f"{name}.bpf"),
    )
    for name in [f"{folder}/checker" for folder in JUDGES]
] + [
    verified("verify two_slots/checker", data(EXAMPLES / "two_slots/checker.bpf"), "accepted budget 87"),
    verified("verify two_slots/checker_c", data(EXAMPLES / "two_slots/checker_c.bpf"), "accepted budget 111"),
    verified("verify journal/checker", data(EXAMPLES / "journal/checker.bpf"), "accepted budget 144", 8),
    verified("verify pages/checker", data(EXAMPLES / "pages/checker.bpf"), "accepted budget 1026", 24),
    verified("verify tree/checker", data(EXAMPLES / "tree/checker.bpf"), "accepted budget 65", 8),
    verified("verify tree/checker_c", data(EXAMPLES / "tree/checker_c.bpf"), "accepted budget 84", 8),
    verified("verify double_write/checker", data(EXAMPLES / "double_write/checker.bpf"), "accepted budget 450", 12),
    verified("verify double_write/checker_c", data(EXAMPLES / "double_write/checker_c.bpf"), "accepted budget 510", 12),
]

ROWS = [*REPORTS, *SHOWN, *WRITTEN, *TOLD, *CHECKERS]
