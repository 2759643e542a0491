"""Sizes near each limit: a body that answers 'no memory' to every large input passes every proof, and these rows see it.

What is large is made when its row is run.
"""
from itertools import chain

from model import Checker, Run, explored, one
from notation import (
    SECTOR,
    D,
    F,
    Long,
    M,
    Row,
    W,
    explore,
    files,
    header,
    lines,
    log,
    named,
    program,
    refused,
    report,
    unexplored,
    verified,
)

GOOD = program("mov64 r0, 0; exit")
BAD = program("mov64 r0, 1; exit")
EPOCH = program("ldxdw r0, [r1+8]; exit")


def head(about, *programs):
    """The lines of a report before its images."""
    return report(f"sectors {about}\n") + "".join(f"program {number} {it}\n" for number, it in enumerate(programs))


def survey_line(cut, epoch, marks, volatile, images):
    return f"cut {cut} epoch {epoch} marks {marks} volatile {volatile} images {images}\n"


def refused_everywhere(name, entries, options, error):
    """A log that is refused by each command that reads one."""
    content = files(entries, GOOD)
    return [
        refused(f"limit: {name}, images", f"images log {options}", content, error),
        refused(f"limit: {name}, image", f"image log 0 {options}", content, error),
        refused(f"limit: {name}, explore", f"explore log p0 {options}", content, error),
    ]


# Logs of 60 MiB and of 64 MiB: eight writes, the first seven of the whole device. The first and the last byte of each are
# its number, counted from 1; all else is zeros.

DEVICE = 16384
SECTORS_OF_60_MIB = 60 * 2048
SECTORS_OF_64_MIB = 64 * 2048


def rest(sectors):
    """How many sectors the eighth write has in a log of that many sectors, with nine of them for headers."""
    return sectors - 9 - 7 * DEVICE


def numbered(number, count):
    number = bytes([number])
    return header(0, count) + number + bytes(SECTOR * count - 2) + number


def long_log(sectors):
    return Long(lambda: log([*(numbered(it, DEVICE) for it in range(1, 8)), numbered(8, rest(sectors))]))


def last_image(sectors):
    """The image of the last cut: the eighth write over the seventh."""
    end = SECTOR * rest(sectors)
    eighth = b"\x08" + bytes(end - 2) + b"\x08"
    return eighth + bytes(SECTOR * DEVICE - end - 1) + b"\x07"


def long_survey(sectors):
    volatile = [DEVICE * cut for cut in range(8)] + [7 * DEVICE + rest(sectors)]
    text = "".join(survey_line(cut, 0, 0, units, units + 1) for cut, units in enumerate(volatile))
    return text + f"total {sum(volatile) + 9}\n"


LONG_REPORT = (
    head("16384 entries 8 cuts all bound 0 tears no first no", "slots 7 budget 5")
    + "".join(f"image {it} cut {it} program 0 answer {it} codes - choice -\n" for it in range(1, 9))
    + "images 9 failing 8 lines 8\n"
)


# Answers 1 where the last sector is zeros: before the first write, and where that one's last unit is dropped.
LAST_IS_ZERO = program("mov64 r1, 16383; call 5; exit")


def long_departures(sectors):
    images = 28 * DEVICE + 7 * DEVICE + rest(sectors) + 9
    return (
        head("16384 entries 8 cuts all bound 1 tears no first no", "slots 3 budget 3")
        + "image 0 cut 0 program 0 answer 1 codes - choice -\n"
        + "image 16385 cut 1 program 0 answer 1 codes - choice 0.16383:drop\n"
        + f"images {images} failing 2 lines 2\n"
    )


def long_rows(name, sectors):
    options = f"--sectors {DEVICE}"
    content = long_log(sectors)
    return [
        Row(f"limit: {name}, images", f"images log {options}", files(content), long_survey(sectors)),
        Row(f"limit: {name}, image", f"image log 8 {options} --bound 0", files(content), Long(lambda: last_image(sectors))),
        explore(f"limit: {name}, explore", f"{options} --bound 0", content, named("first_byte"), LONG_REPORT, 1),
        explore(f"limit: {name}, each unit departs", options, content, LAST_IS_ZERO, long_departures(sectors), 1),
    ]


LONG_LOGS = [*long_rows("a log of 60 MiB", SECTORS_OF_60_MIB), *long_rows("a log of 64 MiB", SECTORS_OF_64_MIB)]


# 262,144 units: a write of the last sector, and sixteen discards of what is left

UNITS = [W(DEVICE - 1, 1, 0x77)] + [D(0, DEVICE)] * 15 + [D(0, DEVICE - 1)]


def units_survey():
    volatile = [0] + [1 + DEVICE * number for number in range(16)] + [262144]
    text = "".join(survey_line(cut, 0, 0, units, units + 1) for cut, units in enumerate(volatile))
    return text + f"total {sum(volatile) + 18}\n"


MANY_UNITS = [
    Row("limit: 262,144 units, images", "images log --sectors 16384", files(UNITS), units_survey()),
    Row(
        "limit: 262,144 units, image",
        "image log 2 --sectors 16384",
        files(UNITS),
        Long(lambda: bytes(SECTOR * DEVICE)),
    ),
    Row(
        "limit: 262,144 units, the image of the write",
        "image log 1 --sectors 16384",
        files(UNITS),
        Long(lambda: bytes(SECTOR * (DEVICE - 1)) + b"\x77" * SECTOR),
    ),
    # at the last cut sector 0 is zeros, whichever unit departs
    explore(
        "limit: 262,144 units, explore",
        "--sectors 16384 --cuts flush",
        UNITS,
        named("first_byte"),
        head("16384 entries 17 cuts flush bound 1 tears no first no", "slots 7 budget 5") + "images 262145 failing 0 lines 0\n",
        0,
    ),
    # and at all others
    explore(
        "limit: 262,144 units, explore at all cuts",
        "--sectors 16384",
        UNITS,
        named("first_byte"),
        head("16384 entries 17 cuts all bound 1 tears no first no", "slots 7 budget 5") + "images 2228258 failing 0 lines 0\n",
        0,
    ),
    *refused_everywhere("262,145 units", [*UNITS, D(0, 1)], "--sectors 16384", "refused 10 at 17"),
]


# 65,536 entries

MOST_ENTRIES = 65536
FLUSHES = Long(lambda: log([F] * MOST_ENTRIES))
MARKS = Long(lambda: log([M("")] * MOST_ENTRIES))
LATE_WRITE = Long(lambda: log([M("")] * (MOST_ENTRIES - 1) + [W(0, 1, 0xAA)]))


def flushes_report():
    text = head("1 entries 65536 cuts all bound 1 tears no first no", "slots 2 budget 2")
    text += "".join(f"image {it} cut {it} program 0 answer {it} codes - choice -\n" for it in range(1, 65537))
    return text + "images 65537 failing 65536 lines 65536\n"


def marks_report():
    text = head("1 entries 65536 cuts mark bound 1 tears no first no", "slots 2 budget 2")
    text += "".join(f"image {it - 1} cut {it} program 0 answer {it} codes - choice -\n" for it in range(1, 65537))
    return text + "images 65536 failing 65536 lines 65536\n"


MANY_ENTRIES = [
    Row(
        "limit: 65,536 flushes, images",
        "images log --sectors 1",
        files(FLUSHES),
        Long(lambda: "".join(survey_line(it, it, 0, 0, 1) for it in range(65537)) + "total 65537\n"),
    ),
    explore("limit: 65,536 flushes, explore", "--sectors 1", FLUSHES, EPOCH, Long(flushes_report), 1),
    Row(
        "limit: 65,536 marks, images",
        "images log --sectors 1 --cuts mark",
        files(MARKS),
        Long(lambda: "".join(survey_line(it, 0, it, 0, 1) for it in range(1, 65537)) + "total 65536\n"),
    ),
    explore(
        "limit: 65,536 marks, explore",
        "--sectors 1 --cuts mark",
        MARKS,
        named("marks_passed"),
        Long(marks_report),
        1,
    ),
    explore(
        "limit: the last of 65,536 entries departs",
        "--sectors 1 --cuts flush --tears",
        LATE_WRITE,
        BAD,
        head("1 entries 65536 cuts flush bound 1 tears yes first no", "slots 2 budget 2")
        + "image 0 cut 65536 program 0 answer 1 codes - choice -\n"
        + "image 1 cut 65536 program 0 answer 1 codes - choice 65535.0:drop\n"
        + "".join(f"image {it + 1} cut 65536 program 0 answer 1 codes - choice 65535.0:head{it}\n" for it in range(1, 8))
        + "".join(f"image {it + 8} cut 65536 program 0 answer 1 codes - choice 65535.0:tail{it}\n" for it in range(1, 8))
        + "images 16 failing 16 lines 16\n",
        1,
    ),
    *refused_everywhere("65,537 entries", Long(lambda: log([F] * 65537)), "--sectors 1", "refused 10 at 0"),
]


# More than 65,536 images

# The last three units depart in the last 15*15*15 choices; of the fifteen fates head7 is number 7, counted from 0.
TORN_OPTIONS = "--sectors 16 --cuts flush --bound 3 --tears"
TORN_IMAGES = 1 + 16 * 15 + 120 * 15**2 + 560 * 15**3
THREE_HEADS = TORN_IMAGES - 15**3 + 7 * 15**2 + 7 * 15 + 7
THREE_TAILS = TORN_IMAGES - 1
HEADS_LINE = f"image {THREE_HEADS} cut 1 program 0 answer 1 codes - choice 0.13:head7,0.14:head7,0.15:head7\n"
TAILS_LINE = f"image {THREE_TAILS} cut 1 program {{}} answer 1 codes - choice 0.13:tail7,0.14:tail7,0.15:tail7\n"
assert TORN_IMAGES == 1_917_241 and THREE_HEADS == 1_915_553


def torn_image(number, part):
    """An image whose last three sectors have these bytes of what was written."""
    return Row(
        f"limit: one of 1,917,241 images, shown: {number}",
        f"image log {number} {TORN_OPTIONS}",
        files([W(0, 16, 0xAA)]),
        b"\xaa" * (SECTOR * 13) + part * 3,
    )


# More lines than 65,536: 1 + 25*15 + 300*225
MANY_LINES = Run([W(0, 25, 0xAA)], 25, "flush", 2, True)

# Some seconds for each of these runs, more on a slow machine.
LONG_RUN = 120

MANY_IMAGES = [
    explore(
        "limit: two of 1,917,241 images, the second the last",
        TORN_OPTIONS,
        [W(0, 16, 0xAA)],
        [named("three_heads"), named("three_tails")],
        head("16 entries 1 cuts flush bound 3 tears yes first no", "slots 25 budget 23", "slots 25 budget 23")
        + HEADS_LINE
        + TAILS_LINE.format(1)
        + f"images {TORN_IMAGES} failing 2 lines 2\n",
        1,
        LONG_RUN,
    ),
    explore(
        "limit: the last of 1,917,241 images, first",
        f"{TORN_OPTIONS} --first",
        [W(0, 16, 0xAA)],
        named("three_tails"),
        head("16 entries 1 cuts flush bound 3 tears yes first yes", "slots 25 budget 23")
        + TAILS_LINE.format(0)
        + f"images {TORN_IMAGES} first {THREE_TAILS}\n",
        1,
        LONG_RUN,
    ),
    torn_image(THREE_HEADS, b"\xaa" * 448 + bytes(64)),
    torn_image(THREE_TAILS, bytes(64) + b"\xaa" * 448),
    refused(
        "limit: past the last of 1,917,241 images",
        f"image log {TORN_IMAGES} {TORN_OPTIONS}",
        files([W(0, 16, 0xAA)]),
        "refused 13 at 9",
    ),
    explore(
        "limit: 67,876 lines",
        MANY_LINES.options(),
        MANY_LINES.entries,
        BAD,
        Long(lambda: explored(MANY_LINES, [Checker("slots 2 budget 2", one)])),
        1,
    ),
]


# 16,777,216 images: stretches of that many volatile units, each ended by a flush; two units may depart, torn or dropped

STRETCHES = [386, 22, 2, *[1] * 14, *[0] * 13]
MOST_IMAGES = 16777216
COUNT_OPTIONS = "--sectors 386 --cuts flush --bound 2 --tears"


def images_of(units):
    return 1 + 15 * units + 225 * units * (units - 1) // 2


STRETCHED = list(chain.from_iterable([D(0, units), F] for units in STRETCHES))
assert sum(images_of(units) for units in STRETCHES) + 1 == MOST_IMAGES


def stretched_survey():
    text = "".join(survey_line(2 * it + 1, it, 0, units, images_of(units)) for it, units in enumerate(STRETCHES))
    return text + survey_line(len(STRETCHED), len(STRETCHES), 0, 0, 1) + f"total {MOST_IMAGES}\n"


# Such a run with a mark after the write of the last stretch that has one, and a program that wants the write to be there after
# the mark: it isn't where it was dropped, or only a tail of it arrived.
MARK_PLACE = 2 * sum(1 for units in STRETCHES if units) - 1
MARKED_STRETCHES = [*STRETCHED[: MARK_PLACE - 1], W(0, 1, 0xAA), M("there"), *STRETCHED[MARK_PLACE:]]
NOT_THERE = program("""
    ldxdw r0, [r1+16]
    jeq r0, 0, +7
    mov64 r1, 0
    call 1
    jeq r0, 0, +4
    ldxb r1, [r0+0]
    mov64 r0, 1
    jeq r1, 0, +1
    mov64 r0, 0
    exit
    """)

MOST = [
    Row("limit: 16,777,216 images", f"images log {COUNT_OPTIONS}", files(STRETCHED), stretched_survey()),
    Row("limit: the last of 16,777,216 images", f"image log 16777215 {COUNT_OPTIONS}", files(STRETCHED), bytes(SECTOR * 386)),
    refused("limit: past the last of 16,777,216", f"image log 16777216 {COUNT_OPTIONS}", files(STRETCHED), "refused 13 at 9"),
    explore(
        "limit: 16,777,216 images, none of which fails",
        COUNT_OPTIONS,
        STRETCHED,
        GOOD,
        head("386 entries 60 cuts flush bound 2 tears yes first no", "slots 2 budget 2") + "images 16777216 failing 0 lines 0\n",
        0,
        LONG_RUN,
    ),
    explore(
        "limit: 16,777,216 images, first",
        f"{COUNT_OPTIONS} --first",
        STRETCHED,
        EPOCH,
        head("386 entries 60 cuts flush bound 2 tears yes first yes", "slots 2 budget 2")
        + f"image {images_of(386)} cut 3 program 0 answer 1 codes - choice -\nimages 16777216 first {images_of(386)}\n",
        1,
        LONG_RUN,
    ),
    *refused_everywhere("16,777,217 images", [*STRETCHED, F], COUNT_OPTIONS, "refused 12 at 61"),
    Row(
        "limit: 16,777,216 images, and one more with the flush of a cure",
        f"cure log p0 {COUNT_OPTIONS}",
        files(MARKED_STRETCHES, NOT_THERE),
        "crash cure 1\n"
        + lines(f"""
        sectors 386 entries 61 cuts flush bound 2 tears yes first no
        program 0 slots 10 budget 10
        program 0 failing 8 uncured 0
        round 1 flush before {MARK_PLACE} from {MARK_PLACE} failing 8
        refused 12 at 61
        """),
        1,
        seconds=LONG_RUN,
    ),
]


# Programs of 4,096 slots, and budgets near 1,000,000,000


def counted(turns, moves):
    """A loop of that many turns, that many moves after it, and an exit: a longest path of moves + 4 slots."""
    return program(f"mov64 r1, {turns}; call 3; jne r0, 0, -3; {'mov64 r0, 0; ' * moves}exit")


MOVES = program("mov64 r0, 0; " * 4095 + "exit")


def last_move(answer):
    """A program of 4,096 slots that answers by its last move."""
    return program("mov64 r0, 0; " * 4094 + f"mov64 r0, {answer}; exit")


SLOTS = [
    verified("limit: 4,096 slots", MOVES, "accepted budget 4096"),
    verified("limit: budget 999,293,881", counted(1048576, 949), "accepted budget 999293881"),
    verified("limit: a budget just too large", counted(1048576, 950), "refused 45 at 0"),
    verified("limit: budget 1,000,000,000", counted(999999, 996), "accepted budget 1000000000"),
    verified("limit: budget 1,000,000,001", counted(999000, 997), "refused 45 at 0"),
    verified("limit: 4,096 slots, budget 999,997,440", counted(244139, 4092), "accepted budget 999997440"),
    verified("limit: 4,096 slots, a budget just too large", counted(244140, 4092), "refused 45 at 0"),
    verified("limit: 4,095 jumps in a row", program("ja +0; " * 4095 + "exit"), "refused 50 at 4095"),
    verified("limit: 4,095 jumps back", program("mov64 r0, 0; exit; " + "ja -2; " * 4093 + "exit"), "accepted budget 2"),
    explore(
        "limit: a program of 4,096 slots with a loop",
        "--sectors 1",
        [],
        counted(244139, 4092),
        head("1 entries 0 cuts all bound 1 tears no first no", "slots 4096 budget 999997440") + "images 1 failing 0 lines 0\n",
        0,
    ),
    explore(
        "limit: eight programs of 4,096 slots",
        "--sectors 1",
        [],
        [last_move(answer) for answer in range(8)],
        head("1 entries 0 cuts all bound 1 tears no first no", *["slots 4096 budget 4096"] * 8)
        + "".join(f"image 0 cut 0 program {it} answer {it} codes - choice -\n" for it in range(1, 8))
        + "images 1 failing 1 lines 7\n",
        1,
    ),
    unexplored(
        "limit: the eighth program has a slot too much",
        "--sectors 1",
        [],
        [*[MOVES] * 7, bytes.fromhex("b700000000000000") * 4097],
        "refused 21 at 0 of program 7",
    ),
]

# 1,048,577 calls of `again`, three steps each, and an exit
TURNS = counted(1048576, 0)
ALL_STEPS = 3 * 1048577 + 1


def steps(limit, line):
    """Returns a row of a program that has that many steps, and the ending that its line says."""
    failing = f"image 0 cut 0 program 0 {line} choice -\n" if line else ""
    count = 1 if line else 0
    about = head("1 entries 0 cuts all bound 1 tears no first no", f"slots 4 limit {limit}")
    last = f"images 1 failing {count} lines {count}\n"
    return explore(f"limit: {limit} steps", f"--sectors 1 --checked {limit}", [], TURNS, about + failing + last, count)


STEPS = [
    steps(ALL_STEPS, None),
    steps(ALL_STEPS - 1, "out of steps"),
    steps(1000000000, None),
    explore(
        "limit: 10,000,000 steps of an endless loop",
        "--sectors 1 --checked 10000000",
        [],
        program("ja -1"),
        head("1 entries 0 cuts all bound 1 tears no first no", "slots 1 limit 10000000")
        + "image 0 cut 0 program 0 out of steps choice -\nimages 1 failing 1 lines 1\n",
        1,
    ),
]


# The largest device


def at_the_end(name, text, answer):
    """A program on the device of 16,384 sectors whose last one holds 0x11."""
    line = f"image 0 cut 1 program 0 answer {answer} codes - choice -\n" if answer else ""
    count = 1 if answer else 0
    slots = text.count("; ") + 1
    return explore(
        f"limit: the last of 16,384 sectors, {name}",
        "--sectors 16384 --bound 0 --cuts flush --checked 20",
        [W(DEVICE - 1, 1, 0x11)],
        program(text),
        head("16384 entries 1 cuts flush bound 0 tears no first no", f"slots {slots} limit 20")
        + f"{line}images 1 failing {count} lines {count}\n",
        count,
    )


LARGEST_WRITE = Long(lambda: log([W(0, DEVICE, 0x11)]))
COPIED = "mov64 r1, {at}; mov64 r2, r10; sub64 r2, 8; mov64 r3, 8; call 2; {then}exit"

LAST_SECTOR = [
    at_the_end("a byte", "mov64 r1, 16383; call 1; ldxb r0, [r0+511]; exit", 0x11),
    at_the_end("its address", "mov64 r1, 16383; call 1; exit", 3 * 2**32 + 1024 * 16383),
    at_the_end("the next one", "mov64 r1, 16384; call 1; exit", 0),
    at_the_end("zero", "mov64 r1, 16383; call 5; exit", 0),
    at_the_end("zero before it", "mov64 r1, 16382; call 5; exit", 1),
    at_the_end("zero after it", "mov64 r1, 16384; call 5; exit", 2),
    at_the_end("same", "mov64 r1, 16383; mov64 r2, 0; call 7; exit", 0),
    at_the_end("copied", COPIED.format(at=8388600, then="ldxdw r0, [r10-8]; "), 0x1111111111111111),
    at_the_end("copied, all there", COPIED.format(at=8388600, then=""), 0),
    at_the_end("copied, past the end", COPIED.format(at=8388601, then=""), 1),
    Row(
        "limit: the image of the largest device",
        "image log 0 --sectors 16384 --bound 0 --cuts flush",
        files([W(DEVICE - 1, 1, 0x11)]),
        Long(lambda: bytes(SECTOR * (DEVICE - 1)) + b"\x11" * SECTOR),
    ),
    explore(
        "limit: the last unit of the largest write",
        "--sectors 16384 --first",
        LARGEST_WRITE,
        program("mov64 r1, 16383; call 5; exit"),
        head("16384 entries 1 cuts all bound 1 tears no first yes", "slots 3 budget 3")
        + "image 0 cut 0 program 0 answer 1 codes - choice -\nimages 16386 first 0\n",
        1,
    ),
    explore(
        "limit: the last unit of the largest write departs",
        "--sectors 16384 --cuts flush",
        LARGEST_WRITE,
        program("mov64 r1, 16383; call 5; exit"),
        head("16384 entries 1 cuts flush bound 1 tears no first no", "slots 3 budget 3")
        + "image 16384 cut 1 program 0 answer 1 codes - choice 0.16383:drop\nimages 16385 failing 1 lines 1\n",
        1,
    ),
]

# The longest line: sixteen codes and an answer of 20 digits each, three departures
GREATEST = 2**64 - 1
LONGEST_LINE = [
    explore(
        "limit: the longest codes and choices",
        "--sectors 16384 --bound 3 --cuts flush",
        [D(0, 10), D(16300, 3), D(0, 0)],
        program("mov64 r1, -1; call 4; " * 16 + "mov64 r0, -1; exit"),
        Long(
            lambda: explored(
                Run([D(0, 10), D(16300, 3), D(0, 0)], 16384, "flush", 3),
                [Checker("slots 34 budget 34", lambda _image: (GREATEST, (GREATEST,) * 16))],
            )
        ),
        1,
    ),
]

ROWS = [
    *LONG_LOGS,
    *MANY_UNITS,
    *MANY_ENTRIES,
    *MANY_IMAGES,
    *MOST,
    *SLOTS,
    *STEPS,
    *LAST_SECTOR,
    *LONGEST_LINE,
]
