"""Small logs whose every image is compared: what each cut leaves open, all images, and runs of accepted programs on them with
and without checks (docs/CRASH-MODEL.md, docs/VERIFIER.md)."""
import model
from model import Checker, Run, explored, shown
from notation import DISCARD, FLUSH, FUA, MARK, SECTOR, Entry, F, M, Row, S, W, explore, files, lines, named, program, report

# All images. A log, its bound, whether writes may be torn, how many images there are, and some of them, worked out by hand:
# an image's number, its cut, and which bytes of it are what: sector, from, to, byte. All others are zeros.


def rising(sector, count, byte, flags=0):
    """A write whose sectors have this byte and the next ones."""
    return S(sector, b"".join(bytes([byte + place]) * SECTOR for place in range(count)), flags)


LOGS = {
    "two_epochs": (
        [W(0, 1, 0xAA), F, W(0, 1, 0xBB)],
        1,
        True,
        34,
        [
            (17, 2, [(0, 0, 512, 0xAA)]),
            (26, 3, [(0, 0, 448, 0xBB), (0, 448, 512, 0xAA)]),
            (33, 3, [(0, 0, 64, 0xAA), (0, 64, 512, 0xBB)]),
            (0, 0, []),
            (1, 1, [(0, 0, 512, 0xAA)]),
            (2, 1, []),
            (16, 1, [(0, 64, 512, 0xAA)]),
            (18, 3, [(0, 0, 512, 0xBB)]),
        ],
    ),
    "torn_sector": (
        [W(0, 1, 0xAA)],
        1,
        True,
        17,
        [(9, 1, [(0, 0, 448, 0xAA)]), (16, 1, [(0, 64, 512, 0xAA)])],
    ),
    "two torn sectors": (
        [rising(0, 2, 0xAA)],
        2,
        True,
        257,
        [
            (144, 1, [(0, 0, 448, 0xAA), (1, 0, 448, 0xAB)]),
            (256, 1, [(0, 64, 512, 0xAA), (1, 64, 512, 0xAB)]),
        ],
    ),
    "overwritten_sector": (
        [W(0, 1, 0x11), W(0, 1, 0x22)],
        1,
        True,
        48,
        [
            (0, 0, []),
            (1, 1, [(0, 0, 512, 0x11)]),
            (2, 1, []),
            (9, 1, [(0, 0, 448, 0x11)]),
            (17, 2, [(0, 0, 512, 0x22)]),
            (33, 2, [(0, 0, 512, 0x11)]),
            (41, 2, [(0, 0, 448, 0x11), (0, 448, 512, 0x22)]),
            (34, 2, [(0, 0, 64, 0x22), (0, 64, 512, 0x11)]),
        ],
    ),
    "both writes torn, and the first one lost": (
        [W(0, 1, 0x11), W(0, 1, 0x22)],
        2,
        True,
        273,
        [
            (49, 2, [(0, 0, 64, 0x22)]),
            (82, 2, [(0, 0, 256, 0x22)]),
            (110, 2, [(0, 0, 128, 0x22), (0, 128, 256, 0x11)]),
            # the head of the first and the tail of the second, and then both tails
            (117, 2, [(0, 0, 256, 0x11), (0, 384, 512, 0x22)]),
            (222, 2, [(0, 256, 384, 0x11), (0, 384, 512, 0x22)]),
        ],
    ),
    "discard": (
        [W(0, 1, 0x44), Entry(0, 2, DISCARD)],
        1,
        False,
        7,
        [
            (0, 0, []),
            (1, 1, [(0, 0, 512, 0x44)]),
            (2, 1, []),
            (3, 2, []),
            (4, 2, []),
            (5, 2, [(0, 0, 512, 0x44)]),
            (6, 2, []),
        ],
    ),
    "flush_with_data": ([W(0, 1, 0x33, FLUSH)], 1, False, 3, [(1, 1, [(0, 0, 512, 0x33)]), (2, 1, [])]),
    "forced_write": (
        [W(0, 1, 0x11), W(0, 1, 0xBB, FUA)],
        1,
        False,
        5,
        [(3, 2, [(0, 0, 512, 0xBB)]), (4, 2, [(0, 0, 512, 0xBB)])],
    ),
    "a write of three sectors, the second of which is lost": (
        [rising(1, 3, 0x50)],
        1,
        False,
        5,
        [(3, 1, [(1, 0, 512, 0x50), (3, 0, 512, 0x52)])],
    ),
}


def laid(parts):
    """Four sectors of zeros with these bytes."""
    content = bytearray(4 * SECTOR)
    for sector, start, end, byte in parts:
        content[SECTOR * sector + start : SECTOR * sector + end] = bytes([byte]) * (end - start)
    return bytes(content)


def all_images(name, entries, bound, tears, total, worked):
    """The bytes of each image, the worked ones as they were worked out, and these in words as well."""
    run = Run(entries, bound=bound, tears=tears)
    images = list(run.images())
    by_hand = {number: (cut, laid(parts)) for number, cut, parts in worked}
    if len(images) != total or any((images[it].cut, images[it].content()) != found for it, found in by_hand.items()):
        raise ValueError(f"the model and what was worked out by hand differ: {name}")
    log = files(entries)
    rows = [Row(f"small log {name}, how many images", f"images log {run.options()}", log, run.survey())]
    for image in images:
        words, number = f"{image.number} {run.options()}", image.number
        content = by_hand[number][1] if number in by_hand else image.content()
        rows.append(Row(f"small log {name}, image {number}", f"image log {words}", log, content))
        if number in by_hand:
            rows.append(Row(f"small log {name}, image {number} in words", f"show log {words}", log, shown(run, image)))
    return rows


# What cuts leave open: the entries of a log, how many volatile units, which epoch and how many marks each cut has, the cuts
# before a flush, the cuts after a mark, and the volatile units of the last cut as entry.sector.
CUTS = {
    "no entries": ([], [(0, 0, 0)], [0], [], []),
    "two_epochs": ([W(0, 1, 0), F, W(0, 1, 0)], [(0, 0, 0), (1, 0, 0), (0, 1, 0), (1, 1, 0)], [1, 3], [], ["2.0"]),
    "flush_with_data": ([W(0, 1, 0, FLUSH)], [(0, 0, 0), (1, 1, 0)], [0, 1], [], ["0.0"]),
    "the data of a flush entry, until the next one": (
        [W(0, 1, 0), W(1, 2, 0, FLUSH), W(3, 1, 0), W(2, 1, 0, FLUSH)],
        [(0, 0, 0), (1, 0, 0), (2, 1, 0), (3, 1, 0), (1, 2, 0)],
        [1, 3, 4],
        [],
        ["3.0"],
    ),
    "forced_write": ([W(0, 1, 0), W(0, 1, 0, FUA)], [(0, 0, 0), (1, 0, 0), (1, 0, 0)], [2], [], ["0.0"]),
    "a forced flush entry makes durable what stands before it": (
        [W(0, 1, 0), W(0, 1, 0, FLUSH | FUA)],
        [(0, 0, 0), (1, 0, 0), (0, 1, 0)],
        [1, 2],
        [],
        [],
    ),
    "discard, after a forced write": (
        [W(0, 1, 0), W(3, 1, 0, FUA), Entry(1, 2, DISCARD)],
        [(0, 0, 0), (1, 0, 0), (1, 0, 0), (3, 0, 0)],
        [3],
        [],
        ["0.0", "2.0", "2.1"],
    ),
    "marks, at each end and in a row": (
        [Entry(9, 0, MARK), W(0, 1, 0), M(""), M(""), Entry(2**64 - 1)],
        [(0, 0, 0), (0, 0, 1), (1, 0, 1), (1, 0, 2), (1, 0, 3), (1, 0, 3)],
        [5],
        [1, 3, 4],
        ["1.0"],
    ),
}


def survey(states, cuts):
    """What `images` prints of these cuts, with the bound 1."""
    text = "".join(
        f"cut {cut} epoch {epoch} marks {marks} volatile {volatile} images {volatile + 1}\n"
        for cut, (volatile, epoch, marks) in ((cut, states[cut]) for cut in cuts)
    )
    return text + f"total {sum(states[cut][0] + 1 for cut in cuts)}\n"


def cuts_of(name, entries, states, before_flush, after_mark, units):
    """Yields rows of a small log: its cuts of each kind, and which units are volatile at its end."""
    log, last = files(entries), len(entries)
    wanted = {"all": range(len(states)), "flush": before_flush, "mark": after_mark}
    for kind, cuts in wanted.items():
        yield Row(f"cuts of {name}: {kind}", f"images log --sectors 4 --cuts {kind}", log, survey(states, cuts))
    for unit in units:
        words = f"image log --sectors 4 --cut {last} --choice {unit}:drop"
        yield Row(f"cuts of {name}: unit {unit} is volatile at the end", words, log, bytes(4 * SECTOR))


# 1 + 64 + 2,016 + 41,664 choices of up to three of 64 sectors; with tears they are too many (rows/logs.py).
COUNTED = Row(
    "small log: up to three of 64 sectors are lost",
    "images log --sectors 64 --bound 3",
    files([W(0, 64, 1)]),
    lines("""
        cut 0 epoch 0 marks 0 volatile 0 images 1
        cut 1 epoch 0 marks 0 volatile 64 images 43745
        total 43746
        """),
)

CONTEXTS = explore(
    "small log: epochs and marks are counted",
    "--sectors 4 --bound 0 --tears",
    [W(0, 1, 0x11), F, M("x"), W(1, 1, 0x22)],
    named("epoch_and_marks"),
    report(f"""
        sectors 4 entries 4 cuts all bound 0 tears yes first no
        program 0 slots 5 budget 5
        image 2 cut 2 program 0 answer {1 << 32} codes - choice -
        image 3 cut 3 program 0 answer {1 << 32 | 1} codes - choice -
        image 4 cut 4 program 0 answer {1 << 32 | 1} codes - choice -
        images 5 failing 3 lines 3
        """),
    1,
)


# A sector of zeros, and 1,024 sectors of which each has one byte that isn't: at each place 1, and at each place 128. For each
# of these, helper 5 finds that it isn't zero, and helper 7 that it isn't the first one, whichever is named first. The answer
# counts the sectors of which one of them says otherwise.
BYTES = b"".join(bytes(place) + bytes([byte]) + bytes(511 - place) for byte in (1, 128) for place in range(512))

ONE_BYTE = explore(
    "small log: a change of one byte is seen, at each place",
    "--sectors 1025 --bound 0 --cuts flush",
    [S(1, BYTES)],
    program(
        "mov64 r6, 1; mov64 r7, 0; mov64 r1, 1024; call 3; jeq r0, 0, +13; mov64 r1, r6; call 5; or64 r7, r0; mov64 r1, r6; "
        "mov64 r2, 0; call 7; or64 r7, r0; mov64 r1, 0; mov64 r2, r6; call 7; or64 r7, r0; add64 r6, 1; ja -16; mov64 r0, r7; "
        "exit"
    ),
    report(f"""
        sectors 1025 entries 1 cuts flush bound 0 tears no first no
        program 0 slots 20 budget {1025 * 18}
        images 1 failing 0 lines 0
        """),
    0,
)


# Accepted programs on each image of overwritten_sector: a run without checks ends as one with every check does.


def sector_0(judge):
    """What a program answers that looks at sector 0 alone."""
    return lambda image: (judge(image.sector(0)), [])


def always(answer, codes=()):
    return lambda _image: (answer, list(codes))


def masked(sector):
    """Three turns of the index that the low bits of a byte are."""
    index = 0
    for _ in range(3):
        index = sector[index] & 7
    return index


def any_word(sector):
    """Returns all words of a sector, by or."""
    answer = 0
    for place in range(0, SECTOR, 8):
        answer |= int.from_bytes(sector[place : place + 8], "little")
    return answer


SUM_WORDS = (
    "mov64 r6, 0; mov64 r1, 0; call 1; jne r0, 0, +2; mov64 r0, 0; exit; mov64 r7, r0; mov64 r8, 0; mov64 r1, 64; call 3; "
    "jeq r0, 0, +9; jge r6, 64, +8; mov64 r2, r6; lsh64 r2, 3; mov64 r3, r7; add64 r3, r2; ldxdw r4, [r3+0]; or64 r8, r4; "
    "add64 r6, 1; ja -12; mov64 r0, r8; exit"
)
MASKED_INDEX = (
    "mov64 r1, 0; call 1; jne r0, 0, +2; mov64 r0, 0; exit; mov64 r7, r0; mov64 r6, 0; mov64 r1, 3; call 3; jeq r0, 0, +5; "
    "mov64 r3, r7; add64 r3, r6; ldxb r6, [r3+0]; and64 r6, 7; ja -8; mov64 r0, r6; exit"
)
END_IS_GREATER = (
    "mov64 r1, 0; call 1; jne r0, 0, +2; mov64 r0, 0; exit; ldxb r1, [r0+0]; ldxb r2, [r0+511]; mov64 r0, 0; jge r1, r2, +1; "
    "mov64 r0, 1; exit"
)
BYTES_OF_A_FRAME = (
    "stb [r10-1], 7; callf +4; ldxb r1, [r10-1]; lsh64 r0, 8; add64 r0, r1; exit; sth [r10-2], 513; ldxb r0, [r10-1]; exit"
)

# name: the program, its slots, its budget, and what it answers
ACCEPTED = {
    "empty_log_good": (program("mov64 r0, 0; exit"), 2, 2, always(0)),
    "empty_log_bad": (program("mov64 r0, 1; exit"), 2, 2, always(1)),
    "first_byte": (named("first_byte"), 7, 5, sector_0(lambda it: it[0])),
    "byte_64": (named("byte_64"), 7, 5, sector_0(lambda it: it[64])),
    "ends_agree": (named("ends_agree"), 11, 9, sector_0(lambda it: int(it[0] != it[511]))),
    "end_is_greater": (program(END_IS_GREATER), 11, 9, sector_0(lambda it: int(it[0] < it[511]))),
    "marks_passed": (named("marks_passed"), 2, 2, always(0)),
    "epoch_and_marks": (named("epoch_and_marks"), 5, 5, model.epoch_and_marks),
    "report_codes": (named("report_codes"), 10, 162, always(1, range(16))),
    "sum_words": (program(SUM_WORDS), 22, 910, sector_0(any_word)),
    "nested_loops": (named("nested_loops"), 9, 54, always(0)),
    "masked_index": (program(MASKED_INDEX), 17, 40, sector_0(masked)),
    "sectors_0_and_1": (named("sectors_0_and_1"), 20, 20, model.sectors_0_and_1),
    "whole_image": (named("whole_image"), 15, 780, model.whole_image),
    # sectors 13, 14 and 15 aren't there
    "three_heads": (named("three_heads"), 25, 23, always(0)),
    "spilled_pointer": (program("stxdw [r10-8], r1; ldxdw r2, [r10-8]; ldxdw r0, [r2+0]; exit"), 4, 4, always(4)),
    "local_call": (program("mov64 r1, 20; callf +1; exit; mov64 r0, r1; add64 r0, 1; exit"), 6, 6, always(21)),
    "four_frames": (program("callf +1; exit; " * 3 + "mov64 r0, 0; exit"), 8, 8, always(0)),
    "bytes_of_a_frame": (program(BYTES_OF_A_FRAME), 9, 9, always(2 << 8 | 7)),
    "least_by_minus_one": (program("lddw r0, 9223372036854775808; sdiv64 r0, -1; exit"), 4, 3, always(1 << 63)),
    "remainder_of_zero": (program("lddw r0, 9223372036854775808; mod64 r0, 0; exit"), 4, 3, always(1 << 63)),
    "signed_remainder": (program("mov64 r0, -13; smod64 r0, 3; exit"), 3, 3, always(2**64 - 1)),
    "half_remainder": (program("lddw r0, 6442450944; mod32 r0, 0; exit"), 4, 3, always(2147483648)),
    "big_order": (program("mov64 r0, 4660; be16 r0; exit"), 3, 3, always(13330)),
    "little_order": (program("lddw r0, 4294967296; le64 r0; exit"), 4, 3, always(4294967296)),
}

OVERWRITTEN = Run([W(0, 1, 0x11), W(0, 1, 0x22)], bound=1, tears=True)


def both_ways(name, text, slots, budget, judge):
    """The report of an accepted program, and that of a run with every check within its budget."""
    for way, options in [("budget", ""), ("limit", f" --checked {budget}")]:
        wanted = explored(OVERWRITTEN, [Checker(f"slots {slots} {way} {budget}", judge)])
        status = 0 if wanted.endswith("failing 0 lines 0\n") else 1
        words = f"{OVERWRITTEN.options()}{options}"
        yield explore(f"overwritten_sector, each image: {name}, {way}", words, OVERWRITTEN.entries, text, wanted, status)


ROWS = [
    *(row for name, about in LOGS.items() for row in all_images(name, *about)),
    *(row for name, about in CUTS.items() for row in cuts_of(name, *about)),
    COUNTED,
    CONTEXTS,
    ONE_BYTE,
    *(row for name, about in ACCEPTED.items() for row in both_ways(name, *about)),
]
