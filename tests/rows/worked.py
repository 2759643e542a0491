"""The worked examples of the documents, under their names there, and runs of small logs."""
import model
from model import Checker, Run
from notation import (
    D,
    F,
    FLUSH,
    FUA,
    M,
    Assembly,
    Row,
    W,
    code,
    explore,
    files,
    lines,
    log,
    named,
    program,
    refused,
    report,
    unexplored,
    verified,
)

GOOD = program("mov64 r0, 0; exit")
BAD = program("mov64 r0, 1; exit")
EXIT_ALONE = program("exit")

ONE_WRITE = [W(0, 1, 0xAA)]
TWO_EPOCHS = [W(0, 1, 0xAA), F, W(0, 1, 0xBB)]
PAIR = [W(0, 2, 0xAA)]
OVERWRITTEN = [W(0, 1, 0x11), W(0, 1, 0x22)]
FORCED = [W(0, 1, 0x11), W(0, 1, 0xBB, FUA)]
FLUSH_WITH_DATA = [W(0, 1, 0x33, FLUSH)]
DISCARDED = [W(0, 1, 0x44), D(0, 2)]
MARKED = [M("a")]

EMPTY_LOG = [
    explore(
        "empty_log_good",
        "--sectors 1",
        [],
        GOOD,
        report("""
            sectors 1 entries 0 cuts all bound 1 tears no first no
            program 0 slots 2 budget 2
            images 1 failing 0 lines 0
            """),
        0,
    ),
    explore(
        "empty_log_good, first",
        "--sectors 1 --first",
        [],
        GOOD,
        report("""
            sectors 1 entries 0 cuts all bound 1 tears no first yes
            program 0 slots 2 budget 2
            images 1 first none
            """),
        0,
    ),
    explore(
        "empty_log_bad",
        "--sectors 1",
        [],
        BAD,
        report("""
            sectors 1 entries 0 cuts all bound 1 tears no first no
            program 0 slots 2 budget 2
            image 0 cut 0 program 0 answer 1 codes - choice -
            images 1 failing 1 lines 1
            """),
        1,
    ),
    explore(
        "empty_log_bad, first",
        "--sectors 1 --first",
        [],
        BAD,
        report("""
            sectors 1 entries 0 cuts all bound 1 tears no first yes
            program 0 slots 2 budget 2
            image 0 cut 0 program 0 answer 1 codes - choice -
            images 1 first 0
            """),
        1,
    ),
    explore(
        "empty_log_bad, no cut",
        "--sectors 1 --cuts mark",
        [],
        BAD,
        report("""
            sectors 1 entries 0 cuts mark bound 1 tears no first no
            program 0 slots 2 budget 2
            images 0 failing 0 lines 0
            """),
        0,
    ),
    explore(
        "empty_log_bad, no cut, first",
        "--sectors 1 --cuts mark --first",
        [],
        BAD,
        report("""
            sectors 1 entries 0 cuts mark bound 1 tears no first yes
            program 0 slots 2 budget 2
            images 0 first none
            """),
        0,
    ),
    explore(
        "empty_log_bad, cuts before flushes",
        "--sectors 1 --cuts flush",
        [],
        BAD,
        report("""
            sectors 1 entries 0 cuts flush bound 1 tears no first no
            program 0 slots 2 budget 2
            image 0 cut 0 program 0 answer 1 codes - choice -
            images 1 failing 1 lines 1
            """),
        1,
    ),
    explore(
        "tears are printed where there is nothing to tear",
        "--tears --sectors 3 --bound 0 --checked 2",
        [],
        GOOD,
        report("""
            sectors 3 entries 0 cuts all bound 0 tears yes first no
            program 0 slots 2 limit 2
            images 1 failing 0 lines 0
            """),
        0,
    ),
]


def within(name, limit, checker, slots, line):
    """A program on the log without entries, within a limit of steps: its failing line, or none."""
    count = 1 if line else 0
    failing = f"image 0 cut 0 program 0 {line} choice -\n" if line else ""
    about = report(f"""
        sectors 1 entries 0 cuts all bound 0 tears no first no
        program 0 slots {slots} limit {limit}
        """)
    return explore(
        f"{name}, within {limit} steps",
        f"--sectors 1 --bound 0 --checked {limit}",
        [],
        checker,
        f"{about}{failing}images 1 failing {count} lines {count}\n",
        count,
    )


SIXTEEN = ",".join(str(number) for number in range(16))

ANSWER_1 = code("b700000001000000 9500000000000000")
ANSWER_0 = code("b700000000000000 9500000000000000")
MOVE_ALONE = code("b700000001000000")
MOVE_TO_R10 = code("b70a000000000000 9500000000000000")

LIMITS_OF_STEPS = [
    within("answer 1", 2, ANSWER_1, 2, "answer 1 codes -"),
    within("answer 0", 2, ANSWER_0, 2, None),
    within("answer 1", 1, ANSWER_1, 2, "out of steps"),
    within("answer 0", 0, ANSWER_0, 2, "out of steps"),
    within("no exit", 5, MOVE_ALONE, 1, "fault 80 slot 0"),
    within("exit alone", 5, code("9500000000000000"), 1, "fault 81 slot 0"),
    within("a move to r10", 5, MOVE_TO_R10, 2, "fault 88 slot 0"),
    # a fault at the last step within the limit is a fault
    within("no exit", 1, MOVE_ALONE, 1, "fault 80 slot 0"),
    within("no exit", 0, MOVE_ALONE, 1, "out of steps"),
    within("nested_loops", 29, named("nested_loops"), 9, None),
    within("nested_loops", 28, named("nested_loops"), 9, "out of steps"),
    within("report_codes", 162, named("report_codes"), 10, f"answer 1 codes {SIXTEEN}"),
    within("marks_passed", 2, named("marks_passed"), 2, None),
]

# 64 flush entries: two blocks of images, each image with its line
FLUSHES = [
    explore(
        "64 flushes",
        "--sectors 1 --bound 0 --checked 2",
        [F] * 64,
        BAD,
        report("""
            sectors 1 entries 64 cuts all bound 0 tears no first no
            program 0 slots 2 limit 2
            """)
        + "".join(f"image {it} cut {it} program 0 answer 1 codes - choice -\n" for it in range(65))
        + "images 65 failing 65 lines 65\n",
        1,
    ),
]


# What becomes of the one unit of torn_sector from image 2 on.
TORN_FATES = """
    drop head1 head2 head3 head4 head5 head6 head7 tail1 tail2 tail3 tail4 tail5 tail6 tail7
    """.split()


def torn(images):
    """The lines of torn_sector for these images, with the choices from `drop` on at image 2."""
    return "".join(f"image {it} cut 1 program 0 answer 1 codes - choice 0.0:{TORN_FATES[it - 2]}\n" for it in images)


TORN_SECTOR = [
    explore(
        "torn_sector",
        "--sectors 4 --tears",
        ONE_WRITE,
        named("ends_agree"),
        report("""
            sectors 4 entries 1 cuts all bound 1 tears yes first no
            program 0 slots 11 budget 9
            """)
        + torn(range(3, 17))
        + "images 17 failing 14 lines 14\n",
        1,
    ),
    explore(
        "torn_sector, within 9 steps",
        "--sectors 4 --bound 1 --tears --checked 9",
        ONE_WRITE,
        named("ends_agree"),
        report("""
            sectors 4 entries 1 cuts all bound 1 tears yes first no
            program 0 slots 11 limit 9
            """)
        + torn(range(3, 17))
        + "images 17 failing 14 lines 14\n",
        1,
    ),
    explore(
        "torn_sector, first",
        "--sectors 4 --tears --first",
        ONE_WRITE,
        named("ends_agree"),
        report("""
            sectors 4 entries 1 cuts all bound 1 tears yes first yes
            program 0 slots 11 budget 9
            image 3 cut 1 program 0 answer 1 codes - choice 0.0:head1
            images 17 first 3
            """),
        1,
    ),
    explore(
        "torn_sector, each choice",
        "--sectors 4 --bound 1 --tears --checked 2",
        ONE_WRITE,
        BAD,
        report("""
            sectors 4 entries 1 cuts all bound 1 tears yes first no
            program 0 slots 2 limit 2
            image 0 cut 0 program 0 answer 1 codes - choice -
            image 1 cut 1 program 0 answer 1 codes - choice -
            """)
        + torn(range(2, 17))
        + "images 17 failing 17 lines 17\n",
        1,
    ),
]

# A program that fails where the last byte of the sector is there and the first isn't: on its tails alone.
TAILS = [
    explore(
        "torn_sector, tails alone",
        "--sectors 4 --tears",
        ONE_WRITE,
        named("end_is_greater"),
        report("""
            sectors 4 entries 1 cuts all bound 1 tears yes first no
            program 0 slots 11 budget 9
            """)
        + torn(range(10, 17))
        + "images 17 failing 7 lines 7\n",
        1,
    ),
    explore(
        "torn_sector, tails alone, first",
        "--sectors 4 --tears --first",
        ONE_WRITE,
        named("end_is_greater"),
        report("""
            sectors 4 entries 1 cuts all bound 1 tears yes first yes
            program 0 slots 11 budget 9
            image 10 cut 1 program 0 answer 1 codes - choice 0.0:tail1
            images 17 first 10
            """),
        1,
    ),
    # over the write before: what the discard keeps of its end is zeros
    explore(
        "a torn discard",
        "--sectors 4 --cuts flush --tears",
        [W(0, 1, 0x44), F, D(0, 1)],
        [named("first_byte"), named("end_is_greater")],
        report("""
            sectors 4 entries 3 cuts flush bound 1 tears yes first no
            program 0 slots 7 budget 5
            program 1 slots 11 budget 9
            image 0 cut 1 program 0 answer 68 codes - choice -
            """)
        + "".join(f"image {it} cut 1 program 0 answer 68 codes - choice 0.0:head{it - 1}\n" for it in range(2, 9))
        + "".join(f"image {it} cut 1 program 1 answer 1 codes - choice 0.0:tail{it - 8}\n" for it in range(9, 16))
        + "image 17 cut 3 program 0 answer 68 codes - choice 2.0:drop\n"
        + "".join(f"image {it} cut 3 program 1 answer 1 codes - choice 2.0:head{it - 17}\n" for it in range(18, 25))
        + "".join(f"image {it} cut 3 program 0 answer 68 codes - choice 2.0:tail{it - 24}\n" for it in range(25, 32))
        + "images 32 failing 30 lines 30\n",
        1,
    ),
]

SURVEYS = [
    Row(
        "two_epochs",
        "images log --sectors 4 --bound 1 --tears",
        files(TWO_EPOCHS),
        lines("""
            cut 0 epoch 0 marks 0 volatile 0 images 1
            cut 1 epoch 0 marks 0 volatile 1 images 16
            cut 2 epoch 1 marks 0 volatile 0 images 1
            cut 3 epoch 1 marks 0 volatile 1 images 16
            total 34
            """),
    ),
    Row("two_epochs, no cut", "images log --sectors 4 --cuts mark", files(TWO_EPOCHS), "total 0\n"),
    Row(
        "two_epochs, cuts before flushes",
        "images log --sectors 4 --cuts flush",
        files(TWO_EPOCHS),
        lines("""
            cut 1 epoch 0 marks 0 volatile 1 images 2
            cut 3 epoch 1 marks 0 volatile 1 images 2
            total 4
            """),
    ),
    Row(
        "pairs_of_drops",
        "images log --sectors 4 --bound 2 --tears --cuts flush",
        files(PAIR),
        "cut 1 epoch 0 marks 0 volatile 2 images 256\ntotal 256\n",
    ),
    Row(
        "a mark after a write",
        "images log --sectors 4 --cuts mark",
        files([W(0, 1, 0xAA), M("")]),
        "cut 2 epoch 0 marks 1 volatile 1 images 2\ntotal 2\n",
    ),
    Row(
        "three units, two departures",
        "images log --sectors 4 --bound 2 --tears --cuts flush",
        files([W(0, 3, 0xAA)]),
        "cut 1 epoch 0 marks 0 volatile 3 images 721\ntotal 721\n",
    ),
    Row("the log without entries", "images log --sectors 1", files([]), "cut 0 epoch 0 marks 0 volatile 0 images 1\ntotal 1\n"),
]

# pairs_of_drops: which choice has which number
PAIR_CHOICES = {
    0: "-",
    1: "0.0:drop",
    8: "0.0:head7",
    9: "0.0:tail1",
    15: "0.0:tail7",
    16: "0.1:drop",
    23: "0.1:head7",
    24: "0.1:tail1",
    30: "0.1:tail7",
    31: "0.0:drop,0.1:drop",
    32: "0.0:drop,0.1:head1",
    39: "0.0:drop,0.1:tail1",
    46: "0.0:head1,0.1:drop",
    151: "0.0:tail1,0.1:drop",
    255: "0.0:tail7,0.1:tail7",
}


def pair_report(codes, about, last, only=range(256), first="no"):
    """The report of pairs_of_drops in which each of these images fails with answer 1 and these codes."""
    choices = [image.choice() for image in Run(PAIR, cuts="flush", bound=2, tears=True).images()]
    for number, choice in PAIR_CHOICES.items():
        assert choices[number] == choice
    text = report(f"""
        sectors 4 entries 1 cuts flush bound 2 tears yes first {first}
        program 0 {about}
        """)
    text += "".join(f"image {it} cut 1 program 0 answer 1 codes {codes} choice {choices[it]}\n" for it in only)
    return text + last + "\n"


PAIR_OPTIONS = "--sectors 4 --cuts flush --bound 2 --tears"

PAIRS = [
    explore(
        "pairs_of_drops, each choice",
        PAIR_OPTIONS,
        PAIR,
        BAD,
        pair_report("-", "slots 2 budget 2", "images 256 failing 256 lines 256"),
        1,
    ),
    explore(
        "sixteen_codes",
        PAIR_OPTIONS,
        PAIR,
        named("report_codes"),
        pair_report(SIXTEEN, "slots 10 budget 162", "images 256 failing 256 lines 256"),
        1,
    ),
    explore(
        "sixteen_codes, within 162 steps",
        f"{PAIR_OPTIONS} --checked 162",
        PAIR,
        named("report_codes"),
        pair_report(SIXTEEN, "slots 10 limit 162", "images 256 failing 256 lines 256"),
        1,
    ),
    explore(
        "sixteen_codes, first",
        f"{PAIR_OPTIONS} --first",
        PAIR,
        named("report_codes"),
        pair_report(SIXTEEN, "slots 10 budget 162", "images 256 first 0", range(1), "yes"),
        1,
    ),
]


def overwritten_report(judge, about, wanted_lines, last):
    """The report of overwritten_sector by a program of 7 slots, which has these lines and ends in this one."""
    text = model.explored(Run(OVERWRITTEN, tears=True), [Checker(about, judge)])
    assert f"\n{wanted_lines}" in text and text.endswith(f"\n{last}\n")
    return text


USUAL = "--sectors 4 --bound 1 --tears"

# At the last cut each image has a line: first those where the second write is whole, then those where it isn't.
BYTE_64_LINES = lines("""
    image 33 cut 2 program 0 answer 17 codes - choice 1.0:drop
    image 34 cut 2 program 0 answer 17 codes - choice 1.0:head1
    image 35 cut 2 program 0 answer 34 codes - choice 1.0:head2
    image 36 cut 2 program 0 answer 34 codes - choice 1.0:head3
    image 37 cut 2 program 0 answer 34 codes - choice 1.0:head4
    image 38 cut 2 program 0 answer 34 codes - choice 1.0:head5
    image 39 cut 2 program 0 answer 34 codes - choice 1.0:head6
    image 40 cut 2 program 0 answer 34 codes - choice 1.0:head7
    image 41 cut 2 program 0 answer 17 codes - choice 1.0:tail1
    image 42 cut 2 program 0 answer 17 codes - choice 1.0:tail2
    image 43 cut 2 program 0 answer 17 codes - choice 1.0:tail3
    image 44 cut 2 program 0 answer 17 codes - choice 1.0:tail4
    image 45 cut 2 program 0 answer 17 codes - choice 1.0:tail5
    image 46 cut 2 program 0 answer 17 codes - choice 1.0:tail6
    image 47 cut 2 program 0 answer 34 codes - choice 1.0:tail7
    """)
FIRST_BYTE_LINES = lines("""
    image 33 cut 2 program 0 answer 17 codes - choice 1.0:drop
    image 34 cut 2 program 0 answer 34 codes - choice 1.0:head1
    image 35 cut 2 program 0 answer 34 codes - choice 1.0:head2
    image 36 cut 2 program 0 answer 34 codes - choice 1.0:head3
    image 37 cut 2 program 0 answer 34 codes - choice 1.0:head4
    image 38 cut 2 program 0 answer 34 codes - choice 1.0:head5
    image 39 cut 2 program 0 answer 34 codes - choice 1.0:head6
    image 40 cut 2 program 0 answer 34 codes - choice 1.0:head7
    image 41 cut 2 program 0 answer 17 codes - choice 1.0:tail1
    image 42 cut 2 program 0 answer 17 codes - choice 1.0:tail2
    image 43 cut 2 program 0 answer 17 codes - choice 1.0:tail3
    image 44 cut 2 program 0 answer 17 codes - choice 1.0:tail4
    image 45 cut 2 program 0 answer 17 codes - choice 1.0:tail5
    image 46 cut 2 program 0 answer 17 codes - choice 1.0:tail6
    image 47 cut 2 program 0 answer 17 codes - choice 1.0:tail7
    """)

# byte_64 sees zeros at cut 0, and where the first write is dropped or keeps too little: head1, tail1 to tail6. first_byte
# sees them at cut 0, and where the first write is dropped or keeps a tail.
NINE_ARE_GOOD = "images 48 failing 39 lines 39"


def overwritten_image(number, *parts, bound=1):
    """An image of overwritten_sector: its sector 0 has that many bytes of each of these."""
    sector = b"".join(bytes([byte]) * size for size, byte in parts)
    assert len(sector) == 512
    return Row(
        f"overwritten_sector, bound {bound}, image {number}",
        f"image log {number} --sectors 4 --bound {bound} --tears",
        files(OVERWRITTEN),
        sector + bytes(1536),
    )


OVERWRITTEN_SECTOR = [
    # at cut 1 over zeros
    overwritten_image(0, (512, 0)),
    overwritten_image(1, (512, 0x11)),
    overwritten_image(2, (512, 0)),
    overwritten_image(3, (64, 0x11), (448, 0)),
    overwritten_image(9, (448, 0x11), (64, 0)),
    overwritten_image(10, (448, 0), (64, 0x11)),
    overwritten_image(16, (64, 0), (448, 0x11)),
    # at cut 2, first with a first write that isn't whole
    overwritten_image(17, (512, 0x22)),
    overwritten_image(19, (512, 0x22)),
    overwritten_image(32, (512, 0x22)),
    overwritten_image(33, (512, 0x11)),
    overwritten_image(34, (64, 0x22), (448, 0x11)),
    overwritten_image(40, (448, 0x22), (64, 0x11)),
    overwritten_image(41, (448, 0x11), (64, 0x22)),
    overwritten_image(44, (256, 0x11), (256, 0x22)),
    overwritten_image(47, (64, 0x11), (448, 0x22)),
    # both are torn: 48 + 15 times the fate of the first, counted from 0, + that of the second
    overwritten_image(48 + 15 * 4 + 9, (256, 0x11), (128, 0), (128, 0x22), bound=2),
    overwritten_image(48 + 15 * 9 + 4, (256, 0x22), (128, 0), (128, 0x11), bound=2),
    overwritten_image(48 + 15 * 13 + 4, (256, 0x22), (256, 0x11), bound=2),
    overwritten_image(48 + 15 * 7 + 14, (64, 0x11), (448, 0x22), bound=2),
    overwritten_image(48 + 15 * 14 + 14, (64, 0), (448, 0x22), bound=2),
    refused("overwritten_sector, image 48", f"image log 48 {USUAL}", files(OVERWRITTEN), "refused 13 at 9"),
    Row(
        "overwritten_sector, survey",
        f"images log {USUAL}",
        files(OVERWRITTEN),
        lines("""
            cut 0 epoch 0 marks 0 volatile 0 images 1
            cut 1 epoch 0 marks 0 volatile 1 images 16
            cut 2 epoch 0 marks 0 volatile 2 images 31
            total 48
            """),
    ),
    explore(
        "overwritten_sector, byte_64",
        USUAL,
        OVERWRITTEN,
        named("byte_64"),
        overwritten_report(model.byte_64, "slots 7 budget 5", BYTE_64_LINES, NINE_ARE_GOOD),
        1,
    ),
    explore(
        "overwritten_sector, byte_64, within 9 steps",
        f"{USUAL} --checked 9",
        OVERWRITTEN,
        named("byte_64"),
        overwritten_report(model.byte_64, "slots 7 limit 9", BYTE_64_LINES, NINE_ARE_GOOD),
        1,
    ),
    explore(
        "overwritten_sector, first_byte",
        USUAL,
        OVERWRITTEN,
        named("first_byte"),
        overwritten_report(model.first_byte, "slots 7 budget 5", FIRST_BYTE_LINES, NINE_ARE_GOOD),
        1,
    ),
]

FORCED_WRITE_REPORT = lines("""
    image 1 cut 1 program 0 answer 17 codes - choice -
    image 3 cut 2 program 0 answer 187 codes - choice -
    image 4 cut 2 program 0 answer 187 codes - choice 0.0:drop
    images 5 failing 3 lines 3
    """)

FLUSH_WITH_DATA_REPORT = lines("""
    image 1 cut 1 program 0 answer 51 codes - choice -
    images 3 failing 1 lines 1
    """)

DISCARD_REPORT = lines("""
    image 1 cut 1 program 0 answer 68 codes - choice -
    images 3 failing 1 lines 1
    """)

LOST_DISCARD_REPORT = lines("""
    image 1 cut 1 program 0 answer 68 codes - choice -
    image 5 cut 2 program 0 answer 68 codes - choice 1.0:drop
    images 7 failing 2 lines 2
    """)

MARKS_REPORT = lines("""
    image 1 cut 1 program 0 answer 1 codes - choice -
    images 2 failing 1 lines 1
    """)

MARK_CUT_REPORT = lines("""
    image 0 cut 1 program 0 answer 1 codes - choice -
    images 1 failing 1 lines 1
    """)

# name, cuts, bound, log, program, its slots and its budget, the report from its fourth line on
CHECKED_AND_UNCHECKED = [
    ("forced_write", "all", 1, FORCED, "first_byte", 7, 5, FORCED_WRITE_REPORT),
    ("flush_with_data", "all", 1, FLUSH_WITH_DATA, "first_byte", 7, 5, FLUSH_WITH_DATA_REPORT),
    ("discard", "all", 0, DISCARDED, "first_byte", 7, 5, DISCARD_REPORT),
    ("discard, which may be lost", "all", 1, DISCARDED, "first_byte", 7, 5, LOST_DISCARD_REPORT),
    ("marks", "all", 1, MARKED, "marks_passed", 2, 2, MARKS_REPORT),
    ("marks, cuts after marks", "mark", 1, MARKED, "marks_passed", 2, 2, MARK_CUT_REPORT),
    ("no cut", "mark", 1, [W(0, 1, 0x11)], "first_byte", 7, 5, "images 0 failing 0 lines 0\n"),
    ("sum_words", "all", 1, OVERWRITTEN, "sum_words", 22, 910, "images 6 failing 0 lines 0\n"),
]


def both_ways(name, cuts, bound, entries, checker, slots, budget, rest):
    """The row without a limit of steps, and the row with a limit that is the budget."""
    options = f"--sectors 4 --cuts {cuts} --bound {bound}"
    about = f"sectors 4 entries {len(entries)} cuts {cuts} bound {bound} tears no first no"
    status = 0 if "failing 0" in rest else 1
    unchecked = report(f"{about}\nprogram 0 slots {slots} budget {budget}\n") + rest
    checked = report(f"{about}\nprogram 0 slots {slots} limit {budget}\n") + rest
    return [
        explore(name, options, entries, named(checker), unchecked, status),
        explore(f"{name}, within {budget} steps", f"{options} --checked {budget}", entries, named(checker), checked, status),
    ]


IMAGES = [
    Row("flush_with_data, image 1", "image log 1 --sectors 4", files(FLUSH_WITH_DATA), b"\x33" * 512 + bytes(1536)),
    Row("flush_with_data, image 2", "image log 2 --sectors 4", files(FLUSH_WITH_DATA), bytes(2048)),
    Row("discard, image 5", "image log 5 --sectors 4", files(DISCARDED), b"\x44" * 512 + bytes(1536)),
    Row("discard, image 6", "image log 6 --sectors 4", files(DISCARDED), bytes(2048)),
    Row("two_epochs, image 19", "image log 19 --sectors 4 --tears", files(TWO_EPOCHS), b"\xaa" * 512 + bytes(1536)),
    Row(
        "two_epochs, image 20",
        "image log 20 --sectors 4 --tears",
        files(TWO_EPOCHS),
        b"\xbb" * 64 + b"\xaa" * 448 + bytes(1536),
    ),
    Row(
        "two_epochs, image 27",
        "image log 27 --sectors 4 --tears",
        files(TWO_EPOCHS),
        b"\xaa" * 448 + b"\xbb" * 64 + bytes(1536),
    ),
    Row("the log without entries, image 0", "image log 0 --sectors 1", files([]), bytes(512)),
    refused("two_epochs, no image after marks", "image log 0 --sectors 4 --cuts mark", files(TWO_EPOCHS), "refused 13 at 9"),
]

SEVERAL = [
    explore(
        "flush_with_data, two programs",
        "--sectors 4",
        FLUSH_WITH_DATA,
        [named("first_byte"), named("byte_64")],
        report("""
            sectors 4 entries 1 cuts all bound 1 tears no first no
            program 0 slots 7 budget 5
            program 1 slots 7 budget 5
            image 1 cut 1 program 0 answer 51 codes - choice -
            image 1 cut 1 program 1 answer 51 codes - choice -
            images 3 failing 1 lines 2
            """),
        1,
    ),
    explore(
        "flush_with_data, two programs, first",
        "--sectors 4 --first",
        FLUSH_WITH_DATA,
        [named("first_byte"), named("byte_64")],
        report("""
            sectors 4 entries 1 cuts all bound 1 tears no first yes
            program 0 slots 7 budget 5
            program 1 slots 7 budget 5
            image 1 cut 1 program 0 answer 51 codes - choice -
            image 1 cut 1 program 1 answer 51 codes - choice -
            images 3 first 1
            """),
        1,
    ),
    explore(
        "a write of zeros fails nowhere",
        "--sectors 4",
        [W(0, 1, 0x00)],
        named("first_byte"),
        report("""
            sectors 4 entries 1 cuts all bound 1 tears no first no
            program 0 slots 7 budget 5
            images 3 failing 0 lines 0
            """),
        0,
    ),
    explore(
        "65 sectors written",
        "--sectors 65 --bound 0",
        [W(0, 65, 0xAA)],
        named("first_byte"),
        report("""
            sectors 65 entries 1 cuts all bound 0 tears no first no
            program 0 slots 7 budget 5
            image 1 cut 1 program 0 answer 170 codes - choice -
            images 2 failing 1 lines 1
            """),
        1,
    ),
    unexplored(
        "each program is tested wholly before the next, the second verified",
        "--sectors 4",
        FLUSH_WITH_DATA,
        [named("first_byte"), EXIT_ALONE],
        "refused 50 at 0 of program 1",
    ),
    unexplored(
        "each program is tested wholly before the next, the first verified",
        "--sectors 4",
        FLUSH_WITH_DATA,
        [EXIT_ALONE, b""],
        "refused 50 at 0 of program 0",
    ),
    unexplored(
        "each program is tested wholly before the next, the second decoded",
        "--sectors 4",
        FLUSH_WITH_DATA,
        [named("first_byte"), b"", EXIT_ALONE],
        "refused 21 at 0 of program 1",
    ),
]

CUT_LOG = [
    Row(
        "cut_log, whole",
        "images log --sectors 4",
        files(log(ONE_WRITE)[:1536]),
        "cut 0 epoch 0 marks 0 volatile 0 images 1\ncut 1 epoch 0 marks 0 volatile 1 images 2\ntotal 3\n",
    ),
    unexplored("cut_log, 1,535 bytes", "--sectors 4", log(ONE_WRITE)[:1535], GOOD, "refused 5 at 0"),
    unexplored("cut_log, 511 bytes", "--sectors 4", log(ONE_WRITE)[:511], GOOD, "refused 1 at 0"),
    Row(
        "discard, 2,048 bytes",
        "images log --sectors 4 --bound 0 --cuts flush",
        files(log(DISCARDED)[:2048]),
        "cut 2 epoch 0 marks 0 volatile 3 images 1\ntotal 1\n",
    ),
    refused("discard, 2,047 bytes", "images log --sectors 4", files(log(DISCARDED)[:2047]), "refused 5 at 1"),
]

MANY = "--sectors 64 --bound 3 --tears"

REFUSED_LOGS = [
    unexplored("refused_logs, past the device", "--sectors 4", [W(3, 2, 0xAA)], GOOD, "refused 9 at 0"),
    refused("refused_logs, past the device, images", "images log --sectors 4", files([W(3, 2, 0xAA)]), "refused 9 at 0"),
    unexplored("refused_logs, too many images", MANY, [W(0, 64, 0xAA)], GOOD, "refused 12 at 1"),
    refused("refused_logs, too many images, images", f"images log {MANY}", files([W(0, 64, 0xAA)]), "refused 12 at 1"),
    refused("refused_logs, too many images, image", f"image log 0 {MANY}", files([W(0, 64, 0xAA)]), "refused 12 at 1"),
]

ONE_WORD_MORE = Assembly(named("sum_words").replace("jge r6, 64", "jge r6, 65"))
UNWRITTEN_BYTE = program("ldxdw r0, [r1+8]; jeq r0, 0, +1; stb [r10-1], 7; ldxb r0, [r10-1]; exit")
NULL_POINTER = program("mov64 r1, 0; call 1; ldxb r0, [r0+0]; exit")
JUMP_INTO_SECOND_HALF = program("ja +1; lddw r0, 0; exit")
LOCAL_CALL = program("mov64 r1, 20; callf +1; exit; mov64 r0, r1; add64 r0, 1; exit")
FOUR_FRAMES = program("callf +1; exit; " * 3 + "mov64 r0, 0; exit")
FIVE_FRAMES = program("callf +1; exit; " * 4 + "mov64 r0, 0; exit")
RECURSION = program("callf -1; exit")
STACK_OF_CALLER = program("mov64 r1, r10; callf +1; exit; ldxb r0, [r1-1]; exit")
REGISTERS_OF_CALL = program("mov64 r1, 5; callf +2; mov64 r0, r1; exit; mov64 r0, 0; exit")
REGISTERS_OF_CALLER = program("mov64 r6, 5; callf +1; exit; mov64 r0, r6; exit")
BYTES_OF_CALLER = program("stb [r10-1], 7; callf +1; exit; ldxb r0, [r10-1]; exit")

VERIFIED = [
    verified("verify first_byte", named("first_byte"), "accepted budget 5"),
    verified("verify byte_64", named("byte_64"), "accepted budget 5"),
    verified("verify ends_agree", named("ends_agree"), "accepted budget 9"),
    verified("verify marks_passed", named("marks_passed"), "accepted budget 2"),
    verified("verify report_codes", named("report_codes"), "accepted budget 162"),
    verified("verify sum_words", named("sum_words"), "accepted budget 910"),
    verified("verify nested_loops", named("nested_loops"), "accepted budget 54"),
    verified("verify masked_index", named("masked_index"), "accepted budget 40"),
    verified("sum_words, one word more", ONE_WORD_MORE, "refused 52 at 16"),
    verified("unwritten_byte", UNWRITTEN_BYTE, "refused 51 at 3"),
    verified("null_pointer", NULL_POINTER, "refused 52 at 2"),
    verified("jump_into_second_half", JUMP_INTO_SECOND_HALF, "refused 40 at 0"),
    verified("exit_alone", EXIT_ALONE, "refused 50 at 0"),
    verified("verify local_call", LOCAL_CALL, "accepted budget 6"),
    verified("four frames", FOUR_FRAMES, "accepted budget 8"),
    verified("a fifth frame", FIVE_FRAMES, "refused 44 at 6"),
    verified("recursion", RECURSION, "refused 44 at 0"),
    verified("the stack of a caller", STACK_OF_CALLER, "refused 50 at 3"),
    verified("registers after a call", REGISTERS_OF_CALL, "refused 50 at 2"),
    verified("registers of a caller", REGISTERS_OF_CALLER, "refused 50 at 3"),
    verified("bytes of a caller", BYTES_OF_CALLER, "refused 51 at 3"),
    unexplored("recursion, explored", "--sectors 4", [], RECURSION, "refused 44 at 0 of program 0"),
    unexplored("unwritten_byte, explored", "--sectors 4", [], UNWRITTEN_BYTE, "refused 51 at 3 of program 0"),
    unexplored("null_pointer, explored", "--sectors 4", [], NULL_POINTER, "refused 52 at 2 of program 0"),
    unexplored(
        "jump_into_second_half, explored",
        "--sectors 4",
        [],
        JUMP_INTO_SECOND_HALF,
        "refused 40 at 0 of program 0",
    ),
    unexplored("exit_alone, explored", "--sectors 4", [], EXIT_ALONE, "refused 50 at 0 of program 0"),
    explore(
        "exit_alone, within 5 steps",
        "--sectors 4 --checked 5",
        [],
        EXIT_ALONE,
        report("""
            sectors 4 entries 0 cuts all bound 1 tears no first no
            program 0 slots 1 limit 5
            image 0 cut 0 program 0 fault 81 slot 0 choice -
            images 1 failing 1 lines 1
            """),
        1,
    ),
    explore(
        "nested_loops on four sectors, within 28 steps",
        "--sectors 4 --checked 28",
        [],
        named("nested_loops"),
        report("""
            sectors 4 entries 0 cuts all bound 1 tears no first no
            program 0 slots 9 limit 28
            image 0 cut 0 program 0 out of steps choice -
            images 1 failing 1 lines 1
            """),
        1,
    ),
    explore(
        "nested_loops on four sectors, within 29 steps",
        "--sectors 4 --checked 29",
        [],
        named("nested_loops"),
        report("""
            sectors 4 entries 0 cuts all bound 1 tears no first no
            program 0 slots 9 limit 29
            images 1 failing 0 lines 0
            """),
        0,
    ),
    explore(
        "local_call, verified",
        "--sectors 4",
        [],
        LOCAL_CALL,
        report("""
            sectors 4 entries 0 cuts all bound 1 tears no first no
            program 0 slots 6 budget 6
            image 0 cut 0 program 0 answer 21 codes - choice -
            images 1 failing 1 lines 1
            """),
        1,
    ),
    explore(
        "four frames, verified",
        "--sectors 4",
        [],
        FOUR_FRAMES,
        report("""
            sectors 4 entries 0 cuts all bound 1 tears no first no
            program 0 slots 8 budget 8
            images 1 failing 0 lines 0
            """),
        0,
    ),
    explore(
        "a spilled pointer to the context",
        "--sectors 4",
        [],
        program("stxdw [r10-8], r1; ldxdw r2, [r10-8]; ldxdw r0, [r2+0]; exit"),
        report("""
            sectors 4 entries 0 cuts all bound 1 tears no first no
            program 0 slots 4 budget 4
            image 0 cut 0 program 0 answer 4 codes - choice -
            images 1 failing 1 lines 1
            """),
        1,
    ),
]

WIDE = [W(0, 3, 0xAA)]
BY_WRITE = "--sectors 4 --tears --by write"


def wide_image(number, *parts):
    """An image of wide_write: its sectors have that many bytes of each of these."""
    content = b"".join(bytes([byte]) * count for count, byte in parts)
    return Row(f"wide_write, image {number}", f"image log {number} {BY_WRITE}", files(WIDE), content)


def wide_line(number, choice):
    return f"image {number} cut 1 program 0 answer 170 codes - choice {choice}\n"


WIDE_WRITE = [
    explore(
        "wide_write",
        BY_WRITE,
        WIDE,
        named("first_byte"),
        report("""
            sectors 4 entries 1 cuts all bound 1 tears yes first no by write
            program 0 slots 7 budget 5
            """)
        + wide_line(1, "-")
        + "".join(wide_line(2 + eighths, f"0:head{eighths}") for eighths in range(1, 8))
        + "images 17 failing 8 lines 8\n",
        1,
    ),
    explore(
        "wide_write, first",
        f"{BY_WRITE} --first",
        WIDE,
        named("first_byte"),
        report("""
            sectors 4 entries 1 cuts all bound 1 tears yes first yes by write
            program 0 slots 7 budget 5
            """)
        + wide_line(1, "-")
        + "images 17 first 1\n",
        1,
    ),
    Row(
        "wide_write, images",
        f"images log {BY_WRITE}",
        files(WIDE),
        "cut 0 epoch 0 marks 0 volatile 0 images 1\ncut 1 epoch 0 marks 0 volatile 1 images 16\ntotal 17\n",
        notes=[],
    ),
    wide_image(0, (2048, 0)),
    wide_image(1, (1536, 0xAA), (512, 0)),
    wide_image(2, (2048, 0)),
    wide_image(3, (192, 0xAA), (1856, 0)),
    wide_image(5, (576, 0xAA), (1472, 0)),
    wide_image(9, (1344, 0xAA), (704, 0)),
    wide_image(10, (1344, 0), (192, 0xAA), (512, 0)),
    wide_image(16, (192, 0), (1344, 0xAA), (512, 0)),
    refused("wide_write, image 17", f"image log 17 {BY_WRITE}", files(WIDE), "refused 13 at 9"),
]

ROWS = [
    *EMPTY_LOG,
    *LIMITS_OF_STEPS,
    *FLUSHES,
    *TORN_SECTOR,
    *TAILS,
    *SURVEYS,
    *PAIRS,
    *OVERWRITTEN_SECTOR,
    *(row for about in CHECKED_AND_UNCHECKED for row in both_ways(*about)),
    *IMAGES,
    *SEVERAL,
    *WIDE_WRITE,
    *CUT_LOG,
    *REFUSED_LOGS,
    *VERIFIED,
]
