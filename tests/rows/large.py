"""Large devices and logs, which `--large` allows: on both sides of their limits, and the same answers as without it on small ones."""
from dataclasses import replace
from math import comb

from model import Checker, Run, entry_line, explored, mix, shown
from notation import SECTOR, D, F, Hole, Long, M, Row, S, W, explore, files, lines, log, program, refused, verified

from rows.modelled import noise
from rows.notes import FEWER, GOOD, PAST, noted
from rows.refusals import SECTORS_AS_INDEX

# The largest device, and the largest without `--large`.
MOST, USUAL = 1 << 25, 1 << 14

# Sectors of which neighbours are written, at the ends of both devices, in between, and after them.
PLACES = [0, 1, 62, 63, 64, 65, 127, 128, USUAL - 1, USUAL, USUAL + 1, MOST // 2, MOST - 65, MOST - 64, MOST - 1, MOST]

# Answers the sum of the mixes of these sectors.
MIXES = program("mov64 r6, 0; " + "".join(f"mov64 r1, {it}; call 6; add64 r6, r0; " for it in PLACES) + "mov64 r0, r6; exit")
SLOTS = 3 * len(PLACES) + 3


def mixes(image):
    return sum(mix(image.sector(it)) for it in PLACES if it < image.run.sectors) % 2**64, ()


CHECKER = Checker(f"slots {SLOTS} budget {SLOTS}", mixes)

ENTRIES = [
    S(0, noise("large 0", 2)),
    S(62, noise("large 1", 4)),
    F,
    S(MOST - 66, noise("large 2", 4)),
    S(USUAL - 1, noise("large 3", 3)),
    D(63, 2),
    M("written"),
    S(MOST - 1, noise("large 4")),
    D(MOST - 65, 65),
    S(MOST - 64, noise("large 5")),
]

RUNS = [
    Run(ENTRIES[:-2], MOST, "all", 1),
    Run(ENTRIES[:-2], MOST, "flush", 2),
    Run(ENTRIES, MOST, "flush", 1, True),
    Run(ENTRIES, MOST, "all", 2, False, "write"),
    Run(ENTRIES, MOST, "mark", 1, True, "write"),
]

# Writes about byte 2^32 of a device, and of its last sectors.
ENDS = Run([S((1 << 23) - 1, noise("4 GiB", 2)), S(MOST - 2, noise("16 GiB", 2))], MOST, "all", 1)

# What stood on a device before, which is larger than any without `--large`.
BASED = Run([S(USUAL - 1, noise("over", 2)), D(USUAL + 6, 1)], USUAL + 8, bound=1, tears=True, base=noise("held", USUAL + 7))


def reported(run, more=""):
    row = explore(
        f"large: {run.options()}{more}",
        f"{run.options()} --large{more}",
        run.recorded,
        MIXES,
        Long(lambda: explored(run, [CHECKER])),
        1,
    )
    return replace(row, files={**row.files, "base": run.base}) if run.base else row


def surveyed(run):
    return Row(f"large: images {run.options()}", f"images log {run.options()} --large", files(run.recorded), Long(run.survey))


def listed(run):
    """Entries as `log` lists them, for the largest device without being asked."""
    text = "".join(f"{entry_line(run, number)}\n" for number in range(len(run.entries)))
    return Row("large: log, of the largest device", "log log --large", files(run.recorded), text)


def in_words(run, number):
    image = next(it for it in run.images() if it.number == number)
    row = Row(
        f"large: show {number} {run.options()}", f"show log {number} {run.options()} --large", files(run.recorded), Long(lambda: shown(run, image))
    )
    return replace(row, files={**row.files, "base": run.base}) if run.base else row


def whole(run, number):
    image = next(it for it in run.images() if it.number == number)
    row = Row(
        f"large: image {number} {run.options()}",
        f"image log {number} {run.options()} --large",
        files(run.recorded),
        Long(image.content),
    )
    return replace(row, files={**row.files, "base": run.base})


# 262,144 units of data after two headers: a log of 128 MiB, of which each image but the first has 1 in its first byte.
HALF = 1 << 17
LONG_LOG = Long(lambda: log([W(0, HALF, 1), W(0, HALF, 2)]))
LAST = program(f"mov64 r1, {HALF - 1}; call 5; exit")

LOGS = [
    explore(
        "large: a log of 128 MiB",
        f"--sectors {HALF} --large --bound 0",
        LONG_LOG,
        LAST,
        f"crash report 2\nsectors {HALF} entries 2 cuts all bound 0 tears no first no\nprogram 0 slots 3 budget 3\n"
        "image 0 cut 0 program 0 answer 1 codes - choice -\nimages 3 failing 1 lines 1\n",
        1,
    ),
    refused("large: a log of 128 MiB, without --large", "images log --sectors 16384", files(LONG_LOG), "refused 10 at 0"),
    refused("large: 1 GiB of zeros", "images log --sectors 4 --large", {"log": Hole(1 << 30)}, "refused 2 at 0"),
    noted(
        "large: a byte more",
        "images log --sectors 4 --large",
        {"log": Hole((1 << 30) + 1)},
        "refused 10 at 0",
        "with --large a log has at most 1073741824 bytes, 65536 entries, and 2097152 sectors written or discarded (docs/LOG-FORMAT.md, Limits)",
        FEWER.replace("64 MiB", "1 GiB"),
    ),
    refused("large: 64 MiB of zeros and a byte, without --large", "images log --sectors 4", {"log": Hole((64 << 20) + 1)}, "refused 10 at 0"),
    refused("large: 64 MiB of zeros and a byte", "images log --sectors 4 --large", {"log": Hole((64 << 20) + 1)}, "refused 2 at 0"),
    refused("large: a unit too many", f"images log --sectors {MOST} --large", files([D(0, 1 << 21), D(0, 1)]), "refused 10 at 1"),
]

# How many sectors are lost or torn at most in one image, and how many images a run may have of which parts are judged.
BOUND, WIDE = 3, 2**63 - 1


def ways(sectors):
    """How many images a cut has at which that many sectors are on their way, with tears."""
    return sum(comb(sectors, lost) * 15**lost for lost in range(BOUND + 1))


def past(counts, most):
    """The first cut at which there are more images than that, where at cut i that many sectors are in flight."""
    total = 0
    for cut, sectors in enumerate(counts):
        total += ways(sectors)
        if total > most:
            return cut
    raise ValueError("there are no more")


def uncounted(sizes):
    """Refusals of a log of discards of these sizes, one after the other, whose counts pass words of 64 bits."""
    counts = [sum(sizes[:it]) for it in range(len(sizes) + 1)]
    options = f"--sectors {MOST} --large --bound {BOUND} --tears"
    content = {**files([D(0, it) for it in sizes]), "p": GOOD}
    for words, most in (("images log", 2**24), ("images log --images", WIDE), ("explore log p", 2**24), ("explore log p --images 0..1", WIDE)):
        yield refused(f"large: {words}, of discards of {sizes}", f"{words} {options}", content, f"refused 12 at {past(counts, most)}")
    first, most = past(counts, 2**24), past(counts, WIDE)
    yield refused(f"large: an image, of discards of {sizes}", f"image log 0 {options}", content, f"refused 12 at {first}")
    yield refused(f"large: an image by number, of discards of {sizes}", f"image log 0 {options} --images", content, f"refused 12 at {most}")


# 320,087 sectors are the fewest whose count passes 2^64. Of 1,337,746 the count less whole 2^64 is the least, 56,882,055,229,848.
COUNTS = [row for it in ([1 << 21], [320087], [320086, 1], [1337746], [9, 20, 30, 1337687], [250000, 4000, 1843152]) for row in uncounted(it)]

DEVICES = [
    noted("large: no sectors", "images log --sectors 0 --large", {}, "refused 13 at 1", "with --large --sectors is 1 to 33554432"),
    noted(
        "large: too many sectors",
        f"images log --sectors {MOST + 1} --large",
        files(ENTRIES),
        "refused 13 at 1",
        "with --large --sectors is 1 to 33554432",
    ),
    noted(
        "large: too many sectors without --large",
        f"images log --sectors {USUAL + 1}",
        files(ENTRIES),
        "refused 13 at 1",
        "--sectors is 1 to 16384, with --large to 33554432",
    ),
    noted(
        "large: no device holds it",
        f"images log --sectors {MOST} --large",
        files([W(MOST - 1, 2, 1)]),
        "refused 9 at 0",
        PAST,
        "no device of at most 33554432 sectors holds this log",
    ),
    noted(
        "large: the largest device is needed",
        f"images log --sectors {MOST - 1} --large",
        files([W(MOST - 1, 1, 1)]),
        "refused 9 at 0",
        PAST,
        f"entry 0 epoch 0 write sector {MOST - 1} count 1",
        f"--sectors {MOST} is the least that holds this log",
    ),
    refused("large: longer than the device", "images log --sectors 1 --large --base base", {**files([F]), "base": bytes(SECTOR + 1)}, "refused 13 at 14"),
    refused("large: on one file alone", "asm s --large", {"s": "exit\n"}, None),
]


def verified_large(name, text, answer, sectors):
    row = verified(f"large: {name}", text, answer, sectors)
    return replace(row, words=f"{row.words} --large")


VERIFIED = [
    verified_large("verify, the largest device", GOOD, "accepted budget 2", MOST),
    verified_large("verify, one more sector", GOOD, "refused 13 at 1", MOST + 1),
    verified_large("verify, none", GOOD, "refused 13 at 1", 0),
    verified_large("verify, the number of sectors as index, 511", SECTORS_AS_INDEX, "accepted budget 8", 511),
    verified_large("verify, the number of sectors as index, 65,535", SECTORS_AS_INDEX, "refused 52 at 5", 65535),
    verified_large("verify, the number of sectors as index, past the offsets of a sector", SECTORS_AS_INDEX, "refused 54 at 4", 65536),
    verified_large("verify, the number of sectors as index, the largest device", SECTORS_AS_INDEX, "refused 54 at 4", MOST),
]

# Answers the last byte of the last sector, whose number it is told of.
LAST_BYTE = program("ldxdw r1, [r1+0]; sub64 r1, 1; call 1; jne r0, 0, +2; mov64 r0, 0; exit; ldxb r0, [r0+511]; exit")
AN_IMAGE = "with --large an image has 1 to 33554432 whole sectors of 512 bytes (docs/COMMANDS.md, Commands)"


def checked(name, image, sectors, answer):
    """A run on an image of that many sectors, in whose last sector a byte is no zero."""
    steps = f"""
    crash check 1
    sectors {sectors} epoch 0 marks 0
    program slots 8 limit 9
    step 3 slot 2 call 1; r0 sector {sectors - 1}+0; r1 unset
    step 4 slot 3 jne r0, 0, +2
    step 5 slot 6 ldxb r0, [r0+511]; r0 {answer}
    step 6 slot 7 exit
    steps 6
    answer {answer} codes -
    """
    return Row(f"large: check, {name}", "check p image --large --checked 9 --trace 4", {"p": LAST_BYTE, "image": image}, lines(steps), 1)


def no_image(name, size, told):
    return noted(
        f"large: check, {name}", "check p image --large", {"p": LAST_BYTE, "image": Hole(size)}, "refused 14 at 1", "image is no image", told, AN_IMAGE
    )


TRIED = [
    checked("a sector", bytes(SECTOR - 1) + b"\x07", 1, 7),
    checked("the largest image without it", Hole(USUAL * SECTOR - 1, b"\x07"), USUAL, 7),
    checked("a sector more", Hole((USUAL + 1) * SECTOR - 1, b"\x07"), USUAL + 1, 7),
    checked("an image of 512 MiB and a sector", Hole((1 << 29) + SECTOR - 1, b"\x07"), (1 << 20) + 1, 7),
    no_image("an image that is cut within a sector", USUAL * SECTOR + 3, "it has 8388611 bytes"),
    no_image("an empty image", 0, "it has 0 bytes"),
    Row(
        "large: check, what the verifier is told of a larger image",
        "check p image --large",
        {"p": GOOD, "image": Hole((USUAL + 1) * SECTOR)},
        f"crash check 1\nsectors {USUAL + 1} epoch 0 marks 0\nprogram slots 2 budget 2\nsteps 2\nanswer 0 codes -\n",
    ),
]

ROWS = [
    *(reported(run) for run in RUNS),
    reported(BASED),
    reported(RUNS[1], " --workers 3 --cache 64"),
    reported(Run(ENTRIES[:2], 80, "all", 2)),
    *(surveyed(run) for run in RUNS),
    listed(RUNS[0]),
    *(in_words(BASED, number) for number in (0, 3, 20)),
    *(in_words(ENDS, number) for number in (0, 2, 5, 8)),
    *(whole(BASED, number) for number in (1, 17)),
    *LOGS,
    *DEVICES,
    *COUNTS,
    *VERIFIED,
    *TRIED,
]
