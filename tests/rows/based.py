"""Devices that held something before entry 0: reports, surveys, images, images in words, causes, cures and pages over what `--base`
gives, compared with the model (model.py); how long it may be, and what is refused."""
import re
from dataclasses import replace

from model import Run, explored, shown
from notation import SECTOR, D, Folder, Hole, Long, Row, S, W, explore, files, log, refused

from rows.browser import modelled as paged
from rows.flushes import modelled as cured
from rows.modelled import CHECKERS, LOGS, MOST, PROGRAMS, any_fails, count, modelled, noise
from rows.modelled import shown as imaged
from rows.why import causes

# Lengths of initial content: less than a sector, within the second one, all of the device.
LENGTHS = [1, 200, SECTOR - 1, SECTOR, SECTOR + 1, 3 * SECTOR // 2]


def with_base(row, run, name="based"):
    """A row over the initial content of its run."""
    held = f"{len(run.base)} bytes{'' if any(run.base) else ' of zeros'}"
    return replace(row, name=f"{name}: {row.name}, {held}", files={**row.files, "base": run.base})


def bases(name, sectors):
    """Initial content for a log: noise of all lengths, and sectors of zeros."""
    whole = noise(f"held by {name}", sectors)
    lengths = [it for it in LENGTHS if it < len(whole)]
    return [whole, *(whole[:it] for it in lengths), bytes(SECTOR)]


def runs():
    """Runs of the logs over initial content: by sector and by write, with and without tears, with each kind of cuts, by name."""
    number = 0
    for name, (sectors, entries) in LOGS.items():
        for bound, tears, by in [(1, True, "sector"), (2, False, "sector"), (1, True, "write"), (2, False, "write")]:
            for base in bases(name, sectors):
                cuts = ["all", "flush", "mark"][number % 3]
                number += 1
                run = Run(entries, sectors, cuts, bound, tears, by, base=base)
                if count(run) <= MOST:
                    yield f"{name} {run.options()}", run


ALL = list(runs())


def worked(run, workers, cache):
    """A report that several workers make, with a cache."""
    options = f"{run.options()} --workers {workers} --cache {cache}"
    row = explore(f"{options}", options, run.recorded, PROGRAMS, Long(lambda: explored(run, CHECKERS)), 1)
    return with_base(row, run, "based, by workers")


def explained(name, run):
    """Why the programs fail."""
    status = 1 if any_fails(run) else 0
    row = explore(f"why, {name}", run.options(), run.recorded, PROGRAMS[:2], Long(lambda: causes(run, CHECKERS[:2])), status)
    return with_base(replace(row, words=row.words.replace("explore ", "why ", 1)), run)


def in_words(run):
    """Some images in words."""
    images = list(run.images())
    return [
        with_base(Row(f"show {it.number}, {run.options()}", f"show log {it.number} {run.options()}", files(run.recorded), shown(run, it)), run)
        for it in images[:: max(len(images) // 5, 1)]
    ]


# What is torn, discarded or never written over what the device held.
TORN = Run([S(0, noise(1)), S(0, noise(2)), D(1, 1)], 4, bound=2, tears=True, base=noise("held", 4))
LARGE = Run([W(0, 3, 0xAA), D(1, 4), W(2, 2, 0xBB)], 8, bound=2, tears=True, by="write", base=noise("held", 8)[:3000])

# A log of four sectors, a program, and what the device held.
ONE = files([W(0, 1, 1)], PROGRAMS[0])


def held(content):
    return {**ONE, "base": content}


REFUSED = [
    refused("based: a byte more than the device has", "explore log p0 --sectors 4 --base base", held(bytes(4 * SECTOR + 1)), "refused 13 at 14"),
    refused("based: far more than the device has", "images log --sectors 1 --base base", held(bytes(2**20)), "refused 13 at 14"),
    refused("based: too long, before the log", "images log --sectors 1 --base base", {"log": b"", "base": bytes(SECTOR + 1)}, "refused 13 at 14"),
    refused("based: no file, after a program", "explore log p0 --sectors 4 --base other", ONE, "refused 14 at 2"),
    refused("based: no file, after two programs", "why log p0 p0 --sectors 4 --base other", ONE, "refused 14 at 3"),
    refused("based: a folder", "image log 0 --sectors 4 --base base", held(Folder()), "refused 14 at 1"),
    refused("based: no program, before no base", "explore log p1 --sectors 4 --base other", ONE, "refused 14 at 1"),
    refused("based: no log, before no base", "show other 0 --sectors 4 --base none", ONE, "refused 14 at 0"),
    refused("based: an option, before no base", "explore log p0 --sectors 0 --base other", ONE, "refused 13 at 1"),
    refused("based: too many programs, before it is too long", "explore log " + "p0 " * 9 + "--sectors 1 --base base", held(bytes(SECTOR + 1)), "refused 13 at 6"),
]

# As much as the device has, and an empty file, which says nothing.
FULL = Run([W(0, 1, 1)], 4, base=noise("full", 4))
NOTHING = Run([W(0, 1, 1)], 4)

ENDS = [
    with_base(explore("as long as the device", FULL.options(), FULL.recorded, PROGRAMS, explored(FULL, CHECKERS), 1), FULL),
    replace(
        explore("based: an empty file", f"{NOTHING.options()} --base base", NOTHING.recorded, PROGRAMS, explored(NOTHING, CHECKERS), 1),
        files={**files(NOTHING.recorded, *PROGRAMS), "base": b""},
    ),
]

# With `--sectors base` the device has as many sectors as its base.
def sized(row):
    """A row, with the word `base` in place of the number of sectors."""
    words = re.sub(r"--sectors \d+", "--sectors base", row.words)
    assert words != row.words, row.words
    return replace(row, name=f"sized: {row.name}", words=words)


SIZED_BASE = "refused 13 at 14", "with --sectors base the file of --base has 1 to 16384 whole sectors of 512 bytes, with --large to 33554432"
SIZED_LARGE = "with --sectors base and --large the file of --base has 1 to 33554432 whole sectors of 512 bytes"
UNSIZED = "--sectors base takes the size from the file of --base, and there is none"
UNSIZED_VERIFY = "verify takes a number for --sectors: it has no --base, by which 'base' would be one"


def unsized(name, words, content, error, *notes):
    return Row(f"sized: {name}", words, content, status=2, error=error, notes=notes or None)


SIZED = [
    *(sized(with_base(row, run)) for name, run in ALL[4::12] if len(run.base) == SECTOR * run.sectors for row in modelled(name, run)),
    *(sized(row) for row in in_words(TORN)),
    sized(with_base(cured("cure", TORN), TORN)),
    sized(with_base(replace(paged("torn", TORN), name="page"), TORN)),
    sized(with_base(explore("explore", FULL.options(), FULL.recorded, PROGRAMS, explored(FULL, CHECKERS), 1), FULL)),
    Row("sized: log", "log log --sectors base --base base", held(bytes(4 * SECTOR)), "entry 0 epoch 0 write sector 0 count 1\n"),
    Row("sized: the largest device", "images log --sectors base --base base --cuts flush", held(Hole(16384 * SECTOR)), "cut 1 epoch 0 marks 0 volatile 1 images 2\ntotal 2\n"),
    *(unsized(f"{bytes_} bytes", "explore log p0 --sectors base --base base", held(bytes(bytes_)), *SIZED_BASE) for bytes_ in (SECTOR + 1, 2 * SECTOR - 1, 4 * SECTOR + 511)),
    *(unsized(f"{bytes_} bytes", "explore log p0 --sectors base --base base", held(bytes(bytes_)), "refused 13 at 1", SIZED_BASE[1]) for bytes_ in (0, 1, SECTOR - 1)),
    *(unsized(f"{more} bytes more than the largest device", "images log --sectors base --base base", held(Hole(16384 * SECTOR + more)), *SIZED_BASE) for more in (1, SECTOR)),
    unsized("a base of large devices", "images log --sectors base --base base --large", held(Hole(16385 * SECTOR + 1)), "refused 13 at 14", SIZED_LARGE),
    unsized("no base", "explore log p0 --sectors base", ONE, "refused 13 at 1", UNSIZED),
    unsized("no base of verify", "verify p0 --sectors base", ONE, "refused 13 at 1", UNSIZED_VERIFY),
    unsized("no base, after a word", "images log --sectors=base --cuts x", ONE, "refused 13 at 7", "--cuts is all, flush or mark"),
    unsized("a base that can't be read", "explore log p0 --sectors base --base other", ONE, "refused 14 at 2"),
    unsized("a base that is shorter than the log", "images log --sectors base --base base", {"log": log([W(1, 1, 1)]), "base": bytes(SECTOR)}, "refused 9 at 0"),
]

ROWS = [
    *(with_base(row, run) for name, run in ALL[::3] for row in modelled(name, run)),
    *(with_base(row, run) for run in [TORN, LARGE] for row in imaged(run.options(), run, range(0, count(run), 7))),
    *(row for run in [TORN, LARGE] for row in in_words(run)),
    *(worked(run, workers, cache) for _name, run in ALL[::40] for workers, cache in [(1, 65536), (3, 0), (3, 16)] if count(run)),
    *(explained(name, run) for name, run in ALL[1::12]),
    *(with_base(cured(f"cure, {name}", run), run) for name, run in ALL[2::12] if count(run) <= 300),
    *(with_base(replace(paged(name, run), name=f"page, {name}"), run) for name, run in ALL[::24] if count(run) <= 300),
    *ENDS,
    *SIZED,
    *REFUSED,
]
