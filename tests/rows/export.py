"""All images of a log as bytes, compared with the model, to the byte (docs/OUTPUT.md, The text of `export`)."""
import random

from export_model import exported, some_range, some_run
from model import Run
from notation import D, Row, W, files, log, refused
from rows.modelled import COMMITS, DISCARDED, MARKED, PAGED, TORN_OVER_TORN, count

RUNS = [
    Run([], sectors=1),
    Run([], sectors=2, base=b"\1"),
    Run(TORN_OVER_TORN, tears=True, bound=2),
    Run(DISCARDED, bound=1, tears=True),
    Run(DISCARDED, bound=1, base=b"\7" * 700),
    Run(MARKED, sectors=3, cuts="mark"),
    Run(MARKED, sectors=3, cuts="flush", flush=(0, 5, 2), first=1, last=6),
    Run(COMMITS, sectors=8, cuts="flush", bound=2),
    Run(PAGED, sectors=16, bound=1, tears=True, by="write"),
]
# Small logs with few different bytes, of which many images are the same.
SMALL = 60


def row(name, run, part=None):
    """A row of all images of a run, or of those from one number to before another."""
    option = "" if part is None else f" --images {part[0]}..{part[1]}"
    content = {**files(run.recorded), "base": run.base}
    return Row(f"export: {name}{option}", f"export log {run.options()}{option}", content, exported(run, *(part or (0, None))), notes=None)


def small():
    """Rows of random logs and options, each of all images and of a range of them."""
    chance = random.Random(1)
    for number in range(SMALL):
        run = some_run(chance)
        images = count(run)
        part = some_range(chance, images)
        if images <= 600:
            yield row(f"small log {number}", run)
        if images <= 600 and part[0] < part[1]:
            yield row(f"small log {number}", run, part)


LOG = files([W(0, 1, 1), W(1, 1, 2)])
WIDE = {"log": log([D(0, 3000)])}
REFUSED = [
    refused("export: a range past the images", "export log --sectors 4 --images 2..9", LOG, "refused 13 at 17"),
    refused("export: an empty range", "export log --sectors 4 --images 2..2", LOG, "refused 13 at 17"),
    refused("export: too many images", "export log --sectors 3000 --bound 3", WIDE, "refused 12 at 1"),
    refused("export: too many in a range", "export log --sectors 3000 --bound 3 --images 0..16777217", WIDE, "refused 13 at 17"),
    refused("export: no log", "export log --sectors 4", {}, "refused 14 at 0"),
    refused("export: a base that is too long", "export log --sectors 4 --base base", {**LOG, "base": bytes(2049)}, "refused 13 at 14"),
]

ROWS = [*(row(f"run {number}", run) for number, run in enumerate(RUNS)), *small(), *REFUSED]
