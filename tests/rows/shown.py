"""Images in words, by number and by cut and choice, compared with the model (docs/OUTPUT.md, The text of `show`)."""

from model import Run, shown
from notation import FLUSH, M, Row, S, W, files, refused
from rows.modelled import COMMITS, DISCARDED, MARKED, PAGED, TORN_OVER_TORN, noise

# More than 32 parts on their way, and a first flush far after.
MANY = [S(0, noise(1), FLUSH), S(0, noise(2, 40)), M("after")]

RUNS = [
    Run(TORN_OVER_TORN, tears=True, bound=2),
    Run(DISCARDED, bound=1, tears=True),
    Run(MARKED, sectors=3, cuts="mark"),
    Run(COMMITS, sectors=8, cuts="flush", bound=2),
    Run(MANY, sectors=64),
    Run(PAGED, sectors=16, tears=True, by="write"),
    Run(PAGED, sectors=16, bound=2),
    Run(MARKED, sectors=3, cuts="flush", flush=(0, 5, 2), first=1, last=6),
    Run(TORN_OVER_TORN, bound=2, flush=(1,), last=3),
]


def some(run):
    """Some of the images of a run: the first ones, and then every few."""
    images = list(run.images())
    return images[:3] + images[3 :: max(len(images) // 12, 1)]


def by_number(run, image):
    return Row(
        f"show {image.number} of {run.options()}",
        f"show log {image.number} {run.options()}",
        files(run.recorded),
        shown(run, image),
    )


def by_choice(command, run, image, told):
    return Row(
        f"{command} of cut {image.cut} and choice {image.choice()}, {run.options()}",
        f"{command} log --cut {image.cut} --choice {image.choice()} {run.options()}",
        files(run.recorded),
        told,
    )


SHOWN = [row for run in RUNS for image in some(run) for row in [by_number(run, image), by_choice("show", run, image, shown(run, image))]]

IMAGES = [by_choice("image", run, image, image.content()) for run in RUNS for image in some(run)]

# Two writes, of which the second is on its way at cut 2 alone; no tears.
LOG = files([W(0, 1, 1, FLUSH), W(1, 2, 2), W(0, 1, 3, FLUSH)])


def no_choice(why, words):
    return [refused(f"{command}: {why}", f"{command} log --sectors 4 {words}", LOG, "refused 13 at 11") for command in ["image", "show"]]


REFUSED = [
    *no_choice("a part that isn't volatile there", "--cut 1 --choice 1.0:drop"),
    *no_choice("a sector that the entry hasn't", "--cut 2 --choice 1.2:drop"),
    *no_choice("a tear without --tears", "--cut 2 --choice 1.0:head1"),
    *no_choice("more departures than the bound", "--cut 2 --choice 1.0:drop,1.1:drop"),
    *no_choice("departures that don't rise", "--bound 2 --cut 2 --choice 1.1:drop,1.0:drop"),
    *no_choice("a part twice", "--bound 2 --cut 2 --choice 1.0:drop,1.0:drop"),
    *no_choice("a part by write where parts are sectors", "--cut 2 --choice 1:drop"),
    *no_choice("a sector where parts are writes", "--by write --cut 2 --choice 1.0:drop"),
    *no_choice("a cut past the end", "--cut 4 --choice -"),
    *no_choice("a cut that isn't wanted", "--cuts flush --cut 1 --choice -"),
    *no_choice("a number with a zero in front", "--cut 2 --choice 01.0:drop"),
    *no_choice("no fate", "--cut 2 --choice 1.0"),
    *no_choice("an eighth past the last", "--tears --cut 2 --choice 1.0:head8"),
    *no_choice("a comma after", "--cut 2 --choice 1.0:drop,"),
    *no_choice("a text longer than any choice's", f"--cut 2 --choice {'1' * 200}"),
    refused("show: a number that no image has", "show log --sectors 4 99", LOG, "refused 13 at 9"),
    refused("show: the log before the choice", "show log --sectors 4 --cut 1 --choice x", {"log": b""}, "refused 1 at 0"),
]

ROWS = [*SHOWN, *IMAGES, *REFUSED]
