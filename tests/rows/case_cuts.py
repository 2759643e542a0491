"""The cuts at which a run of any number of losses looks for cases, and how it is laid out in parts: what `images --bound any` prints,
compared with the model (cases_model.py), and what it refuses."""

from cases_model import ANY, Losses, survey_cuts
from designs import DESIGNS
from designs import LOGS as STORED
from designs import data
from model import Run
from notation import F, M, Row, W, log, refused

from rows.cases import FILES, runs, words_of

# How many parts are asked for, row by row.
NUMBERS = [None, 1, 2, 3, 5, 9, 1000, 1048576]


def row_of(name, run, losses, parts, files):
    more = "" if parts is None else f" --parts {parts}"
    words = f"images log {words_of(run, Losses(None, losses.most))}{more}"
    return Row(f"cuts of cases: {name}, {words}", words, files, survey_cuts(run, losses, parts))


def cuts(number, name, run, losses):
    """A row of a run, by the model."""
    files = {"log": log(run.recorded), **({"base": run.base} if run.base else {})}
    return row_of(name, run, losses, NUMBERS[number % len(NUMBERS)], files)


def design(number, which):
    """A design of examples/ by its file."""
    return row_of(f"{which}, by its file", DESIGNS[which], ANY, NUMBERS[number % 4], {"log": data(STORED / f"{which}.log")})


REFUSED = [("--parts 0", 18), ("--parts 1048577", 18), ("--at-most 0", 21), ("--images", 17), ("--from 3 --to 2", 13)]

ROWS = [
    *(design(number, which) for number, which in enumerate(DESIGNS)),
    *(cuts(number, name, run, losses) for number, (name, run, losses) in enumerate(runs())),
    cuts(0, "no entry", Run([], 1), ANY),
    cuts(3, "no entry", Run([], 1), ANY),
    cuts(0, "no cut", Run([W(0, 1, 1), F, M("m")], 1, cuts="flush", first=0, last=0), ANY),
    cuts(2, "no cut", Run([W(0, 1, 1), F, M("m")], 1, cuts="flush", first=0, last=0), Losses(None, 1)),
    *(refused(f"cuts of cases: refused, {words}", f"images log --sectors 4 --bound any {words}", FILES, f"refused 13 at {place}") for words, place in REFUSED),
    refused("cuts of cases: no file", "images log --sectors 4 --bound any", {}, "refused 14 at 0"),
    refused("cuts of cases: options without any", "images log --sectors 4 --at-most 2", FILES, "refused 13 at 21"),
]
