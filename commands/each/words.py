"""The words of the command line: options of this program, LOG with the options of its images, and the program that judges."""
import copy
import os
import re
import shutil
import stat
from pathlib import Path

from commands.each.served_mount import missing
from commands.shared import recording
from commands.shared.faults import Refusal

USAGE = "usage: crashbpf-each [-j N] [--keep DIR] [--timeout S] [--resume] LOG --sectors N [--bound K] .. -- PROGRAM {} .."
USAGE += ", or with the folder of a recording in place of LOG --sectors N; or crashbpf-each --join PART .."
# The options of `crashbpf images` that say which images there are, with a value and without one.
VALUED = ("--sectors", "--flush", "--base", "--cuts", "--from", "--to", "--bound", "--by")
FLAGS = ("--large", "--tears")
# Those that stand beside `--bound any`, with a value and without one.
OF_ANY, FLAGS_OF_ANY = ("--torn", "--at-most", "--cases"), ("--stop-at-failing",)
# Those of `log`, which takes the same log.
OF_LOG = ("--sectors", "--flush", "--large")
# The options of this program.
OWN_VALUED = {
    "-j": "runners",
    "--keep": "keep",
    "--timeout": "seconds",
    "--spot": "spot",
    "--part": "part",
    "--runs": "runs",
    "--recover": "recover",
}
OWN_FLAGS = {"--first": "first", "--resume": "resume", "--read-only": "read_only", "--cure": "cure", "--stay": "stay", "--again": "again"}
# Those of both kinds that stand beside `--bound any` alone, and those that never do.
ONLY_ANY = (*OF_ANY, *FLAGS_OF_ANY, "--runs", "--spot", "--cure", "--stay", "--again", "--recover")
NEVER_ANY = ("--first", "--read-only")
MOST_RUNNERS, MOST_SECONDS, MOST_SECTORS, MOST_SPOTS, MOST_PARTS, MOST_CASES = 64, 86400, 33554432, 1000000, 10000, 16777216
# Of a run with a bound, whose parts are joined at once.
MOST_JOINED = 4096
SECTOR = 512
# What runs a program on the files of an image.
FILES = str(Path(__file__).resolve().parents[1] / "record/crashbpf-files")
NUMBER, DECIMAL = re.compile(r"0|[1-9]\d{0,18}", re.A), re.compile(r"\d{1,9}(\.\d{1,9})?", re.A)


class Words:
    """What is asked for. `options` are those of the images, a pair of each name and its value, as they were given."""

    first = resume = read_only = cure = stay = again = False
    keep, seconds, spot, part, runs, recover = None, 60.0, None, None, None, None
    # The names that a recording left out.
    skipped = ()
    # What is done in place of the program, by its words: what crashbpf-files does.
    inside = None
    # Why one loss at a time is judged, where no bound was given and that isn't what is meant by none.
    narrowed = ""

    def __init__(self, log, options, program):
        self.log, self.options, self.program = log, options, program
        self.runners = min(len(os.sched_getaffinity(0)), MOST_RUNNERS)

    def value(self, name):
        return dict(self.options).get(name)

    def sectors(self):
        return int(self.value("--sectors"))

    def of_step(self):
        """Those words of a step of `--bound any` that crashbpf takes with programs."""
        return self.of_images((*VALUED, *FLAGS, "--torn", "--at-most"))

    def of_search(self):
        """Those that it takes with records."""
        return self.of_images((*VALUED, *FLAGS, *OF_ANY, *FLAGS_OF_ANY))

    def has(self, name):
        return name in dict(self.options)

    def asking(self, changes):
        """Returns these words with other options of the images: each has a value, or is True for one without a value, or None for none."""
        it = copy.copy(self)
        kept = [pair for pair in self.options if pair[0] not in changes]
        it.options = kept + [(name, None if value is True else value) for name, value in changes.items() if value is not None]
        return it

    def is_any(self):
        return self.value("--bound") == "any"

    def of_images(self, names=VALUED + FLAGS):
        """The log and those of its options that have these names, as words of crashbpf."""
        return [self.log, *(word for name, value in self.options if name in names for word in (name, value) if word is not None)]

    def told(self):
        """All that a verdict, or which of them are asked for, hangs on beside the log, the base and the program."""
        own = [f"first {self.first}", f"read only {self.read_only}", f"seconds {self.seconds}"]
        own += [f"part {self.part}"] if self.part else []
        return [*own, *(f"{name} {value}" for name, value in self.options)]


def number(name, value, most):
    """Returns the number after an option, which is 1 to `most`."""
    if not NUMBER.fullmatch(value) or not 1 <= int(value) <= most:
        raise Refusal(f"{name} is 1 to {most}")
    return int(value)


def sized(options):
    """Returns the options with a number of sectors in place of `base`: as many as the file of --base has."""
    named = dict(options)
    if named["--sectors"] != "base":
        return options
    if "--base" not in named:
        raise Refusal("--sectors base takes the size from the file of --base, and there is none")
    try:
        found = os.stat(named["--base"])
    except (OSError, ValueError) as fault:
        raise Refusal(f"{named['--base']!r}: {fault}") from None
    if not stat.S_ISREG(found.st_mode) or not found.st_size or found.st_size % SECTOR:
        raise Refusal(f"--sectors base wants a file of whole sectors of {SECTOR} bytes after --base")
    return [(name, str(found.st_size // SECTOR) if name == "--sectors" else value) for name, value in options]


def seconds(value):
    if not DECIMAL.fullmatch(value) or not 0 < float(value) <= MOST_SECONDS:
        raise Refusal(f"--timeout is a number of seconds, at most {MOST_SECONDS}")
    return float(value)


def spotted(value):
    """Returns how many choices are compared, and by which seed, which may be given after a comma."""
    count, _comma, seed = value.partition(",")
    return number("--spot", count, MOST_SPOTS), int.from_bytes(os.urandom(4), "little") if seed == "" else number("the seed of --spot", seed, 1 << 32)


def parted(value, most):
    """Returns which part is judged, and how many parts there are: no more than `most`."""
    part, slash, parts = value.partition("/")
    if not slash or not NUMBER.fullmatch(parts) or not 1 <= int(parts) <= most:
        raise Refusal(f"--part is I/N, part I of N, and N is 1 to {most}")
    return number("I of --part I/N", part, int(parts)), int(parts)


def halves(words):
    """Returns the words before the first `--`, and those after it."""
    if "--" not in words:
        raise Refusal(USAGE)
    at = words.index("--")
    if not words[at + 1 :] or "" == words[at + 1]:
        raise Refusal(USAGE)
    return words[:at], words[at + 1 :]


def split(words):
    """Returns the words as a list of pairs: an option with its value, or with none; a file has the name ''."""
    found, rest = [], list(words)
    while rest:
        word = rest.pop(0)
        name, equal, value = word.partition("=") if word.startswith("--") else (word, "", "")
        if re.fullmatch(r"-j.+", word):
            name, equal, value = "-j", "=", word[2:]
        if name in VALUED + OF_ANY or name in OWN_VALUED:
            if not equal and not rest:
                raise Refusal(f"{name} wants a value")
            found.append((name, value if equal else rest.pop(0)))
        elif word in FLAGS + FLAGS_OF_ANY or word in OWN_FLAGS:
            found.append((word, None))
        elif word.startswith("-"):
            raise Refusal(f"there is no option {word!r}; {USAGE}")
        else:
            found.append(("", word))
    return found


def of_recording(pairs, folder, program):
    """Returns the words with what the folder of a recording knows in its place: the log, its options but for those that are given; the
    program, which is run on the files of an image where the folder has their map; and the names that were left out."""
    try:
        it = recording.read(folder)
    except recording.Unknown as unknown:
        raise Refusal(str(unknown)) from None
    given = [name for name, _value in pairs]
    known = [pair for pair in (*it.options(), ("--by", "write")) if pair[0] not in given]
    if it.map:
        if shutil.which(program[0]) is None:
            raise Refusal(f"there is no program {program[0]}")
        # (it is run in another folder)
        program = [os.path.abspath(program[0]) if "/" in program[0] else program[0], *program[1:]]
        program = [shutil.which("crashbpf-files") or FILES, it.path(it.map), "{}", "--", *program]
    return [(name, it.log()) if name == "" else (name, value) for name, value in pairs] + known, program, it.skipped


# What is of one log alone, and so not of a recording that has several.
OF_ONE = ("--resume", "--from", "--to", "--flush", "--part", "--spot", "--cure", "--again")


def of_each_log(words):
    """Returns the words for each log of a recording that has several, with its folder, and none where what is asked for isn't of one."""
    pairs = split(words[: words.index("--")]) if "--" in words else []
    folders = [value for name, value in pairs if name == "" and os.path.isdir(value)]
    if len(folders) != 1:
        return []
    try:
        it = recording.read(folders[0])
    except recording.Unknown:
        # (who takes one log says why)
        return []
    bad = next((name for name, _value in pairs if name in OF_ONE), None)
    if it.logs and bad:
        raise Refusal(f"{bad} is of one log, and {it.folder} has {it.logs}: name one of them, as {it.one(1)}")
    found = []
    for number in range(1, it.logs + 1):
        kept = {"": it.one(number), "--keep": os.path.join(dict(pairs).get("--keep", ""), str(number))}
        own = [(name, kept.get(name, value)) for name, value in pairs]
        found.append((it.one(number), [word for name, value in own for word in (name, value) if word not in ("", None)] + words[words.index("--") :]))
    return found


def without_bound(given, names):
    """Returns the words with a bound, of which none was given: every loss, or one at a time where that can't be had, and why."""
    if any(it in (*ONLY_ANY, "--part") for it in names):
        return given.asking({"--bound": "any"})
    of_images = next((it for it in names if it in NEVER_ANY), None)
    why = f"{of_images} is of images" if of_images else missing()
    given = given.asking({"--bound": "1" if why else "any"})
    given.narrowed = why
    return given


def beside_any(given, names):
    """Tests what stands beside `--bound any`."""
    if not given.is_any():
        other = next((it for it in names if it in ONLY_ANY), None)
        if other:
            raise Refusal(f"{other} is of every loss, with --bound any")
        return
    other = next((it for it in names if it in NEVER_ANY), None)
    if other:
        raise Refusal(f"{other} is of images, and with --bound any there are cases in their place")
    if "--cases" in names:
        number("--cases", given.value("--cases"), MOST_CASES)
    beside_cure(names)
    beside_again(names)


def beside_again(names):
    """Tests what stands beside `--again` and `--recover`."""
    other = next((it for it in names if it in ("--cure", "--part", "--spot")), None)
    if "--again" in names and other:
        raise Refusal(f"{other} is of the log alone, and --again goes on with what the program does to its images")
    if "--recover" in names and "--again" not in names:
        raise Refusal("--recover says what is cut by --again")
    if "--recover" in names and "--stay" in names:
        raise Refusal("a program that stays recovers by itself, so --recover isn't for it")


def beside_cure(names):
    """Tests what stands beside `--cure` and `--part`."""
    other = next((it for it in names if it in ("--stop-at-failing", "--cases", "--runs", "--part", "--cuts")), None)
    if "--cure" in names and other:
        raise Refusal(f"{other} doesn't stand beside --cure, which makes rounds of its own, over all cuts")
    if "--part" in names and "--spot" in names:
        raise Refusal("--spot compares choices of the whole run, and --part judges a part of it")


def parse(words):
    """Returns what the words ask for."""
    before, program = halves(words)
    pairs = split(before)
    logs = [value for name, value in pairs if name == ""]
    is_folder = len(logs) == 1 and os.path.isdir(logs[0])
    judge, skipped = program, ()
    if is_folder:
        pairs, program, skipped = of_recording(pairs, logs[0], program)
        logs = [value for name, value in pairs if name == ""]
    names = [name for name, _value in pairs if name]
    if len(logs) != 1 or "--sectors" not in names:
        raise Refusal(USAGE)
    twice = next((it for it in names if names.count(it) > 1), None)
    if twice:
        raise Refusal(f"{twice} stands there twice")
    given = Words(logs[0], sized([it for it in pairs if it[0] in VALUED + FLAGS + OF_ANY + FLAGS_OF_ANY]), program)
    given.skipped = skipped
    if is_folder and len(program) > len(judge):
        from commands.record import laying

        given.inside = laying.main
        if "--recover" in names:
            raise Refusal("--recover is for a device that is one file: of recorded files the program recovers and judges")
    number("--sectors", given.value("--sectors"), MOST_SECTORS)
    if not given.has("--bound"):
        given = without_bound(given, names)
    beside_any(given, names)
    if "--stay" in names and "{}" in program:
        raise Refusal("a program that stays is told its images by lines, so no word of it is {}, and the folder of a recording of files isn't for it")
    for name, value in pairs:
        if name == "-j":
            given.runners = number(name, value, MOST_RUNNERS)
        elif name == "--timeout":
            given.seconds = seconds(value)
        elif name == "--keep":
            given.keep = value
        elif name == "--spot":
            given.spot = spotted(value)
        elif name == "--runs":
            given.runs = number("--runs", value, MOST_CASES)
        elif name == "--part":
            given.part = parted(value, MOST_PARTS if given.is_any() else MOST_JOINED)
        elif name == "--recover":
            given.recover = value
        elif name in OWN_FLAGS:
            setattr(given, OWN_FLAGS[name], True)
    return given
