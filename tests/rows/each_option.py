"""Each option of each command: two runs that differ in it alone, and where what they print differs. So no option is ignored in
silence. The commands and their options are those of the program's own help: one without a pair here is told by tests/gate/run.py."""
# Seen to fail for planted bugs: `--from` and `--to` without a parser, `--list` without `--guards`, an option of another name.
import re

from known_model import head_text, inputs_of
from model import Checker, Run, explored, one
from notation import SECTOR, D, F, Hole, M, Pair, Printable, Row, W, code, files, log, named, program
from parts_model import part

from rows.modelled import CHECKERS, count, noise
from rows.raw_logs import raw

# A log of which each option changes the images, a program that answers another number on nearly each image, and one that
# answers 0.
ENTRIES = [W(0, 1, 0x11), W(1, 2, 0x22), F, W(0, 1, 0x33), M("m"), W(3, 1, 0x44)]
GOOD = code("b7000000000000009500000000000000")
NULL_POINTER = program("mov64 r1, 0; call 1; ldxb r0, [r0+0]; exit")
BASE = noise("each option", 4)
HEAD = head_text(inputs_of(Run(ENTRIES, 4)), "./check {}", "5f0c")
RECORDS = [
    "ran cut 2 choice - marks 0 answer 0 looked 0,1",
    "ran cut 2 choice 0.0:head1 marks 0 answer 0 looked 0,1",
    "ran cut 6 choice - marks 1 answer 1 looked 3",
]
FILES = {
    **files(ENTRIES, named("whole_image")),
    "good": GOOD,
    "null": NULL_POINTER,
    # reads an unset register unless the device has four sectors
    "four": program("ldxdw r1, [r1+0]; mov64 r0, 0; jeq r1, 4, +1; mov64 r0, r5; exit"),
    "told": program("ldxdw r0, [r1+8]; ldxdw r1, [r1+16]; lsh64 r1, 8; add64 r0, r1; exit"),
    "base": BASE,
    "long": BASE + b"\0",
    # an entry right after the largest device without --large, and more images than a run may have without --images
    "far": log([W(16384, 1, 0x11)]),
    "raw": raw(SECTOR, [(16384, 1, 0, bytes(SECTOR))]),
    "wide": log([D(0, 3000)]),
    "image": bytes(4 * SECTOR),
    "lines": b"1 check.c 4\n",
    "great": Hole(16385 * SECTOR),
    # a part of a run that lacks the images after it
    "some": part(Run(ENTRIES, 4), CHECKERS[:1], 0, 2, 5).encode(),
    # reports: each image fails, and none does
    "failing": explored(Run(ENTRIES, 4), [Checker("slots 2 budget 2", one)]).encode(),
    "clean": explored(Run(ENTRIES, 4), [Checker("slots 2 budget 2", lambda _image: (0, []))]).encode(),
    # records of a program
    "nothing": HEAD.encode(),
    "three": (HEAD + "".join(f"{it}\n" for it in RECORDS)).encode(),
}

# The words of each command on the log of ENTRIES, but for the options; a run of `image` and of `show` has a number too.
RUNS = {it: f"{it} log p0" for it in ["explore", "why", "cure", "page"]}
LOGS = {**RUNS, "images": "images log", "export": "export log", "image": "image log", "show": "show log"}


def given(words):
    """The run that options ask for, as the model has it."""
    found = dict(re.findall(r"--(\w+) ?([^- ]\S*|)", words))
    number = {"bound": "bound", "from": "first", "to": "last"}
    more = {number[it]: int(value) for it, value in found.items() if it in number}
    flush = tuple(int(it) for it in found["flush"].split(",")) if "flush" in found else ()
    return Run(ENTRIES, 4, found.get("cuts", "all"), tears="tears" in found, by=found.get("by", "sector"), flush=flush, **more)


# Options that change which images there are: the more and the fewer, each with how many images it leaves.
IMAGES = {
    "flush": ("", "--flush 1"),
    "cuts": ("", "--cuts flush"),
    "from": ("", "--from 2"),
    "to": ("", "--to 4"),
    "bound": ("--bound 2", "--bound 1"),
    "tears": ("--tears", ""),
    "by": ("", "--by write"),
}

# The line that says how many images there are, and how many of them fail.
COUNTED = {"explore": "out -1", "why": "out 4", "cure": "out 4", "images": "out -1"}

# Beside the report a note says how many writes have more sectors than may be lost, and none does by write.
NOTED = {"bound": ("error",), "by": ("error",)}


def of_images(option):
    """The pairs of an option that changes which images there are, by command. An image that only the first run has is refused
    by the second one."""
    more, fewer = IMAGES[option]
    most, least = count(given(more)), count(given(fewer))
    assert least < most, option
    pairs = {}
    for command, words in LOGS.items():
        two = [f"{words} --sectors 4 {it}" for it in (more, fewer)]
        if command in ("image", "show"):
            two = [it.replace(" log", f" log {most - 1}") for it in two]
            pairs[command] = dict(two=two, statuses=(0, 2), differ=("out", "error 1"), holds=("refused 13 at 9\n",))
        elif command == "page":
            pairs[command] = dict(two=two, statuses=(1, 1), differ=("out", *NOTED.get(option, ())))
        elif command == "export":
            pairs[command] = dict(two=two, differ=("out", *NOTED.get(option, ())))
        else:
            status = 0 if command == "images" else 1
            echoed = () if command == "images" else ("out 2",)
            pairs[command] = dict(two=two, statuses=(status, status), differ=(*echoed, COUNTED[command], *NOTED.get(option, ())))
    return pairs


def refusing(words, first, second, error, status=0, differ=("out", "error 1")):
    """A pair of which the second run is refused."""
    return dict(two=[f"{words} {it}" for it in (first, second)], statuses=(status, 2), differ=differ, holds=(f"{error}\n",))


# A pair of an option by command: the words of both runs, their statuses, and where they differ.
PAIRS = {option: of_images(option) for option in IMAGES}
# the log, where an entry ends its epoch
PAIRS["flush"]["log"] = dict(two=["log log", "log log --flush 1"], differ=("out 2", "out -1"))

STATUS = {it: 1 if it in RUNS else 0 for it in LOGS}
NUMBERED = {it: f"{words} 0" if it in ("image", "show") else words for it, words in LOGS.items()}

# A device with a sector less than the log needs.
PAIRS["sectors"] = {it: refusing(words, "--sectors 4", "--sectors 3", "refused 9 at 5", STATUS[it]) for it, words in NUMBERED.items()}
PAIRS["sectors"]["log"] = refusing("log log", "--sectors 4", "--sectors 3", "refused 9 at 5")
PAIRS["sectors"]["verify"] = refusing("verify four", "--sectors 4", "--sectors 5", "refused 50 at 3")
# `base` is as many sectors as the file of --base has: the file has four, and a byte of a fifth one is refused.
SIZED = "--sectors base --base base", "--sectors base --base long"
PAIRS["sectors base"] = {it: refusing(words, *SIZED, "refused 13 at 14", STATUS.get(it, 0)) for it, words in {**NUMBERED, "log": "log log"}.items()}

LARGE = "--sectors 16385 --large", "--sectors 16385"
PAIRS["large"] = {it: refusing(words, *LARGE, "refused 13 at 1", STATUS[it]) for it, words in NUMBERED.items()}
PAIRS["large"]["log"] = refusing("log far", "--large", "", "refused 9 at 0")
PAIRS["large"]["import"] = refusing("import raw", "--large", "", "refused 9 at 0")
PAIRS["large"]["verify"] = refusing("verify good", *LARGE, "refused 13 at 1")
PAIRS["large"]["check"] = refusing("check good great", "--large", "", "refused 14 at 1")

# What the device held changes the images, and so the report's number of it and the answers. It is seen in no number of images
# and in no table of a log, where only its length is looked at.
BASED = {
    "explore": ("out 2", "out 4", "out 5"),
    # the image of the first cut is no longer one of zeros, on which nothing fails
    "why": ("out 2", "out 4"),
    "cure": ("out 2",),
    "page": ("out",),
}
PAIRS["base"] = {
    it: dict(two=[f"{LOGS[it]} --sectors 4", f"{LOGS[it]} --sectors 4 --base base"], statuses=(1, 1), differ=differ) for it, differ in BASED.items()
}
PAIRS["base"]["image"] = dict(two=["image log 0 --sectors 4", "image log 0 --sectors 4 --base base"], differ=("out",))
DROPPED = "show log --cut 1 --choice 0.0:drop --sectors 4"
PAIRS["base"]["show"] = dict(two=[DROPPED, f"{DROPPED} --base base"], differ=("out -1",))
PAIRS["base"]["export"] = dict(two=["export log --sectors 4", "export log --sectors 4 --base base"], differ=("out",))
PAIRS["base"]["images"] = refusing("images log --sectors 4", "--base base", "--base long", "refused 13 at 14")
PAIRS["base"]["log"] = refusing("log log --sectors 4", "--base base", "--base long", "refused 13 at 14")

# What changes no report is told by its range.
PAIRS["workers"] = {it: refusing(f"{words} --sectors 4", "--workers 64", "--workers 65", "refused 13 at 3", 1) for it, words in RUNS.items()}
PAIRS["cache"] = {it: refusing(f"{words} --sectors 4", "--cache 65536", "--cache 65537", "refused 13 at 4", 1) for it, words in RUNS.items()}

# A step is too few for the program, which then answers nothing. That it looks at nothing of the log is noted where it passes.
CHECKED = {"explore": ("out 3", "out 4", "error"), "why": ("out 3", "out -1", "error"), "cure": ("out 3",), "page": ("out", "error")}
PAIRS["checked"] = {
    it: dict(two=[f"{it} log good --sectors 4", f"{it} log good --sectors 4 --checked 1"], statuses=(0, 1), differ=differ, holds=("out of steps",))
    for it, differ in CHECKED.items()
}
PAIRS["checked"]["check"] = dict(
    two=["check good image", "check good image --checked 1"], statuses=(0, 1), differ=("out 3", "out 4", "out -1"), holds=("limit 1", "out of steps")
)

PAIRS["guards"] = {
    it: dict(two=[f"{it} log null --sectors 4", f"{it} log null --sectors 4 --guards"], statuses=(2, 1), differ=("out", "error"))
    for it in RUNS
}
PAIRS["guards"]["verify"] = dict(
    two=["verify null --sectors 4", "verify null --sectors 4 --guards"], statuses=(2, 0), differ=("out", "error"), holds=("accepted budget 4 guards 1\n",)
)
PAIRS["guards"]["check"] = dict(
    two=["check null image", "check null image --guards"], statuses=(2, 0), differ=("out", "error"), holds=("budget 4 guards 1\n",)
)
PAIRS["list"] = {
    "verify": dict(two=["verify null --sectors 4 --guards", "verify null --sectors 4 --guards --list"], differ=("out 2",), holds=("2: ldxb r0, [r0+0]\n",))
}

SAID = f"progress: {count(given(''))} of {count(given(''))} images\n"
PAIRS["progress"] = {
    it: dict(two=[f"{words} --sectors 4", f"{words} --sectors 4 --progress"], statuses=(1, 1), differ=("error",), holds=(SAID,))
    for it, words in RUNS.items()
}
PAIRS["inputs"] = {
    "explore": dict(two=["explore log p0 --sectors 4", "explore log p0 --sectors 4 --inputs"], statuses=(1, 1), differ=("out 2",), holds=(" programs 1\n",))
}
PAIRS["first"] = {"explore": dict(two=["explore log p0 --sectors 4", "explore log p0 --sectors 4 --first"], statuses=(1, 1), differ=("out 2", "out -1"))}

# Of all losses, how many parts may be torn, and how many not whole.
ANY = "explore log p0 --sectors 4 --bound any"
PAIRS["torn"] = {"explore": dict(two=[f"{ANY} --tears", f"{ANY} --tears --torn 2"], statuses=(1, 1), differ=("out 2", "out -1"), holds=("tears yes torn 2",))}
PAIRS["at-most"] = {"explore": dict(two=[ANY, f"{ANY} --at-most 1"], statuses=(1, 1), differ=("out 2", "out -1"), holds=("at-most 1",))}
WHY_ANY = ANY.replace("explore", "why")
PAIRS["torn"]["why"] = dict(two=[f"{WHY_ANY} --tears", f"{WHY_ANY} --tears --torn 2"], statuses=(1, 1), differ=("out 2", "out 4"), holds=("tears yes torn 2",))
PAIRS["at-most"]["why"] = dict(two=[WHY_ANY, f"{WHY_ANY} --at-most 1"], statuses=(1, 1), differ=("out 2", "out 4"), holds=("at-most 1",))
for command, differ in {"cure": ("out 2", "out 4"), "page": ("out",)}.items():
    words = ANY.replace("explore", command)
    PAIRS["torn"][command] = dict(two=[f"{words} --tears", f"{words} --tears --torn 2"], statuses=(1, 1), differ=differ)
    PAIRS["at-most"][command] = dict(two=[words, f"{words} --at-most 1"], statuses=(1, 1), differ=differ)
PAIRS["at-most"]["images"] = dict(two=["images log --sectors 4 --bound any", "images log --sectors 4 --bound any --at-most 1"], differ=("out 2",))

# A part of the images, and a log with too many.
TOO_MANY = "--sectors 3000 --bound 3"
# Records in place of programs, none or three: what differs where one of these options stands beside them, by whether parts may be torn.
KNOWN = "log --sectors 4 --bound any --known"
EXPLORED, EXPORTED = ("out", "error"), ("out",)
PAIRS["known"] = {
    "explore": dict(two=[f"explore {KNOWN} nothing", f"explore {KNOWN} three"], statuses=(3, 1), differ=EXPLORED),
    "export": dict(two=[f"export {KNOWN} nothing", f"export {KNOWN} three"], differ=EXPORTED),
}
for option, words in {"stop-at-failing": "--stop-at-failing", "cases": "--cases 1"}.items():
    PAIRS[option] = {
        "explore": dict(two=[f"explore {KNOWN} three", f"explore {KNOWN} three {words}"], statuses=(1, 1), differ=EXPLORED),
        "export": dict(two=[f"export {KNOWN} three", f"export {KNOWN} three {words}"], differ=EXPORTED),
    }
PAIRS["torn"]["export"] = dict(two=[f"export {KNOWN} three --tears", f"export {KNOWN} three --tears --torn 2"], differ=EXPORTED)
PAIRS["at-most"]["export"] = dict(two=[f"export {KNOWN} three", f"export {KNOWN} three --at-most 1"], differ=EXPORTED)

PAIRS["images"] = {
    "explore": dict(two=["explore log p0 --sectors 4", "explore log p0 --sectors 4 --images 0..2"], statuses=(1, 1), differ=("out 1", "out -1", "error"), holds=("crash part 1\n",)),
    "export": dict(two=["export log --sectors 4", "export log --sectors 4 --images 0..2"], differ=("out",), holds=("total 2 new 2\n",)),
    "images": refusing(f"images wide {TOO_MANY}", "--images", "", "refused 12 at 1"),
    "image": refusing(f"image wide 0 {TOO_MANY}", "--images", "", "refused 12 at 1"),
    "show": refusing(f"show wide 0 {TOO_MANY}", "--images", "", "refused 12 at 1"),
}
PAIRS["parts"] = {"images": dict(two=["images log --sectors 4", "images log --sectors 4 --parts 2"], differ=("out -1",), holds=("part 0..",))}

# Sector 0 is lost or not, and what was lost is another write of it.
LOST = "--choice 0.0:drop"
PAIRS["cut"] = {
    it: dict(two=[f"{it} log --sectors 4 --cut 1 {LOST}", f"{it} log --sectors 4 --cut 2 {LOST}"], differ=("out",)) for it in ("image", "show")
}
PAIRS["choice"] = {
    it: dict(two=[f"{it} log --sectors 4 --cut 1 --choice -", f"{it} log --sectors 4 --cut 1 {LOST}"], differ=("out",)) for it in ("image", "show")
}

# What `check` tells its program, which answers the epoch and 256 times the marks.
TOLD = ("out 2", "out -1")
PAIRS["epoch"] = {"check": dict(two=["check told image --epoch 1", "check told image --epoch 2"], statuses=(1, 1), differ=TOLD, holds=("answer 2 codes",))}
PAIRS["marks"] = {"check": dict(two=["check told image --marks 1", "check told image --marks 2"], statuses=(1, 1), differ=TOLD, holds=("answer 512 codes",))}
PAIRS["trace"] = {"check": dict(two=["check good image --trace 1", "check good image --trace 2"], differ=("out 4",), holds=("step 1 slot 0 mov64 r0, 0; r0 0\n",))}
PAIRS["lines"] = {"check": dict(two=["check good image --trace 1", "check good image --trace 1 --lines lines"], differ=("out 4",), holds=("step 2 slot 1 exit # check.c:4\n",))}
PAIRS["slots"] = {"list": dict(two=["list good", "list good --slots"], differ=("out 1", "out 2"), holds=("0: mov64 r0, 0\n1: exit\n",))}

PAIRS["report"] = {
    it: dict(two=[f"{it} log --sectors 4 --report clean", f"{it} log --sectors 4 --report failing"], statuses=(0, 1), differ=("out",)) for it in ("why", "cure", "page")
}
PAIRS["part"] = {"join": dict(two=["join some", "join some --part"], statuses=(2, 1), differ=("out", "error"), holds=("crash part 1\n",))}


def pairs_of(option):
    """The pairs of an option, by command."""
    return [
        Pair(f"--{option} of {command}", *it["two"], FILES, it.get("statuses", (0, 0)), it["differ"], it.get("holds", ()))
        for command, it in PAIRS[option].items()
    ]


def lacking(commands):
    """Which options of the commands that a help lists have no pair, and which pairs have no option."""
    listed = {(command.name, name[2:]) for command in commands for option in command.options for name in option.names if name.startswith("--")}
    listed = {(command, name) for command, name in listed if name not in ("help", "version") and command != "help"}
    paired = {(command, option.split()[0]) for option, found in PAIRS.items() for command in found}
    lack = [f"--{name} of {command} has no pair in rows/each_option.py" for command, name in sorted(listed - paired)]
    return lack + [f"{command} has no option --{name}" for command, name in sorted(paired - listed)]


# A word where a number is to be, and where there is no word: a fault of the command line that names the option.
NUMBERS = {"sectors": "N", "bound": "N", "workers": "N", "cache": "N", "checked": "N", "from": "K", "to": "K", "parts": "N", "cut": "K", "epoch": "N", "marks": "N", "trace": "N", "torn": "N", "at-most": "N", "cases": "N"}


def no_numbers():
    """The runs with a word in the place of a number."""
    for option, name in NUMBERS.items():
        for command, it in PAIRS[option].items():
            words = re.sub(rf" --{option} \S+", "", it["two"][1])
            for word in ["x", "1x", "-1"]:
                fault = f"error: invalid value '{word}' for '--{option} <{name}>'" if word != "-1" else "error: "
                yield Row(f"--{option} {word} of {command}", f"{words} --{option} {word}", FILES, status=2, error=Printable(fault))


def given_twice():
    """The runs with an option that stands there twice: a fault of the command line that names it."""
    for option, found in PAIRS.items():
        name = option.split()[0]
        for command, it in found.items():
            words = next(words for words in it["two"] if f" --{name}" in words)
            again = re.search(rf" --{name}( (?!--)\S+)?(?= |$)", words)[0]
            yield Row(f"--{option} twice of {command}", words + again, FILES, status=2, error=Printable(f"error: the argument '--{name}", "cannot be used multiple times"))


# Options that want another one, or exclude it.
TOGETHER = [
    Row(f"together: {words}", words, FILES, status=2, error=Printable("error: ", *texts))
    for words, *texts in [
        ("verify null --sectors 4 --list", "--guards"),
        ("image log --sectors 4 --cut 1", "--choice"),
        ("show log --sectors 4 --cut 1", "--choice"),
        ("image log --sectors 4 --choice -", "--cut"),
        ("show log --sectors 4 --choice -", "--cut"),
        ("image log 0 --sectors 4 --cut 1 --choice -", "--cut"),
        *((f"{it} log p0 --sectors 4 --guards --checked 9", "--guards") for it in RUNS),
    ]
]

ROWS = [*(pair for option in PAIRS for pair in pairs_of(option)), *no_numbers(), *given_twice(), *TOGETHER]
