"""Each command, what is a fault of the command line, and the order in which a run is refused."""
from notation import F, W, Row, Something, code, explore, files, named, program, refused, report

GOOD = program("mov64 r0, 0; exit")
UNSAFE = program("exit")
CUT_PROGRAM = code("9500")
LOG = [W(0, 1, 0xAA), F]
WRITE = [W(0, 64, 0xAA)]

STORED_RUN = report("""
    sectors 1 entries 0 cuts all bound 0 tears no first no
    program 0 slots 2 limit 2
    images 1 failing 0 lines 0
    """)

ONE_IMAGE = "cut 0 epoch 0 marks 0 volatile 0 images 1\ntotal 1\n"

COMMANDS = [
    Row("no word at all: the stored run", "", {}, STORED_RUN),
    Row("the stored run reads no file", "", {"log": b"", "program": b""}, STORED_RUN),
    Row("options before files", "images --sectors 4 --bound 0 log", files([]), ONE_IMAGE),
    Row("the number of an image after options", "image log --sectors 1 0", files([]), bytes(512)),
    explore(
        "programs are numbered as on the command line",
        "--sectors 4 --bound 0",
        [W(0, 1, 0x05)],
        [GOOD, program("mov64 r0, 7; exit"), named("first_byte")],
        report("""
            sectors 4 entries 1 cuts all bound 0 tears no first no
            program 0 slots 2 budget 2
            program 1 slots 2 budget 2
            program 2 slots 7 budget 5
            image 0 cut 0 program 1 answer 7 codes - choice -
            image 1 cut 1 program 1 answer 7 codes - choice -
            image 1 cut 1 program 2 answer 5 codes - choice -
            images 2 failing 2 lines 3
            """),
        1,
    ),
    explore(
        "the same program twice",
        "--sectors 1",
        [],
        [program("mov64 r0, 7; exit")] * 2,
        report("""
            sectors 1 entries 0 cuts all bound 1 tears no first no
            program 0 slots 2 budget 2
            program 1 slots 2 budget 2
            image 0 cut 0 program 0 answer 7 codes - choice -
            image 0 cut 0 program 1 answer 7 codes - choice -
            images 1 failing 1 lines 2
            """),
        1,
    ),
    Row("one file under two names", "explore p p --sectors 1", {"p": b""}, status=2, error="refused 1 at 0"),
    Row("list", "list p", {"p": code("b700000001000000 9500000000000000")}, "mov64 r0, 1\nexit\n"),
    Row("asm", "asm s", {"s": "mov64 r0, 1\nexit\n"}, code("b700000001000000 9500000000000000")),
    Row("verify", "verify p --sectors 1", {"p": GOOD}, "accepted budget 2\n"),
    Row("verify on the largest device", "verify p --sectors 16384", {"p": GOOD}, "accepted budget 2\n"),
    refused("verify names no program", "verify p --sectors 4", {"p": UNSAFE}, "refused 50 at 0"),
    refused("list names no program", "list p", {"p": code("ff00000000000000")}, "refused 22 at 0"),
]

VERSION = [Row("version", "--version", {}, "crashbpf 0.1.0 (rattle-kit-13f logic dac8208d650f15bf)\n")]

# Help is asked for: status 0, something on standard output that isn't compared.
HELP = [
    Row(f"help: {words}", words, {}, Something())
    for words in [
        "--help",
        "explore --help",
        "images --help",
        "export --help",
        "image --help",
        "verify --help",
        "import --help",
        "asm --help",
        "list --help",
        "log --help",
        "show --help",
        "why --help",
        "cure --help",
        "page --help",
    ]
]

def as_cures(words):
    """Those of these words that ask for `explore`, for `cure`."""
    return [f"cure{it[len('explore'):]}" for it in words if it.split(" ")[0] == "explore"]


# Faults of the command line: status 2, nothing on standard output, a text on standard error that isn't compared.
FAULTY = [
    "survey log",
    "frob",
    "Explore log p0 --sectors 4",
    "log",
    "explore",
    "explore --sectors 4",
    "explore log --sectors 4",
    "explore log p0",
    "explore log p0 --sectors",
    "explore log p0 --sectors one",
    "explore log p0 --sectors -1",
    "explore log p0 --sectors 1.5",
    "explore log p0 --sectors 0x4",
    "explore log p0 --sectors 4k",
    "explore log p0 --sectors 18446744073709551616",
    "explore log p0 --sectors +4",
    "explore log p0 --sectors 04",
    "explore log p0 --sectors=+4",
    "explore log p0 --sectors +",
    "explore log p0 --sectors 4 --bound +1",
    "explore log p0 --sectors 4 --bound 01",
    "explore log p0 --sectors 4 --bound 00",
    "explore log p0 --sectors 4 --workers +1",
    "explore log p0 --sectors 4 --workers 02",
    "explore log p0 --sectors 4 --cache +0",
    "explore log p0 --sectors 4 --cache 00",
    "explore log p0 --sectors 4 --checked +2",
    "explore log p0 --sectors 4 --checked 02",
    "explore log p0 --sectors 4 --from +0",
    "explore log p0 --sectors 4 --from 00",
    "explore log p0 --sectors 4 --to +1",
    "explore log p0 --sectors 4 --to 01",
    "images log --sectors 4 --parts +1",
    "images log --sectors 4 --parts 01",
    "image log +0 --sectors 4",
    "image log 00 --sectors 4",
    "image log --cut +0 --choice - --sectors 4",
    "show log --cut 00 --choice - --sectors 4",
    "log log --sectors +4",
    "verify p0 --sectors 04",
    "explore log p0 --sectors 4 --bound one",
    "explore log p0 --sectors 4 --bound",
    "explore log p0 --sectors 4 --workers two",
    "explore log p0 --sectors 4 --cache none",
    "explore log p0 --sectors 4 --checked all",
    "explore log p0 --sectors 4 --cuts",
    "explore log p0 --sectors 4 --by",
    "log log --sectors 4 --by write",
    "verify p0 --sectors 4 --by write",
    "explore log p0 --sectors 4 --last",
    "explore log p0 --sectors 4 --inputs --first",
    "explore log p0 --sectors 4 --inputs --images 0..2",
    "explore log p0 --sectors 4 --bound any --inputs --at-most 1",
    "explore log p0 --sectors 4 --bound any --inputs --torn 1",
    "why log p0 --sectors 4 --inputs",
    "export log --sectors 4 --inputs",
    "images",
    "images log",
    "images --sectors 4",
    "images log p0 --sectors 4",
    "images log --sectors 4 --tears yes",
    "images log --sectors 4 --workers 1",
    "images log --sectors 4 --cache 0",
    "images log --sectors 4 --checked 1",
    "images log --sectors 4 --first",
    "cure log p0 --sectors 4 --first",
    "why log p0 --sectors 4 --first",
    "page log p0 --sectors 4 --first",
    "images log --sectors 4 --progress",
    "export",
    "export log",
    "export --sectors 4",
    "export log p0 --sectors 4",
    "export log 0 --sectors 4",
    "export log --sectors 4 --parts 2",
    "export log --sectors 4 --workers 1",
    "export log --sectors 4 --first",
    "export log --sectors 4 --progress",
    "export log --sectors 4 --images 1",
    "export log --sectors 4 --images 2..1x",
    "image",
    "image log",
    "image log 0",
    "image log --sectors 4",
    "image log one --sectors 4",
    "image log -1 --sectors 4",
    "image log 18446744073709551616 --sectors 4",
    "image log 0 1 --sectors 4",
    "image log 0 --sectors 4 --first",
    "image log 0 --sectors 4 --checked 1",
    "verify",
    "verify p0",
    "verify --sectors 4",
    "verify p0 p1 --sectors 4",
    "verify p0 --sectors 4 --bound 1",
    "verify p0 --sectors 4 --cuts all",
    "verify p0 --sectors 4 --tears",
    "verify p0 --sectors 4 --checked 1",
    "asm",
    "asm p0 p1",
    "asm p0 --sectors 4",
    "import",
    "import log p0",
    "import log --sectors 4",
    "import log --bound 1",
    "list",
    "list p0 p1",
    "list p0 --sectors 4",
    "list p0 --tears",
    "list p0 --slots yes",
    "list --slots",
    "verify p0 --sectors 4 --slots",
    "log log p0",
    "log log --sectors four",
    "log log --bound 1",
    "log log --cuts all",
    "log log --tears",
    "log log --slots",
    "explore log p0 --sectors 4 --bound Any",
    "explore log p0 --sectors 4 --bound any1",
    "explore log p0 --sectors 4 --bound any --bound 1",
    "explore log p0 --sectors 4 --bound=any --workers two",
    "explore log p0 --sectors any",
    "explore log p0 --sectors 4 --bound any --torn +1",
    "explore log p0 --sectors 4 --bound any --torn 01",
    "explore log p0 --sectors 4 --bound any --torn any",
    "explore log p0 --sectors 4 --bound any --at-most +1",
    "explore log p0 --sectors 4 --bound any --at-most 01",
    "explore log p0 --sectors 4 --bound any --at-most any",
    "why log p0 --sectors 4 --torn 1",
    "page log p0 --sectors 4 --at-most 1",
    "images log --sectors 4 --torn 1",
    "images log --sectors 4 --at-most 1",
    "show log 0 --sectors 4 --at-most 1",
]

FAULTS = [
    Row(f"fault of the command line: {words}", words, files(LOG, GOOD, GOOD), status=2, error=Something())
    for words in [*FAULTY, *as_cures(FAULTY)]
]

BOTH = files(LOG, GOOD)
NO_FILE = {}

# Options outside their values, on a good log and a good program: the words, and the place of refusal 13
OPTIONS = {
    "explore log p0 --sectors 0": 1,
    "explore log p0 --sectors 16385": 1,
    "explore log p0 --sectors 4294967300": 1,
    "explore log p0 --sectors 18446744073709551615": 1,
    "explore log p0 --sectors 4 --bound 4": 2,
    "explore log p0 --sectors 4 --bound 256": 2,
    "explore log p0 --sectors 4 --bound 4294967296": 2,
    "explore log p0 --sectors 4 --workers 0": 3,
    "explore log p0 --sectors 4 --workers 65": 3,
    "explore log p0 --sectors 4 --workers 257": 3,
    "explore log p0 --sectors 4 --cache 65537": 4,
    "explore log p0 --sectors 4 --cache 4294967296": 4,
    "explore log p0 --sectors 4 --checked 1000000001": 5,
    "explore log p0 --sectors 4 --checked 18446744073709551615": 5,
    "explore log p0 --sectors 4 --cuts some": 7,
    "explore log p0 --sectors 4 --cuts All": 7,
    "explore log p0 --sectors 4 --cuts flushes": 7,
    "explore log p0 --sectors 4 --by page": 10,
    "explore log p0 --sectors 4 --by Write": 10,
    "explore log p0 --sectors 4 --by sectors": 10,
    "images log --sectors 0": 1,
    "images log --sectors 16385": 1,
    "images log --sectors 4 --bound 4": 2,
    "images log --sectors 4 --cuts some": 7,
    "images log --sectors 4 --by writes": 10,
    "image log 0 --sectors 0": 1,
    "image log 0 --sectors 4 --bound 4": 2,
    "image log 0 --sectors 4 --cuts some": 7,
    "image log 0 --sectors 4 --by entry": 10,
    "image log 4 --sectors 4": 9,
    "image log 4 --sectors 4 --by write": 9,
    "image log 4294967296 --sectors 4": 9,
    "image log 18446744073709551615 --sectors 4": 9,
    "verify p0 --sectors 0": 1,
    "verify p0 --sectors 16385": 1,
}
OPTIONS["export log --sectors 4 --bound any"] = 2
OPTIONS.update({f"{words} --sectors 4 --bound=any": 2 for words in ("image log 0", "show log 0")})
OPTIONS.update({cure: OPTIONS[f"explore{cure[len('cure'):]}"] for cure in as_cures(OPTIONS)})

# Of any number of losses, which `explore`, `why`, `cure` and `page` take, and `images`, which makes no run
ANY_LOSSES = {
    "--bound any --torn 1": 20,
    "--bound any --tears --torn 0": 20,
    "--bound any --tears --torn 4": 20,
    "--bound any --tears --torn 4294967297": 20,
    "--bound any --at-most 0": 21,
    "--bound any --at-most 65": 21,
    "--bound any --at-most 4294967297": 21,
    "--bound any --cache 1": 4,
    "--bound any --images 0..1": 17,
    "--torn 1": 20,
    "--tears --torn 1": 20,
    "--tears --torn 9 --bound 1": 20,
    "--at-most 1": 21,
    "--at-most 0 --bound 3": 21,
    "--tears --torn 1 --at-most 1": 20,
    "--bound any --torn 1 --at-most 0": 20,
    "--bound any --at-most 0 --cache 1": 21,
    "--bound any --cache 1 --images 0..1": 4,
    "--bound any --images 0..1 --first": 17,
    "--bound any --first --cache 65537": 4,
    "--bound any --at-most 0 --workers 0": 3,
    "--bound any --torn 9 --images 1..1": 17,
    "--bound any --torn 9 --from 2 --to 1": 13,
    "--bound 4 --torn 1": 2,
    "--bound 4 --at-most 1": 2,
}
OPTIONS.update({f"explore log p0 --sectors 4 {options}": place for options, place in ANY_LOSSES.items()})
OF_ALL = {it: place for it, place in ANY_LOSSES.items() if "--images" not in it and "--first" not in it}
OPTIONS.update({f"{command} log p0 --sectors 4 {it}": place for command in ("why", "cure", "page") for it, place in OF_ALL.items()})
OPTIONS.update({f"images log --sectors 4 {it}": place for it, place in OF_ALL.items() if not any(option in it for option in ("--torn", "--cache", "--workers"))})

# The values at the ends of each option's range.
ENDS = [
    explore(
        f"option at its end: {options}",
        f"{options} --cuts mark",
        LOG,
        GOOD,
        report(f"""
            sectors {sectors} entries 2 cuts mark bound {bound} tears no first no
            program 0 slots 2 {about}
            images 0 failing 0 lines 0
            """),
        0,
    )
    for options, sectors, bound, about in [
        ("--sectors 1", 1, 1, "budget 2"),
        ("--sectors 16384", 16384, 1, "budget 2"),
        ("--sectors 4 --bound 0", 4, 0, "budget 2"),
        ("--sectors 4 --bound 3", 4, 3, "budget 2"),
        ("--sectors 4 --by sector", 4, 1, "budget 2"),
        ("--sectors 4 --workers 1", 4, 1, "budget 2"),
        ("--sectors 4 --cache 0", 4, 1, "budget 2"),
        ("--sectors 4 --checked 0", 4, 1, "limit 0"),
        ("--sectors 4 --checked 1000000000", 4, 1, "limit 1000000000"),
    ]
]


BAD_LOG = b"no log at all"
TOO_MANY = "--sectors 64 --bound 3 --tears"
TOO_FAR = [*WRITE, W(64, 1, 0)]

NINE = " ".join(f"p{number}" for number in range(9))
NINE_GOOD = {f"p{number}": GOOD for number in range(9)}

# Runs with more than one thing to refuse: what comes first, the words, the files, the refusal
ORDER = [
    ("cuts before sectors", "explore log p0 --sectors 0 --cuts some", BOTH, "13 at 7"),
    ("cuts before bound", "explore log p0 --sectors 4 --bound 4 --cuts none", BOTH, "13 at 7"),
    ("cuts before parts", "explore log p0 --sectors 4 --by page --cuts some", BOTH, "13 at 7"),
    ("parts before sectors", "explore log p0 --sectors 0 --by page", BOTH, "13 at 10"),
    ("parts before steps", "explore log p0 --sectors 4 --checked 1000000001 --by page", BOTH, "13 at 10"),
    ("parts before files", "explore log p0 --sectors 4 --by page", NO_FILE, "13 at 10"),
    ("parts before flushes", "explore log p0 --sectors 4 --by page --flush x", BOTH, "13 at 10"),
    ("flushes before sectors", "explore log p0 --sectors 0 --flush 1,", BOTH, "13 at 12"),
    ("flushes before files", "explore log p0 --sectors 4 --flush 1,,2", NO_FILE, "13 at 12"),
    ("no flush", "explore log p0 --sectors 4 --flush ,", BOTH, "13 at 12"),
    ("a flush with a sign", "explore log p0 --sectors 4 --flush +1", BOTH, "13 at 12"),
    ("a flush with a zero in front", "explore log p0 --sectors 4 --flush 0,01", BOTH, "13 at 12"),
    ("a flush of two zeros", "log log --sectors 4 --flush 00", BOTH, "13 at 12"),
    ("a flush that 32 bits don't hold", "explore log p0 --sectors 4 --flush 4294967296", BOTH, "13 at 12"),
    ("65 flushes", f"explore log p0 --sectors 4 --flush 0{',0' * 64}", BOTH, "13 at 12"),
    ("steps before the range", "explore log p0 --sectors 4 --checked 1000000001 --from 2 --to 1", BOTH, "13 at 5"),
    ("the range before files", "explore log p0 --sectors 4 --from 2 --to 1", NO_FILE, "13 at 13"),
    ("the log before flushes", "explore log p0 --sectors 4 --flush 99", files(BAD_LOG, GOOD), "1 at 0"),
    ("flushes in their order", "explore log p0 --sectors 4 --flush 0,99,98 --from 97", BOTH, "15 at 99"),
    ("flushes before the range", "explore log p0 --sectors 4 --flush 99 --from 97 --to 98", BOTH, "15 at 99"),
    ("the first cut before the last", "explore log p0 --sectors 4 --from 97 --to 98", BOTH, "15 at 97"),
    ("the last cut", "explore log p0 --sectors 4 --from 0 --to 98", BOTH, "15 at 98"),
    ("entry n of a flush", "explore log p0 --sectors 4 --flush 2", BOTH, "15 at 2"),
    ("cut n + 1", "explore log p0 --sectors 4 --to 3", BOTH, "15 at 3"),
    ("what the log lacks before the count", f"explore log p0 {TOO_MANY} --flush 99", files(WRITE, GOOD), "15 at 99"),
    ("what the log lacks before programs", "explore log p0 --sectors 4 --flush 99", files(LOG, CUT_PROGRAM), "15 at 99"),
    ("log: flushes before sectors", "log log --sectors 0 --flush x", NO_FILE, "13 at 12"),
    ("log: a flush that it lacks", "log log --flush 99", files(LOG), "15 at 99"),
    ("image: the range before the number", "image log 99 --sectors 4 --from 97", files(LOG), "15 at 97"),
    ("sectors before bound", "explore log p0 --bound 4 --sectors 16385", BOTH, "13 at 1"),
    ("bound before workers", "explore log p0 --workers 0 --bound 4 --sectors 1", BOTH, "13 at 2"),
    ("workers before cache", "explore log p0 --cache 65537 --workers 65 --sectors 1", BOTH, "13 at 3"),
    ("cache before steps", "explore log p0 --checked 1000000001 --cache 65537 --sectors 1", BOTH, "13 at 4"),
    ("cuts before files", "explore log p0 --sectors 4 --cuts some", NO_FILE, "13 at 7"),
    ("sectors before files", "explore log p0 --sectors 0", NO_FILE, "13 at 1"),
    ("bound before files", "explore log p0 --sectors 4 --bound 4", NO_FILE, "13 at 2"),
    ("workers before files", "explore log p0 --sectors 4 --workers 0", NO_FILE, "13 at 3"),
    ("cache before files", "explore log p0 --sectors 4 --cache 65537", NO_FILE, "13 at 4"),
    ("steps before files", "explore log p0 --sectors 4 --checked 1000000001", NO_FILE, "13 at 5"),
    ("files before the number of programs", f"explore log {NINE} --sectors 4", files(LOG, *[GOOD] * 8), "14 at 9"),
    ("files before the log", "explore log p0 --sectors 4", files(BAD_LOG), "14 at 1"),
    ("the number of programs before the log", f"explore log {NINE} --sectors 4", {"log": BAD_LOG, **NINE_GOOD}, "13 at 6"),
    ("the log before the count", f"explore log p0 {TOO_MANY}", files(TOO_FAR, GOOD), "9 at 1"),
    ("the log before programs", "explore log p0 --sectors 4", files(BAD_LOG, CUT_PROGRAM), "1 at 0"),
    ("the count before programs", f"explore log p0 {TOO_MANY}", files(WRITE, CUT_PROGRAM), "12 at 1"),
    ("bytes before rules", "explore log p0 --sectors 4", files(LOG, CUT_PROGRAM), "20 at 0 of program 0"),
    ("the first program", "explore log p0 p1 --sectors 4", files(LOG, UNSAFE, CUT_PROGRAM), "50 at 0 of program 0"),
    ("no rules where checked", "explore log p0 p1 --sectors 4 --checked 9", files(LOG, UNSAFE, CUT_PROGRAM), "20 at 0 of program 1"),
    ("the third program", "explore log p0 p1 p2 --sectors 4", files(LOG, GOOD, GOOD, UNSAFE), "50 at 0 of program 2"),
    ("images: cuts before sectors", "images log --sectors 0 --cuts some", NO_FILE, "13 at 7"),
    ("images: parts before sectors", "images log --sectors 0 --by page", NO_FILE, "13 at 10"),
    ("images: sectors before bound", "images log --sectors 0 --bound 4", NO_FILE, "13 at 1"),
    ("images: bound before file", "images log --sectors 4 --bound 4", NO_FILE, "13 at 2"),
    ("images: file before log", "images log --sectors 4", NO_FILE, "14 at 0"),
    ("images: log before count", f"images log {TOO_MANY}", files(TOO_FAR), "9 at 1"),
    ("image: cuts before sectors", "image log 99 --sectors 0 --cuts some", NO_FILE, "13 at 7"),
    ("image: parts before sectors", "image log 99 --sectors 0 --by page", NO_FILE, "13 at 10"),
    ("image: sectors before bound", "image log 99 --sectors 0 --bound 4", NO_FILE, "13 at 1"),
    ("image: bound before file", "image log 99 --sectors 4 --bound 4", NO_FILE, "13 at 2"),
    ("image: file before number", "image log 99 --sectors 4", NO_FILE, "14 at 0"),
    ("image: log before number", "image log 99 --sectors 4", files(BAD_LOG), "1 at 0"),
    ("image: count before number", f"image log 99 {TOO_MANY}", files(WRITE), "12 at 1"),
    ("verify: sectors before file", "verify p --sectors 0", NO_FILE, "13 at 1"),
    ("verify: sectors before program", "verify p --sectors 0", {"p": CUT_PROGRAM}, "13 at 1"),
    ("verify: file before program", "verify p --sectors 4", NO_FILE, "14 at 0"),
    ("verify: bytes before rules", "verify p --sectors 4", {"p": CUT_PROGRAM}, "20 at 0"),
]
ORDER += [(f"cure: {what}", cure, *row) for what, words, *row in ORDER for cure in as_cures([words])]

NO_LOG = {"log": code("b700000001000000 9500000000000000"), **NINE_GOOD}

NUMBERS_OF_PROGRAMS = [
    refused("refused_options, nine programs", f"explore log {NINE} --sectors 4", {**BOTH, **NINE_GOOD}, "refused 13 at 6"),
    refused("nine programs, no log", f"explore log {NINE} --sectors 1", NO_LOG, "refused 13 at 6"),
    refused("cure: nine programs", f"cure log {NINE} --sectors 4", {**BOTH, **NINE_GOOD}, "refused 13 at 6"),
    refused("cure: nine programs, no log", f"cure log {NINE} --sectors 1", NO_LOG, "refused 13 at 6"),
    refused("eight programs, no log", f"explore log {NINE[:-3]} --sectors 1", NO_LOG, "refused 1 at 0"),
    explore(
        "eight programs",
        "--sectors 1",
        [],
        [program(f"mov64 r0, {number}; exit") for number in range(8)],
        report("sectors 1 entries 0 cuts all bound 1 tears no first no\n")
        + "".join(f"program {number} slots 2 budget 2\n" for number in range(8))
        + "".join(f"image 0 cut 0 program {it} answer {it} codes - choice -\n" for it in range(1, 8))
        + "images 1 failing 1 lines 7\n",
        1,
    ),
]

ROWS = [
    *COMMANDS,
    *VERSION,
    *HELP,
    *FAULTS,
    *(refused(f"option: {words}", words, BOTH, f"refused 13 at {place}") for words, place in OPTIONS.items()),
    *ENDS,
    *(refused(f"order: {what}", words, content, f"refused {error}") for what, words, content, error in ORDER),
    *NUMBERS_OF_PROGRAMS,
]
