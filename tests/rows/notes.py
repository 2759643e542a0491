"""The notes: what stands on standard error after each refusal, and beside an answer (docs/REFUSALS.md, Notes)."""
# Seen to fail for planted bugs: a hint for the others, an end before the last one; of the line of progress the last image in place
# of their number, and a number that isn't set back.
from math import comb

from notation import FUA, MARK, D, Entry, F, Folder, Long, M, Row, Something, W, code, files, lines, log, program, report, super_block

GOOD = program("mov64 r0, 0; exit")
GOOD_BYTES = code("b700000000000000 9500000000000000")
LOG = [W(0, 1, 0xAA), F]
OBJECT = b"\x7fELF\x02\x01\x01".ljust(64, b"\0")


def noted(name, words, content, error, *notes):
    """A refused row with its notes."""
    return Row(f"notes: {name}", words, content, status=2, error=error, notes=notes)


# Logs

SUPER = "(docs/LOG-FORMAT.md, Super block)"
SHORT = f"a log has at least 512 bytes {SUPER}"
MAGIC = f"the file doesn't begin as a log does, with 'rhswfsj' {SUPER}"
LOG_FIRST = "LOG stands before the programs, and is what the target dm-log-writes made"
LIMIT = "a log has at most 67108864 bytes, 65536 entries, and 262144 sectors written or discarded (docs/LOG-FORMAT.md, Limits)"
LARGE_LIMIT = "with --large a log has at most 1073741824 bytes, 65536 entries, and 2097152 sectors written or discarded (docs/LOG-FORMAT.md, Limits)"
LARGE_TAKES = "with --large the log is within the limits (docs/LOG-FORMAT.md, Limits)"
SECTORS = "record over a device with sectors of 512 bytes; in a log of your own the size of a sector stands at byte 24"
COPY_MORE = "copy more of the log device; in a log of your own the number of entries stands at byte 16"
FEWER = "copy the first 64 MiB of the log device alone; make file systems without discards"
CUT_SHORT = "the file ends within the entry, its header or its data (docs/LOG-FORMAT.md, Layout)"
PAST = "the entry goes past the device (docs/LOG-FORMAT.md, The device)"


def bad_log(name, content, error, *notes, sectors=4):
    """A log that is refused."""
    return noted(name, f"images log --sectors {sectors}", files(content), error, *notes)


LOGS = [
    bad_log("a short log", b"", "refused 1 at 0", SHORT, LOG_FIRST),
    bad_log("a log of another magic number", bytes(512), "refused 2 at 0", MAGIC, LOG_FIRST),
    bad_log("a log of another version", super_block(0, version=2), "refused 3 at 0", f"the log's version isn't 1 {SUPER}", LOG_FIRST),
    bad_log(
        "a log of other sectors",
        super_block(0, sector_size=4096),
        "refused 4 at 0",
        f"the log's sectors don't have 512 bytes {SUPER}",
        SECTORS,
        "'crashbpf import' makes a log of one with sectors of 4096 bytes",
    ),
    bad_log(
        "a log that is cut short in a header",
        log(LOG)[:-1],
        "refused 5 at 1",
        CUT_SHORT,
        COPY_MORE,
        "the file has 2047 bytes; the entry begins at byte 1536",
    ),
    bad_log(
        "a log that is cut short in data",
        log([F, D(1, 2), M("a"), W(1, 3, 7)])[:-1],
        "refused 5 at 3",
        CUT_SHORT,
        COPY_MORE,
        "the header of entry 3 has sector 1 count 3 flags 0 length 0",
        "the file has 4095 bytes; the entry ends at byte 4096",
    ),
    bad_log(
        "a flag",
        [Entry(flags=32)],
        "refused 6 at 0",
        "the entry has a flag above 16 (docs/LOG-FORMAT.md, Flags)",
        "the header of entry 0 has sector 0 count 0 flags 32 length 0",
    ),
    bad_log(
        "a data length",
        [F, Entry(text=b"a")],
        "refused 7 at 1",
        "the entry has a data length, which only a mark may have (docs/LOG-FORMAT.md, Entry header)",
        "the header of entry 1 has sector 0 count 0 flags 0 length 1",
    ),
    bad_log(
        "a mark of another form",
        [Entry(flags=MARK | FUA)],
        "refused 8 at 0",
        "a mark has no other flag but 16, no sectors, and at most 480 bytes of text (docs/LOG-FORMAT.md, Flags)",
        f"the header of entry 0 has sector 0 count 0 flags {MARK | FUA} length 0",
    ),
    bad_log(
        "a device that is too small",
        [F, W(30, 6, 1, FUA), M("a"), W(0, 1, 2)],
        "refused 9 at 1",
        PAST,
        "entry 1 epoch 1 write fua sector 30 count 6",
        "--sectors 36 is the least that holds this log",
        sectors=35,
    ),
    bad_log(
        "a device that is too small, for a later entry too",
        [W(3, 2, 1), D(7, 1), W(5, 1, 1)],
        "refused 9 at 0",
        PAST,
        "entry 0 epoch 0 write sector 3 count 2",
        "--sectors 8 is the least that holds this log",
    ),
    bad_log(
        "the largest device is needed",
        [W(16383, 1, 1)],
        "refused 9 at 0",
        PAST,
        "entry 0 epoch 0 write sector 16383 count 1",
        "--sectors 16384 is the least that holds this log",
    ),
    bad_log("no device holds it", [W(16383, 2, 1)], "refused 9 at 0", PAST, "no device of at most 16384 sectors holds this log; with --large one may have 33554432"),
    bad_log("no device holds it, with --large neither", [D(33554431, 2)], "refused 9 at 0", PAST, "no device of at most 33554432 sectors holds this log"),
    bad_log("no device holds it, and with --large another fault", [D(16384, 1), W(16384, 1, 1), Entry(flags=32)], "refused 9 at 0", PAST, "no device of at most 16384 sectors holds this log"),
    bad_log("the largest device of --large is needed", [D(33554431, 1)], "refused 9 at 0", PAST, "no device of at most 16384 sectors holds this log; with --large one may have 33554432"),
    bad_log("a device that is too small, and another fault", [W(4, 1, 1), Entry(flags=32)], "refused 9 at 0", PAST),
    bad_log("too many entries", super_block(65537), "refused 10 at 0", LIMIT, FEWER),
    bad_log("too many sectors", [D(0, 16384)] * 17, "refused 10 at 16", LIMIT, FEWER, LARGE_TAKES, sectors=16384),
    bad_log("as many sectors as --large takes", [D(0, 16384)] * 128, "refused 10 at 16", LIMIT, FEWER, LARGE_TAKES, sectors=16384),
    bad_log("too many sectors, with --large as well", [D(0, 16384)] * 129, "refused 10 at 16", LIMIT, FEWER, sectors=16384),
    bad_log("too many sectors, and a log that is cut short", log([D(0, 16384)] * 17 + [F])[:-1], "refused 10 at 16", LIMIT, FEWER, sectors=16384),
    bad_log("too many bytes", Long(lambda: log([F]).ljust((64 << 20) + 1, b"\0")), "refused 10 at 0", LIMIT, FEWER, LARGE_LIMIT),
    bad_log("too many bytes, in an entry", Long(lambda: log([W(0, 16384, 1)] * 9)), "refused 10 at 0", LIMIT, FEWER, LARGE_LIMIT, sectors=16384),
    noted(
        "the log and the program are swapped",
        "explore p0 log --sectors 4",
        {"log": log(LOG), "p0": GOOD},
        "refused 1 at 0",
        SHORT,
        LOG_FIRST,
        "log begins as a log does",
    ),
    noted(
        "the log and a long program are swapped",
        "explore p0 log --sectors 4",
        {"log": log(LOG), "p0": GOOD_BYTES * 32},
        "refused 2 at 0",
        MAGIC,
        LOG_FIRST,
        "log begins as a log does",
    ),
    noted("the same file twice", "explore p p --sectors 4", {"p": bytes(512)}, "refused 2 at 0", MAGIC, LOG_FIRST),
]

# Images

TOO_MANY = "with this cut there are more than 16777216 images (docs/CRASH-MODEL.md, Limits)"
TAKE_FEWER = "take fewer cuts (--cuts flush), a smaller --bound, --by write, or no --tears"
TAKE_FEWER_WRITES = "take fewer cuts (--cuts flush), a smaller --bound, or no --tears"


def too_many(name, options, entries, error, *notes):
    return noted(name, f"images log {options}", files(entries), error, TOO_MANY, TAKE_FEWER, *notes)


IMAGES = [
    too_many(
        "too many images",
        "--sectors 64 --bound 3 --tears",
        [W(0, 64, 0xAA)],
        "refused 12 at 1",
        f"with --bound 2 there are {1 + 1 + 64 * 15 + 64 * 63 // 2 * 225}",
    ),
    too_many(
        "too many images with one less too",
        "--sectors 1024 --bound 3 --tears",
        [W(0, 1024, 0xAA)],
        "refused 12 at 1",
        f"with --bound 1 there are {1 + 1 + 1024 * 15}",
    ),
    too_many(
        "too many images, fewer cuts counted",
        "--sectors 1024 --bound 3 --cuts flush",
        [W(0, 1024, 0xAA), F],
        "refused 12 at 1",
        f"with --bound 2 there are {2 * (1 + 1024 + 1024 * 1023 // 2) - 1024 - 1024 * 1023 // 2}",
    ),
    too_many(
        "too many images, fewer with other cuts",
        "--sectors 64 --bound 3 --tears",
        [W(0, 30, 0xAA), M("a")],
        "refused 12 at 2",
        f"with --cuts flush there are {1 + 30 * 15 + 30 * 29 // 2 * 225 + 30 * 29 * 28 // 6 * 3375}",
        f"with --cuts mark there are {1 + 30 * 15 + 30 * 29 // 2 * 225 + 30 * 29 * 28 // 6 * 3375}",
        f"with --bound 2 there are {1 + 2 * (1 + 30 * 15 + 30 * 29 // 2 * 225)}",
    ),
    too_many(
        "too many images, other cuts not fewer, or none",
        "--sectors 64 --bound 3 --tears",
        [W(0, 60, 0xAA)],
        "refused 12 at 1",
        f"with --bound 2 there are {1 + 1 + 60 * 15 + 60 * 59 // 2 * 225}",
    ),
    noted(
        "too many images to explore",
        "explore log p0 --sectors 64 --bound 3 --tears",
        files([W(0, 64, 0xAA)], GOOD),
        "refused 12 at 1",
        TOO_MANY,
        TAKE_FEWER,
        f"with --bound 2 there are {1 + 1 + 64 * 15 + 64 * 63 // 2 * 225}",
    ),
    noted(
        "too many images to cure",
        "cure log p0 --sectors 64 --bound 3 --tears",
        files([W(0, 64, 0xAA)], GOOD),
        "refused 12 at 1",
        TOO_MANY,
        TAKE_FEWER,
        f"with --bound 2 there are {1 + 1 + 64 * 15 + 64 * 63 // 2 * 225}",
    ),
    noted(
        "too many images by write",
        "images log --sectors 64 --bound 3 --tears --cuts flush --by write",
        files([W(number, 2, 0xAA) for number in range(62)]),
        "refused 12 at 62",
        TOO_MANY,
        TAKE_FEWER_WRITES,
        f"with --bound 2 there are {1 + 62 * 15 + 62 * 61 // 2 * 225}",
    ),
]

# Options, numbers and files

OPTIONS = [
    noted("sectors", "images log --sectors 0", {}, "refused 13 at 1", "--sectors is 1 to 16384, with --large to 33554432"),
    noted("base", "images log --sectors 1 --base base", {"log": log([]), "base": bytes(513)}, "refused 13 at 14", "the file of --base has no more bytes than the device: --sectors is at least a 512th of its bytes"),
    noted("bound", "images log --sectors 4 --bound 4", {}, "refused 13 at 2", "--bound is 0 to 3"),
    noted("workers", "explore log p0 --sectors 4 --workers 65", {}, "refused 13 at 3", "--workers is 1 to 64"),
    noted("cache", "explore log p0 --sectors 4 --cache 65537", {}, "refused 13 at 4", "--cache is 0 to 65536"),
    noted("checked", "explore log p0 --sectors 4 --checked 1000000001", {}, "refused 13 at 5", "--checked is 0 to 1000000000"),
    noted(
        "too many programs",
        "explore log " + "p0 " * 9 + "--sectors 4",
        files(LOG, GOOD),
        "refused 13 at 6",
        "a run has 1 to 8 programs",
    ),
    noted("cuts", "images log --sectors 4 --cuts none", {}, "refused 13 at 7", "--cuts is all, flush or mark"),
    noted("flushes", "images log --sectors 4 --flush 1,", {}, "refused 13 at 12", "--flush is 1 to 64 numbers of entries, with commas between"),
    noted("range", "images log --sectors 4 --from 2 --to 1", {}, "refused 13 at 13", "--from isn't above --to"),
    noted(
        "an entry that the log doesn't have",
        "images log --sectors 4 --flush 99",
        files(LOG),
        "refused 15 at 99",
        "the log doesn't have it: of --flush each is an entry of the log, and --from and --to are at most the number of"
        " entries (docs/COMMANDS.md, Options); 'crashbpf log' lists the entries",
    ),
    noted(
        "a report of another run",
        "why log --sectors 4 --report r",
        {**files(LOG), "r": b"crash report 2\n"},
        "refused 16 at 2",
        "the file of --report isn't the report of this log with these options, or is cut off: the number says at which line that shows; at"
        " line 2 the options, the base or the log that it says are others, or it is of the first failing image alone (docs/OUTPUT.md, The report)",
    ),
    noted("parts", "images log --sectors 4 --by page", {}, "refused 13 at 10", "--by is sector or write"),
    noted(
        "no such image",
        "image log 5 --sectors 4",
        files(LOG),
        "refused 13 at 9",
        "the log has no image of that number with these --cuts, --by, --bound and --tears; 'crashbpf images' tells how many it has",
    ),
    noted("a bound that none of these is", "export log --sectors 4 --bound any", {}, "refused 13 at 2", "--bound is 0 to 3"),
    noted(
        "a report of cases that says its log",
        "explore log p --sectors 4 --inputs --bound any",
        {},
        "refused 13 at 2",
        "--inputs doesn't stand beside --bound any: it is a line of the report, and with --bound any there are cases",
    ),
    noted("a bound of a report that says its log", "explore log p --sectors 4 --inputs --bound 4", {}, "refused 13 at 2", "--bound is 0 to 3"),
    noted("torn", "explore log p0 --sectors 4 --bound any --torn 1", {}, "refused 13 at 20", "--torn is 1 to 3, beside --bound any and --tears"),
    noted("at most", "explore log p0 --sectors 4 --at-most 1", {}, "refused 13 at 21", "--at-most is 1 to 64, beside --bound any"),
    noted("a cache, of any number of losses", "explore log p0 --sectors 4 --bound any --cache 9", {}, "refused 13 at 4", "--cache doesn't stand beside --bound any"),
    noted("images, of any number of losses", "explore log p0 --sectors 4 --bound any --images 0..1", {}, "refused 13 at 17", "--images doesn't stand beside --bound any"),
    noted("a cache, without any number of losses", "explore log p0 --sectors 4 --torn 1 --cache 65537", {}, "refused 13 at 4", "--cache is 0 to 65536"),
    noted("a missing log", "images log --sectors 4", {}, "refused 14 at 0", "log can't be read"),
    noted("a missing program", "explore log p0 there/p1 --sectors 4", files(LOG, GOOD), "refused 14 at 2", "there/p1 can't be read"),
    noted("a folder", "verify p --sectors 4", {"p": Folder()}, "refused 14 at 0", "p can't be read"),
    noted("a name that has to be escaped", 'list é"', {}, "refused 14 at 0", "\\x{c3}\\x{a9}\\x{22} can't be read"),
    noted("no UTF-8", "asm s", {"s": b"\xff"}, "refused 14 at 0", "s is no text in UTF-8"),
]

# Programs

DECODING = "(docs/MACHINE.md, Faults of decoding)"
IS_IT_ONE = "is the file a program? crashbpf-cc makes one of C, 'crashbpf asm' one of an assembly text"
REGISTER = f"there is no such register, or a call is neither of a helper nor of a local function {DECODING}"


def undecoded(name, content, error, *notes, words="verify p --sectors 4"):
    return noted(name, words, {"p": content}, error, *notes)


BYTES = [
    undecoded("half a slot", code("9500000000000000 95"), "refused 20 at 1", f"a program has whole slots of 8 bytes {DECODING}", IS_IT_ONE),
    undecoded("no slot", b"", "refused 21 at 0", f"a program has 1 to 4096 slots {DECODING}", IS_IT_ONE),
    undecoded("an opcode", code("ff00000000000000"), "refused 22 at 0", f"there is no such opcode {DECODING}", IS_IT_ONE, words="list p"),
    undecoded("a register", code("b70b000000000000"), "refused 23 at 0", REGISTER, IS_IT_ONE),
    undecoded("a call of a third kind", code("8520000000000000 9500000000000000"), "refused 23 at 0", REGISTER, IS_IT_ONE),
    undecoded(
        "a field",
        code("9500000000000000 9500000001000000"),
        "refused 24 at 1",
        f"a field isn't zero that has to be, or has no meaning there {DECODING}",
        IS_IT_ONE,
    ),
    undecoded(
        "a second half",
        code("1800000000000000"),
        "refused 25 at 0",
        f"the second half of a 64-bit immediate is missing or has another form {DECODING}",
        IS_IT_ONE,
    ),
    undecoded(
        "an object file",
        OBJECT,
        "refused 24 at 0",
        f"a field isn't zero that has to be, or has no meaning there {DECODING}",
        IS_IT_ONE,
        "p is an object file: crashbpf-cc makes a program of its source",
    ),
    noted(
        "the second program is an object file",
        "explore log p0 p1 --sectors 4",
        files(LOG, GOOD, OBJECT),
        "refused 24 at 0 of program 1",
        f"a field isn't zero that has to be, or has no meaning there {DECODING}",
        IS_IT_ONE,
        "p1 is an object file: crashbpf-cc makes a program of its source",
    ),
    noted("a log as program", "list p", {"p": log(LOG)}, "refused 24 at 0", f"a field isn't zero that has to be, or has no meaning there {DECODING}", IS_IT_ONE, "p begins as a log does"),
]

# Assembly texts

TEXTS = [
    noted(
        "no instruction",
        "asm s",
        {"s": "exit\nfoo\n"},
        "refused 30 at 2",
        "the line begins with no instruction and no label (docs/ASSEMBLY.md, Instructions)",
        "a label has a line of its own, and lines end in a newline alone",
    ),
    noted(
        "operands",
        "asm s",
        {"s": "ldxb r0, [r10]\n"},
        "refused 31 at 1",
        "these aren't the operands of the instruction, or something follows a label (docs/ASSEMBLY.md, Operands)",
        "a place in memory is written [r10-8], with its sign, a target +1, -1 or by its label",
    ),
    noted(
        "a range",
        "asm s",
        {"s": "ja +32768\n"},
        "refused 32 at 1",
        "a number is out of its range, or the text has no instruction or more than 4096 slots (docs/ASSEMBLY.md, Refusals)",
    ),
    noted("no label", "asm s", {"s": "ja x\n"}, "refused 33 at 1", "there is no such label (docs/ASSEMBLY.md, Labels)"),
    noted(
        "a label twice",
        "asm s",
        {"s": "x:\nx:\nexit\n"},
        "refused 34 at 2",
        "the label stands on an earlier line too (docs/ASSEMBLY.md, Labels)",
    ),
]

# The rules of the verifier: a program in one line, where it is refused, the note with the instruction, the rule, the cure

SHAPE = "(docs/VERIFIER.md, Shape rules)"
AT_SLOT = "(docs/VERIFIER.md, Rules at a slot)"
ONE_FUNCTION = "are these the bytes of one whole function? crashbpf-cc takes the one that is named; in C return on each path"
RULES = [
    ("mov64 r0, 0; ja +1; lddw r0, 0; exit", "40 at 1", "slot 1: ja +1", f"the jump leads to no slot in which an instruction begins {SHAPE}", ONE_FUNCTION),
    ("mov64 r0, 0; exit; mov64 r1, 0", "41 at 2", "slot 2: mov64 r1, 0", f"the program ends after this instruction, without an exit {SHAPE}", ONE_FUNCTION),
    (
        "lddw r0, 0; jne r0, 1, -1; exit",
        "42 at 2",
        "slot 2: jne r0, 1, -1",
        f"a loop has a way round without a call of again, helper 3 {SHAPE}",
        "in C begin the loop's body with TURN(times, otherwise), or compile it by crashbpf-cc, which bounds plain loops",
    ),
    (
        "mov64 r1, 0; call 3; jeq r0, 0, +0; exit",
        "43 at 1",
        "slot 1: call 3",
        "call 3 stands after mov64 r1, K, with K from 1 to 1048576, and before a test of r0 against 0, and no jump or local call leads between them (docs/VERIFIER.md, The form of `again`)",
        "in C write TURN, with a constant from 1 to 1048576",
    ),
    (
        "callf -1; exit",
        "44 at 0",
        "slot 0: callf -1",
        "a function calls itself, or it is the last of four calls within each other (docs/VERIFIER.md, Calls within calls)",
        "in C write a loop in place of recursion, and compile by crashbpf-cc, which inlines all but LOCAL functions, memset, memcpy and memcmp too",
    ),
    (
        "; ".join(["mov64 r1, 1048576; call 3; jeq r0, 0, +0"] * 30 + ["mov64 r0, 0; exit"]),
        "45 at 0",
        "a run could take more than 1000000000 steps: the longest path, times 1 and all turns (docs/VERIFIER.md, Budget)",
        "fewer turns, or whole sectors by same, zero and mix",
    ),
    (
        "lddw r2, 5; jgt r3, 1, +0; mov64 r0, 0; exit",
        "50 at 2",
        "slot 2: jgt r3, 1, +0",
        "r3: unset, or not of one kind on all paths",
        f"a register that is read may be unset {AT_SLOT}",
        "give each variable a value, in C on each path; choose a position, not between two addresses (p = c ? &a : &b) or structs (s = c ? a : b); a checker has one parameter, the context, and a LOCAL function takes and answers numbers alone",
    ),
    (
        "ldxb r0, [r10-1]; exit",
        "51 at 0",
        "slot 0: ldxb r0, [r10-1]",
        "r10: the stack, 0 below r10; an access of size 1 at -1 has to lie within its 512",
        f"a byte of the stack that is read may be unwritten {AT_SLOT}",
        "copy fills a local only with the whole size of the local",
    ),
    (
        "mov64 r1, 0; call 1; ldxb r0, [r0+0]; exit",
        "52 at 2",
        "slot 2: ldxb r0, [r0+0]",
        "r0: a sector or 0; a test against 0 has to come first",
        f"the bytes may lie outside of the 512 of a sector or the stack, or the 32 of the context, or the address may be 0 or a number {AT_SLOT}",
        "in C take SECTOR(n, ..), which tests for 0, and test a u64 index with < right before its use: TURN_BELOW, ELEMENT, with KEEP(pointer) in a loop that has ELEMENT twice; or read by position, as u64_at(p)",
    ),
    (
        "stw [r1+0], 7; mov64 r0, 0; exit",
        "53 at 0",
        "slot 0: stw [r1+0], 7",
        "r1: the context, offset 0; an access of size 4 at +0 has to lie within its 32",
        f"a sector or the context is written {AT_SLOT}",
        "write to a local copy",
    ),
    (
        "mul64 r1, 2; mov64 r0, 0; exit",
        "54 at 0",
        "slot 0: mul64 r1, 2",
        "r1: the context, offset 0",
        f"this arithmetic isn't allowed with a pointer, or leaves its range {AT_SLOT}",
        "in C make the index a u64 and test it right before its use, or read by position, as u64_at(p); an array of locals with a variable index needs --guards",
    ),
    (
        "mov64 r0, r1; exit",
        "55 at 1",
        "slot 1: exit",
        "r0: the context, offset 0",
        f"a pointer is compared, answered, stored in part or read as a number {AT_SLOT}",
        "compare indices in place of pointers",
    ),
    (
        "call 4; mov64 r0, 0; exit",
        "56 at 0",
        "slot 0: call 4",
        "r1: the context, offset 0",
        f"an argument of the helper isn't of its kind {AT_SLOT}",
        "copy takes a local and a constant length from 1 to 512; the others take numbers, a sector by its number",
    ),
    ("mov64 r10, 0; exit", "57 at 0", "slot 0: mov64 r10, 0", f"register 10 is written {SHAPE}", "leave r10 to the compiler"),
    (
        "call 8; exit",
        "58 at 0",
        "slot 0: call 8",
        "there is no helper of that number, only 1 to 7, and with --guards 8 to 11 (docs/MACHINE.md, Helpers)",
        "take those of include/checker.h, not Linux's; its checksums take --guards",
    ),
]

# What is known at a slot: a program in one line, where it is refused, the instruction, and what is known of its registers

INSIDE = "; an access of size 8 at +508 has to lie within its 512"
NO_ADDRESS = "; an address is wanted"
TOLD = {error: told for _, error, *told in RULES}

# Where what is known at the slot breaks no rule with guards: what may accept the program.
GUARDS = "--guards may accept the program as it is: its runs then test the places that aren't proved, and an image on which one is outside fails (docs/CHECKERS.md, With guards)"
GUARDS_ELSEWHERE = "'crashbpf explore --guards' may accept the program as it is (docs/CHECKERS.md, With guards); here --checked N runs it without the verifier"


# Refusals by rules that there are with guards, which don't break them there.
WEAKENED = ["50 at 3", "50 at 4", "56 at 0", "56 at 1"]


def of_guards(error, note=GUARDS):
    """The note of guards, where there is one after a refusal."""
    return [note] if 51 <= int(error.split()[0]) <= 55 or error in WEAKENED else []


KNOWN = [
    ("mov64 r1, 0; call 1; jeq r0, 0, +1; ldxdw r0, [r0+508]; exit", "52 at 3", "ldxdw r0, [r0+508]", "r0: a sector, offset 0 to 0" + INSIDE),
    (
        "mov64 r1, 0; call 1; jeq r0, 0, +3; ldxh r1, [r0+0]; add64 r0, r1; ldxsb r0, [r0-2]; exit",
        "52 at 5",
        "ldxsb r0, [r0-2]",
        "r0: a sector, offset 0 to 65535; an access of size 1 at -2 has to lie within its 512",
    ),
    ("ldxw r2, [r1+32]; exit", "52 at 0", "ldxw r2, [r1+32]", "r1: the context, offset 0; an access of size 4 at +32 has to lie within its 32"),
    ("mov64 r0, 5; ldxb r0, [r0+0]; exit", "52 at 1", "ldxb r0, [r0+0]", "r0: the number 5" + NO_ADDRESS),
    ("stxb [r10-1], r10; exit", "55 at 0", "stxb [r10-1], r10", "r10: the stack, 0 below r10; an access of size 1 at -1 has to lie within its 512", "r10: the stack, 0 below r10"),
    ("mov64 r2, r10; add64 r2, -8; mul64 r2, r3; exit", "50 at 2", "mul64 r2, r3", "r2: the stack, 8 below r10", "r3: unset, or not of one kind on all paths"),
    ("mov32 r10, r1; exit", "57 at 0", "mov32 r10, r1"),
    ("mov32 r0, r1; exit", "54 at 0", "mov32 r0, r1", "r1: the context, offset 0"),
    ("neg64 r1; exit", "54 at 0", "neg64 r1", "r1: the context, offset 0"),
    ("movsx8to64 r0, r1; exit", "54 at 0", "movsx8to64 r0, r1", "r1: the context, offset 0"),
    ("jgt r1, r10, +0; exit", "55 at 0", "jgt r1, r10, +0", "r1: the context, offset 0", "r10: the stack, 0 below r10"),
    (
        "mov64 r1, 0; mov64 r2, r10; add64 r2, -8; mov64 r3, 600; call 2; exit",
        "56 at 4",
        "call 2",
        "r1: the number 0",
        "r2: the stack, 8 below r10",
        "r3: the number 600",
    ),
    (
        "mov64 r6, r10; ldxdw r2, [r1+8]; jeq r2, 0, +1; mov64 r6, r1; ldxdw r0, [r6-8]; exit",
        "50 at 4",
        "ldxdw r0, [r6-8]",
        "r6: unset, or not of one kind on all paths",
    ),
    ("mov64 r1, r10; callf +1; exit; ldxb r0, [r1-1]; exit", "50 at 3", "ldxb r0, [r1-1]", "r1: unset, or not of one kind on all paths"),
    ("mov64 r2, 0; call 7; exit", "56 at 1", "call 7", "r1: the context, offset 0", "r2: the number 0"),
]


def known(text, error, instruction, *registers):
    """A row of a program that breaks the rule of an instruction."""
    number, slot = error.split(" at ")
    rule, cure = next(told[-2:] for of, told in TOLD.items() if of.startswith(number))
    return noted(f"known at {instruction}", "verify p --sectors 4", {"p": program(text)}, f"refused {error}", f"slot {slot}: {instruction}", *registers, rule, cure, *of_guards(error))


VERIFIER = [known(*row) for row in KNOWN] + [
    noted(f"rule {error}", "verify p --sectors 4", {"p": program(text)}, f"refused {error}", *told, *of_guards(error)) for text, error, *told in RULES
] + [
    noted(f"rule {error}, of a second program", "explore log p0 p1 --sectors 4", files(LOG, GOOD, program(text)), f"refused {error} of program 1", *told, *of_guards(error))
    for text, error, *told in RULES
] + [
    noted(f"rule {error}, of check", "check p image", {"p": program(text), "image": bytes(2048)}, f"refused {error}", *told, *of_guards(error, GUARDS_ELSEWHERE))
    for text, error, *told in RULES
]

# Beside an answer


def answered(name, words, content, out, *notes):
    return Row(f"notes: {name}", words, content, out, notes=notes)


UNREACHED = "a loop that crashbpf-cc bounds may leave some, else is the checker the first function of its file?"
LOOKS_AT_NOTHING = "looks at no sector that an entry writes, so no crash makes it fail"
NOT_AMONG = "none is ever dropped as a whole"
BY_WRITE = "with --by write each may be dropped as a whole"
LEFT_OUT = "is lost or torn; --bound any explores every loss (docs/CRASH-MODEL.md, What a clean report doesn't say)"
NO_FLUSH = "no entry is a flush, so --cuts flush has the one cut at the end; ask without --cuts"
NO_CUT = "no cut is asked for: no image was judged"
NO_MARK = f"{NO_CUT}; the log has no mark, so --cuts mark has no cut; ask without --cuts"
NONE_IN_RANGE = f"{NO_CUT}; take a wider --from and --to, or ask without --cuts"
ONE_SECTOR, ONE_WRITE = (f"in each image at most 1 {part} {LEFT_OUT}" for part in ("sector", "write"))
LOOKS = program("mov64 r1, 0; call 5; mov64 r0, 0; exit")
FAILS = program("mov64 r1, 0; call 5; mov64 r0, 1; exit")
NO_LARGE = lines("""
    cut 0 epoch 0 marks 0 volatile 0 images 1
    cut 1 epoch 0 marks 0 volatile 1 images 2
    cut 2 epoch 1 marks 0 volatile 0 images 1
    cut 3 epoch 1 marks 0 volatile 0 images 1
    total 5
    """)
TWO_LARGE = """
    cut 4 epoch 0 marks 0 volatile 9 images 46
    cut 5 epoch 1 marks 0 volatile 0 images 1
    total 47
    """
STORED_RUN = report("""
    sectors 1 entries 0 cuts all bound 0 tears no first no
    program 0 slots 2 limit 2
    images 1 failing 0 lines 0
    """)
UNREACHED_ONE = program("mov64 r0, 0; exit; lddw r0, 1; exit")
EXPLORED = report("""
    sectors 4 entries 2 cuts all bound 0 tears no first no
    program 0 slots 5 budget 2
    program 1 slots 2 budget 2
    program 2 slots 5 budget 2
    images 3 failing 0 lines 0
    """)
EXPLORED_CHECKED = report("""
    sectors 4 entries 2 cuts all bound 0 tears no first no
    program 0 slots 5 limit 7
    images 3 failing 0 lines 0
    """)
ANSWERS = [
    answered("nothing to say of a program", "verify p --sectors 4", {"p": GOOD}, "accepted budget 2\n"),
    answered(
        "a function that isn't reached",
        "verify p --sectors 4",
        {"p": program("mov64 r0, 0; exit; lddw r0, 1; exit")},
        "accepted budget 2\n",
        f"instructions that no run reaches: 2, the first at slot 2; {UNREACHED}",
    ),
    answered(
        "an instruction that a jump passes over",
        "verify p --sectors 4",
        {"p": program("lddw r0, 0; ja +1; mov64 r0, 1; exit")},
        "accepted budget 3\n",
        f"instructions that no run reaches: 1, the first at slot 3; {UNREACHED}",
    ),
    answered(
        "functions that aren't reached, of programs that are explored",
        "explore log p0 p1 p2 --sectors 4 --bound 0",
        files(LOG, UNREACHED_ONE, GOOD, UNREACHED_ONE),
        EXPLORED,
        f"program 0: instructions that no run reaches: 2, the first at slot 2; {UNREACHED}",
        f"program 2: instructions that no run reaches: 2, the first at slot 2; {UNREACHED}",
        *(f"program {number}: {LOOKS_AT_NOTHING}" for number in range(3)),
    ),
    answered(
        "what isn't reached is not said of a program that isn't verified",
        "explore log p0 --sectors 4 --bound 0 --checked 7",
        files(LOG, UNREACHED_ONE),
        EXPLORED_CHECKED,
        f"program 0: {LOOKS_AT_NOTHING}",
    ),
    answered("nothing to say of a log", "images log --sectors 4", files([W(0, 1, 1), F, W(0, 4, 1, FUA)]), NO_LARGE),
    answered(
        "writes of more sectors than the bound",
        "images log --sectors 4 --cuts flush --bound 2",
        files([W(0, 3, 1), D(0, 4), W(0, 2, 1), W(0, 3, 1, FUA), F]),
        lines(TWO_LARGE),
        f"entries with more than 2 sectors: 2; {NOT_AMONG}",
        BY_WRITE,
    ),
    answered(
        "writes of more sectors than the bound in a cure, and functions that aren't reached",
        "cure log p0 --sectors 4",
        files([W(0, 1, 1), W(0, 2, 1), F], UNREACHED_ONE),
        lines("""
        crash cure 1
        sectors 4 entries 3 cuts all bound 1 tears no first no
        program 0 slots 5 budget 2
        program 0 failing 0 uncured 0
        images 8 failing 0 lines 0
        """),
        f"program 0: instructions that no run reaches: 2, the first at slot 2; {UNREACHED}",
        f"entries with more than 1 sectors: 1; {NOT_AMONG}",
        BY_WRITE,
    ),
    answered(
        "writes of more sectors than the bound where none is given",
        "images log --sectors 4",
        files([W(0, 1, 1), W(0, 2, 1), F]),
        lines("""
        cut 0 epoch 0 marks 0 volatile 0 images 1
        cut 1 epoch 0 marks 0 volatile 1 images 2
        cut 2 epoch 0 marks 0 volatile 3 images 4
        cut 3 epoch 1 marks 0 volatile 0 images 1
        total 8
        """),
        f"entries with more than 1 sectors: 1; {NOT_AMONG}",
        BY_WRITE,
    ),
    answered(
        "nothing of writes of more sectors than the bound where writes depart",
        "images log --sectors 4 --by write",
        files([W(0, 1, 1), W(0, 2, 1), F]),
        lines("""
        cut 0 epoch 0 marks 0 volatile 0 images 1
        cut 1 epoch 0 marks 0 volatile 1 images 2
        cut 2 epoch 0 marks 0 volatile 2 images 3
        cut 3 epoch 1 marks 0 volatile 0 images 1
        total 7
        """),
    ),
    answered(
        "nothing of bound 0, with which nothing is lost",
        "images log --sectors 4 --bound 0",
        files([W(0, 1, 1)]),
        "cut 0 epoch 0 marks 0 volatile 0 images 1\ncut 1 epoch 0 marks 0 volatile 1 images 1\ntotal 2\n",
    ),
    *(
        answered(f"how much {command} leaves out{options}", f"{command} log p0 --sectors 4{options}", files(LOG, LOOKS), Something(), *said)
        for command, options, *said in (
            ("explore", "", ONE_SECTOR),
            ("explore", " --first", ONE_SECTOR),
            ("explore", " --images 0..1"),
            ("explore", " --cuts flush", ONE_SECTOR),
            ("explore", " --by write", ONE_WRITE),
            ("explore", " --bound 0"),
            ("explore", " --bound 2"),
            ("explore", " --bound any"),
            ("why", ""),
            ("cure", ""),
            ("page", ""),
        )
    ),
    *(
        answered(f"no flush: {words}{options}", f"{words} --sectors 4{options}", files([W(0, 1, 1)], LOOKS), Something(), *said)
        for words, options, *said in (
            ("explore log p0", " --cuts flush", NO_FLUSH, ONE_SECTOR),
            ("explore log p0", " --cuts flush --bound 0", NO_FLUSH),
            ("explore log p0", " --cuts flush --flush 0", ONE_SECTOR),
            ("explore log p0", " --cuts flush --bound any", NO_FLUSH),
            ("explore log p0", " --cuts flush --images 0..1", NO_FLUSH),
            ("explore log p0", " --cuts mark", NO_MARK, ONE_SECTOR),
            *((f"{command} log p0", f" --cuts flush{more}", NO_FLUSH) for command in ("why", "cure", "page") for more in ("", " --bound any")),
            ("images log", " --cuts flush", NO_FLUSH),
            ("images log", " --cuts flush --bound any", NO_FLUSH),
            ("images log", ""),
            ("export log", " --cuts flush", NO_FLUSH),
            ("image log 0", " --cuts flush"),
            ("log log", ""),
        )
    ),
    *(
        answered(f"no cut: {words}{options}", f"{words} --sectors 4{options}", files([W(0, 1, 1, FUA), M("m"), W(0, 1, 2)], LOOKS), Something(), said)
        for words in ("explore log p0", "why log p0", "cure log p0", "page log p0", "images log", "export log")
        for options in (" --bound 0", " --bound any")
        if words != "export log" or options != " --bound any"
        for options, said in ((f"{options} --cuts mark --to 1", NONE_IN_RANGE), (f"{options} --cuts mark --from 3", NONE_IN_RANGE), (f"{options} --cuts flush --to 2", NONE_IN_RANGE))
    ),
    *(
        answered(f"no mark: {words}{options}", f"{words} --sectors 4{options} --cuts mark", files([W(0, 1, 1)], LOOKS), Something(), NO_MARK)
        for words in ("explore log p0", "why log p0", "cure log p0", "page log p0", "images log")
        for options in (" --bound 0", " --bound any")
    ),
    answered("a cut of a range", "explore log p0 --sectors 4 --bound 0 --cuts mark --to 2", files([W(0, 1, 1, FUA), M("m"), W(0, 1, 2)], LOOKS), Something()), 
    answered("how much explore leaves out of large writes", "explore log p0 --sectors 4", files([W(0, 2, 1), F], LOOKS), Something(), f"entries with more than 1 sectors: 1; {NOT_AMONG}", BY_WRITE, ONE_SECTOR),
    Row("notes: how much is left out of a run in which images fail", "explore log p0 --sectors 4", files(LOG, FAILS), Something(), 1, notes=[ONE_SECTOR]),
    answered("nothing beside a listing", "list p", {"p": program("mov64 r0, 0; exit; exit")}, "mov64 r0, 0\nexit\nexit\n"),
    answered("nothing beside the stored run", "", {}, STORED_RUN),
]

# Before a run: how large its report may get, at 528 bytes for each image and each program

WIDE = [W(0, 24, 0xAA)]
WIDE_OPTIONS = "--sectors 24 --cuts flush --bound 3 --tears"
WIDE_IMAGES = sum(comb(24, lost) * 15**lost for lost in range(4))
WIDE_NOTES = [NO_FLUSH, f"entries with more than 3 sectors: 1; {NOT_AMONG}", BY_WRITE]
GIB = 2**30


def lengthy(name, command, images, programs=1, more=""):
    """A row of a run of that many images, none of which fails, with what is said of its report before the line of progress."""
    names = " ".join(f"p{number}" for number in range(programs))
    most = images * programs * 528 if command == "explore" and "--first" not in more else 0
    said = [f"the report may have up to {-(-most // GIB)} GiB; 'crashbpf why' says why images fail in few lines, and --first reports the first alone"] if most > GIB else []
    blind = [f"program {number}: {LOOKS_AT_NOTHING}" for number in range(programs)]
    words = f"{command} log {names} {WIDE_OPTIONS}{more} --progress"
    content = files(WIDE, *[GOOD] * programs)
    return Row(f"notes: before a run: {name}", words, content, Something(), notes=[*blind, *WIDE_NOTES], before=tuple(said), images=images)


def lengthy_part(images, programs=1):
    return lengthy(f"a part of {images} images, {programs} programs", "explore", images, programs, f" --images 7..{7 + images}")


BEFORE = [
    lengthy("a large report", "explore", WIDE_IMAGES),
    lengthy("a large report of three programs", "explore", WIDE_IMAGES, 3),
    lengthy("the first failing image alone", "explore", WIDE_IMAGES, more=" --first"),
    lengthy("why", "why", WIDE_IMAGES),
    lengthy("page", "page", WIDE_IMAGES),
    *(lengthy_part(images, programs) for programs in (1, 2, 8) for images in (GIB // 528 // programs, GIB // 528 // programs + 1)),
    lengthy("a few images", "explore", 100, more=" --images 0..100"),
]

ROWS = [*LOGS, *IMAGES, *OPTIONS, *BYTES, *TEXTS, *VERIFIER, *ANSWERS, *BEFORE]
