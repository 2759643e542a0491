#!/usr/bin/env python3
"""Tests what commands/cc/crashbpf-cc says, leaves and writes, without a compiler.

    python3 tests/gate/cc_faults.py [PROGRAM]

PROGRAM is as in run.py. In place of clang and llvm-objdump stand scripts, which hand out an object file and a listing that are
made here. So is each object file cut off or changed at random, which has to be read, or refused with a line.

Prints a line for each row that failed, and last `N passed, M failed`. It takes some ten seconds.
"""
import os
import random
import re
import shutil
import signal
import struct
import subprocess
import sys
import tempfile
import time
from pathlib import Path

sys.dont_write_bytecode = True

import rooms

rooms.enter()

from machine_model import MEMORY, judged
from notation import TOP, program


from commands.cc.calls import MADE, copy_code, expanded, set_code
from commands.cc.data import ROOM, Memory, with_data
from commands.cc.functions import edits_of, function_tables
from commands.cc.locals import Moved, can_be_told, circular, locals_of
from commands.cc.mutants import Drawer
from commands.cc.pointers import FIRST, STEP, sites_of
from commands.cc.pointers import edits_of as pointer_edits
from commands.cc.program import LDDW, SLOT, NoProgram, Object, slots_of
from commands.cc.shrinking import smallest
from commands.cc.source import Source

CC = TOP / "commands/cc/crashbpf-cc"
CHANGED = 3000
# How long a row waits for what has to come at once.
SECONDS = 90

# By the last way of compiling it hands out another object file, where there is one.
CLANG = """\
#!/bin/sh
object=object
for it; do last=$it; case $it in -E | -fsyntax-only | -c) what=$it ;; -disable-lsr) [ ! -e other ] || object=other ;; esac; done
case $what in
-E) echo "# 1 \\"$last\\""; cat "$last" ;;
-c) if [ -e hang ]; then sleep 1000 & echo $! > sleeping; mv sleeping asleep; wait; fi
    cat > /dev/null; echo >> compiled; cp $object "$last" ;;
esac
"""
LISTING = '#!/bin/sh\ncat listing\n'
HANGS = "#!/bin/sh\nsleep 1000\n"
NOTES = "#!/bin/sh\necho accepted budget 9\necho 'note: instructions that no run reaches: 1' >&2\n"

# Object files

COMMON, FUNCTION, OBJECT, GLOBAL = 0xFFF2, 2, 1, 16


def elf(functions, needs=(), machine=247, data=(), kind=1, addend=None):
    """An object file. A function is a name, its code, and whether it is static; of each the code has a section of its own. Then each
    piece of data has one. A need is a slot of the first function, the name of a symbol, its section, and where in that it lies. Its
    place is of that kind, with an addend beside it where one is given."""
    names, heads, body = b"\0", [(0,) * 10], b""

    def section(name, kind, content, link=0, info=0):
        nonlocal names, body
        heads.append((len(names), kind, 0, 0, 64 + len(body), len(content), link, info, 8, 0))
        names, body = names + name.encode() + b"\0", body + content

    texts, symbols = b"\0", [struct.pack("<IBBHQQ", 0, 0, 0, 0, 0, 0)]
    for number, (name, code, static) in enumerate(functions, 1):
        section(f".text.{name}", 1, code)
        symbols.append(struct.pack("<IBBHQQ", len(texts), FUNCTION + GLOBAL * (not static), 0, number, 0, len(code)))
        texts += name.encode() + b"\0"
    for name, content in data:
        section(f".data.{name}", 1, content)
    for _slot, name, place, *value in needs:
        symbols.append(struct.pack("<IBBHQQ", len(texts), OBJECT + GLOBAL, 0, place, *(value or [0]), 8))
        texts += name.encode() + b"\0"
    first = len(functions) + 1
    beside = b"" if addend is None else struct.pack("<q", addend)
    rows = b"".join(struct.pack("<QQ", 8 * slot, first + i << 32 | kind) + beside for i, (slot, *_) in enumerate(needs))
    section(".strtab", 3, texts)
    section(".symtab", 2, b"".join(symbols), link=len(heads) - 1)
    section(".rel", 9 if addend is None else 4, rows, link=len(heads) - 1, info=1)
    section(".names", 3, b".names\0")
    names, body = names, body + names
    number = len(heads) - 1
    heads[number] = (*heads[number][:4], 64 + len(body) - len(names), len(names), *heads[number][6:])
    head = b"\x7fELF\2\1\1".ljust(16, b"\0") + struct.pack("<HHIQQQIHHHHHH", 1, machine, 1, 0, 0, 64 + len(body), 0, 64, 0, 0, 64, len(heads), number)
    return head + body + b"".join(struct.pack("<IIQQQQIIQQ", *it) for it in heads)


def looked_at(bytes_):
    """What is read of an object file, or the refusal."""
    try:
        object_ = Object(bytes_)
        function = object_.function("check")
        if function is None:
            return None
        needs = list(object_.needs(function))
        moved = object_.moved(function)
        memory = Memory(object_, function)
        calls = {moved[it.slot]: it.name for it in needs if it.kind == "absent" and it.name in MADE and it.slot in moved}
        code, _places = expanded(object_.code(function, moved, memory), calls)
        return with_data(code, memory.beginning())
    except NoProgram as it:
        return it


def changed(bytes_, rng):
    """An object file with a few bytes, or numbers of 2, 4 or 8, that are others."""
    out = bytearray(bytes_)
    for _ in range(rng.choice([1, 1, 2, 4])):
        size = rng.choice([1, 1, 2, 4, 8])
        at = rng.randrange(len(out) - size)
        number = rng.choice([0, 1, 4, 7, (1 << 8 * size) - 1, 1 << 8 * size - 1, rng.getrandbits(8 * size), len(out)])
        out[at : at + size] = (number & (1 << 8 * size) - 1).to_bytes(size, "little")
    return bytes(out)


def odd_objects(code):
    """What isn't read or refused, of object files that are cut off or changed."""
    call = bytes.fromhex("8510000002000000") + code
    local = [("check", call, False), ("sum", code, True)]
    address = bytes.fromhex("18010000000000000000000000000000")
    called = bytes.fromhex("b7030000180000008510000000000000") + code
    wholes = [
        elf([("check", code, False)], [(0, "counter", COMMON)]),
        elf(local),
        elf([("check", address + address + code, False)], [(0, "a", 2), (2, "b", 3)], data=[("a", bytes(range(40))), ("b", bytes(16))]),
        elf([("check", called, False)], [(1, "memcpy", 0)]),
    ]
    for number, whole in enumerate(wholes):
        rng = random.Random(f"object {number}")
        some = [whole[:length] for length in range(len(whole))] + [changed(whole, rng) for _ in range(CHANGED)]
        found = {}
        for it in some:
            try:
                looked_at(it)
            except Exception as error:
                found[repr(error)] = it.hex()
        yield f"odd objects {number}", [f"{error} of {text[:400]}" for error, text in list(found.items())[:3]]


def addresses(code):
    """What is wrong with the address that an instruction gets, by what names it: a section's begin or a symbol inside of it, with a
    distance in the instruction, or beside it."""
    for name, value, distance, given, wanted in (
        ("a section's begin", 0, 0, {}, 0),
        ("a place in a section", 0, 9, {}, 9),
        ("a place before a section", 0, -3, {}, -3),
        ("a symbol inside of a section", 8, 0, {"from_symbols": True}, 8),
        ("a place after such a symbol", 8, 9, {"from_symbols": True}, 17),
        ("such a symbol by an assembler that isn't known", 8, 9, {"from_symbols": False}, "the compiler names it inside of its section"),
        ("a section's begin by an assembler that isn't known", 0, 9, {"from_symbols": False}, 9),
        ("a distance beside the instruction", 0, 0, {"addend": 9}, "has an addend beside it"),
        ("a distance of 0 beside it", 0, 9, {"addend": 0}, 9),
        ("a place of 32 bits", 0, 9, {"kind": 10}, "is filled with it, of kind 10"),
        ("a word of data in the code", 0, 9, {"kind": 2}, "is filled with it, of kind 2"),
    ):
        low, high = distance % 2**32, distance % 2**64 >> 32
        loads = struct.pack("<BBhIBBhI", LDDW, 1, 0, low, 0, 0, 0, high)
        from_symbols = given.pop("from_symbols", True)
        try:
            bytes_ = elf([("check", loads + code, False)], [(0, "it", 2, value)], data=[("it", bytes(range(1, 41)))], **given)
            object_ = Object(bytes_, from_symbols)
            filled = Memory(object_, object_.function("check")).filled_code(loads)
            found = (int.from_bytes(filled[4:8] + filled[12:16], "little") - MEMORY + 2**63) % 2**64 - 2**63
            said = found
        except NoProgram as it:
            found, said = (wanted if str(wanted) in str(it) else None), str(it)
        yield name, [] if found == wanted else [f"{said}, wanted {wanted}"]


# The whole tool


class Place:
    """A folder with a source, an object file, and the programs that stand in for a compiler."""

    def __init__(self, folder, crashbpf):
        self.folder = folder
        for name in ("bin", "tmp"):
            (folder / name).mkdir()
        self.tool("clang", CLANG)
        self.tool("llvm-objdump", LISTING)
        (folder / "bin/crashbpf").symlink_to(crashbpf)
        self.holds("u64 check(const struct context *c)\n{\n\treturn 0;\n}\n", elf([]))

    def tool(self, name, text):
        """Puts a script in the place of a program."""
        path = self.folder / "bin" / name
        path.unlink(missing_ok=True)
        path.write_text(text)
        path.chmod(0o755)

    def holds(self, source, object_, listing="", name="source.c"):
        (self.folder / name).write_text(source)
        (self.folder / "object").write_bytes(object_)
        (self.folder / "listing").write_text(listing)

    def start(self, *words):
        environment = {**os.environ, "PATH": f"{self.folder}/bin:/usr/bin:/bin", "TMPDIR": str(self.folder / "tmp")}
        given = {"cwd": self.folder, "env": environment, "stdin": subprocess.DEVNULL, "stdout": subprocess.PIPE, "stderr": subprocess.PIPE}
        return subprocess.Popen([CC, *words], text=True, start_new_session=True, **given)

    def run(self, *words):
        """The status, and what is printed on both outputs."""
        for it in ("out.bpf", "out.lines"):
            (self.folder / it).unlink(missing_ok=True)
        child = self.start(*(words or ("source.c", "check", "out.bpf")))
        out, said = ended(child, SECONDS)
        return child.returncode, out, said

    def written(self, name):
        """The bytes of a file that was written, or none."""
        path = self.folder / name
        return path.read_bytes() if path.exists() else None

    def left(self):
        return sorted(it.name for it in (self.folder / "tmp").iterdir())


def ended(child, seconds):
    """What a tool prints until it ends, at the latest after some seconds."""
    try:
        return child.communicate(timeout=seconds)
    except subprocess.TimeoutExpired:
        os.killpg(child.pid, signal.SIGKILL)
        return child.communicate()[0], "it went on"


def assembled(crashbpf, folder, text):
    (folder / "text.s").write_text(program(text))
    return subprocess.run([crashbpf, "asm", folder / "text.s"], capture_output=True, check=True).stdout


def listing_of(code, file="source.c"):
    """A listing in which the slot N stands at line 10 and N."""
    return "".join(f"; {file}:{10 + at}\n{at:8}:       word\n" for at in range(len(code) // 8))


def refused(place, line, *words):
    """What is wrong with a refusal, which has status 2 and this first line, and leaves nothing."""
    status, out, said = place.run(*words)
    first = said.split("\n")[0]
    wrong = [] if (status, out) == (2, "") and line in first and "Traceback" not in said else [f"status {status}, '{said[-300:]}', wanted '{line}'"]
    return wrong + [f"{it} was left" for it in place.left()] + ["out.bpf was written"] * (place.folder / "out.bpf").exists()


# A source, the object file of it, and the line that refuses it.
UNNAMED = "cc: source.c has no function check"
SOURCES = {
    "a mistyped name": ("u64 chekc(void)\n{\n\treturn 0;\n}\nu64 root(void)\n{\n\treturn 1;\n}\n", f"{UNNAMED}; it has: chekc root"),
    "static functions alone": ("static u64 sum(void)\n{\n\treturn 0;\n}\n", f"{UNNAMED}; all that it has are static or inline: sum"),
    "no function": ("", f"{UNNAMED}, and no other"),
    "a declaration": ("u64 check(void);\n", f"{UNNAMED}, and no other"),
    "a static checker": ("static u64 check(void)\n{\n\treturn 0;\n}\n", "cc: the function check of source.c isn't compiled by itself: it is static or inline"),
    "brackets within brackets": ("u64 check(void)\n{" + "{" * 3000 + "}" * 3000 + "}\n", "cc: its brackets stand too deep"),
}


def sources(place):
    for name, (source, line) in SOURCES.items():
        place.holds(source, elf([]))
        yield name, refused(place, line)


def objects(place, code):
    """Object files that a compiler makes of odd sources."""
    source = "u64 check(void)\n{\n\treturn 0;\n}\n"
    several = [("check", code, False)]
    for name, object_, line in (
        ("instructions of which the last isn't whole", elf([("check", code + b"\x95\0\0\0", False)]), "cc: the object file can't be read: "),
        ("half of a constant of 64 bits", elf([("check", bytes.fromhex("1800000000000000"), False)]), "cc: the object file can't be read: "),
        ("a call out of the section", elf([("check", bytes.fromhex("8510000063000000") + code, False)]), "cc: the object file can't be read: "),
        ("a common variable", elf(several, [(0, "counter", COMMON)]), "cc: source.c:10 (slot 0) needs counter, which"),
        ("a symbol that isn't there", elf(several, [(0, "counter", 77)]), "cc: source.c:10 (slot 0) needs counter, which"),
        ("an object file of another machine", elf(several, machine=62), "cc: the object file can't be read: it is no "),
        ("no object file", b"BC\xc0\xde" * 20, "cc: the object file can't be read: it is no "),
        ("an empty object file", b"", "cc: the object file can't be read: it is no "),
        ("too many slots", elf([("check", code * 2100, False)]), "cc: the function check has "),
    ):
        place.holds(source, object_, listing_of(code))
        yield name, refused(place, line)


def gone(pid):
    """Whether a process ends, of which somebody else may have to be told."""
    for _ in range(100):
        try:
            if Path(f"/proc/{pid}/stat").read_text().rsplit(")", 1)[1].split()[0] == "Z":
                return True
        except OSError:
            return True
        time.sleep(0.05)
    return False


def hanging(place, name, stop, flag="hang"):
    """What is wrong with the end of the tool while what it runs hangs, its compiler as a rule; `stop` answers the words, and what to do
    then."""
    (place.folder / flag).touch()
    asleep = place.folder / "asleep"
    asleep.unlink(missing_ok=True)
    words, end, wanted = stop
    child = place.start("source.c", "check", "out.bpf", *words)
    begun = time.monotonic()
    while not asleep.exists() and child.poll() is None and time.monotonic() < begun + SECONDS:
        time.sleep(0.01)
    end(child)
    said = ended(child, SECONDS)[1]
    found = [] if (child.returncode, said) == wanted else [f"status {child.returncode}, '{said[-300:]}'"]
    found += [f"{it} was left" for it in place.left()]
    pid = int(asleep.read_text()) if asleep.exists() else None
    if pid and not gone(pid):
        os.kill(pid, signal.SIGKILL)
        found.append("the compiler's child goes on")
    for it in (place.folder / "tmp").iterdir():
        shutil.rmtree(it)
    (place.folder / flag).unlink()
    return name, found


def stopped(place, code):
    """Signals, and programs that take too long."""
    place.holds("u64 check(void)\n{\n\treturn 0;\n}\n", elf([("check", code, False)]), listing_of(code))
    for it in (signal.SIGHUP, signal.SIGINT, signal.SIGTERM):
        yield hanging(place, f"{it.name} at a compiler", ((), lambda child, it=it: child.send_signal(it), (-it, "")))
    said = "cc: clang took more than 1 seconds\n    --timeout SECONDS allows more\n"
    yield hanging(place, "a compiler that takes too long", (("--timeout", "1"), lambda _: None, (2, said)))
    crashbpf = os.readlink(place.folder / "bin/crashbpf")
    place.tool("crashbpf", HANGS)
    yield "a verifier that takes too long", refused(place, "cc: crashbpf took more than 1 seconds", "source.c", "check", "out.bpf", "--sectors", "4", "--timeout", "1")
    looped = bytes.fromhex("b700000000000000" "5500ffff01000000" "9500000000000000")
    place.holds("u64 check(void)\n{" + "\n" * 8 + "for (;;)\n;\n}\n", elf([("check", looped, False)]), listing_of(looped))
    place.tool("crashbpf", NOTES)
    found = place.run("source.c", "check", "out.bpf", "--sectors", "4")
    bound = "cc: source.c:10: at most 65536 turns in a run; then answer 1000000, code 10\n"
    yield "a note on what the tool made", [] if found == (0, "accepted budget 9\n", bound) else [str(found)]
    place.tool("crashbpf", "#!/bin/sh\nexit 101\n")
    yield "a verifier that breaks off", refused(place, "cc: crashbpf verify ended with status 101", "source.c", "check", "out.bpf", "--sectors", "4")
    (place.folder / "bin/crashbpf").unlink()
    (place.folder / "bin/crashbpf").symlink_to(crashbpf)
    for word in ("0", "-1", "x", "1e3", "86401"):
        wrong = place.run("source.c", "check", "out.bpf", "--timeout", word)
        yield f"--timeout {word}", [] if wrong[0] == 2 and "argument --timeout" in wrong[2] else [str(wrong)]


# A program in which calls of memcpy and memset stand before jumps, after them, and between; and what it answers.
BYTES = 40
CALLING = f"""
lddw r6, {MEMORY}
lddw r1, 506097522914230528
stxdw [r6+0], r1
stxdw [r6+13], r1
mov64 r7, 2
ja +1
ja +6
mov64 r1, r6
add64 r1, 100
mov64 r2, r6
mov64 r3, 21
call 500
jne r7, 2, -7
mov64 r8, r0
mov64 r1, r6
add64 r1, 200
mov64 r2, 775
mov64 r4, {BYTES - 1}
mov64 r3, r4
call 501
callf +3
ldxdw r1, [r8+13]
add64 r0, r1
exit
lddw r1, {MEMORY + 200}
ldxdw r0, [r1+{BYTES - 9}]
exit
"""
SEVENS, COUNTED = 0x0707070707070707, 506097522914230528


def calls(crashbpf, folder):
    """What is wrong with calls that are written out: where jumps lead, and what the program answers; and which are refused."""
    code = assembled(crashbpf, folder, CALLING.strip().replace("\n", "; "))
    made = {it.immediate: at for at, it in slots_of(code).items() if it.opcode == 0x85 and it.source == 0}
    names = {made[500]: "memcpy", made[501]: "sets_"}
    out, places = expanded(code, names)
    end = judged(out, Zeros(), 1000, True).text
    wanted = f"answer {(SEVENS + COUNTED) % 2**64} codes -"
    yield "calls that are written out", [] if end == wanted else [f"{end}, wanted {wanted}"]
    grown = len(copy_code(21) + set_code(BYTES - 1)) - 2 * SLOT
    last = places[max(places)] * SLOT
    yield "how much longer it is", [] if len(out) == len(code) + grown and last == len(out) - SLOT else [f"{len(out)} of {len(code)}"]
    outside = assembled(crashbpf, folder, "ja +900; ja -900; exit")
    yield "jumps that lead nowhere", [] if expanded(outside, {}) == (outside, {0: 0, 1: 1, 2: 2}) else ["they have moved"]
    ending = assembled(crashbpf, folder, "jeq r1, 0, +3; mov64 r3, 8; call 500; ja +0")
    wanted = assembled(crashbpf, folder, "jeq r1, 0, +5; mov64 r3, 8; ldxdw r0, [r2+0]; stxdw [r1+0], r0; mov64 r0, r1; ja +0")
    yield "jumps to the end", [] if expanded(ending, {2: "memcpy"})[0] == wanted else [expanded(ending, {2: "memcpy"})[0].hex()]
    for text in UNKNOWN_LENGTHS:
        some = assembled(crashbpf, folder, text + "; exit")
        try:
            expanded(some, {len(some) // SLOT - 2: "memset"})
            yield f"a length that isn't known: {text}", ["it is written out"]
        except NoProgram as it:
            yield f"a length that isn't known: {text}", [] if "for a length that isn't a constant there" in str(it) or "at most 16384 are written out" in str(it) else [str(it)]


class Zeros:
    """A device of one sector that is zeros."""

    class run:
        sectors = 1

    def sector(self, _number):
        return bytes(512)

    def epoch(self):
        return 0

    def marks(self):
        return 0


def memory(place, crashbpf):
    """Programs with data: where it lies, and what is refused."""
    address = "lddw r1, 4; ldxdw r0, [r1+0]; exit"
    code = assembled(crashbpf, place.folder, address)
    for name, data, needs, wanted in [
        ("a number", [("a", bytes(4) + b"\7" + bytes(7))], [(0, "a", 2)], 7),
        ("past a number that isn't needed", [("a", bytes(12)), ("b", bytes(4) + b"\x88" * 8 + bytes(4))], [(0, "b", 3)], 0x8888888888888888),
        ("as much as there is", [("a", bytes(4) + b"\5" + bytes(ROOM - 5))], [(0, "a", 2)], 5),
        ("a byte too much", [("a", bytes(ROOM + 1))], [(0, "a", 2)], f"cc: its variables, tables and strings take {ROOM + 1} bytes, and a program has {ROOM}"),
        ("too many first bytes", [("a", b"\1" * 8 * 2100)], [(0, "a", 2)], "cc: the first bytes of its data take 4202 slots, and with them it has 4206: at most 4096"),
        ("a function", [("a", bytes(16))], [(0, "check", 1)], "cc: source.c:10 (slot 0) needs check, which lies outside"),
        ("another place than an address", [("a", bytes(16))], [(2, "a", 2)], "cc: the object file can't be read: a place of its code is filled with a"),
        ("something that is nowhere", [], [(0, "a", 0)], "cc: source.c:10 (slot 0) needs a, which lies outside"),
    ]:
        place.holds("u64 check(void)\n{\n\treturn 0;\n}\n", elf([("check", code, False)], needs, data=data), listing_of(code))
        if isinstance(wanted, str):
            yield f"data: {name}", refused(place, wanted)
            continue
        status, _, said = place.run()
        end = judged(place.written("out.bpf"), Zeros(), 10_000, True).text if status == 0 else said
        size = sum(len(content) for label, content in data if label == needs[0][1])
        told = "cc: it has what programs have with guards alone: explore needs --guards\n" f"cc: its variables, tables and strings take {size} of {ROOM} bytes of memory\n"
        yield f"data: {name}", [] if end == f"answer {wanted} codes -" and said.startswith(told) else [f"{end}, {said}"]
        yield f"data: {name}, without guards", refused(place, "which lies outside of the function check", "source.c", "check", "out.bpf", "--no-guards")


# Quotients and remainders of signed numbers, one by one.
DIVIDED = """
mov64 r1, -17
mov64 r2, 5
call 500
mov64 r6, r0
mov64 r1, -17
mov64 r2, 5
call 501
mul64 r6, 1000
add64 r6, r0
mov64 r1, -17
mov64 r2, 0
call 500
add64 r6, r0
mov64 r1, -17
mov64 r2, 0
call 501
mul64 r0, 100
add64 r0, r6
exit
"""


def divisions(crashbpf, folder):
    """What is wrong with signed divisions that are written out."""
    code = assembled(crashbpf, folder, DIVIDED.strip().replace("\n", "; "))
    calls_ = {at: it.immediate for at, it in slots_of(code).items() if it.opcode == 0x85}
    for names in (("__divdi3", "__moddi3"), ("divides_", "remains_")):
        out, _places = expanded(code, {at: names[number - 500] for at, number in calls_.items()})
        end = judged(out, Zeros(), 1000, True).text
        # -17 / 5 is -3 and -2 are left; by 0 it is 0, and all is left.
        wanted = f"answer {(-3000 - 2 + 0 - 1700) % 2**64} codes -"
        yield f"divisions {names}", [] if end == wanted else [f"{end}, wanted {wanted}"]


# What a compiler prints that makes nothing, of a source in whose lines the cause stands, and how the refusal begins.
CAUSES = """\
static u64 (*const table[])(u64) = { first };
static u64 first(u64 n) { return n; }
static u64 some(int n, ...) { return n; }
static u64 down(u64 n) { return down(n - 1); }
u64 check(void)
{
	down(1);
	return some(1) + first(2);
	goto *(&&a);
	a: __atomic_fetch_add(0);
}
static u64 unneeded(void) { __sync_synchronize(); goto *0; }
"""
NOTED = "source.c:5:5: note: could not determine the original source location for source.c:7:2"
SAYINGS = [
    (f"source.c:5:5: error: A call to built-in function '__muldf3' is not supported.\n{NOTED}", "cc: source.c:7: floating point"),
    ("source.c:8:5: error: A call to built-in function '__multi3' is not supported.", "cc: source.c:8: a number of 128 bits"),
    ("source.c:8:5: error: A call to built-in function '__atomic_fetch_add_8' is not supported.", "cc: source.c:8: an atomic operation"),
    ("source.c:8:5: error: A call to built-in function 'qsort' is not supported.", "cc: source.c:8: qsort is called"),
    ("source.c:9:1: error: indirect call in function, which are not supported by eBPF", "cc: source.c:1: first is called by a pointer"),
    ("source.c:3:1: error: functions with VarArgs or StructRet are not supported", "cc: source.c:3: some has variable arguments"),
    ("source.c:3:12: error: function 'some' can never be inlined because it uses variable argument lists", "cc: source.c:3: some has variable arguments"),
    ("source.c:4:12: error: inlining failed in call to 'always_inline' 'down': recursive inlining", "cc: source.c:4: down calls itself"),
    ("source.c:2:12: error: too many function arguments for eBPF", "cc: source.c:2: a function that is LOCAL and takes more"),
    ("fatal error: error in backend: Unsupported dynamic stack allocation", "cc: an array whose length is a variable"),
    ("source.c:3:1: error: functions with StructRet are not supported", "cc: source.c:3: some has variable arguments"),
    ("fatal error: error in backend: Cannot select: 0x1: ch = brind 0x2", "cc: source.c:9: a goto to a place that is computed"),
    ("source.c:8:1: sorry, unimplemented: indirect jumps are not available on this target", "cc: source.c:9: a goto to a place that is computed"),
    ("fatal error: error in backend: Cannot select: 0x1: i64 = AtomicLoadAdd", "cc: source.c:10: an atomic operation"),
    ("fatal error: error in backend: Cannot select: 0x1: ch = AtomicFence 0x2", "cc: source.c:10: an atomic operation"),
    ("source.c:8:1: sorry, unimplemented: indirect jumps, and no goto\nsource.c:8:3: error: A call to built-in function 'longjmp' is not", "cc: source.c:9: a goto to a place that is computed"),
    ("source.c:8:3: error: A call to built-in function 'longjmp' is not supported.", "cc: source.c:8: a jump by setjmp"),
    ("source.c:8:3: error: A call to built-in function 'calloc' is not supported.", "cc: source.c:8: memory of a library"),
    ("source.c:3:9: error: control reaches end of non-void function [-Werror=return-type]", "cc: source.c:3: a path without an answer"),
    ("source.c:8:3: sorry, unimplemented: no constructors", "cc: source.c:8: a function that runs before all others"),
    ("source.c:8:3: error: invalid register/token name", "cc: source.c:8: assembly that no program has"),
    ("folder/x.s: Assembler messages:\nfolder/x.s:15: Error: unrecognized form of instruction `nop'", "cc: x.s:15: assembly that no program has"),
    ("source.c:8:3: error: thread-local storage is not supported for the current target", "cc: source.c:8: a variable of a thread"),
    ("source.c:8:3: error: A call to built-in function 'abort' is not supported.", "cc: source.c:8: an end by abort or a trap"),
    ("PLEASE submit a bug report\nerror: no more", "cc: clang broke off on source.c"),
    ("source.c:8:2: error: something else", "cc: source.c:8:2: error: something else"),
    ("source.c:5:1: error: A call to built-in function '__muldf3' is not.\nsource.c:8:2: error: else", "cc: source.c:5: floating point"),
]
# What a compiler prints that refuses the source, and what helps.
HINTS = [
    ("source.c:1:6: error: redefinition of 'check'", "a file may hold several checkers, each with a name of its own"),
    ("source.c:1:6: error: redefinition of 'strcmp_'", "checker.h has strcmp: leave yours out, or give it another name"),
    ("source.c:1:6: error: redefinition of \u2018memcpy_whole_\u2019", "checker.h has memcpy: leave yours out"),
    ("source.c:1:10: fatal error: 'chekcer.h' file not found", "checker.h is found from anywhere"),
    ("source.c:1:10: fatal error: chekcer.h: No such file or directory", "checker.h is found from anywhere"),
    ("/usr/include/ctype.h:1:10: fatal error: 'bits/types.h' file not found", "a checker has no library, and of its headers there are stdint.h, "),
    ("source.c:1:10: fatal error: assert.h: No such file or directory", "of its functions there are memcmp, memcpy, memset, memmove, memchr, strlen, strnlen, strcmp, strncmp, strchr"),
    ("source.c:2:1: error: unknown type name 'u64'", "a checker begins with #include"),
    ("source.c:2:1: error: unknown type name \u2018s32\u2019; did you mean", "signed numbers are signed char, short, int and long long, or int8_t"),
    ("/usr/include/assert.h:35:10: fatal error: 'bits/types.h' file not found", "in place of assert(x) an answer"),
    ("source.c:5:6: error: non-void function does not return a value in all control paths", "a return on each path"),
    ("source.c:5:6: error: function definition is not allowed here", "functions stand beside one another"),
    ("source.c:5:6: error: thread-local storage is not supported for the current target", "a run has no threads"),
    ("source.c:5:6: error: __builtin_setjmp is not supported for the current target", "in place of setjmp an answer"),
    ("source.c:6:20: error: invalid output constraint '=a' in asm", "a program has no assembly of another machine"),
    ("source.c:2:1: error: unknown type name 'bool'", "bool is in stdbool.h: #include <stdbool.h>"),
    ("source.c:2:1: error: something else", "see its errors above"),
]
READS = "#!/bin/sh\ncat said >&2\nexit 1\n"
FAILS = "#!/bin/sh\nfor it; do last=$it; case $it in -E | -fsyntax-only | -c | -S) what=$it ;; esac; done\n"
FAILS += 'case $what in\n-E) echo "# 1 \\"$last\\""; cat "$last" ;;\n-fsyntax-only) [ ! -e sizes ] || cat sizes >&2 ;;\n*) cat said >&2; exit 1 ;;\nesac\n'


def sayings(place):
    """Which refusals are made of what compilers print."""
    place.tool("clang", FAILS)
    for said, line in SAYINGS:
        place.holds(CAUSES, elf([]))
        (place.folder / "said").write_text(said + "\n")
        yield f"a compiler says {said[:60]}", refused(place, line)
    place.tool("clang", READS)
    for said, hint in HINTS:
        (place.folder / "said").write_text(said + "\n")
        status, _, told = place.run()
        good = status == 2 and told.startswith(f"{said}\ncc: clang didn't compile source.c\n") and f"\n    {hint}" in told
        yield f"what helps where a compiler says {said}", [] if good else [f"{status} {told}"]
    place.tool("clang", FAILS)
    place.holds(LARGE, elf([]))
    (place.folder / "said").write_text("error: Looks like the BPF stack limit of 512 bytes is exceeded.\n")
    (place.folder / "sizes").write_text("".join(f"it: 'char (*)[{number}][{size}][1]'\n" for number, size in ((1, 8), (2, 400), (3, 24), (4, 600))))
    status, _, said = place.run("source.c", "check", "out.bpf", "--no-guards")
    named = "\ncc: the locals of check and of what is inlined in it take more than 512 bytes\n    source.c:3: d of check takes 600 bytes\n    source.c:1: b of other takes 400 bytes\n    source.c:3: s of check takes 24 bytes\n"
    yield "locals that are too large", [] if status == 2 and named in said else [f"{status} {said}"]
    place.holds(SIZED, elf([]))
    (place.folder / "said").write_text("fatal error: error in backend: Unsupported dynamic stack allocation\n")
    (place.folder / "sizes").write_text("it: 'char (*)[1][40][5]'\n")
    status, _, said = place.run()
    named = "cc: source.c:3: b is an array whose length is a variable\n    source.c:4: an array whose length is a variable\n    an array of the greatest length"
    yield "arrays whose length is a variable", [] if status == 2 and named in said else [f"{status} {said}"]
    (place.folder / "sizes").unlink()
    place.tool("clang", CLANG)


SIZED = "static u64 other(u64 n)\n{ u64 a[5];\nu8 b[n];\nreturn alloca(n)[0]; }\nu64 check(void) { return other(3); }\nstatic u64 none(u64 n) { u8 e[n]; }\n"
LARGE = "static u64 other(void) { u64 n; u8 b[400]; return n; }\nu64 check(void)\n{ struct it s, *p; u8 d[600] = { 1, other() };\nreturn other(); }\nstatic u64 none(void) { u8 e[900]; }\n"


class Noted:
    """In place of a compiler: what it writes for bytes that are zeros."""

    def zeros(self, place, length):
        return f"zeros({place}, {length});"


# The body of a function, how large its arrays and structs are in their order, the images of these, and what it becomes.
STATICS = [
    ("u8 b[600];", [600], [None], "static u8 b[600]@; "),
    ("u64 n = 4; u8 b[600], c;", [8, 600, 1], [None] * 3, "u64 n = 4; static u8 b[600]@;  u8 c;"),
    ("u8 b[] = { 1 };", [600], [b"\1" + bytes(599)], "static u8 b[600]@; zeros((char *)&b + 0, 512); zeros((char *)&b + 512, 88); { T*(crashbpf_8_ *)((char *)&b + 0) = 1ull; }"),
    ("const u8 b[] = { 1 };", [600], [b"\1" + bytes(599)], "static const u8 b[600]@ = { 1 };"),
    ("const u64 b[80] = { n, m };", [640], [False], "static  u64 b[80]@; zeros((char *)&b + 0, 512); zeros((char *)&b + 512, 128); b[0] = n; b[1] = m;"),
    ("const char *b[80] = { n };", [640], [False], "static const char *b[80]@; zeros((char *)&b + 0, 512); zeros((char *)&b + 512, 128); b[0] = n;"),
    ("register struct it s = f(1, 2), *p = &s;", [300], [False], "static  struct it s@; s = f(1, 2); register struct it *p = &s;"),
    ("state s = { .a = n, .b[2] = m };", [300], [False], "static state s@; zeros((char *)&s + 0, 300); s.a = n; s.b[2] = m;"),
    ("state s = { n, m };", [300], [False], None),
    ("state s = { .a = { n } };", [300], [False], None),
    ("u64 b[80] = { [3] = n, m };", [640], [False], None),
    ("u8 b[600] = { ({ n; }) };", [600], [False], None),
    ("struct { u8 b[600]; } s, t;", [600, 600], [None] * 2, None),
    ("b[600] = 4; f(n); return c; x: g(); static u8 d[600]; extern u8 e[600];", [], [], None),
    ("u8 b[3]; u64 n;", [3, 8], [None] * 2, None),
]


def statics():
    """What becomes of declarations of large locals."""
    for body, sizes, images, wanted in STATICS:
        source = Source(f"u64 check(void) {{ {body} }}")
        found = locals_of(source, source.functions)
        for it, size, image in zip(found, sizes, images):
            it.size, it.count, it.image = size, 600, image
        moved = Moved(source, found, source.functions, Noted())
        moved.able = [it for it in moved.able if can_be_told(moved, it)]
        text = source.edited(list(moved.edits(moved.locals(), moved.static)))[len("u64 check(void) { ") : -2]
        text = re.sub("(typedef [^;]*; )+", "T", text.replace(" __attribute__((__aligned__(8)))", "@"))
        good = len(found) == len(sizes) and text == (wanted or body)
        yield f"a static in place of {body}", [] if good else [f"{len(found)} locals: {text}"]
    for text, again in (("f() { f(); } g() { f(); }", ["f"]), ("f() { g(); } g() { f(); } h() { f(); }", ["f", "g"]), ("f() { h(&g); } g() { h(0); } h(p) { p(); }", ["g", "h"])):
        source = Source(text)
        found = [it.name for it in circular(source, source.functions)]
        yield f"functions that may be called while they run: {text}", [] if found == again else [str(found)]


# What stands in front of a call whose length isn't a constant on each way to it.
UNKNOWN_LENGTHS = [
    "ja +0; mov64 r3, 5; jeq r0, 0, -1; call 500",
    "jeq r0, 0, +1; mov64 r3, 5; call 500",
    "jeq r0, 0, +1; mov64 r3, 5; mov64 r2, 0; call 500",
    "ldxdw r3, [r10-8]; call 500",
    "mov64 r3, r4; call 500",
    "call 4; call 500",
    "mov64 r3, 5; call 4; call 500",
    "mov64 r3, -1; call 500",
    "mov64 r3, 5; add64 r3, 1; call 500",
    "mov64 r3, 5; jeq r0, 0, +0; call 500",
    "mov64 r3, 16385; call 500",
]


# A call in the midst of others, and of what is written out for it the slots at which an instruction begins.
MIDST = "mov64 r1, r10; add64 r1, -64; mov64 r2, r10; add64 r2, -32; mov64 r3, 24; call 500; mov64 r0, 0; exit"
BEGUN = {"memcpy": range(5, 12), "memset": (5, 6, 8, 9, 10, 11, 12)}


def lines_of_calls(place, crashbpf):
    """Which lines the slots have of a call that is written out, and those around it."""
    code = assembled(crashbpf, place.folder, MIDST)
    for name, begun in BEGUN.items():
        place.holds("u64 check(void)\n{\n\treturn 0;\n}\n", elf([("check", code, False)], [(5, name, 0)]), listing_of(code))
        status, _, said = place.run("source.c", "check", "out.bpf", "--sectors", "4")
        numbers = [*range(5), *begun, begun[-1] + 1, begun[-1] + 2]
        lines = [*range(10, 15), *[15] * len(begun), 16, 17]
        wanted = "".join(f"{at} source.c {line}\n" for at, line in zip(numbers, lines))
        found = (place.written("out.lines") or b"").decode()
        yield f"the lines of {name}", [] if (status, found) == (0, wanted) else [f"{status} {said} {found}"]
    place.holds("u64 check(void)\n{\n\treturn 0;\n}\n", elf([("check", code, False)], [(5, "memmove", 0)]), listing_of(code))
    yield "a call of memmove", refused(place, "cc: source.c:15 (slot 5) needs memmove, which lies outside of the function check")


NULL_POINTER = "mov64 r1, 0; call 1; ldxb r0, [r0+0]; exit"
GUARDED = "cc: accepted with guards: explore needs --guards\ncc: source.c:12: slot 2 is guarded: ldxb r0, [r0+0]\n"
LINES = "0 source.c 10\n1 source.c 11\n2 source.c 12\n3 source.c 13\n"
REFUSED = "refused 52 at 2\n"

# A program, words of the tool; the status, the output, how the errors begin, and the lines of slots.
ACCEPTED = [
    ("mov64 r0, 0; exit", "", 0, "accepted budget 2\n", "", "0 source.c 10\n1 source.c 11\n"),
    (NULL_POINTER, "", 0, "accepted budget 4 guards 1\n", GUARDED, LINES),
    (NULL_POINTER, "--guards", 0, "accepted budget 4 guards 1\n", GUARDED, LINES),
    (NULL_POINTER, "--no-guards", 2, "", REFUSED, None),
    ("mov64 r0, r1; exit", "", 0, "accepted budget 2 guards 0\n", "cc: accepted with guards: explore needs --guards\n", "0 source.c 10\n1 source.c 11\n"),
    ("ldxb r0, [r3+0]; mov64 r0, 0; jne r0, 1, -2; exit", "", 2, "", "refused 42 at 1\n", None),
    ("mov64 r1, 1; mov64 r2, r10; ldxdw r3, [r10-8]; call 2; exit", "", 2, "", "refused 56 at 3\n", None),
    ("mov64 r0, 0; exit; exit", "", 0, "accepted budget 2\n", "note: instructions that no run reaches: 1", "0 source.c 10\n1 source.c 11\n2 source.c 12\n"),
]


def accepted(place, crashbpf):
    """Programs that are accepted with guards or without, and what is said and written of them."""
    source = "u64 check(void)\n{\n\treturn 0;\n}\n"
    for text, words, status, printed, errors, lines in ACCEPTED:
        code = assembled(crashbpf, place.folder, text)
        place.holds(source, elf([("check", code, False)]), listing_of(code))
        found = place.run("source.c", "check", "out.bpf", "--sectors", "4", *words.split())
        written = {it: place.written(it) for it in ("out.bpf", "out.lines")}
        wanted = {"out.bpf": code if status == 0 else None, "out.lines": lines.encode() if lines else None}
        good = found[:2] == (status, printed) and found[2].startswith(errors) and bool(found[2]) == bool(errors)
        yield f"{text} {words}", [] if good and written == wanted and not place.left() else [f"{found}, {written}"]


def ways(place, crashbpf):
    """Which program is taken of the ways in which a checker is compiled, and how often it is: the last way makes another one."""
    guarded, strict, unset = (assembled(crashbpf, place.folder, it) for it in (NULL_POINTER, "mov64 r0, 7; exit", "exit"))
    for first, last, words, wanted in (
        (strict, guarded, "", (0, strict, 1)),
        (strict, guarded, "--no-guards", (0, strict, 1)),
        (guarded, strict, "", (0, guarded, 1)),
        (guarded, strict, "--guards", (0, guarded, 1)),
        (guarded, strict, "--no-guards", (0, strict, 3)),
        (guarded, unset, "--no-guards", (2, None, 3)),
        (unset, guarded, "", (0, guarded, 3)),
        (unset, guarded, "--no-guards", (2, None, 3)),
        (unset, unset, "", (2, None, 3)),
    ):
        place.holds("u64 check(void)\n{\n\treturn 0;\n}\n", elf([("check", first, False)]), listing_of(first))
        (place.folder / "other").write_bytes(elf([("check", last, False)]))
        yield f"{first.hex()} and by the last way {last.hex()} {words}", counted(place, words, wanted)
    (place.folder / "other").unlink()


def counted(place, words, wanted):
    """What is wrong with the status, with what is written, or with how often the compiler made an object file."""
    (place.folder / "compiled").unlink(missing_ok=True)
    status, _, said = place.run("source.c", "check", "out.bpf", "--sectors", "4", *words.split())
    found = (status, place.written("out.bpf"), len(place.written("compiled")))
    return [] if found == wanted else [f"{found}, wanted {wanted}: {said[-300:]}"]


# In place of what cc makes: it answers 1 where the first byte isn't 0, or where `wrong` is 7 if the second isn't. It makes the third the first.
NATIVE = """\
#!/bin/sh
bytes() { set -- $(od -An -tu1 -N3 "$1"); one=$1 two=$2; }
for it; do last=$it; done
case $1 in
--mend) [ -e mends ] || exit 3
    bytes "$2"; printf "\\\\$(printf %o "$one")" | dd of="$2" bs=1 seek=2 conv=notrunc status=none; exit ;;
--reads) echo "read 0 2"; exit ;;
esac
bytes "$last"
[ "$one" = 0 ] || one=1
[ ! -e wrong ] || [ "$two" = 0 ] || one=7
echo "answer $one codes -"
[ "$one" = 0 ]
"""
MAKES = "#!/bin/sh\nfor it; do last=$it; done\ncp native.sh \"$last\"; chmod +x \"$last\"\n"
# It asks that the first two bytes are 0; or with `sums` that the third is the first.
JUDGES = """\
#!/bin/sh
[ ! -e slow ] || { sleep 1000 & echo $! > sleeping; mv sleeping asleep; wait; }
set -- $(od -An -tu1 -N3 "$1")
if [ -e sums ]; then [ "$1" = "$3" ]; else echo "bytes $1 $2"; [ "$1$2" = 00 ]; fi
"""
FIRST_BYTE = "mov64 r1, 0; call 1; jne r0, 0, +2; mov64 r0, 9; exit; ldxb r0, [r0+0]; jeq r0, 0, +1; mov64 r0, 1; exit"
AGAINST = ["source.c", "check", "out.bpf", "--mutants", "16", "--timeout", "60", "--against"]


def against(place, crashbpf):
    """What is said of a checker that is compared with a tool."""
    code = assembled(crashbpf, place.folder, FIRST_BYTE)
    place.holds("u64 check(void)\n{\n\treturn 0;\n}\n", elf([("check", code, False)]), listing_of(code))
    place.tool("cc", MAKES)
    place.tool("judge", JUDGES)
    (place.folder / "native.sh").write_text(NATIVE)
    (place.folder / "a.img").write_bytes(bytes(1024))
    (place.folder / "b.img").write_bytes(bytes(1000) + b"\5" * 24)
    yield from compared(place)
    yield from not_compared(place)
    for words, flag, end in (("kill -9 $$; true {}", None, "signal 9"), ("judge {}", "slow", "no answer in time")):
        (place.folder / (flag or "nothing")).touch()
        status, out, _ = place.run(*AGAINST[:3], "--mutants", "0", "--timeout", "5", "--against", words, "a.img")
        line = f"good by the checker alone (checker: answer 0, tool: {end}): 1 of 1\n    1: a.img as it is\n"
        yield f"a tool that ends with {end}", [] if status == 1 and out.endswith(line) and not place.left() else [f"{status} {out}"]
        (place.folder / (flag or "nothing")).unlink()
    stop = ((*AGAINST[3:], "judge {}", "a.img", "-j", "2"), lambda child: child.send_signal(signal.SIGTERM), (-signal.SIGTERM, ""))
    yield hanging(place, "SIGTERM at a tool", stop, "slow")


def compared(place):
    """What is found by comparisons, and that it is the same by one process as by several."""
    head = r"compared on 2 images and 16 mutants, seed 1(?:, most with their sums mended)?\n"
    alone = head + r"good by both \d+, bad by both [1-9]\d*, good by the checker alone (\d+), good by the tool alone 0\n"
    alone += r"good by the checker alone \(checker: answer 0, tool: status 1\): \1 of 18\n(    \d: [ab].img byte 1 \(sector 0\+1\) 00 -> ..; the tool: bytes 0 \d+\n)+$"
    differ = head + r".*\n(?:.*\n)*the program and the native build differ \(answer 0, answer 7\): \d+ of 18\n"
    differ += r"(    \d+: [ab].img byte 1 \(sector 0\+1\) 00 -> ..; the program: answer 0; the native build: answer 7 codes -\n)+"
    differ += r"good by the checker alone \(checker: answer 0, tool: status 1\): \d+ of 18\n(    \d+: [ab].img byte 1 \(sector 0\+1\) 00 -> ..; the tool: bytes 0 \d+\n)+$"
    mended = head + r".*, good by the tool alone (\d+)\n(.*\n)*good by the tool alone \(checker: answer 1, tool: status 0\): \1 of 18\n    \d: [ab].img byte 0 \(sector 0\+0\) 00 -> (..), mended byte 2 \(sector 0\+2\) 00 -> \3; the program: answer 1 codes -\n"
    for name, flags, pattern, wanted in (
        ("a tool that sees more", [], alone, 1),
        ("a native build that answers otherwise", ["wrong"], differ, 1),
        ("sums that are mended", ["mends", "sums"], mended, 1),
    ):
        for it in flags:
            (place.folder / it).touch()
        runs = [place.run(*AGAINST, "judge {}", "a.img", "b.img", "-j", it, "--keep", "kept") for it in ("2" if flags else "13")]
        accepted_, _, out = runs[0][1].partition("\n")
        good = runs[0] == runs[-1] and runs[0][0] == wanted and accepted_.startswith("accepted budget") and re.match(pattern, out)
        kept = place.written("kept/1.img") or b""
        good = good and len(kept) == 1024 and place.written("out.bpf")
        yield f"compared: {name}", [] if good and not place.left() else [f"{it[0]} {it[1]} {it[2]}" for it in runs]
        for it in flags:
            (place.folder / it).unlink()
    status, out, said = place.run(*AGAINST, "od -An -tu1 -N1 {} | grep -qx ' *0'", "a.img")
    good = status == 0 and re.search(r"good by both \d+, bad by both \d+, good by the checker alone 0, good by the tool alone 0\n$", out)
    yield "compared: a tool that agrees", [] if good and not said and place.written("out.bpf") else [f"{status} {out} {said}"]
    drawn = [random.Random(f"{it} 0") for it in "112"]
    first, again, other = (Drawer("1 2 3", 2, [0]).changed(bytes(1024), it) for it in drawn)
    yield "compared: the seed tells the mutants", [] if first == again != other and len(other) == 1024 else ["others"]


def not_compared(place):
    """What isn't compared, and why."""
    (place.folder / "odd.img").write_bytes(bytes(1000))
    (place.folder / "out.bpf").write_bytes(bytes(512))
    for words, line in (
        (["judge", "a.img"], "cc: the command of --against has no {}: judge"),
        (["judge {}"], "cc: --against has no image after its command"),
        (["judge {}", "odd.img"], "cc: the image odd.img has 1000 bytes, and has to be 1 to 16384 sectors of 512"),
        (["judge {}", "no.img"], "cc: the image no.img can't be read: No such file"),
        (["judge {}", "."], "cc: the image . "),
        (["juge {}", "a.img"], "cc: the command of --against can't be run: sh: 1: juge: not found"),
    ):
        status, out, said = place.run(*AGAINST, *words)
        good = status == 2 and said.startswith(line) and not place.written("out.bpf") and not place.left()
        yield f"not compared: {' '.join(words)}", [] if good else [f"{status} {out} {said}"]
    (place.folder / "checker.img").write_bytes(bytes(512))
    found = place.run(*AGAINST[:2], "checker.img", *AGAINST[3:], "judge {}", "checker.img")
    yield "an image that would be overwritten", [] if found[0] == 2 and "cc: checker.img is an image of --against" in found[2] else [str(found)]
    for words in ("--mutants 5", "-j 2", "--seed x", "--keep x", "--marks 1"):
        found = place.run(*AGAINST[:3], *words.split())
        yield f"{words} without a tool", [] if found[0] == 2 and "stand beside --against" in found[2] else [str(found)]
    for words in ("-j 0", "--mutants x", "--epoch 10001"):
        found = place.run(*AGAINST, "judge {}", "a.img", *words.split())
        yield f"{words} with a tool", [] if found[0] == 2 and "isn't a number from" in found[2] else [str(found)]


def smallest_parts():
    """What is wrong with the smallest parts that are found: those of which no change can be left out, by trying all of them."""
    rng = random.Random("parts")
    for number in range(200):
        changes = list(range(rng.randrange(1, 14)))
        wanted = [set(rng.sample(changes, rng.randrange(len(changes) + 1))) for _ in range(rng.randrange(3))] + [set(changes)]
        by_more = rng.random() < 0.5
        holds = lambda part: any(it <= set(part) if by_more else it == set(part) for it in wanted)
        search = smallest(changes, 1000)
        try:
            parts = next(search)
            while True:
                parts = search.send([holds(it) for it in parts])
        except StopIteration as end:
            part, known = end.value
        less = [it for it in range(len(part)) if holds(part[:it] + part[it + 1 :])]
        if not (known and holds(part) and not less):
            yield "smallest parts", [f"{part} of {changes}, {wanted}"]
    yield "smallest parts", []


# A text, and what becomes of its calls by a table of functions, where I is the index and A the argument of a number; or none. In front of
# it stand the functions f, g and h.
THREE = "T f(u64 n) { } T g(u64 n) { } T h(u64 n) { } "
OTHER = "({ END (__typeof__(f(GIVEN)))0; })"
TABLES = [
    ("T (*const t[])(u64) = { f, &g, (h), }; T k() { return t[x](y + 1); }", "({ I = (x); A0 = (y + 1); I == 2 ? h(A0) : I == 1 ? g(A0) : I == 0 ? f(A0) : OTHER; })", "A0"),
    ("F t[9] = { [B] = f, g, [7 ... 9] = h, 0 }; T k() { t[x](); }", "({ I = (x); I == (9) + 1 ? OTHER : I >= (7) && I <= (9) ? h() : I == (B) + 1 ? g() : I == (B) ? f() : OTHER; })", ""),
    ("T k() { static F t[] = { f }; return (*t[x])(y, p(1, 2), z); }", "({ I = (x); A0 = (y); A1 = ( p(1, 2)); A2 = ( z); I == 0 ? f(A0, A1, A2) : OTHER; })", "A0, A1, A2"),
    ("F t[] = { f }; T k() { return t[t[1](2)](3); }", "({ I = (({ I = (1); A0 = (2); I == 0 ? f(A0) : OTHER; })); A0 = (3); I == 0 ? f(A0) : OTHER; })", "A0"),
    ("F t[] = { f }; T k() { if (x < sizeof(t) / sizeof t[0]) return t[x](y); }", "({ I = (x); A0 = (y); I == 0 ? f(A0) : OTHER; })", "A0"),
    *((text, None, "") for text in (
        "F t[] = { f }; T k() { F p = t[x]; return p(y); }",
        "F t[] = { f }; T k() { return t[x](y) + p(t); }",
        "F t[] = { f }; T k() { return t[x](y) + s->t[x](y) + *t; }",
        "F t[] = { f }; T k(u64 t) { return t[x](y); }",
        "F t[] = { f }; T k() { T (*t[4])(u64); return t[x](y); }",
        "F t[] = { f }; T k() { return x * (*t[x])(y); }",
        "F t[] = { f, (F)g }; T k() { return t[x](y); }",
        "F t[] = { f, 3 }; T k() { return t[x](y); }",
        "F t[] = { 0 }; T k() { return t[x](y); }",
        "F t[2][1] = { { f }, { g } }; T k() { return t[x][0](y); }",
        "F t[] = { f }, *p = t; T k() { return t[x](y); }",
        "F t[] = { f }; T k() { return s.t[x](y); }",
    )),
]


def tables():
    """What becomes of calls by tables of functions."""
    for text, wanted, given in TABLES:
        source = Source(THREE + text)
        found = function_tables(source)
        edited = source.edited(list(edits_of(source, found, lambda table: "END"))).removeprefix(THREE)
        for old, new in (("unsigned long long crashbpf_index_", "I"), ("__auto_type ", ""), ("crashbpf_index_", "I")):
            edited = edited.replace(old, new)
        edited = re.sub(r"crashbpf_argument_(\d+)_", r"A\1", edited).replace(OTHER.replace("GIVEN", given), "OTHER")
        good = wanted in edited and "END" not in edited if wanted else edited == text
        yield f"a table of functions: {text}", [] if good else [edited]


# A text, and what becomes of it, where P is the pointer and A the argument of a number, or none. `NAME=N` is a test that the pointer is the
# number of that function, and its call. In front of it stand the same functions.
POINTERS = [
    ("S t[] = { { 1, f }, { 2, &g } }; T k() { return t[x].run(y + 1, z); }", "S t[] = { { 1, f:0 }, { 2, g:1 } }; T k() { return ({ P = (t[x].run); A0 = (y + 1); A1 = ( z); f=0 g=1 OTHER; }); }", "A0, A1"),
    ("F t[2][1] = { { f }, { g } }; T k() { return t[x][0](y); }", "F t[2][1] = { { f:0 }, { g:1 } }; T k() { return ({ P = (t[x][0]); A0 = (y); f=0 g=1 OTHER; }); }", "A0"),
    ("T k(T (*p)(u64)) { return p(y); } T m() { return k(h); }", "T k(T (*p)(u64)) { return ({ P = (p); A0 = (y); h=0 OTHER; }); } T m() { return k(h:0); }", "A0"),
    ("typedef T step(u64); T k() { step *p = f; return p(y) + (*p)(y); }", "typedef T step(u64); T k() { step *p = f:0; return ({ P = (p); A0 = (y); f=0 OTHER; }) + ({ P = ((*p)); A0 = (y); f=0 OTHER; }); }", "A0"),
    ("T k() { return a(1)->b[2].run(s->f, p->run()) * o.f; } S s = { f };", "T k() { return ({ P = (a(1)->b[2].run); A0 = (s->f); A1 = ( ({ P = (p->run); f=0 NONE; })); f=0 OTHER; }) * o.f; } S s = { f:0 };", "A0, A1"),
    ("T k() { return o.run(); } T m() { } S s = { m };", "T m() ; T k() { return ({ P = (o.run); m=0 OTHER; }); } T m() { } S s = { m:0 };", ""),
    ("T k() { if (s->n) (y); return (s->run)(y) + (typeof(s->n))(y); } S s = { f };", "T k() { if (s->n) (y); return ({ P = ((s->run)); A0 = (y); f=0 OTHER; }) + (typeof(s->n))(y); } S s = { f:0 };", "A0"),
    ("T (*const helper)(u64) = (T (*)(u64))7; T k() { F p = f; return helper(y) + x * (*p)(y); }", None, ""),
    ("T k(u64 f) { u64 n = 1, g = 2; return o.run(f, g); } S s = { h };", "T k(u64 f) { u64 n = 1, g = 2; return ({ P = (o.run); A0 = (f); A1 = ( g); h=0 OTHER; }); } S s = { h:0 };", "A0, A1"),
]


def pointers():
    """What becomes of calls by pointers."""
    for text, wanted, given in POINTERS:
        source = Source(THREE + text)
        sites = sites_of(source, source.functions)
        edited = source.edited(list(pointer_edits(source, sites, lambda site: "END")))[len(THREE) :]
        for old, new in ((r"__auto_type ", ""), ("crashbpf_pointer_", "P"), (r"crashbpf_argument_(\d+)_", r"A\1")):
            edited = re.sub(old, new, edited)
        fits = r"__builtin_types_compatible_p\(__typeof__\(\*P\), __typeof__\((\w)\)\)"
        edited = re.sub(rf"{fits} && P == \(__typeof__\(P\)\)(\d+)ull \? __builtin_choose_expr\({fits}, \1, P\)\([^)]*\) : ", lambda it: f"{it[1]}={(int(it[2]) - FIRST) // STEP} ", edited)
        edited = re.sub(r"\(\(__typeof__\((\w)\) \*\)(\d+)ull\)", lambda it: f"{it[1]}:{(int(it[2]) - FIRST) // STEP}", edited)
        for arguments, name in ((given, "OTHER"), ("", "NONE")):
            edited = edited.replace(f"({{ END (__typeof__(P({arguments})))0; }})", name)
        yield f"a call by a pointer: {text}", [] if edited == (wanted or text) else [edited]


def outputs(place, code):
    """Names of sources and outputs."""
    text, object_ = "u64 check(void)\n{\n\treturn 0;\n}\n", elf([("check", code, False)])
    place.holds(text, object_, listing_of(code, "my é.c"), "my é.c")
    place.run("my é.c", "check", "out")
    lines = place.written("out.lines")
    yield "a name with a space", [] if lines == b"0 my\\x{20}\\x{c3}\\x{a9}.c 10\n1 my\\x{20}\\x{c3}\\x{a9}.c 11\n" else [str(lines)]
    both = "; a/x.h:1\n       0: word\n; b/x.h:2\n       1: word\n"
    place.holds(text, object_, both)
    place.run()
    lines = place.written("out.lines")
    yield "two files of one name", [] if lines == b"0 a/x.h 1\n1 b/x.h 2\n" else [str(lines)]
    place.holds(text, object_, "", "two\nlines.c")
    yield "a name of two lines", refused(place, "cc: the name of the checker has a character", "two\nlines.c", "check", "out.bpf")
    place.holds(text, object_)
    for out, line in (("nowhere/out.bpf", "cc: the file nowhere/out.lines can't be written: "), ("source.c", "cc: source.c is the checker itself")):
        yield f"{out} as output", refused(place, line, "source.c", "check", out)
    yield "a device as output", [] if place.run("source.c", "check", "/dev/null")[0] == 0 and not Path("/dev/null.lines").exists() else ["lines"]
    place.tool("clang", "#!/bin/sh\nexit 0\n")
    yield "a compiler that makes nothing", refused(place, "cc: clang made no object file")
    place.tool("clang", "no script")
    yield "a compiler that can't be run", refused(place, "cc: bin/clang can't be run: ", "source.c", "check", "out.bpf", "--compiler", "bin/clang")


def rows(crashbpf, folder):
    """Yields what each row is called, and what is wrong with it."""
    code = assembled(crashbpf, folder, "mov64 r0, 0; exit")
    yield from odd_objects(code)
    yield from addresses(code)
    yield from calls(crashbpf, folder)
    yield from divisions(crashbpf, folder)
    yield from statics()
    yield from smallest_parts()
    yield from tables()
    yield from pointers()
    place = Place(folder, crashbpf)
    yield from memory(place, crashbpf)
    yield from lines_of_calls(place, crashbpf)
    yield from sources(place)
    yield from sayings(place)
    yield from objects(place, code)
    yield from stopped(place, code)
    yield from accepted(place, crashbpf)
    yield from ways(place, crashbpf)
    yield from against(place, crashbpf)
    yield from outputs(place, code)


def main(words):
    # A process that was started by nohup, or by a shell's &, ignores some signals, and so would what it starts.
    for number in (signal.SIGHUP, signal.SIGINT, signal.SIGTERM):
        signal.signal(number, signal.SIG_DFL)
    crashbpf = Path(words[0] if words else TOP / "crates/crashbpf/out/crashbpf").resolve()
    if not os.access(crashbpf, os.X_OK):
        sys.exit(f"there is no program {crashbpf}: `rt run` in crates/crashbpf builds it")
    with tempfile.TemporaryDirectory() as folder:
        found = list(rows(crashbpf, Path(folder)))
    failed = [(name, wrong) for name, wrong in found if wrong]
    for name, wrong in failed:
        print(f"FAILED {name}: {'; '.join(wrong)[:2000]}")
    print(f"{len(found) - len(failed)} passed, {len(failed)} failed")
    return 1 if failed else 0


if __name__ == "__main__":
    sys.exit(main(sys.argv[1:]))
