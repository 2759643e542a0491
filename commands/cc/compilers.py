"""The two compilers that have a BPF target: how each is called, how it writes turns, and its lines of C for each slot."""
import os
import re
import shutil
from pathlib import Path

from commands.cc.program import SLOT, NoProgram

INCLUDE = Path(__file__).resolve().parents[2] / "include"
# checker.h is found from anywhere. So is "../checker.h", as seen from a folder of these, which sources may have.
HEADERS = ["-I", INCLUDE, "-I", INCLUDE / "native", "-isystem", INCLUDE / "standard"]

# Each function and each variable has a section of its own, so that a program has no more than what it needs.
APART = ["-ffunction-sections", "-fdata-sections"]

# A position that no device has: 2^64 less this.
PAST = -1024

# What a call of a helper leaves nothing of.
CLOBBERED = '"r0", "r1", "r2", "r3", "r4", "r5", "memory"'


# What checker.h has of C's library, and the headers of it that there are.
LIBRARY = "memcmp memcpy memset memmove memchr strlen strnlen strcmp strncmp strchr".split()
STANDARD = "stdint.h stdbool.h stddef.h string.h stdlib.h stdio.h limits.h inttypes.h endian.h byteswap.h".split()
REDEFINED = re.compile(r"redefinition of .(\w+?)_?(?:whole_|loop_)?\b")
MISSING = re.compile(r"error: '?([\w./+-]+)(?:' file not found|: No such file)")
OTHER_HEADER = re.compile(r"(asm|arpa|bits|gnu|linux|netinet|sys)/|(alloca|assert|ctype|errno|fcntl|float|locale|math|setjmp|signal|stdatomic|strings|time|unistd|wchar)\.h$")


def hints_for(said):
    """What helps where the compiler itself refuses."""
    redefined, missing = REDEFINED.search(said), MISSING.search(said)
    if redefined and redefined[1] in LIBRARY:
        yield f"checker.h has {redefined[1]}: leave yours out, or give it another name"
    elif redefined:
        yield "a file may hold several checkers, each with a name of its own"
    if missing and OTHER_HEADER.match(missing[1]):
        yield f"a checker has no library, and of its headers there are {', '.join(STANDARD)}: leave the others out"
        yield f"of its functions there are {', '.join(LIBRARY)}"
    elif missing:
        yield 'checker.h is found from anywhere: #include "checker.h"'
    if re.search(r"unknown type name .u(8|16|32|64)\b", said):
        yield 'a checker begins with #include "checker.h"'
    if re.search(r"unknown type name .s(8|16|32|64)\b", said):
        yield "signed numbers are signed char, short, int and long long, or int8_t to int64_t of stdint.h"
    if re.search(r"\bassert\.h\b", said):
        yield "in place of assert(x) an answer: if (!(x)) return 1;"
    if re.search(r"__builtin_(set|long)jmp", said):
        yield "in place of setjmp an answer of the function, which its caller tests"
    if re.search(r"non-void function does not return a value", said):
        yield "a return on each path: what comes of a path without one isn't defined"
    if re.search(r"function definition is not allowed here", said):
        yield "functions stand beside one another: what one needs of another is a parameter"
    if re.search(r"thread-local", said):
        yield "a run has no threads: static without __thread"
    if re.search(r"constraint .*in .?asm", said):
        yield "a program has no assembly of another machine: C in its place"
    if re.search(r"unknown type name .bool\b", said):
        yield "bool is in stdbool.h: #include <stdbool.h>"


# What clang says where a library would be called, too many bytes be held at once, or a signed number be divided.
NO_LIBRARY = re.compile("A call to built-in function 'mem(cpy|set)'|stack limit of 512 bytes|[Uu]nsupport(ed)? signed division")
# A copy, or bytes that are set, in its own language; and how many bytes are left to it.
INTRINSIC = re.compile(r"call void @llvm\.(memcpy|memset)\.[\w.]+\(")
FEW = 32
POINTER = re.compile(r"\bptr\b")
# A division of signed numbers there; one that is exact, or by a power of two, needs none.
DIVISION = re.compile(r"(\s*)(%[\w.]+) = (sdiv|srem) i(8|16|32|64) ([^,]+), ([^,]+)(.*)$")


def arguments(text):
    """The arguments with which a text begins, up to the bracket that closes them."""
    found, depth, start = [], 0, 0
    for at, it in enumerate(text):
        if it == ")" and depth == 0:
            return [*found, text[start:at].strip()], text[at + 1 :]
        if it == "," and depth == 0:
            found.append(text[start:at].strip())
            start = at + 1
        depth += (it in "([{<") - (it in ")]}>")
    return None, text


def with_calls(text):
    """A module of clang's own language in which many bytes are copied and set by calls."""
    lines = [divided_line(called_line(it)) for it in text.split("\n")]
    pointer = "ptr" if any(INTRINSIC.search(it) and POINTER.search(it) for it in text.split("\n")) else "i8*"
    kinds = {"void @copies_": f"{pointer}, {pointer}, i64", "void @sets_": f"{pointer}, i8, i64"}
    kinds |= {"i64 @divides_": "i64, i64", "i64 @remains_": "i64, i64"}
    used = [name for name in kinds if any(f"call {name}(" in it for it in lines)]
    return "\n".join([*lines, *(f"declare {name}({kinds[name]})" for name in used), ""])


def called_line(line):
    """A line, where a copy of many bytes, their number a constant, is a call."""
    found = INTRINSIC.search(line)
    given, rest = arguments(line[found.end() :]) if found else (None, "")
    length = re.fullmatch(r"i64 (\d+)", given[2]) if given and len(given) == 4 else None
    if not length or int(length[1]) <= FEW:
        return line
    name = "copies_" if found[1] == "memcpy" else "sets_"
    return f"{line[: found.start()]}call void @{name}({', '.join(given[:3])}){rest}"


def divided_line(line):
    """A line, or the lines of a signed division as a call, of numbers of 64 bits."""
    found = DIVISION.match(line)
    if not found:
        return line
    space, name, kind, bits, first, second, rest = found.groups()
    called = "divides_" if kind == "sdiv" else "remains_"
    if bits == "64":
        return f"{space}{name} = call i64 @{called}(i64 {first}, i64 {second}){rest}"
    own = f"%{called}{name[1:]}_"
    wide = [f"{space}{own}{at} = sext i{bits} {it} to i64{rest}" for at, it in enumerate((first, second))]
    call = f"{space}{own}2 = call i64 @{called}(i64 {own}0, i64 {own}1){rest}"
    return "\n".join([*wide, call, f"{space}{name} = trunc i64 {own}2 to i{bits}{rest}"])


class Clang:
    """clang 14 or newer, and llvm-objdump of the same version."""

    # Two calls of `copy` stay two: as one, its length would be either of theirs, which is no constant to the verifier.
    UNMERGED = ["-mllvm", "-sink-common-insts=false", "-mllvm", "-enable-tail-merge=false"]
    # The ways in which a checker is compiled, of which the first is the usual one: whether the compiler knows nothing of the
    # variables of a loop's condition where that is tested (source.py), and more options. By the last indices stay as written.
    WAYS = [(False, []), (True, UNMERGED), (True, ["-mllvm", "-disable-lsr", *APART])]
    # A place that names a symbol holds the distance from that symbol.
    FROM_SYMBOLS = True

    def __init__(self, name, run):
        self.name, self.run = name, run
        suffix = re.search(r"(-\d+)?$", name)[0]
        self.objdump = str(Path(name).parent / f"llvm-objdump{suffix}") if "/" in name else f"llvm-objdump{suffix}"
        self.target = [name, "-target", "bpfel", "-mcpu=v2", "-O2", *HEADERS]

    def tools(self):
        return [self.name, self.objdump]

    def preprocess(self, source, definitions):
        return self.run([*self.target, *definitions, "-E", source])

    def check(self, source, definitions):
        return self.run([*self.target, *definitions, "-Wall", "-Wno-pass-failed", "-Werror=return-type", "-fsyntax-only", source])

    def read(self, text):
        """Reads a preprocessed text, and makes nothing of it."""
        return self.run([*self.target, "-ferror-limit=0", "-fsyntax-only", "-x", "cpp-output", "-"], text)

    def compile(self, text, options, out):
        """Compiles the preprocessed text to the file `out`; each function gets a section of its own, .text.NAME."""
        words = [*self.target, "-g", "-w", *APART, "-fno-jump-tables", "-fno-crash-diagnostics"]
        # A loop stays one, and becomes no call of the library and no table.
        words += ["-mllvm", "-disable-loop-idiom-all", *options]
        done = self.run([*words, "-c", "-x", "cpp-output", "-", "-o", out], text)
        return self.compile_with_calls(words, text, out) if NO_LIBRARY.search(done.stderr) else done

    def compile_with_calls(self, words, text, out):
        """The same, where the compiler would call a library for many bytes, or have them all in registers: it calls functions for
        that which calls.py writes out."""
        done = self.run([*words, "-S", "-emit-llvm", "-x", "cpp-output", "-", "-o", "-"], text)
        if done.returncode != 0:
            return done
        return self.run([*words, "-Xclang", "-disable-llvm-passes", "-c", "-x", "ir", "-", "-o", out], with_calls(done.stdout))

    def turn(self, times, code, answer):
        """A statement that ends the run when this place has been passed `times` times."""
        return (
            "__label__ spent_; "
            f'__asm__ goto("r1 = {times}\\n\\tcall 3\\n\\tif r0 == 0 goto %l[spent_]" : : : {CLOBBERED} : spent_); '
            f"if (0) {{ spent_: {self.end(code, answer)} }}"
        )

    def end(self, code, answer):
        """A statement that ends the run."""
        return f'__asm__ volatile("r1 = {code}\\n\\tcall 4\\n\\tr0 = {answer}\\n\\texit" : : : {CLOBBERED});'

    def zeros(self, place, length):
        """A statement that makes that many bytes zeros: helper `copy` has none of a place past the device."""
        return f'__asm__ volatile("r2 = %0\\n\\tr1 = {PAST}\\n\\tr3 = {length}\\n\\tcall 2" : : "r"({place}) : {CLOBBERED});'

    def lines(self, path, object_, section):
        """For each slot of a section, given by its number, the file, the line and the instruction."""
        done = self.run([self.objdump, "-d", "-l", "--no-show-raw-insn", "-j", object_.sections[section].name, path])
        found, file, line = {}, "", 0
        for it in done.stdout.split("\n"):
            place = re.match(r"; (.*):(\d+)$", it)
            instruction = re.match(r"\s*(\d+):\s+(.*)", it)
            if place:
                file, line = place[1], int(place[2])
            elif instruction:
                found[int(instruction[1])] = (file, line, " ".join(instruction[2].split()))
        return found


class Gcc:
    """gcc 12 or newer as it is built for BPF, with binutils of the same target."""

    # As of clang; calls of `copy` stay apart by -O1 too. The last makes less code, where the others make too many slots.
    WAYS = [(False, []), (True, ["-fno-crossjumping"]), (True, ["-O1"]), (False, ["-Os"])]
    # A place that names a symbol holds the distance from the section's begin with binutils 2.40, and others may differ.
    FROM_SYMBOLS = False

    def __init__(self, name, run):
        self.name, self.run = name, run
        self.objdump, self.readelf = (re.sub(r"gcc(-[\d.]+)?$", it, name) for it in ("objdump", "readelf"))
        # Loops aren't written out: a turn would be counted at each copy by itself.
        whole = ["-fno-unroll-loops", "-fno-unroll-all-loops", "-fno-peel-loops"]
        # A switch stays code, and doesn't become a table.
        whole += ["-fno-jump-tables", "-fno-tree-switch-conversion"]
        # Without -malu32 gcc 12 takes `and r, -1` for a cut to 32 bits, which cuts nothing off.
        self.target = [name, "-mcpu=v2", "-malu32", "-O2", *whole, *self.dialect(), *HEADERS]

    def dialect(self):
        """What makes gcc 14 and newer take assembly as gcc 12 does: without it, that is written as for clang."""
        version = self.run([self.name, "-dumpversion"]).stdout if shutil.which(self.name) else ""
        major = re.match(r"\d+", version)
        return ["-masm=normal"] if major and int(major[0]) >= 14 else []

    def tools(self):
        return [self.name, self.objdump, self.readelf]

    def preprocess(self, source, definitions):
        return self.run([*self.target, *definitions, "-E", source])

    def check(self, source, definitions):
        return self.run([*self.target, *definitions, "-Wall", "-fsyntax-only", source])

    def read(self, text):
        return self.run([*self.target, "-fsyntax-only", "-x", "cpp-output", "-"], text)

    def compile(self, text, options, out):
        """Compiles the preprocessed text to the file `out`, as with clang."""
        # Constants that may be merged are named by symbols inside of their section, which aren't read (data.py).
        words = [*self.target, "-gdwarf", "-Werror=return-type", *APART, "-fno-merge-constants"]
        # Loops stay as with clang. A length of `copy` isn't kept in a register over a loop, where the verifier would round it up.
        words += ["-fno-tree-loop-distribute-patterns", "-fno-move-loop-invariants", "-fno-ipa-cp", "-fno-ipa-sra"]
        # gcc 12 knows that a byte which was loaded has zeros above it. Where it then keeps that byte on the stack, it stores the byte alone,
        # and loads eight. The pass that knows it is left out.
        words += ["-fdisable-rtl-combine"]
        return self.run([*words, *options, "-c", "-x", "cpp-output", "-", "-o", out], text)

    def turn(self, times, code, answer):
        return (
            "__label__ spent_; "
            f'__asm__ goto("mov %%r1,{times}\\n\\tcall 3\\n\\tjeq %%r0,0,%l[spent_]" : : : {CLOBBERED} : spent_); '
            f"if (0) {{ spent_: {self.end(code, answer)} }}"
        )

    def end(self, code, answer):
        return f'__asm__ volatile("mov %%r1,{code}\\n\\tcall 4\\n\\tmov %%r0,{answer}\\n\\texit" : : : {CLOBBERED});'

    def zeros(self, place, length):
        return f'__asm__ volatile("mov %%r2,%0\\n\\tmov %%r1,{PAST}\\n\\tmov %%r3,{length}\\n\\tcall 2" : : "r"({place}) : {CLOBBERED});'

    def lines(self, path, object_, section):
        """As of clang."""
        listing = self.run([self.readelf, "-W", "--debug-dump=decodedline", path]).stdout
        places = places_of(object_, section, runs_of_rows(listing))
        found, place = {}, ("", 0)
        listing = self.run([self.objdump, "-d", "--no-show-raw-insn", "-j", object_.sections[section].name, path]).stdout
        for it in listing.split("\n"):
            instruction = re.match(r"\s*([0-9a-f]+):\s+(.*)", it)
            if instruction:
                slot = int(instruction[1], 16) // SLOT
                place = places.get(slot, place)
                found[slot] = (*place, " ".join(instruction[2].split()))
        return found


def runs_of_rows(listing):
    """The runs of rows of a line table, one for each function: the places at their slots, and where it ends."""
    found, rows = [], {}
    for it in listing.split("\n"):
        row = re.match(r"(.+?)\s+(\d+|-)\s+(0x[0-9a-f]+|0)\b", it)
        if row and row[2] != "-":
            rows[int(row[3], 16) // SLOT] = (row[1], int(row[2]))
        elif row and rows:
            found.append((rows, int(row[3], 16) // SLOT))
            rows = {}
    return found


def places_of(object_, section, runs):
    """The places of a section's slots. Its addresses aren't filled in, so a function's run is told by where it begins and
    ends, and of several such runs by the order of the sections."""
    places = {}
    for it in sorted(object_.functions(), key=lambda it: (it.section, it.value)):
        ends = it.value // SLOT, (it.value + it.size) // SLOT
        own = next((at for at, (rows, end) in enumerate(runs) if (min(rows), end) == ends), None)
        if own is not None:
            rows, _ = runs.pop(own)
            if it.section == section:
                places.update(rows)
    return places


def same_file(one, other):
    """Whether both are names of one file; gcc's lines have names without their folders."""
    if "/" not in one or "/" not in other:
        return os.path.basename(one) == os.path.basename(other)
    return os.path.realpath(one) == os.path.realpath(other)


def compiler(name, run):
    """The compiler of that name, whose programs `run` runs; NoProgram where a tool isn't there."""
    found = (Gcc if "gcc" in Path(name).name else Clang)(name, run)
    for tool in found.tools():
        if not shutil.which(tool):
            raise NoProgram(
                f"there is no program {tool}",
                "install clang and llvm (or gcc-bpf and binutils-bpf), or name the compiler: --compiler clang-19",
            )
    return found
