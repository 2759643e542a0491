"""Why a checker is refused: each cause with its lines of C and what helps, in words that hold for crash checkers.

What a compiler says of its own is about programs of Linux, which have maps and per-CPU arrays. It is read for what it found and where,
and is shown only where nothing here fits.
"""
import re
from collections import Counter
from pathlib import Path

from commands.cc.compilers import LIBRARY as OWN_LIBRARY
from commands.cc.program import CALL, MOST_SLOTS, NoProgram, slots_of

# What is said, and what helps.
FLOATING = ("floating point, which a program hasn't", "whole numbers: a u64 of thousandths, or a fixed point by shifts")
WIDE = (
    "a number of 128 bits, which a program hasn't",
    "two u64 numbers; in place of __builtin_mul_overflow(a, b, &c) the test b && a > ~0ull / b",
)
ATOMIC = ("an atomic operation, which a program hasn't", "plain reads and writes: a checker runs alone, and nothing else changes what it has")
VARIABLE = ("variable arguments, which a program hasn't", "as many parameters as there are, or an array and its length")
POINTED = ("is called by a pointer, and a program calls functions by their names alone", "a switch that calls each function by its name")
TOO_MANY = ("a function that is LOCAL and takes more than five numbers, or a struct", "INLINED in place of LOCAL, or fewer parameters")
ANSWERED = ("a function that is LOCAL and answers more than one number", "INLINED in place of LOCAL, or the other numbers in static variables")
SIZED = ("an array whose length is a variable", "an array of the greatest length, and a test of the length")
JUMPED = ("a goto to a place that is computed, which a program hasn't", "a switch, with a goto for each label where it needs one")
THREADED = ("a variable of a thread, which a program hasn't", "static without __thread")
SET_JUMP = ("a jump by setjmp, which a program hasn't", "an answer of the function, which its caller tests")
ASSEMBLY = ("assembly that no program has", "C in its place; KEEP(x) of checker.h where a compiler is to know nothing of x")
ALLOCATED = ("memory of a library, which a program hasn't", "a static array of the greatest size: a run has 65536 bytes for these")
ENDED = ("an end by abort or a trap, which a program hasn't", "a return, with an answer that says why")
MAPPED = ("a map or a variable of a processor, which a program hasn't", "a static variable or array: a run has 65536 bytes for these")
NO_LIBRARY = f"a checker has no library but {', '.join(OWN_LIBRARY)}: write it as a function of the file, under a name of its own"
UNANSWERED = ("a path without an answer", "a return on each path: what comes of a path without one isn't defined")
GONE_BACK = "for, while or do in its place, which get one; or TURN(times, return TURNS_SPENT); as the first statement after the label"
CONSTRUCTED = ("a function that runs before all others, which a program hasn't", "a call of it as the first statement of the checker")
DECLARED = "its definition in this file: no other file belongs to a program"
RECURSIVE = "a loop, with a stack of its own in a static array where one is needed: no function calls itself, also by way of others"
MEMORY_CALLS = "memcmp, memcpy, memset and memmove are those of checker.h; else set, copy and compare field by field"
STACK = re.compile("stack limit|stack frame|stack size")

SIZED_SAID = re.compile(r"dynamic stack allocation|dynamic_stackalloc")
ALLOCA = re.compile("(__builtin_)?alloca$")

# The functions of a compiler's own library, by their names.
LIBRARY = [
    (re.compile(r"__(sync|atomic)_\w+$"), ATOMIC),
    (re.compile(r"__(float\w*|fix\w*|[a-z]+[sdtxh]f[a-z]*\d?)$"), FLOATING),
    (re.compile(r"(fmod|floor|ceil|trunc|round|sqrt|pow|fabs|rint|fma|fmin|fmax|exp|log|log2|log10|sin|cos)[fl]?$"), FLOATING),
    (re.compile(r"__[a-z]*ti[a-z]*\d?$"), WIDE),
    (re.compile(r"__emutls\w*$"), THREADED),
    (re.compile(r"(abort|_?exit|__assert_fail|__builtin_trap)$"), ENDED),
    (re.compile(r"(malloc|calloc|realloc|reallocarray|free|strn?dup)$"), ALLOCATED),
    (re.compile(r"_?(set|long)jmp$"), SET_JUMP),
]
# What a compiler says, without a name of its library; in which order doesn't matter.
SAYINGS = [
    (re.compile(r"VarArgs|variable argument lists|va_start"), VARIABLE),
    (re.compile(r"__builtin_(set|long)jmp"), SET_JUMP),
    (re.compile(r"no (con|de)structors"), CONSTRUCTED),
    (re.compile(r"control reaches end of non-void"), UNANSWERED),
    (re.compile(r"indirect jump|[Cc]annot select.*brind"), JUMPED),
    (re.compile(r"constraint .*in asm|impossible constraint|in .asm.|register/token name|unrecognized|unknown (opcode|instruction)|[Ii]llegal operands"), ASSEMBLY),
    (re.compile(r"indirect call"), POINTED),
    (re.compile(r"[Tt]hread-local storage"), THREADED),
    (re.compile(r"too many args|too many function arguments|pass by value not supported|arguments on the stack"), TOO_MANY),
    (re.compile(r"StructRet|small returns|only integer returns"), ANSWERED),
    (SIZED_SAID, SIZED),
    (re.compile(r"[Aa]tomic(_|\w*Swap|Load|RMW|CmpSwap|Fence)"), ATOMIC),
]
ERROR = re.compile(r"(?m)^(?:(.+?):(\d+):(?:\d+:)? )?(?:(?:fatal )?[Ee]rror|sorry, unimplemented): (.*)$")
# Where the compiler knows no file of the text, the place that it means comes in a note after the error.
MEANT = re.compile(r"could not determine the original source location for (.+):(\d+):\d+")
CALLED = re.compile(r"built-in function '(\w+)'")
# Instructions of atomics (of 32 and of 64 bits), and a call through a register.
ATOMICS, BY_REGISTER = (0xC3, 0xDB), 0x8D
SHOWN = 8
# The words of atomics in a source, and the sections that Linux takes for maps and for variables of each processor.
ATOMIC_WORD = re.compile(r"__(sync|atomic|c11_atomic)_\w+$|_Atomic$")
CONSTRUCTORS, CONSTRUCTOR_WORD = re.compile(r"\.(preinit_array|init_array|fini_array|ctors|dtors)"), re.compile("(__)?(con|de)structor(__)?$")
MAPS = re.compile(r"\.?maps$|\.data\.\.percpu|\.percpu$")
SET_JUMP_WORD, ASSEMBLY_WORDS = re.compile("(__builtin_|_)?(set|long)jmp$"), ("asm", "__asm__", "__asm")
# Locals of as many bytes aren't named.
SMALL = 16


class StackSpent(NoProgram):
    """The locals of a function don't fit."""


def too_large(function, locals_, guards, again):
    """The refusal where locals don't fit: each of them that isn't small, the largest first, with its function. Those of the functions
    `again` stay on the stack, since such a function may be called while it runs."""
    large = sorted((it for it in locals_ if it.size > SMALL), key=lambda it: -it.size)
    lines = [f"{it.declaration.place()}: {it.name} of {it.declaration.function.name} takes {it.size} bytes" for it in large]
    helps = ["say static for the large ones: those have 65536 bytes of memory. Give them their value by a statement"]
    helps += [] if guards else ["that memory is there with guards alone: take --no-guards away, or read by position"]
    called = [it.name for it in again if any(local.declaration.function is it for local in large)]
    helps = [f"{' and '.join(called)} may be called by a pointer while it runs: a switch that calls each function by its name"] if called else helps
    passed = any(it.declaration.last == it.declaration.function.body for it in large)
    helps += [] if large and not passed else ["a struct as a parameter or an answer has its place there too: pass a pointer to a static one"]
    return NoProgram(
        "\n    ".join([f"the locals of {function} and of what is inlined in it take more than 512 bytes", *lines[:SHOWN]]), *helps
    )


def of_library(name):
    """What a function of the compiler's library is called for; none where it isn't known."""
    return next((it for pattern, it in LIBRARY if pattern.match(name)), None)


def refusal(causes):
    """One refusal of causes, each a place, a text and what helps: a line for each place, and the help once."""
    lines, hints = [], []
    for place, text, hint in dict.fromkeys(causes):
        lines.append(f"{place}: {text}" if place else text)
        hints += [hint] if hint not in hints else []
    more = len(lines) - SHOWN
    lines = lines[:SHOWN] + [f"and {more} more places"] * (more > 0)
    return NoProgram("\n    ".join(lines), *hints)


def errors_of(said):
    """The errors that a compiler prints, each with the place that it means, or none."""
    found = list(ERROR.finditer(said))
    for it, after in zip(found, [*found[1:], None]):
        rest = said[it.end() : after.start() if after else len(said)]
        meant = MEANT.search(rest)
        file, line = meant.groups() if meant else (it[1], it[2])
        yield it[3], f"{Path(file).name}:{line}" if file and line != "0" else None


class Causes:
    """What is known of a checker's source, for the refusals of one function."""

    def __init__(self, source, function):
        self.source, self.function = source, function

    def reached(self):
        return self.source.reached(self.function)

    def recursion(self):
        """The calls that lead back to where they began, as causes."""
        way = self.source.circle(self.function)
        names = [self.source.word(at) for at in way]
        return [
            (self.source.place(at), f"{names[number - 1]} calls {'itself' if len(way) == 1 else names[number]}, which makes a circle", RECURSIVE)
            for number, at in enumerate(way)
        ]

    def backward(self):
        """The jumps by goto that lead back, as causes: such a loop gets no bound."""
        text = self.source
        for function in self.reached():
            tokens = range(function.body + 1, function.end)
            labels = {text.word(at): at for at in tokens if text.word(at + 1) == ":" and text.word(at - 1) in (";", "{", "}", ":")}
            for at in tokens:
                if text.word(at) == "goto" and labels.get(text.word(at + 1), at) < at:
                    yield text.place(at), f"a loop by goto {text.word(at + 1)}, which has no bound", GONE_BACK

    def variable(self):
        """The functions with variable arguments, as causes."""
        text = self.source
        for it in self.reached():
            words = [text.word(at) for at in range(it.declared, it.body)]
            if any(words[at : at + 3] == [".", ".", "."] for at in range(len(words))):
                yield text.place(it.declared), f"{it.name} has {VARIABLE[0]}", VARIABLE[1]

    def pointed(self, name=None):
        """The places where a function's address is taken, as causes."""
        text = self.source
        bodies = [(it.body, it.end) for it in self.reached()]
        outside = lambda at: not any(it.body <= at < it.end for it in text.functions)
        for at in text.addresses(name):
            if outside(at) or any(first <= at < end for first, end in bodies):
                yield text.place(at), f"{text.word(at)} {POINTED[0]}", POINTED[1]

    def of_error(self, text, place):
        """The causes of one error of a compiler; none where it isn't known."""
        called = CALLED.search(text)
        kind = of_library(called[1]) if called else next((it for pattern, it in SAYINGS if pattern.search(text)), None)
        if called and kind is None:
            return [(place, f"{called[1]} is called", MEMORY_CALLS if called[1].startswith("mem") else NO_LIBRARY)]
        if "inlin" in text:
            return self.recursion() if VARIABLE is not kind else list(self.variable())
        if kind in (VARIABLE, ANSWERED):
            return list(self.variable()) or [(place, *ANSWERED)]
        if kind is POINTED:
            return list(self.pointed()) or [(place, f"a function {POINTED[0]}", POINTED[1])]
        if kind is JUMPED:
            jumps = self.at_words(lambda at: self.source.word(at) == "goto" and self.source.word(at + 1) == "*", kind)
            return jumps or self.at_words(lambda at: SET_JUMP_WORD.match(self.source.word(at)), SET_JUMP) or list(self.pointed())
        if kind is ASSEMBLY:
            return self.at_words(lambda at: self.source.word(at) in ASSEMBLY_WORDS, kind) or [(place, *kind)]
        if kind is ATOMIC and place is None:
            return self.at_words(lambda at: ATOMIC_WORD.match(self.source.word(at)), kind) or [(None, *kind)]
        return [(place, *kind)] if kind else None

    def at_words(self, is_one, kind, needed_alone=True):
        """A cause at each line of the functions that are needed, or of all, or outside of functions, in which a token is one; those of the
        checker's own file, if there are any."""
        text, needed = self.source, self.reached()
        inner = {at for it in text.functions if it not in needed and needed_alone for at in range(it.declared, it.end)}
        found = [at for at in range(len(text.tokens)) if at not in inner and is_one(at)]
        files = {text.tokens[it.body].file for it in needed if it.name == self.function}
        own = [at for at in found if text.tokens[at].file in files]
        return [(place, *kind) for place in dict.fromkeys(text.place(at) for at in own or found)]

    def constructed(self, sections):
        """The refusal of functions that a native program runs by itself, or none: such a function has its address in a section."""
        found = any(CONSTRUCTORS.match(it) for it in sections)
        words = lambda at: CONSTRUCTOR_WORD.match(self.source.word(at)) and self.source.word(at - 1) in ("(", ",")
        return refusal(self.at_words(words, CONSTRUCTED, False) or [(None, *CONSTRUCTED)]) if found else None

    def mapped(self, sections):
        """The refusal of variables in sections that Linux takes for maps, or none."""
        names = {it for it in sections if MAPS.match(it)}
        return refusal(self.at_words(lambda at: self.source.word(at)[1:-1] in names, MAPPED) or [(None, *MAPPED)]) if names else None

    def of_compiler(self, said):
        """The refusal for what a compiler says, or none where one of its errors isn't known."""
        causes = []
        for text, place in errors_of(said):
            found = self.of_error(text, place)
            # After a number of 128 bits come errors about what it is answered in.
            if found is None and not causes:
                return None
            causes += found or []
        wide = any(it[1:] == WIDE for it in causes)
        causes = [it for it in causes if not (wide and it[1:] in (ANSWERED, TOO_MANY))]
        return refusal(causes) if causes else None

    def of_need(self, need, place):
        """The causes of a place that needs what isn't in the function."""
        kind = of_library(need.name) if need.kind == "absent" else None
        if kind:
            return [(place, *kind)]
        used = [at for at in range(len(self.source.tokens)) if self.source.word(at) == need.name] if need.kind == "absent" else []
        if any(self.source.word(at + 1) == "(" for at in used):
            return [(place, f"{need.name} is called, which the file hasn't", NO_LIBRARY)]
        if used:
            return [(place, f"{need.name} is used, which the file only declares", DECLARED)]
        if need.kind == "function":
            names = {self.source.word(at) for at in self.source.circle(self.function)}
            return self.recursion() if need.name in names else list(self.pointed(need.name))
        return []

    def of_code(self, code, lines):
        """The refusal of instructions that no program has, or none."""
        causes = []
        for at, it in slots_of(code).items():
            kind = ATOMIC if it.opcode in ATOMICS else None
            if it.opcode == BY_REGISTER or it.opcode == CALL and it.source == 0 and code[8 * at + 1] & 15:
                kind = (f"a function {POINTED[0]}", POINTED[1])
            if kind:
                file, line, _ = lines.get(at, ("", 0, ""))
                causes.append((f"{Path(file).name}:{line}", *kind))
        return refusal(causes) if causes else None

    def too_many_slots(self, slots, lines):
        """The refusal of a program that is too long: which functions have how many slots, all copies of each together."""
        counts, last = Counter(), None
        for slot in range(slots):
            last = lines.get(slot, last)
            found = self.source.function_at(*last[:2]) if last else None
            counts[(Path(last[0]).name, found.name) if found else ("", "other code")] += 1
        shown = "; ".join(f"{name} of {file} {count}" if file else f"{name} {count}" for (file, name), count in counts.most_common(6))
        return NoProgram(
            f"the function {self.function} has {slots} slots, and a program has at most {MOST_SLOTS}",
            f"by the function in which their line stands, all inlined copies together: {shown}",
            f"LOCAL({self.function}) in front of a function that is called from several places leaves it once in the program",
            "loops with few turns are written out: give them TURN as the first statement of their body",
        )
