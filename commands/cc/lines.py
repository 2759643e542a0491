"""CHECK.lines, the text that says of each instruction of a program at which line of C it comes (docs/CHECKERS.md)."""
import os
import re


def escaped(name):
    """A name without spaces: each printable ASCII character but these, quotes and backslashes, and others by their bytes."""
    return "".join(chr(it) if 0x20 < it < 0x7F and it not in b'"\\' else f"\\x{{{it:x}}}" for it in os.fsencode(name))


def short_names(files):
    """For each file its name, with as many of its folders as tell it from the others."""
    parts = {it: os.path.realpath(it).split("/") for it in files}
    names = {}
    for file, own in parts.items():
        count = next(i for i in range(1, len(own) + 1) if all(own == it or own[-i:] != it[-i:] for it in parts.values()))
        names[file] = "/".join(own[-count:])
    return names


def lines_text(lines):
    """A line `SLOT FILE LINE` for each slot whose line is known, of what a compiler's lines() answers."""
    known = {slot: (file, line) for slot, (file, line, _) in lines.items() if file and line}
    names = short_names({file for file, _ in known.values()})
    return "".join(f"{slot} {escaped(names[file])} {line}\n" for slot, (file, line) in sorted(known.items()))


def lines_path(out):
    """CHECK.lines for CHECK.bpf, and NAME.lines for another NAME; none beside a device or a pipe."""
    if os.path.exists(out) and not os.path.isfile(out):
        return None
    return re.sub(r"\.bpf$", "", str(out)) + ".lines"
