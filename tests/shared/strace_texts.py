"""Texts as strace writes them, for the tests of what crashbpf-record makes of these."""
import re

HERE, FILES, MARKS = "/elsewhere", "/r/files", "/r/marks"


def hexed(data):
    return "".join(f"\\x{it:02x}" for it in data)


def strace(text, last="100 +++ exited with 0 +++"):
    """A text as strace writes it: 'text' becomes a string in hex, 'X*512' one of 512 X, <name> the path of a descriptor."""

    def word(found):
        times = re.fullmatch(r"(.)\*(\d+)", found[1])
        return f'"{hexed((times[1] * int(times[2]) if times else found[1]).encode())}"'

    def path(found):
        name = found[1] if found[1].startswith(("/", "pipe:", "socket:")) else f"{FILES}/{found[1]}"
        return f"<{hexed(name.encode())}>"

    lines = [it.strip() for it in text.strip().splitlines()] + ([last] if last else [])
    lines = [it if it[:1].isdigit() else f"100 {it}" for it in lines]
    return "".join(re.sub(r"<(?!unfinished|\.\.\. )([^<>]+)>", path, re.sub(r"'([^']*)'", word, it)) + "\n" for it in lines).encode()
