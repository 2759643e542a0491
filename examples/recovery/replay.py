#!/usr/bin/python3
"""A small store with a journal, and its recovery, which replays the journal. For crashbpf-record, and for crashbpf-each --again.

    replay.py write             makes three commits to $FILES/store, each acknowledged by a mark
    replay.py check IMAGE       recovers, then compares what is there with the marks
    replay.py check IMAGE sync  the same, by a recovery that syncs before it calls the journal empty

A commit changes two pages together. Their new content goes to the journal, then the header says that the journal is full. From then on the
commit is made. The pages are written in place, and the header says that the journal is empty. Recovery does the same from the journal on.

    1   one page has the commit and the other hasn't
    2   a commit that was acknowledged is gone
"""
import os
import sys
import zlib

PAGE = 4096
# The header, two pages of the journal, and two pages of the store.
HEADER, JOURNAL, STORE = 0, (1, 2), (3, 4)


def read(file, page):
    return os.pread(file, PAGE, PAGE * page)


def write(file, page, content):
    os.pwrite(file, content.ljust(PAGE, b"\0"), PAGE * page)


def checksum(pages):
    return b"%d" % zlib.crc32(b"".join(pages))


def replay(file, syncs):
    """Copies the journal into its places where the header says that it is full, and then says that it is empty."""
    pages = [read(file, it) for it in JOURNAL]
    if read(file, HEADER).rstrip(b"\0") != checksum(pages):
        return
    for place, content in zip(STORE, pages):
        write(file, place, content)
    if syncs:
        os.fsync(file)
    write(file, HEADER, b"")
    os.fsync(file)


def commit(file, number):
    """Makes a commit, and applies it."""
    pages = [(b"%d" % number).ljust(PAGE, b".")] * 2
    for place, content in zip(JOURNAL, pages):
        write(file, place, content)
    os.fsync(file)
    write(file, HEADER, checksum(pages))
    os.fsync(file)
    with open(os.environ["RECORDING"] + "/marks", "a") as marks:
        marks.write(f"0 commit-{number}\n")
    replay(file, True)


def version(page):
    """Returns the number of the commit that a page has, 0 before the first."""
    return int(page.rstrip(b".\0") or b"0")


def check(path, syncs):
    """Recovers, and returns the status of what is there."""
    file = os.open(path, os.O_RDWR)
    replay(file, syncs)
    first, other = (version(read(file, it)) for it in STORE)
    print(f"commits {first} and {other}")
    return 1 if first != other else 2 if first < int(os.environ["CRASH_MARKS"]) else 0


def main(words):
    if words[:1] == ["write"]:
        file = os.open(os.environ["FILES"] + "/store", os.O_RDWR | os.O_CREAT, 0o644)
        for number in (1, 2, 3):
            commit(file, number)
        return 0
    return check(words[1], words[2:] == ["sync"])


if __name__ == "__main__":
    sys.exit(main(sys.argv[1:]))
