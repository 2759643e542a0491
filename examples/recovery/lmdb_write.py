#!/usr/bin/python3
"""Makes five commits to an LMDB of one file, each acknowledged by a mark. For crashbpf-record.

    lmdb_write.py [nosync]

With `nosync` LMDB asks for no flush (MDB_NOSYNC). It wants Debian's package python3-lmdb.
"""
import os
import sys

import lmdb

PAGES = 64


def mark(name):
    with open(os.environ["RECORDING"] + "/marks", "a") as file:
        file.write(f"0 {name}\n")


def main(words):
    path = os.environ["FILES"] + "/data.mdb"
    with lmdb.open(path, subdir=False, lock=False, map_size=4096 * PAGES, sync=words != ["nosync"]) as env:
        for it in range(1, 6):
            with env.begin(write=True) as commit:
                commit.put(b"key-%d" % it, bytes([it]) * 700)
            mark(f"commit-{it}")


if __name__ == "__main__":
    main(sys.argv[1:])
