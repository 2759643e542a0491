#!/usr/bin/python3
"""Does what lmdb_check.py does, for one image after the other, without being started anew. For crashbpf-each --stay."""
import os

import lmdb_check
import stay


def check(path, marks):
    os.environ["CRASH_MARKS"] = str(marks)
    return lmdb_check.main(path)


if __name__ == "__main__":
    stay.judge(check)
