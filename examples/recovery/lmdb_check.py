#!/usr/bin/python3
"""Opens the LMDB that lmdb_write.py wrote, and looks for each commit that was acknowledged. For crashbpf-each.

    lmdb_check.py IMAGE

The file of LMDB is the only one that was recorded, so it begins where the image does.

    1   LMDB can't open it, or finds that it is damaged
    2   the content of a key isn't as it was written
    3   a commit that was acknowledged is gone
"""
import os
import sys

import lmdb


def main(path):
    marks = int(os.environ["CRASH_MARKS"])
    try:
        with lmdb.open(path, subdir=False, lock=False) as env, env.begin() as view:
            found = {bytes(key): bytes(value) for key, value in view.cursor()}
    except lmdb.Error as error:
        print(error)
        return 1 if marks else 0
    print(f"keys: {sorted(found)}, after {marks} marks")
    if any(value != bytes([int(key[4:])]) * 700 for key, value in found.items()):
        return 2
    return 0 if all(b"key-%d" % it in found for it in range(1, marks + 1)) else 3


if __name__ == "__main__":
    sys.exit(main(sys.argv[1]))
