#!/usr/bin/python3
"""A tdb with one key: store.py FILE [BYTE [alone]]. It gives the key a value of that byte, in a transaction or without one. Without these words
it prints of which bytes the value is."""
import os
import sys

import tdb

KEY, SIZE = b"key", 105_000


def main(path, byte="", how=""):
    db = tdb.Tdb(path, 0, tdb.NOMMAP, os.O_RDWR | os.O_CREAT)
    if not byte:
        print(bytes(sorted(set(db.get(KEY)))).decode())
    elif how:
        db.store(KEY, byte.encode() * SIZE)
    else:
        db.transaction_start()
        db.store(KEY, byte.encode() * SIZE)
        db.transaction_commit()


if __name__ == "__main__":
    main(*sys.argv[1:])
