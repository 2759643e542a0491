#!/usr/bin/env python3
"""Asks again and again that what a folder's files have is written out, as a kernel does by its clock: `writer.py FOLDER PATTERN` does it for files
whose names are as the pattern has it. It makes nothing durable. found_on_ext4.py has it run beside a program."""
import contextlib
import ctypes
import fnmatch
import os
import sys
import time

SYNC_FILE_RANGE_WRITE = 2
EACH = 0.05


def main(folder, pattern):
    range_of = ctypes.CDLL(None, use_errno=True).sync_file_range
    range_of.argtypes = (ctypes.c_int, ctypes.c_int64, ctypes.c_int64, ctypes.c_uint)
    while True:
        for at, _, names in os.walk(folder):
            for name in fnmatch.filter(names, pattern):
                # (it may be gone by now, or be a socket)
                with contextlib.suppress(OSError):
                    file = os.open(os.path.join(at, name), os.O_RDONLY | os.O_NONBLOCK | os.O_NOFOLLOW)
                    range_of(file, 0, 0, SYNC_FILE_RANGE_WRITE)
                    os.close(file)
        time.sleep(EACH)


if __name__ == "__main__":
    main(*sys.argv[1:])
