"""Adapters in C: they are compiled when they are first taken, and called as those in Python."""
import ctypes
import functools
import hashlib
import os
import re
import subprocess
import tempfile
from pathlib import Path

HERE = Path(__file__).resolve().parent


class Failed(Exception):
    """A call of a store failed."""


class Library:
    """A store by an adapter in C."""

    ROOM = 1 << 20

    def __init__(self, calls, folder, mode):
        self.calls = calls
        self.calls.kv_get.restype = ctypes.c_long
        for name in ("begin", "checkpoint"):
            if hasattr(self.calls, f"kv_{name}"):
                setattr(self, name, functools.partial(self.do, name))
        self.do("open", folder.encode(), mode.encode())

    def do(self, name, *words):
        if getattr(self.calls, f"kv_{name}")(*words):
            raise Failed(name)

    def get(self, key):
        """Returns the value of a key, or None where it isn't there."""
        value = ctypes.create_string_buffer(self.ROOM)
        size = self.calls.kv_get(key, value, ctypes.c_long(self.ROOM))
        if size < -1 or size > self.ROOM:
            raise Failed("get")
        return None if size == -1 else value.raw[:size]

    def put(self, key, value):
        self.do("put", key, value, ctypes.c_long(len(value)))

    def remove(self, key):
        self.do("remove", key)

    def commit(self):
        self.do("commit")

    def close(self):
        self.do("close")


def compiled(path):
    """Compiles an adapter, unless that was done, by the words that its first line says. Returns the file."""
    text = path.read_text()
    words = re.search(r"compiled with (.*?) \*/", text.split("\n")[0])
    name = hashlib.sha256((text + (HERE / "kv.h").read_text()).encode()).hexdigest()[:16]
    folder = Path(tempfile.gettempdir(), f"crashbpf-kv-{os.getuid()}")
    folder.mkdir(mode=0o700, exist_ok=True)
    out = folder / f"{path.stem}-{name}.so"
    if not out.exists():
        new = f"{out}.{os.getpid()}"
        subprocess.run(["cc", "-O1", "-g", "-shared", "-fPIC", "-I", HERE, "-o", new, path, *(words[1].split() if words else ())], check=True)
        os.rename(new, out)
    return out


def load(path):
    """Returns what opens a store, and whether its commits change one key."""
    calls = ctypes.CDLL(str(compiled(Path(path))))
    return functools.partial(Library, calls), hasattr(calls, "kv_is_single")
