"""Lays the files of a crash image out in a folder, and runs a program there: what crashbpf-files does."""
import os
import subprocess
import sys
import tempfile
from pathlib import Path

from commands.record import layout
from commands.record import named_layout
from commands.record import systems
from commands.record.calls import Refused
from commands.shared import ends

# The most bytes of a map that are read.
MAP = 16 << 20
# Where crashbpf-each serves the image, this is its folder. It makes the folder of the files there, so that it sees at what the program looks.
SERVED = "CRASH_SERVED"


def read_map(text):
    """What a map has, and the number of sectors of its device."""
    if systems.is_map(text):
        found = systems.read_map(text)
        return found, found[1]
    if named_layout.is_map(text):
        found = named_layout.read_map(text)
        return found, found[2]
    return layout.read_map(text)


def is_system(found):
    """Whether that is what a map of a file system has."""
    return isinstance(found, tuple) and isinstance(found[0], str)


def lay_system(found, image, beside, folder):
    """Makes the files of an image of a file system in a folder: by its tools, or by the machine whose state lies beside the map."""
    _kind, _sectors, inside, accelerator = found
    if accelerator is None:
        return systems.lay_out(image, inside, folder, is_served(image))
    # (it names modules that other images have no use for)
    from commands.record import mounting

    return mounting.take(os.path.join(beside, mounting.MACHINE), accelerator, image, inside, folder)


def lay_out(found, image, sectors, folder, beside):
    """Makes the files of an image in a folder. `found` are places, or what a map with names, or that of a file system, has. What is
    beside the map lies in the folder `beside`."""
    with open(image, "rb") as device:
        if os.fstat(device.fileno()).st_size != layout.SECTOR * sectors:
            raise Refused(f"{image}: it has {os.fstat(device.fileno()).st_size} bytes, and the map is of {layout.SECTOR * sectors}")
        if is_system(found):
            return lay_system(found, image, beside, folder)
        if isinstance(found, tuple):
            try:
                return named_layout.Image(device, found).lay_out(folder)
            except Refused as refused:
                raise Refused(f"{image}: {refused}") from None
        for it in found:
            path = os.path.join(os.fsencode(folder), it.name)
            os.makedirs(os.path.dirname(path), exist_ok=True)
            device.seek(layout.SECTOR * it.first)
            with open(path, "xb") as file:
                file.write(device.read(it.length))


def is_served(image):
    served = os.environ.get(SERVED)
    return bool(served) and os.path.abspath(image) == os.path.join(served, "image")


def served_folder(text, image):
    """Returns the folder that is served of an image, by the bytes of a map."""
    served = os.environ[SERVED]
    Path(served, "files.map").write_bytes(text)
    folder = os.path.join(served, "files")
    try:
        os.mkdir(folder)
    except OSError as fault:
        said = Path(served, "files.fault")
        raise Refused(f"{image}: {said.read_text() if said.exists() else fault.strerror}") from None
    return folder


def run(words, folder):
    """Runs the program in the folder. Returns its status."""
    running = subprocess.Popen(words, cwd=folder, env={**os.environ, "FILES": folder})
    try:
        status = running.wait()
    finally:
        if running.returncode is None:
            running.kill()
            running.wait()
    return status if status >= 0 else 128 - status


def main(words):
    """Does what the words ask for. Returns the status."""
    ends.exit_on_signals()
    if len(words) < 4 or words[2] != "--":
        print("usage: crashbpf-files MAP IMAGE -- PROGRAM [WORD ..]", file=sys.stderr)
        return 2
    try:
        with open(words[0], "rb") as file:
            text = file.read(MAP)
        try:
            found, sectors = read_map(text.decode())
        except (Refused, UnicodeDecodeError) as fault:
            raise Refused(f"{words[0]}:{fault if isinstance(fault, Refused) else '1: it is no text'}") from None
        if is_served(words[1]) and not is_system(found):
            return run(words[3:], served_folder(text, words[1]))
        with tempfile.TemporaryDirectory(prefix="crashbpf-files.") as folder:
            lay_out(found, words[1], sectors, folder, os.path.dirname(words[0]))
            return run(words[3:], folder)
    except Refused as refused:
        return ends.say("crashbpf-files", str(refused))
    except OSError as error:
        return ends.say("crashbpf-files", f"{error.filename or words[1]}: {error.strerror}")
