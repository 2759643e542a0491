"""What the folder of a recording knows of itself: the file `recording.json`, which crashbpf-record writes beside the log.

    version   1
    sectors   how many the device has
    large     whether the log takes --large
    base      the file of --base, seen from the folder, or null
    map       the map of files for crashbpf-files, or null where the device is one file
    table     the table of orders, or null where names and sizes are left out
    files     the folder $FILES, as the program saw it
    at        the folder in which the program was started
    begun     when it was begun: nanoseconds, as the system has them of a file
    skipped   the names that were skipped
    program   the words of the program
    logs      how many logs there are, or 0 where there is one: where there are several the folder has none, and logs/1 and so on are folders with one
              each, as that of a recording
    first     of such a log the first cut that it is judged at: those before belong to the log before
"""
import json
import os
from dataclasses import asdict, dataclass, field
from pathlib import Path

NAME, LOG, LOGS, VERSION = "recording.json", "writes.log", "logs", 1
# The most bytes of the file.
MOST = 16 << 20


class Unknown(Exception):
    """Why a folder isn't that of a recording."""


@dataclass
class Recording:
    """A recording, in its folder."""

    folder: str
    sectors: int
    large: bool = False
    base: object = None
    map: object = None
    table: object = None
    files: str = ""
    at: str = ""
    begun: int = 0
    skipped: list = field(default_factory=list)
    program: list = field(default_factory=list)
    logs: int = 0
    first: int = 0

    def path(self, name):
        """The path of a file of the recording."""
        return os.path.join(self.folder, name)

    def log(self):
        return self.path(LOG)

    def one(self, number):
        """The folder of one of several logs."""
        return self.path(os.path.join(LOGS, str(number)))

    def options(self):
        """The options of crashbpf that the log takes, as pairs."""
        pairs = [("--sectors", str(self.sectors))]
        pairs += [("--large", None)] if self.large else []
        pairs += [("--from", str(self.first))] if self.first else []
        return pairs + ([("--base", self.path(self.base))] if self.base else [])

    def write(self):
        """Writes the file into the folder."""
        known = {name: value for name, value in asdict(self).items() if name != "folder"}
        Path(self.folder, NAME).write_text(json.dumps({"version": VERSION, **known}, indent=1) + "\n")


# What each value is, for who reads a file that something else wrote.
KINDS = {"sectors": int, "large": bool, "base": (str, type(None)), "map": (str, type(None)), "table": (str, type(None)), "files": str, "at": str, "begun": int}
# What a folder of an earlier crashbpf-record doesn't say.
LATER = {"logs": 0, "first": 0}


def read(folder):
    """Reads what a folder knows of itself. What is no recording is told as Unknown."""
    path = os.path.join(folder, NAME)
    try:
        with open(path, "rb") as file:
            found = json.loads(file.read(MOST))
    except FileNotFoundError:
        raise Unknown(f"{folder} is no folder of crashbpf-record: it has no {NAME}") from None
    except ValueError:
        raise Unknown(f"{path} can't be read") from None
    lists = ("skipped", "program")
    if not isinstance(found, dict) or found.pop("version", None) != VERSION:
        raise Unknown(f"{path} is of another version of crashbpf-record")
    found = {**LATER, **found}
    if set(found) != {*KINDS, *LATER, *lists} or not all(isinstance(found[name], kind) for name, kind in {**KINDS, **dict.fromkeys(LATER, int)}.items()):
        raise Unknown(f"{path} can't be read")
    if not all(isinstance(found[name], list) and all(isinstance(it, str) for it in found[name]) for name in lists):
        raise Unknown(f"{path} can't be read")
    return Recording(folder, **found)
