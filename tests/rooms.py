"""The rooms from which the scripts of tests/ and bench/ take modules. A script says, before it names one:

    import rooms

    rooms.enter()

Python looks for modules in the folder of a script, so each folder with scripts has a small rooms.py that gives this one.
"""
import sys
from pathlib import Path

TOP = Path(__file__).resolve().parent.parent
# The top has the package `commands`, tests/ the package `rows`; the others have modules of their own.
ROOMS = ("tests/shared", "tests/models", "tools", "examples/mounted", "tests/gate", "tests", "")


def enter():
    """Puts the rooms in front of Python's path, once."""
    sys.path[:0] = [str(TOP / it) for it in ROOMS if str(TOP / it) not in sys.path]
