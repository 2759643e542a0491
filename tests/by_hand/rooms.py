"""The rooms of the repository, by tests/rooms.py, for the scripts of this folder."""
import runpy
from pathlib import Path

enter = runpy.run_path(str(Path(__file__).resolve().parent.parent / "rooms.py"))["enter"]
