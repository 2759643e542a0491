"""Makes two commits to a database of SQLite with a rollback journal, each acknowledged by a mark. For crashbpf-record:

    python3 write.py prepare base           # the folder with what the files hold when the recording begins
    crashbpf-record --base base recorded -- python3 $PWD/write.py FULL

The word is the setting of `synchronous`: FULL, or OFF with which SQLite asks for no sync. The journal is kept (`journal_mode =
PERSIST`): a commit puts zeros over its header.
"""
import os
import sqlite3
import sys


def opened(folder, synchronous):
    """Returns the database, with small pages and a journal that stays."""
    it = sqlite3.connect(f"{folder}/made.db", isolation_level=None)
    for setting in ("page_size = 512", "journal_mode = PERSIST", f"synchronous = {synchronous}"):
        it.execute(f"PRAGMA {setting}").fetchall()
    return it


def insert(db, first, count):
    """Inserts that many rows from a number on, in one transaction."""
    db.execute("BEGIN")
    for n in range(first, first + count):
        db.execute("INSERT INTO t VALUES (?, ?, ?)", (n, f"name {n * 7 % 100:02}", "x" * 60))
    db.execute("COMMIT")


def prepare(folder):
    """The database and the journal as large as they get, and a free page."""
    os.mkdir(folder)
    db = opened(folder, "FULL")
    db.execute("CREATE TABLE t (n INTEGER PRIMARY KEY, name TEXT, note TEXT)")
    db.execute("CREATE INDEX by_name ON t (name)")
    insert(db, 1, 12)
    db.execute("UPDATE t SET note = note || '.'")
    db.execute("DELETE FROM t WHERE n > 8")


def write(synchronous):
    """Makes two transactions, each acknowledged by a mark."""
    db = opened(os.environ["FILES"], synchronous)
    for number, first, count in ((1, 9, 1), (2, 10, 3)):
        insert(db, first, count)
        with open(os.environ["RECORDING"] + "/marks", "a") as marks:
            marks.write(f"0 commit-{number}\n")


if __name__ == "__main__":
    prepare(sys.argv[2]) if sys.argv[1] == "prepare" else write(sys.argv[1])
