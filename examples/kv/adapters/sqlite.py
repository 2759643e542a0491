"""SQLite, by Python's own module. The mode is a journal mode and a setting of synchronous, as `WAL,FULL`."""
import sqlite3


class Store:
    def __init__(self, folder, mode):
        self.db = sqlite3.connect(f"{folder}/db")
        self.db.executescript("PRAGMA journal_mode = {}; PRAGMA synchronous = {}".format(*mode.split(",")))
        self.db.execute("CREATE TABLE IF NOT EXISTS t (key BLOB PRIMARY KEY, value BLOB)")
        self.commit, self.close = self.db.commit, self.db.close
        self.checkpoint = lambda: self.db.execute("PRAGMA wal_checkpoint")
        self.verify = lambda: self.db.execute("PRAGMA integrity_check").fetchone() == ("ok",)

    def get(self, key):
        return next((it for (it,) in self.db.execute("SELECT value FROM t WHERE key = ?", (key,))), None)

    def put(self, key, value):
        self.db.execute("INSERT OR REPLACE INTO t VALUES (?, ?)", (key, value))

    def remove(self, key):
        self.db.execute("DELETE FROM t WHERE key = ?", (key,))
