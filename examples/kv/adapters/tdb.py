"""tdb, by Debian's python3-tdb, with transactions. The mode `NOMMAP` has it without a mapping."""
import os

import tdb


class Store:
    def __init__(self, folder, mode):
        flags = tdb.NOMMAP if mode == "NOMMAP" else tdb.DEFAULT
        self.db = db = tdb.Tdb(f"{folder}/db.tdb", 0, flags, os.O_RDWR | os.O_CREAT)
        self.get, self.put, self.remove, self.close = db.get, db.store, db.delete, db.close
        self.begin, self.commit = db.transaction_start, db.transaction_commit
