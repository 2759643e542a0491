"""LMDB, by Debian's python3-lmdb. The mode has words of lmdb.open: those that are turned off, as `metasync`, or on, as `writemap`."""
import lmdb


class Store:
    def __init__(self, folder, mode):
        flags = {it: it in ("writemap", "map_async") for it in mode.split(",") if it}
        self.env = lmdb.open(folder, map_size=1 << 20, **flags)
        self.close = self.env.close

    def begin(self):
        self.txn = self.env.begin(write=True)
        self.put, self.remove, self.commit = self.txn.put, self.txn.delete, self.txn.commit

    def get(self, key):
        with self.env.begin() as reading:
            return reading.get(key)
