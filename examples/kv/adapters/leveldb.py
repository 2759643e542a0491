"""LevelDB, by Debian's python3-plyvel. In the mode `sync` each commit is synced."""
import plyvel


class Store:
    def __init__(self, folder, mode):
        self.db, self.is_synced = plyvel.DB(folder, create_if_missing=True), mode == "sync"
        self.get, self.close, self.checkpoint = self.db.get, self.db.close, self.db.compact_range

    def begin(self):
        batch = self.db.write_batch(sync=self.is_synced)
        self.put, self.remove, self.commit = batch.put, batch.delete, batch.write
