"""Berkeley DB, by Debian's python3-bsddb3, with transactions. It recovers when it is opened."""
from bsddb3 import db

FLAGS = db.DB_CREATE | db.DB_INIT_MPOOL | db.DB_INIT_LOG | db.DB_INIT_TXN | db.DB_INIT_LOCK | db.DB_RECOVER


class Store:
    def __init__(self, folder, mode):
        self.env = db.DBEnv()
        self.env.open(folder, FLAGS)
        self.db = db.DB(self.env)
        self.db.open("t.db", None, db.DB_BTREE, db.DB_CREATE | db.DB_AUTO_COMMIT)
        self.get, self.checkpoint = self.db.get, lambda: self.env.txn_checkpoint(0, 0, db.DB_FORCE)
        self.close = lambda: (self.db.close(), self.env.close())

    def begin(self):
        txn = self.env.txn_begin()
        self.put, self.commit = lambda key, value: self.db.put(key, value, txn), txn.commit
        self.remove = lambda key: self.db.delete(key, txn)
