"""Redis, by a server of its own and Debian's python3-redis. The mode is its appendfsync, as `always`. A commit is one MULTI."""
import subprocess
import time

import redis

SERVER = "setpriv --pdeathsig KILL redis-server --port 0 --save --appendonly yes --unixsocket socket"


class Store:
    def __init__(self, folder, mode):
        self.server = subprocess.Popen([*SERVER.split(), "--appendfsync", mode, "--dir", folder], stdout=2)
        ping = ["redis-cli", "-s", f"{folder}/socket", "ping"]
        while self.server.poll() is None and b"PONG" not in subprocess.run(ping, capture_output=True).stdout:
            time.sleep(0.05)
        self.db = redis.Redis(unix_socket_path=f"{folder}/socket")
        self.get, self.close = self.db.get, lambda: (self.server.terminate(), self.server.wait())

    def begin(self):
        txn = self.db.pipeline()
        self.put, self.remove, self.commit = txn.set, txn.delete, txn.execute
