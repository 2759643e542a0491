"""A plain model of files after a crash, and what a log says of the same: for tests/by_hand/record.py.

Nothing is shared with commands/record: a file is a list of sectors, each with all versions that it ever had and the number of
those that are surely on the disk. A crash leaves of each sector the last of these, or any later one. A log is read as
docs/CRASH-MODEL.md defines it, by sector, with any number of losses.
"""
import itertools


class Files:
    """What became of the sectors of files, step by step, and every disk that a crash could have left so far."""

    def __init__(self, sizes):
        self.versions = {(file, at): [0] for file, size in enumerate(sizes) for at in range(size)}
        self.sure = {place: 0 for place in self.versions}
        self.marks, self.left = 0, set()
        self.crash()

    def crash(self):
        """Takes in each disk that a crash may leave now, with the number of marks."""
        places = sorted(self.versions)
        kept = [self.versions[it][self.sure[it] :] for it in places]
        self.left |= {(self.marks, disk) for disk in itertools.product(*kept)}

    def write(self, file, first, values):
        for at, value in enumerate(values, first):
            self.versions[file, at].append(value)
        self.crash()

    def seen(self, files):
        """What a sync of these files, that begins now, has to make durable."""
        return {place: len(found) - 1 for place, found in self.versions.items() if place[0] in files}

    def synced(self, seen):
        """A sync has ended."""
        for place, version in seen.items():
            self.sure[place] = max(self.sure[place], version)
        self.crash()

    def written_through(self, file, first, values):
        """A write with O_DSYNC has ended: until then it was in flight."""
        self.write(file, first, values)
        self.synced({(file, at): len(self.versions[file, at]) - 1 for at in range(first, first + len(values))})

    def mark(self):
        self.marks += 1
        self.crash()


def cut_leaves(entries, cut, sizes):
    """Every disk that a crash leaves at a cut. Entries are (kind, file, first sector, values)."""
    flushes = [at for at in range(cut) if entries[at][0] == "flush"]
    last = flushes[-1] if flushes else 0
    kept = {(file, at): {0} for file, size in enumerate(sizes) for at in range(size)}
    for number, (kind, file, first, values) in enumerate(entries[:cut]):
        for at, value in enumerate(values, first):
            durable = kind == "fua" or number < last
            kept[file, at] = {value} if durable else kept[file, at] | {value}
    return set(itertools.product(*(kept[it] for it in sorted(kept))))


def log_leaves(entries, sizes):
    """Every disk that a crash leaves at any cut of a log, with the number of marks before it."""
    found = set()
    for cut in range(len(entries) + 1):
        marks = sum(it[0] == "mark" for it in entries[:cut])
        found |= {(marks, disk) for disk in cut_leaves(entries, cut, sizes)}
    return found
