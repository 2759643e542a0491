#!/usr/bin/env python3
"""Makes the rows of docs/FOUND.md anew, and compares them with what it says. By hand.

    python3 tests/by_hand/found.py [--store] [--no-cure] [--keep FOLDER] [NAME ..]
    python3 tests/by_hand/found.py --seeds 1-20 [--keep FOLDER] [NAME ..]
    python3 tests/by_hand/found.py --document

Each row is a program and a check that crashbpf-test is given: stores by examples/kv, all else by examples/found. NAME is a row, or the
beginning of some; without one all are made. What a row comes to is compared with examples/found/found.json: how many cases there are,
how many fail, which syncs lack, and what is left with them. Where counts differ from run to run only the syncs are compared, and whether
cases fail. With --store the file is written. With --no-cure no syncs
are tried, which takes a third of the time, and what is left with them isn't compared. With --keep the answers are kept in a folder, each with its text.

With --seeds the rows of stores are made with other commits, by these seeds. A line tells each, and what its row doesn't have: syncs that are
missing, why no sync helps, and how the check ends.

With --document nothing is run: the tables of docs/FOUND.md have to have the rows and the figures of that file, and no others.

It wants the built program, which CRASHBPF names where it is another, strace, and the packages that the rows name; a row whose packages aren't
there says what lacks. A line tells each row. The status is 1 where one is otherwise.
"""
import argparse
import json
import os
import re
import subprocess
import sys
import tempfile
from dataclasses import dataclass, replace
from pathlib import Path

sys.dont_write_bytecode = True

import rooms

rooms.enter()

from notation import TOP

TEST, KV, FOUND = TOP / "commands/test/crashbpf-test", TOP / "examples/kv", TOP / "examples/found"
# (a check of a store is loaded once)
LOADED = TOP / "tests/by_hand/loaded.py"
STORED, DOCUMENT = FOUND / "found.json", TOP / "docs/FOUND.md"
SECONDS = 3600
# The commits of stores: by this seed a key is overwritten, another removed, and a checkpoint is made after the second.
SEED, COMMITS = 138, 3
# What is told of a name that is made by chance.
CHANCE = re.compile(r"[0-9a-f]{6,}|[A-Za-z0-9_.:]*\d{6}[A-Za-z0-9_.:,=]*|(?<=tmp_obj_)\w+|(?<=sed)\w{6}|\d+")


@dataclass(frozen=True)
class Row:
    """A program in a setting, and its check."""

    name: str
    # what has to be installed; the first package is the program's own
    packages: str
    program: tuple
    check: str
    options: tuple = ()
    # the script that makes what $FILES has at first, with its words
    base: tuple = ()
    # how many writes are lost at once; without it one, and up to three where these are few and nothing fails
    bound: str = ""
    # whether counts differ from run to run
    varies: bool = False


def kv(name, packages, adapter, options="", is_prefix=False, varies=False, is_new=True, bound="1"):
    """Returns the row of a store. Where it isn't new the first of its commits is there before."""
    words = f"{adapter} --seed {SEED} --commits {COMMITS}{'' if is_new else ' --made 1'}"
    base = () if is_new else (KV / "workload", adapter, "--seed", str(SEED), "--commits", "1")
    check = f"{KV / 'check'} {words}{' --prefix' * is_prefix}"
    return Row(name, packages, (KV / "workload", *words.split()), check, tuple(options.split()), base, bound, varies)


def script(name, packages, folder, words="", base="", options="", varies=False, bound=""):
    """Returns the row of scripts in a folder of examples/found."""
    at = FOUND / folder
    made = ("sh", at / "base.sh", *base.split())
    return Row(name, packages, ("sh", at / "program.sh", *words.split()), f"sh {at / 'check.sh'}", tuple(options.split()), made, bound, varies)


def is_store(row):
    return row.check.startswith(str(KV))


def seeded(row, seed):
    """Returns the row of a store with another seed."""

    def words(given):
        return tuple(str(seed) if it == str(SEED) else it for it in given)

    check = row.check.replace(f"--seed {SEED} ", f"--seed {seed} ")
    return replace(row, name=f"{row.name}@{seed}", program=words(row.program), base=words(row.base), check=check, bound="1")


def sqlite_rows():
    """Yields the rows of SQLite. By its document a commit may be lost where synchronous is OFF, or NORMAL in WAL."""
    for journal in ("DELETE", "TRUNCATE", "PERSIST", "WAL"):
        for synchronous in ("OFF", "NORMAL", "FULL", "EXTRA"):
            is_prefix = synchronous == "OFF" or (journal, synchronous) == ("WAL", "NORMAL")
            options = "--skip db-shm" if journal == "WAL" else ""
            yield kv(f"sqlite-{journal}-{synchronous}".lower(), "libsqlite3-0", f"sqlite:{journal},{synchronous}", options, is_prefix, is_new=False)


ROWS = [
    *sqlite_rows(),
    kv("lmdb", "liblmdb0 python3-lmdb", "lmdb", "--skip lock.mdb"),
    kv("lmdb-nometasync", "liblmdb0 python3-lmdb", "lmdb:metasync", "--skip lock.mdb", is_prefix=True),
    kv("lmdb-nosync", "liblmdb0 python3-lmdb", "lmdb:sync", "--skip lock.mdb", is_prefix=True),
    kv("lmdb-writemap", "liblmdb0 python3-lmdb", "lmdb:writemap", "--skip lock.mdb --mapped"),
    kv("lmdb-mapasync", "liblmdb0 python3-lmdb", "lmdb:writemap,map_async", "--skip lock.mdb --mapped", is_prefix=True),
    kv("leveldb-sync", "libleveldb1d python3-plyvel", "leveldb:sync", "--skip LOG* --skip LOCK", varies=True),
    kv("leveldb", "libleveldb1d python3-plyvel", "leveldb", "--skip LOG* --skip LOCK", is_prefix=True, varies=True),
    kv("rocksdb-sync", "librocksdb7.8 librocksdb-dev", "rocksdb:sync", "--skip LOG* --skip LOCK", varies=True),
    kv("rocksdb", "librocksdb7.8 librocksdb-dev", "rocksdb", "--skip LOG* --skip LOCK", is_prefix=True, varies=True),
    kv("berkeley", "libdb5.3 python3-bsddb3", "berkeley", "--skip __db.0*"),
    kv("gdbm", "libgdbm6 libgdbm-dev", "gdbm", "--mapped"),
    kv("gdbm-nommap", "libgdbm6 libgdbm-dev", "gdbm:NOMMAP"),
    kv("tdb", "libtdb1 python3-tdb", "tdb", "--mapped", is_new=False),
    kv("tdb-nommap", "libtdb1 python3-tdb", "tdb:NOMMAP", is_new=False),
    script("tdb-grow", "libtdb1 python3-tdb", "tdb"),
    kv("kyoto", "libkyotocabinet16v5 libkyotocabinet-dev", "kyoto", "--mapped", is_new=False),
    kv("kyoto-nommap", "libkyotocabinet16v5 libkyotocabinet-dev", "kyoto:NOMMAP", is_new=False),
    kv("tokyo", "libtokyocabinet9 libtokyocabinet-dev", "tokyo", "--mapped", is_new=False),
    kv("redis-always", "redis-server python3-redis", "redis:always", "--skip socket", varies=True),
    script("postgres", "postgresql-15", "postgres", varies=True),
    script("etcd", "etcd-server etcd-client", "etcd", options="--skip 0.tmp --skip .touch", varies=True),
    script("git", "git", "git", bound="1"),
    script("git-all", "git", "git", base="all", bound="1"),
    script("git-gc", "git", "git", "gc", bound="1"),
    script("git-gc-all", "git", "git", "gc", "all", bound="1"),
    script("dpkg", "dpkg", "dpkg", "--no-force-unsafe-io", bound="1"),
    script("dpkg-unsafe", "dpkg", "dpkg", "--force-unsafe-io", bound="1"),
    script("sgdisk", "gdisk", "gpt", "sgdisk"),
    script("sfdisk", "fdisk gdisk", "gpt", "sfdisk"),
    script("luks-change", "cryptsetup-bin", "luks", "luksChangeKey"),
    script("luks-change-slot", "cryptsetup-bin", "luks", "luksChangeKey --key-slot 0"),
    script("luks-add", "cryptsetup-bin", "luks", "luksAddKey"),
    script("tune2fs-uuid", "e2fsprogs", "ext4", "tune2fs -U random", bound="1"),
    script("resize2fs-grow", "e2fsprogs", "ext4", "resize2fs", "2M", bound="1"),
    script("resize2fs-shrink", "e2fsprogs", "ext4", "resize2fs -M", bound="1"),
    script("fatlabel", "dosfstools", "fat"),
    script("btrfs-label", "btrfs-progs", "btrfs", bound="1"),
    script("maildrop", "maildrop", "mail", "maildrop"),
    script("procmail", "procmail", "mail", "procmail"),
    script("python-maildir", "python3", "mail", "python"),
    script("mutt", "mutt", "mail", "mutt"),
    script("vim", "vim", "editor", "vim"),
    script("vim-n", "vim", "editor", "vim-n"),
    script("nano", "nano bsdutils", "editor", "nano"),
    script("emacs", "emacs-nox", "editor", "emacs"),
    script("ed", "ed", "editor", "ed"),
    script("sed", "sed", "editor", "sed"),
]


def version(package):
    """Returns which version of a package is there, or nothing."""
    done = subprocess.run(["dpkg-query", "-W", "-f", "${db:Status-Abbrev} ${Version}", package], capture_output=True, text=True)
    state, _, found = done.stdout.partition("  ")
    return found if state.startswith("ii") else ""


def surroundings(room):
    """The environment of a row: what is remembered elsewhere changes no answer. Nor does the clock: by it resize2fs and tune2fs write once more
    where a second has passed."""
    crashbpf = os.environ.get("CRASHBPF", str(TOP / "crates/crashbpf/out/crashbpf"))
    return {**os.environ, "HOME": room, "LC_ALL": "C", "GIT_CONFIG_NOSYSTEM": "1", "E2FSPROGS_FAKE_TIME": "1000000000", "CRASHBPF": crashbpf}


def options(row, room):
    """The options of a row, with its base, which is made in a folder."""
    if not row.base:
        return row.options
    base = Path(room, "base/files")
    base.mkdir(parents=True)
    subprocess.run(row.base, cwd=base, env={**surroundings(room), "FILES": str(base)}, check=True)
    return ("--base", base, *row.options)


def asked(row, keep, options_more):
    """Gives a row to crashbpf-test. Returns its answer, or what it said where there is none."""
    with tempfile.TemporaryDirectory(prefix="crashbpf-found.") as room:
        out = Path(keep or room, f"{row.name}.json")
        bound = ("--bound", row.bound) if row.bound else ()
        test = LOADED if is_store(row) else TEST
        words = [test, *options_more, *bound, "--no-lines", "--json", out, *options(row, room), "--check", row.check, "--", *row.program]
        out.unlink(missing_ok=True)
        done = subprocess.run(words, env=surroundings(room), cwd=TOP, stdin=subprocess.DEVNULL, capture_output=True, text=True, errors="replace", timeout=SECONDS)
        if keep:
            Path(keep, f"{row.name}.txt").write_text(done.stdout + done.stderr)
        return json.loads(out.read_text()) if out.exists() else " ".join(done.stderr.split()[-60:])


def call(it):
    """A call, without what is by chance."""
    return CHANCE.sub("*", it["text"]) if it else "the beginning"


def summary(answer):
    """What is compared of an answer."""
    found, tried = answer["explored"], answer["tried"]
    answers = answer["missing"] + answer["helpless"]
    bound = re.match(r"up to (\d)", found["losses"])
    made = {"bound": bound[1] if bound else found["losses"], "cases": found["cases"], "failing": found["failing"], "complete": found["complete"]}
    made["missing"] = sorted({CHANCE.sub("*", f"{it['of']} {it['name']} before {it['before']['text']}") for it in answer["missing"]})
    made["helpless"] = sorted({f"{it['why']} after {call(it['after'])}" for it in answer["helpless"]})
    made["statuses"] = sorted({it["check"]["ended"] for it in answers})
    made["cured"] = tried and [tried["failing"], tried["cases"]]
    return made


def is_same(row, found, stored):
    """Whether a row is as it is stored. The version isn't compared, and no cure where none was tried on a side."""
    if row.varies:
        return [found["missing"], found["helpless"], found["failing"] > 0] == [stored["missing"], stored["helpless"], stored["failing"] > 0]
    left_out = {"version", *(() if found["cured"] and stored["cured"] else ("cured",))}
    return all(value == stored[name] for name, value in found.items() if name not in left_out)


def stored_rows():
    """Returns what is stored, by the rows' names."""
    return json.loads(STORED.read_text()) if STORED.exists() else {}


def store(name, more):
    """Stores something of a row; the rows stand in the order in which they are made."""
    rows = stored_rows()
    rows[name] = {**rows.get(name, {}), **more}
    STORED.write_text(json.dumps({it.name: rows[it.name] for it in ROWS if it.name in rows}, indent=1) + "\n")


def store_seen(name, kernel, seen):
    """Stores what was seen of a row on the ext4 of a kernel."""
    store(name, {"on ext4": {**stored_rows().get(name, {}).get("on ext4", {}), kernel: seen}})


def told(name, it):
    """The line of a row."""
    cured = "" if not it["cured"] else f"; with them {it['cured'][0]} of {it['cured'][1]}"
    return f"{name}: {it['failing']} of {it['cases']} fail, complete {it['complete']}; {', '.join([*it['missing'], *it['helpless']]) or 'nothing lacks'}{cured}"


def made(row, keep, more):
    """Makes a row. Returns its line, and what it comes to, or nothing."""
    lacking = [it for it in row.packages.split() if not version(it)]
    if lacking and not os.environ.get("FOUND_ANYHOW"):
        return f"{row.name}: can't be run here, there is no {', '.join(lacking)}", None
    answer = asked(row, keep, more)
    if isinstance(answer, str):
        return f"{row.name}: no answer: {answer}", None
    found = {"version": version(row.packages.split()[0]), **summary(answer)}
    return told(row.name, found), found


def cells(line):
    return [it.strip() for it in line.strip().strip("|").split("|")]


def on_ext4(it):
    """Returns what docs/FOUND.md says of a row on a real ext4."""
    found = it.get("on ext4", {}).values()
    if any(one["seen"] for one in found):
        return "seen"
    return f"not in {sum(one['images'] for one in found):,} images" if found else "not tried" if it["failing"] else "-"


def differing(known, stored, names, figures):
    """Yields where the document differs from what is stored: its rows have names of that form, and have the `figures` of each."""
    rows = {it[0].strip("`"): it for it in map(cells, DOCUMENT.read_text().splitlines()) if re.fullmatch(names, it[0]) and len(it) > 4}
    yield from (f"{name}: no row in {DOCUMENT.name}" for name in known if name not in rows)
    yield from (f"{name}: not in {stored.name}" for name in rows if name not in known)
    for name in sorted(known.keys() & rows.keys()):
        yield from (f"{name}: {it} isn't in its row" for it in figures(known[name]) if it not in rows[name])


def figures(it):
    """Returns what the document's row has of what was found."""
    cured = f"{it['cured'][0]:,} of {it['cured'][1]:,}" if it["cured"] else "not tried" if it["missing"] else "-"
    return [it["version"], f"{it['failing']:,} of {it['cases']:,}", cured, on_ext4(it)]


def is_agreed(differences):
    """Prints where the document differs from what is stored, and returns whether it doesn't."""
    found = list(differences)
    print("\n".join([*found, f"{len(found)} findings"]))
    return not found


def made_folder(path):
    """Returns the folder that is asked for, which is there now, or None where none is."""
    if path:
        path.mkdir(exist_ok=True)
    return path and path.resolve()


def is_asked(name, names):
    """Whether a row is asked for: by its name, by the beginning of it before a `*`, or as all are."""
    return not names or any(name == it or it.endswith("*") and name.startswith(it[:-1]) for it in names)


def try_seeds(row, seeds, keep, more):
    """Makes the row of a store by other seeds, and prints of each what it comes to, and what the row itself doesn't have."""
    known = stored_rows().get(row.name, {"missing": [], "helpless": [], "statuses": []})
    for seed in seeds:
        line, found = made(seeded(row, seed), keep, more)
        parts = {} if found is None else {name: sorted({*found[name]} - {*known[name]}) for name in ("missing", "helpless", "statuses")}
        print(line, *(f"\n    more {name}: {', '.join(its)}" for name, its in parts.items() if its), flush=True)


def make_rows(rows, keep, more, is_stored):
    """Makes rows, and prints the line of each. Returns how many are otherwise than they are stored."""
    wrong = 0
    for row in rows:
        line, found = made(row, keep, more)
        print(line, flush=True)
        known = stored_rows()
        if found and is_stored:
            store(row.name, found)
        elif found and row.name not in known:
            print("it isn't stored", flush=True)
        elif found and not is_same(row, found, known[row.name]):
            print(f"otherwise than stored: {told(row.name, known[row.name])}", flush=True)
            wrong += 1
        wrong += found is None
    return wrong


def parse():
    """Returns what the words ask for."""
    reader = argparse.ArgumentParser(description=__doc__, formatter_class=argparse.RawDescriptionHelpFormatter)
    for it in ("store", "no-cure", "document"):
        reader.add_argument(f"--{it}", action="store_true")
    reader.add_argument("--keep", type=Path)
    reader.add_argument("--seeds", type=lambda text: range(int(text.split("-")[0]), int(text.split("-")[1]) + 1))
    reader.add_argument("names", nargs="*")
    return reader.parse_args()


def main():
    given = parse()
    if given.document:
        return 0 if is_agreed(differing(stored_rows(), STORED, r"`[a-z0-9-]+`", figures)) else 1
    keep = made_folder(given.keep)
    more = ["-j", os.environ.get("FOUND_RUNNERS", "2"), *(["--no-cure"] if given.no_cure or given.seeds else [])]
    rows = [it for it in ROWS if is_asked(it.name, given.names)]
    if not given.seeds:
        return make_rows(rows, keep, more, given.store) > 0
    for row in filter(is_store, rows):
        try_seeds(row, given.seeds, keep, more)
    return 0


if __name__ == "__main__":
    sys.exit(main())
