#!/usr/bin/env python3
"""Asks crashbpf-test of ten programs with a bug that hides it: whether it names the call. By hand.

    python3 tests/by_hand/hidden_bugs.py FOLDER [NAME ..]

FOLDER is made, and keeps the programs and what was said. They are in C, lack a sync each, and make others near it: of another file, too early,
too late, by another descriptor. Known by hand are the file or folder that isn't synced, and the call before which it has to be. A bug is
named where the first answer is that one, at the line of that call, and nothing fails with the syncs. Numbers in names don't count. It wants strace, a C compiler,
addr2line, and crashbpf on the path.

Prints a line for each, with what is named, and last how many of them are. The status is 0 where at least nine in ten are.
"""
import json
import subprocess
import sys
from dataclasses import dataclass
from pathlib import Path

sys.dont_write_bytecode = True

import rooms

rooms.enter()

from notation import TOP

from commands.test.plain import plain

COMMAND = TOP / "commands/test/crashbpf-test"
PRELUDE = """\
#define _GNU_SOURCE
#include <fcntl.h>
#include <pthread.h>
#include <semaphore.h>
#include <stdio.h>
#include <stdlib.h>
#include <string.h>
#include <sys/stat.h>
#include <unistd.h>
#define SIZE 1000
#define MADE (O_RDWR | O_CREAT)
static char data[SIZE];
static const char *of(int n) { memset(data, 'a' + n, SIZE); return data; }
static void must(long it) { if (it < 0) { perror("call"); exit(1); } }
static int opened(const char *name, int flags) { int file = open(name, flags, 0644); must(file); return file; }
static void sync_folder(const char *name) { int it = opened(name, O_RDONLY); must(fsync(it)); close(it); }
static const char *name_of(const char *form, int n) { static char text[64]; snprintf(text, sizeof text, form, n); return text; }
static void mark(int n)
{
	char path[4096];
	snprintf(path, sizeof path, "%s/marks", getenv("RECORDING"));
	int file = opened(path, O_WRONLY | O_APPEND);
	must(dprintf(file, "0 saved-%d\\n", n));
	close(file);
}
/* Which version stands there: 0 where nothing is, or zeros, -1 where it isn't whole. */
static int version(const char *name, off_t at)
{
	char found[SIZE];
	int file = open(name, O_RDONLY);
	ssize_t length = file < 0 ? 0 : pread(file, found, SIZE, at);
	if (file >= 0)
		close(file);
	for (int it = 1; it < length; it++)
		if (found[it] != found[0])
			return -1;
	if (length == 0 || !found[0])
		return 0;
	return length == SIZE && found[0] > 'a' ? found[0] - 'a' : -1;
}
static int max(int a, int b) { return a > b ? a : b; }
static void save(int n);
static int is_right(int marks);
int main(int count, char **words)
{
	if (count > 1)
		return !is_right(atoi(getenv("CRASH_MARKS"))) + 0 * !words;
	must(chdir(getenv("FILES")));
	for (int n = 1; n <= 3; n++)
		save(n);
	return 0;
}
"""


@dataclass
class Bug:
    """A program: what it does, what isn't synced, before which call, the piece of the line that makes it, and words for crashbpf-test."""

    name: str
    text: str
    of: str
    before: str
    piece: str
    words: tuple = ()


BUGS = [
    Bug("a folder is renamed, one of its files is synced twice", """
static void save(int n)
{
	must(mkdir("tmp", 0755));
	int first = opened("tmp/first", MADE), second = opened("tmp/second", MADE);
	must(pwrite(first, of(n), SIZE, 0));
	must(pwrite(second, of(n), SIZE, 0));
	must(fsync(first));
	must(fsync(first));
	sync_folder("tmp");
	must(rename("tmp", name_of("v%d", n)));
	sync_folder(".");
	mark(n);
}
static int is_right(int marks)
{
	for (int n = 1; n <= 3; n++) {
		char first[64], second[64];
		snprintf(first, 64, "v%d/first", n);
		snprintf(second, 64, "v%d/second", n);
		if ((n <= marks || !access(name_of("v%d", n), F_OK)) && (version(first, 0) != n || version(second, 0) != n))
			return 0;
	}
	return 1;
}
""", "tmp/second", 'rename("tmp", "v1")', "must(rename("),
    Bug("a log is cut before what it has is durable elsewhere", """
static void save(int n)
{
	int log = opened("log", MADE), db = opened("db", MADE);
	if (n == 1)
		sync_folder(".");
	must(pwrite(log, of(n), SIZE, 0));
	must(fsync(log));
	mark(n);
	must(pwrite(db, of(n), SIZE, 0));
	must(ftruncate(log, 0));
	must(fsync(log));
}
static int is_right(int marks)
{
	return max(version("log", 0), version("db", 0)) >= marks;
}
""", "db", 'ftruncate("log", 0)', "must(ftruncate("),
    Bug("a number is synced that is of another file by then", """
static void save(int n)
{
	int records = opened("records", MADE);
	if (n == 1)
		sync_folder(".");
	must(pwrite(records, of(n), SIZE, SIZE * n));
	close(records);
	int total = opened("total", MADE);
	must(fdatasync(records));
	must(pwrite(total, of(n), SIZE, 0));
	must(fsync(total));
	mark(n);
	close(total);
}
static int is_right(int marks)
{
	int total = version("total", 0);
	for (int n = 1; n <= total; n++)
		if (version("records", SIZE * n) != n)
			return 0;
	return total >= marks;
}
""", "records", 'pwrite("total", 1000 bytes at 0)', "must(pwrite(total"),
    Bug("a sync before the last write", """
static void save(int n)
{
	int file = opened("new", MADE | O_TRUNC);
	must(pwrite(file, of(n), SIZE, SIZE));
	must(fsync(file));
	must(pwrite(file, of(n), SIZE, 0));
	must(rename("new", "kept"));
	sync_folder(".");
	mark(n);
	close(file);
}
static int is_right(int marks)
{
	int head = version("kept", 0);
	return head >= marks && version("kept", SIZE) == head;
}
""", "new", 'rename("new", "kept")', "must(rename("),
    Bug("a thread says that it is done before it syncs", """
static sem_t written, counted;
static void *segment(void *number)
{
	char name[64];
	int n = *(int *)number;
	snprintf(name, sizeof name, "segment-%d", n);
	int file = opened(name, MADE);
	must(pwrite(file, of(n), SIZE, 0));
	sem_post(&written);
	sem_wait(&counted);
	must(fsync(file));
	close(file);
	return number;
}
static void save(int n)
{
	static char room[SIZE];
	pthread_t thread;
	sem_init(&written, 0, 0);
	sem_init(&counted, 0, 0);
	pthread_create(&thread, NULL, segment, &n);
	sem_wait(&written);
	int manifest = opened("manifest", MADE);
	memset(room, 'a' + n, SIZE);
	must(pwrite(manifest, room, SIZE, 0));
	must(fsync(manifest));
	sync_folder(".");
	mark(n);
	close(manifest);
	sem_post(&counted);
	pthread_join(thread, NULL);
}
static int is_right(int marks)
{
	int count = version("manifest", 0);
	for (int n = 1; n <= count; n++)
		if (version(name_of("segment-%d", n), 0) != n)
			return 0;
	return count >= marks;
}
""", "segment-1", 'pwrite("manifest", 1000 bytes at 0)', "must(pwrite(manifest"),
    Bug("a hard link is made of what isn't durable", """
static void save(int n)
{
	int file = opened("tmp", MADE);
	must(pwrite(file, of(n), SIZE, 0));
	must(link("tmp", name_of("message-%d", n)));
	must(unlink("tmp"));
	sync_folder(".");
	mark(n);
	close(file);
}
static int is_right(int marks)
{
	for (int n = 1; n <= 3; n++)
		if ((n <= marks || !access(name_of("message-%d", n), F_OK)) && version(name_of("message-%d", n), 0) != n)
			return 0;
	return 1;
}
""", "tmp", 'link("tmp", "message-1")', "must(link("),
    Bug("a copy by copy_file_range is relied on and not synced", """
static void save(int n)
{
	int config = opened("config", MADE), copy = opened("copy", MADE | O_TRUNC);
	if (n > 1)
		must(copy_file_range(config, NULL, copy, NULL, 2 * SIZE, 0));
	must(fsync(config));
	sync_folder(".");
	must(pwrite(config, of(n), SIZE, 0));
	must(pwrite(config, of(n), SIZE, SIZE));
	must(fsync(config));
	mark(n);
	close(config);
	close(copy);
}
static int pair(const char *name) { int head = version(name, 0); return version(name, SIZE) == head ? head : -1; }
static int is_right(int marks)
{
	return max(pair("config"), pair("copy")) >= marks;
}
""", "copy", 'pwrite("config", 1000 bytes at 0)', "must(pwrite(config, of(n), SIZE, 0))"),
    Bug("a sync by a copy of a descriptor that is of the old file", """
static void save(int n)
{
	static int known = -1;
	if (known < 0)
		known = dup(opened("state", O_RDONLY | O_CREAT));
	int file = opened("state.new", MADE | O_TRUNC);
	must(pwrite(file, of(n), SIZE, 0));
	must(fsync(known));
	must(rename("state.new", "state"));
	sync_folder(".");
	mark(n);
	close(file);
}
static int is_right(int marks)
{
	return version("state", 0) >= marks;
}
""", "state.new", 'rename("state.new", "state")', "must(rename("),
    Bug("O_DSYNC on the wrong file", """
static void save(int n)
{
	int log = opened("log", MADE), count = opened("count", MADE | O_DSYNC);
	if (n == 1)
		sync_folder(".");
	must(pwrite(log, of(n), SIZE, SIZE * n));
	must(pwrite(count, of(n), SIZE, 0));
	mark(n);
	close(log);
	close(count);
}
static int is_right(int marks)
{
	int count = version("count", 0);
	for (int n = 1; n <= count; n++)
		if (version("log", SIZE * n) != n)
			return 0;
	return count >= marks;
}
""", "log", 'pwrite("count", 1000 bytes at 0)', "must(pwrite(count"),
    Bug("the parent's parent isn't synced", """
static void save(int n)
{
	char parent[64], inner[64], name[64];
	snprintf(parent, 64, "day-%d", n);
	snprintf(inner, 64, "day-%d/hour", n);
	snprintf(name, 64, "day-%d/hour/file", n);
	must(mkdir(parent, 0755));
	must(mkdir(inner, 0755));
	int file = opened(name, MADE);
	must(pwrite(file, of(n), SIZE, 0));
	must(fsync(file));
	sync_folder(inner);
	sync_folder(parent);
	mark(n);
	close(file);
}
static int is_right(int marks)
{
	for (int n = 1; n <= marks; n++)
		if (version(name_of("day-%d/hour/file", n), 0) != n)
			return 0;
	return 1;
}
""", "", "mark saved-1", "must(dprintf(", ("--files", "strict")),
]


def told(folder, bug, number):
    """What crashbpf-test says of a bug: its answer for machines, and the text."""
    source, program, answer = (folder / f"bug-{number}{it}" for it in (".c", "", ".json"))
    source.write_text(PRELUDE + bug.text)
    subprocess.run(["cc", "-g", "-pthread", "-o", program, source], check=True)
    answer.unlink(missing_ok=True)
    words = [COMMAND, "-j", "2", *bug.words, "--json", answer, "--check", f"{program} check", "--", program]
    done = subprocess.run(words, cwd=folder, capture_output=True, text=True, stdin=subprocess.DEVNULL)
    (folder / f"bug-{number}.said").write_text(done.stdout + done.stderr)
    return json.loads(answer.read_text()) if answer.exists() else None


def judged(folder, bug, number):
    """Whether a bug is named, and what is said of it."""
    answer = told(folder, bug, number)
    if answer is None:
        return False, "no answer"
    lines = (PRELUDE + bug.text).splitlines()
    wanted = (plain(bug.of), plain(bug.before), f"bug-{number}.c:{next(at for at, it in enumerate(lines, 1) if bug.piece in it)}")
    found = [(it["name"], it["before"]["text"], it["before"]["where"]) for it in answer["missing"]]
    cured = answer["tried"] is not None and answer["tried"]["failing"] == 0
    more = "" if len(found) == 1 else f"; {len(found)} answers, {len(answer['helpless'])} without a sync"
    said = "; ".join(f'fsync of "{name}" before {before} at {where}' for name, before, where in found[:2])
    return [(plain(name), plain(before), where) for name, before, where in found[:1]] == [wanted] and cured, f"{said}{more}{'' if cured else '; NOT CURED'}"


def main(words):
    if not words:
        sys.exit(__doc__)
    folder = Path(words[0]).resolve()
    folder.mkdir(exist_ok=True)
    count = wanted = 0
    for number, bug in enumerate(BUGS):
        if words[1:] and not any(it in bug.name for it in words[1:]):
            continue
        is_named, said = judged(folder, bug, number)
        count, wanted = count + is_named, wanted + 1
        print(f"{'named' if is_named else 'NOT NAMED'}: {bug.name}: {said}", flush=True)
    print(f"{count} of {wanted} are named")
    return 0 if 10 * count >= 9 * wanted else 1


if __name__ == "__main__":
    sys.exit(main(sys.argv[1:]))
