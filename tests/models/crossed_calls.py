"""Calls of several threads at once on two files, and what a crash leaves of these, in the plainest form.

A call in flight may have arrived, or not, sector by sector. A sync has durable what had been written when it began, from where it
ends on. Nothing is shared with commands/record.
"""
import itertools

THREADS = (100, 101, 102)
# What the files hold at first, which the value 0 stands for; and the descriptors: numbers, names, and more flags.
FILES = {b"db": b"@" * 1024, b"wal": b"@" * 1024}
OPENED = ((3, "db", ""), (4, "wal", ""), (5, "db", "|O_DSYNC"), (6, "wal", "|O_DSYNC"))


def chosen(chance):
    """Calls of three threads on two files, as they begin and end: what begins or ends, of which thread, what the call does, and where."""
    flying, events = {}, []
    for value in range(1, chance.randint(3, 14)):
        thread = chance.choice(THREADS)
        if thread in flying:
            events.append(("end", thread, *flying.pop(thread)))
            continue
        flying[thread] = chance.choice("wwwwdss"), chance.randrange(2), chance.randrange(2), value
        events.append(("begin", thread, *flying[thread]))
    return events + [("end", it, *flying[it]) for it in sorted(flying)]


def text_of(events):
    """The text of such calls. The first thread made the others."""
    text = "".join(f"openat(AT_FDCWD</elsewhere>, 'x', O_RDWR{flags}) = {number}<{name}>\n" for number, name, flags in OPENED)
    text += "".join(f"clone(child_stack=0x7f, flags=CLONE_VM|CLONE_FILES|CLONE_THREAD) = {it}\n" for it in THREADS[1:])
    for what, thread, kind, file, at, value in events:
        name, number = ("fsync" if kind == "s" else "pwrite64"), (5 if kind == "d" else 3) + file
        words = f"{number}<{('db', 'wal')[file]}>" + ("" if kind == "s" else f", '{chr(64 + value)}*512', 512, {512 * at}")
        whole = f"{name}({words} <unfinished ...>" if what == "begin" else f"<... {name} resumed>) = {0 if kind == 's' else 512}"
        text += f"{'' if thread == 100 else f'{thread} '}{whole}\n"
    return text + "".join(f"{it} +++ exited with 0 +++\n" for it in THREADS[1:])


def disk_of(files):
    """The values of the sectors of both files, which begin with them."""
    return tuple(files[name][at] - 64 for name in sorted(files) for at in (0, 512))


def left(events):
    """Each disk that a crash leaves within such calls: of each sector a version that is durable for sure, or one after that, those of calls
    in flight too. Nothing is known of the order in which two calls at once were done but for that: each may have been done or not."""
    versions = {(file, at): [0] for file in range(2) for at in range(2)}
    sure, seen, flying, found = dict.fromkeys(versions, 0), {}, {}, set()

    def crash():
        kept = []
        for place in sorted(versions):
            now = [value for kind, *its, value in flying.values() if kind != "s" and tuple(its) == place]
            kept.append(set(versions[place][sure[place] :]) | set(now))
        found.update(itertools.product(*kept))

    crash()
    for what, thread, kind, file, at, value in events:
        if what == "begin":
            flying[thread] = kind, file, at, value
            seen[thread] = {place: len(its) - 1 for place, its in versions.items() if place[0] == file} if kind == "s" else {}
        else:
            del flying[thread]
            if kind != "s":
                versions[file, at].append(value)
            if kind == "d":
                seen[thread] = {(file, at): len(versions[file, at]) - 1}
            # (until it ends nothing of it is durable for sure)
            crash()
            for place, version in seen.pop(thread).items():
                sure[place] = max(sure[place], version)
        crash()
    return found
