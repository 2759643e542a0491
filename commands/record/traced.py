"""Records by strace what a program does to the files of a folder.

Its files lie in FOLDER/files, which is empty when the program begins, or has what --base has. strace writes each call that may
matter to FOLDER/calls. When all processes have ended the calls are followed (`tracing.py`), the files as they should be then are
compared with those that are there, byte by byte, and only where all agree FOLDER gets its log.
"""
import functools
import os
import re
import shlex
import shutil
import signal
import stat
import subprocess
from contextlib import suppress
from dataclasses import dataclass, replace
from pathlib import Path

from commands.record import layout
from commands.record import listening
from commands.record import logs
from commands.record import looks
from commands.record import named_layout
from commands.record.calls import Refused, makers, shown
from commands.record.disk import PAGE, SECTOR, WRITE, Disk
from commands.record.files import Another, Other, skips, skips_below
from commands.record.layout import trace_log
from commands.record.mapped import Mapped
from commands.record.named import NamedTracing, beginning
from commands.record.orders import FILE, FOLDER, MOST_BETWEEN, TABLES
from commands.record.told import entries_text, owners
from commands.record.tracing import Tracing
from commands.shared.recording import LOGS, NAME, Recording

# Calls that strace need not stop at: they write no file, move no place in one, and answer no descriptor of one.
PASSED = (
    "pread64 preadv futex clock_gettime clock_nanosleep nanosleep gettimeofday time sched_yield rt_sigaction rt_sigprocmask "
    "rt_sigreturn brk getrandom getpid gettid getppid getuid geteuid getgid getegid getrlimit prlimit64 getrusage sysinfo "
    "uname set_robust_list set_tid_address rseq epoll_wait epoll_pwait poll ppoll select pselect6 stat fstat lstat newfstatat statx "
    "access faccessat faccessat2 getdents64 sigaltstack sched_getaffinity sched_setaffinity timerfd_settime tgkill"
).split()
# Their words as they are, so that the bytes that are read aren't written down.
RAW = "read,readv"
STRING = 1 << 26
OPTIONS = ["-f", "-q", "-xx", "-y", "-v", "-s", str(STRING), "-e", f"raw={RAW}"]
MARKS, FILES, CALLS, LOOKS, BASE, LOG, ENTRIES = "marks", "files", "calls", "looks", "base.img", "writes.log", "entries"
MAP, HEADER = "files.txt", "files.h"
MADE = (LOG, BASE, MAP, HEADER, ENTRIES, NAME, LOGS)
# In which parts bytes are written that go through the page cache.
PAGES = "pages"
PARTS = ("calls", PAGES)
# What stands in the folder of a recording that was refused.
LEFT = (MARKS, FILES, CALLS, LOOKS, BASE, MAP, HEADER, ENTRIES, NAME, LOGS)


def other_at(path, kind):
    """What a path is that is no file and no folder, or nothing."""
    if stat.S_ISLNK(kind):
        return Other("symlink", os.readlink(path))
    return Other("fifo") if stat.S_ISFIFO(kind) else Other("socket") if stat.S_ISSOCK(kind) else None


def files_in(folder):
    """The regular files below a folder, by their names in it, as paths; and so what is neither these nor a folder."""
    found, others, top = {}, {}, os.fsencode(folder)
    for here, folders, names in os.walk(top):
        for name in names + folders:
            path = os.path.join(here, name)
            kind = os.lstat(path).st_mode
            if stat.S_ISREG(kind):
                found[os.path.relpath(path, top)] = path
            elif other_at(path, kind) is not None:
                others[os.path.relpath(path, top)] = other_at(path, kind)
    return found, others


def folders_in(folder):
    """The folders below a folder, by their names in it."""
    at = os.fsencode(folder)
    return sorted(os.path.relpath(here, at) for here, _, _ in os.walk(at) if here != at)


def contents_of(folder):
    """The contents of the files below a folder, by their names in it. Of a file that has several names the others name the first."""
    found, _ = files_in(folder)
    total = sum(os.path.getsize(it) for it in found.values())
    if total > SECTOR * trace_log.LARGE.sectors:
        raise Refused(f"the files have {total} bytes, and a device has at most {SECTOR * trace_log.LARGE.sectors}")
    contents, firsts = {}, {}
    for name, path in sorted(found.items()):
        it = os.stat(path)
        first = firsts.setdefault((it.st_dev, it.st_ino), name)
        contents[name] = Path(os.fsdecode(path)).read_bytes() if first == name else Another(first)
    return contents


def others_of(files, skipped, leaves_out):
    """What below the folder of a recording is neither file nor folder, and isn't skipped. A link into the folder is one of `inside`."""
    top = os.fsencode(files)
    found = {name: it for name, it in files_in(files)[1].items() if not leaves_out(name, skipped)}
    for name, it in found.items():
        if it.text == top or it.text.startswith(top + b"/"):
            found[name] = Other("inside", it.text[len(top) + 1 :] or b".")
    return found


def refuse_links(others):
    """Refuses a symbolic link in a recording without names."""
    for name, it in others.items():
        if it.text:
            raise Refused(f"{shown(os.fsdecode(name))} is a symbolic link, and names are left out; --files")


def link_again(base, files):
    """Has the files of a folder that are one file in the base be one again."""
    firsts = {}
    for name, path in sorted(files_in(base)[0].items()):
        it = os.stat(path)
        first = firsts.setdefault((it.st_dev, it.st_ino), name)
        if first != name:
            to = os.path.join(os.fsencode(files), name)
            os.unlink(to)
            os.link(os.path.join(os.fsencode(files), first), to)


def lay_base(base, files):
    """Puts what the program is to find into its folder: a file, or all of a folder."""
    if base is None:
        return
    if os.path.isdir(base):
        shutil.copytree(base, files, symlinks=True, dirs_exist_ok=True, copy_function=shutil.copy)
    else:
        shutil.copy(base, os.path.join(files, os.path.basename(base)))


def strace_command(out, words):
    """The command that runs a program under strace, whose version is 5.3 at least."""
    try:
        said = subprocess.run(["strace", "-V"], stdin=subprocess.DEVNULL, capture_output=True, text=True).stdout
    except FileNotFoundError:
        raise Refused("there is no strace (Debian: strace)") from None
    found = re.match(r"strace -- version (\d+)\.(\d+)", said)
    if not found or (int(found[1]), int(found[2])) < (5, 3):
        raise Refused(f"it wants strace 5.3 or later, and this one is {shown(said.splitlines()[0]) if said else 'none'}")
    passed = ",".join(f"?{it}" for it in PASSED)
    return ["strace", *OPTIONS, "--seccomp-bpf", "-e", f"trace=!{passed}", "-o", out, "--", *words]


def traced_by(process):
    """The processes that a process traces."""
    for entry in os.listdir("/proc"):
        with suppress(OSError):
            if entry.isdigit() and re.search(rf"(?m)^TracerPid:\t{process}$", Path("/proc", entry, "status").read_text()):
                yield int(entry)


def end_all(running):
    """Ends strace, and what it traces."""
    for _ in range(50):
        for it in traced_by(running.pid):
            with suppress(OSError):
                os.kill(it, signal.SIGKILL)
        with suppress(subprocess.TimeoutExpired):
            running.wait(timeout=0.1)
            return
    running.kill()
    running.wait()


def run(folder, words, environment):
    """Runs the program. Returns its status."""
    running = subprocess.Popen(strace_command(os.path.join(folder, CALLS), words), env=environment)
    try:
        status = running.wait()
    except BaseException:
        end_all(running)
        raise
    return status if status >= 0 else 128 - status


def surroundings(folder):
    """The environment of a program that is recorded in a folder: with $RECORDING, and with `mark` on its path."""
    path = [os.environ.get("PATH", os.defpath), str(Path(__file__).resolve().parent)]
    return {**os.environ, "RECORDING": folder, "PATH": os.pathsep.join(path)}


def run_with_looks(folder, words, environment, leaves_out):
    """Runs the program, and looks at the files that it has mapped at each of its calls. Returns its status."""
    calls = os.path.join(folder, CALLS)
    running, listener = looks.started(strace_command(calls, listening.below(words)), environment)
    with open(os.path.join(folder, LOOKS), "wb") as out:
        taken = looks.Looks(environment["FILES"], calls, out, leaves_out)
        try:
            taken.serve(listener, running.pid)
            status = running.wait()
        except BaseException:
            # (whoever still waits for an answer gets an error)
            os.close(listener)
            end_all(running)
            raise
        finally:
            taken.close()
    os.close(listener)
    return status if status >= 0 else 128 - status


def with_looks(tracing, calls):
    """Has a tracing follow what is mapped, where looks were taken. Returns it."""
    found = os.path.join(os.path.dirname(calls), LOOKS)
    if os.path.exists(found):
        tracing.mapped = Mapped(tracing, found, calls)
    return tracing


def follow(calls, files, before, skipped, at, marks=None, begun=0, pages=False):
    """Follows the calls that strace wrote down. Returns the tracing, whose disk has the entries, by pages or by calls."""
    with open(calls, "rb") as stream:
        made = makers(stream)
    tracing = Tracing(files, before, skipped, Disk(pages), made, at, marks, begun)
    with open(calls, "rb") as stream:
        with_looks(tracing, calls).follow(stream)
    return tracing


def follow_names(calls, files, before, folders, skipped, at, marks, table, begun=0, kind=NamedTracing, pages=False):
    """Follows the calls of a recording whose names and sizes count, by a table. Which names a rename ties together is known only at
    the end, so the calls are followed twice where the table asks for it. `kind` says who follows them."""
    joined = None
    for _ in range(1 if TABLES[table].one else 2):
        with open(calls, "rb") as stream:
            made = makers(stream)
        tracing = kind(files, beginning(table, Disk(pages), joined, before, folders), skipped, made, at, marks, begun)
        with open(calls, "rb") as stream:
            with_looks(tracing, calls).follow(stream)
        joined = tracing.tree.ties()
    return tracing


def compare(tracing, after):
    """Compares the files as they should be with those that are there."""
    for name in sorted(set(tracing.files) | set(after)):
        it, called = tracing.files.get(name), shown(os.fsdecode(name))
        if it is None:
            raise Refused(f"the file {called} is there, and no call was seen that made it")
        if it.unlinked and name not in after:
            continue
        if it.unlinked or name not in after:
            raise Refused(f"the file {called} is {'there' if name in after else 'gone'}, and no call was seen that did it")
        found = after[name]
        if len(found) != it.size:
            raise Refused(f"the file {called} has {len(found)} bytes, and by the calls that were seen {it.size}")
        if found != it.content[: it.size]:
            place = next(at for at, (a, b) in enumerate(zip(found, it.content)) if a != b)
            raise Refused(f"the file {called} differs from byte {place} on from what the calls that were seen wrote")


def note_modes(tracing, files):
    """Notes which permissions files and folders have at the end: those that are gone then have no others than new ones have."""
    there = {(FILE, it.number): name for name, it in tracing.files.items()} | {(FOLDER, number): name for name, number in tracing.folders.items()}
    tracing.tree.modes = {held: stat.S_IMODE(os.stat(os.path.join(os.fsencode(files), name)).st_mode) for held, name in there.items()}


def is_device(tracing, base):
    """Whether a recording is of one file that is a device: of the file `base` alone, which has whole sectors and never got longer."""
    if base is None or os.path.isdir(base):
        return False
    files = [it for it in tracing.files.values() if it.most]
    return len(files) == 1 and files[0].most == len(files[0].initial) and files[0].most % SECTOR == 0


@dataclass
class Whole:
    """All of a recording on its device: the entries, where each file begins, the number of sectors, what stands there at first; the two maps
    of the files, the files that places are of, and the table."""

    entries: list
    firsts: dict
    sectors: int
    image: bytes
    map: str
    header: str
    owners: dict
    table: object = None
    # whether --base is wanted though it is all zeros
    has_base: bool = False


def recorded(tracing, base=None):
    """Returns all of a recording without names, and what is said of the maps."""
    sizes, pages = {name: it.most for name, it in tracing.files.items() if it.most}, tracing.disk.pages
    found, sectors = layout.places(sizes, is_device(tracing, base), PAGE * SECTOR if pages else SECTOR)
    firsts = {tracing.files[it.name]: it.first for it in found}
    if not any(it.count for it in tracing.disk.entries):
        raise Refused("the program wrote no file of its folder, $FILES, so nothing was recorded")
    entries = cut_off(tracing.disk.entries, sectors) if pages and is_device(tracing, base) else tracing.disk.entries
    image = layout.image_of(found, {it.name: tracing.files[it.name].initial for it in found}, sectors)
    lines = [f"{layout.escaped(it.name)}: {it.length} bytes from sector {it.first} on" for it in found]
    return Whole(entries, firsts, sectors, image, layout.map_text(found, sectors), layout.header_text(found), {}), lines


def cut_off(entries, sectors):
    """Entries of a file that is a device, in which the last page ends where the device does."""
    return [replace(it, data=it.data[: SECTOR * (sectors - it.sector)]) if it.file is not None else it for it in entries]


def recorded_names(tracing):
    """Returns as `recorded`, of a recording whose names and sizes count."""
    laid = named_layout.Laid(tracing.tree)
    if not any(it.count for it in tracing.disk.entries):
        raise Refused("the program changed no file of its folder, $FILES, so nothing was recorded")
    lines = [
        *(f"names: sector {it.sector}" for it in laid.sets),
        *(f"{layout.escaped(it.name)}: its size in sector {it.size}, {it.sectors} sectors from {it.first} on" for it in laid.rooms),
    ]
    maps = laid.map_text(), named_layout.header_text(laid)
    return Whole(list(laid.entries()), laid.firsts, laid.sectors, laid.image(), *maps, owners(tracing.tree), tracing.tree.table, True), lines


def write_log(whole, made, entries, image):
    """Writes a log with what belongs to it into its folder."""
    written, made.large = layout.log_of(entries, whole.firsts, whole.sectors)
    write_maps(whole, made, image)
    trace_log.write_log(made.log(), written)
    Path(made.path(ENTRIES)).write_text(entries_text(entries, whole.owners), errors="surrogateescape")


def write_maps(whole, made, image):
    """Writes into such a folder which files the device has, and what stands there at first."""
    Path(made.path(MAP)).write_text(whole.map)
    Path(made.path(HEADER)).write_text(whole.header)
    if whole.has_base or any(image):
        made.base = BASE
        Path(made.path(BASE)).write_bytes(image)


def write_logs(whole, folder, most):
    """Writes the log of a recording, or several logs, each of at most `most` entries. Returns what the folder knows of itself, what those of
    several logs know, and what is to be said."""
    entries, notes = layout.fitting(whole.entries, most)
    made, found = Recording(folder, whole.sectors, map=MAP, table=whole.table), []
    for it in logs.split(entries, whole.firsts, whole.image, most):
        if len(it.numbers) == len(entries) and not it.first:
            write_log(whole, made, entries, whole.image)
            return made, [], notes
        found.append(Recording(made.one(len(found) + 1), whole.sectors, map=MAP, table=whole.table, first=it.first))
        os.makedirs(found[-1].folder)
        write_log(whole, found[-1], [entries[number] for number in it.numbers], it.base)
    write_maps(whole, made, whole.image)
    made.logs, made.large = len(found), any(it.large for it in found)
    return made, found, [*notes, f"a log can't have all that was recorded, so there are {len(found)} logs, in {LOGS}/1 and so on"]


AGAIN_NOTE = (
    "by writeback each new block takes one freed block of the recording and may show what that held last; that it takes another, or shows "
    "older bytes, isn't tried, and what files that aren't recorded write to freed blocks is left out"
)


def notes_of_sizes(tracing):
    """What a reader should know of the sizes that files may have between two."""
    calls = list(tracing.tree.skipping.values()) if isinstance(tracing, NamedTracing) else []
    if not calls:
        return []
    more = f", and {len(calls) - 3} more" if len(calls) > 3 else ""
    names = ", ".join(f"calls:{it.line} {it.name}" for it in calls[:3])
    return [f"a gap or reserved room of more than {MOST_BETWEEN} blocks ({names}{more}): of the sizes between, {MOST_BETWEEN} are tried"]


def notes_of(tracing, before):
    """What a reader should know of a recording: what was left out of it."""
    left_out = [] if isinstance(tracing, NamedTracing) else tracing.files.values()
    made = [it for it in left_out if it.name not in before and it.most]
    grown = [it for it in left_out if it.name in before and it.most > len(before[it.name])]
    notes = [*tracing.notes, *([AGAIN_NOTE] if isinstance(tracing, NamedTracing) and tracing.tree.again else [])]
    for files, what in ((made, "is taken to be there from the start"), (grown, "is taken to have its largest size from the start")):
        notes += [f"{shown(os.fsdecode(it.name))} {what}" for it in files]
    notes += notes_of_sizes(tracing)
    return notes + [f"{shown(os.fsdecode(path))} isn't recorded: {call}" for path, call in tracing.written_outside.items()]


def parts_note(tracing, parts):
    """What a reader should know of the parts in which bytes are lost, where they were written through the page cache."""
    if parts is None or not any(it.kind == WRITE and not hasattr(it.file, "keeps_order") for it in tracing.disk.entries):
        return []
    if parts == PAGES:
        return ["by pages, for a disk that writes 4,096 bytes at once: where a page is torn its images are left out; --parts calls has them by --by sector"]
    return ["--by write loses all that a call wrote, and --by sector what a disk of 512 bytes does; --parts pages is for one that writes 4,096 at once"]


def record(folder, base, skipped, words, environment, say, table=None, is_mapped=False, parts=None, most=trace_log.ENTRIES):
    """Records a program. Returns its status, and what is said of the log. `say` tells a line of what is left out. With a table
    names and sizes count. With `is_mapped` files may be mapped. `parts` is one of PARTS, or nothing where no note says the other. A log has
    at most `most` entries, and where there are more there are several logs."""
    files, at = os.path.join(folder, FILES), os.path.realpath(".")
    os.mkdir(files)
    lay_base(base, files)
    Path(folder, MARKS).touch()
    leaves_out = skips if table is None else skips_below
    if table is not None and base is not None and os.path.isdir(base):
        link_again(base, files)
    before = {name: it for name, it in contents_of(files).items() if not leaves_out(name, skipped)}
    others = others_of(files, skipped, leaves_out)
    if table is None:
        refuse_links(others)
    else:
        before |= others
    folders = [it for it in folders_in(files) if not leaves_out(it, skipped)]
    calls, marks = os.path.join(folder, CALLS), os.path.join(folder, MARKS)
    begun = os.stat(marks).st_ctime_ns
    runs = functools.partial(run_with_looks, leaves_out=lambda name: leaves_out(name, skipped)) if is_mapped else run
    status = runs(folder, words, {**environment, "FILES": files})
    if table is None:
        tracing = follow(calls, files, before, skipped, at, marks, begun, parts == PAGES)
    else:
        tracing = follow_names(calls, files, before, folders, skipped, at, marks, table, begun, pages=parts == PAGES)
    compare(tracing, contents_of_recorded(files, skipped, leaves_out))
    compare_others(tracing, others_of(files, skipped, leaves_out), table)
    if table is not None and {b"", *(it for it in folders_in(files) if not leaves_out(it, skipped))} != set(tracing.folders):
        raise Refused("other folders are there than the calls that were seen made")
    if table is not None:
        note_modes(tracing, files)
    whole, lines = recorded(tracing, base) if table is None else recorded_names(tracing)
    made, found, notes = write_logs(whole, folder, most)
    tracing.notes += notes
    for it in (made, *found):
        it.files, it.at, it.begun, it.skipped, it.program = files, at, begun, list(skipped), list(words)
        it.write()
    marks, large = sum(1 for it in whole.entries if it.kind == layout.MARK), ", by the limits of --large" if made.large else ""
    entries = len(layout.fitting(whole.entries, most)[0])
    several = f", in {made.logs} logs" if made.logs else ""
    lines.append(f"entries {entries} marks {marks} sectors {made.sectors}{large}{several}: crashbpf-each {shlex.quote(os.path.relpath(folder))} -- COMMAND")
    for line in notes_of(tracing, before) + parts_note(tracing, parts):
        say(f"note: {line}")
    return status, "\n".join(lines)


def contents_of_recorded(files, skipped, leaves_out):
    """The contents of the files that aren't skipped."""
    names = {name: path for name, path in files_in(files)[0].items() if not leaves_out(name, skipped)}
    return {name: Path(os.fsdecode(path)).read_bytes() for name, path in names.items()}


def compare_others(tracing, there, table):
    """Compares what should be there with what is, but for files and folders."""
    if table is None:
        refuse_links(there)
        return
    for name in sorted(there.keys() | tracing.others.keys()):
        if there.get(name) != tracing.others.get(name):
            raise Refused(f"{shown(os.fsdecode(name))} is {there.get(name)}, and by the calls that were seen {tracing.others.get(name)}")
