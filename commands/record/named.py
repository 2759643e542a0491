"""Follows the calls of a program whose names and sizes of files count.

What `tracing.py` leaves out is followed here: which names there are, in which folders, of which files, and how long each file is.
What becomes of them, and in which order, says `orders.py`.
"""
import os

from commands.record.calls import NAMED, Refused, shown, unhexed
from commands.record.disk import SECTOR
from commands.record.files import MARKS, Another, File, Other, skips_below
from commands.record.known import BESIDE, OF_LINKS, PERMISSIONS
from commands.record.orders import FILE, FOLDER, OTHER, Past, Tree
from commands.record.outside import ADVICE, Unknown
from commands.record.tracing import Tracing


# What a slot holds that is of something new.
NEW = (FILE, -1)


def beginning(table, disk, joined, before, folders):
    """The tree that stands there before anything is recorded: files with their contents, what else has a name, and folders, by their
    paths."""
    tree, numbers, slots = Tree(table, disk, joined), {b"": 0}, {}
    for path in sorted(folders):
        head, _, name = path.rpartition(b"/")
        numbers[path] = tree.begin((numbers[head], name))
    for path in sorted(before, key=lambda it: (isinstance(before[it], Another), it)):
        head, _, name = path.rpartition(b"/")
        slots[path], it = (numbers[head], name), before[path]
        if isinstance(it, Other):
            tree.begin_other(slots[path], tree.new_other(it))
        elif isinstance(it, Another):
            tree.begin_other(slots[path], tree.now[slots[it.name]])
        else:
            tree.files[tree.begin(slots[path], it)].known = {path}
    return tree


class NamedTracing(Tracing):
    """A program that is followed with names and sizes."""

    def __init__(self, folder, tree, skipped, made, at, marks=None, begun=0):
        super().__init__(folder, {}, skipped, tree.disk, made, at, marks, begun)
        self.tree, self.known_folders, self.known_others, self.brought, self.moves = tree, set(), set(), [], []
        self.handled["rmdir"] = self.end_unlink
        # what was changed besides bytes: by what that is, and by the names of what they are of, the calls that did it
        self.noted = {}
        self.refresh()

    # What is known of names

    def name(self, path):
        name = super().name(path)
        return None if name is None or skips_below(name, self.skipped) else name

    def refresh(self):
        """Names have changed, perhaps those of folders."""
        before = self.files
        self.files, self.folders = self.tree.paths()
        for path, it in before.items():
            if self.files.get(path) is not it:
                it.left.add(path)
        self.known_folders |= set(self.folders)
        self.places = {number: path for path, number in self.folders.items()}
        self.others = {path: self.tree.others[number] for path, (kind, number) in self.tree.below() if kind == OTHER}
        self.known_others |= set(self.others)
        for path, it in self.files.items():
            it.is_called(path)

    def changed(self, *slots):
        """Names have changed, those of these slots alone, which are of no folder that has something in it."""
        lost = []
        for folder, name in slots:
            path, (kind, number) = os.path.join(self.places[folder], name), self.tree.now.get((folder, name), (None, None))
            gone = self.files.pop(path, None)
            if gone is not None:
                gone.left.add(path)
                lost += [gone] if gone.name == path else []
            self.places.pop(self.folders.pop(path, None), None)
            self.others.pop(path, None)
            if kind == OTHER:
                self.others[path] = self.tree.others[number]
                self.known_others.add(path)
            elif kind == FOLDER:
                self.folders[path], self.places[number] = number, path
                self.known_folders.add(path)
            elif kind == FILE:
                self.files[path] = it = self.tree.files[number]
                it.is_called(path)
        for it in lost:
            if it.names and self.files.get(it.name) is not it:
                it.name = min(path for path, other in self.files.items() if other is it)

    def slot(self, call, name):
        """The folder and the name in it that a path in the folder has."""
        head, _, last = name.rpartition(b"/")
        if head not in self.folders:
            raise Refused(f"{call}: no call was seen that made the folder {shown(os.fsdecode(head))}")
        return self.folders[head], last

    def agrees(self, call, process, number, path, gone):
        """Refuses a descriptor of a file that never had the name that strace says, or that lost it unseen."""
        name = self.name(path)
        if name is None or number == "AT_FDCWD":
            return
        known = process.table.get(int(number), (None, False))[0]
        if known is None or known.file is MARKS or name not in known.file.known:
            if known is None and (name in self.known_folders or name in self.known_others):
                return
            raise Refused(f"{call}: no call was seen that made descriptor {number} one of {shown(os.fsdecode(name))}")
        if gone and self.files.get(name) is known.file and name not in known.file.left:
            raise Refused(f"{call}: no call was seen that unlinked {shown(os.fsdecode(name))}")

    def agrees_for(self, call, opened, at=0):
        """Refuses a call whose descriptor strace calls by no name that its file has had."""
        if opened.file is MARKS:
            return super().agrees_for(call, opened, at)
        found = NAMED.match(call.word(at))
        if not found or self.name(unhexed(found[2])) not in opened.file.known:
            raise Refused(f"{call}: strace doesn't say that it is of {shown(os.fsdecode(opened.file.name))}")
        return None

    def link(self, call, path):
        """What a path links to. A link in the folder is what the calls so far made it."""
        name = self.name(path)
        if name is None:
            return super().link(call, path)
        found = self.others.get(name)
        if found is None or found.what not in ("symlink", "inside"):
            return None
        return found.text if found.what == "symlink" else os.path.join(self.folder, found.text)

    # Changes of names

    def begin(self, call):
        super().begin(call)
        flight = self.flights[call.process]
        flight.turn, flight.version = self.tree.turn, self.tree.version(self.tree.one)

    def renamed(self, call, flight, held):
        """Notes which changes of names were made at once with the one that follows: `held` has what its slots hold then. Those that have
        something in common with it are refused, since which was first isn't known, and so are more than are remembered."""
        tree, slots = self.tree, tuple(held)
        past = Past(0, 0, None, {it: tree.now.get(it) for it in slots}, held, tree.folders_of(slots), call, False)
        found = [it for it in tree.recent if it.turn > flight.turn]
        if found and (found[0].turn > flight.turn + 1 or any(it.meets(past) for it in found)):
            bad = next((it for it in found if it.meets(past)), found[0])
            raise Refused(f"{call}: another call changed names at once, and which was first isn't known; another try may pass: {bad.call}")
        tree.call, tree.beside = call, []
        if tree.rules.one:
            self.put_beside(call, found)

    def put_beside(self, call, found):
        """These changes were made at once with the one that follows: of those that aren't durable a crash may leave it without any."""
        durable = self.tree.durable_names()
        self.tree.beside = [it for it in found if it.version > durable]
        bad = [it for it in self.tree.beside if it.beside]
        if bad:
            raise Refused(f"{call}: more than two calls changed names at once, and which was first isn't known; another try may pass: {bad[0].call}")

    def make(self, call, name, flight):
        """Makes a file of a new name, and returns it."""
        slot = self.slot(call, name)
        self.renamed(call, flight, {slot: NEW})
        file = self.tree.make_file(slot)
        self.changed(slot)
        return file

    def made_folder(self, call, name, flight):
        """Makes a folder of a new name."""
        slot = self.slot(call, name)
        self.renamed(call, flight, {slot: NEW})
        self.tree.make_folder(slot)
        self.changed(slot)

    def end_unlink(self, call, _process, flight):
        """Takes a name away, of a file or of a folder."""
        if call.failed():
            return
        path = self.own_path(call, "unlinkat")
        name = self.name(path)
        if name is None:
            self.note_removed(call, path)
        else:
            self.refuse_reopened(call, flight, name)
            slot = self.held(call, name)
            self.renamed(call, flight, {slot: None})
            self.tree.remove(slot)
            self.changed(slot)

    def note_read(self, call, name, opened, flight):
        """As without names. Where another call changed the name, or that of a folder, at once, or does it then, it isn't known which file was
        opened."""
        slot, recent = self.slot(call, name), [it for it in self.tree.recent if it.turn > flight.turn and it.call is not call]
        is_long = len(recent) == self.tree.recent.maxlen
        opened.unsure = is_long or any(slot in it.slots or any(held and held[0] == FOLDER for held in it.before.values()) for it in recent)
        for other in self.flights.values():
            other.read.append((name, opened))

    def refuse_reopened(self, call, flight, *names):
        """Refuses a change of names where another call opened a file by one of them at once, to write it."""
        for name, opened in flight.read:
            opened.unsure |= any(it is not None and (name + b"/").startswith(it + b"/") for it in names)
        for name in names:
            if name in flight.reopened:
                raise Refused(f"{call}: another call opened {shown(os.fsdecode(name))} at once, and which was first isn't known; another try may pass")

    def held(self, call, name):
        """The slot of a name that is there."""
        slot = self.slot(call, name)
        if slot not in self.tree.now:
            raise Refused(f"{call}: no call was seen that made {shown(os.fsdecode(name))}")
        return slot

    def end_rename(self, call, _process, flight):
        """Moves a name, or exchanges two; refuses what leaves the folder or comes into it."""
        if call.failed():
            return
        paths = self.both_paths(call, "rename")
        names, flags = [self.name(it) for it in paths], call.word(4) if call.name == "renameat2" else "0"
        self.refuse_reopened(call, flight, *names)
        self.note_renamed(call, paths)
        self.moves += [paths, paths[::-1]] if "RENAME_EXCHANGE" in flags else [paths]
        if names == [None, None]:
            return
        if names[1] is None:
            raise Refused(f"{call}: {shown(os.fsdecode(names[0]))} goes where nothing is recorded")
        if names[0] is None:
            self.bring(call, paths, names[1], flight)
            return
        if set(flags.split("|")) - {"0", "RENAME_NOREPLACE", "RENAME_EXCHANGE"}:
            raise Refused(f"{call}: its flags aren't known")
        slot, to = self.held(call, names[0]), self.slot(call, names[1])
        exchange = "RENAME_EXCHANGE" in flags
        self.renamed(call, flight, {slot: None, to: self.tree.now[slot]})
        moved = [self.tree.now[slot], self.tree.now.get(to)]
        if moved[0] != moved[1]:
            self.tree.rename(slot, to, exchange)
            if any(it and it[0] == FOLDER for it in moved):
                self.refresh()
            else:
                self.changed(slot, to)

    def refuse_written(self, path):
        """Refuses a file from outside that the program may have opened to write it, by one of the paths that it has had: its mtime can be
        set back."""
        paths = {path}
        for old, new in reversed(self.moves):
            paths |= {old + it[len(new) :] for it in paths if it == new or it.startswith(new + b"/")}
        if not paths.isdisjoint(self.written):
            raise Unknown("the program opens it to write it")

    def bring(self, call, paths, name, flight):
        """A file from outside has a name here. What it holds is read by a path that it has when the program has ended, the second one."""
        try:
            self.refuse_written(paths[0])
            content = self.surroundings.read_moved(paths[1])
        except Unknown as why:
            raise Refused(f"{call}: what comes here from outside isn't known: {why}; {ADVICE}") from None
        slot = self.slot(call, name)
        self.renamed(call, flight, {slot: NEW})
        file = self.tree.bring_file(slot, content)
        self.brought.append((call, file, self.name(paths[1]), paths[0]))
        self.changed(slot)

    def follow(self, stream):
        """Follows all that happened. A file that came from outside by a rename has to be found where it came to."""
        super().follow(stream)
        self.notes += self.note_beside()
        for call, file, name, path in self.brought:
            # (a link from outside leaves the path that it had)
            is_written = name is None and path in self.written
            if name is not None and self.files.get(name) is not file or file.changed or is_written:
                raise Refused(f"{call}: what became of it afterwards leaves it unknown what came here from outside; {ADVICE}")

    def end_link(self, call, process, flight):
        """Gives a file one name more, or makes a symbolic link."""
        if call.failed():
            return
        if call.name not in ("link", "linkat"):
            self.end_symlink(call, process, flight)
            return
        paths = self.both_paths(call, "link")
        if call.name == "linkat" and "AT_SYMLINK_FOLLOW" in call.word(4):
            paths[0] = self.real(call, paths[0])
        names = [self.name(it) for it in paths]
        self.refuse_reopened(call, flight, names[1])
        if names == [None, None]:
            self.outside(call, self.links.linked, *paths)
            self.moves += [paths, paths[::-1]]
            return
        if names[1] is None:
            self.refuse_names(call, paths, "gets another name")
            return
        if names[0] is None:
            self.bring(call, [paths[0], paths[0]], names[1], flight)
            return
        slot, to = self.held(call, names[0]), self.slot(call, names[1])
        self.renamed(call, flight, {to: self.tree.now[slot]})
        self.tree.link(slot, to)
        self.changed(to)

    def end_symlink(self, call, process, flight):
        """Makes a symbolic link: its text is what the name is of. One outside of the folder to what is recorded is refused."""
        at = call.name == "symlinkat"
        name, text = self.name(self.path(call, 1 if at else None, 2 if at else 1)), call.data(0)
        if name is None:
            super().end_link(call, process, flight)
        elif text == self.folder or text.startswith(self.prefix):
            self.made_other(call, name, Other("inside", text[len(self.prefix) :] or b"."), flight)
        else:
            self.made_other(call, name, Other("symlink", text), flight)

    def made_other(self, call, name, other, flight):
        """Makes a name of what is no file and no folder."""
        slot = self.slot(call, name)
        self.renamed(call, flight, {slot: (OTHER, -1)})
        self.tree.make_other(slot, other)
        self.changed(slot)

    def end_beside(self, call, _process, _flight):
        """A file or a folder has other permissions, owners, times or attributes."""
        if call.failed():
            return
        what = next(it for it, names in BESIDE.items() if call.name in names)
        name = self.changed_beside(call)
        if name in self.files or name in self.folders or name == b"?":
            self.noted.setdefault(what, {}).setdefault(name, call)

    def changed_beside(self, call):
        """The name of what such a call is of, `?` where it isn't known, and the empty one for $FILES."""
        is_at = call.name in ("fchmodat", "fchmodat2", "fchownat", "futimesat", "utimensat") and call.word(1) != "NULL"
        if is_at or not call.name.startswith("f") and call.name != "utimensat":
            try:
                path = self.own_path(call, call.name if is_at else "")
                path = path if call.name in OF_LINKS or "AT_SYMLINK_NOFOLLOW" in call.text else self.real_now(call, path)
            except Refused:
                # (it is said of a path that isn't known, and changes nothing else)
                return b"?"
        else:
            found = NAMED.match(call.word(0))
            path = unhexed(found[2]) if found and not found[3] else None
        return b"" if path == self.folder else self.name(path)

    def note_beside(self):
        """What a reader should know of what was changed of files besides their bytes."""
        return [self.beside_note(what, self.noted[what]) for what in BESIDE if what in self.noted]

    @staticmethod
    def beside_note(what, found):
        """The note of one thing that was changed, by the names of what it was changed of."""
        names = ", ".join(f"{shown(os.fsdecode(name or b'.'))} by calls:{call.line}" for name, call in list(found.items())[:3])
        more = f", and {len(found) - 3} more" if len(found) > 3 else ""
        has = "each image has those of the end" if what == PERMISSIONS else "no image has them"
        return f"{what} were changed ({names}{more}): {has}, so what a crash does to them isn't tested"

    # Bytes and sizes

    def places_of(self, file):
        """As without names; none where blocks are used again, since a write is in flight with those of other files then."""
        return [] if self.tree.again else list(file.rooms)

    def put(self, call, flight, opened, start, data, through):
        """Writes bytes of a file, and refuses those beyond an end that another call moved at once."""
        file = opened.file
        self.landed(call, flight, file, start, start + len(data))
        if start + len(data) > file.size and flight.grown != file.grown:
            raise Refused(f"{call}: another call moved the end at once, and which was first isn't known")
        self.tree.began = flight.version
        self.tree.write(file, start, data, through, opened.direct)

    def resize(self, call, file, size, flight):
        """Gives a file another size, unless another call moved its end at once: that is refused."""
        if not self.is_resized(call, file, size, flight):
            return
        self.tree.began = flight.version
        self.tree.resize(file, size)

    def allocate(self, call, file, start, end, flight):
        if self.is_resized(call, file, end, flight):
            self.tree.began = flight.version
            self.tree.allocate(file, start, end)

    def end_fallocate(self, call, process, flight):
        """Follows the call as without names, and notes the room that it reserves."""
        super().end_fallocate(call, process, flight)
        file = flight.file
        if isinstance(file, File) and not call.failed() and "FALLOC_FL_PUNCH_HOLE" not in call.word(1):
            self.tree.reserve(file, call.number(2), call.number(2) + call.number(3))

    # Syncs

    def begin_sync(self, call, process, flight):
        """Notes what a sync covers as it begins: all, or one file, or a folder."""
        if call.name == "sync":
            flight.sync = self.tree.begin_all()
            return
        flight.opened = process.table.get(call.number(0), (None, False))[0]
        flight.file = flight.opened and flight.opened.file
        found = NAMED.match(call.word(0))
        # (a folder that is gone may have left its name to another one)
        path = unhexed(found[2]) if found and not found[3] else b""
        if call.name == "syncfs":
            if path == self.folder or path.startswith(self.prefix):
                flight.sync = self.tree.begin_all()
        elif isinstance(flight.file, File):
            # (one of a file that isn't known counts for none)
            flight.sync = None if flight.opened.unsure else self.tree.begin_file(flight.file, data=call.name == "fdatasync")
        else:
            name = b"" if path == self.folder else self.name(path)
            if name in self.folders:
                flight.sync = self.tree.begin_folder(self.folders[name])

    def covers(self, begun):
        settled = self.tree.disk.sectors
        flying = (version > settled[place][it].durable for place, found in begun.places.items() for it, version in found.items())
        return bool(begun.laid) or any(begun.changes.values()) or any(flying)

    def end_synced(self, flight):
        self.tree.end_sync(flight.sync)

    def end_range(self, call, process, flight):
        """As without names; and what stands before the part may not be written back yet."""
        super().end_range(call, process, flight)
        file = process.table.get(call.number(0), (None, False))[0]
        if file is not None and isinstance(file.file, File) and not call.failed():
            self.tree.write_out(file.file, call.number(2 if call.name == "sync_file_range2" else 1) // SECTOR)

    def add_sync(self, found, file, sectors):
        """As without names. The size is durable up to the end of these sectors, and the names with it."""
        self.tree.write_out(file, sectors[0])
        begun = self.tree.begin_range(file, sectors, min(SECTOR * sectors[-1] + SECTOR, file.size))
        if found is None:
            return begun
        for place, versions in begun.places.items():
            held = found.places.setdefault(place, {})
            held.update({number: max(it, held.get(number, 0)) for number, it in versions.items()})
        found.laid += [it for it in begun.laid if it not in found.laid]
        found.ends = {**begun.ends, **found.ends}
        return found
