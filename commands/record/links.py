"""Which symbolic links there are where nothing is recorded, as the calls so far have them.

Paths are followed when the program has ended. What a name outside is then, it was all the time only where no call has changed it. So
each change of names outside is noted here:

- What the program made there itself is known: a link with its text, a folder.
- What was there before is taken for what it is at the end. Where a path was followed through it, and a call takes it away or
  replaces it afterwards, it isn't known where it led. The call is refused, unless it shows that it was a folder.
"""
import os


class Unknown(Exception):
    """Why it isn't known where a path led."""


def is_below(path, folder):
    return path.startswith(folder + b"/")


class Links:
    """The links outside. `changed` has the links and folders that the calls made and that are there: a link's text, nothing for a
    folder, or for a file that they opened.
    `relied` has what other paths were taken for, by what they are at the end: a link's text, or nothing."""

    def __init__(self):
        self.changed, self.relied = {}, {}

    def text(self, path):
        """What a path links to, or nothing where it is no link."""
        if path in self.changed:
            return self.changed[path]
        if path not in self.relied:
            try:
                self.relied[path] = os.readlink(path)
            except OSError:
                self.relied[path] = None
        return self.relied[path]

    def was(self, path, is_folder):
        """A call changes what a path is of, which before was a folder or nothing, or with `is_folder` false perhaps a link. Refuses
        what was followed through it as another."""
        found = self.relied.pop(path, False)
        if found is not False and (found is not None or not is_folder):
            raise Unknown(path)

    def made(self, path, text=None):
        """A folder or a link is made where nothing was."""
        self.was(path, True)
        self.changed[path] = text

    def opened(self, path):
        """A file was opened that has this path, so the path is no link."""
        if self.relied.get(path, path) is None:
            del self.relied[path]
        self.changed[path] = None

    def removed(self, path, is_folder):
        """A folder, or what is none, is taken away."""
        self.was(path, is_folder)
        self.changed.pop(path, None)

    def linked(self, path, to):
        """What a path is of gets another name."""
        self.was(to, True)
        self.changed.pop(to, None)
        if path in self.changed:
            self.changed[to] = self.changed[path]

    def renamed(self, path, to, exchange):
        """A path gets another name, with all that is below it."""
        for it in [it for it in self.relied if it in (path, to) or is_below(it, path) or is_below(it, to)]:
            self.was(it, False)
        moved = self.taken(path)
        replaced = self.taken(to)
        self.changed |= {to + it: text for it, text in moved.items()}
        if exchange:
            self.changed |= {path + it: text for it, text in replaced.items()}

    def taken(self, path):
        """Takes out what is known of a path, and of those below it, by what stands after it."""
        found = {it: text for it, text in self.changed.items() if it == path or is_below(it, path)}
        for it in found:
            del self.changed[it]
        return {it[len(path) :]: text for it, text in found.items()}
