"""The syncs that a program made and that don't count: between what was lost and what needs it, and right before what was lost.

Each has its reason. It is what a reader asks next who has a sync there.
"""
from commands.test.sites import named
from commands.test.source import ALL

MOST = 3


class Syncs:
    """The syncs of a log."""

    def __init__(self, log, table):
        self.log, self.table, self.made = log, table, [it for it in log.tracing.synced if it.call.ended and not it.call.failed()]

    def reason(self, sync, target, number):
        """Why a sync after the lost call doesn't make it durable."""
        if not sync.is_durable():
            return "makes nothing durable: the disk may still hold it in its cache"
        if sync.target is None:
            return "is of no recorded file"
        if sync.target == target or sync.target == ALL:
            lost = self.log.call(number)
            if sync.call.name == "msync":
                return "began before that was stored, or has other pages"
            return f"began before {lost.told} had ended" if sync.call.line < (lost.ended or 0) else "ended after that call began"
        if target[0] == "folder" and sync.target[0] == "file":
            return f"makes no change of these names durable by {self.table}"
        if target[0] == "file" and sync.target[0] == "folder":
            return f"makes no bytes of {named(self.log, target)} durable"
        return f"is of {named(self.log, sync.target)}, and has nothing of {named(self.log, target)}"

    def useless(self, fact, target):
        """Pairs of a sync and why it doesn't count, for what was lost of that file or folder."""
        numbers = [it for it in fact.numbers() if target in self.log.targets(it, fact.need)]
        need = self.log.call(fact.need)
        if not numbers or need is None:
            return []
        lost = self.log.call(numbers[0])
        found = [(it.call, self.reason(it, target, numbers[0])) for it in self.made if lost.line < it.call.line < need.line]
        early = [it.call for it in self.made if it.target in (target, ALL) and it.is_durable() and self.since(it.call, lost)]
        found = found[-MOST:]
        if early:
            found.insert(0, (early[-1], f"came before {lost.told}"))
        return found

    def since(self, call, lost):
        """Whether a call ended before another, and no mark lies between."""
        marks = [it.call.line for it in self.log.entries if it.call is not None and it.call.told.startswith("mark ")]
        return call.ended < lost.line and not any(call.line < it < lost.line for it in marks)
