"""Blocks that are used again, as by ext4 with data=writeback: what a crash may show of them.

A file that loses its last name, or gets shorter, frees blocks of 4,096 bytes. Two things follow where these are used again at once:

- **Until that is durable** a crash leaves the file as it was, with the bytes of who has the block now. So what is written to the block
  is written to where the file shows it, too, and right after that what the file had there.
- **A new block** holds what the block held last, until its own bytes arrive: what who had it before held, or TEXT where nobody had
  it. So that is written before its bytes, which are those of the whole block.

A new block takes one that was freed: the one that was freed last of those that stood at the same place of their file, else the one that was
freed last of all. Blocks that fallocate reserved show zeros, as new ones. A block of zeros that was there before the recording is
taken to be a new one where it is written first.

This says one choice of many: of which block is used again, and of what it held: its last bytes. What files that aren't recorded write
to a block that was freed isn't known. It could break each program that replaces a file, whatever it syncs.
"""
from dataclasses import dataclass

from commands.record.disk import SECTOR, runs

BLOCK = 4096
EACH = BLOCK // SECTOR
# What stands for the bytes of a block that no file of the recording had.
TEXT = (b"bytes of another file, which isn't recorded\n" * BLOCK)[:BLOCK]


@dataclass(eq=False)
class Block:
    """A block of the disk: who has had it, as a file, the number of its room, and that of the block in it. The last one has it, or
    had it last. Of a block that is free it has what it held."""

    places: list
    held: bytes = TEXT


def blocks_of(first, sectors):
    """The numbers of the blocks in which sectors lie."""
    return range(first // EACH, -(-(first + sectors) // EACH))


def content_of(file, number):
    """What a block of a file holds now."""
    return bytes(file.content[BLOCK * number : BLOCK * (number + 1)]).ljust(BLOCK, b"\0")


class Again:
    """The blocks of the files of a tree."""

    def __init__(self, tree):
        # the blocks that are free in the order in which they were freed, and the same for each number that they had in their files
        self.tree, self.free, self.at = tree, {}, {}

    def begin(self, file):
        """A file is there with what it holds."""
        room = file.rooms[-1]
        for number in blocks_of(0, room.sectors):
            room.blocks[number] = Block([(file, 0, number)])
            if not content_of(file, number).strip(b"\0"):
                room.holes.add(number)

    # Blocks that are freed

    def freed(self, file, kept=0):
        """A file has fewer blocks from now on: these many of its last room."""
        room = file.rooms[-1]
        for number in sorted(it for it in room.blocks if it >= kept):
            block = room.blocks.pop(number)
            block.held = content_of(file, number)
            self.free[block] = None
            self.at.setdefault(number, []).append(block)
        room.holes = {it for it in room.holes if it < kept}

    def moved(self, file):
        """A file has a new room, the last one, with the blocks that are left of the one before."""
        old, room = file.rooms[-2:]
        room.blocks, room.holes, old.blocks, old.holes = old.blocks, old.holes, {}, set()
        room.unwritten = {it for it in old.unwritten if BLOCK * it < file.size}
        for number, block in room.blocks.items():
            block.places[-1] = file, len(file.rooms) - 1, number

    def take(self, number):
        """Takes a block that was freed, for one of this number; a block of nobody where there is none."""
        if not self.free:
            return Block([])
        block = self.at[number][-1] if self.at.get(number) else next(reversed(self.free))
        self.at[block.places[-1][2]].pop()
        del self.free[block]
        return block

    # Blocks that are written

    def written(self, file, first, count):
        """Sectors of a file have been written. Returns the first sector and the number of those that are written then, of new blocks all,
        and what the new blocks show without that: content by the number of the block."""
        room, index, stale = file.rooms[-1], len(file.rooms) - 1, {}
        for number in blocks_of(first, count):
            if number not in room.blocks or number in room.holes:
                block = room.blocks[number] = self.take(number)
                if number not in room.unwritten:
                    stale[number] = block.held
                block.places.append((file, index, number))
                room.holes.discard(number)
                room.unwritten.discard(number)
                end = max(first + count, EACH * (number + 1))
                first = min(first, EACH * number)
                count = end - first
        return first, count, stale

    def last(self, room, number):
        """What a sector of a room held last."""
        return self.tree.versions(room, self.tree.disk.sectors.get(room, {}).get(number), number)[-1]

    def used(self, file, first, count):
        """Those that had the blocks in which sectors were written show them, too."""
        blocks = [(number, file.rooms[-1].blocks[number]) for number in blocks_of(first, count)]
        self.show((block, content_of(file, number), block.places[:-1]) for number, block in blocks if len(block.places) > 1)

    def show(self, found):
        """Blocks hold other bytes where a crash shows some that had them, and then what they had. `found` has blocks, their bytes, and
        the places that show them."""
        other, own = {}, {}
        for block, content, places in found:
            for place in places:
                if not self.is_shown(place):
                    # (it never will be again)
                    block.places = [*(it for it in block.places[:-1] if it != place), block.places[-1]]
                    continue
                file, index, number = place
                room = file.rooms[index]
                for at in range(min(EACH, room.sectors - EACH * number)):
                    sector = EACH * number + at
                    other.setdefault((file, index), {})[sector] = content[SECTOR * at : SECTOR * (at + 1)]
                    own.setdefault((file, index), {})[sector] = self.last(room, sector)
        for these in (other, own):
            for (file, index), first, data in runs(these):
                self.tree.spread(file, index, first, data)
        for file, _ in other:
            self.tree.suspect(file)

    def is_shown(self, place):
        """Whether a crash may show a room of a file."""
        file, index, _ = place
        return self.tree.shown(file) and index >= self.tree.oldest_room(file)
