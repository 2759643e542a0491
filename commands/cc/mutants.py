"""Images that differ a little from others, at places and in ways that are likely to matter to a checker.

A change puts a number of the checker's source, or one near it, where fields stand mostly; or a text of it. Or it adds or takes 1, flips a
bit, puts random bytes; copies a sector, swaps two, makes one zeros or random bytes. The same draws give the same images.
"""
import re

SECTOR = 512
COMMENT = re.compile(r"/\*.*?\*/|//[^\n]*", re.S)
NUMBER = re.compile(r"\b(?:0[xX][0-9a-fA-F]+|[1-9][0-9]*|0)(?=[uUlL]*\b)")
TEXT = re.compile(r'"((?:\\.|[^"\\\n])+)"')
CHARACTER = re.compile(r"'(?:\\.|[^'\\\n])'")
# How many changes an image has, and which bytes a field.
TIMES, SIZES = (1, 1, 2, 3, 5, 8), (1, 2, 4, 4, 8, 8)
# How often a place is one that is read, where such are known; half of these are of the first ones.
READ, FIRST = 0.7, 64


def numbers_in(source):
    """The numbers of a source in C."""
    return sorted({int(it, 0) for it in NUMBER.findall(COMMENT.sub("", source))}) or [0]


def texts_in(source):
    """The texts of a source in C, but the names of files that it includes."""
    found = TEXT.findall(CHARACTER.sub("", COMMENT.sub("", source)))
    texts = [it.encode("latin-1", "replace").decode("unicode_escape", "replace").encode("latin-1", "replace") for it in found]
    return [it for it in texts if not it.endswith(b".h")]


def filled_sectors(image):
    """The sectors that aren't zeros."""
    nothing = bytes(SECTOR)
    return [at // SECTOR for at in range(0, len(image), SECTOR) if image[at : at + SECTOR] != nothing]


class Drawer:
    """Draws changes for a checker of this source, of images that have `sectors` sectors. Most is done to sectors that are `filled`, and where the
    checker reads: `reads` are such places with their lengths, in the order in which it does."""

    def __init__(self, source, sectors, filled, reads=()):
        self.numbers, self.texts = numbers_in(source), texts_in(source)
        self.sectors, self.filled = sectors, filled
        self.reads = [it for it in reads if it[0] + it[1] <= SECTOR * sectors]
        self.by_sector = {}
        for it in self.reads:
            self.by_sector.setdefault(it[0] // SECTOR, []).append(it)
        self.named = [it for it in self.numbers if it < sectors] or [0]
        # The first is drawn most.
        self.kinds = [self.number] * 8 + [self.flip, self.flip, self.step, self.step, self.text, self.copy, self.swap, self.fill, self.random]

    def changed(self, image, rng, times=TIMES):
        """Returns an image with some changes."""
        content = bytearray(image)
        for _ in range(rng.choice(times)):
            rng.choice(self.kinds)(content, rng)
        return bytes(content)

    def sector(self, rng):
        """A sector that a checker is likely to look at."""
        count = self.sectors
        if self.reads and rng.random() < READ:
            return rng.choice(list(self.by_sector))
        likely = [0, 0, 0, 0, 1, 1, 1, 2, 3, count - 1, count // 2, count // 2 + 1]
        likely += rng.choices(self.filled, k=32) if self.filled else []
        return min(rng.choice([*likely, rng.randrange(count), rng.randrange(12), rng.choice(self.named)]), count - 1)

    def field(self, content, rng):
        """The place and the size of what is likely to be a field, in one sector or read at once."""
        if self.reads and rng.random() < READ:
            at, length = rng.choice(rng.choice([self.reads[:FIRST], rng.choice(list(self.by_sector.values()))]))
            if length <= 8:
                return at, length
            size = rng.choice([it for it in SIZES if it <= length])
            return at + rng.randrange(0, length - size + 1, size), size
        start = SECTOR * self.sector(rng)
        used = [at for at in range(SECTOR) if content[start + at]] or [0]
        offset = rng.choice([0, 0, 4, 8, rng.randrange(0, 32, 4), rng.randrange(0, 64, 8), rng.randrange(0, 504, 2), 504, 508, *rng.choices(used, k=5)])
        return start + min(offset, SECTOR - 8), rng.choice(SIZES)

    def number(self, content, rng):
        """Puts a number: one of the source, the device's size, or one near these; a small one, one with a single bit, or any."""
        at, size = self.field(content, rng)
        near = rng.choice(self.numbers) + rng.choice([0, 0, 0, 0, -1, 1])
        limit = rng.choice([self.sectors, SECTOR * self.sectors]) + rng.choice([-1, 0, 0, 1])
        number = max(0, rng.choice([near, near, limit, rng.randrange(8), rng.randrange(64), 1 << rng.randrange(64), rng.getrandbits(64)]))
        content[at : at + size] = (number & (1 << 8 * size) - 1).to_bytes(size, rng.choice(["little", "little", "little", "big"]))

    def flip(self, content, rng):
        at, size = self.field(content, rng)
        content[at + rng.randrange(size)] ^= 1 << rng.randrange(8)

    def text(self, content, rng):
        """Puts a text of the source, or a bit where it has none that is short enough."""
        texts = [it for it in self.texts if len(it) <= len(content)]
        if not texts:
            return self.flip(content, rng)
        text = rng.choice(texts)
        at = min(self.field(content, rng)[0], len(content) - len(text))
        content[at : at + len(text)] = text

    def step(self, content, rng):
        """Adds 1 to a number or takes 1 from it."""
        at, size = self.field(content, rng)
        number = int.from_bytes(content[at : at + size], "little") + rng.choice([1, -1])
        content[at : at + size] = (number & (1 << 8 * size) - 1).to_bytes(size, "little")

    def two_sectors(self, rng):
        """The places of a sector that is likely to matter, and of another one: of such too, or of any."""
        one = self.sector(rng)
        return SECTOR * one, SECTOR * rng.choice([self.sector(rng), rng.randrange(self.sectors)])

    def copy(self, content, rng):
        one, other = self.two_sectors(rng)
        content[other : other + SECTOR] = content[one : one + SECTOR]

    def swap(self, content, rng):
        """Puts each of two sectors where the other one was."""
        one, other = self.two_sectors(rng)
        held = content[one : one + SECTOR]
        content[one : one + SECTOR] = content[other : other + SECTOR]
        content[other : other + SECTOR] = held

    def fill(self, content, rng):
        at = SECTOR * self.sector(rng)
        content[at : at + SECTOR] = rng.choice([bytes(SECTOR), rng.getrandbits(8 * SECTOR).to_bytes(SECTOR, "little")])

    def random(self, content, rng):
        at, size = self.field(content, rng)
        content[at : at + size] = rng.getrandbits(8 * size).to_bytes(size, "little")
