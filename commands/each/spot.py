"""Compares choices with their cases: each is picked at random, made a plain file by crashbpf, judged without the server, and has to end as
the text of cases says."""
import os
import random
import re

from commands.each import product
from commands.each.case_lines import COMPLETE, OF_THESE
from commands.each.cases import TORN
from commands.each.crew import Crew
from commands.each.served_log import BLOCK, SECTOR, WHOLE, name_of, text_of
from commands.each.step import asked_of, flushes_of, images_of
from commands.each.stream import Image
from commands.shared.faults import Refusal

CASE = re.compile(
    r"cut (?P<cut>\d+) epoch \d+ marks \d+ program 0 case (?P<case>\d+) (?P<ending>answer \d+ codes -|signal \d+|out of time)"
    r" choice (?P<choice>\S+) kept (?P<kept>\S+)(?: among (?P<among>\S+))? free \d+ flush (?P<flush>\d+[.][.]\d+|none)"
)
GOOD, SECONDS = "answer 0 codes -", 0.25


def listed(text):
    return [] if text in ("-", None) else text.split(",")


def fates_of_case(line):
    """Returns the fates that a case leaves the parts of which it says something."""
    found = {}
    for it in listed(line["choice"]):
        name, fate = it.split(":")
        found[name] = {fate}
    found.update(dict.fromkeys(listed(line["kept"]), {"whole"}))
    for it in listed(line["among"]):
        name, some = it.split(":")
        found[name] = set(some.split("+"))
    return found


class Cases:
    """What a text of cases says of choices: in what those of a failing case end."""

    def __init__(self, text):
        self.text, self.failing = text, {}
        for line in filter(None, map(CASE.fullmatch, text.splitlines())):
            self.failing.setdefault(int(line["cut"]), []).append((fates_of_case(line), line["ending"]))

    def is_whole(self):
        return self.text.endswith((f"{COMPLETE}\n", f"{OF_THESE}\n"))

    def endings(self, cut, choice):
        """Returns the endings of the failing cases that have a choice, which is given by the fates of its parts."""
        own = {name_of(part): fate for part, fate in choice.items()}
        return [ending for fates, ending in self.failing.get(cut, []) if all(own.get(name, WHOLE) in some for name, some in fates.items())]


class Picked:
    """Choices that are picked by a seed."""

    def __init__(self, asked, images, cuts, seed):
        self.asked, self.images, self.cuts, self.chance = asked, images, cuts, random.Random(seed)

    def one(self):
        """Picks a cut and the fates of a choice there."""
        chance, cut = self.chance, self.chance.choice(self.cuts)
        parts = self.images.at_risk(cut)
        often = chance.random()
        gone = [it for it in parts if chance.random() < often]
        gone = chance.sample(gone, min(self.asked.most, len(gone))) if self.asked.most else gone
        torn = chance.sample(gone, min(len(gone), chance.randint(0, self.asked.torn)))
        return cut, {it: chance.choice(TORN[1:]) if it in torn else "drop" for it in parts if it in gone}


def image_of(program, given, images, cut, choice):
    """Returns the image of a choice as crashbpf makes it: as records of each sector that an entry covers."""
    names = [name for name, _value in given.options if name not in ("--torn", "--at-most", "--cases", "--stop-at-failing", "--from", "--to", "--cuts")]
    words = ["image", *given.of_images(names), "--cut", str(cut), "--choice", text_of(choice)]
    status, printed, said = product.asked(program, words)
    if status != 0:
        raise Refusal(f"crashbpf makes no image of cut {cut} choice {text_of(choice)}: {product.first_line(said)}")
    sectors = [it for block in sorted(images.blocks) for it in range(BLOCK * block, min(BLOCK * block + BLOCK, images.sectors))]
    return b"".join(it.to_bytes(8, "little") + printed[SECTOR * it : SECTOR * (it + 1)] for it in sectors)


def compare(given, program, cases, marks, folder):
    """Judges as many choices as are asked for, as plain files, and refuses one that ends otherwise than its case."""
    count, seed = given.spot
    images = images_of(given, flushes_of(given))
    cuts = [cut for cut, _risk in product.risks(program, given)]
    room = os.path.join(folder, "plain")
    os.makedirs(room)
    picked, crew, told = Picked(asked_of(given), images, cuts, seed), Crew(room, given), {}
    try:
        left = count if cuts else 0
        while left or told:
            if left and (seat := crew.idle()) is not None:
                cut, choice = picked.one()
                records = image_of(program, given, images, cut, choice)
                crew.take(records)
                told[left] = cut, choice
                seat.tell(Image(left, cut, images.marks[cut], text_of(choice).encode(), records, None), marks[images.marks[cut] - 1] if images.marks[cut] else b"")
                left -= 1
                continue
            for number, verdict, _left, _said in crew.heard(SECONDS):
                test_as_told(cases, *told.pop(number), verdict.text())
    finally:
        crew.end()


def test_as_told(cases, cut, choice, ending):
    """Refuses an ending that isn't that of the case of a choice. Where cases are open or were left out nothing is said of a good one."""
    said = cases.endings(cut, choice)
    if not said and not cases.is_whole():
        return
    if (said or [GOOD]) != [ending]:
        where = f"cut {cut} choice {text_of(choice)}"
        raise Refusal(f"a case doesn't tell what the program ends in: as a plain file it is {ending}, and the case has {', '.join(said or [GOOD])}, at {where}")
