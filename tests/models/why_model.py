"""What `why` prints once more, in the plainest form, written from docs/OUTPUT.md, 'The text of `why`'."""
from dataclasses import dataclass

from cases_model import ANY, Cut, cases, first_gone, judged_cuts, window_of
from cases_model import head as case_head
from model import departures_of, failures_of, head, missing_flushes


@dataclass(frozen=True)
class Failing:
    """A failing image, and what the program ends in on it."""

    image: object
    outcome: str

    def folded(self):
        """Which parts are lost and which are torn, however much of them."""
        return tuple(f"{part.name} {'lost' if fate == 'drop' else 'torn'}" for part, fate in self.image.departures)


def judged(image, checker):
    """The failing image, or none where the program doesn't fail on it."""
    answer, codes = checker.judge(image)
    if answer == 0:
        return None
    return Failing(image, f"answer {answer} codes {','.join(str(it) for it in codes) or '-'}")


def first_part(failing, it):
    """The first of the failing images of a cut whose departures are some of those of this one."""
    return next(other for other in failing if departures_of(other.image) <= departures_of(it.image))


def folded_groups(failing):
    """The groups of the failing images of a cut, by their examples: a list of the images of each, the example first."""
    smallest = [it for it in failing if first_part(failing, it) is it]
    found = {}
    for it in failing:
        own = first_part(failing, it).folded()
        example = next(other for other in smallest if other.folded() == own)
        found.setdefault(example, []).append(it)
    for example, own in found.items():
        own.sort(key=lambda it: it is not example)
    return sorted(found.values(), key=lambda own: own[0].image.number)


def group_line(own):
    """Returns the line of a group, which is all images that lost the same."""
    example = own[0]
    lost = ", ".join(example.folded()) or "where nothing is lost"
    count = "1 image" if len(own) == 1 else f"{len(own)} images"
    same = "all" if all(it.outcome == example.outcome for it in own) else "some"
    image = example.image
    return f"group {lost}: {count}, {same} {example.outcome}, as image {image.number} choice {image.choice()}\n"


def cut_text(run, cut, program, failing):
    """The lines of a cut at which a program fails on some images."""
    text = f"cut {cut} program {program} images {sum(1 for _choice in run.choices(cut))} failing {len(failing)}\n"
    return text + "".join(group_line(own) for own in folded_groups(failing))


def causes(run, checkers):
    """What `why` prints."""
    images = list(run.images())
    failing = [[own for own in (judged(it, checker) for it in images) if own] for checker in checkers]
    failed = {it.image.number for own in failing for it in own}
    lines, _failing = failures_of(run, checkers)
    text = "crash why 2\n" + head(run, checkers, False)
    text += f"images {len(images)} failing {len(failed)} lines {len(lines)}\n"
    for number, own in enumerate(failing):
        uncured = sum(1 for _line, program, window in lines if program == number and window is None)
        text += f"program {number} failing {len(own)} uncured {uncured}\n"
    for place, first, count in missing_flushes([window for _line, _program, window in lines if window is not None]):
        text += f"flush before {place} from {first} failing {count}\n"
    for number, own in enumerate(failing):
        for cut in sorted({it.image.cut for it in own}):
            text += cut_text(run, cut, number, [it for it in own if it.image.cut == cut])
    return text


# With `--bound any`, by cases


def named(parts):
    return ",".join(part.name for part in parts)


def gone(departures):
    """What is lost and torn, in words."""
    lost = [part for part, fate in departures if fate == "drop"]
    torn = [part for part, fate in departures if fate != "drop"]
    return " and ".join([f"lost {named(lost)}"] * bool(lost) + [f"torn {named(torn)}"] * bool(torn))


def cause(case):
    """Why a case fails: what is gone while something later is there, or an image against which no flush helps."""
    window, first, departures = window_of(case), first_gone(case), case.representative().departures
    if window:
        kept = [part for part in case.cut.parts if case.fates(part) == ["whole"] and part.entry >= window[0]]
        while_kept = f"{named(kept)} {'was' if len(kept) == 1 else 'were'} kept" if kept else f"entry {window[1]} was there"
        return f"{gone(departures)} while {while_kept}"
    if first is None:
        return f"at cut {case.cut.number}, with nothing lost"
    if all("drop" in case.fates(part) for part in case.cut.parts if part.entry == first):
        return f"at cut {first}, with nothing lost"
    return f"at cut {first + 1}, {gone([(part, fate) for part, fate in departures if part.entry == first])}"


def end_of_line(case, ending):
    window = window_of(case)
    return f"{ending}, flush {f'{window[0]}..{window[1]}' if window else 'none'}\n"


def cut_causes(cut, program, failing):
    """The lines of a cut at which a program fails in some cases, each with its number."""
    text, left = f"cut {cut.number} program {program} failing {len(failing)}\n", list(failing)
    while left:
        number, case, ending = left[0]
        own = [it for it in left if end_of_line(it[1], it[2]) == end_of_line(case, ending)]
        text += f"case {number} {cause(case)}: {end_of_line(case, ending)}"
        text += "".join(f"also case {it[0]} {cause(it[1])}\n" for it in own[1:])
        left = [it for it in left if it not in own]
    return text


def case_causes(run, checkers, losses=ANY):
    """What `why --bound any` prints."""
    text, failures = "", []
    for cut in (Cut(run, number) for number in judged_cuts(run, losses)):
        for program, checker in enumerate(checkers):
            leaves = enumerate(cut.explore(checker, losses).leaves)
            failing = [(number, case, ending) for number, (case, ending, good) in leaves if not good]
            failures += [(program, window_of(case)) for _number, case, _ending in failing]
            text += cut_causes(cut, program, failing) if failing else ""
    said = "crash why cases 1\n" + case_head(run, checkers, losses) + cases(run, checkers, losses).splitlines(True)[-1]
    for number in range(len(checkers)):
        own = [window for program, window in failures if program == number]
        said += f"program {number} failing {len(own)} uncured {own.count(None)}\n"
    for place, first, count in missing_flushes([window for _program, window in failures if window is not None]):
        said += f"flush before {place} from {first} failing {count}\n"
    return said + text
