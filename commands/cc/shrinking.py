"""The smallest part of a set of changes that still does what all of them do, found in rounds in which many parts are tried at a time."""


class Spent(Exception):
    """As many parts were tried as may be."""


class Trials:
    """Parts of changes that were tried, each once and not more than `most`; and which of them do it."""

    def __init__(self, most):
        self.left, self.known = most, {}

    def first(self, parts):
        """A generator: it yields parts to try, is sent whether each does it, and returns the first of them that does, or none."""
        new = [it for it in parts if tuple(it) not in self.known]
        self.left -= len(new)
        if self.left < 0:
            raise Spent
        if new:
            self.known.update(zip(map(tuple, new), (yield new)))
        return next((it for it in parts if self.known[tuple(it)]), None)


def smallest(changes, most):
    """A generator of rounds: it yields lists of parts of the changes, and is sent for each whether the part does what all of them do. It
    returns the last part that did, and whether none of its changes can be left out."""
    found, count, trials = list(changes), 2, Trials(most)
    if not found:
        return [], True
    try:
        if (yield from trials.first([[]])) is not None:
            return [], True
        while len(found) >= 2:
            pieces = cut(found, count)
            part = yield from trials.first(pieces)
            rest = (yield from without_one(pieces, trials)) if part is None else None
            if part is None and rest is None and count >= len(found):
                return found, True
            count = 2 if part is not None else max(count - 1, 2) if rest is not None else 2 * count
            found = found if part is None and rest is None else rest if part is None else part
            count = min(count, len(found))
    except Spent:
        return found, False
    return found, True


def without_one(pieces, trials):
    """A generator as `first`: the pieces without those each of which can be left out, else all but one of them, or none."""
    rests = [[it for other in pieces if other is not piece for it in other] for piece in pieces]
    rest = yield from trials.first(rests)
    if rest is None:
        return None
    needed = [it for piece, own in zip(pieces, rests) if not trials.known[tuple(own)] for it in piece]
    return rest if (yield from trials.first([needed])) is None else needed


def cut(changes, count):
    """Returns the changes in that many pieces of nearly one length."""
    bounds = [len(changes) * it // count for it in range(count + 1)]
    return [changes[first:last] for first, last in zip(bounds, bounds[1:])]
