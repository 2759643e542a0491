"""A line on standard error that says what is done and what is left: on a terminal rewritten, else a new one each half minute."""
import sys
import time

OFTEN, SELDOM = 0.25, 30.0


def lasting(seconds):
    """Returns a time as a reader says it."""
    minutes, seconds = divmod(int(seconds + 0.5), 60)
    hours, minutes = divmod(minutes, 60)
    return f"{hours} h {minutes} min" if hours else f"{minutes} min {seconds} s" if minutes else f"{seconds} s"


class Progress:
    def __init__(self, total):
        self.total, self.begun = total, time.monotonic()
        self.rewritten = sys.stderr is not None and sys.stderr.isatty()
        self.every = OFTEN if self.rewritten else SELDOM
        self.next, self.shown, self.start = self.begun + self.every, False, None

    def say(self, settled, judged, failing):
        """Says it, where it was last said long enough ago."""
        now = time.monotonic()
        if now < self.next:
            return
        self.next = now + self.every
        left = self.total - settled
        if self.start is None:
            self.start = now, settled
        gone, done = now - self.start[0], settled - self.start[1]
        rest = f", some {lasting(gone * left / done)}" if done and left else ""
        self.put(f"progress: {settled} of {self.total} images, {judged} of them judged, {failing} failing; {left} left{rest}")

    def put(self, text):
        """Writes a line of progress, in place of the last one on a terminal. An error stops nothing."""
        try:
            sys.stderr.write(f"\r\x1b[K{text}" if self.rewritten else f"{text}\n")
            sys.stderr.flush()
            self.shown = self.rewritten
        except OSError:
            pass

    def end(self):
        """Takes the line away."""
        if self.shown:
            self.put("")
