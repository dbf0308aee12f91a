"""Says when a check of wrong bodies may begin, beside others and beside rt ci. (A module of the scripts beside it.)"""
import contextlib
import re
import threading
import time

# What a check may take, in bytes, after so many seconds, and what is left free beside one while rt ci runs, since its proofs grow.
MEMORY, YOUTH, SPARE = 3_000_000_000, 40, 5_000_000_000


class Followed:
    """What rt ci has proved so far, as it says in a file. Where none is followed it has ended."""

    def __init__(self, path, text_of):
        self.path, self.text_of = path, text_of

    def lines(self):
        return (self.text_of(self.path) or "").split("\n") if self.path else ["all is built"]

    def has_ended(self):
        return "all is built" in self.lines()

    def wait_for(self, crate):
        """Waits until the crate's library and those below it are there, or there will be none."""
        names = {it.name for it in [*crate.below(), crate]}
        while True:
            lines = self.lines()
            proved = {it[1] for it in map(re.compile(r"rt: (\w+) (?:proved$|is kept: )").match, lines) if it}
            if "all is built" in lines or names <= proved and not crate.is_static:
                return
            time.sleep(2)


class Lanes:
    """Lets a few checks run at a time, those of the crate with the most work first."""

    def __init__(self, number, followed, free):
        self.number, self.followed, self.free, self.turn = number, followed, free, threading.Condition()
        # when each check that runs began, and how much work each crate is that waits
        self.running, self.waiting = [], []

    def may_begin(self, weight):
        has_ended = self.followed.has_ended()
        young = sum(time.monotonic() - it < YOUTH for it in self.running)
        has_memory = self.free() >= MEMORY * (young + 1) + (0 if has_ended else SPARE)
        is_next = len(self.running) < self.number and weight == max(self.waiting)
        return is_next and (has_memory or has_ended and not self.running)

    @contextlib.contextmanager
    def lane(self, weight):
        with self.turn:
            self.waiting.append(weight)
            while not self.may_begin(weight):
                self.turn.wait(2)
            self.waiting.remove(weight)
            began = time.monotonic()
            self.running.append(began)
        try:
            yield
        finally:
            with self.turn:
                self.running.remove(began)
                self.turn.notify_all()
