"""Owns what a script says on a terminal while it works on something large: one line that is rewritten each second. Small work is
done without a word, and so is all work whose messages go elsewhere.
"""
from collections.abc import Iterator
from contextlib import contextmanager
from threading import Event, Thread
import sys
import time

from ending import at_end, tell

QUIET = 1.0  # seconds before the first word, and from each to the next one


class Progress:
    """What is said of one piece of work, until it ends. Of a piece within another one the inner one is told."""

    def __init__(self, script: str, what: str = "") -> None:
        self.script, self.what = script, what
        teller.works.append(self)
        teller.start()

    def say(self, what: str) -> None:
        """What is done now."""
        self.what = what

    def end(self) -> None:
        """Nothing more is said of it."""
        if self in teller.works:
            teller.works.remove(self)


class Teller:
    """Tells what is done, beside the work, so that a long call of `aeth` is told too."""

    def __init__(self) -> None:
        self.works: list[Progress] = []
        self.is_silent = self.is_shown = False
        self.began = 0.0
        self.is_over = Event()
        self.thread: Thread | None = None

    def start(self) -> None:
        if self.thread is None and sys.stderr is not None and sys.stderr.isatty():
            self.began = time.monotonic()
            self.thread = Thread(target=self.run, daemon=True)
            self.thread.start()
            at_end.append(self.end)

    def run(self) -> None:
        while not self.is_over.wait(QUIET):
            told = [work for work in self.works if work.what]
            if told and not self.is_silent:
                tell(f"\r{told[-1].script}: {told[-1].what}, {time.monotonic() - self.began:.0f} s\033[K")
                self.is_shown = True

    def clear(self) -> None:
        """Takes the line from the terminal."""
        if self.is_shown:
            tell("\r\033[K")
            self.is_shown = False

    def end(self) -> None:
        self.is_over.set()
        if self.thread:
            self.thread.join()
        self.clear()


teller = Teller()


@contextmanager
def silence() -> Iterator[None]:
    """While another program tells on the terminal what it does."""
    teller.is_silent = True
    teller.clear()
    try:
        yield
    finally:
        teller.is_silent = False
