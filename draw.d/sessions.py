"""Owns what a run shows of a channel: its sessions, with the words that landed in each and those that didn't, and how long
the promise of each holds.

A word is promised to have landed when it is due, but for two cases. Where a switch closes the session the promise ends with
the landing of its last flit: a word that is due then or later isn't promised. And where the receiver hasn't taken a word
within the delay that it declares, the promise ends with that cycle.
"""
from bisect import bisect_right
from collections.abc import Iterator
from dataclasses import dataclass, field
from functools import cached_property
from operator import gt, sub
from typing import NamedTuple

from design import Promise
from run_texts import SessionLog

PULL = 2  # words that a receiver takes in a cycle, before its first row


class Word(NamedTuple):
    """A word that hasn't landed: the cycles in which it was offered and in which it is due."""

    offered: int
    due: int


@dataclass
class Receiver:
    """How many words a channel's receiver takes in a cycle at most: `pulls` from each of `cycles` on."""

    cycles: list[int] = field(default_factory=list)
    pulls: list[int] = field(default_factory=list)

    def pull(self, cycle: int) -> int:
        place = bisect_right(self.cycles, cycle)
        return self.pulls[place - 1] if place else PULL

    def next_row(self, cycle: int) -> int | None:
        """The cycle of the first row behind a cycle."""
        place = bisect_right(self.cycles, cycle)
        return self.cycles[place] if place < len(self.cycles) else None

    def takes(self, landings: list[int]) -> Iterator[int | None]:
        """For each word, by the cycles in which they landed, the cycle in which it is taken; none where it never is."""
        cycle, left = -1, 0
        for landed in landings:
            if landed > cycle:
                cycle, left = landed, self.pull(landed)
            while not left:
                following = cycle + 1 if self.pull(cycle + 1) else self.next_row(cycle + 1)
                if following is None:
                    break
                cycle, left = following, self.pull(following)
            if not left:
                yield None
                continue
            left -= 1
            yield cycle

    def broken_from(self, landings: list[int], delay: int) -> int | None:
        """The first cycle in which a word isn't taken that landed `delay` cycles before; none where there is none."""
        broken = [
            landed + delay for landed, taken in zip(landings, self.takes(landings)) if taken is None or taken > landed + delay
        ]
        return min(broken, default=None)


@dataclass
class Session:
    """A time in which a channel is in use. `end` is the cycle in which it is finished, or the end of the run; `last` the one
    with which its promise ends where the receiver keeps its delay: that of a closed one when its last flit has landed."""

    log: SessionLog
    end: int
    last: int
    promise: Promise
    group: int
    delay: int  # that its receiver declares
    receiver: Receiver
    waiting: list[Word] = field(default_factory=list)  # words that didn't land

    @cached_property
    def waits(self) -> list[int]:
        """Cycles from offer to landing."""
        return list(map(sub, self.log.landings, self.log.offers))

    @cached_property
    def late(self) -> int:
        """How many words landed after their due cycle."""
        return sum(map(gt, self.log.landings, self.log.dues))

    @cached_property
    def overdue(self) -> list[Word]:
        """Words that hadn't landed when they were due, and were due while the session could land words."""
        return [word for word in self.waiting if word.due < self.last]

    @cached_property
    def broken(self) -> int | None:
        """The cycle with which the promise ends since the receiver hasn't kept its delay. Only a session with late or
        overdue words is asked: all others keep the promise, however long it is."""
        if not (self.late or self.overdue):
            return None
        return self.receiver.broken_from(self.log.landings, self.delay)

    @cached_property
    def failed(self) -> int:
        """How many words were late or overdue against the promise."""
        if not (self.late or self.overdue):
            return 0
        last = self.promised
        late = sum(landed > due and due < last for landed, due in zip(self.log.landings, self.log.dues))
        return late + sum(word.due < last for word in self.overdue)

    @property
    def promised(self) -> int:
        """The cycle with which its promise ends."""
        return self.last if self.broken is None else min(self.broken, self.last)

    @property
    def unlanded(self) -> int:
        """How many were dropped at the end of the session, before they landed."""
        return len(self.waiting) if self.log.ended else 0

    @property
    def untaken(self) -> int:
        """How many were dropped at the end of the session, landed but not taken."""
        return self.log.landed - self.log.taken if self.log.ended else 0


@dataclass
class ChannelLog:
    """What a run shows of a channel. `outside` counts the words that no session accepted."""

    connection: str
    side: str
    sessions: list[Session] = field(default_factory=list)
    outside: int = 0

    @property
    def name(self) -> str:
        return f"{self.connection} {self.side}"

    @cached_property
    def landed(self) -> int:
        return sum(len(session.log.landings) for session in self.sessions)

    @cached_property
    def longest(self) -> int:
        """The greatest number of cycles from a word's offer to its landing."""
        return max((max(session.waits) for session in self.sessions if session.waits), default=0)

    @cached_property
    def late(self) -> int:
        return sum(session.late for session in self.sessions)

    @cached_property
    def overdue(self) -> int:
        return sum(len(session.overdue) for session in self.sessions)

    @cached_property
    def failed(self) -> int:
        return sum(session.failed for session in self.sessions)

    @cached_property
    def broken(self) -> int | None:
        """The first cycle with which a promise ends since the receiver hasn't kept its delay."""
        return min((session.broken for session in self.sessions if session.broken is not None), default=None)

    @cached_property
    def offered(self) -> int:
        return sum(session.log.offered for session in self.sessions)

    @cached_property
    def dropped(self) -> int:
        return sum(s.log.offered - s.log.taken for s in self.sessions if s.log.ended)

    @property
    def latencies(self) -> list[int]:
        """The guaranteed latencies of its sessions, each once: one for each group of use cases."""
        return sorted({session.promise.latency for session in self.sessions})

    @cached_property
    def spare(self) -> int | None:
        """How many cycles before its due cycle the word landed that came nearest to it; below 0 where one was late."""
        spares = (min(map(sub, s.log.dues, s.log.landings)) for s in self.sessions if s.log.dues)
        return min(spares, default=None)
