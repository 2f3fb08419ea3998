"""The least drain of a switch with which a closing channel drops no word, whatever words come that keep its rate.

Words keep a rate where no `per` cycles on end have more than `words` of them; they come evenly where any k of them also take
(k - 1) * per / words cycles, rounded down, from the first to the last. A receiver keeps its delay of D cycles where it takes
each word at most D cycles after it landed. Of a switch in cycle c with a drain of d a channel accepts words before c, sends
before c + d, and takes before c + d + H, with H the longest path delay of all that closes. So nothing of it is dropped where
its last word is sent in a cycle p with p < c + d and p + h + D < c + d + H, with h the delay of its own path.

**How late p may be.** The private server of a channel, with a receiver that takes as late as it may, is linear in min-plus
algebra: a slot adds 2 to what may be sent, a slot of the opposite channel 15 to what may be returned; all else are delays, the
lesser of two counts, and the buffer that is added. So what is sent up to a cycle is the least, over all s, of the words offered
before s and of what a session sends that begins in s, has all its credits, and is never out of words. Let P(s, k) be the cycle in
which this one sends its k-th word. Then p is the greatest P(s, k), over s, with k the words that are offered from s on. For a
span from s to c - 1 the most words come where they begin in s, as many and as early as they may: the n-th step of them has
come by s + at(n), with words(n) words in all. So the least drain is the greatest value, over s and n, of

    P(s, words(n)) - s - at(n)

With a cycle less the last one of these words is dropped, in a session without any words before them; with it none ever is. A
receiver that takes sooner returns credits sooner, and so nothing is sent later.

**Which s and n.** P(s, k) - s is greatest right behind a slot, since no word is sent up to the next one. By the promise of a
latency-rate server P(s, k) <= s + theta + k * S / N. So steps from n on need at most theta + words(m) * S / N - at(m), the
greatest for m >= n; that doesn't rise with n, since the rate N / S is no less than the wish, and for n = 0 it bounds the drain.
Where credits are never wanting P(s, k) is the slot in place ceil(k / 2) from s on. The words of 2 * |X| periods, with |X| slots
in the table, take `words` rounds of the table then, which is no longer than these periods: so no more of them need be looked at.
"""
from collections import deque
from collections.abc import Iterable, Iterator, Sequence
from dataclasses import dataclass
from itertools import count
from typing import NamedTuple

from design_files import Wish

WORDS_OF_FLIT, CREDITS_OF_FLIT = 2, 15
MOST_STEPS = 100_000  # words that are looked at, of one channel


class Slots:
    """The slots of a channel, from any cycle on."""

    def __init__(self, starts: Sequence[int], size: int) -> None:
        self.starts, self.size = starts, size
        self.waits = [min((start - slot) % size for start in starts) for slot in range(size)]

    def since(self, cycle: int) -> int:
        """The first cycle from this one on that is one of its slots."""
        return cycle + self.waits[cycle % self.size]


class Turns:
    """Slots that are taken one after the other, each by so many words or credits."""

    def __init__(self, slots: Slots, room: int) -> None:
        self.slots, self.room = slots, room
        self.cycle, self.taken = -1, room

    def turn(self, ready: int) -> int:
        """The cycle in which the next one goes, which is ready from a cycle on."""
        return self.slots.since(max(ready, self.cycle + (self.taken == self.room)))

    def take(self, ready: int) -> int:
        """Takes that turn."""
        cycle = self.turn(ready)
        self.taken = self.taken + 1 if cycle == self.cycle else 1
        self.cycle = cycle
        return cycle


@dataclass(frozen=True)
class Pattern:
    """The most words of a wish that may come from a cycle on, step by step: a whole period's at once, or one by one."""

    wish: Wish
    evenly: bool

    def words(self, step: int) -> int:
        """How many have come with a step."""
        return step + 1 if self.evenly else self.wish.words * (step + 1)

    def at(self, step: int) -> int:
        """The cycles from the first step to this one."""
        return step * self.wish.per // self.wish.words if self.evenly else step * self.wish.per

    @property
    def at_once(self) -> int:
        return self.words(0)

    @property
    def period(self) -> int:
        """The steps after which it goes on as at its beginning."""
        return self.wish.words if self.evenly else 1


class Worst(NamedTuple):
    """The words that need a drain: those of a pattern from a cycle on, up to a step in the last cycle before the switch."""

    first: int
    step: int
    drain: int


class Need(NamedTuple):
    """What a channel needs: the words that need it, and the most that any may need, which mostly is no more."""

    worst: Worst
    most: int


class Session:
    """A session of a channel that begins in a cycle, is never out of words, and has the latest receiver."""

    def __init__(self, channel: "Channel", start: int) -> None:
        self.own, self.returning = Turns(channel.own, WORDS_OF_FLIT), Turns(channel.opposite, CREDITS_OF_FLIT)
        self.taken_behind = channel.delay + channel.wish.delay + 1  # the cycles from a word's slot until its credit may go back
        self.delay_back, self.start = channel.delay_back, start
        self.credits = deque([start] * channel.buffer)  # the cycles from which on there are credits for the next words
        self.was_held = False  # whether some word had to wait for its credit

    def send(self) -> int:
        """The cycle in which the next word is sent."""
        credit, at_once = self.credits.popleft(), self.own.turn(self.start)
        cycle = self.own.take(credit)
        self.was_held = self.was_held or cycle > at_once
        self.credits.append(self.returning.take(cycle + self.taken_behind) + self.delay_back)
        return cycle

    def state(self) -> tuple[int, ...]:
        """All on which it rests how it goes on from the cycle of its last word."""
        at, size = self.own.cycle, self.own.slots.size
        credits = (max(0, credit - at) for credit in self.credits)
        return at % size, self.own.taken, self.returning.cycle - at, self.returning.taken, *credits


@dataclass(frozen=True)
class Channel:
    """A channel that closes: its slots with those of its opposite channel, its paths' delays, and what it wishes and is
    guaranteed."""

    name: str
    wish: Wish
    own: Slots
    opposite: Slots
    delay: int  # of its path
    delay_back: int  # of the opposite path
    buffer: int
    rate: int  # words in each round of the table
    theta: int  # its latency but for the path

    def most(self, pattern: Pattern, step: int = 0) -> int:
        """What the words of a pattern need at the most, up to a step or a later one, by the promise of a latency-rate server."""
        wish, each = self.wish, self.rate * pattern.period
        served = pattern.words(step) * self.own.size * pattern.period
        return self.theta + (served - step * wish.per * self.rate + (pattern.period - 1) * self.rate) // each

    @property
    def starts(self) -> list[int]:
        """The first cycles behind its slots, once round the table."""
        return [(slot + 1) % self.own.size for slot in self.own.starts]

    def by_slots(self, pattern: Pattern, start: int) -> Iterator[Worst]:
        """What the words of a pattern from a cycle on need where credits are never wanting, step by step."""
        places, size = len(self.own.starts), self.own.size
        order = sorted((slot - start) % size for slot in self.own.starts)
        for step in range(2 * places * pattern.period):
            flit = -(-pattern.words(step) // WORDS_OF_FLIT) - 1
            yield Worst(start, step, order[flit % places] + flit // places * size - pattern.at(step))

    def by_credits(self, pattern: Pattern, start: int) -> Iterator[Worst]:
        """What they need in any case, step by step, until the session goes on as it did before: then no step needs more."""
        session = Session(self, start)
        before: tuple[int, ...] = ()
        for step in count():
            sent = [session.send() for _ in range(pattern.at_once)][-1]
            yield Worst(start, step, sent - start - pattern.at(step))
            periods, more = divmod(step + 1, pattern.period)
            if not more:
                now = session.state()
                if now == before:
                    return
                if periods.bit_count() == 1:  # an early one may never come again
                    before = now

    def wants_credits(self) -> bool:
        """Whether credits may be wanting. Where none is over the first rounds none ever is: words go alike in each round
        then, and from the second round on credits do."""
        if WORDS_OF_FLIT * len(self.own.starts) > CREDITS_OF_FLIT * len(self.opposite.starts):
            return True
        words = self.buffer + 4 * WORDS_OF_FLIT * (len(self.own.starts) + 1)
        for start in self.starts:
            session = Session(self, start)
            for _ in range(words):
                session.send()
            if session.was_held:
                return True
        return False

    def searched(self, pattern: Pattern, steps: Iterable[Iterator[Worst]], cost: int) -> Need:
        """The greatest need of some words. Of each start the steps end where none behind them may need more, or where too many
        were looked at: then the most is told that the others may need."""
        worst, most, left = Worst(0, 0, 0), 0, MOST_STEPS
        for each in steps:
            for one in each:
                if self.most(pattern, one.step) <= worst.drain:
                    break
                if left <= 0:
                    most = max(most, self.most(pattern, one.step))
                    break
                left -= cost
                if one.drain > worst.drain:
                    worst = one
        return Need(worst, max(most, worst.drain))

    def need(self, evenly: bool = False) -> Need | None:
        """What the channel needs so that it has sent all; nothing where it has no words."""
        if not self.wish.words:
            return None
        pattern = Pattern(self.wish, evenly)
        need = self.searched(pattern, (self.by_slots(pattern, start) for start in self.starts), 1)
        if need.worst.drain >= self.most(pattern) or not self.wants_credits():
            return need
        return self.searched(pattern, (self.by_credits(pattern, start) for start in self.starts), pattern.at_once)
