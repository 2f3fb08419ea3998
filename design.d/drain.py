"""The least drain of a switch from a use case to another with which nothing is dropped: for any words that keep their rates, or
for those of a file.
"""
from collections.abc import Sequence
from dataclasses import dataclass

from drain_of_run import NO_DRAIN, given_words
from ending import NO_WORDS, Result, Stop
from least_drain import Channel, Need, Pattern
from leaving import Leaving, leaving
from program import Input
from progress import Progress
from text_table import Column, count, table
from traffic import MOST_CYCLES

COLUMNS = (
    Column("channel"), Column("words in"), Column("slots", True), Column("sent", True), Column("path", True),
    Column("delay", True), Column("drain", True),
)


@dataclass(frozen=True)
class Needed:
    """The drain that a channel needs for words that keep their rates."""

    channel: Channel
    need: Need
    more: int  # for its receiver

    @property
    def drain(self) -> int:
        return self.need.most + self.more

    @property
    def least(self) -> int:
        """What some words are known to need."""
        return self.need.worst.drain + self.more

    def row(self) -> list[str]:
        channel, wish = self.channel, self.channel.wish
        return [
            channel.name, f"{wish.words:,} in {wish.per:,}", str(len(channel.own.starts)), f"{self.need.most:,}",
            str(channel.delay), str(wish.delay), f"{self.drain:,}",
        ]


def witness(one: Needed, pattern: Pattern) -> str:
    """Words that keep their rate, of which the last one is dropped with any drain less than the least."""
    worst, delay = one.need.worst, one.channel.wish.delay
    words, end = pattern.words(worst.step), worst.first + pattern.at(worst.step)
    come = "a word comes" if words == 1 else f"{words:,} words come"
    if end == worst.first:
        when = f"in cycle {end:,}"
    elif pattern.evenly:
        when = f"evenly in the cycles {worst.first:,} to {end:,}"
    else:
        when = f"in the cycles {worst.first:,} to {end:,}, {pattern.at_once:,} each {count(pattern.wish.per, 'cycle')}"
    late = f", its receiver takes {count(delay, 'cycle')} after each landing" if delay else ""
    return (
        f"With {one.least - 1:,} the last word of {one.channel.name} is dropped where {come} {when},\n"
        f"the switch is in cycle {end + 1:,}{late}, and no other words came before."
    )


def needed(left: Leaving, evenly: bool) -> list[Needed]:
    """What each channel with words needs, the one that needs most first."""
    progress, found = Progress("design"), []
    for channel in left.channels:
        progress.say(f"what {channel.name} needs")
        need = channel.need(evenly)
        if need is not None:
            found.append(Needed(channel, need, left.more(channel)))
    progress.end()
    return sorted(found, key=lambda one: -one.drain)


def why_enough(one: Needed, evenly: bool) -> str:
    """Why the drain of the channel that needs most is the least one, or how far it may be from it."""
    told = witness(one, Pattern(one.channel.wish, evenly)) if one.least else "No drain is less."
    return told if one.drain == one.least else f"{told} Whether {one.least:,} is enough isn't known."


def less_for_even_words(left: Leaving, first: Needed) -> str:
    """How much less words need that come evenly, where that is so."""
    drain = max((one.drain for one in needed(left, True)), default=0)
    return f"Words that come evenly by their rates need {drain:,} (--evenly).\n" if drain < first.drain else ""


def any_words(left: Leaving, evenly: bool) -> Result:
    """The least drain for any words that keep their rates."""
    found = needed(left, evenly)
    if not found:
        why = "no channel that closes has words" if left.channels else f"{left.other} keeps all connections of {left.use}"
        return Result(f"drain 0\n\nNothing is dropped: {why}.\n")
    first = found[0]
    if first.drain > MOST_CYCLES:
        what = f"{first.channel.name} needs a drain of {first.drain:,}"
        raise Stop(NO_DRAIN, f"no drain is enough: {what}, and one has {MOST_CYCLES:,} cycles at most")
    silent = len(left.channels) - len(found)
    more = f" {count(silent, 'channel')} {'has' if silent == 1 else 'have'} no words." if silent else ""
    words = "words come evenly by their rates" if evenly else "words keep their rates"
    return Result(
        f"drain {first.drain}\n\n"
        f"With it a switch from {left.use} to {left.other} drops no word, if {words} and receivers keep their delays.\n"
        f"{left.closes}\n{why_enough(first, evenly)}\n"
        + ("" if evenly else less_for_even_words(left, first))
        + "\n" + table(COLUMNS, [one.row() for one in found], 0)
        + "\nThe last words of a channel come in the cycle before the switch. They are sent up to `sent` cycles later, land the\n"
        f"cycles of their path after that, and are taken up to their delay later.{more}\n"
    )


def drain(
    design: Sequence[str], uses: Sequence[str], evenly: bool, words: str | None, receivers: str | None, at: int | None
) -> Result:
    """The least drain, for the words of a file where one is named."""
    chip, app, plan = (Input(path) for path in design)
    left = leaving(chip, app, plan, *uses)
    if words is None and receivers is None and at is None:
        return any_words(left, evenly)
    if evenly:
        raise Stop(NO_WORDS, "--evenly is of any words, and not of those of a file")
    if words is None or at is None:
        raise Stop(NO_WORDS, "the words of a run are told by --words FILE and --at CYCLE, and its receivers by --receivers FILE")
    if not 0 <= at <= MOST_CYCLES:
        raise Stop(NO_WORDS, f"a switch is in a cycle of 0 to {MOST_CYCLES:,}")
    return given_words(left, (chip, app, plan), Input(words), Input(receivers) if receivers is not None else None, at)
