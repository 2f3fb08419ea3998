"""The least drain of a switch with which no word of a run is dropped, by when `aeth` says that the words land."""
from collections.abc import Sequence
from dataclasses import dataclass

from ending import Result, Stop
from leaving import Leaving
from least_drain import Channel
from program import Input, made, text_of
from run_texts import SwitchRow, read_log, read_words
from runs import receivers_of
from sessions import Receiver
from text_table import Column, count, table
from traffic import MOST_CYCLES, words_text

NO_DRAIN = 3  # the status
NO_PULLS = "connection,side,cycle,pull\n"
COLUMNS = (
    Column("channel"), Column("words", True), Column("offered", True), Column("sent", True), Column("landed", True),
    Column("taken", True), Column("drain", True),
)


@dataclass(frozen=True)
class LastWord:
    """The last word of a channel that comes before a switch, and how many there are: when it is offered, lands and is taken."""

    channel: Channel
    words: int
    offered: int
    landed: int
    taken: int

    @property
    def sent(self) -> int:
        return self.landed - self.channel.delay

    def drain(self, at: int, longest: int) -> int:
        """It is sent before the end of the drain, and taken before the switch is finished."""
        return max(0, self.sent - at + 1, self.taken - at - longest + 1)

    def row(self, at: int, longest: int) -> list[str]:
        numbers = self.words, self.offered, self.sent, self.landed, self.taken, self.drain(at, longest)
        return [self.channel.name, *(f"{number:,}" for number in numbers)]


def switches_text(rows: Sequence[SwitchRow]) -> str:
    return "cycle,use,drain\n" + "".join(f"{row.cycle},{row.use},{row.drain}\n" for row in rows)


@dataclass(frozen=True)
class Given:
    """The files of a run that a switch leaves."""

    left: Leaving
    design: Sequence[Input]
    words: Input
    receivers: Input
    at: int

    def simulated(self, words: Input, switches: Sequence[SwitchRow], cycles: int) -> str:
        """What `aeth` says of a run."""
        return text_of("simulate", *self.design, words, self.receivers, made("switches", switches_text(switches)), cycles)

    def last_words(self) -> list[LastWord]:
        """The last words of the channels that the switch closes, as they would go without it."""
        first, closing = SwitchRow(0, self.left.use, 0), set(self.left.connections)
        self.simulated(self.words, [first], 1)  # which judges the files
        rows = [row for row in read_words(self.words.data, self.at) if row.connection in closing]
        log = read_log(self.simulated(made("words", words_text(rows)), [first], MOST_CYCLES))
        channels = {channel.name: channel for channel in self.left.channels}
        pulls = receivers_of(self.receivers.data, MOST_CYCLES)
        found = []
        for session in log.sessions:
            name = f"{session.connection} {session.side}"
            if name in channels and session.offered:
                receiver = pulls.get((session.connection, session.side), Receiver())
                takes = list(receiver.takes(session.landings))
                last = takes[-1] if len(takes) == session.offered else None
                if last is None:
                    taken = sum(take is not None and take < MOST_CYCLES for take in takes)
                    raise Stop(NO_DRAIN, never(name, session.offered - taken))
                found.append(LastWord(channels[name], session.offered, session.offers[-1], session.landings[-1], last))
        return found

    def dropped(self, drain: int) -> int:
        """How many words a run with a drain drops."""
        end = self.at + drain + self.left.longest + 1
        rows = [SwitchRow(0, self.left.use, 0), SwitchRow(self.at, self.left.other, drain)]
        closing, dropped, is_closing = set(self.left.connections), 0, False
        for line in self.simulated(self.words, rows, end).split("\n"):
            fields = line.split(" ")
            if fields[0] == "chan":
                is_closing = fields[1] in closing and fields[4] == "ended"
            elif fields[0] == "drop" and is_closing:
                dropped += int(fields[1]) + int(fields[2])
        return dropped


def never(name: str, words: int) -> str:
    return f"no drain is enough: of {name} {count(words, 'word')} {'is' if words == 1 else 'are'} never taken in a run"


def given_words(left: Leaving, design: Sequence[Input], words: Input, receivers: Input | None, at: int) -> Result:
    """The least drain for the words of a run that a switch leaves in a cycle."""
    given = Given(left, design, words, receivers or made("receivers", NO_PULLS), at)
    found = sorted(given.last_words(), key=lambda last: -last.drain(at, left.longest))
    if not found:
        why = "no channel that closes has words before the switch" if left.channels else "nothing closes"
        return Result(f"drain 0\n\nNothing is dropped: {why}.\n")
    drain = found[0].drain(at, left.longest)
    if at + drain + left.longest >= MOST_CYCLES:
        last = found[0]
        raise Stop(NO_DRAIN, (
            f"{last.channel.name} needs a drain of {drain:,}: the switch would be finished in cycle "
            f"{at + drain + left.longest:,}, and a run has {MOST_CYCLES:,} cycles at most"
        ))
    lost = given.dropped(drain - 1) if drain else 1
    if given.dropped(drain) or not lost:
        raise AssertionError(f"a run says another drain than {drain}")
    less = f" With {drain - 1:,} it drops {count(lost, 'word')}." if drain else ""
    return Result(
        f"drain {drain}\n\n"
        f"With it a switch from {left.use} to {left.other} in cycle {at:,} drops no word of this run.{less}\n{left.closes}\n\n"
        + table(COLUMNS, [last.row(at, left.longest) for last in found], 0)
        + "\nThe cycles are those of the last word before the switch. It must be sent by the end of the drain, and be taken up to\n"
        f"{count(left.longest, 'cycle')} behind it.\n"
    )
