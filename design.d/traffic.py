"""Traces for a run: words at the rates that channels wish, receivers that take late or stall, switches."""
from collections.abc import Iterable, Iterator, Sequence
from dataclasses import dataclass, replace
from typing import NamedTuple
import csv
import random
import re

from design_files import Application, Wish
from ending import UNREAD, Stop
from files import Files
from plan_texts import read_plan
from program import MOST_BYTES, Input, made, text_of as printed
from run_texts import PullRow, Switching, SwitchRow, WordRow, records_of
from shapes import Refused

MOST_CYCLES = 1_000_000
MOST_ROWS = 1_000_000
MOST_SWITCHES = 1_024
ALL = 255  # the greatest pull: a receiver takes all that has landed

KINDS = ("periodic", "greedy", "random")
TOO_MANY_WORDS = f"these are more than {MOST_ROWS:,} words: take fewer cycles or less load"
TOO_MANY_ROWS = f"these are more than {MOST_ROWS:,} rows: take fewer cycles"


@dataclass(frozen=True)
class Entry:
    """A row of switches, and the cycle from which the channels that it opens have words."""

    cycle: int
    use: str
    drain: int
    opens: int

    @property
    def row(self) -> SwitchRow:
        return SwitchRow(self.cycle, self.use, self.drain)


class Span(NamedTuple):
    """From which cycle on a channel has words, and before which."""

    start: int
    end: int


@dataclass(frozen=True)
class RunChannel:
    """A channel of a run, with its wish, and the spans in which it has words."""

    connection: str
    side: str
    wish: Wish
    spans: list[Span]


class Stall(NamedTuple):
    """A channel whose receiver takes nothing from a cycle on."""

    connection: str
    side: str
    cycle: int


def cycle_of(text: str) -> int | None:
    """The number of a cycle or of a drain, as files have it, or none."""
    number = int(text) if re.fullmatch("0|[1-9][0-9]{0,6}", text) else MOST_CYCLES + 1
    return number if number <= MOST_CYCLES else None


def known_use(use: str, app: Application, more: str = "") -> str:
    """The name of a use case of the application."""
    if use not in app.uses:
        raise Refused(f"no use case has the name {use}: they are {', '.join(app.uses)}{more}")
    return use


def entry_of(row: Sequence[str], place: str, app: Application) -> Entry:
    """The switch of a row of a file."""
    cycle, drain = (cycle_of(row[field]) for field in (0, 2)) if len(row) == 3 else (None, None)
    if cycle is None or drain is None:
        raise Refused(f"{place}: there must be a cycle, a use case and a drain, numbers of 0 to {MOST_CYCLES:,}")
    try:
        return Entry(cycle, known_use(row[1], app), drain, cycle + drain)
    except Refused as refused:
        raise Refused(f"{place}: {refused}") from None


def entries_in(file: Input, app: Application) -> list[Entry]:
    """The switches of a file that `aeth` may accept: whether one is over by the next rests on a plan."""
    path = file.name
    if file.unread:
        raise Stop(UNREAD, f"{path}: {file.unread}")
    if len(file.data) > MOST_BYTES:
        raise Refused(f"{path} has more than {MOST_BYTES:,} bytes")
    try:
        header, *rows = list(records_of(file.data)) or [[]]
    except csv.Error as error:
        raise Refused(f"{path}: {error}") from None
    if header != ["cycle", "use", "drain"]:
        raise Refused(f"{path}: the columns must be cycle,use,drain")
    entries = [entry_of(row, f"{path}, row {number}", app) for number, row in enumerate(rows, 1)]
    for number, (before, entry) in enumerate(zip(entries, entries[1:]), 2):
        if entry.cycle < before.cycle:
            raise Refused(f"{path}, row {number}: cycle {entry.cycle} is before that of the row above, {before.cycle}")
    if len(entries) > MOST_SWITCHES:
        raise Refused(f"{path}: a run has at most {MOST_SWITCHES:,} rows of switches")
    if not entries or (entries[0].cycle, entries[0].drain) != (0, 0):
        raise Refused(f"{path}: the first switch must be in cycle 0, with a drain of 0")
    return entries


def by_plan(entries: Sequence[Entry], files: Files, plan: Input) -> list[Entry]:
    """The same, where what a switch opens has words from the cycle on in which its sessions begin by an accepted plan."""
    switches = Switching(files.chip, files.app, read_plan(plan.data)).all_of([entry.row for entry in entries])
    return [replace(entry, opens=switch.over) for entry, switch in zip(entries, switches)]


def judged_switches(switches: Input, files: Files, plan: Input) -> None:
    """Ends the script where `aeth` refuses a file of switches for an accepted plan: in a run without words."""
    traces = made("words", words_text([])), made("receivers", pulls_text([]))
    printed("simulate", files.chip_file, files.app_file, plan, *traces, switches, 1)


def entries_of(word: str, files: Files, cycles: int, plan: Input | None = None) -> list[Entry]:
    """The switches of a run: those of a file, or one use case alone."""
    if "." not in word and "/" not in word:
        entries = [Entry(0, known_use(word, files.app, "; the path of a file of switches has a dot or a slash"), 0, 0)]
        return by_plan(entries, files, plan) if plan else entries
    file = Input(word)
    if not plan:
        entries = entries_in(file, files.app)
    elif file.unread:
        raise Stop(UNREAD, f"{word}: {file.unread}")
    else:
        judged_switches(file, files, plan)
        entries = by_plan(entries_in(file, files.app), files, plan)
    return [entry for entry in entries if entry.cycle < cycles]


def spans_of(connection: str, app: Application, entries: Sequence[Entry], cycles: int) -> list[Span]:
    """When a connection has words: from a switch that opens it up to one that doesn't keep it."""
    ends = [entry.cycle for entry in entries[1:]] + [cycles]
    spans: list[Span] = []
    before = None
    for entry, end in zip(entries, ends):
        now = app.groups[entry.use] if connection in app.members[entry.use] else None
        if now is not None and now == before:
            spans[-1] = Span(spans[-1].start, end)
        elif now is not None:
            spans.append(Span(min(entry.opens, end), end))
        before = now
    return spans


def channels_of(app: Application, entries: Sequence[Entry], cycles: int) -> Iterator[RunChannel]:
    """The channels of a run, by connection in file order and side."""
    for connection in app.connections.values():
        spans = spans_of(connection.name, app, entries, cycles)
        if spans:
            yield RunChannel(connection.name, "fwd", connection.fwd, spans)
            yield RunChannel(connection.name, "back", connection.back, spans)


def periodic(wish: Wish, load: int, cycles: int, _: random.Random) -> Iterator[int]:
    """Words evenly apart: word `k` as soon as `k` words are within the rate."""
    words, per = wish.words * load, wish.per * 100
    return (place * per // words for place in range((cycles * words + per - 1) // per))


def greedy(wish: Wish, load: int, cycles: int, _: random.Random) -> Iterator[int]:
    """The greatest bursts that the rate allows: all words of a period in its first cycle."""
    for period in range((cycles + wish.per - 1) // wish.per):
        before, after = (count * wish.words * load // 100 for count in (period, period + 1))
        yield from (period * wish.per for _ in range(after - before))


def at_random(wish: Wish, load: int, cycles: int, chance: random.Random) -> Iterator[int]:
    """As many words as the rate has in the run, each in a cycle of its own draw."""
    return (chance.randrange(cycles) for _ in range(cycles * wish.words * load // (100 * wish.per)))


MAKERS = dict(zip(KINDS, (periodic, greedy, at_random)))


def words_made(channel: RunChannel, kind: str, seed: int, load: int, room: int) -> Iterator[int]:
    """The cycles of a channel's words; stops where they are more than there is room for."""
    if not channel.wish.words * load:
        return
    chance = random.Random(f"{seed} {channel.connection} {channel.side}")
    for start, end in channel.spans:
        for cycle in MAKERS[kind](channel.wish, load, end - start, chance):
            if start + cycle < end:
                room -= 1
                if room < 0:
                    raise Refused(TOO_MANY_WORDS)
                yield start + cycle


def words_rows(
    app: Application, entries: Sequence[Entry], cycles: int, kind: str = "periodic", seed: int = 0, load: int = 100
) -> list[WordRow]:
    """The rows of a trace of words, in the order of their cycles, and of channels within a cycle."""
    channels = list(channels_of(app, entries, cycles))
    found: list[tuple[int, int]] = []  # cycles, and places of channels
    for place, channel in enumerate(channels):
        found += [(cycle, place) for cycle in words_made(channel, kind, seed, load, MOST_ROWS - len(found))]
    found.sort()
    return [
        WordRow(channels[place].connection, channels[place].side, cycle, value) for value, (cycle, place) in enumerate(found)
    ]


def words_text(rows: Iterable[WordRow]) -> str:
    return "connection,side,cycle,value\n" + "".join(f"{c},{s},{t},{v}\n" for c, s, t, v in rows)


def late_rows(app: Application, entries: Sequence[Entry], cycles: int) -> list[PullRow]:
    """Receivers that take as late as they declare: nothing for the cycles of their delay, and then all that has landed.
    The last row of each, at the end of the cycles or behind it, lets it take for good."""
    rows: list[PullRow] = []
    for channel in channels_of(app, entries, cycles):
        delay = channel.wish.delay
        if delay and len(rows) + 2 * -(-cycles // (delay + 1)) > MOST_ROWS:
            raise Refused(TOO_MANY_ROWS)
        for start in range(0, cycles, delay + 1) if delay else ():
            rows.append(PullRow(channel.connection, channel.side, start, 0))
            rows.append(PullRow(channel.connection, channel.side, min(start + delay, MOST_CYCLES), ALL))
    return rows


def pulls_text(rows: Iterable[PullRow]) -> str:
    return "connection,side,cycle,pull\n" + "".join(f"{c},{s},{t},{p}\n" for c, s, t, p in rows)


def receivers_text(app: Application, entries: Sequence[Entry], cycles: int, late: bool, stalls: Iterable[Stall]) -> str:
    """The rows of receivers: late ones where that is asked for, and channels that take nothing from a cycle on."""
    rows = late_rows(app, entries, cycles) if late else []
    known = {(channel.connection, channel.side) for channel in channels_of(app, entries, cycles)}
    for stall in stalls:
        if (stall.connection, stall.side) not in known:
            uses = dict.fromkeys(entry.use for entry in entries)
            raise Refused(f"no channel {stall.connection} {stall.side} is in {', '.join(uses)}")
        rows = [row for row in rows if row[:2] != stall[:2] or row.cycle < stall.cycle]
        rows.append(PullRow(*stall, 0))
    if len(rows) > MOST_ROWS:
        raise Refused(TOO_MANY_ROWS)
    return pulls_text(sorted(rows, key=lambda row: row.cycle))


def entries_over(app: Application, cycles: int, uses: Sequence[str], drain: int) -> list[Entry]:
    """A switch to each named use case after the first, evenly over the run."""
    uses = [known_use(use, app) for use in uses]
    if not 0 <= drain <= MOST_CYCLES:
        raise Refused(f"a drain is 0 to {MOST_CYCLES:,} cycles")
    if len(uses) > MOST_SWITCHES:
        raise Refused(f"a run has at most {MOST_SWITCHES:,} rows of switches")
    starts = [place * cycles // len(uses) for place in range(len(uses))]
    apart = min((after - start for start, after in zip(starts[1:], starts[2:])), default=drain)
    if apart < drain:
        raise Refused(f"these switches are {apart:,} cycles apart, and each takes its drain of {drain:,} and more")
    drains = [0] + [drain] * (len(uses) - 1)
    return [Entry(start, use, rest, start + rest) for start, use, rest in zip(starts, uses, drains)]


def refuse_overlaps(entries: Sequence[Entry], cycles: int) -> None:
    """Refuses switches that aren't over by the next one, or by the end of the run."""
    for entry, end in zip(entries, [later.cycle for later in entries[1:]] + [cycles]):
        if entry.opens > end:
            takes = f"the switch to {entry.use} in cycle {entry.cycle:,} takes up to cycle {entry.opens:,}"
            raise Refused(f"{takes}, and must be over by cycle {end:,}")


def switches_text(entries: Iterable[Entry]) -> str:
    return "cycle,use,drain\n" + "".join(f"{entry.cycle},{entry.use},{entry.drain}\n" for entry in entries)
