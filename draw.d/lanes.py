"""Owns the lane of a channel in the picture of a run: its sessions, its words, and the numbers beside it."""
from bisect import bisect_left
from collections.abc import Iterable, Iterator
from dataclasses import dataclass
from typing import NamedTuple

from physical_units import PhysicalUnits, in_time
from sessions import ChannelLog, Session
import svg
from svg import MARGIN
from timescale import Span, Timescale, busy_parts

BIN = 4  # the width of a bar
LEAST_WIDTH = 6  # for each word of a lane, where each has a line


@dataclass(frozen=True)
class Amount:
    """A number at the right of a lane: its head of two lines, and the room for it."""

    head: str
    unit: str
    room: int


def amounts_of(units: PhysicalUnits | None) -> list[Amount]:
    """The numbers at the right of a lane; with units the longest time and the latency stand in these too."""
    amounts = [
        Amount("longest", "cycles", 76), Amount("latency", "cycles", 56), Amount("late", "words", 44),
        Amount("overdue", "words", 56), Amount("dropped", "words", 56),
    ]
    if units:
        amounts[1:1] = [Amount("longest", "ns", 66)]
        amounts[3:3] = [Amount("latency", "ns", 66)]
    return amounts


def cross(x: float, y: float) -> str:
    return f"M{svg.number(x - 3)} {svg.number(y - 3)}l6 6m0-6l-6 6"


def draw_drops(channel: ChannelLog, scale: Timescale, bottom: float) -> str:
    """A cross at the end of each session at which words were dropped, with their number."""
    parts = []
    for session in channel.sessions:
        dropped = session.unlanded + session.untaken
        if dropped:
            x = scale.at(session.end)
            tells = (
                f"{svg.count(dropped, 'word')} dropped in cycle {session.end}: {session.unlanded} not landed, "
                f"{session.untaken} not taken"
            )
            mark = svg.tag("path", class_="drop", d=cross(x, bottom - 4))
            parts.append(svg.tag("g", svg.title(tells), mark, svg.label(str(dropped), x + 6, bottom, "excused")))
    return "".join(parts)


class Lines:
    """Each word as a line from its offer, above, to its landing, below, with a short line at its due cycle; late words
    by themselves. The line of an overdue word is broken, and leads to its due cycle."""

    def __init__(self, scale: Timescale, top: float, high: float) -> None:
        self.scale, self.top, self.bottom = scale, top, top + high
        self.paths: dict[str, list[str]] = {"word": [], "late": [], "overdue": [], "due": []}

    def add(self, kind: str, offered: int, end: int, due: int) -> None:
        at = self.scale.at
        self.paths[kind].append(f"M{at(offered)} {self.top}L{at(end)} {self.bottom}")
        if due <= self.scale.cycles:
            self.paths["due"].append(f"M{at(due)} {self.bottom - 4}v6")

    def add_session(self, session: Session) -> None:
        log = session.log
        for offered, landed, due in zip(log.offers, log.landings, log.dues):
            self.add("late" if landed > due else "word", offered, landed, due)
        for word in session.overdue:
            self.add("overdue", word.offered, word.due, word.due)

    def draw(self) -> str:
        return "".join(svg.tag("path", class_=kind, d="".join(path)) for kind, path in self.paths.items() if path)


def draw_words(channel: ChannelLog, scale: Timescale, top: float, high: float) -> str:
    lines = Lines(scale, top, high)
    for session in channel.sessions:
        lines.add_session(session)
    return lines.draw()


class Part(NamedTuple):
    """A part of the run, with the place of the first word that landed in it, and of the first one behind it."""

    number: int
    first: int
    last: int


def parts_of(landings: list[int], scale: Timescale) -> Iterator[Part]:
    """The parts of the run in which words landed, with the places of these words among all."""
    first = 0
    while first < len(landings):
        part = scale.part_of(landings[first], BIN)
        last = bisect_left(landings, part + 1, first, key=lambda landed: scale.part_of(landed, BIN))
        yield Part(part, first, last)
        first = last


def draw_sums(channel: ChannelLog, scale: Timescale, top: float, high: float) -> str:
    """Words that are too many for a line each, as bars: the longest time from offer to landing in each part of the run.
    A part with a late word, or one in which an overdue word was due, has a bar of the late ones' colour, which is wider;
    of an overdue word it fills the lane."""
    bottom, late = top + high, set()
    waits: dict[int, int] = {}
    for session in channel.sessions:
        landings = session.log.landings
        for part, first, last in parts_of(landings, scale):
            waits[part] = max(waits.get(part, 0), max(session.waits[first:last]))
        if session.late:
            late |= {scale.part_of(landed, BIN) for landed, due in zip(landings, session.log.dues) if landed > due}
    overdue = {scale.part_of(word.due, BIN) for session in channel.sessions for word in session.overdue}
    waits.update(dict.fromkeys(overdue, channel.longest))
    paths: dict[str, list[str]] = {"bar": [], "bar late": [], "bar overdue": []}
    for part, wait in sorted(waits.items()):
        place = svg.number(scale.left + (part + 0.5) * BIN)
        kind = "bar overdue" if part in overdue else "bar late" if part in late else "bar"
        tall = high if part in overdue else max(1, round(high * wait / max(1, channel.longest)))
        paths[kind].append(f"M{place} {svg.number(bottom)}v-{svg.number(tall)}")
    return "".join(svg.tag("path", class_=kind, d="".join(path)) for kind, path in paths.items() if path)


def guarantee(channel: ChannelLog) -> str:
    """The latencies that the plan guarantees in the sessions of a channel, as a text."""
    return ", ".join(map(str, channel.latencies))


def times(cycles: Iterable[int], units: PhysicalUnits) -> str:
    """Cycles in ns, as a text."""
    return ", ".join(map(units.nanoseconds, cycles))


def broken_promise(channel: ChannelLog, units: PhysicalUnits | None) -> str:
    """Since when a promise has ended, since the receiver hasn't kept its delay; an empty text where it hasn't."""
    session = next((session for session in channel.sessions if session.broken is not None), None)
    if session is None or session.broken is None:
        return ""
    return (
        f"in cycle {session.broken:,}{in_time(session.broken, units)} its receiver hadn't taken a word within its delay of "
        f"{svg.count(session.delay, 'cycle')}{in_time(session.delay, units)}, so that the promise ended there"
    )


def tells_of(channel: ChannelLog, units: PhysicalUnits | None) -> str:
    """What a run shows of a channel, in words."""
    near = ""
    if channel.spare is not None:
        before = f"{channel.spare} before" if channel.spare >= 0 else f"{-channel.spare} after"
        near = (
            f"; at most {svg.count(channel.longest, 'cycle')}{in_time(channel.longest, units)} from offer to landing; the word that came nearest to its "
            f"due cycle landed {before} it"
        )
    broken = broken_promise(channel, units)
    in_ns = f" ({times(channel.latencies, units)} ns)" if units else ""
    return (
        f"{channel.name}: {svg.count(channel.offered, 'word')} offered, {channel.landed} landed, "
        f"{channel.late} of them late, {channel.overdue} overdue, {channel.dropped} dropped, {channel.outside} outside "
        f"of all sessions; {svg.count(len(channel.sessions), 'session')}; "
        f"guaranteed latency {guarantee(channel)}{in_ns}{near}" + (f"; {broken}" if broken else "")
    )


def is_summed(channel: ChannelLog, scale: Timescale) -> bool:
    """Whether a channel has too many words for a line each, in the cycles in which it is in use."""
    in_use = sum(session.end - session.log.go for session in channel.sessions)
    return (channel.landed + channel.overdue) * LEAST_WIDTH > in_use * scale.unit


def draw_amounts(channel: ChannelLog, scale: Timescale, y: float, units: PhysicalUnits | None) -> str:
    """The numbers at the right of a lane: those of late, overdue and dropped words where there are such words. Late and
    overdue words are marked as such where a promise didn't hold, and else as those of a receiver that didn't keep its delay."""
    longest = str(channel.longest) if channel.landed else "-"
    before = [longest, guarantee(channel)]
    if units:
        before = [longest, times([channel.longest], units) if channel.landed else "-", before[1], times(channel.latencies, units)]
    amounts = [*before, *(str(n or "") for n in (channel.late, channel.overdue, channel.dropped))]
    kinds = [*len(before) * [""], *2 * ["lateness " if channel.failed else "excused "], "excused "]
    parts, x = [], scale.right
    for text, amount, kind in zip(amounts, amounts_of(units), kinds):
        x += amount.room
        if text:
            parts.append(svg.label(text, x, y, f"{kind or 'less '}end", amount.room - 4))
    return "".join(parts)


def draw_lane(
    channel: ChannelLog, scale: Timescale, top: float, high: float, name_width: float, units: PhysicalUnits | None
) -> str:
    """The lane of a channel; a session is shaded, and the less so from where its promise has ended."""
    middle = top + high / 2 + 4
    parts = [svg.title(tells_of(channel, units)), svg.label(channel.name, MARGIN, middle, "name", name_width)]
    for kind, spans in (
        ("session", [Span(s.log.go, s.promised) for s in channel.sessions if s.promised > s.log.go]),
        ("session ended", [Span(max(s.promised, s.log.go), s.end) for s in channel.sessions if s.end > s.promised]),
    ):
        for bar in busy_parts(spans, scale):
            parts.append(svg.tag("rect", class_=kind, x=bar.left, y=top, width=bar.width, height=high))
    for session in channel.sessions:
        if session.broken is not None and session.broken < session.last:
            x = scale.at(session.broken)
            parts.append(svg.tag("path", class_="broken", d=f"M{x} {top}v{high}m0 {-high}h6l-6 6"))
    draw = draw_sums if is_summed(channel, scale) else draw_words
    parts += [draw(channel, scale, top, high), draw_drops(channel, scale, top + high)]
    parts.append(draw_amounts(channel, scale, middle, units))
    return svg.tag("g", *parts, class_="lane", role="img", tabindex="0")
