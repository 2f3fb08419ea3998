"""What changed from a plan to another one on the same chip, in words."""
from collections.abc import Callable, Sequence

from changes import ChannelChange, Changes, SeatChange, Verdict
from comparing import changes_of, inputs_of
from design import Channel
from ending import Result
from text_table import Column, table

WORSE = 3  # the status
ARROW = " -> "


def turned(before: object, after: object) -> str:
    """A value before and after, or once where it is the same."""
    return f"{after}" if before == after else f"{before}{ARROW}{after}"


def compared(change: ChannelChange, tells: Callable[[Channel], object]) -> str:
    """What is told of a channel before and after."""
    assert change.before and change.after
    return turned(tells(change.before), tells(change.after))


def promises(changes: Changes) -> str:
    """The channels whose guarantees are others."""
    found = [one for one in changes.of(*Verdict) if one.has_other_promise or one.unkept]
    columns = (
        Column(""), Column("channel"), Column("in"), Column(f"words in {changes.after.chip.slots}", True), Column("latency", True),
        Column("buffer", True), Column(""),
    )
    rows = [
        [
            one.verdict.value, one.name, ", ".join(one.uses), compared(one, lambda it: it.promise.rate),
            compared(one, lambda it: it.promise.latency), compared(one, lambda it: it.promise.buffer),
            "a switch closes it that kept it" if one.unkept else "",
        ]
        for one in found
    ]
    return section("Guarantees", table(columns, rows)) if rows else ""


def section(head: str, text: str) -> str:
    return f"\n{head}\n{text}"


def paths(changes: Changes) -> str:
    """The channels on another path."""
    found = [one for one in changes.channels if one.has_other_path]
    columns = Column("channel"), Column("in"), Column("before"), Column("after")
    rows = [[one.name, ", ".join(one.uses), path_of(changes, one.before), path_of(changes, one.after)] for one in found]
    return section("Paths", table(columns, rows)) if rows else ""


def slots(changes: Changes) -> str:
    """The channels whose flits start in other slots."""
    found = [one for one in changes.channels if one.has_other_slots]
    columns = Column("channel"), Column("in"), Column("slots of its first link")
    rows = [[one.name, ", ".join(one.uses), compared(one, lambda it: " ".join(map(str, it.grant.starts)))] for one in found]
    return section("Slots", table(columns, rows)) if rows else ""


def path_of(changes: Changes, channel: Channel | None) -> str:
    """The nodes of a path, and its links, since two may lead from a router to another."""
    if channel is None:
        return ""
    nodes = " ".join(channel.nodes(changes.after.chip.links))
    return f"{nodes} (links {','.join(map(str, channel.grant.links))})"


def seats(changes: Changes) -> str:
    """The cores whose seats are others."""
    columns = Column("core"), Column("before"), Column("after")
    rows = [[one.core, *seat_texts(one)] for one in changes.seats]
    return section("Seats", table(columns, rows)) if rows else ""


def seat_texts(one: SeatChange) -> list[str]:
    return [f"{seat.interface}, seat {seat.number}" if seat else "none" for seat in (one.before, one.after)]


def wishes(changes: Changes) -> str:
    """The channels of which the application wishes something else."""
    columns = Column("channel"), Column("from"), Column("to"), Column("words in"), Column("latency", True), Column("delay", True)
    found = {one.name: one for one in changes.channels if one.has_other_wish}
    rows = [
        [
            one.name, compared(one, lambda it: it.sender), compared(one, lambda it: it.receiver),
            compared(one, words_wished),
            compared(one, lambda it: it.connection.wish(it.side).latency),
            compared(one, lambda it: it.connection.wish(it.side).delay),
        ]
        for one in found.values()
    ]
    return section("Wishes", table(columns, rows)) if rows else ""


def words_wished(channel: Channel) -> str:
    wish = channel.connection.wish(channel.side)
    return f"{wish.words:,} in {wish.per:,}" if wish.words else "none"


def others(changes: Changes) -> str:
    """The channels that are new, and those that are gone."""
    columns = (
        Column("channel"), Column("from"), Column("to"), Column("in"), Column(f"words in {changes.after.chip.slots}", True),
        Column("latency", True), Column("buffer", True),
    )
    text = ""
    for head, verdict in (("New", Verdict.NEW), ("Gone", Verdict.GONE)):
        found = [(one, one.after or one.before) for one in changes.of(verdict)]
        rows = [
            [
                one.name, channel.sender, channel.receiver, ", ".join(one.uses), str(channel.promise.rate),
                str(channel.promise.latency), str(channel.promise.buffer),
            ]
            for one, channel in found if channel
        ]
        text += section(head, table(columns, rows)) if rows else ""
    return text


def links(changes: Changes) -> str:
    """How the links of each use case that has changed are filled."""
    columns = Column("use case"), Column("fuller", True), Column("emptier", True), Column("other slots", True), Column("fullest link")
    rows = []
    for use in changes.uses:
        found = changes.links([use])
        fuller, emptier = sum(one.after > one.before for one in found), sum(one.after < one.before for one in found)
        other = sum(one.is_changed and one.before == one.after for one in found)
        if fuller or emptier or other:
            most = turned(max(one.before for one in found), max(one.after for one in found))
            rows.append([use_told(changes, use), str(fuller), str(emptier), str(other), f"{most} of {changes.after.chip.slots}"])
    return section("Links", table(columns, rows)) if rows else ""


def use_told(changes: Changes, use: str) -> str:
    """The name of a use case, with whether it is new or gone."""
    if use not in changes.before.app.uses:
        return f"{use} (new)"
    return use if use in changes.after.app.uses else f"{use} (gone)"


PARTS = (promises, paths, slots, seats, wishes, others, links)


def diff(chip: str, words: Sequence[str]) -> Result:
    """What changed from the first application and plan to the second ones."""
    changes = changes_of(inputs_of((chip, *words)), "design")
    parts = [part(changes) for part in PARTS]
    if not any(parts):
        return Result(f"{changes.nothing}\n")
    return Result(changes.summary + "\n" + "".join(parts), WORSE if changes.worse else 0)
