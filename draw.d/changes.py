"""Owns what changed from a design to another one on the same chip: channels with what they are guaranteed, seats, use cases, and
the slots of links.

A channel is that of a connection and a side by name, in the use cases of either design that have the connection. It is worse
where its guaranteed rate is lower, its guaranteed latency greater, or where a switch that kept it closes it now.
"""
from collections import defaultdict
from collections.abc import Iterable
from dataclasses import dataclass, replace
from enum import Enum
from functools import cached_property
from typing import NamedTuple

from design import SIDES, Channel, Design, Key, passages
from design_files import Link, UseCase, Wish
from plan_texts import Seat
from text_table import count


class Verdict(Enum):
    """What became of a channel."""

    WORSE = "worse"
    BETTER = "better"
    MOVED = "moved"  # another path or other slots, with the same guarantees
    RESIZED = "resized"  # another buffer alone
    SAME = "same"
    NEW = "new"
    GONE = "gone"


ORDER = list(Verdict)


@dataclass(frozen=True)
class ChannelChange:
    """A channel before and after, in some use cases; none where it is new there, or gone."""

    name: str
    uses: list[str]
    before: Channel | None
    after: Channel | None
    unkept: list[str]  # use cases between which a switch kept it, and doesn't now

    @property
    def is_worse(self) -> bool:
        old, new = self.before, self.after
        if not (old and new):
            return False
        return new.promise.rate < old.promise.rate or new.promise.latency > old.promise.latency or bool(self.unkept)

    @property
    def is_better(self) -> bool:
        old, new = self.before, self.after
        if not (old and new) or self.is_worse:
            return False
        return new.promise.rate > old.promise.rate or new.promise.latency < old.promise.latency

    @property
    def has_moved(self) -> bool:
        """Whether its path or its slots are others."""
        return bool(self.before and self.after) and (self.has_other_path or self.has_other_slots)

    @property
    def has_other_path(self) -> bool:
        return bool(self.before and self.after and self.before.grant.links != self.after.grant.links)

    @property
    def has_other_slots(self) -> bool:
        return bool(self.before and self.after and self.before.grant.starts != self.after.grant.starts)

    @property
    def has_other_promise(self) -> bool:
        """Whether its rate, its latency or its buffer is another one."""
        return bool(self.before and self.after and self.before.promise != self.after.promise)

    @property
    def has_other_wish(self) -> bool:
        """Whether the application wishes something else of it, or has it between other cores."""
        old, new = self.before, self.after
        if not (old and new):
            return False
        ends = (old.sender, old.receiver) != (new.sender, new.receiver)
        return ends or wish_of(old) != wish_of(new)

    @property
    def verdict(self) -> Verdict:
        if self.before is None or self.after is None:
            return Verdict.NEW if self.before is None else Verdict.GONE
        if self.is_worse:
            return Verdict.WORSE
        if self.is_better:
            return Verdict.BETTER
        if self.has_moved:
            return Verdict.MOVED
        return Verdict.RESIZED if self.has_other_promise else Verdict.SAME


@dataclass(frozen=True)
class SeatChange:
    """A core whose seat is another one; none where the design hasn't the core, or it has no seat."""

    core: str
    before: Seat | None
    after: Seat | None

    @property
    def has_moved(self) -> bool:
        """Whether it is at another interface."""
        return bool(self.before and self.after and self.before.interface != self.after.interface)


class CellChange(Enum):
    """What became of a slot of a link."""

    KEPT = "kept"  # by the same channels
    TAKEN = "taken"
    FREED = "freed"
    PASSED_ON = "passed on"  # to another channel


class Holder(NamedTuple):
    """A channel that has a slot of a link in a use case."""

    use: str
    channel: str


@dataclass(frozen=True)
class LinkChange:
    """What became of the slots of a link in some use cases, with the most that are in use in one of them, before and after."""

    link: Link
    cells: dict[int, CellChange]
    before: int
    after: int

    @property
    def is_changed(self) -> bool:
        return any(cell is not CellChange.KEPT for cell in self.cells.values())


def are(many: int, what: str) -> str:
    return f"{many:,} {'is' if many == 1 else 'are'} {what}"


def has_connection(use: UseCase | None, connection: str) -> bool:
    return use is not None and connection in use.connections


@dataclass(frozen=True)
class Changes:
    """Two designs on one chip."""

    before: Design
    after: Design

    @cached_property
    def uses(self) -> list[str]:
        """The use cases of the design after, and those that it hasn't any more."""
        return list(dict.fromkeys([*self.after.app.uses, *self.before.app.uses]))

    @cached_property
    def channels(self) -> list[ChannelChange]:
        """All channels, of each connection in file order."""
        names = dict.fromkeys([*self.after.app.connections, *self.before.app.connections])
        return [change for name in names for change in self.changes_of(name)]

    def changes_of(self, name: str) -> Iterable[ChannelChange]:
        """A connection in each pair of groups that has it before and after."""
        units: dict[tuple[int | None, int | None], list[str]] = {}
        for use in self.uses:
            groups = tuple(
                design.app.groups[use] if has_connection(design.app.uses.get(use), name) else None
                for design in (self.before, self.after)
            )
            if groups != (None, None):
                units.setdefault((groups[0], groups[1]), []).append(use)
        unkept = self.unkept(name)
        for (old, new), uses in units.items():
            for side in SIDES:
                before, after = channel_of(self.before, name, side, old), channel_of(self.after, name, side, new)
                yield ChannelChange(f"{name} {side}", uses, before, after, [use for use in uses if use in unkept])

    def unkept(self, name: str) -> set[str]:
        """The use cases from which a switch to another one kept a connection before, and doesn't now."""
        both = [
            use for use in self.after.app.uses if has_connection(self.after.app.uses[use], name)
            and has_connection(self.before.app.uses.get(use), name)
        ]
        old, new = self.before.app.groups, self.after.app.groups
        return {one for one in both for other in both if old[one] == old[other] and new[one] != new[other]}

    @cached_property
    def worse(self) -> list[ChannelChange]:
        return [change for change in self.channels if change.is_worse]

    def of(self, *verdicts: Verdict) -> list[ChannelChange]:
        """The channels of some verdicts, in the order of these."""
        found = [change for change in self.channels if change.verdict in verdicts]
        return sorted(found, key=lambda change: verdicts.index(change.verdict))

    @cached_property
    def seats(self) -> list[SeatChange]:
        """The cores whose seats are others, and those that are new or gone."""
        seats = [{seat.core: seat for seat in design.plan.seats} for design in (self.before, self.after)]
        cores = dict.fromkeys([*self.after.app.cores, *self.before.app.cores])
        found = [SeatChange(core, seats[0].get(core), seats[1].get(core)) for core in cores]
        return [one for one in found if place_of(one.before) != place_of(one.after)]

    @property
    def summary(self) -> str:
        """What changed, in a sentence."""
        both = [one for one in self.channels if one.before and one.after]
        elsewhere = sum(one.has_moved for one in both)
        moved = sum(seat.has_moved for seat in self.seats)
        cores = set(self.after.app.cores), set(self.before.app.cores)
        return (
            f"Of {count(len(both), 'channel')} {are(len(self.worse), 'worse')}, {are(len(self.of(Verdict.BETTER)), 'better')}, and "
            f"{are(elsewhere, 'on another path or in other slots')}; {len(self.of(Verdict.NEW)):,} new, "
            f"{len(self.of(Verdict.GONE)):,} gone. Of {count(len(cores[1]), 'core')} {moved:,} moved; "
            f"{len(cores[0] - cores[1]):,} new, {len(cores[1] - cores[0]):,} gone."
        )

    @property
    def nothing(self) -> str:
        """The same where nothing did."""
        cores, channels = count(len(self.after.app.cores), "core"), count(len(self.channels), "channel")
        return f"Nothing changed: {cores} and {channels} are as they were."

    def links(self, uses: Iterable[str]) -> list[LinkChange]:
        """What became of the slots of each link in some use cases."""
        names = list(uses)
        before, after = holders_of(self.before, names), holders_of(self.after, names)
        chip = self.after.chip
        return [
            LinkChange(
                link, cells_of(before[link.number], after[link.number]), most_used(before[link.number]), most_used(after[link.number])
            )
            for link in chip.links
        ]


def wish_of(channel: Channel) -> Wish:
    """What a channel wishes; no words are none, whatever their period."""
    wish = channel.connection.wish(channel.side)
    return wish if wish.words else replace(wish, per=1)


def place_of(seat: Seat | None) -> tuple[str, int] | None:
    return (seat.interface, seat.number) if seat else None


def channel_of(design: Design, name: str, side: str, group: int | None) -> Channel | None:
    """The channel of a connection in a group."""
    if group is None:
        return None
    key = Key(name, side, group)
    return Channel(design.app.connections[name], side, design.grants[key], design.promises[key])


Held = dict[int, set[Holder]]  # by slot


def holders_of(design: Design, uses: Iterable[str]) -> dict[int, Held]:
    """Which channels have which slots of each link, in some use cases."""
    found: dict[int, Held] = defaultdict(lambda: defaultdict(set))
    for use in uses:
        for channel in design.channels(use) if use in design.app.uses else ():
            for passage in passages(design.chip, channel.grant):
                for slot in passage.slots:
                    found[passage.link.number][slot].add(Holder(use, channel.name))
    return found


def cells_of(before: Held, after: Held) -> dict[int, CellChange]:
    """What became of the slots of a link that are in use before or after."""
    cells = {}
    for slot in sorted({*before, *after}):
        old, new = before.get(slot, set()), after.get(slot, set())
        if old == new:
            cells[slot] = CellChange.KEPT
        elif old < new:
            cells[slot] = CellChange.TAKEN
        else:
            cells[slot] = CellChange.FREED if new < old else CellChange.PASSED_ON
    return cells


def most_used(held: Held) -> int:
    """The most slots of a link that are in use in one use case."""
    used: dict[str, int] = defaultdict(int)
    for holders in held.values():
        for holder in holders:
            used[holder.use] += 1
    return max(used.values(), default=0)
