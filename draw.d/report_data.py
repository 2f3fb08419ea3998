"""Owns what a report tells of each channel: what it wishes, what it is guaranteed, and how near the worst word of a run came
to its guarantee.
"""
from collections import defaultdict
from collections.abc import Iterable
from dataclasses import dataclass, field
from operator import sub, truediv
from statistics import median

from design import SIDES, Design, Key
from design_files import Application, Wish
from plan_texts import RefusedUnit
from runs import Run
from sessions import Session


@dataclass
class Line:
    """A channel in a group of use cases."""

    key: Key
    uses: list[str]  # of the group, those that have the connection
    sender: str
    receiver: str
    wish: Wish
    slots: int  # of the table
    refused: RefusedUnit | None = None
    rate: int | None = None  # words per table; none where the plan isn't there
    latency: int | None = None
    buffer: int | None = None
    links: int | None = None
    sessions: list[Session] = field(default_factory=list)  # of a run

    @property
    def name(self) -> str:
        return f"{self.key.connection} {self.key.side}"

    @property
    def wished_rate(self) -> float:
        """Words in 1,000 cycles."""
        return 1000 * self.wish.words / self.wish.per

    @property
    def granted_rate(self) -> float | None:
        return None if self.rate is None else 1000 * self.rate / self.slots

    @property
    def offered(self) -> int:
        return sum(session.log.offered for session in self.sessions)

    @property
    def landed(self) -> int:
        return sum(session.log.landed for session in self.sessions)

    @property
    def late(self) -> int:
        return sum(session.late for session in self.sessions)

    @property
    def overdue(self) -> int:
        """Words that hadn't landed when they were due."""
        return sum(len(session.overdue) for session in self.sessions)

    @property
    def failed(self) -> int:
        """Words that were late or overdue against a promise."""
        return sum(session.failed for session in self.sessions)

    @property
    def broken(self) -> int | None:
        """The first cycle with which a promise ends since the receiver hasn't kept its delay."""
        return min((session.broken for session in self.sessions if session.broken is not None), default=None)

    @property
    def dropped(self) -> int:
        return sum(session.unlanded + session.untaken for session in self.sessions)

    @property
    def worst(self) -> int | None:
        """Cycles from offer to landing of the slowest word."""
        return max((max(session.waits) for session in self.sessions if session.waits), default=None)

    @property
    def middle(self) -> float | None:
        waits = [wait for session in self.sessions for wait in session.waits]
        return median(waits) if waits else None

    @property
    def nearest(self) -> float | None:
        """The greatest share of the time up to its due cycle that a word took."""
        shares = (
            max(map(truediv, session.waits, map(sub, session.log.dues, session.log.offers)))
            for session in self.sessions if session.waits
        )
        return max(shares, default=None)


def lines_of(app: Application, slots: int) -> dict[Key, Line]:
    """A line for each channel and group, by connection, side and group."""
    uses: dict[tuple[str, int], list[str]] = defaultdict(list)
    for use in app.uses.values():
        for name in use.connections:
            uses[name, app.groups[use.name]].append(use.name)
    groups: dict[str, list[int]] = defaultdict(list)
    for name, group in uses:
        groups[name].append(group)
    lines = {}
    for connection in app.connections.values():
        for side in SIDES:
            for group in sorted(groups[connection.name]):
                key = Key(connection.name, side, group)
                lines[key] = Line(
                    key, uses[connection.name, group], connection.sender(side), connection.receiver(side),
                    connection.wish(side), slots,
                )
    return lines


def add_promises(lines: dict[Key, Line], design: Design) -> None:
    """What the tables of a plan guarantee, and how many links each path has."""
    for key, promise in design.promises.items():
        line = lines[key]
        line.rate, line.latency, line.buffer = promise.rate, promise.latency, promise.buffer
        line.links = len(design.grants[key].links)


def add_refusals(lines: dict[Key, Line], units: Iterable[RefusedUnit]) -> None:
    """Which units are refused: both sides of each."""
    for unit in units:
        for side in SIDES:
            lines[Key(unit.connection, side, unit.group)].refused = unit


def add_run(lines: dict[Key, Line], run: Run) -> None:
    """What a run showed of each channel, by the group of the use case by which its session went."""
    for channel in run.channels:
        for session in channel.sessions:
            lines[Key(channel.connection, channel.side, session.group)].sessions.append(session)
