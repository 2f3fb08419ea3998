"""Owns a run, as its picture needs it: the log that `aeth simulate` prints, and what the log doesn't tell: when the switches
of its use cases fall, which words haven't landed, with the cycles by which they were due, and until when each session's
promise holds.

The files are read only after `aeth` has accepted them, so nothing is judged here.
"""
from bisect import bisect_left
from collections import defaultdict
from collections.abc import Iterator, Sequence
from dataclasses import dataclass
from typing import NamedTuple, TypeAlias

from design import SIDES, Design, Key, Promise
from design_files import Link
from physical_units import PhysicalUnits
from program import Input
from run_texts import SessionLog, Switch, Switching, read_log, read_receivers, read_switches, rows_behind_header
from sessions import ChannelLog, Receiver, Session, Word

Ends: TypeAlias = tuple[str, str]  # a connection and a side


@dataclass(frozen=True)
class RunFiles:
    """The files of a run, beside those of its design."""

    words: Input
    receivers: Input
    switches: Input


@dataclass(frozen=True)
class Run:
    """All that a picture of a run is drawn from."""

    cycles: int
    links: list[Link]
    flits: list[int]  # by link
    channels: list[ChannelLog]  # in the order of the log
    switches: list[Switch]
    units: PhysicalUnits | None = None  # in which times are told too


class Offers:
    """The rows of words of a run, in the order of their cycles."""

    def __init__(self, data: bytes) -> None:
        """A file without quotes and carriage returns has a row in each line, of which few need to be taken apart."""
        text = "" if b'"' in data or b"\r" in data else data.decode("utf-8", "replace")
        self.lines = list(filter(None, text.split("\n")))[1:]
        self.rows = [] if text else list(rows_behind_header(data))

    def since(self, cycle: int) -> Iterator[list[str]]:
        """The rows from a cycle on."""
        if self.rows:
            return (row for row in self.rows if int(row[2]) >= cycle)
        first = bisect_left(self.lines, cycle, key=lambda line: int(line.split(",")[2]))
        return (line.split(",") for line in self.lines[first:])


def receivers_of(data: bytes, cycles: int) -> dict[Ends, Receiver]:
    """How much the receivers take of those channels that have rows."""
    receivers: dict[Ends, Receiver] = defaultdict(Receiver)
    for row in read_receivers(data, cycles):
        receiver = receivers[row.connection, row.side]
        receiver.cycles.append(row.cycle)
        receiver.pulls.append(row.pull)
    return receivers


def due_cycles(offers: Sequence[int], behind: Sequence[int], promise: Promise, slots: int) -> list[int]:
    """The cycles by which the last words of a session are due, `behind` those that were offered before: when a steady server
    of the channel's rate would be done with them, and its latency later."""
    times, last, rate, latency = [], 0, promise.rate, promise.latency
    for offer in offers:
        last = max(rate * (offer + latency), last) + slots
    for offer in behind:
        last = max(rate * (offer + latency), last) + slots
        times.append(-(-last // rate))
    return times


class Closing(NamedTuple):
    """A switch that closes a connection: its cycle, from which on no word is accepted, the cycle from which on none is sent,
    and the one in which what it closes is finished."""

    cycle: int
    stop: int
    finish: int


def closings_of(switches: Sequence[Switch]) -> dict[str, list[Closing]]:
    """For each connection the switches that close it."""
    closings: dict[str, list[Closing]] = defaultdict(list)
    for switch in switches:
        for connection in switch.closing:
            closings[connection].append(Closing(switch.cycle, switch.cycle + switch.drain, switch.finish))
    return closings


class Reading:
    """The log of a run, as it is read session by session, with all that it is told beside."""

    def __init__(self, design: Design, cycles: int, switches: list[Switch], receivers: dict[Ends, Receiver]) -> None:
        self.design, self.cycles, self.switches, self.receivers = design, cycles, switches, receivers
        self.closings = closings_of(switches)
        self.opened = [switch.over for switch in switches]

    def session(self, log: SessionLog) -> Session:
        """A session of the log. The first switch that closes its connection behind its beginning ends it, and its promise
        ends with the landing of the last flit that it may send then."""
        app, closing = self.design.app, self.closing(log.connection, log.go)
        group = app.groups[self.switches[bisect_left(self.opened, log.go)].use]
        key = Key(log.connection, log.side, group)
        length = self.design.chip.delay_of(self.design.grants[key].links)
        last = closing.stop + length if closing else self.cycles
        return Session(
            log,
            end=min(closing.finish, self.cycles) if closing else self.cycles,
            last=min(last, self.cycles),
            promise=self.design.promises[key],
            group=group,
            delay=app.connections[log.connection].wish(log.side).delay,
            receiver=self.receivers.get((log.connection, log.side), Receiver()),
        )

    def closing(self, connection: str, go: int) -> Closing | None:
        """The first switch that closes a connection from a cycle on."""
        closings = self.closings[connection]
        place = bisect_left(closings, Closing(go, 0, 0))
        return closings[place] if place < len(closings) else None

    def add_waiting(self, channels: dict[Ends, ChannelLog], data: bytes) -> None:
        """Adds to each session the words that were offered in it and haven't landed."""
        open_: dict[Ends, list[Session]] = {}
        for ends, channel in channels.items():
            sessions = [session for session in channel.sessions if session.log.offered > session.log.landed]
            if sessions:
                open_[ends] = sessions
        if not open_:
            return
        since = min(last_offer(session) for sessions in open_.values() for session in sessions)
        offers: dict[Ends, list[int]] = {ends: [] for ends in open_}
        for row in Offers(data).since(since):
            own = offers.get((row[0], row[1]))
            if own is not None:
                own.append(int(row[2]))
        for ends, sessions in open_.items():
            for session in sessions:
                self.add_words(session, offers[ends])

    def add_words(self, session: Session, offers: list[int]) -> None:
        """Adds to a session the words that haven't landed, of the last offers of its channel, which begin with the cycle of
        its last landed word or before."""
        log, since = session.log, last_offer(session)
        of_landed = len(log.offers) - bisect_left(log.offers, since)  # of the words of that cycle those that landed
        first = bisect_left(offers, since) + of_landed
        behind = offers[first : first + log.offered - log.landed]
        dues = due_cycles(log.offers, behind, session.promise, self.design.chip.slots)
        session.waiting = [Word(*word) for word in zip(behind, dues)]


def last_offer(session: Session) -> int:
    """The cycle from which on the words of a session that haven't landed were offered."""
    return session.log.offers[-1] if session.log.offers else session.log.go


def read_run(design: Design, files: RunFiles, cycles: int, text: str) -> Run:
    """The run of a design, of its files and of the text that `aeth simulate` prints of them."""
    switches = Switching(design.chip, design.app, design.plan).all_of(read_switches(files.switches.data, cycles))
    reading = Reading(design, cycles, switches, receivers_of(files.receivers.data, cycles))
    log = read_log(text)
    channels: dict[Ends, ChannelLog] = {}
    for name in design.app.connections:
        for side in SIDES:
            channels[name, side] = ChannelLog(name, side, outside=log.outside.get((name, side), 0))
    for session in log.sessions:
        channels[session.connection, session.side].sessions.append(reading.session(session))
    channels = {ends: channel for ends, channel in channels.items() if channel.sessions or channel.outside}
    reading.add_waiting(channels, files.words.data)
    return Run(cycles, design.chip.links, log.flits, list(channels.values()), switches, design.units)
