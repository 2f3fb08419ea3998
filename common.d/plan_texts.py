"""Texts that `aeth` prints of a design: plans, the tables of interfaces, needs and refused units, by names.

`aeth` has accepted or printed each of them, so nothing is judged here.
"""
from dataclasses import dataclass
from typing import NamedTuple


def numbers_of(text: str) -> tuple[int, ...]:
    """The numbers of a list with commas."""
    return tuple(map(int, text.split(",")))


def lines_of(text: str) -> list[str]:
    """The lines of a text: line feeds alone end one."""
    return text.removesuffix("\n").split("\n") if text else []


def rows_of(text: str, word: str) -> list[list[str]]:
    """The fields after `word` of the lines that begin with it."""
    start = word + " "
    return [line.split(" ")[1:] for line in lines_of(text) if line.startswith(start)]


class Seat(NamedTuple):
    """A line `seat` of a plan: the place of a core at an interface. Lines count from 1."""

    line: int
    core: str
    interface: str
    number: int


class Grant(NamedTuple):
    """A line `grant` of a plan: the path of a channel, and the slots in which its flits enter the first link."""

    line: int
    connection: str
    group: int
    side: str
    links: tuple[int, ...]
    starts: tuple[int, ...]


@dataclass(frozen=True)
class Plan:
    """A plan, in the order of its lines."""

    slots: int
    seats: list[Seat]
    grants: list[Grant]

    def interface_of(self) -> dict[str, str]:
        """The interface of each core that has a seat."""
        return {seat.core: seat.interface for seat in self.seats}

    def cores_at(self) -> dict[str, list[str]]:
        """The cores at each interface that has some, in the order of their seats."""
        cores: dict[str, list[str]] = {}
        for seat in sorted(self.seats, key=lambda seat: seat.number):
            cores.setdefault(seat.interface, []).append(seat.core)
        return cores


def seat_of(line: int, text: str) -> Seat:
    _, core, interface, number = text.split(" ")
    return Seat(line, core, interface, int(number))


def grant_of(line: int, text: str) -> Grant:
    _, connection, group, side, links, starts = text.split(" ")
    return Grant(line, connection, int(group), side, numbers_of(links), numbers_of(starts))


def read_plan(data: bytes) -> Plan:
    """The plan of a text that `aeth` reads."""
    lines = lines_of(data.decode("ascii"))
    numbered = list(enumerate(lines, 1))
    seats = [seat_of(number, line) for number, line in numbered if line.startswith("seat ")]
    grants = [grant_of(number, line) for number, line in numbered if line.startswith("grant ")]
    return Plan(int(lines[0].split(" ")[2]), seats, grants)


class Queue(NamedTuple):
    """A line `queue` of tables: a channel of a use case, with what it is guaranteed."""

    interface: str
    number: int
    route: int
    remote: int
    credits: int  # words that the receiver has room for at first
    connection: str
    side: str
    rate: int  # words per slot table
    latency: int  # cycles


def read_queues(text: str) -> list[Queue]:
    """The channels of a use case, of the text that `aeth tables` prints of it."""
    return [
        Queue(interface, int(number), int(route), int(remote), int(credits_), connection, side, int(rate), int(latency))
        for interface, number, route, remote, credits_, connection, side, rate, latency in rows_of(text, "queue")
    ]


class Need(NamedTuple):
    """A line `need` of `aeth app`: the slots that a connection's channels need of a table."""

    connection: str
    fwd: int
    back: int


def read_needs(text: str) -> list[Need]:
    return [Need(connection, int(fwd), int(back)) for connection, fwd, back in rows_of(text, "need")]


class RefusedUnit(NamedTuple):
    """A unit that `allocate` refuses: a connection in a group of use cases, whose channel `side` has no candidate."""

    connection: str
    group: int
    side: str
    turn: int  # from 1 on


def read_refused(errors: str) -> list[RefusedUnit]:
    """The refused units among the lines that `aeth allocate` writes to standard error."""
    found = [line.split(" ")[2:] for line in errors.splitlines() if line.startswith("refused unit ")]
    return [RefusedUnit(connection, int(group), side, int(turn)) for connection, group, side, turn in found]
