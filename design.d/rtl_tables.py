"""A network as hardware: which queues of which interfaces are in use, and what its tables hold, read from what
`aeth tables` and `aeth route-tables` print."""
from argparse import Namespace
from collections.abc import Mapping
from dataclasses import dataclass
from functools import cached_property
from typing import TypeAlias

from design_files import Application, Chip
from files import Files, judged
from plan_texts import Plan, read_plan, read_queues, rows_of
from program import Input, text_of
from shapes import Refused

SIDES = ("fwd", "back")

Ends: TypeAlias = tuple[str, str]  # a connection and a side


@dataclass(frozen=True)
class Way:
    """A channel in a use case: where it is sent from, its slots, and where its words go."""

    interface: str
    queue: int
    route: int
    remote: int  # the number of the queue in which its words land
    credits: int  # the words that this one has room for
    slots: tuple[int, ...]


@dataclass(frozen=True)
class Queue:
    """A queue number of an interface that is in use: the channel that it sends and the one that lands in it, over all use
    cases."""

    number: int
    sends: Ends
    receives: Ends
    room: int  # for words that land
    remote_room: int  # at the other end


@dataclass(frozen=True)
class Network:
    """All that the hardware is made from."""

    files: Files
    plan_file: Input
    ways: Mapping[str, Mapping[Ends, Way]]  # by use case
    hops: Mapping[str, list[list[str]]]  # by use case the lines of routers' tables; none where routers read headers
    has_tables: bool

    @property
    def chip(self) -> Chip:
        return self.files.chip

    @property
    def app(self) -> Application:
        return self.files.app

    @cached_property
    def plan(self) -> Plan:
        return read_plan(self.plan_file.data)

    @cached_property
    def uses(self) -> list[str]:
        return list(self.app.uses)

    @cached_property
    def connections(self) -> list[str]:
        """The connections that any use case has, in file order."""
        used = {connection for ways in self.ways.values() for connection, _ in ways}
        return [name for name in self.app.connections if name in used]

    @cached_property
    def channels(self) -> list[Ends]:
        return [(connection, side) for connection in self.connections for side in SIDES]

    @cached_property
    def queues(self) -> dict[str, list[Queue]]:
        """The queues in use of each interface that has some, in the order of their numbers."""
        return queues_of(self.ways)

    def arriving(self, node: str) -> list[int]:
        """The numbers of the links that lead to a node."""
        return [link.number for link in self.chip.links if link.target == node]

    def sending(self, node: str) -> list[int]:
        """Those of the links that lead from it: a router's ports."""
        return [link.number for link in self.chip.links if link.source == node]


def ways_of(text: str) -> dict[Ends, Way]:
    """The channels of a use case, from the text of its tables."""
    slots: dict[tuple[str, int], list[int]] = {}
    for interface, slot, number in rows_of(text, "entry"):
        slots.setdefault((interface, int(number)), []).append(int(slot))
    return {
        (queue.connection, queue.side): Way(
            queue.interface, queue.number, queue.route, queue.remote, queue.credits,
            tuple(slots[queue.interface, queue.number]))
        for queue in read_queues(text)
    }


def other(channel: Ends) -> Ends:
    connection, side = channel
    return connection, SIDES[1 - SIDES.index(side)]


def queues_of(ways: Mapping[str, Mapping[Ends, Way]]) -> dict[str, list[Queue]]:
    """By interface the queues that are in use in any use case, each with the greatest rooms that it is given."""
    rooms: dict[Ends, int] = {}
    places: dict[Ends, tuple[str, int]] = {}
    for of_use in ways.values():
        for channel, way in of_use.items():
            rooms[channel] = max(way.credits, rooms.get(channel, 0))
            places[channel] = way.interface, way.queue
    found: dict[str, list[Queue]] = {}
    for channel, (interface, number) in places.items():
        lands = other(channel)
        found.setdefault(interface, []).append(Queue(number, channel, lands, rooms[lands], rooms[channel]))
    return {interface: sorted(queues, key=lambda queue: queue.number) for interface, queues in found.items()}


def network_of(files: Files, plan: Input, routers: str) -> Network:
    """The network of files that `aeth` accepts, and of a plan, which it judges: with routers that have tables or read headers."""
    design = files.chip_file, files.app_file, plan
    text_of("check", *design)
    uses, has_tables = list(files.app.uses), routers == "tables"
    ways = {use: ways_of(text_of("tables", *design, use)) for use in uses}
    hops = {use: rows_of(text_of("route-tables", *design, use), "hop") for use in uses if has_tables}
    network = Network(files, plan, ways, hops, has_tables)
    if not network.channels:
        raise Refused("no use case has a connection: there is no hardware to make")
    return network


def read_network(given: Namespace) -> Network:
    """The network of the files that words name."""
    return network_of(judged(given.chip, given.app), Input(given.plan), given.routers)
