"""Owns a design as the pictures need it: the channels of each use case with their grants and what they are guaranteed, and
the number and the colour of each connection, which are the same in all use cases.

The files are read only after `aeth` has accepted them, so nothing is judged here.
"""
from collections import Counter, defaultdict
from collections.abc import Iterable, Iterator, Sequence
from dataclasses import dataclass, field
from functools import cached_property
from typing import NamedTuple

from design_files import Application, Chip, Connection, Link
from physical_units import PhysicalUnits
from plan_texts import Grant, Plan, read_queues

SIDES = ("fwd", "back")
COLOURS = 8


class Key(NamedTuple):
    """A channel in a group of use cases."""

    connection: str
    side: str
    group: int


@dataclass(frozen=True)
class Promise:
    """What `tables` tells of a channel: words in each round of the table, cycles, and words that its receiver has room for."""

    rate: int
    latency: int
    buffer: int


@dataclass(frozen=True)
class Channel:
    """One side of a connection in a use case: its grant, and what it is guaranteed."""

    connection: Connection
    side: str
    grant: Grant
    promise: Promise

    @property
    def name(self) -> str:
        return f"{self.connection.name} {self.side}"

    @property
    def sender(self) -> str:
        return self.connection.sender(self.side)

    @property
    def receiver(self) -> str:
        return self.connection.receiver(self.side)

    def nodes(self, links: Sequence[Link]) -> list[str]:
        """The nodes of its path, from the sender's interface to the receiver's."""
        return [links[self.grant.links[0]].source] + [links[number].target for number in self.grant.links]


@dataclass(frozen=True)
class Passage:
    """A link of a channel's path, with the slots in which the channel's flits enter it."""

    link: Link
    slots: list[int]


def passages(chip: Chip, grant: Grant) -> Iterator[Passage]:
    """The links of a grant's path, from the sender on."""
    offset = 0
    for number in grant.links:
        link = chip.links[number]
        yield Passage(link, [(start + offset) % chip.slots for start in grant.starts])
        offset += link.delay


@dataclass(frozen=True)
class Design:
    """A chip, an application and an accepted plan, with what each channel is guaranteed in each group."""

    chip: Chip
    app: Application
    plan: Plan
    promises: dict[Key, Promise] = field(default_factory=dict)
    units: PhysicalUnits | None = None  # in which rates and times are told too

    def channels(self, use: str) -> list[Channel]:
        """The channels of a use case, in the order of the plan."""
        group, members = self.app.groups[use], self.app.members[use]
        return [
            Channel(self.app.connections[grant.connection], grant.side, grant, self.promises[key_of(grant)])
            for grant in self.plan.grants if grant.group == group and grant.connection in members
        ]

    @cached_property
    def grants(self) -> dict[Key, Grant]:
        return {key_of(grant): grant for grant in self.plan.grants}

    @cached_property
    def numbers(self) -> dict[str, int]:
        return numbers_of(self.app)

    @cached_property
    def colours(self) -> dict[str, int]:
        """A colour for each connection, the same in all use cases."""
        return colours_of(self.plan.grants, self.app)


def key_of(grant: Grant) -> Key:
    return Key(grant.connection, grant.side, grant.group)


def numbers_of(app: Application) -> dict[str, int]:
    """The number of each connection, from 0 on in file order."""
    return {name: number for number, name in enumerate(app.connections)}


def together_in(app: Application) -> dict[int, dict[str, set[str]]]:
    """Of each group the connections that some use case has together with each one of it."""
    found: dict[int, dict[str, set[str]]] = defaultdict(lambda: defaultdict(set))
    for use, connections in app.members.items():
        for connection in connections:
            found[app.groups[use]][connection] |= connections
    return found


def colours_of(grants: Iterable[Grant], app: Application) -> dict[str, int]:
    """A colour for each connection with a grant: of those that share most links with others in a use case first, the colour
    that is met least."""
    on_link: dict[tuple[int, int], set[str]] = defaultdict(set)
    names: dict[str, None] = {}
    for grant in grants:
        names[grant.connection] = None
        for number in grant.links:
            on_link[grant.group, number].add(grant.connection)
    together = together_in(app)
    met: dict[str, Counter[str]] = defaultdict(Counter)
    for (group, _), connections in on_link.items():
        for connection in connections:
            met[connection].update((connections & together[group][connection]) - {connection})
    colours: dict[str, int] = {}
    taken: Counter[int] = Counter()
    for name in sorted(names, key=lambda name: -met[name].total()):
        clashes: Counter[int] = Counter()
        for other, times in met[name].items():
            if other in colours:
                clashes[colours[other]] += times
        colours[name] = min(range(COLOURS), key=lambda colour: (clashes[colour], taken[colour], colour))
        taken[colours[name]] += 1
    return colours


def used_slots(chip: Chip, grants: Iterable[Grant]) -> list[int]:
    """How many slots of each link some grants take."""
    used = [0] * len(chip.links)
    for grant in grants:
        for number in grant.links:
            used[number] += len(grant.starts)
    return used


def promises_in(tables: str, group: int) -> dict[Key, Promise]:
    """What the text of `tables` in a use case of a group guarantees."""
    return {
        Key(queue.connection, queue.side, group): Promise(queue.rate, queue.latency, queue.credits)
        for queue in read_queues(tables)
    }


def uses_for_all(app: Application) -> list[str]:
    """Use cases that have each connection of their group among them, few of them: their tables tell of all channels."""
    wanted = {(app.groups[use], name) for use, names in app.members.items() for name in names}
    found: list[str] = []
    while wanted:
        use = max(app.uses, key=lambda use: sum((app.groups[use], name) in wanted for name in app.members[use]))
        found.append(use)
        wanted -= {(app.groups[use], name) for name in app.members[use]}
    return found
