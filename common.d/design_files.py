"""Chips and applications as they stand in files that `aeth` accepts: what they have, by names. Nothing is judged here."""
from dataclasses import dataclass
from functools import cached_property, lru_cache

from ending import UNTOLD, Stop
from toml_lines import Lines, TomlError, Tree, read

MOST_KEPT = 4  # files of which it is kept what they say: those of two designs


@dataclass(frozen=True)
class Link:
    """A link of a chip: it leads from a node to a node, and a flit takes `delay` cycles on it."""

    number: int
    source: str
    target: str
    delay: int


@dataclass(frozen=True)
class Chip:
    """A chip, with its names in file order."""

    slots: int
    routers: list[str]
    interfaces: list[str]
    links: list[Link]

    @cached_property
    def routers_by_interface(self) -> dict[str, str]:
        """The router of each interface."""
        interfaces = set(self.interfaces)
        return {link.source: link.target for link in self.links if link.source in interfaces}

    def delay_of(self, path: tuple[int, ...]) -> int:
        """The cycles that a flit takes over the links of a path."""
        return sum(self.links[number].delay for number in path)


@dataclass(frozen=True)
class Wish:
    """What a channel wishes: `words` in each `per` cycles, each landed within `latency` cycles and taken `delay` later."""

    words: int
    per: int
    latency: int
    delay: int


@dataclass(frozen=True)
class Core:
    """A core, with the interface to which it is fixed, if it is."""

    name: str
    interface: str | None


@dataclass(frozen=True)
class Connection:
    """A connection from a core to a core, with the wishes of its two channels."""

    name: str
    source: str
    target: str
    fwd: Wish
    back: Wish

    def wish(self, side: str) -> Wish:
        return self.fwd if side == "fwd" else self.back

    def sender(self, side: str) -> str:
        """The core from which the channel of a side leads."""
        return self.source if side == "fwd" else self.target

    def receiver(self, side: str) -> str:
        return self.target if side == "fwd" else self.source


@dataclass(frozen=True)
class UseCase:
    """A use case: the connections that run in it, and the use cases with which a switch is smooth."""

    name: str
    connections: list[str]
    smooth: frozenset[str]


@dataclass(frozen=True)
class Application:
    """An application, with its names in file order."""

    detour: int
    cost: str
    cores: dict[str, Core]
    connections: dict[str, Connection]
    uses: dict[str, UseCase]

    @cached_property
    def groups(self) -> dict[str, int]:
        """The number of each use case's group. Smooth pairs join use cases; groups count from 0 by their first one."""
        first = {name: number for number, name in enumerate(self.uses)}
        pairs = [(use.name, other) for use in self.uses.values() for other in use.smooth]
        for _ in self.uses:
            for one, other in pairs:
                first[one] = first[other] = min(first[one], first[other])
        numbers = {number: place for place, number in enumerate(sorted(set(first.values())))}
        return {name: numbers[number] for name, number in first.items()}

    def uses_of(self, group: int) -> list[str]:
        """The names of the use cases of a group."""
        return [name for name, number in self.groups.items() if number == group]

    def is_in(self, connection: str, use: str) -> bool:
        """Whether a connection runs in a use case."""
        return connection in self.members[use]

    @cached_property
    def members(self) -> dict[str, frozenset[str]]:
        """The connections of each use case."""
        return {name: frozenset(use.connections) for name, use in self.uses.items()}


def chip_of(tree: Tree) -> Chip:
    """The chip of a tree of TOML."""
    links = [Link(number, link["from"], link["to"], link.get("delay", 1)) for number, link in enumerate(tree["link"])]
    return Chip(tree["slots"], tree["routers"], tree["nis"], links)


def wish_of(tree: Tree) -> Wish:
    return Wish(tree["words"], tree["per"], tree["latency"], tree["delay"])


def application_of(tree: Tree) -> Application:
    """The application of a tree of TOML."""
    cores = [Core(core["name"], core.get("ni")) for core in tree["core"]]
    connections = [
        Connection(one["name"], one["from"], one["to"], wish_of(one["fwd"]), wish_of(one["back"])) for one in tree["connection"]
    ]
    uses = [UseCase(use["name"], use["connections"], frozenset(use.get("smooth", ()))) for use in tree["use"]]
    return Application(
        tree["detour"],
        tree.get("cost", "hops"),
        {core.name: core for core in cores},
        {connection.name: connection for connection in connections},
        {use.name: use for use in uses},
    )


@lru_cache(MOST_KEPT)
def read_once(data: bytes) -> tuple[Tree, Lines]:
    """The tree of a file's bytes and the lines of its keys, read once however often they are asked for. Nothing changes them."""
    return read(data)


def tree_of(data: bytes) -> Tree:
    """The tree of a file that `aeth` accepts."""
    try:
        return read_once(data)[0]
    except TomlError as error:
        raise Stop(UNTOLD, f"a file that `aeth` accepts can't be read here: {error}") from error


@lru_cache(MOST_KEPT)
def read_chip(data: bytes) -> Chip:
    return chip_of(tree_of(data))


@lru_cache(MOST_KEPT)
def read_application(data: bytes) -> Application:
    return application_of(tree_of(data))
