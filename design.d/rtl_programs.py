"""What the memories of the hardware hold: the writes that load a use case and that switch to another one, and the rows of
routers' tables. Their layout is that of `write_t` and `row_t` in rtl/aeth_types.svh."""
from collections.abc import Iterable, Iterator, Mapping
from typing import TypeAlias

from rtl_tables import SIDES, Ends, Network, Way
from run_texts import Switching

CLEAR_SLOT, SET_SLOT, CLEAR_ROUTE, SET_ROUTE = range(4)
KINDS = ("clear slot", "set slot", "clear route", "set route")

# The widths of the fields, the first one highest.
WRITE = {"kind": 2, "ni": 6, "slot": 7, "number": 5, "route": 21, "remote": 5, "credits": 16}
ROW = {"use_case": 4, "router": 6, "slot": 7, "entries": 32}
ENTRY_BITS = 4  # of a port: whether it is in use, and the place of an incoming link
IN_USE = 8

Write: TypeAlias = tuple[int, str]  # a number, and what it does in words


def packed(layout: Mapping[str, int], **fields: int) -> int:
    """A number of these fields, of which those that aren't named are 0."""
    number = 0
    for name, width in layout.items():
        value = fields.get(name, 0)
        assert 0 <= value < 2**width, (name, value)
        number = number << width | value
    return number


class Programs:
    """The writes of a network's use cases and switches."""

    def __init__(self, network: Network) -> None:
        self.network = network
        self.numbers = {name: number for number, name in enumerate(network.chip.interfaces)}

    def write(self, kind: int, channel: Ends, way: Way, **fields: int) -> Write:
        """A write, and what it does in words."""
        number = packed(WRITE, kind=kind, ni=self.numbers[way.interface], number=way.queue, **fields)
        slot = f" {fields['slot']}" if "slot" in fields else ""
        return number, f"{KINDS[kind]}{slot} of {way.interface}, queue {way.queue}: {' '.join(channel)}"

    def channels(self, connections: Iterable[str]) -> list[Ends]:
        return [(name, side) for name in self.network.connections if name in connections for side in SIDES]

    def opening(self, connections: Iterable[str], use: str) -> Iterator[Write]:
        """Of each channel its route and then its slots."""
        for channel in self.channels(connections):
            way = self.network.ways[use][channel]
            yield self.write(SET_ROUTE, channel, way, route=way.route, remote=way.remote, credits=way.credits)
            yield from (self.write(SET_SLOT, channel, way, slot=slot) for slot in way.slots)

    def closing(self, connections: Iterable[str], use: str) -> Iterator[Write]:
        """Of each channel its slots and then its route."""
        for channel in self.channels(connections):
            way = self.network.ways[use][channel]
            yield from (self.write(CLEAR_SLOT, channel, way, slot=slot) for slot in way.slots)
            yield self.write(CLEAR_ROUTE, channel, way)

    def load(self, use: str) -> list[Write]:
        """The writes that load a use case into empty tables."""
        return list(self.opening({connection for connection, _ in self.network.ways[use]}, use))

    def switch(self, old: str, new: str, switching: Switching) -> list[Write]:
        """The writes of a switch: those that close channels come first."""
        closing, opening = switching.left(old, new), switching.left(new, old)
        return [*self.closing(closing, old), *self.opening(opening, new)]


def rows_of_routers(network: Network) -> list[int]:
    """The rows of all routers' tables that have entries."""
    arriving = [network.arriving(name) for name in network.chip.routers]
    rows: dict[tuple[int, int, int], int] = {}
    for use, hops in network.hops.items():
        for router, port, slot, link in (map(int, fields) for fields in hops):
            entry = IN_USE | arriving[router].index(link)
            place = network.uses.index(use), router, slot
            rows[place] = rows.get(place, 0) | entry << ENTRY_BITS * port
    return [
        packed(ROW, use_case=use, router=router, slot=slot, entries=entries)
        for (use, router, slot), entries in sorted(rows.items())
    ]
