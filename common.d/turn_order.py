"""Whose turn comes when in an allocation, by the rules on turns, from what `aeth` says of needs and of refused units."""
from collections import defaultdict
from collections.abc import Collection, Iterable
from typing import NamedTuple
import heapq

from design_files import Application
from plan_texts import Need


class Unit(NamedTuple):
    """A connection in a group of use cases."""

    connection: str
    group: int


def turns_of(app: Application, needs: Iterable[Need], refused: Collection[Unit]) -> dict[Unit, int]:
    """The turn of each unit, from 1 on. Units with a seated core come first, then those with greater needs, with the lesser
    wish for latency, and those that stand earlier in the file."""
    numbers = {name: number for number, name in enumerate(app.connections)}
    sums = {need.connection: need.fwd + need.back for need in needs}
    least = {name: min(one.fwd.latency, one.back.latency) for name, one in app.connections.items()}
    units = sorted(
        {Unit(name, app.groups[use]) for use, names in app.members.items() for name in names},
        key=lambda unit: (-sums[unit.connection], least[unit.connection], numbers[unit.connection], unit.group),
    )
    at_core: dict[str, list[int]] = defaultdict(list)
    for place, unit in enumerate(units):
        for core in cores_of(app, unit):
            at_core[core].append(place)
    ready: list[int] = []
    seated: set[str] = set()

    def seat(core: str) -> None:
        if core not in seated:
            seated.add(core)
            for place in at_core[core]:
                heapq.heappush(ready, place)

    for fixed in app.cores.values():
        if fixed.interface is not None:
            seat(fixed.name)
    turns: dict[Unit, int] = {}
    waiting = iter(range(len(units)))
    while len(turns) < len(units):
        place = heapq.heappop(ready) if ready else next(waiting)
        unit = units[place]
        if unit not in turns:
            turns[unit] = len(turns) + 1
            for core in cores_of(app, unit) if unit not in refused else ():
                seat(core)
    return turns


def cores_of(app: Application, unit: Unit) -> tuple[str, str]:
    connection = app.connections[unit.connection]
    return connection.source, connection.target
