"""Whether any path can lead where a refused channel wishes: from the files of a chip and an application alone."""
from collections.abc import Sequence
from dataclasses import dataclass
from functools import cached_property

from design_files import Application, Chip, Connection
from physical_units import PhysicalUnits, in_time

MOST_LINKS = 8  # of a path


def interfaces_of(core: str, chip: Chip, app: Application) -> tuple[str, ...]:
    """The interfaces where a core may sit."""
    fixed = app.cores[core].interface
    return (fixed,) if fixed else tuple(chip.interfaces)


@dataclass(frozen=True)
class Least:
    """The least number of links from a node to another, none where no links lead there; and the least delay of a path that
    has as many, or as many more as the detour allows; none where these are too many for a path."""

    links: int | None
    delay: int | None = None


class Ways:
    """The least numbers of links and the least delays between the nodes of a chip, each reckoned once."""

    def __init__(self, chip: Chip) -> None:
        self.chip = chip
        self.reached: dict[str, list[dict[str, int]]] = {}
        self.found: dict[tuple[tuple[str, ...], tuple[str, ...]], Least] = {}

    @cached_property
    def onward(self) -> dict[str, dict[str, int]]:
        """From each node the least delay of a link to each node to which one leads."""
        onward: dict[str, dict[str, int]] = {}
        for link in self.chip.links:
            ends = onward.setdefault(link.source, {})
            ends[link.target] = min(link.delay, ends.get(link.target, link.delay))
        return onward

    def delays(self, start: str) -> list[dict[str, int]]:
        """For each number of links, from 1 up to those of a path, the least delay of so many from a start to each node."""
        if start not in self.reached:
            steps = [{start: 0}]
            for _ in range(MOST_LINKS):
                step: dict[str, int] = {}
                for node, delay in steps[-1].items():
                    for end, more in self.onward.get(node, {}).items():
                        step[end] = min(delay + more, step.get(end, delay + more))
                steps.append(step)
            self.reached[start] = steps[1:]
        return self.reached[start]

    def farther(self, start: str, end: str) -> int | None:
        """The least number of links, one or more, from a start to an end, however many they are."""
        edge, seen, count = {start}, set[str](), 0
        while edge and end not in seen:
            count += 1
            edge = {target for node in edge for target in self.onward.get(node, ())} - seen
            seen |= edge
        return count if end in seen else None

    def between(self, start: str, end: str, detour: int) -> Least:
        """What is least from one node to another."""
        steps = self.delays(start)
        least = next((count for count, step in enumerate(steps, 1) if end in step), None)
        if least is None:
            return Least(self.farther(start, end))
        return Least(least, min(step[end] for step in steps[least - 1 : least + detour] if end in step))

    def least(self, starts: tuple[str, ...], ends: tuple[str, ...], detour: int) -> Least:
        """What is least from one of some nodes to one of others."""
        if (starts, ends) not in self.found:
            found = [self.between(start, end, detour) for start in starts for end in ends]
            links = min((one.links for one in found if one.links is not None), default=None)
            delay = min((one.delay for one in found if one.delay is not None), default=None)
            self.found[starts, ends] = Least(links, delay)
        return self.found[starts, ends]


def place_of(core: str, interfaces: Sequence[str]) -> str:
    """Where a core may sit, in words."""
    return f"`{core}` on {interfaces[0]}" if len(interfaces) == 1 else f"any place of `{core}`"


def why_none(ways: Ways, app: Application, connection: Connection, side: str, units: PhysicalUnits | None = None) -> str | None:
    """Why no path suits a channel, whatever slots are free; none where one may. Units tell cycles as a time too."""
    sender, receiver = connection.sender(side), connection.receiver(side)
    starts, ends = (interfaces_of(core, ways.chip, app) for core in (sender, receiver))
    way = f"from {place_of(sender, starts)} to {place_of(receiver, ends)}"
    least = ways.least(starts, ends, app.detour)
    if least.links is None:
        return f"No links lead {way}. The chip needs more links, or a core another interface: more slots don't help."
    if least.links > MOST_LINKS:
        return (
            f"A path {way} has at least {least.links} links, and {MOST_LINKS} are allowed. The chip needs shorter ways, or a "
            "core another interface: more slots don't help."
        )
    latency = connection.wish(side).latency
    if least.delay is not None and latency < least.delay:
        return (
            f"It wishes a latency of {latency}{in_time(latency, units)}, and the quickest path {way} takes {least.delay} "
            f"cycles{in_time(least.delay, units)}. It needs a greater latency, or a shorter way: more slots don't help."
        )
    return None
