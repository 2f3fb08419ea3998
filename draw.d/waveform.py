"""Owns what the links of a run carry, as a Value Change Dump, which viewers of waveforms read.

Each link is a scope with the fields of the flit that enters it, and a unit of time is a flit cycle. The name of a flit's
channel is a string, which is an extension of the format by GTKWave.
"""
from collections import Counter
from collections.abc import Iterable, Iterator, Mapping, Sequence
from itertools import groupby
from typing import NamedTuple, TypeAlias

from design import SIDES
from design_files import Application, Chip, Link
from plan_texts import Plan
from run_texts import FlitRow


class Field(NamedTuple):
    """A field of a flit, and how many bits it has."""

    name: str
    width: int


Values: TypeAlias = tuple[str, ...]  # of the signals of a link, each as it stands before the signal's identifier

HEADER = (Field("route", 21), Field("queue", 5), Field("credits", 4), Field("count", 2))  # from the lowest bit on
WORDS = (Field("first", 32), Field("second", 32))
PORT_BITS = 3  # of a route, for each router
QUEUES_OF_SEAT = 8
LETTERS = 94  # of which identifiers are made, from `!` on

# The values of a link without a flit: nothing drives its fields.
EMPTY: Values = ("0", *["bz "] * len(HEADER + WORDS), "s- ")


def fields_of(header: int) -> list[int]:
    """The fields of a header word."""
    fields = []
    for field in HEADER:
        fields.append(header % 2**field.width)
        header >>= field.width
    return fields


class Queue(NamedTuple):
    """A receive queue of an interface."""

    interface: str
    number: int


def receivers_of(app: Application, plan: Plan) -> dict[Queue, str]:
    """For each receive queue the channel whose words land in it. A queue number is that of a connection at a core, so it has
    one channel in all use cases."""
    seats = {seat.core: seat for seat in plan.seats}
    taken: Counter[str] = Counter()
    channels = {}
    for connection in app.connections.values():
        for side in SIDES:
            core = connection.receiver(side)
            if core in seats:
                queue = Queue(seats[core].interface, QUEUES_OF_SEAT * seats[core].number + taken[core])
                channels[queue] = f"{connection.name}:{side}"
            taken[core] += 1
    return channels


class Channels:
    """Names the channel of a flit: from the end of its link its route leads to an interface, where its queue is that of
    one channel."""

    def __init__(self, chip: Chip, app: Application, plan: Plan) -> None:
        self.links, self.interfaces = chip.links, set(chip.interfaces)
        self.receivers = receivers_of(app, plan)
        self.ports: dict[str, list[str]] = {}  # of each node the ends of the links on which it sends, by port
        for link in self.links:
            self.ports.setdefault(link.source, []).append(link.target)
        self.known: dict[tuple[int, int, int], str] = {}

    def name(self, link: int, route: int, queue: int) -> str:
        """The channel of a flit on a link, with the route and the queue of its header; `-` where there is none."""
        asked = link, route, queue
        if asked not in self.known:
            self.known[asked] = self.receivers.get(Queue(self.landing(link, route), queue), "-")
        return self.known[asked]

    def landing(self, link: int, route: int) -> str:
        """The interface to which a route leads from the end of a link, if it leads to one."""
        node = self.links[link].target
        for _ in range(HEADER[0][1] // PORT_BITS):
            ports, port = self.ports.get(node, []), route % 2**PORT_BITS
            if node in self.interfaces or port >= len(ports):
                break
            node, route = ports[port], route >> PORT_BITS
        return node


def scope_names(links: Iterable[Link]) -> list[str]:
    """A name for each link, of its two ends. Where links would share a name they have their numbers too, behind a letter
    that stands in no name of a node."""
    names = [f"{link.source}_{link.target}" for link in links]
    times = Counter(names)
    return [name if times[name] == 1 else f"{name}_L{number}" for number, name in enumerate(names)]


def identifier(number: int) -> str:
    """The short name of a signal, in the letters that the format allows."""
    text = chr(ord("!") + number % LETTERS)
    return text if number < LETTERS else identifier(number // LETTERS - 1) + text


def signals_of(link: Link) -> list[str]:
    """The identifiers of the signals of a link."""
    first = len(EMPTY) * link.number
    return [identifier(first + place) for place in range(len(EMPTY))]


def declare(links: Sequence[Link]) -> list[str]:
    """The lines that declare the signals of all links."""
    lines = ["$timescale 1 ns $end", "$scope module links $end"]
    for link, name in zip(links, scope_names(links)):
        signs = signals_of(link)
        lines += [f"$scope module {name} $end", f"$comment link {link.number}, delay {link.delay} $end"]
        lines.append(f"$var wire 1 {signs[0]} flit $end")
        for sign, field in zip(signs[1:], HEADER + WORDS):
            lines.append(f"$var wire {field.width} {sign} {field.name} [{field.width - 1}:0] $end")
        lines += [f"$var string 1 {signs[-1]} channel $end", "$upscope $end"]
    return lines + ["$upscope $end", "$enddefinitions $end"]


def values_of(row: FlitRow, channels: Channels) -> Values:
    """The values of a link in which the flit of a row enters."""
    route, queue, *others = fields_of(row.header)
    numbers = [f"b{number:b} " for number in (route, queue, *others, row.first, row.second)]
    return ("1", *numbers, f"s{channels.name(row.link, route, queue)} ")


class State(NamedTuple):
    """The values of the links that carry flits, from a cycle on."""

    cycle: int
    flits: Mapping[int, Values]


def states_of(rows: Iterable[FlitRow], cycles: int, channels: Channels) -> Iterator[State]:
    """The states of a run: of its first cycle, of each one in which flits enter, of the one after it, and of its end."""
    after = 0
    for cycle, entering in groupby(rows, key=lambda row: row.cycle):
        if cycle > after:
            yield State(after, {})
        yield State(cycle, {row.link: values_of(row, channels) for row in entering})
        after = cycle + 1
    if after < cycles:
        yield State(after, {})
    yield State(cycles, {})


def changes_of(states: Iterator[State], signals: Sequence[Sequence[str]]) -> Iterator[str]:
    """A text for each state: first of the values of all signals, then of those that differ from the ones before."""
    before = next(states).flits
    lines = [
        value + sign for link, signs in enumerate(signals) for value, sign in zip(before.get(link, EMPTY), signs)
    ]
    yield "\n".join(["#0", "$dumpvars", *lines, "$end"])
    for state in states:
        lines = [f"#{state.cycle}"]
        for link in sorted(before.keys() | state.flits.keys()):
            values, earlier = state.flits.get(link, EMPTY), before.get(link, EMPTY)
            lines += [value + sign for value, old, sign in zip(values, earlier, signals[link]) if value != old]
        yield "\n".join(lines)
        before = state.flits


def draw_wave(chip: Chip, app: Application, plan: Plan, rows: Iterable[FlitRow], cycles: int) -> str:
    """The dump of the flits of a run of so many cycles."""
    channels = Channels(chip, app, plan)
    signals = [signals_of(link) for link in chip.links]
    lines = declare(chip.links)
    lines += changes_of(states_of(rows, cycles, channels), signals)
    return "\n".join(lines) + "\n"
