"""The dump of a simulator as `draw wave` names things: a unit of time is a cycle of the run, and the links are on top."""
from collections.abc import Iterator, Sequence
from typing import TextIO, TypeAlias
import re

from rtl_bench import TAKEN
from rtl_names import safe
from waveform import Channels

Scope: TypeAlias = tuple[str, ...]

FIELDS = ("flit", "route", "queue", "credits", "count", "first", "second")
LEFT_OUT = {"clk_i", "rst_i"}
PERIOD = 1_000  # of a dump's units


class Head:
    """The signals of a dump that are kept, by their scopes."""

    def __init__(self, scopes: Sequence[str]) -> None:
        names = {safe(scope, TAKEN): number for number, scope in enumerate(scopes)}
        self.scopes, self.names = scopes, names
        self.kept: dict[Scope, list[tuple[str, str]]] = {}  # by path the declarations of a scope
        self.links: list[dict[str, str]] = [{} for _ in scopes]  # of each link the identifiers of its fields
        self.path: list[str] = []

    def place(self) -> Scope | None:
        """Where the scope that is read stands in what is written, if it is kept."""
        if "harness" not in self.path:
            return None
        path = self.path[self.path.index("harness") + 1 :]
        if path[:1] == ["links"] and len(path) == 2:
            return ("links", self.scopes[self.names[path[1]]])
        if path[:1] == ["network"] and path[1:2] and path[1] in ("routers", "interfaces", "switch_port"):
            return tuple(path[1:])
        return None

    def read(self, line: str) -> None:
        word = line.split()
        if word[:1] == ["$scope"]:
            self.path.append(word[2])
        elif word[:1] == ["$upscope"]:
            self.path.pop()
        elif word[:1] == ["$var"] and word[1] not in ("parameter", "real", "event") and word[4] not in LEFT_OUT:
            place = self.place()
            if not place:
                return
            name = re.sub(r"\[.*", "", word[4])
            if place[0] == "links":
                if name not in FIELDS:
                    return
                self.links[self.names[self.path[-1]]][name] = word[3]
            wide = int(word[2])
            text = f"$var wire {wide} {word[3]} {name}{f' [{wide - 1}:0]' if wide > 1 else ''} $end"
            self.kept.setdefault(place, []).append((word[3], text))

    def lines(self) -> list[str]:
        """The declarations, scope within scope, the links first."""
        lines = ["$timescale 1 ns $end"]
        path: Scope = ()
        numbers: dict[Scope, int] = {("links", scope): number for number, scope in enumerate(self.scopes)}
        order = sorted(self.kept, key=lambda place: numbers.get(place, len(numbers)))
        for place in order:
            same = next((at for at, (one, other) in enumerate(zip(path, place)) if one != other), min(len(path), len(place)))
            lines += ["$upscope $end"] * (len(path) - same) + [f"$scope module {name} $end" for name in place[same:]]
            lines += [text for _, text in self.kept[place]]
            if place[0] == "links":
                lines.append(f"$var string 1 {channel_sign(numbers[place])} channel $end")
            path = place
        return [*lines, *["$upscope $end"] * len(path), "$enddefinitions $end"]


def channel_sign(link: int) -> str:
    return f"channel_{link}"


class Values:
    """The values of the kept signals, from cycle to cycle."""

    def __init__(self, head: Head, channels: Channels) -> None:
        self.head, self.channels = head, channels
        self.signs = {sign for declared in head.kept.values() for sign, _ in declared}
        self.now: dict[str, str] = {}
        self.told: dict[str, str] = {}

    def read(self, line: str) -> None:
        if line[0] in "bBrR":
            value, _, sign = line.partition(" ")
            line = value + " "
        else:
            line, sign = line[0], line[1:]
        if sign in self.signs:
            self.now[sign] = line

    def channel(self, link: int) -> str:
        signs = self.head.links[link]
        route, queue = (self.now.get(signs[field], "x").strip(" b") for field in ("route", "queue"))
        if self.now.get(signs["flit"]) != "1" or set(route + queue) - set("01"):
            return "s- "
        return f"s{self.channels.name(link, int(route, 2), int(queue, 2))} "

    def changes(self) -> list[str]:
        """The lines of what has changed since they were last asked for."""
        for link, signs in enumerate(self.head.links):
            if signs:
                self.now[channel_sign(link)] = self.channel(link)
        lines = [value + sign for sign, value in self.now.items() if self.told.get(sign) != value]
        self.told = dict(self.now)
        return lines


def write_wave(dump: Iterator[str], out: TextIO, channels: Channels, scopes: Sequence[str], cycles: int) -> None:
    """Writes the dump of a simulator, from a file to another one."""
    head = Head(scopes)
    for line in dump:
        if line.startswith("$enddefinitions"):
            break
        head.read(line)
    out.write("\n".join(head.lines()) + "\n")
    values, cycle = Values(head, channels), 0
    first: int | None = None
    for line in dump:
        line = line.strip()
        if line.startswith("#"):
            time = int(line[1:])
            first = time if first is None else first
            later = (time - first) // PERIOD
            if later != cycle:
                put_changes(out, cycle, values)
                cycle = later
            if cycle >= cycles:
                break
        elif line and line[0] != "$":
            values.read(line)
    if cycle < cycles:
        put_changes(out, cycle, values)
    out.write(f"#{cycles}\n")


def put_changes(out: TextIO, cycle: int, values: Values) -> None:
    lines = values.changes()
    if cycle == 0:
        lines = ["$dumpvars", *lines, "$end"]
    if lines:
        out.write("\n".join([f"#{cycle}", *lines]) + "\n")
