"""An application that is made of flows and seats: its names, cores and use cases, its tree, and its text."""
from collections import defaultdict
from collections.abc import Sequence
from dataclasses import asdict, dataclass
from functools import cached_property
import re
import shlex

from ending import printable, shortened
from files import spelled
from flow_rows import NAME, Flow, RowFault, Seat
from flow_wishes import FlowWishes, ToldWish
from physical_units import PhysicalUnits
from toml_lines import Tree

MOST_USES = 16
PLAIN_USE = "main"
PLAIN_COST = "hops"
WIDTH = 100  # of a line of names


@dataclass(frozen=True)
class Ask:
    """What the words of a command ask for, beside its tables."""

    units: PhysicalUnits
    detour: int
    cost: str
    smooth: list[list[str]]  # use cases between which a switch is smooth
    words: list[str]  # of the command line


def connection_names(flows: Sequence[Flow]) -> list[str]:
    """A name for each flow: its own, or its cores' with `_` between, and a number where that is taken."""
    own = {flow.name for flow in flows if flow.name}
    names: dict[str, None] = {}
    for flow in flows:
        name, number = flow.name or f"{flow.source}_{flow.target}", 1
        if flow.name and name in names:
            raise RowFault(flow.line, f"name: `{name}` stands twice")
        while not flow.name and (name in own or name in names):
            number += 1
            name = f"{flow.source}_{flow.target}_{number}"
        if not re.fullmatch(NAME, name):
            raise RowFault(flow.line, f"its name would be `{name}`, of more than 32 letters: give it one in a column `name`")
        names[name] = None
    return list(names)


def uses_of(flows: Sequence[Flow]) -> list[str]:
    """The use cases that flows name, or one where none does."""
    uses: dict[str, None] = {}
    for flow in flows:
        uses.update(dict.fromkeys(flow.uses))
        if len(uses) > MOST_USES:
            raise RowFault(flow.line, f"uses: these are more than {MOST_USES} use cases")
    return list(uses) or [PLAIN_USE]


@dataclass(frozen=True)
class FlowDesign:
    """Flows with their wishes, and the seats of their cores."""

    flows: list[FlowWishes]
    seats: list[Seat]
    comments: list[str]
    ask: Ask

    @cached_property
    def names(self) -> list[str]:
        return connection_names([one.flow for one in self.flows])

    @cached_property
    def uses(self) -> list[str]:
        return uses_of([one.flow for one in self.flows])

    @cached_property
    def cores(self) -> dict[str, str | None]:
        """The interface of each core, none where it is free: those of the seats first, then the others as flows name them."""
        cores = {seat.core: seat.interface for seat in self.seats}
        for one in self.flows:
            cores.setdefault(one.flow.source, None)
            cores.setdefault(one.flow.target, None)
        return cores

    @cached_property
    def members(self) -> dict[str, list[str]]:
        """The connections of each use case. A flow that names none runs in all."""
        named = list(zip(self.names, (one.flow.uses or self.uses for one in self.flows)))
        return {use: [name for name, uses in named if use in uses] for use in self.uses}

    @cached_property
    def smooth(self) -> dict[str, list[str]]:
        """The use cases that each one names as smooth: the first of a list all others."""
        smooth: dict[str, list[str]] = defaultdict(list)
        for first, *others in self.ask.smooth:
            smooth[first] += [other for other in dict.fromkeys(others) if other not in (first, *smooth[first])]
        return dict(smooth)

    def root(self) -> Tree:
        cost = {"cost": self.ask.cost} if self.ask.cost != PLAIN_COST else {}
        cores = [{"name": core} | ({"ni": interface} if interface else {}) for core, interface in self.cores.items()]
        return {"version": 1, "detour": self.ask.detour, **cost, "core": cores}

    def connections(self) -> list[Tree]:
        return [
            {"name": name, "from": flow.source, "to": flow.target, "fwd": asdict(fwd.wish), "back": asdict(back.wish)}
            for name, (flow, fwd, back) in zip(self.names, self.flows)
        ]

    def use_cases(self) -> list[Tree]:
        return [
            {"name": use, "connections": names} | ({"smooth": self.smooth[use]} if use in self.smooth else {})
            for use, names in self.members.items()
        ]

    def tree(self) -> Tree:
        """The application as a tree of TOML."""
        return {**self.root(), "connection": self.connections(), "use": self.use_cases()}


def names_in_lines(key: str, names: Sequence[str]) -> str:
    """A list of names, in one line or in several."""
    line = f"{key} = {spelled(list(names))}\n"
    if len(line) <= WIDTH:
        return line
    rows = [" "]
    for name in names:
        item = f' "{name}",'
        if len(rows[-1]) + len(item) > WIDTH:
            rows.append(" ")
        rows[-1] += item
    return f"{key} = [\n" + "".join(row + "\n" for row in rows) + "]\n"


def head_of(design: FlowDesign) -> str:
    """The comments of the table, how the file was made, and what a cycle and a word are."""
    made_by = printable(shortened(shlex.join(["./design", *design.ask.words]), 400))
    lines = [*design.comments, f"Made by: {made_by}", design.ask.units.told]
    return "".join(f"# {line}".rstrip() + "\n" for line in lines)


def wish_lines(tree: Tree, fwd: ToldWish, back: ToldWish) -> str:
    """The wishes of a connection, each with what was asked and what it gets."""
    lines = [f"{side} = {spelled(tree[side])}" for side in ("fwd", "back")]
    room = max(map(len, lines))
    return "".join(f"{line:<{room}}  # {one.told}\n" for line, one in zip(lines, (fwd, back)))


def text_of(design: FlowDesign) -> str:
    """The application as a text."""
    parts = [head_of(design)]
    for key, value in design.root().items():
        cores = "".join(f"  {spelled(core)},\n" for core in value) if key == "core" else ""
        parts.append(f"{key} = [\n{cores}]\n" if key == "core" else f"{key} = {spelled(value)}\n")
    for tree, (_, fwd, back) in zip(design.connections(), design.flows):
        parts.append("[[connection]]\n" + "".join(f"{key} = {spelled(tree[key])}\n" for key in ("name", "from", "to")))
        parts.append(wish_lines(tree, fwd, back))
    for use in design.use_cases():
        parts.append(f"[[use]]\nname = {spelled(use['name'])}\n")
        parts += [names_in_lines(key, use[key]) for key in ("connections", "smooth") if key in use]
    return "".join(parts)
