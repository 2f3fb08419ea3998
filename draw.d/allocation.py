"""Owns what `allocate` had granted when it refused a channel: whose turn came when, and the grants and seats before a turn.

`allocate` prints no plan where it refuses units. So it is asked for one of the application without the refused units: these
leave nothing behind, and change neither the order of the other turns nor what is granted in them. The order of turns is told
by the needs and the wishes; it is believed only where it gives each refused unit the turn that `allocate` says.
"""
from collections.abc import Sequence
from dataclasses import dataclass

from design import SIDES, together_in
from design_files import Application
from plan_texts import Grant, Need, Plan, RefusedUnit, read_plan
from program import Input, answer, made
from turn_order import Unit, cores_of, turns_of


@dataclass(frozen=True)
class State:
    """The grants and the seats at the beginning of a turn."""

    grants: list[Grant]
    seats: dict[str, list[str]]  # the cores at each interface, in the order of their seats

    def seat_of(self, core: str) -> str | None:
        """The interface at which a core sits."""
        return next((interface for interface, cores in self.seats.items() if core in cores), None)


def fixed_seats(app: Application) -> dict[str, list[str]]:
    """The cores that the application fixes to interfaces."""
    seats: dict[str, list[str]] = {}
    for core in app.cores.values():
        if core.interface is not None:
            seats.setdefault(core.interface, []).append(core.name)
    return seats


def text_without(app: Application, refused: set[Unit]) -> str:
    """An application's file without some units."""
    lines = ["version = 1", f"detour = {app.detour}", f'cost = "{app.cost}"', "core = ["]
    for core in app.cores.values():
        fixed = f', ni = "{core.interface}"' if core.interface is not None else ""
        lines.append(f'  {{name = "{core.name}"{fixed}}},')
    lines += ["]", "connection = ["]
    for one in app.connections.values():
        wishes = ", ".join(
            f"{side} = {{words = {wish.words}, per = {wish.per}, latency = {wish.latency}, delay = {wish.delay}}}"
            for side, wish in zip(SIDES, (one.fwd, one.back))
        )
        lines.append(f'  {{name = "{one.name}", from = "{one.source}", to = "{one.target}", {wishes}}},')
    lines += ["]", "use = ["]
    for use in app.uses.values():
        kept = [name for name in use.connections if Unit(name, app.groups[use.name]) not in refused]
        names, smooth = (", ".join(f'"{name}"' for name in names) for names in (kept, sorted(use.smooth)))
        lines.append(f'  {{name = "{use.name}", connections = [{names}], smooth = [{smooth}]}},')
    return "\n".join(lines) + "\n]\n"


class Allocation:
    """What `allocate` grants, and when: an empty one where that can't be told."""

    def __init__(self, chip_file: Input, app: Application, needs: Sequence[Need], refused: Sequence[RefusedUnit]) -> None:
        self.app = app
        units = {Unit(unit.connection, unit.group) for unit in refused}
        self.turns = turns_of(app, needs, units)
        self.plan: Plan | None = None
        if all(self.turns[Unit(unit.connection, unit.group)] == unit.turn for unit in refused):
            told = answer("allocate", chip_file, made("app", text_without(app, units)))
            if not told.status:
                self.plan = read_plan(told.text.encode())

    def before(self, turn: int) -> State | None:
        """The grants and the seats at the beginning of a turn."""
        if self.plan is None:
            return None
        grants = [grant for grant in self.plan.grants if self.turns[Unit(grant.connection, grant.group)] < turn]
        seated = {core for core, fixed in self.app.cores.items() if fixed.interface is not None}
        for grant in grants:
            seated.update(cores_of(self.app, Unit(grant.connection, grant.group)))
        cores = {ni: [core for core in cores if core in seated] for ni, cores in self.plan.cores_at().items()}
        return State(grants, {interface: names for interface, names in cores.items() if names})


def in_the_way(app: Application, state: State, unit: RefusedUnit) -> list[Grant]:
    """The grants whose slots a channel of a unit can't have: those of its group whose connections some use case has with its
    own."""
    together = together_in(app)[unit.group][unit.connection]
    return [grant for grant in state.grants if grant.group == unit.group and grant.connection in together]


def state_of(app: Application, allocation: Allocation, unit: RefusedUnit) -> State:
    """The grants and seats at a refused unit's turn; where these can't be told, the seats that the application fixes."""
    return allocation.before(unit.turn) or State([], fixed_seats(app))

