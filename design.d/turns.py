"""What came before the turn of a refused unit, and what that unit would get with another latency.

The order of turns is that of docs/RULES.md. What is tried is the application as far as that turn: with the units that were
granted before, and with the refused one, which then has the last turn and finds just what it found.
"""
from collections.abc import Iterable
from concurrent.futures import ThreadPoolExecutor
from dataclasses import dataclass
from itertools import count
import os

from design_files import Application
from files import text_of
from given import Given
from plan_texts import Grant, Need, RefusedUnit, read_needs, read_plan, read_refused
from program import answer, made
from toml_lines import Tree
from turn_order import Unit, turns_of

MOST_LATENCY = 4_096
MOST_DELAY = 32  # of a path: with a latency of so much more than the slots of a table no gap is too great
PARTS = 5  # of a range of latencies, of which the ends are tried at once


def granted_before(app: Application, needs: Iterable[Need], refused: Iterable[RefusedUnit], turn: int) -> list[Unit]:
    """The units that were granted before a turn."""
    without = {Unit(unit.connection, unit.group) for unit in refused}
    return [unit for unit, number in turns_of(app, needs, without).items() if number < turn and unit not in without]


@dataclass(frozen=True)
class Found:
    """What a refused channel would get in its turn: the least latency with which it has a candidate, none where no latency
    does; and with this its grant, where the other channel has one too."""

    latency: int | None
    grant: Grant | None = None


class Trial:
    """A refused unit in its turn, which is tried with other latencies of the channel that had no candidate."""

    def __init__(self, given: Given, refused: list[RefusedUnit], unit: RefusedUnit) -> None:
        self.given, self.app, self.unit = given, given.app, unit
        self.wished = self.app.connections[unit.connection].wish(unit.side).latency
        self.name = next(name for name in (f"x{number}" for number in count()) if name not in self.app.connections)
        needs = answer("app", given.files["chip"], given.files["app"])
        self.before = granted_before(self.app, read_needs(needs.text), refused, unit.turn)

    def application(self, latency: int) -> Tree:
        """The application as far as the unit's turn. The unit's connection has a name of its own, since the same one may have
        been granted in other groups."""
        tree, unit, before = self.given.tree("app")[0], self.unit, set(self.before)
        uses, used = [], {self.name}
        for use in tree["use"]:
            group = self.app.groups[use["name"]]
            names = [name for name in use["connections"] if (name, group) in before]
            mine = [self.name] if group == unit.group and unit.connection in use["connections"] else []
            used.update(names)
            uses.append({**use, "connections": names + mine, "smooth": list(dict.fromkeys(use.get("smooth", ())))})
        connections = []
        for one in tree["connection"]:
            connections += [one] if one["name"] in used else []
            if one["name"] == unit.connection:
                connections.append({**one, "name": self.name, unit.side: {**one[unit.side], "latency": latency}})
        return {**tree, "connection": connections, "use": uses}

    def tried(self, latency: int) -> Found | None:
        """What comes out with a latency; none where it isn't the unit alone that is refused, if something is."""
        told = answer("allocate", self.given.files["chip"], made("app", text_of(self.application(latency))))
        if told.status == 0:
            grants = read_plan(told.text.encode()).grants
            return Found(latency, next(one for one in grants if (one.connection, one.side) == (self.name, self.unit.side)))
        refused = read_refused(told.errors)
        if told.status != 3 or [one.connection for one in refused] != [self.name]:
            return None
        return Found(None) if refused[0].side == self.unit.side else Found(latency)

    def found(self) -> Found | None:
        """What the channel would get with the least latency that suits; none where it can't be told."""
        low, high = self.wished, min(MOST_LATENCY, self.given.chip.slots + MOST_DELAY)
        first, best = self.tried(low), self.tried(max(low, high))
        if first is None or first.latency is not None or best is None or best.latency is None:
            return None if first is None or first.latency is not None else best
        with ThreadPoolExecutor(os.cpu_count() or 1) as pool:
            while high - low > 1:
                probes = sorted({low + (high - low) * part // PARTS for part in range(1, PARTS)} - {low, high})
                for latency, found in zip(probes, list(pool.map(self.tried, probes))):
                    if found is None:
                        return None
                    if found.latency is None:
                        low = latency
                    elif latency < high:
                        high, best = latency, found
        return best
