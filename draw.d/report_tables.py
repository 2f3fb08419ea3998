"""Owns the tables of a report for other programs: its channels, its links, and its switches."""
from typing import Any, NamedTuple
import json

from channel_columns import channels_table
from design import used_slots
from design_files import Link
from report_page import Verdict
from run_texts import Switch, SwitchRow, Switching
from table_columns import Column, Facts, Json, Table, short

VERSION = 1
NAMES = ("channels", "links", "switches")


def links_table(facts: Facts) -> Table[Link]:
    """The links, each with the slots that are in use in each use case, and with its flits in the run."""
    columns = [
        Column[Link]("link", "", lambda link: link.number), Column[Link]("from", "", lambda link: link.source),
        Column[Link]("to", "", lambda link: link.target), Column[Link]("delay", "cycles", lambda link: link.delay),
        Column[Link]("slots", "slots", lambda link: facts.chip.slots),
    ]
    for use in facts.app.uses:
        columns.append(load_column(facts, use))
    run = facts.run
    columns += [
        Column[Link]("flits", "flits", lambda link: run.flits[link.number] if run else None),
        Column[Link]("run_load", "% of the cycles", lambda link: share(run.flits[link.number], run.cycles) if run else None),
    ]
    return Table(columns, facts.chip.links)


def share(flits: int, cycles: int) -> int | float | None:
    return short(100 * flits / cycles)


def load_column(facts: Facts, use: str) -> Column[Link]:
    """How many slots of a link are in use in a use case."""
    if facts.plan is None:
        return Column[Link](f"load.{use}", "slots", lambda link: None)
    group, members = facts.app.groups[use], facts.app.members[use]
    used = used_slots(facts.chip, (
        grant for grant in facts.plan.grants if grant.group == group and grant.connection in members
    ))
    return Column[Link](f"load.{use}", "slots", lambda link: used[link.number])


class Change(NamedTuple):
    """A switch, or what one would be: from a use case to another, with the cycle in which it begins where it is one of a run.
    Without a plan nothing is known of how long it takes."""

    cycle: int | None
    drain: int | None
    old: str | None
    new: str
    switch: Switch | None


def changes_of(facts: Facts) -> list[Change]:
    """The switches of the run, or without one those from each use case to each other one."""
    if facts.run:
        olds = [None, *(switch.use for switch in facts.run.switches)]
        return [Change(one.cycle, one.drain, old, one.use, one) for old, one in zip(olds, facts.run.switches)]
    switching = Switching(facts.chip, facts.app, facts.plan) if facts.plan else None
    return [
        Change(None, None, old, new, switching.switch(old, SwitchRow(0, new, 0)) if switching else None)
        for old in facts.app.uses for new in facts.app.uses if old != new
    ]


def switches_table(facts: Facts) -> Table[Change]:
    """What each switch closes, opens and keeps, and how long it takes."""
    app = facts.app

    def left(old: str | None, new: str) -> list[str]:
        if old is None:
            return []
        kept = app.members[new] if app.groups[old] == app.groups[new] else frozenset[str]()
        return [name for name in app.uses[old].connections if name not in kept]

    def opened(change: Change) -> list[str]:
        return app.uses[change.new].connections if change.old is None else left(change.new, change.old)

    def kept(change: Change) -> list[str]:
        gone = frozenset(opened(change))
        return [name for name in app.uses[change.new].connections if name not in gone]

    return Table([
        Column[Change]("cycle", "cycle", lambda change: change.cycle),
        Column[Change]("from", "", lambda change: change.old),
        Column[Change]("to", "", lambda change: change.new),
        Column[Change]("closes", "connections", lambda change: left(change.old, change.new)),
        Column[Change]("opens", "connections", opened),
        Column[Change]("keeps", "connections", kept),
        Column[Change]("drain", "cycles", lambda change: change.drain),
        Column[Change]("last_flits", "cycles", lambda change: one.finish - one.cycle - one.drain if (one := change.switch) else None),
        Column[Change]("writes", "cycles", lambda change: one.over - one.finish if (one := change.switch) else None),
        Column[Change]("takes", "cycles", lambda change: one.over - one.cycle if (one := change.switch) else None),
        Column[Change]("over", "cycle", lambda change: one.over if (one := change.switch) and change.cycle is not None else None),
    ], changes_of(facts))


def table_of(facts: Facts, name: str) -> Table[Any]:
    if name == "channels":
        return channels_table(facts)
    if name == "links":
        return links_table(facts)
    return switches_table(facts)


def csv_of(facts: Facts, name: str) -> str:
    """One of the tables as CSV."""
    return table_of(facts, name).csv(VERSION)


def json_of(facts: Facts, verdict: Verdict, hardware: Verdict | None) -> str:
    """All tables as one object, with a line for each of their rows."""
    tables = {name: table_of(facts, name) for name in NAMES}
    units = facts.units
    head: dict[str, Json] = {
        "version": VERSION, "application": facts.title, "verdict": verdict.text, "granted": facts.plan is not None,
        "hardware": hardware.text if hardware else None, "slots": facts.chip.slots,
        "cycles": facts.run.cycles if facts.run else None, "clock": float(units.clock) if units else None,
        "word": float(units.word) if units else None, "units": {name: table.units() for name, table in tables.items()},
    }
    parts = [f"{json.dumps(name)}: {json.dumps(value)}" for name, value in head.items()]
    for name, table in tables.items():
        rows = ",\n  ".join(map(json.dumps, table.json()))
        parts.append(f"{json.dumps(name)}: [\n  {rows}\n]" if rows else f"{json.dumps(name)}: []")
    return "{" + ",\n".join(parts) + "}\n"
