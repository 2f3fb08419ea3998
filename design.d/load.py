"""The load of links in each use case of a plan: how many of their slots are in use, and which channels have them."""
from collections import Counter
from collections.abc import Sequence
from dataclasses import dataclass

from design_files import Application, Chip, read_application, read_chip
from ending import Result
from plan_texts import Plan, read_plan
from program import Input, text_of
from text_table import Column, count, table

COLUMNS = (Column("slots", True), Column("share", True), Column("link", True), Column("from"), Column("to"), Column("filled by"))


@dataclass(frozen=True)
class Load:
    """The load of one link: the slots that each channel has of it, by its name."""

    link: int
    slots: Counter[str]

    @property
    def used(self) -> int:
        return self.slots.total()

    @property
    def channels(self) -> str:
        """Who fills it: the channels with most slots first."""
        return ", ".join(f"{name} {slots}" for name, slots in self.slots.most_common())


def loads_in(chip: Chip, app: Application, plan: Plan, use: str) -> list[Load]:
    """The links that carry something in a use case, the fullest first."""
    found: dict[int, Counter[str]] = {}
    for grant in plan.grants:
        if grant.group == app.groups[use] and app.is_in(grant.connection, use):
            for link in grant.links:
                found.setdefault(link, Counter())[f"{grant.connection} {grant.side}"] += len(grant.starts)
    return sorted((Load(link, slots) for link, slots in found.items()), key=lambda load: (-load.used, load.link))


def share(used: int, of: int) -> str:
    return f"{round(100 * used / of)} %" if of else "0 %"


def text_in(chip: Chip, app: Application, plan: Plan, use: str) -> str:
    """What is told of a use case."""
    loads, slots, links = loads_in(chip, app, plan, use), chip.slots, len(chip.links)
    used = sum(load.used for load in loads)
    summed = (
        f"use case {use}: {count(len(app.members[use]), 'connection')}; {used:,} of {count(links * slots, 'slot')} of "
        f"{count(links, 'link')} in use, {share(used, links * slots)}"
    )
    if not loads:
        return summed + "\n"
    rows = [
        [f"{load.used} of {slots}", share(load.used, slots), str(load.link), *ends_of(chip, load.link), load.channels]
        for load in loads
    ]
    rest = links - len(loads)
    return f"{summed}\n{table(COLUMNS, rows)}" + (f"  0 of {slots}: {count(rest, 'other link')}\n" if rest else "")


def ends_of(chip: Chip, number: int) -> Sequence[str]:
    link = chip.links[number]
    return link.source, link.target


def load(chip_path: str, app_path: str, plan_path: str, use: str | None) -> Result:
    """The loads in a use case, or in each."""
    chip_file, app_file, plan_file = Input(chip_path), Input(app_path), Input(plan_path)
    if use is None:
        text_of("check", chip_file, app_file, plan_file)
    else:
        text_of("tables", chip_file, app_file, plan_file, use)
    chip, app, plan = read_chip(chip_file.data), read_application(app_file.data), read_plan(plan_file.data)
    return Result("\n".join(text_in(chip, app, plan, name) for name in ([use] if use else app.uses)))
