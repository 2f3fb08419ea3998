"""Owns the report of a design: its verdict, and what stands on its page."""
from collections.abc import Sequence

from design import Design
from design_files import Application, Chip
from physical_units import PhysicalUnits, in_time
from plan_picture import draw_plan, map_of, summary
from plan_texts import RefusedUnit
from player_page import Player
from progress import Progress
from refusal_picture import Refusal, draw_refusal, fullest
from refusal_picture import summary as told_of
from report_data import Line, add_promises, add_refusals, add_run, lines_of
from report_page import Report, Shown, Verdict, page
from run_picture import broken_promises, draw_run
from run_picture import summary as run_summary
from runs import Run
from svg import count, plural

MOST_NAMED = 3  # channels in a sentence


def named(names: Sequence[str]) -> str:
    """The first of some names, and whether there are more."""
    return ", ".join(list(names[:MOST_NAMED]) + [".."] * (len(names) > MOST_NAMED))


def outside_of(run: Run) -> str:
    """How many words came outside of all sessions, with the three channels that had most of them."""
    channels = sorted((channel for channel in run.channels if channel.outside), key=lambda channel: -channel.outside)
    if not channels:
        return ""
    words = count(sum(channel.outside for channel in channels), "word")
    return f"; {words} came outside of all sessions, of {named([channel.name for channel in channels])}"


def late_of(lines: Sequence[Line]) -> Verdict:
    """How many words were late or overdue, and whether a promise was broken or had ended before."""
    late, overdue = sum(line.late for line in lines), sum(line.overdue for line in lines)
    failed = sum(line.failed for line in lines)
    told = f"{late:,} late" + (f", {overdue:,} overdue" if overdue else "")
    if failed:
        return Verdict(f"{told}, {failed:,} of them against a promise", "bad")
    if not (late or overdue):
        return Verdict(told, "good")
    names = list(dict.fromkeys(line.name for line in lines if line.late or line.overdue))
    return Verdict(
        f"{told}, each after its receiver hadn't kept its delay, with which the promise ends: {plural('channel', names)} "
        f"{named(names)}", "note",
    )


def verdict_of(lines: Sequence[Line], run: Run | None) -> Verdict:
    """One line: how much is granted and, for a run, how many words were late or overdue."""
    tells = f"Everything is granted: {count(len(lines), 'channel')}."
    if run is None:
        return Verdict(tells, "good")
    landed, dropped, late = sum(line.landed for line in lines), sum(line.dropped for line in lines), late_of(lines)
    tells += f" In {count(run.cycles, 'cycle')}{in_time(run.cycles, run.units)} {count(landed, 'word')} landed, {late.text}"
    tells += f"; {count(dropped, 'word')} dropped in switches" if dropped else ""
    return Verdict(f"{tells}{outside_of(run)}.", late.kind)


def refused_sentence(app: Application, unit: RefusedUnit, refusal: Refusal | None) -> str:
    """A refused unit in words, with the use cases of its group, and which links were in its way."""
    why = fullest(refusal) if refusal else ""
    return (
        f"Connection {unit.connection} in group {unit.group} ({', '.join(app.uses_of(unit.group))}): its channel {unit.side} had "
        f"no admissible path with a suitable set of free slots, in turn {unit.turn}."
        + (f" What was in the way: {why}." if why else "")
    )


def refused_report(
    title: str, chip: Chip, app: Application, refused: Sequence[RefusedUnit], refusals: Sequence[Refusal], progress: Progress,
    units: PhysicalUnits | None,
) -> str:
    """The report of a design of which units are refused: which, why, and what is wished. The first refusals have pictures."""
    rows = rows_of_refusals(app, chip.slots, refused)
    by_number = {refusal.trial.number: refusal for refusal in refusals}
    sentences = [refused_sentence(app, unit, by_number.get(number)) for number, unit in enumerate(refused, 1)]
    pictures = []
    for refusal in refusals:
        number = refusal.trial.number
        progress.say(f"picture of refusal {number} of {len(refused)}")
        name = f"Refusal {number} of {refusal.among}: {refusal.name}"
        pictures.append(Shown(name, f"refusal-{number}", told_of(refusal), draw_refusal(refusal, bare=True)))
    return page(Report(title, refused_verdict(rows, refused), sentences, rows, pictures, False, units=units))


def rows_of_refusals(app: Application, slots: int, refused: Sequence[RefusedUnit]) -> list[Line]:
    """The rows of a design of which units are refused."""
    lines = lines_of(app, slots)
    add_refusals(lines, refused)
    return list(lines.values())


def refused_verdict(rows: Sequence[Line], refused: Sequence[RefusedUnit]) -> Verdict:
    total = len({(row.key.connection, row.key.group) for row in rows})
    are = "is" if len(refused) == 1 else "are"
    return Verdict(f"Not everything is granted: {count(len(refused), 'unit')} of {total:,} {are} refused.", "bad")


def rows_of(design: Design, run: Run | None) -> list[Line]:
    """The rows of a plan, with what a run shows."""
    lines = lines_of(design.app, design.chip.slots)
    add_promises(lines, design)
    if run:
        add_run(lines, run)
    return list(lines.values())


def draw_report(
    title: str, design: Design, run: Run | None, progress: Progress, hardware: Verdict | None, player: Player
) -> str:
    """The page of a plan, of a run, and of the run as hardware."""
    rows, pictures = rows_of(design, run), list[Shown]()
    if run:
        progress.say("picture of the run")
        told = [run_summary(run, run.channels), *broken_promises(run.channels, design.units)]
        pictures.append(Shown("The run", "run", told, draw_run(run, bare=True)))
    chip_map = map_of(design)
    for place, use in enumerate(design.app.uses, 1):
        progress.say(f"picture of use case {place} of {len(design.app.uses)}")
        picture = draw_plan(design, use, chip_map=chip_map, bare=True)
        pictures.append(Shown(f"Use case {use}", f"use-{use}", summary(design, use), picture))
    progress.say("the page")
    return page(Report(title, verdict_of(rows, run), [], rows, pictures, run is not None, hardware, design.units, player))
