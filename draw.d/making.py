"""Owns how each kind of picture is made of its words: which files are read, what `aeth` is asked of them, and in which order.

`aeth` judges all files before any is read here, so that its refusal is what a user sees.
"""
from collections.abc import Sequence
from concurrent.futures import ThreadPoolExecutor
from dataclasses import dataclass
import os
import pathlib
import re

from allocation import Allocation, state_of
from design import Design, Key, Promise, promises_in, uses_for_all
from design_files import Application, Chip, read_application, read_chip
from ending import NO_WORDS, Stop, printable, shortened
from physical_units import PhysicalUnits
from plan_picture import draw_plan
from plan_texts import Need, read_needs, read_plan
from program import Input, lines_of, text_of
from progress import Progress
from refusal_picture import Refusal, draw_refusal
from refusals import Trial, read_trials
from run_picture import draw_run
from run_texts import read_flits
from runs import Run, RunFiles, read_run
from waveform import draw_wave

MOST_CYCLES = 1_000_000
MOST_CYCLES_OF_WAVES = 10_000


@dataclass(frozen=True)
class DesignFiles:
    """The files of a design."""

    chip: Input
    app: Input
    plan: Input

    @property
    def words(self) -> tuple[Input, Input, Input]:
        return self.chip, self.app, self.plan


def cycles_of(word: str, most: int) -> int:
    """A number of cycles, or a stop: `aeth` would say `usage` alone."""
    if not re.fullmatch("[1-9][0-9]{0,6}", word) or int(word) > most:
        raise Stop(NO_WORDS, f"CYCLES is `{printable(shortened(word))}`, and must be 1 to {most:,}, in digits alone")
    return int(word)


def design_of(files: DesignFiles, units: PhysicalUnits | None, tables: dict[str, str] | None = None) -> Design:
    """The design of files that `aeth` accepts, with the promises of the use cases whose tables are told, or of all channels."""
    chip, app = read_chip(files.chip.data), read_application(files.app.data)
    if tables is None:
        uses = uses_for_all(app)
        with ThreadPoolExecutor(os.cpu_count() or 1) as pool:
            tables = dict(zip(uses, pool.map(lambda use: text_of("tables", *files.words, use), uses)))
    promises: dict[Key, Promise] = {}
    for use, text in tables.items():
        promises.update(promises_in(text, app.groups[use]))
    return Design(chip, app, read_plan(files.plan.data), promises, units)


def names_of(names: Sequence[str], chosen: Sequence[str], where: str) -> list[str]:
    """The names of channels that the last words choose, or none where there are no such words."""
    found = [name for name in names if chosen and name.split(" ")[: len(chosen)] == list(chosen)]
    if chosen and not found:
        raise Stop(NO_WORDS, f"the {where} has no channel `{printable(shortened(' '.join(chosen)))}`")
    return found


def plan(chip: str, app: str, plan_file: str, use: str, *chosen: str, units: PhysicalUnits | None = None) -> str:
    """The picture of a plan in a use case."""
    files = DesignFiles(Input(chip), Input(app), Input(plan_file))
    tables = text_of("tables", *files.words, use)  # which judges all files, and the use case
    design = design_of(files, units, {use: tables})
    names = names_of([channel.name for channel in design.channels(use)], chosen, f"use case {use}")
    return draw_plan(design, use, names).text


def run_of(
    files: DesignFiles, run_files: RunFiles, cycles: int, progress: Progress, units: PhysicalUnits | None
) -> tuple[Design, Run]:
    """A run, and its design."""
    progress.say("aeth simulates")
    given = run_files.words, run_files.receivers, run_files.switches
    log = text_of("simulate", *files.words, *given, cycles)
    progress.say("aeth tells the tables")
    design = design_of(files, units)
    progress.say("the log of the run is read")
    return design, read_run(design, run_files, cycles, log)


def run(
    chip: str, app: str, plan_file: str, words: str, receivers: str, switches: str, cycles: str, *chosen: str,
    units: PhysicalUnits | None = None,
) -> str:
    """The picture of a run."""
    count, progress = cycles_of(cycles, MOST_CYCLES), Progress("draw")
    files = DesignFiles(Input(chip), Input(app), Input(plan_file))
    _, shown = run_of(files, RunFiles(Input(words), Input(receivers), Input(switches)), count, progress, units)
    progress.end()
    names = names_of([channel.name for channel in shown.channels], chosen, "run")
    return draw_run(shown, [channel for channel in shown.channels if channel.name in names]).text


def title_of(path: str) -> str:
    """The name of an application's file, as it can be shown."""
    return printable(shortened(pathlib.PurePath(path).stem)) or "report"


class Refusals:
    """The refusals of a chip and an application, with what was granted before each turn."""

    def __init__(
        self, files: tuple[Input, Input], wanted: range, progress: Progress, physical: PhysicalUnits | None
    ) -> None:
        needs = read_needs(text_of("app", *files))
        progress.say("aeth explains the refusals")
        found = read_trials(lines_of("explain", *files), wanted)
        self.chip: Chip = read_chip(files[0].data)
        self.app: Application = read_application(files[1].data)
        self.units, self.trials = found.units, found.trials
        self.physical = physical
        self.needs: dict[str, Need] = {need.connection: need for need in needs}
        progress.say("aeth allocates what isn't refused")
        self.allocation = Allocation(files[0], self.app, needs, self.units) if self.trials else None

    def refusal(self, trial: Trial) -> Refusal:
        """A refusal as a picture needs it."""
        assert self.allocation is not None
        unit, need = trial.unit, self.needs[trial.unit.connection]
        slots = need.fwd if unit.side == "fwd" else need.back
        state = state_of(self.app, self.allocation, unit)
        return Refusal(
            self.chip, self.app, trial, len(self.units), slots, state, self.allocation.plan is not None, self.physical
        )


def refusal(chip: str, app: str, number: str = "1", units: PhysicalUnits | None = None) -> str:
    """The picture of a refusal."""
    if not re.fullmatch("[1-9][0-9]{0,4}", number):
        raise Stop(NO_WORDS, f"N is `{printable(shortened(number))}`, and must be 1 or more, in up to 5 digits alone")
    progress = Progress("draw")
    found = Refusals((Input(chip), Input(app)), range(int(number), int(number) + 1), progress, units)
    if not found.trials:
        raise Stop(NO_WORDS, f"`allocate` has no refusal {number} of these")
    picture = draw_refusal(found.refusal(found.trials[0]))
    progress.end()
    return picture.text


def wave(
    chip: str, app: str, plan_file: str, words: str, receivers: str, switches: str, cycles: str
) -> str:
    """The dump of what the links of a run carry."""
    count = cycles_of(cycles, MOST_CYCLES_OF_WAVES)
    files = DesignFiles(Input(chip), Input(app), Input(plan_file))
    log = text_of("links", *files.words, Input(words), Input(receivers), Input(switches), count)
    design = Design(read_chip(files.chip.data), read_application(files.app.data), read_plan(files.plan.data))
    return draw_wave(design.chip, design.app, design.plan, read_flits(log.encode()), count)
