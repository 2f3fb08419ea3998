"""Owns how the page of a player is made of its words, and the player of a report."""
from design import Design
from making import DesignFiles, cycles_of, design_of, run_of, title_of
from physical_units import PhysicalUnits
from player_data import Played, player_data, sent_flits
from player_map import map_of
from player_page import Player, packed, player_page
from program import Input, lines_of, text_of
from progress import Progress
from runs import Run, RunFiles

MOST_CYCLES = 10_000  # of a run that is played, as of a log of links
MOST_FLITS = 150_000  # on all links, of a run that a report plays
MOST_PACKED = 250_000  # bytes, of the player of a report
ALONE = "`./draw play`, with the words of this report, makes a page of its own for it"


def played_of(files: DesignFiles, run_files: RunFiles, design: Design, run: Run, progress: Progress) -> Played:
    """A run with the flits that `aeth` logs of it."""
    progress.say("aeth logs the links")
    given = run_files.words, run_files.receivers, run_files.switches
    return Played(run, sent_flits(design, lines_of("links", *files.words, *given, run.cycles)))


def player_of(
    files: DesignFiles, run_files: RunFiles | None, design: Design, run: Run | None, progress: Progress
) -> Player:
    """The player of a report: of its run and of all use cases, or of what of these isn't too large for it."""
    chip_map, uses, told = map_of(design), list(design.app.uses), ""
    if run_files and run:
        if run.cycles <= MOST_CYCLES and sum(run.flits) <= MOST_FLITS:
            played = played_of(files, run_files, design, run, progress)
            found = packed(player_data(design, chip_map, uses, played))
            if len(found) <= MOST_PACKED:
                return Player(found, chip_map.width, "")
        told = f"The run is too large to be played here. {ALONE}, of up to {MOST_CYCLES:,} cycles. "
    found = packed(player_data(design, chip_map, uses, None))
    if len(found) <= MOST_PACKED:
        return Player(found, chip_map.width, told + ("Here the slots of the use cases can be played." if told else ""))
    return Player("", 0, f"The chip and its use cases are too large to be played here. {ALONE}.")


def play(chip: str, app: str, plan: str, *rest: str, units: PhysicalUnits | None = None) -> str:
    """The page of a player: of the slots of all use cases, or of one, or of a run and of the slots of all use cases."""
    cycles = cycles_of(rest[3], MOST_CYCLES) if len(rest) > 1 else 0
    progress, title = Progress("draw"), title_of(app)
    files, played = DesignFiles(Input(chip), Input(app), Input(plan)), None
    if cycles:
        run_files = RunFiles(*map(Input, rest[:3]))
        design, run = run_of(files, run_files, cycles, progress, units)
        played = played_of(files, run_files, design, run, progress)
        title = f"{title}: a run of {cycles:,} {'cycle' if cycles == 1 else 'cycles'}"
    elif rest:
        text_of("tables", *files.words, rest[0])  # which judges all files, and the use case
        design, title = design_of(files, units), f"{title}: use case {rest[0]}"
    else:
        text_of("check", *files.words)
        design = design_of(files, units)
    progress.say("the page")
    chip_map = map_of(design)
    uses = rest if len(rest) == 1 else list(design.app.uses)
    page = player_page(title, player_data(design, chip_map, uses, played), chip_map.width)
    progress.end()
    return page
