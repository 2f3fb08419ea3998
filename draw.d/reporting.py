"""Owns how a report is made of its words: as a page, or as tables for other programs."""
from collections.abc import Sequence
from dataclasses import dataclass

from design_files import read_application, read_chip
from ending import NO_WORDS, Passed, Stop, printable, shortened
from making import MOST_CYCLES, DesignFiles, Refusals, cycles_of, design_of, run_of, title_of
from physical_units import PhysicalUnits
from plan_texts import RefusedUnit, read_refused
from playing import player_of
from program import Input, answer, text_of
from progress import Progress
from report import draw_report, refused_report, refused_verdict, rows_of, rows_of_refusals, verdict_of
from report_page import Verdict
from report_tables import NAMES, csv_of, json_of
from runs import RunFiles
from table_columns import Facts

MOST_REFUSALS = 8  # of a page, that have pictures


@dataclass(frozen=True)
class Form:
    """What a report is: a page, one of its tables as CSV, or all of them as JSON."""

    table: str = ""  # as CSV
    is_json: bool = False

    @property
    def is_page(self) -> bool:
        return not (self.table or self.is_json)

    def text(self, facts: Facts, verdict: Verdict, hardware: Verdict | None = None) -> str:
        """The tables of a report that is no page."""
        return json_of(facts, verdict, hardware) if self.is_json else csv_of(facts, self.table)


@dataclass(frozen=True)
class FormedWords:
    """The words of a report without those on its form, and the form."""

    words: list[str]
    form: Form


def without_form(words: Sequence[str]) -> FormedWords:
    """Takes `--csv`, with the word behind it, and `--json` out of the words of a report."""
    found: dict[str, str] = {}
    rest: list[str] = []
    left = iter(words)
    for word in left:
        name, joined, value = word.partition("=")
        if word != "--json" and name != "--csv":
            rest.append(word)
            continue
        if found:
            raise Stop(NO_WORDS, f"{name} stands twice" if name in found else "a report is one of --csv TABLE and --json")
        found[name] = "" if name == "--json" else value if joined else next(left, "")
    table = found.get("--csv")
    if table is not None and table not in NAMES:
        shown = f"`{printable(shortened(table))}` is none of" if table else "a word is missing behind it:"
        raise Stop(NO_WORDS, f"--csv: {shown} {', '.join(NAMES)}")
    return FormedWords(rest, Form(table or "", "--json" in found))


def report(
    chip: str, app: str, plan_file: str, *of_run: str, units: PhysicalUnits | None = None, form: Form = Form()
) -> str:
    """The report of a plan and, where the last words name its files and cycles, of a run. A plan that `allocate` didn't
    print, since it refused units, is told with these."""
    with_hardware, of_run = of_run[4:] != (), of_run[:4]
    cycles = cycles_of(of_run[3], MOST_CYCLES) if of_run else 0
    progress, title = Progress("draw"), title_of(app)
    files = DesignFiles(Input(chip), Input(app), Input(plan_file))
    run_files = RunFiles(*map(Input, of_run[:3])) if of_run else None
    if not files.plan.data and not files.plan.unread:
        told = answer("allocate", files.chip, files.app)
        refused = read_refused(told.errors)
        if refused:
            if form.is_page:
                return report_of_refusals(title, files, refused, progress, units)
            return tables_of_refusals(title, files, refused, units, form)
        if told.status:
            raise Passed(told.status, told.errors)
    text_of("check", *files.words)
    if run_files is None:
        design, shown = design_of(files, units), None
    else:
        design, shown = run_of(files, run_files, cycles, progress, units)
    hardware = hardware_verdict(files, run_files, cycles, progress) if run_files and with_hardware else None
    if form.is_page:
        player = player_of(files, run_files, design, shown, progress)
        text = draw_report(title, design, shown, progress, hardware, player)
    else:
        rows = rows_of(design, shown)
        facts = Facts(title, design.chip, design.app, rows, design.plan, shown, units)
        text = form.text(facts, verdict_of(rows, shown), hardware)
    progress.end()
    return text


def hardware_verdict(files: DesignFiles, run_files: RunFiles, cycles: int, progress: Progress) -> Verdict:
    from report_hardware import verdict_on  # which takes longer to load than most pages take to make

    progress.say("the hardware is made and simulated")
    return verdict_on(files, run_files, cycles)


def tables_of_refusals(
    title: str, files: DesignFiles, refused: Sequence[RefusedUnit], units: PhysicalUnits | None, form: Form
) -> str:
    """The tables of a design of which units are refused."""
    chip, app = read_chip(files.chip.data), read_application(files.app.data)
    rows = rows_of_refusals(app, chip.slots, refused)
    return form.text(Facts(title, chip, app, rows, units=units), refused_verdict(rows, refused))


def report_of_refusals(
    title: str, files: DesignFiles, refused: Sequence[RefusedUnit], progress: Progress, units: PhysicalUnits | None
) -> str:
    """The page of a design of which units are refused."""
    found = Refusals((files.chip, files.app), range(1, MOST_REFUSALS + 1), progress, units)
    shown = [found.refusal(trial) for trial in found.trials]
    page = refused_report(title, found.chip, found.app, refused, shown, progress, units)
    progress.end()
    return page
