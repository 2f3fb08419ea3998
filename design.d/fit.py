"""Which table sizes, detours and prices grant everything that an application wishes."""
from collections import Counter, defaultdict
from collections.abc import Iterable, Sequence
from concurrent.futures import ThreadPoolExecutor
from dataclasses import dataclass
from itertools import product
import os

from asking import Answer
from design import uses_for_all
from design_files import Application
from ending import NO_WORDS, Result, Stop, printable
from files import Files, judged, text_of
from physical_units import PhysicalUnits
from plan_texts import Grant, Plan, read_plan, read_queues, read_refused
from program import Input, answer, made
from progress import Progress
from shapes import MOST_SLOTS, PLAIN_SLOTS

SIZES = (8, 12, 16, 24, 32, 48, 64, 96, 128)
DETOURS = (0, 1, 2)
MOST_DETOUR = 4
PRICES = ("hops", "pressure")
NONE_FITS = 3  # the status
WORDS_A_FLIT = 2


@dataclass(frozen=True)
class Choice:
    """A table size, a detour and a price."""

    slots: int
    detour: int
    price: str


@dataclass(frozen=True)
class Try:
    """A choice, and what the allocation made of it."""

    choice: Choice
    refused: int = 0  # units
    fullest: int = 0  # used slots of the fullest link in one use case
    latency: int = 0  # the greatest of all channels, in cycles
    error: str = ""

    @property
    def fits(self) -> bool:
        """Whether everything is granted."""
        return not (self.refused or self.error)


def chip_with(files: Files, slots: int) -> Input:
    """The chip's file with another table size."""
    version = 2 if slots > PLAIN_SLOTS else files.chip_tree["version"]
    return made("chip", text_of({**files.chip_tree, "version": version, "slots": slots}))


def app_with(files: Files, detour: int, price: str) -> Input:
    """The application's file with another detour and price."""
    # A use case may name another one as often as its file has room.
    uses = [{**use, "smooth": list(dict.fromkeys(use.get("smooth", ())))} for use in files.app_tree["use"]]
    return made("app", text_of({**files.app_tree, "detour": detour, "cost": price, "use": uses}))


def fullest_link(app: Application, plan: Plan) -> int:
    """The greatest number of used slots of a link in one use case."""
    most, by_group = 0, defaultdict[int, list[Grant]](list)
    for grant in plan.grants:
        by_group[grant.group].append(grant)
    for use, members in app.members.items():
        used: Counter[int] = Counter()
        for grant in by_group[app.groups[use]]:
            if grant.connection in members:
                for link in grant.links:
                    used[link] += len(grant.starts)
        most = max([most, *used.values()])
    return most


class Fitting:
    """The files of some choices, each made once."""

    def __init__(self, files: Files, choices: Iterable[Choice]) -> None:
        self.app, self.uses = files.app, uses_for_all(files.app)
        self.chips = {slots: chip_with(files, slots) for slots in {choice.slots for choice in choices}}
        pairs = {(MOST_DETOUR, PRICES[0]), *((choice.detour, choice.price) for choice in choices)}
        self.apps = {pair: app_with(files, *pair) for pair in pairs}

    def allocated(self, choice: Choice) -> Answer:
        return answer("allocate", self.chips[choice.slots], self.apps[choice.detour, choice.price])

    def granted(self, choice: Choice) -> Try:
        """Whether the allocation grants everything."""
        return seen(choice, self.allocated(choice))

    def tried(self, choice: Choice) -> Try:
        """The same, with what its plan takes and gives."""
        told = self.allocated(choice)
        found = seen(choice, told)
        return self.measured(choice, told.text) if found.fits else found

    def measured(self, choice: Choice, text: str) -> Try:
        """What a plan takes and gives. It is accepted with the greatest detour too, and so are its tables asked for: once for
        all detours and prices by which it is the same."""
        plan, latency = made("plan", text), 0
        for use in self.uses:
            told = answer("tables", self.chips[choice.slots], self.apps[MOST_DETOUR, PRICES[0]], plan, use)
            if told.status:
                return seen(choice, told)
            latency = max([latency, *(queue.latency for queue in read_queues(told.text))])
        return Try(choice, fullest=fullest_link(self.app, read_plan(plan.data)), latency=latency)


def seen(choice: Choice, told: Answer) -> Try:
    """What an answer says of a choice."""
    if told.status == 3:
        return Try(choice, refused=len(read_refused(told.errors)))
    return Try(choice, error=(printable(told.errors.strip()) or f"status {told.status}") if told.status else "")


def all_tries(files: Files, choices: Sequence[Choice], is_measured: bool = True) -> list[Try]:
    """Each choice, several at once: whether everything is granted, and what the plan takes and gives, if that is asked for."""
    results: list[Try] = []
    progress = Progress("design", f"0 of {len(choices)} choices tried")
    fitting, pool = Fitting(files, choices), ThreadPoolExecutor(os.cpu_count() or 1)
    try:
        for result in pool.map(fitting.tried if is_measured else fitting.granted, choices):
            results.append(result)
            last = f"{result.choice.slots} slots, detour {result.choice.detour}, {result.choice.price}"
            progress.say(f"{len(results)} of {len(choices)} choices tried, the last with {last}")
    finally:
        pool.shutdown(cancel_futures=True)
        progress.end()
    return results


def measures(one: Try, units: PhysicalUnits | None) -> str:
    """What a choice that grants everything takes and gives: with units as a rate and a time too."""
    rate = f" {units.megabytes(WORDS_A_FLIT * one.fullest, one.choice.slots):>8}" if units else ""
    time = f" {units.nanoseconds(one.latency):>8}" if units else ""
    return f"{one.fullest:>7}{rate} {one.latency:>7}{time}"


def table_of(results: Iterable[Try], units: PhysicalUnits | None) -> Result:
    """The choices as a table, and the smallest table that grants everything."""
    rate, time = ("     MB/s", "       ns") if units else ("", "")
    lines = [f"slots detour cost      granted       fullest{rate} latency{time}\n"]
    for one in results:
        tells = one.error or (f"{one.refused} refused" if one.refused else "all")
        rest = measures(one, units) if one.fits else ""
        choice = one.choice
        lines.append(f"{choice.slots:>5} {choice.detour:>6} {choice.price:<9} {tells:<13} {rest}".rstrip() + "\n")
    fits = [one for one in results if one.fits]
    if not fits:
        return Result("".join(lines) + "\nNone of these grants everything.\n", NONE_FITS)
    best = min(fits, key=lambda one: (one.choice.slots, one.choice.detour, one.latency, one.choice.price)).choice
    smallest = f"{best.slots} slots: detour {best.detour}, cost {best.price}"
    return Result("".join(lines) + f"\nThe smallest table that grants everything has {smallest}.\n")


def judge(sizes: Iterable[int], detours: Iterable[int], prices: Iterable[str]) -> None:
    """Stops where there is no such choice."""
    if not all(1 <= slots <= MOST_SLOTS for slots in sizes):
        raise Stop(NO_WORDS, f"a slot table has 1 to {MOST_SLOTS} slots")
    if not all(0 <= detour <= MOST_DETOUR for detour in detours):
        raise Stop(NO_WORDS, f"a detour is 0 to {MOST_DETOUR} links")
    if not all(price in PRICES for price in prices):
        raise Stop(NO_WORDS, f"a cost is {' or '.join(PRICES)}")


def fit(
    chip: str, app: str, sizes: Sequence[int], detours: Sequence[int], prices: Sequence[str], units: PhysicalUnits | None = None
) -> Result:
    """The table of choices for two files; its status says whether one grants everything."""
    files = judged(chip, app)
    judge(sizes, detours, prices)
    choices = [Choice(slots, detour, price) for slots, detour, price in product(sizes, detours, prices)]
    return table_of(all_tries(files, list(dict.fromkeys(choices))), units)
