"""Refused units in words: why no path suits, or that the slots which are left lie too far apart, and what may help."""
from collections.abc import Iterator

from files import Files
from fit import SIZES, Choice, all_tries
from given import Given
from paths import Ways, why_none
from physical_units import in_time
from plan_texts import RefusedUnit
from turns import Trial

MOST_TRIED = 3  # units that are tried with other latencies
MOST_SECONDS = 2  # of an allocation that is done again and again
HELP = (
    "More slots, a greater detour%s may help, or cores without an `ni` of their own: `./design fit` tries tables and detours, "
    "and `./aeth explain` tells which links were too full, or `./draw refusal` shows them."
)
OF_WISH = ", a lower rate or a greater latency"
OF_RATE = " or a lower rate"  # where no latency helps


def group_named(given: Given, group: int) -> str:
    """A group by its number, with the names of its use cases."""
    return f"group {group} ({', '.join(given.app.uses_of(group))})"


def listed(numbers: list[int]) -> str:
    """Numbers in words."""
    words = [f"{number}" for number in numbers]
    return words[0] if len(words) == 1 else f"{', '.join(words[:-1])} and {words[-1]}"


def why_no_slots(given: Given, refused: list[RefusedUnit], unit: RefusedUnit) -> tuple[str | None, bool]:
    """Why the slots that are left don't suit a channel, where it can be told, and whether it is that they are too far apart."""
    trial = Trial(given, refused, unit)
    found, latency = trial.found(), trial.wished
    if found is None:
        return None, False
    if found.latency is None:
        return "No path that it may take has slots enough that are free, whatever its latency is.", False
    apart = "The slots that others leave are enough, and too far apart"
    if found.grant:
        delay = given.chip.delay_of(found.grant.links)
        allowed = f"one of {latency + 1 - delay}" if latency >= delay else "none"
        apart += (
            f": along the path {','.join(map(str, found.grant.links))}, of {delay} cycles{in_time(delay, given.units)}, their greatest "
            f"gap is {found.latency + 1 - delay}, and its latency of {latency}{in_time(latency, given.units)} allows {allowed}"
        )
    suits = f"{found.latency:,}{in_time(found.latency, given.units)}"
    return f"{apart}. With a latency of {suits} or more it has a candidate in its turn.", True


def what_fits(given: Given) -> str:
    """Which tables grant everything, with the detour and the cost that the application has."""
    app = given.app
    choices = [Choice(size, app.detour, app.cost) for size in SIZES]
    tries = all_tries(Files(given.files["chip"], given.files["app"]), choices, is_measured=False)
    fits = [one.choice.slots for one in tries if one.fits]
    if not fits:
        return f"`./design fit` finds: with this detour and cost no table of {listed(list(SIZES))} slots grants everything."
    tables = f"a table of {fits[0]} slots grants" if len(fits) == 1 else f"each table of {listed(fits)} slots grants"
    return f"`./design fit` finds: with this detour and cost {tables} everything, and none of the others that it tries."


class Units:
    """The refused units of an answer, each told in its turn."""

    def __init__(self, given: Given, refused: list[RefusedUnit]) -> None:
        self.given, self.refused = given, refused
        self.ways = Ways(given.chip)
        self.tried = 0
        self.some_apart = False
        self.may_help: set[str] = set()  # which of a wish may, beside the table and the detour

    def told(self, unit: RefusedUnit) -> list[str]:
        """A refused unit in words, with why, as far as it can be told."""
        lines = [
            f"Connection `{unit.connection}` in {group_named(self.given, unit.group)}: in turn {unit.turn} its channel {unit.side} "
            "had no admissible path with a suitable set of free slots."
        ]
        connection, units = self.given.app.connections[unit.connection], self.given.units
        if units:
            wish = connection.wish(unit.side)
            asked = f"wishes {units.rate(wish.words, wish.per, up=True)}" if wish.words else "carries credits alone,"
            lines.append(f"It {asked} within {units.time(wish.latency)}.")
        why = why_none(self.ways, self.given.app, connection, unit.side, units)
        if why is None and self.tried < MOST_TRIED and self.given.seconds < MOST_SECONDS:
            self.tried += 1
            why, is_apart = why_no_slots(self.given, self.refused, unit)
            self.some_apart |= is_apart
            self.may_help |= set() if is_apart else {OF_RATE if why else OF_WISH}
        elif why is None:
            self.may_help.add(OF_WISH)
        return lines + ([why] if why else [])

    def at_the_end(self) -> Iterator[str]:
        """What may help."""
        if self.some_apart:
            yield what_fits(self.given)
        if self.may_help:
            yield HELP % (OF_WISH if OF_WISH in self.may_help else OF_RATE)
