"""What a refusal of `aeth` means, in words: file, line, key, what stands there, and the rule that it breaks."""
from collections.abc import Callable, Sequence
from functools import cached_property
import time

from ending import Result, Stop, fault_of, printable
from given import Given
from physical_units import in_time, without_units
from places import WALKS
from plan_texts import read_refused
from plans import why_broken
from pointing import in_rows, in_toml, rows_at, why_no_toml
from program import AETH, MOST_BYTES, answer, told_by
from rules import SECTIONS, broken_at, columns_of, forms_of, rules_of, rules_of_logs, rules_of_plans
from run_texts import FlitRow, records_of
from toml_lines import TomlError
from units import Units, group_named
from usage import usage


def in_file(given: Given, kind: str, rule: int, name: str, place: int, value: str) -> list[str]:
    """A refusal of a file in words: where it points, and what its rule says."""
    title, at = SECTIONS[kind], None
    if name == "BadToml":
        shown = [why_no_toml(given, kind)]
    elif kind in WALKS:
        try:
            where_, at = in_toml(given, kind, rule, place, value)
        except TomlError as error:
            where_ = f"{given.name(kind)}: {printable(error.why)}"
        shown = [where_]
    else:
        shown = in_rows(given, kind, name, place, value)
    more = [columns_of(kind)] if name == "BadRow" else [forms_of(title)] if name == "BadLine" else []
    return shown + [f"Rule {rule} of {title.lower()}, {name}, is broken where {broken_at(kind, title, rule, at)}."] + more


def refusal(given: Given, kind: str, rule: int, name: str, place: int, value: str) -> list[str]:
    """A refusal line in words."""
    if name == "TooLong":
        return [f"{given.name(kind)}: it has more than {MOST_BYTES:,} bytes, the most that a file may have."]
    if kind == "use":
        return [f"No use case of {given.name('app')} has the name `{value}`: they are {', '.join(given.app.uses)}."]
    if kind == "chain":
        item = f"Item {place} of the chain: {given.by_kind['chain'].split(',')[place - 1]}"
        return [item, f"Rule {rule} of chains, {name}, is broken where {rules_of('`chain`')[rule]}."]
    return in_file(given, kind, rule, name, place, value)


def broken_plan(given: Given, rule: str, *numbers: str) -> list[str]:
    """The lines of a plan that break a rule, what the rule says, and what is wrong with them."""
    lines = [int(number) for number in numbers if number != "0"]
    shown = rows_at(given, "plan", lines)
    says = f"Rule {rule} of an accepted plan is broken where {rules_of_plans()[rule].strip()}."
    if rule == "2":
        seats = given.plan.interface_of()
        core = next(core for core in given.app.cores.values() if core.interface not in (None, seats.get(core.name)))
        return (shown or [f"{given.name('plan')}: it has no line `seat {core.name} {core.interface} ..`"]) + [says]
    grants = [grant for number in lines for grant in given.plan.grants if grant.line == number]
    why = why_broken(int(rule), grants, given.plan, given)
    return shown + [says] + ([why] if why else [])


def fault(given: Given, rule: str, number: str) -> list[str]:
    """A row of a log that an audit finds, and the rule that it breaks."""
    shown = rows_at(given, "log", [int(number)])
    row = FlitRow(*map(int, list(records_of(given.files["log"].data))[int(number)]))
    link, slot = given.chip.links[row.link], row.cycle % given.chip.slots
    shown += [f"Link {row.link} leads from {link.source} to {link.target}, and cycle {row.cycle}{in_time(row.cycle, given.units)} is slot {slot}."]
    return shown + [f"It breaks rule {rule} of the rows of a clean log, which says: {rules_of_logs()[rule]}"]


def unread(given: Given, kind: str) -> list[str]:
    """Why a file can't be read, as far as it can be told."""
    why = given.files[kind].unread if kind in given.files else ""
    return [f"{given.name(kind)} can't be read" + (f": {why}." if why else ".")]


def told(given: Given, line: str) -> list[str]:
    """A line of standard error in words, or none where it says enough."""
    word, *rest = line.split(" ")
    if line == "usage":
        return usage(given.words)
    if word == "refused":
        kind, rule, name, place, value = rest
        return refusal(given, kind, int(rule), name, int(place), value)
    if word == "broken":
        return broken_plan(given, *rest)
    if word == "missing":
        group = group_named(given, int(rest[1]))
        return [f"The plan has no grant for channel {rest[2]} of connection `{rest[0]}` in {group}."]
    if word == "fault":
        return fault(given, *rest)
    if line.startswith("not dead "):
        return rows_at(given, "cert", [int(rest[1])]) + ["Its links are no cut of the try above it."]
    if word == "open":
        return [f"No cut of the try begins the path {rest[3]} of channel {rest[2]} of connection `{rest[0]}`."]
    if line.startswith("read fault "):
        return unread(given, rest[1])
    return []


def safely(tells: Callable[[], list[str]]) -> list[str]:
    """Words on a line. What fails here takes nothing away from what `aeth` said."""
    try:
        return tells()
    except TomlError as error:
        return [f"What this points at can't be told: {printable(error.why)}."]
    except Stop as stop:
        return [printable(stop.why)]
    except MemoryError:
        return ["Memory is wanting for what this points at."]
    except Exception as error:
        return [f"What this points at can't be told: {fault_of(error)}"]


class Telling:
    """The lines of an answer, which are told one after the other."""

    def __init__(self, given: Given, errors: str) -> None:
        self.given, self.lines = given, errors.split("\n")[: errors.count("\n")]
        self.refused = read_refused(errors)
        self.next = iter(self.refused)

    @cached_property
    def units(self) -> Units:
        return Units(self.given, self.refused)

    def one(self, line: str) -> list[str]:
        if line.startswith("refused unit "):
            return self.units.told(next(self.next))
        return told(self.given, line)

    def all(self) -> str:
        """Each line as `aeth` wrote it, with the words on it below it, and at the end what may help."""
        texts = []
        for line in self.lines:
            texts += [line, *("  " + tell for tell in safely(lambda: self.one(line)))]
        if self.refused:
            texts += ["  " + tell for tell in safely(lambda: list(self.units.at_the_end()))]
        return "".join(text + "\n" for text in texts)



def where(words: Sequence[str]) -> Result:
    """Runs a command, and says what it refuses in words. Gives its status, and both texts with these words."""
    given = Given(*without_units(words))
    began = time.monotonic()
    told_ = answer(*given.for_program) if given.is_of_program else told_by(AETH, given.for_program)
    given.seconds = time.monotonic() - began
    errors = told_.errors if told_.errors.endswith("\n") or not told_.errors else told_.errors + "\n"
    return Result(told_.text, told_.status, Telling(given, errors).all())
