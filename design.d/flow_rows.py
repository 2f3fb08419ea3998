"""Tables of flows and of seats: what their rows ask for in physical units, each with its line.

A row is judged by itself here. What it asks for is turned into words and cycles by flow_wishes.py.
"""
from collections.abc import Callable, Iterable, Iterator, Mapping, Sequence
from dataclasses import dataclass
from fractions import Fraction
from typing import NamedTuple, TypeVar
import csv
import io
import re

from ending import REFUSED, UNREAD, Stop, printable, shortened
from physical_units import RATES, TIMES, UnitFault, quantity_of
from program import Input

NAME = "[a-z0-9_]{1,32}"
MOST_BYTES = 1_048_576  # of a table
MOST_LINES_TOLD = 5  # of further rows with faults


class RowFault(Exception):
    """What is wrong with a row: its line, from 1 on, and why."""

    def __init__(self, line: int, why: str) -> None:
        super().__init__(why)
        self.line, self.why = line, why


class Asked(NamedTuple):
    """A cell with a number and a unit: its text, its value in bytes a second or in seconds, and its unit."""

    text: str
    value: Fraction
    unit: str


@dataclass(frozen=True)
class AskedWish:
    """What a row asks of a channel; what it leaves open is none."""

    rate: Asked | None
    latency: Asked | None
    delay: Asked | None


@dataclass(frozen=True)
class Flow:
    """A row of flows: a connection, what it asks of its two channels, and its use cases; none where it runs in all."""

    line: int
    name: str  # empty where the row leaves it open
    source: str
    target: str
    fwd: AskedWish
    back: AskedWish
    uses: tuple[str, ...]


@dataclass(frozen=True)
class Seat:
    """A row of seats: a core, and the interface to which it is fixed, if it is."""

    line: int
    core: str
    interface: str | None


class Row(NamedTuple):
    """A row with cells: its line, and each cell by its column."""

    line: int
    cells: dict[str, str]


@dataclass(frozen=True)
class Table:
    """A table: the comments above its header, its rows, and the unit that the header has for a column."""

    comments: list[str]
    rows: list[Row]
    units: Mapping[str, str]


QUANTITIES = {
    "rate": RATES, "latency": TIMES, "delay": TIMES, "back_rate": RATES, "back_latency": TIMES, "back_delay": TIMES,
}
FLOW_COLUMNS = ("from", "to", "rate", "latency", "delay", "back_rate", "back_latency", "back_delay", "uses", "name")
NEEDED = {"flow": ("from", "to", "rate"), "seat": ("core", "interface")}
COLUMNS = {"flow": FLOW_COLUMNS, "seat": ("core", "interface")}
MOST_ROWS = {"flow": 512, "seat": 256}


def text_in(file: Input) -> str:
    """The text of a table, or a stop where it can't be read."""
    if file.unread:
        raise Stop(UNREAD, f"{shortened(file.name)}: {file.unread}")
    if len(file.data) > MOST_BYTES:
        raise Stop(REFUSED, f"{shortened(file.name)} has more than {MOST_BYTES:,} bytes")
    try:
        return file.data.decode("utf-8").removeprefix("\ufeff")
    except UnicodeDecodeError as error:
        line = file.data.count(b"\n", 0, error.start) + 1
        raise RowFault(line, "a byte isn't UTF-8") from error


def comments_above(text: str) -> list[str]:
    """The comments before the first row, without their signs."""
    found = []
    for line in text.splitlines():
        if line.strip() and not line.lstrip().startswith("#"):
            break
        if line.strip():
            found.append(printable(line.strip()[1:].strip()))
    return found


def records_in(text: str) -> Iterator[tuple[int, list[str]]]:
    """The records of a table with their lines: neither empty lines nor comments."""
    lines = ("\n" if line.lstrip().startswith("#") else line for line in io.StringIO(text, newline=None))
    reader = csv.reader(lines, skipinitialspace=True, strict=True)
    while True:
        try:
            cells = next(reader, None)
        except csv.Error as error:
            raise RowFault(reader.line_num, f"it is no row of cells with commas: {error}") from error
        if cells is None:
            return
        if any(map(str.strip, cells)):
            yield reader.line_num, [cell.strip() for cell in cells]


class Head(NamedTuple):
    """A cell of the header: its column, and the unit that it has for cells without one."""

    column: str
    unit: str


def head_of(cell: str, kind: str, line: int) -> Head:
    """A cell of the header, as `rate` or `rate (MB/s)`."""
    column, _, rest = cell.replace("(", " ").partition(" ")
    unit, units = rest.strip(" )"), QUANTITIES.get(column)
    if column not in COLUMNS[kind]:
        raise RowFault(line, f"`{printable(shortened(cell, 40))}` is no column: these are {', '.join(COLUMNS[kind])}")
    if unit and not (units and unit in units):
        told = f": these are {', '.join(filter(str.isascii, units))}" if units else ", which has none"
        raise RowFault(line, f"`{printable(shortened(unit, 40))}` is no unit of column `{column}`{told}")
    return Head(column, unit)


def row_of(line: int, cells: Sequence[str], columns: Sequence[str]) -> Row:
    """A row; cells that are missing at its end are empty."""
    if any(cells[len(columns) :]):
        raise RowFault(line, f"it has {len(cells)} cells, and the header has {len(columns)} columns")
    texts = [*cells, *[""] * (len(columns) - len(cells))]
    return Row(line, {column: "" if text == "-" else text for column, text in zip(columns, texts)})


def table_of(text: str, kind: str) -> Table:
    """The table of a text."""
    records = records_in(text)
    line, first = next(records, (1, []))
    heads = [head_of(cell, kind, line) for cell in first]
    columns = [head.column for head in heads]
    for column in NEEDED[kind]:
        if column not in columns:
            raise RowFault(line, f"the header has no column `{column}`: the columns are {', '.join(COLUMNS[kind])}")
    twice = next((column for place, column in enumerate(columns) if column in columns[:place]), None)
    if twice:
        raise RowFault(line, f"the header has column `{twice}` twice")
    rows: list[Row] = []
    for line, cells in records:
        if len(rows) == MOST_ROWS[kind]:
            raise RowFault(line, f"these are more than {MOST_ROWS[kind]} {kind}s")
        rows.append(row_of(line, cells, columns))
    if not rows:
        raise RowFault(line, f"no {kind} stands below the header")
    return Table(comments_above(text), rows, dict(heads))


def name_in(row: Row, column: str) -> str:
    """The name that a row has in a column."""
    text = row.cells.get(column, "")
    if not re.fullmatch(NAME, text):
        told = f"`{printable(shortened(text, 40))}` is no name" if text else "it has no name"
        raise RowFault(row.line, f"{column}: {told}, which has 1 to 32 of a-z, 0-9 and _")
    return text


def asked_in(row: Row, column: str, unit: str) -> Asked | None:
    """What a row asks in a column; none where it is empty, or no rate or delay."""
    text, units = row.cells.get(column, ""), QUANTITIES[column]
    if not text or not column.endswith("latency") and re.fullmatch(r"0(\.0+)?", text):
        return None
    try:
        found = quantity_of(text, "rate" if units is RATES else "time", units, unit)
    except UnitFault as fault:
        raise RowFault(row.line, f"{column}: {fault}") from fault
    if not found.number and not column.endswith("latency"):
        return None
    shown = text if text.endswith(found.unit) else f"{text} {found.unit}"
    return Asked(shown, found.number * units[found.unit], found.unit)


def flow_of(row: Row, units: Mapping[str, str]) -> Flow:
    """The flow of a row."""
    def wish(side: str) -> AskedWish:
        return AskedWish(*(asked_in(row, side + column, units.get(side + column, "")) for column in ("rate", "latency", "delay")))

    source, target = name_in(row, "from"), name_in(row, "to")
    if source == target:
        raise RowFault(row.line, f"the flow leads from core `{source}` to itself")
    uses = tuple(dict.fromkeys(re.findall(r"[^\s;]+", row.cells.get("uses", ""))))
    for use in uses:
        if not re.fullmatch(NAME, use):
            raise RowFault(row.line, f"uses: `{printable(shortened(use, 40))}` is no name, which has 1 to 32 of a-z, 0-9 and _")
    name = name_in(row, "name") if row.cells.get("name") else ""
    return Flow(row.line, name, source, target, wish(""), wish("back_"), uses)


def seat_of(row: Row) -> Seat:
    """The seat of a row."""
    return Seat(row.line, name_in(row, "core"), name_in(row, "interface") if row.cells["interface"] else None)


Given = TypeVar("Given")
Made = TypeVar("Made")


def all_of(rows: Iterable[Given], make: Callable[[Given], Made]) -> list[Made]:
    """What each row makes, or a fault that tells the first wrong row, and the lines of further ones."""
    made: list[Made] = []
    faults: list[RowFault] = []
    for row in rows:
        try:
            made.append(make(row))
        except RowFault as fault:
            faults.append(fault)
    if faults:
        raise joined(faults)
    return made


def joined(faults: Sequence[RowFault]) -> RowFault:
    """The first of some faults, with the lines of the others."""
    first, lines = faults[0], sorted({fault.line for fault in faults} - {faults[0].line})
    if not lines:
        return first
    told = ", ".join(map(str, lines[:MOST_LINES_TOLD])) + (" .." if len(lines) > MOST_LINES_TOLD else "")
    return RowFault(first.line, f"{first.why}; and faults in line{'s' if len(lines) > 1 else ''} {told}")


def refused(file: Input, fault: RowFault) -> Stop:
    """How the script ends of a fault in a file."""
    return Stop(REFUSED, f"{printable(shortened(file.name, 200))}, line {fault.line}: {fault.why}")
