"""Owns a table for other programs: its columns with their units, its rows, and how it stands as CSV and as JSON."""
from collections.abc import Callable, Iterable, Sequence
from dataclasses import dataclass
from typing import Generic, TypeAlias, TypeVar
import csv
import io

from design_files import Application, Chip
from physical_units import PhysicalUnits
from plan_texts import Plan
from report_data import Line
from runs import Run

PLACES = 3  # behind the point of a number that isn't whole
Row = TypeVar("Row")
Value: TypeAlias = int | float | str | list[int] | list[str] | None
Json: TypeAlias = "dict[str, Json] | list[Json] | list[int] | list[str] | str | int | float | None"


@dataclass(frozen=True)
class Facts:
    """What the tables of a report tell of: a plan there is only where everything is granted, a run and physical units where they
    were asked for."""

    title: str
    chip: Chip
    app: Application
    lines: Sequence[Line]
    plan: Plan | None = None
    run: Run | None = None
    units: PhysicalUnits | None = None


@dataclass(frozen=True)
class Column(Generic[Row]):
    """A column: its name, the unit of what stands in it, and what stands there of a row. A name with a point, as
    `load.record`, is one of several columns of a kind."""

    name: str
    unit: str
    value: Callable[[Row], Value]

    @property
    def head(self) -> str:
        return f"{self.name} [{self.unit}]" if self.unit else self.name


@dataclass(frozen=True)
class Table(Generic[Row]):
    """A table. What a row doesn't have is empty, and null in JSON."""

    columns: Sequence[Column[Row]]
    rows: Iterable[Row]

    def csv(self, version: int) -> str:
        """The table with its version in each row. The items of a list have a space between them."""
        text = io.StringIO()
        writer = csv.writer(text, lineterminator="\n")
        writer.writerow(["version", *(column.head for column in self.columns)])
        for row in self.rows:
            writer.writerow([version, *(cell_of(column.value(row)) for column in self.columns)])
        return text.getvalue()

    def json(self) -> list[Json]:
        """An object for each row."""
        found: list[Json] = []
        for row in self.rows:
            told: dict[str, Json] = {}
            for column in self.columns:
                put(told, column.name, column.value(row))
            found.append(told)
        return found

    def units(self) -> dict[str, Json]:
        """The unit of each column that has one."""
        told: dict[str, Json] = {}
        for column in self.columns:
            if column.unit:
                told[column.name.partition(".")[0]] = column.unit
        return told


def short(value: float | None) -> int | float | None:
    """A number with few digits behind the point; a whole one has none."""
    return None if value is None else int(value) if value == int(value) else round(value, PLACES)


def cell_of(value: Value) -> str | int | float:
    if value is None:
        return ""
    return " ".join(map(str, value)) if isinstance(value, list) else value


def put(told: dict[str, Json], name: str, value: Value) -> None:
    """Puts a value under its name, or under the two parts of it."""
    first, point, second = name.partition(".")
    if not point:
        told[first] = value
        return
    inner = told.setdefault(first, {})
    assert isinstance(inner, dict)
    inner[second] = value
