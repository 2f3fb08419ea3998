"""Owns the page of a report: one HTML text that needs nothing else.

The table of channels stands in it as data, of which the page's script shows as many rows as are looked at. Data and pictures
stand in it compressed, and a picture is unpacked when it is opened.
"""
from base64 import b64encode
from concurrent.futures import ThreadPoolExecutor
from dataclasses import dataclass
from fractions import Fraction
from html import escape
import json
import os
import pathlib
from typing import TypeAlias
import zlib

from physical_units import PhysicalUnits
from player_page import Player, player_parts
from report_data import Line
from svg import Picture

HERE = pathlib.Path(__file__).resolve().parent
Value: TypeAlias = int | float | str | None
Cell: TypeAlias = Value | list[Value]  # a number with what stands beside it is a list


@dataclass(frozen=True)
class Column:
    """A column of the table of channels. `kind` is text, number, or share for a bar; `tells` says what it is."""

    name: str
    unit: str
    kind: str
    tells: str


@dataclass(frozen=True)
class Shown:
    """A picture of the page, with its name and what it tells."""

    name: str
    anchor: str
    told: list[str]
    picture: Picture


@dataclass(frozen=True)
class Verdict:
    """A line on the whole. Its kind is good, bad where a promise or a wish isn't kept, or note where the network keeps all
    promises and something else doesn't keep its own."""

    text: str
    kind: str


@dataclass(frozen=True)
class Report:
    """What stands on the page."""

    title: str
    verdict: Verdict
    refused: list[str]  # a sentence for each refused unit
    lines: list[Line]
    pictures: list[Shown]
    has_run: bool
    hardware: Verdict | None = None
    units: PhysicalUnits | None = None  # in which rates and times are told too
    player: Player | None = None


RATE = "words in 1,000\u00a0cycles"
PLACES = (
    Column("channel", "", "text", "connection and side"),
    Column("use cases", "", "text", "those of the group that have the connection"),
    Column("from", "core", "text", "the core that sends"),
    Column("to", "core", "text", "the core that receives"),
)
WISHES = (
    Column("wished", RATE, "number", "what the application wishes, and in brackets as the file tells it"),
    Column("within", "cycles", "number", "cycles within which a word that comes alone is to land"),
)
PROMISES = (
    Column("rate", RATE, "number", "what the plan guarantees, and in brackets in the cycles of a table"),
    Column("latency", "cycles", "number", "how much later than by a steady server of the rate a word lands at the most"),
    Column("buffer", "words", "number", "words that the receiver has room for"),
    Column("path", "links", "number", "links of the path"),
)
RUN = (
    Column("offered", "words", "number", "words offered in sessions"),
    Column("landed", "words", "number", "words that landed before the run ended"),
    Column("late", "words", "number", "words that landed after their due cycle"),
    Column("overdue", "words", "number", "words that hadn't landed when they were due"),
    Column("dropped", "words", "number", "words that a switch cut off, not landed or not taken"),
    Column("median", "cycles", "number", "from offer to landing, of the middle word"),
    Column("worst", "cycles", "number", "from offer to landing, of the slowest word"),
    Column("nearest", "%\u00a0of\u00a0due", "share", "the greatest share of the time up to its due cycle that a word took"),
)
# With physical units these stand behind the columns of the same names.
IN_UNITS = {
    "wished": Column("wished", "MB/s", "number", "the same in MB/s"),
    "within": Column("within", "ns", "number", "the same in ns"),
    "rate": Column("rate", "MB/s", "number", "the same in MB/s"),
    "latency": Column("latency", "ns", "number", "the same in ns"),
    "median": Column("median", "ns", "number", "the same in ns"),
    "worst": Column("worst", "ns", "number", "the same in ns"),
}
BROKEN = Column("promise ended", "cycle", "number", "where the receiver hadn't taken a word within its delay")
REFUSED = Column("refused", "side, turn", "text", "the side without a path, and the turn; both sides of a refused unit are told")


def columns_of(report: Report) -> list[Column]:
    """The columns of a report, with those in physical units where there are some."""
    columns = plain_columns(report)
    if report.units is None:
        return columns
    return [each for column in columns for each in (column, IN_UNITS.get(column.name)) if each]


def plain_columns(report: Report) -> list[Column]:
    """The columns of a report in words and cycles: those that have something in them."""
    columns = [*PLACES, *WISHES]
    if report.refused:
        return [*PLACES[:1], REFUSED, *PLACES[1:], *WISHES]
    columns += PROMISES
    if report.has_run:
        columns += RUN
        if any(line.broken is not None for line in report.lines):
            columns.append(BROKEN)
    return columns


def short(value: float | None) -> float | None:
    """A number as it is shown, with one decimal at most."""
    return None if value is None else round(value, 1)


def cells_of(line: Line) -> dict[Column, Cell]:
    """What stands in the columns of a line."""
    wished, rate = f"{line.wish.words} in {line.wish.per}", f"{line.rate} in {line.slots}"
    refused = line.refused
    nearest = None if line.nearest is None else round(100 * line.nearest)
    values: list[Cell] = [
        line.name, ", ".join(line.uses), line.sender, line.receiver, [short(line.wished_rate), wished], line.wish.latency,
        None if line.rate is None else [short(line.granted_rate), rate], line.latency, line.buffer, line.links,
        line.offered, line.landed, line.late, line.overdue, line.dropped, short(line.middle), line.worst, nearest,
        line.broken, None if refused is None else f"{refused.side}, {refused.turn}",
    ]
    return dict(zip((*PLACES, *WISHES, *PROMISES, *RUN, BROKEN, REFUSED), values))


def units_of(line: Line, units: PhysicalUnits) -> dict[Column, Cell]:
    """What stands in the columns of a line that are in physical units: what is wished and guaranteed, rounded to its safe side."""
    def time(cycles: float | None, up: bool = True) -> Cell:
        return None if cycles is None else float(units.nanoseconds(Fraction(cycles), up))

    wished = float(units.megabytes(line.wish.words, line.wish.per, up=True))
    rate = None if line.rate is None else float(units.megabytes(line.rate, line.slots))
    cells = [wished, time(line.wish.latency, up=False), rate, time(line.latency), time(line.middle), time(line.worst)]
    return dict(zip(IN_UNITS.values(), cells))


def mark_of(line: Line) -> str:
    """Whether a line is bad, is to be noted, or is neither."""
    if line.refused or line.failed:
        return "bad"
    return "note" if line.late or line.overdue else ""


def data_of(report: Report) -> str:
    """The rows of the table, each with its mark first, as the page's script reads them."""
    columns = columns_of(report)
    rows = []
    for line in report.lines:
        cells = cells_of(line) | (units_of(line, report.units) if report.units else {})
        rows.append([mark_of(line), *(cells[column] for column in columns)])
    return packed(json.dumps(rows, separators=(",", ":")))


def heads_of(columns: list[Column]) -> str:
    """The head of the table, each column with its unit."""
    return "".join(
        f'<th scope="col" class="{column.kind}" title="{escape(column.tells)}"><button type="button">{escape(column.name)}'
        f"<small>{escape(column.unit) or '&nbsp;'}</small></button></th>"
        for column in columns
    )


def explained(columns: list[Column]) -> str:
    """What the columns are, in words, for readers without a pointer."""
    items = "".join(
        f"<dt>{escape(column.name)}{escape(', ' + column.unit if column.unit else '')}</dt><dd>{escape(column.tells)}</dd>"
        for column in columns
    )
    return f"<details class=key><summary>What the columns are</summary><dl>{items}</dl></details>"


def tools(report: Report) -> str:
    """The search, and the choice of what is bad."""
    only = "refused" if report.refused else "late or overdue"
    choice = f'<label><input type="checkbox" id="only"> only what is {only}</label>' if report.refused or report.has_run else ""
    return (
        '<div class="tools"><label>Show <input type="search" id="search" placeholder="channel, core, use case"></label>'
        f'{choice}<span id="count" class="less" role="status"></span></div>'
    )


def packed(text: str) -> str:
    """A text as the page's script unpacks it."""
    return b64encode(zlib.compress(text.encode(), 9)).decode("ascii")


def figure(shown: Shown, is_open: bool) -> str:
    """A picture, which is unpacked when it is opened: as a document of its own, so that its style and names stay within it."""
    told = "".join(f"<p>{escape(sentence)}</p>" for sentence in shown.told)
    size = f'data-width="{shown.picture.width}" data-height="{shown.picture.height}"'
    return (
        f'<details class="picture" id="{escape(shown.anchor)}"{" open" if is_open else ""}><summary>{escape(shown.name)}</summary>'
        f'{told}<figure {size}></figure><script type="text/plain">{packed(shown.picture.text)}</script></details>'
    )


def player_section(player: Player) -> str:
    """The player, which is made when it is opened."""
    told = f"<p class=less>{escape(player.told)}</p>" if player.told else ""
    if not player.packed:
        return f"<h2>Flits</h2>{told}"
    return (
        f'<h2>Flits</h2>{told}<details class="player" id="play"><summary>Play: which flit is on which link</summary>'
        f'<div id="stage"></div></details>{player_parts(player.packed, player.width)}'
    )


def page(report: Report) -> str:
    """The whole page, as a text."""
    columns = columns_of(report)
    style, script = ((HERE / name).read_text(encoding="utf-8") for name in ("report.css", "report.js"))
    title = escape(report.title)
    parts = [
        '<!DOCTYPE html>\n<html lang="en"><head><meta charset="utf-8">',
        '<meta name="viewport" content="width=device-width, initial-scale=1">',
        f"<title>{title}</title><style>{style}</style></head><body>",
        f"<h1>{title}</h1>",
        f'<p class="verdict {report.verdict.kind}">{escape(report.verdict.text)}</p>',
    ]
    if report.units:
        parts.append(f"<p class=less>{escape(report.units.told)}</p>")
    if report.hardware:
        parts.append(f'<p class="verdict {report.hardware.kind}">{escape(report.hardware.text)}</p>')
    if report.refused:
        items = "".join(f"<li>{escape(sentence)}</li>" for sentence in report.refused)
        parts.append(f'<h2>What is refused</h2><ul class="refused">{items}</ul>')
    parts.append(
        f'<h2>Channels</h2>{tools(report)}<div class="wide" tabindex="0"><table><thead><tr>{heads_of(columns)}</tr></thead>'
        f"<tbody></tbody></table></div>{explained(columns)}<noscript><p>The table and the pictures need JavaScript.</p></noscript>"
    )
    if report.pictures:
        parts.append(f"<h2>Pictures</h2><p class=less>{READING}</p>")
        is_open = [not at and len(report.pictures) <= MOST_OPEN for at in range(len(report.pictures))]
        with ThreadPoolExecutor(os.cpu_count() or 1) as pool:  # which packs them side by side
            parts += pool.map(figure, report.pictures, is_open)
    if report.player:
        parts.append(player_section(report.player))
    parts.append(f'<script type="text/plain" id="rows">{data_of(report)}</script>')
    parts.append(f'<script type="module">{script}</script></body></html>\n')
    return "\n".join(parts)


MOST_OPEN = 4  # pictures of a page whose first one is open from the beginning
READING = escape(
    "A picture is unpacked when it is opened. In a plan a full cell is a slot of a forward channel and a lower one of a back "
    "channel; at the end of each table stands the number of its link. A channel's path stands out where the pointer rests on "
    "it, or where a click or the tab key has chosen it."
)
