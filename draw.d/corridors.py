"""Owns the ways of links between routers that aren't neighbours: each goes by free **corridors**, where no table stands.

A corridor lies above each row of routers and to the left of each column. A link leaves its router upwards into the
corridor of the row, goes along it to the corridor beside the column of its target, by that one to the row of the target,
and from above into it. Within one row it stays in the corridor of that row. Links that would cover each other take
tracks of their own.
"""
from collections import defaultdict
from collections.abc import Sequence
from typing import NamedTuple, Protocol, TypeAlias

from design_files import Link
from placing import Places

Point: TypeAlias = tuple[float, float]

TRACK = 9  # from a track to the next
PORT = 9  # from a link to the next one on the upper edge of a router
SPARE = 14  # in the middle of that edge, for the links to the router above


class Grid(Protocol):
    """Where the rows and columns of routers begin on a map."""

    lefts: list[int]
    tops: list[int]
    box_width: int

    def box(self, router: str) -> Point:
        """The left and upper edge of a router."""


class Span(NamedTuple):
    """The part of a corridor that a link takes. Columns and rows count double, with corridors between."""

    first: int
    last: int
    link: int
    part: str  # of the link's way: "row" within one row, "out", "column" and "in" by a further corridor


class Corridors:
    """The tracks of such links, by their numbers, in the corridors of a grid of routers."""

    def __init__(self, links: Sequence[Link], places: Places) -> None:
        self.places = places
        self.in_rows: dict[int, list[Span]] = defaultdict(list)
        self.in_columns: dict[int, list[Span]] = defaultdict(list)
        self.tracks: dict[tuple[int, str], int] = {}  # from a link's number and a part of its way to a track
        self.ports: dict[str, list[tuple[int, str]]] = defaultdict(list)  # of each router, the ends of links at its upper edge
        for link in links:
            self.add(link)
        self.rows = {row: self.pack(spans) for row, spans in self.in_rows.items()}  # how many tracks there are above each
        self.columns = {column: self.pack(spans) for column, spans in self.in_columns.items()}  # and to the left of each

    def add(self, link: Link) -> None:
        """Notes which part of which corridors a link takes."""
        (x, y), (x1, y1) = self.places[link.source], self.places[link.target]
        self.ports[link.source].append((link.number, "out"))
        self.ports[link.target].append((link.number, "in"))
        if y == y1:
            self.in_rows[y].append(self.span(2 * x + 1, 2 * x1 + 1, link, "row"))
            return
        column = self.column_of(link)
        self.in_rows[y].append(self.span(2 * x + 1, 2 * column, link, "out"))
        self.in_rows[y1].append(self.span(2 * x1 + 1, 2 * column, link, "in"))
        self.in_columns[column].append(self.span(y, y1, link, "column"))

    def span(self, one: int, other: int, link: Link, part: str) -> Span:
        return Span(min(one, other), max(one, other), link.number, part)

    def column_of(self, link: Link) -> int:
        """The corridor by which a link comes to the row of its target: on that side of its column that is nearer."""
        x, x1 = self.places[link.source][0], self.places[link.target][0]
        return x1 if x <= x1 else x1 + 1

    def pack(self, spans: list[Span]) -> int:
        """Gives each part the first track on which nothing lies in its way, and says how many tracks there are."""
        ends: list[int] = []
        for span in sorted(spans):
            track = next((track for track, end in enumerate(ends) if end < span.first), len(ends))
            ends[track:] = [span.last] + ends[track + 1 :]
            self.tracks[span.link, span.part] = track
        return len(ends)

    def height(self, row: int) -> int:
        """The height of the corridor above a row."""
        return TRACK * (self.rows[row] + 1) if self.rows.get(row) else 0

    def width(self, column: int) -> int:
        """The width of the corridor to the left of a column."""
        return TRACK * (self.columns[column] + 1) if self.columns.get(column) else 0

    def edge_width(self) -> int:
        """The room that the ends of links want on the upper edge of a router."""
        most = max(map(len, self.ports.values()), default=0)
        return PORT * (most + 1) + SPARE if most else 0

    def port(self, router: str, end: tuple[int, str], width: float) -> float:
        """How far an end of a link is from the left end of the upper edge of a router of some width."""
        place = PORT * (self.ports[router].index(end) + 1)
        return place if place < width / 2 - SPARE / 2 else place + SPARE

    def points(self, link: Link, grid: Grid) -> list[Point]:
        """The points of a link's line."""
        x, top = grid.box(link.source)
        x1, top1 = grid.box(link.target)
        x += self.port(link.source, (link.number, "out"), grid.box_width)
        x1 += self.port(link.target, (link.number, "in"), grid.box_width)
        (_, y), (_, y1) = self.places[link.source], self.places[link.target]
        if y == y1:
            high = grid.tops[y] - self.behind(link, "row")
            return [(x, top), (x, high), (x1, high), (x1, top1)]
        across = grid.lefts[self.column_of(link)] - self.behind(link, "column")
        first, last = grid.tops[y] - self.behind(link, "out"), grid.tops[y1] - self.behind(link, "in")
        return [(x, top), (x, first), (across, first), (across, last), (x1, last), (x1, top1)]

    def behind(self, link: Link, part: str) -> int:
        """How far a part of a link's way is from what its corridor lies beside."""
        return TRACK * (self.tracks[link.number, part] + 1)
