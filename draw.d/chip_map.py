"""Owns the chip as a map: routers on their places, interfaces with their cores beside them, and for each link a line and
its table of slots as a strip of cells, with the link's number at its end.

A link between routers that stand next to each other lies between them. Any other link between routers goes by corridors,
and its strip stands in the **card** of the router where it begins, to the lower right of it, under the interfaces there.
"""
from collections.abc import Mapping, Sequence
from dataclasses import dataclass
import math
from typing import NamedTuple

from corridors import Corridors, Point
from design import COLOURS
from design_files import Chip, Link
from placing import place_routers
import svg

GAP = 12  # from a router to what stands beside it
SEAT_HEIGHT = 16
LEAST_ROOM = 120  # beside a router, for an interface with its cores
SIGN = 9  # the size of the number of a link
SIGN_ROW = 11


def delay_of(link: Link) -> str:
    """The cycles that a flit takes on a link, where it takes more than one."""
    return f"{link.delay} cycles" if link.delay > 1 else ""


def sign_of(link: Link) -> str:
    """The number of a link, with its delay where that is more than a cycle."""
    return f"{link.number}, {delay_of(link)}" if link.delay > 1 else str(link.number)


class Strip:
    """The shape of all tables of slots: rows of cells. Where colours alone don't tell the connections apart, cells are wide
    enough for their numbers."""

    lines = 24  # the room of the two lines of a pair of links, between their strips
    line_at = 5  # how far a line is from the middle of its pair
    apart = 10  # the lines of an interface, one from the other

    def __init__(self, slots: int, connections: Sequence[int]) -> None:
        self.slots = slots
        self.number_width = 6 * len(str(max(connections, default=0))) + 2
        self.is_wide = len(connections) > COLOURS and slots > 8
        self.rows = math.ceil(slots / (16 if self.is_wide else 32))
        self.row = math.ceil(slots / self.rows)
        self.cell = max(8, self.number_width) if self.is_wide else min(20, max(5, 160 // self.row))
        self.height = {1: 10, 2: 8}.get(self.rows, 6)
        if self.has_numbers:
            self.height = 12 if self.is_wide else 20
        self.length = self.row * self.cell
        self.breadth = self.rows * self.height

    @property
    def has_numbers(self) -> bool:
        """Whether a cell has room for a connection's number."""
        return self.cell >= self.number_width

    def free_cells(self) -> str:
        """One table without channels, of which each link's is a copy."""
        rows = [min(self.row, self.slots - first) * self.cell for first in range(0, self.slots, self.row)]
        path = "".join(f"M0 {number * self.height + self.height // 2}h{length}" for number, length in enumerate(rows))
        dashes = f"{self.cell - 1} 1"
        return svg.tag("path", id="table", class_="free", d=path, stroke_width=self.height - 1, stroke_dasharray=dashes)


@dataclass(frozen=True)
class Lane:
    """Where a link is drawn: the path data of its line from its source on, and where its strip begins. A strip that
    stands apart from its line is named."""

    route: str
    left: float
    top: float
    upright: bool = False
    apart: bool = False
    sign_before: bool = False  # the link's number stands to the left of the strip's end

    def cell(self, strip: Strip, slot: int) -> "Cell":
        """Where a slot's cell is."""
        row, place = divmod(slot, strip.row)
        along, across = place * strip.cell, row * strip.height + strip.height // 2
        if self.upright:
            return Cell(self.left + across, self.top + along, "v")
        return Cell(self.left + along, self.top + across, "h")


class Cell(NamedTuple):
    """The middle of the beginning of a slot's cell, and the letter of the way along it."""

    x: float
    y: float
    along: str


class Box(NamedTuple):
    """The left and upper edge of a box, its width and its height."""

    left: float
    top: float
    width: float
    height: float


def line(*points: Point) -> str:
    return "L".join(f"{svg.number(x)} {svg.number(y)}" for x, y in points)


class ChipMap:
    """The places of all that is drawn of a chip. `lanes` has a lane for each link, by its number."""

    def __init__(
        self, chip: Chip, seats: Mapping[str, Sequence[str]], strip: Strip, signs: Sequence[str] = ()
    ) -> None:
        """`signs` are texts that stand at the end of tables beside the numbers of links."""
        self.chip, self.seats, self.strip = chip, seats, strip
        self.places = place_routers(chip.routers, chip.links)
        self.at_router: dict[str, list[str]] = {router: [] for router in chip.routers}
        for interface in chip.interfaces:
            self.at_router[chip.routers_by_interface[interface]].append(interface)
        self.has_delays = any(link.delay > 1 for link in chip.links)
        self.sort_links()
        self.band = 2 * strip.breadth + strip.lines
        ports = self.band + 4 * strip.apart * max(map(len, self.at_router.values()))
        texts = [str(link.number) for link in chip.links] + [delay_of(link) for link in chip.links]
        below = max(svg.text_width(text, SIGN) for text in [*texts, *signs, ""])
        self.box_width = max(ports, self.corridors.edge_width(), math.ceil(2 * below))
        sign_width = max(svg.text_width(sign, SIGN) for sign in [*map(sign_of, chip.links), *signs, ""])
        self.room = max(math.ceil(strip.length + sign_width + 8), LEAST_ROOM)
        self.set_columns()
        self.set_rows()
        self.lanes: dict[int, Lane] = {}
        self.lay_pairs()
        self.to_interface = {link.target: link for link in chip.links if link.target in chip.routers_by_interface}
        self.from_interface = {link.source: link for link in chip.links if link.source in chip.routers_by_interface}
        for router in chip.routers:
            self.lay_card(router)

    def sort_links(self) -> None:
        """Which links lie between neighbours, of each ordered pair the first; and which go by corridors, by router."""
        self.between: dict[tuple[str, str], Link] = {}
        self.apart: dict[str, list[Link]] = {router: [] for router in self.chip.routers}
        for link in self.chip.links:
            ends = link.source, link.target
            if all(end in self.places for end in ends):
                far = sum(abs(a - b) for a, b in zip(self.places[link.source], self.places[link.target]))
                if far == 1 and ends not in self.between:
                    self.between[ends] = link
                else:
                    self.apart[link.source].append(link)
        self.corridors = Corridors([link for links in self.apart.values() for link in links], self.places)

    def interface_height(self, interface: str) -> int:
        seats = len(self.seats.get(interface, []))
        return self.band + 4 + 18 + SEAT_HEIGHT * ((seats + 1) // 2)

    def card_height(self, router: str) -> int:
        interfaces = sum(self.interface_height(interface) + GAP for interface in self.at_router[router])
        return interfaces + len(self.apart[router]) * (self.strip.breadth + 18)

    def set_columns(self) -> None:
        """The left edge of each column of routers, right of its corridor, and the whole width."""
        columns = 1 + max(x for x, _ in self.places.values())
        self.lefts = [self.corridors.width(0)]
        for column in range(1, columns + 1):
            pitch = self.box_width + self.room + 3 * GAP
            self.lefts.append(self.lefts[-1] + pitch + self.corridors.width(column))
        self.width = self.lefts[-1]

    def set_rows(self) -> None:
        """The upper edge of each row of routers, below its corridor, and the whole height."""
        rows = 1 + max(y for _, y in self.places.values())
        signs = SIGN_ROW * (2 if self.has_delays else 1)
        self.tops = [self.corridors.height(0)]
        for row in range(rows):
            cards = [self.card_height(router) for router, (_, y) in self.places.items() if y == row]
            below = self.strip.length + signs + 2 * GAP if row + 1 < rows else 0
            high = self.band + max(below, 2 * GAP + max(cards, default=0))
            self.tops.append(self.tops[-1] + high + self.corridors.height(row + 1))
        self.height = self.tops[-1]

    def box(self, router: str) -> Point:
        """The left and upper edge of a router."""
        x, y = self.places[router]
        return self.lefts[x], self.tops[y]

    def middle(self, router: str) -> Point:
        """The middle of a router."""
        left, top = self.box(router)
        return left + self.box_width // 2, top + self.band // 2

    def lay_pairs(self) -> None:
        """Links between neighbours: to the right above, to the left below; downwards right, upwards left."""
        strip, signs = self.strip, SIGN_ROW * (2 if self.has_delays else 1)
        for (source, target), link in self.between.items():
            (x0, y0), (x1, y1) = self.middle(source), self.middle(target)
            across = strip.breadth + strip.lines // 2
            if y0 == y1:
                ahead = 1 if x1 > x0 else -1
                y, half = y0 - ahead * strip.line_at, self.box_width // 2
                top = y0 - across if ahead == 1 else y0 + strip.lines // 2
                route = line((x0 + ahead * half, y), (x1 - ahead * half, y))
                self.lanes[link.number] = Lane(route, min(x0, x1) + half + GAP, top)
            else:
                ahead = 1 if y1 > y0 else -1
                x, half = x0 + ahead * strip.line_at, self.band // 2
                left = x0 + strip.lines // 2 if ahead == 1 else x0 - across
                lower = max(self.places[source][1], self.places[target][1])
                room = abs(y1 - y0) - self.band - self.corridors.height(lower) - strip.length - signs
                route = line((x, y0 + ahead * half), (x, y1 - ahead * half))
                top = min(y0, y1) + half + room // 2
                self.lanes[link.number] = Lane(route, left, top, upright=True, sign_before=ahead == -1)

    def lay_card(self, router: str) -> None:
        """The interfaces of a router with their links, then the strips of its links that go by corridors."""
        left, top = self.box(router)
        right, bottom = left + self.box_width, top + self.band
        x, y = right + GAP, bottom + GAP
        for number, interface in enumerate(self.at_router[router]):
            self.lay_interface(interface, x, y, right - 6 - 2 * self.strip.apart * number, bottom)
            y += self.interface_height(interface) + GAP
        for link in self.apart[router]:
            self.lanes[link.number] = Lane(line(*self.corridors.points(link, self)), x, y + 13, apart=True)
            y += self.strip.breadth + 18

    def lay_interface(self, interface: str, x: float, y: float, post: float, bottom: float) -> None:
        """The two links of an interface, from the router's lower edge to the interface's upper one."""
        strip, middle, end = self.strip, y + self.band // 2, x + self.room + 5
        under = y + self.band + 4
        high, low = middle - strip.line_at, middle + strip.line_at
        route = line((post, bottom), (post, high), (end + strip.apart, high), (end + strip.apart, under))
        self.lanes[self.to_interface[interface].number] = Lane(route, x, y)
        route = line((end, under), (end, low), (post - strip.apart, low), (post - strip.apart, bottom))
        self.lanes[self.from_interface[interface].number] = Lane(route, x, middle + strip.lines // 2)

    def interface_box(self, interface: str) -> Box:
        """Where an interface is."""
        lane = self.lanes[self.to_interface[interface].number]
        height = self.interface_height(interface) - self.band - 4
        return Box(lane.left, lane.top + self.band + 4, self.room + 2 * self.strip.apart, height)
