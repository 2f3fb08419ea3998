"""Owns how a chip map is drawn: routers, interfaces with cores, links with their shares in use and their tables of slots."""
from collections import defaultdict
from collections.abc import Iterable

from chip_map import SIGN, SIGN_ROW, Box, ChipMap, Lane, Strip, delay_of, sign_of
from design import passages
from design_files import Chip, Link
from plan_texts import Grant
import svg

TIP = (
    '<marker id="tip" markerWidth="9" markerHeight="10" refX="8" refY="5" orient="auto" markerUnits="userSpaceOnUse">'
    '<path class="tip" d="M0 0L9 5L0 10z"/></marker>'
)


def definitions(strip: Strip) -> str:
    return svg.tag("defs", TIP, strip.free_cells())


def entries_of(chip: Chip, grants: Iterable[Grant]) -> dict[str, dict[tuple[str, str], list[int]]]:
    """For each router the slots in which it sends what comes from one node on to another: its slot table."""
    found: dict[str, dict[tuple[str, str], list[int]]] = {router: defaultdict(list) for router in chip.routers}
    for grant in grants:
        way = list(passages(chip, grant))
        for before, passage in zip(way, way[1:]):
            found[passage.link.source][before.link.source, passage.link.target] += passage.slots
    return found


def tells_of_router(router: str, entries: dict[tuple[str, str], list[int]]) -> str:
    """The entries of a router's slot table, in words."""
    told = []
    for (source, target), slots in sorted(entries.items()):
        told.append(f"{source} {svg.ARROW} {target} in {svg.plural('slot', slots)} {' '.join(map(str, sorted(slots)))}")
    return f"router {router}: " + ("; ".join(told) if told else "no entry in its slot table")


def draw_router(chip_map: ChipMap, router: str, tells: str) -> str:
    left, top = chip_map.box(router)
    width, height = chip_map.box_width, chip_map.band
    name = svg.fit(router, width - 8, 14)
    x, y = left + width / 2, top + height / 2 + 4
    return svg.tag(
        "g",
        svg.title(tells),
        svg.tag("rect", class_="box", x=left, y=top, width=width, height=height, rx=4),
        svg.tag("text", name, class_="bold mid big", x=x, y=y),
    )


def seat_boxes(chip_map: ChipMap, interface: str) -> list[Box]:
    """Where the cores of an interface are, in the order of their seats."""
    box, cores = chip_map.interface_box(interface), chip_map.seats.get(interface, [])
    room = (box.width - 6) / (1 if len(cores) == 1 else 2)
    return [
        Box(box.left + 4 + seat % 2 * room, box.top + 18 + seat // 2 * 16, room - 2, 14) for seat in range(len(cores))
    ]


def draw_interface(chip_map: ChipMap, interface: str) -> str:
    box = chip_map.interface_box(interface)
    cores = chip_map.seats.get(interface, [])
    parts = [
        svg.title(f"interface {interface}: " + (", ".join(cores) if cores else "no core")),
        svg.tag("rect", class_="box", x=box.left, y=box.top, width=box.width, height=box.height, rx=4),
        svg.label(interface, box.left + 6, box.top + 13, "bold", box.width - 12),
    ]
    for core, seat in zip(cores, seat_boxes(chip_map, interface)):
        parts.append(svg.tag("rect", class_="core", x=seat.left, y=seat.top, width=seat.width, height=seat.height, rx=3))
        parts.append(svg.label(core, seat.left + 4, seat.top + 11, width=seat.width - 6))
    return svg.tag("g", *parts)


def draw_sign(strip: Strip, link: Link, lane: Lane, room: float, told: str = "") -> str:
    """The number of a link, with its delay where it has one and what is told of it, at the end of its table; where the table
    stands apart from the line, above it with the names of the link's ends."""
    kind = "bold small" if told else "less small"
    if lane.apart:
        delay = f", {delay_of(link)}" if link.delay > 1 else ""
        name = f"{link.number}: {link.source} {svg.ARROW} {link.target}{delay}{told}"
        return svg.label(name, lane.left, lane.top - 3, kind, room, SIGN)
    if not lane.upright:
        middle = lane.top + strip.breadth / 2 + 3
        return svg.label(sign_of(link) + told, lane.left + strip.length + 4, middle, kind)
    x = lane.left + strip.breadth if lane.sign_before else lane.left
    kind += " end" if lane.sign_before else ""
    y = lane.top + strip.length + SIGN_ROW - 1
    delay = svg.label(delay_of(link), x, y + SIGN_ROW, kind) if link.delay > 1 else ""
    return svg.label(str(link.number) + told, x, y, kind) + delay


def draw_link(chip_map: ChipMap, link: Link, used: int) -> str:
    """A link's line, the wider the more is in use, and its table with no channel in it yet."""
    strip, lane = chip_map.strip, chip_map.lanes[link.number]
    delay = f", delay {link.delay}" if link.delay > 1 else ""
    tells = f"link {link.number}, {link.source} to {link.target}{delay}: {used} of {strip.slots} slots in use"
    turn = f"matrix(0 1 1 0 {lane.left} {lane.top})" if lane.upright else f"translate({lane.left} {lane.top})"
    wide = svg.number(1 + 6 * used / strip.slots)
    return (
        f'<g>{svg.title(tells)}<path class="line" d="M{lane.route}" stroke-width="{wide}"/>'
        f'{draw_sign(strip, link, lane, chip_map.room)}<use href="#table" transform="{turn}"/></g>'
    )


def draw_chip(chip_map: ChipMap, grants: list[Grant], used: list[int]) -> list[str]:
    """The chip with what is in use of it, without its channels."""
    chip, entries = chip_map.chip, entries_of(chip_map.chip, grants)
    parts = [draw_link(chip_map, link, used[link.number]) for link in chip.links]
    parts += [draw_router(chip_map, router, tells_of_router(router, entries[router])) for router in chip.routers]
    return parts + [draw_interface(chip_map, interface) for interface in chip.interfaces]
