"""Owns the ground on which flits move: the map of a chip with a thin table of slots beside each link, as an SVG element of a
page, and what a player must know of its places.
"""
from typing import NamedTuple, TypeAlias

import chip_parts
from chip_map import ChipMap, Lane, Strip, delay_of
from design import Design
from design_files import Link
import svg

LONGEST = 128  # of a table
BORDER = 14
Corner: TypeAlias = list[int | float]  # the left and upper edge of a table, and 1 where it is upright, else 0


class ThinStrip(Strip):
    """The shape of all tables of slots: one thin row, with room beside it for a flit on each link of a pair."""

    lines = 34
    line_at = 8
    apart = 16

    def __init__(self, slots: int) -> None:
        super().__init__(slots, ())
        self.is_wide, self.rows, self.row = False, 1, slots
        self.cell, self.height = max(1, min(12, LONGEST // slots)), 8
        self.length, self.breadth = slots * self.cell, self.height

    @property
    def has_numbers(self) -> bool:
        return False

    def free_cells(self) -> str:
        """One table without channels. Cells that are too narrow for it aren't set apart."""
        dashes = f"{self.cell - 1} 1" if self.cell > 3 else "none"
        return svg.tag(
            "path", id="table", class_="free", d=f"M0 {self.height // 2}h{self.length}", stroke_width=self.height - 1,
            stroke_dasharray=dashes,
        )


class Spot(NamedTuple):
    """The middle of what is drawn of a core."""

    x: int
    y: int


def map_of(design: Design) -> ChipMap:
    """The map of a design, with thin tables."""
    return ChipMap(design.chip, design.plan.cores_at(), ThinStrip(design.chip.slots))


def spots_of(chip_map: ChipMap) -> dict[str, Spot]:
    """Where the cores are from which words come, and to which they go."""
    return {
        core: Spot(round(box.left + box.width / 2), round(box.top + box.height / 2))
        for interface, cores in chip_map.seats.items() for core, box in zip(cores, chip_parts.seat_boxes(chip_map, interface))
    }


def corners_of(chip_map: ChipMap) -> list[Corner]:
    """Where the tables of slots are, by the number of their links."""
    lanes = (chip_map.lanes[link.number] for link in chip_map.chip.links)
    return [[round(lane.left, 1), round(lane.top, 1), int(lane.upright)] for lane in lanes]


def draw_link(chip_map: ChipMap, link: Link, lane: Lane) -> str:
    """A link's line and its empty table, with its number."""
    delay = f", {delay_of(link)}" if link.delay > 1 else ""
    turn = f"matrix(0 1 1 0 {lane.left} {lane.top})" if lane.upright else f"translate({lane.left} {lane.top})"
    title = svg.title(f"link {link.number}, {link.source} to {link.target}{delay}")
    return (
        f'<g>{title}<path class="line" marker-end="url(#tip)" d="M{lane.route}"/>'
        f'{chip_parts.draw_sign(chip_map.strip, link, lane, chip_map.room)}<use href="#table" transform="{turn}"/></g>'
    )


def draw_ground(chip_map: ChipMap) -> str:
    """The chip without anything that moves. The lines of links stand in the order of their numbers."""
    chip = chip_map.chip
    parts = [chip_parts.definitions(chip_map.strip)]
    parts += [draw_link(chip_map, link, chip_map.lanes[link.number]) for link in chip.links]
    parts += [chip_parts.draw_router(chip_map, router, f"router {router}") for router in chip.routers]
    parts += [chip_parts.draw_interface(chip_map, interface) for interface in chip.interfaces]
    width, height = chip_map.width + 2 * BORDER, chip_map.height + 2 * BORDER
    return svg.tag(
        "svg", "\n".join(parts), class_="ground", width=width, height=height,
        viewBox=f"{-BORDER} {-BORDER} {svg.number(width)} {svg.number(height)}", aria_hidden="true",
    )
