"""Owns how channels are drawn in the tables of slots: their cells, with a number where there is room, and their ways."""
from chip_map import ChipMap
from design import passages
from plan_texts import Grant
import svg


def sign(text: str, x: float, y: float, turned: bool) -> str:
    """A number whose middle is at a place; it is turned where a cell is higher than it is wide."""
    if turned:
        return f'<text class="on" transform="translate({x - 3:.0f} {y:.0f})rotate(90)">{text}</text>'
    return f'<text class="on" x="{x:.0f}" y="{y + 3:.0f}">{text}</text>'


def cells_of(chip_map: ChipMap, grant: Grant, side: str, number: str = "") -> str:
    """The cells of a grant in the tables of all links of its path, with a number where there is room."""
    return draw_cells(chip_map, [(p.link.number, slot) for p in passages(chip_map.chip, grant) for slot in p.slots], side, number)


def draw_cells(chip_map: ChipMap, cells: list[tuple[int, int]], side: str, number: str = "") -> str:
    """Cells by the number of their link and their slot. Those of a back channel are lower."""
    strip, lanes = chip_map.strip, chip_map.lanes
    long, half = strip.cell - 1, (strip.cell - 1) / 2
    has_sign = bool(strip.has_numbers and number)
    signs, path = [], []
    for link, slot in cells:
        lane = lanes[link]
        x, y, along = lane.cell(strip, slot)
        path.append(f"M{x} {y}{along}{long}")
        if has_sign:
            if along == "v":
                signs.append(sign(number, x, y + half, strip.is_wide))
            else:
                signs.append(sign(number, x + half, y, False))
    width = strip.height - 1 if side == "fwd" else strip.height * (0.7 if strip.is_wide else 0.5)
    return f'<path d="{"".join(path)}" stroke-width="{svg.number(width)}"/>' + "".join(signs)


def way_of(chip_map: ChipMap, links: tuple[int, ...]) -> str:
    """A path as one line."""
    return "M" + "L".join(chip_map.lanes[number].route for number in links)
