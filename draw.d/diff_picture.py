"""Owns the picture of what changed between two plans: links and seats that changed stand out on the chip, with a list of the
channels that did. What is told by a colour is told by a shape too.
"""
from collections.abc import Iterable, Sequence
from typing import NamedTuple

from changes import CellChange, ChannelChange, Changes, LinkChange, SeatChange, Verdict
from chip_map import Box, ChipMap, Strip, sign_of
import chip_parts
from cells import way_of
from design import Channel
import svg
from svg import MARGIN, Part, Picture, Sentence

ROW = 16
LEAST_WIDTH = 700
MOST_LISTED = 60  # channels
ARROW = f" {svg.ARROW} "
CAME, LEFT = "k1", "k0"  # the colours of what came and of what is left
VERDICTS = (Verdict.WORSE, Verdict.BETTER, Verdict.MOVED, Verdict.RESIZED, Verdict.NEW, Verdict.GONE)
RULES = """
.big{font-size:12px}.core{fill:none;stroke-width:.6}.line{marker-end:url(#tip)}
.come,.left{stroke-width:2.5;pointer-events:all}.left{stroke-dasharray:4 2}.emptier{stroke-dasharray:7 4}
.now,.was{stroke-width:4;stroke-linejoin:round;visibility:hidden;pointer-events:none}.was{stroke-dasharray:3 6}
.c:hover .now,.c:focus .now,.c:hover .was,.c:focus .was{visibility:visible}
.c:hover .name,.c:focus .name{font-weight:bold}.c:focus{outline:none}
#channels:hover .c:not(:hover),#channels:focus-within .c:not(:focus):not(:hover){opacity:.3}
"""


class Marks:
    """The cores of each interface as the map shows them: those of the new plan, and behind them those that are there no more."""

    def __init__(self, changes: Changes) -> None:
        self.came = {one.core: one for one in changes.seats if one.after and is_elsewhere(one)}
        self.left: dict[str, list[SeatChange]] = {}
        for one in changes.seats:
            if one.before and is_elsewhere(one):
                self.left.setdefault(one.before.interface, []).append(one)
        self.cores = changes.after.plan.cores_at()
        self.shown = {
            interface: [f"+ {core}" if core in self.came else core for core in self.cores.get(interface, [])]
            + [f"\u2212 {one.core}" for one in self.left.get(interface, [])]
            for interface in changes.after.chip.interfaces
        }

    def draw(self, chip_map: ChipMap) -> list[str]:
        """A frame around each core that came to an interface, and a broken one where it is no more."""
        parts = []
        for interface in self.shown:
            boxes, cores = chip_parts.seat_boxes(chip_map, interface), self.cores.get(interface, [])
            for core, box in zip(cores, boxes):
                if core in self.came:
                    parts.append(frame(box, CAME, "come", told_of_seat(self.came[core])))
            for one, box in zip(self.left.get(interface, []), boxes[len(cores) :]):
                parts.append(frame(box, LEFT, "left", told_of_seat(one)))
        return parts


def is_elsewhere(one: SeatChange) -> bool:
    """Whether a core is at another interface, new, or gone."""
    return one.has_moved or not (one.before and one.after)


def frame(box: Box, colour: str, kind: str, told: str) -> str:
    left, top, width, height = map(svg.number, box)
    return svg.tag("g", svg.title(told), svg.tag("path", class_=kind, d=f"M{left} {top}h{width}v{height}h-{width}z"), class_=colour)


def told_of_seat(one: SeatChange) -> str:
    if one.before and one.after:
        return f"core {one.core}: from {one.before.interface} to {one.after.interface}"
    return f"core {one.core}: new at {one.after.interface}" if one.after else f"core {one.core}: gone"


def load_told(one: LinkChange) -> str:
    """How many slots of a changed link are in use, before and after."""
    return f": {one.before}{svg.ARROW}{one.after}"


def draw_link(chip_map: ChipMap, one: LinkChange) -> str:
    """A link's line and table; where its slots are others, the line has a colour, is the wider the more are, and is broken where
    fewer are in use."""
    strip, lane, link = chip_map.strip, chip_map.lanes[one.link.number], one.link
    turn = f"matrix(0 1 1 0 {lane.left} {lane.top})" if lane.upright else f"translate({lane.left} {lane.top})"
    changed = sum(cell is not CellChange.KEPT for cell in one.cells.values())
    wide = 2.5 + 5 * changed / strip.slots if changed else 1
    kind = "line emptier" if one.after < one.before else "line"
    colour = (LEFT if one.after < one.before else CAME) if changed else "same"
    before = f"{one.before} before, " if changed else ""
    name = f"link {link.number}, {link.source} to {link.target}: {one.after} of {strip.slots} slots in use, {before}"
    return svg.tag(
        "g",
        svg.title(name + cells_told(one)),
        svg.tag("g", svg.tag("path", class_=kind, d="M" + lane.route, stroke_width=wide), class_=colour),
        chip_parts.draw_sign(strip, link, lane, chip_map.room, load_told(one) if changed else ""),
        f'<use href="#table" transform="{turn}"/>',
        draw_cells(chip_map, one),
    )


def cells_told(one: LinkChange) -> str:
    """Which slots of a link were taken, freed or passed on, in words."""
    told = []
    for what in (CellChange.TAKEN, CellChange.FREED, CellChange.PASSED_ON):
        slots = [slot for slot, cell in one.cells.items() if cell is what]
        if slots:
            told.append(f"{what.value}: {svg.plural('slot', slots)} {' '.join(map(str, slots))}")
    return "; ".join(told) or "no slot is another one"


def draw_cells(chip_map: ChipMap, one: LinkChange) -> str:
    """The slots of a link: full where a channel has it, thin where none does any more, both where another one has it."""
    strip, lane = chip_map.strip, chip_map.lanes[one.link.number]
    paths: dict[CellChange, str] = {}
    for slot, cell in one.cells.items():
        x, y, along = lane.cell(strip, slot)
        paths[cell] = paths.get(cell, "") + f"M{x} {y}{along}{strip.cell - 1}"
    full, thin = strip.height - 1, max(2, strip.height / 4)
    parts = []
    for cell, layers in LAYERS.items():
        if cell in paths:
            for colour, is_full in layers:
                path = svg.tag("path", d=paths[cell], stroke_width=full if is_full else thin)
                parts.append(svg.tag("g", path, class_=colour))
    return "".join(parts)


# What is drawn of a cell, from the back to the front: a colour, and whether it is full.
LAYERS = {
    CellChange.KEPT: (("other", True),),
    CellChange.TAKEN: ((CAME, True),),
    CellChange.FREED: ((LEFT, False),),
    CellChange.PASSED_ON: ((CAME, True), (LEFT, False)),
}
KEY = (
    ("in use as before", CellChange.KEPT), ("in use now", CellChange.TAKEN), ("in use no more", CellChange.FREED),
    ("in use by another channel", CellChange.PASSED_ON),
)


def draw_key(top: float) -> Part:
    """What the cells mean."""
    parts, x = [], 0.0
    for text, cell in KEY:
        for colour, is_full in LAYERS[cell]:
            path = svg.tag("path", d=f"M{svg.number(x)} {svg.number(top - 4)}h14", stroke_width=11 if is_full else 3)
            parts.append(svg.tag("g", path, class_=colour))
        parts.append(svg.label(text, x + 20, top))
        x += 44 + svg.text_width(text, 11)
    return Part(parts, top + ROW)


class Edge(NamedTuple):
    """The edge of a column, and the class of its texts: those that end there have one."""

    x: int
    kind: str


COLUMNS = Edge(0, ""), Edge(62, ""), Edge(280, ""), Edge(470, "end"), Edge(560, "end"), Edge(640, "end")


class Listed:
    """The list of channels that changed, the worse ones first, each with its way before and now."""

    def __init__(self, chip_map: ChipMap, found: Sequence[ChannelChange], slots: int, top: float) -> None:
        self.chip_map, self.slots, self.top = chip_map, slots, top
        self.found, self.more = found[:MOST_LISTED], max(0, len(found) - MOST_LISTED)
        self.bottom = top + (len(self.found) + 1 + bool(self.more)) * ROW

    def draw(self) -> list[str]:
        if not self.found:
            return []
        heads = ["", "channel", "in", f"words in {self.slots}", "latency", "buffer"]
        parts = [svg.label(head, x, self.top, f"less {kind}".strip()) for head, (x, kind) in zip(heads, COLUMNS)]
        parts.append(svg.tag("g", "\n".join(self.line(place, one) for place, one in enumerate(self.found)), id="channels"))
        if self.more:
            parts.append(svg.label(f"and {self.more:,} more, which `./design diff` lists", 62, self.bottom, "less"))
        return parts

    def line(self, place: int, one: ChannelChange) -> str:
        y = self.top + (place + 1) * ROW
        cells = [
            one.verdict.value, one.name, ", ".join(one.uses), told(one, "rate"), told(one, "latency"), told(one, "buffer"),
        ]
        kinds = ["bold" if one.is_worse else "", "name", "less", "end", "end", "end"]
        rooms = [None, 210, 110, None, None, None]
        parts = [
            svg.label(text, x, y, kind or None, room) for text, (x, _), kind, room in zip(cells, COLUMNS, kinds, rooms)
        ]
        ways = [(one.before, "was", LEFT), (one.after, "now", CAME)]
        parts += [
            svg.tag("g", svg.tag("path", class_=kind, d=way_of(self.chip_map, channel.grant.links)), class_=colour)
            for channel, kind, colour in ways if channel
        ]
        return svg.tag("g", svg.title(sentence(one, self.chip_map)), *parts, class_="c", role="img", tabindex="0")


def told(one: ChannelChange, what: str) -> str:
    """A number that is guaranteed to a channel, before and after."""
    values = [str(getattr(channel.promise, what)) for channel in (one.before, one.after) if channel]
    return svg.ARROW.join(dict.fromkeys(values))


def sentence(one: ChannelChange, chip_map: ChipMap) -> str:
    """What became of a channel, in words."""
    unkept = "; a switch closes it that kept it" if one.unkept else ""
    ways = [way_told(channel, chip_map) for channel in (one.before, one.after) if channel]
    return f"{one.name}: {one.verdict.value}{unkept}; {', now '.join(dict.fromkeys(ways))}"


def way_told(channel: Channel, chip_map: ChipMap) -> str:
    return f"{ARROW.join(channel.nodes(chip_map.chip.links))} in {svg.plural('slot', channel.grant.starts)} " + " ".join(
        map(str, channel.grant.starts)
    )


READING = (
    "Links whose slots are others have a coloured line, the wider the more, broken where fewer are in use; beside their numbers "
    "stand the slots in use, before and after. A core with + came to its interface, one with \u2212 is there no more."
)


def draw_diff(changes: Changes, uses: Iterable[str], title: str) -> Picture:
    """The whole picture, of some use cases."""
    names, chip, marks = list(uses), changes.after.chip, Marks(changes)
    links = changes.links(names)
    signs = [sign_of(one.link) + load_told(one) for one in links if one.is_changed]
    chip_map = ChipMap(chip, marks.shown, Strip(chip.slots, []), signs)
    width = max(chip_map.width, LEAST_WIDTH)
    found = [one for one in changes.of(*VERDICTS) if set(one.uses) & set(names)]
    is_same = not found and not changes.seats
    summary = changes.nothing if is_same else changes.summary
    head = svg.head(title, [Sentence(summary), Sentence(READING, "less")], width)
    key = draw_key(8)
    listed = Listed(chip_map, found, chip.slots, key.bottom + chip_map.height + 2 * MARGIN)
    inner = [draw_link(chip_map, one) for one in links]
    inner += [chip_parts.draw_router(chip_map, router, f"router {router}") for router in chip.routers]
    inner += [chip_parts.draw_interface(chip_map, interface) for interface in chip.interfaces]
    body = svg.tag("g", "\n" + "\n".join(inner + marks.draw(chip_map)) + "\n", transform=f"translate(0 {svg.number(key.bottom + 8)})")
    lines = "\n".join([*key.elements, body, *listed.draw()])
    whole = svg.tag("g", f"\n{lines}\n", transform=f"translate({MARGIN} {svg.number(head.bottom + 8)})")
    parts = [chip_parts.definitions(chip_map.strip), *head.elements, whole]
    height = head.bottom + 8 + listed.bottom + MARGIN
    return svg.picture(width + 2 * MARGIN, height, title, summary, RULES, parts)
