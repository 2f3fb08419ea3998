"""Owns the picture of a refusal: the chip as it was in the turn of a refused channel, the links on which its paths came to an
end, and the channels that fill these.
"""
from collections import defaultdict
from dataclasses import dataclass

from allocation import State, in_the_way
from cells import draw_cells
from chip_map import ChipMap, Strip, sign_of
import chip_parts
from design import colours_of, numbers_of, passages
from design_files import Application, Chip, Link
from physical_units import PhysicalUnits, in_time
from plan_picture import ARROW, LEAST_WIDTH, ROW
from plan_texts import Grant
from refusals import Ended, Trial
import svg
from svg import MARGIN, Part, Picture, Sentence

MOST_LISTED = 40  # links of the list
MOST_NAMED = 6  # channels of a link in the list

RULES = """
.big{font-size:12px}.core{fill:none;stroke-width:.6}.line,.full{marker-end:url(#tip)}
.on{font-size:9px;text-anchor:middle;pointer-events:none}
.end-of{fill:none;stroke-width:2}.target{fill:none;stroke-width:2;stroke-dasharray:5 3}
.way{stroke-width:2;stroke-linejoin:round;visibility:hidden;pointer-events:none}
.c:hover .way,.c:focus .way{visibility:visible}.c:hover .name,.c:focus .name{font-weight:bold}
#links:hover .c:not(:hover),#links:focus-within .c:not(:focus):not(:hover){opacity:.15}
.c:focus{outline:none}
"""


@dataclass(frozen=True)
class Refusal:
    """A channel that was refused: what it asked for, the cuts of its paths, and what was granted before its turn."""

    chip: Chip
    app: Application
    trial: Trial
    among: int  # so many refusals
    need: int  # slots
    state: State
    is_told: bool  # whether the grants before its turn are known
    units: PhysicalUnits | None = None  # in which the latency is told too

    @property
    def name(self) -> str:
        return f"{self.trial.unit.connection} {self.trial.unit.side}"

    @property
    def sender(self) -> str:
        return self.app.connections[self.trial.unit.connection].sender(self.trial.unit.side)

    @property
    def receiver(self) -> str:
        return self.app.connections[self.trial.unit.connection].receiver(self.trial.unit.side)

    @property
    def uses(self) -> list[str]:
        """The use cases of its group that have its connection."""
        unit = self.trial.unit
        return [use for use in self.app.uses_of(unit.group) if self.app.is_in(unit.connection, use)]

    @property
    def latency(self) -> int:
        return self.app.connections[self.trial.unit.connection].wish(self.trial.unit.side).latency


@dataclass(frozen=True)
class Load:
    """What takes the slots of a link: each channel with its slots there, the one with most first."""

    channels: list[tuple[Grant, list[int]]]

    @property
    def used(self) -> int:
        return len({slot for _, slots in self.channels for slot in slots})


def loads_of(refusal: Refusal) -> dict[int, Load]:
    """What takes the slots of each link which the refused channel can't have."""
    found: dict[int, list[tuple[Grant, list[int]]]] = defaultdict(list)
    for grant in in_the_way(refusal.app, refusal.state, refusal.trial.unit):
        for passage in passages(refusal.chip, grant):
            found[passage.link.number].append((grant, passage.slots))
    return {
        link: Load(sorted(channels, key=lambda one: (-len(one[1]), one[0].line))) for link, channels in found.items()
    }


def nodes_of(cut: tuple[int, ...], links: list[Link]) -> str:
    return ARROW.join([links[cut[0]].source] + [links[number].target for number in cut])


def filled(load: Load | None, slots: int, most: int) -> str:
    """How full a link is, and by which channels, in words."""
    if load is None:
        return f"0 of {svg.count(slots, 'slot')}"
    named = [f"{grant.connection} {grant.side} {len(taken)}" for grant, taken in load.channels[:most]]
    more = [f"and {len(load.channels) - most} more"] if len(load.channels) > most else []
    return f"{load.used} of {svg.count(slots, 'slot')} by {', '.join(named + more)}"


class EndedLinks:
    """The links at which cuts end, on the map and in a list below it, each with the channels that fill it."""

    def __init__(self, chip_map: ChipMap, refusal: Refusal, top: float) -> None:
        self.chip_map, self.links, self.refusal = chip_map, refusal.chip.links, refusal
        self.loads = loads_of(refusal)
        self.order = refusal.trial.by_cuts
        self.numbers = numbers_of(refusal.app)
        self.colours = colours_of(refusal.state.grants, refusal.app)
        self.listed = self.order[:MOST_LISTED]
        self.top = top
        self.bottom = top + (len(self.listed) + 1 + (len(self.order) > MOST_LISTED)) * ROW if self.order else top

    def draw(self, width: float) -> list[str]:
        if not self.order:
            return []
        parts = [self.draw_one(place, number, width) for place, number in enumerate(self.order)]
        heads = [("cuts", 38, "less end"), ("last link", 46, "less"), ("slots in use", 230, "less")]
        rest = len(self.order) - len(self.listed)
        last = [svg.label(f"{svg.count(rest, 'further link')} on the map", 46, self.bottom, "less")] if rest else []
        texts = [svg.label(text, x, self.top, kind) for text, x, kind in heads]
        return [*texts, *last, svg.tag("g", "\n".join(parts), id="links")]

    def draw_one(self, place: int, number: int, width: float) -> str:
        """One link with all cuts that end at it, and the cells of the channels that take its slots."""
        lane, link, ended = self.chip_map.lanes[number], self.links[number], self.refusal.trial.ended[number]
        wide = 2.5 + 4.5 * ended.cuts / self.refusal.trial.cuts
        ways = "".join(f"M{self.chip_map.lanes[each].route}" for each in ended.links)
        return svg.tag(
            "g",
            svg.title(self.tells(link, ended)),
            f'<path class="full" d="M{lane.route}" stroke-width="{svg.number(wide)}"/>',
            self.cells(number),
            self.line(place, link, ended.cuts, width) if place < len(self.listed) else "",
            f'<path class="way" d="{ways}"/>',
            class_="c k0", role="img", tabindex="0",
        )

    def cells(self, number: int) -> str:
        load = self.loads.get(number)
        return "".join(
            f'<g class="k{self.colours[grant.connection]}">'
            + draw_cells(
                self.chip_map, [(number, slot) for slot in slots], grant.side, str(self.numbers[grant.connection])
            ) + "</g>"
            for grant, slots in (load.channels if load else [])
        )

    def tells(self, link: Link, ended: Ended) -> str:
        told = [nodes_of(cut, self.links) for cut in ended.first]
        if ended.cuts > len(ended.first):
            told.append(f"and {ended.cuts - len(ended.first)} more")
        load = f"; in use are {filled(self.loads.get(link.number), self.refusal.chip.slots, 99)}" if self.refusal.is_told else ""
        name = f"link {link.number}, {link.source} to {link.target}"
        return f"{name}: {svg.count(ended.cuts, 'cut')}: {'; '.join(told)}{load}"

    def line(self, place: int, link: Link, cuts: int, width: float) -> str:
        """The link's line in the list."""
        y = self.top + (place + 1) * ROW
        load = filled(self.loads.get(link.number), self.refusal.chip.slots, MOST_NAMED) if self.refusal.is_told else ""
        return "".join([
            f'<path d="M0 {svg.number(y - 4)}h14" stroke-width="8"/>',
            svg.label(f"{cuts:,}", 38, y, "end"),
            svg.label(f"{link.number}: {link.source}{ARROW}{link.target}", 46, y, "name", 178),
            svg.label(load, 230, y, "less", width - 230),
        ])


def draw_link(chip_map: ChipMap, link: Link, ended: Ended | None) -> str:
    """A link's line, its table with no channel in it yet, and its number; the cuts that end at it stand there too."""
    strip, lane = chip_map.strip, chip_map.lanes[link.number]
    turn = f"matrix(0 1 1 0 {lane.left} {lane.top})" if lane.upright else f"translate({lane.left} {lane.top})"
    told = "" if ended is None else f": {svg.count(ended.cuts, 'cut')}"
    return svg.tag(
        "g",
        svg.title(f"link {link.number}, {link.source} to {link.target}"),
        svg.tag("path", class_="line", d="M" + lane.route, stroke_width=1),
        chip_parts.draw_sign(strip, link, lane, chip_map.room, told),
        f'<use href="#table" transform="{turn}"/>',
    )


def draw_others(chip_map: ChipMap, refusal: Refusal) -> str:
    """The cells of the channels that take slots which the refused channel can't have, in grey."""
    grants = in_the_way(refusal.app, refusal.state, refusal.trial.unit)
    cells: dict[str, list[tuple[int, int]]] = {"fwd": [], "back": []}
    for grant in grants:
        cells[grant.side] += [(p.link.number, slot) for p in passages(refusal.chip, grant) for slot in p.slots]
    return svg.tag("g", *(draw_cells(chip_map, some, side) for side, some in cells.items()), class_="other")


def draw_ends(chip_map: ChipMap, refusal: Refusal) -> list[str]:
    """A thick frame around each interface at which the channel could begin, and a broken one around that of its receiver."""
    begins = {refusal.chip.links[int(link)].source for link in refusal.trial.starts}
    target = refusal.state.seat_of(refusal.receiver)
    parts = []
    for interface in refusal.chip.interfaces:
        for kind, is_so in (("end-of line", interface in begins), ("target line", interface == target)):
            if is_so:
                box = chip_map.interface_box(interface)
                more = 3 if kind == "target line" and interface in begins else 0
                parts.append(svg.tag(
                    "rect", class_=kind, x=box.left - more, y=box.top - more, width=box.width + 2 * more,
                    height=box.height + 2 * more, rx=4,
                ))
    return parts


def seat_told(refusal: Refusal, core: str) -> str:
    """Where a core sits, in words."""
    seat = refusal.state.seat_of(core)
    return f"{core} (at {seat})" if seat else f"{core} (without a seat yet)"


def summary(refusal: Refusal) -> list[str]:
    """What was refused, in sentences."""
    slots, trial = refusal.chip.slots, refusal.trial
    asked = (
        f"Channel {refusal.name}, from {seat_told(refusal, refusal.sender)} to {seat_told(refusal, refusal.receiver)}, in "
        f"{', '.join(refusal.uses)}. In turn {trial.unit.turn} it needed {refusal.need} of the {svg.count(slots, 'slot')} of each "
        f"link on a path, for a latency of {svg.count(refusal.latency, 'cycle')}{in_time(refusal.latency, refusal.units)} at most."
    )
    if not trial.cuts:
        return [asked, "No path was left for it at all."]
    one = "one cut" if trial.cuts == 1 else f"one of {trial.cuts:,} cuts"
    return [asked, (
        f"Each path that it could take begins with {one}: links from a sender on, on which the slots that earlier grants leave "
        "free are too few, or too far apart for the latency."
    )]


def fullest(refusal: Refusal) -> str:
    """Which links end most cuts and what fills them, in a sentence; an empty text where there is no cut."""
    loads, slots = loads_of(refusal), refusal.chip.slots
    told = []
    for number in refusal.trial.by_cuts[:3]:
        link, load, more = refusal.chip.links[number], loads.get(number), ""
        if refusal.is_told:
            more = f", in use are {filled(load, slots, MOST_NAMED)}" if load else f", though none of its {svg.count(slots, 'slot')} is in use"
        cuts = svg.count(refusal.trial.ended[number].cuts, "cut")
        told.append(f"link {number} ({link.source} to {link.target}) ends {cuts}{more}")
    return "; ".join(told)


READING = (
    "Coloured links end the cuts, the wider the more; their tables show what fills them. Grey cells are slots in use elsewhere. "
    "Frames are thick where the channel could begin, and broken where its receiver sits."
)


def draw_refusal(refusal: Refusal, bare: bool = False) -> Picture:
    """The whole picture. A bare one has neither its name nor sentences above it."""
    numbers = sorted({numbers_of(refusal.app)[grant.connection] for grant in refusal.state.grants})
    trial = refusal.trial
    signs = [
        f"{sign_of(link)}: {svg.count(trial.ended[link.number].cuts, 'cut')}"
        for link in refusal.chip.links if link.number in trial.ended
    ]
    chip_map = ChipMap(refusal.chip, refusal.state.seats, Strip(refusal.chip.slots, numbers), signs)
    width = max(chip_map.width, LEAST_WIDTH)
    told = summary(refusal)
    title = f"Refusal {trial.number} of {refusal.among}"
    head = Part([], MARGIN - 8) if bare else svg.head(title, [*map(Sentence, told), Sentence(READING, "less")], width)
    ended = EndedLinks(chip_map, refusal, chip_map.height + 2 * MARGIN)
    inner = [draw_link(chip_map, link, trial.ended.get(link.number)) for link in refusal.chip.links]
    inner += [chip_parts.draw_router(chip_map, router, f"router {router}") for router in refusal.chip.routers]
    inner += [chip_parts.draw_interface(chip_map, interface) for interface in refusal.chip.interfaces]
    inner += [draw_others(chip_map, refusal), *draw_ends(chip_map, refusal), *ended.draw(width)]
    body = svg.tag("g", "\n" + "\n".join(inner) + "\n", transform=f"translate({MARGIN} {svg.number(head.bottom + 8)})")
    parts = [chip_parts.definitions(chip_map.strip), *head.elements, body]
    height = head.bottom + 8 + ended.bottom + MARGIN
    return svg.picture(width + 2 * MARGIN, height, f"{title}: {refusal.name}", " ".join(told), RULES, parts)
