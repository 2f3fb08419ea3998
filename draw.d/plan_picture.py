"""Owns the picture of a plan in one use case: the chip, the channels in its tables of slots, and a legend of channels."""
from collections.abc import Callable, Iterable, Sequence
from dataclasses import dataclass

from cells import cells_of, way_of
from chip_map import ChipMap, Strip
import chip_parts
from design import Channel, Design, Promise, passages, used_slots
from design_files import Link
from physical_units import PhysicalUnits, in_rate, in_time
import svg
from svg import MARGIN, Part, Picture, Sentence

LEAST_WIDTH = 480
UNITS_WIDTH = 124  # of the columns of rates and latencies in physical units
ARROW = f" {svg.ARROW} "
ROW = 16  # the height of a line of the legend
LEAST_ROWS = 8  # of the legend, before a further column is begun
WORDS_A_FLIT = 2
SWATCH = 44  # the room of a channel's colour and its number

RULES = """
.big{font-size:12px}.core{fill:none;stroke-width:.6}.line{marker-end:url(#tip)}
.on{font-size:9px;text-anchor:middle;pointer-events:none}
.way{stroke-width:3;stroke-linejoin:round;visibility:hidden;pointer-events:none}
.c:hover .way,.c:focus .way{visibility:visible}.c:hover .name,.c:focus .name{font-weight:bold}
#channels:hover .c:not(:hover),#channels:focus-within .c:not(:focus):not(:hover){opacity:.15}
.c:focus{outline:none}.chosen .way{visibility:visible;stroke-width:2}
"""


def rate_of(rate: int, slots: int) -> str:
    """A rate in words in 1,000 cycles, of words in each round of a table."""
    return svg.decimal(1000 * rate / slots)


def tells_of(design: Design, channel: Channel) -> str:
    """What a channel is, in words."""
    promise, slots, units = channel.promise, design.chip.slots, design.units
    return (
        f"{channel.name}, {channel.sender} to {channel.receiver}: {rate_of(promise.rate, slots)} words in 1,000 cycles "
        f"({promise.rate} in {slots}){', ' + units.rate(promise.rate, slots) if units else ''}, "
        f"latency {svg.count(promise.latency, 'cycle')}{in_time(promise.latency, units)}, "
        f"buffer {svg.count(promise.buffer, 'word')}; by {ARROW.join(channel.nodes(design.chip.links))}, "
        f"starts in {' '.join(map(str, channel.grant.starts))}"
    )


@dataclass(frozen=True)
class Column:
    """What the legend tells of a channel in a column: its head of two lines, the room for it, and what it tells of a promise."""

    head: str
    unit: str
    room: int
    tells: Callable[[Promise], str]


def columns_of(slots: int, units: PhysicalUnits | None) -> list[Column]:
    """The columns of the legend; with units the rate and the latency stand in these too."""
    plain = [
        Column("words in", "1,000 cycles", 86, lambda promise: rate_of(promise.rate, slots)),
        Column("words in", svg.count(slots, "cycle"), 72, lambda promise: str(promise.rate)),
        Column("latency", "cycles", 58, lambda promise: str(promise.latency)),
        Column("buffer", "words", 52, lambda promise: str(promise.buffer)),
    ]
    if units is None:
        return plain
    megabytes, nanoseconds = units.megabytes, units.nanoseconds
    rate = Column("rate", "MB/s", 66, lambda promise: megabytes(promise.rate, slots))
    latency = Column("latency", "ns", 58, lambda promise: nanoseconds(promise.latency))
    return [*plain[:2], rate, plain[2], latency, plain[3]]


class Legend:
    """A list of channels in as many columns as there is room for."""

    def __init__(self, design: Design, channels: Sequence[Channel], width: float, top: float) -> None:
        self.numbers = design.numbers
        self.kinds = columns_of(design.chip.slots, design.units)
        longest = max([len("channel")] + [len(channel.name) for channel in channels])
        self.name_width = 8 + svg.text_width("n" * min(longest, 26), 11)
        self.column = SWATCH + self.name_width + sum(kind.room for kind in self.kinds) + MARGIN
        self.columns = max(1, min(-(-len(channels) // LEAST_ROWS), int((width + MARGIN) // self.column)))
        self.rows = max(1, -(-len(channels) // self.columns))
        self.top = top
        self.bottom = top + (self.rows + 2) * ROW

    def head(self) -> str:
        """The names of the columns."""
        parts = []
        for column in range(self.columns):
            x = column * self.column + SWATCH + self.name_width
            parts.append(svg.label("channel", column * self.column + SWATCH, self.top, "less"))
            for kind in self.kinds:
                x += kind.room
                parts.append(svg.label(kind.head, x, self.top - 4, "less end"))
                parts.append(svg.label(kind.unit, x, self.top + 9, "less end"))
        return "".join(parts)

    def line(self, place: int, channel: Channel) -> str:
        """The line of a channel at a place of the list, with its colour as a cell and the number of its connection."""
        column, row = divmod(place, self.rows)
        left, y = column * self.column, self.top + (row + 1) * ROW + 9
        parts = [
            svg.tag("path", d=f"M{svg.number(left)} {y - 4}h14", stroke_width=12 if channel.side == "fwd" else 6),
            svg.label(str(self.numbers[channel.connection.name]), left + SWATCH - 5, y, "less end"),
            svg.label(channel.name, left + SWATCH, y, "name", self.name_width),
        ]
        x = left + SWATCH + self.name_width
        for kind in self.kinds:
            x += kind.room
            parts.append(svg.label(kind.tells(channel.promise), x, y, "end"))
        return "".join(parts)


def draw_channels(chip_map: ChipMap, design: Design, use: str, legend: Legend, chosen: Sequence[str]) -> str:
    """Each channel as one group of its cells, its line of the legend and its way. Where some are chosen the cells of all
    others are grey."""
    parts, place = [], 0
    for channel in design.channels(use):
        tells = svg.title(tells_of(design, channel))
        if chosen and channel.name not in chosen:
            cells = cells_of(chip_map, channel.grant, channel.side)
            parts.append(svg.tag("g", tells, cells, class_="other"))
            continue
        kind = f"c k{design.colours[channel.connection.name]}" + (" chosen" if chosen else "")
        parts.append(
            f'<g class="{kind}" role="img" tabindex="0">{tells}'
            f"{cells_of(chip_map, channel.grant, channel.side, str(design.numbers[channel.connection.name]))}"
            f"{legend.line(place, channel)}"
            f'<path class="way" d="{way_of(chip_map, channel.grant.links)}"/></g>'
        )
        place += 1
    if chosen:
        return svg.tag("g", "\n".join(parts))
    return svg.tag("g", "\n".join(parts), id="channels")


def draw_passages(design: Design, channels: Iterable[Channel], top: float, width: float) -> Part:
    """A list of the links of each channel's path with the slots in which its flits enter them."""
    parts, y = [], top
    for channel in channels:
        parts.append(svg.label(f"{channel.name}, {channel.sender} to {channel.receiver}", 0, y, "bold", width))
        y += ROW
        for passage in passages(design.chip, channel.grant):
            link, slots = passage.link, sorted(passage.slots)
            taken = f"{svg.plural('slot', slots)} {', '.join(map(str, slots))}"
            parts.append(svg.label(f"{link.source}{ARROW}{link.target}", 8, y, None, 200))
            parts.append(svg.label(f"link {link.number}", 216, y, "less"))
            parts.append(svg.label(taken, 280, y, None, width - 280))
            y += ROW
        y += ROW // 2
    return Part(parts, y)


def summary(design: Design, use: str) -> list[str]:
    """What the picture shows, in sentences."""
    chip, channels = design.chip, design.channels(use)
    used, slots = used_slots(chip, (channel.grant for channel in channels)), chip.slots
    share = round(100 * sum(used) / (slots * len(used))) if used else 0
    fullest = sorted(chip.links, key=lambda link: (-used[link.number], link.number))[:4]
    named = [named_load(link, used[link.number], slots, design.units) for link in fullest if used[link.number]]
    parts = [
        f"{svg.count(len(design.app.members[use]), 'connection')}, {svg.count(len(channels), 'channel')}. "
        f"{share} % of the {svg.count(slots, 'slot')} of {svg.count(len(used), 'link')} are in use."
    ]
    if named:
        parts.append(f"The fullest links, of {svg.count(slots, 'slot')}: {', '.join(named)}.")
    if design.units:
        parts.append(design.units.told)
    return parts


def named_load(link: Link, used: int, slots: int, units: PhysicalUnits | None) -> str:
    return f"link {link.number} ({link.source} to {link.target}) {used}{in_rate(WORDS_A_FLIT * used, slots, units)}"


def reading(chip_map: ChipMap, chosen: bool) -> str:
    """How to read the picture."""
    strip = chip_map.strip
    rows = f", in rows of {strip.row}," if strip.rows > 1 else ""
    numbers = ", with its number" if strip.has_numbers else ""
    delays = " and its delay" if chip_map.has_delays else ""
    grey = " Grey: channels that weren't chosen." if chosen else ""
    return (
        f"Beside each link: its slots 0 to {strip.slots - 1}{rows} and at their end its number{delays}. A cell has the colour of "
        f"its connection{numbers}; it is full for a channel forward and lower for one back.{grey} The more is in use, the wider the "
        "line."
    )


LATENCY = "Latency: how much later than by a steady server of the rate a word lands at the most."


def map_of(design: Design) -> ChipMap:
    """The map of a design, which is the same for all use cases."""
    numbers = {design.numbers[grant.connection] for grant in design.plan.grants}
    return ChipMap(design.chip, design.plan.cores_at(), Strip(design.chip.slots, sorted(numbers)))


def draw_plan(
    design: Design, use: str, chosen: Sequence[str] = (), chip_map: ChipMap | None = None, bare: bool = False
) -> Picture:
    """The whole picture: of all channels, or of the chosen ones, by name, with all others in grey. A bare one has neither
    its name nor sentences above it."""
    chip_map = chip_map or map_of(design)
    width = max(chip_map.width, LEAST_WIDTH + (UNITS_WIDTH if design.units else 0))
    channels = design.channels(use)
    shown = [channel for channel in channels if not chosen or channel.name in chosen]
    told = summary(design, use)
    how = reading(chip_map, bool(chosen))
    head = Part([], MARGIN - 8) if bare else svg.head(
        f"Use case {use}", [*map(Sentence, told), Sentence(how, "less")], width
    )
    legend = Legend(design, shown, width, chip_map.height + 2 * MARGIN)
    grants = [channel.grant for channel in channels]
    inner = chip_parts.draw_chip(chip_map, grants, used_slots(design.chip, grants))
    inner += [legend.head(), draw_channels(chip_map, design, use, legend, chosen)]
    inner.append(svg.label(LATENCY, 0, legend.bottom + 4, "less", width))
    bottom = legend.bottom + 4
    if chosen:
        passed = draw_passages(design, shown, bottom + 2 * ROW, width)
        inner += passed.elements
        bottom = passed.bottom
    body = svg.tag("g", "\n" + "\n".join(inner) + "\n", transform=f"translate({MARGIN} {svg.number(head.bottom + 8)})")
    parts = [chip_parts.definitions(chip_map.strip), *head.elements, body]
    height = head.bottom + 8 + bottom + MARGIN
    return svg.picture(width + 2 * MARGIN, height, f"Plan of use case {use}", " ".join(told), RULES, parts)
