"""Owns the picture of a run: a lane for each channel over the cycles, with its words, and the load of the links below."""
from collections.abc import Sequence
from typing import NamedTuple

from lanes import amounts_of, broken_promise, draw_lane
from physical_units import PhysicalUnits, in_time
from runs import Run
from sessions import ChannelLog
import svg
from svg import MARGIN, Part, Picture, Sentence
from timescale import Span, Timescale, busy_parts

MOST_LANES = 128
LANES = ((8, 44), (MOST_LANES, 24))  # the height of a lane, where there are so many at most
BETWEEN = 6  # from lane to lane
MOST_LINKS = 160
MOST_BROKEN = 4  # channels whose receivers are told by their names
TIMES_ROOM = 12  # of the times below the cycles of the axis
SWITCH_ROOM = 24  # for each switch, where its band goes through all lanes
LOAD_COLUMN = 344

RULES = """
.word{stroke-width:1.2}.late,.overdue{stroke-width:2.4}.overdue{stroke-dasharray:4 3}.due{stroke-width:1.2}
.session{stroke:none}.ended{fill-opacity:.4}.bar{stroke-width:2.4}.bar.late,.bar.overdue{stroke-width:4;stroke-dasharray:none}
.drop{stroke-width:1.6}.broken{stroke-width:1.6}
.grid{stroke-width:.6}.lane:hover .name,.lane:focus .name{font-weight:bold}
"""
COLOURS = (
    ".word,.bar{stroke:#3355cc}.late,.overdue,.drop{stroke:#cc4400}.due,.broken{stroke:#1b1f24}.session{fill:#dfe5f1}"
    ".switch{fill:#e6d9b8}.grid{stroke:#c3c9d0}.lateness{fill:#b23c00}.excused{fill:#7a5c00}"
)
DARK = (
    ".word,.bar{stroke:#77aaff}.late,.overdue,.drop{stroke:#ff7733}.due,.broken{stroke:#e8eaed}.session{fill:#263145}"
    ".switch{fill:#4a3f22}.grid{stroke:#3a4149}.lateness{fill:#ff8a50}.excused{fill:#e0b84d}"
)


class Lanes(NamedTuple):
    """The channels that have a lane of their own, in the order of the log, and the others that have words."""

    shown: list[ChannelLog]
    others: list[ChannelLog]


def lanes_of(channels: Sequence[ChannelLog]) -> Lanes:
    """Of the channels with words those that have a lane of their own, and the others: where they are too many, those with
    overdue or late words come first, then with dropped ones, then with long waits."""
    talking = [channel for channel in channels if channel.offered]
    ranked = sorted(talking, key=lambda c: (c.overdue + c.late, c.dropped, c.longest, c.offered), reverse=True)
    chosen = {channel.name for channel in ranked[:MOST_LANES]}
    return Lanes([c for c in talking if c.name in chosen], [c for c in talking if c.name not in chosen])


def draw_switches(run: Run, scale: Timescale, top: float, bottom: float) -> list[str]:
    """A band for each switch, and between them the names of the use cases where there is room. Where switches are many
    the bands don't reach into the lanes."""
    parts = []
    spans = [Span(switch.cycle, switch.over) for switch in run.switches[1:]]
    high = bottom - top if len(spans) * SWITCH_ROOM <= scale.width else 14
    for bar in busy_parts(spans, scale):
        parts.append(svg.tag("rect", class_="switch", x=bar.left, y=top, width=bar.width, height=high))
    ends = [switch.cycle for switch in run.switches[1:]] + [run.cycles]
    for switch, end in zip(run.switches, ends):
        room = scale.at(end) - scale.at(switch.over)
        if room >= svg.text_width(switch.use[:6], 11) + 6:
            parts.append(svg.label(switch.use, scale.at(switch.over) + 3, top + 10, "bold", room - 4))
    return parts


def draw_axis(scale: Timescale, top: float, bottom: float, units: PhysicalUnits | None) -> list[str]:
    """The cycles, with units their times below them, and the heads of the numbers at the right."""
    parts = [svg.label("time", MARGIN, top + 26 + TIMES_ROOM, "less")] if units else []
    for cycle in scale.ticks():
        x = scale.at(cycle)
        parts.append(svg.tag("path", class_="grid", d=f"M{x} {top + 16}V{bottom}"))
        parts.append(svg.label(f"{cycle:,}", x, top + 26, "less mid"))
        if units:
            parts.append(svg.label(units.time(cycle), x, top + 26 + TIMES_ROOM, "less mid"))
    x = scale.right
    for amount in amounts_of(units):
        x += amount.room
        parts.append(svg.label(amount.head, x, top + 14, "less end"))
        parts.append(svg.label(amount.unit, x, top + 26, "less end"))
    return [*parts, svg.label("cycle", MARGIN, top + 26, "less")]


def draw_load(run: Run, top: float, width: float) -> Part:
    """The links by their load, the greatest first, each with a bar; what is past the last one is summed up."""
    order = sorted(run.links, key=lambda link: (-run.flits[link.number], link.number))
    shown = [link for link in order[:MOST_LINKS] if run.flits[link.number]]
    others = order[len(shown) :]
    columns = max(1, int(width // LOAD_COLUMN))
    rows = -(-len(shown) // columns)
    parts = [svg.label("Load of the links: cycles with a flit, of those of the run", MARGIN, top, "bold")]
    for place, link in enumerate(shown):
        column, row = divmod(place, rows)
        x, y, flits = MARGIN + column * LOAD_COLUMN, top + 18 + row * 16, run.flits[link.number]
        share = flits / run.cycles
        parts.append(svg.tag(
            "g",
            svg.title(f"link {link.number}, {link.source} to {link.target}: a flit in {flits} of {run.cycles} cycles"),
            svg.label(str(link.number), x + 24, y, "less end"),
            svg.label(f"{link.source} {svg.ARROW} {link.target}", x + 32, y, width=100),
            svg.tag("path", class_="free", d=f"M{x + 136} {y - 4}h80", stroke_width=9),
            svg.tag("path", class_="word", d=f"M{x + 136} {y - 4}h{svg.number(80 * share)}", style="stroke-width:9"),
            svg.label(f"{100 * share:.0f} %", x + 252, y, "end"),
            svg.label(f"{flits:,}", x + 316, y, "less end"),
        ))
    y = top + 18 + rows * 16
    if others:
        most = run.flits[others[0].number]
        carried = f"{svg.count(most, 'flit')} at most" if most else "no flit"
        parts.append(svg.label(f"{svg.count(len(others), 'further link')} with {carried}", MARGIN, y, "less"))
    return Part(parts, y + MARGIN)


def summary(run: Run, channels: Sequence[ChannelLog]) -> str:
    """What the picture shows, in some sentences."""
    offered, outside = sum(c.offered for c in channels), sum(c.outside for c in channels)
    landed, late = sum(c.landed for c in channels), sum(c.late for c in channels)
    overdue, dropped = sum(c.overdue for c in channels), sum(c.dropped for c in channels)
    return (
        f"{svg.count(run.cycles, 'cycle')}{in_time(run.cycles, run.units)} with {svg.count(len(run.switches) - 1, 'change')} of the use case. "
        f"{svg.count(offered, 'word')} offered in sessions, {landed:,} landed, {late:,} of them late; {overdue:,} overdue, not "
        f"landed when they were due; {dropped:,} dropped; {outside:,} offered outside of all sessions."
        + (f" {run.units.told}" if run.units else "")
    )


def broken_promises(channels: Sequence[ChannelLog], units: PhysicalUnits | None = None) -> list[str]:
    """A sentence for each of the first channels whose receiver hasn't kept its delay."""
    broken = [channel for channel in channels if channel.broken is not None]
    told = [f"{channel.name}: {broken_promise(channel, units)}." for channel in broken[:MOST_BROKEN]]
    if len(broken) > MOST_BROKEN:
        told.append(f"So it is with {svg.count(len(broken) - MOST_BROKEN, 'further channel')}.")
    return told


READING = (
    "A lane is a channel, shaded where it is in use, and less so where its promise has ended. A line leads from a word's offer, "
    "above, to its landing, below; the short line is its due cycle. Of too many words bars are the longest waits."
)


def draw_rest(others: Sequence[ChannelLog], y: float) -> str:
    """The channels without a lane, in a line."""
    words, late = sum(channel.offered for channel in others), sum(channel.late for channel in others)
    overdue = sum(channel.overdue for channel in others)
    rest = f"{svg.count(len(others), 'further channel')} with {svg.count(words, 'word')}, {late} late, {overdue} overdue"
    return svg.label(rest, MARGIN, y, "less")


def draw_run(run: Run, chosen: Sequence[ChannelLog] = (), bare: bool = False) -> Picture:
    """The whole picture: of all channels, or of the chosen ones. A bare one has neither its name nor sentences above it."""
    channels, units = chosen or run.channels, run.units
    lanes = lanes_of(channels)
    names = max([len(channel.name) for channel in lanes.shown] + [10])
    name_width = min(190, svg.text_width("n" * names, 11) + 8)
    scale = Timescale(run.cycles, MARGIN + name_width)
    width = scale.right + sum(amount.room for amount in amounts_of(units)) + MARGIN
    name = f"Run of {svg.count(run.cycles, 'cycle')}"
    told = [summary(run, channels), *broken_promises(channels, units)]
    head = Part([], MARGIN - 8) if bare else svg.head(
        name, [*map(Sentence, told), Sentence(READING, "less")], width - 2 * MARGIN
    )
    top = head.bottom
    step = next(step for many, step in LANES if len(lanes.shown) <= many)
    axis = 32 + (TIMES_ROOM if units else 0)
    bottom = top + axis + step * len(lanes.shown)
    parts = [*head.elements, *draw_switches(run, scale, top, bottom), *draw_axis(scale, top, bottom, units)]
    for place, channel in enumerate(lanes.shown):
        parts.append(draw_lane(channel, scale, top + axis + 2 + place * step, step - BETWEEN, name_width, units))
    if lanes.others:
        bottom += step
        parts.append(draw_rest(lanes.others, bottom - 6))
    load = draw_load(run, bottom + MARGIN + 8, width - 2 * MARGIN)
    rules = RULES + COLOURS + f"\n@media screen and (prefers-color-scheme:dark){{{DARK}}}"
    return svg.picture(int(width), load.bottom, name, summary(run, channels), rules, parts + load.elements)
