"""Owns what a player is told of a design and of a run, as JSON: each channel with its ways and its promises and, of a run, the
flits that it sent and the words of its sessions.

A flit goes over the links of its path without a stop. So the cycle in which it enters the first one tells where it is, and no
more of the log of the links is kept. In each list the cycles stand as the steps from one to the next.
"""
from bisect import bisect_right
from collections import defaultdict
from collections.abc import Iterable, Sequence
from dataclasses import dataclass, field
from itertools import pairwise
import json
from typing import NamedTuple, TypeAlias

from chip_map import ChipMap
from design import SIDES, Design, Key
from physical_units import NANOSECONDS
from player_map import corners_of, draw_ground, spots_of
from runs import Ends, Run
from sessions import ChannelLog, Session
from waveform import Channels

VERSION = 1
COUNT_AT, ROUTE_AND_QUEUE = 30, (1 << 26) - 1  # of a header
QUEUE_AT, ROUTE = 21, (1 << 21) - 1
Json: TypeAlias = "dict[str, Json] | list[Json] | str | int | float | bool | None"


@dataclass
class Sent:
    """The flits of a channel: the cycles in which they enter its first link, and how many words each has."""

    cycles: list[int] = field(default_factory=list)
    counts: list[int] = field(default_factory=list)


def sent_flits(design: Design, log: Iterable[str]) -> dict[Ends, Sent]:
    """The flits of each channel, of the lines of a log of links."""
    chip = design.chip
    first = {str(link.number) for link in chip.links if link.source in chip.routers_by_interface}
    channels = Channels(chip, design.app, design.plan)
    found: dict[Ends, Sent] = defaultdict(Sent)
    known: dict[tuple[str, int], Sent] = {}
    lines = iter(log)
    next(lines, None)
    for line in lines:
        cycle, link, word, _ = line.split(",", 3)
        if link not in first:
            continue
        header = int(word)
        way = link, header & ROUTE_AND_QUEUE
        if way not in known:
            name, _, side = channels.name(int(link), header & ROUTE, (header & ROUTE_AND_QUEUE) >> QUEUE_AT).partition(":")
            known[way] = found[name, side]
        known[way].cycles.append(int(cycle))
        known[way].counts.append(header >> COUNT_AT)
    return found


class Played(NamedTuple):
    """A run with its flits."""

    run: Run
    flits: dict[Ends, Sent]


def steps_of(numbers: Sequence[int]) -> list[Json]:
    """The first number, and the steps from each to the next."""
    return [*numbers[:1], *(after - before for before, after in pairwise(numbers))]


def words_of(session: Session) -> dict[str, Json]:
    """The words of a session: those that landed, with the cycles from the offer to the landing, and then the others. Of all
    of them the cycles from the offer to the due cycle."""
    log, waiting = session.log, session.waiting
    offers = log.offers + [word.offered for word in waiting]
    dues = log.dues + [word.due for word in waiting]
    return {
        "offered": steps_of(offers), "waits": list(session.waits),
        "dues": [due - offer for due, offer in zip(dues, offers)],
    }


def session_of(session: Session, sent: Sent) -> dict[str, Json]:
    """A session, with the flits that the channel sent in it."""
    log = session.log
    return {
        "go": log.go, "end": session.end, "ended": log.ended, "group": session.group, "last": session.last,
        "broken": session.broken, **words_of(session), "sent": steps_of(sent.cycles), "counts": "".join(map(str, sent.counts)),
    }


def sessions_of(channel: ChannelLog | None, sent: Sent) -> list[Json]:
    """The sessions of a channel. A flit belongs to the last one that goes before it enters its link."""
    if channel is None:
        return []
    begun = [session.log.go for session in channel.sessions]
    parts = [Sent() for _ in begun]
    for cycle, count in zip(sent.cycles, sent.counts):
        part = parts[bisect_right(begun, cycle) - 1]
        part.cycles.append(cycle)
        part.counts.append(count)
    return [session_of(session, part) for session, part in zip(channel.sessions, parts)]


def grants_of(design: Design, connection: str, side: str) -> dict[str, Json]:
    """The grants of a channel by their groups: the links, the slots in which flits enter the first one, and the promise."""
    found: dict[str, Json] = {}
    for group in sorted(set(design.app.groups.values())):
        key = Key(connection, side, group)
        if key in design.promises:
            grant, promise, units = design.grants[key], design.promises[key], design.units
            told: dict[str, Json] = {
                "links": list(grant.links), "starts": list(grant.starts), "rate": promise.rate, "latency": promise.latency,
                "buffer": promise.buffer,
            }
            if units:
                told["physical"] = [units.rate(promise.rate, design.chip.slots), units.time(promise.latency)]
            found[str(group)] = told
    return found


def channels_of(design: Design, chip_map: ChipMap, played: Played | None) -> list[Json]:
    """The channels that have a grant, in the order of the application."""
    spots, found = spots_of(chip_map), list[Json]()
    logs = {(log.connection, log.side): log for log in played.run.channels} if played else {}
    for name, connection in design.app.connections.items():
        for place, side in enumerate(SIDES):
            grants, wish = grants_of(design, name, side), connection.wish(side)
            if not grants:
                continue
            sender, receiver = connection.sender(side), connection.receiver(side)
            channel: dict[str, Json] = {
                "name": f"{name} {side}", "number": design.numbers[name], "colour": design.colours[name], "side": place,
                "from": sender, "to": receiver, "ends": [*spots[sender], *spots[receiver]],
                "wish": [wish.words, wish.per, wish.latency], "grants": grants,
            }
            if design.units:
                channel["physical"] = [design.units.rate(wish.words, wish.per, up=True), design.units.time(wish.latency, up=False)]
            if played:
                log = logs.get((name, side))
                channel["sessions"] = sessions_of(log, played.flits.get((name, side), Sent()))
                channel["outside"] = log.outside if log else 0
            found.append(channel)
    return found


def run_of(run: Run) -> dict[str, Json]:
    return {"cycles": run.cycles, "switches": [[switch.cycle, switch.over, switch.use] for switch in run.switches]}


def player_data(design: Design, chip_map: ChipMap, uses: Sequence[str], played: Played | None) -> str:
    """All that a player is told: of some use cases the slots, and the run where there is one."""
    app = design.app

    def numbers(use: str) -> list[Json]:
        return [number for name, number in design.numbers.items() if name in app.members[use]]

    data: dict[str, Json] = {
        "version": VERSION, "slots": design.chip.slots, "cell": chip_map.strip.cell, "high": chip_map.strip.height,
        "links": [[link.source, link.target, link.delay] for link in design.chip.links],
        "corners": [list(corner) for corner in corners_of(chip_map)],
        "uses": [{"name": use, "group": app.groups[use], "connections": numbers(use)} for use in uses],
        "channels": channels_of(design, chip_map, played), "run": run_of(played.run) if played else None,
        "ground": draw_ground(chip_map), "cycle": float(design.units.seconds(1) / NANOSECONDS) if design.units else None,
    }
    return json.dumps(data, separators=(",", ":"))
