"""What is wrong with a path, a set of slots or two grants of a plan that isn't accepted."""
from collections.abc import Sequence

from design_files import Application, Chip, Connection
from given import Given
from paths import Ways
from physical_units import in_rate, in_time
from plan_texts import Grant, Plan


def offsets(chip: Chip, links: Sequence[int]) -> list[int]:
    """The cycles from the start of a flit until it enters each link, and until it lands."""
    at = [0]
    for link in links:
        at.append(at[-1] + chip.links[link].delay)
    return at


def off_the_way(chip: Chip, links: Sequence[int], start: str, end: str) -> str | None:
    """Where a list of links doesn't lead from an interface to another, if it doesn't."""
    node = start
    for number in links:
        link = chip.links[number]
        if link.source != node:
            return f"Link {number} leads from {link.source} to {link.target}, and the way stands at {node} there."
        node = link.target
    if node != end:
        return f"It ends at {node}, and not at {end}."
    inner = [chip.links[number].target for number in links[:-1]]
    other = [node for node in inner if node not in chip.routers]
    if other:
        return f"It leads through {other[0]}, which is no router."
    twice = [node for place, node in enumerate(inner) if node in inner[:place]]
    return f"It comes to {twice[0]} twice." if twice else None


def why_no_path(chip: Chip, app: Application, plan: Plan, grant: Grant) -> str | None:
    """Why a grant's path isn't admissible."""
    connection, seats = app.connections[grant.connection], plan.interface_of()
    cores = connection.sender(grant.side), connection.receiver(grant.side)
    for core in cores:
        if core not in seats:
            return f"Its core `{core}` has no seat."
    start, end = (seats[core] for core in cores)
    off = off_the_way(chip, grant.links, start, end)
    if off:
        return f"It is to lead from {start}, the interface of `{cores[0]}`, to {end}, that of `{cores[1]}`. {off}"
    least = Ways(chip).least((start,), (end,), app.detour).links
    return f"It has {len(grant.links)} links: the least number is {least}, and the detour allows {app.detour} more."


def need_of(connection: Connection, side: str, slots: int) -> int:
    """How many slots a channel needs, for its words and for the credits of the opposite one."""
    fwd, back = (max(1, -(-wish.words * slots // (2 * wish.per))) for wish in (connection.fwd, connection.back))
    back = max(back, -(-2 * fwd // 15))
    return back if side == "back" else max(fwd, -(-2 * back // 15))


def gap_of(starts: Sequence[int], slots: int) -> int:
    """The greatest distance from a slot of a set to its next, round the table."""
    return max((after - start - 1) % slots + 1 for start, after in zip(starts, [*starts[1:], starts[0]]))


def why_unsuitable(given: Given, grant: Grant) -> str:
    """Why a grant's slots don't do for its channel."""
    chip, connection, units = given.chip, given.app.connections[grant.connection], given.units
    wish = connection.wish(grant.side)
    need, gap = need_of(connection, grant.side, chip.slots), gap_of(grant.starts, chip.slots)
    delay, latency = chip.delay_of(grant.links), f"{wish.latency}{in_time(wish.latency, units)}"
    if len(grant.starts) < need:
        had = len(grant.starts)
        return f"It needs {need} slots{in_rate(2 * need, chip.slots, units)}, and has {had}{in_rate(2 * had, chip.slots, units)}."
    if wish.latency < delay:
        return f"Its path takes {delay} cycles{in_time(delay, units)}, more than its latency of {latency}, whatever its slots are."
    return (
        f"The greatest gap of its slots is {gap}. A latency of {latency} on a path of {delay} cycles{in_time(delay, units)} "
        f"allows one of {wish.latency + 1 - delay}."
    )


def occupied(chip: Chip, grant: Grant) -> list[tuple[int, int]]:
    """The links that a grant has, each with a slot, in the order of its path and its starts."""
    at = zip(grant.links, offsets(chip, grant.links))
    return [(link, (start + offset) % chip.slots) for link, offset in at for start in grant.starts]


def where_they_meet(chip: Chip, grant: Grant, other: Grant) -> str:
    """The first slot of a link that two grants both have."""
    taken = set(occupied(chip, other))
    number, slot = next(both for both in occupied(chip, grant) if both in taken)
    link = chip.links[number]
    return f"Both have slot {slot} of link {number}, from {link.source} to {link.target}."


def why_broken(rule: int, shown: Sequence[Grant], plan: Plan, given: Given) -> str | None:
    """What is wrong with the grants that a rule names, where more can be said than the rule says."""
    if rule == 5:
        return why_no_path(given.chip, given.app, plan, shown[0])
    if rule == 6:
        return why_unsuitable(given, shown[0])
    return where_they_meet(given.chip, *shown) if rule == 7 else None
