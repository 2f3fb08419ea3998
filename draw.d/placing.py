"""Owns where the routers of a chip stand: each on a place (column, row) of a grid.

A mesh, a torus and a ring are recognised, whatever the names and the order of their routers. Any other chip is placed so
that routers with a link between them are near. Parts of a chip that aren't joined are placed each by itself, and stand
beside each other.
"""
from collections import deque
from collections.abc import Iterable, Sequence
from functools import lru_cache
import math
from typing import TypeAlias

from design_files import Link

Place: TypeAlias = tuple[int, int]  # column and row, from 0 on
Places: TypeAlias = dict[str, Place]
Near: TypeAlias = dict[str, set[str]]  # of each router those next to it

MOST_ROUNDS = 5


def neighbours_of(routers: Sequence[str], links: Iterable[Link]) -> Near:
    """The routers next to each router, whichever way the link between them leads."""
    near: Near = {router: set() for router in routers}
    for link in links:
        if link.source in near and link.target in near and link.source != link.target:
            near[link.source].add(link.target)
            near[link.target].add(link.source)
    return near


def distances_from(router: str, near: Near) -> dict[str, int]:
    """How many links away each router is that can be reached from one."""
    found, waiting = {router: 0}, deque([router])
    while waiting:
        here = waiting.popleft()
        for other in sorted(near[here] - found.keys()):
            found[other] = found[here] + 1
            waiting.append(other)
    return found


def mesh_between(corner: str, other: str, near: Near, distances: dict[str, dict[str, int]]) -> Places | None:
    """The places of a mesh whose upper corners these two are, or None where the chip is no such mesh."""
    wide = distances[corner][other]
    places = {}
    for router in near:
        along = distances[corner][router] - distances[other][router] + wide
        down = distances[corner][router] + distances[other][router] - wide
        places[router] = (along // 2, down // 2)
    taken = {place: router for router, place in places.items()}
    columns = wide + 1
    if len(taken) != len(near) or len(near) % columns:
        return None
    rows = len(near) // columns
    if set(taken) != {(x, y) for x in range(columns) for y in range(rows)}:
        return None
    for (x, y), router in taken.items():
        beside = {taken.get(place) for place in ((x - 1, y), (x + 1, y), (x, y - 1), (x, y + 1))} - {None}
        if near[router] != beside:
            return None
    return places


def mesh_places(routers: Sequence[str], near: Near) -> Places | None:
    """The places of a mesh, the first router as high and as far left as may be; None where it is no mesh."""
    corners = [router for router in routers if len(near[router]) <= 2]
    distances = {corner: distances_from(corner, near) for corner in corners}
    meshes = [mesh_between(corner, other, near, distances) for corner in corners for other in corners]
    found: list[Places] = [mesh for mesh in meshes if mesh]
    return min(found, key=lambda mesh: [mesh[router][::-1] for router in routers]) if found else None


MOST_STEPS = 20_000  # of a search for a torus


def next_to(place: Place, size: Place, wraps: tuple[bool, bool]) -> set[Place]:
    """The places next to a place of a torus, or of a mesh whose rows or columns alone are closed."""
    found = set()
    for axis, step in ((0, 1), (0, -1), (1, 1), (1, -1)):
        other = list(place)
        other[axis] += step
        if wraps[axis] and size[axis] > 2:
            other[axis] %= size[axis]
        if 0 <= other[axis] < size[axis]:
            found.add((other[0], other[1]))
    return found


def torus_of(routers: Sequence[str], near: Near, size: Place, wraps: tuple[bool, bool]) -> Places | None:
    """The places of a torus of a size, found row by row, each router next to those that stand already; None where there
    is none, or where that takes too many steps."""
    cells = [(x, y) for y in range(size[1]) for x in range(size[0])]
    order = {router: number for number, router in enumerate(routers)}
    earlier = []
    for number, cell in enumerate(cells):
        earlier.append([before for before in range(number) if cells[before] in next_to(cell, size, wraps)])
    degrees = [len(next_to(cell, size, wraps)) for cell in cells]
    placed: list[str] = []
    left, steps = [iter(routers)], 0
    while left and steps < MOST_STEPS:
        steps += 1
        router = next(left[-1], None)
        if router is None:
            left.pop()
            if placed:
                placed.pop()
            continue
        number = len(placed)
        beside = {placed[before] for before in earlier[number]}
        if router in placed or len(near[router]) != degrees[number] or near[router] & set(placed) != beside:
            continue
        placed.append(router)
        if len(placed) == len(cells):
            return dict(zip(placed, cells))
        first = earlier[number + 1]
        candidates = near[placed[first[0]]] if first else set(near)
        left.append(iter(sorted(candidates, key=order.__getitem__)))
    return None


def torus_places(routers: Sequence[str], near: Near) -> Places | None:
    """The places of a torus, or of a mesh with closed rows or columns, as square as may be; None where it is none."""
    many = len(routers)
    sizes = [(many // rows, rows) for rows in range(2, many // 2 + 1) if many % rows == 0]
    sides = sum(map(len, near.values()))
    for size in sorted(sizes, key=lambda size: (abs(size[0] - size[1]), size[1])):
        for wraps in ((True, True), (True, False), (False, True)):
            if any(wrap and long < 3 for wrap, long in zip(wraps, size)):
                continue
            cells = [(x, y) for y in range(size[1]) for x in range(size[0])]
            if sum(len(next_to(cell, size, wraps)) for cell in cells) == sides:
                places = torus_of(routers, near, size, wraps)
                if places:
                    return places
    return None


def ring_places(routers: Sequence[str], near: Near) -> Places | None:
    """The places of a ring: one row there, and one back below it; None where it is no ring."""
    if len(routers) < 3 or any(len(near[router]) != 2 for router in routers):
        return None
    order = [routers[0]]
    while len(order) < len(routers):
        onward = sorted(near[order[-1]] - set(order), key=routers.index)
        if not onward:
            return None
        order.append(onward[0])
    return snake(order, -(-len(order) // 2))


def snake(order: Sequence[str], columns: int) -> Places:
    """Places one after the other, each row the other way than the row before."""
    places = {}
    for number, router in enumerate(order):
        row, step = divmod(number, columns)
        places[router] = (step if row % 2 == 0 else columns - 1 - step, row)
    return places


def depth_first(routers: Sequence[str], near: Near) -> list[str]:
    """The routers, each followed by a neighbour of its own where one is left, the one with the fewest left first."""
    order: list[str] = []
    stack, seen = list(reversed(routers)), set[str]()
    while stack:
        router = stack.pop()
        if router not in seen:
            seen.add(router)
            order.append(router)
            left = near[router] - seen
            stack += sorted(left, key=lambda other: (-len(near[other] - seen), other))
    return order


def breadth_first(routers: Sequence[str], near: Near) -> list[str]:
    """The routers, each part of the chip by the distance from its first one."""
    order: list[str] = []
    for router in routers:
        if router not in order:
            order += [other for other in distances_from(router, near) if other not in order]
    return order


def reach(router: str, place: Place, places: Places, near: Near) -> int:
    """How far it is from a place to the neighbours of a router."""
    (x, y), far = place, 0
    for other in near[router]:
        if other in places:
            column, row = places[other]
            far += abs(x - column) + abs(y - row)
    return far


def swapped_nearer(places: Places, near: Near, cells: Sequence[Place]) -> bool:
    """Exchanges what stands on two places wherever that brings neighbours nearer. Says whether it did."""
    holder = {place: router for router, place in places.items()}
    moved = False
    for number, first in enumerate(cells):
        for second in cells[:number]:
            both = [(holder.get(first), first, second), (holder.get(second), second, first)]
            pair = [(router, here, there) for router, here, there in both if router is not None]
            before = sum(reach(router, here, places, near) for router, here, _ in pair)
            places.update({router: there for router, _, there in pair})
            if sum(reach(router, there, places, near) for router, _, there in pair) < before:
                holder = {place: router for router, place in places.items()}
                moved = True
            else:
                places.update({router: here for router, here, _ in pair})
    return moved


def near_places(routers: Sequence[str], near: Near) -> Places:
    """Places on a grid that is about square, the shortest in all of some rounds of exchanges from three orders."""
    columns = max(1, round(len(routers) ** 0.5))
    rows = -(-len(routers) // columns)
    cells = [(x, y) for y in range(rows) for x in range(columns)]
    found = []
    for order in (list(routers), depth_first(routers, near), breadth_first(routers, near)):
        places = snake(order, columns)
        for _ in range(MOST_ROUNDS):
            if not swapped_nearer(places, near, cells):
                break
        found.append(places)
    return min(found, key=lambda places: sum(reach(router, places[router], places, near) for router in routers))


def parts_of(routers: Sequence[str], near: Near) -> list[list[str]]:
    """The parts of a chip within which routers are joined, each with its routers in file order."""
    parts: list[list[str]] = []
    seen: set[str] = set()
    for router in routers:
        if router not in seen:
            joined = distances_from(router, near)
            seen.update(joined)
            parts.append([other for other in routers if other in joined])
    return parts


def place_part(routers: Sequence[str], near: Near) -> Places:
    """The places of routers that are joined."""
    return (
        mesh_places(routers, near) or torus_places(routers, near) or ring_places(routers, near) or near_places(routers, near)
    )


def place_routers(routers: Sequence[str], links: Iterable[Link]) -> Places:
    """The place of each router, looked for once, however many maps of the chip are drawn."""
    return dict(placed(tuple(routers), tuple(links)))


@lru_cache(1)
def placed(routers: tuple[str, ...], links: tuple[Link, ...]) -> Places:
    """The place of each router. Parts that aren't joined stand side by side, in rows that are about as wide as all of it
    is high."""
    near = neighbours_of(routers, links)
    most = max(1, math.ceil(1.5 * math.sqrt(len(routers))))
    places: Places = {}
    left = top = bottom = 0
    for part in parts_of(routers, near):
        own = place_part(part, near_within(part, near))
        columns = 1 + max(column for column, _ in own.values())
        if left and left + columns > most:
            left, top = 0, bottom
        places.update({router: (left + column, top + row) for router, (column, row) in own.items()})
        left += columns
        bottom = max(bottom, 1 + max(row for _, row in places.values()))
    return places


def near_within(part: Sequence[str], near: Near) -> Near:
    """The neighbours of the routers of one part."""
    return {router: near[router] for router in part}
