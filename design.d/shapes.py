"""Chips of a regular shape, as files that `aeth chip` accepts."""
from collections.abc import Callable, Sequence
from dataclasses import dataclass

from ending import NO_WORDS, Stop

MOST_ROUTERS = 64
MOST_INTERFACES = 64
MOST_LINKS = 1024
MOST_PORTS = 8
MOST_DELAY = 4
MOST_SLOTS = 128
PLAIN_SLOTS = 64  # above it a chip file is of version 2


class Refused(Stop):
    """Words that make no file; the message says why."""

    def __init__(self, why: str) -> None:
        super().__init__(NO_WORDS, why)


@dataclass(frozen=True)
class Pair:
    """Two routers with links both ways, which may be long."""

    one: int
    other: int
    is_long: bool


@dataclass(frozen=True)
class Shape:
    """How routers stand: pairs of neighbours, and what the shape is."""

    routers: int
    pairs: list[Pair]
    tells: str


def mesh(columns: int, rows: int) -> Shape:
    pairs = []
    for place in range(columns * rows):
        column, row = place % columns, place // columns
        if column + 1 < columns:
            pairs.append(Pair(place, place + 1, True))
        if row + 1 < rows:
            pairs.append(Pair(place, place + columns, True))
    where = "Router `rk` stands in column `k mod %d` and row `k / %d`." % (columns, columns)
    return Shape(columns * rows, pairs, f"A mesh of {columns} by {rows} routers. {where}")


def torus(columns: int, rows: int) -> Shape:
    inner = mesh(columns, rows)
    pairs = [Pair(pair.one, pair.other, False) for pair in inner.pairs]
    # A ring of two is the pair of links that the mesh has.
    if columns > 2:
        pairs += [Pair(row * columns + columns - 1, row * columns, True) for row in range(rows)]
    if rows > 2:
        pairs += [Pair((rows - 1) * columns + column, column, True) for column in range(columns)]
    tells = inner.tells.replace("A mesh", "A torus", 1) + " Rows and columns close to rings."
    return Shape(columns * rows, pairs, tells)


def ring(routers: int) -> Shape:
    pairs = [Pair(place, place + 1, False) for place in range(routers - 1)]
    if routers > 2:
        pairs.append(Pair(routers - 1, 0, True))
    return Shape(routers, pairs, f"A ring of {routers} routers.")


def tree(routers: int, children: int) -> Shape:
    pairs = [Pair((place - 1) // children, place, place <= children) for place in range(1, routers)]
    tells = f"A tree of {routers} routers: `r0` is the root, and below `rk` stand `r({children}k + 1)` and on."
    return Shape(routers, pairs, tells)


# By name how a shape is made, and of how many sizes.
SHAPES: dict[str, tuple[Callable[..., Shape], int]] = {
    "mesh": (mesh, 2), "torus": (torus, 2), "ring": (ring, 1), "tree": (tree, 2),
}


def shape_of(name: str, sizes: Sequence[int]) -> Shape:
    """The shape of a name and its sizes."""
    make, count = SHAPES[name]
    if len(sizes) != count:
        raise Refused(f"{name} has {count} {'size' if count == 1 else 'sizes'}, and {len(sizes)} are given")
    if min(sizes) < 1:
        raise Refused("a size is 1 or more")
    routers = sizes[0] * sizes[1] if name in ("mesh", "torus") else sizes[0]
    if routers > MOST_ROUTERS:
        raise Refused(f"a chip has 1 to {MOST_ROUTERS} routers")
    return make(*sizes)


def interfaces_at(shape: Shape, at: Sequence[str] | None) -> list[int]:
    """The router of each interface: one at each router, or one for each name of a router."""
    if at is None:
        return list(range(shape.routers))
    names = {f"r{place}": place for place in range(shape.routers)}
    for name in at:
        if name not in names:
            raise Refused(f"there is no router {name}: they are r0 to r{shape.routers - 1}")
    if not 1 <= len(at) <= MOST_INTERFACES:
        raise Refused(f"a chip has 1 to {MOST_INTERFACES} interfaces")
    return [names[name] for name in at]


def judge_ports(shape: Shape, homes: Sequence[int]) -> None:
    """Each router has at most so many links each way."""
    ports = [homes.count(place) for place in range(shape.routers)]
    for pair in shape.pairs:
        ports[pair.one] += 1
        ports[pair.other] += 1
    for place, count in enumerate(ports):
        if count > MOST_PORTS:
            raise Refused(f"router r{place} would have {count} links each way, and {MOST_PORTS} are allowed")


def quoted(names: Sequence[str], room: int = 12) -> str:
    """Lines of quoted names, so many in a line."""
    rows = [names[start : start + room] for start in range(0, len(names), room)]
    return "[\n" + "".join("  " + ", ".join(f'"{name}"' for name in row) + ",\n" for row in rows) + "]"


def link_line(pair: int, one: str, other: str, delay: int) -> str:
    """The two links between a pair of nodes, in one line, with their numbers."""
    last = f", delay = {delay}" if delay > 1 else ""
    links = f'{{from = "{one}", to = "{other}"{last}}}, {{from = "{other}", to = "{one}"{last}}},'
    return f"  {links}  # {2 * pair}, {2 * pair + 1}\n"


def chip_text(shape: Shape, slots: int, delay: int, homes: Sequence[int], words: Sequence[str]) -> str:
    """The chip file: the links of interfaces first, then those between routers, each pair of nodes in a line."""
    if not 1 <= slots <= MOST_SLOTS:
        raise Refused(f"a slot table has 1 to {MOST_SLOTS} slots")
    if not 1 <= delay <= MOST_DELAY:
        raise Refused(f"a link has a delay of 1 to {MOST_DELAY} cycles")
    judge_ports(shape, homes)
    if 2 * (len(homes) + len(shape.pairs)) > MOST_LINKS:
        raise Refused(f"a chip has at most {MOST_LINKS} links")
    long = " Long links take %d cycles." % delay if delay > 1 else ""
    lines = [f"# {shape.tells}{long}\n# Made by: ./design {' '.join(words)}\n"]
    lines.append(f"version = {2 if slots > PLAIN_SLOTS or delay > 1 else 1}\nslots = {slots}\n")
    lines.append(f"routers = {quoted([f'r{place}' for place in range(shape.routers)])}\n")
    lines.append(f"nis = {quoted([f'n{place}' for place in range(len(homes))])}\n")
    lines.append("link = [  # with their numbers\n  # Interfaces and their routers.\n")
    lines += [link_line(place, f"n{place}", f"r{home}", 1) for place, home in enumerate(homes)]
    if shape.pairs:
        lines.append("  # Routers and their neighbours.\n")
    lines += [
        link_line(place, f"r{pair.one}", f"r{pair.other}", delay if pair.is_long else 1)
        for place, pair in enumerate(shape.pairs, len(homes))
    ]
    return "".join(lines) + "]\n"


def far_pairs(shape: Shape, homes: Sequence[int], most: int = 7) -> int:
    """How many ordered pairs of interfaces have no path over so many routers at most."""
    near: dict[int, set[int]] = {place: set() for place in range(shape.routers)}
    for pair in shape.pairs:
        near[pair.one].add(pair.other)
        near[pair.other].add(pair.one)
    far = 0
    for start in homes:
        reached, edge = {start}, {start}
        for _ in range(most - 1):
            edge = {other for place in edge for other in near[place]} - reached
            reached |= edge
        far += sum(home not in reached for home in homes)
    return far
