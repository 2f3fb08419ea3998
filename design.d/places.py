"""Where in a file a refusal points: the rules' walks over a file, as paths of keys and places.

A path is as `toml_lines` has it: keys, and places in arrays from 0 on. Each walk is that of the rule of this name in
docs/FORMATS.md.
"""
from collections.abc import Callable, Iterator
from dataclasses import dataclass
import csv
import io

from toml_lines import Path, Tree


def chip_ranges(chip: Tree) -> Iterator[Path]:
    yield ("version",)
    yield ("slots",)
    yield ("routers",)
    yield ("nis",)
    yield ("link",)
    for key in ("routers", "nis"):
        for place in range(len(chip.get(key, []))):
            yield (key, place)
    if chip.get("version") == 2:
        for place in range(len(chip.get("link", []))):
            yield ("link", place, "delay")


def chip_names(chip: Tree) -> Iterator[Path]:
    for key in ("routers", "nis"):
        for place in range(len(chip.get(key, []))):
            yield (key, place)


def chip_tables(chip: Tree) -> Iterator[Path]:
    yield ()
    for place in range(len(chip.get("link", []))):
        yield ("link", place)


def app_ranges(app: Tree) -> Iterator[Path]:
    for key in ("version", "detour", "cost", "core", "connection", "use"):
        yield (key,)
    for key in ("core", "connection", "use"):
        for place in range(len(app.get(key, []))):
            yield (key, place, "name")
    for place in range(len(app.get("connection", []))):
        for side in ("fwd", "back"):
            for key in ("words", "per", "latency", "delay"):
                yield ("connection", place, side, key)


def app_tables(app: Tree) -> Iterator[Path]:
    yield ()
    for place in range(len(app.get("core", []))):
        yield ("core", place)
    for place in range(len(app.get("connection", []))):
        yield ("connection", place)
        yield ("connection", place, "fwd")
        yield ("connection", place, "back")
    for place in range(len(app.get("use", []))):
        yield ("use", place)


def members(app: Tree, key: str) -> Iterator[Path]:
    for place, case in enumerate(app.get("use", [])):
        for item in range(len(case.get(key, []))):
            yield ("use", place, key, item)


def app_names(app: Tree) -> Iterator[Path]:
    for key in ("core", "connection", "use"):
        for place in range(len(app.get(key, []))):
            yield (key, place, "name")
    yield from members(app, "connections")


def app_known(app: Tree) -> Iterator[Path]:
    for place, core in enumerate(app.get("core", [])):
        if "ni" in core:
            yield ("core", place, "ni")
    for place in range(len(app.get("connection", []))):
        yield ("connection", place, "from")
        yield ("connection", place, "to")
    yield from members(app, "connections")
    yield from members(app, "smooth")


def nth(walk: Iterator[Path], place: int) -> Path | None:
    return next((path for count, path in enumerate(walk) if count == place), None)


def unknown_end(chip: Tree, place: int) -> Path:
    """The end of a link that names nothing."""
    link = chip.get("link", [])[place]
    known = set(chip.get("routers", [])) | set(chip.get("nis", []))
    key = next((key for key in ("from", "to") if link.get(key) not in known), "from")
    return ("link", place, key)


Finder = Callable[[Tree, int], Path | None]

CHIP: dict[int, Finder] = {
    2: lambda chip, place: nth(chip_tables(chip), place),
    3: lambda chip, place: nth(chip_ranges(chip), place - 1),
    4: lambda chip, place: nth(chip_names(chip), place),
    5: unknown_end,
    6: lambda chip, place: ("routers", place),
    7: lambda chip, place: ("nis", place),
}
APP: dict[int, Finder] = {
    2: lambda app, place: nth(app_tables(app), place),
    3: lambda app, place: nth(app_ranges(app), place - 1),
    4: lambda app, place: nth(app_names(app), place),
    5: lambda app, place: nth(app_known(app), place),
    6: lambda app, place: ("connection", place // 2, "back" if place % 2 else "fwd", "words"),
    7: lambda app, place: ("connection", place, "to"),
    8: lambda app, place: ("core", place),
    9: lambda app, place: ("core",),
    10: lambda app, place: ("core",),
}


@dataclass(frozen=True)
class Walks:
    """By number of a rule the path of a place, and the walk over the names of a file."""

    rules: dict[int, Finder]
    names: Callable[[Tree], Iterator[Path]]


WALKS = {"chip": Walks(CHIP, chip_names), "app": Walks(APP, app_names)}


def row_lines(data: bytes, rows: list[int]) -> dict[int, int]:
    """The lines on which some rows of a trace begin: rows count records, and the header is row 0."""
    reader = csv.reader(io.StringIO(data.decode("utf-8", "surrogateescape").removeprefix("\ufeff"), newline=""))
    found: dict[int, int] = {}
    count, before, last = -1, 0, max(rows, default=-1)
    for record in reader:
        count += bool(record)
        if record and count in rows:
            found[count] = before + 1
        if count >= last:
            break
        before = reader.line_num
    return found
