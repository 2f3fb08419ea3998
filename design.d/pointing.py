"""Where a refusal of a file points, in words: file, line, key or row, and what stands there."""
from difflib import get_close_matches
from typing import Any
import re

from ending import printable, shortened
from given import Given
from physical_units import in_time
from places import WALKS, row_lines
from rules import NAME, SECTIONS, keys_of, table_at
from toml_lines import Moment, Path, TomlError, Tree

MOST_MEANT = 40  # letters of a key that another one may be meant by


def shown(value: Any) -> str:
    """A value on one line, as it is spelled where it is short."""
    if isinstance(value, dict):
        return "a table"
    if isinstance(value, list):
        return "an array"
    if isinstance(value, bool):
        return str(value).lower()
    if isinstance(value, str) and not isinstance(value, Moment):
        return shortened(repr(shortened(value, 200)), 300)
    return shortened(printable(str(value)))


def key_shown(key: str) -> str:
    return f"`{shortened(printable(key))}`"


def within(value: Any, key: str | int) -> Any:
    """What stands at a key of a table or at a place of an array, or none."""
    if isinstance(value, dict) and isinstance(key, str):
        return value.get(key)
    return value[key] if isinstance(value, list) and isinstance(key, int) and key < len(value) else None


def stands(path: Path, root: Tree) -> Any:
    """What stands at a path, or none."""
    value: Any = root
    for key in path:
        value = within(value, key)
    return value


def named(path: Path, root: Tree) -> str:
    """A path in words: of an array's table its number and its name."""
    words, value = [], root
    for key in path:
        value = within(value, key)
        if isinstance(key, int):
            name = value.get("name") if isinstance(value, dict) else None
            words.append(f"{key} ({shortened(printable(name), 40)})" if isinstance(name, str) and name else f"{key}")
        else:
            words.append(key_shown(key))
    return " ".join(words) or "the root"


def place_of(given: Given, kind: str, path: Path) -> str:
    """A file with the line of a path, or of the nearest table around it that stands there."""
    lines = given.tree(kind)[1]
    while path and path not in lines:
        path = path[:-1]
    line = lines.get(path)
    return f"{given.name(kind)}, line {line}" if line else given.name(kind)


def why_no_toml(given: Given, kind: str) -> str:
    """Why a file is no TOML, with its line."""
    try:
        given.tree(kind)
    except TomlError as error:
        return f"{given.name(kind)}, line {error.line}: {printable(error.why)}" if error.line else f"{given.name(kind)}: {error.why}"
    return f"{given.name(kind)}: it isn't told where this is no TOML"


def odd_key(table: Tree, known: list[str]) -> str:
    """The least key in byte order that is no name, and none of those that are known."""
    return min((key for key in table if not re.fullmatch(NAME, key) and key not in known), key=str.encode, default="?")


def wrong_key(given: Given, kind: str, at: Path, key: str) -> str:
    """What is wrong with a key of a table: it is missing, unknown or of another type."""
    root = given.tree(kind)[0]
    table, types = stands(at, root), keys_of(SECTIONS[kind], table_at(at))
    key = odd_key(table, list(types)) if key == "?" else key
    where, found = f"{place_of(given, kind, at + (key,))}: {named(at, root)}, key {key_shown(key)}", within(table, key)
    if found is None:
        return f"{where} is missing"
    if key not in types:
        near = get_close_matches(key, types, 1) if len(key) <= MOST_MEANT else []
        return f"{where} is unknown" + (f": `{near[0]}` may be meant" if near else "")
    if kind == "chip" and key == "delay" and root.get("version") != 2:
        return f"{where} is unknown where `version` isn't 2"
    if isinstance(found, list) and types[key].startswith("array"):
        fits = str if "strings" in types[key] else dict
        wrong = next((place for place, item in enumerate(found) if not isinstance(item, fits) or isinstance(item, Moment)), 0)
        return f"{where} has another type: its item {wrong} is {shown(within(found, wrong))}"
    return f"{where} has another type: it is {shown(found)}"


def earlier(kind: str, root: Tree, path: Path) -> Path | None:
    """The earlier place of a list where the same text stands."""
    for other in WALKS[kind].names(root):
        if other == path:
            return None
        same_list = (other[0], len(other)) == (path[0], len(path)) and (len(path) == 3 or other[:3] == path[:3])
        if (kind == "chip" or same_list) and stands(other, root) == stands(path, root):
            return other
    return None


def fixed_on(given: Given, place: int) -> str:
    """The cores that are fixed to an interface of the chip, in words."""
    name = given.chip.interfaces[place]
    return f"{name} has " + ", ".join(core["name"] for core in given.tree("app")[0]["core"] if core.get("ni") == name)


def in_physical_units(given: Given, kind: str, rule: int, path: Path) -> str:
    """A latency, a delay or too high a rate of a wish in physical units, where there are some."""
    root = given.tree(kind)[0]
    found, per = stands(path, root), stands((*path[:-1], "per"), root)
    if kind == "app" and rule == 6:
        return f" ({given.units.rate(found, per)}, and a link has {given.units.rate(2, 1)})" if given.units else ""
    is_time = kind == "app" and rule == 3 and path[-1] in ("latency", "delay") and isinstance(found, int) and found >= 0
    return in_time(found, given.units) if is_time else ""


def in_toml(given: Given, kind: str, rule: int, place: int, value: str) -> tuple[str, Path | None]:
    """Where a refusal of a chip or an application points, in words, and the path."""
    root = given.tree(kind)[0]
    at = WALKS[kind].rules[rule](root, place)
    if at is None:
        return given.name(kind), None
    if rule == 2:
        return wrong_key(given, kind, at, value), at
    where, found = f"{place_of(given, kind, at)}: {named(at, root)}", stands(at, root)
    if isinstance(found, (list, dict)):
        more = f", which are fixed: {fixed_on(given, place)}" if (kind, rule) == ("app", 10) else ""
        return f"{where} has {value}{' of them' if isinstance(found, list) else ' connections'}{more}", at
    before = earlier(kind, root, at) if rule == 4 else None
    again = f", as in line {given.tree(kind)[1].get(before)}" if before else ""
    count = f", with {value} links one way" if (kind, rule) == ("chip", 6) else ""
    return f"{where} is {shown(found)}{again}{count}{in_physical_units(given, kind, rule, at)}", at


def shown_lines(kind: str, data: bytes) -> list[str]:
    """The lines of a file: of a plan and a certificate line feeds alone end one."""
    text = data.decode("utf-8", "replace")
    if kind in ("plan", "cert"):
        return text.removesuffix("\n").split("\n") if text else []
    return re.split("\r\n|\r|\n", text)


def line_shown(line: str) -> str:
    return shortened(printable(line.rstrip(" \t\r")), 200)


def unseen_end(lines: list[str], place: int, data: bytes) -> str:
    """What stands at the end of a line, or lacks there, and can't be seen."""
    line = lines[place - 1]
    if line.endswith("\r"):
        return "   (it ends with a carriage return, which isn't allowed)"
    if line.endswith((" ", "\t")):
        return "   (it ends with a blank, which isn't allowed)"
    return "   (without a line feed)" if place == len(lines) and not data.endswith(b"\n") else ""


def rows_at(given: Given, kind: str, rows: list[int]) -> list[str]:
    """Lines of a plan or a certificate, or rows of a trace, in words."""
    data = given.files[kind].data
    lines = shown_lines(kind, data)
    found = {row: row for row in rows} if kind in ("plan", "cert") else row_lines(data, rows)
    shown_rows: list[str] = []
    for row in rows:
        line = found.get(row)
        if not line or line > len(lines):
            return shown_rows + [f"{given.name(kind)}, at its end"]
        shown_rows.append(f"{given.name(kind)}, line {line}: {line_shown(lines[line - 1])}")
    return shown_rows


def in_rows(given: Given, kind: str, name: str, place: int, value: str) -> list[str]:
    """Where a refusal of lines or rows points, in words: of rows out of order also the one before."""
    if name == "TooMany":
        return [f"{given.name(kind)}: it has {int(value):,} rows"]
    if name == "FirstNotZero" and not place:
        return [f"{given.name(kind)}: it has no row"]
    told = rows_at(given, kind, [place - 1, place] if name in ("OutOfOrder", "Overlap", "WrongOrder") else [place])
    if name == "Unknown":
        told[-1] += f"   (field {value})"
    if name == "Overlap":
        told[-1] += f"   (the switch before is over in cycle {value}{in_time(int(value), given.units)})"
    if name == "BadLine":
        data = given.files[kind].data
        lines = shown_lines(kind, data)
        told[-1] += unseen_end(lines, place, data) if place <= len(lines) else ""
    return told
