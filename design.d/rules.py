"""What docs/FORMATS.md says of files: their rules, the keys of their tables, and the columns of traces."""
from functools import cache
import re

from program import HOME
from toml_lines import Path

NAME = "[a-z0-9_]{1,32}"
NAMES = "A name has 1 to 32 bytes of `a-z`, `0-9` and `_`."

# By kind of file the section of its rules.
SECTIONS = {
    "chip": "Chip files", "app": "Application files", "plan": "Plans", "cert": "Certificates",
    "words": "Trace files", "receivers": "Trace files", "switches": "Trace files", "log": "Logs of links",
}

# The parts of the sentence on ranges that speak of a path, by what stands in the path in place of numbers.
RANGES = {
    "chip": ["version", "slots", "routers", "nis", "link", "routers #", "nis #", "link # delay"],
    "app": ["version", "detour", "cost", "core", "connection", "use", "name"],
}


@cache
def section(title: str, document: str = "FORMATS.md") -> str:
    """The text of a section."""
    parts = re.split(r"(?m)^## ", (HOME / "docs" / document).read_text(encoding="utf-8"))
    return next(part for part in parts if part.startswith(title + "\n"))


def found_in(pattern: str, text: str) -> re.Match[str]:
    """Where a document says something that it has to say."""
    found = re.search(pattern, text)
    if not found:
        raise LookupError(f"the documents have no {pattern}")
    return found


def rules_of(title: str) -> dict[int, str]:
    """By number where a rule of a section is broken."""
    rows = re.findall(r"(?m)^\| (\d+) \w+[^|]*\| ([^|]+) \|", section(title))
    return {int(number): broken.strip() for number, broken in rows}


def rules_of_plans() -> dict[str, str]:
    """By number where a rule of an accepted plan is broken."""
    return dict(re.findall(r"(?m)^\| (\d) \| ([^|]+) \|", section("`check`")))


def rules_of_logs() -> dict[str, str]:
    """By number the rules of the rows of a clean log."""
    rules = re.findall(r"(?m)^(\d)\. (.*(?:\n   .*)*)", section("Logs of links", "RULES.md"))
    return {number: re.sub(r"\s+", " ", text) for number, text in rules}


def keys_of(title: str, table: str) -> dict[str, str]:
    """The keys of a table of a chip or an application, with what each must be."""
    rows = re.findall(r"(?m)^\| ([^|]+) \| (`[^|]+) \| ([^|]+) \|$", section(title))
    return {
        key: re.sub(r"^(integer|string|table|array)s", r"\1", type_.strip())
        for name, keys, type_ in rows
        if table in name.replace("`", "").split(", ")
        for key in re.findall(r"`(\w+)`", keys)
    }


def columns_of(file: str) -> str:
    """The header of a file of rows, and what its columns have."""
    if file == "log":
        text = re.sub(r"\s+", " ", section("Logs of links"))
        header, ranges = found_in(r"(`cycle,[^`]+`).*? (Cycles are [^.]*)\.", text).groups()
        return f"The columns {header} have numbers. {ranges}."
    header, columns = found_in(rf"(?m)^\| {file} \| (`[^|]+`) \| ([^|]+) \|$", section("Trace files")).groups()
    return f"The columns {header} have {columns}."


def forms_of(title: str) -> str:
    """The forms that lines of a file have."""
    *forms, last = found_in(r"(?ms)^```\n(.*?)\n```", section(title)).group(1).split("\n")
    return f"A line is {', '.join(f'`{form}`' for form in forms)} or `{last}`."


def shape_of(path: Path) -> str:
    """A path with one word for all its numbers."""
    return " ".join("#" if isinstance(key, int) else key for key in path)


def range_at(file: str, broken: str, path: Path) -> str:
    """The part of the sentence on ranges that speaks of a path."""
    parts = [part.strip() for part in broken.split(": ", 1)[1].split("; ")]
    shape = shape_of(path)
    if file == "app" and path[-1] in ("words", "per", "latency", "delay"):
        return found_in(rf"`{path[-1]}` isn't [^`;]*", parts[-1]).group().strip(" ,")
    if file == "app" and path[-1] == "name":
        shape = "name"
    part = re.sub(r"^(then |where `version` is 2, )|, an absent one being .*", "", parts[RANGES[file].index(shape)])
    return f"{part}. {NAMES.rstrip('.')}" if "no name" in part else part


def known_at(broken: str, path: Path) -> str:
    """The part of the sentence on unknown names that speaks of a path."""
    parts = [part.strip().removeprefix("then ") for part in broken.split(": ", 1)[-1].split("; ")]
    key = next(key for key in reversed(path) if not isinstance(key, int))
    return next((part for part in parts if f"`{key}`" in part), broken)


def table_at(path: Path) -> str:
    """The name of the table of a path."""
    return next((key for key in reversed(path) if not isinstance(key, int)), "root")


def keys_at(title: str, path: Path) -> list[str]:
    """The keys of the table of a path."""
    return list(keys_of(title, table_at(path)))


def kinds_at(title: str, path: Path) -> str:
    """Which keys the table of a path has, in words."""
    table = table_at(path)
    kinds = ", ".join(f"`{key}` ({type_})" for key, type_ in keys_of(title, table).items())
    more = ", which version 2 alone has" if table == "link" else ""
    return f"The keys of {'the root' if table == 'root' else f'`{table}`'} are {kinds}{more}"


def broken_at(file: str, title: str, rule: int, path: Path | None) -> str:
    """Where a rule is broken: the part of its sentence that speaks of a path."""
    broken = rules_of(title)[rule]
    if broken == "as for chip files":
        broken = rules_of("Chip files")[rule]
    if broken.startswith("as of a plan"):
        broken = rules_of("Plans")[rule] + broken.removeprefix("as of a plan")
    if file not in RANGES or path is None:
        return broken
    if rule == 2:
        return f"a key is missing, unknown or of another type. {kinds_at(title, path)}"
    if rule == 3:
        return range_at(file, broken, path)
    return known_at(broken, path) if rule == 5 else broken
