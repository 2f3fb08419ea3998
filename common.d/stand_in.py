"""A chip and an application with the names of files, by which `aeth` judges these files where no others are at hand: a plan
without what it was made for, and an application without its chip. They have as much of all else as any may have, so that
`aeth` refuses only what it would refuse with every chip.
"""
from collections.abc import Iterable, Sequence
from itertools import count, islice
import re

from design_files import read_once
from ending import Passed
from plan_texts import lines_of
from program import Input, answer, made
from toml_lines import TomlError, Tree

NAME = re.compile("[a-z0-9_]{1,32}")
INTERFACES, SEATS = 64, 4
PORTS = 8  # of a router, each way
CORES, CONNECTIONS, GROUPS = 256, 512, 16
ENDS = 8  # connections of a core
MOST_SLOTS = 128
MOST_LINKS = INTERFACES * (PORTS + 1)
UNKNOWN_NAME = "refused app 5 "
TWO_ON_ONE_SEAT = "broken 1 "


def names_of(wanted: Iterable[str], least: int, most: int, other: str, avoid: Iterable[str] = ()) -> list[str]:
    """The wanted names, each once, as far as there may be so many, and others behind them where they are too few."""
    names = {name: None for name in wanted if NAME.fullmatch(name)}
    found, taken = list(names)[:most], {*names, *avoid}
    numbered = (f"{other}{number}" for number in count())
    return found + list(islice((name for name in numbered if name not in taken), max(0, least - len(found))))


def quoted(names: Iterable[str]) -> str:
    return ", ".join(f'"{name}"' for name in names)


def chip_with(wanted: Iterable[str], slots: int, interfaces: int, links: int = 0) -> Input:
    """A chip with interfaces of these names, so many at the least, and with so many links."""
    ends = names_of(wanted, min(INTERFACES, max(interfaces, -(-links // (PORTS + 1)))), INTERFACES, "n")
    routers = names_of((), len(ends), len(ends), "router", ends)
    pairs = [pair for router, end in zip(routers, ends) for pair in ((end, router), (router, end))]
    further = [(router, routers[(place + step) % len(routers)]) for step in range(1, PORTS) for place, router in enumerate(routers)]
    pairs += further[: max(0, links - len(pairs))]
    spelled = "".join(f'  {{from = "{source}", to = "{target}"}},\n' for source, target in pairs)
    text = f"version = 2\nslots = {slots}\nrouters = [{quoted(routers)}]\nnis = [{quoted(ends)}]\nlink = [\n{spelled}]\n"
    return made("chip", text)


def application_with(cores: Sequence[str], connections: Sequence[str], groups: int) -> Input:
    """An application with such cores and connections, in their order, and with so many groups."""
    wish = "{words = 0, per = 1, latency = 4096, delay = 0}"
    lines = ["version = 1", "detour = 4", "core = ["]
    lines += [f'  {{name = "{name}"}},' for name in cores] + ["]", "connection = ["]
    for place, name in enumerate(connections):
        source, target = (cores[(2 * place + end) % len(cores)] for end in (0, 1))
        lines.append(f'  {{name = "{name}", from = "{source}", to = "{target}", fwd = {wish}, back = {wish}}},')
    lines += ["]", "use = ["] + [f'  {{name = "use{number}", connections = []}},' for number in range(groups)] + ["]"]
    return made("app", "\n".join(lines) + "\n")


def number_of(text: str, most: int) -> int:
    """The number of a field, or the most that there may be where it is no number or greater."""
    return min(int(text), most) if re.fullmatch("[0-9]{1,9}", text) else most


def judge_plan(plan: Input) -> None:
    """Ends the script as `aeth` does where a plan can't be read with any chip and application, or has two cores on one seat."""
    lines = [line.split(" ") for line in lines_of(plan.data.decode("ascii", "replace"))]
    seats = [line for line in lines if line[0] == "seat" and len(line) == 4]
    grants = [line for line in lines if line[0] == "grant" and len(line) == 6]
    slots = max(1, number_of(lines[0][2], MOST_SLOTS) if lines and len(lines[0]) == 3 else MOST_SLOTS)
    connections = names_of((line[1] for line in grants), 0, CONNECTIONS, "")
    least = max(2, -(-2 * len(connections) // ENDS))
    cores = names_of((line[1] for line in seats), least, CORES, "core")
    links = 1 + max((number_of(link, MOST_LINKS) for line in grants for link in line[4].split(",")), default=0)
    groups = 1 + max((number_of(line[2], GROUPS) for line in grants), default=0)
    chip = chip_with((line[2] for line in seats), slots, -(-len(cores) // SEATS), min(links, MOST_LINKS))
    told = answer("check", chip, application_with(cores, connections, min(groups, GROUPS)), plan)
    if told.status not in (0, 3) or told.errors.startswith(TWO_ON_ONE_SEAT):
        raise Passed(told.status, told.errors)


def fixed_interfaces(data: bytes) -> list[str]:
    """The interfaces to which an application that may still be refused fixes cores."""
    try:
        cores = read_once(data)[0].get("core")
    except TomlError:
        return []
    tables: list[Tree] = [core for core in cores if isinstance(core, dict)] if isinstance(cores, list) else []
    return [core["ni"] for core in tables if isinstance(core.get("ni"), str)]


def judge_application(app: Input) -> None:
    """Ends the script as `aeth` does where an application is refused with every chip."""
    told = answer("app", chip_with((), MOST_SLOTS, INTERFACES), app)
    if told.errors.startswith(UNKNOWN_NAME):
        told = answer("app", chip_with(fixed_interfaces(app.data), MOST_SLOTS, INTERFACES), app)
    if told.status:
        raise Passed(told.status, told.errors)
