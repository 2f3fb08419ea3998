"""Which rule a file breaks first, from docs/FORMATS.md alone: chips, applications, plans, traces and logs of links.

    python3 bench/model_files.py chip FILE
    python3 bench/model_files.py app CHIP FILE
    python3 bench/model_files.py plan CHIP APP FILE
    python3 bench/model_files.py words|receivers CHIP APP FILE
    python3 bench/model_files.py switches CHIP APP PLAN FILE
    python3 bench/model_files.py log CHIP FILE

Prints the line of the refusal, or `fits`. It is a second implementation, for rows of crates/aeth_transcripts: it shares
nothing with the program. TOML is read by Python's own library, CSV by its own too.
"""

import csv
import io
import re
import sys
import tomllib

from model_plans import SIDES, App, Chip

LONGEST = 33_554_432
MOST_ROWS = 1_000_000
MOST_SWITCHES = 1_024
NUMBER = r"(?:0|[1-9]\d*)"
NAME = re.compile(r"[a-z0-9_]{1,32}\Z")
LINES = {
    "plan": re.compile(rf"plan 1 ({NUMBER})\Z"),
    "seat": re.compile(rf"seat ([a-z0-9_]{{1,32}}) ([a-z0-9_]{{1,32}}) ({NUMBER})\Z"),
    "grant": re.compile(
        rf"grant ([a-z0-9_]{{1,32}}) ({NUMBER}) (fwd|back) ({NUMBER}(?:,{NUMBER}){{1,7}}) ({NUMBER}(?:,{NUMBER})*)\Z"
    ),
}
COLUMNS = {
    "words": (("connection", None), ("side", None), ("cycle", 1_000_000), ("value", 2**32 - 1)),
    "receivers": (("connection", None), ("side", None), ("cycle", 1_000_000), ("pull", 255)),
    "switches": (("cycle", 1_000_000), ("use", None), ("drain", 1_000_000)),
    "log": (("cycle", 1_000_000), *((name, 2**32 - 1) for name in ("link", "header", "first", "second"))),
}


class Refused(Exception):
    """A file breaks a rule: the line that says so."""


def refuse(file, rule, name, place, value="-"):
    raise Refused(f"refused {file} {rule} {name} {place} {value}")


def shown(value):
    """How a refusal shows a number or a text."""
    if isinstance(value, str):
        return value if NAME.match(value) else "?"
    return value if value >= 0 else "?"


# TOML


def exact_float(text):
    number = float(text)
    if number in (float("inf"), float("-inf")) and "inf" not in text:
        raise ValueError("a float past the range")
    return number


def fits_integers(value):
    """Whether 64 bits hold each integer of a tree."""
    if isinstance(value, dict):
        return all(map(fits_integers, value.values()))
    if isinstance(value, list):
        return all(map(fits_integers, value))
    return not isinstance(value, int) or -(2**63) <= value < 2**63


def depth_of(text):
    """How many arrays and inline tables stand one within another at the most."""
    depth = most = 0
    for part in re.findall(r'"""(?s:\\.|.)*?"""|\'\'\'(?s:.)*?\'\'\'|"(?:\\.|[^"\\\n])*"|\'[^\'\n]*\'|#[^\n]*|[\[\]{}]', text):
        depth += {"[": 1, "{": 1, "]": -1, "}": -1}.get(part, 0)
        most = max(most, depth)
    return most


def tree_of(file, data):
    try:
        text = data.decode()
        if depth_of(text) > 80:
            raise ValueError("too deep")
        tree = tomllib.loads(text, parse_float=exact_float)
        if not fits_integers(tree):
            raise ValueError("an integer past the range")
    except (ValueError, RecursionError):
        refuse(file, 1, "BadToml", 0)
    return tree


def is_of(kind, value):
    if kind == "integer":
        return isinstance(value, int) and not isinstance(value, bool)
    if kind in ("string", "table"):
        return isinstance(value, {"string": str, "table": dict}[kind])
    return isinstance(value, list) and all(is_of(kind.removesuffix("s"), item) for item in value)


def judge_keys(file, tables):
    """Each table is a place, what it has, and the kind of each of its keys; a kind that begins with `?` may be absent."""
    for place, (table, kinds) in enumerate(tables):
        wrong = [key for key in table if key not in kinds]
        for key, kind in kinds.items():
            if key in table and not is_of(kind.removeprefix("?"), table[key]) or key not in table and kind[0] != "?":
                wrong.append(key)
        if wrong:
            least = min(wrong, key=lambda key: key.encode())
            refuse(file, 2, "WrongKey", place, shown(least))


def judge_ranges(file, walk):
    """Each position is a value and whether it is in its range."""
    for position, (value, holds) in enumerate(walk, 1):
        if not holds:
            refuse(file, 3, "OutOfRange", position, shown(value))


def judge_repeats(file, lists):
    place = 0
    for texts in lists:
        for number, text in enumerate(texts):
            if text in texts[:number]:
                refuse(file, 4, "NameTwice", place + number, shown(text))
        place += len(texts)


def judge_names(file, walk, places):
    for place, (text, known) in zip(places, walk):
        if text not in known:
            refuse(file, 5, "UnknownName", place, shown(text))


def named(texts):
    return [(text if not NAME.match(text) else "", bool(NAME.match(text))) for text in texts]


# Chips and applications


def judge_chip(data):
    tree = tree_of("chip", data)
    judge_keys("chip", [(tree, {"version": "integer", "slots": "integer", "routers": "strings", "nis": "strings", "link": "tables"})])
    is_second = tree["version"] == 2
    kinds = {"from": "string", "to": "string", **({"delay": "?integer"} if is_second else {})}
    judge_keys("chip", [({}, {}), *((it, kinds) for it in tree["link"])])
    version, slots, routers, nis, links = (tree[key] for key in ("version", "slots", "routers", "nis", "link"))
    walk = [(version, version in (1, 2)), (slots, 1 <= slots <= (128 if is_second else 64))]
    walk += [(len(routers), 1 <= len(routers) <= 64), (len(nis), 1 <= len(nis) <= 64), (len(links), len(links) <= 1_024)]
    walk += [("?", NAME.match(text)) for text in routers + nis]
    walk += [(it.get("delay", 1), 1 <= it.get("delay", 1) <= 4) for it in links if is_second]
    judge_ranges("chip", walk)
    judge_repeats("chip", [routers + nis])
    ends = [(it[key], routers + nis) for it in links for key in ("from", "to")]
    judge_names("chip", ends, [place // 2 for place in range(len(ends))])
    for number, name in enumerate(routers):
        most = max(sum(it[key] == name for it in links) for key in ("from", "to"))
        if most > 8:
            refuse("chip", 6, "TooManyPorts", number, most)
    for number, name in enumerate(nis):
        others = [[it[other] for it in links if it[key] == name] for key, other in (("from", "to"), ("to", "from"))]
        if others[0] != others[1] or len(others[0]) != 1 or others[0][0] not in routers:
            refuse("chip", 7, "NiNotSingle", number, name)
    return Chip(data.decode())


def wishes_of(tree):
    return [(2 * number + place, it[side]) for number, it in enumerate(tree["connection"]) for place, side in enumerate(SIDES)]


def judge_app_keys(tree):
    root = {"version": "integer", "detour": "integer", "cost": "?string", "core": "tables", "connection": "tables", "use": "tables"}
    judge_keys("app", [(tree, root)])
    wish = dict.fromkeys(("words", "per", "latency", "delay"), "integer")
    connection = {"name": "string", "from": "string", "to": "string", "fwd": "table", "back": "table"}
    tables = [({}, {})] + [(it, {"name": "string", "ni": "?string"}) for it in tree["core"]]
    for it in tree["connection"]:
        sides = [(it.get(side), wish) for side in SIDES]
        tables += [(it, connection), *((table if isinstance(table, dict) else {}, kinds) for table, kinds in sides)]
    tables += [(it, {"name": "string", "connections": "strings", "smooth": "?strings"}) for it in tree["use"]]
    judge_keys("app", tables)


def judge_app_ranges(tree):
    cores, connections, uses = (tree[key] for key in ("core", "connection", "use"))
    cost = tree.get("cost", "hops")
    walk = [(tree["version"], tree["version"] == 1), (tree["detour"], 0 <= tree["detour"] <= 4)]
    walk += [(cost, cost in ("hops", "pressure")), (len(cores), len(cores) <= 256)]
    walk += [(len(connections), len(connections) <= 512), (len(uses), 1 <= len(uses) <= 16)]
    walk += [("?", NAME.match(it["name"])) for it in cores + connections + uses]
    ranges = (("words", 0, 2_000_000), ("per", 1, 1_000_000), ("latency", 1, 4_096), ("delay", 0, 4_096))
    walk += [(wish[key], least <= wish[key] <= most) for _, wish in wishes_of(tree) for key, least, most in ranges]
    judge_ranges("app", walk)


def judge_app(data, chip):
    tree = tree_of("app", data)
    judge_app_keys(tree)
    judge_app_ranges(tree)
    cores, connections, uses = (tree[key] for key in ("core", "connection", "use"))
    lists = [[it["name"] for it in texts] for texts in (cores, connections, uses)]
    judge_repeats("app", lists + [it["connections"] for it in uses])
    walk = [(it["ni"], chip.nis) for it in cores if "ni" in it]
    walk += [(it[key], lists[0]) for it in connections for key in ("from", "to")]
    walk += [(text, lists[1]) for it in uses for text in it["connections"]]
    walk += [(text, lists[2]) for it in uses for text in it.get("smooth", [])]
    judge_names("app", walk, range(len(walk)))
    for place, wish in wishes_of(tree):
        if wish["words"] > 2 * wish["per"]:
            refuse("app", 6, "RateTooHigh", place, wish["words"])
    for number, it in enumerate(connections):
        if it["from"] == it["to"]:
            refuse("app", 7, "CoreToItself", number, it["from"])
    for number, name in enumerate(lists[0]):
        ends = sum(name in (it["from"], it["to"]) for it in connections)
        if ends > 8:
            refuse("app", 8, "CoreTooBusy", number, ends)
    if len(cores) > 4 * len(chip.nis):
        refuse("app", 9, "TooFewSeats", 0, len(cores))
    for number, name in enumerate(chip.nis):
        fixed = sum(it.get("ni") == name for it in cores)
        if fixed > 4:
            refuse("app", 10, "SeatsOverfull", number, fixed)
    return App(data.decode(), chip)


# Plans


def parts_of_line(line, before):
    """The kind and the fields of a line that may stand behind one of the kind `before`, or nothing."""
    may_follow = {None: ("plan",), "plan": ("seat", "grant"), "seat": ("seat", "grant"), "grant": ("grant",)}
    kind = line.split(" ")[0]
    found = LINES[kind].match(line) if kind in may_follow[before] else None
    if not found:
        return None
    lists = {"plan": (0,), "seat": (2,), "grant": (1, 3, 4)}[kind]
    fields = [[int(it) for it in text.split(",")] if place in lists else text for place, text in enumerate(found.groups())]
    ascends = kind != "grant" or fields[4] == sorted(set(fields[4]))
    return (kind, fields) if ascends and all(it < 2**32 for place in lists for it in fields[place]) else None


def lines_of_plan(data):
    """The lines of a plan, each as its kind and its fields; the first line without its form is refused."""
    *lines, rest = data.split(b"\n")
    found, before = [], None
    for number, line in enumerate(lines, 1):
        if line == b"end" and before is not None:
            if lines[number:] or rest:
                refuse("plan", 1, "BadLine", number + 1)
            return found
        parts = parts_of_line(line.decode("latin-1"), before)
        if parts is None:
            refuse("plan", 1, "BadLine", number)
        found.append(parts)
        before = parts[0]
    return refuse("plan", 1, "BadLine", len(lines) + 1)


def unknown_field(kind, fields, chip, app):
    """The first field of a line that names nothing, or none."""
    if kind == "plan":
        return 3 if fields[0] != [chip.slots] else None
    if kind == "seat":
        known = (fields[0] in [name for name, _ in app.cores], fields[1] in chip.nis, fields[2][0] <= 3)
    else:
        links, starts = fields[3:]
        known = (
            fields[0] in [it["name"] for it in app.connections], fields[1][0] <= max(app.group), True,
            all(link < len(chip.links) for link in links), all(start < chip.slots for start in starts),
        )
    return known.index(False) + 2 if False in known else None


def judge_plan(data, chip, app):
    """The seats by core, and the links and starts of each grant by connection, group and side."""
    lines = lines_of_plan(data)
    for number, (kind, fields) in enumerate(lines, 1):
        field = unknown_field(kind, fields, chip, app)
        if field:
            refuse("plan", 2, "Unknown", number, field)
    cores, connections = [name for name, _ in app.cores], [it["name"] for it in app.connections]
    before, seats, grants = None, {}, {}
    for number, (kind, fields) in enumerate(lines, 1):
        if kind == "seat":
            key = (0, cores.index(fields[0]))
            seats[key[1]] = (fields[1], fields[2][0])
        elif kind == "grant":
            key = (1, connections.index(fields[0]), fields[1][0], SIDES.index(fields[2]))
            grants[key[1], key[2], fields[2]] = (fields[3], fields[4])
        if kind != "plan" and before is not None and key <= before:
            refuse("plan", 3, "WrongOrder", number)
        before = key if kind != "plan" else None
    return seats, grants


# Traces and logs


def rows_of(file, data):
    """The rows behind the header; a row that hasn't the form of its columns is refused."""
    text = data.removeprefix(b"\xef\xbb\xbf").decode("latin-1")
    csv.field_size_limit(LONGEST)
    records = [row for row in csv.reader(io.StringIO(text, newline="")) if row]
    columns = COLUMNS[file]
    if not records or records[0] != [name for name, _ in columns]:
        refuse(file, 1, "BadRow", 0)
    for number, row in enumerate(records[1:], 1):
        if len(row) != len(columns) or not all(is_cell(*column, cell) for column, cell in zip(columns, row)):
            refuse(file, 1, "BadRow", number)
    return records[1:]


def is_cell(name, most, cell):
    if most is not None:
        return bool(re.fullmatch(NUMBER, cell)) and int(cell) <= most
    return name != "side" or cell in SIDES


def judge_rows(file, data, known, most):
    """The rows with their cycles. `known` gives the first field of a row that names nothing, or none."""
    rows = rows_of(file, data)
    for number, row in enumerate(rows, 1):
        if known(row):
            refuse(file, 2, "Unknown", number, known(row))
    place = [name for name, _ in COLUMNS[file]].index("cycle")
    cycles = [int(row[place]) for row in rows]
    later = [int(row[1]) for row in rows] if file == "log" else [0] * len(rows)
    for number in range(1, len(rows)):
        is_strict = file == "log"
        one, other = (cycles[number - 1], later[number - 1]), (cycles[number], later[number])
        if other < one or is_strict and other == one:
            refuse(file, 3, "OutOfOrder", number + 1, cycles[number])
    if file != "switches" and len(rows) > most:
        refuse(file, {"log": 4}.get(file, 5), "TooMany", 0, len(rows))
    return rows, cycles


def judge_offers(file, data, app):
    connections = {it["name"] for it in app.connections}
    return judge_rows(file, data, lambda row: None if row[0] in connections else 1, MOST_ROWS)[0]


def judge_log(data, chip):
    return judge_rows("log", data, lambda row: None if int(row[1]) < len(chip.links) else 2, MOST_ROWS)[0]


def taken_by(chip, app, grants, left, entered):
    """The links' delay and the writes of a switch between two use cases."""
    old, new = app.group[left], app.group[entered]
    kept = app.has[left] & app.has[entered] if old == new else set()
    closing = [(it, old, side) for it in app.has[left] - kept for side in SIDES]
    opening = [(it, new, side) for it in app.has[entered] - kept for side in SIDES]
    lag = max((chip.offsets(grants[it][0])[-1] for it in closing), default=0)
    return lag + sum(len(grants[it][1]) + 1 for it in closing + opening)


def judge_switches(data, chip, app, grants):
    uses = {it["name"]: place for place, it in enumerate(app.uses)}
    rows, cycles = judge_rows("switches", data, lambda row: None if row[1] in uses else 2, MOST_SWITCHES)
    over, at = 0, None
    for number, (row, cycle) in enumerate(zip(rows, cycles), 1):
        if number > 1 and cycle < over:
            refuse("switches", 4, "Overlap", number, over)
        entered = uses[row[1]]
        over = cycle + int(row[2]) + taken_by(chip, app, grants, at, entered) if number > 1 else 0
        at = entered
    if len(rows) > MOST_SWITCHES:
        refuse("switches", 5, "TooMany", 0, len(rows))
    if not rows:
        refuse("switches", 6, "FirstNotZero", 0)
    if cycles[0] or int(rows[0][2]):
        refuse("switches", 6, "FirstNotZero", 1, cycles[0] or int(rows[0][2]))
    return rows


def judge_length(file, data):
    if len(data) > LONGEST:
        refuse(file, 0, "TooLong", 0)


def main(kind, *names):
    texts = []
    for name in names:
        with open(name, "rb") as it:
            texts.append(it.read())
    try:
        judge_length(kind, texts[-1])
        chip = judge_chip(texts[0])
        app = judge_app(texts[1], chip) if kind not in ("chip", "log") else None
        if kind in ("plan", "switches"):
            plan = judge_plan(texts[2], chip, app)
        if kind in ("words", "receivers"):
            judge_offers(kind, texts[2], app)
        if kind == "switches":
            judge_switches(texts[3], chip, app, plan[1])
        if kind == "log":
            judge_log(texts[1], chip)
        print("fits")
    except Refused as refused:
        print(refused)


if __name__ == "__main__":
    main(*sys.argv[1:])
