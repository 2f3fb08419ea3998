"""What no network can have of flows and seats together, or not the given chip, each told with its row; and the command `app`."""
from collections import Counter, defaultdict
from collections.abc import Callable, Iterator, Sequence
from contextlib import contextmanager
from dataclasses import dataclass
from fractions import Fraction
from itertools import count, islice

from application import Ask, FlowDesign, text_of
from design_files import Application, Chip, Connection, application_of, read_chip
from ending import NO_WORDS, Result, Stop, printable, shortened
from files import text_of as plain_text
from flow_rows import RowFault, Seat, Table, all_of, flow_of, joined, refused, seat_of, table_of, text_in
from flow_wishes import LINK_RATE, FlowWishes, wishes_of
from paths import Ways, why_none
from plans import need_of
from program import Input, made, text_of as printed

MOST_AT_CORE = 8  # connections
MOST_CORES = 256
MOST_AT_INTERFACE = 4  # cores
MOST_INTERFACES = 64
SIDES = ("fwd", "back")


@contextmanager
def within(file: Input) -> Iterator[None]:
    """Ends the script with a row of a file where a fault is found."""
    try:
        yield
    except RowFault as fault:
        raise refused(file, fault) from fault


def judge_seats(seats: Sequence[Seat], cores: set[str], interfaces: Sequence[str] | None) -> None:
    """Stops at a seat of a core that no flow has, or that stands twice; at an interface that the chip hasn't, or with too many."""
    at: Counter[str] = Counter()
    known: set[str] = set()
    for seat in seats:
        if seat.core not in cores:
            raise RowFault(seat.line, f"no flow begins or ends at core `{seat.core}`")
        if seat.core in known:
            raise RowFault(seat.line, f"core `{seat.core}` stands twice")
        known.add(seat.core)
        if seat.interface is None:
            continue
        at[seat.interface] += 1
        if interfaces is not None and seat.interface not in interfaces:
            raise RowFault(seat.line, f"the chip has no interface `{seat.interface}`")
        if at[seat.interface] > MOST_AT_INTERFACE:
            raise RowFault(seat.line, f"interface `{seat.interface}` has {MOST_AT_INTERFACE} cores already, the most there may be")
        if len(at) > MOST_INTERFACES:
            raise RowFault(seat.line, f"these are more than {MOST_INTERFACES} interfaces")


def judge_cores(flows: Sequence[FlowWishes], chip: Chip | None) -> None:
    """Stops at the flow with which a core has too many connections, or with which there are too many cores."""
    seats = MOST_AT_INTERFACE * len(chip.interfaces) if chip else MOST_CORES
    at: Counter[str] = Counter()
    for flow, _, _ in flows:
        for core in (flow.source, flow.target):
            at[core] += 1
            if at[core] > MOST_AT_CORE:
                raise RowFault(flow.line, f"core `{core}` is an end of {MOST_AT_CORE} flows already, the most there may be")
        if len(at) > seats:
            raise RowFault(flow.line, f"these are more than {seats} cores" + (", for which the chip has seats" if chip else ""))


def judge_smooth(ask: Ask, uses: Sequence[str]) -> None:
    """Stops where `--smooth` names one use case alone, or what is none."""
    for names in ask.smooth:
        if len(set(names)) < 2:
            raise Stop(NO_WORDS, "--smooth: it takes two use cases or more, with commas between")
        unknown = next((name for name in names if name not in uses), None)
        if unknown is not None:
            raise Stop(NO_WORDS, f"--smooth: no use case has the name {printable(shortened(unknown))}: they are {', '.join(uses)}")


@dataclass(frozen=True)
class Capacity:
    """What a channel takes of the links of its interfaces, how much there is, and how both are told."""

    most: Fraction
    taken: Callable[[Connection, str], Fraction]
    tells: Callable[[Fraction], str]


def rates_of(ask: Ask) -> Capacity:
    """Rates, against that of a link."""
    link = ask.units.rate(LINK_RATE, 1)
    return Capacity(
        Fraction(LINK_RATE),
        lambda connection, side: Fraction(connection.wish(side).words, connection.wish(side).per),
        lambda load: f"ask {ask.units.rate(load, 1, up=True)}, and a link has {link}",
    )


def slots_of(chip: Chip) -> Capacity:
    """Slots, against those of a table."""
    return Capacity(
        Fraction(chip.slots),
        lambda connection, side: Fraction(need_of(connection, side, chip.slots)),
        lambda load: f"need {int(load)} slots, and a link of the chip has {chip.slots}",
    )


def judge_loads(app: Application, lines: dict[str, int], capacity: Capacity) -> None:
    """Stops at the flow with which those from or to a core, or to the cores of one interface, have more than its link."""
    for use in app.uses.values():
        loads: dict[tuple[str, str], Fraction] = defaultdict(Fraction)
        for name in use.connections:
            connection = app.connections[name]
            for side in SIDES:
                for way, core in (("from", connection.sender(side)), ("to", connection.receiver(side))):
                    fixed = app.cores[core].interface
                    place = f"interface `{fixed}`" if fixed else f"core `{core}`"
                    loads[way, place] += capacity.taken(connection, side)
                    if loads[way, place] > capacity.most:
                        tells = capacity.tells(loads[way, place])
                        raise RowFault(lines[name], f"with it the channels {way} {place} in use case `{use.name}` {tells}")


def judge_paths(app: Application, lines: dict[str, int], chip: Chip, ask: Ask) -> None:
    """Stops at a flow for which the chip has no path, or none that is quick enough."""
    ways = Ways(chip)
    faults = []
    for connection in app.connections.values():
        for side in SIDES:
            why = why_none(ways, app, connection, side, ask.units)
            if why is not None:
                faults.append(RowFault(lines[connection.name], f"channel {side}: {why[0].lower()}{why[1:].rstrip('.')}"))
                break
    if faults:
        raise joined(faults)


def plain_chip(app: Application) -> str:
    """A chip that has the interfaces which an application names, and as many as there may be: it is judged by this where no
    chip is given."""
    names = dict.fromkeys(core.interface for core in app.cores.values() if core.interface)
    names.update(dict.fromkeys(f"n{number}" for number in range(MOST_INTERFACES)))
    interfaces = list(names)[:MOST_INTERFACES]
    routers = list(islice((f"r{number}" for number in count() if f"r{number}" not in names), MOST_INTERFACES))
    pairs = [pair for one, other in zip(interfaces, routers) for pair in ((one, other), (other, one))]
    links = [{"from": one, "to": other} for one, other in pairs]
    return plain_text({"version": 1, "slots": 1, "routers": routers, "nis": interfaces, "link": links})


def table_in(file: Input, kind: str) -> Table:
    return table_of(text_in(file), kind)


def application(flows: str, seats: str | None, chip_name: str | None, ask: Ask) -> Result:
    """The application of a table of flows and one of seats, which is judged by a chip where one is given."""
    flow_file, seat_file = Input(flows), Input(seats) if seats else None
    chip_file = Input(chip_name) if chip_name else None
    if chip_file:
        printed("chip", chip_file)
    chip = read_chip(chip_file.data) if chip_file else None
    with within(flow_file):
        table = table_in(flow_file, "flow")
        rows = all_of(table.rows, lambda row: flow_of(row, table.units))
        wishes = all_of(rows, lambda flow: wishes_of(flow, ask.units))
        judge_cores(wishes, chip)
    fixed: list[Seat] = []
    if seat_file:
        with within(seat_file):
            fixed = all_of(table_in(seat_file, "seat").rows, seat_of)
            cores = {core for one in wishes for core in (one.flow.source, one.flow.target)}
            judge_seats(fixed, cores, chip.interfaces if chip else None)
    design = FlowDesign(wishes, fixed, table.comments, ask)
    with within(flow_file):
        judge_smooth(ask, design.uses)
        app = application_of(design.tree())
        lines = dict(zip(design.names, (one.flow.line for one in wishes)))
        judge_loads(app, lines, slots_of(chip) if chip else rates_of(ask))
        if chip:
            judge_paths(app, lines, chip, ask)
    text = text_of(design)
    printed("app", chip_file or made("chip", plain_chip(app)), made("app", text))
    return Result(text)
