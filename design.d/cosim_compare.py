"""What the hardware did beside what `aeth` says: the log of links, the landings, and the flits of each link."""
from collections import defaultdict
from collections.abc import Iterable, Iterator, Sequence
from dataclasses import dataclass
from pathlib import Path
from typing import NamedTuple

from plan_texts import rows_of
from program import Input, answer
from rtl_tables import Ends, Network
from rules import rules_of_logs
from waveform import Channels, fields_of, scope_names

MOST_CYCLES_OF_LINKS = 10_000
MOST_ROWS = 1_000_000  # of a log that `aeth audit` reads
MOST_BYTES = 33_554_432
HEADER = "cycle,link,header,first,second\n"


@dataclass(frozen=True)
class Difference:
    """The first difference: where it is, and what stands on both sides."""

    place: str
    aeth: str
    hardware: str

    def text(self) -> str:
        return f"another: {self.place}\n  aeth      {self.aeth}\n  hardware  {self.hardware}\n"


class Seen(NamedTuple):
    """A row of a log: a cycle, a link or a channel, and the values as they are spelled, since a simulator can also write
    unknown ones."""

    cycle: int
    place: int
    values: str

    def __str__(self) -> str:
        return f"{self.cycle},{self.place},{self.values}"


def seen_in(lines: Iterable[str]) -> Iterator[Seen]:
    """The rows of a log, without its header."""
    rows = iter(lines)
    next(rows, None)
    for row in rows:
        cycle, place, values = row.rstrip("\n").split(",", 2)
        yield Seen(int(cycle), int(place), values)


def pairs(one: Sequence[Seen], other: Sequence[Seen]) -> Iterator[tuple[Seen | None, Seen | None]]:
    """The rows of two logs beside each other."""
    for place in range(max(len(one), len(other))):
        yield one[place] if place < len(one) else None, other[place] if place < len(other) else None


class Comparison:
    """The files of a run, with what the hardware left of it."""

    def __init__(self, network: Network, files: Sequence[Input], cycles: int, folder: Path) -> None:
        self.network, self.files, self.cycles, self.folder = network, files, cycles, folder
        self.channels = Channels(network.chip, network.app, network.plan)
        self.scopes = scope_names(self.channels.links)
        with open(folder / "log.csv", encoding="ascii") as file:
            self.rows = sorted(seen_in(file), key=lambda row: row[:2])
        self.landings: dict[Ends, list[Seen]] = defaultdict(list)
        with open(folder / "landings.csv", encoding="ascii") as file:
            for row in seen_in(file):
                self.landings[network.channels[row.place]].append(row)

    def landed(self) -> int:
        return sum(map(len, self.landings.values()))

    def at(self, row: Seen) -> str:
        """Where a row stands, by name."""
        header, channel = row.values.partition(",")[0], "-"
        if header.isdecimal():
            route, queue, *_ = fields_of(int(header))
            channel = self.channels.name(row.place, route, queue).replace(":", " ")
        named = "no channel" if channel == "-" else f"channel {channel}"
        return f"cycle {row.cycle}, link {row.place} ({self.scopes[row.place]}), {named}"

    def of_links(self, log: str) -> Difference | None:
        """The first row that isn't the same, from what `aeth links` prints, in the cycles that it has."""
        most = min(self.cycles, MOST_CYCLES_OF_LINKS)
        ours = [row for row in self.rows if row.cycle < most]
        differ = (sides for sides in pairs(list(seen_in(log.splitlines())), ours) if sides[0] != sides[1])
        return next((self.difference(*sides) for sides in differ), None)

    def difference(self, one: Seen | None, other: Seen | None) -> Difference:
        """Of two rows, of which either may be missing, what the earlier one tells."""
        first = min(row for row in (one, other) if row)
        here = [row if row and row[:2] == first[:2] else None for row in (one, other)]
        return Difference(self.at(here[0] or first), *(str(row) if row else "no flit" for row in here))

    def of_audit(self) -> Difference | None:
        """What `aeth audit` says of the log, of as many cycles as it reads."""
        rows, cycles = self.rows, self.cycles
        if len(rows) > MOST_ROWS:
            cycles = rows[MOST_ROWS].cycle
            rows = [row for row in rows if row.cycle < cycles]
        text = HEADER + "".join(f"{row}\n" for row in rows)
        while len(text) > MOST_BYTES:
            cycles = cycles * 9 // 10
            rows = [row for row in rows if row.cycle < cycles]
            text = HEADER + "".join(f"{row}\n" for row in rows)
        log = self.folder / "sorted.csv"
        log.write_text(text, encoding="ascii")
        chip, app, plan, _, _, switches = self.files
        told = answer("audit", chip, app, plan, switches, log, cycles)
        if not told.status:
            return None
        words = told.errors.split()
        if words[:1] != ["fault"]:
            return Difference("the log can't be judged", "audit", told.errors.strip())
        row = rows[int(words[2]) - 1]
        return Difference(self.at(row), f"rule {words[1]} of a log: {rules_of_logs()[words[1]]}", str(row))

    def of_landings(self, log: str) -> Difference | None:
        """The first landing that isn't the same, from what `aeth simulate` prints, by the channel in which it is."""
        expected: dict[Ends, list[Seen]] = defaultdict(list)  # with the index of each word in its session
        channel: Ends = ("", "")
        for line in log.splitlines():
            word, *fields = line.split(" ")
            if word == "chan":
                channel = fields[0], fields[1]
            elif word == "land":
                expected[channel].append(Seen(int(fields[2]), int(fields[0]), fields[4]))
        found: list[tuple[int, Difference]] = []
        for channel in self.network.channels:
            for one, other in pairs(expected[channel], self.landings[channel]):
                if not one or not other or (one.cycle, one.values) != (other.cycle, other.values):
                    cycle = min(side.cycle for side in (one, other) if side)
                    index = f"word {one.place} of its session" if one else "a further word"
                    sides = [f"lands in cycle {row.cycle} with value {row.values}" if row else "doesn't land" for row in (one, other)]
                    found.append((cycle, Difference(f"cycle {cycle}, channel {' '.join(channel)}, {index}", *sides)))
                    break
        return min(found, key=lambda each: each[0])[1] if found else None

    def of_entries(self, entered: Iterable[tuple[int, int]]) -> Difference | None:
        """The first use case whose tables the routers don't have from its cycle on, of those that a run enters."""
        uses = {str(number): use for number, use in enumerate(self.network.uses)}
        with open(self.folder / "entries.csv", encoding="ascii") as file:
            next(file)
            ours = [(int(cycle), use) for cycle, use in (line.strip().split(",") for line in file)]
        last = {cycle: str(use) for cycle, use in entered if cycle < self.cycles}
        aeth: list[tuple[int, str]] = []
        for cycle, use in last.items():
            if not aeth or aeth[-1][1] != use:
                aeth.append((cycle, use))
        for place in range(max(len(aeth), len(ours))):
            sides = [rows[place] if place < len(rows) else None for rows in (aeth, ours)]
            if sides[0] != sides[1]:
                cycle = min(side[0] for side in sides if side)
                told = [f"those of {uses.get(side[1], 'none')} from cycle {side[0]} on" if side else "no others" for side in sides]
                return Difference(f"cycle {cycle}, tables of routers", *told)
        return None

    def of_flits(self, log: str) -> Difference | None:
        """The first link that doesn't carry as many flits."""
        counts = [0] * len(self.scopes)
        for row in self.rows:
            counts[row.place] += 1
        for link, flits in rows_of(log, "link"):
            if counts[int(link)] != int(flits):
                place = f"link {link} ({self.scopes[int(link)]}) over all cycles"
                return Difference(place, f"{flits} flits", f"{counts[int(link)]} flits")
        return None
