"""A run of a network as hardware: the files that rtl/aeth_bench.sv reads, and what joins it to the network."""
from collections import defaultdict
from collections.abc import Iterable, Mapping, Sequence
from dataclasses import dataclass

from rtl_names import safe
from rtl_programs import Programs, Write, rows_of_routers
from rtl_tables import Network
from run_texts import PullRow, Switching, SwitchRow, WordRow

NEVER = 2**30
TAKEN = frozenset(("clk_i", "record_i", "cycle_i", "log_i", "network"))  # names that monitors have about them
REPORTS = 50  # how often a run tells its cycle


@dataclass(frozen=True)
class Session:
    """Cycles in which a channel is in use: it takes words from `go` on and before `until`, and is over at `finish`."""

    go: int
    until: int
    finish: int


@dataclass(frozen=True)
class Entering:
    """A switch of a run that writes something, by what it does to the hardware."""

    cycle: int
    old: str  # none where the use case is loaded
    use: str
    drain: int
    lag: int
    closing: frozenset[str]


@dataclass(frozen=True)
class Stimuli:
    """The rows of a run's files, in cycles below its end."""

    words: Sequence[WordRow]
    pulls: Sequence[PullRow]
    switches: Sequence[SwitchRow]
    cycles: int


class Run:
    """The sessions and the switches of a run."""

    def __init__(self, network: Network, stimuli: Stimuli) -> None:
        self.network, self.stimuli = network, stimuli
        self.switching = Switching(network.chip, network.app, network.plan)
        self.programs = Programs(network)
        self.sessions: dict[str, list[Session]] = defaultdict(list)  # by connection
        self.switches: list[Entering] = []
        self.follow()

    def follow(self) -> None:
        first, *later = self.stimuli.switches
        use = first.use
        self.switches.append(Entering(-len(self.programs.load(use)), "", use, 0, 0, frozenset()))
        open_from = dict.fromkeys((connection for connection, _ in self.network.ways[use]), 0)
        for row in later:
            switch = self.switching.switch(use, row)
            opening = self.switching.left(row.use, use)
            for connection in switch.closing:
                self.sessions[connection].append(Session(open_from.pop(connection), row.cycle, switch.finish))
            open_from.update(dict.fromkeys(opening, switch.over))
            if switch.closing or opening:
                lag = switch.finish - row.cycle - row.drain
                self.switches.append(Entering(row.cycle, use, row.use, row.drain, lag, switch.closing))
            use = row.use
        for connection, go in open_from.items():
            self.sessions[connection].append(Session(go, NEVER, NEVER))

    def entered(self) -> list[tuple[int, int]]:
        """The use cases whose tables routers have, each with the cycle from which on; those before the run are one."""
        found = [(switch.cycle + switch.drain + switch.lag, switch.use) for switch in self.switches]
        return [(max(0, cycle), self.network.uses.index(use)) for cycle, use in found]

    def session_at(self, connection: str, cycle: int) -> Session | None:
        return next((one for one in self.sessions[connection] if one.go <= cycle < one.until), None)

    def words(self) -> list[list[tuple[int, int, int]]]:
        """By channel the words that a session takes, in their order, each with the cycle of its offer and of the finish."""
        taken = defaultdict(list)
        for row in self.stimuli.words:
            session = self.session_at(row.connection, row.cycle)
            if session:
                taken[row.connection, row.side].append((row.cycle, session.finish, row.value))
        return [taken[channel] for channel in self.network.channels]

    def programs_in_use(self) -> dict[str, list[Write]]:
        """The programs of the run, each once: its file and its writes."""
        pairs = dict.fromkeys((switch.old, switch.use) for switch in self.switches)
        return {
            program_name(old, use): self.programs.switch(old, use, self.switching) if old else self.programs.load(use)
            for old, use in pairs
        }


def program_name(old: str, use: str) -> str:
    """The file of a program: of a use case that is loaded, or of a switch from one to another."""
    return f"{old}.{use}.hex" if old else f"{use}.hex"


def hex_text(rows: Iterable[Sequence[int]], widths: Sequence[int]) -> str:
    """Lines of numbers in hexadecimal, whose fields have these widths in digits."""
    lines = ["".join(f"{value & 16**width - 1:0{width}x}" for value, width in zip(row, widths)) for row in rows]
    return "\n".join(lines) + "\n"


def program_text(writes: Iterable[Write]) -> str:
    return "".join(f"{number:016x}  // {tells}\n" for number, tells in writes)


@dataclass(frozen=True)
class RunFiles:
    """The files of a run by name, the numbers of its package, and its programs, each with its places in the memory."""

    files: Mapping[str, str]
    sizes: Mapping[str, int]
    programs: Mapping[str, list[Write]]
    places: Mapping[str, tuple[int, int]]


def run_files(run: Run) -> RunFiles:
    network, stimuli = run.network, run.stimuli
    channels: list[tuple[int, int]] = []
    flat: list[tuple[int, int, int]] = []
    for of_channel in run.words():
        channels.append((len(flat), len(flat) + len(of_channel)))
        flat += of_channel
    programs, end = run.programs_in_use(), 0
    places: dict[str, tuple[int, int]] = {}
    for name, writes in programs.items():
        places[name] = end, end + len(writes)
        end += len(writes)
    numbers = {channel: number for number, channel in enumerate(network.channels)}
    pulls = [(row.cycle, numbers[row[:2]], row.pull) for row in stimuli.pulls if row[:2] in numbers]
    uses, connections = network.uses, network.connections
    switches, closings = [], []
    for switch in run.switches:
        first, last = places[program_name(switch.old, switch.use)]
        switches.append((switch.cycle, uses.index(switch.use), switch.drain, switch.lag, first, last - first))
        closings.append(sum(1 << place for place, name in enumerate(connections) if name in switch.closing))
    rows = rows_of_routers(network) if network.has_tables else []
    digits = -(-len(connections) // 4)
    files = {
        "channels.hex": hex_text(channels, (8, 8)),
        "words.hex": hex_text(flat or [(NEVER, NEVER, 0)], (8, 8, 8)),
        "pulls.hex": hex_text(pulls or [(NEVER, 0, 0)], (8, 8, 8)),
        "switches.hex": hex_text(switches, (8, 8, 8, 8, 8, 8)),
        "closings.hex": hex_text([(closing,) for closing in closings], (digits,)),
        "rows.hex": hex_text([(row,) for row in rows or [0]], (16,)),
    }
    before = max(-switches[0][0], len(rows)) + 4
    sizes = {
        "Channels": len(channels), "Connections": len(connections), "Words": max(1, len(flat)),
        "Pulls": max(1, len(pulls)), "Switches": len(switches), "Rows": max(1, len(rows)), "RowCount": len(rows),
        "FirstCycle": -before, "Cycles": stimuli.cycles, "Progress": max(1, stimuli.cycles // REPORTS),
    }
    return RunFiles(files, sizes, programs, places)


def package_text(sizes: Mapping[str, int]) -> str:
    lines = "".join(f"  localparam int {name} = {number};\n" for name, number in sizes.items())
    return f"// Made by `./design rtl`: the numbers of a run.\n\npackage aeth_run;\n{lines}endpackage\n"


def harness_text(network: Network, scopes: Sequence[str], places: Mapping[str, tuple[int, int]]) -> str:
    """The network with a monitor at each link, its ports as vectors, and the memory of its programs."""
    last = max(end for _, end in places.values())
    ports, wide = [], {"offer": "Offer", "taking": "Taking", "arrival": "Arrival"}
    for number, (connection, side) in enumerate(network.channels):
        for kind, upper in wide.items():
            width = f"aeth_pkg::{upper}Width"
            end = "o" if kind == "arrival" else "i"
            ports.append(f".{kind}_{connection}_{side}_{end} ({kind}s_{end}[{number}*{width}+:{width}])")
        ports.append(f".ready_{connection}_{side}_o (ready_o[{number}])")
    ports += [f".{name} ({name})" for name in ("clk_i", "rst_i", "run_i", "start_i", "switch_i", "closing_i")]
    ports += [".ready_o (unused_ready)", ".place_o (place)", ".program_i (written[aeth_pkg::WriteWidth-1:0])"]
    if network.has_tables:
        ports += [".row_valid_i (row_valid_i)", ".row_i (row_i[aeth_pkg::RowWidth-1:0])"]
    loads = [
        f'    $readmemh("tables/{name}", memory, {first}, {end - 1});' for name, (first, end) in places.items()
    ]
    monitors = [
        f"    aeth_monitor #(.Link ({number})) {safe(scope, TAKEN)} "
        f"(.clk_i, .record_i, .cycle_i, .log_i, .flit_i (network.entering_{number}));"
        for number, scope in enumerate(scopes)
    ]
    return HARNESS.format(
        last=last - 1, wide=max(1, (last - 1).bit_length()), loads="\n".join(loads), ports=",\n    ".join(ports),
        monitors="\n".join(monitors), use_case="use_case" if network.has_tables else "unused_use_case",
    )


HARNESS = """// Made by `./design rtl`: the network, with its ports as vectors, a monitor at each link, and the memory of its programs.

`include "aeth_types.svh"

module aeth_harness (
  input  logic                                                clk_i,
  input  logic                                                rst_i,
  input  logic                                                run_i,
  input  logic [aeth_run::Channels*aeth_pkg::OfferWidth-1:0]   offers_i,
  output logic [aeth_run::Channels-1:0]                       ready_o,
  input  logic [aeth_run::Channels*aeth_pkg::TakingWidth-1:0]  takings_i,
  output logic [aeth_run::Channels*aeth_pkg::ArrivalWidth-1:0] arrivals_o,
  input  logic                                                start_i,
  input  switch_t                                             switch_i,
  input  logic [aeth_run::Connections-1:0]                    closing_i,
  input  logic                                                row_valid_i,
  input  logic [63:0]                                         row_i,
  input  logic                                                record_i,
  input  logic [31:0]                                         cycle_i,
  input  logic [31:0]                                         log_i,
  output logic [aeth_pkg::UseWidth-1:0]                       use_case_o
);

  logic [63:0]                     memory [0:{last}];
  logic [63:0]                     written;
  logic [aeth_pkg::PlaceWidth-1:0] place;
  logic                            unused_ready;

  initial begin
{loads}
  end

  assign written    = memory[{wide}'(place)];
  assign use_case_o = network.{use_case};

  aeth_network network (
    {ports}
  );

  if (1) begin : links
{monitors}
  end

endmodule
"""
