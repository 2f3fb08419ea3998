"""One-line faults of the modules in rtl/, a run that meets each of them, and how `./design cosim` tells it."""
from dataclasses import dataclass

CHIP = """version = 2
slots = 8
routers = ["r0", "r1"]
nis = ["n0", "n1"]
link = [
  {from = "n0", to = "r0"}, {from = "r0", to = "n0"},
  {from = "n1", to = "r1"}, {from = "r1", to = "n1"},
  {from = "r0", to = "r1", delay = 2}, {from = "r1", to = "r0"},
]
"""

APP = """version = 1
detour = 0
core = [ {name = "cpu", ni = "n0"}, {name = "mem", ni = "n1"}, {name = "dma", ni = "n0"} ]
[[connection]]
name = "load"
from = "cpu"
to = "mem"
fwd = {words = 5, per = 4, latency = 40, delay = 8}
back = {words = 1, per = 8, latency = 40, delay = 0}
[[connection]]
name = "copy"
from = "dma"
to = "mem"
fwd = {words = 1, per = 16, latency = 60, delay = 0}
back = {words = 1, per = 16, latency = 60, delay = 0}
[[use]]
name = "both"
connections = ["load", "copy"]
smooth = ["one"]
[[use]]
name = "one"
connections = ["copy"]
"""

CYCLES = 240
SWITCHES = "cycle,use,drain\n0,both,0\n80,one,3\n130,both,0\n"


def words():
    """Sixty words at once, two in each cycle up to the switch and beyond, and again once all is opened anew."""
    rows = [(1, "load,fwd")] * 60 + [(cycle, "load,fwd") for cycle in range(55, 80) for _ in range(2)]
    rows += [(150, "load,fwd")] * 30 + [(cycle, "load,back") for cycle in range(3, 200, 9)]
    rows += [(cycle, "copy,fwd") for cycle in range(0, 240, 17)] + [(cycle, "copy,back") for cycle in range(5, 240, 23)]
    rows.sort(key=lambda row: row[0])
    lines = [f"{channel},{cycle},{1000 + value}\n" for value, (cycle, channel) in enumerate(rows)]
    return "connection,side,cycle,value\n" + "".join(lines)


RECEIVERS = "connection,side,cycle,pull\n" + "".join(
    f"load,fwd,{cycle},{pull}\n" for cycle, pull in ((10, 0), (40, 255), (60, 1), (90, 2), (160, 0), (180, 255))
)


@dataclass(frozen=True)
class Fault:
    """A line of a module, what stands in its place, the kind of routers, and what the verdict has then."""

    module: str
    old: str
    new: str
    tells: str
    routers: str = "headers"


FAULTS = {
    "the route isn't shifted": Fault(
        "hop", "flit_i.header.route >> aeth_pkg::PortWidth;", "flit_i.header.route;",
        "cycle 2, link 4 (r0_r1), channel load fwd"),
    "a credit is added twice": Fault(
        "queue", "RemoteWidth'(sent_count) + RemoteWidth'(returned)", "RemoteWidth'(sent_count) + RemoteWidth'(2 * returned)",
        "CreditsWithinRoom of interfaces.n1 at place 1 doesn't hold in cycle 17"),
    "credits are owed a cycle early": Fault(
        "queue", "assign owing   = owed_q;", "assign owing   = owed_q + freed;", "cycle 8, link 2 (n1_r1), channel load back"),
    "a slot too late": Fault(
        "interface", "slot_q <= '0;\n      used_q", "slot_q <= IndexWidth'(Slots - 1);\n      used_q",
        "cycle 5, link 0 (n0_r0), channel copy fwd"),
    "a slot of tables too late": Fault(
        "table_router", "slot_q  <= '0;", "slot_q  <= aeth_pkg::SlotWidth'(Slots - 1);",
        "cycle 9, link 4 (r0_r1), channel load fwd", "tables"),
    "entries change a cycle early": Fault(
        "switch_port", "assign use_case_o = use_case_q;", "assign use_case_o = gone ? left_q.use_case : use_case_q;",
        "cycle 86, tables of routers", "tables"),
    "the ninth word is dropped": Fault(
        "queue", "<= aeth_pkg::SourceWords - aeth_pkg::FlitWords;", "<= aeth_pkg::SourceWords;",
        "cycle 16, link 0 (n0_r0), channel load fwd"),
    "a queue is filled once it is empty": Fault(
        "queue", "<= aeth_pkg::SourceWords - aeth_pkg::FlitWords;", "== 0;", "cycle 2, link 0 (n0_r0), channel load fwd"),
    "a halt is passed over": Fault(
        "queue", "halted_q <= 1'b1;", "halted_q <= 1'b0;", "cycle 83, link 0 (n0_r0), channel load fwd"),
    "a finish empties nothing": Fault(
        "fifo", "if (rst_i || clear_i) begin", "if (rst_i) begin", "cycle 136, link 0 (n0_r0), channel load fwd"),
    "the second word is written over the first": Fault(
        "fifo", "words_q[tail_next] <= second_i;", "words_q[tail] <= second_i;", "cycle 1, link 0 (n0_r0), channel load fwd"),
    "a link has no register": Fault(
        "link", "flits[(Delay-1)*W+:W];", "flits[0+:W];", "cycle 3, link 3 (r1_n1), channel load fwd"),
    "a drain is a cycle short": Fault(
        "switch_port", "busy_q && left_q.drain == '0;", "busy_q && left_q.drain <= 1;",
        "cycle 82, link 0 (n0_r0), channel load fwd"),
    "fourteen credits at most": Fault(
        "pkg", "localparam int FlitCredits = 15;", "localparam int FlitCredits = 14;",
        "cycle 48, link 2 (n1_r1), channel load back"),
    "words are sent without credits": Fault(
        "queue", "32'(counter_q) < 32'(most) ?", "32'(counter_q) < 32'(most) && 1'b0 ?",
        "cycle 34, link 0 (n0_r0), channel load fwd"),
    "a write is left out": Fault(
        "switch_port", "32'(left_q.writes) <= 1;", "32'(left_q.writes) <= 2;", "cycle 9, link 2 (n1_r1), channel copy back"),
    "the core reads one place on": Fault(
        "queue", ".place_i  (ReceiveWidth'(taking_i.place)),", ".place_i  (ReceiveWidth'(taking_i.place) + 1'b1),",
        "channel load fwd, word 1 of its session"),
}
