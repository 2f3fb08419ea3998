"""Simulators of SystemVerilog: how each compiles a folder and runs it, with its progress."""
from dataclasses import dataclass
from pathlib import Path
import os
import re
import shutil
import subprocess

from ending import Passed, Stop
from progress import Progress

NO_SIMULATOR = 7  # or one that failed
MOST_TEXT = 4_000  # of a simulator that failed
FLAG = "AETH_WAVE"


@dataclass(frozen=True)
class Simulator:
    """A simulator by its programs; `compile` and `run` are what these are given."""

    name: str
    package: str
    programs: tuple[str, ...]
    compile: tuple[str, ...]
    trace: tuple[str, ...]  # more words, for a dump
    run: tuple[str, ...]


def jobs() -> str:
    return str(len(os.sched_getaffinity(0)))


# What Verilator makes is compiled once and run once, so compiling it fast counts for more. With its signals kept apart, queues
# of a kind have one code; wide values go by calls; one file reads the long declarations once; and short functions are compiled
# in less time.
FAST = (
    "-fno-gate", "-fno-expand", "--output-split-cfuncs", "2000",
    *(word for flag in ("VM_PARALLEL_BUILDS=0", "OPT_FAST=-O0", "OPT_SLOW=-O0", "OPT_GLOBAL=-O0") for word in ("-MAKEFLAGS", flag)),
)

SIMULATORS = {
    "icarus": Simulator(
        "Icarus Verilog", "iverilog", ("iverilog", "vvp"),
        ("iverilog", "-g2012", "-f", "bench.f", "-s", "aeth_bench", "-o", "network.vvp"), (f"-D{FLAG}",),
        ("vvp", "-n", "network.vvp"),
    ),
    "verilator": Simulator(
        "Verilator", "verilator", ("verilator", "g++", "make"),
        ("verilator", "--binary", "--assert", "-Wno-fatal", *FAST, "-j", jobs(), "-f", "bench.f", "--top-module", "aeth_bench"),
        ("--trace", f"-D{FLAG}"),
        ("obj_dir/Vaeth_bench", "+verilator+error+limit+1000000"),
    ),
}
PACKAGES = {"g++": "g++", "make": "make"}
BROKEN = re.compile(r"aeth: (\w+) of (\S+) doesn't hold at (\d+)")
TOP = "TOP."  # what Verilator has about the bench
SCOPE = "aeth_bench.harness.network."


@dataclass(frozen=True)
class Broken:
    """A promise of the modules that a run didn't keep: its name, where, and in which cycle."""

    name: str
    place: str
    cycle: int


def found(name: str) -> Simulator:
    """The simulator of this name, if its programs are there."""
    simulator = SIMULATORS[name]
    for program in simulator.programs:
        if not shutil.which(program):
            package = PACKAGES.get(program, simulator.package)
            raise Stop(NO_SIMULATOR, f"there is no `{program}`: the Debian package `{package}` has it")
    return simulator


def failed(simulator: Simulator, does: str, text: str, status: int) -> Passed:
    """What is told of a simulator that failed: its own text, and a line."""
    text = text[-MOST_TEXT:] if text.endswith("\n") or not text else text[-MOST_TEXT:] + "\n"
    return Passed(NO_SIMULATOR, f"{text}design: {simulator.name} {does}, with status {status}\n")


def compiled(simulator: Simulator, folder: Path, with_wave: bool, progress: Progress) -> None:
    """Compiles the network and the bench of a folder."""
    progress.say(f"{simulator.name} compiles the network")
    words = [*simulator.compile, *(simulator.trace if with_wave else ())]
    ran = subprocess.run(words, cwd=folder, stdout=subprocess.PIPE, stderr=subprocess.STDOUT, check=False)
    if ran.returncode:
        progress.end()
        raise failed(simulator, "didn't compile the network", ran.stdout.decode(errors="replace"), ran.returncode)


def told_by(line: bytes) -> str:
    return line.decode(errors="replace")


def played(simulator: Simulator, folder: Path, first_cycle: int, progress: Progress) -> list[Broken]:
    """Runs what was compiled, and answers the promises of the modules that weren't kept."""
    progress.say(f"{simulator.name} runs it")
    words = [str(folder / simulator.run[0]) if "/" in simulator.run[0] else simulator.run[0], *simulator.run[1:]]
    text: list[str] = []
    broken: list[Broken] = []
    done = False
    with subprocess.Popen(words, cwd=folder, stdout=subprocess.PIPE, stderr=subprocess.STDOUT) as ran:
        try:
            for line in map(told_by, ran.stdout or ()):
                told, promise = re.match(r"aeth_bench: (cycle|done)(.*)", line), BROKEN.search(line)
                if told and told[1] == "cycle":
                    progress.say(f"{simulator.name} runs it: cycle{told[2]}")
                elif told:
                    done = True
                elif promise:
                    place = re.sub(r"\.gen_queues\[(\d+)\]\.i_queue", r" at place \1", promise[2].removeprefix(TOP).removeprefix(SCOPE))
                    broken.append(Broken(promise[1], place, int(promise[3]) + first_cycle - 3))
                else:
                    text.append(line)
        finally:
            ran.kill()
    progress.end()
    if not done:
        raise failed(simulator, "ended before the run did", "".join(text), ran.returncode)
    return broken
