#!/usr/bin/env python3
"""Runs the largest chip as hardware, and says what each step takes.

hardware_large.py [CYCLES [icarus|verilator [headers|tables]]]

The chip has 64 routers with an interface each, and the application 512 connections in 16 use cases; `bench/inputs.py` makes
them. Without words behind its name it runs 20,000 cycles with 20,000 words and 20 switches under Verilator, and its routers
read headers. It prints for each step the seconds of the clock and those of processors, and the verdict; with a difference
the status is 1. It needs 4 GB of memory.
"""

import os
import pathlib
import subprocess
import sys
import tempfile
import time
from argparse import Namespace
from contextlib import contextmanager

HOME = pathlib.Path(__file__).resolve().parent.parent
sys.dont_write_bytecode = True
sys.path[:0] = [str(HOME / "design.d"), str(HOME / "draw.d"), str(HOME / "common.d")]

from cosim import verdict_of  # noqa: E402: its folder is told above
from cosim_compare import MOST_CYCLES_OF_LINKS, Comparison  # noqa: E402
from cosim_simulators import compiled, found, played  # noqa: E402
from program import Input, text_of  # noqa: E402
from progress import Progress  # noqa: E402
from rtl import make_folder  # noqa: E402
from rtl_bench import Run, Stimuli  # noqa: E402
from rtl_tables import read_network  # noqa: E402
from run_texts import read_receivers, read_switches, read_words  # noqa: E402


@contextmanager
def step(name):
    clock, used = time.time(), sum(os.times()[:4])
    yield
    print(f"{name:10} {time.time() - clock:7.1f} s, of processors {sum(os.times()[:4]) - used:7.1f} s", flush=True)


def stimuli(inputs, cycles):
    words, receivers, switches = (each.data for each in inputs)
    return Stimuli(
        list(read_words(words, cycles)), list(read_receivers(receivers, cycles)), read_switches(switches, cycles), cycles)


def main(cycles="20000", simulator="verilator", kind="headers"):
    cycles = int(cycles)
    with tempfile.TemporaryDirectory() as place:
        room = pathlib.Path(place)
        subprocess.run([sys.executable, HOME / "bench/inputs.py", room], check=True)
        chip, app, plan = room / "chip", room / "app_hops", room / "plan"
        plan.write_text(text_of("allocate", Input(str(chip)), Input(str(app))), encoding="ascii")
        inputs = [Input(str(room / name)) for name in ("words_20k", "receivers", "switches_1024")]
        with step("made"):
            network = read_network(Namespace(chip=str(chip), app=str(app), plan=str(plan), routers=kind))
            run = Run(network, stimuli(inputs, cycles))
            folder = room / "hardware"
            made = make_folder(folder, network, run)
        with step("compiled"):
            compiled(found(simulator), folder, False, Progress("hardware_large.py"))
        with step("run"):
            broken = played(found(simulator), folder, made.sizes["FirstCycle"], Progress("hardware_large.py"))
        with step("compared"):
            files = [network.files.chip_file, network.files.app_file, network.plan_file, *inputs]
            links, log = text_of("links", *files, min(cycles, MOST_CYCLES_OF_LINKS)), text_of("simulate", *files, cycles)
            text, is_same = verdict_of(Comparison(network, files, cycles, folder), run, links, log, broken)
    print(text)
    return 0 if is_same else 1


if __name__ == "__main__":
    sys.exit(main(*sys.argv[1:]))
