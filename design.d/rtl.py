"""A folder with a network as hardware, and a run of it."""
from argparse import Namespace
from pathlib import Path
from collections.abc import Iterator
import shutil

from ending import UNWRITTEN, Result, Stop
from program import HOME
from rtl_bench import Run, RunFiles, Stimuli, harness_text, package_text, program_name, program_text, run_files
from rtl_programs import Write
from rtl_readme import readme_text
from rtl_tables import Network, read_network
from rtl_top import Top
from run_texts import SwitchRow
from shapes import Refused
from traffic import Entry, words_rows
from waveform import scope_names

RTL = HOME / "rtl"
ORDER = (
    "aeth_pkg.sv", "aeth_stage.sv", "aeth_link.sv", "aeth_hop.sv", "aeth_router.sv", "aeth_table_router.sv", "aeth_fifo.sv",
    "aeth_queue.sv", "aeth_interface.sv", "aeth_switch_port.sv",
)
HEADERS = ("aeth_types.svh", "aeth_assert.svh")
SIMULATED = ("aeth_monitor.sv", "aeth_bench.sv")
CYCLES = 1_000  # of the run in a folder


def modules_of(network: Network) -> list[str]:
    """The modules that a network is made of, in the order in which they are read."""
    absent = "aeth_router.sv" if network.has_tables else "aeth_table_router.sv"
    return [name for name in ORDER if name != absent]


def make_folder(folder: Path, network: Network, run: Run) -> RunFiles:
    """Writes all that a simulator needs of a run."""
    scopes, of_run = scope_names(network.chip.links), run_files(run)
    for name in ("rtl", "run", "tables"):
        (folder / name).mkdir(parents=True)
    modules = modules_of(network)
    for name in (*HEADERS, *modules, *SIMULATED):
        shutil.copyfile(RTL / name, folder / "rtl" / name)
    put(folder, "aeth_network.sv", Top(network, scopes).text())
    put(folder, "aeth_run.sv", package_text(of_run.sizes))
    put(folder, "aeth_harness.sv", harness_text(network, scopes, of_run.places))
    for name, text in of_run.files.items():
        put(folder, f"run/{name}", text)
    for name, writes in of_run.programs.items():
        put(folder, f"tables/{name}", program_text(writes))
    listed = [f"rtl/{name}" for name in modules] + ["aeth_network.sv"]
    put(folder, "network.f", "+incdir+rtl\n" + "".join(f"{name}\n" for name in listed))
    more = ["aeth_run.sv", "aeth_harness.sv", *(f"rtl/{name}" for name in SIMULATED)]
    put(folder, "bench.f", "-f network.f\n" + "".join(f"{name}\n" for name in more))
    return of_run


def put(folder: Path, name: str, text: str) -> None:
    (folder / name).write_text(text, encoding="ascii")


def own_run(network: Network) -> Run:
    """A run of the first use case, with words on every channel as it wishes them."""
    use = next(use for use in network.uses if network.ways[use])
    words = words_rows(network.app, [Entry(0, use, 0, 0)], CYCLES)
    return Run(network, Stimuli(words, [], [SwitchRow(0, use, 0)], CYCLES))


def all_programs(run: Run) -> Iterator[tuple[str, list[Write]]]:
    """The writes of each use case and of each switch that writes anything, by the file that has them."""
    uses, programs = run.network.uses, run.programs
    for use in uses:
        yield program_name("", use), programs.load(use)
    for old in uses:
        for new in uses:
            writes = programs.switch(old, new, run.switching)
            if writes:
                yield program_name(old, new), writes


def rtl(given: Namespace) -> Result:
    """Makes the folder, and answers what is told of it."""
    folder = given.to
    network = read_network(given)
    try:
        if folder.exists() and (not folder.is_dir() or any(folder.iterdir())):
            raise Refused(f"{folder} isn't an empty folder, and nothing in it is written over")
        run = own_run(network)
        make_folder(folder, network, run)
        for name, writes in all_programs(run):
            put(folder, f"tables/{name}", program_text(writes))
        put(folder, "README.md", readme_text(network, run, given))
    except OSError as error:
        raise Stop(UNWRITTEN, f"{error.filename}: {error.strerror}") from error
    queues = sum(map(len, network.queues.values()))
    return Result(
        f"{folder}: {len(network.chip.routers)} routers, {len(network.queues)} interfaces with {queues} queues in use, "
        f"{len(network.chip.links)} links; README.md there tells how to run it\n"
    )
