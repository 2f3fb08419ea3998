"""Makes a network as hardware, runs it in a simulator, and says whether it did what `aeth` says."""
from argparse import Namespace
from collections.abc import Sequence
from dataclasses import dataclass
from pathlib import Path

from cosim_compare import MOST_CYCLES_OF_LINKS, Comparison
from cosim_simulators import SIMULATORS, Broken, compiled, found, played
from cosim_wave import write_wave
from ending import UNWRITTEN, Result, Stop
from program import Input, text_of
from progress import Progress
from rtl import make_folder
from rtl_bench import Run, Stimuli
from rtl_tables import Network, read_network
from run_texts import read_receivers, read_switches, read_words
from scratch_folder import scratch_folder

__all__ = ["SIMULATORS", "Simulation", "cosim", "verdict"]

DIFFERENCE = 3
PLAIN_SIMULATOR = "icarus"


@dataclass(frozen=True)
class Simulation:
    """A run of a network in a simulator: its files, its cycles, and the file that gets a dump, if one is wanted."""

    network: Network
    words: Input
    receivers: Input
    switches: Input
    cycles: int
    simulator: str = PLAIN_SIMULATOR
    wave: str | None = None

    @property
    def files(self) -> list[Input]:
        files = self.network.files
        return [files.chip_file, files.app_file, self.network.plan_file, self.words, self.receivers, self.switches]

    @property
    def stimuli(self) -> Stimuli:
        """What the files of the run say of its cycles."""
        return Stimuli(
            list(read_words(self.words.data, self.cycles)), list(read_receivers(self.receivers.data, self.cycles)),
            read_switches(self.switches.data, self.cycles), self.cycles,
        )


def verdict_of(comparison: Comparison, run: Run, links: str, log: str, broken: Sequence[Broken]) -> tuple[str, bool]:
    """The verdict, and whether both did the same."""
    difference = comparison.of_links(links)
    if not difference and comparison.cycles > MOST_CYCLES_OF_LINKS:
        difference = comparison.of_audit()
    difference = difference or comparison.of_landings(log) or comparison.of_flits(log)
    if not difference and comparison.network.has_tables:
        difference = comparison.of_entries(run.entered())
    told = ""
    if broken:
        more = f", and {len(broken) - 1:,} further ones" if broken[1:] else ""
        told = f"{broken[0].name} of {broken[0].place} doesn't hold in cycle {broken[0].cycle}{more}\n"
    if difference:
        return difference.text() + (f"  promise   {told}" if told else ""), False
    if told:
        return f"the same flits and landings, but a promise of the modules isn't kept: {told}", False
    flits, landed = len(comparison.rows), comparison.landed()
    return f"the same: {comparison.cycles:,} cycles, {flits:,} flits, {landed:,} words landed", True


def verdict(of: Simulation, progress: Progress) -> Result:
    """What comes out, with its status."""
    links = text_of("links", *of.files, min(of.cycles, MOST_CYCLES_OF_LINKS))
    log = text_of("simulate", *of.files, of.cycles)
    simulator, run = found(of.simulator), Run(of.network, of.stimuli)
    with scratch_folder("aeth-cosim-") as room:
        folder = room / "hardware"
        try:
            made = make_folder(folder, of.network, run)
        except OSError as error:
            raise Stop(UNWRITTEN, f"{error.filename}: {error.strerror}") from error
        compiled(simulator, folder, of.wave is not None, progress)
        broken = played(simulator, folder, made.sizes["FirstCycle"], progress)
        comparison = Comparison(of.network, of.files, of.cycles, folder)
        text, is_same = verdict_of(comparison, run, links, log, broken)
        if of.wave is not None:
            keep_wave(folder / "network.vcd", of.wave, comparison)
    if is_same:
        text += f"; routers with {'tables' if of.network.has_tables else 'headers'}, {simulator.name}\n"
    return Result(text, 0 if is_same else DIFFERENCE)


def cosim(given: Namespace) -> Result:
    """The verdict on the files that words name."""
    network = read_network(given)
    words, receivers, switches = (Input(path) for path in (given.words, given.receivers, given.switches))
    of = Simulation(network, words, receivers, switches, given.cycles, given.simulator, given.wave)
    return verdict(of, Progress("design"))


def keep_wave(dump: Path, path: str, comparison: Comparison) -> None:
    try:
        with open(dump, encoding="ascii", errors="replace") as source, open(path, "w", encoding="ascii") as out:
            write_wave(source, out, comparison.channels, comparison.scopes, comparison.cycles)
    except OSError as error:
        raise Stop(UNWRITTEN, f"{path}: {error.strerror}") from error
