"""Owns what a report tells of its run as hardware. `./design cosim` tells the same, of which this has the code."""
from cosim import Simulation, verdict
from ending import Passed, Stop, line_of
from files import Files
from making import DesignFiles
from progress import Progress
from report_page import Verdict
from rtl_tables import network_of
from runs import RunFiles


def verdict_on(files: DesignFiles, run_files: RunFiles, cycles: int) -> Verdict:
    """What `design cosim` says of a run. Where it can't say anything the script ends so, with its lines."""
    try:
        network = network_of(Files(files.chip, files.app), files.plan, "headers")
        told = verdict(Simulation(network, run_files.words, run_files.receivers, run_files.switches, cycles), Progress("draw"))
    except Passed:
        raise
    except Stop as stop:
        raise Passed(stop.status, line_of("design", stop.why)) from stop
    line = told.text.partition("\n")[0]
    return Verdict(f"Hardware: {line}.", "bad" if told.status else "good")
