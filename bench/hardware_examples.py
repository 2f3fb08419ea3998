#!/usr/bin/env python3
"""Runs each example as hardware, and judges it by a lint and a synthesizer.

hardware_examples.py [icarus|verilator|lint|yosys].. [CHIP/APP..]

Each application of examples/ that is granted on a chip there is run through all its use cases in their order and back, with
words as the application wishes them and receivers that are as late as it allows, by routers of either kind. `./design cosim`
must say of both simulators that the hardware did the same, Verilator must have no warning, and Yosys must find no latch, no
loop and no net with two drivers in the flat netlist that its synthesis makes; gates aren't made smaller, which is the longest
part of it. The video pipeline has the run of its own files, and `crossing` the chip that `./design chip mesh 2 2 --slots 8`
makes, square, with its core `dsp` anywhere. Words behind its name choose what is done, and of which pairs, as mesh/video.

It prints rows for each run. The last line counts those of which something isn't as it must be; with one the status is 1.
"""

import pathlib
import re
import subprocess
import sys
import tempfile
import time

HOME = pathlib.Path(__file__).resolve().parent.parent
EXAMPLES = HOME / "examples"
KINDS = ("headers", "tables")
TASKS = ("icarus", "verilator", "lint", "yosys")
CYCLES = 600
DRAIN = 20
FLIP_FLOPS = re.compile(r"^ +\$_\w*DFF\w* +(\d+)$", re.M)
LATCHES = "select -assert-none t:$_DLATCH_* t:$_DLATCHSR_* t:$dlatch"


def run(script, *words, where=None):
    return subprocess.run([str(word) for word in (script, *words)], cwd=where, capture_output=True, text=True, check=False)


def made(path, script, *words):
    """A file with what a script prints."""
    ran = run(HOME / script, *words)
    if ran.returncode:
        sys.exit(f"{script} {' '.join(map(str, words))}: {ran.stderr}")
    path.write_text(ran.stdout, encoding="utf-8")
    return path


def pairs(room):
    """The chips and applications, with those that README and the guide make."""
    texts = {path: path.read_text(encoding="utf-8") for path in sorted(EXAMPLES.glob("*.toml"))}
    chips = [path for path, text in texts.items() if re.search(r"^routers =", text, re.M)]
    yield from ((chip, app) for chip in chips for app in texts if app not in chips)
    freed = room / "crossing.toml"
    freed.write_text(texts[EXAMPLES / "crossing.toml"].replace('"dsp", ni = "n2"', '"dsp"'), encoding="utf-8")
    yield made(room / "square.toml", "design", "chip", "mesh", 2, 2, "--slots", 8), freed


def run_files(room, chip, app):
    """The files of a design with a run, if it is granted."""
    plan = room / "plan"
    ran = run(HOME / "aeth", "allocate", chip, app)
    if ran.returncode:
        return None
    plan.write_text(ran.stdout, encoding="utf-8")
    if (chip.stem, app.stem) == ("mesh", "video"):
        return [chip, app, plan, *(EXAMPLES / f"video.{name}.csv" for name in ("words", "receivers", "switches")), 2000]
    uses = re.findall(r'^\[\[use\]\]\nname = "(\w+)"', app.read_text(encoding="utf-8"), re.M)
    through = [*uses, *uses[-2::-1]]
    switches = made(
        room / "switches", "design", "switches", chip, app, CYCLES, *through, "--drain", DRAIN if uses[1:] else 0, "--plan", plan)
    traffic = "words", chip, app, switches, CYCLES, "--plan", plan, "--kind", "greedy"
    words = made(room / "words", "design", *traffic)
    receivers = made(room / "receivers", "design", "receivers", chip, app, switches, CYCLES, "--late")
    return [chip, app, plan, words, receivers, switches, CYCLES]


def simulated(files, kind, simulator):
    """What `cosim` says, and the seconds."""
    begin = time.time()
    ran = run(HOME / "design", "cosim", *files, "--routers", kind, "--with", simulator)
    same = re.match(r"the same: [\d,]+ cycles, ([\d,]+) flits, ([\d,]+) words landed", ran.stdout)
    told = f"the same, {same[1]} flits, {same[2]} words" if same else (ran.stdout + ran.stderr).strip()
    return not ran.returncode and bool(same), f"{told}, {time.time() - begin:.0f} s"


def linted(folder):
    """Verilator's lint of the network and of its bench."""
    for words in (("-Wall", "-f", "network.f", "--top-module", "aeth_network"),
                  ("--timing", "-f", "bench.f", "--top-module", "aeth_bench")):
        ran = run("verilator", "--lint-only", *words, where=folder)
        if ran.returncode or ran.stdout or ran.stderr:
            return False, (ran.stdout + ran.stderr).strip()
    return True, "no warning"


def synthesized(folder):
    """The synthesis of the top, with its flip-flops as Yosys counts them."""
    begin = time.time()
    names = [name for name in (folder / "network.f").read_text(encoding="ascii").split() if name[0] != "+"]
    read = f"read_verilog -sv -Irtl -DSYNTHESIS {' '.join(names)}"
    script = f"{read}; synth -noabc -flatten -top aeth_network; check -assert; {LATCHES}; tee -o stat stat"
    ran = run("yosys", "-p", script, where=folder)
    if ran.returncode or "Found and reported 0 problems." not in ran.stdout:
        return False, (ran.stdout + ran.stderr)[-2000:]
    flip_flops = sum(map(int, FLIP_FLOPS.findall((folder / "stat").read_text(encoding="ascii"))))
    return True, f"{flip_flops:,} flip-flops, {time.time() - begin:.0f} s"


def judged(files, kind, task, room):
    if task in ("icarus", "verilator"):
        return simulated(files, kind, task)
    folder = room / kind
    if not folder.exists():
        made(room / "told", "design", "rtl", *files[:3], "--to", folder, "--routers", kind)
    return linted(folder) if task == "lint" else synthesized(folder)


def main(tasks, chosen):
    runs, bad = 0, 0
    with tempfile.TemporaryDirectory() as room:
        for chip, app in pairs(pathlib.Path(room)):
            if chosen and f"{chip.stem}/{app.stem}" not in chosen:
                continue
            with tempfile.TemporaryDirectory() as own:
                files = run_files(pathlib.Path(own), chip, app)
                for kind in KINDS if files else ():
                    told = [(task, *judged(files, kind, task, pathlib.Path(own))) for task in tasks]
                    runs += 1
                    bad += not all(good for _, good, _ in told)
                    for task, _, text in told:
                        print(f"{chip.stem:10} {app.stem:9} {kind:8} {task:10} {text}", flush=True)
    print(f"{runs} runs, of {bad} something isn't as it must be")
    return 1 if bad or not runs else 0


if __name__ == "__main__":
    words = {word for word in sys.argv[1:] if "/" not in word}
    unknown = ", ".join(sorted(words - set(TASKS)))
    if unknown:
        sys.exit(f"hardware_examples.py [icarus|verilator|lint|yosys].. [CHIP/APP..]: there is no {unknown}")
    sys.exit(main([task for task in TASKS if task in words] or TASKS, set(sys.argv[1:]) - words))
