#!/usr/bin/env python3
"""Runs random small designs as hardware, and compares with what the program says.

hardware.py [FROM TO [icarus|verilator]]

Makes the designs of these numbers, 0 to 299 without them, always the same ones, each with a run: chips of one to six
routers with delays, tables of 2 to 128 slots, cores of a connection on one interface, receivers that stall or take all at
once, words outside of sessions, and up to six switches, smooth and not, some in one cycle. For each `./design cosim` must
say that the hardware did the same, with routers of either kind. The last line counts the designs that differ; with one the
status is 1. It needs Python 3.11 and the simulator.
"""

import pathlib
import random
import subprocess
import sys
import tempfile

HOME = pathlib.Path(__file__).resolve().parent.parent
sys.dont_write_bytecode = True
sys.path.insert(0, str(HOME / "common.d"))

from design_files import read_application, read_chip  # noqa: E402: its folder is told above
from plan_texts import read_plan  # noqa: E402
from run_texts import Switching, SwitchRow  # noqa: E402

DESIGNS = 300
SIDES = ("fwd", "back")
FILES = ("chip", "app", "plan", "words", "receivers", "switches")


def quoted(names):
    return ", ".join(f'"{name}"' for name in names)


def random_chip(draw):
    """A ring of routers with some links across, and one to four interfaces anywhere."""
    routers = [f"r{k}" for k in range(draw.randint(1, 6))]
    ring = list(zip(routers, routers[1:] + routers[:1])) if len(routers) > 1 else []
    across = [tuple(draw.sample(routers, 2)) for _ in range(draw.randint(0, 3)) if len(routers) > 2]
    nis = [f"n{k}" for k in range(draw.randint(1, 4))]
    places = [(ni, draw.choice(routers)) for ni in nis]
    links = [*ring, *[link[::-1] for link in ring], *across, *places, *[place[::-1] for place in places]]
    draw.shuffle(links)
    slots, with_delays = draw.choice([2, 4, 5, 8, 8, 12, 16, 33, 128]), draw.random() < 0.6
    rows = [
        f'  {{from = "{begin}", to = "{end}"' + (f", delay = {draw.randint(1, 4)}" if with_delays else "") + "},\n"
        for begin, end in links
    ]
    head = f"version = 2\nslots = {slots}\nrouters = [{quoted(routers)}]\nnis = [{quoted(nis)}]\n"
    return head + "link = [\n" + "".join(rows) + "]\n", nis


def random_wish(draw):
    words, per = draw.choice([(0, 1), (1, 64), (1, 16), (1, 8), (1, 4), (1, 2), (3, 4)])
    return f"{{words = {words}, per = {per}, latency = {draw.choice([40, 100, 400])}, delay = {draw.choice([0, 0, 1, 4, 40])}}}"


def random_app(draw, nis):
    """Cores, of which most are fixed, and use cases with some of their connections."""
    cores = [f"k{k}" for k in range(draw.randint(2, min(8, 4 * len(nis))))]
    fixed = dict(zip(draw.sample(cores, len(cores)), nis * 2))
    rows = [
        f'  {{name = "{core}"' + (f', ni = "{fixed[core]}"' if core in fixed and draw.random() < 0.7 else "") + "},\n"
        for core in cores
    ]
    text = f"version = 1\ndetour = {draw.randint(0, 2)}\ncore = [\n{''.join(rows)}]\n"
    names = [f"c{k}" for k in range(draw.randint(1, 6))]
    for name in names:
        begin, end = draw.sample(cores, 2)
        text += f'[[connection]]\nname = "{name}"\nfrom = "{begin}"\nto = "{end}"\n'
        text += f"fwd = {random_wish(draw)}\nback = {random_wish(draw)}\n"
    uses = [f"u{k}" for k in range(draw.randint(1, 4))]
    for use in uses:
        own = draw.sample(names, draw.randint(1, len(names)))
        text += f'[[use]]\nname = "{use}"\nconnections = [{quoted(own)}]\n'
        text += f"smooth = [{quoted(draw.sample(uses, draw.randint(0, 1)))}]\n"
    return text


def random_switches(draw, chip, app, plan):
    """Switches of which some begin in the cycle in which the one before is over."""
    read = read_application(app.encode())
    switching, uses = Switching(read_chip(chip.encode()), read, read_plan(plan.encode())), list(read.uses)
    use, cycle = draw.choice(uses), draw.choice([0, 0, 1, draw.randint(2, 80)])
    rows = [(0, use, 0)]
    for _ in range(draw.randint(0, 6)):
        entered, drain = draw.choice(uses), draw.choice([0, 0, 1, draw.randint(2, 60)])
        rows.append((cycle, entered, drain))
        cycle = switching.switch(use, SwitchRow(cycle, entered, drain)).over + draw.choice([0, 0, 1, draw.randint(2, 100)])
        use = entered
    return "cycle,use,drain\n" + "".join("%d,%s,%d\n" % row for row in rows)


def random_traces(draw, app, cycles):
    """Words, one at a time, many or at once, and receivers."""
    words, pulls = [], []
    for name, side in ((name, side) for name in read_application(app.encode()).connections for side in SIDES):
        at_once = draw.randrange(cycles)
        for _ in range(draw.choice([0, draw.randint(1, 10), draw.randint(20, cycles)])):
            cycle = at_once if draw.random() < 0.3 else draw.randrange(cycles + 5)
            words.append((cycle, name, side, draw.getrandbits(32)))
        for _ in range(draw.choice([0, 0, 1, 4])):
            pulls.append((draw.randrange(cycles), name, side, draw.choice([0, 0, 1, 2, 3, 7, 255])))
    lines = lambda rows: "".join("%s,%s,%d,%d\n" % (*row[1:3], row[0], row[3]) for row in sorted(rows, key=lambda row: row[0]))
    return f"connection,side,cycle,value\n{lines(words)}", f"connection,side,cycle,pull\n{lines(pulls)}"


def make(number, room, aeth):
    """The files of a design and its run in a folder, and the cycles. Designs of which units are refused are passed over."""
    draw = random.Random(number)
    paths = [room / name for name in FILES]
    while True:
        chip, nis = random_chip(draw)
        app = random_app(draw, nis)
        for path, text in zip(paths, (chip, app)):
            path.write_text(text, encoding="ascii")
        ran = subprocess.run([aeth, "allocate", *paths[:2]], capture_output=True, text=True, check=False)
        if not ran.returncode:
            break
    cycles = draw.choice([60, 150, 300])
    texts = ran.stdout, *random_traces(draw, app, cycles), random_switches(draw, chip, app, ran.stdout)
    for path, text in zip(paths[2:], texts):
        path.write_text(text, encoding="ascii")
    return paths, cycles


def compared(number, home, simulator="icarus"):
    """What `cosim` says of a design with routers of either kind: pairs of a status and both texts."""
    with tempfile.TemporaryDirectory() as room:
        paths, cycles = make(number, pathlib.Path(room), home / "aeth")
        for kind in ("headers", "tables"):
            words = [home / "design", "cosim", *paths, cycles, "--routers", kind, "--with", simulator]
            ran = subprocess.run([str(word) for word in words], capture_output=True, text=True, check=False)
            yield ran.returncode, ran.stdout + ran.stderr


def main(first=0, end=DESIGNS, simulator="icarus"):
    differ = 0
    for number in range(int(first), int(end)):
        told = list(compared(number, HOME, simulator))
        if any(status for status, _ in told):
            differ += 1
            print(number, *[text for _, text in told], sep="\n")
    print(f"{int(end) - int(first)} designs, {differ} differ")
    return 1 if differ else 0


if __name__ == "__main__":
    sys.exit(main(*sys.argv[1:]))
