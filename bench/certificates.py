#!/usr/bin/env python3
"""Explains refusals of random small designs, and compares with what the rules say.

certificates.py [PROGRAM]

Makes 400 designs of which units are refused, always the same ones. For each, `explain` must print the text that
`model_certificates.py` computes from the rules, and that text, handed back, must be complete. Then texts are
tampered with: of some designs each line is left out, doubled, or changed with the next, and the last link of each
cut is left out; of a few the text ends after each of its bytes. For each the rules say the status and both texts.
The last line counts the answers that differ; with one the status is 1. PROGRAM is the program; without one it is
that of `./aeth`. It needs Python 3.11.
"""

import collections
import os
import pathlib
import random
import subprocess
import sys
import tempfile

from model_certificates import text_of, tries_of, verdict
from model_plans import App, Chip

HOME = pathlib.Path(__file__).resolve().parent.parent
DESIGNS, BY_LINE, BY_BYTE = 400, 60, 12


def quoted(names):
    return ", ".join(f'"{name}"' for name in names)


def random_chip(draw):
    """A ring of routers with some links across, one or two interfaces at some, and delays in half of them."""
    routers = [f"r{k}" for k in range(draw.randint(1, 6))]
    ring = list(zip(routers, routers[1:] + routers[:1])) if len(routers) > 1 else []
    across = [tuple(draw.sample(routers, 2)) for _ in range(draw.randint(0, 3)) if len(routers) > 2]
    nis = [f"n{k}" for k in range(draw.randint(2, 5))]
    places = [(ni, draw.choice(routers)) for ni in nis]
    links = [*ring, *[link[::-1] for link in ring], *across, *places, *[place[::-1] for place in places]]
    draw.shuffle(links)
    version = draw.choice([1, 2])
    slots = draw.choice([2, 4, 5, 8, 8, 12, 16])
    rows = [
        f'{{from = "{begin}", to = "{end}"'
        + (f", delay = {draw.randint(1, 4)}" if version == 2 and draw.random() < 0.7 else "")
        + "},\n"
        for begin, end in links
    ]
    head = f"version = {version}\nslots = {slots}\nrouters = [{quoted(routers)}]\nnis = [{quoted(nis)}]\n"
    return head + "link = [\n" + "".join(rows) + "]\n", nis


def random_wish(draw):
    words, per = draw.choice([(0, 1), (1, 8), (1, 4), (1, 2), (3, 4), (1, 1), (2, 1)])
    latency = draw.choice([1, 2, 3, 4, 5, 6, 8, 10, 14, 20, 40])
    return f"{{words = {words}, per = {per}, latency = {latency}, delay = {draw.randint(0, 4)}}}"


def random_app(draw, nis):
    """Cores, of which some are fixed, with connections of which use cases have some."""
    cores = [f"k{k}" for k in range(draw.randint(2, min(8, 4 * len(nis))))]
    fixed = dict(zip(draw.sample(cores, len(cores)), nis * 2)) if draw.random() < 0.8 else {}
    rows = [
        f'{{name = "{core}"' + (f', ni = "{fixed[core]}"' if core in fixed and draw.random() < 0.7 else "") + "},\n"
        for core in cores
    ]
    text = f"version = 1\ndetour = {draw.randint(0, 3)}\ncost = \"{draw.choice(['hops', 'pressure'])}\"\n"
    text += "core = [\n" + "".join(rows) + "]\n"
    names = [f"c{k}" for k in range(draw.randint(1, 7))]
    for name in names:
        begin, end = draw.sample(cores, 2)
        text += f'[[connection]]\nname = "{name}"\nfrom = "{begin}"\nto = "{end}"\n'
        text += f"fwd = {random_wish(draw)}\nback = {random_wish(draw)}\n"
    uses = [f"u{k}" for k in range(draw.randint(1, 3))]
    for use in uses:
        own = draw.sample(names, draw.randint(1, len(names)))
        text += f'[[use]]\nname = "{use}"\nconnections = [{quoted(own)}]\n'
        text += f"smooth = [{quoted(draw.sample(uses, draw.randint(0, 1)))}]\n"
    return text


def designs():
    """Designs of which units are refused: the texts of both files, and the tries."""
    draw, found = random.Random(5), 0
    while found < DESIGNS:
        chip_text, nis = random_chip(draw)
        app_text = random_app(draw, nis)
        chip = Chip(chip_text)
        app = App(app_text, chip)
        tries = tries_of(chip, app)
        if tries:
            found += 1
            yield chip_text, app_text, chip, app, tries


def by_line(text):
    """The text with a line left out, doubled, or changed with the next, and with a shorter cut."""
    lines = text.splitlines(True)
    for place, line in enumerate(lines):
        yield "".join(lines[:place] + lines[place + 1 :])
        yield "".join(lines[: place + 1] + lines[place:])
        yield "".join(lines[:place] + lines[place + 1 : place + 2] + [line] + lines[place + 2 :])
        if "," in line:
            yield "".join(lines[:place] + [line.rsplit(",", 1)[0] + "\n"] + lines[place + 1 :])


def by_byte(text):
    for many in range(len(text)):
        yield text[:many]


class Answers:
    """The answers of the program in a folder, beside those of the rules."""

    def __init__(self, program, folder):
        self.program, self.folder = program, pathlib.Path(folder)
        self.kinds, self.wrong = collections.Counter(), 0

    def put(self, name, text):
        (self.folder / name).write_text(text)

    def expect(self, kind, wanted, *words):
        """Compares the status and both texts."""
        words = [self.program, "explain", "chip", "app", *words]
        ran = subprocess.run(words, cwd=self.folder, capture_output=True, check=False, text=True)
        self.kinds[kind] += 1
        if (ran.returncode, ran.stdout, ran.stderr) != wanted:
            self.wrong += 1
            print(f"{kind}: wanted {wanted}, came {ran.returncode, ran.stdout, ran.stderr}, of")
            print(*(f"{it.name}:\n{it.read_text()}" for it in sorted(self.folder.iterdir())), sep="\n")

    def judge(self, chip, app, tries, text):
        """A text as CERT."""
        self.put("cert", text)
        wanted = verdict(chip, app, tries, text)
        told = (wanted[1] + wanted[2]).split(" ")
        kind = told[3] if told[0] == "refused" else told[0].strip()
        self.expect(kind, wanted, "cert")


def main(program):
    refusals = cuts = 0
    with tempfile.TemporaryDirectory() as folder:
        own, tampered = Answers(program, folder), Answers(program, folder)
        for number, (chip_text, app_text, chip, app, tries) in enumerate(designs()):
            text = text_of(tries)
            refusals += len(tries)
            cuts += text.count("cut")
            own.put("chip", chip_text)
            own.put("app", app_text)
            own.expect("text", (0, text, ""))
            own.judge(chip, app, tries, text)
            texts = list(by_line(text)) if number % (DESIGNS // BY_LINE) == 0 else []
            texts += by_byte(text) if number % (DESIGNS // BY_BYTE) == 0 else []
            for other in texts:
                tampered.judge(chip, app, tries, other)
    print(f"{DESIGNS} designs, {refusals} refusals, {cuts} cuts:", dict(own.kinds))
    print(f"{tampered.kinds.total()} other texts:", dict(sorted(tampered.kinds.items())))
    print(own.wrong + tampered.wrong, "wrong")
    sys.exit(own.wrong + tampered.wrong > 0)


if __name__ == "__main__":
    if len(sys.argv) == 1:
        subprocess.run([HOME / "aeth", "slots", "1", "1", "1", "0"], stdout=subprocess.DEVNULL, check=True)
    main(os.path.abspath(sys.argv[1]) if len(sys.argv) > 1 else HOME / "out/aeth")
