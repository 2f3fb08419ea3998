#!/usr/bin/env python3
"""What a run of `rt ci` costs: processor seconds for each crate and kind, and in all.

bench/gate.py [WORD]..

Runs `rt ci` at the top of the repository, or the command that the words give, and samples the processes below it each
half second. What it writes goes to standard error as it comes; the table is printed behind it: for each crate the seconds
of its own proof, of its tests and of its must-fail edits, then all others (Python, compilers, programs), then the sums. Behind
it stands the longest chain of crates that wait for each other, by the seconds of their own proofs, and for each crate on it
what the longest chain would be if it cost nothing. Ends with the command's status. For a measure from nothing take a fresh
clone, on a machine that does nothing else.

A processor that others share is slower in one hour than in another. So meanwhile the script has the prover check one
function again and again, always the same, which is no part of the repository; and the last line tells how many
processor seconds that took, at best, in the mean and at most. By it two measures can be compared.
"""
import os
import pathlib
import re
import resource
import shutil
import statistics
import subprocess
import sys
import tempfile
import time

KINDS = ("own", "tests", "edits")
TICKS = os.sysconf("SC_CLK_TCK")
YARD_MINUTES = 4
YARD_TEXT = """//! A yardstick.
#![tactic(auto)]

/// The sum of the numbers, or `None` where it is too great.
pub fn sum_of(numbers: &[u32]) -> Option<u32> {
    let mut sum: u32 = 0;
    for number in numbers {
        sum = sum.checked_add(*number)?;
    }
    Some(sum)
}
"""
NAME = re.compile(r"(?:^|\0)--crate-name\0([^\0]*)")


def text_of(file):
    try:
        return file.read_bytes().decode(errors="replace")
    except OSError:
        return ""


def folder_of(process):
    try:
        return os.readlink(process / "cwd")
    except OSError:
        return ""


def kind_of(process):
    """The crate and the kind of a prover's process, or none of any other."""
    words = text_of(process / "cmdline")
    name = NAME.search(words)
    if not name:
        return None
    if "/rt-edit-" in folder_of(process):
        return name[1], "edits"
    return name[1], "tests" if "\0--test\0" in words + "\0" else "own"


def processes():
    """For each process by its number the fields of its state, from the number of its parent on."""
    found = {}
    for process in pathlib.Path("/proc").iterdir():
        fields = text_of(process / "stat").rpartition(")")[2].split() if process.name.isdigit() else []
        if len(fields) > 19:
            found[process.name] = fields[1:]
    return found


def is_below(number, top, found):
    while number in found and number != top:
        number = found[number][0]
    return number == top


def sample(top, taken, kinds):
    """Notes the processor seconds of each prover below a process. When it began tells it from a later one of its number."""
    found = processes()
    for number, fields in found.items():
        key = number, fields[18]
        if key not in kinds:
            kinds[key] = kind_of(pathlib.Path("/proc") / number) if is_below(number, top, found) else None
        if kinds[key]:
            taken[key] = (int(fields[10]) + int(fields[11])) / TICKS


class Yardstick:
    """Checks of one function, one after the other, each a while after the one before, and the processor seconds of each."""

    def __init__(self, folder):
        self.taken, self.check, self.next, self.folder = [], None, 0, pathlib.Path(folder)
        (self.folder / "src").mkdir()
        (self.folder / "src/lib.rt").write_text(YARD_TEXT)

    def words(self):
        kit = pathlib.Path(shutil.which("rt")).resolve().parent.parent
        libraries = ["--extern", f"std={kit}/rlibs/std.rlib", "-L", f"dependency={kit}/rlibs"]
        logic = ["--antt-project", f"{kit}/rattle/logic/antt-project.json", "--logic-built", f"{kit}/logic_built"]
        return [f"{kit}/bin/rattle", "check", "--crate-name", "yardstick", "src/lib.rt", *libraries, *logic, "--jobs", "1"]

    def step(self, ends=False):
        """Begins a check where it is time, and notes one that has ended; at the end it waits for it."""
        if self.check is None and not ends and time.monotonic() >= self.next:
            self.next = time.monotonic() + 60 * YARD_MINUTES
            self.check = subprocess.Popen(self.words(), cwd=self.folder, stdout=subprocess.DEVNULL, stderr=subprocess.DEVNULL)
        if self.check is not None:
            number, status, used = os.wait4(self.check.pid, 0 if ends else os.WNOHANG)
            if number:
                self.taken += [used.ru_utime + used.ru_stime] if status == 0 else []
                self.check.returncode, self.check = status, None


def table_of(taken, kinds):
    table = {}
    for key, seconds in taken.items():
        crate, kind = kinds[key]
        row = table.setdefault(crate, dict.fromkeys(KINDS, 0))
        row[kind] += seconds
    return table


def crates_below():
    """The crates that each crate stands on, by crates.txt, lowest first."""
    lines = (line.partition("#")[0].partition(":") for line in text_of(pathlib.Path("crates.txt")).splitlines())
    named = {name.split()[0]: below.split() for name, mark, below in lines if mark and name.split()}
    return {name: [it for it in below if it in named] for name, below in named.items()}


def longest_chain(below, seconds):
    """The crates of the chain that takes longest, each after the one that it waits for, and its seconds."""
    best = {}
    for name in below:
        waits = max((best[it] for it in below[name]), default=(0, []), key=lambda it: it[0])
        best[name] = waits[0] + seconds.get(name, 0), [*waits[1], name]
    taken, chain = max(best.values(), default=(0, []), key=lambda it: it[0])
    return chain, taken


def show_chain(below, seconds):
    chain, taken = longest_chain(below, seconds)
    print(f"\nThe longest chain has {len(chain)} crates and {taken:.0f} seconds of own proofs, of {sum(seconds.values()):.0f} in all:")
    print(f"{'CRATE':24}{'own':>9}{'without it':>12}")
    for name in chain:
        print(f"{name:24}{seconds.get(name, 0):9.0f}{longest_chain(below, {**seconds, name: 0})[1]:12.0f}")
    print()


def show(table, spent, clock, yards):
    spent -= sum(yards)
    print(f"{'CRATE':24}" + "".join(f"{kind:>9}" for kind in KINDS))
    for crate, row in sorted(table.items(), key=lambda it: -sum(it[1].values())):
        print(f"{crate:24}" + "".join(f"{row[kind]:9.0f}" for kind in KINDS))
    sums = {kind: sum(row[kind] for row in table.values()) for kind in KINDS}
    print(f"{'all':24}" + "".join(f"{sums[kind]:9.0f}" for kind in KINDS))
    print(f"{'others':24}{spent - sum(sums.values()):9.0f}")
    show_chain(crates_below(), {crate: row["own"] for crate, row in table.items()})
    print(f"{spent / 60:.1f} processor minutes, {clock / 60:.1f} minutes of clock")
    if yards:
        told = min(yards), statistics.fmean(yards), max(yards)
        print("The same check took {:.1f} processor seconds at best, {:.1f} in the mean, {:.1f} at most.".format(*told))


def main(words):
    os.chdir(pathlib.Path(__file__).resolve().parent.parent)
    taken, kinds, began = {}, {}, time.monotonic()
    with tempfile.TemporaryDirectory() as folder:
        yards = Yardstick(folder)
        run = subprocess.Popen(words or ["rt", "ci"], stdin=subprocess.DEVNULL, stdout=sys.stderr)
        while run.poll() is None:
            sample(str(run.pid), taken, kinds)
            yards.step()
            time.sleep(0.5)
        clock = time.monotonic() - began
        yards.step(ends=True)
    used = resource.getrusage(resource.RUSAGE_CHILDREN)
    show(table_of(taken, kinds), used.ru_utime + used.ru_stime, clock, yards.taken)
    return run.returncode


if __name__ == "__main__":
    sys.exit(main(sys.argv[1:]))
