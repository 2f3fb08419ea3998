#!/usr/bin/env python3
"""Edges of crates.txt that nobody uses.

    tests/edges.py

An edge is a crate with another that it stands on. It is used where a `use`, a `ghost use` or a `pub use` of the crate's sources,
definitions or proofs names the other, or a path in them begins with it; and one of a library of the kit where a path begins with
the library. An edge that follows from others is no fault: it stands where it is used. The script also tells which crate names
another without an edge, which the prover would refuse. Status 1 where one of either kind is found.
"""
import pathlib
import re
import sys

TOP = pathlib.Path(__file__).resolve().parent.parent
NAMED = re.compile(r"\bRattle\.(\w+)\.|\b([a-z_]\w*)::")


def edges(text):
    """For each crate what its line says that it stands on."""
    lines = (line.partition("#")[0].partition(":") for line in text.splitlines())
    return {name.split()[0]: below.split() for name, mark, below in lines if mark and name.split()}


def named(crate, files):
    """The first words of all paths that the files name, without comments."""
    text = "\n".join(re.sub(r"(?m)^\s*(?://|--).*$", "", file.read_text()) for file in files)
    return {word for pair in NAMED.findall(text) for word in pair if word} - {crate}


def sources(folder):
    return [file for part in ("src", "specs", "proofs") for kind in ("rt", "antt") for file in folder.glob(f"{part}/**/*.{kind}")]


def faults(top):
    below = edges((top / "crates.txt").read_text())
    for crate, stands_on in below.items():
        names = named(crate, sources(top / "crates" / crate))
        for other in stands_on:
            if other not in names:
                yield f"{crate}: no line names {other}, on which it stands"
        for other in sorted(names & set(below) - set(stands_on)):
            yield f"{crate}: names {other}, on which it doesn't stand"


def main():
    found = list(faults(TOP))
    for fault in found:
        print(fault)
    count = sum(len(it) for it in edges((TOP / "crates.txt").read_text()).values())
    print(f"{count} edges, {len(found)} faults")
    return bool(found)


if __name__ == "__main__":
    sys.exit(main())
