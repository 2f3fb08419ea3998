#!/usr/bin/env python3
"""Functions that take more than six arguments.

    tests/arguments.py

The receiver and the allocator count too; crates of tests are left out. Some functions may take more: callers outside know their
signatures, or they take what such a one is given (`KNOWN`); or the invariant that ties their arguments holds again only behind
the call (`UNTIED`). Status 1 where another one does.
"""
import pathlib
import re
import sys

TOP = pathlib.Path(__file__).resolve().parent.parent
MOST = 6
KNOWN = {
    ("aeth_audit", "audit"), ("aeth_machine", "make"), ("aeth_paths", "find"), ("aeth_paths", "find_counted"),
    ("aeth_sim", "make"), ("aeth_sim", "new"), ("aeth_table_network", "make"), ("aeth_table_network", "new"),
}
UNTIED = {("aeth_components", "count_received"), ("aeth_components", "land"), ("aeth_components", "run")}
FUNCTION = re.compile(r"\bfn (\w+)(?:<.*?>)?\(")


def arguments(text, at):
    """How many arguments stand from a place on, up to the parenthesis that closes their list."""
    depth, count, is_some = 0, 0, False
    for place in range(at, len(text)):
        letter = text[place]
        if letter == ")" and depth == 0:
            return count + is_some
        if letter == "," and depth == 0:
            count, is_some = count + is_some, False
            continue
        if letter in "([<":
            depth += 1
        elif letter in ")]" or letter == ">" and text[place - 1] not in "-=":
            depth -= 1
        is_some = is_some or not letter.isspace()
    raise ValueError(text[at:])


def functions(text):
    """The name of each function, and how many arguments it takes."""
    plain = re.sub(r"//.*", "", text)
    return [(found[1], arguments(plain, found.end())) for found in FUNCTION.finditer(plain)]


def faults(top):
    for source in sorted(top.glob("crates/*/src/**/*.rt")):
        crate = source.relative_to(top / "crates").parts[0]
        if crate.endswith("_tests"):
            continue
        for name, count in functions(source.read_text()):
            if count > MOST and (crate, name) not in KNOWN | UNTIED:
                yield f"{source.relative_to(top)}: {name} takes {count} arguments"


def main():
    found = list(faults(TOP))
    for fault in found:
        print(fault)
    return bool(found)


if __name__ == "__main__":
    sys.exit(main())
