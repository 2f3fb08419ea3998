#!/usr/bin/env python3
"""Writes the `use` lines of proofs and definitions in the form that they have here.

    tests/use_lines.py FOLDER..

Each folder is a crate's. Names of one module share lines of at most 100 columns, and modules below one path share them too
where that gives fewer: `use Rattle.std.proofs.lemmas.{Bool.cases_Bool, List.map-append}`. So each name keeps its home.
A name of the library that its `proofs/Common` passes on is taken from there, where `rt` is on the path. Files with a `pub use`
of their own are left. `rt tidy` drops names that nobody uses from such lines, and `rt fmt` leaves the lines as they are. Prints
how many there were and are.
"""
import pathlib
import re
import shutil
import sys

WIDTH = 100
LEAST_PATH = 2
USE = re.compile(r"use (\S+)\.\{(.*)\}$")
PASSED_ON = re.compile(r"(?:unfoldable )?pub use (\S+)\.\{(.*)\}")
RT = shutil.which("rt")
LIBRARY = pathlib.Path(RT).resolve().parent.parent / "rattle" if RT else None
COMMON = ("Rattle", "std", "proofs", "Common")


def split_item(path, item):
    """An item of a path's braces as its module, its name there, and the other name that ` as ` gives it, or an empty one."""
    old, _, other = item.partition(" as ")
    *below, name = [old] if not old.strip(".") else old.split(".")
    return (*path.split("."), *below), name, other


class Library:
    """Where the kit's names are declared, as far as its own files tell."""

    def __init__(self):
        self.rows = {}

    def passed_on(self, module):
        """What the file of the module passes on: a name, with the module and the name that it has there."""
        if module not in self.rows:
            base = LIBRARY.joinpath(*module[1:]) if LIBRARY else None
            files = [it for it in (base.with_suffix(".antt"), base / "Lib.antt") if it.is_file()] if base else []
            self.rows[module] = {}
            for line in files[0].read_text().splitlines() if files else []:
                found = PASSED_ON.match(line)
                for path, name, other in (split_item(found[1], it) for it in found[2].split(", ")) if found else ():
                    self.rows[module][other or name] = path, name
        return self.rows[module]

    def home(self, module, name):
        while name in self.passed_on(module):
            module, name = self.passed_on(module)[name]
        return module, name

    def common(self, module, name, other):
        """The item, from Common where Common passes on the same one."""
        of_library = module[:2] == COMMON[:2] and module != COMMON and not other
        if of_library and name in self.passed_on(COMMON) and self.home(COMMON, name) == self.home(module, name):
            module = COMMON
        return module, name, other


def cut_lines(path, items):
    """Lines of one path, each within the width where a single name lets it be."""
    lines = []
    for item in items:
        if lines and len(lines[-1]) + len(item) + 2 <= WIDTH:
            lines[-1] = f"{lines[-1][:-1]}, {item}}}"
        else:
            lines.append(f"use {'.'.join(path)}.{{{item}}}")
    return lines


def joined(items):
    """The fewest lines for the items, in the order in which their modules come first."""
    first = {}
    for module, _, _ in items:
        first.setdefault(module, len(first))

    def best(path, rest):
        here = [item for item in rest if item[0] == path]
        parts = {}
        for item in rest:
            if item[0] != path:
                parts.setdefault(item[0][: len(path) + 1], []).append(item)
        apart = cut_lines(path, [text_of(path, it) for it in here])
        for below, its in parts.items():
            apart += best(below, its)
        if len(path) < LEAST_PATH or not parts:
            return apart
        together = cut_lines(path, [text_of(path, it) for it in sorted(rest, key=lambda it: first[it[0]])])
        return together if len(together) < len(apart) else apart

    return best((), items)


def text_of(path, item):
    module, name, other = item
    return ".".join((*module[len(path) :], name)) + (f" as {other}" if other else "")


def rewritten(text, library):
    lines = text.split("\n")
    places = [at for at, line in enumerate(lines) if USE.match(line)]
    items = []
    for at in places:
        found = USE.match(lines[at])
        for item in found[2].split(", "):
            item = library.common(*split_item(found[1], item))
            if item not in items:
                items.append(item)
    if not places or any(module[0] != "Rattle" for module, _, _ in items):
        return text
    behind = [line for at, line in enumerate(lines) if at > places[0] and at not in places]
    return "\n".join([*lines[: places[0]], *joined(items), *behind])


def main(folders):
    library, before, after = Library(), 0, 0
    for folder in folders:
        for part in ("specs", "proofs"):
            for file in sorted(pathlib.Path(folder, part).glob("**/*.antt")):
                text = file.read_text()
                new = rewritten(text, library)
                before, after = before + text.count("\nuse "), after + new.count("\nuse ")
                if new != text:
                    file.write_text(new)
    print(f"use lines: {before} before, {after} now")


if __name__ == "__main__":
    main(sys.argv[1:])
