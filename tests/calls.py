#!/usr/bin/env python3
"""Public calls that may lack memory and that neither the program nor a test makes.

    tests/calls.py

A body that always lacks memory would pass as such a call, since want of memory is the one answer without a cause. So each
must be made once with ample memory, by a command of the transcripts or by a crate of tests. The script reads the sources:
a call is found by the name of its type and its own, or by its own where it is a method or a plain function; so one may be
taken for made since another of its name is. Status 1 where one isn't made.
"""
import pathlib
import re
import sys

TOP = pathlib.Path(__file__).resolve().parent.parent
ITEM = re.compile(
    r"^(?P<indent> *)(?:(?P<public>pub)(?:\(\w+\))? )?(?:(?P<impl>impl)(?:<[^{]*?>)? (?:[\w:]+(?:<[^{]*?>)? for )?(?P<type>\w+)|(?P<trait>trait) (?P<name>\w+)|fn (?P<fn>\w+))",
    re.M,
)
MADE = re.compile(r"(?:\b(\w+)(?:::<[^;()]*?>)?::|(\.))?\b([a-z_]\w*)(?:::<[^;()]*?>)?\(")


class Function:
    def __init__(self, crate, kind, name, text, is_public, is_test):
        self.crate, self.kind, self.name, self.is_public, self.is_test = crate, kind, name, is_public, is_test
        head = re.split(r"\n\s*(?:requires|ensures|ghost)\b|\n *\{|\{\n|;\n", text, maxsplit=1)[0]
        self.may_lack = bool(re.search(r"->\s*[\w:]*Result<", head))
        self.calls = {(kind or ("." if dot else ""), name) for kind, dot, name in MADE.findall(text[len(head) :])}

    def __str__(self):
        return f"{self.crate}: {self.kind + '::' if self.kind else ''}{self.name}"


def functions_of(file):
    text = re.sub(r"(?m)^\s*//.*$", "", file.read_text())
    crate, kind, inside = file.parts[len(TOP.parts) + 1], "", 0
    found = list(ITEM.finditer(text))
    for item, after in zip(found, [*found[1:], None]):
        indent = len(item["indent"])
        if item["impl"] or item["trait"]:
            kind, inside = item["type"] or item["name"], indent
        elif item["fn"]:
            kind = kind if indent > inside else ""
            body = text[item.start() : after.start() if after else len(text)]
            is_test = "#[test]" in text[max(0, item.start() - 60) : item.start()]
            yield Function(crate, kind, item["fn"], body, bool(item["public"]), is_test)


def is_call(call, function):
    kind, name = call
    if name != function.name:
        return False
    if kind == ".":
        return bool(function.kind)
    is_parameter = len(kind) == 1
    return kind in ("", "Self") or is_parameter and bool(function.kind) or kind == function.kind or (not function.kind and kind[0].islower())


def made_calls(functions):
    """All functions that the program or a test comes to."""
    by_name = {}
    for it in functions:
        by_name.setdefault(it.name, []).append(it)
    begun = [it for it in functions if it.is_test or it.name == "main" and it.crate in ("aeth", "aeth_transcripts")]
    made = set(begun)
    while begun:
        for call in begun.pop().calls:
            for it in by_name.get(call[1], []):
                if it not in made and is_call(call, it):
                    made.add(it)
                    begun.append(it)
    return made


def main():
    functions = [it for file in sorted(TOP.glob("crates/*/src/**/*.rt")) for it in functions_of(file)]
    made = made_calls(functions)
    asked = [it for it in functions if it.is_public and it.may_lack and not it.crate.endswith("_tests")]
    lacking = [it for it in asked if it not in made]
    for it in lacking:
        print(it)
    print(f"{len(asked)} public calls may lack memory; {len(lacking)} of them are made by nothing")
    return 1 if lacking else 0


if __name__ == "__main__":
    sys.exit(main())
