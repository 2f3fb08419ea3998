"""Owns how two plans on one chip are compared: which files are read, and what `aeth` is asked of them."""
from collections.abc import Sequence
import re

from changes import Changes
from design import Design
from diff_picture import draw_diff
from ending import NO_WORDS, Passed, printable, shortened
from making import DesignFiles, design_of
from program import Input, text_of

OF_CHIP = re.compile("(refused|read fault) chip")


def inputs_of(paths: Sequence[str]) -> list[Input]:
    """The files of some paths; one that is named twice is read once."""
    found = {path: Input(path) for path in paths}
    return [found[path] for path in paths]


def judged_design(files: DesignFiles, script: str) -> Design:
    """A design that `aeth` accepts, where there are two. Where it doesn't, a line behind its own says which one that is."""
    try:
        text_of("check", *files.words)
    except Passed as passed:
        if passed.status == NO_WORDS or OF_CHIP.match(passed.lines):
            raise
        app, plan = (printable(shortened(file.name)) for file in (files.app, files.plan))
        raise Passed(passed.status, f"{passed.lines}{script}: this is said of {app} and {plan}\n") from passed
    return design_of(files, None)


def changes_of(files: Sequence[Input], script: str) -> Changes:
    """What changed, on a chip, from the first application and plan to the second ones."""
    chip, app, plan, new_app, new_plan = files
    both = DesignFiles(chip, app, plan), DesignFiles(chip, new_app, new_plan)
    return Changes(*(judged_design(each, script) for each in both))


def diff(chip: str, app: str, plan: str, new_app: str, new_plan: str, *use: str) -> str:
    """The picture of what changed from a plan to another one, in a use case or over all."""
    files = inputs_of((chip, app, plan, new_app, new_plan))
    changes = changes_of(files, "draw")
    if use and use[0] not in changes.uses:
        text_of("tables", files[0], *files[3:], use[0])  # which refuses it
    over = f"in use case {use[0]}" if use else "over all use cases"
    return draw_diff(changes, use or changes.uses, f"What changed {over}").text
