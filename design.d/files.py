"""A chip and an application that `aeth` has judged, and texts of TOML that say what such files do."""
from dataclasses import dataclass
from functools import cached_property
from typing import Any
import json

from design_files import Application, Chip, read_application, read_chip, tree_of
from program import Input, text_of as printed
from toml_lines import Tree


@dataclass(frozen=True)
class Files:
    """The files of a chip and of an application, which `aeth` accepts, and what they say."""

    chip_file: Input
    app_file: Input

    @cached_property
    def chip_tree(self) -> Tree:
        return tree_of(self.chip_file.data)

    @cached_property
    def app_tree(self) -> Tree:
        return tree_of(self.app_file.data)

    @cached_property
    def chip(self) -> Chip:
        return read_chip(self.chip_file.data)

    @cached_property
    def app(self) -> Application:
        return read_application(self.app_file.data)


def judged(chip: str, app: str) -> Files:
    """The files of two paths, where `aeth` accepts them: else the script ends as it does."""
    files = Files(Input(chip), Input(app))
    printed("app", files.chip_file, files.app_file)
    return files


def spelled(value: Any) -> str:
    """A value in TOML, on one line."""
    if isinstance(value, dict):
        return "{" + ", ".join(f"{key} = {spelled(inner)}" for key, inner in value.items()) + "}"
    if isinstance(value, list):
        return "[" + ", ".join(map(spelled, value)) + "]"
    return json.dumps(value, ensure_ascii=False)


def text_of(root: Tree) -> str:
    """A file that says what these keys and values do: tables of an array in a line each."""
    lines = []
    for key, value in root.items():
        if isinstance(value, list) and value and isinstance(value[0], dict):
            lines.append(f"{key} = [\n" + "".join(f"  {spelled(item)},\n" for item in value) + "]\n")
        else:
            lines.append(f"{key} = {spelled(value)}\n")
    return "".join(lines)
