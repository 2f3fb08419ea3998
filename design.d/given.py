"""The words of a command of `aeth`: its files, each read once, and what they say where `aeth` has accepted them."""
from collections.abc import Sequence
from functools import cached_property

from design_files import Application, Chip, application_of, chip_of, read_once
from ending import asks_for_help, printable, shortened
from physical_units import PhysicalUnits
from plan_texts import Plan, read_plan
from program import Input
from toml_lines import Lines, Tree
from usage import WORDS

FILES = ("CHIP", "APP", "PLAN", "CERT", "WORDS", "RECEIVERS", "SWITCHES", "LOG")


def kinds_of(command: str) -> list[str]:
    """The words of a command, as `aeth` names them: `chip`, `use` and so on."""
    return [word.strip("[]").lower() for word in WORDS[command].split(" ")]


class Given:
    """A command with its words, by their kinds."""

    def __init__(self, words: Sequence[str], units: PhysicalUnits | None = None) -> None:
        self.words, self.units = list(words), units
        self.by_kind: dict[str, str] = {}
        self.files: dict[str, Input] = {}
        self.seconds = 0.0  # which `aeth` took to answer
        if words and words[0] in WORDS:
            kinds = kinds_of(words[0])
            needed = sum(not word.startswith("[") for word in WORDS[words[0]].split(" "))
            self.by_kind = dict(zip(kinds, words[1:]))
            if needed <= len(words) - 1 <= len(kinds):
                self.files = {kind: Input(word) for kind, word in self.by_kind.items() if kind.upper() in FILES}

    @property
    def is_of_program(self) -> bool:
        """Whether the program answers the words, and not the script `aeth`, as it does where a page is asked for."""
        return self.words[:1] != [] and self.words[0] in WORDS and not asks_for_help(self.words)

    @property
    def for_program(self) -> list[str | Input]:
        """The words as `aeth` is given them: copies of the files."""
        words: list[str | Input] = list(self.words)
        for place, kind in enumerate(self.by_kind, 1):
            words[place] = self.files.get(kind, self.words[place])
        return words

    def name(self, kind: str) -> str:
        """The path of a file, as it can be shown."""
        return shortened(printable(self.by_kind.get(kind, kind)), 300)

    def tree(self, kind: str) -> tuple[Tree, Lines]:
        """The tree of a chip's or an application's file, and the lines of its keys."""
        return read_once(self.files[kind].data)

    @cached_property
    def chip(self) -> Chip:
        return chip_of(self.tree("chip")[0])

    @cached_property
    def app(self) -> Application:
        return application_of(self.tree("app")[0])

    @cached_property
    def plan(self) -> Plan:
        return read_plan(self.files["plan"].data)
