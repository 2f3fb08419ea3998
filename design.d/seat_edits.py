"""Changes of the interfaces to which an application's file fixes its cores, in the text of the file itself: all else of it,
comments and order and spelling, stays as it is.
"""
from bisect import bisect_left
from collections.abc import Iterable, Mapping
from typing import NamedTuple
import re

from design_files import read_once
from toml_lines import BLANK, GAP, Place, Reader

BLANKS = " \t"


class Span(NamedTuple):
    """Where a key begins, where its value begins, and where that ends."""

    key: int
    value: int
    end: int


class Edit(NamedTuple):
    """A part of a text, and what is to stand there."""

    start: int
    end: int
    text: str


class SeatText:
    """The text of an application's file, with the places of its cores."""

    def __init__(self, data: bytes) -> None:
        text = data.decode("utf-8")
        self.mark = "\ufeff" if text.startswith("\ufeff") else ""
        self.whole = text.removeprefix("\ufeff")
        self.reader = Reader(self.whole)
        self.text = self.reader.text  # without the carriage returns of line ends
        self.returns = [found.start() - number for number, found in enumerate(re.finditer("\r\n", self.whole))]
        self.cores: Mapping[str | int, Place] = read_once(data)[1].top.inside["core"].inside

    def span(self, place: Place) -> Span:
        """Where a key with a string stands."""
        self.reader.at = place.at
        self.reader.dotted()
        self.reader.expect("=")
        self.reader.skip(BLANK)
        value = self.reader.at
        self.reader.string()
        return Span(place.at, value, self.reader.at)

    def behind_gap(self, at: int) -> int:
        """The place behind blanks, line ends and comments."""
        found = GAP.match(self.text, at)
        return found.end() if found else at

    def line_end(self, at: int) -> int:
        end = self.text.find("\n", at)
        return len(self.text) if end < 0 else end

    def is_blank(self, start: int, end: int) -> bool:
        return not self.text[start:end].strip(BLANKS)

    def edits(self, number: int, interface: str | None) -> list[Edit]:
        """What fixes a core to an interface, or leaves it open."""
        place = self.cores[number]
        name, fixed = self.span(place.inside["name"]), place.inside.get("ni")
        is_inline = self.text[place.at] == "{"
        if fixed is not None:
            span = self.span(fixed)
            if interface is not None:
                return [Edit(span.value, span.end, f'"{interface}"')]
            return self.taken_from_braces(name, span) if is_inline else [self.taken_from_lines(span)]
        if interface is None:
            return []
        if is_inline:
            return [Edit(name.end, name.end, f', ni = "{interface}"')]
        indent = self.text[self.text.rfind("\n", 0, name.key) + 1 : name.key]
        end = self.line_end(name.end)
        line_feed = "\r\n" if end in self.returns[(at := bisect_left(self.returns, end)) : at + 1] else "\n"
        return [Edit(end, end, f'{line_feed}{indent}ni = "{interface}"')]

    def taken_from_lines(self, span: Span) -> Edit:
        """Takes a key on a line of its own away, with the line where it has no comment."""
        start, end = self.text.rfind("\n", 0, span.key) + 1, self.line_end(span.end)
        if self.is_blank(span.end, end):
            return Edit(start, min(end + 1, len(self.text)), "")
        return Edit(span.key, end - len(self.text[span.end : end].lstrip(BLANKS)), "")

    def taken_from_braces(self, name: Span, span: Span) -> list[Edit]:
        """Takes a key within braces away, and the comma behind it, or before it where it is the last."""
        behind = self.behind_gap(span.end)
        if self.text[behind] == ",":
            if not self.is_blank(span.end, behind):
                return [Edit(span.key, span.end, ""), Edit(behind, behind + 1, "")]
            rest = self.text[behind + 1 :]
            return [Edit(span.key, len(self.text) - len(rest.lstrip(BLANKS)), "")]
        comma = self.behind_gap(name.end)
        if self.is_blank(comma + 1, span.key):
            return [Edit(comma, span.end, "")]
        return [Edit(comma, comma + 1, ""), Edit(span.key, span.end, "")]

    def changed(self, seats: Mapping[int, str | None]) -> str:
        """The whole text with these cores, by their numbers, fixed to interfaces or left open."""
        edits = [edit for number, interface in seats.items() for edit in self.edits(number, interface)]
        return self.mark + self.applied(edits)

    def applied(self, edits: Iterable[Edit]) -> str:
        text = self.whole
        for start, end, new in sorted(edits, reverse=True):
            start, end = (at + bisect_left(self.returns, at) for at in (start, end))
            text = text[:start] + new + text[end:]
        return text
