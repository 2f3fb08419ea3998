"""Owns cycles of a run as places from left to right."""
from collections.abc import Iterable
from typing import NamedTuple

WIDEST = 1080
WIDEST_CYCLE = 16
TICK = 60  # the least distance of two numbers on the axis


class Timescale:
    """A scale of so many cycles from `left` on."""

    def __init__(self, cycles: int, left: float) -> None:
        self.cycles, self.left = cycles, left
        self.width = max(320, cycles * min(WIDEST_CYCLE, WIDEST / cycles))
        self.unit = self.width / cycles
        self.right = left + self.width

    def at(self, cycle: float) -> float:
        return round(self.left + min(cycle, self.cycles) * self.unit, 1)

    def ticks(self) -> range:
        """Round numbers of cycles, far enough from each other."""
        step = next(
            step * 10**power for power in range(8) for step in (1, 2, 5) if step * 10**power * self.unit >= TICK
        )
        return range(0, self.cycles + 1, step)

    def part_of(self, cycle: int, size: int) -> int:
        """The part of the run in which a cycle lies, of parts that are so wide."""
        return int(cycle * self.unit / size)


class Span(NamedTuple):
    """Cycles from a first one on and up to a last one."""

    begin: int
    end: int


class Bar(NamedTuple):
    """The left edge and the width of what is drawn of a span."""

    left: float
    width: float


def busy_parts(spans: Iterable[Span], scale: Timescale) -> list[Bar]:
    """What is drawn of spans, in order, joined where they would touch."""
    bars: list[Bar] = []
    for span in spans:
        left, right = scale.at(span.begin), max(scale.at(span.end), scale.at(span.begin) + 0.5)
        last = bars[-1] if bars else None
        if last and left - (last.left + last.width) < 1:
            bars[-1] = Bar(last.left, round(max(right, last.left + last.width) - last.left, 1))
        else:
            bars.append(Bar(left, round(right - left, 1)))
    return bars
