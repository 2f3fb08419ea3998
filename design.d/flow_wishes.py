"""Wishes of rates and latencies in words and cycles: each rounded to the safe side, with what was asked and what it gets.

A rate is rounded up, a latency down, and how late a receiver may take up. What no network can have is a fault of its row.
"""
from dataclasses import dataclass
from fractions import Fraction
from math import ceil, floor, lcm
from typing import NamedTuple

from design_files import Wish
from flow_rows import Asked, AskedWish, Flow, RowFault
from physical_units import RATES, PhysicalUnits, decimal

MOST_PER = 1_000_000
MOST_CYCLES = 4_096  # of a latency, and of a delay
LINK_RATE = 2  # words a cycle
LEAST_LATENCY = 2  # cycles: a path has two links at least, and a flit takes a cycle or more on each


class ToldWish(NamedTuple):
    """A wish, and what was asked and what it gets, in words."""

    wish: Wish
    told: str


class Rate(NamedTuple):
    """So many words in each `per` cycles."""

    words: int
    per: int


def at_least(rate: Fraction, most: int) -> Fraction:
    """The least fraction that is no less than a rate, with a denominator up to a number."""
    near = rate.limit_denominator(most)
    if near >= rate:
        return near
    if near.denominator == 1:
        return near + Fraction(1, most)
    # The next fraction behind p/q, with a denominator up to `most`, is s/t, where s*q - p*t is 1 and t is the greatest such.
    inverse = pow(near.numerator, -1, near.denominator)
    denominator = most - (most + inverse) % near.denominator
    return Fraction(1 + near.numerator * denominator, near.denominator * denominator)


def rate_of(asked: Asked | None, units: PhysicalUnits) -> Rate:
    """The rate that is asked, or the next one above it. Where that can be, it comes in as many cycles as make a word of its
    unit, as of a MB/s, or in a multiple of them."""
    if asked is None:
        return Rate(0, 1)
    exact, of_unit = units.words_per_cycle(asked.value), 1 / units.words_per_cycle(RATES[asked.unit])
    rate = at_least(exact, MOST_PER)
    per = lcm(rate.denominator, of_unit.numerator)
    if rate != exact or of_unit.denominator > 1 or per > MOST_PER:
        per = rate.denominator
    return Rate(int(rate * per), per)


@dataclass(frozen=True)
class Wishing:
    """The wish of a channel whose row asks for it in columns with some word in front."""

    line: int
    front: str
    asked: AskedWish
    units: PhysicalUnits

    def fault(self, column: str, asked: Asked, why: str) -> RowFault:
        return RowFault(self.line, f"{self.front}{column}: {asked.text} can't be had: {why}")

    def rate(self) -> Rate:
        asked, units = self.asked.rate, self.units
        if asked and units.words_per_cycle(asked.value) > LINK_RATE:
            raise self.fault("rate", asked, f"a link has {units.rate(LINK_RATE, 1)}, two words a cycle")
        return rate_of(asked, units)

    def latency(self) -> int:
        """The latency that is asked; the greatest there is where none is."""
        asked = self.asked.latency
        if asked is None:
            return MOST_CYCLES
        cycles = floor(self.units.cycles(asked.value))
        if cycles < LEAST_LATENCY:
            raise self.fault("latency", asked, f"the shortest path takes {LEAST_LATENCY} cycles, {self.units.time(LEAST_LATENCY)}")
        return min(cycles, MOST_CYCLES)

    def delay(self) -> int:
        asked = self.asked.delay
        cycles = ceil(self.units.cycles(asked.value)) if asked else 0
        if asked and cycles > MOST_CYCLES:
            most = f"{MOST_CYCLES:,} cycles, {self.units.time(MOST_CYCLES, up=False)}"
            raise self.fault("delay", asked, f"a receiver takes a word at most {most}, after it landed")
        return cycles

    def told(self, wish: Wish) -> str:
        """What was asked, and what a wish gets of it."""
        asked, gets = [], []
        if self.asked.rate:
            asked.append(self.asked.rate.text)
            gets.append(rate_told(wish, self.asked.rate, self.units))
        if self.asked.latency:
            asked.append(f"within {self.asked.latency.text}")
            gets.append(f"within {self.units.time(wish.latency)}")
        if self.asked.delay:
            asked.append(f"taken {self.asked.delay.text} later")
            gets.append(f"taken {self.units.time(wish.delay)} later")
        if not asked:
            return "asked nothing; carries credits"
        same = [spaceless(text) for text in asked] == [spaceless(text) for text in gets]
        return f"asked {', '.join(asked)}; gets {'the same' if same else ', '.join(gets)}"

    def wish(self) -> ToldWish:
        rate = self.rate()
        wish = Wish(rate.words, rate.per, self.latency(), self.delay())
        return ToldWish(wish, self.told(wish))


def rate_told(wish: Wish, asked: Asked, units: PhysicalUnits) -> str:
    """What a wish gets of a rate, in the unit in which it was asked."""
    shown = decimal(units.bytes_per_second(wish.words, wish.per) / RATES[asked.unit])
    return f"{shown} {asked.unit}" if Fraction(shown) * RATES[asked.unit] >= asked.value else f"just over {asked.text}"


def spaceless(text: str) -> str:
    return text.replace(" ", "")


class FlowWishes(NamedTuple):
    """A flow with the wishes of its two channels."""

    flow: Flow
    fwd: ToldWish
    back: ToldWish


def wishes_of(flow: Flow, units: PhysicalUnits) -> FlowWishes:
    """The wishes of a flow, or a fault where one can't be had."""
    fwd, back = Wishing(flow.line, "", flow.fwd, units), Wishing(flow.line, "back_", flow.back, units)
    return FlowWishes(flow, fwd.wish(), back.wish())
