"""Rates, times, clocks and words in physical units: what their texts say, exactly, and which texts say words and cycles.

A clock tells the flit cycles of a second, and a word has some bytes. Numbers are fractions, so that nothing is lost on the way;
a text has few digits, and where these aren't exact it is rounded to the side on which what it says stays true.
"""
from collections.abc import Mapping, Sequence
from dataclasses import dataclass
from fractions import Fraction
from typing import NamedTuple
import re

from ending import NO_WORDS, Stop, printable, shortened

NUMBER = re.compile(r"([0-9]{1,15}(?:\.[0-9]{1,15})?) ?(\D*)")
RATES = {
    "B/s": Fraction(1), "kB/s": Fraction(10**3), "MB/s": Fraction(10**6), "GB/s": Fraction(10**9),
    "b/s": Fraction(1, 8), "kb/s": Fraction(10**3, 8), "Mb/s": Fraction(10**6, 8), "Gb/s": Fraction(10**9, 8),
}  # in bytes a second
TIMES = {
    "ps": Fraction(1, 10**12), "ns": Fraction(1, 10**9), "us": Fraction(1, 10**6), "\u00b5s": Fraction(1, 10**6),
    "\u03bcs": Fraction(1, 10**6), "ms": Fraction(1, 10**3), "s": Fraction(1),
}  # in seconds
CLOCKS = {"Hz": Fraction(1), "kHz": Fraction(10**3), "MHz": Fraction(10**6), "GHz": Fraction(10**9)}  # in cycles a second
WORDS = {"B": Fraction(1), "b": Fraction(1, 8)}  # in bytes
MEGABYTES, NANOSECONDS = RATES["MB/s"], TIMES["ns"]
PLAIN_WORD = "4B"  # a word of the hardware, and of a trace, has 32 bits
EXACT, ROUNDED = 6, 4  # digits of a number that is told as it is, and of one that is rounded


class UnitFault(ValueError):
    """A text that is no number with a unit; it says why, with the units that there are."""


class Quantity(NamedTuple):
    """A number with its unit."""

    number: Fraction
    unit: str


def quantity_of(text: str, kind: str, units: Mapping[str, Fraction], unit: str = "") -> Quantity:
    """The number and the unit of a text of some kind; a unit for a text that has none may be given."""
    shown = f"`{printable(shortened(text, 40))}`"
    told = ", ".join(unit for unit in units if unit.isascii())
    found = NUMBER.fullmatch(text.strip())
    if not found:
        raise UnitFault(f"{shown} is no {kind}: it must be a number, as 240 or 0.5, and one of the units {told}")
    named = found[2] or unit
    if not named:
        raise UnitFault(f"{shown} has no unit: those of a {kind} are {told}")
    if named not in units:
        raise UnitFault(f"{shown} has a unit that is none of a {kind}: these are {told}")
    return Quantity(Fraction(found[1]), named)


def value_of(text: str, kind: str, units: Mapping[str, Fraction], unit: str = "") -> Fraction:
    found = quantity_of(text, kind, units, unit)
    return found.number * units[found.unit]


def rate_of(text: str) -> Fraction:
    """The bytes a second of a text, as `240 MB/s`."""
    return value_of(text, "rate", RATES)


def time_of(text: str) -> Fraction:
    """The seconds of a text, as `120 ns`."""
    return value_of(text, "time", TIMES)


def decimal(value: Fraction, up: bool = False) -> str:
    """A number from 0 on as a decimal: exact where that takes few digits, else rounded down, or up."""
    if value == 0:
        return "0"
    # The digits before the point; of a number below 1 none, less by one for each 0 behind the point.
    size = len(str(int(value))) if value >= 1 else 1 - len(str(-(-1 // value) - 1))
    for digits in (EXACT, ROUNDED):
        scale = Fraction(10) ** max(0, digits - size)
        if (value * scale).denominator == 1 or digits == ROUNDED:
            break
    whole = -(-value * scale // 1) if up else value * scale // 1
    number = Fraction(whole) / scale
    places = len(str(scale.numerator)) - 1
    text = f"{int(number)}.{int(number % 1 * scale):0{places}d}" if places else f"{int(number)}"
    return text.rstrip("0").rstrip(".") if places else text


def scaled(value: Fraction, units: Mapping[str, Fraction], names: Sequence[str], plain: str, up: bool) -> str:
    """A value with the greatest of some units of which it has one at least, or the least of them; 0 has the plain one."""
    name = next((name for name in reversed(names) if value >= units[name]), names[0] if value else plain)
    return f"{decimal(value / units[name], up)} {name}"


def rate_text(rate: Fraction, up: bool = False) -> str:
    """Bytes a second as a text, rounded down, or up."""
    return scaled(rate, RATES, ("B/s", "kB/s", "MB/s", "GB/s"), "MB/s", up)


def time_text(time: Fraction, up: bool = True) -> str:
    """Seconds as a text, rounded up, or down."""
    return scaled(time, TIMES, ("ps", "ns", "us", "ms", "s"), "ns", up)


@dataclass(frozen=True)
class PhysicalUnits:
    """What a cycle and a word are: the flit cycles of a second, and the bytes of a word."""

    clock: Fraction
    word: Fraction

    def bytes_per_second(self, words: int | Fraction, per: int) -> Fraction:
        return Fraction(words) / per * self.word * self.clock

    def words_per_cycle(self, rate: Fraction) -> Fraction:
        """The words a cycle of bytes a second."""
        return rate / self.word / self.clock

    def seconds(self, cycles: int | Fraction) -> Fraction:
        return cycles / self.clock

    def cycles(self, time: Fraction) -> Fraction:
        """The cycles of seconds, which may be no whole number."""
        return time * self.clock

    def rate(self, words: int | Fraction, per: int, up: bool = False) -> str:
        """The text of a rate of words in each `per` cycles, as `240 MB/s`: rounded down, as a guarantee is, or up."""
        return rate_text(self.bytes_per_second(words, per), up)

    def megabytes(self, words: int | Fraction, per: int, up: bool = False) -> str:
        """The same rate in MB/s, without the unit, for a column of them."""
        return decimal(self.bytes_per_second(words, per) / MEGABYTES, up)

    def time(self, cycles: int | Fraction, up: bool = True) -> str:
        """The text of so many cycles, as `120 ns`: rounded up, as a guarantee is, or down."""
        return time_text(self.seconds(cycles), up)

    @property
    def told(self) -> str:
        """A sentence on both."""
        return f"A cycle is {self.time(1, up=False)}, and a word has {decimal(self.word)} byte{'' if self.word == 1 else 's'}."

    def nanoseconds(self, cycles: int | Fraction, up: bool = True) -> str:
        """The same time in ns, without the unit, for a column of them."""
        return decimal(self.seconds(cycles) / NANOSECONDS, up)


def in_time(cycles: int, units: PhysicalUnits | None) -> str:
    """A time in brackets behind cycles, where there are units."""
    return f" ({units.time(cycles)})" if units else ""


def in_rate(words: int, per: int, units: PhysicalUnits | None) -> str:
    """A rate in brackets behind words in each `per` cycles, where there are units."""
    return f" ({units.rate(words, per)})" if units else ""


def part_of(name: str, text: str, kind: str, units: Mapping[str, Fraction]) -> Fraction:
    """What the word behind `--clock` or `--word` says, which is more than 0."""
    try:
        value = value_of(text, kind, units)
    except UnitFault as fault:
        raise Stop(NO_WORDS, f"{name}: {fault}") from fault
    if not value:
        raise Stop(NO_WORDS, f"{name}: a {kind} is more than 0")
    return value


def units_of(clock: str | None, word: str | None) -> PhysicalUnits | None:
    """The units of the words behind `--clock` and `--word`, none where there is neither. A word has 4 bytes unless it is told."""
    if clock is None:
        if word is not None:
            raise Stop(NO_WORDS, "--word needs --clock beside it, as --clock 500MHz --word 4B")
        return None
    word = PLAIN_WORD if word is None else word
    return PhysicalUnits(part_of("--clock", clock, "clock", CLOCKS), part_of("--word", word, "word size", WORDS))


class Rest(NamedTuple):
    """The words of a command line without those on units, and what these say."""

    words: list[str]
    units: PhysicalUnits | None


def without_units(words: Sequence[str]) -> Rest:
    """Takes `--clock` and `--word`, each with the word behind it, out of the words of a command line."""
    found: dict[str, str] = {}
    rest: list[str] = []
    left = iter(words)
    for word in left:
        name, joined, value = word.partition("=")
        if name not in ("--clock", "--word"):
            rest.append(word)
            continue
        if name in found:
            raise Stop(NO_WORDS, f"{name} stands twice")
        found[name] = value if joined else next(left, "")
    return Rest(rest, units_of(found.get("--clock"), found.get("--word")))
