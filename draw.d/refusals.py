"""Owns the refusals of an allocation: the certificates that `aeth explain` prints, read as a stream, since they may be larger
than memory, and what of them a picture or a page tells.

A certificate has **cuts**: links from a sender on, on which the slots that were still free don't suit the channel. Each
path that it could take begins with one of them. The last link of a cut is the one at which it is too much.
"""
from collections.abc import Iterable
from dataclasses import dataclass, field

from plan_texts import RefusedUnit

MOST_TOLD = 12  # cuts of a link that are told


@dataclass
class Ended:
    """The cuts that end at a link: how many they are, the first of them, and all links on their ways."""

    cuts: int = 0
    first: list[tuple[int, ...]] = field(default_factory=list)
    ways: set[str] = field(default_factory=set)  # links, as they stand in the text

    @property
    def links(self) -> list[int]:
        return sorted(map(int, self.ways))


@dataclass
class Trial:
    """A refused unit with the cuts of its channel, by the link at which they end."""

    unit: RefusedUnit
    number: int  # of the refusal, from 1 on
    cuts: int = 0
    ended: dict[int, Ended] = field(default_factory=dict)
    starts: set[str] = field(default_factory=set)  # the first links of all cuts, as they stand in the text

    def add(self, text: str) -> None:
        """A cut, as a list of links with commas."""
        self.cuts += 1
        links = text.split(",")
        self.starts.add(links[0])
        last = int(links[-1])
        ended = self.ended.get(last)
        if ended is None:
            ended = self.ended[last] = Ended()
        ended.cuts += 1
        ended.ways.update(links)
        if len(ended.first) < MOST_TOLD:
            ended.first.append(tuple(map(int, links)))

    @property
    def by_cuts(self) -> list[int]:
        """The links at which cuts end: those with most cuts first."""
        return sorted(self.ended, key=lambda link: (-self.ended[link].cuts, link))


@dataclass
class Certificates:
    """All refused units, in the order of their turns, and the cuts of those that were asked for."""

    units: list[RefusedUnit] = field(default_factory=list)
    trials: list[Trial] = field(default_factory=list)


def read_trials(lines: Iterable[str], wanted: range) -> Certificates:
    """The refusals of a text of certificates, with the cuts of those whose numbers, from 1 on, are wanted."""
    found = Certificates()
    trial: Trial | None = None
    for line in lines:
        if line.startswith("cut "):
            if trial is not None:
                trial.add(line[4:].rstrip("\n"))
        elif line.startswith("try "):
            connection, group, side, turn = line.split()[1:]
            found.units.append(RefusedUnit(connection, int(group), side, int(turn)))
            number = len(found.units)
            trial = Trial(found.units[-1], number) if number in wanted else None
            if trial is not None:
                found.trials.append(trial)
    return found
