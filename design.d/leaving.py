"""A switch that leaves a use case for another, as a plan has it: which channels it closes, and when these are finished."""
from dataclasses import dataclass
from functools import cached_property

from design_files import Application, Chip, read_application, read_chip
from least_drain import Channel, Slots
from plan_texts import Grant, Plan, Queue, read_plan, read_queues
from program import Input, text_of
from run_texts import Switching
from text_table import count

OTHER = {"fwd": "back", "back": "fwd"}


@dataclass(frozen=True)
class Leaving:
    """A switch from a use case to another, by the files of a design."""

    chip: Chip
    app: Application
    plan: Plan
    tables: str  # of the use case that is left
    use: str
    other: str

    @cached_property
    def connections(self) -> list[str]:
        """Those that close, in file order."""
        left = Switching(self.chip, self.app, self.plan).left(self.use, self.other)
        return [name for name in self.app.connections if name in left]

    @cached_property
    def channels(self) -> list[Channel]:
        """Those that close."""
        queues = {(queue.connection, queue.side): queue for queue in read_queues(self.tables)}
        group = self.app.groups[self.use]
        grants = {(grant.connection, grant.side): grant for grant in self.plan.grants if grant.group == group}
        return [
            self.channel(queues[name, side], grants[name, side], grants[name, OTHER[side]])
            for name in self.connections for side in OTHER
        ]

    def channel(self, queue: Queue, grant: Grant, opposite: Grant) -> Channel:
        delay, size = self.chip.delay_of(grant.links), self.chip.slots
        return Channel(
            f"{queue.connection} {queue.side}", self.app.connections[queue.connection].wish(queue.side),
            Slots(grant.starts, size), Slots(opposite.starts, size), delay, self.chip.delay_of(opposite.links),
            queue.credits, queue.rate, queue.latency - delay,
        )

    @property
    def closes(self) -> str:
        """What it closes, in a sentence."""
        closed, paths = count(len(self.connections), "connection"), count(self.longest, "cycle")
        return f"{closed} {'closes' if len(self.connections) == 1 else 'close'}, with paths of up to {paths}."

    @cached_property
    def longest(self) -> int:
        """The longest path of a channel that closes, in cycles: the switch is finished so long behind its drain."""
        return max((channel.delay for channel in self.channels), default=0)

    def more(self, channel: Channel) -> int:
        """By how much its receiver may be later than the end of the longest path."""
        return max(0, channel.wish.delay - (self.longest - channel.delay))


def leaving(chip: Input, app: Input, plan: Input, use: str, other: str) -> Leaving:
    """A switch of files that `aeth` accepts, between use cases that the application has."""
    tables = text_of("tables", chip, app, plan, use)
    text_of("tables", chip, app, plan, other)
    return Leaving(read_chip(chip.data), read_application(app.data), read_plan(plan.data), tables, use, other)
