"""Owns the columns of a report's table of channels for other programs."""
from collections.abc import Callable
from fractions import Fraction

from physical_units import PhysicalUnits
from plan_texts import Grant
from report_data import Line
from table_columns import Column, Facts, Table, Value, short

RATE = "words in 1000 cycles"


def channels_table(facts: Facts) -> Table[Line]:
    """The channels of each group of use cases: what they wish, what they are guaranteed, and what a run showed."""
    columns = wished_columns() + guaranteed_columns(facts) + observed_columns(facts)
    return Table(columns + (physical_columns(facts.units) if facts.units else []), facts.lines)


def wished_columns() -> list[Column[Line]]:
    return [
        Column("connection", "", lambda line: line.key.connection),
        Column("side", "", lambda line: line.key.side),
        Column("group", "", lambda line: line.key.group),
        Column("use_cases", "", lambda line: line.uses),
        Column("sender", "", lambda line: line.sender),
        Column("receiver", "", lambda line: line.receiver),
        Column("wished_words", "words", lambda line: line.wish.words),
        Column("wished_per", "cycles", lambda line: line.wish.per),
        Column("wished_rate", RATE, lambda line: short(line.wished_rate)),
        Column("wished_latency", "cycles", lambda line: line.wish.latency),
        Column("wished_delay", "cycles", lambda line: line.wish.delay),
    ]


def guaranteed_columns(facts: Facts) -> list[Column[Line]]:
    """What the plan gives, or which side is refused in which turn."""
    grants = {(grant.connection, grant.side, grant.group): grant for grant in facts.plan.grants} if facts.plan else {}

    def of_grant(value: Callable[[Grant], Value]) -> Callable[[Line], Value]:
        def of_line(line: Line) -> Value:
            grant = grants.get((line.key.connection, line.key.side, line.key.group))
            return value(grant) if grant else None
        return of_line

    return [
        Column("guaranteed_words", "words", lambda line: line.rate),
        Column("guaranteed_per", "cycles", lambda line: None if line.rate is None else line.slots),
        Column("guaranteed_rate", RATE, lambda line: short(line.granted_rate)),
        Column("guaranteed_latency", "cycles", lambda line: line.latency),
        Column("buffer", "words", lambda line: line.buffer),
        Column("path", "links", of_grant(lambda grant: list(grant.links))),
        Column("starts", "slots", of_grant(lambda grant: list(grant.starts))),
        Column("refused_side", "", lambda line: line.refused.side if line.refused else None),
        Column("refused_turn", "", lambda line: line.refused.turn if line.refused else None),
    ]


def observed_columns(facts: Facts) -> list[Column[Line]]:
    """What a run showed; nothing without one. Words outside of all sessions stand in the first row of their channel."""
    run = facts.run
    outside = {(channel.connection, channel.side): channel.outside for channel in run.channels} if run else {}
    first: dict[tuple[str, str], Line] = {}
    for line in facts.lines:
        first.setdefault((line.key.connection, line.key.side), line)

    def outside_of(line: Line) -> int:
        channel = line.key.connection, line.key.side
        return outside.get(channel, 0) if first[channel] is line else 0

    def words(name: str, value: Callable[[Line], int]) -> Column[Line]:
        return Column(name, "words", lambda line: value(line) if run else None)

    return [
        words("offered", lambda line: line.offered),
        words("landed", lambda line: line.landed),
        words("late", lambda line: line.late),
        words("overdue", lambda line: line.overdue),
        words("against_promise", lambda line: line.failed),
        words("dropped", lambda line: line.dropped),
        words("outside", outside_of),
        Column("median_wait", "cycles", lambda line: short(line.middle)),
        Column("worst_wait", "cycles", lambda line: line.worst),
        Column("nearest", "% of the time up to the due cycle", lambda line: percent(line.nearest)),
        Column("promise_ended", "cycle", lambda line: line.broken),
    ]


def percent(share: float | None) -> int | float | None:
    return None if share is None else short(100 * share)


def physical_columns(units: PhysicalUnits) -> list[Column[Line]]:
    """Rates and times in physical units: what is wished and guaranteed is rounded to its safe side."""
    def time(cycles: float | None, up: bool = True) -> float | None:
        return None if cycles is None else float(units.nanoseconds(Fraction(cycles), up))

    def guaranteed(line: Line) -> float | None:
        return None if line.rate is None else float(units.megabytes(line.rate, line.slots))

    return [
        Column("wished_bandwidth", "MB/s", lambda line: float(units.megabytes(line.wish.words, line.wish.per, up=True))),
        Column("wished_latency_time", "ns", lambda line: time(line.wish.latency, up=False)),
        Column("guaranteed_bandwidth", "MB/s", guaranteed),
        Column("guaranteed_latency_time", "ns", lambda line: time(line.latency)),
        Column("median_wait_time", "ns", lambda line: time(line.middle)),
        Column("worst_wait_time", "ns", lambda line: time(line.worst)),
    ]
