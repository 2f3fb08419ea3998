"""Tables of text: columns under their heads, as wide as what stands in them."""
from collections.abc import Sequence
from typing import NamedTuple


class Column(NamedTuple):
    """A column: its head, and whether what stands in it ends at one edge, as numbers do."""

    head: str
    is_number: bool = False


def table(columns: Sequence[Column], rows: Sequence[Sequence[str]], indent: int = 2) -> str:
    """The lines of a table. A column in which nothing stands is left out."""
    shown = [place for place in range(len(columns)) if any(row[place] for row in rows)]
    widths = {place: max(len(columns[place].head), *(len(row[place]) for row in rows)) for place in shown}

    def line(cells: Sequence[str]) -> str:
        parts = [cells[at].rjust(widths[at]) if columns[at].is_number else cells[at].ljust(widths[at]) for at in shown]
        return (" " * indent + "  ".join(parts)).rstrip() + "\n"

    return "".join(line(cells) for cells in [[column.head for column in columns], *rows])


def count(many: int, thing: str) -> str:
    """A number of things, in words."""
    return f"{many:,} {thing}" if many == 1 else f"{many:,} {thing}s"
