"""A second reading of the rules on two tables that are made one (RULES 27)."""
from typing import NamedTuple

from .answers import Refusal
from .extracts import HEADER, MOST_ROWS, ROW, table_of
from .table import check_table, rows

# whose fault a refusal is
FIRST, SECOND, BOTH = "first", "second", "both"


class Unmerged(Refusal):
    """A refusal of two tables, always in record 0: whose fault it is, and of 33 the number whose records differ."""

    def __init__(self, number, place, whose=BOTH, clash=None):
        super().__init__(number, 0, place)
        self.whose, self.clash = whose, clash


class Merged(NamedTuple):
    """How many bytes a table takes, and how many rows it has."""

    length: int
    written: int


def checked(table, whose):
    """The numbers of a table, or 21 in its own bytes."""
    try:
        return check_table(table)
    except Refusal as refusal:
        raise Unmerged(refusal.number, refusal.place, whose) from None


def pair(first, second):
    """The numbers of both, or what refuses them whatever their rows hold: 21 of the first, of the second, then 32."""
    both = checked(first, FIRST), checked(second, SECOND)
    if both[0].size != both[1].size:
        raise Unmerged(32, 0)
    return both


def room(first, second):
    """How long a buffer is that is never too short (RULES 27.5)."""
    ours, theirs = pair(first, second)
    return HEADER.size + (ROW.size + ours.size) * min(ours.count + theirs.count, MOST_ROWS)


def differing(first, second):
    """Where the row stands in the second table, by each number that both have with different bytes."""
    ours, directory = dict(rows(first)), check_table(second).directory
    return {
        number: directory + ROW.size * k for k, (number, record) in enumerate(rows(second))
        if ours.get(number, record) != record
    }


def merged_rows(first, second):
    """The rows of both, (number, record), in the order of their numbers; one that both have is there once."""
    return sorted({**dict(rows(second)), **dict(rows(first))}.items())


def merge(first, second, length):
    """(the table, what is reported) for a buffer of this length; or the refusal is raised."""
    size = pair(first, second)[0].size
    clashes = differing(first, second)
    if clashes:
        lowest = min(clashes)
        raise Unmerged(33, clashes[lowest], clash=lowest)
    held = merged_rows(first, second)
    if len(held) > MOST_ROWS:
        raise Unmerged(34, 0)
    table = table_of(held, size)
    if len(table) > length:
        raise Unmerged(35, 0)
    return table, Merged(len(table), len(held))
