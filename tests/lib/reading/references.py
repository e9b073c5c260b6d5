"""A second reading of the rules on the records that a record's lists refer to (RULES 24)."""
from typing import NamedTuple, Optional

from .answers import Refusal
from .entries import entry
from .record import LIST, first_place, opened_list, opening, raw_step

# as many as the largest record has room for entries
MOST = 4096 // 26


class References(NamedTuple):
    """The numbers that were told, and the refusal that stopped the walk over the lists, if one did."""

    numbers: list
    refusal: Optional[Refusal]


def entries_of(record, number, span):
    """The entries of a list that stands in these bytes of a record, in order, or 14, 15, 31 or 16."""
    at, end = span.start, span.start + span.count
    while True:
        given = entry(record[at:end], number, at)
        if given is None:
            return
        yield given
        at += given.length


def all_entries(record, number):
    """Those of each list, as the raw walk comes to them, whatever their types. Any refusal is the last: of the raw
    walk, of an attribute that opens no list, of an entry."""
    at = first_place(record)
    while True:
        a = raw_step(record, number, at)
        if a is None:
            return
        if a.ty == LIST:
            yield from entries_of(record, number, opened_list(record, number, a))
        at += a.length


def references(record, number):
    """The numbers in the entries, each once where it comes first, the record's own left out. 1, 2 and 27 are raised."""
    opening(record, number)
    told = []
    try:
        for given in all_entries(record, number):
            if given.file != number and given.file not in told:
                told.append(given.file)
    except Refusal as refusal:
        return References(told, refusal)
    return References(told, None)


def rising(numbers, own):
    """Numbers that were told and the record's own, in rising order."""
    return sorted([own, *numbers])
