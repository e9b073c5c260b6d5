"""A second reading of the rules on base records and on records that were reused (RULES 25)."""
from typing import NamedTuple

from .answers import Refusal
from .entries import entry
from .items import opened
from .record import LIST, first_place, number_at, opened_list, raw_step
from .references import references
from .table import found

# RULES 25.1: the bit of a record's flags that says that it is in use
IN_USE = 0x0001


class Reference(NamedTuple):
    """A reference to a base record: its number and its sequence number."""

    file: int
    sequence: int


# All eight bytes zero: a base record has none.
NONE = Reference(0, 0)


class Sequence(NamedTuple):
    """An entry's sequence number is not its record's."""

    place: int
    file: int
    named: int
    has: int


class NotInUse(NamedTuple):
    file: int


class OtherBase(NamedTuple):
    """A record's reference to a base record is not as it should be."""

    file: int
    base: int
    sequence: int


class Told(NamedTuple):
    """Whether the base record is one that is in use, its reference, and the hazards of its file."""

    in_use: bool
    base: Reference
    hazards: list


def base_reference(record):
    return Reference(number_at(record, 32, 6), number_at(record, 38, 2))


def sequence_of(record):
    return number_at(record, 16, 2)


def is_in_use(record):
    return number_at(record, 22, 2) & IN_USE != 0


def placed_entries(record, number):
    """Each entry of each list with its place, up to a refusal (RULES 24.1)."""
    at = first_place(record)
    try:
        while True:
            a = raw_step(record, number, at)
            if a is None:
                return
            if a.ty == LIST:
                span = opened_list(record, number, a)
                place, end = span.start, span.start + span.count
                while (given := entry(record[place:end], number, place)) is not None:
                    yield place, given
                    place += given.length
            at += a.length
    except Refusal:
        return


def of_record(file, record, is_due):
    """What a record shows itself; `is_due` says whether its reference is as it should be."""
    if not is_in_use(record):
        yield NotInUse(file)
    if not is_due:
        yield OtherBase(file, *base_reference(record))


def of_entry(record, number, rows, place, given):
    """The two bytes at 22 of an entry against the record's own number; 0 fits every record."""
    named = number_at(record, place + 22, 2)
    try:
        has = sequence_of(found(record, number, rows, given.file, place))
    except Refusal:
        return
    if named not in (0, has):
        yield Sequence(place, given.file, named, has)


def refers_back(record, number, base):
    """Whether a reference means this base record."""
    return base.file == number and base != NONE and base.sequence in (0, sequence_of(record))


def of_number(record, number, rows, file):
    """The record with a number that the lists refer to, as far as it can be looked up."""
    try:
        other = found(record, number, rows, file, 0)
    except Refusal:
        return
    yield from of_record(file, other, refers_back(record, number, base_reference(other)))


def hazards(record, number, table):
    """Those of the base record, of the entries and of the records referred to. 21, 1, 2 and 27 are raised."""
    rows, base = opened(record, number, table).rows, base_reference(record)
    told = list(of_record(number, record, base == NONE))
    for place, given in placed_entries(record, number):
        told += of_entry(record, number, rows, place, given)
    for file in references(record, number).numbers:
        told += of_number(record, number, rows, file)
    return Told(is_in_use(record) and base == NONE, base, told)
