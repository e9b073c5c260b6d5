"""A second reading of the rules on file names (RULES 26)."""
from typing import NamedTuple, Optional

from .answers import Refusal, Span
from .items import fresh, next_in, opened
from .record import value
from .table import found

# the type of an attribute whose value is a file name
FILE_NAME = 0x30

# RULES 26.1: the namespaces that mean something, and which of them have long names
NAMESPACES = ("posix", "win32", "dos", "both")
LONG = ("posix", "win32", "both")

# where a value has its name's length, its namespace and its name
LENGTH, NAMESPACE, NAME = 64, 65, 66


class Name(NamedTuple):
    """A name in a value: its namespace by its word, or its number where it means nothing, and the bytes of its
    units."""

    namespace: object
    text: bytes

    def is_long(self):
        return self.namespace in LONG


class Names(NamedTuple):
    """The names of a file, and the refusal that ended its walk, if one did."""

    names: list
    refusal: Optional[Refusal]


def name_in(text):
    """The name in a value, None where the value ends before it does."""
    if len(text) < NAME:
        return None
    end = NAME + 2 * text[LENGTH]
    if len(text) < end:
        return None
    number = text[NAMESPACE]
    return Name(NAMESPACES[number] if number < len(NAMESPACES) else number, bytes(text[NAME:end]))


def name_of_item(record, number, rows, item):
    """The long name of an item, None where it has none: a refusal is none either."""
    if item.attribute.ty != FILE_NAME:
        return None
    try:
        other = found(record, number, rows, item.file, 0)
        span = value(other, item.file, item.attribute.offset)
    except Refusal:
        return None
    if not isinstance(span, Span):
        return None
    name = name_in(other[span.start:span.start + span.count])
    return name.text if name is not None and name.is_long() else None


def names_of(record, number, table):
    """The long names, up to the end of the walk or its first refusal. 21, 1, 2 and 27 are raised."""
    rows, state, names = opened(record, number, table).rows, fresh(record), []
    while True:
        answer, state, _ = next_in(record, number, rows, state)
        if answer is None or isinstance(answer, Refusal):
            return Names(names, answer)
        name = name_of_item(record, number, rows, answer)
        if name is not None:
            names.append(name)


def find(told, wanted):
    """yes, no, or the refusal behind which the name may stand."""
    if wanted in told.names:
        return "yes"
    return "no" if told.refusal is None else told.refusal
