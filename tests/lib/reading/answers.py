"""What the second reading answers with: a type for each kind of answer, and the refusal."""
from typing import NamedTuple


class Refusal(Exception):
    """Its number, the record that its place lies in, and the place (RULES 2)."""

    def __init__(self, number, file, place):
        super().__init__(number, file, place)
        self.number, self.file, self.place = number, file, place


class Header(NamedTuple):
    sequence: int
    links: int
    first: int
    flags: int
    used: int
    allocated: int


class Attribute(NamedTuple):
    offset: int
    ty: int
    length: int
    resident: bool
    units: int
    name: int
    flags: int
    instance: int


class Resident(NamedTuple):
    length: int
    offset: int


class NonResident(NamedTuple):
    lowest: int
    highest: int
    runs: int
    allocated: int
    size: int
    initialized: int


class Span(NamedTuple):
    """Bytes of the record: where they start, and how many they are."""

    start: int
    count: int


class Runs(NamedTuple):
    """The run bytes of a non-resident attribute, and its data size."""

    start: int
    count: int
    size: int


class Entry(NamedTuple):
    """A list entry; `name` is its name's offset, `file` the record number of its reference."""

    ty: int
    length: int
    units: int
    name: int
    lowest: int
    file: int
    instance: int


class TableHeader(NamedTuple):
    """The five numbers of a well-formed table."""

    count: int
    size: int
    directory: int
    records: int
    base: int
