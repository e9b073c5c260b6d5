"""A second reading of the rules on the parts of an item (RULES 15).

A refusal is a value here, since the parts before it stay. Each call answers (parts, None or the refusal, reads). The
listing's parts are read in listing.py by themselves, and share nothing with these.
"""
from typing import NamedTuple

from .answers import Refusal
from .entries import BY_INSTANCE, entry, entry_name
from .items import Item, continues, fresh, key_of, next_in, opened, within
from .record import KNOWN, find, full_of, runs_of
from .table import found

# the listing's room for parts (RULES 18)
ROOM = 157


class Part(NamedTuple):
    """A part: the attribute's record, offset and own lowest VCN, its runs, its data size; and the entry's lowest
    VCN."""

    file: int
    offset: int
    lowest: int
    runs: int
    count: int
    size: int
    listed: int


def looked_up(record, number, rows, e, place):
    """The part that an entry leads to (RULES 15): (reads, the part or the refusal)."""
    try:
        other = found(record, number, rows, e.file, place)
    except Refusal as refusal:
        return 0, refusal
    # 18 of the search is told at the entry in the base record
    reads, a = find(other, e.file, e.ty, e.instance, number, place)
    if isinstance(a, Refusal):
        return reads, a
    # 19, then 7, then 12
    if a.resident:
        return reads, Refusal(19, e.file, a.offset)
    try:
        f = full_of(other, e.file, a)
        runs = runs_of(e.file, a, f)
    except Refusal as refusal:
        return reads, refusal
    # the VCN is the attribute's own lowest
    return reads, Part(e.file, a.offset, f.lowest, *runs, e.lowest)


def goes_on(e, name, key):
    """Whether an entry is one more of the parts, or None where it refuses by 6 (RULES 15). The key is that of the first
    entry, which is judged apart: it has none to go by."""
    # an unknown type is 6 at the first entry; behind it, it is no first entry's type, and ends the parts
    if key is None:
        return True if e.ty in KNOWN else None
    # by the older rule it is 6 there too where the instance agrees
    if BY_INSTANCE.get() and e.instance == key.instance and e.ty not in KNOWN:
        return None
    return continues(e, name, key)


def parts_in(record, number, rows, rest, room=ROOM):
    """One call, behind the opening checks."""
    parts, reads, key, at = [], 0, None, rest.start
    # an item that tells no list has none
    while rest.there:
        # 14, 15, 31, 16
        try:
            text = record[at:rest.end]
            e = entry(text, number, at)
        except Refusal as refusal:
            return parts, refusal, reads
        # where no entry is given the parts are whole
        if e is None:
            break
        # the entry that ends the parts counts too (RULES 17)
        reads += 1
        name = entry_name(text, e)
        more = goes_on(e, name, key)
        if more is None:
            return parts, Refusal(6, number, at), reads
        if not more:
            break
        key = key or key_of(e, name)
        # 20 comes before the lookup
        if len(parts) >= room:
            return parts, Refusal(20, number, at), reads
        read, part = looked_up(record, number, rows, e, at)
        reads += read
        if isinstance(part, Refusal):
            return parts, part, reads
        # in the order of the entries, from the front
        parts.append(part)
        at += e.length
    return parts, None, reads


def parts_of(record, number, table, rest, room=ROOM):
    """One call for any place that is lent."""
    # 21, 1, 2, 27, 22, in this order
    try:
        t = opened(record, number, table)
        within(rest, record, number)
    except Refusal as refusal:
        return [], refusal, 0
    return parts_in(record, number, t.rows, rest, room)


def walk(record, number, table, on):
    """The walk from fresh on, through `on` refusals: (item, None for the end, or the refusal; the state left; the
    call's reads; for an item what its parts call answers) of each call. At a refusal more, the walk stops."""
    state = fresh(record)
    try:
        t = opened(record, number, table)
    except Refusal as refusal:
        # every later call refuses too
        for _ in range(on + 1):
            yield refusal, state, 0, None
        return
    while True:
        answer, state, reads = next_in(record, number, t.rows, state)
        given = isinstance(answer, Item)
        yield answer, state, reads, parts_in(record, number, t.rows, answer.rest) if given else None
        if answer is None or not given and on == 0:
            return
        on -= not given
