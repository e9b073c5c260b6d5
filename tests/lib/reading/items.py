"""A second reading of the rules on the item walk and the first of a type (RULES 13, 14 and 16).

A refusal is a value here, since a walk goes on behind it. Each call answers (answer, state left, reads).
"""
from typing import NamedTuple

from .answers import Attribute, Refusal
from .entries import BY_INSTANCE, MOST_NAME, entry, entry_name
from .record import KNOWN, LIST, find, first_place, opened_list, opening, raw_step
from .table import check_table, found
from .table import rows as rows_of


class Rest(NamedTuple):
    """The rest of a list: whether there is one, where its next entry stands, and where it ends."""

    there: bool
    start: int
    end: int


class Key(NamedTuple):
    """What is being skipped: whether there is a key; a type, and a name of so many units with what stands behind it,
    510 bytes in all. The instance is of the older rule alone, which has no name."""

    there: bool
    ty: int
    units: int
    name: bytes
    instance: int = 0


class State(NamedTuple):
    raw: int
    rest: Rest
    key: Key


class Item(NamedTuple):
    file: int
    attribute: Attribute
    rest: Rest


class Table(NamedTuple):
    size: int
    base: int
    rows: dict


NO_LIST = Rest(False, 0, 0)
NO_KEY = Key(False, 0, 0, bytes(MOST_NAME))


def table_of(table):
    """The record size, base row and records of a well-formed table; else 21 is raised."""
    t = check_table(table)
    return Table(t.size, t.base, dict(rows_of(table)))


def base_of(table):
    """(number, record) of the base row of a table that is well formed and has one, else None."""
    try:
        t = table_of(table)
    except Refusal:
        return None
    numbers = list(t.rows)
    return (numbers[t.base], t.rows[numbers[t.base]]) if t.base < len(numbers) else None


# What joins entries.

def key_of(e, name):
    """The key that an entry leaves: its type and its name, zero behind that."""
    if BY_INSTANCE.get():
        return NO_KEY._replace(there=True, ty=e.ty, instance=e.instance)
    return Key(True, e.ty, e.units, name)


def continues(e, name, key):
    """Whether an entry continues the stream of a key: of its type and its name, and its own lowest VCN is not 0 (RULES
    14)."""
    if BY_INSTANCE.get():
        return (e.ty, e.instance) == (key.ty, key.instance)
    # the bytes of a key past its own name are not compared, and there may be fewer of them than its units say
    told = 2 * e.units
    return (e.ty, e.units, name[:told]) == (key.ty, key.units, key.name[:told]) and e.lowest != 0


# Items.

def fresh(record):
    return State(first_place(record), NO_LIST, NO_KEY)


def opened(record, number, table):
    """21, 1, 2 and 27; the table that they let pass (RULES 13)."""
    t = table_of(table)
    opening(record, number, t.size)
    return t


def in_list(record, number, rows, state):
    """An entry of the open list: (answer, state left, reads), the answer False where the walk goes on from that state
    (RULES 14)."""
    raw, here, key = state
    try:
        text = record[here.start:here.end]
        e = entry(text, number, here.start)
    except Refusal as refusal:
        # 14, 15, 31, 16: the state stays at that entry
        return refusal, state, 0
    if e is None:
        # a list that ends is closed
        return False, State(raw, NO_LIST, key), 0
    # RULES 17: every entry that is given counts one, whatever comes of it
    rest = Rest(True, here.start + e.length, here.end)
    # an unknown type comes first: past the entry, key kept
    if e.ty not in KNOWN:
        return Refusal(6, number, here.start), State(raw, rest, key), 1
    # then the two that pass over
    name = entry_name(text, e)
    if e.file == number or key.there and continues(e, name, key):
        return False, State(raw, rest, key), 1
    # from here on every refusal leaves the state past the entry, without a key
    past = State(raw, rest, NO_KEY)
    try:
        other = found(record, number, rows, e.file, here.start)
    except Refusal as refusal:
        return refusal, past, 1
    reads, a = find(other, e.file, e.ty, e.instance, number, here.start)
    if isinstance(a, Refusal):
        return a, past, 1 + reads
    # a non-resident one leaves its entry's key, and tells its list from its entry on
    if a.resident:
        return Item(e.file, a, NO_LIST), past, 1 + reads
    return Item(e.file, a, here), State(raw, rest, key_of(e, name)), 1 + reads


def in_record(record, number, state):
    """A step of the raw walk, where no list is open; the same answers (RULES 14)."""
    raw, _, key = state
    try:
        a = raw_step(record, number, raw)
    except Refusal as refusal:
        # 3, 4, 5, 28: the raw place stays
        return refusal, state, 0
    if a is None:
        return None, state, 0
    past = State(raw + a.length, NO_LIST, key)
    # 0x20 opens its list; any other is an item, unknown types too
    if a.ty != LIST:
        return Item(number, a, NO_LIST), past, 1
    try:
        span = opened_list(record, number, a)
    except Refusal as refusal:
        # 7, 10, 11, 13: past the attribute, no list
        return refusal, past, 1
    return False, State(past.raw, Rest(True, span.start, span.start + span.count), key), 1


def next_in(record, number, rows, state):
    """One call, behind the opening checks: an open list comes before the raw walk (RULES 14)."""
    reads = 0
    if not state.rest.there:
        state = state._replace(rest=NO_LIST)
    while True:
        if state.rest.there:
            answer, state, more = in_list(record, number, rows, state)
        else:
            answer, state, more = in_record(record, number, state)
        reads += more
        if answer is not False:
            return answer, state, reads


def within(rest, record, number):
    """22, the last of the opening checks of a call that is handed the rest of a list (RULES 13)."""
    if rest.there and not rest.start <= rest.end <= len(record):
        raise Refusal(22, number, 0)


def next_item(record, number, table, state):
    """One call from any state."""
    # a state that is not let in stays as given, and nothing is read
    try:
        t = opened(record, number, table)
        within(state.rest, record, number)
    except Refusal as refusal:
        return refusal, state, 0
    return next_in(record, number, t.rows, state)


def settled(answer, given, left):
    """Whether each later call answers as this one: at the end, and at a refusal that leaves the state as it was."""
    return answer is None or isinstance(answer, Refusal) and given == left


def walk(record, number, table, turns):
    """The calls from fresh on, through refusals: (answer, state left, reads) of each, at most so many."""
    try:
        t = opened(record, number, table)
    except Refusal as refusal:
        # every later call refuses too
        if turns > 0:
            yield refusal, fresh(record), 0
        return
    state = fresh(record)
    for _ in range(turns):
        answer, left, reads = next_in(record, number, t.rows, state)
        yield answer, left, reads
        if settled(answer, state, left):
            return
        state = left


def first_of(record, number, table, ty):
    """(answer, reads) (RULES 16)."""
    try:
        t = opened(record, number, table)
    except Refusal as refusal:
        return refusal, 0
    state, reads = fresh(record), 0
    while True:
        answer, state, more = next_in(record, number, t.rows, state)
        reads += more
        if isinstance(answer, Refusal):
            return answer, reads
        # the end is 18, at 0 in the base record
        if answer is None:
            return Refusal(18, number, 0), reads
        # an item of unknown type is 6, whatever was asked for
        if answer.attribute.ty not in KNOWN:
            return Refusal(6, answer.file, answer.attribute.offset), reads
        if answer.attribute.ty == ty:
            return answer, reads
