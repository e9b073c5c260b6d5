"""A second reading of the rules on one record and its attributes (RULES 1 to 7 and 12)."""
from .answers import Attribute, Header, NonResident, Refusal, Resident, Runs, Span
from .older import older

MARKER = 0xFFFFFFFF

# RULES 1: steps of 0x10 from 0x10 to 0x100, and the end marker
KNOWN = frozenset(range(0x10, 0x101, 0x10)) | {MARKER}

# the type of an attribute that holds a list (RULES 8)
LIST = 0x20

# RULES 1: the bits of an attribute's flags that are kept, and those of a record's
ATTRIBUTE_FLAGS = 0x0001 | 0x4000 | 0x8000
RECORD_FLAGS = 0x0001 | 0x0002


# Without 27 and 28 this reads as it would have before they were rules.
WITHOUT_USED, without_used_sizes = older("used sizes are not consulted")


def number_at(record, at, width):
    """RULES 1: the lowest byte comes first."""
    assert 0 <= at and at + width <= len(record)
    return int.from_bytes(record[at:at + width], "little")


def used_size(record):
    """0 where the bytes end before that field (RULES 3)."""
    return number_at(record, 24, 4) if len(record) >= 28 else 0


def opened_file(record, number):
    """Checks 2 and 27, of the base record and of one that is looked up alike (RULES 3)."""
    # 2, the first four bytes; both at place 0 of the record tested
    if bytes(record[:4]) != b"FILE":
        raise Refusal(2, number, 0)
    # 27, the used size against the record's own length; the allocated size is not asked
    if not WITHOUT_USED.get() and used_size(record) > len(record):
        raise Refusal(27, number, 0)


def opening(record, number, size=None):
    """Checks 1, 2 and 27, which every public call on a record makes first. `size` is the lent table's record size."""
    # RULES 3: 1, the length; the table's record size is one more thing that it has to be
    length = len(record)
    if length < 64 or length > 4096 or length % 8 != 0:
        raise Refusal(1, number, 0)
    if size is not None and length != size:
        raise Refusal(1, number, 0)
    opened_file(record, number)


def header(record, number):
    """The record's own fields, behind checks 1, 2 and 27."""
    opening(record, number)
    # the layout of RULES 3
    return Header(
        sequence=number_at(record, 16, 2),
        links=number_at(record, 18, 2),
        first=number_at(record, 20, 2),
        flags=number_at(record, 22, 2) & RECORD_FLAGS,
        used=used_size(record),
        allocated=number_at(record, 28, 4),
    )


def first_place(record):
    """Where the raw walk starts: 0 where the bytes end before that field (RULES 5)."""
    return number_at(record, 20, 2) if len(record) >= 22 else 0


def checked(record, number, at):
    """Checks 3, 4, 5 and 28 of the attribute at an offset, and its first 16 bytes (RULES 4)."""
    left = len(record) - at
    # each at the attribute's place
    if left < 16:
        raise Refusal(3, number, at)
    length = number_at(record, at + 4, 4)
    if length < 16:
        raise Refusal(4, number, at)
    if length > left:
        raise Refusal(5, number, at)
    # what ends where the used size does is inside: the end marker may stand behind it
    if not WITHOUT_USED.get() and at + length > used_size(record):
        raise Refusal(28, number, at)
    return Attribute(
        offset=at,
        ty=number_at(record, at, 4),
        length=length,
        resident=record[at + 8] == 0,
        units=record[at + 9],
        name=number_at(record, at + 10, 2),
        flags=number_at(record, at + 12, 2) & ATTRIBUTE_FLAGS,
        instance=number_at(record, at + 14, 2),
    )


def raw_step(record, number, at):
    """One step of the raw walk, without the opening checks. None is the end."""
    # RULES 5: two ways to end, then 3, 4, 5 and 28. A place past the record has fewer than 4 bytes left, and one past
    # the used size is like any other: the record's length decides how many are left
    if len(record) - at < 4:
        return None
    if number_at(record, at, 4) == MARKER:
        return None
    return checked(record, number, at)


def step(record, number, at):
    """The raw step as a public call."""
    opening(record, number)
    return raw_step(record, number, at)


def attribute_at(record, number, at):
    """What a call for a name or a value at a place tests first; whether the raw walk comes there is not asked (RULES
    6)."""
    opening(record, number)
    return checked(record, number, at)


def name(record, number, at):
    """Where a name stands (RULES 6)."""
    a = attribute_at(record, number, at)
    # an empty name stands at 0 with 0 bytes, and nothing is tested
    if a.name == 0 or a.units == 0:
        return Span(0, 0)
    if a.name >= a.length:
        raise Refusal(8, number, at)
    if a.name + 2 * a.units > a.length:
        raise Refusal(9, number, at)
    return Span(at + a.name, 2 * a.units)


def full_of(record, number, a):
    """The full header of an attribute that passed 3 to 5 and 28 (RULES 7)."""
    at = a.offset
    if a.length < (24 if a.resident else 64):
        raise Refusal(7, number, at)
    if a.resident:
        return Resident(number_at(record, at + 16, 4), number_at(record, at + 20, 2))
    return NonResident(
        lowest=number_at(record, at + 16, 8),
        highest=number_at(record, at + 24, 8),
        runs=number_at(record, at + 32, 2),
        allocated=number_at(record, at + 40, 8),
        size=number_at(record, at + 48, 8),
        initialized=number_at(record, at + 56, 8),
    )


def full(record, number, at):
    return full_of(record, number, attribute_at(record, number, at))


def resident_span(number, a, f):
    """10, then 11 (RULES 7)."""
    if f.offset > a.length:
        raise Refusal(10, number, a.offset)
    # a sum that 32 bits don't hold is 11 too
    end = f.offset + f.length
    if end > 2 ** 32 - 1 or end > a.length:
        raise Refusal(11, number, a.offset)
    return Span(a.offset + f.offset, f.length)


def runs_of(number, a, f):
    """12; the runs go up to the attribute's end (RULES 7)."""
    if f.runs > a.length:
        raise Refusal(12, number, a.offset)
    return Runs(a.offset + f.runs, a.length - f.runs, f.size)


def value(record, number, at):
    """7, then 10 and 11, or 12 (RULES 7)."""
    a = attribute_at(record, number, at)
    f = full_of(record, number, a)
    if a.resident:
        return resident_span(number, a, f)
    return runs_of(number, a, f)


def opened_list(record, number, a):
    """Where the list stands that an attribute opens: 7, then 10 and 11, or 13 (RULES 8)."""
    f = full_of(record, number, a)
    if not a.resident:
        raise Refusal(13, number, a.offset)
    return resident_span(number, a, f)


def view(record, call, number, at):
    """The bytes that a name or value call tells of; none where it refuses."""
    try:
        answer = call(record, number, at)
    except Refusal:
        return b""
    return bytes(record[answer.start:answer.start + answer.count])


def find(record, number, ty, instance, base, entry):
    """An attribute by type and instance, without the opening checks: (reads, attribute or the refusal)."""
    # RULES 12: 6 comes before the comparison; 18 is told at the entry in the base record; every attribute that passes
    # 3 to 5 and 28 counts one
    reads, at = 0, first_place(record)
    while True:
        try:
            a = raw_step(record, number, at)
        except Refusal as refusal:
            return reads, refusal
        if a is None:
            return reads, Refusal(18, base, entry)
        reads += 1
        if a.ty not in KNOWN:
            return reads, Refusal(6, number, at)
        if a.ty == ty and a.instance == instance:
            return reads, a
        at += a.length


def walk(record, number):
    """The raw walk from the first attribute on: each answer, the last of them None or a refusal."""
    at = first_place(record)
    while True:
        try:
            a = step(record, number, at)
        except Refusal as refusal:
            yield refusal
            return
        yield a
        if a is None:
            return
        at += a.length
