"""Damaged copies of tables: a few changes where a rule turns, most of them in the records."""
import struct

from lib import reading
from lib.building import ENTRY_BYTES, RESIDENT_BYTES, ROW_BYTES, USED_AT, with_used

# What a field may become: the values around which the rules turn.
TYPES = (0x10, 0x20, 0x20, 0x30, 0x80, 0x80, 0x90, 0x100, 0x11, 0, 0x110, reading.MARKER)
LENGTHS = (
    0, 8, 15, 16, 17, 23, 24, 25, 26, 27, 28, 32, 40, 63, 64, 65, 72, 80, 0xFFFF, 0x10000, 0x80000000, 0xFFFFFFFF)


def ends_of(record_):
    """Where the attributes of a record end, whatever its used size is."""
    with reading.without_used_sizes():
        return [a.offset + a.length for a in reading.walk(record_, 0) if isinstance(a, reading.Attribute)]


def used_near(record_, chance):
    """A used size around which 27 and 28 turn: at the record's length, or where one of its attributes ends."""
    length, ends = len(record_), ends_of(record_)
    if chance.random() < 0.6 and ends:
        return chance.choice(ends) + chance.choice((-1, 0, 0, 1))
    return chance.choice((0, 56, max(length - 1, 0), length, length + 1, length + 1, length + 8, 2 ** 31, 2 ** 32 - 1))


def with_other_used(record_, chance, share):
    """The record; with another used size that often."""
    return with_used(record_, used_near(record_, chance)) if chance.random() < share else record_


def places(record_):
    """Where the attributes of a record stand, and where the entries of its lists do."""
    attributes, entries = [], []
    for a in reading.walk(record_, 0):
        if isinstance(a, reading.Attribute):
            attributes.append(a)
            if a.ty == reading.LIST and a.resident and a.length >= RESIDENT_BYTES:
                at = a.offset + struct.unpack_from("<H", record_, a.offset + 20)[0]
                end = min(at + struct.unpack_from("<I", record_, a.offset + 16)[0], a.offset + a.length)
                while at + ENTRY_BYTES <= end:
                    entries.append(at)
                    at += max(struct.unpack_from("<H", record_, at + 4)[0], ENTRY_BYTES)
    return attributes, entries


def hurt_attribute(r, a, chance):
    """One field of an attribute, or a byte of it."""
    at, what = a.offset, chance.randrange(9)
    if what == 0:
        struct.pack_into("<I", r, at, chance.choice(TYPES))
    elif what == 1:
        left = len(r) - at
        choice = chance.choice(
            (*LENGTHS, left, left - 1, left + 1, left - 4, a.length - 1, a.length + 1, a.length + 8))
        struct.pack_into("<I", r, at + 4, choice % 2 ** 32)
    elif what == 2:
        r[at + 8] = chance.choice((0, 1, 2, 255))
    elif what == 3:
        struct.pack_into("<H", r, at + 14, chance.choice((0, 1, 2, 3, a.instance ^ 1, chance.randrange(65536))))
    elif what in (4, 5) and at + 22 <= len(r):
        count, value = struct.unpack_from("<IH", r, at + 16)
        near = (count - 1, count + 1, count - ENTRY_BYTES, count + ENTRY_BYTES)
        count = chance.choice((0, 1, 25, 26, 27, *near, 0xFFFFFFFF, chance.randrange(600)))
        if what == 5:
            near = (a.length - 1, a.length, a.length + 1)
            value = chance.choice((0, 16, 24, *near, 0xFFFF, chance.randrange(200)))
        struct.pack_into("<IH", r, at + 16, count % 2 ** 32, value % 2 ** 16)
    elif what == 6:
        # all of an attribute becomes a list of what stands there
        struct.pack_into("<I", r, at, 0x20)
        r[at + 8] = chance.choice((0, 0, 0, 1))
    elif what == 7 and at + 34 <= len(r):
        struct.pack_into(
            "<H", r, at + 32, chance.choice((0, 64, a.length, a.length + 1, chance.randrange(200))) % 2 ** 16)
    else:
        r[at + chance.randrange(min(a.length, 64))] = chance.randrange(256)


def hurt_entry(r, at, numbers, chance):
    """One field of an entry, or a byte of it."""
    what = chance.randrange(12)
    if what == 0:
        struct.pack_into("<I", r, at, chance.choice(TYPES))
    elif what in (1, 2):
        was = struct.unpack_from("<H", r, at + 4)[0]
        length = chance.choice((0, 25, 26, 27, 28, was - 1, was + 1, was + 8, was + 64, 200, 0xFFFF))
        struct.pack_into("<H", r, at + 4, length % 2 ** 16)
    elif what == 3:
        r[at + 6] = chance.choice((0, 1, 2, 3, 20, 127, 128, 255))
    elif what in (4, 5):
        number = chance.choice((*numbers, *numbers, 0, numbers[-1] + 1, 2 ** 32 + numbers[0], 2 ** 48 - 1))
        r[at + 16:at + 22] = (number % 2 ** 48).to_bytes(6, "little")
    elif what == 6:
        r[at + 22:at + 24] = chance.randrange(65536).to_bytes(2, "little")
    elif what == 7:
        struct.pack_into(
            "<H", r, at + 24, chance.choice((0, 1, 2, 3, 4, struct.unpack_from("<H", r, at + 24)[0] ^ 1)))
    elif what == 8:
        struct.pack_into("<Q", r, at + 8, chance.choice((0, 0, 1, 5, 2 ** 63, 2 ** 64 - 1)))
    elif what == 9 and r[at + 6] and at + r[at + 7] + 2 * r[at + 6] <= len(r):
        r[at + r[at + 7] + chance.randrange(2 * r[at + 6])] ^= 1 << chance.randrange(8)
    elif what == 10:
        # the last place for its name in the entry, and one byte further on
        last = struct.unpack_from("<H", r, at + 4)[0] - 2 * r[at + 6]
        r[at + 7] = chance.choice((0, 25, 26, 27, 28, 32, 255, last, last + 1, chance.randrange(256))) % 256
    else:
        r[at + chance.randrange(26)] = chance.randrange(256)


def hurt_list(r, entries, chance):
    """Entries change places, or one is written over another."""
    a, b = chance.choice(entries), chance.choice(entries)
    one, other = bytes(r[a:a + 26]), bytes(r[b:b + 26])
    # their lengths and where their names stand stay, so that the list is walked as before
    r[a:a + 26] = other[:4] + one[4:8] + other[8:]
    if chance.random() < 0.5:
        r[b:b + 26] = one[:4] + other[4:8] + one[8:]


def hurt_header(r, chance):
    """One field of a record's header, or any byte of it."""
    what = chance.randrange(4)
    if what == 0:
        r[chance.randrange(4)] ^= 1 << chance.randrange(8)
    elif what == 1:
        end = (len(r) - 4, len(r) - 3, len(r))
        struct.pack_into("<H", r, 20, chance.choice((0, 8, 16, 42, 48, 55, 56, 57, 64, 80, *end, 0xFFFF)) % 2 ** 16)
    elif what == 2:
        struct.pack_into("<I", r, USED_AT, used_near(bytes(r), chance))
    else:
        r[chance.randrange(len(r))] = chance.randrange(256)


def hurt_record(r, numbers, chance):
    """One change of a record."""
    if chance.random() < 0.08:
        hurt_header(r, chance)
        return
    attributes, entries = places(r)
    roll = chance.random()
    if entries and roll < 0.45:
        hurt_entry(r, chance.choice(entries), numbers, chance)
    elif entries and roll < 0.55:
        hurt_list(r, entries, chance)
    elif attributes and roll < 0.95:
        lists = [a for a in attributes if a.ty == reading.LIST]
        hurt_attribute(r, chance.choice(lists if lists and chance.random() < 0.3 else attributes), chance)
    else:
        r[chance.randrange(len(r))] = chance.randrange(256)


def damaged(text, chance):
    """A copy of a well-formed table with one to six changes in its records; its header and rows stay."""
    out = bytearray(text)
    count, size, directory, records, base = struct.unpack_from("<5I", out)
    rows = [struct.unpack_from("<QI", out, directory + ROW_BYTES * k) for k in range(count)]
    numbers = [n for n, _ in rows]
    for _ in range(chance.choice((1, 1, 1, 2, 2, 3, 4, 6))):
        at = rows[base][1] if base < count and chance.random() < 0.7 else chance.choice(rows)[1]
        r = bytearray(out[at:at + size])
        hurt_record(r, numbers, chance)
        out[at:at + size] = r
    return bytes(out)
