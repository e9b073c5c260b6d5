"""The one builder of attributes, list entries, records, extracts and tables.

Every number of a layout is a parameter, also those that a rule tests or does not consult, so that a case can have
each of them wrong; what is left out suits the rest. Bytes that no field has differ from their neighbours and are none
of them 0, so that bytes read from a wrong place show.
"""
import struct
from typing import NamedTuple

from lib.reading import LIST, MARKER

PATTERN = bytes((7 * i + 3) % 251 + 1 for i in range(70_000))
END = struct.pack("<I", MARKER)
FILE = b"FILE"

# Where a record's first attribute stands most often, and where its used size does. That is a record's length unless it
# is told: a record whose used size is smaller refuses what stands behind it.
FIRST, USED_AT = 56, 24

# On the disk, the bytes that one pair guards, and those of a pair.
BLOCK, PAIR = 512, 2

# What stands in a resident attribute behind its value, in one that is not resident behind its header, in an entry
# behind its name and in front of it, and in a gap of a table.
RESIDENT_FILL, RUNS_FILL, ENTRY_FILL, PADDING, GAP_FILL = b"\xAA", b"\xBB", b"\xCC", b"\xDD", b"\xEE"

# Bytes of an attribute's header and of each form's full header, of an entry's header, of a table's numbers and one
# row.
HEAD_BYTES, RESIDENT_BYTES, NON_RESIDENT_BYTES, ENTRY_BYTES, NUMBERS_BYTES, ROW_BYTES = 16, 24, 64, 26, 20, 12


# Attributes.

def head(ty, length, resident=True, instance=0, units=0, name=0, flags=0):
    """An attribute's header: 16 bytes, whatever its length says."""
    return struct.pack("<IIBBHHH", ty, length, 0 if resident else 1, units, name, flags, instance)


def filled(text, length, fill, cut):
    """An attribute up to its length: filled, and where it is longer cut if that is wanted. Without a fill it stays as
    it is."""
    text = text if fill is None else text.ljust(length, fill)
    return text[:length] if cut else text


def resident(
    ty, instance=0, length=24, count=0, value=24, inside=b"", reserved=True, fill=RESIDENT_FILL, cut=False, **more):
    """A resident attribute whose value has `count` bytes at `value`; `inside` stands at its byte 24."""
    text = head(ty, length, True, instance, **more) + struct.pack("<IH", count, value)
    return filled(text + (b"\0\0" if reserved else b"") + inside, length, fill, cut)


def non_resident(
        ty, instance=0, length=64, lowest=0, runs=64, highest=9, allocated=4096, size=4000, initialized=None,
        inside=b"",
        fill=RUNS_FILL, cut=False, **more):
    """An attribute that is not resident; `inside` stands at its byte 64. What is initialized is all of the size
    unless told."""
    initialized = size if initialized is None else initialized
    text = head(ty, length, False, instance, **more)
    text += struct.pack("<QQHHIQQQ", lowest, highest, runs, 0, 0, allocated, size, initialized) + inside
    return filled(text, length, fill, cut)


# Lists.

def entry_head(ty, length, units, lowest, reference, instance, name_offset=ENTRY_BYTES):
    return struct.pack("<IHBBQQH", ty, length, units, name_offset, lowest, reference, instance)


def name_start(units, name_offset):
    """Where a name is put in an entry: an offset over the header leaves it behind that, and an empty one has no padding
    in front of it."""
    return max(ENTRY_BYTES, name_offset) if units else ENTRY_BYTES


def entry(
        ty, file, instance=0, length=None, units=0, lowest=0, sequence=7, name=None, name_offset=ENTRY_BYTES,
        padding=PADDING):
    """An entry of a list that names a record. Behind its header stand padding up to its name, then its name and then
    filling, up to its length."""
    start = name_start(units, name_offset)
    end = start + 2 * units
    length = end if length is None else length
    text = entry_head(ty, length, units, lowest, file % 2 ** 48 + (sequence << 48), instance, name_offset)
    text += (padding * start)[:start - ENTRY_BYTES] + (b"n\0" * units if name is None else name)
    return text + ENTRY_FILL * max(0, length - end)


def rest_of_list(left, length, units, name_offset=ENTRY_BYTES, ty=128, lowest=0, reference=41, instance=3):
    """The rest of a list that begins with this entry and has this many bytes."""
    text = entry_head(ty, length, units, lowest, reference, instance, name_offset)
    return (text + PATTERN[ENTRY_BYTES:max(left, ENTRY_BYTES)])[:left]


def list_of(*entries, instance=9, cut=0, length=None, fill=RESIDENT_FILL):
    """A resident list attribute; `cut` takes bytes off its value's length."""
    inside = b"".join(entries)
    length = -(-(RESIDENT_BYTES + len(inside)) // 8) * 8 if length is None else length
    return resident(LIST, instance, length, len(inside) - cut, RESIDENT_BYTES, inside, fill=fill)


# Records.

def with_used(text, used):
    """These bytes of a record with another used size, as far as they come to it."""
    return (text[:USED_AT] + struct.pack("<I", used) + text[USED_AT + 4:])[:len(text)]


def blank_record(length, k=0, magic=FILE, used=None):
    """Bytes of a record that begin with the magic, the others different for each k but for the used size."""
    return with_used((magic + PATTERN[k + 4:k + length])[:length], length if used is None else used)


def placed_record(
        length, first=FIRST, placed=(), magic=FILE, sequence=5, links=2, flags=0xFFFD, used=None, allocated=128,
        fixup=b""):
    """A record of this length with attributes at their offsets. What lies behind its end is cut off."""
    used = length if used is None else used
    text = bytearray(PATTERN[:max(length, 4200)])
    text[0:4] = magic
    text[4:4 + len(fixup)] = fixup
    struct.pack_into("<HHHHII", text, 16, sequence, links, first, flags, used, allocated)
    for at, attribute in placed:
        text[at:at + len(attribute)] = attribute
    return bytes(text[:length])


def record(size, *attributes, first=FIRST, used=None, end=END, **more):
    """A record of this size with these attributes one behind another, then the end marker."""
    body = b"".join(attributes) + end
    return placed_record(
        size, first, ((first, body),), used=used, **{"flags": 1, "allocated": size, "fixup": b"\x30\0\1\0", **more})


def zero_record(size, *placed, first=FIRST, used=None, allocated=None):
    """R(size) of docs/DIFFERENCES.md, with these bytes at these offsets: what a record begins with, its length for its
    used and its allocated size, and else zeros."""
    text = bytearray(size)
    text[0:4], text[6], text[20] = FILE, 1, first
    struct.pack_into("<II", text, USED_AT, *(size if told is None else told for told in (used, allocated)))
    for at, part in placed:
        text[at:at + len(part)] = part
    assert len(text) == size
    return bytes(text)


# Records as they lie on the disk.

def pair_places(size):
    """Where the pairs of a record stand: the last two bytes of each 512."""
    return range(BLOCK - PAIR, size, BLOCK)


class Raw(NamedTuple):
    """A record as it lies on the disk, and as it is read."""

    raw: bytes
    fixed: bytes


def raw_record(size, k=0, array=48, count=None, magic=FILE):
    """A record whose array stands at a place and tells this size, of that of the record where none is told; its other
    bytes are different for each k. Both are made of the array as it comes to stand, so that it may lie over the header
    too; where it lies past the record or over a pair only `raw` is to be used."""
    blocks = size // BLOCK
    text = bytearray(PATTERN[k:k + size])
    text[:8] = magic + struct.pack("<HH", array, blocks + 1 if count is None else count)
    numbers_kept = bytes(text[array:array + PAIR * (blocks + 1)]).ljust(PAIR * (blocks + 1), b"\0")
    raw, fixed = text, bytearray(text)
    for i, at in enumerate(pair_places(size)):
        fixed[at:at + PAIR] = numbers_kept[PAIR * (i + 1):PAIR * (i + 2)]
        raw[at:at + PAIR] = numbers_kept[:PAIR]
    return Raw(bytes(raw), bytes(fixed))


def with_byte(text, at, change=1):
    """These bytes with one of them changed."""
    return text[:at] + bytes((text[at] ^ change,)) + text[at + 1:]


# Tables.

def numbers(count, size, directory, records, base):
    """The five numbers that a table begins with."""
    return struct.pack("<5I", count, size, directory, records, base)


def row(number, offset, owner=None):
    """A row of the directory; one that has an owner is four bytes longer."""
    return struct.pack("<QI", number, offset) + (b"" if owner is None else struct.pack("<I", owner))


def row_table(rows, length, size=64, directory=NUMBERS_BYTES, records=None, base=None, count=None, width=ROW_BYTES):
    """A table of this many bytes with rows (number, offset, or an owner too). Its numbers are as told, or else suit
    the rows. Its records are FILE, and their used size is the record size, as far as they lie apart."""
    text = bytearray(PATTERN[:length])
    count = len(rows) if count is None else count
    records = directory + width * len(rows) if records is None else records
    base = count if base is None else base
    used = struct.pack("<I", size % 2 ** 32)
    for at, told in ((USED_AT, used), (0, FILE)):
        for _, offset, *_ in rows:
            if offset + at + 4 <= length:
                text[offset + at:offset + at + 4] = told
    for i, given in enumerate(rows):
        text[directory + width * i:directory + width * (i + 1)] = row(*given)
    text[:NUMBERS_BYTES] = numbers(count, size, directory, records, base)
    return bytes(text[:length])


def packed_table(rows, held, size, base, directory=NUMBERS_BYTES):
    """A table whose rows (number, offset within the records, or an owner too) are followed at once by its records'
    bytes."""
    at = directory + sum(len(row(*given)) for given in rows)
    text = b"".join(row(number, at + offset, *owner) for number, offset, *owner in rows)
    return numbers(len(rows), size, directory, at, base) + text + held


def table(records, base=40, gap=0, owners=None, width=ROW_BYTES):
    """A table of these records, by number; `owners` has a number for each, where rows have one."""
    order = sorted(records)
    size = len(records[order[0]])
    directory = NUMBERS_BYTES + gap
    at = directory + width * len(order) + gap
    rows = b"".join(row(n, at + k * size, *([owners[n]] if owners else [])) for k, n in enumerate(order))
    text = numbers(len(order), size, directory, at, order.index(base) if base in order else len(order))
    return text + GAP_FILL * gap + rows + GAP_FILL * gap + b"".join(records[n] for n in order)
