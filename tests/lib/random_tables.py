"""Random tables for the item walk and for parts. Which are made depends on the generator that is handed in, and on
nothing else."""
import struct

from lib import reading
from lib.building import (
    END, ENTRY_BYTES, FIRST, NON_RESIDENT_BYTES, NUMBERS_BYTES, RESIDENT_BYTES, RESIDENT_FILL, ROW_BYTES, entry, head,
    list_of, name_start, non_resident, packed_table, record, resident, table,
)
from lib.damaging import LENGTHS, damaged, with_other_used

# Small ones twice, then those around what 1 and the listing's lines ask.
SIZES = (
    *range(64, 264, 8), *range(64, 264, 8), 264, 320, 504, 512, 520, 1016, 1024, 1032, 2040, 2048, 2056, 4080, 4088,
    4096)


# how many records have another used size than their length
OTHER_USED = 0.1

# Names of entries, most of them the front of another one; and lowest VCNs.
NAMES = (b"", b"a\0", b"a\0b\0", b"a\0b\0c\0", b"b\0", b"a\0\0\0")
VCNS = (0, 0, 1, 5, 16, 2 ** 31, 2 ** 32 + 1, 2 ** 63 - 1, 2 ** 63, 2 ** 64 - 1)

# in how many records the entries of one type and instance are not always those of one type and name
OTHER_JOINED = 0.4

# In how many records names stand behind padding, and how often one of these ends past its entry; where they are said to
# stand, and where an empty one is.
PADDED, PAST_ITS_END = 0.3, 0.02
OFFSETS, ANY_OFFSETS = (*(26, 28, 30, 32, 32, 34, 40) * 9, 27, 25, 0), (26, 26, 26, 0, 25, 27, 32, 255)


class Streams:
    """What the entries of a record's lists are called, where their names stand, and from which VCN on they are.

    Most often an instance has a name of its own, and what follows at once is from a VCN above 0 on, so that type and
    instance tell the same streams as type and name. In the other records two instances have one name, a name changes,
    and what follows is from VCN 0 on now and then. Where names stand behind padding, that is made of names too.
    """

    def __init__(self, chance):
        self.chance, self.other = chance, chance.random() < OTHER_JOINED
        self.padded = chance.random() < PADDED
        names = chance.sample(NAMES, len(NAMES))
        self.names = {k: chance.choice(names[:3]) if self.other else name for k, name in enumerate(names)}
        self.last = None

    def offset_of(self, name):
        """Where an entry says that its name stands."""
        if not name:
            return self.chance.choice(ANY_OFFSETS)
        return self.chance.choice(OFFSETS) if self.padded else ENTRY_BYTES

    def entry(self, key, file, more=0, length=None, ty=None, **given):
        """The next entry, of this type and instance, `more` bytes longer than it must be; its type and its length may
        be others."""
        follows = key == self.last
        self.last = key
        name = self.names[key[1] % len(NAMES)]
        if self.other and self.chance.random() < 0.1:
            name = self.chance.choice(NAMES)
        lowest = self.chance.choice(VCNS)
        if follows and lowest == 0 and not self.other:
            lowest = 1
        units, offset = len(name) // 2, self.offset_of(name)
        end = name_start(units, offset) + len(name)
        if length is None:
            past = self.padded and name and self.chance.random() < PAST_ITS_END
            length = end - 1 if past else end + more
        text = entry(
            key[0] if ty is None else ty, file, key[1], length, units, lowest, name=name, name_offset=offset,
            padding=self.chance.choice(NAMES[1:]), **given)
        # no more than its length says
        return text[:max(length, ENTRY_BYTES)]


def random_attribute(chance, numbers, left, streams):
    """An attribute that fits most often, of an instance that others have too."""
    ty = chance.choice((0x10, 0x30, 0x80, 0x80, 0x80, 0x90, 0x100, 0x11 if chance.random() < 0.2 else 0x40))
    instance = chance.randrange(4)
    roll = chance.random()
    if roll < 0.30:
        return random_list(chance, numbers, left, streams)
    if roll < 0.60:
        text = resident(ty, instance, chance.choice((24, 24, 32, 40)))
    elif roll < 0.85:
        text = non_resident(ty, instance, chance.choice((64, 64, 65, 72)))
    else:
        text = head(ty, chance.choice((16, 16, 17, 20, 23)), chance.random() < 0.5, instance)
        text = text.ljust(struct.unpack_from("<I", text, 4)[0], RESIDENT_FILL)
    if chance.random() < 0.02:
        text = text[:4] + struct.pack("<I", chance.choice((*LENGTHS, left, left + 1, left - 1)) % 2 ** 32) + text[8:]
    return text


def random_entry(chance, numbers, key, streams):
    """An entry of this type and instance often, that names one of these records most often."""
    length = chance.choice((0, 25, 26, 27, 28, 29, 40, 64, 200, 65535)) if chance.random() < 0.03 else None
    # often a second entry of one kind, at once or behind others
    if chance.random() < 0.7:
        key = chance.choice((0x10, 0x30, 0x80, 0x80, 0x80, 0x90, 0x40, 0x20)), chance.randrange(4)
    ty = chance.choice((0, 0x11, 0x110, reading.MARKER)) if chance.random() < 0.03 else None
    number = chance.choice(numbers) if chance.random() < 0.96 else chance.choice((0, 2 ** 48 - 1, numbers[-1] + 1))
    more = chance.choice((0, 0, 6, 14))
    return streams.entry(key, number, more, length, ty, sequence=chance.randrange(65536)), key


def random_list(chance, numbers, left, streams):
    """A list that most often fits into what is left."""
    entries, room, key = b"", max(0, left - RESIDENT_BYTES), (0x80, 0)
    for _ in range(chance.randrange(9)):
        e, key = random_entry(chance, numbers, key, streams)
        if len(entries) + len(e) > room and chance.random() < 0.9:
            break
        entries += e
    count, end = len(entries), RESIDENT_BYTES + len(entries)
    if chance.random() < 0.15:
        count = max(0, count + chance.choice((-27, -26, -25, -2, -1, 1, 2, 8)))
    length = -(-end // 8) * 8 if chance.random() < 0.9 else end
    text = resident(reading.LIST, chance.randrange(4), length, count, RESIDENT_BYTES, entries)
    if chance.random() < 0.04:
        text = text[:8] + b"\1" + text[9:]
    if chance.random() < 0.06:
        value = chance.choice((0, 16, 20, 23, length - 1, length, length + 1, 65535)) % 2 ** 16
        text = text[:20] + struct.pack("<H", value) + text[22:]
    return text


def random_record(chance, numbers, size, listed):
    """A record of attributes that most often fit, with lists where it is to have them."""
    first = chance.choice((56, 56, 56, 48, 42, 40, 64)) if size > 64 else chance.choice((40, 42, 44, 48, 56))
    attributes, at, streams = [], first, Streams(chance)
    for _ in range(chance.randrange(1, 12)):
        left = size - at
        if left < 16 and chance.random() < 0.8:
            break
        text = random_attribute(chance, numbers, left if listed else 0, streams)
        if not listed and text[:4] == b"\x20\0\0\0" and chance.random() < 0.7:
            text = resident(0x80, chance.randrange(4))
        if at + len(text) > size and chance.random() < 0.7:
            break
        attributes.append(text)
        at += len(text)
    end = END if chance.random() < 0.8 else b""
    magic = b"FILE" if chance.random() < 0.97 else chance.choice((b"FILF", b"BAAD", b"\0\0\0\0", b"file"))
    return with_other_used(record(size, *attributes, first=first, magic=magic, end=end), chance, OTHER_USED)


def random_table(chance, size=None):
    """A well-formed table with a base row: records of one size near a limit, that name each other in lists."""
    size = chance.choice(SIZES) if size is None else size
    some = (0, 1, 2, 3, 5, 40, 41, 42, 43, 44, 300, 70000, 2 ** 32, 2 ** 40 + 40, 2 ** 48 - 1)
    numbers = sorted(chance.sample(some, chance.choice((1, 2, 3, 4, 5))))
    base = chance.choice(numbers)
    records = {n: random_record(chance, numbers, size, n == base or chance.random() < 0.1) for n in numbers}
    return table(records, base, gap=chance.choice((0, 0, 4, 12)))


def table_in_turn(chance, k):
    """The k-th of some random tables: in every sixteenth a bit of its numbers or first rows is changed."""
    text = bytearray(random_table(chance))
    if k % 16 == 0:
        text[chance.randrange(44)] ^= 1 << chance.randrange(8)
    return bytes(text)


def whole_records(chance, numbers, size):
    """Records of attributes of two types and three instances, in any order, not resident two times in three."""
    held = {}
    for n in numbers:
        kept = []
        for ty in (0x80, 0x90):
            for instance in range(3):
                kept.append(non_resident(ty, instance) if (n + instance + ty // 16) % 3 else resident(ty, instance))
        chance.shuffle(kept)
        held[n] = record(size, *kept[:(size - 64) // 64])
    return held


def chained_list(chance, numbers, left, streams):
    """A list of entries of few types and instances."""
    entries, key = [], (0x80, 0)
    for _ in range(chance.randrange(1, max(2, (left - RESIDENT_BYTES) // ENTRY_BYTES))):
        if chance.random() < 0.4:
            key = chance.choice((0x80, 0x90)), chance.randrange(3)
        entries.append(streams.entry(key, chance.choice(numbers), chance.choice((0, 0, 0, 6))))
        if sum(map(len, entries)) > left - RESIDENT_BYTES:
            entries.pop()
            break
    return list_of(*entries)


def chained_table(chance):
    """A base record full of entries of few types and instances, the records behind them whole: items, keys and passing
    over, hardly a refusal."""
    size = chance.choice((256, 512, 512, 1024))
    numbers = [40, 41, 42, 43]
    others = whole_records(chance, numbers[1:], size)
    attributes, left, streams = [], size - FIRST - len(END), Streams(chance)
    while left > 60 and len(attributes) < 12:
        if chance.random() < 0.5:
            text = resident(chance.choice((0x10, 0x30, 0x80)), chance.randrange(4))
        else:
            text = chained_list(chance, numbers, left, streams)
        if len(text) > left:
            break
        attributes.append(text)
        left -= len(text)
    return table({40: record(size, *attributes), **others}, 40)


def hurt_outside(chance):
    """A table whose header or rows are hurt, or which is cut."""
    text = bytearray(random_table(chance))
    if chance.random() < 0.3:
        return bytes(text[:chance.randrange(len(text))])
    text[chance.randrange(44)] ^= 1 << chance.randrange(8)
    return bytes(text)


# What a large table has at most, as the listing takes it.
MOST_BYTES = 65536


def large_table(chance):
    """A table near its limits: up to 4,096 rows, up to 65,536 bytes, with records that lie over each other."""
    size = chance.choice((64, 72, 128, 256, 1024, 4088, 4096))
    count = chance.choice((4096, 4095, 4000, 2500, 300, 100)) if size <= 1024 else chance.choice((1400, 300, 15))
    step = chance.choice((1, 3, (2 ** 48 - 1) // count))
    numbers = [k * step for k in range(count)]
    at = NUMBERS_BYTES + ROW_BYTES * count
    base = chance.randrange(count)
    near = [numbers[base], numbers[0], numbers[-1], chance.choice(numbers), chance.choice(numbers), numbers[-1] + 1]
    records = [random_record(chance, near, size, True)]
    while at + (len(records) + 1) * size <= MOST_BYTES and len(records) < 6:
        records.append(random_record(chance, near, size, False))
    body = b"".join(records)
    body += bytes(chance.choice((0, MOST_BYTES - at - len(body))))
    offsets = [
        chance.choice(
            (chance.randrange(len(records)) * size, chance.randrange(len(body) - size + 1))) for _ in numbers]
    offsets[base] = 0
    for k in (0, -1):
        if k % count != base:
            offsets[k] = (len(records) - 1) * size
    return packed_table(list(zip(numbers, offsets)), body, size, base)


# Tables for parts.

# run bytes: some that decode, none, and some that do not
INSIDE = (b"\x11\x05\x07", b"\x11\x05\x07", b"\x21\x10\x34\x02", b"\x01\x08", b"\0", b"\xBB")

# Where an attribute that is not resident keeps its data size, and where that ends.
SIZE_AT, SIZE_END = 48, 56


def part(ty, instance, lowest=0, length=64, runs=64, size=4000, inside=b""):
    """A non-resident attribute with a data size of its own, and with these run bytes, as far as they have room. In a
    header that is cut there is as much of the size as its length says."""
    text = non_resident(ty, instance, length, lowest, runs, size=size, initialized=4000)
    text = text[:max(SIZE_AT, min(SIZE_END, length))] + text[SIZE_END:]
    return (text[:runs] + inside + text[runs + len(inside):])[:len(text)] if runs >= NON_RESIDENT_BYTES else text


def random_part(chance, ty, instance):
    """An attribute that most often is a part, with runs that end in any byte; else one that refuses."""
    roll, length = chance.random(), chance.choice((64, 65, 72, 72, 72, 72, 80, 80))
    if roll < 0.04:
        return resident(ty, instance, chance.choice((24, 32)))
    if roll < 0.07:
        return head(ty, chance.choice((16, 20)), chance.random() < 0.5, instance).ljust(20, RESIDENT_FILL)[:20]
    if roll < 0.10:
        length = chance.choice((16, 40, 56, 63))
    if roll < 0.92:
        runs = chance.choice((64, 64, 64, 66, length, chance.choice((0, 33))))
    else:
        runs = chance.choice((length + 1, 65535))
    lowest, size = chance.choice(VCNS), chance.choice((0, 0, 1, 4000, 2 ** 40, 2 ** 64 - 1))
    return part(ty, instance, lowest, length, runs, size, chance.choice(INSIDE))


def record_of_parts(chance, keys, size):
    """A record with parts of these keys, in any order, and something that refuses now and then."""
    chance.shuffle(keys)
    attributes = [random_part(chance, *key) for key in keys if chance.random() < 0.97]
    if chance.random() < 0.05:
        odd = (resident(0x11, 1), head(0x80, 15), head(0x80, size), resident(0x80, 3))
        attributes.insert(chance.randrange(4), chance.choice(odd))
    magic, end = b"FILE" if chance.random() < 0.97 else b"BAAD", END if chance.random() < 0.9 else b""
    if chance.random() < 0.08:
        # few of them, and the last attribute begins under 16 bytes before the record's end
        attributes, cut = attributes[:chance.randrange(3)], chance.choice((4, 8, 15))
        left = size - FIRST - sum(map(len, attributes))
        if left >= 32 + cut:
            attributes.append(resident(0x30, 3, left - cut))
            end = b"\x10\0\0\0" + bytes(cut - 4)
    return with_other_used(record(size, *attributes, magic=magic, end=end), chance, OTHER_USED)


def list_of_parts(chance, keys, numbers, left, streams):
    """A list of entries of few types and instances, many of one kind behind each other."""
    entries, key = b"", chance.choice(keys)
    for _ in range(chance.randrange(1, max(2, (left - RESIDENT_BYTES) // ENTRY_BYTES))):
        if chance.random() < 0.2:
            key = chance.choice(keys)
        ty = None if chance.random() < 0.98 else chance.choice((0x11, 0, 0x110, reading.MARKER))
        number = chance.choice(numbers) if chance.random() < 0.93 else chance.choice((40, 40, 99))
        length = None if chance.random() < 0.99 else chance.choice((0, 25, 27, 60, 300))
        entries += streams.entry(key, number, chance.choice((0, 0, 6)), length, ty)
    cut = chance.choice((0, 0, 0, 0, 0, 0, 1, 6, 25, 26)) if len(entries) > ENTRY_BYTES else 0
    return list_of(entries, cut=cut)


def streams_table(chance):
    """A base record whose lists have entries of few types and instances, and records with parts that have these."""
    size = chance.choice((256, 512, 512, 1024, 1024))
    numbers = (41, 42, 43, 44)
    keys = [(0x80, 0), (0x80, 1), (0x90, 0), (0xA0, 1)]
    records = {n: record_of_parts(chance, keys, size) for n in numbers}
    attributes, left, streams = [], size - FIRST - len(END), Streams(chance)
    while left > 60 and len(attributes) < 6:
        if chance.random() < 0.35:
            text = random_part(chance, *chance.choice(keys))
        else:
            text = list_of_parts(chance, keys, numbers, left, streams)
        if len(text) > left:
            continue
        attributes.append(text)
        left -= len(text)
    records[40] = with_other_used(record(size, *attributes), chance, OTHER_USED)
    return table(records)


# All kinds.

def mixed(chance, real, hurt, in_turn, made, large):
    """So many copies of real tables that are hurt, random ones in turn, those that other makers make (every fourth
    hurt), and large ones. `real` chooses the k-th to be hurt. One is made when it is asked for, so that what is done
    with it may use the same generator."""
    for k in range(hurt):
        yield damaged(real(k), chance)
    for k in range(in_turn):
        yield table_in_turn(chance, k)
    for maker, count in made:
        for k in range(count):
            text = maker(chance)
            yield text if k % 4 else damaged(text, chance)
    for _ in range(large):
        yield large_table(chance)
