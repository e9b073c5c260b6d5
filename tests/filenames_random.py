"""Holds the names of files, as built, to the second reading of the rules: real tables, damaged copies of them and
random ones whose records have names, and values at random. Fails at any difference."""
import random
import struct

from filenames import FILE_NAME, LENGTH, NAME, holds, length_of, name_value
from lib import reading, suite, volumes
from lib.building import (
    END, ENTRY_BYTES, FIRST, NON_RESIDENT_BYTES, RESIDENT_BYTES, entry, head, list_of, non_resident, record, resident,
    table,
)
from lib.damaging import damaged, with_other_used
from lib.on_names import OPENING, STOPPING, VALUE, OfNames, Question
from lib.random_tables import ANY_OFFSETS, chained_table, streams_table, table_in_turn
from lib.reading import items
from lib.reading.names import names_of

SEED = 20241130
REAL, NAMED, OTHER, VALUES = 8_000, 24_000, 6_000, 12_000

# a table of more bytes is damaged only one time in eight: it tells little more
SMALL = 12_000

# how often a name was found, was not, and could not be told; and files of several names
OFTEN = 2_000

SPACES = (0, 1, 2, 3, 3, 4, 255)

TEXTS = ("", "a", "A", "b", "ab", "a\n", "aB", "abc", "\u00E9", "\u4E2D\u6587", "a" * 40, "first none", "x" * 255)


def random_text(chance):
    """The bytes of a name: a few, and those of all of them again and again."""
    if chance.random() < 0.9:
        return chance.choice(TEXTS[:-1]).encode("utf-16-le")
    return chance.choice((TEXTS[-1].encode("utf-16-le"), chance.randbytes(2 * chance.randrange(9))))


def random_value(chance):
    """A value that has a name most often, or nearly."""
    text, roll = random_text(chance), chance.random()
    units = len(text) // 2
    if roll < 0.1:
        units = chance.choice((0, min(units + 1, 255), max(units - 1, 0), 255, chance.randrange(256)))
    value = name_value(text, chance.choice(SPACES), units, chance.choice((b"", b"", b"\0\0", b"z" * 9)))
    if 0.1 < roll < 0.2:
        value = value[:chance.choice((0, 1, 64, 65, 66, len(value) - 1, len(value) - 2, chance.randrange(len(value))))]
    if 0.2 < roll < 0.25:
        value = chance.randbytes(chance.randrange(120))
    return value


def random_named(chance, instance):
    """An attribute that has a name most often, or a value that is refused."""
    value, roll = random_value(chance), chance.random()
    length = -(-(RESIDENT_BYTES + len(value)) // 8) * 8
    if roll < 0.05:
        return non_resident(FILE_NAME, instance, inside=value, length=-(-(NON_RESIDENT_BYTES + len(value)) // 8) * 8)
    if roll < 0.1:
        count = chance.choice((len(value) + 1, length - RESIDENT_BYTES + 1, 2 ** 32 - 1, 0, 65, 66))
        at = chance.choice((RESIDENT_BYTES, RESIDENT_BYTES, RESIDENT_BYTES + 1, length, length + 1, 0))
        return resident(FILE_NAME, instance, length, count, at, value)
    if roll < 0.12:
        return resident(FILE_NAME, instance, chance.choice((16, 23, 24)), cut=True)
    ty = FILE_NAME if roll < 0.9 else chance.choice((0x10, 0x31, 0x80, 0x90, 0x11))
    return holds(value, instance, ty)


def list_to_names(chance, numbers):
    """A list whose entries name attributes in these records most often."""
    entries = []
    for k in range(chance.randrange(1, 7)):
        ty = FILE_NAME if chance.random() < 0.93 else chance.choice((0x10, 0x80, 0x31))
        number = chance.choice(numbers) if chance.random() < 0.97 else chance.choice((40, 39, 2 ** 48 - 1))
        # instances that the records mostly have, or the walk would seldom come to its end
        instance = chance.randrange(4) if chance.random() < 0.97 else chance.randrange(9)
        length = None if chance.random() < 0.985 else chance.choice((0, 25, 27, 60, 300))
        entries.append(entry(ty, number, instance, length, lowest=k, name_offset=chance.choice(ANY_OFFSETS)))
    return list_of(*entries, cut=chance.choice((0,) * 12 + (1, ENTRY_BYTES)))


def named_table(chance):
    """A base record with names and lists, and records that have four instances of names."""
    size = chance.choice((512, 1024, 1024, 2048, 4096))
    numbers = (41, 42, 43)
    records = {}
    for number in numbers:
        attributes, left = [], size - FIRST - len(END)
        for k in range(4):
            attribute = random_named(chance, k) if chance.random() < 0.5 else holds(
                name_value(random_text(chance), chance.choice(SPACES)), k)
            if len(attribute) > left - 32 * (3 - k):
                attribute = resident(FILE_NAME, k)
            attributes.append(attribute)
            left -= length_of(attribute)
        magic = b"FILE" if chance.random() < 0.98 else b"BAAD"
        records[number] = with_other_used(record(size, *attributes, magic=magic), chance, 0.03)
    attributes, left = [], size - FIRST - len(END)
    for _ in range(chance.randrange(1, 9)):
        roll = chance.random()
        if roll < 0.3:
            attribute = list_to_names(chance, numbers)
        elif roll < 0.32:
            attribute = head(chance.choice((0x11, 0x80)), chance.choice((15, 16, 16, 17)))
        else:
            attribute = random_named(chance, chance.randrange(5))
        if len(attribute) <= left:
            attributes.append(attribute)
            left -= len(attribute)
    made = record(size, *attributes, end=END if chance.random() < 0.95 else b"")
    records[40] = with_other_used(made, chance, 0.05)
    return table(records)


def other_name(name, chance):
    """A name that is nearly this one."""
    if not name or chance.random() < 0.2:
        return random_text(chance)
    at = chance.randrange(len(name))
    return chance.choice((
        name[:at], name[at:], name + b"\0\0", name.swapcase(), b"",
        name[:at] + bytes((name[at] ^ 32,)) + name[at + 1:]))


def wanted_in(names, chance):
    """A name to seek, one of the file's most often."""
    if not names or chance.random() < 0.2:
        return random_text(chance)
    name = chance.choice(names)
    return name if chance.random() < 0.7 else other_name(name, chance)


class Counted(OfNames):
    """Counts the files with several names."""

    def __init__(self):
        super().__init__()
        self.several = 0

    def probe(self, text, chance):
        """One table: the names of its base record, or of another of its records."""
        base = items.base_of(text)
        number, r = base if base else (40, bytes(64))
        if base and chance.random() < 0.1:
            number, r = chance.choice(list(reading.rows(text)))
        if chance.random() < 0.03:
            number = chance.choice((0, 41, 2 ** 48, number + 1))
        if chance.random() < 0.01:
            r = chance.choice((r[:-8], r + bytes(8), r[:-1], b""))
        try:
            names = names_of(r, number, text).names
        except reading.Refusal:
            names = []
        self.several += len(names) > 1
        self.put(r, text, wanted_in(names, chance)[:510], number)


def test_real_tables(test):
    """The names of every record of the tables of real volumes, as if it were the base: each is sought, and others."""
    chance = random.Random(SEED)
    for text in volumes.tables():
        for number, r in reading.rows(text):
            names = names_of(r, number, text).names
            for wanted in (*names, *(other_name(name, chance) for name in names), b"no\0"):
                test.put(r, text, wanted[:510], number)


def test_damaged_real_tables(test):
    """Copies of real tables that are hurt, most often in a value that has a name."""
    print("seed %d, %d tables" % (SEED, REAL))
    chance, tables = random.Random(SEED + 1), volumes.tables()
    small = [text for text in tables if len(text) <= SMALL]
    for k in range(REAL):
        text = chance.choice(tables if k % 8 == 0 else small)
        if k % 2:
            text = damaged(text, chance)
        test.probe(with_hurt_name(text, chance), chance)


def with_hurt_name(text, chance):
    """A copy of a table with a byte changed of a value that has a name, in one of its records."""
    text = bytearray(text)
    number, r = chance.choice(list(reading.rows(text)))
    values = [
        a.offset + struct.unpack_from("<H", r, a.offset + 20)[0] for a in reading.walk(r, number)
        if isinstance(a, reading.Attribute) and a.ty == FILE_NAME and a.resident and a.length >= RESIDENT_BYTES]
    at = chance.choice((LENGTH, LENGTH, LENGTH + 1, LENGTH + 1, NAME, NAME + 1, chance.randrange(80)))
    if values:
        at += chance.choice(values)
        place = bytes(text).find(r)
        if at < len(r) and place >= 0:
            text[place + at] = chance.choice((0, 1, 2, 3, 4, 255, r[at] ^ 32, r[at] ^ 1))
    return bytes(text)


def test_tables_of_names(test):
    """Random tables whose records have names, in the base record and in others, some of them hurt."""
    print("%d tables of names, %d others" % (NAMED, OTHER))
    chance = random.Random(SEED + 2)
    for k in range(NAMED):
        text = named_table(chance)
        test.probe(text if k % 3 else damaged(text, chance), chance)
    for k in range(OTHER):
        maker = (chained_table, streams_table, lambda c: table_in_turn(c, k))[k % 3]
        test.probe(maker(chance), chance)


def test_values_at_random(test):
    """Values of any length around where a name ends, of any namespace."""
    chance = random.Random(SEED + 3)
    for _ in range(VALUES):
        value = random_value(chance)
        if chance.random() < 0.2:
            value = value[:LENGTH + 1] + bytes((chance.randrange(256),)) + value[NAME:]
        test.put_question(Question(VALUE, value[:chance.choice((len(value), len(value), 576))]))


def ended(test):
    """Each refusal was given, each answer to what was sought, and many files had several names."""
    test.finish((*OPENING, *STOPPING))
    print("files of several names: %d" % test.several)
    assert min(*test.found.values(), test.several) >= OFTEN, test.found


main = suite.of(Counted, ended)

if __name__ == "__main__":
    main()
