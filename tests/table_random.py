"""Holds the layers `list` and `table`, and the lookup, as built, to the second reading on real tables, damaged and
random ones."""
import random
import struct

from lib import reading, suite, volumes
from lib.asking import of
from lib.building import PATTERN, USED_AT, with_used
from lib.building import blank_record as record
from lib.building import rest_of_list as entry
from lib.building import row_table as table
from lib.on_tables import BASE_ROW, CHECK, OPENING, Tables

SEED = 20240402
DAMAGED = 30_000


def lists(r, number):
    """Where the lists of a record stand."""
    for a in reading.walk(r, number):
        if isinstance(a, reading.Attribute) and a.ty == reading.LIST:
            span = of(reading.opened_list, r, number, a)
            if isinstance(span, reading.Span):
                yield span


def put_list(test, r, t, lent, span):
    """A list whole: each entry and the record that it names, then the rest from any byte on. How many entries it
    has."""
    listed = r[span.start:span.start + span.count]
    at, entries = 0, 0
    while at < len(listed):
        e = of(reading.entry, listed[at:], lent, span.start + at)
        if not isinstance(e, reading.Entry):
            break
        entries += 1
        test.put_lookup(r, t, e.file, number=lent, place=span.start + at)
        at += e.length
    for at in range(len(listed) + 1):
        test.put_entry(listed[at:], number=lent, place=span.start + at)
    return entries


def test_real_tables(test):
    """The check, the base row and every lookup of tables that others wrote, and the lists in their records."""
    entries = 0
    for t in volumes.tables():
        test.put(CHECK, table_=t)
        test.put(BASE_ROW, table_=t)
        held = list(reading.rows(t))
        number, base = held[reading.base_row(reading.check_table(t))]
        test.put(OPENING, base, t, number=number)
        for wanted, _ in held:
            for other in (wanted - 1, wanted, wanted + 1):
                test.put_lookup(base, t, other % 2 ** 64, number=number, place=56)
        for lent, r in held:
            entries += sum(put_list(test, r, t, lent, span) for span in lists(r, lent))
    assert entries >= 20


def random_table(chance):
    """A small table, mostly well formed: some rows, gaps, records that overlap, a record or two that is not FILE."""
    count, size = chance.choice((0, 1, 1, 2, 2, 3, 4, 6)), chance.choice((64, 64, 64, 72, 96, 128))
    directory = chance.choice((20, 20, 20, 21, 28, 40))
    records = directory + 12 * count + chance.choice((0, 0, 1, 4, 30))
    length = records + size * chance.choice((1, 1, 2, 3)) + chance.choice((0, 0, 0, 1, 9))
    number = chance.choice((0, 5, 39, 2 ** 32 - 2, 2 ** 48 - 12, chance.randrange(2 ** 48)))
    last, rows = length - size, []
    for _ in range(count):
        rows.append((number, chance.choice((records, last, chance.randrange(records, last + 1)))))
        number += chance.choice((1, 1, 2, 300))
    t = table(rows, length, size, directory, records, chance.randrange(count + 1))
    if rows and chance.random() < 0.1:
        at = chance.choice(rows)[1]
        t = t[:at] + with_used(t[at:], chance.choice((0, size, size + 1, 2 ** 32 - 1)))
    return t


def damaged(t, chance):
    """A table with some bytes changed, most of them in its header and its directory, or cut or made longer."""
    t = bytearray(t)
    count, size, directory, records = struct.unpack_from("<4I", t)
    for _ in range(chance.choice((1, 1, 1, 2, 3))):
        where = chance.random()
        if where < 0.25:
            at = 4 * chance.randrange(5) + chance.choice((0, 0, 0, 1, 2, 3))
        elif where < 0.75 and count:
            at = directory + 12 * chance.randrange(count) + chance.randrange(12)
        elif where < 0.95 and count:
            offset = int.from_bytes(t[directory + 12 * chance.randrange(count) + 8:][:4], "little")
            at = offset + chance.choice((*range(5), USED_AT, USED_AT + 1))
        else:
            at = chance.randrange(len(t))
        if at < len(t):
            more, less = (t[at] + 1) % 256, (t[at] - 1) % 256
            t[at] = chance.choice((0, 1, 20, 64, 255, chance.randrange(256), t[at] ^ 1, more, less))
    if chance.random() < 0.1:
        t = t[:chance.choice((19, 20, records, len(t) - 1, chance.randrange(len(t) + 1)))]
    elif chance.random() < 0.1:
        t += PATTERN[:chance.choice((1, 8, 64))]
    return bytes(t)


def probe(test, t, chance):
    """One table: its check, and lookups with a base record and a number that suit it, or nearly do."""
    test.put(CHECK, table_=t)
    if len(t) >= 20:
        test.put(BASE_ROW, table_=t)
    count, size, directory = struct.unpack_from("<3I", t + bytes(20))
    places = range(directory, directory + 12 * min(count, 8), 12)
    known = [int.from_bytes(t[at:at + 8], "little") for at in places] or [40]
    number = chance.choice((7, 40, chance.choice(known), chance.randrange(2 ** 64)))
    length = size if size <= 4104 and chance.random() < 0.95 else chance.choice((0, 64, 72, 4096, 4104))
    used = length if chance.random() < 0.95 else chance.choice((0, length + 1, 2 ** 32 - 1))
    r = record(length, chance.randrange(800), b"FILE" if chance.random() < 0.95 else b"FILF", used)
    test.put(OPENING, r, t, number=number)
    for _ in range(2):
        near = (chance.choice(known) + chance.choice((0, 0, 0, 1))) % 2 ** 64
        wanted = chance.choice((number, near, near, near, chance.randrange(2 ** 64)))
        test.put_lookup(r, t, wanted, number=number, place=chance.choice((0, 56, chance.randrange(2 ** 64))))


def put_random_entry(test, chance):
    """The rest of a list, mostly with an entry that suits it."""
    units = chance.choice((0, 0, 1, 2, 5, 254, 255, chance.randrange(256)))
    offset = chance.choice((26, 26, 27, 32, 40, 255, chance.randrange(256)))
    end = max(26, offset) + 2 * units
    length = chance.choice((end, end, end, end + chance.randrange(9), end - 1, end // 2, 40, chance.randrange(65536)))
    left = chance.choice((length, length, length + chance.randrange(40), length - 1, end, end - 1, 26, 25))
    # one that the length would let through
    offset = chance.choice((offset, offset, offset, offset, 25, 26 + 2 * units)) % 256
    rest = bytearray(entry(min(left, 4096), length, units, offset, reference=chance.randrange(2 ** 64)))
    for _ in range(chance.choice((0, 0, 1, 3))):
        if rest:
            rest[chance.randrange(min(len(rest), 60))] = chance.choice((0, 1, 26, 255, chance.randrange(256)))
    test.put_entry(
        bytes(rest), number=chance.randrange(2 ** 64), place=chance.choice((56, chance.randrange(2 ** 64))))


def test_damaged_and_random_tables(test):
    """Tables and entries that are hurt where it tells."""
    print("seed %d, %d damaged and random tables, and as many entries" % (SEED, DAMAGED))
    chance, real = random.Random(SEED), volumes.tables()
    # few of those that others wrote: they are ten times as long and tell little more
    for k in range(DAMAGED):
        t = chance.choice(real) if k % 10 == 0 else random_table(chance)
        probe(test, damaged(t, chance) if chance.random() < 0.7 else t, chance)
        put_random_entry(test, chance)


def ended(test):
    """Each call was asked, and each refusal of an entry given."""
    test.finish("%s %d" % (call, number) for call in ("list::header", "list::step") for number in (14, 15, 31, 16))


main = suite.of(Tables, ended)

if __name__ == "__main__":
    main()
