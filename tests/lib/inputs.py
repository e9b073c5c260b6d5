"""Inputs to the command: tables of every size and records of any length, most of them hurt."""
import struct

from lib import building, damaging, random_records, random_runs, random_tables, volumes

# how many tables are made as they were from the first on, before those of other kinds come in turn
FIRST = 300

# how many of them get other run bytes
OTHER_RUNS = 0.75

# no record has more than 4,096 bytes, and an input may
LONGEST_INPUT = 4200

# where the flags of a record stand (RULES 3.1), and where a table's record size does (RULES 10.1)
FLAGS_AT, SIZE_AT = 22, 4


def damaged_table(chance):
    """A table, damaged mostly, or a front of one."""
    text = random_tables.random_table(chance) if chance.random() < 0.5 else random_tables.chained_table(chance)
    if chance.random() < 0.7:
        text = damaging.damaged(text, chance)
    if chance.random() < 0.2:
        text = text[:chance.randrange(len(text) + 1)]
    return bytes(text)


def long_table(chance):
    """A damaged table of more bytes than the program `listing` takes: records of 4,096 bytes."""
    numbers = sorted(chance.sample(range(100), chance.choice((17, 18, 20))))
    records = {n: random_tables.random_record(chance, numbers, 4096, True) for n in numbers}
    return damaging.damaged(building.table(records, chance.choice(numbers)), chance)


def full_table(rows, size):
    """A whole table of so many rows, whose base record's list names all of them that it has room for."""
    records = {n: building.record(size, building.non_resident(0x80, 1)) for n in range(rows)}
    entries = [building.entry(0x80, n, 1, lowest=n) for n in range(1, min(rows, 100))]
    records[0] = building.record(size, building.list_of(*entries[:(size - 200) // 32]))
    return bytes(building.table(records, 0))


def table_in_turn(k, real, chance):
    """One of each kind in turn: a real one that is damaged, one whose header or rows are hurt, a long one."""
    if k < FIRST or k % 4 == 0:
        return damaged_table(chance)
    if k % 4 == 1:
        return damaging.damaged(chance.choice(real), chance)
    return random_tables.hurt_outside(chance) if k % 4 == 2 else long_table(chance)


def numbers_asked(text, chance):
    """Record numbers to ask a table for: one that it has, one more, and two that it most often has not."""
    numbers = [struct.unpack_from("<Q", text, at)[0] for at in range(20, min(len(text) - 8, 60), 12)] or [40]
    return numbers[0], chance.choice(numbers), 41, 2 ** 64 - 1


def tables(count, chance):
    """So many (table, record numbers to ask it for)."""
    real = volumes.tables()
    for k in range(count):
        text = table_in_turn(k, real, chance)
        if chance.random() < OTHER_RUNS:
            text = random_runs.in_table(text, chance)
        yield text, numbers_asked(text, chance)


def record_in_turn(k, real, chance):
    """A record that is damaged, a small random one, and the front of a long one, of any length."""
    if k % 3 == 0:
        return random_records.damaged(chance.choice(real)[1], chance)
    if k % 3 == 1:
        return random_records.random_record(chance)
    long = random_tables.random_record(chance, (40, 41), 4096, True) + building.PATTERN
    length = chance.randrange(LONGEST_INPUT + 1)
    front = long[:chance.choice((length, length // 8 * 8))]
    # most often with its own length for a used size, since that of the long one is above it
    return building.with_used(front, len(front)) if chance.random() < 0.8 else front


def places_of(text):
    """Where the records of a well-formed table stand, a place for each row."""
    count, _, directory = struct.unpack_from("<3I", text)
    return [struct.unpack_from("<QI", text, directory + building.ROW_BYTES * k)[1] for k in range(count)]


def with_rows_hurt(text, chance):
    """A table whose records have flags of every kind, and some of them other first bytes or another used size."""
    out = bytearray(text)
    for at in places_of(text):
        struct.pack_into("<H", out, at + FLAGS_AT, chance.choice((0, 1, 2, 3, chance.randrange(65536))))
        if chance.random() < 0.2:
            out[at + chance.randrange(4)] ^= 1 << chance.randrange(8)
        if chance.random() < 0.2:
            size = struct.unpack_from("<I", text, SIZE_AT)[0]
            struct.pack_into("<I", out, at + building.USED_AT, size + chance.choice((-1, 0, 1, 1, 2 ** 31)))
    return bytes(out)


def records(count, chance):
    """So many (bytes, number to lend with them)."""
    real = random_records.real_records()
    for k in range(count):
        text = record_in_turn(k, real, chance)
        if chance.random() < OTHER_RUNS:
            text = random_runs.in_record(text, chance)
        # any length: a front of it, or more behind it
        if chance.random() < 0.2:
            text = (text + building.PATTERN)[:chance.randrange(LONGEST_INPUT + 1)]
        if chance.random() < 0.1:
            text = text[:3] + b"e" + text[4:]
        yield text, chance.choice((0, 5, 40, 2 ** 48, 2 ** 64 - 1, chance.getrandbits(64)))
