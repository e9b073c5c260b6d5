"""Holds the records that a record's lists refer to, as built, to the second reading of the rules: real records, damaged
copies of them and random ones, each with its own number or one that its lists name. Fails at any difference."""
import random

from lib import building, damaging, random_records, reading, suite, volumes
from lib.on_references import OPENING, STOPPING, References
from lib.random_tables import chained_table, random_record, streams_table, table_in_turn
from lib.reading.references import references

SEED = 20241128
DAMAGED, RANDOM, TABLES, LISTS = 12_000, 8_000, 8_000, 8_000

NUMBERS = (0, 1, 2, 3, 5, 39, 40, 41, 42, 43, 300, 70_000, 2 ** 32, 2 ** 32 + 40, 2 ** 47, 2 ** 48 - 1)


def records_of(text):
    """(number, record) of each row of a table, none where it is not well formed."""
    try:
        reading.check_table(text)
    except reading.Refusal:
        return []
    return list(reading.rows(text))


def own_number(chance, number, r):
    """The number to lend with a record: its own, one that its lists name, or another."""
    roll = chance.random()
    if roll < 0.6:
        return number
    try:
        told = references(r, number).numbers
    except reading.Refusal:
        told = []
    if told and roll < 0.9:
        return chance.choice(told)
    return chance.choice((*NUMBERS, 2 ** 48, 2 ** 48 + 40, 2 ** 64 - 1, number + 1))


def put(test, chance, number, r):
    """A record, with a number."""
    test.put(r, own_number(chance, number, r))


def test_real_records(test):
    """Each record of the real tables, with its own number and with each that its lists name."""
    for number, r in random_records.real_records():
        test.put(r, number)
        for other in references(r, number).numbers:
            test.put(r, other)


def lists_hurt(r, chance):
    """A record with a few changes, most of them in its lists and their entries."""
    r = bytearray(damaging.with_other_used(r, chance, 0.1))
    for _ in range(chance.choice((1, 1, 2, 3))):
        damaging.hurt_record(r, NUMBERS, chance)
    return bytes(r)


def test_damaged_real_records(test):
    """Copies of real records with lists that are hurt: headers, entries, lengths, used sizes."""
    print("seed %d, %d records" % (SEED, DAMAGED))
    chance = random.Random(SEED)
    real = random_records.real_records()
    with_lists = [pair for pair in real if references(pair[1], pair[0]).numbers]
    assert len(with_lists) >= 10
    for k in range(DAMAGED):
        number, r = chance.choice(with_lists if k % 4 else real)
        r = lists_hurt(r, chance) if k % 3 else random_records.damaged(r, chance)
        put(test, chance, number, r)


def test_random_records(test):
    """Small random records, and larger ones of attributes and lists."""
    chance = random.Random(SEED + 1)
    for k in range(RANDOM):
        if k % 4 == 0:
            put(test, chance, 40, random_records.random_record(chance))
            continue
        size = chance.choice((64, 128, 256, 512, 1024, 4096, 8 * chance.randrange(8, 513)))
        numbers = sorted(chance.sample(NUMBERS, chance.choice((1, 2, 3, 5, 8))))
        put(test, chance, chance.choice(numbers), random_record(chance, numbers, size, True))


def test_records_of_random_tables(test):
    """The records of tables as the item walk and the parts are asked of, each of them, looked-up ones too."""
    chance = random.Random(SEED + 2)
    for k in range(TABLES // 4):
        maker = (chained_table, streams_table, lambda c: table_in_turn(c, k))[k % 3]
        for number, r in records_of(maker(chance)):
            put(test, chance, number, r)


def many_entries(chance):
    """A record with lists of many entries, told once, twice or never, and sometimes cut."""
    size = chance.choice((512, 1024, 2048, 4096, 4096))
    left, lists, base = size - 60, [], chance.randrange(2 ** 40)
    while left > 60 and len(lists) < 6:
        # most of the numbers are told again
        spread = chance.choice((1, 3, 10, 200, 2 ** 30))
        some = chance.randrange(1, max(2, (left - 24) // 26 + 1))
        entries = [
            building.entry(chance.choice((0x80, 0x80, 0x30, 0x11)), base + chance.randrange(spread), k, lowest=k)
            for k in range(some)]
        lists.append(building.list_of(*entries, cut=chance.choice((0, 0, 0, 0, 1, 25, 26))))
        left -= len(lists[-1])
    return base, building.record(size, *lists, first=chance.choice((42, 48, 56)))


def test_many_entries(test):
    """Lists that have nearly as many entries as there is room for, with numbers near each other or far apart."""
    chance = random.Random(SEED + 3)
    for _ in range(LISTS):
        base, r = many_entries(chance)
        number = chance.choice((base, base + 1, base + 2, 0, 2 ** 48))
        if chance.random() < 0.2:
            at = chance.randrange(len(r))
            r = r[:at] + bytes((chance.choice((0, 1, 26, 255, r[at] ^ 1)),)) + r[at + 1:]
        test.put(r, number)


def ended(test):
    """Each refusal was given."""
    test.finish((*OPENING, *STOPPING))


main = suite.of(References, ended)

if __name__ == "__main__":
    main()
