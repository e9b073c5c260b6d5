"""Holds the layers `fields` and `record`, as built, to the second reading on real records, damaged copies and random
ones."""
import random

from lib import reading, suite
from lib.on_records import (
    FIND, FLAGS, HEADER, KNOWN_TYPE, ON_AN_ATTRIBUTE, OPENING_IN, TAKEN, WALK, Records,
)
from lib.random_records import damaged, random_record, real_records

SEED = 20240311
DAMAGED = 100_000


def probe(test, r, number, chance):
    """One record: its walk, and calls at a place that the walk comes to, or near one, or anywhere."""
    test.put(WALK, r, number=number)
    found = [a for a in reading.walk(r, number) if isinstance(a, reading.Attribute)]
    test.put(TAKEN, r, number=number, place=chance.randrange(len(found) + 3))
    place = chance.choice(found).offset if found else chance.randrange(160)
    if chance.random() < 0.2:
        place = max(0, place + chance.randrange(-40, 41))
    for kind in chance.sample(ON_AN_ATTRIBUTE, 2):
        test.put(kind, r, number=number, place=place)
    wanted = chance.choice(found) if found else None
    ty = wanted.ty if wanted and chance.random() < 0.8 else chance.choice((16, 48, 128, 0x30, 17))
    instance = wanted.instance if wanted and chance.random() < 0.8 else chance.randrange(6)
    test.put(FIND, r, number=number, ty=ty, instance=instance, place=place)
    if chance.random() < 0.1:
        test.put(HEADER, r, number=number)
        test.put(OPENING_IN, r, number=number, place=chance.choice((len(r), 1024, 4096)))


def test_real_records(test):
    """Every attribute of records that others wrote, by each call."""
    for number, r in real_records():
        test.put(HEADER, r, number=number)
        test.put_walk(r, number=number)
        for a in reading.walk(r, number):
            if a:
                test.put_all(r, a.offset, number=number)
                test.put(FIND, r, number=number, ty=a.ty, instance=a.instance, place=a.offset)
                test.put(FIND, r, number=number, ty=a.ty, instance=a.instance + 1, place=a.offset)


def test_damaged_and_random_records(test):
    """Calls on records that are hurt where it tells."""
    print("seed %d, %d damaged and random records" % (SEED, DAMAGED))
    chance, records = random.Random(SEED), real_records()
    # most are of 1,024 bytes: those of 4,096 cost four times as much and tell little more
    small = [pair for pair in records if len(pair[1]) == 1024]
    for k in range(DAMAGED):
        if k % 3 == 2:
            probe(test, random_record(chance), chance.randrange(2 ** 64), chance)
        else:
            number, r = chance.choice(records if k % 32 == 0 else small)
            probe(test, damaged(r, chance), number, chance)


def ended(test):
    """Each refusal was given but 7 to 13 of names and values, which record.py has by hand."""
    test.finish(
        ["number %2d" % n for n in (*range(1, 14), 18, 27, 28)]
        + ["reader %2d" % n for n in (*range(1, 6), 27, 28)],
        (KNOWN_TYPE, FLAGS))


main = suite.of(Records, ended)

if __name__ == "__main__":
    main()
