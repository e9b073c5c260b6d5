"""Records to ask about: those of real tables, damaged copies of them, and random ones."""
import struct

from lib import reading, volumes
from lib.building import with_used
from lib.damaging import used_near, with_other_used


def damaged(r, chance):
    """A record with some bytes changed, most of them in its headers, or cut."""
    r = bytearray(with_other_used(r, chance, 0.1))
    starts = [20] + [a.offset for a in reading.walk(r, 0) if isinstance(a, reading.Attribute)]
    for _ in range(chance.choice((1, 1, 1, 2, 3, 8))):
        if chance.random() < 0.9:
            at = chance.choice(starts) + chance.choice(
                (0, 1, 4, 5, 6, 7, 8, 9, 10, 11, 14, 16, 17, 19, 20, 21, 32, 33))
        else:
            at = chance.randrange(len(r))
        if at < len(r):
            r[at] = chance.choice((0, 1, 15, 16, 24, 63, 64, 65, 255, chance.randrange(256), r[at] ^ 1, r[at] ^ 8))
    if chance.random() < 0.1:
        r = r[
            :chance.choice((64, 128, 256, 512, 8 * chance.randrange(len(r) // 8 + 1), chance.randrange(len(r) + 1)))]
        # most often with the used size of a record of that length, or all of them would be 27
        return with_used(bytes(r), len(r)) if chance.random() < 0.8 else bytes(r)
    return bytes(r)


def random_record(chance):
    """A small record of random bytes with a header that lets the calls come far."""
    r = bytearray(chance.randbytes(chance.choice((64, 72, 96, 128, 160))))
    r[0:4] = b"FILE"
    at = chance.choice((24, 32, 48, 56))
    struct.pack_into("<H", r, 20, at)
    while at + 24 <= len(r):
        length = chance.choice((16, 17, 23, 24, 25, 32, 40, 63, 64, 65, 72, len(r) - at, chance.randrange(100)))
        struct.pack_into("<IIBBHHHIH", r, at, chance.choice((16, 48, 128, 256, 17, chance.randrange(300))), length,
            chance.choice((0, 0, 1)), chance.randrange(4), chance.choice((0, 16, 24, length, chance.randrange(80))),
            chance.randrange(65536), chance.randrange(4), chance.choice((0, 4, chance.randrange(80))),
            chance.randrange(90))
        if at + 34 <= len(r):
            struct.pack_into("<H", r, at + 32, chance.choice((64, chance.randrange(90))))
        at += max(length, 16)
    # most often its length, since any number is above it
    whole = with_used(bytes(r), len(r))
    return whole if chance.random() < 0.7 else with_used(whole, used_near(whole, chance))


def real_records():
    """(number, record) of each row of the real tables."""
    records = [pair for table in volumes.tables() for pair in reading.rows(table)]
    assert len(records) >= 20
    return records
