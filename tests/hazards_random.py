"""Holds what tells a base record and a reused record, as built, to the second reading of the rules: real tables,
damaged copies of them and random ones, whose records are mostly of one file. Fails at any difference."""
import random
import struct

from lib import reading, suite, volumes
from lib.building import NUMBERS_BYTES, ROW_BYTES
from lib.damaging import places
from lib.on_hazards import OPENING, Hazards
from lib.random_tables import chained_table, mixed, streams_table
from lib.reading import items
from lib.reading.hazards import hazards

SEED = 20241129
REAL, DAMAGED, RANDOM, CHAINED, STREAMS = 8_000, 8_000, 10_000, 6_000, 8_000

# a table of more bytes is changed only one time in eight: it tells little more
SMALL = 12_000

# how many answers tell of no hazard, and how many of two and more, for the comparison to show much
OFTEN = 3_000

# where a record has its sequence number, its flags and its reference to a base record, and an entry its own
SEQUENCE_AT, FLAGS_AT, BASE_AT, NAMED_AT = 16, 22, 32, 22

SEQUENCES = (0, 1, 1, 2, 7, 255, 256, 2 ** 15, 2 ** 16 - 1)


class Open:
    """A table's bytes, which can be changed, and where each of its records stands."""

    def __init__(self, text):
        self.text = bytearray(text)
        count, self.size, directory, _, base = struct.unpack_from("<5I", text)
        self.places = dict(struct.unpack_from("<QI", text, directory + ROW_BYTES * k) for k in range(count))
        numbers = list(self.places)
        self.base = numbers[base] if base < count else None

    def record(self, number):
        """A copy of a record."""
        at = self.places[number]
        return bytes(self.text[at:at + self.size])

    def read(self, number, at):
        return struct.unpack_from("<H", self.text, self.places[number] + at)[0]

    def write(self, number, at, value, form="<H"):
        struct.pack_into(form, self.text, self.places[number] + at, value)


def is_well_formed(text):
    """Whether a table passes 21."""
    try:
        reading.check_table(text)
    except reading.Refusal:
        return False
    return True


def near(value, chance):
    """Another number of 16 bits, or 0."""
    return chance.choice((0, 0, value ^ 1, value ^ 0x100, value ^ 0x8000, *SEQUENCES))


def write_base(opened, number, base, chance):
    """The reference of a record to its base record: as it should be, or wrong."""
    file, sequence = (0, 0) if number == base else (base, chance.choice((opened.read(base, SEQUENCE_AT),) * 3 + (0,)))
    if chance.random() < 0.12:
        sequence = near(sequence, chance)
    if chance.random() < 0.06:
        file = chance.choice((0, base, number, base ^ 1, base ^ 2 ** 47, chance.choice(list(opened.places))))
    opened.write(number, BASE_AT, file % 2 ** 48 + (sequence << 48), "<Q")


def of_one_file(text, chance):
    """A copy of a table whose records refer to each other as those of a file do, but for a few."""
    opened = Open(text)
    if opened.base is None:
        return text
    for number in opened.places:
        opened.write(number, SEQUENCE_AT, chance.choice(SEQUENCES))
        opened.write(number, FLAGS_AT, chance.choice((1, 1, 1, 1, 1, 1, 3, 3, 0xFFFF, 0, 2, 0xFFFE)))
    for number in opened.places:
        write_base(opened, number, opened.base, chance)
    record = opened.record(opened.base)
    for at in places(record)[1]:
        file = int.from_bytes(record[at + 16:at + 22], "little")
        named = opened.read(file, SEQUENCE_AT) if file in opened.places else 1
        if chance.random() < 0.15:
            named = near(named, chance)
        opened.write(opened.base, at + NAMED_AT, named)
    return bytes(opened.text)


def hurt(text, chance):
    """A copy of a table with one of the fields changed that hazards are told by."""
    opened = Open(text)
    number = chance.choice(list(opened.places))
    if opened.base is not None and chance.random() < 0.5:
        entries = places(opened.record(opened.base))[1]
        if entries:
            opened.write(opened.base, chance.choice(entries) + NAMED_AT, chance.choice(SEQUENCES))
            return bytes(opened.text)
    at = chance.choice((SEQUENCE_AT, FLAGS_AT, *range(BASE_AT, BASE_AT + 8, 2)))
    was = opened.read(number, at)
    opened.write(number, at, chance.choice((0, 1, 2, 3, was ^ 1, was ^ 0x100, 1 << chance.randrange(16))))
    return bytes(opened.text)


class Counted(Hazards):
    """Counts the files without a hazard, and those with two and more."""

    def __init__(self):
        super().__init__()
        self.without, self.several = 0, 0

    def probe(self, text, chance):
        """One table: its base record, or another record, with its number or another."""
        base = items.base_of(text)
        number, r = base if base else (40, bytes(64))
        if base and chance.random() < 0.15:
            number, r = chance.choice(list(reading.rows(text)))
        if chance.random() < 0.03:
            number = chance.choice((0, 41, 2 ** 48, number + 1))
        if chance.random() < 0.01:
            r = chance.choice((r[:-8], r + bytes(8), r[:-1], b""))
        self.put(r, text, number)
        try:
            told = len(hazards(r, number, text).hazards)
        except reading.Refusal:
            return
        self.without += told == 0
        self.several += told > 1


def test_real_tables(test):
    """Every record of the tables of real volumes, as if it were the base, with its own number."""
    for text in volumes.tables():
        for number, r in reading.rows(text):
            test.put(r, text, number)


def test_real_tables_hurt(test):
    """Copies of real tables with a few fields changed that tell of hazards."""
    print("seed %d, %d tables" % (SEED, REAL))
    chance, tables = random.Random(SEED), volumes.tables()
    small = [text for text in tables if len(text) <= SMALL]
    for k in range(REAL):
        text = chance.choice(tables if k % 8 == 0 else small)
        for _ in range(chance.choice((1, 1, 2, 3))):
            text = hurt(text, chance)
        test.probe(text, chance)


def test_damaged_and_random_tables(test):
    """Tables that are hurt anywhere, and random ones, most of whose records are of one file."""
    print("%d damaged, %d random, %d chained and %d tables of streams" % (DAMAGED, RANDOM, CHAINED, STREAMS))
    chance, tables = random.Random(SEED + 1), volumes.tables()
    small = [text for text in tables if len(text) <= SMALL]

    def real(k):
        return chance.choice(tables if k % 8 == 0 else small)

    makers = ((chained_table, CHAINED), (streams_table, STREAMS))
    for text in mixed(chance, real, DAMAGED, RANDOM, makers, 0):
        if chance.random() < 0.8 and len(text) >= NUMBERS_BYTES and is_well_formed(text):
            text = of_one_file(text, chance)
        test.probe(text, chance)


def ended(test):
    """Each refusal and each kind of hazard was told, and often none and several."""
    test.finish(OPENING)
    print("without a hazard %d, with several %d" % (test.without, test.several))
    assert all(test.kinds.values()) and min(test.without, test.several) >= OFTEN


main = suite.of(Counted, ended)

if __name__ == "__main__":
    main()
