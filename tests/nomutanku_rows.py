"""Tests of `nomutanku rows` as built: its lines as text and in JSON, held to the second reading of docs/RULES.md, 18.9
and 18.11, and to lines by hand."""
import random
import struct

import cases
from lib import building, inputs, suite
from lib.on_nomutanku import REFUSED, Nomutanku
from lib.reading import directory

SEED = 20240711
DAMAGED = 1000

# a record's flag that says that it is in use (RULES 1.5)
IN_USE = 0x0001


def hold(test, text):
    """The rows of a table, on a file and by standard input."""
    expected = directory.rows(text)
    test.holds("rows", text, expected)
    test.by_standard_input("rows", text, expected)
    return expected


def by_hand(test, text, expected):
    """Rows that follow from the rules by hand: the second reading may not differ either."""
    test.same((hold(test, text),), expected)


def test_by_hand(test):
    """A record in use, one that is not, one that is not FILE, and one whose used size is above its length, in the order
    of the directory; with a base row and without one."""
    records = {
        40: building.record(64, flags=1), 41: building.record(64, flags=2), 43: building.record(64, magic=b"BAAD"),
        44: building.record(64, used=65)}
    expected = b"row 40 68 used\nrow 41 132 free\nrow 43 196 refused 2\nrow 44 260 refused 27\nend rows 4\n"
    for base in (40, 43, 44, 99):
        by_hand(test, building.table(records, base), expected)
    # what stands behind the records, and gaps around the directory
    by_hand(test, building.table(records, 40) + b"more", expected)
    gaps = b"row 40 84 used\nrow 41 148 free\nrow 43 212 refused 2\nrow 44 276 refused 27\nend rows 4\n"
    by_hand(test, building.table(records, 40, gap=8), gaps)


def test_used_sizes(test):
    """27 on both sides of its line, behind 2 and in front of the flag; stale attributes are no matter of a row."""
    attribute = building.resident(0x10, 0)
    given = (
        (64, b"FILE", b"used"), (65, b"FILE", b"refused 27"), (2 ** 32 - 1, b"FILE", b"refused 27"),
        (0, b"FILE", b"used"), (63, b"FILE", b"used"), (65, b"BAAD", b"refused 2"), (64, b"BAAD", b"refused 2"))
    for flags in (1, 0):
        records = {
            k: building.record(64, attribute, first=40, end=b"", used=used, magic=magic, flags=flags)
            for k, (used, magic, _) in enumerate(given)}
        rows = b"".join(
            b"row %d %d %s\n" % (k, 104 + 64 * k, state if flags or state != b"used" else b"free")
            for k, (_, _, state) in enumerate(given))
        by_hand(test, building.table(records, 0), rows + b"end rows %d\n" % len(given))


def test_no_rows(test):
    """A table without a row holds nothing, and one that is malformed is no table."""
    by_hand(test, building.numbers(0, 64, 20, 20, 0), b"end rows 0\n")
    by_hand(test, building.numbers(0, 64, 20, 20, 0)[:19], REFUSED)
    by_hand(test, building.numbers(0, 64, 20, 20, 1), REFUSED)
    by_hand(test, b"", REFUSED)


def test_rows_over_each_other(test):
    """Two rows of one record, and one that begins inside another's record."""
    record = building.record(64, flags=1)
    text = building.packed_table([(0, 0), (1, 0), (2 ** 48 - 1, 4)], record + b"FILE", 64, 3)
    by_hand(test, text, b"row 0 56 used\nrow 1 56 used\nrow 281474976710655 60 refused 2\nend rows 3\n")


def test_each_flag(test):
    """Of all bits of the flags one alone tells whether a record is in use."""
    flags = [0, 0xFFFF, 0xFFFE, *(1 << k for k in range(16))]
    records = {k: building.record(64, flags=given) for k, given in enumerate(flags)}
    states = b"".join(
        b"row %d %d %s\n" % (k, 20 + 12 * len(flags) + 64 * k, b"used" if given & IN_USE else b"free")
        for k, given in enumerate(flags))
    by_hand(test, building.table(records, 0), states + b"end rows %d\n" % len(flags))


def test_each_letter(test):
    """Each of the four bytes of FILE tells, and nothing behind them up to the used size."""
    records = {k: bytearray(building.record(64, flags=1)) for k in range(6)}
    for k in range(6):
        records[k][k] ^= 0x20
    states = b"".join(b"row %d %d %s\n" % (k, 92 + 64 * k, b"refused 2" if k < 4 else b"used") for k in range(6))
    by_hand(test, building.table(records, 0), states + b"end rows 6\n")


def test_kept_tables(test):
    """Every case and every real table."""
    tables = [text for folder in (cases.FOLDER, cases.OTHERS) for text, _ in cases.kept(folder).values()]
    found = test.each(lambda text: hold(test, text), tables)
    print("%d tables of tests/cases and tests/volumes, %d rows" % (len(tables), sum(f.count(b"row ") for f in found)))


def test_damaged_tables(test):
    """Tables of every kind, damaged, with records in use, free, not FILE, and of too large a used size."""
    chance = random.Random(SEED)
    tables = []
    for text, _ in inputs.tables(DAMAGED, chance):
        whole = directory.rows(text) != REFUSED
        tables.append(inputs.with_rows_hurt(text, chance) if whole else text)
    found = b"".join(test.each(lambda text: hold(test, text), tables))
    count = {word: found.count(word) for word in (
        b" used\n", b" free\n", b" refused 2\n", b" refused 27\n", REFUSED, b"end rows")}
    assert min(count.values()) > DAMAGED // 10, count
    print("%d damaged tables of seed %d: %s" % (DAMAGED, SEED, count))


def test_as_many_rows_as_there_may_be(test):
    """4,096 rows of 4,096 bytes; one row more is no table."""
    text = inputs.full_table(4096, 4096)
    found = hold(test, text)
    test.same((found.count(b"\n"), found[-14:]), 4097, b"end rows 4096\n")
    by_hand(test, struct.pack("<I", 4097) + text[4:], REFUSED)


main = suite.of(Nomutanku, Nomutanku.finish)

if __name__ == "__main__":
    main()
