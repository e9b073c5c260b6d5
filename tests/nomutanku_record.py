"""Tests of `nomutanku record` as built: its lines as text and in JSON, held to the second reading of docs/RULES.md,
18.10 and 18.11, and to lines by hand."""
import random

import cases
import listing_cases
import runs
from lib import building, inputs, random_records, random_runs, reading, suite
from lib.on_nomutanku import Nomutanku
from lib.reading.single import single

SEED = 20240712
DAMAGED = 1000

# the most that is lent as a number
MOST = 2 ** 64 - 1

# record 40 of docs/RULES.md, 18.5, and its lines
RECORD = listing_cases.WHOLE[32:]
LINES = (
    b"record 40 size 128\n"
    b"header sequence 1 links 1 first 56 flags 1 used 116 allocated 128\n"
    b"attr 40 56 16 32 0 name 0 0 value resident 80 8\n"
    b"attr 40 88 128 24 1 name 0 0 value resident 112 0\n"
    b"end\n")


def hold(test, text, number):
    """The lines of a record with a number, on a file and by standard input."""
    expected = single(text, number)
    test.holds("record", text, expected, "--number", str(number))
    test.by_standard_input("record", text, expected, "--number", str(number))
    return expected


def by_hand(test, text, number, expected):
    """Lines that follow from the rules by hand: the second reading may not differ either."""
    test.same((hold(test, text, number),), expected)


def test_the_whole_case(test):
    """The record of docs/RULES.md, whose attributes stand there; without a number it is 0."""
    by_hand(test, RECORD, 40, LINES)
    expected = LINES.replace(b" 40 ", b" 0 ")
    test.same((single(RECORD),), expected)
    test.holds("record", RECORD, expected)
    test.by_standard_input("record", RECORD, expected)


def test_numbers(test):
    """A number of any size is told as it is lent."""
    for number in (0, 1, 9, 10, 255, 256, 2 ** 32, 2 ** 48 - 1, 2 ** 48, 2 ** 53 + 1, 10 ** 19, MOST):
        by_hand(test, RECORD, number, LINES.replace(b" 40 ", b" %d " % number))


def test_attributes_of_every_kind(test):
    """A list and an unknown type are told like any other, by what stands there; nothing is looked up, and an attribute
    that is not resident has its runs."""
    attributes = (
        building.resident(0x10, 0, 24), building.list_of(building.entry(0x80, 41, 1), instance=1),
        building.resident(0x11, 2, 24), building.non_resident(0x80, 3, 72, size=7),
        building.non_resident(0x20, 4, 64, runs=65),
        building.resident(0x30, 5, 40, 1, 40), building.resident(0x30, 6, 24, name=24, units=1))
    by_hand(test, building.record(512, *attributes, used=509, allocated=8), 5, (
        b"record 5 size 512\nheader sequence 5 links 2 first 56 flags 1 used 509 allocated 8\n"
        b"attr 5 56 16 24 0 name 0 0 value resident 80 0\n"
        b"attr 5 80 32 56 1 name 0 0 value resident 104 26\n"
        b"attr 5 136 17 24 2 name 0 0 value resident 160 0\n"
        b"attr 5 160 128 72 3 name 0 0 value runs 224 8 size 7\nrun refused 23\n"
        b"attr 5 232 32 64 4 name 0 0 value refused 12\n"
        b"attr 5 296 48 40 5 name 0 0 value refused 11\n"
        b"attr 5 336 48 24 6 name refused 8 value resident 360 0\n"
        b"end\n"))


# a list that is not resident, an attribute of unknown type, one that has no run bytes, and one behind it
HELD = (
    building.non_resident(0x20, 1, 72, inside=bytes.fromhex("11 05 0A 01 08 11 01 02"), size=7),
    building.non_resident(0x11, 2, 72, inside=bytes.fromhex("11 05 03 11 02 FC 00 00"), size=8),
    building.non_resident(0x80, 3, 64, size=9),
    building.non_resident(0x80, 4, 72, inside=bytes.fromhex("11 05 0A 21 01 00 FF 00"), size=10))


def test_runs_of_every_kind(test):
    """Any attribute that is not resident has its runs under it, each begins anew, and a refusal ends those of one."""
    by_hand(test, building.record(512, *HELD, used=509, allocated=8), 5, (
        b"record 5 size 512\nheader sequence 5 links 2 first 56 flags 1 used 509 allocated 8\n"
        b"attr 5 56 32 72 1 name 0 0 value runs 120 8 size 7\nrun 10 5\nhole 8\nrun 12 1\n"
        b"attr 5 128 17 72 2 name 0 0 value runs 192 8 size 8\nrun 3 5\nrun refused 26\n"
        b"attr 5 200 128 64 3 name 0 0 value runs 264 0 size 9\n"
        b"attr 5 264 128 72 4 name 0 0 value runs 328 8 size 10\nrun 10 5\nrun refused 26\n"
        b"end\n"))


def test_the_cases_of_runs(test):
    """Each case of tests/runs.py, whose runs stand there by hand, is told under an attribute and again under the
    next."""
    def hold_case(case):
        held, count = listing_cases.running(case.text.hex()), len(case.text)
        under = "".join(line + "\n" for line in cases.lines_under(case))
        attributes = "".join(
            "attr 5 %d 128 %d 1 name 0 0 value runs %d %d size 4000\n%s" % (at, len(held), at + 64, count, under)
            for at in (56, 56 + len(held)))
        by_hand(test, building.record(512, held, held, used=509, allocated=8), 5, (
            "record 5 size 512\nheader sequence 5 links 2 first 56 flags 1 used 509 allocated 8\n%send\n"
            % attributes).encode())

    test.each(hold_case, runs.CASES)
    print("%d cases of run bytes" % len(runs.CASES))


def test_ends(test):
    """How the walk of a record ends: stopped by 3, 4, 5 and 28, and whole without an end marker."""
    head = b"record 1 size 64\nheader sequence 5 links 2 first 56 flags 1 used %d allocated 64\n"
    for end, last in ((building.END, b"end\n"), (b"\x10\0\0\0\x10\0\0\0", b"stopped 3\n")):
        for used in (0, 60, 64):
            by_hand(test, building.record(64, end=end, used=used), 1, head % used + last)
    # one attribute fills the record, as its length says, or not
    filled = b"attr 1 40 16 24 0 name 0 0 value resident 64 0\nend\n"
    for length, last in ((15, b"stopped 4\n"), (25, b"stopped 5\n"), (24, filled)):
        attribute = building.head(0x10, length).ljust(20, b"\0") + b"\x18\0\0\0"
        text = building.record(64, attribute, first=40, end=b"")
        by_hand(test, text, 1, head.replace(b"first 56", b"first 40") % 64 + last)
        # one byte of it past the used size
        last = b"stopped 28\n" if last == filled else last
        by_hand(test, building.with_used(text, 63), 1, head.replace(b"first 56", b"first 40") % 63 + last)


def test_used_sizes(test):
    """27, on both sides of its line, comes behind 1 and 2 and in front of every line; 28 ends the lines."""
    both = [line + b"\n" for line in LINES.split(b"\n")[2:4]]
    for used, lines, last in (
        (128, both, b"end\n"), (112, both, b"end\n"), (111, both[:1], b"stopped 28\n"),
        (88, both[:1], b"stopped 28\n"), (87, [], b"stopped 28\n"), (0, [], b"stopped 28\n")):
        head = b"\n".join(LINES.split(b"\n")[:2]).replace(b"used 116", b"used %d" % used) + b"\n"
        by_hand(test, building.with_used(RECORD, used), 40, head + b"".join(lines) + last)
    for used in (129, 136, 2 ** 16, 2 ** 32 - 1):
        above = building.with_used(RECORD, used)
        by_hand(test, above, 40, b"record refused 27\n")
        by_hand(test, b"BAAD" + above[4:], 40, b"record refused 2\n")
        by_hand(test, above[:-1], 40, b"record refused 1\n")
    # its own length counts, and not the allocated size, which is 128
    by_hand(test, RECORD[:120], 40, LINES.replace(b"size 128", b"size 120"))
    by_hand(test, RECORD[:112], 40, b"record refused 27\n")


def test_lengths(test):
    """1, on both sides of its line, comes before 2."""
    for length in (0, 1, 4, 8, 56, 63, 65, 68, 4095, 4097, 4104, 4200, 100_000):
        for magic in (b"FILE", b"BAAD"):
            by_hand(test, building.blank_record(length, magic=magic), 7, b"record refused 1\n")
    for length in (64, 72, 1024, 4088, 4096):
        by_hand(test, building.blank_record(length, magic=b"BAAD"), 7, b"record refused 2\n")
        assert hold(test, building.blank_record(length), 7).startswith(b"record 7 size %d\nheader " % length)


def test_real_records(test):
    """Every record of real tables, with its own number."""
    records = random_records.real_records()
    found = test.each(lambda pair: hold(test, pair[1], pair[0]), records)
    print("%d records of tests/volumes, %d lines" % (len(records), b"".join(found).count(b"\n")))


def records_of_cases():
    """(number, record) of the first rows of each case that is a table."""
    for text, _ in cases.kept(cases.FOLDER).values():
        try:
            reading.check_table(text)
        except reading.Refusal:
            continue
        yield from list(reading.rows(text))[:3]


def test_records_of_cases(test):
    """The first records of each case."""
    records = sorted(set(records_of_cases()))
    test.each(lambda pair: hold(test, pair[1], pair[0]), records)
    print("%d records of tests/cases" % len(records))


def test_damaged_records(test):
    """Damaged and random records, and bytes of any length."""
    records = list(inputs.records(DAMAGED, random.Random(SEED)))
    found = test.each(lambda pair: hold(test, *pair), records)
    last = [text.split(b"\n")[-2] for text in found]
    count = {word: last.count(word) for word in (
        b"end", b"stopped 3", b"stopped 4", b"stopped 5", b"stopped 28", b"record refused 1", b"record refused 2",
        b"record refused 27")}
    assert sum(count.values()) == DAMAGED and min(count.values()) > DAMAGED // 200, count
    print("%d damaged records of seed %d: %s" % (DAMAGED, SEED, count))
    print("runs: %s" % random_runs.each_kind(found, DAMAGED // 100))


main = suite.of(Nomutanku, Nomutanku.finish)

if __name__ == "__main__":
    main()
