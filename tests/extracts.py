"""Holds the second reading of extracts of a raw $MFT to cases that were written by hand, and to what ntfs-3g reads of
real records (tests/extracts).

A case is an extract, each record of it with what becomes of it, and a buffer; CASES has all of them, as data. Fails at
any difference.
"""
import os
import sys
from typing import NamedTuple, Optional, Union

from lib import suite, volumes
from lib.building import BLOCK, NUMBERS_BYTES, PAIR, PATTERN, ROW_BYTES, packed_table, pair_places, raw_record
from lib.building import with_byte
from lib.programs import TESTS
from lib.reading import Refusal, check_table, rows
from lib.reading.extracts import First, Report, extract

# the number of the first record, where nothing else is asked
FIRST = 40

# the ends of the numbers that a row may have, and that a number may have
ROW_END, END = 2 ** 48, 2 ** 64

SIZES = range(512, 4097, 512)
MOST_ROWS = 4096

# what a record that is left out has for what becomes of it
LEFT_OUT = None


class Record(NamedTuple):
    """A record of an extract, and what becomes of it: it is written as these bytes, refused by this number, or left
    out."""

    raw: bytes
    fate: Union[bytes, int, None]


def text_of(case):
    """The records of a case one behind another, and what it has behind them where it is broken."""
    return b"".join(record.raw for record in case.records) + case.behind


class Case(NamedTuple):
    """An extract of records of this size, and a buffer that has so many bytes more than the table needs, or fewer. The
    call is refused by this number at this place, or is not."""

    name: str
    records: list
    size: int = 1024
    first: int = FIRST
    more: int = 0
    refused: Optional[tuple] = None
    behind: bytes = b""

    text = property(text_of)

    @property
    def rows(self):
        """The rows that are written, (number, record)."""
        return [(self.first + k, r.fate) for k, r in enumerate(self.records) if isinstance(r.fate, bytes)]

    @property
    def room(self):
        """How long the buffer is."""
        return length_of(len(self.rows), self.size) + self.more


def length_of(count, size):
    """How many bytes a table of so many rows has."""
    return NUMBERS_BYTES + (ROW_BYTES + size) * count


def expected(case):
    """The refusal, or the table and the report, by what becomes of each record."""
    if case.refused:
        number, place = case.refused
        return number, 0, place
    held, fates = case.rows, [record.fate for record in case.records]
    refused = [(k, fate) for k, fate in enumerate(fates) if isinstance(fate, int)]
    first = None
    if refused:
        position, cause = refused[0]
        first = First(position, case.first + position if case.first + position < END else None, cause)
    directory = [(number, case.size * k) for k, (number, _) in enumerate(held)]
    table = packed_table(directory, b"".join(record for _, record in held), case.size, len(held))
    left_out = sum(fate is LEFT_OUT for fate in fates)
    return table, Report(length_of(len(held), case.size), len(held), left_out, len(refused), first)


# Records, and what becomes of them.

def sound(size=1024, k=0, array=48):
    """One that is written."""
    return Record(*raw_record(size, k, array))


def bad_array(size=1024, k=0, array=48, count=None):
    """One that is refused by 29."""
    return Record(raw_record(size, k, array, count).raw, 29)


def torn(size=1024, pairs=(0,), byte=0, k=0, array=48):
    """One that is refused by 30: these of its pairs are no longer the check number."""
    raw, places = raw_record(size, k, array).raw, pair_places(size)
    for pair in pairs:
        raw = with_byte(raw, places[pair] + byte)
    return Record(raw, 30)


def left_out(size=1024, magic=b"BAAD", k=0, **more):
    """One that does not begin with FILE."""
    return Record(raw_record(size, k, magic=magic, **more).raw, LEFT_OUT)


def one(name, record, **more):
    """A case of one record."""
    return Case(name, [record], len(record.raw), **more)


# 1: the record size, and a last record that is broken.

ALLOWED = [one("records of %d bytes" % size, sound(size)) for size in SIZES]
NOT_ALLOWED = [
    *(one("records of %d bytes" % size, Record(PATTERN[:size], LEFT_OUT), refused=(1, 0))
      for size in (1, 2, 64, 256, 510, 511, 513, 514, 768, 1000, 1023, 1025, 2047, 4095, 4097, 4608, 5120, 8192)),
    *(Case("no records of %d bytes" % size, [], size, refused=(1, 0))
      for size in (0, 1, 511, 513, 4608, 2 ** 16 + 512, 2 ** 32, 2 ** 32 + 1024, END - 1024, END - 1)),
    Case("records of no byte", [], 0, behind=PATTERN[:1024], refused=(1, 0)),
]
BROKEN = [
    Case("%d bytes behind %d records of %d" % (behind, count, size), [sound(size, k) for k in range(count)], size,
         behind=sound(size, 9).raw[:behind], refused=(1, 0))
    for size in (512, 1024, 4096) for count in (0, 1, 2) for behind in (1, 256, size - 1)
]

# 29: where the array lies, for one of so many bytes, and its size


def array_bytes(size):
    """How many bytes the array of a record has."""
    return PAIR * (size // BLOCK + 1)


def good_arrays(size):
    """Places of an array on the good side of each line: over the header's fields and straight behind them, at an odd
    place, up to each pair and straight behind each but the last."""
    need = array_bytes(size)
    yield from (0, 1, 2, 3, 4, 5, 6, 7, 8, 42, 48, 49, 100)
    for pair in pair_places(size):
        yield from (pair - need - 1, pair - need)
        if pair + PAIR < size:
            yield from (pair + PAIR, pair + PAIR + 1)


def bad_arrays(size):
    """Places on the bad side: a byte into each pair from either side, inside it, at the record's end and past it."""
    need = array_bytes(size)
    for pair in pair_places(size):
        yield from (pair - need + 1, pair - need + 2, pair - 2, pair - 1, pair, pair + 1)
    yield from (size - need, size - need + 1, size - 1, size, size + 1, 32768, 65534, 65535)


ARRAYS = [
    *(one("the array of %d bytes at %d" % (size, at), sound(size, array=at)) for size in SIZES
      for at in good_arrays(size)),
    *(one("the array of %d bytes at %d, 29" % (size, at), bad_array(size, array=at)) for size in SIZES
      for at in sorted(set(bad_arrays(size)))),
    *(one("%d numbers in the array of %d bytes" % (count, size), bad_array(size, count=count))
      for size in SIZES for count in sorted({0, 1, 32768, 65535, *(size // BLOCK + d for d in (0, 2, 257))})),
]

# 30: each pair; and 29 before it

PAIRS = [
    *(one("pair %d of %d bytes, its byte %d" % (pair, size, byte), torn(size, (pair,), byte))
      for size in SIZES for pair in range(size // BLOCK) for byte in (0, 1)),
    *(one("all pairs of %d bytes" % size, torn(size, range(size // BLOCK))) for size in SIZES),
    *(one("the check number of %d bytes" % size, Record(with_byte(sound(size).raw, 48), 30)) for size in SIZES),
    *(one("a record of %d bytes with its fixup" % size, Record(raw_record(size).fixed, 30)) for size in SIZES),
    *(one("29 before 30, byte %d of %d" % (at, size), Record(with_byte(bad_array(size, count=1).raw, at), 29))
      for size in (512, 1024, 4096) for at in sorted({510, size - 1})),
    *(one("29 before 30, an array at %d" % at, Record(with_byte(bad_array(1024, array=at).raw, 1023), 29))
      for at in (505, 510, 1017, 1018, 65535)),
    # a pair is compared with the check number and no other
    one("a pair that is the number kept for it", Record(
        sound().raw[:510] + raw_record(1024).fixed[510:512] + sound().raw[512:], 30)),
]

# FILE, and what becomes of the others

MAGICS = [
    *(one("a record that begins with %s" % magic.hex(), left_out(magic=magic))
      for magic in (b"BAAD", b"FILF", b"FIL\0", b"fILE", b"GILE", b"FHLE", b"INDX", bytes(4))),
    one("a record of zeros", Record(bytes(1024), LEFT_OUT)),
    one("one that is left out has no 29", left_out(array=510)),
    one("nor 30", Record(with_byte(left_out().raw, 1023), LEFT_OUT)),
    Case("only records left out", [left_out(k=k) for k in range(3)]),
    Case("only records refused", [torn(), bad_array(array=510), torn()]),
    Case("numbers go on behind records left out", [
        left_out(), sound(k=1), left_out(), left_out(), sound(k=2), left_out(k=3)]),
    Case("numbers go on behind records refused", [torn(), sound(k=1), bad_array(array=510), sound(k=2), torn(k=3)]),
    *(Case("the first refused at %d, by %d" % (at, record.fate), [
        *(sound(k=k) if k % 2 else left_out(k=k) for k in range(at)), record, torn(), bad_array(count=1), sound(k=9)])
      for at in (0, 1, 2, 3, 7) for record in (torn(), bad_array(array=510))),
]

# 44, and numbers beyond

NUMBERS = [
    one("number 0", sound(), first=0),
    one("number 2^48 - 1", sound(), first=ROW_END - 1),
    one("number 2^48", sound(), first=ROW_END, refused=(44, 20)),
    one("number 2^48 + 1", sound(), first=ROW_END + 1, refused=(44, 20)),
    one("number 2^64 - 1", sound(), first=END - 1, refused=(44, 20)),
    Case("up to 2^48 - 1", [sound(k=k) for k in range(4)], first=ROW_END - 4),
    Case("up to 2^48", [sound(k=k) for k in range(4)], first=ROW_END - 3, refused=(44, 56)),
    Case("the second at 2^48", [sound(), sound(k=1)], first=ROW_END - 1, refused=(44, 32)),
    # the place is that of a row, not of a position
    Case("2^48 behind a record left out", [left_out(), sound()], first=ROW_END - 1, refused=(44, 20)),
    Case("2^48 behind a record refused", [torn(), sound()], first=ROW_END - 1, refused=(44, 20)),
    Case("2^48 behind one of each", [left_out(), sound(), torn(), sound(k=2), sound(k=3)], first=ROW_END - 3,
         refused=(44, 32)),
    # none but a row's number is asked
    one("2^48, left out", left_out(), first=ROW_END),
    one("2^48, refused", torn(), first=ROW_END),
    Case("2^48 and above, none written", [left_out(), torn(), bad_array(count=1)], first=ROW_END),
    Case("2^48, left out behind 2^48 - 1", [sound(), left_out(), torn()], first=ROW_END - 1),
    # sums don't wrap
    Case("2^64, written", [left_out(), sound()], first=END - 1, refused=(44, 20)),
    Case("2^64 + 1, written", [torn(), left_out(), sound()], first=END - 1, refused=(44, 20)),
    Case("2^64 - 1, refused", [torn()], first=END - 1),
    Case("2^64 - 1, the second refused", [left_out(), torn()], first=END - 2),
    Case("2^64, refused", [left_out(), torn()], first=END - 1),
    Case("2^64, refused by 29", [left_out(), bad_array(count=1)], first=END - 1),
    Case("2^64 + 1, refused", [left_out(), left_out(), torn()], first=END - 1),
    Case("2^64 - 1 and 2^64, refused", [torn(), bad_array(count=1)], first=END - 1),
    Case("2^64, left out", [left_out(), left_out()], first=END - 1),
]

# 34 and 35

MANY = [
    Case("4,096 rows", [sound(512)] * MOST_ROWS, 512),
    Case("4,097 rows", [sound(512)] * (MOST_ROWS + 1), 512, refused=(34, 0)),
    Case("4,096 rows and others", [left_out(512), *[sound(512)] * MOST_ROWS, torn(512)], 512),
    Case("4,096 rows up to 2^48 - 1", [sound(512)] * MOST_ROWS, 512, ROW_END - MOST_ROWS),
]
LENGTHS = [
    Case("no record", []),
    *(Case("no record, %d bytes more" % more, [], more=more) for more in (1, 44)),
    *(Case("no record, %d bytes more" % more, [], more=more, refused=(35, 0)) for more in (-1, -20)),
    *(Case("%d rows, %d bytes more" % (count, more), [sound(k=k) for k in range(count)], more=more)
      for count in (1, 2, 5) for more in (1, 12, 1036, 4000)),
    *(Case("%d rows, %d bytes more" % (count, more), [sound(k=k) for k in range(count)], more=more, refused=(35, 0))
      for count in (1, 2, 5) for more in (-1, -12, -1036, -length_of(count, 1024))),
    # what is not written needs no room
    Case("a row among others", [left_out(), torn(), sound(), bad_array(count=1)]),
    Case("a row among others, a byte less", [left_out(), torn(), sound(), bad_array(count=1)], more=-1,
         refused=(35, 0)),
    Case("4,096 rows, a byte less", [sound(512)] * MOST_ROWS, 512, more=-1, refused=(35, 0)),
]

# each two of those that refuse a call: 1, 44, 34, 35
ORDER = [
    Case("1 before 44", [sound()], first=ROW_END, behind=b"F", refused=(1, 0)),
    Case("1 before 34", [sound(512)] * (MOST_ROWS + 1), 512, behind=b"F", refused=(1, 0)),
    Case("1 before 35", [sound()], more=-1, behind=b"F", refused=(1, 0)),
    Case("1 before 35, by the size", [], 513, more=-20, refused=(1, 0)),
    Case("44 before 34, the last row", [sound(512)] * (MOST_ROWS + 1), 512, ROW_END - MOST_ROWS,
         refused=(44, 20 + 12 * MOST_ROWS)),
    Case("44 before 34, the first", [sound(512)] * (MOST_ROWS + 1), 512, ROW_END, refused=(44, 20)),
    Case("44 before 35", [sound()], first=ROW_END, more=-1, refused=(44, 20)),
    Case("34 before 35", [sound(512)] * (MOST_ROWS + 1), 512, more=-1, refused=(34, 0)),
    Case("44, 34 and 35", [sound(512)] * (MOST_ROWS + 1), 512, END - 1, more=-2_000_000, refused=(44, 20)),
]

CASES = [
    *ALLOWED, *NOT_ALLOWED, *BROKEN, *ARRAYS, *PAIRS, *MAGICS, *NUMBERS, *MANY, *LENGTHS, *ORDER,
]

# what refuses a call, and a record
REFUSALS, OF_A_RECORD = (1, 34, 35, 44), (29, 30)


class Reading:
    """Holds answers of the second reading to what they should be, and counts them."""

    def __init__(self):
        self.compared = 0

    def same(self, name, found, wanted):
        """The tests' one comparison: it ends the run at a difference."""
        self.compared += 1
        if found != wanted:
            sys.exit("extracts: %s: expected %.300r\nfound %.300r" % (name, wanted, found))


def answer(text, size, first, room):
    """The table and the report, or the refusal's number, record and place."""
    try:
        return extract(text, size, first, room)
    except Refusal as refusal:
        return refusal.args


def test_the_cases(test):
    """Each case by hand: what is refused and where, or the whole table and the report."""
    for case in CASES:
        test.same(case.name, answer(case.text, case.size, case.first, case.room), expected(case))
    assert len({case.name for case in CASES}) == len(CASES)


def test_each_refusal_has_a_case(test):
    """The cases have each refusal of a call and of a record between them."""
    test.same("of a call", {case.refused[0] for case in CASES if case.refused}, set(REFUSALS))
    fates = {record.fate for case in CASES for record in case.records if isinstance(record.fate, int)}
    test.same("of a record", fates, set(OF_A_RECORD))


def test_an_example(test):
    """A table and its report in numbers: the second of two records of 512 bytes is written, the first is torn."""
    first = b"FILE" + bytes((8, 0, 2, 0)) + b"\x05\x06\xAA\xBB" + bytes(498) + b"\x05\x07"
    second = b"FILE" + bytes((8, 0, 2, 0)) + b"\x05\x06\xAA\xBB" + bytes(498) + b"\x05\x06"
    table, report = answer(first + second, 512, 7, 544)
    test.same("the report", tuple(report), (544, 1, 0, 1, (0, 7, 30)))
    test.same("its numbers", table[:32].hex(), "01000000000200001400000020000000" "01000000" "080000000000000020000000")
    test.same("its record", table[32:], second[:510] + b"\xAA\xBB")


def test_tables_are_tables(test):
    """What is written passes check 21, has no base row, and holds the rows that were to be written, in order."""
    for case in CASES:
        if not case.refused:
            table, report = answer(case.text, case.size, case.first, case.room)
            given = check_table(table)
            test.same(case.name, (given.count, given.size, given.base), (report.written, case.size, report.written))
            test.same(case.name, list(rows(table)), case.rows)


def test_only_pairs_are_changed(test):
    """A record that is written has its other bytes as they were; its pairs are the array's numbers, in order."""
    for case in (*ALLOWED, *ARRAYS):
        if not case.rows:
            continue
        raw, (_, fixed), places = case.text, case.rows[0], pair_places(case.size)
        changed = {at for pair in places for at in (pair, pair + 1)}
        test.same(case.name, {k for k in range(case.size) if raw[k] != fixed[k]} - changed, set())
        kept = int.from_bytes(raw[4:6], "little") + PAIR
        pairs = b"".join(fixed[at:at + PAIR] for at in places)
        test.same(case.name, pairs, raw[kept:kept + len(pairs)])


def test_each_byte_matters_where_it_should(test):
    """A record with one byte changed is left out, refused, or written with that byte: which, by where it stands."""
    size, array = 1024, 48
    raw, fixed = raw_record(size, array=array)
    pairs = {at for pair in pair_places(size) for at in (pair, pair + 1)}
    for at in range(size):
        table, report = answer(with_byte(raw, at), size, 0, 2000)
        fate = (report.written, report.left_out, report.refused, report.first and report.first.cause)
        if at < 4:
            test.same(at, fate, (0, 1, 0, None))
        elif at in (6, 7):
            test.same(at, fate, (0, 0, 1, 29))
        elif at in (4, 5, array, array + 1) or at in pairs:
            # another place of the array has another check number
            test.same(at, fate, (0, 0, 1, 30))
        elif at < array + array_bytes(size) and at >= array + PAIR:
            places = pair_places(size)
            moved = places[(at - array) // PAIR - 1] + (at - array) % PAIR
            test.same(at, table[-size:], with_byte(with_byte(fixed, at), moved))
        else:
            test.same(at, table[-size:], with_byte(fixed, at))


def changed(wanted):
    """Answers that differ from one in one number, or in one byte of its table."""
    if isinstance(wanted[0], int):
        yield from (tuple(n + (i == k) for i, n in enumerate(wanted)) for k in range(len(wanted)))
        return
    table, report = wanted
    yield from ((with_byte(table, at), report) for at in {0, 4, 8, 12, 16, len(table) - 1})
    yield from ((table, report._replace(**{field: report[k] + 1})) for k, field in enumerate(Report._fields[:-1]))
    first = report.first
    yield table, report._replace(first=None if first else First(0, 40, 29))
    if first:
        yield table, report._replace(first=first._replace(cause=59 - first.cause))
        yield table, report._replace(first=first._replace(number=0 if first.number is None else None))


def test_a_difference_is_noticed(test):
    """A comparison that never fails shows nothing: another number or byte in any case's answer must be noticed."""
    for case in (*ALLOWED, *BROKEN, *MAGICS, *NUMBERS, *LENGTHS[:-1]):
        found = answer(case.text, case.size, case.first, case.room)
        for wrong in changed(expected(case)):
            try:
                test.same(case.name, found, wrong)
            except SystemExit:
                continue
            raise AssertionError("a wrong answer to %s is not noticed" % case.name)


# Real records.

FOLDER = os.path.join(TESTS, "extracts")

# what ntfs-3g makes of the first bytes of a record whose pairs differ
BAAD = b"BAAD"


class Sample(NamedTuple):
    """Records as they lie on a disk, and as ntfs-3g reads them; their size, and the number of the first."""

    name: str
    raw: bytes
    read: bytes
    size: int
    first: int


def samples():
    """The kept samples: NAME-SIZE-FIRST.mft, and .read beside it."""
    names = sorted(name.removesuffix(".mft") for name in os.listdir(FOLDER) if name.endswith(".mft"))
    for name in names:
        _, size, first = name.rsplit("-", 2)
        files = (volumes.read(os.path.join(FOLDER, name + end)) for end in (".mft", ".read"))
        yield Sample(name, *files, int(size), int(first))


def by_ntfs_3g(sample):
    """(the rows that ntfs-3g reads, by their numbers; the positions of those that it takes for torn)."""
    held, torn_ones = [], []
    for k, at in enumerate(range(0, len(sample.read), sample.size)):
        record = sample.read[at:at + sample.size]
        if record[:4] == BAAD and sample.raw[at:at + 4] != BAAD:
            torn_ones.append(k)
        elif record[:4] == b"FILE":
            held.append((sample.first + k, record))
    return held, torn_ones


def test_real_records(test):
    """What is written of real records is what ntfs-3g reads of them, byte for byte; what it takes for torn is 30."""
    given = list(samples())
    for sample in given:
        test.same(sample.name, len(sample.raw), len(sample.read))
        table, report = answer(sample.raw, sample.size, sample.first, 2 ** 20)
        held, torn_ones = by_ntfs_3g(sample)
        test.same(sample.name, list(rows(table)), held)
        test.same(sample.name, report.refused, len(torn_ones))
        test.same(sample.name, report.first and report.first[::2], (torn_ones[0], 30) if torn_ones else None)
    assert {sample.size for sample in given} == {1024, 2048, 4096} and all(by_ntfs_3g(sample)[1] for sample in given)


def ended(test):
    """The account behind all of them."""
    print("extracts: %d cases, %d compared" % (len(CASES), test.compared))


main = suite.of(Reading, ended)

if __name__ == "__main__":
    main()
