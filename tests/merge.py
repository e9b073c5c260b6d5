"""Holds the layer `merge`, as built, to cases that were written by hand, and the second reading of the rules to them
too.

A case is two tables and a buffer with bytes in it; CASES has all of them, as data. Every question goes to the program
`ask`, with the two tables in both orders: what is reported or refused, the room that is enough, and the whole buffer
behind the call are compared. Fails at any difference.
"""
import itertools
import struct
from typing import NamedTuple, Optional

from extract_random import buffer
from extracts import MOST_ROWS, ROW_END, length_of
from lib import suite
from lib.building import GAP_FILL, NUMBERS_BYTES, PATTERN, ROW_BYTES, numbers, packed_table, row, with_byte
from lib.on_merges import APART, NO_ROWS, REFUSALS, SHARED, Merges, asked
from lib.reading import Refusal, check_table, rows
from lib.reading.merges import BOTH, FIRST, SECOND, Merged, Unmerged

SIZES = range(64, 4097, 8)


class Refused(NamedTuple):
    """What refuses two tables: its number and place, whose fault it is, and of 33 the number that is told. `back` is
    the place of 33 where the tables change places."""

    number: int
    place: int = 0
    whose: str = BOTH
    clash: Optional[int] = None
    back: int = 0


class Case(NamedTuple):
    """Two tables, and the rows that are written, by number, or what refuses them. The buffer has so many bytes more
    than the table needs, or fewer; or as many as are told."""

    name: str
    first: bytes
    second: bytes
    rows: dict = {}
    refused: Optional[Refused] = None
    size: int = 64
    more: int = 0
    length: Optional[int] = None

    @property
    def held(self):
        """What the buffer holds."""
        need = length_of(len(self.rows), self.size) + self.more if self.length is None else self.length
        return buffer(max(need, 0), len(self.first) % 251)


OTHER = {FIRST: SECOND, SECOND: FIRST, BOTH: BOTH}


def mirrored(case):
    """The case with its tables in the other order."""
    refused = case.refused
    if refused:
        refused = refused._replace(whose=OTHER[refused.whose])
    if refused and refused.clash is not None:
        refused = refused._replace(place=refused.back, back=refused.place)
    return case._replace(name=case.name + ", mirrored", first=case.second, second=case.first, refused=refused)


def count_of(table):
    """How many rows a table tells."""
    return struct.unpack_from("<I", table)[0]


def enough(case):
    """The room that is enough; none where the tables are refused whatever they hold."""
    if case.refused and case.refused.number in (21, 32):
        return Refusal(case.refused.number, 0, 0)
    return length_of(min(count_of(case.first) + count_of(case.second), MOST_ROWS), case.size)


def hand_of(held, size):
    """The table of these records, by number, and its report."""
    order = sorted(held)
    directory = [(number, size * k) for k, number in enumerate(order)]
    table = packed_table(directory, b"".join(held[number] for number in order), size, len(order))
    return table, Merged(length_of(len(order), size), len(order))


def hand(case):
    """The refusal, or the table and its report."""
    return Unmerged(*case.refused[:4]) if case.refused else hand_of(case.rows, case.size)


# Tables.

def record(k, size=64):
    """A record's bytes, different for each k."""
    return struct.pack("<Q", k) + PATTERN[k % 251:k % 251 + size - 8]


def records(some, size=64):
    """Records with these numbers, each by its number."""
    return {number: record(number, size) for number in some}


def laid(held, size=64, directory=NUMBERS_BYTES, gap=0, order=None, base=None, behind=b""):
    """A table of these records, by number: its directory begins there, its records stand in this order, so many bytes
    behind the directory, and these bytes behind them. It has no base row where none is told."""
    count, order = len(held), sorted(held) if order is None else order
    at = directory + ROW_BYTES * count + gap
    text = numbers(count, size, directory, at, count if base is None else base) + GAP_FILL * (directory - NUMBERS_BYTES)
    text += b"".join(row(number, at + size * order.index(number)) for number in sorted(held)) + GAP_FILL * gap
    return text + b"".join(held[number] for number in order) + behind


def many(some):
    """A table with each of these numbers, whose records have no place in it to tell apart."""
    at = NUMBERS_BYTES + ROW_BYTES * len(some)
    return numbers(len(some), 64, NUMBERS_BYTES, at, len(some)) + b"".join(row(n, at) for n in some) + record(0)


def place(k, directory=NUMBERS_BYTES):
    """Where row k stands in a table."""
    return directory + ROW_BYTES * k


def case_of(name, ours, theirs, **more):
    """A case of tables with these numbers that agree wherever both have one."""
    return Case(name, laid(records(ours)), laid(records(theirs)), records({*ours, *theirs}), **more)


# Rows: whose they are, in what order they stand, and where their records lie.

HELD = records(range(40, 60, 3))
PAIRS = (
    ("no rows", (), ()), ("a row and none", (5,), ()), ("rows and none", (5, 6, 9), ()),
    ("equal tables of a row", (5,), (5,)), ("equal tables", (5, 6, 9), (5, 6, 9)),
    ("by parity", (2, 4, 6), (1, 3, 5, 7)), ("by halves", (1, 2, 3), (4, 5, 6)), ("halves of a gap", (1, 2), (90, 91)),
    ("an overlap", (1, 2, 3, 4), (3, 4, 5)), ("one inside the other", (1, 2, 3, 4), (2, 3)),
    ("the first number in both", (1, 2), (1, 3)), ("the last number in both", (1, 3), (2, 3)),
    ("the last of one is the first of the other", (1, 2, 3), (3, 4, 5)), ("one between two", (5,), (4, 6)),
    ("one below all", (5, 6, 7), (4,)), ("one above all", (5, 6, 7), (8,)), ("number 0", (0,), (0, 1)),
    ("the largest number", (ROW_END - 1,), (0, ROW_END - 1)), ("numbers of all widths",
     (2 ** 8, 2 ** 32, 2 ** 40, ROW_END - 2), (0, 255, 2 ** 16, 2 ** 32 - 1, 2 ** 32 + 1, ROW_END - 1)),
    ("numbers that rise by their high bytes alone", (1, 2 ** 32 + 7), (9, 2 ** 32)),
    ("numbers whose low bytes fall", (255, 256), (254, 2 ** 16)),
)
ROWS = [
    *(case_of(*pair) for pair in PAIRS),
    *(Case("records of %d bytes" % size, laid(records((5, 7), size), size), laid(records((6, 7), size), size),
           records((5, 6, 7), size), size=size) for size in SIZES),
    *(Case("no records of %d bytes" % size, laid({}, size), laid({}, size), size=size) for size in SIZES),
]


def held_alike(name, first, second=None, held=None):
    """A case of a table and another one, that of HELD and its rows where none is told."""
    return Case(name, first, laid(HELD) if second is None else second, HELD if held is None else held)


FALLING = sorted(HELD, reverse=True)
LAID = [
    *(held_alike("a directory at %d, %d bytes behind it, %d behind the records" % (20 + before, gap, behind),
                 laid(HELD, directory=20 + before, gap=gap, behind=PATTERN[:behind]))
      for before in (0, 1, 3, 12, 500) for gap in (0, 1, 64) for behind in (0, 1, 64, 4000)),
    *(held_alike("base row %d" % base, laid(HELD, base=base)) for base in range(len(HELD) + 1)),
    *(held_alike("base rows %d and %d" % (ours, theirs), laid(records((5,)), base=ours),
                 laid(records((5, 6)), base=theirs), records((5, 6))) for ours in (0, 1) for theirs in (0, 1, 2)),
    held_alike("records in falling order", laid(HELD, order=FALLING)),
    held_alike("records in any order", laid(HELD, order=[*FALLING[1::2], *FALLING[::2]], directory=31, gap=9)),
    *(held_alike("in this order: %s" % order, laid({n: HELD[n] for n in order[:3]}, order=order[:3]),
                 laid({n: HELD[n] for n in order[2:]}, order=order[2:]))
      for order in map(list, itertools.islice(itertools.permutations(HELD), 0, 5040, 97))),
    # a record ends where the record size says
    held_alike("other bytes behind a record", laid(records((9,)), behind=b"x"), laid(records((9,)), behind=b"y"),
               records((9,))),
    held_alike("another record behind it", laid(records((9, 10))), laid(records((9, 11))), records((9, 10, 11))),
]


def lying(offsets, first=40):
    """(a table whose records lie at these offsets of one body, what it holds)."""
    body = PATTERN[:200]
    rows_ = [(first + k, at) for k, at in enumerate(offsets)]
    return packed_table(rows_, body, 64, len(rows_)), {number: body[at:at + 64] for number, at in rows_}


def overlapping(name, ours, theirs):
    """A case of two tables whose records lie over each other; in each number of both they lie at the same place."""
    (first, held), (second, others) = ours, theirs
    return Case(name, first, second, {**held, **others})


OVER = [
    overlapping("one record for all", lying((7, 7, 7)), lying((7, 7, 7, 7))),
    overlapping("each a byte on", lying((0, 1, 2, 3)), lying((0, 1, 2))),
    overlapping("each a byte back", lying((3, 2, 1, 0)), lying((100, 99, 136), 50)),
    overlapping("over each other in any order", lying((64, 10, 136, 0, 70)), lying((136, 0, 70, 5), 42)),
    overlapping("over each other, one in both", lying((64, 10)), lying((1, 64), 39)),
]


# 21: each fault of a table, by itself and beside one of the other.

GOOD = laid(records((40, 41, 42)))
FAR_GOOD = laid(records((40, 41, 42)), directory=33, gap=5)


def with_numbers(**more):
    """A good table of three rows with other numbers in its header."""
    told_ = dict(count=3, size=64, directory=20, records=56, base=3)
    return numbers(**{**told_, **more}) + GOOD[NUMBERS_BYTES:]


def with_row(table, k, number=None, offset=None):
    """A table with another number or offset in one of its rows."""
    at = place(k, check_table(table).directory)
    was = struct.unpack_from("<QI", table, at)
    new = row(was[0] if number is None else number, was[1] if offset is None else offset)
    return table[:at] + new + table[at + ROW_BYTES:]


# (bytes that are no table, the place of 21)
HEADERS = {
    "empty": (b"", 0), "19 bytes": (numbers(0, 64, 20, 20, 0)[:19], 0), "4,097 rows": (with_numbers(count=4097), 0),
    "a record size of 56": (with_numbers(size=56), 0), "of 68": (with_numbers(size=68), 0),
    "of 4,104": (with_numbers(size=4104), 0), "of 0": (with_numbers(size=0), 0),
    "a directory at 19": (with_numbers(directory=19), 0), "a directory past the records": (with_numbers(records=55), 0),
    "records past the end": (numbers(0, 64, 20, 21, 0), 0), "a base row of 4": (with_numbers(base=4), 0),
    "FILE": (b"FILE" + bytes(1020), 0), "lines of y": (b"y\n" * 300, 0),
}
IN_ROWS = {
    "row %d at %d, %s" % (k, place(k, directory), why): (with_row(table, k, number, offset), place(k, directory))
    for directory, table in ((20, GOOD), (33, FAR_GOOD)) for k in range(3) for why, number, offset in (
        ("a number of 2^48", ROW_END, None), ("of 2^64 - 1", 2 ** 64 - 1, None), ("a record at 0", None, 0),
        ("a record a byte before the records", None, directory + 36 + 5 * (directory != 20) - 1),
        ("a record that ends a byte past the end", None, len(table) - 63), ("one far past it", None, 2 ** 32 - 1))
}
NOT_RISING = {
    "row %d at %d, number %d" % (k, place(k, directory), number): (with_row(table, k, number), place(k, directory))
    for directory, table in ((20, GOOD), (33, FAR_GOOD)) for k in (1, 2) for number in (39 + k, 38 + k, 0)
}
MALFORMED = {**HEADERS, **IN_ROWS, **NOT_RISING}
FEW = ("empty", "a base row of 4", "row 1 at 32, of 2^64 - 1", "row 2 at 57, a record at 0", "row 2 at 44, number 41")


def malformed(name, first, second, at):
    """A case of a first table with a fault."""
    return Case(name, first, second, refused=Refused(21, at, FIRST), length=500)


BAD = [malformed(name, table, GOOD, at) for name, (table, at) in MALFORMED.items()]
# the first is told, whichever of the two has its fault earlier
BAD_TWICE = [
    malformed("%s; in the second %s" % (one, other), MALFORMED[one][0], MALFORMED[other][0], MALFORMED[one][1])
    for one in FEW for other in FEW
]


# 32: on both sides of each size, with rows and without.

UNLIKE = [
    Case("records of %d and of %d bytes, %s" % (ours, theirs, what), laid(records(some, ours), ours),
         laid(records(others, theirs), theirs), refused=Refused(32), length=300)
    for ours, theirs in ((64, 72), (1024, 4096), (4088, 4096), (64, 4096), (320, 64), (4096, 3840))
    for what, some, others in (("no rows", (), ()), ("a row and none", (5,), ()), ("none and a row", (), (5,)),
                               ("other rows", (5,), (6,)), ("a row of one number", (5,), (5,)))
]


# 33: which byte, which number, and where its row stands.

def clashing(name, ours, theirs, number, there, here, **more):
    """A case of tables that differ under this number, whose row stands there in the second and here in the first."""
    return Case(name, ours, theirs, refused=Refused(33, there, BOTH, number, here), **{"length": 900, **more})


def other_record(held, number, at=0, change=1):
    """The same records, one of them with another byte."""
    return {**held, number: with_byte(held[number], at, change)}


SEVEN = records((7,))
WIDE = (0, 1, 255, 256, 2 ** 31, 2 ** 32, 2 ** 32 + 1, 2 ** 40 + 9, ROW_END - 1)
TEN = records(range(10, 20))
DIFFERENT = [
    *(clashing("byte %d of 64" % at, laid(SEVEN), laid(other_record(SEVEN, 7, at, 1 << at % 8)), 7, 20, 20)
      for at in range(64)),
    *(clashing("byte %d of %d" % (at, size), laid(records((7,), size), size),
               laid(other_record(records((7,), size), 7, at, 128), size), 7, 20, 20, size=size, length=9000)
      for size in (72, 1024, 4096) for at in sorted({0, 1, 63, 64, size // 2, size - 9, size - 2, size - 1})),
    *(clashing("number %d of nine" % number, laid(records(WIDE)), laid(other_record(records(WIDE), number)), number,
               place(k), place(k)) for k, number in enumerate(WIDE)),
    *(clashing("number %d alone" % number, laid(records((number,))), laid(other_record(records((number,)), number, 63)),
               number, 20, 20) for number in WIDE),
    *(clashing("row %d of ten and the last of some" % k, laid(TEN), laid(other_record(
        {**records(range(5)), number: TEN[number]}, number)), number, place(5), place(k))
      for k, number in enumerate(TEN)),
    # the lowest is told, whatever differs above it, and wherever the records stand
    *(clashing("each from the one with number %d on" % low, laid(TEN), laid(
        {n: with_byte(text, n) if n >= low else text for n, text in TEN.items()}, order=sorted(TEN, reverse=True)),
               low, place(k), place(k)) for k, low in enumerate(TEN)),
    *(clashing("numbers %d and %d" % pair, laid(TEN), laid(other_record(other_record(TEN, pair[1]), pair[0], 63)),
               pair[0], place(pair[0] - 10), place(pair[0] - 10)) for pair in itertools.combinations(TEN, 2)),
    # its row in the second table's own directory, wherever that begins
    *(clashing("row 3 of a directory at %d, and of one at %d" % (there, here), laid(TEN, directory=here, gap=7),
               laid(other_record(TEN, 13), directory=there), 13, place(3, there), place(3, here))
      for there, here in ((20, 20), (21, 20), (20, 33), (500, 20), (80, 81))),
    # two records of one table under another number's bytes are no clash
    Case("a neighbour's bytes", laid({4: record(1), 5: record(2)}), laid({5: record(2), 6: record(1)}),
         {4: record(1), 5: record(2), 6: record(1)}),
    clashing("bytes that change places", laid({4: record(1), 5: record(2)}), laid({4: record(2), 5: record(1)}), 4, 20,
             20),
]


# 34 and 35: on both sides of each line.

ALL, EVENS, ODDS = range(MOST_ROWS), range(0, 2 * MOST_ROWS, 2), range(1, 2 * MOST_ROWS, 2)
UP_TO = (
    ("4,096 rows and none", ALL, ()), ("4,096 equal rows", ALL, ALL), ("by halves", ALL[:2048], ALL[2048:]),
    ("by parity", EVENS[:2048], ODDS[:2048]), ("4,095 and one above", ALL[:-1], ALL[-1:]),
    ("4,095 and one below", ALL[1:], ALL[:1]), ("4,095 and one between", [*ALL[:99], *ALL[100:]], ALL[99:100]),
    ("two numbers in both", ALL[:2049], ALL[2047:]), ("4,096 and some of them", ALL, ALL[5::7]),
    ("up to 2^48 - 1", range(ROW_END - 4096, ROW_END, 2), range(ROW_END - 4095, ROW_END, 2)),
)
PAST = (
    ("4,096 and one above", ALL, (MOST_ROWS,)), ("4,096 and one below", ALL[1:], (0, MOST_ROWS)),
    ("4,096 and one between", EVENS, (4095,)), ("one half longer", ALL[:2048], range(2048, MOST_ROWS + 1)),
    ("all but one in both", ALL, range(1, MOST_ROWS + 1)), ("8,192 rows", ALL, range(MOST_ROWS, 2 * MOST_ROWS)),
    ("8,192 rows by parity", EVENS, ODDS), ("a row in both, 4,097 in all", ALL[:2049], [2048, *ALL[2049:], MOST_ROWS]),
    ("half of them in both", ALL, EVENS),
)
FULL = length_of(MOST_ROWS, 64)
MANY = [
    *(Case("%s, %d bytes more" % (name, more), many(ours), many(theirs), dict.fromkeys((*ours, *theirs), record(0)),
           more=more) for name, ours, theirs in UP_TO for more in (0, 5)),
    *(Case(name + ", a byte less", many(ours), many(theirs), refused=Refused(35), length=FULL - 1)
      for name, ours, theirs in UP_TO[1:4]),
    *(Case("%s, a buffer of %d" % (name, length), many(ours), many(theirs), refused=Refused(34), length=length)
      for name, ours, theirs in PAST for length in (FULL + 100, 0)),
]
LENGTHS = [
    *(Case("%d rows, %d bytes more" % (count, more), laid(records(range(0, count, 2))), laid(records(range(count))),
           records(range(count)), more=more) for count in (0, 1, 2, 5) for more in (0, 1, 12, 76, 4000)),
    *(Case("%d rows, %d bytes more" % (count, more), laid(records(range(0, count, 2))), laid(records(range(count))),
           refused=Refused(35), length=max(0, length_of(count, 64) + more))
      for count in (0, 1, 2, 5) for more in (-1, -12, -64, -76, -20 - 76 * count)),
    # a room for the rows of both, each counted, is not asked for
    Case("as long as needed and not as the room", laid(TEN), laid(TEN), TEN),
]


def with_last_differing(some):
    """A table with these numbers, whose last record alone is another's."""
    at = NUMBERS_BYTES + ROW_BYTES * len(some)
    text = b"".join(row(n, at + 64 * (n == some[-1])) for n in some)
    return numbers(len(some), 64, NUMBERS_BYTES, at, len(some)) + text + record(0) + record(1)


# 33 is decided over all rows: the number that differs stands behind the 4,096th row
LATE = [
    clashing("all but one in both, the last of them differs", many(ALL), with_last_differing([*ALL[1:]]), 4095,
             place(4094), place(4095), length=0),
    clashing("the last of 8,191 rows", many(EVENS), with_last_differing([*ODDS[:-1], EVENS[-1]]), EVENS[-1],
             place(4095), place(4095), length=FULL),
    clashing("the last of 4,097 rows", many([*ALL[1:], MOST_ROWS]), with_last_differing([0, MOST_ROWS]), MOST_ROWS,
             place(1), place(4095), length=FULL),
    clashing("the last of 4,096 equal rows", many(ALL), with_last_differing(ALL), 4095, place(4095), place(4095)),
]


# The order: two tables with each choice of the six faults.

def faulty(chosen):
    """A case of two tables with these faults, by their places in REFUSALS; the first of them is told."""
    first, second, size, last, fourth, short = (k in chosen for k in range(len(REFUSALS)))
    common = ROW_END - 1
    ours = [*range(0, 8190, 2), common] if fourth else [common]
    theirs = {1: record(1), common: record(2 if last else 3)}
    at = NUMBERS_BYTES + ROW_BYTES * len(ours)
    one = numbers(len(ours), 64, 20, at, len(ours) + first) + b"".join(row(n, at) for n in ours) + record(3)
    width = 72 if size else 64
    other = laid({n: text.ljust(width, b"x") for n, text in theirs.items()}, width, base=2 + second)
    count = len({*ours, *theirs})
    refused = None
    if chosen:
        number, whose = REFUSALS[min(chosen)]
        clash = {"clash": common, "back": place(len(ours) - 1), "place": place(1)} if number == 33 else {}
        refused = Refused(number, whose=whose, **clash)
    held = {**dict.fromkeys(ours, record(3)), **theirs} if not chosen else {}
    return Case("faults %s" % (sorted(chosen),), one, other, held, refused,
                length=length_of(min(count, MOST_ROWS), 64) - short)


CHOICES = [set(chosen) for count in range(7) for chosen in itertools.combinations(range(6), count)]
# where both tables are malformed, the other order has another first one
TWICE = {0, 1}
ORDER = [faulty(chosen) for chosen in CHOICES if not TWICE <= chosen]
ORDER_TWICE = [faulty(chosen) for chosen in CHOICES if TWICE <= chosen]

ONE_WAY = [*BAD_TWICE, *ORDER_TWICE]
BOTH_WAYS = [*ROWS, *LAID, *OVER, *BAD, *UNLIKE, *DIFFERENT, *MANY, *LENGTHS, *LATE, *ORDER]
CASES = [*ONE_WAY, *BOTH_WAYS, *map(mirrored, BOTH_WAYS)]


def sample():
    """Questions with each refusal and each other answer. rt ci runs the program on them."""
    wanted = (
        "no rows", "an overlap", "equal tables", "records in any order", "over each other, one in both", "number 0",
        "row 1 at 45, a record at 0", "a base row of 4, mirrored", "row 3 of a directory at 21, and of one at 20",
        "records of 64 and of 72 bytes, a row of one number", "5 rows, -1 bytes more", "2 rows, 76 bytes more",
        "faults [1, 2, 3, 5]", "faults [3, 5]",
    )
    small = [case for case in CASES if case.name in wanted]
    assert len(small) == len(wanted), {case.name for case in small} ^ set(wanted)
    # a table of 4,096 rows, whose records have no place of their own, and a row more
    past = Case("34", many(ALL), many((MOST_ROWS,)), length=30)
    return [asked(case.first, case.second, case.held) for case in (*small, past)]


def test_the_cases(test):
    """Each case by hand: the answer, the room, and the buffer, which a table takes the front of and a refusal
    leaves."""
    for case in CASES:
        test.put_literal(hand(case), case.first, case.second, case.held, enough(case))
    assert len({case.name for case in CASES}) == len(CASES)


def test_each_refusal_has_a_case(test):
    """The cases have each refusal between them, and each choice of faults has the first one told."""
    given = {(case.refused.number, case.refused.whose) for case in CASES if case.refused}
    assert given == set(REFUSALS), given ^ set(REFUSALS)
    firsts = [(case.refused.number, case.refused.whose) for case in (*ORDER, *ORDER_TWICE) if case.refused]
    assert [firsts.count(refusal) for refusal in REFUSALS] == [32, 16, 8, 4, 2, 1], firsts


def test_an_example(test):
    """Answers in full: record 7 of one table, and record 5 of another whose directory begins at 24, in a buffer of 178
    bytes and in one of 171; then the same where both have 7, with different bytes."""
    seven, five = b"FILE" + b"a" * 60, b"FILE" + b"b" * 60
    first = bytes.fromhex("01000000 40000000 14000000 20000000 00000000" "0700000000000000 20000000") + seven
    head = "01000000 40000000 18000000 24000000 01000000 EEEEEEEE"
    second = bytes.fromhex(head + "0500000000000000 24000000") + five
    table = bytes.fromhex(
        "02000000 40000000 14000000 2C000000 02000000" "0500000000000000 2C000000" "0700000000000000 6C000000")
    text = (table + five + seven).decode("latin-1")
    again = bytes.fromhex(head + "0700000000000000 24000000") + five
    for answer, ours, theirs, held in (
        ("merged 172 2 room 172 view 178 %sbehind" % text, first, second, b"x" * 172 + b"behind"),
        ("both refused 35 0 0 room 172 view 171 " + "y" * 171, first, second, b"y" * 171),
        ("clash 7 refused 33 0 24 room 172 view 9 untouched", first, again, b"untouched"),
        ("clash 7 refused 33 0 20 room 172 view 9 untouched", again, first, b"untouched"),
        ("second refused 21 0 24 view 9 untouched", first, again[:-1], b"untouched"),
        ("first refused 21 0 24 view 9 untouched", again[:-1], first, b"untouched")):
        test.put_literal_question(answer, asked(ours, theirs, held))


def test_what_is_written(test):
    """What is written passes check 21, has no base row, and holds the rows that were to be written, in order; merged
    with itself, with either table or with one of no rows it stays what it is."""
    for case in (*ROWS, *LAID, *OVER, *MANY[:4]):
        table, _ = hand(case)
        given = check_table(table)
        assert (given.count, given.size, given.base) == (len(case.rows), case.size, len(case.rows)), case.name
        assert list(rows(table)) == sorted(case.rows.items()), case.name
        if case.size == 64:
            for other in (table, case.first, case.second, laid({})):
                length = length_of(min(count_of(other) + len(case.rows), MOST_ROWS), 64)
                test.put_literal((table, Merged(len(table), len(case.rows))), table, other, buffer(len(table)), length)


def test_rooms(test):
    """35: each buffer up to one longer than the table, and the room that is told, which is never too short."""
    for ours, theirs in (((), ()), ((5,), ()), ((5,), (5,)), ((5, 6), (6, 7, 9)), (range(9), range(4, 12))):
        first, second = laid(records(ours)), laid(records(theirs), directory=27)
        need = length_of(len({*ours, *theirs}), 64)
        for length in sorted({*range(26), *range(max(need - 30, 0), need + 40), need + 64, need + 76, 3000}):
            test.put(first, second, buffer(length, length))
    for case in (*ROWS, *LAID, *OVER, *MANY, *LENGTHS):
        if not case.refused:
            test.put_literal(hand(case), case.first, case.second, buffer(enough(case), 3), enough(case))


def ended(test):
    """Each refusal was given, and tables of no rows, with numbers in both and with none were merged."""
    test.finish(REFUSALS)
    assert all(test.merged[what] for what in (NO_ROWS, APART, SHARED)), test.merged


main = suite.of(Merges, ended)

if __name__ == "__main__":
    main()
