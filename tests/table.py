"""Holds the layers `list` and `table`, and the opening of a file and its lookup, as built, to the second reading of
the rules.

Every question goes to the program `ask` and every line that it writes is compared. Fails at any difference.
"""
import itertools
import struct

from lib import programs, question, reading, suite
from lib.asking import LAST, said_bytes
from lib.building import NUMBERS_BYTES, PATTERN, ROW_BYTES, numbers, with_used
from lib.building import blank_record as record
from lib.building import rest_of_list as entry
from lib.building import row_table as table
from lib.on_tables import BASE_ROW, CHECK, HEADER, LOOKUP, OPENING, STEP, VIEW, WITH_A_RECORD, Question, Tables, named

# The longest table that is asked about most often.
ROOM = 65536
FAR = [2 ** k + d for k in (8, 12, 16, 31, 32, 48, 63) for d in (-1, 0, 1)] + [LAST - 1, LAST]


def sample():
    """Questions of each kind, each refusal and each other answer. rt ci runs the program on them."""
    t = table([(40, 44), (41, 108)], 172, base=0)
    base, other, bad = t[44:108], t[:108] + b"BAAD" + t[112:], t[:20] + b"\x29" + t[21:]
    entries = (
        entry(40, 40, 3), entry(32, 40, 0), entry(25, 26, 0), entry(28, 27, 1), entry(26, 28, 1), b"",
        entry(40, 40, 3, 34), entry(40, 40, 3, 35), entry(40, 60, 3, 35), entry(26, 26, 0, 255),
    )
    lent = (
        (base, t, 40), (base, t, 41), (base, t, 42), (base, other, 41), (base, bad, 41), (base[:56], t, 41),
        (b"BAAD" + base[4:], t, 41), (with_used(base, 65), t, 41), (base, t[:108] + with_used(base, 65), 41),
    )
    return [
        *(Question(kind, place=200, record=rest) for rest in entries for kind in (HEADER, STEP)),
        *(Question(BASE_ROW, table=numbers(2, 64, 20, 44, row)) for row in (1, 2)),
        *(Question(CHECK, table=table_) for table_ in (t, bad, t[:19])),
        *(Question(kind, 40, 200, wanted, r, table_) for kind in WITH_A_RECORD for r, table_, wanted in lent),
    ]


def test_a_question_that_is_too_long(test):
    """One that fills the program's room is answered; one of a byte more ends the program."""
    t = table([(40, ROOM - 64)], ROOM)
    most, more = (Question(CHECK, record=bytes(question.ROOM - ROOM + k), table=t) for k in (0, 1))
    assert test.expected(most) == test.expected(more) == "table 1 64 20 32 1"
    text = programs.run(programs.ASKED, b"".join(map(test.packed, (most, more, most))))
    test.stop_at(test.differences([most], [test.expected(most)], text), 1)


# Both sides of each line (RULES 20), and a small case for each rule on entries and tables.

def test_both_sides_of_each_line_in_an_entry(test):
    """The answers on both sides of each line that the rules draw in an entry, by hand."""
    # a name of one unit in an entry of 28 and of 27 bytes
    test.put_literal("entry 128 28 1 26 0 41 3 " + named(bytes((186, 193))), STEP, entry(28, 28, 1), place=200)
    test.put_literal("refused 15 40 200 " + named(b""), STEP, entry(28, 27, 1), place=200)
    # an entry that is longer than what is left
    test.put_literal("end " + named(b""), STEP, entry(32, 40, 0), place=200)
    test.put_literal("entry 128 40 0 26 0 41 3 " + named(b""), STEP, entry(40, 40, 0), place=200)
    # a name that is not all there
    test.put_literal("refused 16 40 200 " + named(b""), STEP, entry(26, 28, 1), place=200)
    # nothing left, and fewer than 26 bytes
    test.put_literal("end", HEADER, b"", place=200)
    test.put_literal("refused 14 40 200", HEADER, entry(1, 28, 1), place=200)
    test.put_literal("refused 14 40 200", HEADER, entry(25, 28, 1), place=200)
    test.put_literal("entry 128 26 0 26 0 41 3", HEADER, entry(26, 26, 0), place=200)
    # a reference's upper 16 bits
    high = entry(26, 26, 0, reference=0xFFFF_0000_0000_0029)
    test.put_literal("entry 128 26 0 26 0 41 3", HEADER, high, place=200)


# The rest of a list: the bytes left, the entry's length, its name's units and offset; the answer to it, and the name.
# Each byte behind the header tells its place: 186 stands at 26, 193 at 27, 200 at 28.
NAMES = (
    # a name over the header, and straight behind it
    ((28, 28, 1, 25), "refused 31 40 200", b""), ((28, 28, 1, 0), "refused 31 40 200", b""),
    ((765, 765, 255, 25), "refused 31 40 200", b""), ((28, 28, 1, 26), "entry 128 28 1 26 0 41 3", bytes((186, 193))),
    # one that ends with its entry, and one that ends a byte past it, where nothing more is left and where all of it is
    ((30, 30, 1, 28), "entry 128 30 1 28 0 41 3", bytes((200, 207))), ((30, 30, 1, 29), "refused 31 40 200", b""),
    ((40, 30, 1, 29), "refused 31 40 200", b""), ((40, 30, 1, 28), "entry 128 30 1 28 0 41 3", bytes((200, 207))),
    # the last place for the longest name, and one byte short of it
    ((765, 764, 255, 255), "refused 31 40 200", b""), ((764, 765, 255, 255), "refused 16 40 200", b""),
    ((765, 765, 255, 255), "entry 128 765 255 255 0 41 3", PATTERN[255:765]),
    # an empty one, wherever it is said to stand
    *(((26, 26, 0, at), "entry 128 26 0 %d 0 41 3" % at, b"") for at in (0, 25, 26, 27, 255)),
    *(((26, 27, 0, at), "end", b"") for at in (0, 25, 26, 27, 255)),
    # 14 before 31, 15 before 31, and 31 before 16
    ((25, 28, 1, 25), "refused 14 40 200", b""), ((28, 27, 1, 25), "refused 15 40 200", b""),
    ((28, 27, 1, 27), "refused 15 40 200", b""), ((26, 28, 1, 25), "refused 31 40 200", b""),
    ((26, 28, 1, 27), "refused 31 40 200", b""),
    # a name that ends with what is left, and one that ends a byte past it: the entry is longer, and its name would be
    # all there at 26; and with nothing behind it, where both are given
    ((32, 34, 1, 30), "end", b""), ((32, 34, 1, 31), "refused 16 40 200", b""),
    ((32, 34, 1, 32), "refused 16 40 200", b""), ((32, 34, 1, 33), "refused 31 40 200", b""),
    ((33, 34, 1, 31), "end", b""), ((34, 34, 1, 31), "entry 128 34 1 31 0 41 3", bytes((221, 228))),
)


def test_both_sides_of_each_line_of_a_name(test):
    """31, 16 and the bytes of a name, which stands where its entry says, by hand."""
    for given, answer, name in NAMES:
        test.put_literal(answer, HEADER, entry(*given), place=200)
        test.put_literal("%s %s" % (answer, named(name)), STEP, entry(*given), place=200)
    # no. 53 of the differences
    padded = entry(29, 29, 1, 27, instance=0)[:26] + b"\0A\0"
    test.put_literal("entry 128 29 1 27 0 41 0 " + named(b"A\0"), STEP, padded, place=80)


def test_both_sides_of_each_line_in_a_table(test):
    """The answers on both sides of each line in a table, at the opening and in a lookup, by hand."""
    # a table that holds record 40 and record 41, of 64 bytes each, and comes with record 40
    t = table([(40, 44), (41, 108)], 172, base=0)
    base = t[44:108]
    test.put_literal("table 2 64 20 44 0", CHECK, table_=t)
    test.put_literal("table 2 64 20 44 0", OPENING, base, t)
    test.put_literal("row 0", BASE_ROW, table_=t)
    # a base row that is the count, and one above it
    test.put_literal("none", BASE_ROW, table_=numbers(2, 64, 20, 44, 2))
    test.put_literal("refused 21 0 0", CHECK, table_=numbers(2, 64, 20, 44, 3) + t[20:])
    # 20 bytes and 19
    test.put_literal("table 0 64 20 20 0", CHECK, table_=numbers(0, 64, 20, 20, 0))
    test.put_literal("refused 21 0 0", CHECK, table_=numbers(0, 64, 20, 20, 0)[:19])
    # the rows, each fault where its row stands
    test.put_literal("refused 21 0 32", CHECK, table_=table([(40, 44), (40, 108)], 172))
    test.put_literal("refused 21 0 20", CHECK, table_=table([(2 ** 48, 44), (40, 108)], 172))
    test.put_literal("refused 21 0 32", CHECK, table_=table([(40, 44), (41, 109)], 172))
    # the lookup: a record, 17 at the place blamed, 2 in the record found
    test.put_literal("found", LOOKUP, base, t, wanted=41, place=9)
    test.put_literal("refused 17 40 9", LOOKUP, base, t, wanted=42, place=9)
    other = t[:108] + b"BAAD" + t[112:]
    test.put_literal("refused 2 41 0", LOOKUP, base, other, wanted=41, place=9)
    test.put_literal("view 0 ", VIEW, base, other, wanted=41, place=9)
    # 21, 1, 2 and 27, in this order
    bad, above = numbers(2, 64, 20, 44, 3) + t[20:], with_used(base, 65)
    test.put_literal("refused 21 0 0", LOOKUP, b"BAAD", bad, wanted=41, place=9)
    test.put_literal("refused 21 0 0", LOOKUP, above, bad, wanted=41, place=9)
    test.put_literal("refused 1 40 0", LOOKUP, b"BAAD", t, wanted=41, place=9)
    test.put_literal("refused 1 40 0", LOOKUP, above[:56], t, wanted=41, place=9)
    test.put_literal("refused 2 40 0", LOOKUP, b"BAAD" + base[4:], t, wanted=41, place=9)
    test.put_literal("refused 2 40 0", LOOKUP, b"BAAD" + above[4:], t, wanted=41, place=9)
    for kind in (OPENING, LOOKUP):
        test.put_literal("refused 27 40 0", kind, above, t, wanted=41, place=9)
    # 27 in the record found: its used size is its length, and one more; 2 comes before it
    for held, answer in (
        (with_used(base, 64), "found"), (with_used(base, 65), "refused 27 41 0"),
        (with_used(base, 2 ** 32 - 1), "refused 27 41 0"), (b"BAAD" + with_used(base, 65)[4:], "refused 2 41 0"),
    ):
        test.put_literal(answer, LOOKUP, base, t[:108] + held, wanted=41, place=9)
    test.put_literal("view 0 ", VIEW, base, t[:108] + with_used(base, 65), wanted=41, place=9)
    # what is not looked up is not tested: the table's own record 40, and 41 where there is no row 42
    other = t[:44] + with_used(base, 65) + with_used(base, 65)
    test.put_literal("found", LOOKUP, base, other, wanted=40, place=9)
    test.put_literal("refused 17 40 9", LOOKUP, base, other, wanted=42, place=9)
    # the base record wins over a row of its number
    lent = record(64, 900)
    test.put_literal(said_bytes("view", lent), VIEW, lent, t, wanted=40)
    test.put_literal(said_bytes("view", t[44:108]), VIEW, lent, t, wanted=40, number=39)


# List: each field around what decides, the others fixed.

def test_entry_lengths(test):
    """14, 15, 16 and the list's end: each length of an entry near what is left and what its name needs."""
    for left in range(61):
        around = {left + d for d in (-2, -1, 0, 1, 2) if left + d >= 0}
        for length in sorted({0, 1, 16, *range(24, 31), 40, 41, 60, 61, 255, 256, 65535} | around):
            suits = {max(length - 26, 0) // 2 + d for d in (0, 1)} | {max(left - 26, 0) // 2 + d for d in (0, 1)}
            for units in sorted({0, 1, 2, 3, 254, 255} | {u for u in suits if u < 256}):
                test.put_entry(entry(left, length, units), place=56 + left)


def test_name_lengths(test):
    """15 and 16: names of up to 255 units in entries and lists that just fit, or do not."""
    for units in (0, 1, 2, 3, 127, 128, 253, 254, 255):
        end = 26 + 2 * units
        for left in (*range(max(end - 3, 0), end + 5), end + 40, 700):
            for length in sorted(
                {end - 2, end - 1, end, end + 1, end + 2, end + 40, left - 1, left, left + 1, 65535}):
                if length >= 0:
                    test.put_entry(entry(left, length, units), place=left)


def test_name_offsets(test):
    """31 and 16: each name offset, in entries and lists that just hold the name there, or at 26, or do not."""
    for offset, units in itertools.product(range(256), (0, 1, 3, 255)):
        end, least = offset + 2 * units, 26 + 2 * units
        for length in sorted({least - 1, least, end - 1, end, end + 1, 766}):
            for left in sorted({least, end - 1, end, length - 1, length}):
                if length >= 0 and left >= 0:
                    test.put_entry(entry(left, length, units, offset), place=offset)


def test_name_bytes(test):
    """A name is handed out byte for byte, with zeros behind it, wherever it stands."""
    # zeros in a name, at its end and nothing else; behind a name nothing is zero, and must not be handed out
    for units, offset in itertools.product((0, 1, 2, 7, 254, 255), (26, 27, 32, 255)):
        n = 2 * units
        rest = bytearray(entry(800, 800, units, offset))
        for zeros in {(0, n), (0, n // 2), (n // 2, n), (n - 1, n), (0, 1)}:
            name = bytearray(rest)
            for k in range(*zeros):
                name[offset + k] = 0
            test.put_entry(bytes(name))
        # each byte of the name, and those on both sides of it
        for k in range(-1, n + 2):
            name = bytearray(rest)
            name[offset + k] ^= 0xA5
            test.put(STEP, bytes(name))


def test_entry_fields(test):
    """Each bit of an entry's header, and its numbers up to their limits."""
    for bit in range(8 * 26):
        for fill in ({}, {"ty": 0x10203040, "lowest": 0x1122334455667788, "reference": 0xFEDCBA9876543210}):
            rest = bytearray(entry(64, 40, 3, **fill))
            rest[bit // 8] ^= 1 << bit % 8
            test.put_entry(bytes(rest))
    for value in (0, 1, 40, 41, *FAR):
        test.put_entry(entry(40, 40, 0, reference=value))
        test.put_entry(entry(40, 40, 0, lowest=value))
        test.put_entry(entry(40, 40, 0, ty=value % 2 ** 32, instance=value % 2 ** 16))


def test_entry_places(test):
    """A refusal tells the number and the place that were handed in, whatever they are; an entry tells neither."""
    for rest in (
        b"", entry(25, 26, 0), entry(28, 27, 1), entry(26, 28, 1), entry(32, 40, 0), entry(40, 40, 1),
        entry(28, 28, 1, 25), entry(32, 34, 1, 31), entry(40, 40, 1, 38),
    ):
        for value in (0, 1, 41, *FAR):
            test.put_entry(rest, place=value)
            test.put_entry(rest, number=value)
            test.put_entry(rest, number=value, place=LAST - value)


# The table: lengths and the header's numbers.

def test_table_lengths(test):
    """21: tables of under 20 bytes, and a row and its record cut anywhere."""
    for length in range(41):
        for count in (0, 1, 2):
            for records in (20, 32, length - 1, length, length + 1):
                t = table([], length, count=count, records=max(records, 0), base=0)
                test.put_table(t, record(64))
    # a row and its record, cut anywhere
    whole = table([(41, 33)], 100)
    for length in range(len(whole) + 1):
        test.put_table(whole[:length], record(64), wanted=41)


def test_header_numbers(test):
    """21: each of a table's five numbers around what decides, and each bit of them."""
    # rows, and a record for each, wherever the directory is and whatever the size
    for count, size, directory in itertools.product((0, 1, 2, 3), (0, 56, 64, 72, 100, 128, 4096), (19, 20, 21, 40)):
        end = directory + 12 * count
        rows = [(40 + i, 200 + i) for i in range(count)]
        bases = {max(count - 1, 0), count, count + 1}
        for records, base in itertools.product({end - 1, end, end + 1, 200, 328, 329}, bases):
            t = table(rows, 328, size, directory, records, base)
            test.put(CHECK, table_=t)
            test.put(BASE_ROW, table_=t)
            test.put(OPENING, record(size), t)
            test.put_lookup(record(size), t, 41)
    # one number after another, the others as they suit
    t = table([(40, 200), (41, 264)], 328)
    right = struct.unpack_from("<5I", t)
    bounds = (*range(60), *range(190, 210), *range(320, 336))
    far = [f for f in FAR if f < 2 ** 32] + [2 ** 32 - d for d in (12, 24, 64)]
    for k, values in enumerate((range(10), range(132), bounds, bounds, range(10))):
        for value in (*values, *far):
            other = numbers(*right[:k], value, *right[k + 1:]) + t[20:]
            test.put(CHECK, table_=other)
            test.put(BASE_ROW, table_=other)
            test.put(LOOKUP, record(64), other, wanted=41)
    # each of the five numbers has bytes of its own
    for bit in range(8 * 20):
        other = bytearray(t)
        other[bit // 8] ^= 1 << bit % 8
        test.put(CHECK, table_=bytes(other))
        test.put(BASE_ROW, table_=bytes(other))


def test_record_sizes(test):
    """21: sizes on both sides of what is allowed, in tables with room for such records."""
    for size in (*range(0, 136, 4), 57, 63, 65, 4088, *range(4092, 4106), 4112, 8192):
        for count in (0, 1, 2):
            t = table([(40 + i, 44 + i * size) for i in range(count)], 44 + count * size, size, records=44)
            test.put_table(t, record(size, 900), wanted=41)


def test_base_rows(test):
    """The base row, and none where it is the count."""
    for count, base in itertools.product((0, 1, 2, 4095, 4096, 4097, 2 ** 31, 2 ** 32 - 2, 2 ** 32 - 1), repeat=2):
        for other in (0, 64, 2 ** 32 - 1):
            test.put(BASE_ROW, table_=numbers(count, other, other, other, base))
    for count in range(4):
        for base in range(count + 2):
            t = table([(40 + i, 200) for i in range(count)], 328, base=base)
            test.put_table(t, record(64), wanted=40)
            test.put(BASE_ROW, table_=t)


def test_no_sum_wraps(test):
    """No sum of two 32-bit numbers wraps: the directory's end, a record's end."""
    top = 2 ** 32
    for count in (0, 1, 2, 3, 4095, 4096):
        for directory in (top - 12 * count + d for d in (-12, -1, 0, 1, 12, 20, 32, 64)):
            if 0 <= directory < top:
                for records in (0, 20, 64, 328, directory, top - 1):
                    test.put(CHECK, table_=numbers(count, 64, directory, records, 0) + PATTERN[20:328])
    for size in (64, 128, 4096):
        for offset in (*(top - size + d for d in range(-8, 9)), top - 1, top - 8, 2 ** 31, 2 ** 16, 65535):
            for row in (0, 1):
                rows = [(40, 4200), (41, 4200)]
                rows[row] = (40 + row, offset)
                test.put_table(table(rows, 4200 + size, size), record(size), wanted=41)


# Rows.

def test_row_numbers(test):
    """21: numbers in order and under 2^48, each row held to the one before it; each bit of a row."""
    some = (0, 1, 2, 39, 40, 41, 255, 256, 2 ** 47, 2 ** 48 - 2, *FAR)
    for first, second in itertools.product(some, repeat=2):
        t = table([(first, 64), (second, 70)], 134)
        test.put(CHECK, table_=t)
        for wanted in (first, second):
            test.put_lookup(record(64), t, wanted, number=41, place=7)
    for number in some:
        t = table([(number, 32)], 96)
        test.put_table(t, record(64), wanted=number)
        test.put_table(t, record(64), wanted=number, number=number)
        # the next row is held to this one's number and not to those before
        for last in (3, number, number + 1):
            if last <= LAST:
                test.put(CHECK, table_=table([(2, 64), (number, 64), (last, 64)], 128))
    # each byte of a row's number and offset
    t = table([(0x0000_1122_3344_5566, 64), (0x0000_7788_99AA_BBCC, 66)], 400)
    for bit in range(8 * 24):
        other = bytearray(t)
        other[20 + bit // 8] ^= 1 << bit % 8
        test.put(CHECK, table_=bytes(other))
        for number, _ in reading.rows(bytes(other)):
            test.put_lookup(record(64), bytes(other), number)


def test_the_first_fault_in_row_order(test):
    """21: the first fault in row order, all three tests on a row before the next."""
    for count in (1, 2, 3, 4):
        for ways in itertools.product(("good", "number", "order", "before", "past"), repeat=count):
            rows, number = [], 40
            for way in ways:
                number = {"number": 2 ** 48, "order": 40}.get(way, number + 1)
                rows.append((number, {"before": 71, "past": 77}.get(way, 72 + len(rows))))
            for directory in (20, 23):
                test.put(CHECK, table_=table(rows, 140, 64, directory, records=72))


def test_record_places(test):
    """21: where a row's record may lie; records that overlap, or lie over others."""
    for size in (64, 72, 4096):
        for records in (44, 45, 60):
            end = records + 2 * size
            ends = [end + d for d in (-size - 1, -size, -size + 1, -1, 0, 1)]
            for offset in (0, 20, *range(records - 1, records + 8), *ends):
                for length in (end - 1, end, end + 1):
                    t = table([(40, records), (41, offset)], length, size, records=records)
                    test.put_table(t, record(size), wanted=41, place=3)
    # records that overlap, in any order of their offsets, and the same one twice
    for offsets in itertools.product((80, 81, 100, 144), repeat=4):
        t = table([(40 + i, at) for i, at in enumerate(offsets)], 210, records=70)
        test.put_lookup(record(64), t, 40 + offsets[0] % 4, number=7)
    # a record over others' bytes, FILE or not
    for at in range(68, 147):
        t = table([(40, 68), (41, at)], 210, records=68)
        t = t[:68] + b"FILEFILE" + t[76:]
        for wanted in (40, 41):
            test.put_lookup(record(64), t, wanted, number=7)


def test_many_rows(test):
    """Directories as large as they may be, and one row more."""
    directory_end = NUMBERS_BYTES + ROW_BYTES * 4096
    spread = ROOM - 64 - directory_end - 12
    for count in (4095, 4096, 4097):
        rows = [(3 * i + 5, directory_end + 12 + i % spread) for i in range(count)]
        first, last = rows[0][0], rows[-1][0]
        for base in (0, count - 1, count, count + 1):
            t = table(rows, ROOM, records=directory_end + 12, base=base)
            test.put(CHECK, table_=t)
            test.put(BASE_ROW, table_=t)
            test.put(OPENING, record(64), t)
        t = table(rows, ROOM, records=directory_end + 12)
        for wanted in (first, last, rows[count // 2][0], first - 1, first + 1, last + 3, 2 ** 48, LAST):
            test.put_lookup(record(64), t, wanted, number=6, place=11)
        # a fault in the first row, in one of the middle, in the last
        for i in (0, 1, count // 2, count - 2, count - 1):
            number, offset = rows[i]
            for row in ((2 ** 48, offset), (number - 3, offset), (number, ROOM - 63), (number, directory_end - 1)):
                other = table([*rows[:i], row, *rows[i + 1:]], ROOM, records=directory_end + 12)
                test.put(CHECK, table_=other)
    # as small as 4,096 rows can be: one record of 64 bytes for all of them
    rows = [(i, directory_end) for i in range(4096)]
    for length in (directory_end + 63, directory_end + 64):
        t = table(rows, length)
        for number in (0, 4095, 4096):
            test.put_table(t, record(64), wanted=number, number=5000)
    # numbers up to 2^48 - 1, and one past
    for most in (2 ** 48 - 1, 2 ** 48):
        t = table([(most - 4095 + i, directory_end) for i in range(4096)], directory_end + 64)
        test.put_table(t, record(64), wanted=2 ** 48 - 1)


# Opening and lookup.

def test_openings(test):
    """1, 2 and 27 of the base record, behind the table's 21; its length has to be the table's record size."""
    magics = (b"FILE", b"FILF", b"\0ILE", b"BAAD")
    for size in (64, 72, 128, 4096):
        t = table([(40, 60), (41, 61)], 61 + size, size, records=60)
        bad = numbers(2, size, 20, 60, 3) + t[20:]
        lengths = {0, 3, 4, 56, 63, 64, 65, 72, 100, 128, 4088, 4096, 4104} | {size + d for d in (-8, -1, 0, 1, 8)}
        for length, magic in itertools.product(sorted(lengths), magics):
            for table_ in (t, bad):
                for kind in WITH_A_RECORD:
                    for used in (length, length + 1):
                        test.put(kind, record(length, 900, magic, used), table_, wanted=41, number=2 ** 40)
        for used in (*range(size - 3, size + 4), 0, 1, 255, 256, *(f for f in FAR if f < 2 ** 32)):
            test.put_table(t, record(size, 900, used=used), wanted=41, number=2 ** 40)
    for number in (0, 1, 40, 41, *FAR):
        t = table([(40, 60)], 124, records=60)
        for r in (record(64), record(64, magic=b"FILF"), record(72)):
            for wanted in (40, 42, number):
                test.put_table(t, r, wanted=wanted, number=number, place=LAST - number)


def test_lookups(test):
    """17, 2 and 27: every record of a table, the base record over a row of its number, and the place to blame."""
    # every record of a table, those that are not FILE among them, the base's own number among them
    rows = [(40 + 2 * i, 200 + 64 * i) for i in range(6)]
    whole = table(rows, 200 + 64 * 6, records=100)
    for broken in range(7):
        t = bytearray(whole)
        if broken < 6:
            t[200 + 64 * broken + broken % 4] ^= 1
        lent = record(64, 900)
        for number in (7, *range(39, 53), 2 ** 48, 2 ** 48 + 40, LAST):
            for wanted in (*range(38, 54), number):
                test.put_lookup(lent, bytes(t), wanted, number=number, place=wanted)
    # used sizes of the record looked up, each byte of them
    for at in (200, 200 + 64 * 5):
        for used in (*range(70), 255, 256, *(f for f in FAR if f < 2 ** 32)):
            t = whole[:at] + with_used(whole[at:], used)
            test.put_lookup(record(64), t, 40 + (at - 200) // 32, number=7, place=9)
    # numbers at and above 2^48 are in no table; one lent with the base record is found there
    for wanted in (2 ** 48 - 1, 2 ** 48, 2 ** 48 + 40, 2 ** 63 + 42, LAST, 40 + 2 ** 32, 40 + 2 ** 16):
        for number in (40, wanted, 2 ** 48):
            test.put_lookup(record(64, 900), whole, wanted, number=number, place=5)
    # no rows: only the base record can be found
    for wanted in (0, 39, 40, 41, 2 ** 48, LAST):
        test.put_table(table([], 20), record(64), wanted=wanted)
    # the place to blame
    for place in (0, 1, 56, *FAR):
        for wanted in (40, 42, 43):
            test.put_lookup(record(64), whole, wanted, number=41, place=place)


def test_lookups_among_few_and_many_rows(test):
    """Each row of a few, and at the powers of 2 of as many as there may be, and the numbers beside each."""
    lent, few, step, records = record(64), 34, 28, 500
    powers = {2 ** k + d for k in range(13) for d in (-2, -1, 0, 1)}
    for count in (*range(few), 4095, 4096):
        start = NUMBERS_BYTES + ROW_BYTES * count
        # records overlap, but for what a lookup tests of them
        rows = [(3 * i + 5, start + step * (i % records)) for i in range(count)]
        t = table(rows, start + step * min(count, records) + 64)
        for i in range(count) if count < few else sorted({i for i in powers if 0 <= i < count} | {count - 1}):
            for wanted in (3 * i + 4, 3 * i + 5, 3 * i + 6):
                test.put_lookup(lent, t, wanted, number=1, place=i)


NEEDED = {
    "list::header": (14, 15, 31, 16), "list::step": (14, 15, 31, 16), "Table::check": (21,),
    "File::of_bytes": (21, 1, 2, 27),
    "File::lookup": (21, 1, 2, 27, 17, "2 of the record looked up", "27 of the record looked up"),
}


def ended(test):
    """Each call was asked, and each refusal of it given."""
    test.finish("%s %s" % (call, number) for call, refusals in NEEDED.items() for number in refusals)


main = suite.of(Tables, ended)

if __name__ == "__main__":
    main()
