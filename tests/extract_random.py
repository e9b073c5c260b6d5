"""Holds the layer `extract`, as built, to the second reading of the rules, and both to the cases of tests/extracts.py.

Every question goes to the program `ask`: an extract and a buffer with bytes in it. What it reports or refuses and the
whole buffer behind the call are compared. Fails at any difference.
"""
import random
import struct

from extracts import (
    CASES, END, MOST_ROWS, ROW_END, SIZES, array_bytes, bad_array, by_ntfs_3g, left_out, length_of, one, samples, sound,
    torn, expected,
)
from lib import suite
from lib.building import PATTERN, PAIR, pair_places, raw_record, with_byte
from lib.on_extracts import OF_A_RECORD, REFUSALS, Extracts, Question
from lib.question import LAST
from lib.reading import Refusal, rows
from lib.reading.extracts import extract

# what a buffer holds before the call: none of it is like a table's
HELD = bytes(reversed(PATTERN))

# numbers near the ends of their widths
EDGES = sorted({2 ** k + d for k in (8, 16, 31, 32, 47, 48, 62, 63) for d in (-2, -1, 0, 1)} | {0, LAST - 1, LAST})

SEED = 20240926
RANDOM = 12_000


def buffer(length, k=0):
    """A buffer of this length."""
    more = HELD[k % 251:]
    return (more * (length // len(more) + 1))[:length]


def hand(case):
    """A case's answer as the program is to give it."""
    answer = expected(case)
    return Refusal(*answer) if case.refused else answer


def sample():
    """Questions with each refusal and each other answer. rt ci runs the program on them."""
    wanted = (
        "records of 512 bytes", "records of 511 bytes", "no record", "no record, -1 bytes more", "one of each",
        "number 2^48", "2^64, refused", "the array of 512 bytes at 507, 29", "pair 0 of 512 bytes, its byte 0",
        "a record that begins with 42414144",
    )
    small = [case for case in (*CASES, ONE_OF_EACH) if case.name in wanted]
    assert len(small) == len(wanted), {case.name for case in small} ^ set(wanted)
    return [Question(case.text, case.size, case.first, buffer(case.room)) for case in small]


ONE_OF_EACH = one("one of each", sound(512))._replace(
    records=[left_out(512), sound(512, 1), torn(512), bad_array(512, array=507), sound(512, 2)], more=30)


# The cases, and real records.

def test_the_cases(test):
    """Each case by hand: the answer, and the buffer, which a table takes the front of and a refusal leaves."""
    for case in (*CASES, ONE_OF_EACH):
        test.put_literal(hand(case), case.text, case.size, case.first, buffer(case.room))


def test_real_records(test):
    """The rows that are written of real records are those that ntfs-3g reads, and what it takes for torn is 30."""
    for given in samples():
        held, torn_ones = by_ntfs_3g(given)
        table, report = extract(given.raw, given.size, given.first, 2 ** 20)
        assert list(rows(table)) == held and report.refused == len(torn_ones)
        test.put_literal((table, report), given.raw, given.size, given.first, buffer(len(table) + 9))


# Each number around what decides, the others fixed.

def put_record(test, raw, number=41):
    """A record alone, in a buffer that has more than it needs."""
    test.put(raw, len(raw), number, buffer(length_of(1, len(raw)) + 3))


def test_array_places(test):
    """29: each place of the array in small records, those around each pair in larger ones, and places far off."""
    for size in SIZES:
        near = {at + d for at in (0, *pair_places(size), size) for d in range(-array_bytes(size) - 3, 6)}
        for at in sorted(range(size + 6) if size <= 1024 else {at for at in near if at >= 0}):
            put_record(test, raw_record(size, at, at).raw)
        for at in (2 ** k + d for k in (13, 14, 15, 16) for d in (-2, -1, 0, 1, 48)):
            if at < 2 ** 16:
                put_record(test, raw_record(size, 0, at).raw)


def test_array_sizes(test):
    """29: each small size of the array, and those of other records, wherever it stands."""
    for size in SIZES:
        for count in (*range(20), 255, 256, 257, size // 512 + 256, 2 ** 15, 2 ** 15 + size // 512 + 1, 2 ** 16 - 1):
            for array in (8, 48, 490, size - 30):
                put_record(test, raw_record(size, count, array, count % 2 ** 16).raw)


def test_pairs(test):
    """30: each bit of each pair, any two pairs, and pairs that are another's number."""
    for size in SIZES:
        raw, fixed = raw_record(size)
        places = pair_places(size)
        for at in places:
            for bit in range(16):
                put_record(test, with_byte(raw, at + bit // 8, 1 << bit % 8))
            for other in places:
                put_record(test, with_byte(with_byte(raw, at), other + 1))
                put_record(test, raw[:at] + fixed[other:other + PAIR] + raw[at + PAIR:])


def test_each_byte(test):
    """Each byte of a record changed; the reading says which of them are left out, refused, or written so."""
    for size, array in ((512, 48), (512, 0), (512, 5), (1024, 48), (1024, 512), (1536, 6)):
        raw = raw_record(size, 3, array).raw
        for at in range(size):
            put_record(test, with_byte(raw, at, 1 + at % 255))


def test_header_bits(test):
    """Each bit of the word FILE and of both numbers."""
    for size in (512, 1024, 4096):
        raw = raw_record(size).raw
        for bit in range(8 * 8):
            put_record(test, with_byte(raw, bit // 8, 1 << bit % 8))
    for word in (b"", b"F", b"FI", b"FIL"):
        put_record(test, word + bytes(512 - len(word)))


def test_record_sizes(test):
    """1: sizes around each allowed one, for extracts of two lengths; and sizes that 16, 32 or 63 bits cut down."""
    for around in (0, *SIZES, 4608, 8192):
        for size in (around + d for d in (-8, -2, -1, 0, 1, 2, 8, 256)):
            for text in (b"", PATTERN[:around], PATTERN[:2 * around + 1]):
                if size >= 0:
                    test.put(text, size, 40, buffer(40))
    for k in (16, 31, 32, 48, 63):
        for size in (2 ** k - 512, 2 ** k, 2 ** k + 512, 2 ** k + 1024):
            test.put(sound().raw, size, 40, buffer(1100))
    for size in SIZES:
        for length in (size - 1, size, size + 1, 2 * size - 512, 2 * size, 2 * size + 512, 3 * size - 1):
            test.put((raw_record(size).raw * 3)[:length], size, 40, buffer(3 * size + 60))


def test_numbers(test):
    """44 on both sides, behind each number of records that are written and others; and the first refused, up to and
    above 2^64 - 1."""
    for number in EDGES:
        for fates in ("s", "t", "x", "ss", "ts", "xs", "st", "xt", "tst", "xxs", "xxt", "sxts"):
            text = b"".join({"s": sound, "t": torn, "x": left_out}[f](512, k=k).raw for k, f in enumerate(fates))
            test.put(text, 512, number, buffer(length_of(fates.count("s"), 512) + len(fates)))
    for end in (ROW_END, END):
        for count in (1, 2, 3, 9):
            for d in range(-1, count + 2):
                if 0 <= end - d <= LAST:
                    test.put(sound(512).raw * count, 512, end - d, buffer(length_of(count, 512)))
                    test.put(torn(512).raw * count, 512, end - d, buffer(length_of(0, 512)))


def test_rooms(test):
    """35: each buffer up to one longer than the table, whatever is left out or refused beside it; what stands behind
    the table stays."""
    kinds = sound(512).raw, torn(512).raw, left_out(512).raw
    for fates, rows_written in (((), 0), ((1, 2), 0), ((0,), 1), ((0, 0), 2), ((2, 0, 1, 0), 2)):
        text, need = b"".join(kinds[f] for f in fates), length_of(rows_written, 512)
        for room in sorted({*range(26), *range(need - 30, need + 40), need + 512, need + 524, 3000}):
            if room >= 0:
                test.put(text, 512, 40, buffer(room, room))


def test_many_rows(test):
    """34 on both sides, with records that are not written around and between them, and 44 and 35 beside it."""
    row, gap = sound(512).raw, left_out(512).raw
    for count in (MOST_ROWS - 1, MOST_ROWS, MOST_ROWS + 1):
        for text in (row * count, gap + row * (count - 5) + torn(512).raw + row * 5):
            need = length_of(count, 512)
            for number, room in (
                (0, need), (ROW_END - count - 2, need + 1), (ROW_END - count + 1, need), (7, need - 1)):
                # the program's room for both is that of one record too many and the longest table
                test.put(text, 512, number, buffer(min(room, length_of(MOST_ROWS, 512))))


def test_base_rows(test):
    """A base record that is asked for is found by its number; where it is not written there is no base row."""
    rows = [left_out(512), sound(512, 1), torn(512), sound(512, 2), bad_array(512, array=507), sound(512, 3)]
    text = b"".join(record.raw for record in rows)
    for first in (0, 1, 3, 40, ROW_END - 6, ROW_END - 5, LAST - 6, LAST - 5, LAST - 3, LAST):
        for base in {*range(8), *(first + d for d in range(-1, 8)), LAST}:
            if 0 <= base <= LAST:
                test.put(text, 512, first, buffer(2000), base)
        test.put(b"", 512, first, buffer(30), first)


# Extracts at random.

def random_record(chance, size):
    """A record, mostly sound."""
    way, blocks = chance.random(), size // 512
    array = chance.choice((42, 48, 48, 48, chance.randrange(size), chance.randrange(510), chance.randrange(2 ** 16)))
    others = 0, 1, blocks, blocks + 2, chance.randrange(2 ** 16)
    count = blocks + 1 if chance.random() < 0.95 else chance.choice(others)
    magic = b"FILE" if chance.random() < 0.85 else chance.choice((b"BAAD", b"FILF", b"\0\0\0\0"))
    raw = raw_record(size, chance.randrange(251), array, count, magic).raw
    if way < 0.1:
        raw = with_byte(raw, chance.choice(pair_places(size)) + chance.randrange(2), 1 << chance.randrange(8))
    elif way < 0.15:
        raw = with_byte(raw, chance.randrange(size), chance.randrange(1, 256))
    elif way < 0.2:
        raw = with_byte(raw, chance.randrange(8), 1 << chance.randrange(8))
    elif way < 0.22:
        raw = bytes(4) * (size // 4)
    return raw


def random_number(chance, count):
    """The number of the first record: small as a rule, and near an end now and then."""
    near = chance.choice((ROW_END, END)) - chance.randrange(count + 3)
    return chance.choice((0, 40, chance.randrange(2 ** 32), min(near, LAST), chance.choice(EDGES)))


def test_at_random(test):
    """Extracts at random, in buffers that suit them or nearly do."""
    print("seed %d, %d extracts" % (SEED, RANDOM))
    chance = random.Random(SEED)
    for _ in range(RANDOM):
        size = chance.choice((512, 512, 512, 1024, 1024, 4096, chance.choice(SIZES)))
        count = chance.choice((0, 1, 1, 2, 3, chance.randrange(9)))
        text = b"".join(random_record(chance, size) for _ in range(count))
        if chance.random() < 0.03:
            text = text[:chance.randrange(len(text) + 1)] + bytes(chance.randrange(3))
        number = random_number(chance, count)
        written = sum(text[k * size:k * size + 4] == b"FILE" for k in range(count))
        room = length_of(written, size) + chance.choice((0, 0, 0, 0, 1, 100, -1, -12, -size - 12))
        told = size if chance.random() < 0.97 else size + chance.choice((-1, 1, 512, 8))
        base = min(number + chance.randrange(count + 2), LAST) if chance.random() < 0.3 else None
        test.put(text, told, number, buffer(max(room, 0), chance.randrange(251)), base)


def ended(test):
    """Each refusal was given, of calls and of records."""
    test.finish((*REFUSALS, *OF_A_RECORD))


main = suite.of(Extracts, ended)

if __name__ == "__main__":
    main()
