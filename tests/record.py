"""Holds the layers `fields` and `record`, as built, to the second reading of the rules.

Every question goes to the program `ask` and every line that it writes is compared. Fails at any difference.
"""
import struct

from lib import building, reading, suite
from lib.asking import LAST
from lib.building import END, head, zero_record
from lib.building import placed_record as record
from lib.on_records import (
    ATTRIBUTE, FIND, FLAGS, FULL, HEADER, KINDS, KNOWN_TYPE, LIST, MOVED, NAME, NAME_VIEW, OPENING_IN, STEP, TAKEN,
    VALUE,
    VALUE_VIEW, WALK, Question, Records,
)

# All that calls on a record refuse by, and those of them that a reader does.
REFUSALS, OF_A_READER = (*range(1, 14), 18, 27, 28), (*range(1, 6), 27, 28)


# Attributes without filling: what lies behind their headers is the record's own.

def resident(ty, length, count=0, value=24, **more):
    return building.resident(ty, length=length, count=count, value=value, reserved=False, fill=None, **more)


def non_resident(ty, length, runs=64, **more):
    return building.non_resident(
        ty, length=length, runs=runs, lowest=3, allocated=40960, size=40000, initialized=39000, fill=None, **more)


# What the whole case holds (RULES 18): attributes from 56 to 88 and from 88 to 112, and the end marker.
WHOLE = (56, resident(16, 32, 8)), (88, resident(128, 24, 0, instance=1)), (112, END)


def whole(used=116, **more):
    """The whole case, or one with another used size."""
    return record(128, 56, WHOLE, used=used, **more)


def sample():
    """Questions of each kind about the whole case, and one of each about the whole case with a used size that refuses
    its second attribute, and with one that refuses the record. rt ci runs the program on them."""
    asked = [Question(kind, place=56, ty=128, instance=1, record=whole()) for kind in (*KINDS, WALK, STEP)]
    asked += [Question(kind, place=88, ty=128, instance=1, record=whole(used)) for used in (111, 129) for kind in KINDS]
    return asked + [Question(TAKEN, place=1, record=whole())]


# Examples of the rules: the whole case (RULES 18), and both sides of each line (RULES 20).

ONE, OTHER = "attribute 56 16 32 1 0 0 0 0", "attribute 88 128 24 1 0 0 0 1"
BOTH = ONE + "\n" + OTHER


def test_the_whole_case(test):
    """Each answer of the whole case, by hand."""
    r = whole()
    test.put_literal(BOTH + "\nend", WALK, r)
    for k, answer in enumerate((ONE, OTHER, "end", "end")):
        test.put_literal(answer, TAKEN, r, place=k)
    test.put_literal("end", TAKEN, r, place=100_000)
    test.put_literal("moved 88 attribute 56 16 32 1 0 0 0 0", MOVED, r, place=56)
    test.put_literal("moved 112 end", MOVED, r, place=112)
    test.put_literal("header 5 2 56 1 116 128", HEADER, r)
    test.put_literal("span 0 0", NAME, r, place=56)
    test.put_literal("value resident 80 8", VALUE, r, place=56)
    test.put_literal("span 0 0", NAME, r, place=88)
    test.put_literal("value resident 112 0", VALUE, r, place=88)
    test.put_literal("found 2 attribute 88 128 24 1 0 0 0 1", FIND, r, ty=128, instance=1)
    test.put_literal("found 2 refused 18 41 7", FIND, r, ty=128, instance=2, place=7)


def test_both_sides_of_each_line(test):
    """The answers on both sides of each line that the rules draw in a record, by hand."""
    # a length of 16 or 15, and one of 17 with 16 bytes left
    for length, answer in ((16, "attribute 48 16 16 1 0 0 0 0"), (15, "refused 4 40 48"), (17, "refused 5 40 48")):
        r = record(64, 48, [(48, head(16, length))])
        test.put_literal(answer, STEP, r, place=48)
        test.put_literal(answer, TAKEN, r, place=0)
        test.put_literal("moved %d %s" % (64 if length == 16 else 48, answer), MOVED, r, place=48)
    # 4 bytes left with a type in them, and 3
    last = record(64, 60, [(60, struct.pack("<I", 16))])
    test.put_literal("refused 3 40 60", STEP, last, place=60)
    test.put_literal("end", STEP, last, place=61)
    # a name and an empty value at the attribute's very end
    named = record(128, 56, [(56, resident(16, 32, 0, 32, units=1, name=32))])
    test.put_literal("refused 8 40 56", NAME, named, place=56)
    test.put_literal("value resident 88 0", VALUE, named, place=56)
    # the longest value there can be
    long = record(128, 56, [(56, resident(16, 32, 2 ** 32 - 1, 24))])
    test.put_literal("refused 11 40 56", VALUE, long, place=56)
    # run bytes that begin at the attribute's end
    runs = record(128, 56, [(56, non_resident(128, 64, 64))])
    test.put_literal("value runs 120 0 40000", VALUE, runs, place=56)
    test.put_literal("view 0 ", VALUE_VIEW, runs, place=56)


# Used sizes by hand.

# What a call on one attribute is, and what its answer is where it refuses.
CALLED = (STEP, ATTRIBUTE, NAME, FULL, VALUE, LIST)
OPENED = (HEADER, WALK, FIND, *CALLED)


def put_refused(test, answer, r, place, kinds=CALLED):
    """The answer of each of these calls is this refusal; a view has no bytes, and a place stays."""
    for kind in kinds:
        test.put_literal(answer, kind, r, place=place, ty=128, instance=1)
    for kind in (NAME_VIEW, VALUE_VIEW):
        test.put_literal("view 0 ", kind, r, place=place)
    test.put_literal("moved %d %s" % (place, answer), MOVED, r, place=place)


def test_a_used_size_above_the_length(test):
    """27, of each call on a record: behind 1 and 2, at 0 of the record; the allocated size is not asked."""
    test.put_literal("header 5 2 56 1 128 128", HEADER, whole(128))
    test.put_literal("passed", OPENING_IN, whole(128), place=128)
    test.put_literal(BOTH + "\nend", WALK, whole(128))
    # nor is it compared with the used size: below it, and above the length
    for allocated in (0, 127, 129, 2 ** 32 - 1):
        test.put_literal("header 5 2 56 1 128 %d" % allocated, HEADER, whole(128, allocated=allocated))
        test.put_literal(BOTH + "\nend", WALK, whole(128, allocated=allocated))
    for used in (129, 136, 2 ** 16 + 128, 2 ** 31, 2 ** 32 - 1):
        put_refused(test, "refused 27 40 0", whole(used), 56, OPENED)
        put_refused(test, "refused 27 40 0", whole(used, allocated=2 ** 32 - 1), 88, OPENED)
        test.put_literal("refused 27 40 0", TAKEN, whole(used), place=3)
        test.put_literal("refused 27 40 0", OPENING_IN, whole(used), place=128)
        # 1 and 2 come before it, also 1 of the size that is asked for
        test.put_literal("refused 1 40 0", OPENING_IN, whole(used), place=64)
        for short in (whole(used)[:60], whole(used)[:127], whole(used) + bytes(4)):
            put_refused(test, "refused 1 40 0", short, 56, OPENED)
        put_refused(test, "refused 2 40 0", whole(used, magic=b"FILF"), 56, OPENED)
        # it comes before what the walk refuses by
        put_refused(test, "refused 27 40 0", record(128, 56, [(56, head(16, 15))], used=used), 56, OPENED)
    # no. 2 of docs/DIFFERENCES.md
    test.put_literal("header 0 0 56 0 64 0", HEADER, zero_record(64, allocated=0))
    # the smallest record and the longest
    for length in (64, 4096):
        test.put_literal("header 5 2 48 1 %d 128" % length, HEADER, record(length, 48, used=length))
        test.put_literal("refused 27 40 0", HEADER, record(length, 48, used=length + 1))


def test_an_attribute_past_the_used_size(test):
    """28, of each call on an attribute: where it ends past the used size, which may be its own end."""
    # the end marker stands at 112: that it is not inside is no matter
    for used in (112, 113, 115, 116, 128):
        test.put_literal(BOTH + "\nend", WALK, whole(used))
        test.put_literal("value resident 112 0", VALUE, whole(used), place=88)
    for used in (88, 89, 100, 111):
        r = whole(used)
        test.put_literal(ONE + "\nrefused 28 40 88", WALK, r)
        for k, answer in enumerate((ONE, "refused 28 40 88", "refused 28 40 88")):
            test.put_literal(answer, TAKEN, r, place=k)
        put_refused(test, "refused 28 40 88", r, 88)
        test.put_literal("value resident 80 8", VALUE, r, place=56)
        test.put_literal("moved 88 " + ONE, MOVED, r, place=56)
    for used in (0, 1, 56, 87):
        test.put_literal("refused 28 40 56", WALK, whole(used))
        put_refused(test, "refused 28 40 56", whole(used), 56)
    # one that begins anywhere in a stale tail, though the walk does not come there
    stale = record(128, 56, [(56, END), (100, resident(16, 24))], used=60)
    test.put_literal("end", WALK, stale)
    put_refused(test, "refused 28 40 100", stale, 100)
    # no. 28 of docs/DIFFERENCES.md
    test.put_literal("refused 28 40 56", WALK, zero_record(72, (56, head(16, 16)), used=71))
    test.put_literal("attribute 56 16 16 1 0 0 0 0\nend", WALK, zero_record(72, (56, head(16, 16))))
    # not resident, and an empty attribute of 16 bytes
    for length, form in ((64, False), (16, True)):
        for used, answer in ((56 + length, "attribute 56 128 %d %d 0 0 0 0" % (length, form)),
                             (55 + length, "refused 28 40 56")):
            test.put_literal(answer, STEP, record(128, 56, [(56, head(128, length, form))], used=used), place=56)


def test_what_stands_behind_the_used_size(test):
    """The end marker and the last bytes of a record end the walk wherever the used size is."""
    for used in (0, 56, 60, 64):
        test.put_literal("end", WALK, record(64, 56, [(56, END)], used=used))
        # 3 bytes, none, and a place past the record
        for first in (61, 64, 65, 65535):
            test.put_literal("end", WALK, record(64, first, used=used))
    # a type that is no marker is an attribute's: 3, 4 and 5 come before 28, each beside one that lacks it
    for used in (0, 48, 63):
        for at, length, answer in (
            (52, 16, "refused 3 40 52"), (60, 16, "refused 3 40 60"), (48, 15, "refused 4 40 48"),
            (48, 0, "refused 4 40 48"), (48, 17, "refused 5 40 48"), (48, 2 ** 32 - 1, "refused 5 40 48"),
            (48, 16, "refused 28 40 48"),
        ):
            r = record(64, at, [(at, head(16, length))], used=used)
            put_refused(test, answer, r, at)
            test.put_literal(answer, WALK, r)


def test_the_order_with_28(test):
    """28 comes before what is asked of an attribute, and before 6 in a search, where it is no read."""
    # a header that is cut (7), a name and a value outside (8, 10)
    bad = record(128, 56, [(56, resident(16, 23, 9, 99, units=1, name=40)), (79, END)], used=78)
    put_refused(test, "refused 28 40 56", bad, 56)
    # a list that is not resident (13)
    put_refused(test, "refused 28 40 56", record(128, 56, [(56, non_resident(0x20, 64))], used=119), 56)
    # the second attribute's type is unknown: 6 is told where it is inside, and is a read
    for used, answer in ((112, "found 2 refused 6 40 88"), (111, "found 1 refused 28 40 88")):
        r = record(128, 56, [(56, resident(16, 32, 8)), (88, resident(0x11, 24)), (112, END)], used=used)
        test.put_literal(answer, FIND, r, ty=128, instance=1, place=7)
    # what is sought stands in front of it, or is it, or is nowhere
    for used, first, second, none in (
        (112, "found 1 " + ONE, "found 2 " + OTHER, "found 2 refused 18 41 7"),
        (111, "found 1 " + ONE, *["found 1 refused 28 40 88"] * 2), (87, *["found 0 refused 28 40 56"] * 3),
    ):
        for answer, ty, instance in ((first, 16, 0), (second, 128, 1), (none, 48, 0)):
            test.put_literal(answer, FIND, whole(used), ty=ty, instance=instance, place=7)


# Each field around what decides, the others fixed.

def test_record_lengths(test):
    """Records of each length near what 1 allows, FILE or not, with an attribute at each edge."""
    for length in (*range(74), *range(4088, 4105)):
        for magic in (b"FILE", b"FILF", b"\0ILE", b"BAAD"):
            for first, at in ((0, 0), (16, 16), (24, 24), (48, 48), (56, 56), (4064, 4064), (4090, 4090)):
                r = record(length, first, [(at, resident(16, 24, 0)), (at + 24, END)], magic)
                test.put(HEADER, r)
                test.put_walk(r)
                test.put_all(r, at, number=LAST - first)
                for ty, instance in ((16, 0), (16, 1), (32, 0)):
                    test.put(FIND, r, number=LAST - first, place=length, ty=ty, instance=instance)
                for size in (0, 64, 4096, length, length + 1, max(length - 1, 0), length + 8, LAST):
                    test.put(OPENING_IN, r, place=size)


def test_attribute_lengths(test):
    """3, 4, 5 and 7: each length of an attribute, resident or not, near the record's end too."""
    huge = [2 ** k + d for k in (8, 12, 16, 31) for d in (-1, 0, 1)] + [2 ** 32 - 1, 2 ** 32 - 16, 2 ** 32 - 72]
    for first, whole in ((56, 128), (40, 64), (48, 64), (200, 256)):
        for length in (*range(81), *range(whole - first - 3, whole - first + 4), *huge):
            for form in (0, 1, 2, 255):
                a = bytearray((resident if form == 0 else non_resident)(128, length, 0, instance=3))
                a[8] = form
                r = record(whole, first, [(first, bytes(a))])
                test.put_walk(r)
                test.put_all(r, first)
                for instance in (3, 4):
                    test.put(FIND, r, ty=128, instance=instance, place=length)


def test_names(test):
    """8 and 9: each name offset and number of units near what an attribute's length allows."""
    for length in (16, 17, 24, 32, 64):
        for offset in (*range(length + 5), 255, 256, 65535):
            for units in (0, 1, 2, 3, *range(length // 2 - 8, length // 2 + 3), 127, 128, 255):
                if units >= 0:
                    r = record(128, 56, [(56, head(128, length, units=units, name=offset))])
                    test.put_all(r, 56, (NAME, NAME_VIEW))
    # long names: up to 255 units in an attribute that fills the largest record
    for length in (500, 526, 527, 3000, 4040):
        for offset in (16, 64, *range(max(length - 512, 0), length - 505), length - 1, length, length + 1):
            for units in (1, 253, 254, 255):
                test.put_all(
                    record(4096, 56, [(56, head(128, length, units=units, name=offset))]), 56, (NAME, NAME_VIEW))


def test_resident_values(test):
    """7, 10 and 11: each value offset and length near what an attribute's length allows."""
    sums = [2 ** 32 - 1 - k for k in range(72)] + [2 ** 31, 2 ** 16, 2 ** 16 - 1]
    for length in (24, 25, 32, 40):
        for offset in (*range(length + 5), 255, 256, 65535):
            for bytes_ in (*range(length + 5), *sums):
                r = record(128, 56, [(56, resident(128, length, bytes_, offset))])
                test.put_all(r, 56, (VALUE, LIST))
                if bytes_ <= length + 4:
                    test.put_all(r, 56, (VALUE_VIEW, FULL))
    # values that reach up to the record's end, and headers of each length that lacks or has them
    for first in range(48, 113):
        for length in (23, 24, 128 - first):
            for bytes_ in (0, 1, 128 - first - 25, 128 - first - 24, 128 - first - 23):
                r = record(128, first, [(first, resident(16, length, bytes_ % 2 ** 32))])
                test.put_all(r, first, (VALUE, VALUE_VIEW, FULL, LIST))


def test_run_bytes(test):
    """7, 12 and 13: each runs offset near what an attribute's length allows; each byte of the full header."""
    for length in (63, 64, 65, 72, 80, 4040):
        for runs in (*range(90), *range(length - 3, length + 4), 255, 256, 65535):
            r = record(4096 if length > 80 else 152, 56, [(56, non_resident(128, length, runs))])
            test.put_all(r, 56, (VALUE, VALUE_VIEW, FULL, LIST))
    # each field of the full header has bytes of its own
    for k in range(64):
        r = bytearray(record(152, 56, [(56, non_resident(128, 64))]))
        r[56 + k] ^= 0xA5
        test.put_all(bytes(r), 56)


def test_used_sizes(test):
    """27 and 28: each used size of small records, and those around what a long one's attributes end at."""
    far = (200, 255, 256, 257, 4095, 4096, 4097, 65535, 2 ** 16 + 112, 2 ** 31, 2 ** 32 - 1)
    for used in (*range(137), *far):
        for r in (
            whole(used), whole(used, allocated=used // 2), record(128, 60, WHOLE, used=used),
            record(128, 56, [(56, resident(16, 24)), (80, resident(0x11, 17)), (97, head(48, 31))], used=used),
        ):
            test.put_walk(r)
            test.put(OPENING_IN, r, place=128)
            for at in (56, 60, 80, 88, 97, 112):
                test.put_all(r, at)
            for ty, instance in ((16, 0), (128, 1), (48, 0)):
                test.put(FIND, r, ty=ty, instance=instance, place=used)
    long = [(56 + 16 * k, head(16, 16, instance=k)) for k in range(252)]
    for used in (*(end + d for end in (72, 88, 2056, 4072, 4088, 4096) for d in (-1, 0, 1)), 0, 65535):
        r = record(4096, 56, long, used=used)
        test.put_walk(r)
        test.put(FIND, r, ty=16, instance=251)


def test_places(test):
    """A call at each place of a record, behind its end, and near the ends of wider numbers."""
    attributes = [
        (56, resident(16, 32, 8)), (88, non_resident(128, 72, instance=1)), (160, resident(48, 40, 16)), (200, END)]
    far = [2 ** k + d for k in (8, 12, 16, 31, 32, 48, 63) for d in range(-17, 18)] + list(range(LAST - 80, LAST + 1))
    for r in (record(256, 56, attributes), record(64, 56, ()), record(4096, 56, attributes)):
        for place in (*range(257), *range(4070, 4130), *far):
            test.put_all(r, place, number=place % 2 ** 48)
            test.put(FIND, r, ty=128, instance=1, place=place)
            test.put(FIND, r, ty=128, instance=2, place=place)
            test.put(OPENING_IN, r, place=place)
    # the first attribute offset, which is read from the record
    for first in (*range(140), *range(250, 260), 4096, 65535):
        r = record(128, first, [(56, resident(16, 32, 8)), (88, resident(128, 24, 0)), (112, END)])
        test.put_walk(r)
        test.put(FIND, r, ty=128, instance=0, place=first)


def test_types(test):
    """6: which types are known, and what the walk and the search make of the others."""
    around = [t + d for t in (0x10, 0x20, 0x80, 0x100, 0x1000) for d in (-1, 0, 1)]
    far = [2 ** k + d for k in range(2, 32) for d in (-1, 0, 1)] + list(range(2 ** 32 - 40, 2 ** 32))
    for ty in (*range(0x240), *far):
        test.put(KNOWN_TYPE, ty=ty)
    for ty in (*range(0x120), *around, *far):
        r = record(128, 56, [(56, resident(ty, 24, 0)), (80, resident(64, 24, 0, instance=2)), (104, END)])
        test.put_walk(r)
        test.put_all(r, 56, (STEP, ATTRIBUTE, NAME, VALUE))
        for wanted, instance in ((ty, 0), (ty, 1), (64, 2), (64, 3), (reading.MARKER, 0)):
            test.put(FIND, r, ty=wanted, instance=instance, place=56)


def test_flags(test):
    """The bits of flags that are kept; each byte of a record's header."""
    for flags in range(0x10000):
        test.put(FLAGS, instance=flags)
    for flags in (*(1 << k for k in range(16)), *(0xFFFF ^ (1 << k) for k in range(16)), *range(0, 0x10000, 257)):
        r = bytearray(record(128, 56, [(56, resident(16, 24, flags=flags))]))
        struct.pack_into("<H", r, 22, flags)
        test.put(HEADER, bytes(r))
        test.put_all(bytes(r), 56, (STEP, ATTRIBUTE))
    # each header field has bytes of its own
    for k in range(64):
        r = bytearray(record(64, 56))
        r[k] ^= 0x5A
        test.put(HEADER, bytes(r), number=k)


def test_finds(test):
    """The search among many attributes, in which each pair of type and instance stands early, late, twice or not at
    all."""
    kinds = [(ty, instance) for ty in (16, 48, 128) for instance in (0, 1, 256, 65535)]
    for start in range(len(kinds)):
        attributes, at = [], 56
        for k in range(10):
            ty, instance = kinds[(start + 5 * k) % len(kinds)]
            attributes.append((at, head(ty, 16 + k, instance=instance)))
            at += 16 + k
        for broken in (None, (0, 15), (0, 5), (9, 14), (9, 8000), (4, 0)):
            for unknown in (None, 0, 5, 9):
                r = bytearray(record(512, 56, [*attributes, (at, END)]))
                if broken:
                    struct.pack_into("<I", r, attributes[broken[0]][0] + 4, broken[1])
                if unknown is not None:
                    struct.pack_into("<I", r, attributes[unknown][0], 0x11)
                for ty, instance in (*kinds, (32, 0), (0x11, 0), (reading.MARKER, 0)):
                    test.put(FIND, bytes(r), ty=ty, instance=instance, place=start, number=LAST - start)
    # the most that a record holds: 252 attributes of 16 bytes
    full = record(4096, 64, [(at, head(16, 16, instance=at)) for at in range(64, 4096, 16)])
    test.put_literal("found 252 refused 18 41 9", FIND, full, ty=16, instance=1, place=9)
    test.put_literal("found 252 attribute 4080 16 16 1 0 0 0 4080", FIND, full, ty=16, instance=4080)
    test.put_walk(full)


def ended(test):
    """Each call was asked, and each refusal given."""
    test.finish(["number %2d" % n for n in REFUSALS] + ["reader %2d" % n for n in OF_A_READER])


main = suite.of(Records, ended)

if __name__ == "__main__":
    main()
