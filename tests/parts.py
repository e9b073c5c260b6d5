"""Holds the parts of an item, as built, to the second reading of the rules and to answers of the Rust.

Every question goes to the program `ask` and every line that it writes is compared. Fails at any difference.
"""
import struct
import sys

from lib import reading, rust, suite
from lib.asking import LAST
from lib.building import (
    END, ENTRY_BYTES, NUMBERS_BYTES, ROW_BYTES, entry, head, list_of, record, resident, table, with_used, zero_record,
)
from lib.on_parts import COLLECT, REFUSALS, WALK, WITHIN, Parts, Question, said
from lib.random_tables import part as placed
from lib.reading.items import NO_LIST, Rest
from lib.reading.parts import ROOM, Part, walk

# The base record is 40, of 512 bytes, with a list at 56, so that the first entry stands at 80.

# What the entries name: in 41 and 42 a part that is whole, behind another attribute in 42; then a record for each
# fault.
FILES = {
    41: record(512, placed(0x80, 2, 0, 72, 66, 123456789)),
    42: record(512, resident(0x80, 1), placed(0x80, 2, 2 ** 63 + 5, 64, 64, 0)),
    43: record(512, resident(0x80, 1), resident(0x90, 2)),
    44: record(512, placed(0x80, 2), magic=b"FILF"),
    45: record(512, resident(0x80, 1, 448), end=b"\x10\0\0\0" * 2),
    46: record(512, resident(0x80, 1), head(0x80, 15, instance=2)),
    47: record(512, resident(0x80, 1), head(0x80, 433, instance=2)),
    48: record(512, resident(0x80, 1), resident(0x11, 2), placed(0x80, 2)),
    49: record(512, resident(0x80, 1), resident(0x80, 2), placed(0x80, 2)),
    50: record(512, placed(0x80, 2, length=63)),
    51: record(512, placed(0x80, 2, length=64, runs=65)),
    52: record(512, head(0x80, 16, instance=2)),
    53: record(512, placed(0x80, 2, length=63, runs=65)),
    # used sizes: above the length; and one byte short of what stands at 80 or at 56
    54: record(512, resident(0x80, 1), placed(0x80, 2), used=513),
    55: record(512, placed(0x80, 2), magic=b"FILF", used=513),
    56: record(512, resident(0x80, 1), placed(0x80, 2), used=143),
    57: record(512, resident(0x80, 1), resident(0x11, 2), placed(0x80, 2), used=103),
    58: record(512, resident(0x80, 1), resident(0x80, 2), used=103),
    59: record(512, placed(0x80, 2, length=63, runs=65), used=118),
    # one that ends with the part, and a stale attribute behind it
    60: record(512, placed(0x80, 2, 0, 72, 66, 123456789), resident(0x80, 2), used=128),
    # a part of another instance
    61: record(512, resident(0x80, 2), placed(0x80, 3, 7, 72, 64, 5)),
}

# a good entry of 26 bytes, which may be the first one or continue another, with the part that it gives and what is
# read for it
GOOD = (
    (entry(0x80, 41, 2, lowest=3), Part(41, 56, 0, 122, 6, 123456789, 3), 2),
    (entry(0x80, 42, 2, lowest=LAST), Part(42, 80, 2 ** 63 + 5, 144, 0, 0, LAST), 3),
)
(ONE, PART, N), (TWO, OTHER, M) = GOOD


def good(count):
    """So many good entries in turn: the entries, their parts, and what is read for each."""
    return tuple(map(list, zip(*(GOOD[k % 2] for k in range(count))))) if count else ([], [], [])


def listed(entries, files=None, **more):
    """(base record, table, the list) with these entries."""
    r = record(512, list_of(*entries), resident(0x30, 5), **more)
    end = 80 + sum(map(len, entries))
    return r, table({40: r, **(FILES if files is None else files)}), Rest(True, 80, end)


def collected(test, name, entries, parts, end, reads, **more):
    """A case of parts that a list of these entries gives."""
    r, t, rest = listed(entries, **more)
    test.case(name, Question(COLLECT, r, t, rest=rest), parts, end, reads)


def sample():
    """Questions of each kind about a record with a list, and some that are refused. rt ci runs the program on
    them."""
    test = Parts()
    r, t, rest = listed([ONE, TWO, entry(0x80, 40, 2), entry(0x80, 41, 2)], {n: FILES[n] for n in (41, 42)})
    whole, u, span = listed([ONE, TWO, entry(0x80, 49, 3)], {n: FILES[n] for n in (41, 42, 49)})
    questions = (
        Question(COLLECT, whole, u, rest=span), Question(COLLECT, r, t, rest=rest),
        Question(COLLECT, r, t, rest=Rest(False, 9, 3)),
        Question(COLLECT, r, t, rest=Rest(True, 9, 513)), Question(COLLECT, r[:64], t, rest=rest),
        Question(COLLECT, r, t[:19], rest=rest),
        Question(WALK, r, t), Question(WALK, whole, u, on=1), Question(WALK, whole, u, on=0),
        Question(WALK, r, t[:19], on=2),
        *(Question(WITHIN, whole, u, rest=span, room=room) for room in (0, 1, 2, 157)),
        *(Question(COLLECT, with_used(whole, used), u, rest=span) for used in (512, 513)),
    )
    for n in (54, 56):
        stale, v, span = listed([ONE, entry(0x80, n, 2)], {k: FILES[k] for k in (41, n)})
        questions += Question(COLLECT, stale, v, rest=span), Question(WALK, stale, v, on=1)
    return [test.counted(q, test.expected(q)) for q in questions]


# Cases by hand.

def later(file=41, instance=2, lowest=1, ty=0x80, **given):
    """An entry that continues those of no name."""
    return entry(ty, file, instance, lowest=lowest, **given)


BAD = (
    # the entry, what refuses, its record and place (none: the entry's), what is read for it
    (later()[:25], 14, None, 0), (later()[:1], 14, None, 0), (later(length=25), 15, None, 0),
    (later(units=1, length=27), 15, None, 0), (later(units=1)[:26], 16, None, 0),
    (later(units=255, length=600)[:27], 16, None, 0), (later(units=1, length=40, name_offset=36)[:37], 16, None, 0),
    # 15 before 31, 31 before 16 and before 17
    (later(units=1, length=27, name_offset=25), 15, None, 0), (later(units=1, name_offset=25), 31, None, 0),
    (later(units=1, length=29, name_offset=28), 31, None, 0), (later(99, units=2, name_offset=0), 31, None, 0),
    (later(units=1, length=600, name_offset=25)[:28], 31, None, 0), (later(99), 17, None, 1),
    (later(2 ** 48 - 1), 17, None, 1), (later(43), 18, None, 3), (later(44), 2, (44, 0), 1),
    (later(45), 3, (45, 504), 2), (later(46), 4, (46, 80), 2), (later(47), 5, (47, 80), 2),
    (later(48), 6, (48, 80), 3), (later(49), 19, (49, 80), 3), (later(50), 7, (50, 56), 2),
    # 19 before 7, 7 before 12
    (later(51), 12, (51, 56), 2), (later(52), 19, (52, 56), 2), (later(53), 7, (53, 56), 2),
    # 2 before 27; 28 before 6, 19 and 7, and what it refuses is no read
    (later(54), 27, (54, 0), 1), (later(55), 2, (55, 0), 1), (later(56), 28, (56, 80), 2), (later(57), 28, (57, 80), 2),
    (later(58), 28, (58, 80), 2), (later(59), 28, (59, 56), 1),
    # of another instance, which is how it is looked up
    (later(41, 3), 18, None, 2),
)


def test_every_refusal(test):
    """Each in the first part and behind 1, 2 and 5 others, which stay; nothing behind the entry is read."""
    for last, number, place, more in BAD:
        for before in (0, 1, 2, 5):
            entries, parts, reads = good(before)
            # behind the one that refuses stands a good one, but where the list must end
            r, t, rest = listed(entries + [last] + ([] if number in (14, 16) else [ONE]))
            file, at = place or (40, 80 + ENTRY_BYTES * before)
            test.case(
                "%d in the %s part" % (number, "first" if before == 0 else "later"),
                Question(COLLECT, r, t, rest=rest),
                parts, "refused %d %d %d" % (number, file, at), sum(reads) + more)
            # each of them with less room too, and with the record as the walk finds it
            test.put_both(r, t, rest, rooms=range(before + 3))
            test.put(WALK, r, t, on=9)


def test_an_unknown_type(test):
    """6 at the first entry, one read; behind it, it ends the parts and counts one read too."""
    for ty in (0x11, 0, 0x110, 2 ** 32 - 2):
        for instance, file, lowest in ((2, 41, 1), (2, 41, 0), (3, 41, 1), (2, 40, 1), (2, 99, 1)):
            last = later(file, instance, lowest, ty)
            collected(test, "unknown type first", [last, ONE], [], "refused 6 40 80", 1)
            for before in (1, 2, 5):
                entries, parts, reads = good(before)
                r, t, rest = listed([*entries, last, ONE])
                q = Question(COLLECT, r, t, rest=rest)
                test.case("unknown type ends", q, parts, "whole", sum(reads) + 1)
                test.put_both(r, t, rest, rooms=range(before + 3))
                test.put(WALK, r, t, on=9)


def test_a_stale_tail(test):
    """A part that ends with the used size of its record is one, whatever stands behind it; a byte less refuses it."""
    for used in (128, 129, 151, 152, 512):
        collected(
            test, "a used size at the part's end and above", [entry(0x80, 60, 2, lowest=3)],
            [Part(60, 56, 0, 122, 6, 123456789, 3)], "whole", 2, files={60: with_used(FILES[60], used)})
    for used in (0, 56, 127):
        collected(
            test, "a used size inside the part", [entry(0x80, 60, 2, lowest=3)], [], "refused 28 60 56", 1,
            files={60: with_used(FILES[60], used)})
    # the base record's own part
    for used, found, end, reads in ((184, 1, "whole", 3), (183, 0, "refused 28 40 112", 2)):
        lent = record(512, list_of(MINE), placed(0x80, 2, 77, 72, 64, 9), used=used)
        q = Question(COLLECT, lent, table(FILES), rest=Rest(True, 80, 106))
        parts = [Part(40, 112, 77, 176, 8, 9, 8)] * found
        test.case("base-record entry, near its used size", q, parts, end, reads)


def test_room(test):
    """20: at the entry that has no room, before its record is looked up."""
    for count in range(1, 9):
        entries, parts, reads = good(count)
        r, t, rest = listed(entries)
        for room in (0, 1, count - 1, count, count + 1, 156, 157):
            name = {0: "room 0", count - 1: "room one short", count: "room enough"}.get(room, "room")
            end, more = ("refused 20 40 %d" % (80 + ENTRY_BYTES * room), 1) if room < count else ("whole", 0)
            q = Question(WITHIN, r, t, rest=rest, room=room)
            test.case("room 0" if room == 0 else name, q, parts[:room], end, sum(reads[:room]) + more)


# An entry behind the last that has room: it is read and judged, and not looked up.
BEHIND = (
    ("20 before the lookup", later(99), 20, 1), ("20 before the lookup", later(44), 20, 1),
    ("20 before the lookup", later(41, 3), 20, 1),
    ("an unknown type before 20", later(ty=0x11), None, 1), ("the end before 20", later(lowest=0), None, 1),
    ("the end before 20", later(units=1), None, 1), ("the end before 20", later(ty=0x90), None, 1),
    ("14 before 20", later()[:25], 14, 0), ("15 before 20", later(length=25), 15, 0),
    ("16 before 20", later(units=1)[:26], 16, 0), ("31 before 20", later(units=1, name_offset=25), 31, 0),
)


def test_what_comes_before_20(test):
    """14, 15, 31, 16 and the end of the parts, at an entry that has no room; and 6 at the first one."""
    for last, number, reads in (
        (entry(0x11, 41, 2), 6, 1), (later(ty=0), 6, 1), (ONE[:25], 14, 0), (later(length=25), 15, 0),
        (later(units=1)[:26], 16, 0), (later(units=1, name_offset=25), 31, 0), (ONE, 20, 1),
        (entry(0x80, 99, 2), 20, 1),
    ):
        r, t, rest = listed([last])
        q = Question(WITHIN, r, t, rest=rest, room=0)
        name = "%d before 20" % number if number != 20 else "20 before the lookup"
        test.case(name, q, [], "refused %d 40 80" % number, reads)
    for count in range(1, 9):
        entries, parts, reads = good(count)
        for name, last, end, more in BEHIND:
            r, t, rest = listed([*entries, last])
            end = "refused %d 40 %d" % (end, 80 + ENTRY_BYTES * count) if end else "whole"
            test.case(name, Question(WITHIN, r, t, rest=rest, room=count), parts, end, sum(reads) + more)
            test.put_both(r, t, rest, rooms=(0, count - 1, count + 1, 157))


# A name, "ab", and good entries that have it, with their parts.
AB = b"a\0b\0"


def named(file=41, lowest=1, name=AB, **given):
    """An entry of this name."""
    return later(file, lowest=lowest, units=len(name) // 2, name=name, **given)


NAMED = [named(41, 3), named(42, LAST)]


def padded(padding, file=41, lowest=1, name=AB, **given):
    """An entry that has its name at 32, behind six bytes of padding."""
    return named(file, lowest, name, name_offset=32, padding=padding, **given)


def test_an_entry_that_ends_the_parts(test):
    """One of another type or another name, or from VCN 0 on; what continues them behind it is no part."""
    for name, last in (
        ("VCN 0 ends", later(lowest=0)), ("VCN 0 ends", later(42, lowest=0)), ("VCN 0 ends", later(40, lowest=0)),
        ("another type ends", later(ty=0x90)), ("the marker's type ends", later(ty=reading.MARKER)),
        ("another type ends, for the base record", later(40, ty=0x10)),
        ("a name ends those of none", later(units=1)), ("a name ends those of none", later(units=1, name=b"\0\0")),
    ):
        collected(test, name, [ONE, TWO, last, ONE, TWO], [PART, OTHER], "whole", N + M + 1)
    for name, last in (
        ("VCN 0 ends", named(lowest=0)), ("one byte different ends", named(name=b"a\0c\0")),
        ("one byte different ends", named(name=b"b\0b\0")), ("one byte different ends", named(name=b"a\0b\1")),
        ("one byte different ends", named(name=b"A\0b\0")), ("one unit shorter ends", named(name=b"a\0")),
        ("one unit longer ends", named(name=AB + b"c\0")), ("one unit longer ends", named(name=AB + b"\0\0")),
        ("no name ends", named(name=b"")), ("no name ends", named(name=b"", length=30)),
        ("one unit shorter ends", later(units=1, name=AB, length=30)[:30]), ("another type ends", named(ty=0x90)),
        ("the same bytes at 26 end", padded(AB, name=b"a\0c\0")),
        ("the same bytes at 26 end", named(name=b"\0b\0\0", name_offset=27, padding=b"a")),
        ("no name ends", named(name=b"", name_offset=0)), ("no name ends", named(name=b"", name_offset=255)),
    ):
        collected(test, name, [*NAMED, last, *NAMED], [PART, OTHER], "whole", N + M + 1)


def test_an_entry_that_goes_on(test):
    """Of the same type and name, and from a VCN on that is not 0: whatever its instance, its filling, its name's place
    and what is in front of it, and the VCN of its attribute are."""
    third = Part(61, 80, 7, 144, 8, 5, 1)
    for first in ([], [ONE], [ONE, TWO]):
        parts, reads = [PART, OTHER][:len(first)], sum((N, M)[:len(first)])
        collected(
            test, "another instance goes on", [*first, later(61, 3), ONE], [*parts, third, PART], "whole",
            reads + 3 + N)
    for name, last in (
        ("filling goes on", named(length=31)), ("filling goes on", named(length=38)),
        ("padding goes on", named(name_offset=27)), ("padding goes on", padded(b"b\0a\0")),
        ("padding goes on", padded(b"q", length=50)), ("filling goes on", named(sequence=9)),
    ):
        collected(
            test, name, [*NAMED, last, NAMED[0]], [PART, OTHER, PART._replace(listed=1), PART], "whole", N + M + 2 * N)
    for offset in (0, 25, 27, 255):
        collected(
            test, "no name, any offset goes on", [ONE, later(name_offset=offset), TWO],
            [PART, PART._replace(listed=1), OTHER], "whole", 2 * N + M)
    for lowest in (1, 2, 2 ** 32, 2 ** 63 - 1, 2 ** 63, LAST):
        collected(
            test, "VCN above 0 goes on", [NAMED[1], named(lowest=lowest)], [OTHER, PART._replace(listed=lowest)],
            "whole", N + M)
    for first, last in ((named(lowest=0), NAMED[1]), (later(lowest=0), TWO)):
        collected(test, "VCN 0 first", [first, last], [PART._replace(listed=0), OTHER], "whole", N + M)
    # nothing but 0 is asked of a VCN: one may come twice, or be below the one before
    collected(
        test, "VCNs in any order", [TWO, ONE, TWO, ONE, ONE], [OTHER, PART, OTHER, PART, PART], "whole", 3 * N + 2 * M)


def test_names_behind_padding(test):
    """A stream whose entries have their names at 32, each behind other padding, is one item; of two streams whose names
    differ there, behind the same padding, each has its own parts."""
    r, t, _ = listed([padded(b"1", lowest=0), padded(b"2", 42), padded(AB, 61, instance=3)])
    parts = [PART._replace(listed=0), OTHER._replace(listed=1), Part(61, 80, 7, 144, 8, 5, 1)]
    test.put_literal_question("\n".join((
        "item 41 56 128 72 0 2 rest 1 80 188 left 192 1 116 188 1 128 2 610062 reads 3",
        said(parts, "whole", N + M + 3),
        "item 40 192 48 24 1 5 rest 0 0 0 left 216 0 0 0 1 128 2 610062 reads 3", said([], "whole", 0),
        "end left 216 0 0 0 1 128 2 610062 reads 0")), Question(WALK, r, t))
    other = b"a\0c\0"
    r, t, _ = listed([padded(AB), padded(AB, 42, name=other), padded(AB, lowest=4, name=other)])
    test.put_literal_question("\n".join((
        "item 41 56 128 72 0 2 rest 1 80 188 left 192 1 116 188 1 128 2 610062 reads 3",
        said([PART._replace(listed=1)], "whole", N + 1),
        "item 42 80 128 64 0 2 rest 1 116 188 left 192 1 152 188 1 128 2 610063 reads 3",
        said([OTHER._replace(listed=1), PART._replace(listed=4)], "whole", M + N),
        "item 40 192 48 24 1 5 rest 0 0 0 left 216 0 0 0 1 128 2 610063 reads 2", said([], "whole", 0),
        "end left 216 0 0 0 1 128 2 610063 reads 0")), Question(WALK, r, t))
    test.classes["a stream behind padding"] += 2


def test_the_longest_name(test):
    """255 units are compared, to the last byte, at 26 and as far behind as a name can begin."""
    longest = bytes(k % 255 + 1 for k in range(510))
    files = {n: record(2048, placed(0x80, 2)) for n in (41, 42)}
    parts = [Part(n, 56, 0, 120, 0, 4000, 1) for n in (41, 42)]
    for name, other, count in (
        ("255 units go on", longest, 2), ("255 units, the last byte different", longest[:-1] + b"\0", 1),
        ("255 units, the first byte different", b"\0" + longest[1:], 1), ("254 units behind 255", longest[:-2], 1),
        ("no name behind 255 units", b"", 1),
    ):
        for offset in (26, 255):
            entries = named(41, name=longest), named(42, name=other, name_offset=offset)
            r = record(2048, list_of(*entries))
            q = Question(COLLECT, r, table({40: r, **files}), rest=Rest(True, 80, 80 + sum(map(len, entries))))
            test.case(name, q, parts[:count], "whole", 4 if count == 2 else 3)


def test_a_list_that_ends(test):
    """The parts are whole where the list ends, also by an entry that is longer than what is left, even one of unknown
    type."""
    for ty in (0x80, 0x11):
        longer = later(ty=ty, length=40)[:32]
        collected(test, "an entry that is longer than the list ends", [ONE, longer], [PART], "whole", N)
        collected(test, "no first entry", [longer], [], "whole", 0)
    collected(test, "the list ends", [ONE, TWO], [PART, OTHER], "whole", N + M)


def test_what_is_compared(test):
    """Only what the entries say, not what is found; and the parts may begin at any entry."""
    r, t, rest = listed([ONE, TWO])
    test.case("from the second entry on", Question(COLLECT, r, t, rest=rest._replace(start=106)), [OTHER], "whole", M)
    # an entry of the marker's type is known, and no attribute has it
    collected(test, "first entry of the marker's type", [entry(reading.MARKER, 42, 2)], [], "refused 18 40 80", 3)
    # the attributes have no name here, whatever the entries say
    collected(test, "an attribute's own name is not compared", NAMED, [PART, OTHER], "whole", N + M)
    collected(test, "one attribute, three parts", [ONE, ONE, ONE], [PART] * 3, "whole", 3 * N)


def test_vcns(test):
    """The attribute's own lowest VCN and the entry's are told apart, whichever they are."""
    values = (0, 1, 5, 2 ** 32, 2 ** 63 - 1, 2 ** 63, LAST)
    for own in values:
        for told in values:
            name = "entry's VCN is the attribute's" if own == told else "entry's VCN is another"
            files = {41: record(512, placed(0x80, 2, own, 80, 70, own ^ 7))}
            part = Part(41, 56, own, 126, 10, own ^ 7, told)
            collected(test, name, [entry(0x80, 41, 2, lowest=told)], [part], "whole", 2, files=files)
            # behind another one only where its entry says so
            first = part._replace(listed=9)
            collected(
                test, name + ", behind another", [later(lowest=9), later(lowest=told)],
                [first, part] if told else [first], "whole", 4 if told else 3, files=files)


# A base-record entry; lists with it, the parts that they give (None: its own), and what is read for the others.
MINE = entry(0x80, 40, 2, lowest=8)
WITH_MINE = (
    ([MINE], [None], 0), ([MINE, ONE], [None, PART], N), ([ONE, MINE, TWO], [PART, None, OTHER], N + M),
    ([ONE, TWO, MINE], [PART, OTHER, None], N + M), ([MINE, MINE], [None, None], 0),
    ([ONE, MINE, MINE, TWO], [PART, None, None, OTHER], N + M),
)


def test_base_record_entries(test):
    """They count, and are found in the record that is lent, whatever the table has for its number."""
    for entries, wanted, reads in WITH_MINE:
        at = 80 + -(-ENTRY_BYTES * len(entries) // 8) * 8
        lent = record(512, list_of(*entries), placed(0x80, 2, 77, 72, 64, 9), resident(0x30, 5))
        own = Part(40, at, 77, at + 64, 8, 9, 8)
        parts = [own if part is None else part for part in wanted]
        q = Question(COLLECT, lent, b"", rest=Rest(True, 80, 80 + ENTRY_BYTES * len(entries)))
        changed = lent[:at] + placed(0x80, 2, 78, 72, 64, 9) + lent[at + 72:]
        for row in (
            lent, None, record(512), record(512, placed(0x80, 2, 1, 64, 64, 1)), record(512, resident(0x80, 2)),
            record(512, magic=b"BAAD"), record(512, used=513), changed,
        ):
            name = "base-record entry, another record in the table"
            if row is None:
                name = "base-record entry without a row"
            elif row == lent:
                name = "base-record entry" + (" in the middle" if None not in (wanted[0], wanted[-1]) else "")
            files = FILES if row is None else {40: row, **FILES}
            # the list attribute stands before it, so that each search reads two
            test.case(name, q._replace(table=table(files)), parts, "whole", reads + 3 * parts.count(own))


def test_a_stream_that_begins_in_the_base_record(test):
    """Its further parts are a separate item, by the first entry behind the base record's; from the base record's own
    entry on, all are parts."""
    own = entry(0x80, 40, 2)
    lent = record(512, list_of(own, ONE, TWO), placed(0x80, 2, 0, 72, 64, 9), resident(0x30, 5))
    t = table({40: lent, **FILES})
    mine = Part(40, 160, 0, 224, 8, 9, 0)
    name = "begins in the base record"
    test.case(name, Question(COLLECT, lent, t, rest=Rest(True, 106, 158)), [PART, OTHER], "whole", N + M)
    test.case(name, Question(COLLECT, lent, t, rest=Rest(True, 80, 158)), [mine, PART, OTHER], "whole", 3 + N + M)
    test.put_literal_question("\n".join((
        "item 41 56 128 72 0 2 rest 1 106 158 left 160 1 132 158 1 128 0 - reads 4",
        said([PART, OTHER], "whole", N + M),
        "item 40 160 128 72 0 2 rest 0 0 0 left 232 0 0 0 1 128 0 - reads 2", said([], "whole", 0),
        "item 40 232 48 24 1 5 rest 0 0 0 left 256 0 0 0 1 128 0 - reads 1", said([], "whole", 0),
        "end left 256 0 0 0 1 128 0 - reads 0")), Question(WALK, lent, t))
    # one of VCN 0 ends the parts of a stream that began elsewhere
    collected(test, "base-record entry of VCN 0", [ONE, own, TWO], [PART], "whole", N + 1)


def test_the_lent_record_alone_is_searched(test):
    """18 where it has no such attribute, while the table's record of its number has."""
    for entries, wanted, _ in WITH_MINE:
        lent = record(512, list_of(*entries), placed(0x80, 2, 77, 72, 64, 9), resident(0x30, 5))
        bare = record(512, list_of(*entries), resident(0x30, 5))
        k = wanted.index(None)
        q = Question(COLLECT, bare, table({40: lent, **FILES}), rest=Rest(True, 80, 80 + ENTRY_BYTES * len(entries)))
        test.case(
            "base-record entry, only the table's record has it", q, wanted[:k],
            "refused 18 40 %d" % (80 + ENTRY_BYTES * k),
            sum((N, M)[j % 2] for j in range(k)) + 3)


def test_a_number_that_no_entry_has(test):
    """A base record's number at 2^48 or above is no entry's: the table's record counts."""
    lent = record(512, list_of(MINE), resident(0x30, 5))
    row = record(512, placed(0x80, 2, 1, 64, 64, 1))
    for number in (2 ** 48 + 40, LAST, 39):
        q = Question(COLLECT, lent, table({40: row}), number, Rest(True, 80, 106))
        test.case("base-record number that no entry has", q, [Part(40, 56, 1, 120, 0, 1, 8)], "whole", 2)
        without = q._replace(table=table({41: row}))
        test.case("base-record number that no entry has", without, [], "refused 17 %d 80" % number, 1)


# The most parts there can be. Entries alone fill a record from byte 14 on.

FROM = 14
MOST_FILES = {
    41: record(4096, placed(0x80, 2, 1, 72, 64, 10)),
    42: record(4096, resident(0x80, 1), placed(0x80, 2, 2, 80, 64, 20)),
}
MOST_PARTS = [Part(41, 56, 1, 120, 8, 10, k) if k % 2 == 0 else Part(42, 80, 2, 144, 16, 20, k) for k in range(ROOM)]
MOST_READS = [2 if k % 2 == 0 else 3 for k in range(ROOM)]
MOST_REST = Rest(True, FROM, 4096)


def full_of(numbers, end=b""):
    """A record with an entry for each of these numbers from byte 14 on; the last bytes are these."""
    text = record(4096)[:FROM] + b"".join(entry(0x80, number, 2, lowest=k) for k, number in enumerate(numbers))
    return text[:len(text) - len(end)] + end


def test_the_most_parts(test):
    """157, with room for all of them and with less."""
    whole = full_of(41 + k % 2 for k in range(ROOM))
    t = table({40: whole, **MOST_FILES})
    q = Question(COLLECT, whole, t, rest=MOST_REST)
    test.case("157 parts", q, MOST_PARTS, "whole", sum(MOST_READS))
    for room in (0, 1, 100, 155, 156):
        end, reads = "refused 20 40 %d" % (FROM + ENTRY_BYTES * room), sum(MOST_READS[:room]) + 1
        test.case("157 parts, less room", q._replace(kind=WITHIN, room=room), MOST_PARTS[:room], end, reads)
    test.case("157 parts, room 157", q._replace(kind=WITHIN), MOST_PARTS, "whole", sum(MOST_READS))
    # one from VCN 0 on behind 156, and a bad one
    other = full_of((41 + k % 2 for k in range(ROOM)), later(lowest=0))
    reads = sum(MOST_READS[:156]) + 1
    test.case("156 parts and an end", q._replace(record=other), MOST_PARTS[:156], "whole", reads)
    bad = full_of((41 + k % 2 for k in range(ROOM)), later(99))
    test.case("156 parts and a refusal", q._replace(record=bad), MOST_PARTS[:156], "refused 17 40 4070", reads)


def test_the_most_parts_of_a_walk(test):
    """One less, since the list's own header has to stand before them: at byte 28, behind the record's used size, and
    the list begins at the header's byte 8.

    So the first entry lies over the header: its type, 0x100, over the form, the name's length and its offset, its
    length over the flags, and its lowest VCN over the value's length and offset.
    """
    others = {
        41: record(4096, placed(0x100, 2, 1, 72, 64, 10)),
        42: record(4096, resident(0x80, 1), placed(0x100, 2, 2, 80, 64, 20)),
    }
    for count in (156, 155):
        inside = b"".join(entry(0x100, 41 + k % 2, 2, lowest=k) for k in range(count))
        listing = bytearray(struct.pack("<II", 0x20, 8 + ENTRY_BYTES * 156) + inside)
        struct.pack_into("<IHH", listing, 16, len(inside), 8, 0)
        r = bytearray(record(4096, first=28))
        r[28:28 + len(listing)] = listing
        r[36 + ENTRY_BYTES * 156:40 + ENTRY_BYTES * 156] = END
        end = 36 + len(inside)
        item = "item 41 56 256 72 0 2 rest 1 36 %d left 4092 1 62 %d 1 256 0 - reads 3" % (end, end)
        found = [MOST_PARTS[0]._replace(listed=len(inside) + (8 << 32)), *MOST_PARTS[1:count]]
        parts = said(found, "whole", sum(MOST_READS[:count]))
        last = "end left 4092 0 0 0 1 256 0 - reads %d" % (count - 1)
        q = Question(WALK, bytes(r), table({40: bytes(r), **others}))
        test.put_literal_question("\n".join((item, parts, last)), q)
        test.classes["%d parts in a walk" % count] += 1


def test_the_most_reads(test):
    """Each entry searches a whole record of 16-byte attributes, and its part is the last of it."""
    lot = record(4096, *(head(0x80, 16, instance=1) for _ in range(248)), placed(0x80, 2, 4), end=b"", first=64)
    whole = full_of([41] * ROOM)
    parts = [Part(41, 4032, 4, 4096, 0, 4000, k) for k in range(ROOM)]
    q = Question(COLLECT, whole, table({40: whole, 41: lot}), rest=MOST_REST)
    test.case("the most reads", q, parts, "whole", ROOM * 250)


# Openings, and lists that no walk gave.

WRONG = (
    Rest(True, 80, 513), Rest(True, 107, 106), Rest(True, 513, 513), Rest(True, LAST, LAST), Rest(True, 0, LAST),
    Rest(True, LAST, 0),
)


def test_refusals_of_the_opening(test):
    """21, 1, 2, 27, 22, in that order, and nothing read; also where the item has no list, but for 22."""
    r, t, rest = listed([ONE])
    above = with_used(r, 513)
    last_row = NUMBERS_BYTES + ROW_BYTES * len(FILES)
    for given in (rest, *WRONG, NO_LIST, Rest(False, 80, 106), Rest(False, LAST, 0)):
        for bad, place in ((t[:19], 0), (t[:-1], last_row), (b"", 0)):
            for other in (r, r[:504], b"", b"FILF" + r[4:], above):
                test.case(
                    "21 at the opening", Question(COLLECT, other, bad, rest=given), [], "refused 21 0 %d" % place, 0)
        for short in (b"", r[:56], r[:511], r[:504], r + bytes(8), bytes(4104), above[:504]):
            test.case("1 at the opening", Question(COLLECT, short, t, rest=given), [], "refused 1 40 0", 0)
        for other in (r, above):
            q = Question(COLLECT, b"FILF" + other[4:], t, rest=given)
            test.case("2 at the opening", q, [], "refused 2 40 0", 0)
        for other in (above, with_used(r, 2 ** 32 - 1)):
            test.case("27 at the opening", Question(COLLECT, other, t, rest=given), [], "refused 27 40 0", 0)
    for given in WRONG:
        name = "22 at the opening, from > to" if given.start > given.end else "22 at the opening, past the record"
        test.case(name, Question(COLLECT, r, t, rest=given), [], "refused 22 40 0", 0)
        test.case("22 in the record tested", Question(COLLECT, r, t, 7, given), [], "refused 22 7 0", 0)


def test_an_item_without_a_list(test):
    """It has no parts, whatever its two places are; nor has a list without a byte."""
    r, t, _ = listed([ONE])
    for given in (NO_LIST, Rest(False, 80, 106), Rest(False, 513, 3), Rest(False, LAST, 0), Rest(False, LAST, LAST)):
        test.case("flag false", Question(COLLECT, r, t, rest=given), [], "whole", 0)
    for at in (0, 1, 80, 511, 512):
        test.case("from = to", Question(COLLECT, r, t, rest=Rest(True, at, at)), [], "whole", 0)


def test_forged_lists(test):
    """Places that no walk gave: over the header, inside other attributes, anywhere."""
    # an entry inside the value of another attribute, and one that ends with the record
    r = record(512, resident(0x30, 5, 112, 80, 24, bytes(7) + ONE + TWO), list_of(ONE, TWO, ONE))
    r = r[:460] + ONE + TWO
    t = table({40: r, **FILES})
    for name, start, end, parts, told, reads in (
        ("inside another attribute", 87, 139, [PART, OTHER], "whole", N + M),
        ("inside another attribute", 87, 113, [PART], "whole", N),
        ("inside another attribute", 87, 138, [PART], "refused 14 40 113", N),
        ("at the record's end", 460, 512, [PART, OTHER], "whole", N + M),
        ("under 26 bytes", 487, 512, [], "refused 14 40 487", 0),
    ):
        test.case(name, Question(COLLECT, r, t, rest=Rest(True, start, end)), parts, told, reads)
    spots = (
        0, 1, 25, 26, 56, 79, 80, 87, 112, 113, 138, 139, 192, 218, 244, 459, 460, 486, 511, 512, 513, 2 ** 16,
        2 ** 32 + 80,
        LAST - 25, LAST)
    for start in spots:
        for end in spots:
            test.put_both(r, t, Rest(True, start, end), rooms=(0, 1, 157))
            test.put(COLLECT, r, t, rest=Rest(False, start, end))
    for start in range(0, 513):
        for end in {start, min(start + 26, 512), min(start + 53, 512), 512}:
            test.put_both(r, t, Rest(True, start, end), number=(40, 41, 2 ** 48)[start % 3], rooms=(start % 3,))


# The inputs of docs/DIFFERENCES.md about parts.

def behind(size, attribute):
    """An attribute at 56, and the end marker behind it where there is room."""
    end = 56 + len(attribute)
    return zero_record(size, (56, attribute), *([(end, END)] if end < size else []))


def listed_for_rust(*entries):
    """The list of K of that page: entries, each (type, record), from VCN 1 on but for the first; what is otherwise may
    follow."""
    return list_of(*(
        entry(ty, n, **{"lowest": min(k, 1), "sequence": 0, **dict(more)})
        for k, (ty, n, *more) in enumerate(entries)), fill=b"\0")


def list_for_rust(size, *entries):
    """K of that page."""
    return behind(size, listed_for_rust(*entries))


def held_for_rust(size, inside, length=72, instance=0):
    """A record with a part of these run bytes."""
    text = head(0x80, length, False, instance) + bytes(16) + b"\x40\0" + bytes(30) + inside
    return zero_record(size, (56, text), *([(56 + length, END)] if 56 + length < size else []))


def test_the_differences_page(test):
    """Our side of them, as parts and as a walk finds them."""
    run = held_for_rust(160, b"\x11\1\1")
    part, short = Part(41, 56, 0, 120, 8, 0, 0), head(0x80, 16, False)
    three = list_for_rust(160, (0x80, 41), (0x80, 42), (0x80, 41))
    for number, base, others, parts, end, reads in (
        (20, three, {41: run}, [part], "refused 17 40 106", 3),
        (21, list_for_rust(160, (0x80, 41), (0x11, 41), (0x80, 41)), {41: run}, [part], "whole", 3),
        (22, list_for_rust(128, (0x80, 41)), {41: held_for_rust(128, b"\xBB")}, [part], "whole", 2),
        (23, list_for_rust(120, (0x80, 41)), {41: held_for_rust(120, b"", 64)}, [part._replace(count=0)], "whole", 2),
        (
            23, three, {41: run, 42: held_for_rust(160, b"", 64)},
            [part, part._replace(file=42, count=0, listed=1), part._replace(listed=1)], "whole", 6),
        (
            24, list_for_rust(112, (0x80, 41)), {41: zero_record(112, (56, short), (72, END))}, [], "refused 7 41 56",
            2),
        (24, list_for_rust(112, (0x80, 41)), {41: zero_record(112, (56, head(0x10, 40)), (96, short))}, [],
         "refused 7 41 96", 3),
    ):
        lent = base, table({40: base, **others})
        count = int.from_bytes(base[72:76], "little")
        q = Question(COLLECT, *lent, rest=Rest(True, 80, 80 + count))
        test.case("no. %d of the differences" % number, q, parts, end, reads)
        test.put(WALK, *lent, on=9)


def run_for_rust(size, instance=0):
    """A record with P of that page."""
    return held_for_rust(size, b"\x11\1\1", instance=instance)


def lists_for_rust(size, *lists):
    """A record with some lists, one behind another."""
    return zero_record(size, (56, b"".join(listed_for_rust(*entries) for entries in lists)))


def with_own(base):
    """The base record with P at 136."""
    return base[:136] + run_for_rust(208)[56:128] + base[208:]


def entry_for_rust(length, units, offset, left=None):
    """U of that page, in a list of fewer bytes where that is told."""
    text = bytearray(list_for_rust(112, (0x80, 41)))
    text[72] = length if left is None else left
    text[84], text[86], text[87] = length, units, offset
    return bytes(text)


# What joins entries, and where their names stand: the number, the base record, the others; the items, each with its
# record, offset and parts (None: it tells no list), and the refusals, here and in the Rust. 31 and 16 come again and
# again.
ONE_OF_ONE, WITHOUT_PARTS = (41, 56, [(41, 56)]), (41, 56, None)
RESIDENT = {41: zero_record(112, (56, resident(0x80)), (80, END))}
LISTED = (
    (
        21, list_for_rust(160, (0x80, 41), (0x11, 41), (0x80, 41)), {41: run_for_rust(160)},
        [ONE_OF_ONE, (6, 40, 106)], [(41, 56, [(41, 56), "refused 6 40 106"]), (6, 40, 106)]),
    (
        29, list_for_rust(136, (0x80, 41), (0x80, 42, ("instance", 1))),
        {41: run_for_rust(136), 42: run_for_rust(136, 1)},
        [(41, 56, [(41, 56), (42, 56)])], [ONE_OF_ONE, (42, 56, [(42, 56)])]),
    (
        30, list_for_rust(136, (0x80, 41), (0x80, 42, ("lowest", 0))),
        {41: run_for_rust(136), 42: run_for_rust(136)},
        [ONE_OF_ONE, (42, 56, [(42, 56)])], [(41, 56, [(41, 56), (42, 56)])]),
    (
        30, list_for_rust(136, (0x80, 41), (0x80, 42, ("units", 1), ("name", b"A\0"))),
        {41: run_for_rust(136), 42: run_for_rust(136)},
        [ONE_OF_ONE, (42, 56, [(42, 56)])], [(41, 56, [(41, 56), (42, 56)])]),
    # what stays is the same in the Rust
    (
        31, list_for_rust(112, (0x80, 41)), {41: zero_record(
            112, (56, struct.pack("<IIBBH", 0x80, 24, 0, 1, 22)), (80, END))}, [WITHOUT_PARTS], None),
    (31, list_for_rust(128, (0x80, 41, ("lowest", 1))), {41: run_for_rust(128)}, [ONE_OF_ONE], None),
    (
        32, with_own(list_for_rust(208, (0x80, 40), (0x80, 41))), {41: run_for_rust(208)},
        [ONE_OF_ONE, (40, 136, None)], None),
    (
        32, with_own(list_for_rust(208, (0x80, 41), (0x80, 40))), {41: run_for_rust(208)},
        [(41, 56, [(41, 56), (40, 136)]), (40, 136, None)], None),
    (
        33, list_for_rust(160, (0x80, 41), (0x10, 40), (0x80, 42)), {41: run_for_rust(160), 42: run_for_rust(160)},
        [ONE_OF_ONE], None),
    (
        33, lists_for_rust(168, [(0x80, 41)], [(0x80, 42, ("lowest", 1))]),
        {41: run_for_rust(168), 42: run_for_rust(168)}, [ONE_OF_ONE], None),
    (
        33, list_for_rust(160, (0x80, 41), (0x11, 42, ("instance", 1)), (0x80, 42)),
        {41: run_for_rust(160), 42: run_for_rust(160)}, [ONE_OF_ONE, (6, 40, 106)], None),
    (
        34, list_for_rust(160, (0x80, 41), (0x10, 42), (0x80, 41)),
        {41: run_for_rust(160), 42: zero_record(160, (56, resident(0x10)), (80, END))},
        [ONE_OF_ONE, (42, 56, None), ONE_OF_ONE], None),
    # where an entry has its name
    *((54, entry_for_rust(28, 1, at), RESIDENT, 10 * [(31, 40, 80)], [WITHOUT_PARTS]) for at in (25, 27)),
    (54, entry_for_rust(28, 1, 25, 26), RESIDENT, 10 * [(31, 40, 80)], 10 * [(16, 40, 80)]),
    (55, entry_for_rust(29, 1, 27, 28), RESIDENT, 10 * [(16, 40, 80)], []),
    # a name of no units is the same in both, wherever it is said to stand
    (54, entry_for_rust(26, 0, 0), RESIDENT, [WITHOUT_PARTS], None),
)


def walked(base, lent):
    """A walk as these cases tell it."""
    told = []
    for answer, _, _, parts in walk(base, 40, lent, 9):
        if isinstance(answer, reading.Refusal):
            told.append((answer.number, answer.file, answer.place))
        elif answer:
            found, end, _ = parts
            ended = [] if end is None else ["refused %d %d %d" % (end.number, end.file, end.place)]
            found = [(part.file, part.offset) for part in found] + ended if answer.rest.there else None
            told.append((answer.file, answer.attribute.offset, found))
    return told


def test_entries_on_the_differences_page(test):
    """Our side and the Rust's, both of the second reading; tests/compare_rust asks the Rust for these tables."""
    for number, base, others, ours, theirs in LISTED:
        lent, theirs = table({40: base, **others}), ours if theirs is None else theirs
        with reading.as_the_rust_lists():
            before = walked(base, lent)
        assert walked(base, lent) == ours and before == theirs, (number, walked(base, lent), before)
        test.put(WALK, base, lent, on=9)
        test.classes["no. %d of the differences" % number] += 1


# The Rust's answers, kept.

def test_the_answers_of_the_rust(test):
    """The listings of tests/rust_parts.txt, most of them by the program; one changed digit of them is noticed, at its
    case alone."""
    text = rust.kept("rust_parts.txt")
    told = rust.replayed_parts(test, text)
    test.stop_at(told.different, told.cases)
    assert told.cases >= 100 and told.parts >= 400 and 0 < told.otherwise * 2 < told.cases
    # each way in which parts can end where a walk asks for them; 7, 27, 28 and 31 are not the Rust's
    values = [line.split(" value ")[1] for line in text.split("\n") if " value parts " in line]
    ways = {int(value.split(" refused ")[-1].split(" ")[0]) for value in values if " refused " in value}
    assert ways == set(REFUSALS) - {7, 20, 27, 28, 31}, ways
    for start in ("attr ", "part ", "refused "):
        for changed in rust.changed_answers(text, 4, start):
            assert len(rust.replayed_parts(test, changed).different) == 1
    print("the Rust's answers to %d tables, %d lines, %d parts among them, replayed" % (
        told.cases, told.lines, told.parts))
    print("%d of them are listed otherwise by the rules" % told.otherwise)


# The classes of cases by hand that have to be there, besides each refusal in the first and in a later part.
CLASSES = (
    "157 parts", "156 parts in a walk", "156 parts and an end", "156 parts and a refusal", "the most reads",
    "entry's VCN is another", "entry's VCN is the attribute's", "base-record entry in the middle",
    "base-record entry, another record in the table", "base-record entry, only the table's record has it",
    "base-record entry without a row", "base-record number that no entry has", "another instance goes on",
    "another type ends", "the marker's type ends", "another type ends, for the base record", "unknown type first",
    "unknown type ends", "VCN 0 ends", "VCN 0 first", "VCN above 0 goes on", "VCNs in any order",
    "a name ends those of none", "no name ends", "one byte different ends", "one unit shorter ends",
    "one unit longer ends", "the same bytes at 26 end", "filling goes on", "padding goes on",
    "no name, any offset goes on", "a stream behind padding", "255 units go on", "255 units, the last byte different",
    "255 units, the first byte different", "254 units behind 255", "no name behind 255 units",
    "base-record entry of VCN 0", "an attribute's own name is not compared", "begins in the base record",
    "entry's VCN is another, behind another", "entry's VCN is the attribute's, behind another",
    "an entry that is longer than the list ends", "no first entry", "the list ends", "flag false", "from = to",
    "22 at the opening, from > to", "22 at the opening, past the record", "21 at the opening", "1 at the opening",
    "2 at the opening", "27 at the opening", "inside another attribute", "at the record's end", "under 26 bytes",
    "a used size at the part's end and above", "a used size inside the part", "base-record entry, near its used size",
    *("no. %d of the differences" % number for number in (*range(20, 25), *range(29, 35), *range(54, 56))),
    *("%d in the %s part" % (number, part) for number in REFUSALS if number != 20 for part in ("first", "later")),
    "room 0", "room enough", "room one short", "20 before the lookup", "6 before 20", "14 before 20", "15 before 20",
    "16 before 20", "31 before 20", "the end before 20", "an unknown type before 20", "157 parts, less room",
    "157 parts, room 157",
)


def ended(test):
    """Each call was asked, and each class of cases is there."""
    test.finish()
    missing = [name for name in CLASSES if not test.classes[name]]
    if missing:
        sys.exit("nothing of these was asked: %s" % ", ".join(missing))


main = suite.of(Parts, ended)

if __name__ == "__main__":
    main()
