"""Holds the records that a record's lists refer to, as built, to cases that were written by hand and to the second
reading of the rules, on both sides of each limit. Every question goes to the program `ask`: the numbers told, the end
or the refusal that stopped the walk, and the numbers in rising order. Fails at any difference."""
import itertools
import struct

from lib import suite
from lib.building import (
    END, ENTRY_BYTES, FIRST, RESIDENT_BYTES, entry, head, list_of, non_resident, placed_record, record, resident,
)
from lib.on_references import OPENING, STOPPING, Question, References
from lib.question import LAST
from lib.reading import LIST, MARKER
from lib.reading.references import MOST, references

# the number of the record, where nothing else is asked, and where its first list and that list's first entry stand
OWN, AT, ENTRIES = 40, FIRST, FIRST + RESIDENT_BYTES

NUMBER_END = 2 ** 48


def list_to(*numbers, **more):
    """A list with an entry for each of these records."""
    return list_of(*(entry(0x80, number, lowest=k) for k, number in enumerate(numbers)), **more)


def length_of(attribute):
    """How long an attribute says that it is."""
    return struct.unpack_from("<I", attribute, 4)[0]


def behind(*attributes):
    """Where what stands behind these attributes begins."""
    return AT + sum(map(length_of, attributes))


def sample():
    """A question of each kind of answer. rt ci runs the program on them."""
    broken = list_of(entry(0x80, 42), entry(0x80, 41, length=25))
    return [
        Question(record(512)), Question(record(512, list_to(43, 41, 40, 43, 42))), Question(record(512, broken)),
        Question(record(512, list_to(41), non_resident(LIST))), Question(record(512, list_to(41), used=AT)),
        Question(record(512, magic=b"BAAD")), Question(record(512, list_to(3, 1, 2)), NUMBER_END),
        Question(record(512, list_of(*(entry(0x80, 42, units=1, name_offset=at) for at in (32, 0))))),
    ]


# What is told.

def test_examples(test):
    """Whole answers in words."""
    for text, made in (
        ("references end rising 40", record(64)),
        ("references 43 41 42 end rising 40 41 42 43", record(512, list_to(43, 41, OWN, 43, 42))),
        ("references 7 refused 15 40 106 rising 7 40", record(512, list_of(entry(0x80, 7), entry(0x80, 8, length=25)))),
        ("references 300 refused 13 40 112 rising 40 300", record(512, list_to(300), non_resident(LIST))),
        ("refused 27 40 0", record(64, used=65)),
    ):
        test.put_literal_question(text, Question(made))


def test_no_list(test):
    """Without a list there are none, whatever other attributes hold."""
    inside = entry(0x80, 41) + entry(0x80, 42)
    other = resident(0x80, length=80, count=len(inside), inside=inside)
    for attributes in ((), (other,), (other, non_resident(0x80, inside=inside, length=120)), (head(0x11, 16),)):
        test.put_literal(record(512, *attributes), [])


def test_one_list(test):
    """The numbers of its entries, in their order, each where it comes first; the record's own is left out."""
    for numbers, told in (
        ((), []), ((41,), [41]), ((OWN,), []), ((OWN, OWN, OWN), []), ((42, 41), [42, 41]), ((41, 41), [41]),
        ((43, OWN, 41, 43, 42, 41, OWN, 0), [43, 41, 42, 0]), ((0, 0, OWN, 0), [0]),
        (tuple(range(50, 41, -1)), list(range(50, 41, -1))), ((41, 42, 41, 42, 43, 42), [41, 42, 43]),
        ((NUMBER_END - 1, 0), [NUMBER_END - 1, 0]), ((39, 41, OWN), [39, 41]),
    ):
        test.put_literal(record(1024, list_to(*numbers)), told)


def test_the_own_number(test):
    """The number lent with the record is its own, whatever the record holds; one of 2^48 or more no entry can name."""
    made = record(512, list_to(0, 41, 40, NUMBER_END - 1, 2 ** 32 + 40))
    for own, told in (
        (0, [41, 40, NUMBER_END - 1, 2 ** 32 + 40]), (41, [0, 40, NUMBER_END - 1, 2 ** 32 + 40]),
        (NUMBER_END - 1, [0, 41, 40, 2 ** 32 + 40]), (2 ** 32 + 40, [0, 41, 40, NUMBER_END - 1]),
        (NUMBER_END + 40, [0, 41, 40, NUMBER_END - 1, 2 ** 32 + 40]),
        (NUMBER_END, [0, 41, 40, NUMBER_END - 1, 2 ** 32 + 40]),
        (LAST, [0, 41, 40, NUMBER_END - 1, 2 ** 32 + 40]), (5, [0, 41, 40, NUMBER_END - 1, 2 ** 32 + 40]),
    ):
        test.put_literal(made, told, number=own)


def test_references_are_48_bits(test):
    """Of a reference the lower 48 bits are the record's number: two sequence numbers are one record."""
    for sequence in (0, 1, 7, 2 ** 15, 2 ** 16 - 1):
        entries = [entry(0x80, 41, sequence=sequence), entry(0x80, 41, sequence=sequence ^ 1), entry(0x80, OWN,
            sequence=sequence), entry(0x80, NUMBER_END - 1, sequence=sequence)]
        test.put_literal(record(512, list_of(*entries)), [41, NUMBER_END - 1])


def test_any_type_counts(test):
    """The entries of each type count, also of those that are unknown, and so do entries of names and any VCN."""
    types = (0, 0x10, 0x20, 0x80, 0x11, 0x100, 0x101, 0x110, 2 ** 31, MARKER - 1, MARKER)
    entries = [entry(ty, 50 + k, k, units=k % 4, lowest=LAST - k) for k, ty in enumerate(types)]
    test.put_literal(record(1024, list_of(*entries)), list(range(50, 50 + len(types))))


def test_several_lists(test):
    """Each list, as the raw walk comes to it; a number is told once over all of them."""
    other = resident(0x80, length=32)
    for attributes, told in (
        ((list_to(41), list_to(42)), [41, 42]), ((list_to(42), other, list_to(41)), [42, 41]),
        ((list_to(41, 42), list_to(42, 41, 43)), [41, 42, 43]), ((list_to(), list_to(41)), [41]),
        ((other, list_to(OWN), other, list_to(44, OWN), list_to(), list_to(43, 44)), [44, 43]),
        ((head(0x11, 16), list_to(41), resident(0x110), list_to(42)), [41, 42]),
        ((list_to(41),) * 5, [41]),
    ):
        test.put_literal(record(1024, *attributes), told)


def test_the_end_marker_ends(test):
    """A list behind the end marker, or behind what the raw walk does not come to, is no list of the record."""
    test.put_literal(record(512, list_to(41), END + bytes(4), list_to(42)), [41])
    # and where fewer than 4 bytes are left
    for left in range(4):
        length = 128 - AT - left
        made = list_to(41, length=length, fill=b"\xAA") + b"\x10\0\0\0"
        test.put_literal(placed_record(128, placed=((AT, made),)), [41])


# The list step inside a list.

def test_an_entry_longer_than_the_list(test):
    """An entry that is longer than what is left ends its list, and the walk goes on behind it."""
    for length in (27, 28, 64, 200, 2 ** 16 - 1):
        cut = list_of(entry(0x80, 41), entry(0x80, 42)[:4] + struct.pack("<H", length) + entry(0x80, 42)[6:])
        test.put_literal(record(512, cut), [41])
        test.put_literal(record(512, cut, list_to(43, 42)), [41, 43, 42])
    # one that is as long as what is left is given
    for length in (26, 27, 31, 64):
        last = entry(0x80, 42, length=length)
        test.put_literal(record(512, list_of(entry(0x80, 41), last)), [41, 42])
        test.put_literal(record(512, list_of(entry(0x80, 41), last, cut=1)),
                         [41], (14, ENTRIES + 26) if length == 26 else None)


def test_cut_entries(test):
    """14: fewer than 26 bytes are left for an entry. What was told before stays told."""
    whole = [entry(0x80, 43), entry(0x80, 41), entry(0x80, 42)]
    for kept in range(1, 3 * ENTRY_BYTES + 1):
        entries, left = divmod(kept, ENTRY_BYTES)
        refusal = (14, ENTRIES + entries * ENTRY_BYTES) if left else None
        made = record(512, list_of(*whole, cut=3 * ENTRY_BYTES - kept))
        test.put_literal(made, [43, 41, 42][:entries], refusal)


def test_short_entries(test):
    """15: an entry that its name does not fit into, one of no bytes too; the lists behind it are not walked."""
    for units in (0, 1, 2, 255):
        need = ENTRY_BYTES + 2 * units
        for length in sorted({0, 1, 25, need - 2, need - 1}):
            short = entry(0x80, 42, length=length, units=units)
            made = record(1024, list_of(entry(0x80, 41), short), list_to(43))
            test.put_literal(made, [41], (15, ENTRIES + ENTRY_BYTES))
        good = record(1024, list_of(entry(0x80, 41), entry(0x80, 42, units=units)), list_to(43))
        test.put_literal(good, [41, 42, 43])
    # the first of the list
    test.put_literal(record(512, list_of(entry(0x80, 41, length=25))), [], (15, ENTRIES))


def test_cut_names(test):
    """16: the list ends in front of an entry's name, wherever it stands, or inside it."""
    for units, offset in itertools.product((1, 2, 100), (26, 32, 255)):
        last, named = entry(0x80, 42, units=units, name_offset=offset), offset + 2 * units - ENTRY_BYTES
        for cut in sorted({1, 2, 2 * units - 1, 2 * units, named}):
            made = record(1024, list_of(entry(0x80, 41), last, cut=cut), list_to(43))
            test.put_literal(made, [41], (16, ENTRIES + ENTRY_BYTES))
        made = record(1024, list_of(entry(0x80, 41), last, cut=named + 1))
        test.put_literal(made, [41], (14, ENTRIES + ENTRY_BYTES))
        # an entry that is longer than the list, with its name all there, ends it, and nothing else
        longer = entry(0x80, 42, units=units, name_offset=offset, length=offset + 2 * units + 8)
        test.put_literal(record(1024, list_of(entry(0x80, 41), longer, cut=8), list_to(43)), [41, 43])
        test.put_literal(record(1024, list_of(entry(0x80, 41), longer, cut=9)), [41], (16, ENTRIES + ENTRY_BYTES))
    # 14, 15 and 16 in this order
    both = list_of(entry(0x80, 41), entry(0x80, 42, length=27, units=9), cut=18)
    test.put_literal(record(512, both), [41], (15, ENTRIES + ENTRY_BYTES))


def test_names_outside_their_entries(test):
    """31: a name over its entry's header, or past its end; the lists behind it are not walked. 15 comes before it, and
    it before 16. An empty name may be anywhere."""
    for units, offset in itertools.product((1, 2, 100, 255), (0, 1, 25)):
        over = entry(0x80, 42, units=units, name_offset=offset)
        test.put_literal(record(1024, list_of(entry(0x80, 41), over), list_to(43)), [41], (31, ENTRIES + ENTRY_BYTES))
        test.put_literal(record(1024, list_of(over, entry(0x80, 41), cut=27)), [], (31, ENTRIES))
    for units, offset in itertools.product((1, 2, 100), (26, 27, 32, 255)):
        last = {"units": units, "name_offset": offset}
        end = offset + 2 * units
        test.put_literal(record(1024, list_of(entry(0x80, 41), entry(0x80, 42, **last)), list_to(43)), [41, 42, 43])
        past = entry(0x80, 42, length=end - 1, **last)
        made = record(1024, list_of(entry(0x80, 41), past, cut=1), list_to(43))
        test.put_literal(made, [41], (15 if offset == 26 else 31, ENTRIES + ENTRY_BYTES))
    for offset in (0, 25, 27, 255):
        empty = entry(0x80, 42, name_offset=offset)
        test.put_literal(record(1024, list_of(entry(0x80, 41), empty), list_to(43)), [41, 42, 43])


# What stops the walk at an attribute.

def lists_behind(bad):
    """A record with a list, an attribute that stops the walk, and a list behind it; and where that attribute stands."""
    before = list_to(42, 41)
    return record(1024, before, bad, list_to(43), list_to(44)), behind(before)


def test_lists_that_are_not_opened(test):
    """7, 10, 11 and 13: with the numbers of the lists before, and none of those behind."""
    for refusal, bad in (
        (13, non_resident(LIST)), (13, non_resident(LIST, length=72, inside=entry(0x80, 45))),
        (7, resident(LIST, length=16, cut=True)), (7, resident(LIST, length=23, cut=True)),
        (7, non_resident(LIST, length=63, cut=True)), (10, resident(LIST, length=32, value=33)),
        (10, resident(LIST, length=32, value=2 ** 16 - 1)), (11, resident(LIST, length=32, count=9)),
        (11, resident(LIST, length=32, value=32, count=1)), (11, resident(LIST, length=32, count=2 ** 32 - 1)),
        (11, resident(LIST, length=32, count=2 ** 32 - 24)), (11, resident(LIST, length=32, count=2 ** 32 - 25)),
    ):
        made, at = lists_behind(bad)
        test.put_literal(made, [42, 41], (refusal, at))
        test.put_literal(record(512, bad), [], (refusal, AT))
    # the good side of each
    for good in (
        resident(LIST, length=24), resident(LIST, length=32, value=32), resident(LIST, length=32, value=0, count=0),
    ):
        made, _ = lists_behind(good)
        test.put_literal(made, [42, 41, 43, 44])
    # 7 before 13, and 10 before 11
    test.put_literal(record(512, head(LIST, 63, False).ljust(63, b"\xBB")), [], (7, AT))
    test.put_literal(record(512, resident(LIST, length=32, value=33, count=99)), [], (10, AT))


def test_the_raw_walk_stops(test):
    """3, 4, 5 and 28, with the numbers of the lists before."""
    before = list_to(42, 41)
    at = behind(before)
    for refusal, bad in (
        (4, head(0x80, 15)), (4, head(0x80, 0)), (4, head(LIST, 15)), (5, head(0x80, 1024 - at + 1)),
        (5, head(LIST, MARKER)),
    ):
        test.put_literal(record(1024, before, bad, list_to(43)), [42, 41], (refusal, at))
    # 3: 4 to 15 bytes are left, and they are no end marker
    for left in (4, 8, 12):
        length = -(-(at + left) // 8) * 8
        text = before[:4] + struct.pack("<I", length - left - AT) + before[8:]
        made = placed_record(length, placed=((AT, text.ljust(length - left - AT, b"\xAA") + b"\x10\0\0\0"),))
        test.put_literal(made, [42, 41], (3, length - left))


def test_stale_tails(test):
    """28: a list that ends behind the used size is not walked, and one that ends where it does is."""
    one, two, three = list_to(42), list_to(41, 43), list_to(44)
    ends = [AT + len(one), AT + len(one) + len(two), AT + len(one) + len(two) + len(three)]
    told, places = [42, 41, 43, 44], [AT, ends[0], ends[1]]
    for used in range(513):
        walked = sum(end <= used for end in ends)
        made = record(512, one, two, three, used=used)
        refusal = (28, places[walked]) if walked < 3 else None
        test.put_literal(made, told[:(0, 1, 3, 4)[walked]], refusal)


def test_opening(test):
    """1, 2 and 27 of the record, on both sides; nothing else is told."""
    for length in (64, 72, 512, 4088, 4096):
        test.put_literal(record(length)[:length], [])
        test.put_refused(record(length, magic=b"FILF"), 2)
        test.put_refused(record(length, used=length + 1), 27)
    for length in (0, 1, 8, 56, 63, 65, 68, 71, 4095, 4097, 4104):
        test.put_refused(record(8192, list_to(41))[:length], 1)
    test.put_refused(record(512, list_to(41), used=2 ** 32 - 1), 27)
    test.put_refused(record(512, list_to(41), magic=b"BAAD", used=513), 2)
    test.put_refused(record(8192, list_to(41), used=513), 1, number=LAST)


# Lists that lie over other bytes, and many numbers.

def full_record(size):
    """A record with as many entries as it has room for: the first attribute straight behind the used size, its list
    over its own header, from its byte 5 on. (the record, how many entries there are)."""
    first, inside = 28, 5
    count = (size - first - inside) // ENTRY_BYTES
    text = bytearray(size)
    text[:4] = b"FILE"
    struct.pack_into("<H", text, 20, first)
    struct.pack_into("<I", text, 24, size)
    at = first + inside
    for k in range(count):
        text[at + ENTRY_BYTES * k:at + ENTRY_BYTES * (k + 1)] = entry(0x80, 1000 + 7 * k, k)
    reference = bytes(text[at + 16:at + 24])
    text[first:first + RESIDENT_BYTES - 2] = resident(
        LIST, 0, size - first, ENTRY_BYTES * count, inside, units=ENTRY_BYTES, name=0)[:RESIDENT_BYTES - 2]
    # the reference of the first entry begins with the value offset's upper byte, which is 0: the rest is free
    assert text[at + 16] == 0 and reference[0] == 1000 % 256
    text[at + 17:at + 24] = reference[1:]
    return bytes(text), count


def test_as_many_as_there_is_room_for(test):
    """156 entries of 26 bytes, in a record of 4,096: no list begins before byte 24, so that no record has 157."""
    for size in (64, 128, 512, 1024, 4096):
        made, count = full_record(size)
        test.put_literal(made, [1000 // 256 * 256, *(1000 + 7 * k for k in range(1, count))])
    made, count = full_record(4096)
    assert count == 156 == MOST - 1
    # in falling order, so that each is put in front of all the others
    falling = record(4096, list_to(*range(153, 0, -1)), first=42)
    test.put_literal(falling, list(range(153, 0, -1)), number=0)
    test.put_literal(falling, list(range(153, 0, -1)), number=154)
    # each told twice, each its own, and none but the last another
    test.put_literal(record(4096, list_to(*(k // 2 for k in range(153))), first=42), list(range(77)), number=99)
    test.put_literal(record(4096, list_to(*[OWN] * 153), first=42), [])
    test.put_literal(record(4096, list_to(*[OWN] * 152, 7), first=42), [7])
    test.put_literal(record(4096, list_to(*[41] * 152, 7), first=42), [41, 7])


def test_values_over_headers(test):
    """A list that lies over its own attribute's header, from each of its bytes on: the reading says what it holds."""
    base = record(512, list_to(41, 42, 43), list_to(44))
    for value in range(100):
        for count in (0, 25, 26, 27, 52, 78, 102, 104):
            text = bytearray(base)
            struct.pack_into("<I", text, AT + 16, count)
            struct.pack_into("<H", text, AT + 20, value)
            test.put(bytes(text))
    # with numbers in the header that let an entry stand there
    for size in (64, 72, 128, 512):
        made, _ = full_record(size)
        for at in range(20, min(size, 80)):
            for change in (1, 2, 5, 26, 255):
                test.put(made[:at] + bytes((made[at] ^ change,)) + made[at + 1:])


# Each number around what decides.

def test_each_byte(test):
    """Each byte of a record with two lists changed, in several ways."""
    base = record(256, list_to(42, OWN, 41), resident(0x80, length=32), list_to(41, 43))
    for at in range(len(base)):
        for value in (0, 1, 15, 16, 25, 26, 27, 32, 40, 64, 255, base[at] ^ 1, base[at] ^ 0x20, base[at] ^ 0x80):
            test.put(base[:at] + bytes((value,)) + base[at + 1:])


def test_first_attributes(test):
    """Each place of the first attribute."""
    base = record(256, list_to(42, OWN, 41), list_to(41, 43))
    for first in (*range(264), 2 ** 15, 2 ** 16 - 1):
        test.put(base[:20] + struct.pack("<H", first) + base[22:])


def test_lengths_of_records(test):
    """Fronts of a record, with their own length for a used size, or with that of the whole."""
    base = record(512, list_to(42, OWN, 41), list_to(41, 43), list_to(*range(50, 60)))
    for length in range(len(base) + 1):
        test.put(base[:length])
        if length >= 28:
            test.put(base[:24] + struct.pack("<I", length) + base[28:length])


def test_rising(test):
    """Numbers in any order, with an own number in front of them, between them and behind them."""
    orders = [(1, 2, 3, 4), (4, 3, 2, 1), (2, 1, 4, 3), (3, 4, 1, 2), (1, 4, 2, 3), (4, 1, 3, 2)]
    for order in orders:
        for scale in (10, 2 ** 31, 2 ** 45 + 3):
            numbers = [k * scale for k in order]
            for own in (0, *(k * scale + d for k in range(1, 5) for d in (-1, 1)), LAST):
                test.put_literal(record(512, list_to(*numbers)), numbers, number=own)


def test_there_are_never_more(test):
    """However a record is made, no more numbers are told than it has room for entries."""
    for size in range(64, 4097, 8):
        made, count = full_record(size)
        assert ENTRY_BYTES * len(references(made, OWN).numbers) <= size and count <= size // ENTRY_BYTES
        if size % 64 == 0:
            test.put(made)


def ended(test):
    """Each refusal was given: as a record is opened, and by what stops the walk."""
    test.finish((*OPENING, *STOPPING))


main = suite.of(References, ended)

if __name__ == "__main__":
    main()
