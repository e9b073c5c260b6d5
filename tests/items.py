"""Holds the item walk, as built, to the second reading of the rules and to answers of the Rust.

Every question goes to the program `ask` and every line that it writes is compared. Fails at any difference.
"""
from lib import reading, rust, suite
from lib.asking import LAST
from lib.building import (
    END, NUMBERS_BYTES, PATTERN, ROW_BYTES, entry, head, list_of, non_resident, packed_table, record, resident, table,
    with_used, zero_record,
)
from lib.on_items import FIRST, FRESH, KINDS, NEXT, WALK, Items, Question, key_with, lines_of
from lib.reading import MOST_NAME, items
from lib.reading.items import NO_KEY, NO_LIST, Rest, State

# All that items can refuse by. 8, 9, 12, 19 and 20 belong to names, values and parts.
REFUSALS = {1, 2, 3, 4, 5, 6, 7, 10, 11, 13, 14, 15, 16, 17, 18, 21, 22, 27, 28, 31}

# What a record looks like that most cases start from: 40 with a list at 80, and records 41 and 42 that it may name.
RESIDENT, SPLIT = resident(0x80, 1), non_resident(0x80, 2)
HELD = record(256, RESIDENT, SPLIT)
FIRST_LINE = "item 40 56 16 24 1 0 rest 0 0 0 left 80 0 0 0 0 0 0 - reads 1"

# The item of a list's one entry in front, which leaves its key: type 128, no name.
SPLIT_LINE = "item 41 80 128 64 0 2 rest 1 104 130 left 136 1 130 130 1 128 0 - reads 4"


def files(base, **others):
    """A table of the base record 40 and records 41 (HELD) and 42 unless told otherwise, all of 256 bytes."""
    third = record(256, non_resident(0x80, 2, lowest=5), resident(0x90, 3))
    return table({40: base, 41: others.get("other", HELD), 42: third})


def based(*attributes, **more):
    """The base record: an attribute of 24 bytes at 56, then these from 80 on, then one of type 0x30."""
    return record(256, resident(0x10), *attributes, resident(0x30, 5), **more)


def listed(test, *entries, lines, **others):
    """A base record with one list of these entries at 80, and the lines of the calls behind the first."""
    r = based(list_of(*entries))
    test.put_literal(r, files(r, **others), FIRST_LINE, *lines)


def sample():
    """One question of each kind about a record with a list, and one that is refused. rt ci runs the program on
    them."""
    test = Items()
    r = based(list_of(
        entry(0x80, 41, 2, units=2), entry(0x80, 40, 2, units=2, lowest=1), entry(0x11, 41),
        entry(0x80, 42, 7, units=2, lowest=5)))
    t = files(r)
    state = State(160, Rest(True, 134, 220), key_with(0x80, 2, b"n\0n\0 past it"))
    questions = (
        *(Question(kind, r, t, state=state, ty=0x30) for kind in KINDS),
        Question(NEXT, r, t, state=State(LAST, Rest(True, 5, 4), key_with(2 ** 32 - 1, 255, PATTERN[:MOST_NAME]))),
        Question(FIRST, r[:64], t), Question(WALK, r, t[:19]), Question(WALK, r, t, turns=2),
        Question(WALK, r, t, turns=0),
        *(Question(kind, with_used(r, used), t, ty=0x30) for kind in KINDS for used in (79, 257)),
        Question(WALK, r, files(r, other=with_used(HELD, 79))), Question(WALK, r, files(r, other=with_used(HELD, 257))),
        *(Question(WALK, lent, files(lent)) for lent in (
            based(list_of(padded(0, 41, b"1"), padded(1, 42, b"2"))), based(list_of(named(0, 41, name_offset=25))))),
    )
    return [test.counted(q, test.expected(q)) for q in questions]


# The whole case (RULES 18), and what is easily got wrong.

def test_the_whole_case(test):
    """The walk over the whole case, and over ones whose used size is another that does not refuse."""
    for used in (116, 112, 128):
        r = record(128, resident(16, 0, 32, 8), resident(128, 1), used=used)
        test.put_literal(
            r, table({40: r}),
            "item 40 56 16 32 1 0 rest 0 0 0 left 88 0 0 0 0 0 0 - reads 1",
            "item 40 88 128 24 1 1 rest 0 0 0 left 112 0 0 0 0 0 0 - reads 1",
            "end left 112 0 0 0 0 0 0 - reads 0",
        )


def test_an_entry_for_the_base_record(test):
    """Its type is judged before it is passed over, and it leaves the key."""
    # 6, past it
    listed(test, entry(0x11, 40), entry(0x80, 41, 1), lines=(
        "refused 6 40 104 left 160 1 130 156 0 0 0 - reads 2",
        "item 41 56 128 24 1 1 rest 0 0 0 left 160 1 156 156 0 0 0 - reads 2",
        "item 40 160 48 24 1 5 rest 0 0 0 left 184 0 0 0 0 0 0 - reads 1",
        "end left 184 0 0 0 0 0 0 - reads 0",
    ))
    # the third entry is passed over, whatever the one for the base record is: another type, the key's own type and
    # name, from VCN 0 on or not
    for mine in (entry(0x10, 40), entry(0x80, 40, 2), entry(0x80, 40, 2, lowest=5)):
        listed(test, entry(0x80, 41, 2), mine, entry(0x80, 42, 2, lowest=5), entry(0x90, 42, 3), lines=(
            "item 41 80 128 64 0 2 rest 1 104 208 left 208 1 130 208 1 128 0 - reads 4",
            "item 42 120 144 24 1 3 rest 0 0 0 left 208 1 208 208 0 0 0 - reads 5",
            "item 40 208 48 24 1 5 rest 0 0 0 left 232 0 0 0 0 0 0 - reads 1",
            "end left 232 0 0 0 0 0 0 - reads 0",
        ))


def test_the_skip_key(test):
    """Another item clears it, a resident one leaves none, and it outlives a list."""
    # an entry that continues the first one is an item, where another stands between
    listed(test, entry(0x80, 41, 2), entry(0x90, 42, 3), entry(0x80, 42, 2, lowest=5), lines=(
        "item 41 80 128 64 0 2 rest 1 104 182 left 184 1 130 182 1 128 0 - reads 4",
        "item 42 120 144 24 1 3 rest 0 0 0 left 184 1 156 182 0 0 0 - reads 3",
        "item 42 56 128 64 0 2 rest 1 156 182 left 184 1 182 182 1 128 0 - reads 2",
        "item 40 184 48 24 1 5 rest 0 0 0 left 208 0 0 0 1 128 0 - reads 1",
        "end left 208 0 0 0 1 128 0 - reads 0",
    ))
    # a resident attribute named twice is an item twice
    listed(test, entry(0x80, 41, 1), entry(0x80, 41, 1, lowest=5), lines=(
        "item 41 56 128 24 1 1 rest 0 0 0 left 160 1 130 156 0 0 0 - reads 3",
        "item 41 56 128 24 1 1 rest 0 0 0 left 160 1 156 156 0 0 0 - reads 2",
        "item 40 160 48 24 1 5 rest 0 0 0 left 184 0 0 0 0 0 0 - reads 1",
        "end left 184 0 0 0 0 0 0 - reads 0",
    ))
    # two lists
    r = based(list_of(entry(0x80, 41, 2)), list_of(entry(0x80, 42, 2, lowest=5), entry(0x90, 42, 3)))
    test.put_literal(
        r, files(r), FIRST_LINE, SPLIT_LINE,
        "item 42 120 144 24 1 3 rest 0 0 0 left 216 1 212 212 0 0 0 - reads 5",
        "item 40 216 48 24 1 5 rest 0 0 0 left 240 0 0 0 0 0 0 - reads 1",
        "end left 240 0 0 0 0 0 0 - reads 0",
    )


# An entry in front that leaves a key with a name, "ab"; and what stands behind it.
AB = b"a\0b\0"
NAMED = entry(0x80, 41, 2, units=2, name=AB)


def named(lowest=1, file=42, instance=2, ty=0x80, name=AB, **more):
    """An entry of the same type and name unless told otherwise."""
    return entry(ty, file, instance, units=len(name) // 2, lowest=lowest, name=name, **more)


def padded(lowest, file, padding, name=AB, **more):
    """An entry that has its name at 32, behind six bytes of padding."""
    return named(lowest, file, name=name, name_offset=32, padding=padding, **more)


def behind_named(test, *others, lines, **more):
    """The calls behind the item of NAMED, which is followed by these entries. In the lines END stands for where the
    list ends, RAW for what the walk goes on at, and PAST for where it ends."""
    size = sum(map(len, others))
    raw = 80 + -(-(54 + size) // 8) * 8
    places = {"END": str(134 + size), "RAW": str(raw), "PAST": str(raw + 24)}
    first = "item 41 80 128 64 0 2 rest 1 104 END left RAW 1 134 END 1 128 2 610062 reads 4"
    told = [" ".join(places.get(word, word) for word in line.split(" ")) for line in (first, *lines)]
    listed(test, NAMED, *others, lines=told, **more)


CONTINUING = (
    # VCNs are unsigned
    *(named(lowest) for lowest in (1, 2, 5, 2 ** 32, 2 ** 63 - 1, 2 ** 63, LAST)),
    # instance and record don't matter, whether there is such a record or not
    *(named(instance=instance) for instance in (0, 1, 7, 65535)), *(named(file=n) for n in (41, 99, 2 ** 48 - 1)),
    # nor what stands behind the name, where the name stands, what is in front of it, and the sequence number
    named(length=31), named(length=38), named(name_offset=27), padded(1, 42, b"b\0a\0"), padded(1, 42, bytes(1)),
    padded(1, 42, b"q", length=50), named(sequence=8),
)


def test_an_entry_that_continues(test):
    """Type and name are the key's, and the lowest VCN is not 0: it is passed over, and the key stays."""
    for other in CONTINUING:
        behind_named(test, other, lines=(
            "item 40 RAW 48 24 1 5 rest 0 0 0 left PAST 0 0 0 1 128 2 610062 reads 2",
            "end left PAST 0 0 0 1 128 2 610062 reads 0",
        ))
    # as many as there are
    behind_named(test, named(5), named(1), named(1, 41, 1), lines=(
        "item 40 RAW 48 24 1 5 rest 0 0 0 left PAST 0 0 0 1 128 2 610062 reads 4",
        "end left PAST 0 0 0 1 128 2 610062 reads 0",
    ))


# An entry that does not continue NAMED, and the key that it leaves.
ANEW = (
    # VCN 0, and names one byte different, one unit shorter or longer, or none
    (named(0), "1 128 2 610062"), (named(name=b"a\0c\0"), "1 128 2 610063"), (named(name=b"b\0b\0"), "1 128 2 620062"),
    (named(name=b"a\0b\1"), "1 128 2 61006201"), (named(name=b"a\1b\0"), "1 128 2 610162"),
    (named(name=b"A\0B\0"), "1 128 2 410042"), (named(name=b"a\0"), "1 128 1 61"),
    (named(name=b"a\0b\0c\0"), "1 128 3 6100620063"), (named(name=b"a\0b\0\0\0"), "1 128 3 610062"),
    (named(name=b""), "1 128 0 -"), (named(name=bytes(4)), "1 128 2 -"),
    # the name goes as far as its units, whatever fills the entry
    (entry(0x80, 42, 2, units=1, lowest=1, name=AB, length=30)[:30], "1 128 1 61"),
    (entry(0x80, 42, 2, units=0, lowest=1, name=AB, length=30)[:30], "1 128 0 -"),
    # the key's name in front of it, and one byte further on; an empty name, wherever it is said to stand
    (padded(1, 42, AB, b"a\0c\0"), "1 128 2 610063"),
    (named(name=b"\0b\0\0", name_offset=27, padding=b"a"), "1 128 2 0062"),
    *((named(name=b"", name_offset=at, length=30), "1 128 0 -") for at in (0, 25, 27, 255)),
)


def test_an_entry_that_does_not_continue(test):
    """It clears the key and is looked up, by its type and instance as ever; a set key is zero past its name."""
    for other, key in ANEW:
        behind_named(test, other, lines=(
            "item 42 56 128 64 0 2 rest 1 134 END left RAW 1 END END %s reads 2" % key,
            "item 40 RAW 48 24 1 5 rest 0 0 0 left PAST 0 0 0 %s reads 1" % key,
            "end left PAST 0 0 0 %s reads 0" % key,
        ))
    # of VCN 0 and an instance that is not there; behind it the key is clear, so that what continued is looked up
    behind_named(test, named(0, 41, 7), named(5), lines=(
        "refused 18 40 134 left RAW 1 164 END 0 0 0 - reads 3",
        "item 42 56 128 64 0 2 rest 1 164 END left RAW 1 END END 1 128 2 610062 reads 2",
        "item 40 RAW 48 24 1 5 rest 0 0 0 left PAST 0 0 0 1 128 2 610062 reads 1",
        "end left PAST 0 0 0 1 128 2 610062 reads 0",
    ))
    # another type of the same name, which is resident
    behind_named(test, named(1, 42, 3, 0x90), named(5), lines=(
        "item 42 120 144 24 1 3 rest 0 0 0 left RAW 1 164 END 0 0 0 - reads 3",
        "item 42 56 128 64 0 2 rest 1 164 END left RAW 1 END END 1 128 2 610062 reads 2",
        "item 40 RAW 48 24 1 5 rest 0 0 0 left PAST 0 0 0 1 128 2 610062 reads 1",
        "end left PAST 0 0 0 1 128 2 610062 reads 0",
    ))


def test_names_behind_padding(test):
    """A stream whose entries have their names at 32, each behind other padding, is one; two streams whose names differ
    there are two, though the padding is the same. The padding of the last two is the first one's name."""
    listed(test, padded(0, 41, b"1"), padded(1, 42, b"2"), padded(5, 42, AB), lines=(
        "item 41 80 128 64 0 2 rest 1 104 212 left 216 1 140 212 1 128 2 610062 reads 4",
        "item 40 216 48 24 1 5 rest 0 0 0 left 240 0 0 0 1 128 2 610062 reads 3",
        "end left 240 0 0 0 1 128 2 610062 reads 0",
    ))
    listed(test, padded(0, 41, AB), padded(1, 42, AB, b"a\0c\0"), padded(5, 42, AB, b"a\0c\0"), lines=(
        "item 41 80 128 64 0 2 rest 1 104 212 left 216 1 140 212 1 128 2 610062 reads 4",
        "item 42 56 128 64 0 2 rest 1 140 212 left 216 1 176 212 1 128 2 610063 reads 2",
        "item 40 216 48 24 1 5 rest 0 0 0 left 240 0 0 0 1 128 2 610063 reads 2",
        "end left 240 0 0 0 1 128 2 610063 reads 0",
    ))


def test_the_first_entry_of_a_stream(test):
    """It leaves a key whatever its own lowest VCN is, and by that of the entry: where the attribute's is another, the
    entry's decides."""
    # 41 has its attribute from VCN 0 on, 42 from 5 on
    for file, at, reads in ((41, 80, 4), (42, 56, 3)):
        for lowest in (0, 1, 5, LAST):
            listed(test, entry(0x80, file, 2, lowest=lowest), entry(0x80, 42, 2, lowest=LAST), lines=(
                "item %d %d 128 64 0 2 rest 1 104 156 left 160 1 130 156 1 128 0 - reads %d" % (file, at, reads),
                "item 40 160 48 24 1 5 rest 0 0 0 left 184 0 0 0 1 128 0 - reads 2",
                "end left 184 0 0 0 1 128 0 - reads 0",
            ))
            # the attribute behind is from 5 on, its entry from 0 on
            listed(test, entry(0x80, file, 2, lowest=lowest), entry(0x80, 42, 2), lines=(
                "item %d %d 128 64 0 2 rest 1 104 156 left 160 1 130 156 1 128 0 - reads %d" % (file, at, reads),
                "item 42 56 128 64 0 2 rest 1 130 156 left 160 1 156 156 1 128 0 - reads 2",
                "item 40 160 48 24 1 5 rest 0 0 0 left 184 0 0 0 1 128 0 - reads 1",
                "end left 184 0 0 0 1 128 0 - reads 0",
            ))


# What a key keeps past its name, and how a state tells it.
PAST = b"\0\1past\0\xff"
PAST_HEX = "00017061737400ff"


# The last entry of a list, at 246, and the call that comes to it.
KEEPING = (
    (entry(0x80, 41, 1)[:25], "refused 14 40 246 left 328 1 246 271 %s reads 1"),
    (entry(0x80, 41, 1, length=25), "refused 15 40 246 left 328 1 246 272 %s reads 1"),
    (entry(0x80, 41, 1, units=1, name_offset=25), "refused 31 40 246 left 328 1 246 274 %s reads 1"),
    (entry(0x80, 41, 1, units=1, length=28)[:26], "refused 16 40 246 left 328 1 246 272 %s reads 1"),
    (entry(0x80, 41, 1, units=1, name_offset=40)[:41], "refused 16 40 246 left 328 1 246 287 %s reads 1"),
    # longer than what is left: the list ends, and the raw walk goes on behind the attribute that follows it
    (entry(0x80, 41, 1, length=27)[:26], "item 40 328 48 24 1 6 rest 0 0 0 left 352 0 0 0 %s reads 2"),
    (b"", "item 40 328 48 24 1 6 rest 0 0 0 left 352 0 0 0 %s reads 2"),
)


def test_a_key_is_kept(test):
    """A key that stays is kept as it was given, byte for byte, by an entry that continues it, one for the base record,
    one of unknown type, a list that ends, an item of the raw walk, and each refusal that keeps it."""
    given, told = key_with(0x80, 2, AB + PAST), "1 128 2 61006200" + PAST_HEX
    for last, line in KEEPING:
        one = list_of(named(5), entry(0x90, 40), named(0, 40), entry(0x11, 41), named(1), last, length=224)
        r = record(512, resident(0x10), one, resident(0x30, 5), resident(0x30, 6))
        t, end = table({40: r}), 246 + len(last)
        for start in (104, 134, 160, 190):
            passed = (104, 134, 160, 190).index(start)
            test.put_call(
                r, t, State(328, Rest(True, start, end), given),
                "refused 6 40 190 left 328 1 216 %d %s reads %d" % (end, told, 4 - passed))
        test.put_call(r, t, State(328, Rest(True, 216, end), given), line % told)
    # the raw walk: items, an end, 3, 4, 5 and 28, and what refuses a list
    for lent, at, line in (
        (based(), 56, "item 40 56 16 24 1 0 rest 0 0 0 left 80 0 0 0 %s reads 1"),
        (based(), 104, "end left 104 0 0 0 %s reads 0"),
        (based(end=b""), 244, "refused 3 40 244 left 244 0 0 0 %s reads 0"),
        (record(256, head(0x40, 15)), 56, "refused 4 40 56 left 56 0 0 0 %s reads 0"),
        (record(256, head(0x40, 201)), 56, "refused 5 40 56 left 56 0 0 0 %s reads 0"),
        (record(256, resident(0x40), used=79), 56, "refused 28 40 56 left 56 0 0 0 %s reads 0"),
        (record(256, head(0x20, 16)), 56, "refused 7 40 56 left 72 0 0 0 %s reads 1"),
        (record(256, resident(0x20, 9, 32, 0, 33)), 56, "refused 10 40 56 left 88 0 0 0 %s reads 1"),
        (record(256, resident(0x20, 9, 32, 9, 24)), 56, "refused 11 40 56 left 88 0 0 0 %s reads 1"),
        (record(256, non_resident(0x20, 9)), 56, "refused 13 40 56 left 120 0 0 0 %s reads 1"),
    ):
        test.put_call(lent, files(based()), State(at, NO_LIST, given), line % told)


def test_a_key_that_is_lent(test):
    """Its bytes past its units are not compared, whatever they are; none at all with 0 units, and all with 255."""
    longest = bytes(k % 255 + 1 for k in range(MOST_NAME))
    changed = longest[:-1] + b"\0"
    spare = {41: record(1024, RESIDENT, SPLIT), 42: record(1024, non_resident(0x80, 2, lowest=5), resident(0x90, 3))}
    for key, told, other, passed in (
        (key_with(0x80, 2, AB + PAST), "1 128 2 61006200" + PAST_HEX, named(1), True),
        (key_with(0x80, 1, AB + PAST), "1 128 1 61006200" + PAST_HEX, named(1), False),
        (key_with(0x80, 3, AB), "1 128 3 610062", named(1), False),
        (key_with(0x80, 1, AB + PAST), "1 128 1 61006200" + PAST_HEX, named(1, name=b"a\0"), True),
        (key_with(0x80, 0, longest), "1 128 0 " + longest.hex(), named(1, name=b""), True),
        (key_with(0x80, 0, longest), "1 128 0 " + longest.hex(), named(1, name=longest), False),
        (key_with(0x80, 255, longest), "1 128 255 " + longest.hex(), named(1, name=longest), True),
        (key_with(0x80, 255, longest), "1 128 255 " + longest.hex(), named(0, name=longest), False),
        (key_with(0x80, 255, longest), "1 128 255 " + longest.hex(), named(1, name=changed), False),
        (key_with(0x80, 255, longest), "1 128 255 " + longest.hex(), named(1, name=longest[:-2]), False),
        (key_with(0x80, 254, longest), "1 128 254 " + longest.hex(), named(1, name=longest[:-2]), True),
        (key_with(0x80, 255), "1 128 255 -", named(1, name=bytes(510)), True),
        (key_with(0x80, 255), "1 128 255 -", named(1, name=b""), False),
        (key_with(0x90, 2, AB), "1 144 2 610062", named(1), False),
        (key_with(0x11, 2, AB), "1 17 2 610062", named(1), False),
        (key_with(reading.MARKER, 2, AB), "1 4294967295 2 610062", named(1, ty=reading.MARKER), True),
        # no key, whatever its numbers are
        (key_with(0x80, 2, AB)._replace(there=False), "", named(1), False),
    ):
        r = record(1024, list_of(other), resident(0x30, 5))
        end = 80 + len(other)
        raw = 56 + -(-(24 + len(other)) // 8) * 8
        line = "item 40 %d 48 24 1 5 rest 0 0 0 left %d 0 0 0 %s reads 2" % (raw, raw + 24, told)
        if not passed:
            name = other[26:26 + 2 * other[6]].rstrip(b"\0").hex() or "-"
            line = "item 42 56 128 64 0 2 rest 1 80 %d left %d 1 %d %d 1 128 %d %s reads 2" % (
                end, raw, end, end, other[6], name)
        test.put_call(r, table({40: r, **spare}), State(raw, Rest(True, 80, end), key), line)


def test_the_longest_name_leaves_its_key(test):
    """All 510 bytes of it, and nothing of the key that stood there before."""
    longest = bytes(255 - k % 255 for k in range(MOST_NAME))
    spare = {41: record(1024, RESIDENT, SPLIT)}
    for name in (longest, longest[:-2], longest[:2], b""):
        r = record(1024, list_of(named(0, 41, name=name)))
        end = 80 + 26 + len(name)
        before = key_with(0x80, 255, PATTERN[:MOST_NAME])
        line = "item 41 80 128 64 0 2 rest 1 80 %d left 7 1 %d %d 1 128 %d %s reads 3" % (
            end, end, end, len(name) // 2, name.hex() or "-")
        test.put_call(r, table({40: r, **spare}), State(7, Rest(True, 80, end), before), line)


def test_base_record_numbers(test):
    """The base record's number wins over a row of the table, and a number at 2^48 or above is no entry's."""
    r = based(list_of(entry(0x80, 41, 1), entry(0x30, 40, 5)))
    for number in (40, 41, 99, 2 ** 48, 2 ** 48 + 41, LAST):
        test.put_walk(r, files(r), number)


# Every refusal: where it is told, and the state that it leaves.

def test_refusals_of_the_opening(test):
    """21 before 1, 1 before 2, 2 before 27, 27 before 22; the state stays as given, and nothing is read."""
    whole = based(list_of(entry(0x80, 41, 1)))
    above = with_used(whole, 257)
    odd = State(77, Rest(True, 3, 2), key_with(5, 6, b"o\0\0\xff"))
    for bad, place in ((files(whole)[:19], 0), (files(whole)[:-1], 44)):
        test.put_call(whole, bad, odd, "refused 21 0 %d left 77 1 3 2 1 5 6 6f0000ff reads 0" % place)
        test.put_call(b"", bad, odd, "refused 21 0 %d left 77 1 3 2 1 5 6 6f0000ff reads 0" % place)
        test.put_call(above, bad, odd, "refused 21 0 %d left 77 1 3 2 1 5 6 6f0000ff reads 0" % place)
    for short in (b"", whole[:56], whole[:255], whole[:248], whole + bytes(8), bytes(4104), above[:248]):
        test.put_call(short, files(whole), odd, "refused 1 40 0 left 77 1 3 2 1 5 6 6f0000ff reads 0")
    for bad in (whole, above):
        test.put_call(b"FILF" + bad[4:], files(whole), odd, "refused 2 40 0 left 77 1 3 2 1 5 6 6f0000ff reads 0")
    for used in (257, 2 ** 32 - 1):
        given = with_used(whole, used)
        test.put_call(given, files(whole), odd, "refused 27 40 0 left 77 1 3 2 1 5 6 6f0000ff reads 0")
        test.put_literal(given, files(whole), "refused 27 40 0 left 56 0 0 0 0 0 0 - reads 0")
    for used in (256, 80, 0):
        test.put_call(with_used(whole, used), files(whole), odd, "refused 22 40 0 left 77 1 3 2 1 5 6 6f0000ff reads 0")
    lent = (
        (whole, files(whole)[:19]), (whole[:248], files(whole)), (b"FILF" + whole[4:], files(whole)), (b"", b""),
        (above, files(whole)),
    )
    for kind in (FIRST, WALK, FRESH):
        for r, t in lent:
            test.put(kind, r, t, ty=0x80)


def test_refusals_of_the_raw_walk(test):
    """3, 4 and 5: at that place, for good; the list that the call closes on its way stays closed."""
    for tail, end, number, at in (
        (head(0x40, 15), END, 4, 136), (head(0x40, 121), END, 5, 136),
        (resident(0x30, 5, 112), b"\x10\0\0\0", 3, 248),
    ):
        r = record(256, resident(0x10), list_of(entry(0x80, 41, 2)), tail, end=end)
        refused = "refused %d 40 %d left %d 0 0 0 1 128 0 - reads 0" % (number, at, at)
        lines = [refused] * 2
        if number == 3:
            lines = ["item 40 136 48 112 1 5 rest 0 0 0 left 248 0 0 0 1 128 0 - reads 1", refused]
        test.put_literal(r, files(r), FIRST_LINE, SPLIT_LINE, *lines)


def test_stale_attributes_of_the_raw_walk(test):
    """28: an attribute that ends past the used size, at that place, for good; a list there is not opened."""
    one, two = list_of(entry(0x80, 41, 2)), resident(0x40, 7)
    last = (
        "item 40 136 64 24 1 7 rest 0 0 0 left 160 0 0 0 1 128 0 - reads 1", "end left 160 0 0 0 1 128 0 - reads 0")
    for used, lines in (
        # the end marker stands from 160 to 164
        (256, last), (163, last), (160, last),
        (159, ["refused 28 40 136 left 136 0 0 0 1 128 0 - reads 0"] * 2),
        (136, ["refused 28 40 136 left 136 0 0 0 1 128 0 - reads 0"] * 2),
    ):
        # the allocated size says otherwise, or nothing
        for allocated in (256, 0, used):
            r = record(256, resident(0x10), one, two, used=used, allocated=allocated)
            test.put_literal(r, files(r), FIRST_LINE, SPLIT_LINE, *lines)
    # the list that a call closes on its way stays closed, and one that is stale stays shut, whatever it is
    for held in (one, head(0x20, 16), resident(0x20, 9, 32, 0, 33), non_resident(0x20, 9)):
        r = record(256, resident(0x10), held, two, used=79 + len(held))
        test.put_literal(r, files(r), FIRST_LINE, "refused 28 40 80 left 80 0 0 0 0 0 0 - reads 0")
    # an unknown type is no item there
    r = record(256, resident(0x10), resident(0x11), used=103)
    test.put_literal(r, files(r), FIRST_LINE, "refused 28 40 80 left 80 0 0 0 0 0 0 - reads 0")
    # used size 0 with an attribute in front, and with the end marker
    r = record(256, resident(0x10), used=0)
    test.put_literal(r, files(r), "refused 28 40 56 left 56 0 0 0 0 0 0 - reads 0")
    r = record(256, used=0)
    test.put_literal(r, files(r), "end left 56 0 0 0 0 0 0 - reads 0")


def test_a_list_behind_the_used_size(test):
    """A list that is open is read wherever it lies in the record: 28 is asked of attributes, not of entries."""
    r = with_used(based(list_of(entry(0x80, 41, 2))), 80)
    test.put_call(
        r, files(r), State(256, Rest(True, 104, 130), NO_KEY),
        "item 41 80 128 64 0 2 rest 1 104 130 left 256 1 130 130 1 128 0 - reads 3")


def test_refusals_of_a_list(test):
    """7, 10, 11 and 13: past it, no list, key kept; 7 before 13, and 12 not tested."""
    for bad, number in (
        (head(0x20, 16, instance=9), 7), (head(0x20, 23).ljust(23, b"\0"), 7),
        (head(0x20, 63, False).ljust(63, b"\0"), 7),
        (resident(0x20, 9, 32, 0, 33), 10), (resident(0x20, 9, 32, 9, 24), 11),
        (resident(0x20, 9, 32, 2 ** 32 - 1, 24), 11),
        (non_resident(0x20, 9), 13), (non_resident(0x20, 9, runs=65), 13),
    ):
        for before in ((), (list_of(entry(0x80, 41, 2)),)):
            r = based(*before, bad)
            at = 80 + sum(map(len, before))
            past = at + len(bad)
            key = "1 128 0 -" if before else "0 0 0 -"
            test.put_literal(
                r, files(r), FIRST_LINE, *[SPLIT_LINE] * len(before),
                "refused %d 40 %d left %d 0 0 0 %s reads 1" % (number, at, past, key),
                "item 40 %d 48 24 1 5 rest 0 0 0 left %d 0 0 0 %s reads 1" % (past, past + 24, key),
                "end left %d 0 0 0 %s reads 0" % (past + 24, key),
            )


def test_lists_that_just_open(test):
    """The lines beside 7, 10 and 11: nothing in the list, a value over the attribute's own header."""
    for good in (
        resident(0x20, 9, 24), resident(0x20, 9, 32, 8, 24), resident(0x20, 9, 32, 0, 32),
        resident(0x20, 9, 32, 32, 0),
        resident(0x20, 9, 56, 26, 30),
    ):
        r = based(good)
        test.put_walk(r, files(r))


# An entry behind one at 104, what refuses it, and where its list ends.
REFUSED = (
    (entry(0x80, 41, 1)[:25], 14, 155), (entry(0x80, 41, 1)[:1], 14, 131), (entry(0x80, 41, 1, length=25), 15, 156),
    (entry(0x80, 41, 1, length=0), 15, 156), (entry(0x80, 41, 1, units=1, length=28)[:26], 16, 156),
    (entry(0x80, 41, 1, units=255, length=600)[:27], 16, 157), (entry(0x80, 41, 1, units=1, length=27)[:27], 15, 157),
    # a name over the header, or past its entry, of an unknown type or of the base record too
    (entry(0x80, 41, 1, units=1, name_offset=25), 31, 158), (entry(0x80, 41, 1, units=1, name_offset=0), 31, 158),
    (entry(0x80, 41, 1, units=1, length=28, name_offset=27), 31, 159),
    (entry(0x80, 41, 1, units=3, length=38, name_offset=33), 31, 169),
    (entry(0x11, 41, 1, units=1, name_offset=25), 31, 158), (entry(0x80, 40, units=1, name_offset=25), 31, 158),
    # 15 before 31, and 31 before 16
    (entry(0x80, 41, 1, units=1, length=27, name_offset=25), 15, 158),
    (entry(0x80, 41, 1, units=1, length=28, name_offset=27)[:26], 31, 156),
    (entry(0x80, 41, 1, units=1, length=65535, name_offset=25)[:26], 31, 156),
    # a name that ends a byte past the list, though it would be all there at 26
    (entry(0x80, 41, 1, units=1, length=40, name_offset=36)[:37], 16, 167),
    (entry(0x11, 40, units=1, length=40, name_offset=38)[:39], 16, 169),
)


def test_refusals_of_an_entry(test):
    """14, 15, 31 and 16: at that entry, for good."""
    for last, number, to in REFUSED:
        r = based(list_of(entry(0x80, 41, 1), last))
        left = 80 + -(-(24 + 26 + len(last)) // 8) * 8
        test.put_literal(
            r, files(r), FIRST_LINE,
            "item 41 56 128 24 1 1 rest 0 0 0 left %d 1 130 %d 0 0 0 - reads 3" % (left, to),
            "refused %d 40 130 left %d 1 130 %d 0 0 0 - reads 0" % (number, left, to),
        )


def test_an_entry_longer_than_what_is_left(test):
    """It ends the list without being given, even one of unknown type, and where its name is all there."""
    for longer in (
        entry(0x80, 41, 1, length=40)[:32], entry(0x11, 41, 1, length=40)[:32],
        entry(0x80, 41, 1, units=1, length=40, name_offset=30)[:32], entry(0x80, 41, 1, length=40, name_offset=0)[:32],
        entry(0x80, 41, 1, units=3, length=33)[:32],
    ):
        listed(test, entry(0x80, 41, 1), longer, lines=(
            "item 41 56 128 24 1 1 rest 0 0 0 left 168 1 130 162 0 0 0 - reads 3",
            "item 40 168 48 24 1 5 rest 0 0 0 left 192 0 0 0 0 0 0 - reads 1",
            "end left 192 0 0 0 0 0 0 - reads 0",
        ))


# The first of three entries has left its key; the third continues it.
BEGIN = "item 41 80 128 64 0 2 rest 1 104 182 left 184 1 130 182 1 128 0 - reads 4"
THIRD = entry(0x80, 42, 2, lowest=5)


def test_an_unknown_type_of_an_entry(test):
    """6 keeps the key, so that the third entry is passed over."""
    listed(test, entry(0x80, 41, 2), entry(0x11, 41, 2), THIRD, lines=(
        BEGIN, "refused 6 40 130 left 184 1 156 182 1 128 0 - reads 1",
        "item 40 184 48 24 1 5 rest 0 0 0 left 208 0 0 0 1 128 0 - reads 2",
        "end left 208 0 0 0 1 128 0 - reads 0",
    ))


def test_refusals_of_a_lookup(test):
    """17 and 18 at the entry, 6 in the record looked up: each clears the key, and the third entry is an item."""
    after = (
        "item 42 56 128 64 0 2 rest 1 156 182 left 184 1 182 182 1 128 0 - reads 2",
        "item 40 184 48 24 1 5 rest 0 0 0 left 208 0 0 0 1 128 0 - reads 1",
        "end left 208 0 0 0 1 128 0 - reads 0",
    )
    # 18 behind both attributes of 41; also for an entry of the marker's type, which no attribute has
    for second, refused in (
        (entry(0x80, 99, 1), "refused 17 40 130 left 184 1 156 182 0 0 0 - reads 1"),
        (entry(0x80, 41, 7), "refused 18 40 130 left 184 1 156 182 0 0 0 - reads 3"),
        (entry(reading.MARKER, 41, 2), "refused 18 40 130 left 184 1 156 182 0 0 0 - reads 3"),
    ):
        listed(test, entry(0x80, 41, 2), second, THIRD, lines=(BEGIN, refused, *after))
    # 6: the attribute of unknown type stands before the one asked for
    other = record(256, SPLIT, resident(0x11, 4), resident(0x90, 1))
    listed(test, entry(0x80, 41, 2), entry(0x90, 41, 1), THIRD, other=other, lines=(
        BEGIN.replace(" 80 128", " 56 128").replace("reads 4", "reads 3"),
        "refused 6 41 120 left 184 1 156 182 0 0 0 - reads 3", *after))
    # 28 comes before 6, and what it refuses is no read; where the attribute ends with the used size 6 is told
    for used, refused in (
        (144, "refused 6 41 120 left 184 1 156 182 0 0 0 - reads 3"),
        (143, "refused 28 41 120 left 184 1 156 182 0 0 0 - reads 2"),
    ):
        listed(test, entry(0x80, 41, 2), entry(0x90, 41, 1), THIRD, other=with_used(other, used), lines=(
            BEGIN.replace(" 80 128", " 56 128").replace("reads 4", "reads 3"), refused, *after))
    # 27 and 28 clear the key too: the third entry is that of the first
    for used, refused in (
        (257, "refused 27 41 0 left 184 1 156 182 0 0 0 - reads 1"),
        (79, "refused 28 41 56 left 184 1 156 182 0 0 0 - reads 1"),
    ):
        listed(test, THIRD, entry(0x80, 41, 7), THIRD, other=with_used(HELD, used), lines=(
            "item 42 56 128 64 0 2 rest 1 104 182 left 184 1 130 182 1 128 0 - reads 3", refused, *after))


def test_refusals_in_the_record_looked_up(test):
    """2 and 27 at 0 of that record; 3, 4, 5 and 28 with its number and the attribute's offset."""
    after = (
        "item 42 56 128 64 0 2 rest 1 130 156 left 160 1 156 156 1 128 0 - reads 2",
        "item 40 160 48 24 1 5 rest 0 0 0 left 184 0 0 0 1 128 0 - reads 1",
        "end left 184 0 0 0 1 128 0 - reads 0",
    )
    above = with_used(HELD, 257)
    for other, number in ((HELD, 2), (above, 2), (above, 27), (with_used(HELD, 2 ** 32 - 1), 27)):
        listed(test, entry(0x80, 41, 1), THIRD, other=b"FILF" + other[4:] if number == 2 else other, lines=(
            "refused %d 41 0 left 160 1 130 156 0 0 0 - reads 2" % number, *after))
    # the second attribute is stale: the first one is found all the same
    listed(test, entry(0x80, 41, 1), THIRD, other=with_used(HELD, 143), lines=(
        "item 41 56 128 24 1 1 rest 0 0 0 left 160 1 130 156 0 0 0 - reads 3", *after))
    for other, number, at in (
        (record(256, resident(0x80, 1, 188), end=b"\x10\0\0\0" * 3), 3, 244),
        (record(256, RESIDENT, head(0x80, 15, instance=2)), 4, 80),
        (record(256, RESIDENT, head(0x80, 177, instance=2)), 5, 80),
        (with_used(HELD, 143), 28, 80), (with_used(HELD, 80), 28, 80),
        # each of 3, 4 and 5 in front of 28
        (record(256, resident(0x80, 1, 188), end=b"\x10\0\0\0" * 3, used=244), 3, 244),
        (record(256, RESIDENT, head(0x80, 15, instance=2), used=80), 4, 80),
        (record(256, RESIDENT, head(0x80, 177, instance=2), used=80), 5, 80),
    ):
        listed(test, entry(0x80, 41, 2), THIRD, other=other, lines=(
            "refused %d 41 %d left 160 1 130 156 0 0 0 - reads 3" % (number, at), *after))


def test_the_first_of_a_type(test):
    """6 at an item of unknown type, whatever was asked; 18 at 0 in the base record; a refusal of the walk."""
    for r, ty, line in (
        (based(resident(0x11, 4)), 0x30, "refused 6 40 80 reads 2"),
        (based(resident(0x11, 4)), 0x11, "refused 6 40 80 reads 2"),
        (based(resident(0x11, 4)), 0x10, "item 40 56 16 24 1 0 rest 0 0 0 reads 1"),
        (based(), 0x80, "refused 18 40 0 reads 2"),
        (based(), 0x11, "refused 18 40 0 reads 2"),
        (based(list_of(entry(0x80, 41, 2))), 0x80, "item 41 80 128 64 0 2 rest 1 104 130 reads 5"),
        (based(list_of(entry(0x80, 41, 2))), 0x20, "refused 18 40 0 reads 6"),
        (based(list_of(entry(0x80, 99, 2))), 0x30, "refused 17 40 104 reads 3"),
        # 27 of the base record; 28 in front of 6, and behind the item that is asked for
        (based(used=257), 0x10, "refused 27 40 0 reads 0"),
        (based(resident(0x11, 4), used=103), 0x30, "refused 28 40 80 reads 1"),
        (based(resident(0x11, 4), used=104), 0x30, "refused 6 40 80 reads 2"),
        (based(resident(0x11, 4), used=80), 0x10, "item 40 56 16 24 1 0 rest 0 0 0 reads 1"),
        (based(used=79), 0x10, "refused 28 40 56 reads 0"),
    ):
        test.put_first(r, files(r), ty, line)


# Arrangements, states and sizes.

def test_arrangements(test):
    """A list before, between and after other attributes, and several of them, empty ones too."""
    one = list_of(entry(0x80, 41, 2), entry(0x80, 42, 2, lowest=5))
    two = list_of(entry(0x90, 42, 3), entry(0x80, 40, 9))
    other, none = resident(0x60, 7), resident(0x20, 8)
    for parts in (
        (one,), (one, other), (other, one), (other, one, other), (one, two), (two, one), (one, other, two),
        (none, one),
        (one, none), (none,), (none, none, other), (other, none), (one, one), (two, two, other),
        (other, other, one, none),
    ):
        for size in (256, 264, 512):
            r = record(size, *parts)
            third = record(size, non_resident(0x80, 2, lowest=5), resident(0x90, 3))
            t = table({40: r, 41: record(size, RESIDENT, SPLIT), 42: third})
            test.put_walk(r, t)
            for ty in (0x80, 0x90, 0x60, 0x20):
                test.put(FIRST, r, t, ty=ty)


def test_base_record_entries_among_others(test):
    """Base-record entries between entries of one stream, at each place."""
    others = {41: record(512, RESIDENT, SPLIT), 42: record(512, non_resident(0x80, 2), resident(0x90, 3))}
    for k in range(5):
        entries = [entry(0x80, 41, 2), named(5, name=b""), named(9, 41, name=b""), entry(0x90, 42, 3)]
        for ty, instance in ((0x80, 2), (0x10, 0), (0x11, 2), (reading.MARKER, 2)):
            for lowest in (0, 1):
                with_base = [*entries[:k], entry(ty, 40, instance, lowest=lowest), *entries[k:]]
                r = record(512, resident(0x10), list_of(*with_base), resident(0x30, 5))
                test.put_walk(r, table({40: r, **others}))


def test_forged_states(test):
    """States that no walk left: 22, and lists read at every place of the record, over the header and over other
    attributes."""
    r = based(list_of(entry(0x80, 41, 2), entry(0x80, 42, 2, lowest=5)), resident(0x80, 1))
    t = files(r)
    keys = (
        NO_KEY, key_with(0x80, 0), key_with(0x11, 0), key_with(0x80, 0)._replace(there=False),
        key_with(0x80, 0, PATTERN[:MOST_NAME]), key_with(reading.MARKER, 255, PATTERN[:MOST_NAME]))
    spots = (
        0, 1, 25, 26, 56, 80, 103, 104, 105, 130, 155, 156, 157, 229, 230, 231, 255, 256, 257, 2 ** 16, 2 ** 32 + 104,
        LAST - 25,
        LAST)
    lists = [NO_LIST, Rest(False, 104, 156), Rest(False, 9, 3), Rest(False, LAST, LAST)]
    lists += [Rest(True, a, b) for a in spots for b in spots]
    for rest in lists:
        for key in keys[:3] if rest.there else keys:
            test.put(NEXT, r, t, state=State(160, rest, key))
    far = (2 ** k + d for k in (12, 16, 31, 32, 63) for d in (-1, 0, 1))
    for place in (*range(0, 261), *far, *range(LAST - 70, LAST + 1)):
        for rest in (NO_LIST, Rest(False, 7, 3), Rest(True, 104, 156), Rest(True, 256, 256)):
            test.put(NEXT, r, t, state=State(place, rest, keys[place % 6]))
    for start in range(0, 257):
        for end in {start, min(start + 26, 256), min(start + 60, 256), 256}:
            test.put(NEXT, r, t, state=State(80, Rest(True, start, end), keys[start % 6]))


def test_used_sizes(test):
    """Each used size of the base record, and of one that it names."""
    r = based(
        list_of(entry(0x80, 41, 2), entry(0x80, 42, 2, lowest=5), entry(0x90, 42, 3)), list_of(entry(0x80, 41, 1)))
    for used in (*range(50, 262), 0, 1, 2 ** 16, 2 ** 31, 2 ** 32 - 1):
        test.put_walk(with_used(r, used), files(r))
        test.put_walk(r, files(r, other=with_used(HELD, used)))
        for ty in (0x80, 0x30):
            test.put(FIRST, with_used(r, used), files(r), ty=ty)


def test_lengths_of_records(test):
    """Record sizes around their limits, in tables of other sizes and of their own."""
    for size in (*range(0, 80), *range(120, 140), *range(4080, 4112)):
        r = record(max(size, 64), resident(0x10), first=40)[:size]
        for t in (table({40: record(64, first=48)}), table({40: record(4096)}), table({40: r}) if r else b""):
            for kind in KINDS:
                test.put(kind, r, t, ty=0x10, state=items.fresh(r))


def test_tables_changed_and_cut(test):
    """All of a table's numbers and rows, one byte after another changed, and the table cut anywhere."""
    r = record(64, resident(0x20, 0, 24), first=40)
    t = table({40: r, 41: r}, gap=4)
    for k in range(52):
        for flip in (1, 128, 255):
            bad = bytearray(t)
            bad[k] ^= flip
            test.put(WALK, r, bytes(bad))
    for k in range(len(t) + 1):
        test.put(WALK, r, t[:k])


def test_the_most_rows(test):
    """The most rows, all with one record, and one more; and a table of 65,536 bytes."""
    lot = record(64, resident(0x80, 1), first=40)
    for count, more in ((4096, 0), (4097, 0), (4096, 65536 - NUMBERS_BYTES - ROW_BYTES * 4096 - 64)):
        big = packed_table([(3 * n, 0) for n in range(count)], lot + bytes(more), 64, 0)
        for number in (0, 3, 3 * 4095, 3 * 4096, 1):
            test.put(WALK, record(64, first=48), big, number=number)
            r = record(64, first=48)[:38] + entry(0x80, number, 1)
            test.put(NEXT, r, big, number=7, state=State(64, Rest(True, 38, 64), NO_KEY))


def test_the_most_reads(test):
    """Entries that each search a whole record, and entries that are all passed over."""
    # a header of 16 bytes alone
    lot = record(4096, *[resident(0x80, 1, 16)[:16]] * 250, end=b"")
    for number in (41, 40):
        r = record(4096, list_of(*[entry(0x80, number, 2)] * 150))
        test.put_walk(r, table({40: r, 41: lot}))


def test_the_differences_page(test):
    """The inputs of docs/DIFFERENCES.md, our side of them."""
    end = "end left %d 0 0 0 0 0 0 - reads 0"
    # 11
    one = zero_record(72, (56, head(0x20, 16)))
    test.put_literal(one, table({40: one}), "refused 7 40 56 left 72 0 0 0 0 0 0 - reads 1", end % 72)
    one = zero_record(88, (56, head(0x20, 16)), (72, head(0x10, 16)))
    test.put_literal(
        one, table({40: one}), "refused 7 40 56 left 72 0 0 0 0 0 0 - reads 1",
        "item 40 72 16 16 1 0 rest 0 0 0 left 88 0 0 0 0 0 0 - reads 1", end % 88)
    # 12
    for runs in (64, 65):
        one = zero_record(120, (56, head(0x20, 64, False)), (56 + 32, bytes([runs])))
        test.put_literal(one, table({40: one}), "refused 13 40 56 left 120 0 0 0 0 0 0 - reads 1", end % 120)
    # 13, 14
    one = zero_record(112, (56, list_of(entry(0x80, 41, sequence=0), fill=b"\0")))
    refused = "refused %d 40 80 left 112 1 106 106 0 0 0 - reads 2"
    test.put_literal(one, table({40: one}), refused % 17, end % 112)
    # its used size is above its allocated size
    other = zero_record(112, (56, resident(0x80)), (80, END), allocated=0)
    test.put_literal(
        one, table({40: one, 41: other}), "item 41 56 128 24 1 0 rest 0 0 0 left 112 1 106 106 0 0 0 - reads 3",
        end % 112)
    test.put_literal(one, table({40: one, 41: zero_record(112, (56, END))}), refused % 18, end % 112)
    # 28, in the record that is looked up and in the base record
    stale = zero_record(112, (56, resident(0x80)), (80, END), used=79)
    test.put_literal(
        one, table({40: one, 41: stale}), "refused 28 41 56 left 112 1 106 106 0 0 0 - reads 2", end % 112)
    stale = zero_record(72, (56, head(0x10, 16)), used=71)
    test.put_literal(stale, table({40: stale}), "refused 28 40 56 left 56 0 0 0 0 0 0 - reads 0")
    # 29: one stream, whose second part has another instance; 30: two streams of one instance
    for lists, lines in (
        (((41, 0, 0), (42, 1, 1)), ("end left 136 0 0 0 1 128 0 - reads 1",)),
        (((41, 0, 0), (42, 0, 0)), (
            "item 42 56 128 72 0 0 rest 1 106 132 left 136 1 132 132 1 128 0 - reads 2",
            "end left 136 0 0 0 1 128 0 - reads 0")),
    ):
        one = list_of(*(entry(0x80, n, i, lowest=lowest, sequence=0) for n, i, lowest in lists), fill=b"\0")
        one = zero_record(136, (56, one))
        others = {
            n: zero_record(136, (56, head(0x80, 72, False, i)), (88, b"\x40"), (120, b"\x11\1\1"), (128, END))
            for n, i, _ in lists}
        test.put_literal(
            one, table({40: one, **others}),
            "item 41 56 128 72 0 0 rest 1 80 132 left 136 1 106 132 1 128 0 - reads 3", *lines)
    # 17, 18
    one = zero_record(112, (56, list_of(entry(0x80, 40, sequence=0), fill=b"\0")))
    far = 2 ** 48 + 40
    test.put_literal(
        one, table({41: one}), "refused 17 %d 80 left 112 1 106 106 0 0 0 - reads 2" % far, end % 112, number=far)
    # 15, 16
    one = zero_record(64, (56, END))
    test.put_first(one, table({40: one}), 0x11, "refused 18 40 0 reads 0")
    test.put_call(
        one, table({40: one}), State(56, Rest(True, 0, 65), NO_KEY), "refused 22 40 0 left 56 1 0 65 0 0 0 - reads 0")


# The Rust's answers, kept.

def test_the_answers_of_the_rust(test):
    """The walks and the firsts of a type of tests/rust_answers.txt, most of them by the program; one changed byte of
    them is noticed, at its case alone."""
    text = rust.kept("rust_answers.txt")
    told = rust.replayed_items(test, text)
    test.stop_at(told.different, told.cases)
    assert told.cases >= 100 and 0 < told.otherwise * 2 < told.cases
    # only answers are changed: another type of `first` would be another question
    for changed in rust.changed_answers(text, 12, ("item ", "end", "refused ", "first ")):
        assert len(rust.replayed_items(test, changed).different) == 1
    print("the Rust's answers to %d tables, %d lines, replayed" % (told.cases, told.lines))
    print("%d of them are listed otherwise by the rules" % told.otherwise)


def ended(test):
    """Each call was asked, and each refusal given."""
    test.finish(REFUSALS)


main = suite.of(Items, ended)

if __name__ == "__main__":
    main()
