"""Holds the names of files, as built, to cases that were written by hand and to the second reading of the rules, on
both sides of each line. Every question goes to the program `ask`: the name in a value, with its namespace; or the names
of a file, the first of them, and whether it has one that is sought. Fails at any difference."""
import struct

from lib import suite
from lib.building import (
    END, FIRST, PATTERN, RESIDENT_BYTES, entry, head, list_of, non_resident,
    placed_record, record, resident, table, with_used,
)
from lib.on_names import OF, OPENING, STOPPING, VALUE, OfNames, Question
from lib.reading import LIST

# the base record's number, and where its first attribute stands and ends where that has no value
OWN, AT = 40, FIRST

# the type of an attribute that has a name, where its value has the name's length and the name, and the namespaces
FILE_NAME, LENGTH, NAME = 0x30, 64, 66
POSIX, WIN32, DOS, BOTH = range(4)

NUMBER_END = 2 ** 48


def name_value(text, space=POSIX, units=None, behind=b""):
    """A value with a name of these bytes. Each of its first 64 bytes differs from its neighbours."""
    units = len(text) // 2 if units is None else units
    return PATTERN[:LENGTH] + bytes((units, space)) + text + behind


def holds(value, instance=0, ty=FILE_NAME, **more):
    """A resident attribute with a value."""
    length = -(-(RESIDENT_BYTES + len(value)) // 8) * 8
    return resident(ty, instance, length, len(value), RESIDENT_BYTES, value, **more)


def named(text, space=POSIX, instance=0, **more):
    """An attribute with a name."""
    return holds(name_value(text, space), instance, **more)


def units(text):
    """A text as UTF-16 has it, the low byte first."""
    return text.encode("utf-16-le")


def length_of(attribute):
    """How long an attribute says that it is."""
    return struct.unpack_from("<I", attribute, 4)[0]


def put(test, attributes, names, refusal=None, size=1024, absent=(), **others):
    """A base record with these attributes, and other records, whose keys are `r` and their numbers."""
    made = record(size, *attributes)
    held = table({OWN: made, **{int(key[1:]): other for key, other in others.items()}})
    test.put_literal(made, held, names, refusal, absent=absent)


def alone(text, space=POSIX, **more):
    """A record that has one name alone."""
    return record(1024, named(text, space), **more)


def sample():
    """A question of each kind of answer. rt ci runs the program on them."""
    made = record(512, named(units("a\n"), WIN32), named(units("A~1"), DOS), named(units("b"), BOTH))
    stopped = record(512, named(units("a")), head(0x80, 15))
    bare = record(512)
    return [
        Question(OF, made, table({OWN: made}), wanted=units("b")), Question(OF, made, table({OWN: made}), wanted=b""),
        Question(OF, stopped, table({OWN: stopped}), wanted=units("b")), Question(OF, bare, table({OWN: bare})),
        Question(OF, made, b""), Question(OF, with_used(made, 513), table({OWN: made}), NUMBER_END),
        Question(VALUE, name_value(units("abc"), BOTH)), Question(VALUE, name_value(b"\n\n", 200)),
        Question(VALUE, name_value(b"abcd")[:69]),
    ]


# The name in a value.

def test_examples(test):
    """Whole answers in words."""
    two = record(512, named(units("b"), WIN32), named(units("a")))
    for text, q in (
        ("both long 1 name 2 a\0", Question(VALUE, name_value(units("a"), BOTH))),
        ("dos long 0 name 0 ", Question(VALUE, name_value(b"", DOS))),
        ("other 4 long 0 name 2 a\0", Question(VALUE, name_value(units("a"), 4))),
        ("none", Question(VALUE, PATTERN[:65])),
        ("name 2 b\0\nname 2 a\0\nfirst name 2 b\0\nfound yes", Question(
            OF, two, table({OWN: two}), wanted=units("a"))),
        ("name 2 b\0\nname 2 a\0\nfirst name 2 b\0\nfound no", Question(OF, two, table({OWN: two}), wanted=units("c"))),
        ("first none\nfound no", Question(OF, record(64), table({OWN: record(64)}))),
        ("refused 2 40 0", Question(OF, record(64, magic=b"FILF"), table({OWN: record(64)}))),
        ("first none\nfound unknown refused 4 40 56", Question(
            OF, record(512, head(0x80, 15)), table({OWN: record(512)}))),
    ):
        test.put_literal_question(text, q)


def test_values(test):
    """A name has two bytes for each unit from 66 on. A value that ends before has none, and what stands behind a name
    in its value is none of it."""
    for count in (0, 1, 2, 3, 127, 128, 254, 255):
        text = bytes((k + 1) % 256 for k in range(2 * count))
        end = NAME + 2 * count
        whole = name_value(text, WIN32, behind=b"\xDD" * 9)
        for length in sorted({0, 1, 63, 64, 65, NAME, end - 2, end - 1, end, end + 1, end + 2, end + 9}):
            if length >= end:
                test.put_value(whole[:length], "win32", True, text)
            elif length < NAME or count:
                test.put_value(whole[:length])
    # the units are one byte, and what stands around it is none of it
    for count in range(256):
        made = name_value(bytes(510), POSIX, count)
        test.put_value(made, "posix", True, bytes(2 * count))
        if count:
            test.put_value(made[:NAME + 2 * count - 1])


def test_namespaces(test):
    """0, 1 and 3 are long; 2 is not, nor is any other."""
    words = {POSIX: ("posix", True), WIN32: ("win32", True), DOS: ("dos", False), BOTH: ("both", True)}
    for space in range(256):
        word, long = words.get(space, (space, False))
        test.put_value(name_value(units("a.b"), space), word, long, units("a.b"))
        test.put_value(name_value(b"", space), word, long, b"")
        # whatever the bytes around it are
        test.put_value(bytes(64) + bytes((1, space)) + b"\xFF\xFF", word, long, b"\xFF\xFF")


# The names of a file.

def test_names_in_their_order(test):
    """Each long name, in the order of the items; the same one again is told again."""
    a, b, c = units("a"), units("Bc"), units("\u00E9\u4E2D")
    for texts in ((), (a,), (b, a), (a, a), (c, b, a, b), (b"",), (a, b"", a)):
        put(test, [named(text) for text in texts], texts)
    put(test, [named(a, POSIX), named(b, WIN32), named(c, BOTH)], (a, b, c))
    for space in (DOS, 4, 128, 255):
        put(test, [named(a, space)], (), absent=(a,))
        put(test, [named(a, space), named(b, WIN32)], (b,), absent=(a,))
        put(test, [named(b, WIN32), named(a, space), named(c, BOTH)], (b, c), absent=(a,))


def test_types(test):
    """0x30 alone has names: the types beside it have not, nor have unknown ones."""
    a, b = units("a"), units("b")
    for ty in (0x10, 0x20, 0x2F, 0x31, 0x40, 0x80, 0x3000, 0x130, 0x30000030, 0):
        # a list has its own refusals
        if ty != LIST:
            put(test, [named(a, ty=ty), named(b)], (b,), absent=(a,))


def test_values_that_have_no_name(test):
    """Run bytes, a value that is refused by 7, 10 or 11, and one that ends before its name: the names go on behind."""
    a, b = units("a"), units("b")
    value = name_value(a)
    whole = -(-(RESIDENT_BYTES + len(value)) // 8) * 8
    over = RESIDENT_BYTES + len(value)
    for bad in (
        non_resident(FILE_NAME, inside=value, length=136), non_resident(FILE_NAME),
        resident(FILE_NAME, length=23, cut=True), resident(FILE_NAME, length=16, cut=True),
        resident(FILE_NAME, 0, whole, len(value), whole + 1, value),
        resident(FILE_NAME, 0, whole, len(value), over, b""),
        resident(FILE_NAME, 0, whole, whole - RESIDENT_BYTES + 1, RESIDENT_BYTES, value),
        resident(FILE_NAME, 0, whole, 2 ** 32 - 1, RESIDENT_BYTES, value),
        holds(value[:-1]), holds(value[:65]), holds(b""),
    ):
        put(test, [bad], (), absent=(a,))
        put(test, [named(b), bad, named(b, WIN32)], (b, b), absent=(a,))
    # up to its end, and up to the attribute's
    put(test, [resident(FILE_NAME, 0, whole, len(value), RESIDENT_BYTES, value)], (a,))
    put(test, [resident(FILE_NAME, 0, over, len(value), RESIDENT_BYTES, value, cut=True), named(b)], (a, b))


def test_values_where_they_stand(test):
    """The value begins where its attribute says, and not always behind the header."""
    a = units("a")
    for value_at in (24, 25, 32, 40):
        inside = bytes(value_at - RESIDENT_BYTES) + name_value(a)
        length = -(-(RESIDENT_BYTES + len(inside)) // 8) * 8
        put(test, [resident(FILE_NAME, 0, length, len(name_value(a)), value_at, inside)], (a,))


def test_names_in_other_records(test):
    """A list's items have the names that stand in the records that hold them, at the items' places there; and the
    base record's attributes and those of a list come in the walk's order."""
    a, b, c = units("a"), units("b"), units("c")
    other = record(1024, named(a, instance=3), named(b, instance=4))
    lists = list_of(entry(FILE_NAME, 41, 4), entry(FILE_NAME, 41, 3), entry(FILE_NAME, OWN, 5))
    put(test, [lists, named(c, instance=5)], (b, a, c), r41=other)
    put(test, [named(c, instance=5), lists], (c, b, a), r41=other)
    # the same place in the base record has another name
    put(test, [named(c), list_of(entry(FILE_NAME, 41, 3))], (c, a), r41=other)
    # one entry twice, and one in each of two records
    second = record(1024, resident(0x10), named(c, BOTH, 3))
    entries = [entry(FILE_NAME, number, 3) for number in (41, 42, 41)]
    put(test, [list_of(*entries)], (a, c, a), r41=other, r42=second)
    # a name that is not long, and a value that is refused, in another record
    short = record(1024, named(a, DOS, 3), resident(FILE_NAME, 4, 40, 99, 24), named(b, instance=5))
    put(test, [list_of(*(entry(FILE_NAME, 41, k) for k in (3, 4, 5)))], (b,), absent=(a,), r41=short)
    # an attribute of another type there
    put(test, [list_of(entry(0x80, 41, 3))], (), absent=(a,), r41=record(1024, named(a, instance=3, ty=0x80)))


def test_the_first_refusal_ends_them(test):
    """Whatever refuses the walk: the names in front of it stay told. A name behind it is unknown, and so is each other
    that none of those in front is."""
    a, b, c = units("a"), units("b"), units("c")
    front = [named(a)]
    at = AT + length_of(front[0])
    for number, bad in (
        (4, head(0x80, 15)), (4, head(FILE_NAME, 0)), (5, head(0x80, 1025)), (13, non_resident(LIST)),
        (7, resident(LIST, length=16, cut=True)), (10, resident(LIST, length=32, value=33)),
        (11, resident(LIST, length=32, count=9)),
    ):
        put(test, [*front, bad, named(b)], (a,), (number, OWN, at), absent=(b, c))
        put(test, [bad, named(b)], (), (number, OWN, AT), absent=(a, b))
    inside = at + RESIDENT_BYTES
    other = record(1024, named(c, instance=3))
    unknown = record(1024, head(0x11, 16), named(c, instance=3))
    for refusal, made in (
        ((14, OWN, inside), list_of(entry(FILE_NAME, 41, 3), cut=1)),
        ((15, OWN, inside), list_of(entry(FILE_NAME, 41, 3, length=25))),
        ((16, OWN, inside), list_of(entry(FILE_NAME, 41, 3, units=1), cut=1)),
        ((31, OWN, inside), list_of(entry(FILE_NAME, 41, 3, units=1, name_offset=25))),
        ((17, OWN, inside), list_of(entry(FILE_NAME, 39, 3))), ((18, OWN, inside), list_of(entry(FILE_NAME, 41, 4))),
        ((6, OWN, inside), list_of(entry(0x31, 41, 3))), ((6, 42, AT), list_of(entry(FILE_NAME, 42, 3))),
        ((2, 43, 0), list_of(entry(FILE_NAME, 43, 3))), ((27, 44, 0), list_of(entry(FILE_NAME, 44, 3))),
        ((28, 45, AT), list_of(entry(FILE_NAME, 45, 3))), ((3, 46, 1012), list_of(entry(FILE_NAME, 46, 3))),
    ):
        put(test, [*front, made, named(b)], (a,), refusal, absent=(b, c), r41=other, r42=unknown,
            r43=b"BAAD" + other[4:], r44=with_used(other, 1025), r45=with_used(other, AT + 8),
            r46=placed_record(1024, placed=((AT, head(0x80, 1012 - AT)), (1012, b"\x10\0\0\0" + bytes(8)))))
        # behind the refusal of an entry the list would go on
        put(test, [*front, list_of(entry(FILE_NAME, 39, 3), entry(FILE_NAME, 41, 3))], (a,), (17, OWN, inside),
            absent=(c,), r41=other)


def test_the_walks_end(test):
    """At the end marker, and where fewer than 4 bytes are left, nothing is unknown: a name behind is none."""
    a, b = units("a"), units("b")
    put(test, [named(a), END + bytes(4), named(b)], (a,), absent=(b,))
    made = placed_record(160, placed=((AT, named(a)),))
    assert AT + length_of(named(a)) == 152
    test.put_literal(made, table({OWN: made}), (a,), (3, OWN, 152))
    longer = resident(FILE_NAME, 0, 101, len(name_value(a)), RESIDENT_BYTES, name_value(a))
    made = placed_record(160, placed=((AT, longer),))
    test.put_literal(made, table({OWN: made}), (a,), absent=(b,))


def test_stale_tails(test):
    """28 where a name ends behind the used size: the names before it are told, and the others unknown."""
    texts = [units(text) for text in ("a", "bc", "d")]
    attributes = [named(text) for text in texts]
    ends = [AT + sum(map(length_of, attributes[:k + 1])) for k in range(3)]
    for used in range(1025):
        told = sum(end <= used for end in ends)
        made = record(1024, *attributes, used=used)
        place = AT if told == 0 else ends[told - 1]
        # the end marker is read behind the used size too
        refusal = None if told == 3 else (28, OWN, place)
        if used in {edge + k for edge in (0, *ends, 1024) for k in (-1, 0, 1)}:
            test.put_literal(made, table({OWN: made}), texts[:told], refusal, absent=texts[told:])


# The name that is sought.

def test_byte_for_byte(test):
    """Each byte counts: capitals, fronts, tails and units in another order are other names; so is half a unit."""
    whole = units("File.txt")
    others = (
        units("file.txt"), units("FILE.TXT"), units("File.tx"), units("File.txt."), units("ile.txt"), whole[:-1],
        whole + b"\0", whole + b"\0\0", b"\0" + whole, whole[::-1], b"", whole[:1], whole * 2, b"File.txt",
        "File.txt".encode("utf-16-be"))
    put(test, [named(whole)], (whole,), absent=others)
    for k in range(len(whole)):
        for bit in (1, 32, 128):
            put(test, [named(whole)], (whole,), absent=(whole[:k] + bytes((whole[k] ^ bit,)) + whole[k + 1:],))


def test_any_of_them(test):
    """Whichever of its names is sought, the first, one in between and the last; what ends in a newline too."""
    texts = [units(text) for text in ("a", "a\n", "\n", "ab", "view 3 ", "found no\n")]
    put(test, [named(text, (POSIX, WIN32, BOTH)[k % 3]) for k, text in enumerate(texts)], texts,
        absent=(units("b"), b"", b"a", units("a\n\n")))
    # a refusal changes nothing for those in front of it
    made = [named(text) for text in texts]
    at = AT + sum(map(length_of, made))
    put(test, [*made, head(0x80, 15)], texts, (4, OWN, at), absent=(units("b"), b""))


def test_the_longest(test):
    """255 units, told and sought, and names that differ in the last byte; and the empty name."""
    long = PATTERN[:510]
    near = long[:-1] + bytes((long[-1] ^ 1,))
    put(test, [named(long)], (long,), absent=(near, long[:-1], long[:-2], b""))
    put(test, [named(long), named(b"")], (long, b""), size=2048, absent=(near,))
    put(test, [named(b"")], (b"",), absent=(b"\0", b"\0\0", long))
    # no name is not the empty one
    put(test, [resident(FILE_NAME)], (), absent=(b"",))
    put(test, [named(b"", DOS)], (), absent=(b"",))


def test_many_names(test):
    """As many as there is room for, in the base record and in others."""
    count = (4096 - AT - 4) // length_of(named(b""))
    put(test, [named(b"")] * count, (b"",) * count, size=4096, absent=(units("a"),))
    others = {"r%d" % n: record(4096, *(named(units("%d %d" % (n, k)), instance=k) for k in range(30)))
        for n in range(41, 46)}
    entries = [entry(FILE_NAME, n, k) for n in (45, 41, 43) for k in (29, 0, 7)]
    told = [units("%d %d" % (n, k)) for n in (45, 41, 43) for k in (29, 0, 7)]
    put(test, [list_of(*entries)], told, size=4096, absent=(units("45 28"), units("42 0")), **others)


def test_opening(test):
    """21, 1, 2 and 27 of the file, and nothing else is told."""
    made = record(512, named(units("a")))
    held = table({OWN: made})
    test.put_refused(made, held[:19], (21, 0, 0))
    test.put_refused(made, b"", (21, 0, 0))
    test.put_refused(made[:504], held, (1, OWN, 0))
    test.put_refused(made + bytes(8), held, (1, OWN, 0))
    test.put_refused(b"FILF" + made[4:], held, (2, OWN, 0))
    test.put_refused(with_used(made, 513), held, (27, OWN, 0))
    test.put_refused(b"BAAD" + with_used(made, 513)[4:], held, (2, NUMBER_END, 0), NUMBER_END)
    # the number lent is the base record's, whatever the table has
    test.put_literal(made, held, (units("a"),), number=NUMBER_END)


def ended(test):
    """Each refusal was given, and each answer to what was sought."""
    test.finish((*OPENING, *STOPPING))
    assert all(test.found.values()), test.found


main = suite.of(OfNames, ended)

if __name__ == "__main__":
    main()
