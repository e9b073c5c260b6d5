"""The tables of tests/cases, made by hand, each with lines that its listing must have by the rules, counted by hand.

tests/make_cases writes the folder from here; tests/cases.py holds the folder to it and the program to the folder.
"""
import re
import struct
from typing import NamedTuple

from lib import building
from lib.building import END, FILE, entry, head, list_of, record, table
from lib.damaging import damaged, with_other_used
from lib.random_runs import in_table
from lib.random_tables import OTHER_USED, Streams, chained_table, hurt_outside, large_table, random_table

BASE, OTHER, THIRD, FOURTH = 40, 41, 42, 43
MOST = 65536
NUMBER_MOST = 2 ** 48 - 1
FIELD_MOST = 2 ** 64 - 1


class Case(NamedTuple):
    """`last` is the listing's last line, `has` are lines that it must have, in this order, and where it is `whole` it
    has no others; all are written by hand."""

    name: str
    text: bytes
    about: str
    last: str
    has: tuple = ()
    whole: bool = False


# Real volumes whose tables stand in tests/cases; those of tests/volumes are listed too, and stay where they are.
VOLUMES = (
    "fragA-0064", "fragA-0084", "fragA-0142", "joinA-0064", "joinA-0072", "joinA-0115", "joinA-0173", "joinA-0181",
    "joinA-0193", "joinA-0197", "linksA-0005", "linksA-0075", "linksA-0137", "plainA-0000", "plainA-0003",
    "plainA-0009", "plainA-0069", "plainA-0072", "sparse4k-0067", "sparse4k-0072", "sparse4k-0078", "streamsA-0078",
    "streamsA-0093", "streamsA-0102",)
OTHERS = (
    "fragA-0066", "fragA-0180", "joinA-0069", "joinA-0131", "joinA-0151", "joinA-0188", "linksA-0064", "linksA-0116",
    "linksA-0135", "plainA-0005", "sparse4k-0064", "sparse4k-0069", "sparse4k-0077", "streamsA-0067", "streamsA-0069",
    "streamsA-0073", "streamsA-0082", "streamsA-0095",)


def stream(instance=1, length=64, runs=64, lowest=0, size=4000, ty=0x80, units=0, name=0):
    """A non-resident attribute. What does not fit into its length is left off. Its run bytes, where it has some, are
    11 11 11 and so on: runs of 17 clusters, each 17 behind the start of the last one."""
    return building.non_resident(
        ty, instance, length, lowest, runs, size=size, fill=b"\x11", cut=True, units=units, name=name)


def running(text, instance=1, **more):
    """A non-resident attribute with these run bytes, in hex."""
    inside = bytes.fromhex(text)
    return building.non_resident(0x80, instance, 64 + len(inside), inside=inside, **more)


def plain(instance=0, length=24, count=0, value=24, ty=0x10, units=0, name=0):
    """A resident attribute with a name."""
    return building.resident(ty, instance, length, count, value, cut=True, units=units, name=name)


def bare(ty, length, instance=0, is_resident=True):
    """An attribute header with a length of its own, 16 bytes and no more."""
    return head(ty, length, is_resident, instance)


def of(*attributes, size=256, others=(), **more):
    """A table of the base record 40 with these attributes; `others` are the attributes of 41, 42, 43."""
    records = {BASE: record(size, *attributes, **more)}
    for k, held in enumerate(others):
        records[OTHER + k] = held if isinstance(held, bytes) else record(size, *held)
    return table(records, BASE)


def to(file=OTHER, instance=1, ty=0x80, **more):
    return entry(ty, file, instance, **more)


def later(file=None, instance=1, ty=0x80, lowest=1, **more):
    """An entry that continues those of no name; it names the third record unless told otherwise."""
    return to(THIRD if file is None else file, instance, ty, lowest=lowest, **more)


WHOLE = struct.pack("<5IQI", 1, 128, 20, 32, 0, 40, 32) + b"".join((
    b"FILE", bytes(12), struct.pack("<HHHHII", 1, 1, 56, 1, 116, 128), bytes(24),
    struct.pack("<IIBBHHHIHH", 16, 32, 0, 0, 0, 0, 0, 8, 24, 0), bytes(range(1, 9)),
    struct.pack("<IIBBHHHIHH", 128, 24, 0, 0, 0, 0, 1, 0, 24, 0), b"\xFF" * 4, bytes(12)))
WHOLE_LISTING = (
    "record 40 size 128\n"
    "attr 40 56 16 32 0 name 0 0 value resident 80 8\n"
    "attr 40 88 128 24 1 name 0 0 value resident 112 0\n"
    "end reads 2\n")

REFUSED = "table refused 21"
HEADER = "record 40 size 256"
# the line of an ordinary attribute in front, which shows that a listing went on or had begun
FRONT = plain(0)
FRONT_LINE = "attr 40 56 16 24 0 name 0 0 value resident 80 0"


def tables():
    """The lent table, and the input's length."""
    yield Case("empty", b"", "no byte", REFUSED)
    yield Case("header-19", of(FRONT)[:19], "under 20 bytes", REFUSED)
    yield Case("header-20", struct.pack("<5I", 0, 64, 20, 20, 0), "20 bytes, no rows, and so no base row", REFUSED)
    r = record(64, first=56)
    good = [2, 64, 20, 44, 0, (40, 44), (41, 108)]

    def changed(k, value):
        text = list(good)
        text[k] = value
        return struct.pack("<5I", *text[:5]) + b"".join(struct.pack("<QI", *row) for row in text[5:]) + r + r

    yield Case(
        "good-64", changed(0, 2), "the smallest records; each table below has one fault more", "end reads 0",
        ("record 40 size 64",))
    for name, k, value, about in (
        ("directory-end", 2, 21, "directory end past the records offset"),
        ("records-end", 3, 173, "records offset past the table"), ("base-above", 4, 3, "base row above count"),
        ("row-first", 5, (2 ** 48, 44), "a row's number at 2^48, and so above the next"),
        ("row-equal", 6, (40, 108), "a row's number equal to the row before"),
        ("row-below", 6, (39, 108), "a row's number under the row before"),
        ("row-2-48", 6, (2 ** 48, 108), "the last row's number at 2^48"),
        ("row-under", 5, (40, 43), "a record before the records offset"),
        ("row-past", 6, (41, 109), "a record past the table's end by one"),
        ("no-base-row", 4, 2, "base row equal to count: none")):
        yield Case(name, changed(k, value), about, REFUSED)
    yield Case(
        "row-2-48-less-1", changed(6, (NUMBER_MOST, 108)), "the last row's number just under 2^48", "end reads 0",
        ("record 40 size 64",))
    yield Case("base-last", changed(4, 1), "the last row is the base", "end reads 0", ("record 41 size 64",))


def table_limits():
    """The largest and the smallest of what a table tells."""
    # these have one fault alone: there is room for the record, and the row at 19 is whole, its first byte the base
    # row's last
    for size, about in ((56, "under 64"), (68, "no multiple of 8"), (4104, "over 4,096")):
        yield Case(
            "size-%d" % size, struct.pack("<5IQI", 1, size, 20, 32, 0, 40, 32) + record(4096).ljust(4104, b"\0"),
            "record size %s" % about, REFUSED)
    for at, last in ((19, REFUSED), (20, "end reads 0")):
        text = struct.pack("<5I", 1, 64, at, 32, 0)[:at] + struct.pack("<QI", 256, 32)
        yield Case(
            "directory-%d" % at, text.ljust(32, b"\0") + record(64, first=56), "directory offset %d" % at, last)
    most = record(4096, FRONT, stream(2, 4000, 96, size=7))
    yield Case("size-4096", table({BASE: most}), "the largest records", "end reads 2", (
        "record 40 size 4096", "attr 40 80 128 4000 2 name 0 0 value runs 176 3904 size 7",
        # 1,301 runs in 3,904 bytes, and one byte
        "run 17 17", "run 22100 17", "run 22117 17", "run refused 24"))
    # rows may lie over each other: all have one record
    for count, last in ((4096, "end reads 1"), (4097, REFUSED)):
        at = 20 + 12 * count
        rows = b"".join(struct.pack("<QI", 3 * n, at) for n in range(count))
        yield Case(
            "rows-%d" % count,
            struct.pack("<5I", count, 64, 20, at, count - 1) + rows + record(64, plain(7, 16), first=40),
            "%s rows, the last one the base" % format(count, ","), last)
    end = of(FRONT, size=4096)
    end = end.ljust(MOST, b"\0")
    yield Case("length-65536", end, "the longest input", "end reads 1", ("record 40 size 4096", FRONT_LINE))
    yield Case("length-65537", end + b"\0", "one byte more than the longest input", REFUSED)


def walks():
    """The walk's refusals, in the base record and in a record looked up."""
    yield Case("whole", WHOLE, "the whole case of the rules", "end reads 2", tuple(WHOLE_LISTING.split("\n")[:3]))
    yield Case("base-not-file", of(FRONT, magic=b"BAAD"), "the base record is not FILE", "stopped 2 reads 0", (HEADER,))
    yield Case("none", of(), "no attribute", "end reads 0", (HEADER,))
    yield Case(
        "first-past", of(FRONT, first=56)[:32 + 20] + b"\xFD\0" + of(FRONT)[32 + 22:],
        "3 bytes left at the first attribute offset", "end reads 0", (HEADER,))
    yield Case(
        "first-0", of(FRONT)[:32 + 20] + b"\0\0" + of(FRONT)[32 + 22:], "the word FILE is taken for a type",
        "stopped 5 reads 0", (HEADER,))


def used_sizes():
    """27 and 28 of the base record, each beside a table that lacks it, and what comes before them or behind."""
    second = "attr 40 80 16 24 1 name 0 0 value resident 104 0"
    for used, last in ((256, "end reads 2"), (257, "stopped 27 reads 0"), (2 ** 32 - 1, "stopped 27 reads 0")):
        yield Case(
            "used-%d" % used, of(FRONT, plain(1), used=used), "a record of 256 bytes, used size %d" % used, last,
            (HEADER, FRONT_LINE, second) if used == 256 else (HEADER,), whole=True)
    # the two attributes end at 80 and at 104, and the end marker at 108
    for used, last, lines in (
        (104, "end reads 2", (FRONT_LINE, second)), (103, "stopped 28 reads 1", (FRONT_LINE,)),
        (80, "stopped 28 reads 1", (FRONT_LINE,)), (79, "stopped 28 reads 0", ()), (0, "stopped 28 reads 0", ())):
        yield Case(
            "used-%d" % used, of(FRONT, plain(1), used=used), "attributes that end at 80 and 104, used size %d" % used,
            last, (HEADER, *lines), whole=True)
    yield Case("used-0-none", of(used=0), "the end marker behind the used size", "end reads 0", (HEADER,), whole=True)
    yield Case(
        "used-0-left-3", of(first=253, used=0), "3 bytes left, behind the used size: the end", "end reads 0", (HEADER,),
        whole=True)
    yield Case(
        "used-above-allocated", of(FRONT, used=256, allocated=8), "the allocated size is not compared", "end reads 1",
        LOOKUP, whole=True)
    yield Case(
        "used-257-not-file", of(FRONT, magic=b"BAAD", used=257), "2 before 27", "stopped 2 reads 0", (HEADER,),
        whole=True)
    yield Case(
        "used-257-list", of(list_of(to(BASE), cut=1), used=257), "27 before all that the walk refuses by",
        "stopped 27 reads 0", (HEADER,), whole=True)
    for number, about, attributes in (
        (3, "8 bytes left", [plain(1, 168), b"\x10\0\0\0" * 2]), (4, "length 15", [bare(0x10, 15)]),
        (5, "one byte more than is left", [bare(0x10, 177)])):
        given = len(attributes) - 1
        end = 80 + (168 if given else 0)
        yield Case(
            "used-before-%d" % number, of(FRONT, *attributes, used=end, end=END if number != 3 else b""),
            "%d before 28: %s" % (number, about), "stopped %d reads %d" % (number, 1 + given), LOOKUP)
    yield Case(
        "used-list", of(FRONT, LISTED, AFTER, used=135, others=[[stream()]]), "a stale list is not opened",
        "stopped 28 reads 1", LOOKUP, whole=True)
    yield Case(
        "used-list-bad", of(FRONT, stream(9, ty=0x20), used=143), "28 before 13", "stopped 28 reads 1", LOOKUP,
        whole=True)
    yield Case(
        "used-unknown", of(FRONT, plain(1, ty=0x11), used=103), "a stale attribute of unknown type is no item",
        "stopped 28 reads 1", LOOKUP, whole=True)


def used_sizes_looked_up():
    """27 and 28 in a record looked up: by the walk, and by parts."""
    # 41 holds an attribute up to 80 and the stream up to 144
    held = [plain(), stream()]
    found = ("attr 41 80 128 64 1 name 0 0 value parts 1 size 4000", "part 41 80 0 144 0")
    behind = "attr 40 112 16 24 5 name 0 0 value resident 136 0"
    for used, last, lines in (
        (256, "end reads 8", (*found, behind)), (144, "end reads 8", (*found, behind)),
        (143, "stopped 28 reads 3", ()), (80, "stopped 28 reads 3", ()), (79, "stopped 28 reads 2", ()),
        (257, "stopped 27 reads 2", ()), (2 ** 32 - 1, "stopped 27 reads 2", ())):
        yield Case(
            "used-%d-lookup" % used, of(list_of(to()), AFTER, others=[record(256, *held, used=used)]),
            "in a record looked up: attributes that end at 80 and 144, used size %d" % used, last, (HEADER, *lines),
            whole=True)
    yield Case(
        "used-257-not-file-lookup", of(list_of(to()), others=[record(256, *held, magic=b"FILF", used=257)]),
        "2 before 27 in a record looked up", "stopped 2 reads 2", (HEADER,), whole=True)
    # an attribute of unknown type, from 80 to 104
    unknown = [plain(), plain(1, ty=0x81), stream()]
    for used, last in ((104, "stopped 6 reads 4"), (103, "stopped 28 reads 3")):
        yield Case(
            "used-%d-unknown-lookup" % used, of(list_of(to()), others=[record(256, *unknown, used=used)]),
            "28 before 6 in a search, and no read" if used == 103 else "6 where its attribute ends with the used size",
            last, (HEADER,), whole=True)
    yield Case(
        "used-stale-stream", of(list_of(to()), AFTER, others=[record(256, plain(), stream(), stream(2), used=144)]),
        "an item in front of a stale tail", "end reads 8", (HEADER, *found, behind), whole=True)
    # a base record's own part that is stale: the walk passes its entry over
    yield Case(
        "used-base-part", of(list_of(to(), later(BASE)), plain(5), stream(), used=160, others=[[stream()]]),
        "the base record's own part is stale, in the parts and in the walk", "stopped 28 reads 10",
        (HEADER, LINE + "1 refused 28", GOOD, "attr 40 136 16 24 5 name 0 0 value resident 160 0"), whole=True)


# 24 for FRONT and 56 for the list: it stands at 80, its entry at 104, the next attribute at 136
LISTED = list_of(to())
LOOKUP = (HEADER, FRONT_LINE)


def walks_cut():
    """2, 3, 4 and 5, in the base record and in one looked up."""
    yield Case(
        "stopped-2-lookup", of(FRONT, LISTED, others=[record(256, stream(), magic=b"FILF")]), "2 in a record looked up",
        "stopped 2 reads 3", LOOKUP)
    # 64 bytes, one attribute of 16 at 44, 4 bytes left: type 16 and no room for a header
    yield Case(
        "stopped-3", of(plain(3, 16), first=44, size=64, end=b"\x10\0\0\0"), "4 bytes left, no marker",
        "stopped 3 reads 1", ("record 40 size 64", "attr 40 44 16 16 3 name 0 0 value refused 7"))
    yield Case("left-3", of(plain(3, 17), first=44, size=64, end=b""), "3 bytes left: the end", "end reads 1")
    for length, last in ((16, "end reads 1"), (17, "stopped 5 reads 0")):
        yield Case(
            "left-16-length-%d" % length, of(bare(0x10, length), first=48, size=64, end=b""),
            "16 bytes left, length %d" % length, last)
    fill = plain(0, 192, ty=0x30)
    yield Case(
        "stopped-3-lookup", of(FRONT, LISTED, others=[record(256, fill, end=b"\x80\0\0\0")]), "3 in a record looked up",
        "stopped 3 reads 4", LOOKUP)
    yield Case("stopped-4", of(FRONT, bare(0x10, 15)), "length 15", "stopped 4 reads 1", LOOKUP)
    yield Case(
        "stopped-4-lookup", of(FRONT, LISTED, others=[[plain(), bare(0x80, 15, 1)]]), "4 in a record looked up",
        "stopped 4 reads 4", LOOKUP)
    yield Case("stopped-5", of(FRONT, bare(0x10, 177)), "length 177 with 176 bytes left", "stopped 5 reads 1", LOOKUP)
    yield Case("length-176", of(FRONT, bare(0x10, 176)), "length 176 with 176 bytes left", "end reads 2", LOOKUP)
    yield Case(
        "stopped-5-lookup", of(FRONT, LISTED, others=[[bare(0x80, 201, 1)]]), "5 in a record looked up",
        "stopped 5 reads 3", LOOKUP)


def walks_to_unknown_types():
    """6, and what is known and never found."""
    yield Case(
        "stopped-6", of(FRONT, list_of(to(BASE, ty=0x88))), "an entry of unknown type, though it names the base record",
        "stopped 6 reads 3", LOOKUP)
    yield Case(
        "stopped-6-lookup", of(FRONT, LISTED, others=[[plain(), plain(1, ty=0x81), stream()]]),
        "an attribute of unknown type before the one sought", "stopped 6 reads 5", LOOKUP)
    for ty in (0, 0x110):
        yield Case(
            "stopped-6-%d" % ty, of(FRONT, list_of(to(ty=ty)), others=[[stream(ty=ty)]]), "type %d is unknown" % ty,
            "stopped 6 reads 3", LOOKUP)
    yield Case(
        "stopped-18-marker", of(FRONT, list_of(to(ty=0xFFFFFFFF)), others=[[plain(), END]]),
        "the marker's type is known, and never found", "stopped 18 reads 4", LOOKUP)


def walks_to_lists():
    """A list that can't be opened."""
    yield Case("stopped-7", of(FRONT, plain(9, 23, ty=0x20)), "a list of 23 bytes", "stopped 7 reads 2", LOOKUP)
    yield Case(
        "stopped-7-runs", of(FRONT, stream(9, 63, ty=0x20)), "a non-resident list of 63 bytes: 7 before 13",
        "stopped 7 reads 2", LOOKUP)
    yield Case(
        "stopped-10", of(FRONT, plain(9, 24, 0, 25, ty=0x20)), "a list's value offset past its length",
        "stopped 10 reads 2", LOOKUP)
    yield Case(
        "stopped-11", of(FRONT, plain(9, 56, 33, 24, ty=0x20)), "a list's value end past its length",
        "stopped 11 reads 2", LOOKUP)
    yield Case(
        "stopped-11-most", of(FRONT, plain(9, 56, 0xFFFFFFFF, 24, ty=0x20)), "the end above 2^32 - 1",
        "stopped 11 reads 2", LOOKUP)
    yield Case("stopped-13", of(FRONT, stream(9, ty=0x20)), "a list that is not resident", "stopped 13 reads 2", LOOKUP)
    yield Case(
        "stopped-13-runs", of(FRONT, stream(9, 64, 65, ty=0x20)), "13 without 12: its runs offset is past its length",
        "stopped 13 reads 2", LOOKUP)


def walks_along_lists():
    """A list's entries, and what they lead to."""
    yield Case(
        "stopped-14", of(FRONT, list_of(to(BASE), to(BASE), cut=1)), "25 bytes left of a list", "stopped 14 reads 3",
        LOOKUP)
    yield Case(
        "stopped-15", of(FRONT, list_of(to(BASE), to(length=27, units=1, name=b"n"))),
        "entry length 27 with one name unit", "stopped 15 reads 3", LOOKUP)
    yield Case(
        "stopped-16", of(FRONT, list_of(to(BASE), to(units=1), cut=2)), "an entry's name is cut", "stopped 16 reads 3",
        LOOKUP)
    yield Case(
        "entry-longer", of(FRONT, list_of(to(length=40), cut=8), plain(2)),
        "an entry longer than what is left: the list ends", "end reads 3",
        (*LOOKUP, "attr 40 144 16 24 2 name 0 0 value resident 168 0"))
    yield Case("stopped-17", of(FRONT, LISTED), "a record that the table lacks", "stopped 17 reads 3", LOOKUP)
    yield Case(
        "stopped-18", of(FRONT, LISTED, others=[[plain(), stream(2), stream(1, ty=0x90)]]),
        "type and instance agree in no attribute", "stopped 18 reads 6", LOOKUP)
    yield Case("list-empty", of(FRONT, list_of(), plain(2)), "an empty list", "end reads 3", LOOKUP)
    yield Case(
        "list-two", of(list_of(to()), list_of(later()), plain(2), others=[[stream()], [stream()]]),
        "the skip key outlives a list: the second entry is passed over", "end reads 8",
        (
            "attr 41 56 128 64 1 name 0 0 value parts 1 size 4000", "part 41 56 0 120 0",
            "attr 40 168 16 24 2 name 0 0 value resident 192 0"))
    yield Case(
        "list-two-anew", of(list_of(to()), list_of(to(THIRD)), plain(2), others=[[stream()], [stream()]]),
        "the second list's entry is from VCN 0 on: an item of its own", "end reads 11",
        (
            HEADER, LINE + "1 size 4000", GOOD, "attr 42 56 128 64 1 name 0 0 value parts 1 size 4000",
            "part 42 56 0 120 0", "attr 40 168 16 24 2 name 0 0 value resident 192 0"), whole=True)
    yield Case(
        "list-key-cleared",
        of(list_of(to(), to(instance=2), later()), others=[[stream(), plain(2, ty=0x80)], [stream()]]),
        "a resident item between: the key is cleared, and the stream is an item again", "end reads 13",
        ("attr 41 120 128 24 2 name 0 0 value resident 144 0", "attr 42 56 128 64 1 name 0 0 value parts 1 size 4000"))


# an attribute behind others, which shows that the walk went on
AFTER = plain(5)


def after(entries):
    """The line of AFTER behind a list of these entries, the first attribute of its record."""
    at = 56 + len(list_of(*entries))
    return "attr 40 %d 16 24 5 name 0 0 value resident %d 0" % (at, at + 24)


def walks_to_names_of_entries():
    """31, and 16 at the name's own place."""
    yield Case(
        "stopped-31", of(list_of(to(BASE, units=1, name_offset=25)), size=112, end=b""),
        "a name over its entry's header by a byte", "stopped 31 reads 1", ("record 40 size 112",), whole=True)
    for name, number, about, last, cut in (
        ("31-front", 31, "a name at its entry's front", to(units=1, name_offset=0), 0),
        ("31-past", 31, "a name that ends a byte past its entry", to(units=1, length=29, name_offset=28), 0),
        ("31-before-16", 31, "31 before 16: a name past its entry and past the list",
         to(units=1, length=28, name_offset=27), 3),
        ("15-before-31", 15, "15 before 31: entry length 27 with one name unit at 25",
         to(units=1, length=27, name_offset=25), 0),
        ("16-offset", 16, "a name that ends a byte past the list, where it would be all there at 26",
         to(units=1, name_offset=40), 1)):
        yield Case(
            "stopped-" + name, of(FRONT, list_of(to(BASE), last, cut=cut)), about, "stopped %d reads 3" % number,
            LOOKUP, whole=True)
    yield Case(
        "entry-longer-named", of(FRONT, list_of(to(units=1, length=40, name_offset=30), cut=8), plain(2)),
        "an entry longer than what is left, its name ends there: the list ends", "end reads 3",
        (*LOOKUP, "attr 40 144 16 24 2 name 0 0 value resident 168 0"), whole=True)
    for name, about, entries in (
        ("name-at-end", "a name that ends with its entry and the list", [to(units=1, name_offset=40)]),
        ("offset-0", "no name, at 0", [to(name_offset=0)]), ("offset-255", "no name, at 255", [to(name_offset=255)])):
        # the list 1, entry and attribute 2, and the same for its part; the attribute behind it
        yield Case(
            "entry-" + name, of(list_of(*entries), AFTER, others=[[stream()]]), about, "end reads 6",
            (HEADER, LINE + "1 size 4000", GOOD, after(entries)), whole=True)


def one(name, attribute, about, ended, *under, **more):
    """A case of an attribute at 56, with these lines under its own, and one behind it."""
    at = 56 + len(attribute)
    a = struct.unpack_from("<IIBBHHH", attribute)
    return Case(
        name, of(attribute, AFTER, **more), about, "end reads 2",
        (
            HEADER, "attr 40 56 %d %d %d %s" % (a[0], a[1], a[6], ended), *under,
            "attr 40 %d 16 24 5 name 0 0 value resident %d 0" % (at, at + 24)), whole=True)


def names():
    """Names; the walk goes on behind their refusals."""
    yield one(
        "name", plain(1, 32, 0, 32, units=4, name=24), "a name that ends with its attribute; an empty value there",
        "name 80 8 value resident 88 0")
    yield one("name-0", plain(1, units=255), "name offset 0: empty", "name 0 0 value resident 80 0")
    yield one("name-units-0", plain(1, name=0xFFFF), "no name units: empty", "name 0 0 value resident 80 0")
    yield one(
        "name-8", plain(1, 32, units=1, name=32), "name offset at the length", "name refused 8 value resident 80 0")
    yield one(
        "name-9", plain(1, 32, units=5, name=24), "name end past the length", "name refused 9 value resident 80 0")
    yield one(
        "name-9-odd", plain(1, 32, units=1, name=31), "half of a name's unit is inside",
        "name refused 9 value resident 80 0")
    yield one(
        "name-over", plain(1, 32, units=8, name=1), "a name over the attribute's own header",
        "name 57 16 value resident 80 0")


def values():
    """Values; the walk goes on behind their refusals."""
    yield one("value-7-16", plain(1, 16), "16 bytes, resident", "name 0 0 value refused 7")
    yield one("value-7-23", plain(1, 23), "23 bytes, resident", "name 0 0 value refused 7")
    yield one("value-7-63", stream(1, 63), "63 bytes, non-resident", "name 0 0 value refused 7")
    yield one("value-10", plain(1, 32, 0, 33), "value offset past the length", "name 0 0 value refused 10")
    yield one("value-at-end", plain(1, 32, 0, 32), "an empty value at the length", "name 0 0 value resident 88 0")
    yield one("value-11", plain(1, 32, 9, 24), "value end past the length", "name 0 0 value refused 11")
    yield one("value-11-most", plain(1, 32, 0xFFFFFFFF, 24), "value end above 2^32 - 1", "name 0 0 value refused 11")
    yield one(
        "value-over", plain(1, 32, 32, 0), "a value over the attribute's own header", "name 0 0 value resident 56 32")
    yield one("value-12", stream(1, 64, 65), "runs offset past the length", "name 0 0 value refused 12")
    yield one("value-runs-0", stream(1, 64, 64), "no runs", "name 0 0 value runs 120 0 size 4000")
    yield one(
        "value-runs", stream(1, 72, 64, size=0), "runs of 8 bytes", "name 0 0 value runs 120 8 size 0",
        "run 17 17", "run 34 17", "run refused 24")
    yield one(
        "both-refused", stream(1, 64, 0xFFFF, units=1, name=0xFFFF), "name and value refused",
        "name refused 8 value refused 12")
    yield one("type-unknown", plain(1, ty=0x11), "an item of unknown type", "name 0 0 value resident 80 0")


def looked_up():
    """Names and values in a record looked up."""
    for number, attribute in (
        (7, plain(1, 16, ty=0x80)), (10, plain(1, 32, 0, 33, ty=0x80)), (11, plain(1, 32, 9, 24, ty=0x80))):
        yield Case(
            "value-%d-lookup" % number, of(list_of(to()), AFTER, others=[[plain(), attribute]]),
            "%d in a record looked up" % number, "end reads 5",
            (
                "attr 41 80 128 %d 1 name 0 0 value refused %d" % (len(attribute), number),
                "attr 40 112 16 24 5 name 0 0 value resident 136 0"))
    for number, name in ((8, 64), (9, 63)):
        yield Case(
            "name-%d-lookup" % number, of(list_of(to()), AFTER, others=[[stream(units=1, name=name)]]),
            "%d in a record looked up" % number, "end reads 6",
            ("attr 41 56 128 64 1 name refused %d value parts 1 size 4000" % number, "part 41 56 0 120 0"))


# reads: the list 1, entry and attribute 2; parts: entry and attribute 2, then what is said below; then the list's other
# entries are passed over, 1 each, and the attribute behind it is 1
BEHIND = ("attr 40 136 16 24 5 name 0 0 value resident 160 0",)
TWO = [to(), later()]

# run bytes: a run of 5 clusters from 10 on; and how runs end that are refused, by its number
RUN = "11 05 0A"
BAD = {23: "10 01", 24: "11 01", 25: "11 00 01", 26: "11 01 80"}


def with_runs(name, text, about, *under):
    """A case of a value with these run bytes."""
    count = len(bytes.fromhex(text))
    return one(name, running(text), about, "name 0 0 value runs 120 %d size 4000" % count, *under)


def runs():
    """The runs of a value, and what refuses them; the walk goes on behind that."""
    yield with_runs(
        "runs-hole", RUN + "01 08 11 03 02 00 11 01 01", "a hole leaves the last start; a zero ends the runs",
        "run 10 5", "hole 8", "run 12 3")
    yield with_runs(
        "runs-no-hole", RUN + "11 03 00 11 02 F6", "a distance of 0 that takes a byte is no hole; one below 0",
        "run 10 5", "run 10 3", "run 0 2")
    yield with_runs("runs-none", "00" + RUN, "a zero in front of the first run: none")
    for number, bad in BAD.items():
        yield with_runs("runs-0-refused-%d" % number, bad, "%d in the first run" % number, "run refused %d" % number)
        yield with_runs(
            "runs-2-refused-%d" % number, RUN + "01 08" + bad, "%d behind a run and a hole" % number, "run 10 5",
            "hole 8", "run refused %d" % number)


# the most that a start, and the sum of lengths, may be, and the same in the bytes of a run
RUN_MOST, RUN_MOST_BYTES = 2 ** 63 - 1, "FF FF FF FF FF FF FF 7F"


def runs_of_any_size():
    """The largest numbers of a run, and one above."""
    most = "run %d %d" % (RUN_MOST, RUN_MOST)
    yield with_runs(
        "runs-most", "88" + RUN_MOST_BYTES + RUN_MOST_BYTES, "the longest line of a run", most)
    yield with_runs("runs-most-hole", "08" + RUN_MOST_BYTES, "the longest line of a hole", "hole %d" % RUN_MOST)
    yield with_runs(
        "runs-sum", "88" + RUN_MOST_BYTES + RUN_MOST_BYTES + "01 01", "a hole more than the lengths may be together",
        most, "run refused 26")
    yield with_runs(
        "runs-start", "81 05" + RUN_MOST_BYTES + "11 01 01", "a start above the largest", "run %d 5" % RUN_MOST,
        "run refused 26")


def ran(name, about, reads, first, second, ended, *under, list_of_two=TWO):
    """A case of an item whose first part is in 41 and whose next entry leads to 42; nothing but these lines, and
    an attribute behind the list."""
    return Case(
        name, of(list_of(*list_of_two), AFTER, others=[[running(first)], second]), about, "end reads %d" % reads,
        (HEADER, "attr 41 56 128 %d 1 name 0 0 value parts %s" % (64 + len(bytes.fromhex(first)), ended), *under,
         *BEHIND), whole=True)


def runs_of_parts():
    """The runs of parts: each part begins anew, whatever came before it."""
    # 42 has an attribute in front of the part, which is one read more
    both = "2 size 4000"
    for number, bad in BAD.items():
        yield ran(
            "runs-parts-refused-%d" % number, "%d in the first part's runs; those of the second begin anew" % number,
            10, RUN + bad, [plain(), running("11 03 02")], both, "part 41 56 0 120 %d" % len(bytes.fromhex(RUN + bad)),
            "run 10 5", "run refused %d" % number, "part 42 80 0 144 3", "run 2 3")
    yield ran(
        "runs-parts-anew", "neither the last start nor the sum goes on in the next part", 10, "81 05" + RUN_MOST_BYTES,
        [plain(), running("08" + RUN_MOST_BYTES + "00")], both, "part 41 56 0 120 10", "run %d 5" % RUN_MOST,
        "part 42 80 0 144 10", "hole %d" % RUN_MOST)
    yield ran(
        "runs-parts-19", "the second part is refused; the first one's runs are listed", 9, RUN + "01 08",
        [plain(1, ty=0x80)], "1 refused 19", "part 41 56 0 120 5", "run 10 5", "hole 8")
    yield ran(
        "runs-parts-both", "the first one's runs are refused, and then the second part", 9, RUN + BAD[25],
        [plain(1, ty=0x80)], "1 refused 19", "part 41 56 0 120 6", "run 10 5", "run refused 25")
    # the record of 42 is read nowhere
    yield ran(
        "runs-parts-again", "two parts of one attribute: its runs twice", 9, RUN, [plain()], both,
        "part 41 56 0 120 3", "run 10 5", "part 41 56 0 120 3", "run 10 5", list_of_two=[to(), later(OTHER)])
    yield Case(
        "runs-base", of(
            list_of(to(), later(BASE)), running("11 06 07"), others=[[running("01 04")]]),
        "a part in the base record has its runs there", "end reads 10",
        (
            HEADER, "attr 41 56 128 66 1 name 0 0 value parts 2 size 4000", "part 41 56 0 120 2", "hole 4",
            "part 40 136 0 200 3", "run 7 6", "attr 40 136 128 67 1 name 0 0 value runs 200 3 size 4000", "run 7 6"),
        whole=True)


# the first part in 41, and the line of its item but for how it ends
GOOD, LINE = "part 41 56 0 120 0", "attr 41 56 128 64 1 name 0 0 value parts "


def refused(number, name, about, last, entries, *others, cut=0, first=stream(), count=1, more=()):
    """A case of a first part in 41, or none, then one that refuses; where the walk goes on there is an attribute behind
    the list."""
    held = ["attr 41 56 128 %d 1 name 0 0 value parts %d refused %d" % (len(first), count, number)] + [GOOD] * count
    return Case(
        "parts-%d-refused-%s" % (count, name), of(list_of(*entries, cut=cut), AFTER, others=[[first], *others]), about,
        last, (*held, *more))


def parts():
    """The parts of a non-resident item found by an entry."""
    yield Case(
        "parts-1", of(list_of(to()), plain(5), others=[[stream()]]), "one part still has the parts form", "end reads 6",
        (LINE + "1 size 4000", GOOD))
    second = [plain(2, ty=0x80), stream(lowest=5, size=2)]
    yield Case(
        "parts-2", of(list_of(to(), later(lowest=5), to(THIRD, 2)), others=[[stream(size=1)], second]),
        "the size is the first part's; the third entry is from VCN 0 on", "end reads 12",
        (LINE + "2 size 1", GOOD, "part 42 80 5 144 0", "attr 42 56 128 24 2 name 0 0 value resident 80 0"))
    yield Case(
        "parts-type", of(list_of(to(), later(OTHER, ty=0x90)), others=[[stream(), stream(ty=0x90)]]),
        "the name agrees and the type is another known one", "end reads 12",
        (LINE + "1 size 4000", GOOD, "attr 41 120 144 64 1 name 0 0 value parts 1 size 4000", "part 41 120 0 184 0"))
    yield Case(
        "parts-unknown", of(list_of(to(), later(ty=0x81)), others=[[stream()]]),
        "an unknown type ends the parts, and stops the walk", "stopped 6 reads 7",
        (HEADER, LINE + "1 size 4000", GOOD), whole=True)


def parts_behind():
    """Which entries behind the first are parts."""
    yield Case(
        "parts-base", of(
            list_of(to(), later(BASE, lowest=3), later(lowest=6)), stream(lowest=3),
            others=[[stream()], [stream(lowest=6)]]),
        "an entry of the base record is passed over by the walk and counts as a part", "end reads 13",
        (
            LINE + "3 size 4000", GOOD, "part 40 160 3 224 0", "part 42 56 6 120 0",
            "attr 40 160 128 64 1 name 0 0 value runs 224 0 size 4000"))
    yield Case(
        "parts-stranger", of(list_of(to(), to(BASE, 3), later()), others=[[stream()], [stream()]]),
        "behind an entry of the base record that does not continue the stream a further part is lost", "end reads 8",
        (HEADER, LINE + "1 size 4000", GOOD), whole=True)
    yield Case(
        "parts-stranger-type", of(list_of(to(), later(BASE, ty=0x10), later()), others=[[stream()], [stream()]]),
        "the same behind an entry of the base record that has another type", "end reads 8",
        (HEADER, LINE + "1 size 4000", GOOD), whole=True)
    yield Case(
        "parts-again", of(
            list_of(to(), to(OTHER, 2, units=1), later(lowest=4)),
            others=[[stream(), stream(2)], [stream(lowest=4)]]),
        "behind another item the stream is an item again", "end reads 17",
        (
            LINE + "1 size 4000", GOOD, "attr 41 120 128 64 2 name 0 0 value parts 1 size 4000", "part 41 120 0 184 0",
            "attr 42 56 128 64 1 name 0 0 value parts 1 size 4000", "part 42 56 4 120 0"))
    yield Case(
        "parts-instance", of(list_of(to(), later(instance=2)), plain(5), others=[[stream()], [stream(2, lowest=4)]]),
        "one stream, though the second part has another instance", "end reads 9",
        (
            HEADER, LINE + "2 size 4000", GOOD, "part 42 56 4 120 0",
            "attr 40 136 16 24 5 name 0 0 value resident 160 0"), whole=True)
    yield Case(
        "parts-entry-longer",
        of(list_of(to(), later(length=64), cut=8), plain(5), others=[[stream()], [stream()]], size=512),
        "an entry longer than what is left ends the parts and the list", "end reads 6", (LINE + "1 size 4000", GOOD))
    yield Case(
        "parts-lowest", of(list_of(to(lowest=77)), others=[[stream(lowest=78)]]),
        "the VCN is the attribute's own, not the entry's", "end reads 5", ("part 41 56 78 120 0",))


def entry_of(file, name, lowest, padding=b""):
    """An entry of this name, at 32 where there is padding in front of it."""
    text = name.encode("utf-16-le")
    more = {"name_offset": 32, "padding": padding} if padding else {}
    return to(file, units=len(text) // 2, name=text, lowest=lowest, **more)


def named(names, lows, paddings=(b"", b"")):
    """Two entries of these names, from these VCNs on: they name 41 and 42."""
    return list_of(*map(entry_of, (OTHER, THIRD), names.split("/"), lows, paddings))


# two streams: an item with one part of each, the second one's from VCN 4 on
APART = ("attr 42 56 128 64 1 name 0 0 value parts 1 size 4000", "part 42 56 4 120 0")


def joined():
    """What makes two entries one stream, by their names and the second one's VCN."""
    for name, names, lows, one_stream, *paddings in (
        ("parts-named", "ab/ab", (0, 4), True), ("parts-named-0", "ab/ab", (0, 0), False),
        ("parts-anew", "/", (0, 0), False), ("parts-vcn-1", "/", (0, 1), True),
        ("parts-vcn-most", "/", (FIELD_MOST, FIELD_MOST), True), ("parts-longer", "ab/abc", (0, 4), False),
        ("parts-shorter", "ab/a", (0, 4), False), ("parts-unnamed", "ab/", (0, 4), False),
        ("parts-named-behind", "/ab", (0, 4), False), ("parts-byte", "ab/aB", (0, 4), False),
        ("parts-zero", "a/a\0", (0, 4), False), ("parts-name-255", 255 * "x" + "/" + 255 * "x", (0, 4), True),
        ("parts-name-255-last", 255 * "x" + "/" + 254 * "x" + "y", (0, 4), False),
        ("parts-name-254", 255 * "x" + "/" + 254 * "x", (0, 4), False),
        # other padding and one name; one padding, which is the first one's name, and other names; and a name at 26
        ("parts-padded-other", "ab/ab", (0, 4), True, (b"1", b"2")),
        ("parts-padded-alike", "ab/aB", (0, 4), False, (b"a\0b\0", b"a\0b\0")),
        ("parts-padded-unnamed", "/ab", (0, 4), False, (b"", b"1")),
        ("parts-padded-behind", "ab/ab", (0, 4), True, (b"", b"a\0B\0")),
        ("parts-padded-before", "ab/ab", (0, 4), True, (b"\0", b"")),
    ):
        held = named(names, lows, *paddings)
        behind = 56 + len(held)
        lines = ("2 size 4000", GOOD, APART[1]) if one_stream else ("1 size 4000", GOOD, *APART)
        # the list, an entry and an attribute; the parts of one item with two, or of two with one, the first of which
        # the second entry ends; the other entry passed over, or with its attribute; the attribute behind the list
        reads = 3 + (4 if one_stream else 2 + 1 + 2) + (1 if one_stream else 2) + 1
        yield Case(
            name, of(held, AFTER, others=[[stream()], [stream(lowest=4)]], size=2048),
            "two entries of the names %s and %s, from VCN %d and %d on%s" % (
                *(shown(text) for text in names.split("/")), *lows, ", behind padding" if paddings else ""),
            "end reads %d" % reads,
            (
                "record 40 size 2048", LINE + lines[0], *lines[1:],
                "attr 40 %d 16 24 5 name 0 0 value resident %d 0" % (behind, behind + 24)), whole=True)


def padded():
    """Two streams whose entries have their names at 32, behind padding that differs from entry to entry in one, and is
    the same, the other one's name, in the other: two items, with all their parts."""
    one, other = "one", "two"
    entries = [
        entry_of(OTHER, one, 0, b"\1"), entry_of(THIRD, one, 4, b"\2"), entry_of(FOURTH, one, 9, b"t\0w\0o\0"),
        entry_of(OTHER, other, 0, b"o\0n\0e\0"), entry_of(THIRD, other, 7, b"o\0n\0e\0")]
    others = [[stream()], [stream(lowest=4)], [stream(lowest=9)]]
    first = LINE + "%d size 4000"
    # the list; an entry with its attribute, three parts and the entry that ends them, and two entries passed over; an
    # entry with its attribute, two parts, and one entry passed over; the attribute behind the list
    yield Case(
        "parts-padded", of(list_of(*entries), AFTER, others=others, size=512),
        "names at 32, and padding that says otherwise", "end reads %d" % (1 + 2 + 7 + 2 + 2 + 4 + 1 + 1),
        (
            "record 40 size 512", first % 3, GOOD, "part 42 56 4 120 0", "part 43 56 9 120 0", first % 2, GOOD,
            "part 42 56 4 120 0", after(entries)), whole=True)


def shown(name):
    """A name for people."""
    return "of %d units" % len(name) if len(name) > 9 else '"%s"' % name.replace("\0", "\\0")


def parts_refused():
    """Parts that are refused in the record that an entry leads to."""
    # nothing but 7 and 12 can refuse the first part: the walk has just looked it up and found it, non-resident
    yield refused(7, "7", "the item's own header is short", "end reads 6", [to()], first=stream(1, 63), count=0)
    yield refused(
        12, "12", "the item's own runs offset is past its length", "end reads 6", [to()], first=stream(1, 64, 65),
        count=0)
    yield refused(
        2, "2", "the second part's record is not FILE", "end reads 8", TWO, record(256, stream(), magic=b"file"),
        more=BEHIND)
    yield refused(
        3, "3", "3 in the second part's record", "end reads 9", TWO, record(256, plain(0, 192), end=b"\x80\0\0\0"),
        more=BEHIND)
    # 27 and 28, and the other side of each: a stale part, and one in front of a stale attribute
    yield refused(
        27, "27", "the second part's used size is above its length", "end reads 8", TWO,
        record(256, stream(), used=257), more=BEHIND)
    yield refused(
        28, "28", "the second part is stale", "end reads 8", TWO, record(256, stream(), used=119), more=BEHIND)
    for used in (256, 120):
        yield Case(
            "parts-used-%d" % used,
            of(list_of(*TWO), AFTER, others=[[stream()], record(256, stream(lowest=7), stream(2), used=used)]),
            "a second part that ends at 120, used size %d" % used, "end reads 9",
            (HEADER, LINE + "2 size 4000", GOOD, "part 42 56 7 120 0", *BEHIND), whole=True)
    yield refused(4, "4", "4 in the second part's record", "end reads 8", TWO, [bare(0x80, 15, 1)], more=BEHIND)
    yield refused(5, "5", "5 in the second part's record", "end reads 8", TWO, [bare(0x80, 201, 1)], more=BEHIND)
    yield refused(
        6, "6", "an attribute of unknown type in the second part's record", "end reads 9", TWO,
        [plain(ty=0x81), stream()], more=BEHIND)
    yield refused(7, "7", "the second part's header is short", "end reads 9", TWO, [stream(1, 63)], more=BEHIND)
    yield refused(
        12, "12", "the second part's runs offset is past its length", "end reads 9", TWO, [stream(1, 64, 65)],
        more=BEHIND)


def parts_refused_by_entries():
    """Parts that are refused in the list, by what it leads to, or behind two."""
    yield refused(14, "14", "25 bytes left of the list", "stopped 14 reads 5", TWO, [stream()], cut=1)
    yield refused(
        15, "15", "entry length 27 with one name unit", "stopped 15 reads 5",
        [to(), later(length=27, units=1, name=b"n")], [stream()])
    yield refused(
        16, "16", "the second entry's name is cut", "stopped 16 reads 5", [to(), later(units=1)], [stream()], cut=2)
    for number, name, about, last, cut in (
        (31, "31", "the second entry's name is over its header", later(units=1, name_offset=25), 0),
        (31, "31-past", "it ends a byte past the entry", later(units=1, length=29, name_offset=28), 0),
        (16, "16-offset", "it ends a byte past the list, though it would be there at 26",
         later(units=1, name_offset=40), 1)):
        yield refused(number, name, about, "stopped %d reads 5" % number, [to(), last], [stream()], cut=cut)
    yield refused(17, "17", "the table lacks the second part's record", "end reads 8", TWO, more=BEHIND)
    yield refused(
        18, "18", "the second part's record has no such attribute", "end reads 9", TWO, [stream(2)], more=BEHIND)
    yield refused(19, "19", "the second part is resident", "end reads 9", TWO, [plain(1, ty=0x80)], more=BEHIND)
    yield refused(19, "19-short", "19 before 7", "end reads 9", TWO, [plain(1, 16, ty=0x80)], more=BEHIND)
    yield refused(7, "7-before-12", "7 before 12", "end reads 9", TWO, [stream(1, 63, 0xFFFF)], more=BEHIND)
    yield refused(
        18, "18-instance", "a stream's second part is looked up by its own instance", "end reads 9",
        [to(), later(instance=2)], [stream()], more=BEHIND)
    yield refused(
        19, "19", "the third part is resident; the two before it are listed", "end reads 12",
        [to(), later(OTHER), later()],
        [plain(1, ty=0x80)], count=2, more=("attr 40 160 16 24 5 name 0 0 value resident 184 0",))
    yield refused(
        17, "17", "the table lacks the third part's record", "end reads 11", [to(), later(OTHER), later(FOURTH)],
        count=2)


# as many entries as a list of a record of 4,096 bytes can have (tests/cases/README.md), and the type of the first
MOST_ENTRIES, OVER = 156, 0x100


def longest_list(entries):
    """A record of 4,096 bytes whose one attribute is a list of so many entries of type OVER.

    It stands at 28, behind the used size, and its value begins at its own byte 8. So the first entry lies over the
    attribute's header: its type over the form, the name's length and its offset, its length over the flags, and its
    lowest VCN over the value's length and offset.
    """
    inside = bytearray(b"".join(entries))
    inside[8:16] = struct.pack("<IHH", len(inside), 8, 0)
    text = record(4096, struct.pack("<II", 0x20, 8 + len(inside)) + inside, first=28)
    assert len(inside) == 26 * MOST_ENTRIES and text[28 + 8 + len(inside):] == END
    return text


# How many holes full_of_holes has: one of two bytes after another in 4,084 bytes, but for two of four bytes and one of
# six.
MOST_HOLES = (4096 - 12 - 2 * 4 - 6) // 2 + 3


def full_of_holes(k):
    """(a record of 4,096 bytes that has nothing but as many holes as fit, the instance of its attribute; k tells such
    records apart).

    The attribute stands at 4, behind the word FILE, and its runs begin at its byte 8: 01 01 is a hole of one cluster,
    and the header's fields are what holes make of them. Three of them may not be holes: the record's first attribute
    offset, its used size, which must be its length, and the runs offset. A hole whose length has three bytes, five and
    three lies over each.
    """
    text = bytearray(struct.pack("<4sII", FILE, OVER, 4092).ljust(4096, b"\1"))
    # the instance's two bytes, and the first attribute offset
    text[18:22] = struct.pack("<BBH", 3, k, 4)
    # the used size, behind two bytes of a hole
    text[22:28] = struct.pack("<BBI", 5, 1, 4096)
    # the runs offset, behind two bytes of a hole
    text[34:38] = struct.pack("<BBH", 3, 1, 8)
    return bytes(text), 3 + 256 * k


def most_lines():
    """(table, how many lines its listing has): the most that we found for a base record of 4,096 bytes. As many entries
    as fit, each an item with one part, since the next one is from VCN 0 on, and each part with as many runs as fit."""
    held = [full_of_holes(k) for k in (1, 2)]
    entries = [to(OTHER + k % 2, held[k % 2][1], OVER) for k in range(MOST_ENTRIES)]
    records = {OTHER + k: text for k, (text, _) in enumerate(held)}
    # the first and the last line; and of each entry an item, a part, and its runs
    return table({BASE: longest_list(entries), **records}), 2 + MOST_ENTRIES * (2 + MOST_HOLES)


def most_parts():
    """The most parts of an item, and the most items with a part."""
    # 80 + 154 × 26 = 4,084: as many entries as fit behind an ordinary header. Entries of 41 and of 42 in turn.
    entries = [later(OTHER + k % 2) for k in range(154)]
    others = [[stream(lowest=1)], [plain(), stream(lowest=2)]]
    # the list 1; the walk 1 + 1, and 153 passed over; 154 entries, 77 with one attribute and 77 with two
    yield Case(
        "parts-154", of(list_of(*entries), size=4096, others=others), "as many parts as fit behind an ordinary header",
        "end reads 541",
        ("attr 41 56 128 64 1 name 0 0 value parts 154 size 4000", "part 41 56 1 120 0", "part 42 80 2 144 0"))
    others = [[stream(lowest=1, ty=OVER)], [plain(), stream(lowest=2, ty=OVER)]]
    others = {OTHER + k: record(4096, *held) for k, held in enumerate(others)}
    entries = [later(OTHER + k % 2, ty=OVER) for k in range(MOST_ENTRIES)]
    yield Case(
        "parts-156", table({BASE: longest_list(entries), **others}), "as many parts as fit at all", "end reads 548",
        (
            "record 40 size 4096", "attr 41 56 256 64 1 name 0 0 value parts 156 size 4000", "part 41 56 1 120 0",
            "part 42 80 2 144 0"))
    # Each entry is from VCN 0 on, and so an item with one part, which the next one ends: more text than goes to one
    # write. The list 1; the walk's 154 entries, and as many parts, 77 each with one attribute and 77 with two; 153
    # that end parts.
    two = [[stream(1, lowest=FIELD_MOST, size=FIELD_MOST), stream(2, lowest=FIELD_MOST, size=FIELD_MOST)]]
    yield Case(
        "many-lines", of(list_of(*(to(instance=1 + k % 2) for k in range(154))), size=4096, others=two),
        "a listing of more than 16,384 bytes", "end reads %d" % (1 + 2 * (154 + 77 * 3) + 153),
        (
            "attr 41 56 128 64 1 name 0 0 value parts 1 size 18446744073709551615",
            "part 41 56 18446744073709551615 120 0",
            "attr 41 120 128 64 2 name 0 0 value parts 1 size 18446744073709551615",
            "part 41 120 18446744073709551615 184 0"))


def longest_lines():
    """The longest lines."""
    # Lengths of four digits, names of three, record numbers of fifteen, VCNs and sizes of twenty. The longest line of
    # all has a name refused.
    long = {
        NUMBER_MOST - 2: [
            bare(0x10, 1000), bytes(984), stream(65535, 1100, 100, FIELD_MOST, FIELD_MOST, 0xFFFFFFFE, 255, 590),
            stream(65535, 1100, 100, FIELD_MOST, FIELD_MOST, 0xFFFFFFFE, 255, 1100),
            list_of(to(NUMBER_MOST - 1, 65535, 0x100), later(NUMBER_MOST, 65535, 0x100))],
        NUMBER_MOST - 1: [
            bare(0x10, 1000), bytes(984), stream(65535, 2100, 1000, FIELD_MOST, FIELD_MOST, 0x100, 255, 1590)],
        NUMBER_MOST: [bare(0x10, 1000), bytes(984), stream(65535, 2100, 1000, FIELD_MOST - 1, 5, 0x100, 255, 1590)],
    }
    # the base's four attributes; the walk's entry and two attributes; two parts of 3 reads; one entry passed over
    text = table({n: record(4096, *held) for n, held in long.items()}, NUMBER_MOST - 2)
    yield Case("long-lines", text, "the longest numbers of each field, and the longest lines", "end reads 14", (
        "record 281474976710653 size 4096",
        "attr 281474976710653 1056 4294967294 1100 65535 name 1646 510 value runs 1156 1000 size 18446744073709551615",
        "attr 281474976710653 2156 4294967294 1100 65535 name refused 8 value runs 2256 1000 size 18446744073709551615",
        "attr 281474976710654 1056 256 2100 65535 name 2646 510 value parts 2 size 18446744073709551615",
        "part 281474976710654 1056 18446744073709551615 2056 1100",
        "part 281474976710655 1056 18446744073709551614 2056 1100"))


def most_records():
    """The most records of 1,024 bytes, and the longest searches."""
    # the list 1; the walk's entry and 57 attributes; 35 parts of the same; 34 entries passed over
    reads = 1 + 58 + 35 * 58 + 34
    yield Case(
        "records-64", records_64(), "64 records of 1,024 bytes, lying over each other's ends", "end reads %d" % reads,
        ("record 0 size 1024", "attr 3 952 128 64 1 name 0 0 value parts 35 size 4000", "part 63 952 0 1016 0"))
    # 248 attributes of 16 bytes in front of the one sought, and again in each part
    lot = record(4096, *[bare(0x10, 16)] * 248, stream())
    yield Case(
        "reads", table({BASE: record(4096, list_of(*[later(OTHER)] * 154)), OTHER: lot}),
        "parts that are each found behind 248 attributes", "end reads %d" % (1 + 1 + 249 + 154 * 250 + 153),
        ("attr 41 4024 128 64 1 name 0 0 value parts 154 size 4000",))


def most_reads():
    """The most reads."""
    # As near as we came to the most that a listing can read (docs/RULES.md, 17.4): of 1,024 bytes 4,881 of 5,173. Each
    # entry is an item of its own, found behind nearly all other attributes of its record, by the walk and again by its
    # parts.
    for size, entries, spare, found in ((1024, 38, 8, 63), (4096, 156, 12, 255)):
        # the attribute in front; then an attribute and an entry, two searches, and the entry again; every second search
        # is one shorter but for the spare ones
        reads = 1 + entries * (3 + 2 * found) - 2 * (entries // 2 - spare)
        yield Case(
            "reads-%d" % size, reads_most(size, entries, spare), "the most reads that we found for this size",
            "end reads %d" % reads,
            (
                "record 40 size %d" % size, "attr 40 12 16 16 0 name 0 0 value refused 7",
                "attr 26 %d 32 16 1 name 0 0 value parts 0 refused 7" % (size - 20),
                "attr 27 %d 32 16 2 name 0 0 value parts 0 refused 7" % (size - 20),
                "attr 26 %d 32 16 1 name 0 0 value parts 0 refused 7" % (size - 20),
                "attr 26 %d 32 16 2 name 0 0 value parts 0 refused 7" % (size - 36)))


def reads_most(size, entries, spare):
    """A record of lists of one entry each, and the two records that they name.

    A list lies over its own attribute from byte 0 on, so that its entry is the attribute: the entry's type is 0x20, its
    lowest VCN the attribute's first fields, and its record number the value's length, 26, and offset, 0. An entry of 27
    bytes names record 27: so many are spare. Attributes are as short as they can be, so that the parts refuse the one
    found by 7, behind the search. Each entry is from VCN 0 on, so that the skip key passes none over.

    In each record the first attribute stands at 12, its header over the record's own: its form is the first attribute
    offset, and its flags are the used size. A list can't lie there: its value's offset would be one of the two.
    """
    front = head(0x10, 16, resident=False, flags=size)
    front = front[:8] + bytes((12,)) + front[9:]
    text = bytearray(b"FILE".ljust(12, b"\0") + front)
    for k in range(entries):
        length = 27 if k % 2 and k < 2 * spare else 26
        text += struct.pack("<IHBBQQH", 0x20, length, 0, 0, 0, length, 1 + k % 2).ljust(length, b"\0")
    assert len(text) == size
    records = {BASE: bytes(text)}
    for number, instances in ((26, (2, 1)), (27, (2,))):
        held = front + bare(0x10, 16) * ((size - 12) // 16 - 1 - len(instances))
        held += b"".join(bare(0x20, 16, instance, is_resident=False) for instance in instances)
        records[number] = record(size, held, first=12, end=b"")
    return table(records, BASE)


def records_64():
    """64 rows of 1,024 bytes each. 64 × 1,036 + 20 is past 65,536, so each record's last 16 bytes are the next one's
    first."""
    size, step, count = 1024, 1008, 64
    at = 20 + 12 * count
    text = bytearray(struct.pack("<5I", count, size, 20, at, 0))
    text += b"".join(struct.pack("<QI", n, at + step * n) for n in range(count))
    text += bytes((count - 1) * step + size)
    for n in range(count):
        # 56 attributes of 16 bytes, then the stream, which ends at 1,016; its last 8 bytes (initialized) are the next
        # one's first: FILE is 4 of them, and what stands there is not listed
        held = record(size, *[bare(0x10, 16)] * 56, stream(), end=b"") if n else record(
            size, list_of(*(later(3 + 60 * k // 34) for k in range(35))))
        text[at + step * n:at + step * n + size] = held
    return bytes(text)


# Random ones.

TYPES = (0x80, 0x80, 0x80, 0x80, 0x90, 0x100)


def random_held(chance):
    """An attribute with a name, a value and sizes near the limits."""
    instance, ty = chance.randrange(3), chance.choice(TYPES)
    length = chance.choice((16, 23, 24, 25, 32, 40, 62, 63, 64, 64, 65, 72, 80, 88))
    units = chance.choice((0, 0, 1, 2, 4, 255))
    name = chance.choice(
        (0, 1, 16, 24, 64, length - 2 * units, length - 2 * units + 1, length - 1, length, length + 1, 0xFFFF)) % 65536
    if chance.random() < 0.35:
        count = chance.choice((0, 1, 8, length, length - 24, length - 23, 2 ** 32 - 1)) % 2 ** 32
        value = chance.choice((24, 24, 24, 0, 16, length - 1, length, length + 1, 0xFFFF))
        return plain(instance, length, count, value, ty, units, name)
    big = (
        0, 1, 9, 10, 4095, 2 ** 32, 10 ** 19, 10 ** 19 - 1, 2 ** 63, FIELD_MOST, chance.getrandbits(64),
        chance.getrandbits(chance.randrange(1, 64)))
    runs = chance.choice((64, 64, 64, 64, 0, 33, length - 1, length, length + 1, 0xFFFF))
    return stream(
        instance, length if chance.random() < 0.3 else max(length, 64), runs, chance.choice(big), chance.choice(big),
        ty, units, name)


def random_listed(chance):
    """A base record with lists of few types and instances, so that items have parts, and some of them refuse."""
    size = chance.choice((256, 256, 512, 512, 1024, 2048, 4096))
    step = chance.choice((1, 1, 7, 10 ** 6, 10 ** 14))
    numbers = [chance.choice((0, 9, 10, 99, 40)) + k * step for k in range(chance.choice((2, 3, 4)))]
    base = chance.choice(numbers)
    records = {}
    for n in numbers:
        held, left, streams = [], size - 60, Streams(chance)
        while left > 0 and len(held) < 12:
            text = random_held(chance)
            if n == base and chance.random() < 0.5:
                key, entries = (0x80, 0), []
                for _ in range(chance.randrange(1, 9)):
                    if chance.random() < 0.3:
                        key = chance.choice(TYPES), chance.randrange(3)
                    to_ = chance.choice(numbers) if chance.random() < 0.97 else numbers[-1] + 1
                    ty = None if chance.random() < 0.98 else 0x81
                    entries.append(streams.entry(key, to_, chance.choice((0, 0, 0, 4)), ty=ty))
                text = list_of(*entries, cut=chance.choice((0, 0, 0, 0, 0, 0, 1, 2, 25, 26)))
            if len(text) > left:
                break
            held.append(text)
            left -= len(text)
        magic = b"FILE" if chance.random() < 0.97 else b"BAAD"
        whole = record(size, *held, magic=magic, end=END if chance.random() < 0.9 else b"")
        records[n] = with_other_used(whole, chance, OTHER_USED)
    return table(records, base, gap=chance.choice((0, 0, 4)))


def random_tables(count, real, chance):
    """Tables with parts, damaged copies of them and of real ones, and the item walk's random ones."""
    small = [text for text in real if len(text) <= 12000]
    for k in range(count):
        what = k % 16
        if what < 6:
            text = random_listed(chance)
        elif what < 9:
            text = damaged(chance.choice(small), chance)
        elif what < 11:
            text = damaged(random_listed(chance), chance)
        elif what < 13:
            text = random_table(chance)
        elif what < 15:
            text = chained_table(chance)
        elif k % 5 == 0:
            text = large_table(chance)
        else:
            text = hurt_outside(chance)
        yield in_table(bytes(text), chance) if chance.random() < 0.75 else bytes(text)


# What a listing refuses, in its own words.
REFUSALS = re.compile(
    "table refused 21|stopped [0-9]+|name refused [0-9]+|value refused [0-9]+|value parts [0-9]+ refused [0-9]+|"
    "run refused [0-9]+")


def without_runs(lines):
    """The lines of a listing but for those of runs."""
    return [line for line in lines if not line.startswith(("run ", "hole "))]


def refusals(listing):
    return REFUSALS.findall(listing)


def without_number(refusal):
    """A refusal of parts, whatever the number of parts before it."""
    return re.sub("parts [0-9]+", "parts", refusal)


def missing(case, listing):
    """The lines by hand that a listing lacks; where they are all, those that differ."""
    lines = listing.decode("ascii").split("\n")[:-1]
    if case.whole and lines != [*case.has, case.last]:
        return sorted({*lines} ^ {*case.has, case.last}) or lines
    rest = iter(lines)
    return [line for line in case.has if line not in rest] + [case.last] * (lines[-1:] != [case.last])


KINDS = (
    tables, table_limits, walks, walks_cut, used_sizes, used_sizes_looked_up, walks_to_unknown_types, walks_to_lists,
    walks_along_lists, walks_to_names_of_entries, names, values, looked_up, runs, runs_of_any_size, runs_of_parts,
    parts, parts_behind, joined, padded, parts_refused, parts_refused_by_entries, most_parts, longest_lines,
    most_records, most_reads,
)


def cases():
    out = [case for kind in KINDS for case in kind()]
    assert len({case.name for case in out}) == len(out)
    return out
