"""Tests of what `nomutanku` says: its words of usage, its help, its reasons, its statuses, and the names of files."""
import os
import struct

from lib import building, by_members, suite
from lib.on_nomutanku import REFUSED, TABLE_COMMANDS, Nomutanku
from lib.reading import objects
from lib.running import case, headed, kept, read

FILE_SAID = "no table: it begins with FILE, as raw records do: nomutanku extract makes a table of them (21)"
USAGE_SAID = {
    "list": "nomutanku: name a table, or pipe one in: nomutanku list --help\n",
    "rows": "nomutanku: name a table, or pipe one in: nomutanku rows --help\n",
    "record": "nomutanku: name a record's file, or pipe one in: nomutanku record --help\n",
    "extract": "nomutanku: name an extract, or pipe one in: nomutanku extract --help\n",
}

# the refusals there are (RULES 19)
REFUSALS = (*range(1, 36), 44)


def test_a_difference_is_noticed(test):
    """A comparison that never fails shows nothing."""
    test.notices(test.run("list", case("whole")))


# Several tables, and how their names are shown.

def test_several_tables(test):
    """Each listing stands behind a heading, each reason behind a name, and the worst status counts."""
    stopped = "%s: the listing stops: the attribute list is not resident (13)\n" % case("stopped-13")
    empty = "%s: no table: it is empty (21)\n" % case("empty")
    names = ("whole", "stopped-13", "parts-2", "empty")
    test.same(test.run("list", *map(case, names)), 2, headed(*names), stopped + empty)
    # the worst, not the last
    for names, status, said in (
        (("empty", "stopped-13"), 2, empty + stopped), (("stopped-13", "whole"), 1, stopped),
        (("whole", "parts-2"), 0, "")):
        test.same(test.run("list", *map(case, names)), status, headed(*names), said)
    found = test.run("list", case("whole"), "-", input=read(case("parts-2")))
    test.same(found, 0, headed("whole") + b"table -\n" + kept("parts-2"), "")


# names that are no plain words, and how they are shown
ODD = {
    "a\ntable b": "a\\ntable b", "ü.tab": "\\xc3\\xbc.tab", "back\\n": "back\\\\n", "esc\x1b[1m": "esc\\x1b[1m",
    "q'\"": "q\\'\\\"", " ": " ",
}


def test_no_name_passes_for_a_line(test):
    """A name is shown in bytes that print, in headings and in reasons."""
    for name, shown in ODD.items():
        path = test.file(name, read(case("whole")))
        heading = b"table " + test.room.encode() + b"/" + shown.encode() + b"\n"
        test.same(test.run("list", path, path, cwd=test.room), 0, 2 * (heading + kept("whole")), "")
        os.remove(path)
        said = "%s/%s: No such file or directory (os error 2)\n" % (test.room, shown)
        test.same(test.run("list", path)[::2], 3, said)


def test_names_in_json(test):
    """The heading's name is the one that is shown in text, in a string that any reader of JSON takes."""
    expected = objects.of_text(kept("whole"))
    for name, shown in ODD.items():
        path = test.file(name, read(case("whole")))
        status, out, said = test.run("list", "--json", path, path)
        heading, listed = out[:out.index(b"\n")], out[out.index(b"\n") + 1:]
        test.same((status, listed, said), 0, expected + heading + b"\n" + expected, "")
        test.same((by_members.members_of(heading.decode()),), {"line": "table", "name": "%s/%s" % (test.room, shown)})
        os.remove(path)


def test_names_like_options(test):
    """A file whose name begins with a dash goes behind two of them, and one named as standard input is by a path."""
    test.file("--base", read(case("whole")))
    test.file("-", read(case("parts-2")))
    test.same(test.run("list", "--", "--base", cwd=test.room), 0, kept("whole"), "")
    test.same(test.run("list", "./-", cwd=test.room), 0, kept("parts-2"), "")


# Reasons.

def table(rows, size=128, directory=20, records=None, base=0, count=None):
    """A table by its numbers, with a record that begins with FILE at each row's offset."""
    records = directory + 12 * len(rows) if records is None else records
    head = struct.pack("<5I", len(rows) if count is None else count, size, directory, records, base)
    text = head + bytes(directory - 20 if directory > 20 else 0) + b"".join(struct.pack("<QI", *row) for row in rows)
    return text + (b"FILE" + bytes(size - 4)) * len(rows)


GOOD = [(40, 44), (41, 172)]
# bytes that are no table, and the words of it
NO_TABLES = (
    (b"", "no table: it is empty (21)"),
    (b"FILE" + bytes(1020), FILE_SAID),
    (b"FILE", FILE_SAID),
    (bytes(19), "no table: it has 19 bytes, and a header has 20 (21)"),
    (table(GOOD, count=4097), "no table: it tells 4097 rows, and 4096 are the most (21)"),
    (table(GOOD, size=60), "no table: a record can't have 60 bytes: 64 to 4096, in steps of 8 (21)"),
    (table(GOOD, directory=19), "no table: the directory begins at 19, inside the header (21)"),
    (table(GOOD, records=43), "no table: the directory goes past 43, where the records begin (21)"),
    (table(GOOD, records=301), "no table: the records begin at 301, past the end (21)"),
    (table(GOOD, base=3), "no table: the base row is 3, past the last row (21)"),
    (table([(2 ** 48, 44), (41, 172)]), "no table: row at 20 has a record number of 2^48 or more (21)"),
    (table([(41, 44), (41, 172)]), "no table: row at 32 has a record number that is not above the row before (21)"),
    (table([(40, 44), (41, 43)]), "no table: row at 32 has a record before the place where the records begin (21)"),
    (table([(40, 44), (41, 173)]), "no table: row at 32 goes past the end (21)"),
    # a fault of a later row does not hide that the first is cut, nor the other way round
    (table([(40, 173), (2 ** 48, 44)]), "no table: row at 20 goes past the end (21)"),
    (b"y\n" * 5000, "no table: it tells 175704697 rows, and 4096 are the most (21)"),
    (bytes(5000), "no table: a record can't have 0 bytes: 64 to 4096, in steps of 8 (21)"),
)


def test_reasons_of_no_table(test):
    """Each reason for which a table is refused, in its words, by a file's name and by standard input."""
    for text, words in NO_TABLES:
        path = test.file("x.tab", text)
        for command in TABLE_COMMANDS:
            test.same(test.run(command, path), 2, REFUSED, "%s: %s\n" % (path, words))
            test.same(test.run(command, "-", input=text), 2, REFUSED, "standard input: %s\n" % words)
            found = test.run(command, "--json", path)
            test.same(found, 2, objects.of_text(REFUSED), "%s: %s\n" % (path, words))


LENGTH = "no record: one record can't have %d bytes: 64 to 4096, in steps of 8 (1)"
LONG = "no record: it is longer than 4096 bytes, the most that one record has (1)"
A_TABLE = "no record: it begins as a table does: ask for its rows, or list it (%d)"
NOT_FILE = "no record: it begins otherwise than with FILE (2)"
ABOVE = "no record: its used size is above its length (27)"
# bytes that are no record, the number that refuses them, and the words of it
NO_RECORDS = (
    (b"", 1, "no record: it is empty (1)"),
    (b"F", 1, LENGTH % 1),
    (b"FILE" + bytes(59), 1, LENGTH % 63),
    (b"FILE" + bytes(61), 1, LENGTH % 65),
    (b"BAAD" + bytes(56), 1, LENGTH % 60),
    (b"FILE" + bytes(4093), 1, LONG),
    (bytes(5000), 1, LONG),
    (b"BAAD" + bytes(60), 2, NOT_FILE),
    (bytes(4096), 2, NOT_FILE),
    (building.record(64, used=65), 27, ABOVE),
    (building.record(4096, used=2 ** 32 - 1), 27, ABOVE),
    (building.record(64, used=65, magic=b"BAAD"), 2, NOT_FILE),
    (building.record(72, used=73)[:71], 1, LENGTH % 71),
    # a table, whole or the front of one, is told apart whatever its length
    (table(GOOD), 1, A_TABLE % 1),
    (table([(40, 32)]), 2, A_TABLE % 2),
    (table([(40, 44), (41, 1068)], size=1024)[:1024], 2, A_TABLE % 2),
    (table([(n, 20 + 12 * 99 + 1024 * n) for n in range(99)], size=1024), 1, A_TABLE % 1),
    (table(GOOD, records=301), 1, A_TABLE % 1),
    # one that is malformed otherwise is not taken for one
    (table([(2 ** 48, 44), (41, 172)]), 1, LENGTH % 300),
)


def test_reasons_of_no_record(test):
    """Each reason for which a record is refused, in its words."""
    for text, number, words in NO_RECORDS:
        path, refused = test.file("x.bin", text), b"record refused %d\n" % number
        test.same(test.run("record", path), 2, refused, "%s: %s\n" % (path, words))
        test.same(test.run("record", "-", input=text), 2, refused, "standard input: %s\n" % words)
        test.same(test.run("record", "--json", path), 2, objects.of_text(refused), "%s: %s\n" % (path, words))


def test_reasons_of_a_record_that_stops(test):
    """A walk that is refused is told by its cause, as in a listing."""
    path = test.file("x.bin", building.record(64, building.head(0x10, 15), first=40, end=b""))
    status, out, said = test.run("record", "--number", "7", path)
    test.same((status, out.split(b"\n")[-2], said), 1, b"stopped 4",
              "%s: the listing stops: the attribute's length is under 16 (4)\n" % path)
    path = test.file("y.bin", building.with_used(read(case("whole"))[32:], 111))
    status, out, said = test.run("record", "--number", "7", path)
    test.same((status, out.split(b"\n")[-2], said), 1, b"stopped 28",
              "%s: the listing stops: the attribute ends past the record's used size (28)\n" % path)


def test_reasons_of_used_sizes(test):
    """A listing that 27 or 28 stops is told by its cause, and a row that 27 refuses is told by its line alone."""
    for name, words in (
        ("used-257", "the record's used size is above its length (27)"),
        ("used-257-lookup", "the record's used size is above its length (27)"),
        ("used-103", "the attribute ends past the record's used size (28)"),
        ("used-143-lookup", "the attribute ends past the record's used size (28)")):
        said = "%s: the listing stops: %s\n" % (case(name), words)
        test.same(test.run("list", case(name)), 1, kept(name), said)
    test.same(test.run("rows", case("used-257")), 0, b"row 40 32 refused 27\nend rows 1\n", "")


def test_reasons_of_a_base_row(test):
    """With --base a base row is not needed, and a record that is missing is told."""
    path = test.file("x.tab", table(GOOD, base=2))
    said = "%s: a table without a base row: name one of its records by --base (21)\n" % path
    test.same(test.run("list", path), 2, REFUSED, said)
    test.same(test.run("list", "-", input=table(GOOD, base=2)), 2, REFUSED, said.replace(path, "standard input"))
    said = "%s: the listing stops: the attribute's length is under 16 (4)\n" % path
    test.same(test.run("list", "--base", "41", path), 1, b"record 41 size 128\nstopped 4 reads 0\n", said)
    said = "%s: the table has no record 42 (17)\n" % path
    test.same(test.run("list", "--base", "42", path), 2, b"table refused 17\n", said)
    said = "%s: the listing stops: fewer than 16 bytes are left for an attribute (3)\n" % case("stopped-3")
    test.same(test.run("list", case("stopped-3")), 1, kept("stopped-3"), said)


# Usage and help.

def test_usage_of_standard_input(test):
    """Standard input is read where nothing is named and it is a pipe or a file; else the command line is wrong."""
    for command, said in USAGE_SAID.items():
        test.same(test.run(command), 64, b"", said)
        test.same(test.run(command, stdin=None, preexec_fn=lambda: os.close(0)), 64, b"", said)
        master, slave = os.openpty()
        test.same(test.run(command, stdin=slave), 64, b"", said)
        os.close(master)
        os.close(slave)
    for command, expected in (("list", kept("whole")), ("rows", b"row 40 32 used\nend rows 1\n")):
        with open(case("whole"), "rb") as given:
            test.same(test.run(command, stdin=given), 0, expected, "")


WRONG = (
    (), ("lsit",), ("list", "--bsae", "1"), ("list", "--base", "x"), ("list", "--base"),
    ("list", "--base", str(2 ** 64), "a"), ("explain",), ("explain", "x"), ("explain", "1", "2"),
    ("explain", "--json", "1"), ("list", "--json=1", "a"), ("list", "--number", "1", "a"), ("rows", "--base", "1", "a"),
    ("rows", "--number", "1", "a"), ("record", "--base", "1", "a"), ("record", "--number", "x", "a"),
    ("record", "--number"), ("record", "--number", str(2 ** 64), "a"), ("record", "a", "b"), ("list", "-o", "a", "b"),
    ("merge",), ("merge", "a"), ("merge", "a", "b", "c"), ("merge", "-", "-"), ("merge", "--json", "a", "b"),
    ("merge", "--base", "1", "a", "b"), ("merge", "a", "b", "-o"),
)


def test_usage(test):
    """A command line that is wrong is told so, and nothing is listed."""
    for words in WRONG:
        status, out, said = test.run(*words)
        test.same((status, out, bool(said)), 64, b"", True)
    said = "nomutanku: a word of the command line is no UTF-8: hand such a file in by standard input\n"
    test.same(test.run("list", os.path.join(test.room, "\udcff.tab")), 64, b"", said)


# what the help of each command must name
NAMED = {
    "list": ("--base <N>", "--json", "[TABLE]..."), "rows": ("--json", "[TABLE]..."),
    "record": ("--number <N>", "--json", "[FILE]"), "explain": ("<N>",),
    "extract": ("--size <N>", "--first <N>", "--from <POSITION>", "--count <N>", "-o <TABLE>", "[MFT]"),
    "merge": ("-o <TABLE>", "<A>", "<B>"),
}


def test_help(test):
    """Help and version are no errors, and what the help names is there."""
    for words in (("--help",), *((name, "--help") for name in NAMED), ("help",), ("--version",)):
        status, out, said = test.run(*words)
        test.same((status, said, bool(out)), 0, "", True)
    for words in (*NAMED, "Exit status"):
        assert words.encode() in test.run("--help")[1], words
    for name, words in NAMED.items():
        told = test.run(name, "--help")[1].decode()
        test.same(([word for word in words if word not in told],), [])


def test_explanations(test):
    """Every refusal's words, which stand in the crate fields, and none of what is no refusal."""
    said = [test.run("explain", str(n)) for n in REFUSALS]
    for n, (status, out, error) in zip(REFUSALS, said):
        test.same((status, out.startswith(b"%d: " % n), out.count(b"\n"), error), 0, True, 1, "")
    test.same((len({out.split(b": ", 1)[1] for _, out, _ in said}),), len(REFUSALS))
    test.same(said[12][1:], b"13: the attribute list is not resident\n", "")
    test.same(said[20][1:], b"21: the table is malformed\n", "")
    test.same(said[24][1:], b"25: the run's length is 0\n", "")
    test.same(said[26][1:], b"27: the record's used size is above its length\n", "")
    test.same(said[27][1:], b"28: the attribute ends past the record's used size\n", "")
    test.same(said[30][1:], b"31: the list entry's name is over its header or past its end\n", "")
    test.same(said[31][1:], b"32: the two tables have records of different sizes\n", "")
    test.same(said[32][1:], b"33: the two tables have different records of one number\n", "")
    test.same(said[REFUSALS.index(44)][1:], b"44: the table would have a record number of 2^48 or more\n", "")
    for n in (0, 36, 43, 45, 256, 256 + 44, 2 ** 64 - 1):
        test.same(test.run("explain", str(n)), 64, b"", "nomutanku: there is no refusal %d\n" % n)


main = suite.of(Nomutanku, Nomutanku.finish)

if __name__ == "__main__":
    main()
