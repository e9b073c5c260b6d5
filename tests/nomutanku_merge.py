"""Tests of `nomutanku merge` as built: the tables it makes of two, which are written here by hand, what it says, how
much it reads, and how it leaves the file that the table goes to."""
import os
import resource
import shutil
import signal
import struct
import subprocess
import sys
import threading

import merge
from lib import building, running, suite, volumes
from lib.on_nomutanku import Nomutanku, status_of, whole
from lib.programs import ROOT
from lib.reading import check_table, rows
from lib.running import read
from merge import MALFORMED, MOST_ROWS, laid, many, record, records
from merge_random import ways
from nomutanku_streams import closed, little, made_in_little_memory

# what is said of two tables, by the names of both
NO_TABLE = "merge: %s is no table (%s)\n"
SIZES = "merge: %s has records of %d bytes, and %s of %d\n"
DIFFERS = "merge: record %d differs between %s and %s\n"
MANY = "merge: %s and %s have more than 4096 rows together\n"
OUT_OF_MEMORY = "merge: out of memory\n"
STDIN = "standard input"

EMPTY = "it is empty"
RAW = "it begins with FILE, as raw records do: nomutanku extract makes a table of them"
# the words of a fault of the header, by the names of such tables
HEADERS = {
    "empty": EMPTY, "19 bytes": "it has 19 bytes, and a header has 20", "FILE": RAW,
    "4,097 rows": "it tells 4097 rows, and 4096 are the most",
    "lines of y": "it tells 175704697 rows, and 4096 are the most",
    **{name: "a record can't have %d bytes: 64 to 4096, in steps of 8" % size for name, size in (
        ("a record size of 56", 56), ("of 68", 68), ("of 4,104", 4104), ("of 0", 0))},
    "a directory at 19": "the directory begins at 19, inside the header",
    "a directory past the records": "the directory goes past 55, where the records begin",
    "records past the end": "the records begin at 21, past the end",
    "a base row of 4": "the base row is 4, past the last row",
}
assert set(HEADERS) == set(merge.HEADERS)


def written(count):
    """The line that is told of a table that is made."""
    return "written %d\n" % count


# Two small tables and what is made of them: records 3, 5 and 9 of one, 4, 5 and 11 of the other.
A, B = laid(records((3, 5, 9)), base=1), laid(records((4, 5, 11)), directory=33, gap=3, order=[11, 4, 5], base=0)
C = laid(records((3, 4, 5, 9, 11)))
NOTHING, NOTHING_WIDE = laid({}), laid({}, 1024)


def files(test, first, second):
    """The paths of two files with these bytes."""
    return test.file("a.tab", first), test.file("b.tab", second)


def hold(test, first, second, status, out, said):
    """How a run on these two goes: by files, and by standard input for each of them. `said` has the words for their
    names."""
    a, b = files(test, first, second)
    test.same(test.run("merge", a, b), status, out, said(a, b))
    test.same(test.run("merge", "-", b, input=first), status, out, said(STDIN, b))
    test.same(test.run("merge", a, "-", input=second), status, out, said(a, STDIN))


def told(text, *numbers):
    """What is said, for the names of two tables in their order, and numbers behind them."""
    return lambda a, b: text % (*numbers, a, b)


# Tables.

def test_a_difference_is_noticed(test):
    """A comparison that never fails shows nothing."""
    test.notices(test.run("merge", *files(test, A, B)))


def test_tables_are_made_one(test):
    """Each row of both is in the table, a number of both once, whatever the layout; and the program reads it."""
    for first, second in ((A, B), (B, A), (C, A), (B, C), (C, C), (C, NOTHING), (NOTHING, C)):
        hold(test, first, second, 0, C, lambda a, b: written(5))
    hold(test, NOTHING, NOTHING, 0, NOTHING, lambda a, b: written(0))
    hold(test, A, NOTHING, 0, laid(records((3, 5, 9))), lambda a, b: written(3))
    listed = test.run("rows", input=test.run("merge", *files(test, A, B))[1])
    lines = "".join("row %d %d refused 2\n" % (n, 80 + 64 * k) for k, n in enumerate((3, 4, 5, 9, 11)))
    test.same(listed, 0, lines.encode() + b"end rows 5\n", "")


def test_a_table_with_itself(test):
    """A table and itself, by one name or two: its rows, without its base row."""
    a, b = files(test, A, A)
    for second in (a, b, os.path.join(test.room, ".", "a.tab")):
        test.same(test.run("merge", a, second), 0, laid(records((3, 5, 9))), written(3))


def said_of(case):
    """(status, the words) of a case of tests/merge.py, the words for the names of both."""
    if not case.refused:
        return 0, lambda a, b: written(len(case.rows))
    number, at, whose, clash, _ = case.refused
    if number == 21:
        name = case.name.partition(";")[0].removesuffix(", mirrored")
        why = HEADERS.get(name, "row at %d" % at)
        return 2, lambda a, b: NO_TABLE % (a if whose == "first" else b, why)
    if number == 32:
        sizes = [struct.unpack_from("<I", table, 4)[0] for table in (case.first, case.second)]
        return 2, lambda a, b: SIZES % (a, sizes[0], b, sizes[1])
    return 2, told(DIFFERS, clash) if number == 33 else told(MANY)


def test_the_cases(test):
    """The cases of tests/merge.py, whose answers are by hand: the table, or the words of each refusal."""
    groups = (
        merge.ROWS[:40], merge.LAID, merge.OVER, merge.BAD, merge.BAD_TWICE, merge.UNLIKE, merge.DIFFERENT[:99],
        merge.MANY[::2], merge.LATE)
    cases = [case for group in groups for case in group if not case.refused or case.refused.number != 35]
    cases += map(merge.mirrored, [case for case in cases if case not in merge.BAD_TWICE])

    def one(numbered):
        k, case = numbered
        status, said = said_of(case)
        out = merge.hand(case)[0] if status == 0 else b""
        a, b = test.file("a%d" % k, case.first), test.file("b%d" % k, case.second)
        test.same(test.run("merge", a, b), status, out, said(a, b))
        os.remove(a)
        os.remove(b)
    test.each(one, enumerate(cases))
    assert {case.refused and case.refused.number for case in cases} == {None, 21, 32, 33, 34}


def test_refusals(test):
    """Each kind of refusal, by files and by standard input: its words, its status, and nothing written."""
    for name in ("empty", "FILE", "19 bytes", "a base row of 4"):
        bad, why = MALFORMED[name][0], HEADERS[name]
        hold(test, bad, A, 2, b"", lambda a, b: NO_TABLE % (a, why))
        hold(test, A, bad, 2, b"", lambda a, b: NO_TABLE % (b, why))
        hold(test, bad, bad, 2, b"", lambda a, b: NO_TABLE % (a, why))
    for at, table in ((32, MALFORMED["row 1 at 32, of 2^64 - 1"][0]), (57, MALFORMED["row 2 at 57, a record at 0"][0])):
        hold(test, table, A, 2, b"", lambda a, b: NO_TABLE % (a, "row at %d" % at))
        hold(test, A, table, 2, b"", lambda a, b: NO_TABLE % (b, "row at %d" % at))
    small, large = laid(records((5,), 1024), 1024), laid(records((5,), 4096), 4096)
    hold(test, small, large, 2, b"", lambda a, b: SIZES % (a, 1024, b, 4096))
    hold(test, large, small, 2, b"", lambda a, b: SIZES % (a, 4096, b, 1024))
    other = laid(merge.other_record(records((4, 5, 11)), 5))
    hold(test, A, other, 2, b"", told(DIFFERS, 5))
    hold(test, other, A, 2, b"", told(DIFFERS, 5))
    hold(test, many(range(MOST_ROWS)), many((MOST_ROWS,)), 2, b"", told(MANY))
    hold(test, many((MOST_ROWS,)), many(range(MOST_ROWS)), 2, b"", told(MANY))


def test_long_tables(test):
    """Tables of many times 65,536 bytes: up to 4,096 rows, records of up to 4,096 bytes."""
    for size, count in ((64, MOST_ROWS), (1024, MOST_ROWS), (4096, 1500)):
        held, half = records(range(count), size), count // 2
        expected = laid_long(held, size)
        for ours, theirs in ((range(0, count, 2), range(1, count, 2)), (range(half + 9), range(half, count))):
            pair = files(test, *(laid_long({n: held[n] for n in some}, size) for some in (ours, theirs)))
            for a, b in (pair, pair[::-1]):
                status, out, said = test.run("merge", a, b)
                test.same((status, out == expected, said), 0, True, written(count))


def laid_long(held, size):
    """A table of many records: in its order, and quickly."""
    at = building.NUMBERS_BYTES + building.ROW_BYTES * len(held)
    text = building.numbers(len(held), size, building.NUMBERS_BYTES, at, len(held))
    text += b"".join(building.row(number, at + size * k) for k, number in enumerate(sorted(held)))
    return text + b"".join(held[number] for number in sorted(held))


# Real tables.

def test_real_tables_in_parts(test):
    """Tables of real volumes, parted in six ways and made one again in both orders: the same table each time, which
    lists as the whole does, from each of its records on."""
    def one(numbered):
        k, table = numbered
        held, size = dict(rows(table)), check_table(table).size
        expected, made = laid_long(held, size), os.path.join(test.room, "made%d" % k)
        for pair in ways(held):
            paths = [test.file("%s%d" % (name, k), laid({number: held[number] for number in some}, size, 26, 3))
                     for name, some in zip("ab", pair)]
            for a, b in (paths, paths[::-1]):
                test.same(test.run("merge", a, b, "-o", made), 0, b"", written(len(held)))
                test.same((read(made),), expected)
        for number in held:
            listed = whole(table, number)
            status, out, _ = test.run("list", "--base", str(number), made)
            test.same((status, out), status_of(listed), listed)
        return len(held)
    counts = test.each(one, enumerate(volumes.tables()))
    assert len(counts) >= 10 and sum(counts) >= 100
    print("%d tables of %d records" % (len(counts), sum(counts)))


def test_an_extract_in_parts(test):
    """The bundled $MFT's table, made in two parts and merged, is the one that is made of it at once, and lists as the
    bundled table does."""
    mft, a, b = os.path.join(ROOT, "example", "springs.mft"), *files(test, b"", b"")
    first = ("extract", "--first", "64")
    status, expected, _ = test.run(*first, mft)
    count = check_table(expected).count
    test.same((status, [number for number, _ in rows(expected)]), 0, [64, 65, 66, 67])
    for middle in range(5):
        for begin, end, path in ((0, middle, a), (middle, 4, b)):
            found = test.run(*first, "--from", str(begin), "--count", str(end - begin), "-o", path, mft)
            test.same(found[::2], 0, "written %d left 0 refused 0\n" % (end - begin))
        test.same(test.run("merge", a, b), 0, expected, written(count))
        test.same(test.run("merge", b, a), 0, expected, written(count))
    bundled = read(ROOT, "example", "springs.tab")
    test.same((list(rows(expected)),), list(rows(bundled)))
    test.same(test.run("list", "--base", "64", input=test.run("merge", a, b)[1]), 0, whole(bundled), "")
    # the first two records alone have one part of three
    test.run(*first, "--count", "2", "-o", a, mft)
    status, out, _ = test.run("list", "--base", "64", a)
    test.same((status, out, b"value parts 1 refused 17" in out), 0, whole(read(a), 64), True)


# What is read.

def test_no_more_is_read_than_matters(test):
    """Of each table all up to its last record's end; of what is no table the header alone. What stands behind that
    stays unread, of a pipe too, and of a disk that is named."""
    given = {"preexec_fn": little}
    a, b = files(test, A, B)
    for name, words, text in (("first", ("-", b), A), ("second", (a, "-"), B)):
        for found, taken in (
            test.taken_of_file(test.disk(text), "merge", *words, **given),
            test.taken_of_pipe(text, "merge", *words, **given)):
            test.same((found, taken, name), (0, C, written(5)), len(text), name)
        disk = test.disk(text)
        test.same(test.run("merge", *(disk if word == "-" else word for word in words), **given), 0, C, written(5))
    # both are disks, the same one
    disk = test.disk(A)
    test.same(test.run("merge", disk, disk, **given), 0, laid(records((3, 5, 9))), written(3))
    for bad, taken, why in (
        (b"\xeb\x52\x90NTFS    " + bytes(500), 20, "it tells %d rows, and 4096 are the most" % 0x4E9052EB),
        (A[:20] + b"\xff" * 8 + A[28:], len(A), "row at 20")):
        for words, name in ((("-", b), "first"), ((a, "-"), "second")):
            said = NO_TABLE % (STDIN, why)
            for found in (
                test.taken_of_file(test.disk(bad), "merge", *words, **given),
                test.taken_of_pipe(bad, "merge", *words, **given)):
                test.same((*found, name), (2, b"", said), taken, name)


def test_inputs_without_end(test):
    """What has no end and is no table is refused at once, in little memory, as the first or as the second."""
    a, _ = files(test, A, B)
    lines = "it tells 175704697 rows, and 4096 are the most"
    zeros = "a record can't have 0 bytes: 64 to 4096, in steps of 8"
    for words in (("-", a), (a, "-")):
        with subprocess.Popen(["yes"], stdout=subprocess.PIPE) as yes:
            found = test.run("merge", *words, stdin=yes.stdout, preexec_fn=little)
            yes.stdout.close()
        test.same(found, 2, b"", NO_TABLE % (STDIN, lines))
        words = ["/dev/zero" if word == "-" else word for word in words]
        test.same(test.run("merge", *words, preexec_fn=little), 2, b"", NO_TABLE % ("/dev/zero", zeros))


def feed(writer, text):
    """Writes bytes to a pipe, one at a time."""
    for at in range(len(text)):
        os.write(writer, text[at:at + 1])
    os.close(writer)


def test_inputs_in_pieces(test):
    """What comes a byte at a time is read as one that is there at once; so is a pipe that has a name, both are too."""
    a, b = files(test, A, B)
    for words, text in ((("-", b), A), ((a, "-"), B)):
        reader, writer = os.pipe()
        feeder = threading.Thread(target=feed, args=(writer, text))
        feeder.start()
        test.same(test.run("merge", *words, stdin=reader), 0, C, written(5))
        feeder.join()
        os.close(reader)
    paths = [os.path.join(test.room, name) for name in ("one", "two")]
    feeders = []
    for pair in zip(paths, (A, B)):
        os.mkfifo(pair[0])
        feeders.append(threading.Thread(target=feed_named, args=(pair,)))
        feeders[-1].start()
    test.same(test.run("merge", *paths), 0, C, written(5))
    for feeder in feeders:
        feeder.join()


def feed_named(*pairs):
    """Writes to pipes that have names, to one behind another: for each its path and its bytes."""
    for path, text in pairs:
        with open(path, "wb") as out:
            out.write(text)


def test_the_first_is_read_first(test):
    """The second is not so much as opened before the first is read: who writes to two pipes, to one behind the other,
    gets rid of a first table that a pipe does not hold at once."""
    long, paths = laid_long(records(range(2000), 1024), 1024), [os.path.join(test.room, name) for name in "pq"]
    for path in paths:
        os.mkfifo(path)
    feeder = threading.Thread(target=feed_named, args=zip(paths, (long, NOTHING_WIDE)), daemon=True)
    feeder.start()
    try:
        status, out, said = test.run("merge", *paths)
    except subprocess.TimeoutExpired:
        sys.exit("nomutanku merge: waits for its second input before it has read the first")
    test.same((status, out == long, said), 0, True, written(2000))
    feeder.join()


def test_both_are_read_before_they_are_judged(test):
    """A first table that is none does not hide that the second can't be read, and of two that can't be read the first
    is told."""
    bad, gone = test.file("bad.tab", b""), os.path.join(test.room, "gone")
    missing = "%s: No such file or directory (os error 2)\n" % gone
    folder = "%s: Is a directory (os error 21)\n" % test.room
    for words, said in (
        ((bad, gone), missing), ((gone, bad), missing), ((bad, test.room), folder), ((test.room, bad), folder),
        ((gone, test.room), missing), ((test.room, gone), folder)):
        test.same(test.run("merge", *words), 3, b"", said)


def test_inputs_that_cannot_be_read(test):
    """A missing file, a folder, and a closed standard input: 3, in the system's words; an older table stays."""
    a, _ = files(test, A, B)
    folder = os.path.join(test.room, "unread")
    os.mkdir(folder)
    old, gone = test.file("unread/old.tab", b"old"), os.path.join(folder, "gone")
    missing, directory = "%s: No such file or directory (os error 2)\n" % gone, "%s: Is a directory (os error 21)\n"
    for more in ((), ("-o", old)):
        for words in ((gone, a), (a, gone), (gone, gone)):
            test.same(test.run("merge", *words, *more), 3, b"", missing)
        for words in ((folder, a), (a, folder)):
            test.same(test.run("merge", *words, *more), 3, b"", directory % folder)
        for words in (("-", a), (a, "-")):
            said = "standard input: Bad file descriptor (os error 9)\n"
            test.same(test.run("merge", *words, *more, stdin=None, preexec_fn=closed(0)), 3, b"", said)
            place = os.open("/", os.O_RDONLY)
            test.same(test.run("merge", *words, *more, stdin=place), 3, b"", directory % STDIN)
            os.close(place)
    test.same((read(old), os.listdir(folder)), b"old", ["old.tab"])


# Words.

def test_usage(test):
    """A command line that is wrong: 64, and nothing is read or written."""
    a, b = files(test, A, B)
    old = test.file("old.tab", b"old")
    for words in (
        (), (a,), ("-",), (a, b, a), ("-", "-"), ("-", "-", "-o", old), (a, "-o", old), ("-o", old), (a, b, "-o"),
        (a, b, "-o", old, "-o", old), (a, b, "--json"), (a, b, "--base", "1"), (a, b, "--size", "64"),
        (a, b, "--output", old), (a, b, "--first", "1")):
        status, out, said = test.run("merge", *words, input=A)
        test.same((status, out, bool(said)), 64, b"", True)
    said = "nomutanku: a word of the command line is no UTF-8: hand such a file in by standard input\n"
    test.same(test.run("merge", a, os.path.join(test.room, "\udcff.tab")), 64, b"", said)
    test.same((read(old),), b"old")


def test_names_are_shown(test):
    """A name is shown in bytes that print, in each kind of message, and no name passes for a line."""
    for name, shown in (
        ("a\nwritten 9", "a\\nwritten 9"), ("\u00fc.tab", "\\xc3\\xbc.tab"), ("esc\x1b[1m", "esc\\x1b[1m"),
        ("q'\"", "q\\'\\\"")):
        shown, good = test.room + "/" + shown, test.file("good.tab", A)
        path = test.file(name, b"")
        test.same(test.run("merge", path, good), 2, b"", NO_TABLE % (shown, EMPTY))
        test.same(test.run("merge", good, path), 2, b"", NO_TABLE % (shown, EMPTY))
        test.file(name, laid(records((5,), 72), 72))
        test.same(test.run("merge", path, good), 2, b"", SIZES % (shown, 72, good, 64))
        test.same(test.run("merge", good, path), 2, b"", SIZES % (good, 64, shown, 72))
        test.file(name, laid(merge.other_record(records((5,)), 5)))
        test.same(test.run("merge", path, good), 2, b"", DIFFERS % (5, shown, good))
        test.same(test.run("merge", good, path), 2, b"", DIFFERS % (5, good, shown))
        test.file(name, many(range(4, MOST_ROWS + 4)))
        none = test.file("none.tab", many((1,)))
        test.same(test.run("merge", path, none), 2, b"", MANY % (shown, none))
        os.remove(path)
        test.same(test.run("merge", good, path), 3, b"", "%s: No such file or directory (os error 2)\n" % shown)
    # as they are typed, and one that is named as standard input is
    test.file("-", b"")
    test.same(test.run("merge", "./-", "./good.tab", cwd=test.room), 2, b"", NO_TABLE % ("./-", EMPTY))
    test.same(test.run("merge", "good.tab", "./-", cwd=test.room), 2, b"", NO_TABLE % ("./-", EMPTY))
    test.file("--base", B)
    test.same(test.run("merge", "--", "--base", "good.tab", cwd=test.room), 0, C, written(5))


# Where the table goes.

def hold_file(test, first, second, status, said, expected=None):
    """A run whose table goes to a file, where none was and where one was: how it goes, that the file has this table, or
    what it had where none is made, and that nothing is left beside it."""
    folder, (a, b) = os.path.join(test.room, "out"), files(test, first, second)
    for before in (None, b"", b"old" * 9999):
        for words in ((a, b), ("-", b), (a, "-")):
            shutil.rmtree(folder, ignore_errors=True)
            os.mkdir(folder)
            path = os.path.join(folder, "x.tab")
            if before is not None:
                test.file("out/x.tab", before)
            given = first if words[0] == "-" else second
            names = [STDIN if word == "-" else word for word in words]
            test.same(test.run("merge", "-o", path, *words, input=given), status, b"", said(*names))
            after = before if expected is None else expected
            test.same((os.listdir(folder),), [] if after is None else ["x.tab"])
            test.same((None if after is None else read(path),), after)


def test_files(test):
    """The file has all of the table, where one was and where none was; or is as it was."""
    hold_file(test, A, B, 0, lambda a, b: written(5), C)
    hold_file(test, NOTHING, NOTHING, 0, lambda a, b: written(0), NOTHING)
    hold_file(test, b"", A, 2, lambda a, b: NO_TABLE % (a, EMPTY))
    hold_file(test, A, b"", 2, lambda a, b: NO_TABLE % (b, EMPTY))
    hold_file(test, A, laid({}, 72), 2, lambda a, b: SIZES % (a, 64, b, 72))
    hold_file(test, A, laid(merge.other_record(records((9,)), 9)), 2, told(DIFFERS, 9))
    hold_file(test, many(range(MOST_ROWS)), many((MOST_ROWS,)), 2, told(MANY))
    # the option may stand behind the words, or between them
    a, b = files(test, A, B)
    for words in ((a, b, "-o", "NEW"), (a, "-o", "NEW", b), (a, b, "-oNEW")):
        path = os.path.join(test.room, "new.tab")
        test.same(test.run("merge", *(word.replace("NEW", path) for word in words)), 0, b"", written(5))
        test.same((read(path),), C)
        os.remove(path)


def test_a_file_that_is_an_input(test):
    """Either table may be replaced by the new one, by its name, by another or by a link: both are read before. A
    refusal leaves it as it was."""
    for k in (0, 1):
        for linked in (False, True):
            a, b = pair = files(test, A, B)
            target, link = pair[k], os.path.join(test.room, "link")
            if linked:
                os.symlink(target, link)
            test.same(test.run("merge", a, b, "-o", link if linked else target), 0, b"", written(5))
            test.same((read(target), read(pair[1 - k]), os.path.islink(target)), C, (A, B)[1 - k], False)
            if linked:
                test.same((os.path.islink(link), os.readlink(link)), True, target)
                os.remove(link)
    a, b = files(test, A, laid(merge.other_record(records((5,)), 5)))
    before = read(b)
    for path in (a, b):
        test.same(test.run("merge", a, b, "-o", path), 2, b"", DIFFERS % (5, a, b))
        test.same((read(a), read(b)), A, before)
    # and one that is read by standard input
    a, b = files(test, A, B)
    with open(a, "rb") as held:
        test.same(test.run("merge", "-", b, "-o", a, stdin=held), 0, b"", written(5))
    test.same((read(a),), C)


def test_links(test):
    """What a link leads to is written, and the link stays one; an input may be a link too."""
    folder = os.path.join(test.room, "linked")
    os.mkdir(folder)
    a, b = files(test, A, B)
    for name, before in (("old.tab", b"old"), ("new.tab", None)):
        path, link = os.path.join(folder, name), os.path.join(test.room, "link")
        if before is not None:
            test.file("linked/" + name, before)
        os.symlink(path, link)
        test.same(test.run("merge", a, b, "-o", link), 0, b"", written(5))
        test.same((read(path), os.path.islink(link)), C, True)
        test.same(test.run("merge", link, b), 0, C, written(5))
        os.remove(link)
    test.same((sorted(os.listdir(folder)),), ["new.tab", "old.tab"])


def test_the_file_beside(test):
    """A file that an older run left beside the table stays as it is, and is not in the way."""
    folder = os.path.join(test.room, "beside")
    os.mkdir(folder)
    path = os.path.join(folder, "x.tab")
    for turn in range(3):
        test.file("beside/x.tab.part.%d" % turn, b"other")
    test.same(test.run("merge", *files(test, A, B), "-o", path), 0, b"", written(5))
    test.same((sorted(os.listdir(folder)),), ["x.tab", "x.tab.part.0", "x.tab.part.1", "x.tab.part.2"])
    test.same((read(path), read(path + ".part.0")), C, b"other")


def test_what_is_no_file(test):
    """A device or a pipe is written straight."""
    words = ("merge", *files(test, A, B), "-o")
    test.same(test.run(*words, "/dev/null"), 0, b"", written(5))
    test.same(test.run(*words, "/dev/stdout"), 0, C, written(5))
    path = os.path.join(test.room, "pipe")
    os.mkfifo(path)
    found = []
    reader = threading.Thread(target=lambda: found.append(read(path)))
    reader.start()
    test.same(test.run(*words, path), 0, b"", written(5))
    reader.join()
    test.same(tuple(found), C)


# a user of whom no file is
NOBODY = 65534


def test_files_that_cannot_be_written(test):
    """74, in the system's words behind the file's name, and nothing is left."""
    words = ("merge", *files(test, A, B), "-o")
    for path, why in (
        ("/dev/full", "No space left on device (os error 28)"), (test.room, "Is a directory (os error 21)"),
        (os.path.join(test.room, "no", "x.tab"), "No such file or directory (os error 2)"),
        (os.path.join(test.file("plain", b""), "x.tab"), "Not a directory (os error 20)"),
        ("", "No such file or directory (os error 2)")):
        test.same(test.run(*words, path), 74, b"", "nomutanku: %s: %s\n" % (path, why))
    folder = os.path.join(test.room, "shut")
    os.mkdir(folder)
    old = test.file("shut/old.tab", b"old")
    os.chmod(folder, 0o555)
    # another user, if this one may write anywhere, and the program where he may read
    given = {"user": NOBODY} if os.geteuid() == 0 else {}
    os.chmod(test.room, 0o755)
    *tools, program = test.command
    mine = shutil.copy(program, test.room)
    for path in (old, os.path.join(folder, "new.tab")):
        found = running.run(*tools, mine, *words, path, **given)
        test.same(found, 74, b"", "nomutanku: %s: Permission denied (os error 13)\n" % path)
    os.chmod(folder, 0o755)
    test.same((read(old), os.listdir(folder)), b"old", ["old.tab"])


def short():
    """A limit on how long a file may grow, without the signal."""
    signal.signal(signal.SIGXFSZ, signal.SIG_IGN)
    resource.setrlimit(resource.RLIMIT_FSIZE, (FRONT, FRONT))


FRONT = 200


def test_a_write_that_fails(test):
    """A disk that is full in mid-stream leaves the older table whole, also where it is an input, and nothing beside it;
    on standard output it leaves a front."""
    folder = os.path.join(test.room, "full")
    for name in (None, "x.tab"):
        shutil.rmtree(folder, ignore_errors=True)
        os.mkdir(folder)
        b, path = test.file("b.tab", B), os.path.join(folder, "x.tab")
        a = test.file(name and "full/x.tab" or "a.tab", A)
        said = "nomutanku: %s: File too large (os error 27)\n" % path
        test.same(test.run("merge", a, b, "-o", path, preexec_fn=short), 74, b"", said)
        test.same((os.listdir(folder), read(a)), [name] if name else [], A)
    with open(test.file("written", b""), "wb") as out:
        found = test.run("merge", *files(test, A, B), stdout=out, preexec_fn=short)
    test.same(found, 74, None, "nomutanku: standard output: File too large (os error 27)\n")
    test.same((read(test.room, "written"),), C[:FRONT])


def test_outputs_that_take_nothing(test):
    """A full disk and a closed standard output; a pipe whose reader went away asked for no more."""
    words = ("merge", *files(test, A, B))
    said = "nomutanku: standard output: %s\n"
    with open("/dev/full", "wb") as full:
        test.same(test.run(*words, stdout=full), 74, None, said % "No space left on device (os error 28)")
    found = test.run(*words, stdout=None, preexec_fn=closed(1))
    test.same(found, 74, None, said % "Bad file descriptor (os error 9)")
    for restored in (True, False):
        reader, writer = os.pipe()
        os.close(reader)
        test.same(test.run(*words, stdout=writer, restore_signals=restored), 74, None, "")
        os.close(writer)
    # one that leaves in mid-stream, and nothing is written to it where a file is named
    long = files(test, laid_long(records(range(2000), 1024), 1024), laid_long(records(range(2000, 4000), 1024), 1024))
    with subprocess.Popen([*test.command, "merge", *long], stdout=subprocess.PIPE, stderr=subprocess.PIPE) as left:
        left.stdout.read(100)
        left.stdout.close()
        test.same((left.wait(timeout=running.DEADLINE), left.stderr.read()), 74, b"")
    words = ("merge", *files(test, A, B), "-o", "/dev/null")
    test.same(test.run(*words, stdout=None, preexec_fn=closed(1)), 0, None, written(5))


def test_standard_error_that_takes_nothing(test):
    """It changes no status, and no table."""
    for pair, status, expected in (((A, B), 0, C), ((A, b""), 2, b"")):
        with open("/dev/full", "wb") as full:
            done = subprocess.run(
                [*test.command, "merge", *files(test, *pair)], stdout=subprocess.PIPE, stderr=full,
                timeout=running.DEADLINE)
        test.same((done.returncode, done.stdout), status, expected)


def test_little_memory(test):
    """Under a rising limit of address space: 3 with its words and the older table, or all of the table; nothing
    else."""
    a, b = files(test, *(laid_long(records(some, 1024), 1024) for some in (range(0, 4000, 2), range(1, 4000, 2))))
    said = {OUT_OF_MEMORY, "nomutanku: out of memory\n"}
    said |= {"%s: %s\n" % (path, why) for path in (a, b) for why in (
        "out of memory", "Cannot allocate memory (os error 12)")}
    made_in_little_memory(
        test, ("merge", a, b), said, laid_long(records(range(4000), 1024), 1024), written(4000))


main = suite.of(Nomutanku, Nomutanku.finish)

if __name__ == "__main__":
    main()
