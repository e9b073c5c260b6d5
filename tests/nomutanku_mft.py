"""Tests of `nomutanku list --mft` as built: each record of a raw $MFT is listed as a table of it and of those that its
lists refer to.

The $MFTs are made of the tables of tests/volumes, each record protected again and put where its number belongs.
Expected listings are those of the second reading.
"""
import os
import resource
import struct
import subprocess
import threading

from lib import suite, volumes
from lib.building import table
from lib.on_nomutanku import Nomutanku, status_of, whole
from lib.reading import objects
from nomutanku_extract import NO_FILE, SECTOR, closed, feed, little, on_disk
from nomutanku_extract import whole as filled

# a table whose base record refers to two others by its list: without the first of them its listing stops, and without
# the second it goes on
WITH, REFERRED = "fragA-0066.tab", (67, 68)

MISSING = "the file does not have it"
LEFT = "it begins otherwise than with FILE"
ARRAY = "the fixup array is outside the record, over a pair that it guards, or of the wrong size (29)"
PAIR = "the last two bytes of 512 are not the check number (30)"
UNTOLD = "no table: the record at its front tells no record size: name it by --size"
SIZE = "no table: records of an extract can't have %d bytes: 512 to 4096, in steps of 512 (1)"
STOPPED = "the listing stops: the table has no such record (17)"
LATE = "no table: row at 20 would have a record number of 2^48 or more (44)"


# $MFTs by hand.

def held_by(text):
    """(record size, base number, number -> record) of a table."""
    count, size, directory, _, base = struct.unpack_from("<5I", text)
    rows = [struct.unpack_from("<QI", text, directory + 12 * i) for i in range(count)]
    return size, rows[base][0], {number: text[at:at + size] for number, at in rows}


def protected(record):
    """A record that was fixed up, as it lies on the disk: its pairs are kept in its array, and its check number, which
    stands there, is put in their place."""
    at, = struct.unpack_from("<H", record, 4)
    raw, check = bytearray(record), record[at:at + 2]
    for k, end in enumerate(range(SECTOR - 2, len(record), SECTOR)):
        raw[at + 2 * k + 2:at + 2 * k + 4] = record[end:end + 2]
        raw[end:end + 2] = check
    return bytes(raw)


def mft(raws, first=None):
    """A raw $MFT that has these records, by their numbers, the first one at its front where no other is named; zeros
    stand between them."""
    first = min(raws) if first is None else first
    size = len(raws[max(raws)])
    text = bytearray(size * (max(raws) + 1 - first))
    for number, raw in raws.items():
        text[size * (number - first):size * (number - first) + size] = raw
    return bytes(text)


def raws_of(records):
    """The same records as they lie on the disk."""
    return {number: protected(record) for number, record in records.items()}


def listed(records, number):
    """The lines of a record, of those that are there: its own, behind the line that names it."""
    return b"file %d\n%s" % (number, whole(table(records, number)))


def as_json(text):
    """The same in the other form: the line in front is an object too."""
    front, _, lines = text.partition(b"\n")
    return b'{"line":"file","number":%s}\n%s' % (front.removeprefix(b"file "), objects.of_text(lines))


SIZED, BASE, RECORDS = held_by(volumes.table_named(WITH))
RECORDS = {number: RECORDS[number] for number in (BASE, *REFERRED)}
RAWS = raws_of(RECORDS)
FIRST, (OTHER, LAST) = BASE, REFERRED


def extension(path, number, base):
    """The line that is said of a listing of a record that has another one for its base record."""
    return "%s: warning: file %d: it is an extension of record %d\n" % (path, number, base)


def said_of_stop(path, expected):
    """The line that is said of a listing that stops at a record that is not there."""
    number = int(expected.split(b"\n")[0].removeprefix(b"file "))
    return "%s: record %d: %s\n" % (path, number, STOPPED) if b"\nstopped 17 " in expected else ""


def hold(test, text, first, numbers, status, out, said):
    """How a run on an $MFT goes, with its record size named, and told by its front, and as JSON. `said` has NAME for
    the file's."""
    path = test.file("x.mft", text)
    words = ("list", "--mft", path, "--first", str(first))
    numbers = [str(number) for number in numbers]
    said = said.replace("NAME", path)
    test.same(test.run(*words, "--size", str(SIZED), *numbers), status, out, said)
    told = "%s: records of %d bytes\n" % (path, SIZED)
    # the front of a short file tells no size where it has no record's length
    if text.startswith(b"FILE") and len(text) % 8 == 0:
        test.same(test.run(*words, *numbers), status, out, told + said)
    blocks = [b"file " + block for block in out.split(b"file ")[1:]]
    asked = test.run(*words, "--json", "--size", str(SIZED), *numbers)
    test.same(asked, status, b"".join(map(as_json, blocks)), said)


# Records as they are.

def test_a_difference_is_noticed(test):
    """A comparison that never fails shows nothing."""
    path = test.file("x.mft", mft(RAWS))
    test.notices(test.run("list", "--mft", path, "--first", str(FIRST), "--size", str(SIZED), str(BASE)))


def test_real_records(test):
    """Each record that a table of a real volume has for its base record is listed from a raw $MFT as it is from the
    table, with its size told and asked."""
    tables = volumes.tables()
    with_lists = 0
    for text in tables:
        size, number, records = held_by(text)
        raws = raws_of(records)
        with_lists += len(records) > 1
        expected = b"file %d\n%s" % (number, whole(text))
        path = test.file("x.mft", mft(raws))
        words = ("list", "--mft", path, "--first", str(min(raws)))
        status = status_of(expected)
        code, out, said = test.run(*words, "--size", str(size), str(number))
        test.same((code, out, bool(said)), status, expected, status != 0)
        code, out, told = test.run(*words, str(number))
        test.same((code, out, told), status, expected, "%s: records of %d bytes\n%s" % (path, size, said))
    assert with_lists > 5, with_lists


def test_places(test):
    """A record stands at its number: with zeros in front, with other first numbers, and in a file of a terabyte."""
    expected = listed(RECORDS, BASE)
    for first in (0, 1, FIRST):
        hold(test, mft(RAWS, first), first, [BASE], 0, expected, "")
    # a record alone, behind nearly a terabyte
    path = test.disk(b"")
    number = 10 ** 9
    with open(path, "r+b") as held:
        held.seek(SIZED * number)
        held.write(RAWS[OTHER])
    words = ("list", "--mft", path, "--size", str(SIZED))
    given = {"preexec_fn": little}
    expected = listed({number: RECORDS[OTHER]}, number)
    test.same(test.run(*words, str(number), **given), 0, expected, extension(path, number, BASE))
    said = "%s: record %d: %s\n" % (path, number + 1, LEFT)
    test.same(test.run(*words, str(number + 1), **given), 2, b"", said)


def test_several(test):
    """Records are listed in the order in which they are named, each by itself, also twice."""
    out = listed(RECORDS, BASE) + listed(RECORDS, OTHER) + listed(RECORDS, BASE)
    hold(test, mft(RAWS), FIRST, [BASE, OTHER, BASE], 0, out, extension("NAME", OTHER, BASE))


def test_little_is_read(test):
    """Of a file that is larger than memory the record is listed; and what stands behind it may be torn."""
    path = test.file("x.mft", mft(RAWS))
    os.truncate(path, 2 ** 36)
    words = ("list", "--mft", path, "--first", str(FIRST), "--size", str(SIZED), str(BASE))
    test.same(test.run(*words, preexec_fn=little), 0, listed(RECORDS, BASE), "")


# Records that are not there.

def without(number):
    """The table's records without one of them."""
    return {other: record for other, record in RECORDS.items() if other != number}


def test_lost_records(test):
    """A record that a list refers to and that is not there is told, and is not in the table; the status is 1 at
    least."""
    raw = RAWS[OTHER]
    torn = raw[:-2] + bytes([raw[-2] ^ 1]) + raw[-1:]
    array = raw[:6] + b"\x02\0" + raw[8:]
    expected = listed(without(OTHER), BASE)
    assert b"\nstopped 17 " in expected, expected
    for other, why in ((bytes(SIZED), LEFT), (NO_FILE[:SIZED].ljust(SIZED, b"\0"), LEFT), (torn, PAIR), (array, ARRAY)):
        lost = "NAME: record %d, to which a list of record %d refers: %s\n" % (OTHER, BASE, why)
        said = lost + said_of_stop("NAME", expected)
        hold(test, mft({**RAWS, OTHER: other}), FIRST, [BASE], 1, expected, said)


def test_records_outside_the_file(test):
    """In front of the first, behind the last, and broken off: they are missing."""
    expected = listed(without(LAST), BASE)
    lost = "NAME: record %d, to which a list of record %d refers: %s\n" % (LAST, BASE, MISSING)
    said = lost + said_of_stop("NAME", expected)
    text = mft(RAWS)
    for cut in (1, SIZED - 1, SIZED):
        hold(test, text[:-cut], FIRST, [BASE], 1, expected, said)
    for number in (FIRST - 1, 0, LAST + 1, 2 ** 48, 2 ** 64 - 1):
        said = "NAME: record %d: %s\n" % (number, MISSING)
        hold(test, text, FIRST, [number], 2, b"", said)
        hold(test, text, FIRST, [BASE, number, BASE], 2, listed(RECORDS, BASE) * 2, said)
    # all of them are told, in rising order
    alone = {BASE: RECORDS[BASE]}
    expected = listed(alone, BASE)
    lost = "".join(
        "NAME: record %d, to which a list of record %d refers: %s\n" % (number, BASE, MISSING)
        for number in REFERRED)
    hold(test, RAWS[BASE], FIRST, [BASE], 1, expected, lost + said_of_stop("NAME", expected))


def test_named_records_that_are_refused(test):
    """One that is named and torn, or no record, has no lines; the others are listed."""
    raw = RAWS[BASE]
    torn = raw[:510] + bytes([raw[510] ^ 1]) + raw[511:]
    array = raw[:4] + b"\xff\xff" + raw[6:]
    for other, why in ((bytes(SIZED), LEFT), (torn, PAIR), (array, ARRAY)):
        records = without(BASE)
        said = "NAME: record %d: %s\n" % (BASE, why)
        out = listed(records, OTHER)
        text = mft({**RAWS, BASE: other}, FIRST)
        hold(test, text, FIRST, [BASE], 2, b"", said)
        hold(test, text, FIRST, [BASE, OTHER], 2, out, said + extension("NAME", OTHER, BASE))


def test_large_numbers(test):
    """A record whose number is 2^48 or more is none of a table."""
    record = filled(b"a", SIZED)
    text = on_disk(record)
    for first, status, said in ((2 ** 48 - 1, 1, None), (2 ** 48, 2, LATE), (2 ** 64 - 1, 2, LATE)):
        path = test.file("x.mft", text)
        code, out, told = test.run("list", "--mft", path, "--size", str(SIZED), "--first", str(first), str(first))
        if said is None:
            test.same((out.split(b"\n")[0],), b"file %d" % first)
        else:
            test.same((code, out, told), status, b"", "%s: record %d: %s\n" % (path, first, said))


# Sizes, and usage.

def test_sizes(test):
    """A record size that there is not, and a front that tells none."""
    path = test.file("x.mft", mft(RAWS))
    for size in (0, 511, 1000, 4608, 2 ** 64 - 1):
        found = test.run("list", "--mft", path, "--size", str(size), str(BASE))
        test.same(found, 2, b"", "%s: %s\n" % (path, SIZE % size))
    for text in (b"", bytes(4096), b"FILE"):
        path = test.file("x.mft", text)
        test.same(test.run("list", "--mft", path, "5"), 2, b"", "%s: %s\n" % (path, UNTOLD))


def test_files_that_cannot_be_gone_to_a_place_of(test):
    """Standard input is refused as a wrong command line, a pipe that is named in the system's words, as are a folder
    and a file that is not there."""
    text = mft(RAWS)
    why = "--mft wants a file, which can be gone to places of, and not standard input"
    said = "nomutanku: %s: nomutanku list --help\n" % why
    test.same(test.run("list", "--mft", "-", "5", input=text), 64, b"", said)
    path = os.path.join(test.room, "fifo")
    os.mkfifo(path)
    for words in ((), ("--size", "1024")):
        feeder = threading.Thread(target=feed_any, args=(path, text))
        feeder.start()
        found = test.run("list", "--mft", path, *words, "5")
        test.same(found, 3, b"", "%s: Illegal seek (os error 29)\n" % path)
        feeder.join()
    gone = os.path.join(test.room, "gone")
    test.same(test.run("list", "--mft", gone, "5"), 3, b"", "%s: No such file or directory (os error 2)\n" % gone)
    status, out, said = test.run("list", "--mft", test.room, "--size", "1024", "5")
    test.same((out, said.startswith(test.room + ": "), status in (2, 3)), b"", True, True)


def feed_any(path, text):
    """Writes to a pipe that has a name, as far as it is read."""
    try:
        feed(path, text)
    except BrokenPipeError:
        pass


def test_usage(test):
    """A command line that is wrong: 64, in words, and nothing is listed."""
    path = test.file("x.mft", mft(RAWS))
    for words, why in (
        (("--mft", path), "--mft wants the numbers of records, or --all, or --find"),
        (("--mft", path, "--base", "5", "5"), "--base does not go with --mft: name the records"),
        (("--size", "1024", path), "--size, --first, --all, --find, --names and --strict go with --mft alone"),
        (("--first", "0", path), "--size, --first, --all, --find, --names and --strict go with --mft alone"),
        (("--mft", path, "5", "x"), "x is no record's number"),
        (("--mft", path, path), "%s is no record's number" % path),
        (("--mft", path, ""), " is no record's number"), (("--mft", path, "a\nb"), "a\\nb is no record's number"),
        (("--mft", path, str(2 ** 64)), "%d is no record's number" % 2 ** 64),
        (("--mft", path, "1.5"), "1.5 is no record's number")):
        found = test.run("list", *words)
        test.same(found, 64, b"", "nomutanku: %s: nomutanku list --help\n" % why)
    for words in (
        ("--mft",), ("--mft", path, "--size", "x", "5"), ("--mft", path, "--first", "-1", "5"),
        ("--mft", path, "--mft", path, "5"), ("--mft", path, "--from", "1", "5"), ("--mft", path, "-1")):
        status, out, said = test.run("list", *words)
        test.same((status, out, bool(said)), 64, b"", True)
    for command in ("rows", "record", "extract"):
        status, out, said = test.run(command, "--mft", path)
        test.same((status, out, bool(said)), 64, b"", True)


# Outputs and memory.

def test_outputs_that_take_nothing(test):
    """A full disk is 74, in the system's words; a pipe whose reader went away asked for no more."""
    path = test.file("x.mft", mft(RAWS))
    words = ("list", "--mft", path, "--first", str(FIRST), "--size", str(SIZED), str(BASE))
    with open("/dev/full", "wb") as full:
        why = "nomutanku: standard output: No space left on device (os error 28)\n"
        test.same(test.run(*words, stdout=full), 74, None, why)
    found = test.run(*words, stdout=None, preexec_fn=closed(1))
    test.same(found, 74, None, "nomutanku: standard output: Bad file descriptor (os error 9)\n")
    reader, writer = os.pipe()
    os.close(reader)
    test.same(test.run(*words, stdout=writer), 74, None, "")
    os.close(writer)


def test_little_memory(test):
    """Under a rising limit of address space: 3 with its words and no lines, or all of the listing; nothing else."""
    path = test.file("x.mft", mft(RAWS))
    words = ("list", "--mft", path, "--first", str(FIRST), "--size", str(SIZED), str(BASE))
    expected = listed(RECORDS, BASE)
    said = {"%s: out of memory\n" % path, "nomutanku: out of memory\n"}
    cut, fine = 0, 0
    for limit in range(2 ** 20, 2 ** 23, 2 ** 16):
        try:
            status, out, told = test.run(
                *words, preexec_fn=lambda: resource.setrlimit(resource.RLIMIT_AS, (limit, limit)))
        except (OSError, subprocess.SubprocessError):
            continue
        # 127 and signals are the loader's, which has no room for the program itself
        if status == 127 or status < 0:
            assert cut == fine == 0, (limit, status)
        elif status == 0:
            test.same((out, told), expected, "")
            fine += 1
        else:
            test.same((status, out, told in said), 3, b"", True)
            cut += 1
    assert fine, (cut, fine)
    print("%d runs short of memory and %d not" % (cut, fine))


main = suite.of(Nomutanku, Nomutanku.finish)

if __name__ == "__main__":
    main()
