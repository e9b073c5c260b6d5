"""Tests of `nomutanku extract` as built: the tables it makes of small extracts, which are written here by hand, the
parts that it takes of larger ones, what it says, and how it leaves the file that the table goes to."""
import os
import resource
import shutil
import signal
import struct
import subprocess
import threading

from lib import running, suite
from lib.building import with_used
from lib.on_nomutanku import Nomutanku
from lib.running import read
from nomutanku_streams import made_in_little_memory

# bytes that one check number guards
SECTOR = 512

# of address space: far more than a run needs that reads no more than it must
LITTLE = 2 ** 26

ARRAY = "the fixup array is outside the record, over a pair that it guards, or of the wrong size (29)"
PAIR = "the last two bytes of 512 are not the check number (30)"
UNTOLD = "no table: the record at its front tells no record size: name it by --size"
SIZE = "no table: records of an extract can't have %d bytes: 512 to 4096, in steps of 512 (1)"
BROKEN = "no table: its last record is broken off: it has %d bytes (1)"
LATE = "no table: row at %d would have a record number of 2^48 or more (44)"
MANY = "no table: it would have more than 4096 rows: take a part of it by --from and --count (34)"
USAGE = "nomutanku: name an extract, or pipe one in: nomutanku extract --help\n"


# Extracts and their tables, by hand.

def numbers(at, size):
    """Where the array of a record stands, and how many numbers it has."""
    return struct.pack("<HH", at, size // SECTOR + 1)


def whole(letter, size=1024, used=64, allocated=None):
    """A record as it is read: FILE, where its array stands, its sizes, and a letter to its end."""
    head = b"FILE" + numbers(48, size) + bytes(16) + struct.pack("<II", used, size if allocated is None else allocated)
    return head + letter * (size - len(head))


def on_disk(record, check=b"\x07\0"):
    """The same as it lies on the disk: the last two bytes of each 512 are in the array, and the check number in their
    place."""
    ends = range(SECTOR - 2, len(record), SECTOR)
    kept = b"".join(record[end:end + 2] for end in ends)
    raw = bytearray(record)
    raw[48:50 + len(kept)] = check + kept
    for end in ends:
        raw[end:end + 2] = check
    return bytes(raw)


def fixed(record, check=b"\x07\0"):
    """What is read of it: the array's own bytes stay as they lie on the disk."""
    kept = b"".join(record[end:end + 2] for end in range(SECTOR - 2, len(record), SECTOR))
    return record[:48] + check + kept + record[50 + len(kept):]


def table(rows, size=1024):
    """The table of these rows, (number, record): five numbers, the directory, the records."""
    records = 20 + 12 * len(rows)
    head = struct.pack("<5I", len(rows), size, 20, records, len(rows))
    directory = b"".join(struct.pack("<QI", number, records + size * k) for k, (number, _) in enumerate(rows))
    return head + directory + b"".join(record for _, record in rows)


def counts(written, left, refused):
    """The line that is told of each extract whose table is made."""
    return "written %d left %d refused %d\n" % (written, left, refused)


def refusal(name, position, number, why):
    """The line behind it, of the first record that was refused."""
    return "%s: the record at position %d, number %s, is refused: %s\n" % (name, position, number, why)


A, B, C = (whole(letter) for letter in (b"a", b"b", b"c"))
EMPTY = table([])
NO_FILE = b"BAAD" + bytes(1020)
# an array one number too short, and a pair that is not the check number
BAD_ARRAY = on_disk(A)[:6] + b"\x02\0" + on_disk(A)[8:]
BAD_PAIR = on_disk(B)[:-2] + b"\x08\0"
SOUND = on_disk(A) + on_disk(B) + on_disk(C)
SOUND_TABLE = table([(0, fixed(A)), (1, fixed(B)), (2, fixed(C))])
MIXED = on_disk(A) + NO_FILE + BAD_PAIR + BAD_ARRAY + on_disk(C)
MIXED_TABLE = table([(0, fixed(A)), (4, fixed(C))])


def fresh(test, name):
    """A new folder of the room."""
    path = os.path.join(test.room, name)
    os.mkdir(path)
    return path


def hold(test, text, words, status, out, said):
    """How a run on these bytes goes, by a file and by standard input, named and not. `said` has a place for the
    name."""
    path = test.file("x.mft", text)
    told = said.replace("NAME", "standard input")
    test.same(test.run("extract", *words, path), status, out, said.replace("NAME", path))
    test.same(test.run("extract", *words, "-", input=text), status, out, told)
    test.same(test.run("extract", *words, input=text), status, out, told)


# Tables.

def test_a_difference_is_noticed(test):
    """A comparison that never fails shows nothing."""
    test.notices(test.run("extract", test.file("x.mft", SOUND)))


def test_records_are_fixed_up(test):
    """Each sound record is in the table under its number, others are counted, and the first that is refused is
    told."""
    hold(test, SOUND, (), 0, SOUND_TABLE, counts(3, 0, 0))
    hold(test, MIXED, (), 1, MIXED_TABLE, counts(2, 1, 2) + refusal("NAME", 2, "2", PAIR))
    hold(test, BAD_ARRAY + BAD_PAIR, (), 1, EMPTY, counts(0, 0, 2) + refusal("NAME", 0, "0", ARRAY))
    hold(test, NO_FILE, ("--size", "1024"), 0, EMPTY, counts(0, 1, 0))
    hold(test, b"", ("--size", "1024"), 0, EMPTY, counts(0, 0, 0))
    # and the program reads what it wrote
    listed = test.run("rows", input=MIXED_TABLE)
    test.same(listed, 0, b"row 0 44 used\nrow 4 1068 used\nend rows 2\n".replace(b"used", b"free"), "")


def test_numbers(test):
    """The number of a record is the first one's and its position, added up."""
    for first in (1, 64, 2 ** 32, 2 ** 48 - 5):
        rows = [(first, fixed(A)), (first + 4, fixed(C))]
        said = counts(2, 1, 2) + refusal("NAME", 2, first + 2, PAIR)
        hold(test, MIXED, ("--first", str(first)), 1, table(rows), said)


def test_numbers_that_are_too_large(test):
    """44 on both sides of its line, with the row's place; a record that is not written may have any number."""
    for first, place in ((2 ** 48 - 4, 32), (2 ** 48 - 1, 32), (2 ** 48, 20), (2 ** 64 - 1, 20)):
        hold(test, MIXED, ("--first", str(first)), 2, b"", "NAME: " + LATE % place + "\n")
    refused = NO_FILE + BAD_PAIR
    size = ("--size", "1024", "--first")
    for first, told in (
        (2 ** 48, 2 ** 48 + 1), (2 ** 64 - 2, 2 ** 64 - 1), (2 ** 64 - 1, "2^64 or above")):
        said = counts(0, 1, 1) + refusal("NAME", 1, told, PAIR)
        hold(test, refused, (*size, str(first)), 1, EMPTY, said)


def test_record_sizes(test):
    """Every size that there is, told and named."""
    for size in range(512, 4097, 512):
        one, two = whole(b"a", size), whole(b"b", size)
        expected = table([(0, fixed(one)), (1, fixed(two))], size)
        for words in ((), ("--size", str(size))):
            hold(test, on_disk(one) + on_disk(two), words, 0, expected, counts(2, 0, 0))


def test_record_sizes_that_are_not(test):
    """1 where the size is named; and it has to be named where the front tells none."""
    for size in (0, 1, 64, 511, 513, 768, 4608, 2 ** 32 + 512, 2 ** 64 - 1):
        hold(test, SOUND, ("--size", str(size)), 2, b"", "NAME: " + SIZE % size + "\n")
    for size in (0, 64, 768, 1000, 4608, 2 ** 32 - 1):
        hold(test, on_disk(whole(b"a", allocated=size)), (), 2, b"", "NAME: " + UNTOLD + "\n")
    for text in (b"", b"FILE", NO_FILE + SOUND, with_used(SOUND, 3073), SOUND[:1000] + b"x", b"FILE" + bytes(60)):
        hold(test, text, (), 2, b"", "NAME: " + UNTOLD + "\n")
    # the front is 4,096 bytes, whatever the size is, and its used size may be as large
    long = with_used(SOUND + SOUND, 4096)
    assert test.run("extract", input=long)[0] == 0 and test.run("extract", input=with_used(long, 4097))[0] == 2
    # a size that is named is not compared with what the front tells
    one = on_disk(whole(b"a", allocated=4096))
    hold(test, one, ("--size", "1024"), 0, table([(0, fixed(whole(b"a", allocated=4096)))]), counts(1, 0, 0))


def test_broken_extracts(test):
    """1 where the last record is broken off."""
    for more in (1, 512, 1023):
        said = "NAME: " + BROKEN % more + "\n"
        hold(test, SOUND + bytes(more), ("--size", "1024"), 2, b"", said)
    hold(test, b"FILE", ("--size", "512"), 2, b"", "NAME: " + BROKEN % 4 + "\n")


def test_more_rows_than_a_table_has(test):
    """34 on both sides of its line, behind 44; what is not written is no row."""
    one = on_disk(whole(b"a", 512))
    rows = [(n, fixed(whole(b"a", 512))) for n in range(4096)]
    status, out, said = test.run("extract", input=one * 4096 + bytes(512))
    test.same((status, out == table(rows, 512), said), 0, True, counts(4096, 1, 0))
    hold(test, one * 4097, (), 2, b"", "NAME: " + MANY + "\n")
    hold(test, one * 4097, ("--first", str(2 ** 48 - 4096)), 2, b"", "NAME: " + LATE % (20 + 12 * 4096) + "\n")
    last = table([(4096, rows[0][1])], 512)
    hold(test, one * 4097, ("--from", "4096"), 0, last, counts(1, 0, 0))
    status, out, said = test.run("extract", "--count", "4096", input=one * 4097)
    test.same((status, out == table(rows, 512), said), 0, True, counts(4096, 0, 0))


# Parts.

def test_parts(test):
    """A part has the numbers that its records have in the whole, and its refused records their positions."""
    for words, rows in (
        (("--from", "0"), (0, 1, 2)), (("--from", "1"), (1, 2)), (("--from", "2", "--count", "1"), (2,)),
        (("--count", "2"), (0, 1)), (("--count", "0"), ()), (("--from", "1", "--count", "1"), (1,)),
        (("--count", str(2 ** 64 - 1)), (0, 1, 2)), (("--from", "1", "--count", "99"), (1, 2))):
        for first in (0, 7):
            expected = table([(first + row, fixed((A, B, C)[row])) for row in rows])
            named = ("--first", str(first), *words)
            hold(test, SOUND, named, 0, expected, counts(len(rows), 0, 0))
            hold(test, SOUND, ("--size", "1024", *named), 0, expected, counts(len(rows), 0, 0))
    said = counts(1, 0, 1) + refusal("NAME", 3, "12", ARRAY)
    hold(test, MIXED, ("--first", "9", "--from", "3"), 1, table([(13, fixed(C))]), said)


def test_parts_past_the_end(test):
    """A part that begins past the end is an empty extract."""
    for begin in (3, 4, 5, 2 ** 32, 2 ** 53, 2 ** 54, 2 ** 63, 2 ** 64 - 1):
        for words in ((), ("--size", "1024"), ("--count", "2")):
            hold(test, SOUND, ("--from", str(begin), *words), 0, EMPTY, counts(0, 0, 0))
    hold(test, b"", ("--size", "512", "--from", "1"), 0, table([], 512), counts(0, 0, 0))


def test_parts_with_large_numbers(test):
    """The numbers of a part don't wrap."""
    first = ("--first", str(2 ** 64 - 2), "--from")
    hold(test, SOUND, (*first, "1"), 2, b"", "NAME: " + LATE % 20 + "\n")
    hold(test, SOUND, (*first, "2"), 2, b"", "NAME: " + LATE % 20 + "\n")
    for begin, position, number in ((1, 2, "2^64 or above"), (2, 2, "2^64 or above"), (0, 0, 2 ** 64 - 2)):
        text = (BAD_PAIR if begin == 0 else NO_FILE) + NO_FILE + BAD_PAIR
        refused = 1 + (begin == 0)
        said = counts(0, 2 - begin + (begin == 0) * -1, refused) + refusal("NAME", position, number, PAIR)
        hold(test, text, ("--size", "1024", *first, str(begin)), 1, EMPTY, said)
    # where the number of the last but one is the largest that there is
    said = counts(0, 0, 1) + refusal("NAME", 1, 2 ** 64 - 1, PAIR)
    hold(test, NO_FILE + BAD_PAIR, ("--size", "1024", *first, "1"), 1, EMPTY, said)


def test_a_part_alone_is_checked(test):
    """Neither a broken end nor too many rows outside of the part matter."""
    size = ("--size", "1024")
    hold(test, SOUND + b"x", (*size, "--count", "3"), 0, SOUND_TABLE, counts(3, 0, 0))
    hold(test, SOUND + b"x", (*size, "--from", "2"), 2, b"", "NAME: " + BROKEN % 1 + "\n")
    hold(test, SOUND + b"x", (*size, "--from", "4"), 0, EMPTY, counts(0, 0, 0))
    # nor does the size have to be told where the front is long enough
    hold(test, SOUND + SOUND + b"x", ("--count", "3"), 0, SOUND_TABLE, counts(3, 0, 0))


def little():
    """Little address space, and an end for a run that never comes to one of its own."""
    resource.setrlimit(resource.RLIMIT_AS, (LITTLE, LITTLE))
    resource.setrlimit(resource.RLIMIT_CPU, (running.DEADLINE, running.DEADLINE))


def test_no_more_is_read_than_matters(test):
    """What is behind the part stays unread, and of a file also what is in front of it."""
    given = {"preexec_fn": little}
    for words, taken in (
        (("--size", "1024", "--count", "2"), 2048), (("--size", "1024", "--from", "1", "--count", "2"), 3072),
        (("--size", "1024", "--count", "0"), 0), (("--size", "100"), 0), (("--count", "2"), 4096),
        (("--count", "6"), 6144)):
        for path in (test.disk(SOUND), test.file("x.mft", SOUND + SOUND)):
            test.same((test.taken_of_file(path, "extract", *words, **given)[1],), taken)
        test.same((test.taken_of_pipe(SOUND, "extract", *words, **given)[1],), taken)
    # a terabyte is passed over
    disk = test.disk(SOUND)
    with open(disk, "r+b") as held:
        held.seek(10 ** 9 * 1024)
        held.write(on_disk(B))
    rows = table([(10 ** 9, fixed(B))])
    words = ("--from", str(10 ** 9), "--count", "3")
    test.same(test.run("extract", *words, disk, **given), 0, rows, counts(1, 2, 0))


def test_inputs_without_end(test):
    """A part of one is taken; else memory runs out, and that is said."""
    for words in (("--size", "512", "--count", "5"), ("--size", "512", "--from", "9", "--count", "5")):
        test.same(test.run("extract", *words, "/dev/zero", preexec_fn=little), 0, table([], 512), counts(0, 5, 0))
    said = "/dev/zero: out of memory\n"
    test.same(test.run("extract", "--size", "512", "/dev/zero", preexec_fn=little), 3, b"", said)
    test.same(test.run("extract", "/dev/zero", preexec_fn=little), 2, b"", "/dev/zero: " + UNTOLD + "\n")


def test_inputs_in_pieces(test):
    """What comes a byte at a time is read as one that is there at once."""
    reader, writer = os.pipe()
    with subprocess.Popen(
        [*test.command, "extract", "--from", "1"], stdin=reader, stdout=subprocess.PIPE,
        stderr=subprocess.PIPE) as run:
        os.close(reader)
        for at in range(len(MIXED)):
            os.write(writer, MIXED[at:at + 1])
        os.close(writer)
        out, said = run.communicate(timeout=running.DEADLINE)
    told = counts(1, 1, 2) + refusal("standard input", 2, 2, PAIR)
    test.same((run.returncode, out, said.decode()), 1, table([(4, fixed(C))]), told)
    # and a pipe that is named, which can't be gone to a place of
    path = os.path.join(test.room, "fifo")
    os.mkfifo(path)
    feeder = threading.Thread(target=feed, args=(path, MIXED))
    feeder.start()
    told = counts(1, 0, 1) + refusal(path, 3, 3, ARRAY)
    test.same(test.run("extract", "--from", "3", path), 1, table([(4, fixed(C))]), told)
    feeder.join()


def feed(path, text):
    """Writes to a pipe that has a name."""
    with open(path, "wb") as out:
        out.write(text)


# Inputs that can't be read, and usage.

def closed(number):
    """What leaves a run without one of its standard streams."""
    return lambda: os.close(number)


def test_inputs_that_cannot_be_read(test):
    """A missing file, a folder, and a closed standard input: 3, in the system's words; an older table stays."""
    folder = fresh(test, "unread")
    old, gone = test.file("unread/old.tab", b"old"), os.path.join(folder, "gone")
    for words in ((), ("--size", "512"), ("--from", "3"), ("-o", old)):
        test.same(test.run("extract", *words, gone), 3, b"", "%s: No such file or directory (os error 2)\n" % gone)
        test.same(test.run("extract", *words, test.room), 3, b"", "%s: Is a directory (os error 21)\n" % test.room)
        said = "standard input: Bad file descriptor (os error 9)\n"
        test.same(test.run("extract", *words, "-", stdin=None, preexec_fn=closed(0)), 3, b"", said)
    test.same((read(old), os.listdir(folder)), b"old", ["old.tab"])


def test_usage(test):
    """A command line that is wrong: 64, and nothing is written."""
    old = test.file("old.tab", b"old")
    test.same(test.run("extract"), 64, b"", USAGE)
    test.same(test.run("extract", "-o", old), 64, b"", USAGE)
    test.same(test.run("extract", stdin=None, preexec_fn=closed(0)), 64, b"", USAGE)
    for words in (
        ("--size", "x", "a"), ("--size",), ("--first", "-1", "a"), ("--first", str(2 ** 64), "a"), ("--from",),
        ("--from", "1.5", "a"), ("--count", "", "a"), ("-o",), ("-o", old, "-o", old, "a"), ("a", "b"),
        ("--json", "a"), ("--base", "1", "a"), ("--size", "512", "--size", "512", "a"), ("--output", old, "a")):
        status, out, said = test.run("extract", *words)
        test.same((status, out, bool(said)), 64, b"", True)
    test.same((read(old),), b"old")


def test_names_are_shown(test):
    """A name is shown in bytes that print, before each kind of message."""
    for name, shown in (("a\nwritten 9", "a\\nwritten 9"), ("\u00fc.mft", "\\xc3\\xbc.mft")):
        for text, words, status, out, said in (
            (MIXED, (), 1, MIXED_TABLE, counts(2, 1, 2) + refusal("NAME", 2, 2, PAIR)),
            (b"", (), 2, b"", "NAME: " + UNTOLD + "\n")):
            path = test.file(name, text)
            test.same(test.run("extract", *words, path), status, out, said.replace("NAME", test.room + "/" + shown))
            os.remove(path)


# Where the table goes.

def hold_file(test, given, words, status, said, written=None):
    """A run whose table goes to a file, where none was and where one was: how it goes, that the file has this table, or
    what it had where none is made, and that nothing is left beside it."""
    folder = os.path.join(test.room, "out")
    for before in (None, b"", b"old" * 9999):
        shutil.rmtree(folder, ignore_errors=True)
        os.mkdir(folder)
        path = os.path.join(folder, "x.tab")
        if before is not None:
            test.file("out/x.tab", before)
        test.same(test.run("extract", "-o", path, *words, input=given), status, b"", said)
        after = before if written is None else written
        test.same((os.listdir(folder),), [] if after is None else ["x.tab"])
        test.same((None if after is None else read(path),), after)


def test_files(test):
    """The file has all of the table, where one was and where none was; or is as it was."""
    hold_file(test, SOUND, (), 0, counts(3, 0, 0), SOUND_TABLE)
    said = counts(2, 1, 2) + refusal("standard input", 2, 2, PAIR)
    hold_file(test, MIXED, (), 1, said, MIXED_TABLE)
    hold_file(test, b"", ("--size", "512"), 0, counts(0, 0, 0), table([], 512))
    for given, words, why in (
        (SOUND + b"x", ("--size", "1024"), BROKEN % 1), (SOUND, ("--size", "1000"), SIZE % 1000), (b"", (), UNTOLD),
        (SOUND, ("--first", str(2 ** 48)), LATE % 20), (on_disk(whole(b"a", 512)) * 4097, (), MANY)):
        hold_file(test, given, words, 2, "standard input: %s\n" % why)


def test_the_file_beside(test):
    """A file that an older run left beside the table stays as it is, and is not in the way."""
    folder = fresh(test, "beside")
    path = os.path.join(folder, "x.tab")
    for turn in range(3):
        with open("%s.part.%d" % (path, turn), "wb") as out:
            out.write(b"other")
    test.same(test.run("extract", "-o", path, input=SOUND), 0, b"", counts(3, 0, 0))
    test.same((sorted(os.listdir(folder)),), ["x.tab", "x.tab.part.0", "x.tab.part.1", "x.tab.part.2"])
    test.same((read(path), read(path + ".part.0")), SOUND_TABLE, b"other")
    # the input itself may be replaced, since it is read before
    own = test.file("own", SOUND)
    test.same(test.run("extract", "-o", own, own), 0, b"", counts(3, 0, 0))
    test.same((read(own),), SOUND_TABLE)


def test_links(test):
    """What a link leads to is written, and the link stays one."""
    folder = fresh(test, "linked")
    for name, before in (("old.tab", b"old"), ("new.tab", None)):
        path, link = os.path.join(folder, name), os.path.join(test.room, "link")
        if before is not None:
            test.file("linked/" + name, before)
        os.symlink(path, link)
        test.same(test.run("extract", "-o", link, input=SOUND), 0, b"", counts(3, 0, 0))
        test.same((read(path), os.path.islink(link)), SOUND_TABLE, True)
        os.remove(link)
    test.same((sorted(os.listdir(folder)),), ["new.tab", "old.tab"])


def test_what_is_no_file(test):
    """A device or a pipe is written straight."""
    test.same(test.run("extract", "-o", "/dev/null", input=SOUND), 0, b"", counts(3, 0, 0))
    test.same(test.run("extract", "-o", "/dev/stdout", input=SOUND), 0, SOUND_TABLE, counts(3, 0, 0))
    path = os.path.join(test.room, "pipe")
    os.mkfifo(path)
    found = []
    reader = threading.Thread(target=lambda: found.append(read(path)))
    reader.start()
    test.same(test.run("extract", "-o", path, input=SOUND), 0, b"", counts(3, 0, 0))
    reader.join()
    test.same(tuple(found), SOUND_TABLE)


# a user of whom no file is
NOBODY = 65534


def test_files_that_cannot_be_written(test):
    """74, in the system's words behind the file's name, and nothing is left."""
    for path, why in (
        ("/dev/full", "No space left on device (os error 28)"), (test.room, "Is a directory (os error 21)"),
        (os.path.join(test.room, "no", "x.tab"), "No such file or directory (os error 2)"),
        (os.path.join(test.file("plain", b""), "x.tab"), "Not a directory (os error 20)"),
        ("", "No such file or directory (os error 2)")):
        test.same(test.run("extract", "-o", path, input=SOUND), 74, b"", "nomutanku: %s: %s\n" % (path, why))
    folder = fresh(test, "shut")
    old = test.file("shut/old.tab", b"old")
    os.chmod(folder, 0o555)
    # another user, if this one may write anywhere, and the program where he may read
    given = {"user": NOBODY} if os.geteuid() == 0 else {}
    os.chmod(test.room, 0o755)
    *tools, program = test.command
    mine = shutil.copy(program, test.room)
    for path in (old, os.path.join(folder, "new.tab")):
        found = running.run(*tools, mine, "extract", "-o", path, input=SOUND, **given)
        test.same(found, 74, b"", "nomutanku: %s: Permission denied (os error 13)\n" % path)
    os.chmod(folder, 0o755)
    test.same((read(old), os.listdir(folder)), b"old", ["old.tab"])


def short():
    """A limit on how long a file may grow, without the signal."""
    signal.signal(signal.SIGXFSZ, signal.SIG_IGN)
    resource.setrlimit(resource.RLIMIT_FSIZE, (2000, 2000))


def test_a_write_that_fails(test):
    """A disk that is full in mid-stream leaves the older table whole, and nothing beside it."""
    folder = fresh(test, "full")
    for before in ([], ["x.tab"]):
        for name in before:
            test.file("full/" + name, b"old")
        path = os.path.join(folder, "x.tab")
        said = "nomutanku: %s: File too large (os error 27)\n" % path
        test.same(test.run("extract", "-o", path, input=SOUND, preexec_fn=short), 74, b"", said)
        test.same((os.listdir(folder), [read(folder, name) for name in before]), before, [b"old"] * len(before))


def test_outputs_that_take_nothing(test):
    """The same of standard output; a pipe whose reader went away asked for no more."""
    path = test.file("x.mft", SOUND)
    said = "nomutanku: standard output: %s\n"
    with open("/dev/full", "wb") as full:
        why = "No space left on device (os error 28)"
        test.same(test.run("extract", path, stdout=full), 74, None, said % why)
    found = test.run("extract", path, stdout=None, preexec_fn=closed(1))
    test.same(found, 74, None, said % "Bad file descriptor (os error 9)")
    for restored in (True, False):
        reader, writer = os.pipe()
        os.close(reader)
        test.same(test.run("extract", path, stdout=writer, restore_signals=restored), 74, None, "")
        os.close(writer)
    # nothing is written to it where a file is named
    test.same(test.run("extract", "-o", "/dev/null", path, stdout=None, preexec_fn=closed(1)), 0, None, counts(3, 0, 0))


def test_standard_error_that_takes_nothing(test):
    """It changes no status, and no table."""
    path = test.file("x.mft", MIXED)
    for words, status, expected in (((), 1, MIXED_TABLE), (("--size", "3"), 2, b"")):
        with open("/dev/full", "wb") as full:
            done = subprocess.run(
                [*test.command, "extract", *words, path], stdout=subprocess.PIPE, stderr=full,
                timeout=running.DEADLINE)
        test.same((done.returncode, done.stdout), status, expected)


def test_little_memory(test):
    """Under a rising limit of address space: 3 with its words and the older table, or all of the table; nothing
    else."""
    path = test.file("x.mft", SOUND * 700)
    expected = table([(n, fixed((A, B, C)[n % 3])) for n in range(2100)])
    said = {"%s: out of memory\n" % path, "nomutanku: out of memory\n",
            "%s: Cannot allocate memory (os error 12)\n" % path}
    made_in_little_memory(test, ("extract", path), said, expected, counts(2100, 0, 0))


main = suite.of(Nomutanku, Nomutanku.finish)

if __name__ == "__main__":
    main()
