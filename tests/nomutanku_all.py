"""Tests of `nomutanku list --mft MFT --all` and `--find NAME` as built: every base record in use of a raw $MFT is
listed, or those of one name, and what shows that a record may be another file's is told.

The $MFTs are made here by hand, and of the tables of tests/volumes. Expected listings are those of the second reading;
names and warnings are written out.
"""
import os
import re
import resource
import struct
import subprocess
import time

from lib import suite, volumes
from lib.building import entry, list_of, record, resident, table
from lib.on_nomutanku import Nomutanku, whole
from lib.reading import objects
from lib.running import DEADLINE, read, waiting_in
from nomutanku_extract import ARRAY, NO_FILE, PAIR, SECTOR, closed, little
from nomutanku_mft import STOPPED, held_by, mft, protected

SIZE = 1024

# types of attributes
FILE_NAME, DATA = 0x30, 0x80

# where a record's base reference stands
BASE_AT = 32


# Records by hand.

def segment(*attributes, base=(0, 0), size=SIZE, **more):
    """A record in use with these attributes and this reference to a base record, (number, sequence number)."""
    fixup = struct.pack("<HH", 48, size // SECTOR + 1)
    text = bytearray(record(size, *attributes, fixup=fixup, **{"sequence": 1, **more}))
    number, sequence = base
    struct.pack_into("<IHH", text, BASE_AT, number % 2 ** 32, number >> 32, sequence)
    return bytes(text)


def named(name, space=1, instance=1):
    """The attribute of a name, of namespace Win32 where no other is told. A name may be the bytes of its units."""
    units = name if isinstance(name, bytes) else name.encode("utf-16-le")
    value = bytes(64) + bytes((len(units) // 2, space)) + units
    return resident(FILE_NAME, instance, -(-(24 + len(value)) // 8) * 8, len(value), 24, value)


def data(letter):
    """Unnamed data of one letter."""
    return resident(DATA, 7, 32, 8, 24, letter * 8)


def file(name, *attributes, **more):
    """A base record of a file with a name and some data."""
    return segment(named(name), data(b"d"), *attributes, **more)


def blocks(text):
    """A listing as text, and the same as JSON. The names in it have nothing that the two write differently."""
    for block in text.split(b"file ")[1:]:
        front, _, lines = block.partition(b"\n")
        number, has_name, name = front.partition(b" ")
        told = b',"name":"%s"' % name if has_name else b""
        yield b'{"line":"file","number":%s%s}\n%s' % (number, told, objects.of_text(lines))


def listed(records, *numbers, names=None):
    """The lines of these files, of all records that there are; `names` has what stands behind a number, if anything."""
    out = b""
    for number in numbers:
        told = (names or {}).get(number)
        front = b"file %d" % number if told is None else b"file %d %s" % (number, told.encode())
        out += b"%s\n%s" % (front, whole(table(records, number)))
    return out


def hold(test, text, words, status, out, said, first=0):
    """How a run on an $MFT goes, as text and as JSON. `said` has MFT for the file's name."""
    path = test.file("x.mft", text)
    words = ("list", "--mft", path, "--size", str(SIZE), "--first", str(first), *words)
    said = said.replace("MFT", path)
    test.same(test.run(*words), status, out, said)
    test.same(test.run(*words, "--json"), status, b"".join(blocks(out)), said)


# A small $MFT: files, records that belong to one, and what is no base record in use.

RECORDS = {
    0: file("first", sequence=5),
    # an extension of record 0: of its reference only the sequence number is not 0
    1: segment(data(b"a"), base=(0, 5)),
    2: file("gone", flags=0),
    # in use, and a folder
    3: file("folder", flags=3),
    # 4 never was a record, and 5 is zeros
    6: segment(list_of(entry(FILE_NAME, 7, 1, sequence=2), entry(DATA, 8, 7, sequence=3)), sequence=4),
    7: segment(named("Läufer"), base=(6, 4), sequence=2),
    8: segment(data(b"b"), base=(6, 4), sequence=3),
    # of a file whose lists don't know it
    9: segment(data(b"c"), base=(6, 4)),
    10: segment(data(b"e")),
    11: segment(named("SHORT~1", 2), data(b"f")),
    12: file("first"),
}
NONE = {4: NO_FILE[:SIZE].ljust(SIZE, b"\0"), 5: bytes(SIZE)}
FILES = (0, 3, 6, 10, 11, 12)
NAMES = {0: "first", 3: "folder", 6: "Läufer", 12: "first"}


def raw_mft(records=RECORDS, others=NONE):
    """The $MFT of these records, and of what are none."""
    return mft({**{number: protected(text) for number, text in records.items()}, **others}, 0)


TEXT = raw_mft()


# All of them.

def test_a_difference_is_noticed(test):
    """A comparison that never fails shows nothing."""
    test.notices(test.run("list", "--mft", test.file("x.mft", TEXT), "--all"))


def test_base_records_in_use(test):
    """Each is listed, in the order of their numbers; extensions, also of record 0, records not in use, and what begins
    otherwise than with FILE are passed over without a word."""
    hold(test, TEXT, ("--all",), 0, listed(RECORDS, *FILES), "")
    # also where there is none
    for text in (b"", bytes(SIZE), raw_mft({1: RECORDS[1]}), raw_mft({2: RECORDS[2]})):
        hold(test, text, ("--all",), 0, b"", "")


def test_size_and_first(test):
    """The record size is that of the record at the front where none is named, and is told; the first number counts."""
    path = test.file("x.mft", TEXT)
    told = "%s: records of %d bytes\n" % (path, SIZE)
    test.same(test.run("list", "--mft", path, "--all"), 0, listed(RECORDS, *FILES), told)
    # where they stand elsewhere, the lists lead nowhere
    for first in (1, 100, 2 ** 40):
        apart = {number + first: RECORDS[number] for number in (0, 3, 10)}
        text = mft({number: protected(text) for number, text in apart.items()}, first)
        hold(test, text, ("--all",), 0, listed(apart, *apart), "", first)


def test_large_records(test):
    """Records of 512 and of 4,096 bytes."""
    for size in (512, 4096):
        held = {number: segment(data(b"d"), size=size, first=72) for number in (0, 2)}
        path = test.file("x.mft", mft({number: protected(text) for number, text in held.items()}))
        for words in ((), ("--size", str(size))):
            told = "" if words else "%s: records of %d bytes\n" % (path, size)
            test.same(test.run("list", "--mft", path, "--all", *words), 0, listed(held, 0, 2), told)


def test_real_records(test):
    """Of each table of a real volume the base records in use are listed as they are from a table of it."""
    files = 0
    for text in volumes.tables():
        size, _, records = held_by(text)
        path = test.file("x.mft", mft({number: protected(held) for number, held in records.items()}))
        # in use, and no reference
        based = [n for n, held in records.items() if held[22] & 1 and held[BASE_AT:BASE_AT + 8] == bytes(8)]
        expected = listed(records, *based)
        # what a list refers to and is not there stops a listing, or not
        words = ("--size", str(size), "--first", str(min(records)))
        status, out, _ = test.run("list", "--mft", path, "--all", *words)
        test.same((out, status in (0, 1)), expected, True)
        files += len(based)
    assert files > 30, files


# What is broken.

def torn(text):
    """A raw record whose last pair is not the check number."""
    return text[:-2] + bytes((text[-2] ^ 1,)) + text[-1:]


def cut_array(text):
    """A raw record whose array is one number too short."""
    return text[:6] + b"\2\0" + text[8:]


def test_broken_records(test):
    """A record that can't be fixed up is told, whatever it was, and the others are listed; the status is 1."""
    apart = {number: RECORDS[number] for number in (0, 10, 12)}
    out = listed(apart, 0, 10, 12)
    for number in (1, 2, 3):
        for broken, why in ((torn, PAIR), (cut_array, ARRAY)):
            text = raw_mft(apart, {number: broken(protected(RECORDS[number]))})
            said = "MFT: record %d: %s\n" % (number, why)
            hold(test, text, ("--all",), 1, out, said)
    # each of them, in their order among the files
    text = raw_mft(apart, {number: torn(protected(RECORDS[number])) for number in (1, 2, 3)})
    said = "".join("MFT: record %d: %s\n" % (number, PAIR) for number in (1, 2, 3))
    hold(test, text, ("--all",), 1, out, said)


def test_broken_extensions(test):
    """An extension that can't be fixed up is told by itself and by the file whose list refers to it."""
    records = {6: RECORDS[6], 7: RECORDS[7]}
    expected = listed(records, 6)
    assert b"\nstopped 17 " in expected, expected
    text = raw_mft(records, {8: torn(protected(RECORDS[8]))})
    lost = "MFT: record 8, to which a list of record 6 refers: %s\n" % PAIR
    said = lost + "MFT: record 6: %s\nMFT: record 8: %s\n" % (STOPPED, PAIR)
    hold(test, text, ("--all",), 1, expected, said)


def test_file_that_ends_within_a_record(test):
    """What is whole is listed, and the last one is told."""
    out, last = listed(RECORDS, *FILES[:-1]), FILES[-1]
    for cut in (1, SIZE - 1):
        said = "MFT: record %d: the file ends within it\n" % last
        hold(test, TEXT[:-cut], ("--all",), 2, out, said)


# Names.

def test_names(test):
    """A file's name stands behind its number: the first long one, also where it stands in an extension; a file without
    one has its number alone."""
    hold(test, TEXT, ("--all", "--names"), 0, listed(RECORDS, *FILES, names=NAMES), "")
    # also of records that are named, and of one that is an extension
    out = listed(RECORDS, 6, 10, 7, names={**NAMES, 7: "Läufer"})
    hold(test, TEXT, ("--names", "6", "10", "7"), 0, out, warned(7, "it is an extension of record 6"))
    # the first long one of several, whatever its namespace
    for space in (0, 1, 3):
        held = {0: segment(named("DOS", 2), named("one", space), named("other"))}
        hold(test, raw_mft(held, {}), ("--all", "--names"), 0, listed(held, 0, names={0: "one"}), "")
    # a name of no units is one
    held = {0: segment(named(""), named("other"))}
    hold(test, raw_mft(held, {}), ("--all", "--names"), 0, listed(held, 0, names={0: ""}), "")


def test_hidden_characters(test):
    """No name ends a line, speaks to a terminal or turns the direction of what follows."""
    name = "a\n\x1b[2J\\\u202e\"\x7f\u2028z"
    text = 'a\\u{a}\\u{1b}[2J\\\\\\u{202e}"\\u{7f}\\u{2028}z'
    json = 'a\\u000a\\u001b[2J\\\\\\u202e\\"\\u007f\\u2028z'
    held = {0: file(name)}
    path = test.file("x.mft", raw_mft(held, {}))
    lines = whole(table(held, 0))
    for words, front, told in (
        ((), b"file 0 %s\n" % text.encode(), lines),
        (("--json",), b'{"line":"file","number":0,"name":"%s"}\n' % json.encode(), objects.of_text(lines))):
        for more in (("--all",), ("0",), ("--find", name)):
            words_of = ("list", "--mft", path, "--size", str(SIZE), "--names", *words, *more)
            test.same(test.run(*words_of), 0, front + told, "")
    # half a pair of surrogates is no character
    held = {0: file(b"a\0\0\xd8b\0")}
    hold(test, raw_mft(held, {}), ("--all", "--names"), 0, listed(held, 0, names={0: "a\ufffdb"}), "")


# Files by their names.

def unfound(name):
    """The line that is said where no file has a name."""
    return "MFT: found no file with the name %s\n" % name


def test_find(test):
    """Each file of a name is listed, and no other."""
    for name, numbers in (("first", (0, 12)), ("folder", (3,)), ("Läufer", (6,))):
        out = listed(RECORDS, *numbers)
        hold(test, TEXT, ("--find", name), 0, out, "")
        # beside --all it is the same
        hold(test, TEXT, ("--all", "--find", name), 0, out, "")
        hold(test, TEXT, ("--find", name, "--names"), 0, listed(RECORDS, *numbers, names=NAMES), "")
    # any of a file's long names
    held = {0: segment(named("one"), named("other", 0)), 1: file("other")}
    hold(test, raw_mft(held, {}), ("--find", "other"), 0, listed(held, 0, 1), "")
    # past the first 2^16 characters, and of none
    held = {0: file("a\U0001f600"), 1: file("")}
    hold(test, raw_mft(held, {}), ("--find", "a\U0001f600"), 0, listed(held, 0), "")
    hold(test, raw_mft(held, {}), ("--find", ""), 0, listed(held, 1), "")
    hold(test, raw_mft(held, {}), ("--find=",), 0, listed(held, 1), "")


def test_find_nothing(test):
    """No file has a name in other capitals, a front of one, a longer one, one for DOS alone, or one of a record that is
    no base record in use: 2, in words."""
    for name in ("First", "FIRST", "firs", "first ", "irst", "SHORT~1", "gone", "", "none"):
        hold(test, TEXT, ("--find", name), 2, b"", unfound(name))
    hold(test, TEXT, ("--find", "a\nb"), 2, b"", unfound("a\\nb"))
    for text in (b"", bytes(SIZE)):
        hold(test, text, ("--find", "first"), 2, b"", unfound("first"))


def test_find_where_not_all_names_are_known(test):
    """A file whose listing stops has the names in front of that. What name it has behind it is not known, and that is
    told; so it is of a record that can't be fixed up."""
    short = struct.pack("<II", DATA, 8) + bytes(8)
    records = {0: file("first"), 1: segment(named("other"), short), 2: file("last")}
    why = "the attribute's length is under 16"
    text = raw_mft(records, {})
    assert b"\nstopped 4 " in listed(records, 1)
    may = "MFT: record 1 may have the name too, its listing stops: %s (4)\n" % why
    hold(test, text, ("--all",), 1, listed(records, 0, 1, 2), "MFT: record 1: the listing stops: %s (4)\n" % why)
    hold(test, text, ("--find", "other"), 1, listed(records, 1), "MFT: record 1: the listing stops: %s (4)\n" % why)
    hold(test, text, ("--find", "first"), 1, listed(records, 0), may)
    hold(test, text, ("--find", "last"), 1, listed(records, 2), may)
    hold(test, text, ("--find", "none"), 2, b"", may + unfound("none"))
    broken = {1: torn(protected(records.pop(1)))}
    said = "MFT: record 1: %s\n" % PAIR
    hold(test, raw_mft(records, broken), ("--find", "last"), 1, listed(records, 2), said)
    hold(test, raw_mft(records, broken), ("--find", "other"), 2, b"", said + unfound("other"))


# What shows that a record may be another file's.

def warned(number, *hazards):
    """The lines that are said of a file."""
    return "".join("MFT: warning: file %d: %s\n" % (number, hazard) for hazard in hazards)


def hold_hazards(test, records, number, *hazards):
    """The hazards of a file are told, and change no status unless that is asked for."""
    out, said = listed(records, number), warned(number, *hazards)
    for words in ((str(number),), ("--all",)):
        if words == ("--all",) and [n for n, held in records.items() if is_based(held)] != [number]:
            continue
        hold(test, raw_mft(records, {}), words, 0, out, said)
        hold(test, raw_mft(records, {}), (*words, "--strict"), 1 if hazards else 0, out, said)


def is_based(held):
    """Whether a record is a base record in use."""
    return bool(held[22] & 1) and held[BASE_AT:BASE_AT + 8] == bytes(8)


def test_hazards(test):
    """Of a record that a list refers to: another sequence number, not in use, and no base record, or another one."""
    reused = "entry at 80 names record 7 by sequence number 2, and that has %d"
    stale = "record 7 refers back by sequence number %d, and the file has another"
    other = "record 7 has record %d for its base record"
    own = {number: RECORDS[number] for number in (6, 8)}
    for more, hazards in (
        ({}, ()), ({"base": (6, 0)}, ()), ({"sequence": 3}, (reused % 3,)), ({"sequence": 0}, (reused % 0,)),
        ({"flags": 0}, ("record 7 is not in use",)), ({"flags": 2}, ("record 7 is not in use",)),
        ({"base": (0, 0)}, ("record 7 has no base record",)), ({"base": (0, 4)}, (other % 0,)),
        ({"base": (70, 4)}, (other % 70,)), ({"base": (2 ** 32 + 6, 4)}, (other % (2 ** 32 + 6),)),
        ({"base": (6, 3)}, (stale % 3,)), ({"base": (6, 5)}, (stale % 5,)), ({"base": (7, 2)}, (other % 7,)),
        ({"sequence": 9, "flags": 0, "base": (8, 1)}, (reused % 9, "record 7 is not in use", other % 8))):
        held = segment(named("Läufer"), **{"base": (6, 4), "sequence": 2, **more})
        hold_hazards(test, {**own, 7: held}, 6, *hazards)


def test_hazards_of_a_base_record(test):
    """One that is named: not in use, or another's extension; and an entry that names it by another sequence number."""
    hold_hazards(test, {2: RECORDS[2]}, 2, "record 2 is not in use")
    hold_hazards(test, {9: RECORDS[9]}, 9, "it is an extension of record 6")
    hold_hazards(test, {1: RECORDS[1]}, 1, "it is an extension of record 0")
    held = segment(base=(9, 1), flags=2)
    hold_hazards(test, {9: held}, 9, "record 9 is not in use", "it is an extension of record 9")
    for sequence, hazards in (
        (4, ()), (0, ()), (3, ("entry at 80 names record 6 by sequence number 3, and that has 4",))):
        held = segment(list_of(entry(DATA, 6, 7, sequence=sequence)), data(b"d"), sequence=4)
        hold_hazards(test, {6: held}, 6, *hazards)


def test_hazards_of_several(test):
    """Those of each file are told, and one is enough for 1; a worse status stays."""
    # a base record that was given to another file since, and its old extensions
    records = {**RECORDS, 6: segment(list_of(entry(FILE_NAME, 7, 1, sequence=2)), sequence=5)}
    other = "record 7 refers back by sequence number 4, and the file has another"
    out = listed(records, *FILES)
    hold(test, raw_mft(records), ("--all",), 0, out, warned(6, other))
    hold(test, raw_mft(records), ("--all", "--strict"), 1, out, warned(6, other))
    # not told where the file is not listed
    hold(test, raw_mft(records), ("--find", "folder", "--strict"), 0, listed(records, 3), "")
    hold(test, raw_mft(records), ("--find", "Läufer", "--strict"), 1, listed(records, 6), warned(6, other))
    said = warned(6, other) + "MFT: record 4: it begins otherwise than with FILE\n"
    hold(test, raw_mft(records), ("--strict", "6", "4"), 2, listed(records, 6), said)


# Usage.

def test_usage(test):
    """A command line that is wrong: 64, in words, and nothing is listed."""
    path = test.file("x.mft", TEXT)
    alone = "--size, --first, --all, --find, --names and --strict go with --mft alone"
    none = "--all and --find go over all base records in use: name none beside them"
    file = "--mft wants a file, which can be gone to places of, and not standard input"
    for words, why in (
        (("--all", path), alone), (("--find", "first", path), alone), (("--names", path), alone),
        (("--strict", path), alone), (("--all",), alone), (("--all", "--base", "0", path), alone),
        (("--mft", path, "--all", "0"), none), (("--mft", path, "--find", "first", "0"), none),
        (("--mft", path, "--all", "--find", "first", "0"), none), (("--mft", path, "--find", "first", ""), none),
        (("--mft", path), "--mft wants the numbers of records, or --all, or --find"),
        (("--mft", path, "--names", "--strict"), "--mft wants the numbers of records, or --all, or --find"),
        (("--mft", path, "--all", "--base", "0"), "--base does not go with --mft: name the records"),
        (("--mft", "-", "--all"), file), (("--mft", "-", "--find", "first"), file)):
        found = test.run("list", *words, input=TEXT)
        test.same(found, 64, b"", "nomutanku: %s: nomutanku list --help\n" % why)
    for words in (
        ("--mft", path, "--find"), ("--mft", path, "--all", "--all"), ("--mft", path, "--find", "a", "--find", "b"),
        ("--mft", path, "--all=true"), ("--mft", path, "--name", "0")):
        status, out, said = test.run("list", *words)
        test.same((status, out, bool(said)), 64, b"", True)
    for command in ("rows", "record", "extract"):
        for option in ("--all", "--names", "--strict", "--find=first"):
            status, out, said = test.run(command, option, path)
            test.same((status, out, bool(said)), 64, b"", True)


# Files that can't be read, outputs and memory.

def test_inputs_that_cannot_be_read(test):
    """A missing file, and one whose front tells no record size."""
    gone = os.path.join(test.room, "gone")
    said = "%s: No such file or directory (os error 2)\n" % gone
    for words in (("--all",), ("--find", "first")):
        test.same(test.run("list", "--mft", gone, *words), 3, b"", said)
        path = test.file("x.mft", bytes(4096))
        why = "no table: the record at its front tells no record size: name it by --size"
        test.same(test.run("list", "--mft", path, *words), 2, b"", "%s: %s\n" % (path, why))


def test_outputs_that_take_nothing(test):
    """A full disk is 74, in the system's words; a pipe whose reader went away asked for no more."""
    path = test.file("x.mft", TEXT)
    for words in (("--all",), ("--find", "first")):
        words = ("list", "--mft", path, "--size", str(SIZE), *words)
        with open("/dev/full", "wb") as full:
            why = "nomutanku: standard output: No space left on device (os error 28)\n"
            test.same(test.run(*words, stdout=full), 74, None, why)
        found = test.run(*words, stdout=None, preexec_fn=closed(1))
        test.same(found, 74, None, "nomutanku: standard output: Bad file descriptor (os error 9)\n")
        reader, writer = os.pipe()
        os.close(reader)
        test.same(test.run(*words, stdout=writer), 74, None, "")
        os.close(writer)


def test_lines_come_before_what_is_said(test):
    """Where both go to one place, what is said of a file stands behind its lines."""
    records = {6: segment(list_of(entry(FILE_NAME, 7, 1, sequence=2)), sequence=5), 7: RECORDS[7], 10: RECORDS[10]}
    path = test.file("x.mft", raw_mft(records, {}))
    other = "record 7 refers back by sequence number 4, and the file has another"
    expected = listed(records, 6) + warned(6, other).replace("MFT", path).encode() + listed(records, 10)
    with open(test.file("both", b""), "wb") as both:
        done = subprocess.run(
            [*test.command, "list", "--mft", path, "--size", str(SIZE), "--all"], stdin=subprocess.DEVNULL,
            stdout=both, stderr=both, timeout=DEADLINE)
    test.same((done.returncode, read(test.room, "both")), 0, expected)


def slow_run(test, path, errors):
    """Goes over a file, with this for standard error, where nobody takes the lines for more than a second once a pipe
    is full of them."""
    words = [*test.command, "list", "--mft", path, "--size", str(SIZE), "--all"]
    with subprocess.Popen(words, stdin=subprocess.DEVNULL, stdout=subprocess.PIPE, stderr=errors) as run:
        before, held = -1, 0
        while held == 0 or before < held:
            time.sleep(0.3)
            before, held = held, waiting_in(run.stdout)
        time.sleep(1.2)
        out = run.stdout.read()
    return run.returncode, out


def test_someone_who_reads_along(test):
    """Where standard error is a terminal, how far the file is read is told there, each time a second has gone by;
    elsewhere not."""
    # two million bytes, whose lines fill a pipe
    number, held = 2000, protected(RECORDS[10])
    path = test.file("x.mft", held * number)
    expected = b"".join(listed({n: RECORDS[10]}, n) for n in range(number))
    master, slave = os.openpty()
    test.same(slow_run(test, path, slave), 0, expected)
    os.write(slave, b"behind\n")
    # a terminal gives what was written to it in pieces
    said = ""
    while not said.endswith("behind\r\n"):
        said += os.read(master, 10_000).decode()
    os.close(slave)
    os.close(master)
    lines = said.removesuffix("behind\r\n")
    told = re.fullmatch("(?:nomutanku: %s: [012] MB read\r\n)+" % re.escape(path), lines)
    test.same((bool(told), lines), True, lines)
    with open(test.file("said", b""), "wb") as errors:
        test.same(slow_run(test, path, errors), 0, expected)
    test.same((read(test.room, "said"),), b"")


def test_little_memory(test):
    """Of a file that is larger than memory all base records in use are listed."""
    path = test.file("x.mft", TEXT)
    at = 2 ** 28 // SIZE
    far = {at: RECORDS[0], at + 1: RECORDS[10]}
    with open(path, "r+b") as held:
        held.seek(SIZE * at)
        held.write(b"".join(protected(text) for text in far.values()))
    for words in ((), ("--names",)):
        names = {**NAMES, at: "first"} if words else {}
        found = test.run("list", "--mft", path, "--size", str(SIZE), "--all", *words, preexec_fn=little)
        test.same(found, 0, listed({**RECORDS, **far}, *FILES, *far, names=names), "")
    found = test.run("list", "--mft", path, "--size", str(SIZE), "--find", "first", preexec_fn=little)
    test.same(found, 0, listed({**RECORDS, **far}, 0, 12, at), "")


def test_rising_memory(test):
    """Under a rising limit of address space: 3 with its words and a front of the lines, or all of them."""
    path = test.file("x.mft", TEXT)
    words = ("list", "--mft", path, "--size", str(SIZE), "--all", "--names")
    expected = listed(RECORDS, *FILES, names=NAMES)
    said = {"%s: out of memory\n" % path, "nomutanku: out of memory\n"}
    cut, fine = 0, 0
    for limit in range(2 ** 20, 2 ** 23, 2 ** 16):
        try:
            status, out, told = test.run(
                *words, preexec_fn=lambda: resource.setrlimit(resource.RLIMIT_AS, (limit, limit)))
        except (OSError, subprocess.SubprocessError):
            continue
        # 127 and signals are the loader's, which has no room for the program itself
        if status == 127 or status < 0:
            assert cut == fine == 0, (limit, status)
        elif status == 0:
            test.same((out, told), expected, "")
            fine += 1
        else:
            test.same((status, expected.startswith(out), told in said), 3, True, True)
            cut += 1
    assert fine, (cut, fine)
    print("%d runs short of memory and %d not" % (cut, fine))


main = suite.of(Nomutanku, Nomutanku.finish)

if __name__ == "__main__":
    main()
