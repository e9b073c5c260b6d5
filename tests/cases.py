"""Runs the program listing on whole tables and compares whole listings, byte for byte.

On every table of tests/cases and tests/volumes, against the listing kept beside it; on random and damaged tables,
against the second reading, one run each; on inputs that are too long, come in pieces or cannot be read, on outputs that
cannot be written, and with little memory. Every run's exit status and words are asserted.
"""
import ctypes
import errno
import fcntl
import mmap
import os
import random
import resource
import shutil
import subprocess
import sys
import tempfile
import time

import listing_cases
import runs
from lib import programs, random_runs, running, suite
from lib.reading.listing import MOST
from lib.reading.listing import listing as listing_read
from lib.running import read

FOLDER = running.CASES
OTHERS = os.path.join(programs.TESTS, "volumes")
SAMPLE = os.path.join(programs.ROOT, "crates", "listing")
SEED = 20240618
RANDOM = 8000

# The exit status by the first word of a listing's last line, and of a run without a whole listing.
STATUSES = {b"end": 0, b"stopped": 1, b"table": 2}
UNREAD, UNWRITTEN = 3, 74
# that of a loader which can't load the program
LOADER = 127

# What the program says on standard error, in one line.
EMPTY = "listing: the input is empty\n"
NO_MEMORY = "listing: out of memory; nothing is listed\n"

REFUSED = b"table refused 21\n"
WHOLE = listing_cases.WHOLE_LISTING.encode()

# What the kept listings must have between them: each refusal that a listing can print (tests/cases/README.md says
# which cannot).
NEEDED = {
    "table refused 21",
    *("stopped %d" % n for n in (2, 3, 4, 5, 6, 7, 10, 11, 13, 14, 15, 16, 17, 18, 27, 28, 31)),
    *("name refused %d" % n for n in (8, 9)),
    *("value refused %d" % n for n in (7, 10, 11, 12)),
    *("value parts 0 refused %d" % n for n in (7, 12)),
    *("value parts 1 refused %d" % n for n in (2, 3, 4, 5, 6, 7, 12, 14, 15, 16, 17, 18, 19, 27, 28, 31)),
    *("run refused %d" % n for n in (23, 24, 25, 26)),
}
NEVER = {"stopped %d" % n for n in (1, 8, 9, 12, 19, 20, 21, 22)}


# Comparing.

def difference(expected, found):
    """None where two listings are the same bytes, else (number, expected, found) of the first line that differs."""
    if expected == found:
        return None
    ours, theirs = expected.split(b"\n"), found.split(b"\n")
    k = next((k for k, pair in enumerate(zip(ours, theirs)) if pair[0] != pair[1]), min(len(ours), len(theirs)))
    return k + 1, *(lines[k] if k < len(lines) else b"nothing more" for lines in (ours, theirs))


def shown(name, found):
    line, expected, got = found
    return "%s: line %d differs\n    expected %r\n    found    %r" % (
        name, line, expected.decode("ascii", "replace"), got.decode("ascii", "replace"))


def last_line(listing):
    return listing[:-1].split(b"\n")[-1]


class Listing(running.Runner):
    """Runs the program, each time on the whole of an input."""

    def __init__(self):
        super().__init__("listing", programs.command("listing"))

    def on(self, text):
        """What it writes to these bytes, from a file."""
        with tempfile.TemporaryFile() as given:
            given.write(text)
            given.seek(0)
            return self.on_file(given, text == b"")

    def on_file(self, given, is_empty=False):
        """What it writes to an open file."""
        return self.ended(self.run(stdin=given), is_empty)

    def on_pipe(self, text):
        """The same from a pipe."""
        return self.ended(self.run(input=text), text == b"")

    def ended(self, found, is_empty):
        """The listing of a run; its exit status is what the last line says, and only an empty input has a word said of
        it."""
        status = STATUSES.get(last_line(found[1]).split(b" ")[0])
        self.same(found, status, found[1], EMPTY if is_empty else "")
        return found[1]


# The folders.

def names_in(folder):
    """The cases that a folder must have."""
    if os.path.basename(folder) == "cases":
        return [case.name for case in listing_cases.cases()] + list(listing_cases.VOLUMES)
    return list(listing_cases.OTHERS)


def kept(folder):
    """name -> (table, listing) of a folder. A case that is missing ends the test, and so does a file that no case
    has."""
    wanted = {name + end for name in names_in(folder) for end in (".tab", ".txt")}
    there = {name for name in os.listdir(folder) if name != "README.md"}
    if wanted - there:
        sys.exit("missing in %s: %s" % (os.path.basename(folder), ", ".join(sorted(wanted - there))))
    if there - wanted:
        sys.exit("no case of %s: %s" % (os.path.basename(folder), ", ".join(sorted(there - wanted))))
    return {name: (read(folder, name + ".tab"), read(folder, name + ".txt")) for name in names_in(folder)}


def differences(test, cases):
    """(name, difference) of each case whose listing differs."""
    found = ((name, difference(listing, test.on(text))) for name, (text, listing) in cases.items())
    return [(name, d) for name, d in found if d]


def stop_at(different, of):
    for name, d in different[:5]:
        print(shown(name, d))
    if different:
        sys.exit("%d of %d listings differ" % (len(different), of))


def all_kept():
    """name -> (table, listing) of both folders."""
    found = {**kept(FOLDER), **kept(OTHERS)}
    assert len(found) == len(names_in(FOLDER)) + len(names_in(OTHERS))
    return found


def test_kept_files(test):
    """The kept files are what tests/make_cases writes, and have the lines that were written by hand."""
    tables = all_kept()
    by_hand = {case.name: case for case in listing_cases.cases()}
    for name, (text, listing) in tables.items():
        d = difference(listing_read(text), listing)
        if d:
            sys.exit(
                shown(name, d) + "\nthe second reading and the kept listing differ: tests/make_cases writes it anew")
        if name in by_hand:
            if text != by_hand[name].text or listing_cases.missing(by_hand[name], listing):
                sys.exit("%s is not the case of tests/listing_cases.py" % name)
    sample = (read(SAMPLE, "stdin"), read(SAMPLE, "stdout"))
    if sample != (listing_cases.WHOLE, listing_cases.WHOLE_LISTING.encode()) or sample != tables["whole"]:
        sys.exit("crates/listing/stdin and stdout are not the whole case of docs/RULES.md")


def test_kept_refusals(test):
    """The kept listings have each refusal between them that there can be, and none that there cannot."""
    found = [word for _, listing in all_kept().values() for word in listing_cases.refusals(listing.decode("ascii"))]
    missing = NEEDED - set(found)
    if missing:
        sys.exit("refusals that no case has: %s" % sorted(missing))
    assert not NEVER & set(found) and not any(word.endswith(" refused 20") for word in found)
    print("listing: %d kinds of refusal" % len(set(found)))


def test_kept_listings(test):
    """Every table of both folders has the listing that is kept beside it."""
    tables = all_kept()
    stop_at(differences(test, tables), len(tables))
    print("listing: %d tables, %d lines, as kept" % (len(tables), sum(c[1].count(b"\n") for c in tables.values())))


def test_a_difference_is_noticed(test):
    """A comparison that never fails shows nothing: one changed byte, a lost line, a line more must be noticed."""
    chance = random.Random(SEED)
    # in every kept listing, at a place of its own
    for name, (_, listing) in all_kept().items():
        at = chance.randrange(len(listing))
        changed = listing[:at] + bytes([listing[at] ^ 1]) + listing[at + 1:]
        assert difference(changed, listing)[0] == listing.count(b"\n", 0, at) + 1, name
    for wrong in (
        b"", WHOLE[:-1], WHOLE + b"\n", WHOLE + b"end reads 2\n", WHOLE[WHOLE.index(b"\n") + 1:],
        WHOLE.replace(b"\n", b"\r\n"), WHOLE.replace(b" ", b"  ")):
        assert difference(WHOLE, wrong) and difference(wrong, WHOLE), wrong
    # where the lines by hand are all, one more is noticed too
    case = next(case for case in listing_cases.cases() if case.name == "runs-hole")
    listing = listing_read(case.text)
    assert case.whole and not listing_cases.missing(case, listing)
    for old, new in ((b"hole 8\n", b""), (b"hole 8\n", b"hole 8\nhole 8\n"), (b"hole 8\n", b"hole 8\nrun 1 1\n")):
        assert listing_cases.missing(case, listing.replace(old, new)), new
    test.notices(test.run(input=listing_cases.WHOLE))


def test_a_lost_case_is_noticed(test):
    """In a copy of the folder, by the same steps as the test's own: a changed file, and one that is not there."""
    copy = os.path.join(test.room, "cases")
    shutil.copytree(FOLDER, copy)
    path = os.path.join(copy, "parts-2.txt")
    at = read(path).index(b"part 42") + 5
    with open(path, "r+b") as out:
        out.seek(at)
        out.write(b"7")
    small = {name: case for name, case in kept(copy).items() if name.startswith("parts-2")}
    assert [(name, d[0]) for name, d in differences(test, small)] == [("parts-2", 4)]
    for name in ("whole.txt", "whole.tab"):
        os.rename(os.path.join(copy, name), os.path.join(test.room, name))
        try:
            kept(copy)
        except SystemExit as stopped:
            assert name in str(stopped)
        else:
            sys.exit("the test does not notice that %s is missing" % name)
        os.rename(os.path.join(test.room, name), os.path.join(copy, name))
    kept(copy)


# Runs.

def lines_under(case):
    """The lines of the runs of a case of tests/runs.py, by hand."""
    for start, length in case.runs:
        yield "hole %d" % length if start is None else "run %d %d" % (start, length)
    if case.refused:
        yield "run refused %d" % case.refused


def hold_runs(test, case):
    """The program on the run bytes of a case, as a value, as that of a second attribute, and as a part."""
    count, size = len(case.text), 512
    held = listing_cases.running(case.text.hex())
    value = "name 0 0 value runs %d %d size 4000"
    # behind the list, which has 56 bytes, the same runs again; then they begin anew in the next attribute
    listed = listing_cases.of(listing_cases.LISTED, held, held, others=[[held]], size=size)
    first, second = 56 + 56, 56 + 56 + len(held)
    expected = [
        "record 40 size %d" % size, "attr 41 56 128 %d 1 name 0 0 value parts 1 size 4000" % len(held),
        "part 41 56 0 120 %d" % count, *lines_under(case),
        *(line for at in (first, second) for line in (
            "attr 40 %d 128 %d 1 %s" % (at, len(held), value % (at + 64, count)), *lines_under(case))),
        "end reads 7",
    ]
    test.same((test.on_pipe(listed),), "".join(line + "\n" for line in expected).encode())


def test_the_cases_of_runs(test):
    """Each case of tests/runs.py, whose runs stand there by hand: under a part, and under two values."""
    test.each(lambda case: hold_runs(test, case), runs.CASES)
    print("listing: %d cases of run bytes" % len(runs.CASES))


def test_the_most_lines(test):
    """The longest listing that we found for a base record of 4,096 bytes: as many lines as its formula says."""
    table, count = listing_cases.most_lines()
    expected = listing_read(table)
    assert expected.count(b"\n") == count > 300_000
    assert expected.count(b"\nhole ") == listing_cases.MOST_ENTRIES * listing_cases.MOST_HOLES
    # the list, each entry with its attribute, twice, and but for the last the next entry, which ends the parts
    assert last_line(expected) == b"end reads %d" % (5 * listing_cases.MOST_ENTRIES)
    stop_at([("the most lines", d) for d in [difference(expected, test.on(table))] if d], 1)
    print("listing: %d lines of %d bytes for a table of %d bytes" % (count, len(expected), len(table)))


# Random and damaged tables.

def hold_random(test, k, text):
    """The program on one table, which it has a run for."""
    expected = listing_read(text)
    d = difference(expected, test.on_pipe(text))
    if d:
        given = text.hex() if len(text) <= 4096 else "%d bytes" % len(text)
        print(shown("random table %d of seed %d, %s" % (k, SEED, given), d))
        sys.exit("a random table's listing differs")
    return expected


def test_random_tables(test):
    """Random and damaged tables, and nearly every refusal by them: else they show less than they seem to."""
    real = [all_kept()[name][0] for name in (*listing_cases.VOLUMES, *listing_cases.OTHERS)]
    tables = list(listing_cases.random_tables(RANDOM, real, random.Random(SEED)))
    seen, ended = set(), 0
    found = test.each(lambda pair: hold_random(test, *pair), enumerate(tables))
    for expected in found:
        seen.update(listing_cases.without_number(word) for word in listing_cases.refusals(expected.decode("ascii")))
        ended += expected.split(b"\n")[-2].startswith(b"end ")
    wanted = {listing_cases.without_number(word) for word in NEEDED}
    missing = wanted - {"value parts refused %d" % n for n in (2, 3, 4)} - seen
    if missing:
        sys.exit("refusals that no random table has: %s" % sorted(missing))
    assert ended > RANDOM // 8, ended
    print("listing: %d random and damaged tables of seed %d, %d of them to the end" % (RANDOM, SEED, ended))
    print("runs: %s" % random_runs.each_kind(found, RANDOM // 80))


def agree(*fields):
    """Whether numbers at these places, (place, width, number), can stand in one record."""
    held = {}
    return all(
        held.setdefault(at + k, b) == b for at, width, number in fields
        for k, b in enumerate(number.to_bytes(width, "little")))


def lists_at(size, need, start, at):
    """The fields of a list that has its value at `start` and its attribute at `at`, of each type and each length that
    there may be."""
    # the word FILE and the first attribute offset; the list's type, residence and value offset
    magic = int.from_bytes(b"FILE", "little")
    fixed = (0, 4, magic), (20, 2, at), (at, 4, 0x20), (at + 8, 1, 0), (at + 20, 2, start - at)
    for ty in range(0x10, 0x110, 0x10):
        # the first entry's type, length and name units; then the list's value length and its own length
        entry = (start, 4, ty), (start + 4, 2, 26), (start + 6, 1, 0)
        for count in range(need, size - start + 1):
            for length in range(start - at + count, size - at + 1):
                yield *fixed, *entry, (at + 16, 4, count), (at + 4, 4, length)


def test_no_more_parts(test):
    """That 157 parts don't fit, as tests/cases/README.md says: all places of a list of 157 entries in 4,096 bytes are
    tried."""
    size, need = 4096, 157 * 26
    for start in range(size - need + 1):
        for at in range(start + 1):
            for fields in lists_at(size, need, start, at):
                assert not agree(*fields), (start, at)


# The input's length, and its pieces.

def longest():
    """The longest table that is listed, and its listing."""
    text, listing = read(FOLDER, "length-65536.tab"), read(FOLDER, "length-65536.txt")
    assert len(text) == MOST
    return text, listing


def test_lengths(test):
    """65,536 bytes are listed, one more is refused; and so is none."""
    text, listing = longest()
    assert difference(test.on_pipe(text), listing) is None
    for more in (text + b"\0", text + text, bytes(1_000_000), listing_cases.WHOLE + bytes(MOST)):
        assert test.on(more) == REFUSED and test.on_pipe(more) == REFUSED, len(more)
    # one that does not end is refused too, and not waited for
    with open("/dev/zero", "rb") as endless:
        assert test.on_file(endless) == REFUSED
    with open("/dev/null", "rb") as nothing:
        assert test.on_file(nothing, is_empty=True) == REFUSED
    assert test.on_pipe(b"") == REFUSED


def test_no_more_is_read_than_matters(test):
    """One byte more than may be listed, of a disk and of a pipe without end, whatever they begin with."""
    for text in (b"", listing_cases.WHOLE):
        for found, taken in (test.taken_of_file(test.disk(text)), test.taken_of_pipe(text)):
            test.same((*found, taken), 2, REFUSED, "", MOST + 1)


def test_pieces(test):
    """A pipe gives what it has: one byte, or a few, at a time."""
    text, listing = longest()
    for given, size, expected in (
        (listing_cases.WHOLE, 1, WHOLE), (text, 4001, listing), (text + b"\0", MOST, REFUSED)):
        run = subprocess.Popen(test.command, stdin=subprocess.PIPE, stdout=subprocess.PIPE)
        for at in range(0, len(given), size):
            run.stdin.write(given[at:at + size])
            run.stdin.flush()
            # so that most of the pieces are read alone
            time.sleep(0.001)
        found = run.communicate(timeout=running.DEADLINE)[0]
        assert difference(expected, found) is None, size
        test.same((run.returncode,), STATUSES[last_line(expected).split(b" ")[0]])


# What cannot be read or written.

def system_words(number):
    return "%s (os error %d)" % (os.strerror(number), number)


def unread(test, number, **given):
    """A failed read is told in the system's words, and no line of a listing is written."""
    said = "listing: the input could not be read: %s; nothing is listed\n" % system_words(number)
    test.same(test.run(**given), UNREAD, b"", said)


def test_failed_reads(test):
    """An input that is closed, and one that is a folder."""
    unread(test, errno.EBADF, stdin=None, preexec_fn=lambda: os.close(0))
    folder = os.open("/", os.O_RDONLY)
    unread(test, errno.EISDIR, stdin=folder)
    os.close(folder)


def mapped(libc, size):
    """Where memory of this size is, with nothing behind it."""
    libc.mmap.restype = ctypes.c_void_p
    libc.mmap.argtypes = (
        ctypes.c_void_p, ctypes.c_size_t, ctypes.c_int, ctypes.c_int, ctypes.c_int, ctypes.c_long)
    libc.munmap.argtypes = (ctypes.c_void_p, ctypes.c_size_t)
    at = libc.mmap(None, 2 * size, mmap.PROT_READ | mmap.PROT_WRITE, mmap.MAP_PRIVATE | mmap.MAP_ANONYMOUS, -1, 0)
    assert at not in (None, ctypes.c_void_p(-1).value)
    assert libc.munmap(at + size, size) == 0
    return at


def test_a_read_that_fails_late(test):
    """A whole table in front of a place that fails, as on a worn disk, is not taken for the whole input."""
    # Linux: a process's own memory, read as a file, fails with EIO where nothing is mapped
    libc = ctypes.CDLL(None, use_errno=True)
    page, whole = mmap.PAGESIZE, listing_cases.WHOLE
    at = mapped(libc, page)
    ctypes.memmove(at + page - len(whole), whole, len(whole))
    memory = os.open("/proc/self/mem", os.O_RDONLY)
    os.lseek(memory, at + page - len(whole), os.SEEK_SET)
    assert os.read(memory, 2 * len(whole)) == whole
    try:
        os.read(memory, 1)
    except OSError as failed:
        assert failed.errno == errno.EIO
    else:
        sys.exit("the input that is to fail does not")
    os.lseek(memory, at + page - len(whole), os.SEEK_SET)
    unread(test, errno.EIO, stdin=memory)
    os.close(memory)
    libc.munmap(at, page)


# A listing of more than one write, which writes to a small pipe or a small file must cut: an attribute of 24 bytes has
# a line of some 60.
LONG_TABLE = listing_cases.of(*(listing_cases.plain(instance=65000 + k) for k in range(165)), size=4096)
FIRST_WRITE = 8192


def unwritten(test, text, said, **given):
    """A failed write is told in these words, or in none. It is no hang and no trap."""
    status, _, words = test.run(input=text, **given)
    expected = "listing: the listing could not be written: %s\n" % said if said else ""
    test.same((status, words), UNWRITTEN, expected)


def test_failed_writes(test):
    """An output that is closed, a full disk, and a pipe that nobody reads."""
    text = read(FOLDER, "parts-156.tab")
    unwritten(test, text, system_words(errno.EBADF), preexec_fn=lambda: os.close(1))
    with open("/dev/full", "wb") as full:
        unwritten(test, text, system_words(errno.ENOSPC), stdout=full)
    # with the signal that ends a writer, and with the error that it gets where that signal is ignored, as in Python
    for restored in (True, False):
        reader, writer = os.pipe()
        os.close(reader)
        unwritten(test, text, None, stdout=writer, restore_signals=restored)
        os.close(writer)


def test_a_front_is_written(test):
    """Where a write fails in mid-stream, what stands there is a front of the listing, and the status says that it is
    no more."""
    whole = listing_read(LONG_TABLE)
    assert test.on(LONG_TABLE) == whole and len(whole) > FIRST_WRITE + 500
    for room in (1, FIRST_WRITE - 1, FIRST_WRITE, FIRST_WRITE + 1, len(whole) - 1):
        with tempfile.TemporaryFile() as out:
            # the signal for a file that grows too large stays ignored, as it is in Python, so that the write fails
            unwritten(
                test, LONG_TABLE, system_words(errno.EFBIG), stdout=out, restore_signals=False,
                preexec_fn=lambda: resource.setrlimit(resource.RLIMIT_FSIZE, (room, room)))
            out.seek(0)
            assert out.read() == whole[:room], room


def test_a_reader_that_leaves(test):
    """A reader that has seen enough closes its pipe, in whose smallest form there is no room for a whole listing."""
    whole = listing_read(LONG_TABLE)
    reader, writer = os.pipe()
    assert fcntl.fcntl(writer, fcntl.F_SETPIPE_SZ, mmap.PAGESIZE) < FIRST_WRITE
    with tempfile.TemporaryFile() as given:
        given.write(LONG_TABLE)
        given.seek(0)
        run = subprocess.Popen(test.command, stdin=given, stdout=writer, stderr=subprocess.PIPE)
        os.close(writer)
        assert os.read(reader, 100) == whole[:100]
        os.close(reader)
        test.same((run.communicate(timeout=running.DEADLINE)[1], run.returncode), b"", UNWRITTEN)


def stage(test, text, fine, limit):
    """How far the program comes in so much address space: the system can't load it, the loader can't, it is out of
    memory in its own words, and it lists the whole."""
    try:
        found = test.run(input=text, preexec_fn=lambda: resource.setrlimit(resource.RLIMIT_AS, (limit, limit)))
    except OSError:
        return 0
    if found[0] < 0:
        return 0
    if found[:2] == (LOADER, b""):
        return 1
    assert found in ((UNREAD, b"", NO_MEMORY), fine), (limit, found)
    return 2 + (found == fine)


def test_little_memory(test):
    """With more and more address space, page by page, no step goes back, so it never ends in another way once it
    runs."""
    if len(test.command) > 1:
        # an emulator's memory is not the program's
        return
    text, listing = longest()
    fine = STATUSES[last_line(listing).split(b" ")[0]], listing, ""
    pages, last = [0] * 4, 0
    while pages[3] < 64:
        reached = stage(test, text, fine, sum(pages) * mmap.PAGESIZE)
        assert reached >= last, (pages, reached, last)
        pages[reached] += 1
        last = reached
    assert all(pages), pages
    print("listing: out of memory, in its words, with %d different limits" % pages[2])


main = suite.of(Listing, Listing.finish)

if __name__ == "__main__":
    main()
