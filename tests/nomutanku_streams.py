"""Tests of `nomutanku` on inputs that can't be read or have no end, on outputs that take no more, and in little
memory.

That an input without end is not waited for is seen by how much of it was read, not by a clock: where a file's
descriptor is shared its place tells, and a pipe tells what is left in it.
"""
import os
import resource
import signal
import socket
import subprocess
import time

from lib import running, suite
from lib.inputs import full_table
from lib.on_nomutanku import ASKED, COMMANDS, REFUSED, TABLE_COMMANDS, Nomutanku, whole
from lib.reading import directory, objects
from lib.running import case, headed, kept, read

# bytes of a table's header, which are read first, and of the records' longest and one more
HEADER, LONGEST = 20, 4097

# of address space: far more than a run needs that reads no more than it must
LITTLE = 2 ** 26


# Inputs that can't be read.

def closed(number):
    """What leaves a run without one of its standard streams."""
    return lambda: os.close(number)


def test_files_that_cannot_be_read(test):
    """A folder, no name, a socket, and a file without the right to read it: each in the system's words."""
    folder = os.path.join(test.room, "folder")
    os.mkdir(folder)
    with socket.socket(socket.AF_UNIX) as door:
        # the path of a socket may not be long
        here = os.open(".", os.O_RDONLY)
        os.chdir(test.room)
        door.bind("socket")
        os.fchdir(here)
        os.close(here)
    shut = test.file("shut.tab", read(case("whole")))
    os.chmod(shut, 0)
    for words in ASKED:
        test.same(test.run(*words, folder), 3, b"", "%s: Is a directory (os error 21)\n" % folder)
        test.same(test.run(*words, ""), 3, b"", ": No such file or directory (os error 2)\n")
        door = os.path.join(test.room, "socket")
        test.same(test.run(*words, door), 3, b"", "%s: No such device or address (os error 6)\n" % door)
        if os.geteuid() != 0:
            test.same(test.run(*words, shut), 3, b"", "%s: Permission denied (os error 13)\n" % shut)
    # the others are listed
    found = test.run("list", folder, case("whole"))
    said = "%s: Is a directory (os error 21)\n" % folder
    test.same(found, 3, b"table %s\n" % folder.encode() + headed("whole"), said)


def test_standard_input_that_cannot_be_read(test):
    """One that is closed, empty, or a folder; and a closed one where a file is named."""
    for words in ASKED:
        said = "standard input: Bad file descriptor (os error 9)\n"
        test.same(test.run(*words, "-", stdin=None, preexec_fn=closed(0)), 3, b"", said)
        place = os.open("/", os.O_RDONLY)
        test.same(test.run(*words, stdin=place), 3, b"", "standard input: Is a directory (os error 21)\n")
        os.close(place)
    for command in TABLE_COMMANDS:
        test.same(test.run(command, "-"), 2, REFUSED, "standard input: no table: it is empty (21)\n")
    test.same(test.run("list", case("whole"), stdin=None, preexec_fn=closed(0)), 0, kept("whole"), "")


# Inputs without end.

def little():
    """Little address space, and an end for a run that never comes to one of its own."""
    resource.setrlimit(resource.RLIMIT_AS, (LITTLE, LITTLE))
    resource.setrlimit(resource.RLIMIT_CPU, (running.DEADLINE, running.DEADLINE))


def test_devices_without_end(test):
    """Zeros, random bytes, and a program that writes for ever, are refused at once, in little memory."""
    for command, expected in zip(COMMANDS, (REFUSED, REFUSED, b"record refused 1\n")):
        for device in ("/dev/zero", "/dev/urandom"):
            test.same(test.run(command, device, preexec_fn=little)[:2], 2, expected)
            with open(device, "rb") as given:
                test.same(test.run(command, "-", stdin=given, preexec_fn=little)[:2], 2, expected)
        with subprocess.Popen(["yes"], stdout=subprocess.PIPE) as yes:
            test.same(test.run(command, stdin=yes.stdout, preexec_fn=little)[:2], 2, expected)
            yes.stdout.close()


def hold_taken(test, command, given, expected, count):
    """A command on a disk, and on a pipe that gets no end, that begin with these bytes: how it went, by its status and
    its output, and how many bytes were read. The disk by its name goes as well, in little memory."""
    test.same(test.run(command, test.disk(given), preexec_fn=little)[:2], *expected)
    for (status, out, _), taken in (
        test.taken_of_file(test.disk(given), command, "-", preexec_fn=little),
        test.taken_of_file(test.disk(given), command, preexec_fn=little),
        test.taken_of_pipe(given, command, preexec_fn=little)):
        test.same((status, out, taken), *expected, count)


def test_no_more_is_read_than_matters(test):
    """Of what is no table the header alone, of a table all up to its last record's end, of a record one byte more than
    the longest has."""
    boot, table = b"\xeb\x52\x90NTFS    ", read(case("whole"))
    for command, listed in (("list", kept("whole")), ("rows", directory.rows(table))):
        hold_taken(test, command, boot, (2, REFUSED), HEADER)
        hold_taken(test, command, table, (0, listed), len(table))
        # where the header has no fault and a row has, the rows say how far it goes
        number = table[:20] + b"\xff" * 8 + table[28:]
        hold_taken(test, command, number, (2, REFUSED), len(table))
    for given in (b"", boot, b"FILE", table[32:]):
        hold_taken(test, "record", given, (2, b"record refused 1\n"), LONGEST)


# Outputs that take no more.

NO_SPACE = "nomutanku: standard output: No space left on device (os error 28)\n"
CLOSED = "nomutanku: standard output: Bad file descriptor (os error 9)\n"


def writing(test):
    """Command lines of every kind of output."""
    record = test.file("record.bin", read(case("whole"))[32:160])
    return (
        ("list", case("parts-156")), ("list", case("whole"), case("whole")), ("list", "--json", case("parts-156")),
        ("rows", case("records-64")), ("rows", "--json", case("records-64")), ("record", record),
        ("record", "--json", record), ("explain", "21"), ("--help",),
    )


def test_outputs_that_take_nothing(test):
    """A full disk, a closed output, and a pipe whose reader went away, which asked for no more."""
    for words in writing(test):
        with open("/dev/full", "wb") as full:
            test.same(test.run(*words, stdout=full), 74, None, NO_SPACE)
        test.same(test.run(*words, stdout=None, preexec_fn=closed(1)), 74, None, CLOSED)
        for restored in (True, False):
            reader, writer = os.pipe()
            os.close(reader)
            test.same(test.run(*words, stdout=writer, restore_signals=restored), 74, None, "")
            os.close(writer)


def short():
    """A limit on how long a file may grow, without the signal."""
    signal.signal(signal.SIGXFSZ, signal.SIG_IGN)
    resource.setrlimit(resource.RLIMIT_FSIZE, (FRONT, FRONT))


FRONT = 5000


def test_a_write_that_fails_leaves_a_front(test):
    """A file that may not grow keeps the front of what was written, of listings and of rows."""
    table = full_table(300, 512)
    path = test.file("large.tab", table)
    names = 4 * ["parts-156"]
    lines = directory.rows(table)
    for words, expected in (
        (("list", *map(case, names)), headed(*names)), (("rows", path), lines),
        (("rows", "--json", path), objects.of_text(lines))):
        assert len(expected) > FRONT
        written = test.file("written", b"")
        with open(written, "wb") as out:
            found = test.run(*words, stdout=out, preexec_fn=short)
        test.same(found, 74, None, "nomutanku: standard output: File too large (os error 27)\n")
        test.same((read(written),), expected[:FRONT])


def test_a_reader_that_leaves(test):
    """A reader that has seen enough ends the command in mid-stream, without a word."""
    many = [test.file("large.tab", full_table(300, 512))] * 400
    for words in (("list",), ("list", "--json"), ("rows",), ("rows", "--json")):
        with subprocess.Popen(
            [*test.command, *words, *many], stdout=subprocess.PIPE, stderr=subprocess.PIPE) as left:
            left.stdout.read(100)
            left.stdout.close()
            test.same((left.wait(timeout=running.DEADLINE), left.stderr.read()), 74, b"")


def test_standard_error_that_takes_nothing(test):
    """It changes no status."""
    for command in TABLE_COMMANDS:
        with open("/dev/full", "wb") as full:
            done = subprocess.run(
                [*test.command, command, case("empty")], stdout=subprocess.PIPE, stderr=full, timeout=running.DEADLINE)
        test.same((done.returncode, done.stdout), 2, REFUSED)


# Someone who reads along.

def slow_run(test, text, errors):
    """Runs a listing of a table whose header comes more than a second before the rest, with this for standard error."""
    reader, writer = os.pipe()
    with subprocess.Popen([*test.command, "list"], stdin=reader, stdout=subprocess.PIPE, stderr=errors) as run:
        os.write(writer, text[:HEADER])
        while running.waiting_in(reader) and run.poll() is None:
            time.sleep(0.01)
        time.sleep(1.5)
        os.write(writer, text[HEADER:])
        os.close(writer)
        out = run.stdout.read()
    os.close(reader)
    return run.returncode, out


def test_someone_who_reads_along(test):
    """Where standard error is a terminal, how far a slow input is read is told there, each time a second has gone by;
    elsewhere not."""
    table = read(case("whole"))
    master, slave = os.openpty()
    test.same(slow_run(test, table, slave), 0, kept("whole"))
    os.write(slave, b"behind\n")
    # a terminal gives what was written to it in pieces
    said = ""
    while not said.endswith("behind\r\n"):
        said += os.read(master, 10_000).decode()
    os.close(slave)
    os.close(master)
    line = "nomutanku: standard input: 0 MB read\r\n"
    # once, or more often on a machine that is slow enough
    test.same((said,), line * max(1, said.count("\n") - 1) + "behind\r\n")
    with open(test.file("said", b""), "wb") as errors:
        test.same(slow_run(test, table, errors), 0, kept("whole"))
    test.same((read(test.room, "said"),), b"")


# Little memory.

def kilobytes():
    """Limits of address space, from one in which nothing runs to one in which all does."""
    return [*range(2000, 12000, 250), *range(12000, 90000, 4000)]


def under_rising_limits(test, words):
    """The status of each run under a rising limit of address space, and what it writes and says, from the first one on
    for which the loader has room."""
    began = False
    for limit in (1024 * k for k in kilobytes()):
        try:
            status, out, said = test.run(
                *words, preexec_fn=lambda: resource.setrlimit(resource.RLIMIT_AS, (limit, limit)))
        except (OSError, subprocess.SubprocessError):
            continue
        # 127 and signals are the loader's, which has no room for the program itself
        if status == 127 or status < 0:
            assert not began, (limit, status)
            continue
        began = True
        yield status, out, said


def counted(words, cut, fine):
    """Tells how many runs were short of memory, and how many were not; there have to be some of both."""
    assert cut and fine, (cut, fine)
    print("%s: %d runs short of memory and %d not" % (" ".join(words), cut, fine))


def made_in_little_memory(test, words, said, expected, told):
    """Under a rising limit of address space a table is made, with `-o`: 3 with one of these words and the older file,
    or all of the table with what is told of it; nothing else."""
    old = test.file("old.tab", b"old")
    cut, fine = 0, 0
    for status, out, line in under_rising_limits(test, (words[0], "-o", old, *words[1:])):
        if status == 0:
            test.same((out, line, read(old) == expected), b"", told, True)
            fine += 1
        else:
            test.same((status, out, line in said, read(old)), 3, b"", True, b"old")
            cut += 1
        assert not [name for name in os.listdir(test.room) if ".part." in name]
        test.file("old.tab", b"old")
    counted(words[:1], cut, fine)


def rising_memory(test, words, path, expected):
    """Under a rising limit of address space: 3 with its words, or all that there is to tell, and nothing else."""
    told = {"%s: out of memory\n" % path, "nomutanku: out of memory\n",
            "%s: Cannot allocate memory (os error 12)\n" % path}
    cut, fine = 0, 0
    for status, out, said in under_rising_limits(test, (*words, path)):
        if status == 0:
            test.same((out, said), expected, "")
            fine += 1
        else:
            test.same((status, out, said in told), 3, b"", True)
            cut += 1
    counted(words, cut, fine)


def test_little_memory(test):
    """A listing and rows of 4,096 records of 4,096 bytes."""
    table = full_table(4096, 4096)
    path = test.file("large.tab", table)
    rising_memory(test, ("list",), path, whole(table))
    rising_memory(test, ("rows", "--json"), path, objects.of_text(directory.rows(table)))


main = suite.of(Nomutanku, Nomutanku.finish)

if __name__ == "__main__":
    main()
