"""Runs a command and compares how it went: what the tests of commands share.

How a run went is three things: its exit status, what it wrote to standard output, and what it said on standard error.
No run fails by a clock: the deadline is for a program that hangs.
"""
import concurrent.futures
import fcntl
import os
import struct
import subprocess
import sys
import tempfile
import termios
import threading

from lib.programs import TESTS

# seconds
DEADLINE = 120

# bytes of a pipe that holds far more than is to be read of it
PIPE = 2 ** 20

# a disk of 1 TB, nearly all of it a hole
DISK = 2 ** 40

CASES = os.path.join(TESTS, "cases")


def read(*path):
    """The bytes of a file."""
    with open(os.path.join(*path), "rb") as given:
        return given.read()


def case(name):
    """The path of a table of tests/cases."""
    return os.path.join(CASES, name + ".tab")


def kept(name):
    """The listing that is kept beside a table of tests/cases."""
    return read(CASES, name + ".txt")


def headed(*names):
    """The listings of several cases, each behind a line with the file's name."""
    return b"".join(b"table %s\n%s" % (case(name).encode(), kept(name)) for name in names)


def run(*words, **given):
    """(status, standard output, standard error) of a command. Standard input is empty unless it is given; `stdin=None`
    leaves the test's own."""
    if "input" not in given:
        given.setdefault("stdin", subprocess.DEVNULL)
    given = {"stdout": subprocess.PIPE, "timeout": DEADLINE, **given}
    done = subprocess.run(words, stderr=subprocess.PIPE, **given)
    return done.returncode, done.stdout, done.stderr.decode("utf-8", "surrogateescape")


def waiting_in(reader):
    """How many bytes a pipe holds that nobody has read."""
    return struct.unpack("i", fcntl.ioctl(reader, termios.FIONREAD, bytes(4)))[0]


class Comparer:
    """Compares how runs went, and counts that; `name` is what is told of a difference."""

    def __init__(self, name):
        self.name, self.compared = name, 0
        self.counting = threading.Lock()
        self.folder = tempfile.TemporaryDirectory()

    def same(self, found, *expected):
        """The tests' one comparison: it ends the run at a difference."""
        with self.counting:
            self.compared += 1
        if found != expected:
            sys.exit("%s: expected %r\n%sfound    %r" % (self.name, expected, " " * (len(self.name) + 2), found))

    def notices(self, right):
        """A comparison that never fails shows nothing: another status, one more byte, one more word, and one that is
        missing must be noticed in a run that went right."""
        status, out, said = right
        for wrong in (
            (status + 1, out, said), (status, out + b"\n", said), (status, out[:-1], said), (status, out, said + "x\n"),
            (status, out)):
            assert self.fails(self.same, right, *wrong), wrong

    def fails(self, call, *words):
        """Whether a check ends the run."""
        try:
            call(*words)
        except SystemExit:
            return True
        return False

    def finish(self):
        """The account behind all tests of a file."""
        print("%s: %d compared" % (self.name, self.compared))


class Runner(Comparer):
    """Runs a command, compares, and counts both. `room` is a folder for files, as the command sees it: without
    links."""

    def __init__(self, name, command):
        """`command` has the words that a run begins with."""
        super().__init__(name)
        self.command, self.runs = list(command), 0
        self.room = os.path.realpath(self.folder.name)

    def run(self, *words, **given):
        """How a run with these words went."""
        with self.counting:
            self.runs += 1
        return run(*self.command, *words, **given)

    def file(self, name, text):
        """The path of a file of the room with these bytes."""
        path = os.path.join(self.room, name)
        with open(path, "wb") as out:
            out.write(text)
        return path

    def disk(self, text):
        """The path of a disk that begins with these bytes."""
        path = self.file("disk.img", text)
        os.truncate(path, DISK)
        return path

    def taken_of_file(self, path, *words, **given):
        """How a run on a file by standard input went, and how many of its bytes it read: the two share a place."""
        with open(path, "rb") as held:
            found = self.run(*words, stdin=held, **given)
            return found, os.lseek(held.fileno(), 0, os.SEEK_CUR)

    def taken_of_pipe(self, text, *words, **given):
        """The same of a pipe that holds these bytes and many more: its writer stays open."""
        reader, writer = os.pipe()
        fcntl.fcntl(writer, fcntl.F_SETPIPE_SZ, PIPE)
        os.write(writer, text.ljust(PIPE, b"y"))
        found = self.run(*words, stdin=reader, **given)
        left = waiting_in(reader)
        os.close(reader)
        os.close(writer)
        return found, PIPE - left

    def each(self, test, inputs):
        """Does a test on each of the inputs, as many side by side as there are processors; what it answers, in the
        inputs' order. One that fails ends the run."""
        with concurrent.futures.ThreadPoolExecutor(os.cpu_count()) as threads:
            return list(threads.map(test, inputs))

    def finish(self):
        """The account behind all tests of a file."""
        print("%s: %d runs, %d compared" % (self.name, self.runs, self.compared))
