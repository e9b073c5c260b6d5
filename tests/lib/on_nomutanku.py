"""The command `nomutanku`, as built: what the files of tests on it share."""
import os
import re
import tempfile

from lib import by_members, programs, running
from lib.reading import objects
from lib.reading.listing import listing

# no input is longer than this
ANY = 2 ** 40

# the commands that read a table, and all that read something
TABLE_COMMANDS = ("list", "rows")
COMMANDS = (*TABLE_COMMANDS, "record")

# each of these in each form
ASKED = tuple((command, *form) for command in COMMANDS for form in ((), ("--json",)))

# the exit status that the last line of a listing, of rows or of a record says
STATUSES = {b"end": 0, b"stopped": 1, b"table refused": 2, b"record refused": 2}
LAST = re.compile(rb"end|stopped|(?:table|record) refused")

# what a malformed table is, in each command that reads one
REFUSED = b"table refused 21\n"


def status_of(text):
    """The status that goes with these lines."""
    return STATUSES[LAST.match(text[:-1].split(b"\n")[-1])[0]]


def whole(table, wanted=None):
    """The listing of a table of any size."""
    return listing(table, wanted, ANY)


# the command's crate, whose files args, stdin and data/ are what rt ci runs it on, and stdout what it then writes
CRATE = os.path.join(programs.ROOT, "crates", "nomutanku")


def sample():
    """What it writes then: the listing of each table behind its name."""
    command, *names = running.read(CRATE, "args").decode().split()
    assert command == "list" and len(names) > 1
    for name in names:
        text = running.read(CRATE, "stdin") if name == "-" else running.read(CRATE, "data", name)
        yield b"table %s\n%s" % (name.encode(), whole(text))


class Nomutanku(running.Runner):
    """Runs the command, on files and by standard input."""

    def __init__(self):
        super().__init__("nomutanku", programs.command("nomutanku"))

    def on_file(self, command, text, *words):
        """(status, standard output) of a command on a file with these bytes. A reason is told exactly where the
        status is not 0, in one line that begins with the file's name."""
        with tempfile.NamedTemporaryFile(dir=self.room) as given:
            given.write(text)
            given.flush()
            status, out, said = self.run(command, *words, given.name)
        bad = status != 0
        self.same((bool(said), said.startswith(given.name + ": ") or not said, said.count("\n")), bad, True, bad)
        return status, out

    def holds(self, command, given, expected, *words):
        """A command on these bytes: as text, and as JSON that tells the same by the names of its members."""
        self.same(self.on_file(command, given, *words), status_of(expected), expected)
        status, out = self.on_file(command, given, "--json", *words)
        self.same((status, out), status_of(expected), objects.of_text(expected))
        self.same((by_members.text_of(out),), expected)

    def by_standard_input(self, command, given, expected, *words):
        """The same bytes by standard input, where no file is named."""
        status, out, said = self.run(command, *words, input=given)
        bad = status_of(expected)
        self.same((status, out, said[:16]), bad, expected, "standard input: " if bad else "")
