"""What is asked of list entries and tables, and what the second reading expects: the layers `list` and `table`, and
the opening of a file and its lookup."""
import struct
from typing import NamedTuple

from lib import reading
from lib.asking import Asker, of, said, said_bytes
from lib.question import ON_TABLES, question

# The kinds, by the call that answers.
HEADER, STEP, BASE_ROW, CHECK, OPENING, LOOKUP, VIEW = KINDS = range(7)
CALLS = (
    "list::header", "list::step", "TableHeader::base_row", "Table::check", "File::of_bytes", "File::lookup",
    "its bytes",
)
WITH_A_RECORD = (OPENING, LOOKUP, VIEW)


class Question(NamedTuple):
    """`record` is the base record, or the rest of a list; `wanted` the number to look up."""

    kind: int
    number: int = 40
    place: int = 0
    wanted: int = 0
    record: bytes = b""
    table: bytes = b""


# What is expected, from the second reading.

def told(answer):
    return said(answer, {reading.Entry: "entry", reading.TableHeader: "table"})


def named(name):
    """A name as it is told: in 510 bytes, zeros behind it."""
    return said_bytes("name", name.ljust(510, b"\0"))


def expected(q):
    """What the second reading answers, by the call."""
    if q.kind == HEADER:
        return told(of(reading.entry, q.record, q.number, q.place))
    if q.kind == STEP:
        given = of(reading.entry, q.record, q.number, q.place)
        return "%s %s" % (told(given), named(reading.entry_name(q.record, given)))
    if q.kind == BASE_ROW:
        row = reading.base_row(reading.TableHeader(*struct.unpack_from("<5I", q.table)))
        return "none" if row is None else "row %d" % row
    if q.kind == CHECK:
        return told(of(reading.check_table, q.table))
    if q.kind == OPENING:
        return told(of(reading.open_table, q.record, q.number, q.table))
    given = q.record, q.number, q.table, q.wanted, q.place
    if q.kind == LOOKUP:
        answer = of(reading.lookup, *given)
        return told(answer) if isinstance(answer, reading.Refusal) else "found"
    assert q.kind == VIEW
    return said_bytes("view", reading.lookup_view(*given))


class Tables(Asker):
    """Asks of entries and tables."""

    CALLS = CALLS

    def packed(self, q):
        return question(ON_TABLES + q.kind, q.record, q.table, number=q.number, place=q.place, wanted=q.wanted)

    def expected(self, q):
        return expected(q)

    def refused(self, q, refusal):
        """Counted by the call; 2 and 27 of a looked-up record are told apart from those of the base record."""
        number, file, _ = refusal
        looked_up = q.kind == LOOKUP and number in (2, 27) and file == q.wanted != q.number
        return "%s %d%s" % (CALLS[q.kind], number, " of the record looked up" if looked_up else "")

    def put(self, kind, record_=b"", table_=b"", **more):
        self.put_question(Question(kind, record=record_, table=table_, **more))

    def put_entry(self, rest, **more):
        for kind in (HEADER, STEP):
            self.put(kind, rest, **more)

    def put_table(self, table_, record_, **more):
        self.put(CHECK, table_=table_)
        for kind in WITH_A_RECORD:
            self.put(kind, record_, table_, **more)

    def put_lookup(self, record_, table_, wanted, **more):
        for kind in (LOOKUP, VIEW):
            self.put(kind, record_, table_, wanted=wanted, **more)

    def put_literal(self, answer, kind, record_=b"", table_=b"", **more):
        self.put_literal_question(answer, Question(kind, record=record_, table=table_, **more))
