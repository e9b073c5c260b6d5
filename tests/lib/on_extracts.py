"""What is asked of extracts of a raw $MFT, and what the second reading expects: the layer `extract`."""
from typing import NamedTuple, Optional

from lib.asking import Asker, of, said, said_bytes
from lib.question import ON_EXTRACTS, base_told, question
from lib.reading import Refusal
from lib.reading.extracts import extract

(WRITE,) = KINDS = range(1)
CALLS = ("Extract::check, Extract::write",)

# what refuses a call, in the order of their tests, and what refuses a record
REFUSALS, OF_A_RECORD = (1, 44, 34, 35), (29, 30)


class Question(NamedTuple):
    """An extract of records of so many bytes, which the record stands for, the number of its first, and what the lent
    buffer holds, which the table stands for; and the number of the base record that is asked for, if one is."""

    record: bytes
    size: int
    number: int = 0
    table: bytes = b""
    kind: int = WRITE
    base: Optional[int] = None


def told_report(report):
    """A report in the program's words."""
    first = "none"
    if report.first:
        position, number, cause = report.first
        first = "%d %d %s" % (cause, position, "above" if number is None else number)
    return "extracted %d %d %d %d first %s" % (*report[:4], first)


def told(answer, buffer, more=""):
    """A report or a refusal, what is told besides, and the whole buffer: a table takes its front, and a refusal leaves
    it."""
    if isinstance(answer, Refusal):
        return "%s%s %s" % (said(answer, {}), more, said_bytes("view", buffer))
    table, report = answer
    return "%s%s %s" % (told_report(report), more, said_bytes("view", table + buffer[len(table):]))


def refusal_told(answer):
    """The refusal of a call, or that of its first refused record, or None. The buffer's bytes may tell anything: only
    what stands in front of them is looked at."""
    words = answer.partition(" view ")[0].split(" ")
    if words[0] == "refused":
        return int(words[1])
    return None if words[6] == "none" else int(words[6])


class Extracts(Asker):
    """Asks of extracts."""

    CALLS = CALLS

    def packed(self, q):
        return question(ON_EXTRACTS, q.record, q.table, number=q.number, size=q.size, **base_told(q.base))

    def expected(self, q):
        return told(of(extract, q.record, q.size, q.number, len(q.table), q.base), q.table)

    def count_refusal(self, q, answer):
        """A record's first refusal is told by the call that goes on."""
        given = refusal_told(answer)
        if given:
            self.refusals[given] = self.refusals.get(given, 0) + 1

    def put(self, text, size, number, buffer, base=None):
        self.put_question(Question(text, size, number, buffer, base=base))

    def put_literal(self, answer, text, size, number, buffer):
        """An answer by hand: a refusal, or a table and its report."""
        self.put_literal_question(told(answer, buffer), Question(text, size, number, buffer))
