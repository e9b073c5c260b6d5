"""What is asked of two tables that are made one, and what the second reading expects: the layer `merge`."""
from typing import NamedTuple

from lib.asking import Asker, of, said, said_bytes
from lib.question import ON_MERGES, question
from lib.reading import Refusal
from lib.reading.merges import BOTH, FIRST, SECOND, Merged, Unmerged, merge, room

(MERGE,) = KINDS = range(1)
CALLS = ("Pair::check, Pair::room, merge::merge",)

# each refusal, and whose fault it is, in the order of their tests
REFUSALS = ((21, FIRST), (21, SECOND), (32, BOTH), (33, BOTH), (34, BOTH), (35, BOTH))
# what tables bring that are merged; each is counted, so that a test can ask for all of them
NO_ROWS, APART, SHARED = "of no rows", "with no number in both", "with numbers in both"


class Question(NamedTuple):
    """The first table, which the record stands for; the second, and behind it what the lent buffer holds, which the
    table stands for; and how many bytes of that are the buffer's."""

    record: bytes
    table: bytes
    buffer: int
    kind: int = MERGE

    @property
    def second(self):
        """The second table alone."""
        return self.table[:len(self.table) - self.buffer]

    @property
    def held(self):
        """What the buffer holds."""
        return self.table[len(self.table) - self.buffer:]


def asked(first, second, held):
    """The question of two tables and a buffer with these bytes."""
    return Question(first, second + held, len(held))


def told(answer, held, enough):
    """What is reported or refused, the room that is enough where neither 21 nor 32 refuses, and the whole buffer: a
    table takes its front, and a refusal leaves it."""
    more = "" if isinstance(enough, Refusal) else " room %d" % enough
    if isinstance(answer, Refusal):
        whose = answer.whose if answer.clash is None else "clash %d" % answer.clash
        return "%s %s%s %s" % (whose, said(answer, {}), more, said_bytes("view", held))
    table, report = answer
    front = said(report, {Merged: "merged"})
    return "%s%s %s" % (front, more, said_bytes("view", table + held[len(table):]))


class Merges(Asker):
    """Asks of two tables."""

    CALLS = CALLS

    def __init__(self):
        super().__init__()
        # how often a table was written, by what the two had
        self.merged = {NO_ROWS: 0, APART: 0, SHARED: 0}

    def packed(self, q):
        return question(ON_MERGES, q.record, q.table, buffer=q.buffer)

    def expected(self, q):
        return told(of(merge, q.record, q.second, q.buffer), q.held, of(room, q.record, q.second))

    def count_refusal(self, q, answer):
        """By its number and by whose fault it is; the buffer's bytes may tell anything, so only what stands in front of
        them is looked at. Where nothing is refused, how many rows the two had decides what is counted."""
        words = answer.partition(" view ")[0].split(" ")
        if words[0] == "merged":
            had = sum(int.from_bytes(text[:4], "little") for text in (q.record, q.second))
            written = int(words[2])
            self.merged[NO_ROWS if not written else APART if written == had else SHARED] += 1
            return
        number = int(words[words.index("refused") + 1])
        given = number, words[0] if words[0] in (FIRST, SECOND) else BOTH
        self.refusals[given] = self.refusals.get(given, 0) + 1

    def report(self):
        super().report()
        print("merged: %s" % ", ".join("%d %s" % (count, what) for what, count in self.merged.items()))

    def put(self, first, second, held):
        self.put_question(asked(first, second, held))

    def put_literal(self, answer, first, second, held, enough):
        """An answer by hand: a refusal, or a table and its report; and the room that is enough, or a refusal."""
        self.put_literal_question(told(answer, held, enough), asked(first, second, held))
