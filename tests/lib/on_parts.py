"""What is asked of the parts of an item, and what the second reading expects: the layer `parts`."""
import collections
from typing import NamedTuple

from lib import on_items
from lib.asking import Asker
from lib.question import ON_PARTS, list_numbers, question
from lib.reading import parts
from lib.reading.items import NO_LIST, Rest
from lib.reading.parts import ROOM

COLLECT, WITHIN, WALK = KINDS = range(3)
CALLS = ("parts::collect", "parts::fill", "File::next from fresh on, with parts::collect for each item")

# What parts can refuse by behind the opening checks, for the first part and for a later one. Room for 157 is never
# too little: 20 comes from lent lists alone.
REFUSALS = (2, 3, 4, 5, 6, 7, 12, 14, 15, 16, 17, 18, 19, 20, 27, 28, 31)


class Question(NamedTuple):
    """A walk goes on behind `on` refusals, and makes `calls` calls for that."""

    kind: int
    record: bytes
    table: bytes
    number: int = 40
    rest: Rest = NO_LIST
    room: int = ROOM
    on: int = 0
    calls: int = 0


# The answers in the program's words.

def said_end(answer):
    return "whole" if answer is None else "refused %d %d %d" % (answer.number, answer.file, answer.place)


def said(found, end, reads):
    """How many parts there are, how they end, what was read, and each part. The records past them are unchanged, all
    up to the last of the 157."""
    text = "parts %d %s reads %d" % (len(found), end, reads)
    return text + "".join(" part %d %d %d %d %d %d %d" % part for part in found) + " unchanged %d" % ROOM


def said_walk(calls):
    """The lines of a walk: one for each call, and for an item that of its parts."""
    lines = []
    for *call, told in calls:
        lines.append(on_items.said_call(*call))
        if told:
            found, answer, reads = told
            lines.append(said(found, said_end(answer), reads))
    return "\n".join(lines)


def calls_in(lines):
    """How many calls of the walk these lines tell of. The parts of an item have a line of their own."""
    return sum(not line.startswith("parts ") for line in lines)


class Parts(Asker):
    """Asks of parts. Counts how parts end: by what, in the first part or behind others."""

    CALLS = CALLS

    def __init__(self):
        super().__init__()
        self.classes = collections.Counter()
        self.endings = collections.Counter()

    def packed(self, q):
        most = q.calls if q.kind == WALK else q.room
        return question(ON_PARTS + q.kind, q.record, q.table, number=q.number, **list_numbers(q.rest), most=most)

    def expected(self, q):
        if q.kind == WALK:
            return said_walk(parts.walk(q.record, q.number, q.table, q.on))
        found, answer, reads = parts.parts_of(
            q.record, q.number, q.table, q.rest, q.room if q.kind == WITHIN else ROOM)
        return said(found, said_end(answer), reads)

    def counted(self, q, answer):
        return q._replace(calls=calls_in(answer.split("\n"))) if q.kind == WALK else q

    def goes_on(self, q, lines):
        return not lines or q.kind == WALK and (calls_in(lines) < q.calls or lines[-1].startswith("item "))

    def count_refusal(self, q, answer):
        """Counts how parts end, of which a refusal is one way."""
        for line in answer.split("\n"):
            if not line.startswith("parts "):
                continue
            words = line.split(" ")
            count, end = int(words[1]), words[2] if words[2] == "whole" else int(words[3])
            # before anything is read, 2 and 27 are the opening's
            opening = end in (1, 21, 22) or end in (2, 27) and words[7] == "0"
            self.endings["opening" if opening else "later" if count else "first", end] += 1

    def put(self, kind, record, table, **more):
        self.put_question(Question(kind, record, table, **more))

    def put_both(self, record, table, rest, number=40, rooms=()):
        """The parts with room for all of them, and with these rooms."""
        self.put(COLLECT, record, table, number=number, rest=rest)
        for room in rooms:
            self.put(WITHIN, record, table, number=number, rest=rest, room=room)

    def case(self, name, q, found, end, reads):
        """An answer that follows from the rules by hand. A class of cases is told by its name."""
        self.put_literal_question(said(found, end, reads), q)
        self.classes[name] += 1

    def report(self):
        """Also how parts ended, and the classes of cases by hand."""
        super().report()
        for where in ("opening", "first", "later"):
            ends = sorted(((end, n) for (w, end), n in self.endings.items() if w == where), key=str)
            print("how parts end, %s: %s" % (where, ", ".join("%s (%d)" % pair for pair in ends)))
        if self.classes:
            print("cases by hand: %d in %d classes" % (sum(self.classes.values()), len(self.classes)))
