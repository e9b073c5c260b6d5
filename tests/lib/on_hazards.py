"""What is asked of base records and of records that were reused, and what the second reading expects: the layer
`segments`."""
from typing import NamedTuple

from lib.asking import Asker, of, said
from lib.question import ON_HAZARDS, question
from lib.reading import Refusal
from lib.reading.hazards import NotInUse, OtherBase, Sequence, Told, hazards

(OF,) = KINDS = range(1)
CALLS = ("segments::is_base_in_use, segments::base_reference, segments::hazards",)

# what refuses the file
OPENING = (1, 2, 21, 27)

WORDS = {Sequence: "sequence", NotInUse: "unused", OtherBase: "other"}


class Question(NamedTuple):
    """A base record, its number, and a table."""

    record: bytes
    table: bytes
    number: int = 40
    kind: int = OF


def told(answer):
    """Whether the record is a base record in use, its reference, and each hazard."""
    return " ".join([
        "base %d reference %d %d hazards" % (answer.in_use, *answer.base),
        *(said(hazard, WORDS) for hazard in answer.hazards)])


class Hazards(Asker):
    """Asks of hazards."""

    CALLS = CALLS

    def __init__(self):
        super().__init__()
        # how many of each kind there were
        self.kinds = {word: 0 for word in WORDS.values()}

    def packed(self, q):
        return question(ON_HAZARDS, q.record, q.table, number=q.number)

    def expected(self, q):
        answer = of(hazards, q.record, q.number, q.table)
        return said(answer, {}) if isinstance(answer, Refusal) else told(answer)

    def count_refusal(self, q, answer):
        super().count_refusal(q, answer)
        for word in self.kinds:
            self.kinds[word] += answer.count(" %s " % word)

    def report(self):
        super().report()
        print("hazards told: %s" % ", ".join("%s (%d)" % pair for pair in self.kinds.items()))

    def put(self, record, table, number=40):
        self.put_question(Question(record, table, number))

    def put_literal(self, record, table, told_hazards, number=40, in_use=True, base=(0, 0)):
        """Hazards by hand."""
        self.put_literal_question(told(Told(in_use, base, told_hazards)), Question(record, table, number))

    def put_refused(self, record, table, refusal, number=40):
        """A file that is refused as it is opened, by (number, record, place)."""
        self.put_literal_question(said(Refusal(*refusal), {}), Question(record, table, number))
