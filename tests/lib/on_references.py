"""What is asked of the records that a record's lists refer to, and what the second reading expects: the layer
`references`."""
from typing import NamedTuple

from lib.asking import Asker, of, said
from lib.question import ON_REFERENCES, question
from lib.reading import Refusal
from lib.reading.references import references, rising

(OF,) = KINDS = range(1)
CALLS = ("References::of, References::rising",)

# what refuses the record, and what stops the walk over its lists
OPENING, STOPPING = (1, 2, 27), (3, 4, 5, 28, 7, 10, 11, 13, 14, 15, 31, 16)


class Question(NamedTuple):
    """A record and its number."""

    record: bytes
    number: int = 40
    table: bytes = b""
    kind: int = OF


def told(numbers, refusal, own):
    """Numbers, the end or the refusal that stopped the walk, and the numbers in rising order with the record's own."""
    stopped = "end" if refusal is None else said(refusal, {})
    return " ".join(["references", *map(str, numbers), stopped, "rising", *map(str, rising(numbers, own))])


class References(Asker):
    """Asks of references."""

    CALLS = CALLS

    def packed(self, q):
        return question(ON_REFERENCES, q.record, number=q.number)

    def expected(self, q):
        answer = of(references, q.record, q.number)
        return said(answer, {}) if isinstance(answer, Refusal) else told(*answer, q.number)

    def put(self, record, number=40):
        self.put_question(Question(record, number))

    def put_literal(self, record, numbers, refusal=None, number=40):
        """Numbers by hand, and the refusal (number, place) that stopped the walk, if one did. It lies in the record."""
        stopped = None if refusal is None else Refusal(refusal[0], number, refusal[1])
        self.put_literal_question(told(numbers, stopped, number), Question(record, number))

    def put_refused(self, record, refusal, number=40):
        """A record that is refused as it is opened."""
        self.put_literal_question(said(Refusal(refusal, number, 0), {}), Question(record, number))
