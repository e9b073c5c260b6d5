"""What is asked of records that are chosen, each with a number of its own, and what the second reading expects: the
other half of the layer `extract`."""
from typing import NamedTuple, Optional

from lib.asking import Asker, of
from lib.on_extracts import refusal_told, told
from lib.question import ON_CHOSEN, base_told, packed_numbers, question
from lib.reading import Refusal
from lib.reading.extracts import chosen, chosen_records, judgement

(WRITE,) = KINDS = range(1)
CALLS = ("Extract::chosen, Extract::with_base, Extract::write, Extract::judged",)

# what refuses a call, in the order of their tests, and what refuses a record
REFUSALS, OF_A_RECORD = (1, 21, 44, 34, 35), (29, 30)


class Question(NamedTuple):
    """Records of so many bytes, which the record stands for, their numbers, what the lent buffer holds, which the table
    stands for, and the number of the base record that is asked for, if one is. What becomes of each record is asked
    too, and of one at a place."""

    record: bytes
    size: int
    numbers: tuple
    table: bytes = b""
    base: Optional[int] = None
    place: int = 0
    kind: int = WRITE


def judged_told(q):
    """What becomes of each record, of what lies behind the last, and of that at the place: nothing where the extract is
    refused."""
    try:
        records = chosen_records(q.record, q.size, q.numbers)
    except Refusal:
        return ""
    positions = (*range(len(records) + 1), q.place)
    given = (judgement(records, position) for position in positions)
    return " ".join([" judged", *("end" if fate is None else str(fate) for fate in given)])


class Chosen(Asker):
    """Asks of chosen records."""

    CALLS = CALLS

    def shown(self, q):
        return super().shown(q)._replace(numbers=q.numbers[:9])

    def pieces(self, q):
        return *super().pieces(q), packed_numbers(q.numbers)

    def packed(self, q):
        return question(
            ON_CHOSEN, q.record, q.table, place=q.place, size=q.size, listed=q.numbers, **base_told(q.base))

    def expected(self, q):
        answer = of(chosen, q.record, q.size, q.numbers, len(q.table), q.base)
        return told(answer, q.table, judged_told(q))

    def count_refusal(self, q, answer):
        """As of an extract."""
        given = refusal_told(answer)
        if given:
            self.refusals[given] = self.refusals.get(given, 0) + 1

    def put(self, text, size, numbers, buffer, base=None, place=0):
        self.put_question(Question(text, size, tuple(numbers), buffer, base, place))
