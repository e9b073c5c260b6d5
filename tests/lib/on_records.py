"""What is asked of one record, and what the second reading expects: the layers `fields` and `record`."""
from typing import NamedTuple

from lib import reading
from lib.asking import Asker, of, said, said_bytes
from lib.question import ON_RECORDS, question

# The kinds, by the call that answers.
(
    HEADER, OPENING_IN, KNOWN_TYPE, FLAGS, STEP, ATTRIBUTE, FIND, WALK, LIST, NAME, NAME_VIEW, FULL, VALUE,
    VALUE_VIEW,
    MOVED, TAKEN,
) = KINDS = range(16)
CALLS = (
    "Record::header", "Record::open_sized", "fields::known_type", "fields::attribute_flags",
    "Record::step", "Record::attribute", "Record::find", "Record::attributes",
    "Located::list, behind Record::attribute", "Record::name", "its bytes", "Record::full", "Record::value",
    "its bytes",
    "Reader::take", "Record::taken",
)
ON_AN_ATTRIBUTE = (STEP, ATTRIBUTE, NAME, NAME_VIEW, FULL, VALUE, VALUE_VIEW, LIST, MOVED)


class Question(NamedTuple):
    kind: int
    number: int = 40
    place: int = 0
    ty: int = 0
    instance: int = 0
    record: bytes = b""
    table: bytes = b""


# What is expected, from the second reading.

WORDS = {
    reading.Attribute: "attribute", reading.Header: "header", reading.Span: "span", reading.Resident: "resident",
    reading.NonResident: "nonresident",
}


def told(answer):
    return said(answer, WORDS)


def told_value(answer):
    if isinstance(answer, reading.Runs):
        return "value runs %d %d %d" % answer
    if isinstance(answer, reading.Span):
        return "value resident %d %d" % answer
    return told(answer)


def expected_find(q):
    """The search, behind checks 1, 2 and 27. The base record's number, which 18 tells, is one that no other answer
    holds."""
    refusal = of(reading.opening, q.record, q.number)
    if refusal is not None:
        return told(refusal)
    base = (q.number + 1) % 2 ** 64
    reads, answer = reading.find(q.record, q.number, q.ty, q.instance, base, q.place)
    return "found %d %s" % (reads, told(answer))


def expected_opening(q):
    refusal = of(reading.opening, q.record, q.number, q.place)
    return "passed" if refusal is None else told(refusal)


def expected_move(q):
    answer = of(reading.step, q.record, q.number, q.place)
    behind = q.place + answer.length if isinstance(answer, reading.Attribute) else q.place
    return "moved %d %s" % (behind, told(answer))


def expected_take(q):
    # the place is the number of the take; the end, and a refusal, is answered again and again
    answers = list(reading.walk(q.record, q.number))
    return told(answers[min(q.place, len(answers) - 1)])


def listed(q):
    return reading.opened_list(q.record, q.number, reading.attribute_at(q.record, q.number, q.place))


def at_place(call):
    """What is expected of a call for a place of the record."""
    return lambda q: told(of(call, q.record, q.number, q.place))


def bytes_of(call):
    return lambda q: said_bytes("view", reading.view(q.record, call, q.number, q.place))


EXPECTED = {
    HEADER: lambda q: told(of(reading.header, q.record, q.number)),
    OPENING_IN: expected_opening,
    KNOWN_TYPE: lambda q: "is %d" % (q.ty in reading.KNOWN),
    FLAGS: lambda q: "flags %d" % (q.instance & reading.ATTRIBUTE_FLAGS),
    STEP: at_place(reading.step),
    ATTRIBUTE: at_place(reading.attribute_at),
    FIND: expected_find,
    WALK: lambda q: "\n".join(told(a) for a in reading.walk(q.record, q.number)),
    LIST: lambda q: told(of(listed, q)),
    NAME: at_place(reading.name),
    NAME_VIEW: bytes_of(reading.name),
    FULL: at_place(reading.full),
    VALUE: lambda q: told_value(of(reading.value, q.record, q.number, q.place)),
    VALUE_VIEW: bytes_of(reading.value),
    MOVED: expected_move,
    TAKEN: expected_take,
}


class Records(Asker):
    """Asks of records."""

    CALLS = CALLS

    def packed(self, q):
        return question(ON_RECORDS + q.kind, q.record, number=q.number, place=q.place, ty=q.ty, instance=q.instance)

    def expected(self, q):
        return EXPECTED[q.kind](q)

    def goes_on(self, q, lines):
        return not lines or q.kind == WALK and lines[-1].startswith("attribute")

    def refused(self, q, refusal):
        """The reader's refusals are counted apart."""
        return "%s %2d" % ("reader" if q.kind == TAKEN else "number", refusal[0])

    def put(self, kind, record_=b"", **more):
        self.put_question(Question(kind, record=record_, **more))

    def put_all(self, record_, place, kinds=ON_AN_ATTRIBUTE, **more):
        for kind in kinds:
            self.put(kind, record_, place=place, **more)

    def put_walk(self, record_, **more):
        """The raw walk, and the reader's takes up to three behind the answer that stops the walk."""
        self.put(WALK, record_, **more)
        stop = len(list(reading.walk(record_, Question(WALK, **more).number)))
        for k in range(stop + 3):
            self.put(TAKEN, record_, place=k, **more)

    def put_literal(self, answer, kind, record_=b"", **more):
        self.put_literal_question(answer, Question(kind, record=record_, **more))
