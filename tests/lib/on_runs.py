"""What is asked of cluster runs, and what the second reading expects: the layer `runs`."""
from typing import NamedTuple

from lib import reading
from lib.asking import Asker, of, said
from lib.question import ON_RUNS, question
from lib.reading.runs import State, all_runs, run

# The kinds, by the call that answers.
STEP, ALL = KINDS = range(2)
CALLS = ("runs::step", "Runs::of, to its end")

# All that a run is refused by, and what the opening of its record is.
REFUSALS, OF_THE_OPENING = (23, 24, 25, 26), (1, 2, 27)


class Question(NamedTuple):
    """One run: the record is the run bytes from it on, and `last` and `total` come from the runs before it. All of
    them: they stand in so many bytes of a record, from a place on."""

    kind: int
    record: bytes = b""
    number: int = 41
    place: int = 0
    last: int = 0
    total: int = 0
    count: int = 0
    table: bytes = b""


# The answers in the program's words.

def told(answer):
    """A run, the end, or a refusal."""
    if answer is None or isinstance(answer, reading.Refusal):
        return said(answer, {})
    return "hole %d" % answer.length if answer.start is None else "run %d %d" % answer


def told_step(answer, last, total, taken):
    """A step's answer, and what goes on from it."""
    return "%s last %d sum %d taken %d" % (told(answer), last, total, taken)


def told_all(runs, refusal):
    """A line for each run and for the refusal, and the end behind them."""
    return "\n".join([told(answer) for answer in (*runs, *([refusal] if refusal else ()), None)])


def expected_step(q):
    """The second reading counts places from the bytes that it is handed: a refusal is told at the question's."""
    given = State(0, len(q.record), q.last, q.total)
    try:
        answer, left = run(q.record, q.number, given)
    except reading.Refusal as refusal:
        answer, left = reading.Refusal(refusal.number, refusal.file, q.place), given
    return told_step(answer, left.start, left.total, left.place)


def expected_all(q):
    """Behind checks 1, 2 and 27 of the record."""
    refusal = of(reading.opening, q.record, q.number)
    if refusal is not None:
        return told_all((), refusal)
    runs, refusal, _ = all_runs(q.record, q.number, q.place, q.count)
    return told_all(runs, refusal)


class Runs(Asker):
    """Asks of runs."""

    CALLS = CALLS

    def packed(self, q):
        return question(
            ON_RUNS + q.kind, q.record, q.table, number=q.number, place=q.place, last=q.last, sum=q.total,
            run_bytes=q.count)

    def expected(self, q):
        return expected_step(q) if q.kind == STEP else expected_all(q)

    def goes_on(self, q, lines):
        return not lines or q.kind == ALL and lines[-1] != "end"

    def refused(self, q, refusal):
        """Counted by the call."""
        return "%s %d" % (CALLS[q.kind], refusal[0])

    def put(self, kind, record, **more):
        self.put_question(Question(kind, record, **more))

    def put_literal(self, answer, kind, record, **more):
        self.put_literal_question(answer, Question(kind, record, **more))
