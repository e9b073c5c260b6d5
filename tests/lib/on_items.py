"""What is asked of the item walk, and what the second reading expects: the layer `items`."""
from typing import NamedTuple

from lib import reading
from lib.asking import Asker
from lib.question import ON_ITEMS, key_told, list_numbers, name_told, question
from lib.reading import items
from lib.reading.entries import MOST_NAME
from lib.reading.items import NO_KEY, NO_LIST, Key, Rest, State

FRESH, NEXT, WALK, FIRST = KINDS = range(4)
CALLS = ("State::fresh", "File::next", "File::next, from fresh on through refusals", "File::first_of")

# how many calls a walk makes at most
TURNS = 400
START = State(0, NO_LIST, NO_KEY)


def key_with(ty, units, name=b""):
    """A key of so many units whose 510 bytes begin with these: the name, and what stands behind it."""
    return Key(True, ty, units, name.ljust(MOST_NAME, b"\0"))


class Question(NamedTuple):
    """`turns` is how many calls a walk makes."""

    kind: int
    record: bytes
    table: bytes
    number: int = 40
    state: State = START
    ty: int = 0
    turns: int = TURNS


# The answers in the program's words.

def said(answer):
    """An item, the end or a refusal."""
    if answer is None:
        return "end"
    if isinstance(answer, reading.Refusal):
        return "refused %d %d %d" % (answer.number, answer.file, answer.place)
    a = answer.attribute
    return "item %d %d %d %d %d %d rest %d %d %d" % (
        answer.file, a.offset, a.ty, a.length, a.resident, a.instance, *answer.rest)


def said_key(key):
    """A name is told in hex up to its last byte that is not 0, a dash where it has none."""
    return "%d %d %d %s" % (key.there, key.ty, key.units, name_told(key).hex() or "-")


def said_state(state):
    # a list or a key that is not there has no numbers
    rest, key = state.rest if state.rest.there else NO_LIST, state.key if state.key.there else NO_KEY
    return "left %d %d %d %d %s" % (state.raw, *rest, said_key(key))


def said_call(answer, left, reads):
    return "%s %s reads %d" % (said(answer), said_state(left), reads)


def state_in(line):
    """The state that a line of a call tells of."""
    words = line.split(" left ")[1].split(" ")
    place, there, start, end, is_, ty, units = map(int, words[:7])
    name = bytes.fromhex("" if words[7] == "-" else words[7])
    return State(place, Rest(there == 1, start, end), Key(is_ == 1, ty, units, name.ljust(MOST_NAME, b"\0")))


def lines_of(answer):
    return [] if answer is None else answer.split("\n")


class Items(Asker):
    """Asks of the item walk."""

    CALLS = CALLS

    def shown(self, q):
        return super().shown(q)._replace(state=said_state(q.state))

    def pieces(self, q):
        return *super().pieces(q), name_told(q.state.key)

    def packed(self, q):
        """A state is sent as its place, its list and its key."""
        key = key_told(q.state.key)
        # one type serves the key of a state and the first of a type: no call has both
        if q.kind == FIRST:
            key["ty"] = q.ty
        return question(
            ON_ITEMS + q.kind, q.record, q.table, number=q.number, place=q.state.raw, **list_numbers(q.state.rest),
            **key,
            most=q.turns)

    def expected(self, q):
        """A line for each call of a walk, and none where it makes none."""
        if q.kind == FRESH:
            return "fresh " + said_state(items.fresh(q.record))
        if q.kind == NEXT:
            return said_call(*items.next_item(q.record, q.number, q.table, q.state))
        if q.kind == WALK:
            calls = [said_call(*call) for call in items.walk(q.record, q.number, q.table, q.turns)]
            return "\n".join(calls) if calls else None
        answer, reads = items.first_of(q.record, q.number, q.table, q.ty)
        return "%s reads %d" % (said(answer), reads)

    def counted(self, q, answer):
        """The program makes as many calls as are expected, up to the one that every later call repeats."""
        return q._replace(turns=len(lines_of(answer))) if q.kind == WALK else q

    def goes_on(self, q, lines):
        return len(lines) < (q.turns if q.kind == WALK else 1)

    def count_refusal(self, q, answer):
        """Each refusal of a walk counts."""
        for line in lines_of(answer):
            if line.startswith("refused "):
                number = int(line.split(" ")[1])
                self.refusals[number] = self.refusals.get(number, 0) + 1

    def put(self, kind, record, table, **more):
        self.put_question(Question(kind, record, table, **more))

    def put_walk(self, record, table, number=40):
        """The walk, and each call of it once more from the state that the one before left."""
        q = Question(WALK, record, table, number)
        lines = lines_of(self.expected(q))
        self.ask(q, "\n".join(lines))
        states = [items.fresh(record)] + [state_in(line) for line in lines]
        for state, line in zip(states, lines):
            self.ask(Question(NEXT, record, table, number, state), line)
        # the state left last answers again
        self.put(NEXT, record, table, number=number, state=states[-1])

    def put_literal(self, record, table, *lines, number=40):
        """The lines of a walk by hand. Each call of it is asked too, and the first of some types."""
        self.put_literal_question("\n".join(lines), Question(WALK, record, table, number))
        self.put_walk(record, table, number)
        self.put(FRESH, record, table, number=number)
        for ty in (0x10, 0x30, 0x80, 0x90, 0x20, 0, reading.MARKER):
            self.put(FIRST, record, table, number=number, ty=ty)

    def put_call(self, record, table, state, line):
        """One call by hand, from any state."""
        self.put_literal_question(line, Question(NEXT, record, table, state=state))

    def put_first(self, record, table, ty, line):
        """The first of a type by hand."""
        self.put_literal_question(line, Question(FIRST, record, table, ty=ty))
