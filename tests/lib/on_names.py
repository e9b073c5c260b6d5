"""What is asked of the names of a file and of the name in a value, and what the second reading expects: the layer
`filename`."""
from typing import NamedTuple

from lib.asking import Asker, of, said, said_bytes
from lib.question import ON_NAMES, question
from lib.reading import Refusal
from lib.reading.names import Names, find, name_in, names_of

OF, VALUE = KINDS = range(2)
CALLS = (
    "filename::names_of, filename::first_name, filename::find_name", "filename::name_of, filename::Namespace::is_long")

# what refuses the file; and what can stop its walk
OPENING, STOPPING = (1, 2, 21, 27), (2, 3, 4, 5, 6, 7, 10, 11, 13, 14, 15, 16, 17, 18, 27, 28, 31)


class Question(NamedTuple):
    """A base record with a table, and the name that is sought; or a value, as a record."""

    kind: int
    record: bytes
    table: bytes = b""
    number: int = 40
    wanted: bytes = b""


# The answers in the program's words.

def said_found(answer):
    return "found " + (answer if isinstance(answer, str) else "unknown " + said(answer, {}))


def told(answer, found):
    """A line for each name, one for the first, and one for whether the name that is sought is among them."""
    lines = [said_bytes("name", name) for name in answer.names]
    first = said_bytes("first name", answer.names[0]) if answer.names else "first none"
    return "\n".join([*lines, first, said_found(found)])


def told_value(name):
    """The namespace, whether its names are long, and the name."""
    if name is None:
        return "none"
    known = isinstance(name.namespace, str)
    space = name.namespace if known else "other %d" % name.namespace
    return said_bytes("%s long %d name" % (space, name.is_long()), name.text)


class OfNames(Asker):
    """Asks of names."""

    CALLS = CALLS

    def __init__(self):
        super().__init__()
        # how often a name was found, was not, and could not be told
        self.found = {"yes": 0, "no": 0, "unknown": 0}

    def shown(self, q):
        return super().shown(q)._replace(wanted=q.wanted.hex())

    def pieces(self, q):
        return *super().pieces(q), q.wanted

    def packed(self, q):
        """The name that is sought comes as that of a key, with how many bytes it has."""
        sought = {} if q.kind == VALUE else {"key": 1, "most": len(q.wanted)}
        return question(ON_NAMES + q.kind, q.record, q.table, q.wanted, number=q.number, **sought)

    def expected(self, q):
        if q.kind == VALUE:
            return told_value(name_in(q.record))
        answer = of(names_of, q.record, q.number, q.table)
        return said(answer, {}) if isinstance(answer, Refusal) else told(answer, find(answer, q.wanted))

    def goes_on(self, q, lines):
        """Names stand on lines of their own, and the last line tells whether one is found."""
        return not lines or lines[-1].startswith(("name ", "first "))

    def count_refusal(self, q, answer):
        super().count_refusal(q, answer)
        last = answer[answer.rfind("\n") + 1:].split(" ")
        if last[0] == "found":
            self.found[last[1]] += 1

    def report(self):
        super().report()
        print("names sought: %s" % ", ".join("%s (%d)" % pair for pair in self.found.items()))

    def put(self, record, table, wanted, number=40):
        self.put_question(Question(OF, record, table, number, wanted))

    def put_literal(self, record, table, names, refusal=None, number=40, absent=()):
        """Names by hand, and the refusal that stopped the walk, if one did. Each of the names is sought and found; each
        of the absent ones is not, nor is one that no record has: behind a refusal it may stand."""
        stopped = None if refusal is None else Refusal(*refusal)
        missing = "no" if refusal is None else stopped
        for wanted, found in (
            *((name, "yes") for name in dict.fromkeys(names)),
            *((name, missing) for name in (*absent, b"no such name")),
        ):
            answer = told(Names(list(names), stopped), found)
            self.put_literal_question(answer, Question(OF, record, table, number, wanted))

    def put_refused(self, record, table, refusal, number=40):
        """A file that is refused as it is opened, by (number, record, place)."""
        self.put_literal_question(said(Refusal(*refusal), {}), Question(OF, record, table, number, b"a\0"))

    def put_value(self, text, namespace=None, long=False, name=b""):
        """A value by hand: the namespace by its word or its number, None where there is no name."""
        space = "other %d" % namespace if isinstance(namespace, int) else namespace
        answer = "none" if namespace is None else said_bytes("%s long %d name" % (space, long), name)
        self.put_literal_question(answer, Question(VALUE, text))
