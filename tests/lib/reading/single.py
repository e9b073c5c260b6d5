"""A second reading of the rules on one record that is told as the raw walk gives it (RULES 18.10)."""
from .answers import Refusal
from .listing import attribute_lines, text_of
from .record import header, walk


def lines(record, number):
    """The lines: one alone where the record is refused; else its length, its header, its attributes, and how the walk
    ended."""
    try:
        h = header(record, number)
    except Refusal as refusal:
        yield "record refused %d" % refusal.number
        return
    yield "record %d size %d" % (number, len(record))
    yield "header sequence %d links %d first %d flags %d used %d allocated %d" % h
    for answer in walk(record, number):
        if answer is None:
            yield "end"
        elif isinstance(answer, Refusal):
            yield "stopped %d" % answer.number
        else:
            # no form of parts: a list and an unknown type are told like any other
            yield from attribute_lines(record, number, answer)


def single(record, number=0):
    """The bytes of these lines."""
    return text_of(lines(bytes(record), number))
