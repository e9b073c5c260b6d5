"""A second reading of the rules on JSON (RULES 18.11): the object of a line of text.

A row of the rule's table is a row here: the line's words, with a letter for each number, and the members. The rows
that tell a part of a line stand apart.
"""
import re

# what a line tells as a whole
LINES = (
    ("record # size #", '{"line":"record","number":#,"size":#}'),
    ("part # # # # #", '{"line":"part","record":#,"offset":#,"vcn":#,"runs_offset":#,"runs_bytes":#}'),
    ("run # #", '{"line":"run","start":#,"length":#}'),
    ("hole #", '{"line":"hole","length":#}'),
    ("run refused #", '{"line":"run refused","refusal":#}'),
    ("end reads #", '{"line":"end","reads":#}'),
    ("stopped # reads #", '{"line":"stopped","refusal":#,"reads":#}'),
    ("table refused #", '{"line":"table refused","refusal":#}'),
    ("row # # used", '{"line":"row","number":#,"place":#,"state":"used"}'),
    ("row # # free", '{"line":"row","number":#,"place":#,"state":"free"}'),
    ("row # # refused #", '{"line":"row","number":#,"place":#,"state":"refused","refusal":#}'),
    ("end rows #", '{"line":"end","rows":#}'),
    ("header sequence # links # first # flags # used # allocated #",
     '{"line":"header","sequence":#,"links":#,"first":#,"flags":#,"used":#,"allocated":#}'),
    ("end", '{"line":"end"}'),
    ("stopped #", '{"line":"stopped","refusal":#}'),
    ("record refused #", '{"line":"record refused","refusal":#}'),
)
# an attribute's line is one of each of these
ATTRIBUTE = ("attr # # # # #", '{"line":"attr","record":#,"offset":#,"type":#,"length":#,"instance":#')
NAMES = (
    ("name # #", ',"name_offset":#,"name_bytes":#'),
    ("name refused #", ',"name_refused":#'),
)
VALUES = (
    ("value resident # #", ',"value":"resident","value_offset":#,"value_bytes":#'),
    ("value runs # # size #", ',"value":"runs","value_offset":#,"value_bytes":#,"value_size":#'),
    ("value refused #", ',"value":"refused","value_refused":#'),
    ("value parts # size #", ',"value":"parts","value_parts":#,"value_size":#'),
    ("value parts # refused #", ',"value":"parts","value_parts":#,"value_refused":#'),
)


def forms():
    """(words, members) of every line that there is."""
    yield from LINES
    for name, name_members in NAMES:
        for value, value_members in VALUES:
            yield " ".join((ATTRIBUTE[0], name, value)), ATTRIBUTE[1] + name_members + value_members + "}"


NUMBER = re.compile("[0-9]+")
FORMS = dict(forms())


def of_line(line):
    """The object of a line of text, both without their LF. A line that has no form is the caller's fault."""
    numbers = iter(NUMBER.findall(line))
    # the numbers stand in the object in the order of the text
    return re.sub("#", lambda _: next(numbers), FORMS[NUMBER.sub("#", line)])


def of_text(text):
    """The bytes of the objects of these lines, a line each."""
    lines = text.decode("ascii").split("\n")
    assert lines.pop() == "", "a text ends in LF"
    return "".join(of_line(line) + "\n" for line in lines).encode("ascii")
