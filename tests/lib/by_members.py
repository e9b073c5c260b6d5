"""JSON lines read with Python's own parser, and told as text by the names of their members (RULES 18.11).

It shares nothing with reading/objects.py, which makes the object of a line by the order of its numbers: here a member
is found by its name, whatever stands around it.
"""
import json
import string

# the text of a line by what "line" says; a member's text stands for its name
WHOLE = {
    "record": "{line} {number} size {size}",
    "header": "{line} sequence {sequence} links {links} first {first} flags {flags} used {used} allocated {allocated}",
    "part": "{line} {record} {offset} {vcn} {runs_offset} {runs_bytes}",
    "run": "{line} {start} {length}",
    "hole": "{line} {length}",
    "run refused": "{line} {refusal}",
    "table refused": "{line} {refusal}",
    "record refused": "{line} {refusal}",
    # the heading of a table, which a listing itself has not
    "table": "{line} {name}",
}
VALUE = {
    "resident": " value {value} {value_offset} {value_bytes}",
    "runs": " value {value} {value_offset} {value_bytes} size {value_size}",
    "refused": " value {value} {value_refused}",
}
WORDS = {"line", "value", "state", "name"}


class Digits(str):
    """A number as it stands there, which is no string in quotes."""


def form_of(members):
    """How the text of an object is put together."""
    line = members["line"]
    if line == "row":
        return "{line} {number} {place} {state}" + (" {refusal}" if "refusal" in members else "")
    if line == "end":
        return "{line}" + "".join(" %s {%s}" % (name, name) for name in ("reads", "rows") if name in members)
    if line == "stopped":
        return "{line} {refusal}" + (" reads {reads}" if "reads" in members else "")
    if line != "attr":
        return WHOLE[line]
    name = "refused {name_refused}" if "name_refused" in members else "{name_offset} {name_bytes}"
    value = VALUE.get(members["value"], " value {value} {value_parts} size {value_size}")
    if members["value"] == "parts" and "value_refused" in members:
        value = " value {value} {value_parts} refused {value_refused}"
    return "{line} {record} {offset} {type} {length} {instance} name " + name + value


def members_of(line):
    """The members of an object, numbers as their digits: none stands twice, and each is a word or a number as its name
    says."""
    pairs = json.loads(line, object_pairs_hook=list, parse_int=Digits)
    members = dict(pairs)
    assert len(members) == len(pairs), line
    for name, value in pairs:
        assert type(value) is (str if name in WORDS else Digits), line
    return members


def text_of_line(line):
    """The text of one object. Each of its members is told there, and no more is."""
    members = members_of(line)
    form = form_of(members)
    assert {name for _, name, _, _ in string.Formatter().parse(form) if name} == set(members), line
    return form.format_map(members)


def text_of(objects):
    """The bytes of the text of these bytes of objects, a line each."""
    lines = objects.decode("ascii").split("\n")
    assert lines.pop() == "", "JSON lines end in LF"
    return "".join(text_of_line(line) + "\n" for line in lines).encode("ascii")
