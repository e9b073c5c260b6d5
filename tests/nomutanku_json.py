"""Tests of JSON by the command: which lines have a form, that every form is met with, and that a member which is not
the text's is noticed.

What the files nomutanku_list, nomutanku_rows and nomutanku_record compare is the object of each line by the second
reading (lib/reading/objects.py), and the text of each object by the names of its members (lib/by_members.py). Here
both are held to the table of docs/RULES.md, 18.11.
"""
import os
import re

import cases
import listing_cases
from lib import building, by_members, programs, random_records, suite
from lib.on_nomutanku import Nomutanku, whole
from lib.reading import directory, objects
from lib.reading.single import single
from lib.running import case, kept, read

RULES = os.path.join(programs.ROOT, "docs", "RULES.md")

# a number in the rules, or its name
NUMBER = re.compile(r"\b(?:[A-Z]+|[0-9]+)\b")


def rule():
    """(text, members) of each row of the table, as they stand there, with # for a number."""
    section = read(RULES).decode().split("**18.11 ")[1].split("\n**")[0]
    for text, told in re.findall(r"^\| `(.*)` \| (.*) \|$", section, re.MULTILINE):
        yield NUMBER.sub("#", text), NUMBER.sub("#", told)


def test_the_forms_are_those_of_the_rules(test):
    """The second reading has each row of the rule's table, and no other."""
    expected = set()
    for text, told in rule():
        if text.endswith(", or `free"):
            text, told = text.removesuffix("`, or `free"), told.removesuffix(', or `"free"`')
            expected.add((text.replace("used", "free"), told.replace("used", "free").strip("`")))
        expected.add((text.removesuffix(" .."), told.split("`")[1]))
    ours = {*objects.LINES, objects.ATTRIBUTE, *objects.NAMES, *objects.VALUES}
    test.same((ours - expected, expected - ours), set(), set())


# a part whose name is refused by 8 and whose header is cut
NAME_AND_PARTS = listing_cases.of(
    building.list_of(listing_cases.to()),
    others=((building.non_resident(0x80, 1, 24, cut=True, units=1, name=24),),))


def texts():
    """Listings, rows and records that have lines of every form."""
    tables = [NAME_AND_PARTS, *(text for text, _ in cases.kept(cases.FOLDER).values())]
    yield from map(whole, tables)
    yield from (whole(text, 41) for text in tables)
    yield from map(directory.rows, tables)
    for number, record in random_records.real_records():
        yield from (single(record, number), single(record[:-1], number), single(b"BAAD" + record[4:], number))
        yield from (single(record[:64], number), single(building.with_used(record[:64], 64), number))


def test_every_form_is_met_with(test):
    """The inputs of these tests have a line of each form, and each is told as text again by its members."""
    met = set()
    for text in texts():
        test.same((by_members.text_of(objects.of_text(text)),), text)
        met |= {objects.NUMBER.sub("#", line) for line in text.decode().split("\n")[:-1]}
    test.same((set(objects.FORMS) - met,), set())


def test_a_wrong_member_is_noticed(test):
    """Of an object with one number more, one name changed, one member less, one twice or a number in quotes, no text
    is told, or another."""
    for form in objects.FORMS:
        text = re.sub("#", "7", form)
        line = objects.of_line(text)
        assert by_members.text_of_line(line) == text
        members = line[1:-1].split(",")
        for k, member in enumerate(members):
            name, value = member.split(":")
            quoted, other = ('"7"', "8") if value == "7" else ("7", '"x"')
            for wrong in (
                [], [member, member], [name[:-1] + '_":' + value], [name + ":" + quoted], [name + ":" + other],
                [member, '"more":7']):
                changed = "{" + ",".join([*members[:k], *wrong, *members[k + 1:]]) + "}"
                test.same((told(changed) != text,), True)


def told(line):
    """The text of an object by its members, or None where there is none."""
    try:
        return by_members.text_of_line(line)
    except (AssertionError, KeyError, ValueError):
        return None


# the lines that runs have by hand
RUN, HOLE = '{"line":"run","start":%d,"length":%d}', '{"line":"hole","length":%d}'
RUN_REFUSED = '{"line":"run refused","refusal":%d}'
RUN_LINES = ('{"line":"run', '{"line":"hole"')


def test_runs(test):
    """The lines of runs by hand: under values and under parts, with the largest numbers, and none."""
    most = 2 ** 63 - 1
    for name, lines in (
        ("runs-hole", [RUN % (10, 5), HOLE % 8, RUN % (12, 3)]), ("runs-none", []),
        ("runs-2-refused-24", [RUN % (10, 5), HOLE % 8, RUN_REFUSED % 24]),
        ("runs-parts-refused-26", [RUN % (10, 5), RUN_REFUSED % 26, RUN % (2, 3)]),
        ("runs-sum", [RUN % (most, most), RUN_REFUSED % 26]), ("runs-parts-19", [RUN % (10, 5), HOLE % 8])):
        status, out, _ = test.run("list", "--json", case(name))
        test.same((status, [line for line in out.decode().split("\n") if line.startswith(RUN_LINES)]), 0, lines)


def test_headings(test):
    """Each of several tables has a heading that is an object too, with its name as it is shown in text."""
    names = ("whole", "stopped-13", "parts-2", "empty")
    for command, expected in (
        ("list", [kept(name) for name in names]), ("rows", [directory.rows(read(case(name))) for name in names])):
        status, out, _ = test.run(command, "--json", *map(case, names))
        heads = [b"table %s\n" % case(name).encode() for name in names]
        objects_ = b"".join(
            b'{"line":"table","name":"%s"}\n%s' % (case(name).encode(), objects.of_text(text))
            for name, text in zip(names, expected))
        test.same((status, out), 2, objects_)
        test.same((by_members.text_of(out),), b"".join(map(bytes.__add__, heads, expected)))


main = suite.of(Nomutanku, Nomutanku.finish)

if __name__ == "__main__":
    main()
