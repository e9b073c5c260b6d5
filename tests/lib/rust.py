"""The answers of the Rust crate that are kept in tests/rust_answers.txt and tests/rust_parts.txt, and ours in its
words.

tests/compare_rust makes these files and compares with the crate itself; here no Rust is needed.

The Rust joins entries by type and instance, and the rules by type and name; it reads names at byte 26, and the rules
where entries say; and it walks past used sizes. So each kept answer is held to the second reading as it lists like the
Rust, and the program to the second reading by the rules: where the two readings agree, the program is held to the Rust,
and how many tables they differ on is told.
"""
import base64
import os
import random
import struct
import zlib
from typing import NamedTuple

from lib import on_items, on_parts, on_records, reading, volumes
from lib.programs import TESTS
from lib.reading import items

SEED = 20240507

# Where a table's base row stands.
BASE_ROW_AT = 16

# The refusals whose record and place the crate tells: of a walk, and of names, values and parts.
PLACED_IN_WALKS, PLACED = {2, 3, 4, 5, 10, 11}, {2, 3, 4, 5, 8, 9, 10, 11, 19}

# The refusals of a walk before it begins, where nothing is read.
BEFORE = ("1", "2", "21", "27")


class Case(NamedTuple):
    """A table, behind how many refusals its walk went on, the lines of the walk, and the first of some types."""

    on: int
    table: bytes
    lines: list
    first: dict


def kept(name):
    with open(os.path.join(TESTS, name), encoding="ascii") as given:
        return given.read()


def with_base(text, row):
    """The table with another base row."""
    return text[:BASE_ROW_AT] + struct.pack("<I", row) + text[BASE_ROW_AT + 4:]


def cases_in(text):
    """The cases of a kept file."""
    cases = []
    for line in text.split("\n"):
        if not line or line.startswith("#"):
            continue
        word, _, rest = line.partition(" ")
        if word == "table":
            on, packed = rest.split(" ")
            cases.append(Case(int(on), zlib.decompress(base64.b64decode(packed)), [], {}))
        elif word == "volume":
            on, name, row = rest.split(" ")
            cases.append(Case(int(on), with_base(volumes.table_named(name), int(row)), [], {}))
        elif word == "first":
            ty, answer = rest.split(" ", 1)
            cases[-1].first[int(ty)] = answer
        else:
            cases[-1].lines.append(line)
    return cases


def changed_answers(text, count, starts):
    """The text with one character of an answer changed, so often, each time in another line that begins with one of
    these."""
    chance, lines = random.Random(SEED), text.split("\n")
    for k in chance.sample([k for k, line in enumerate(lines) if line.startswith(starts)], count):
        line = lines[k]
        # behind the type of a `first`: another type would be another question
        front = line.index(" ", len("first ")) if line.startswith("first ") else 0
        at = chance.choice([i for i, c in enumerate(line) if c.isdigit() and i > front] or [len(line) - 1])
        yield "\n".join(lines[:k] + [line[:at] + chr(ord(line[at]) ^ 1) + line[at + 1:]] + lines[k + 1:])


# Walks: without states and reads.

def item_told(words):
    """Resident, not resident, or not resident with its list; the Rust may fall over the value of a header that is cut
    (7)."""
    resident = words[5] == "1"
    form = "resident" if resident else "parts" if words[8] == "1" else "runs"
    form = "short" if int(words[4]) < (24 if resident else 64) else form
    return "item %s %s %s %s %s %s" % (*words[1:5], words[6], form)


def refused_in_walk(words):
    return "refused %s" % words[1] + (" %s %s" % (words[2], words[3]) if int(words[1]) in PLACED_IN_WALKS else "")


def walk_told(lines, on):
    """A walk's lines as the Rust tells them when it is to go on behind `on` refusals: a refusal that leaves the state
    as it was is given again and again."""
    out, left = [], on + 1
    for line in lines:
        words = line.split(" ")
        if words[0] == "item":
            out.append(item_told(words))
        elif words[0] == "end":
            out.append("end")
        else:
            out.append(refused_in_walk(words))
            left -= 1
            # told to stop; or refused before it began
            if left == 0 or words[1] in BEFORE and words[-1] == "0":
                return out
    if out and out[-1].startswith("refused"):
        out += [out[-1]] * left
    return out


def first_told(line):
    """The first of a type as the Rust tells it: record and offset, or the refusal with the places it has."""
    words = line.split(" ")
    return "item %s %s" % (words[1], words[2]) if words[0] == "item" else refused_in_walk(words)


class Replayed(NamedTuple):
    """How many cases and lines of them were replayed, how many parts among these, in how many cases the two readings
    differ, and (question, expected, found) of what differs."""

    cases: int
    lines: int
    parts: int
    otherwise: int
    different: list


class Held:
    """Holds the kept lines to what is read as the Rust lists, and the program's to what is read by the rules."""

    def __init__(self):
        self.lines, self.otherwise, self.different = 0, set(), []

    def hold(self, case, q, kept_lines, before, by_rules, told):
        """The lines of one answer: those kept, of both readings, and of the program."""
        self.lines += len(kept_lines)
        if before != by_rules:
            self.otherwise.add(case)
        wrong = (kept_lines, before) if kept_lines != before else (by_rules, told)
        if wrong[0] != wrong[1]:
            self.different.append((q, *("\n".join(lines) for lines in wrong)))


def replayed_items(asker, text):
    """The kept answers, the second reading and the program against each other."""
    cases, questions, kept_lines = cases_in(text), [], []
    for case, (on, table, lines, first) in enumerate(cases):
        number, r = items.base_of(table)
        questions.append(on_items.Question(on_items.WALK, r, table, number))
        kept_lines.append((case, lines, on))
        for ty, answer in first.items():
            questions.append(on_items.Question(on_items.FIRST, r, table, number, ty=ty))
            kept_lines.append((case, [answer], None))
    by_rules = list(map(asker.expected, questions))
    asked = list(map(asker.counted, questions, by_rules))
    found, rest = asker.answers_in(asked, asker.answers_to(asked))
    assert not rest
    with reading.as_the_rust_lists(), reading.without_used_sizes():
        before = list(map(asker.expected, questions))
    held = Held()
    for q, (case, lines, on), *answers in zip(asked, kept_lines, before, by_rules, found):
        held.hold(case, q, lines, *(
            [first_told(answer)] if on is None else walk_told(on_items.lines_of(answer), on) for answer in answers))
    return Replayed(len(cases), held.lines, 0, len(held.otherwise), held.different)


# Listings: both sides in the words of the listing, without counts.

def refused_told(words):
    """A refusal, from its number, record and place."""
    return "refused " + " ".join(words[:3] if int(words[0]) in PLACED else words[:1])


def value_questions(q, answer):
    """The name and the value of each item of a walk, asked of its record."""
    files = [line.split(" ")[1:3] for line in answer.split("\n") if line.startswith("item ")]
    if not files:
        return []
    rows = {**items.table_of(q.table).rows, q.number: q.record}
    return [
        on_records.Question(kind, int(file), int(at), record=rows[int(file)])
        for file, at in files for kind in (on_records.NAME, on_records.VALUE)
    ]


def parts_told(line):
    """An item's parts: the value, and a line for each of them."""
    head, _, rest = line.rpartition(" unchanged ")[0].partition(" part ")
    lines = [part.split(" ") for part in rest.split(" part ")] if rest else []
    end = head.split(" ")[2:6]
    if end[0] == "whole":
        end = "size " + lines[0][5]
    else:
        end = "short" if end[1] == "7" else refused_told(end[1:])
    return "parts %d %s" % (len(lines), end), ["part " + " ".join(part[:5]) for part in lines]


def value_told(value, parts):
    """An item's value and the lines of its parts: `value` is the record's answer, `parts` the line of the walk."""
    words = value.split(" ")
    # the Rust has no check 7: it may say anything of a value whose header is cut
    if words[:2] == ["refused", "7"]:
        return "short", []
    if parts is not None:
        return parts_told(parts)
    if words[0] == "refused":
        return refused_told(words[1:]), []
    return " ".join(words[1:] if words[1] == "resident" else words[1:4] + ["size"] + words[4:]), []


def listing_told(answer, told):
    """The lines of a walk, those of each call together; `told` are the answers to value_questions."""
    calls, told = [], iter(told)
    lines = answer.split("\n")
    for k, line in enumerate(lines):
        words = line.split(" ")
        if words[0] == "item":
            name, value = next(told), next(told)
            name = refused_told(name.split(" ")[1:]) if name.startswith("refused") else name.split(" ", 1)[1]
            value, parts = value_told(value, lines[k + 1] if words[8] == "1" else None)
            calls.append(["attr %s %s name %s value %s" % (" ".join(words[1:5]), words[6], name, value), *parts])
        elif words[0] == "refused":
            calls.append([refused_told(words[1:])])
            if len(calls) == 1 and words[-1] == "0" and words[1] in BEFORE:
                # refused before it began
                break
        elif words[0] == "end":
            calls.append(["end"])
    return calls


def alike(ours, theirs):
    """The same lines of a call. Where a header is cut (7), only what comes before it is compared."""
    if not ours[0].endswith(" short"):
        return ours == theirs
    before = ours[0].split(" value ")[0]
    return theirs[0].split(" value ")[0] == before and theirs[1:len(ours)] == ours[1:]


def flat(calls):
    """The lines of all calls."""
    return [line for call in calls for line in call]


def read_listings(asker, of_records, questions):
    """The listings of these walks, as the second reading has them."""
    for q in questions:
        answer = asker.expected(q)
        yield flat(listing_told(answer, map(of_records.expected, value_questions(q, answer))))


def replayed_parts(asker, text):
    """The kept listings, the second reading and the program against each other."""
    of_records, cases, questions = on_records.Records(), cases_in(text), []
    for case in cases:
        number, r = items.base_of(case.table)
        q = on_parts.Question(on_parts.WALK, r, case.table, number, on=case.on)
        questions.append(asker.counted(q, asker.expected(q)))
    found, rest = asker.answers_in(questions, asker.answers_to(questions))
    assert not rest
    asked = [value_questions(q, answer) for q, answer in zip(questions, found)]
    told = iter(of_records.answers_to([v for values in asked for v in values]).split("\n"))
    ours = [flat(listing_told(answer, [next(told) for _ in values])) for answer, values in zip(found, asked)]
    by_rules = list(read_listings(asker, of_records, questions))
    with reading.as_the_rust_lists(), reading.without_used_sizes():
        before = list(read_listings(asker, of_records, questions))
    held = Held()
    for case, (q, given, *lines) in enumerate(zip(questions, cases, before, by_rules, ours)):
        held.hold(case, q, given.lines, *lines)
    parts = sum(line.startswith("part ") for case in cases for line in case.lines)
    return Replayed(len(cases), held.lines, parts, len(held.otherwise), held.different)
