"""A second reading of the rules on parts and on the listing (RULES 15 and 18): the whole listing of a table.

The parts are read here, from the rules too, apart from parts.py on purpose: the tests of the parts hold the library
to that reading, those of the listing to this one, and where both pass two readings agree.
"""
from typing import NamedTuple

from .answers import Refusal, Span
from .entries import BY_INSTANCE, entry
from .items import fresh, next_in, table_of
from .record import KNOWN, WITHOUT_USED, find, full_of, name, number_at, value
from .runs import all_runs

# RULES 18: a longer input counts as malformed; room for the parts of an item
MOST = 65536
ROOM = 157

# RULES 3.1: where a record's used size stands
USED_AT = 24


class Part(NamedTuple):
    file: int
    offset: int
    vcn: int
    runs: int
    count: int
    size: int


# Parts.

def held_by(record, number, rows, wanted):
    """The record with a number, or None: the base record wins over a row of its number (RULES 11)."""
    return record if wanted == number else rows.get(wanted)


def no_file(record):
    """Which of 2 and 27 refuses a whole record, 0 where neither does (RULES 3)."""
    if record[:4] != b"FILE":
        return 2
    return 27 if not WITHOUT_USED.get() and number_at(record, USED_AT, 4) > len(record) else 0


def part_of(record, number, rows, e, place):
    """The part that an entry leads to: (reads, part or refusal). The entry stands at `place` in the base record."""
    found = held_by(record, number, rows, e.file)
    if found is None:
        return 0, Refusal(17, number, place)
    if no_file(found):
        return 0, Refusal(no_file(found), e.file, 0)
    reads, a = find(found, e.file, e.ty, e.instance, number, place)
    if isinstance(a, Refusal):
        return reads, a
    # 19, then 7, then 12 (RULES 15)
    if a.resident:
        return reads, Refusal(19, e.file, a.offset)
    try:
        f = full_of(found, e.file, a)
    except Refusal as refusal:
        return reads, refusal
    if f.runs > a.length:
        return reads, Refusal(12, e.file, a.offset)
    # the VCN is the attribute's own lowest; the runs go up to its end
    return reads, Part(e.file, a.offset, f.lowest, a.offset + f.runs, a.length - f.runs, f.size)


def stream_of(record, e, at):
    """What the entries of one stream have alike: the type and the name (RULES 14)."""
    if BY_INSTANCE.get():
        return e.ty, e.instance
    start = at + e.name
    return e.ty, bytes(record[start:start + 2 * e.units])


def parts_of(record, number, rows, rest, room=ROOM):
    """The parts of a non-resident item found by the entry that begins `rest`: (parts, refusal or None, reads).

    By that entry and those directly behind it (RULES 15).
    """
    out, reads, first, at = [], 0, None, rest.start
    while True:
        try:
            # 14, 15, 31, 16
            e = entry(record[at:rest.end], number, at)
        except Refusal as refusal:
            return out, refusal, reads
        if e is None:
            # where no entry is given the parts are whole
            return out, None, reads
        # RULES 17: the entry that ends the parts counts too
        reads += 1
        # a first entry of unknown type is 6; by the older rule one behind it too, of the first one's instance
        if e.ty not in KNOWN and (first is None or BY_INSTANCE.get() and first[1] == e.instance):
            return out, Refusal(6, number, at), reads
        stream = stream_of(record, e, at)
        if first is None:
            # whatever its own lowest VCN is
            first = stream
        elif stream != first or e.lowest == 0 and not BY_INSTANCE.get():
            return out, None, reads
        # 20 comes before the lookup
        if len(out) == room:
            return out, Refusal(20, number, at), reads
        more, part = part_of(record, number, rows, e, at)
        reads += more
        if isinstance(part, Refusal):
            return out, part, reads
        out.append(part)
        at += e.length


# The listing.

def name_said(record, number, at):
    """Where a name stands; an empty one at 0 with 0 bytes."""
    try:
        return "name %d %d" % name(record, number, at)
    except Refusal as refusal:
        return "name refused %d" % refusal.number


def run_lines(held, file, place, count):
    """The runs of the run bytes that stand there, a line each, and behind them what refuses them (RULES 18.12)."""
    runs, refusal, _ = all_runs(held, file, place, count)
    told = ["hole %d" % length if start is None else "run %d %d" % (start, length) for start, length in runs]
    return told if refusal is None else [*told, "run refused %d" % refusal.number]


def value_said(record, number, at):
    """(where a value or its run bytes stand, the lines under that: the runs of a value that has some)."""
    try:
        told = value(record, number, at)
    except Refusal as refusal:
        return "value refused %d" % refusal.number, []
    if isinstance(told, Span):
        return "value resident %d %d" % told, []
    return "value runs %d %d size %d" % told, run_lines(record, number, told.start, told.count)


def attribute_said(held, file, a, ended):
    """The line of an attribute; what stands for its value is handed in."""
    return "attr %d %d %d %d %d %s %s" % (
        file, a.offset, a.ty, a.length, a.instance, name_said(held, file, a.offset), ended)


def attribute_lines(held, file, a):
    """The line of an attribute that has its value where it stands, and the lines under it."""
    ended, under = value_said(held, file, a.offset)
    return [attribute_said(held, file, a, ended), *under]


def part_lines(record, number, rows, part):
    """The line of a part, and the runs of its run bytes, which stand in the part's own record."""
    held = held_by(record, number, rows, part.file)
    return ["part %d %d %d %d %d" % part[:5], *run_lines(held, part.file, part.runs, part.count)]


def item_lines(record, number, rows, item):
    """(lines of an item, reads of its parts)."""
    # an item of a looked-up record has its name and value there
    held = held_by(record, number, rows, item.file)
    # an item of the raw walk has no parts; a resident one has its value where it stands
    if not item.rest.there:
        return attribute_lines(held, item.file, item.attribute), 0
    found, refusal, reads = parts_of(record, number, rows, item.rest)
    # the size is the first part's data size
    tail = "size %d" % found[0].size if refusal is None else "refused %d" % refusal.number
    said = [attribute_said(held, item.file, item.attribute, "value parts %d %s" % (len(found), tail))]
    for part in found:
        said += part_lines(record, number, rows, part)
    return said, reads


def lines(table, wanted=None, most=MOST):
    """The lines (RULES 18): one alone where the table is malformed or longer than `most`, or lacks what is wanted,
    the record with a number or else a base row."""
    try:
        if len(table) > most:
            raise Refusal(21, 0, 0)
        t = table_of(table)
    except Refusal:
        yield "table refused 21"
        return
    if wanted is not None and wanted not in t.rows:
        yield "table refused 17"
        return
    if wanted is None and t.base == len(t.rows):
        yield "table refused 21"
        return
    number = list(t.rows)[t.base] if wanted is None else wanted
    record = t.rows[number]
    yield "record %d size %d" % (number, t.size)
    # a refusal of the walk, or of the base record, is the last line
    if no_file(record):
        yield "stopped %d reads 0" % no_file(record)
        return
    state, reads = fresh(record), 0
    while True:
        answer, state, more = next_in(record, number, t.rows, state)
        # the counts of all calls are added up, refusing ones too
        reads += more
        if answer is None:
            yield "end reads %d" % reads
            return
        if isinstance(answer, Refusal):
            yield "stopped %d reads %d" % (answer.number, reads)
            return
        said, more = item_lines(record, number, t.rows, answer)
        reads += more
        yield from said


def text_of(told):
    """The bytes of lines: each ends in one LF, the last too."""
    return "".join(line + "\n" for line in told).encode("ascii")


def listing(table, wanted=None, most=MOST):
    """The listing's bytes."""
    return text_of(lines(bytes(table), wanted, most))
