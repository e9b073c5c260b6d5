"""Holds the layer `merge`, as built, to the second reading of the rules on tables at random: sound ones that share
numbers or do not, ones that differ under a number, damaged ones and large ones, and the tables of real volumes in
parts.

Every question goes to the program `ask`. How often each answer was given is counted, and each has to come often. Fails
at any difference.
"""
import collections
import random

import table_random
from extract_random import buffer
from extracts import MOST_ROWS, ROW_END, length_of
from lib import suite, volumes
from lib.building import NUMBERS_BYTES, PATTERN, ROW_BYTES, numbers, packed_table, row, with_byte
from lib.on_merges import APART, NO_ROWS, REFUSALS, SHARED, Merges
from lib.reading import check_table, rows
from lib.reading.merges import BOTH, FIRST, SECOND, Merged
from merge import hand_of, laid, record

SEED = 20241127
SMALL, LARGE, TRIPLES = 16_000, 320, 400

# how often each answer has to come, of small tables and of large ones
FLOORS = {
    (21, FIRST): 1_000, (21, SECOND): 1_000, (32, BOTH): 300, (33, BOTH): 800, (35, BOTH): 3_000,
    NO_ROWS: 100, APART: 1_000, SHARED: 1_000,
}
LARGE_FLOORS = {(33, BOTH): 40, (34, BOTH): 40, (35, BOTH): 40, APART: 10, SHARED: 40}
assert {*FLOORS, *LARGE_FLOORS} == {*REFUSALS, NO_ROWS, APART, SHARED}

# ends of the widths that numbers may have
WIDTHS = (2 ** 8, 2 ** 16, 2 ** 32, 2 ** 40, ROW_END)


# Small tables.

def pool(chance, size):
    """Some numbers, most of them neighbours, each with a record."""
    start = chance.choice((0, 0, 40, chance.choice(WIDTHS) - 1 - chance.randrange(9), chance.randrange(ROW_END)))
    some = {start + chance.randrange(chance.choice((3, 8, 90))) for _ in range(chance.choice((1, 2, 3, 5, 9, 14)))}
    return {number: record(chance.randrange(2 ** 64), size) for number in some if number < ROW_END}


def part(chance, held):
    """Some of these records, all of them or none."""
    share = chance.choice((0, 0.3, 0.5, 0.5, 0.8, 1))
    return {number: told for number, told in held.items() if chance.random() < share}


def laid_anyhow(chance, held, size):
    """A table of these records with gaps, in any order and with any base row."""
    return laid(
        held, size, NUMBERS_BYTES + chance.choice((0, 0, 0, 1, 4, 12, 300)), chance.choice((0, 0, 1, 64)),
        chance.sample(sorted(held), len(held)), chance.randrange(len(held) + 1),
        PATTERN[:chance.choice((0, 0, 1, 9, size))])


def lying_anyhow(chance, some, size):
    """Two tables over one body, in which a record lies at the same place whichever table tells it; most overlap."""
    start = chance.randrange(251)
    body = PATTERN[start:start + 2 * size + chance.randrange(50)]
    places = {number: chance.randrange(len(body) - size + 1) for number in some}
    for held in (part(chance, places), part(chance, places)):
        yield packed_table(sorted(held.items()), body, size, chance.randrange(len(held) + 1))


def differing(chance, held):
    """The same records, some of them with a bit changed: most often one, and often in its last byte."""
    held = dict(held)
    for number in chance.sample(sorted(held), min(len(held), chance.choice((1, 1, 1, 2, 3)))):
        last = len(held[number]) - 1
        held[number] = with_byte(
            held[number], chance.choice((0, 7, last, last, chance.randrange(last))), 1 << chance.randrange(8))
    return held


def small_pair(chance, size):
    """Two sound tables, most often of one record size and with the same records in each number of both."""
    held = pool(chance, size)
    if chance.random() < 0.2:
        return tuple(lying_anyhow(chance, held, size))
    theirs = differing(chance, held) if chance.random() < 0.3 else held
    other = chance.choice((64, 72, 4096)) if chance.random() < 0.05 else size
    if other != size:
        theirs = pool(chance, other)
    pair = laid_anyhow(chance, part(chance, held), size), laid_anyhow(chance, part(chance, theirs), other)
    return pair if chance.random() < 0.5 else pair[::-1]


def hurt(chance, table):
    """A table that is damaged now and then."""
    return table_random.damaged(table, chance) if chance.random() < 0.15 else table


def union(*tables):
    """The numbers of some tables."""
    return {number for table in tables for number, _ in rows(table)}


def buffer_near(chance, count, size):
    """A buffer that suits a table of so many rows, or nearly does."""
    need = length_of(count, size)
    more = chance.choice((0, 0, 0, 0, 1, 100, -1, -12, -size - 12, -chance.randrange(need)))
    return buffer(max(need + more, 0), chance.randrange(251))


def given(test):
    """How often each answer was given so far."""
    test.flush()
    return collections.Counter({**test.refusals, **test.merged})


def hold_floors(counts, floors):
    """A test of answers that hardly come shows little."""
    hardly = {what: counts[what] for what in floors if counts[what] < floors[what]}
    assert not hardly, "hardly any of these came: %s" % hardly


def test_small_tables(test):
    """Tables of few rows, whole and damaged, in buffers that suit them or nearly do."""
    print("seed %d, %d pairs of small tables" % (SEED, SMALL))
    chance, before = random.Random(SEED), given(test)
    for _ in range(SMALL):
        size = chance.choice((64, 64, 64, 64, 72, 128, 1024))
        first, second = small_pair(chance, size)
        held = buffer_near(chance, len(union(first, second)), size)
        test.put(hurt(chance, first), hurt(chance, second), held)
    hold_floors(given(test) - before, FLOORS)


# Large ones.

def over(chance, some, places, swapped=()):
    """A table of many rows over a body of a few records; where its number is among those swapped, a row has the record
    beside the one that its place tells."""
    at = NUMBERS_BYTES + ROW_BYTES * len(some)
    body = b"".join(record(k) for k in range(9))
    offsets = {number: at + 64 * ((places[number] + (number in swapped)) % 9) for number in some}
    text = b"".join(row(number, offsets[number]) for number in sorted(some))
    return numbers(len(some), 64, NUMBERS_BYTES, at, chance.randrange(len(some) + 1)) + text + body


def large_pair(chance):
    """Two tables with about as many rows as one may have, which agree or differ under one number or two."""
    count = MOST_ROWS + chance.choice((0, 0, -1, 1, 1, chance.randrange(4096), -chance.randrange(4096)))
    step = chance.choice((1, 2, 3, ROW_END // 2 ** 14))
    some = [step * k for k in range(count)]
    places = {number: chance.randrange(9) for number in some}
    way = chance.random()
    if way < 0.3:
        ours, theirs = some[:count // 2], some[count // 2 - chance.choice((0, chance.randrange(count // 2))):]
    elif way < 0.6:
        ours, theirs = some[::2], some[1::2] + some[:chance.randrange(2)]
    else:
        ours, theirs = ([n for n in some if chance.random() < share] for share in (0.7, 0.6))
    ours, theirs = ours[:MOST_ROWS], theirs[-MOST_ROWS:]
    both = sorted({*ours} & {*theirs})
    swapped = chance.sample(both, min(len(both), chance.choice((0, 0, 0, 1, 2))))
    return over(chance, ours, places), over(chance, theirs, places, swapped)


def test_large_tables(test):
    """34 on both sides of its line, and 33 among many rows."""
    print("%d pairs of large tables" % LARGE)
    chance, before = random.Random(SEED + 1), given(test)
    for _ in range(LARGE):
        first, second = large_pair(chance)
        count = min(len(union(first, second)), MOST_ROWS)
        test.put(first, second, buffer_near(chance, count, 64))
    hold_floors(given(test) - before, LARGE_FLOORS)


# More than two tables, and real ones.

def put_merged(test, first, second, held, size):
    """Two tables that have these records between them; what is written of them is answered."""
    table, report = hand_of(held, size)
    enough = length_of(min(sum(check_table(t).count for t in (first, second)), MOST_ROWS), size)
    test.put_literal((table, report), first, second, buffer(len(table) + 9), enough)
    return table


def test_three_tables(test):
    """Three tables are made one in any order of the two steps, and the same one: it has the records of all."""
    chance = random.Random(SEED + 2)
    for _ in range(TRIPLES):
        size = chance.choice((64, 64, 128))
        held = pool(chance, size)
        parts = [part(chance, held) for _ in range(3)]
        tables = [laid_anyhow(chance, some, size) for some in parts]
        made = set()
        for k in range(3):
            (a, first), (b, second), (c, third) = (list(zip(parts, tables))[j - k] for j in range(3))
            two = put_merged(test, first, second, {**a, **b}, size)
            made.add(put_merged(test, two, third, {**a, **b, **c}, size))
            made.add(put_merged(test, third, two, {**a, **b, **c}, size))
        assert len(made) == 1


def ways(held):
    """Each way in which records are parted: by parity, by halves, with some in both, one by itself, all in one."""
    order = sorted(held)
    half = len(order) // 2
    return (
        (order[::2], order[1::2]), (order[:half], order[half:]), (order[:half + 1], order[half // 2:]),
        (order[:1], order[1:]), (order, order), (order, ()))


def test_real_tables(test):
    """The tables of real volumes, parted and made one again, in both orders: each record is the one that it was."""
    count = collections.Counter()
    for table in volumes.tables():
        held, size = dict(rows(table)), check_table(table).size
        for pair in ways(held):
            halves = [laid({number: held[number] for number in some}, size, 23, 5, list(some)[::-1]) for some in pair]
            for first, second in (halves, halves[::-1]):
                put_merged(test, first, second, held, size)
        count["tables"] += 1
        count["records"] += len(held)
    assert count["tables"] >= 10 and count["records"] >= 100, count
    print("%(tables)d real tables of %(records)d records" % count)


def ended(test):
    """Each refusal was given."""
    test.finish(REFUSALS)


main = suite.of(Merges, ended)

if __name__ == "__main__":
    main()
