"""Holds the parts of an item, as built, to the second reading of the rules on real tables, damaged copies and random
ones."""
import random
import sys

from lib import suite, volumes
from lib.building import ENTRY_BYTES, record
from lib.damaging import places
from lib.on_parts import REFUSALS, WALK, Parts, Question
from lib.random_tables import chained_table, mixed, streams_table
from lib.reading import items, parts
from lib.reading.items import Rest
from lib.reading.parts import ROOM

SEED = 20240703
DAMAGED, RANDOM, STREAMS, CHAINED, LARGE = 5_000, 5_000, 12_000, 3_000, 40

# A table of more bytes is damaged only one time in sixteen: it tells little more.
SMALL = 12_000

# How often parts end by what and where: each at least so often. And how many streams of several parts have their first
# name behind padding.
OFTEN, OFTEN_PADDED = 20, 500

# where an entry tells its name's units and offset (RULES 9.1)
UNITS_AT, OFFSET_AT = 6, 7


def near(rest, chance):
    """Another place near it: a list that begins elsewhere, and ends sooner."""
    start = max(0, rest.start + chance.choice((0, 0, 1, 26, 32, -26)))
    return rest._replace(start=start, end=max(0, rest.end - chance.choice((0, 1, 8, 26, 27))))


def padded_streams(r, lines):
    """How many items of a walk have several parts and a name that does not stand straight behind its entry's header."""
    count = 0
    for line, parts_line in zip(lines, lines[1:]):
        if " rest 1 " in line and int(parts_line.split(" ")[1]) > 1:
            start = int(line.split(" ")[9])
            count += r[start + UNITS_AT] > 0 and r[start + OFFSET_AT] != ENTRY_BYTES
    return count


def probe(test, text, chance):
    """One table: the walk with the parts of each item, and parts from places of it and from others."""
    base = items.base_of(text)
    number, r = base if base else (40, record(64))
    if chance.random() < 0.05:
        number = chance.choice((0, 41, 2 ** 48, number + 1))
    q = Question(WALK, r, text, number, on=chance.choice((0, 3, 12)))
    answer = test.expected(q)
    test.ask(q, answer)
    lines = answer.split("\n")
    test.classes["a stream behind padding"] += padded_streams(r, lines)
    rests = [Rest(True, *map(int, line.split(" ")[9:11])) for line in lines if " rest 1 " in line]
    for rest in chance.sample(rests, min(2, len(rests))):
        if chance.random() < 0.6:
            rest = near(rest, chance)
        test.put_both(r, text, rest, number, (chance.randrange(4), chance.choice((2, 5, 40, 157))))
    entries = places(r)[1]
    if entries and chance.random() < 0.5:
        # the parts of any entry, one that a walk passes over or refuses too
        end = chance.choice(rests).end if rests and chance.random() < 0.8 else len(r)
        test.put_both(r, text, Rest(True, chance.choice(entries), end), number, (chance.randrange(4),))
    if chance.random() < 0.3:
        start, end = (chance.randrange(len(r) + 9) for _ in range(2))
        rest = chance.choice((Rest(True, min(start, end), max(start, end)), Rest(chance.random() < 0.8, start, end)))
        test.put_both(r, text, rest, number, (chance.randrange(3),))


def test_real_tables(test):
    """Every record of the tables that others wrote is walked as if it were the base, and has its parts with each
    room."""
    for text in volumes.tables():
        for number, r in items.table_of(text).rows.items():
            test.put(WALK, r, text, number=number, on=9)
            for answer, _, _, told in parts.walk(r, number, text, 9):
                if isinstance(answer, items.Item) and answer.rest.there:
                    count = len(told[0])
                    rooms = {0, 1, count - 1, count, count + 1, ROOM} - {-1, ROOM + 1}
                    test.put_both(r, text, answer.rest, number, rooms)
                    test.classes["parts of a real volume"] += count > 1
    assert test.classes["parts of a real volume"]


def has_parts(test, text):
    """Whether the walk over a table gives parts."""
    number, r = items.base_of(text)
    return " part " in test.expected(Question(WALK, r, text, number))


def test_damaged_and_random_tables(test):
    """Parts in tables that are hurt where it tells; each way in which they end, often."""
    print("seed %d, %d damaged, %d random, %d of streams, %d chained and %d large tables" % (
        SEED, DAMAGED, RANDOM, STREAMS, CHAINED, LARGE))
    chance, tables = random.Random(SEED), volumes.tables()
    small = [text for text in tables if len(text) <= SMALL]
    # one table of those with parts is damaged more often than the others
    split = [text for text in small if has_parts(test, text)]
    assert split
    def real(k):
        return chance.choice(tables if k % 16 == 0 else split if k % 4 else small)

    made = (streams_table, STREAMS), (chained_table, CHAINED)
    for text in mixed(chance, real, DAMAGED, RANDOM, made, LARGE):
        probe(test, text, chance)


def ended(test):
    """Each call was asked, and parts ended in each way often."""
    test.finish()
    ways = [(where, end) for where in ("first", "later") for end in (*REFUSALS, "whole")]
    # 1 at the opening is of lent records alone, which parts.py has
    ways += [("opening", end) for end in (2, 21, 22, 27)]
    missing = ["%s %s" % way for way in ways if test.endings[way] < OFTEN]
    padded = test.classes["a stream behind padding"]
    print("streams of several parts behind padding: %d" % padded)
    if padded < OFTEN_PADDED:
        missing.append("of streams behind padding")
    if missing:
        sys.exit("parts that hardly ever ended so: %s" % ", ".join(missing))


main = suite.of(Parts, ended)

if __name__ == "__main__":
    main()
