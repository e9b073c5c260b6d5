"""Holds the item walk, as built, to the second reading of the rules on real tables, damaged copies and random
ones."""
import random
import sys

from lib import reading, suite, volumes
from lib.building import record
from lib.on_items import FIRST, FRESH, NEXT, WALK, Items, Question, key_with, lines_of, state_in
from lib.random_tables import NAMES, chained_table, mixed
from lib.reading import MOST_NAME, items
from lib.reading.items import Rest, State

SEED = 20240507
DAMAGED, RANDOM, CHAINED, LARGE = 15_000, 30_000, 10_000, 100

# how often an entry continued a key that was lent with bytes past its units
OFTEN = 100

# A table of more bytes is damaged only one time in eight: it tells little more.
SMALL = 12_000


def other_key(key, chance):
    """A key that no walk left: bytes past its name, a byte of it changed, other units or another type; or any."""
    what, name = chance.randrange(5), bytearray(key.name)
    past = 2 * key.units
    if what == 0 or not key.there:
        name = chance.choice(NAMES)
        units = chance.choice((len(name) // 2, len(name) // 2, 0, 1, 254, 255))
        return key_with(chance.choice((0x80, 0x80, 0x90, 0x11)), units, name + chance.randbytes(chance.randrange(9)))
    if what == 1 and key.units:
        name[chance.randrange(past)] ^= 1 << chance.randrange(8)
    elif what == 2:
        return key._replace(units=chance.choice((0, 255, abs(key.units - 1), min(key.units + 1, 255))))
    elif what == 3:
        return key._replace(ty=chance.choice((0x80, 0x90, 0xA0, 0x11)))
    elif past < MOST_NAME:
        name[past:] = chance.randbytes(MOST_NAME - past)
    return key._replace(name=bytes(name))


def put_state(test, r, text, number, lines, chance):
    """A call from a state that the walk left, from one with another key, or from any."""
    state = state_in(chance.choice(lines))
    roll = chance.random()
    if roll < 0.3 and state.rest.there:
        state = state._replace(key=other_key(state.key, chance))
    elif roll < 0.7:
        start, end = chance.randrange(len(r) + 9), chance.randrange(len(r) + 9)
        forged = Rest(True, min(start, end), max(start, end))
        rest = chance.choice((state.rest, forged, Rest(chance.random() < 0.8, start, end)))
        other = other_key(state.key, chance)
        key = chance.choice((state.key, other, other._replace(there=False)))
        raw = chance.choice((state.raw, chance.randrange(len(r) + 20), chance.randrange(2 ** 64)))
        state = State(raw, rest, key)
    q = Question(NEXT, r, text, number, state)
    answer = test.expected(q)
    test.ask(q, answer)
    # a key with bytes past its name stays where nothing clears it
    strange = state.key.there and any(state.key.name[2 * state.key.units:])
    test.kept += strange and state_in(answer).key == state.key and " reads 0" not in answer


def probe(test, text, chance):
    """One table: the walk of its base record or of another, a call from a state, and the first of a type."""
    base = items.base_of(text)
    number, r = base if base else (40, record(64))
    if chance.random() < 0.05:
        number = chance.choice((0, 41, 2 ** 48, number + 1))
    q = Question(WALK, r, text, number)
    answer = test.expected(q)
    test.ask(q, answer)
    if chance.random() < 0.5:
        put_state(test, r, text, number, lines_of(answer), chance)
    if chance.random() < 0.3:
        ty = chance.choice((0x10, 0x20, 0x30, 0x80, 0x90, 0xB0, 0x100, 0x11, reading.MARKER))
        test.put(FIRST, r, text, number=number, ty=ty)


def test_real_tables(test):
    """Every record of the tables that others wrote is walked as if it were the base."""
    for text in volumes.tables():
        for number, r in items.table_of(text).rows.items():
            test.put_walk(r, text, number)
            for ty in (*range(0x10, 0x110, 0x10), 0, reading.MARKER):
                test.put(FIRST, r, text, number=number, ty=ty)


def test_damaged_and_random_tables(test):
    """Walks over tables that are hurt where it tells."""
    print("seed %d, %d damaged, %d random, %d chained and %d large tables" % (SEED, DAMAGED, RANDOM, CHAINED, LARGE))
    chance, tables = random.Random(SEED), volumes.tables()
    small = [text for text in tables if len(text) <= SMALL]

    def real(k):
        return chance.choice(tables if k % 8 == 0 else small)

    for text in mixed(chance, real, DAMAGED, RANDOM, ((chained_table, CHAINED),), LARGE):
        probe(test, text, chance)


class Walks(Items):
    """Counts the strange keys that a call kept while it read something."""

    def __init__(self):
        super().__init__()
        self.kept = 0


def ended(test):
    """Each call was asked but the fresh state, which has no more to it than one record."""
    test.finish(unasked=(FRESH,))
    print("keys with bytes past their name, kept: %d" % test.kept)
    if test.kept < OFTEN:
        sys.exit("hardly a key was lent with bytes past its name, and kept")


main = suite.of(Walks, ended)

if __name__ == "__main__":
    main()
