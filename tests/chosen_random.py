"""Holds chosen records, as built, to the second reading of the rules at random: sound records, torn ones and others,
with numbers that rise as a rule, and with one of the records, or none, for a base record. Fails at any difference."""
import random

from chosen import FAR, ROWS
from extract_random import EDGES, buffer, random_record
from extracts import ROW_END, SIZES, length_of, sound
from lib import suite
from lib.on_chosen import OF_A_RECORD, REFUSALS, Chosen
from lib.question import LAST

SEED = 20241127
RANDOM, ORDERS = 12_000, 4

# how far a number is above the one before, most often
STEPS = (1, 1, 1, 2, 3, 7, 1000, 2 ** 32, 2 ** 47)


def random_numbers(chance, count):
    """So many numbers that rise, from small ones or up to near an end."""
    first = chance.choice((0, 1, 40, chance.randrange(2 ** 32), ROW_END - chance.randrange(count + 3)))
    numbers = [first]
    for _ in range(count - 1):
        numbers.append(numbers[-1] + chance.choice(STEPS))
    roll = chance.random()
    if roll < 0.1:
        # up to the last number that there is
        numbers = [LAST - chance.randrange(2) - (numbers[-1] - number) for number in numbers]
    return [min(max(number, 0), LAST) for number in numbers[:count]]


def with_a_fall(chance, numbers):
    """These numbers with one changed: the same as its neighbour, one less, an end of the numbers, or any."""
    k = chance.randrange(len(numbers))
    near = numbers[k - 1] + chance.choice((-1, 0, 0, 1))
    other = chance.choice((near, near, 0, LAST, chance.choice(EDGES), chance.choice(numbers)))
    return [*numbers[:k], min(max(other, 0), LAST), *numbers[k + 1:]]


def random_base(chance, numbers):
    """The number of one of the records most often."""
    if chance.random() < 0.2:
        return None
    some = numbers or [40]
    number = chance.choice((chance.choice(some), some[0], some[-1], chance.choice(some) + chance.choice((-1, 1)),
                            chance.choice(EDGES), chance.randrange(len(some) + 1)))
    return min(max(number, 0), LAST)


def test_at_random(test):
    """Records at random, in buffers that suit them or nearly do."""
    print("seed %d, %d extracts" % (SEED, RANDOM))
    chance = random.Random(SEED)
    for _ in range(RANDOM):
        size = chance.choice((512, 512, 512, 1024, 1024, 4096, chance.choice(SIZES)))
        count = chance.choice((0, 1, 2, 2, 3, 4, chance.randrange(9)))
        text = b"".join(random_record(chance, size) for _ in range(count))
        numbers = random_numbers(chance, count)
        roll = chance.random()
        if roll < 0.15 and numbers:
            numbers = with_a_fall(chance, numbers)
        elif roll < 0.18:
            numbers = numbers[:-1] if chance.random() < 0.5 else [*numbers, numbers[-1] + 1 if numbers else 0]
        elif roll < 0.2:
            text = text[:chance.randrange(len(text) + 1)] + bytes(chance.randrange(3))
        numbers = [min(number, LAST) for number in numbers]
        written = sum(text[k * size:k * size + 4] == b"FILE" for k in range(count))
        room = length_of(written, size) + chance.choice((0, 0, 0, 0, 1, 100, -1, -12, -size - 12))
        told = size if chance.random() < 0.98 else size + chance.choice((-1, 1, 512, 8))
        test.put(text, told, numbers, buffer(max(room, 0), chance.randrange(251)), random_base(chance, numbers),
                 chance.choice((*FAR, count - 1 if count else 0, count, count + 1)))


def test_pairs_of_numbers(test):
    """21 for two records: each two of the numbers where a width ends."""
    text = sound(512).raw + sound(512, 1).raw
    edges = sorted({0, 1, 2, *EDGES})
    for before in edges:
        for number in edges:
            test.put(text, 512, (before, number), buffer(ROWS))


def test_small_orders(test):
    """Each row of four numbers among four, and each base, over records of which one is torn."""
    records = [sound(512, k).raw for k in range(ORDERS)]
    text = b"".join(records[:2]) + bytes(512) + records[3]
    for k in range(ORDERS ** ORDERS):
        numbers = [k // ORDERS ** at % ORDERS for at in range(ORDERS)]
        for base in (None, 0, 3) if k % 7 else (None, 0, 1, 2, 3, 4):
            test.put(text, 512, numbers, buffer(length_of(3, 512)), base)


def ended(test):
    """Each refusal but 34, which has its cases by hand, was given."""
    test.finish({*REFUSALS, *OF_A_RECORD} - {34})


main = suite.of(Chosen, ended)

if __name__ == "__main__":
    main()
