"""Holds the listing in a lent buffer, and to a writer that fails, as built, to the second reading of the rules.

Every question goes to the program `ask`: `lines::list` into a buffer of some size, and `lines::write_listing` to a
writer that takes so many bytes. Compared are the text, where it ends, whether there is more, and the bytes around it,
over every table of tests/cases and tests/volumes against the listing that is kept beside it, and over random and
damaged tables. Fails at any difference.
"""
import collections
import random
import sys
from typing import NamedTuple

import cases
import listing_cases
from lib import random_runs, suite
from lib.asking import Asker, said_bytes
from lib.question import LAST, ON_LISTINGS, question
from lib.reading.listing import listing as listing_of

PAGE, WRITTEN = range(2)
SEED = 20240811
RANDOM = 3_000
# rooms of a random table's questions, besides those on both sides of its end
ROOMS = 3

# a line is put where so many bytes are left; the most that goes to one write (crates/lines/src/write.rt), and the
# most that the program lends (crates/ask/src/in_listing.rt)
MOST_LINE = 256
MOST_WRITE = 8_192
MOST_TEXT = 32_768

# real tables with hundreds of runs: of parts, of parts in front of a refusal, and of a value with as many holes
WITH_RUNS = ("fragA-0066", "joinA-0173", "sparse4k-0077")

# each way in which a text ends has to be met at least so often
OFTEN = 100


class Question(NamedTuple):
    """`room` is how many bytes the buffer has, or the writer takes."""

    kind: int
    table: bytes
    room: int
    record: bytes = b""


def page_end(listing, room):
    """How many bytes of a listing a buffer takes: line after line, as long as the longest one has room."""
    end = 0
    while end < len(listing) and room - end >= MOST_LINE:
        end = listing.index(b"\n", end) + 1
    return end


def least_room(listing):
    """The smallest buffer that takes all of it."""
    return listing.rfind(b"\n", 0, -1) + 1 + MOST_LINE


def answer(kind, listing, room):
    """What the program says, where it is right."""
    room = min(room, MOST_TEXT)
    end = page_end(listing, room) if kind == PAGE else min(len(listing), room)
    flag = end < len(listing) if kind == PAGE else end == len(listing)
    text = said_bytes("view", listing[:end])
    return "%s %d %d unchanged %d %s" % (("page", "written")[kind], end, flag, MOST_TEXT, text)


class Pages(Asker):
    """Asks for listings."""

    CALLS = ("lines::list", "lines::write_listing")

    def __init__(self):
        super().__init__()
        self.ends = collections.Counter()
        self.read = (None, None)

    def packed(self, q):
        return question(ON_LISTINGS + q.kind, q.record, q.table, buffer=q.room)

    def expected(self, q):
        # the questions on one table follow one another
        if self.read[0] != q.table:
            self.read = q.table, listing_of(q.table)
        return answer(q.kind, self.read[1], q.room)

    def count_refusal(self, q, answer):
        """Counts how the text ended instead: what a listing refuses is part of it, and tests/cases.py counts that."""
        word, end, flag = answer.split(" ")[:3]
        whole = (flag == "1") == (q.kind == WRITTEN)
        self.ends[word, "nothing" if end == "0" else "whole" if whole else "a front"] += 1


def rooms_of(listing):
    """Sizes on both sides of each line that matters."""
    least, size = least_room(listing), len(listing)
    return sorted({
        0, 1, MOST_LINE - 1, MOST_LINE, MOST_LINE + 1, 2 * MOST_LINE - 1, 2 * MOST_LINE, size // 2, size - 1, size,
        size + 1,
        least - 1, least, size + MOST_LINE - 1, size + MOST_LINE, MOST_WRITE - 1, MOST_WRITE, MOST_WRITE + 1,
        MOST_TEXT, LAST,
    })


def ends_of_lines(listing):
    """Where each line of a listing ends."""
    return [at + 1 for at, byte in enumerate(listing) if byte == ord("\n")]


def sample():
    """Questions of each kind about the whole case. rt ci runs the program on them."""
    listing = listing_cases.WHOLE_LISTING.encode()
    rooms = (0, MOST_LINE, least_room(listing) - 1, least_room(listing))
    return [Question(kind, listing_cases.WHOLE, room) for kind in (PAGE, WRITTEN) for room in rooms]


def test_kept_tables(test):
    """Every kept table: the kept listing is a literal answer, which the second reading must give too."""
    tables = {**cases.kept(cases.FOLDER), **cases.kept(cases.OTHERS)}
    # a writer must get one in more than two writes, and none of all bytes that the program lends is enough for another
    sizes = [len(listing) for _, listing in tables.values()]
    assert any(2 * MOST_WRITE < size <= MOST_TEXT for size in sizes) and max(sizes) > MOST_TEXT
    for table, listing in tables.values():
        for room in rooms_of(listing):
            for kind in (PAGE, WRITTEN):
                test.put_literal_question(answer(kind, listing, room), Question(kind, table, room))
    print("%d kept tables" % len(tables))


def cut_at_every_line(test, table, listing):
    """Asks for pages that end behind each line of a table: the next one has a byte too few, and then just room. And
    for what a writer gets that fails behind each line, or in it."""
    for end in ends_of_lines(listing):
        for room in (end + MOST_LINE - 1, end + MOST_LINE):
            test.put_literal_question(answer(PAGE, listing, room), Question(PAGE, table, room))
        for room in (end - 1, end):
            test.put_literal_question(answer(WRITTEN, listing, room), Question(WRITTEN, table, room))


def test_pages_cut_at_every_line(test):
    """Every case of runs, and real tables with many: a page ends behind any line, also between the runs of one
    attribute and in front of a refusal of theirs."""
    tables = {**cases.kept(cases.FOLDER), **cases.kept(cases.OTHERS)}
    chosen = [name for name in tables if name.startswith("runs-") or name in WITH_RUNS]
    assert len(chosen) > 20 and set(WITH_RUNS) <= set(chosen)
    for name in chosen:
        cut_at_every_line(test, *tables[name])
    met = random_runs.each_kind([tables[name][1] for name in chosen])
    print("%d tables cut at every line, their runs: %s" % (len(chosen), met))


def test_random_tables(test):
    """Random and damaged tables, with room on both sides of what their listing needs, and any other."""
    print("seed %d, %d random and damaged tables" % (SEED, RANDOM))
    tables, chance = {**cases.kept(cases.FOLDER), **cases.kept(cases.OTHERS)}, random.Random(SEED)
    real, listings = [tables[name][0] for name in (*listing_cases.VOLUMES, *listing_cases.OTHERS)], []
    for table in listing_cases.random_tables(RANDOM, real, chance):
        listing = listing_of(table)
        listings.append(listing)
        least = least_room(listing)
        for room in (least - 1, least, *(chance.randrange(len(listing) + 2 * MOST_LINE) for _ in range(ROOMS))):
            test.put_question(Question(PAGE, table, room))
        for room in (len(listing), chance.randrange(len(listing)), MOST_TEXT):
            test.put_question(Question(WRITTEN, table, room))
    print("runs: %s" % random_runs.each_kind(listings, OFTEN // 2))


def ended(test):
    """Each call was asked, and texts ended in each way often."""
    test.finish()
    print("what was given: %s" % ", ".join("%s %s (%d)" % (*end, n) for end, n in sorted(test.ends.items())))
    ways = [(word, end) for word in ("page", "written") for end in ("nothing", "a front", "whole")]
    missing = [way for way in ways if test.ends[way] < OFTEN]
    if missing:
        sys.exit("hardly any of these was asked: %s" % missing)


main = suite.of(Pages, ended)

if __name__ == "__main__":
    main()
