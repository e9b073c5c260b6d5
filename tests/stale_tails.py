"""Real records that hold old attributes behind their used part: what the programs answer of them, as built, and what
would be answered if the used size were not asked (RULES 3.4 and 4.5).

tests/stale_tails/README.md says how the records were made. The listings and the answers by hand are held to the second
reading, and the programs `listing` and `ask` to both.
"""
import os

from cases import Listing
from lib import on_records, reading, suite, volumes
from lib.programs import TESTS
from lib.reading.listing import listing

FOLDER = os.path.join(TESTS, "stale_tails")

# how many bytes an old stream has, and where they begin: in /reused right where the new end marker stands; in /removed,
# which has the same four streams in front of its end marker, at the second of the old ones, since the marker lies on
# the first
LENGTH = 72
REUSED, REMOVED = [360 + LENGTH * k for k in range(8)], [672 + LENGTH * k for k in range(3)]

# the files' own attributes, their record first
OWN = (
    "attr %(n)d 56 16 72 0 name 0 0 value resident 80 48\n"
    "attr %(n)d 128 48 104 3 name 0 0 value resident 152 %(name)d\n"
    "attr %(n)d 232 80 104 1 name 0 0 value resident 256 80\n"
    "attr %(n)d 336 128 24 2 name 0 0 value resident 360 0\n")


def table_named(name):
    """A kept table."""
    return volumes.read(os.path.join(FOLDER, name + ".tab"))


def row_in(table):
    """The number and the record of a table's one row."""
    (row,) = reading.rows(table)
    return row


def record_in(table):
    """The record of a table's one row."""
    return row_in(table)[1]


def end_of(table):
    """Where the raw walk over the record of a table ends."""
    number, record = row_in(table)
    *attributes, last = reading.walk(record, number)
    assert last is None
    return attributes[-1].offset + attributes[-1].length


def stream(number, at, instance):
    """The line of an old or a new stream."""
    return "attr %d %d 128 72 %d name %d 12 value resident %d 32\n" % (number, at, instance, at + 24, at + 40)


class StaleTails(on_records.Records):
    """Asks of the records, and runs the program `listing` on the tables."""

    def __init__(self):
        super().__init__()
        self.listing = Listing()

    def lists(self, name, expected):
        """The whole listing of a kept table, by hand, by the second reading and by the program."""
        table = table_named(name)
        self.listing.same((listing(table), self.listing.on(table)), expected.encode(), expected.encode())

    def refuses(self, name, place):
        """Every call for an attribute at a place in the stale tail of a kept record is refused by 28 there."""
        number, record = row_in(table_named(name))
        for kind in on_records.ON_AN_ATTRIBUTE:
            answer = "refused 28 %d %d" % (number, place)
            if kind in (on_records.NAME_VIEW, on_records.VALUE_VIEW):
                answer = "view 0 "
            if kind == on_records.MOVED:
                answer = "moved %d %s" % (place, answer)
            self.put_literal(answer, kind, record, number=number, place=place)


def not_asked(call, *given):
    """What a call of the second reading answers where the used size is not asked."""
    with reading.without_used_sizes():
        return call(*given)


def test_a_record_with_a_stale_tail(test):
    """A whole record is listed up to its end marker, whatever lies behind it; so it is where no used size is asked."""
    streams = "".join(stream(65, 360 + LENGTH * k, 5 + k) for k in range(4))
    for name, expected in (
        ("reused", "record 64 size 1024\n%send reads 4\n" % (OWN % {"n": 64, "name": 78})),
        ("removed", "record 65 size 1024\n%s%send reads 8\n" % (OWN % {"n": 65, "name": 80}, streams)),
    ):
        test.lists(name, expected)
        assert not_asked(listing, table_named(name)) == expected.encode()


def test_a_torn_end_marker(test):
    """Where the end marker is torn the walk is refused at the first old attribute. Where no used size is asked, it
    lists the eight streams of the deleted file as the new file's."""
    own, streams = OWN % {"n": 64, "name": 78}, "".join(stream(64, at, 4 + k) for k, at in enumerate(REUSED))
    test.lists("reused-torn", "record 64 size 1024\n%sstopped 28 reads 4\n" % own)
    expected = "record 64 size 1024\n%s%send reads 12\n" % (own, streams)
    assert not_asked(listing, table_named("reused-torn")) == expected.encode()
    whole, torn = record_in(table_named("reused")), record_in(table_named("reused-torn"))
    assert [k for k in range(1024) if whole[k] != torn[k]] == [360, 361, 362, 363]


def test_places_in_a_stale_tail(test):
    """A name or a value at a place in the stale tail is refused by 28. Where no used size is asked, both are read: they
    are the old file's."""
    for name, places, first in (("reused", REUSED[1:], 1), ("reused-torn", REUSED, 0), ("removed", REMOVED, 1)):
        number, record = row_in(table_named(name))
        for k, place in enumerate(places, first):
            test.refuses(name, place)
            old = not_asked(reading.view, record, reading.name, number, place)
            assert old.decode("utf-16-le") == "part_%d" % k
            old = not_asked(reading.view, record, reading.value, number, place)
            assert old == b"part %d, %d.00 mm, of the old file" % (k, k + 1)


def ended(test):
    """What was asked."""
    test.flush()
    test.report()


main = suite.of(StaleTails, ended)

if __name__ == "__main__":
    main()
