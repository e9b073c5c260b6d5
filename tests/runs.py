"""Holds the second reading of cluster runs to cases that were written by hand, and to what two other tools tell of
real volumes (tests/witness_runs.txt).

A case is run bytes, the runs that they tell, and how these end; CASES has all of them, as data. Fails at any
difference.
"""
import os
import sys
from typing import NamedTuple, Optional

from lib import suite, volumes, witnesses
from lib.building import PATTERN
from lib.programs import ROOT, TESTS
from lib.reading import Refusal, rows
from lib.reading.listing import listing
from lib.reading.runs import all_runs, fresh, run

# the record that every case is asked of, its length, and where the run bytes stand in it
RECORD, LENGTH, PLACE = 41, 1024, 120

# where the tables of cases stand
CASES_FOLDER = os.path.join(TESTS, "cases")

# the numbers that refuse a run, in the order of their tests
REFUSALS = (23, 24, 25, 26)

# the most bytes of a length or a distance, and the most that a start or a sum may be; none of the reading's numbers
WIDEST, MOST = 8, 2 ** 63 - 1


class Case(NamedTuple):
    """Run bytes and their runs, each a start, None for a hole, and a length. They end at the header that stands `at`,
    counted from the first of the bytes, by the refusal with this number or, where it is None, by a zero or by no byte
    left."""

    name: str
    text: bytes
    runs: tuple
    at: int
    refused: Optional[int]


def ends(name, text, *runs, at):
    """A case whose runs come to their end."""
    return Case(name, bytes.fromhex(text), runs, at, None)


def refuses(name, text, number, *runs, at=0):
    """A case that is refused, behind these runs."""
    return Case(name, bytes.fromhex(text), runs, at, number)


ENDS = [
    ends("the example", "11 05 0A 11 03 FE 00", (10, 5), (8, 3), at=6),
    # the two ways to end
    ends("no byte", "", at=0),
    ends("a zero", "00", at=0),
    ends("a zero in front of a run", "00 11 05 0A", at=0),
    ends("a zero behind a run", "11 05 0A 00", (10, 5), at=3),
    ends("a zero between runs", "11 05 0A 00 11 03 FE", (10, 5), at=3),
    ends("no byte behind a run", "11 05 0A", (10, 5), at=3),
    ends("no byte behind a hole", "01 05", (None, 5), at=2),
    ends("zeros in a run end nothing", "22 00 01 00 02 11 01 00", (512, 256), (512, 1), at=8),
]

HOLES = [
    ends("a hole alone", "01 10 00", (None, 16), at=2),
    ends("the last start stays behind a hole", "11 05 0A 01 10 11 03 FE 00", (10, 5), (None, 16), (8, 3), at=8),
    ends("the last start stays behind two", "11 05 0A 01 10 02 00 01 11 03 01", (10, 5), (None, 16), (None, 256),
         (11, 3), at=11),
    ends("in front of a hole it is 0", "01 10 11 03 07", (None, 16), (7, 3), at=5),
    ends("a distance of 0 is no hole", "11 05 0A 11 03 00", (10, 5), (10, 3), at=6),
    ends("nor is one of two bytes", "11 05 0A 21 03 00 00", (10, 5), (10, 3), at=7),
    ends("a distance of 0 from the first 0", "11 05 00", (0, 5), at=3),
    ends("a hole of 3 bytes", "03 01 02 FF", (None, 0xFF0201), at=4),
    ends("a hole of 4 bytes", "04 01 02 03 FF", (None, 0xFF030201), at=5),
    ends("a hole of 5 bytes", "05 01 02 03 04 FF", (None, 0xFF04030201), at=6),
    ends("a hole of 6 bytes", "06 01 02 03 04 05 FF", (None, 0xFF0504030201), at=7),
    ends("a hole of 7 bytes", "07 01 02 03 04 05 06 FF", (None, 0xFF060504030201), at=8),
    ends("a hole of 8 bytes", "08 01 02 03 04 05 06 07 7F", (None, 0x7F07060504030201), at=9),
    ends("a hole with zeros on top", "08 01 00 00 00 00 00 00 00", (None, 1), at=9),
]

# a length has no sign, and its lowest byte comes first
LENGTHS = [
    ends("a length of 1 byte", "11 FF 0A", (10, 0xFF), at=3),
    ends("a length of 2 bytes", "12 01 FF 0A", (10, 0xFF01), at=4),
    ends("a length of 3 bytes", "13 01 02 FF 0A", (10, 0xFF0201), at=5),
    ends("a length of 4 bytes", "14 01 02 03 FF 0A", (10, 0xFF030201), at=6),
    ends("a length of 5 bytes", "15 01 02 03 04 FF 0A", (10, 0xFF04030201), at=7),
    ends("a length of 6 bytes", "16 01 02 03 04 05 FF 0A", (10, 0xFF0504030201), at=8),
    ends("a length of 7 bytes", "17 01 02 03 04 05 06 FF 0A", (10, 0xFF060504030201), at=9),
    ends("a length of 8 bytes", "18 01 02 03 04 05 06 07 7F 0A", (10, 0x7F07060504030201), at=10),
    ends("a length with zeros on top", "18 05 00 00 00 00 00 00 00 0A", (10, 5), at=10),
]

# a distance has a sign: the top bit of its last byte
DISTANCES = [
    ends("up by 1 byte", "11 01 7F", (127, 1), at=3),
    ends("down by 1 byte", "21 01 80 00 11 01 80", (128, 1), (0, 1), at=7),
    ends("up by 2 bytes", "21 01 FE 7F", (0x7FFE, 1), at=4),
    ends("down by 2 bytes", "31 01 01 80 00 21 01 00 80", (0x8001, 1), (1, 1), at=9),
    ends("up by 3 bytes", "31 01 01 02 7F", (0x7F0201, 1), at=5),
    ends("down by 3 bytes", "41 01 02 00 80 00 31 01 00 00 80", (0x800002, 1), (2, 1), at=11),
    ends("up by 4 bytes", "41 01 01 02 03 7F", (0x7F030201, 1), at=6),
    ends("down by 4 bytes", "51 01 03 00 00 80 00 41 01 00 00 00 80", (0x80000003, 1), (3, 1), at=13),
    ends("up by 5 bytes", "51 01 01 02 03 04 7F", (0x7F04030201, 1), at=7),
    ends("down by 5 bytes", "61 01 04 00 00 00 80 00 51 01 00 00 00 00 80", (0x8000000004, 1), (4, 1), at=15),
    ends("up by 6 bytes", "61 01 01 02 03 04 05 7F", (0x7F0504030201, 1), at=8),
    ends("down by 6 bytes", "71 01 05 00 00 00 00 80 00 61 01 00 00 00 00 00 80", (0x800000000005, 1), (5, 1), at=17),
    ends("up by 7 bytes", "71 01 01 02 03 04 05 06 7F", (0x7F060504030201, 1), at=9),
    ends("down by 7 bytes", "81 01 06 00 00 00 00 00 80 00 71 01 00 00 00 00 00 00 80", (0x80000000000006, 1), (6, 1),
         at=19),
    ends("up by 8 bytes", "81 01 01 02 03 04 05 06 07 7F", (0x7F07060504030201, 1), at=10),
    ends("down by 8 bytes", "81 01 FF FF FF FF FF FF FF 7F 81 01 01 00 00 00 00 00 00 80", (MOST, 1), (0, 1), at=20),
    ends("down by 1 in each width", "11 01 09 11 01 FF 21 01 FF FF 31 01 FF FF FF 41 01 FF FF FF FF", (9, 1), (8, 1),
         (7, 1), (6, 1), (5, 1), at=21),
    ends("a distance with zeros on top", "81 01 0A 00 00 00 00 00 00 00", (10, 1), at=10),
    ends("both of 8 bytes", "88 05 00 00 00 00 00 00 00 0A 00 00 00 00 00 00 00", (10, 5), at=17),
]

# 23: the header alone decides, whatever is left behind it
SIZES = [
    refuses("a length of 9 bytes", "19 01 00 00 00 00 00 00 00 00 0A 00", 23),
    refuses("a length of 15 bytes", "1F" + " 01" * 20, 23),
    refuses("a hole of 9 bytes", "09 01 00 00 00 00 00 00 00 00 00", 23),
    refuses("a distance of 9 bytes", "91 01 0A 00 00 00 00 00 00 00 00 00", 23),
    refuses("a distance of 15 bytes", "F1" + " 01" * 20, 23),
    refuses("both of 9 bytes", "99" + " 01" * 20, 23),
    refuses("a length of no byte", "10 0A 00", 23),
    refuses("a length of no byte, a distance of 8", "80 0A 00 00 00 00 00 00 00 00", 23),
    refuses("a length of no byte, a distance of 9", "90" + " 01" * 20, 23),
    refuses("sizes behind a run", "11 05 0A 10 05", 23, (10, 5), at=3),
    refuses("sizes behind a hole", "01 05 91", 23, (None, 5), at=2),
    # before 24
    refuses("23 before 24, a length of 9 bytes", "19", 23),
    refuses("23 before 24, a distance of 9 bytes", "91 00", 23),
    refuses("23 before 24, a length of no byte", "10", 23),
    refuses("23 before 24, both of 15 bytes", "FF FF", 23),
    # before 25 and 26: a length of no byte has no number
    refuses("23 before 26", "10 FF", 23),
    refuses("23 before 25", "91 00 00 00 00 00 00 00 00 00 00", 23),
]

# 24: one byte too few, of the length and of the distance
CUT = [
    refuses("nothing behind the header", "11", 24),
    refuses("no distance", "11 05", 24),
    refuses("nothing behind a hole's header", "01", 24),
    refuses("half a length", "12 05", 24),
    refuses("a length without its distance", "12 05 00", 24),
    refuses("half a distance", "21 05 0A", 24),
    refuses("a hole that lacks a byte", "08 05 00 00 00 00 00 00", 24),
    refuses("the longest run that lacks a byte", "88 05 00 00 00 00 00 00 00 0A 00 00 00 00 00 00", 24),
    refuses("cut off behind a run", "11 05 0A 11 03", 24, (10, 5), at=3),
    refuses("cut off behind a hole", "01 05 01", 24, (None, 5), at=2),
    # before 25 and 26
    refuses("24 before 25", "11 00", 24),
    refuses("24 before 25, in a distance", "21 00 00", 24),
    refuses("24 before 25, in a hole", "02 00", 24),
    refuses("24 before 26, the start", "21 05 FF", 24),
    refuses("24 before 26, the sum", "18 FF FF FF FF FF FF FF FF", 24),
]

# 25: 1 is the other side, in LENGTHS and HOLES
NONE_LONG = [
    refuses("no cluster", "11 00 0A", 25),
    refuses("no cluster in a hole", "01 00", 25),
    refuses("no cluster in 8 bytes", "18 00 00 00 00 00 00 00 00 0A", 25),
    refuses("no cluster in 2 bytes, at 256", "22 00 00 00 01", 25),
    refuses("no cluster behind a run", "11 05 0A 11 00 01", 25, (10, 5), at=3),
    refuses("no cluster behind a hole", "01 05 01 00 11 01 01", 25, (None, 5), at=2),
    # before 26
    refuses("25 before 26, below 0", "11 00 FF", 25),
    refuses("25 before 26, above", "81 01 FF FF FF FF FF FF FF 7F 11 00 01", 25, (MOST, 1), at=10),
]

STARTS = [
    refuses("a start of -1", "11 05 FF", 26),
    refuses("a start of -128", "11 05 80", 26),
    refuses("the lowest start", "81 05 00 00 00 00 00 00 00 80", 26),
    ends("down to 0", "11 05 0A 11 03 F6", (10, 5), (0, 3), at=6),
    refuses("down to -1", "11 05 0A 11 03 F5", 26, (10, 5), at=3),
    ends("from 0 up again", "11 05 0A 11 03 F6 11 01 03", (10, 5), (0, 3), (3, 1), at=9),
    refuses("below 0 behind a hole", "11 05 01 01 05 11 01 FE", 26, (1, 5), (None, 5), at=5),
    ends("the highest start", "81 01 FF FF FF FF FF FF FF 7F", (MOST, 1), at=10),
    ends("again the highest start", "81 01 FF FF FF FF FF FF FF 7F 11 01 00", (MOST, 1), (MOST, 1), at=13),
    ends("up to the highest start", "81 01 FE FF FF FF FF FF FF 7F 11 01 01", (MOST - 1, 1), (MOST, 1), at=13),
    refuses("a start above", "81 01 FF FF FF FF FF FF FF 7F 11 01 01", 26, (MOST, 1), at=10),
    refuses("a start of 2^64 - 2", "81 01 FF FF FF FF FF FF FF 7F 81 01 FF FF FF FF FF FF FF 7F", 26, (MOST, 1),
            at=10),
    refuses("down from the highest to -1", "81 01 FF FF FF FF FF FF FF 7F 81 01 00 00 00 00 00 00 00 80", 26,
            (MOST, 1), at=10),
    # start plus length is not tested
    ends("two clusters at the highest start", "81 02 FF FF FF FF FF FF FF 7F", (MOST, 2), at=10),
    ends("as long as can be, at the highest", "88 FF FF FF FF FF FF FF 7F FF FF FF FF FF FF FF 7F", (MOST, MOST),
         at=17),
]

SUMS = [
    ends("the longest run", "18 FF FF FF FF FF FF FF 7F 0A", (10, MOST), at=10),
    refuses("a length of 2^63", "18 00 00 00 00 00 00 00 80 0A", 26),
    refuses("a length of 2^64 - 1", "18 FF FF FF FF FF FF FF FF 0A", 26),
    ends("the longest hole", "08 FF FF FF FF FF FF FF 7F", (None, MOST), at=9),
    refuses("a hole of 2^63", "08 00 00 00 00 00 00 00 80", 26),
    refuses("a hole of 2^64 - 1", "08 FF FF FF FF FF FF FF FF", 26),
    ends("a sum of two", "18 FE FF FF FF FF FF FF 7F 0A 11 01 00", (10, MOST - 1), (10, 1), at=13),
    refuses("a sum of two above", "18 FE FF FF FF FF FF FF 7F 0A 11 02 00", 26, (10, MOST - 1), at=10),
    refuses("a run behind the longest", "18 FF FF FF FF FF FF FF 7F 0A 11 01 00", 26, (10, MOST), at=10),
    refuses("a sum that 64 bits lose", "18 FF FF FF FF FF FF FF 7F 0A 18 FF FF FF FF FF FF FF FF 00", 26, (10, MOST),
            at=10),
    # holes count
    ends("a hole that fills the sum", "18 FE FF FF FF FF FF FF 7F 0A 01 01", (10, MOST - 1), (None, 1), at=12),
    refuses("a hole behind the longest run", "18 FF FF FF FF FF FF FF 7F 0A 01 01", 26, (10, MOST), at=10),
    refuses("a run behind the longest hole", "08 FF FF FF FF FF FF FF 7F 11 01 0A", 26, (None, MOST), at=9),
    refuses("a hole behind the longest hole", "08 FF FF FF FF FF FF FF 7F 01 01", 26, (None, MOST), at=9),
    ends("three that fill the sum", "11 01 0A 08 FD FF FF FF FF FF FF 7F 11 01 01", (10, 1), (None, MOST - 2), (11, 1),
         at=15),
    refuses("three above", "11 01 0A 08 FD FF FF FF FF FF FF 7F 11 02 01", 26, (10, 1), (None, MOST - 2), at=12),
    # a sum that is full ends nothing by itself
    ends("a zero behind a full sum", "08 FF FF FF FF FF FF FF 7F 00", (None, MOST), at=9),
    refuses("23 behind a full sum", "08 FF FF FF FF FF FF FF 7F 10", 23, (None, MOST), at=9),
    refuses("24 behind a full sum", "08 FF FF FF FF FF FF FF 7F 11 01", 24, (None, MOST), at=9),
    refuses("25 behind a full sum", "08 FF FF FF FF FF FF FF 7F 11 00 00", 25, (None, MOST), at=9),
]

CASES = [*ENDS, *HOLES, *LENGTHS, *DISTANCES, *SIZES, *CUT, *NONE_LONG, *STARTS, *SUMS]


class Reading:
    """Holds answers of the second reading to what they should be, and counts them."""

    def __init__(self):
        self.compared = 0

    def same(self, name, found, expected):
        """The tests' one comparison: it ends the run at a difference."""
        self.compared += 1
        if found != expected:
            sys.exit("runs: %s: expected %s\nfound %s" % (name, expected, found))


def record_of(*texts):
    """A record that has these bytes one behind another, and in front of them and behind them other bytes, so that one
    read too many shows."""
    text = b"".join(texts)
    return PATTERN[:PLACE] + text + PATTERN[PLACE + len(text):max(LENGTH, PLACE + len(text) + WIDEST)]


def answer(text, record=None, place=PLACE):
    """(runs, where they end counted from the first byte, the refusal's number, record and place, or None)."""
    runs, refusal, left = all_runs(record or record_of(text), RECORD, place, len(text))
    return runs, left.place - place, refusal and (refusal.number, refusal.file, refusal.place)


def expected(case, place=PLACE):
    """The same for a case: a refusal is at the header that ends the runs."""
    return list(case.runs), case.at, case.refused and (case.refused, RECORD, place + case.at)


def headers_of(text, end):
    """Where the runs stand that end at a place, by their headers alone, and that end."""
    places = [0]
    while places[-1] < end:
        header = text[places[-1]]
        places.append(places[-1] + 1 + header % 16 + header // 16)
    return places


# The cases, and what follows from them.

def test_the_cases(test):
    """Each case by hand: its runs, how they end, and where."""
    for case in CASES:
        test.same(case.name, answer(case.text), expected(case))


def test_one_run_a_call(test):
    """Each call gives the next run and goes behind it; at the end and at a refusal further calls answer the same."""
    for case in CASES:
        record, state = record_of(case.text), fresh(PLACE, len(case.text))
        for place, told in zip(headers_of(case.text, case.at), case.runs):
            test.same(case.name, state.place, PLACE + place)
            given, state = run(record, RECORD, state)
            test.same(case.name, given, told)
        test.same(case.name, state.total, sum(length for _, length in case.runs))
        for _ in range(2):
            try:
                found = run(record, RECORD, state)
            except Refusal as refusal:
                found = refusal.number, refusal.place
            test.same(case.name, found, (case.refused, state.place) if case.refused else (None, state))


def test_each_attribute_begins_anew(test):
    """Distances and sums of an attribute do not count for the next one, nor do its bytes."""
    for first in CASES:
        for second in (CASES[0], *STARTS, *SUMS):
            record, place = record_of(first.text, second.text), PLACE + len(first.text)
            test.same(first.name, answer(first.text, record), expected(first))
            test.same(second.name, answer(second.text, record, place), expected(second, place))


def test_each_header(test):
    """All 256 headers, with as many bytes behind them as are wanted, and with one byte fewer."""
    for header in range(256):
        name, length, distance = "header %02X" % header, header % 16, header // 16
        # the length is 1, and so is the distance where there is one
        text = bytes((header, *(b"\1".ljust(length, b"\0") if length else b""),
                      *(b"\1".ljust(distance, b"\0") if distance else b"")))
        if header == 0:
            test.same(name, answer(text), ([], 0, None))
        elif length not in range(1, WIDEST + 1) or distance > WIDEST:
            test.same(name, answer(text), ([], 0, (23, RECORD, PLACE)))
        else:
            test.same(name, answer(text), ([(1 if distance else None, 1)], len(text), None))
            test.same(name + ", cut", answer(text[:-1]), ([], 0, (24, RECORD, PLACE)))


def test_each_cut(test):
    """Every case with fewer bytes: between runs they end, inside of one it is cut off."""
    for case in CASES:
        places = headers_of(case.text, case.at)
        for count in range(case.at):
            whole = max(k for k, place in enumerate(places) if place <= count)
            number = None if places[whole] == count else 24
            cut = Case(case.name, case.text[:count], case.runs[:whole], places[whole], number)
            test.same("%s, %d bytes of it" % (case.name, count), answer(cut.text), expected(cut))


def test_what_the_cases_have(test):
    """Each refusal in the first run, behind a run and behind a hole; each width; and no name twice."""
    test.same("names", len({case.name for case in CASES}), len(CASES))
    for number in REFUSALS:
        found = [case.runs for case in CASES if case.refused == number]
        test.same("%d in the first run" % number, () in found, True)
        test.same("%d behind a run" % number, any(runs and runs[-1][0] is not None for runs in found), True)
        test.same("%d behind a hole" % number, any(runs and runs[-1][0] is None for runs in found), True)
    lengths, holes, up, down = set(), set(), set(), set()
    for case in CASES:
        last = 0
        for place, (start, length) in zip(headers_of(case.text, case.at), case.runs):
            header = case.text[place]
            (lengths if start is not None else holes).add(header % 16)
            if start is not None:
                (up if start > last else down if start < last else set()).add(header // 16)
                last = start
    widths = set(range(1, WIDEST + 1))
    test.same("widths", (lengths, holes, up, down), (widths, widths, widths, widths))


def test_a_difference_is_noticed(test):
    """A comparison that never fails shows nothing: each number of a case changed, a run less and a run more."""
    for case in CASES:
        changed = [case._replace(at=case.at + 1), case._replace(runs=(*case.runs, (1, 1)))]
        changed.append(case._replace(refused=25 if case.refused != 25 else None))
        for k, (start, length) in enumerate(case.runs):
            others = [(start, length + 1), (0, length) if start is None else (None, length)]
            others += [] if start is None else [(start + 1, length)]
            changed += [case._replace(runs=(*case.runs[:k], other, *case.runs[k + 1:])) for other in others]
            changed.append(case._replace(runs=(*case.runs[:k], *case.runs[k + 1:])))
        found = answer(case.text)
        test.same(case.name, [one for one in changed if expected(one) == found], [])
    try:
        Reading().same("a difference", 1, 2)
    except SystemExit:
        return
    raise AssertionError("a difference is passed over")


# The witnesses.

NTFSINFO = """\
Dumping attribute $STANDARD_INFORMATION (0x10) from mft record 70 (0x46)
\tResident: \t\t Yes
\tAttribute instance:\t 0 (0x0)
Dumping attribute $DATA (0x80) from mft record 70 (0x46)
\tResident: \t\t No
\tAttribute name:\t\t 'Runlist:'
\tAttribute instance:\t 2 (0x2)
\tLowest VCN\t\t 0 (0x0)
\tHighest VCN:\t\t 16 (0x10)
\tRunlist:\tVCN\t\tLCN\t\tLength
\t\t\t0x0\t\t<HOLE>\t\t0x10
\t\t\t0x10\t\t0x3837\t\t0x1
\t\t\t0x11\t\t<RL_NOT_MAPPED>\t0x20
Dumping attribute $DATA (0x80) from mft record 71 (0x47)
\tResident: \t\t No
\tAttribute instance:\t 2 (0x2)
\tLowest VCN\t\t 17 (0x11)
\tHighest VCN:\t\t 48 (0x30)
\tRunlist:\tVCN\t\tLCN\t\tLength
\t\t\t0x0\t\t<RL_NOT_MAPPED>\t0x11
\t\t\t0x11\t\t0x0\t\t0x20
End of inode reached
"""

ISTAT = """\
$FILE_NAME Attribute Values:
Name: Starting address
\nAttributes: 
Type: $STANDARD_INFORMATION (16-0)   Name: N/A   Resident   size: 48
Type: $DATA (128-2)   Name: N/A   Non-Resident, Sparse   size: 69632  init_size: 69632
  Starting address: X, length: 16  Sparse
  Starting address: 14391, length: 1  
Type: $DATA (128-3)   Name: s 9   Non-Resident   size: 0  init_size: 0
  Starting address: X, length: 17  Filler
  Starting address: 0, length: 32  
Type: $DATA (128-4)   Name: far   Non-Resident, Sparse   size: 4096  init_size: 0
\nError creating run lists
Invalid block address (Invalid address in run (too large): 16383)
"""


def test_what_the_witnesses_print(test):
    """The form of what both print, by hand; a row that has another form is not passed over. What istat gives up is not
    told."""
    test.same("ntfsinfo", witnesses.told_by_ntfsinfo(NTFSINFO), {
        (70, 0x80, 2): (0, [(None, 16), (0x3837, 1)]), (71, 0x80, 2): (17, [(0, 32)])})
    test.same("ntfsinfo", witnesses.attributes_by_ntfsinfo(NTFSINFO), [
        (70, 0x10, "", 0, True, 0, 0), (70, 0x80, "Runlist:", 2, False, 0, 16), (71, 0x80, "", 2, False, 17, 48)])
    test.same("istat", witnesses.told_by_istat(ISTAT), {
        (0x80, ""): (69632, [(None, 16), (14391, 1)]), (0x80, "s 9"): (0, [(witnesses.FILLER, 17), (0, 32)])})
    for read, text, wrong in (
            (witnesses.told_by_ntfsinfo, NTFSINFO, (
                ("<HOLE>", "<ENOENT>"), ("0x3837", "3837"), ("0x11\t\t<", "0x12\t\t<"), ("0x11\t\t0", "0x12\t\t0"),
                ("Lowest VCN\t\t 17", "Lowest VCN\t\t 16"), ("record 71", "record 70"),
                ("\tAttribute instance", "\tInstance"))),
            (witnesses.attributes_by_ntfsinfo, NTFSINFO, (
                ("Lowest VCN\t\t 17", "Lowest\t\t 17"), ("Highest VCN:\t\t 48", "Highest"),
                ("Attribute instance:\t 0", "Instance:\t 0"), ("record 71", "record 70"))),
            (witnesses.told_by_istat, ISTAT, (("Sparse\n", "Sparser\n"), ("address: 1", "address: X"),
                                              ("Name: s 9", "Name: N/A"), ("Starting address: 0", "Beginning at 0")))):
        for old, new in wrong:
            try:
                read(text.replace(old, new))
                sys.exit("runs: %s for %s is not noticed" % (new, old))
            except (AssertionError, AttributeError, TypeError, ValueError):
                test.compared += 1


def test_clusters_in_other_runs(test):
    """How far two lists tell the same clusters, whatever runs they are cut into."""
    runs = [(None, 16), (10, 5), (15, 3), (None, 1)]
    for told, count in (
            (runs, 25), ([], 0), (runs[:2], 21), ([(None, 4), (None, 12), (10, 8), (None, 9)], 25),
            ([(None, 17)], 16), ([(None, 16), (11, 5)], 16), ([(None, 16), (10, 2), (13, 1)], 18), ([(0, 16)], 0),
            ([(None, 16), (10, 5), (15, 3), (18, 1)], 24), ([(witnesses.FILLER, 16), (10, 5)], 0)):
        test.same("clusters alike", witnesses.count_alike(runs, told), count)
    for clusters, left in ((0, runs), (3, [(None, 13), *runs[1:]]), (16, runs[1:]), (18, [(12, 3), *runs[2:]]),
                           (25, []), (26, [])):
        test.same("behind %d" % clusters, witnesses.behind(runs, clusters), left)


def test_the_witnesses(test):
    """The runs of tests/witness_runs.txt, table by table; a line that is changed there is noticed, at its answer
    alone."""
    tables = {name: witnesses.answers_in(text) for name, text in witnesses.kept().items()}
    for name, text in witnesses.kept().items():
        test.same(name, "".join(map(witnesses.text_of, tables[name])), text)
        test.same(name, [told for told in tables[name] if differs(told)], [])
        for changed in changed_answers(text):
            test.same(name + ", changed", len(list(filter(differs, witnesses.answers_in(changed)))), 1)
    kept = [told for answers in tables.values() for told in answers]
    runs, totals = sum(len(told.runs) for told in kept), [sum(length for _, length in told.runs) for told in kept]
    whole = sum(told.by_istat == total for told, total in zip(kept, totals))
    assert len(tables) >= 90 and len(kept) >= 300 and runs >= 60_000, (len(tables), len(kept), runs)
    # what istat alone can say: it is no relation of what wrote the volumes
    assert whole >= len(kept) - 3, whole
    print("%d tables, %d attributes with %d runs and %d clusters replayed; of %d istat tells the same" % (
        len(tables), len(kept), runs, sum(totals), whole))


def test_the_kept_tables(test):
    """The tables of tests/volumes and tests/cases came from another making of the same volumes. Their run bytes are
    those of tests/witness_runs.txt, so what is kept there holds of them, and of the runs in their kept listings."""
    kept, lines = witnesses.kept(), 0
    for folder in (volumes.FOLDER, CASES_FOLDER):
        for file, table in volumes.named_tables(folder).items():
            name = file.removesuffix(".tab")
            if name not in kept:
                continue
            told, held = witnesses.answers_in(kept[name]), dict(rows(table))
            listed = witnesses.lines_of(held, volumes.read(os.path.join(folder, name + ".txt")).decode("ascii"))
            test.same(name, [(line.record, line.place, line.vcn) for line in listed], [one[:3] for one in told])
            for line, one in zip(listed, told):
                test.same(name, held[line.record][line.place:line.place + line.count], one.text)
                test.same(name, line.listed, one.runs)
            lines += len(told)
    assert lines > 150, lines


# the bundled example, and what istat tells of the same file
EXAMPLE = os.path.join(ROOT, "example", "springs")


def test_the_example(test):
    """The clusters that istat tells of the bundled example are those of the runs in its listing, one for one."""
    text = volumes.read(EXAMPLE + ".istat").decode("ascii")
    told = text.split("Type: $DATA", 1)[1].split("\n", 1)[1].split("Type:")[0].split()
    lines = listing(volumes.read(EXAMPLE + ".tab")).decode("ascii").splitlines()
    runs = [map(int, line.split(" ")[1:]) for line in lines if line.startswith("run ")]
    clusters = [start + k for start, length in runs for k in range(length)]
    test.same("clusters of the example", list(map(int, told)), clusters)
    test.same("how many", len(clusters), 500)


def differs(told):
    """Whether the second reading gives other runs than are kept, or a refusal; the bytes are read where they stand in
    their record."""
    record = PATTERN[:told.place] + told.text + PATTERN[:WIDEST]
    runs, refusal, left = all_runs(record, told.record, told.place, len(told.text))
    behind = told.text[left.place - told.place:]
    return runs != told.runs or refusal is not None or behind[:1] not in (b"", b"\0")


def changed_answers(text):
    """The lines of a table's answers with the last of each kind changed: a length, or the first of the run bytes'
    own."""
    lines = text.splitlines(keepends=True)
    for word in ("run ", "hole "):
        for k in [k for k, line in enumerate(lines) if line.startswith(word)][-1:]:
            yield "".join([*lines[:k], lines[k][:-1] + "1\n", *lines[k + 1:]])
    for k in [k for k, line in enumerate(lines) if line.startswith("bytes ")][-1:]:
        head, _, told = lines[k].rpartition(" ")
        told = bytearray.fromhex(told)
        told[1] ^= 1
        yield "".join([*lines[:k], "%s %s\n" % (head, told.hex()), *lines[k + 1:]])


def ended(test):
    """The account behind all of them."""
    print("runs: %d cases, %d compared" % (len(CASES), test.compared))


main = suite.of(Reading, ended)

if __name__ == "__main__":
    main()
