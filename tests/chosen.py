"""Holds chosen records, as built, to cases that were written by hand and to the second reading of the rules: a number
lent for each record in the place of a first one, a base record that is asked for, and what becomes of each record.

A case is the records, each with what becomes of it, their numbers, and a buffer with bytes in it; CASES has all of
them, as data. Every question goes to the program `ask`. What it reports or refuses, what it judges and the whole buffer
behind the call are compared. Fails at any difference.
"""
from typing import NamedTuple, Optional

from extract_random import buffer
from extracts import END, MOST_ROWS, ROW_END, bad_array, by_ntfs_3g, left_out, length_of, samples, sound, text_of
from extracts import torn
from lib import suite
from lib.building import packed_table
from lib.on_chosen import OF_A_RECORD, REFUSALS, Chosen, Question
from lib.on_extracts import told
from lib.question import LAST
from lib.reading import Refusal
from lib.reading.extracts import First, Report

# a position that no record has: asked for beside those that there are
FAR = (0, 1, 2 ** 16, 2 ** 32, 2 ** 63, LAST)

# where the table's rows begin, and how long one is
ROWS, ROW = 20, 12


class Case(NamedTuple):
    """Records of this size and their numbers, and a buffer that has so many bytes more than the table needs, or fewer.
    The table's base row is as told, or there is none. The call is refused by this number at this place, or is not."""

    name: str
    records: list
    numbers: tuple
    base: Optional[int] = None
    row: Optional[int] = None
    more: int = 0
    refused: Optional[tuple] = None
    size: int = 512
    behind: bytes = b""

    text = property(text_of)

    @property
    def rows(self):
        """The rows that are written, (number, record)."""
        return [(number, r.fate) for number, r in zip(self.numbers, self.records) if isinstance(r.fate, bytes)]

    @property
    def room(self):
        """How long the buffer is."""
        return max(0, length_of(len(self.rows), self.size) + self.more)


def report_of(case):
    """The table and the report, by what becomes of each record."""
    held, fates = case.rows, [record.fate for record in case.records]
    refused = [(k, fate) for k, fate in enumerate(fates) if isinstance(fate, int)]
    first = First(refused[0][0], case.numbers[refused[0][0]], refused[0][1]) if refused else None
    directory = [(number, case.size * k) for k, (number, _) in enumerate(held)]
    row = len(held) if case.row is None else case.row
    table = packed_table(directory, b"".join(record for _, record in held), case.size, row)
    left = sum(fate is None for fate in fates)
    return table, Report(len(table), len(held), left, len(refused), first)


def judged(case, far):
    """What becomes of each record, by hand; nothing behind the last."""
    fates = ["left" if r.fate is None else "sound" if isinstance(r.fate, bytes) else str(r.fate) for r in case.records]
    fates.append("end")
    return " ".join([" judged", *fates, fates[min(far, len(case.records))]])


def hand(case, far=0):
    """A case's answer in the program's words."""
    number, place = case.refused or (0, 0)
    answer = Refusal(number, 0, place) if case.refused else report_of(case)
    # 1 and 21 refuse the records, and then none is judged
    return told(answer, buffer(case.room), "" if number in (1, 21) else judged(case, far))


def some(count, size=512):
    """So many records that are written, none like its neighbours."""
    return [sound(size, k) for k in range(count)]


# 1: the sizes, as where a first number is lent, and as many numbers as records.

COUNTS = [
    Case("no record, no number", [], ()),
    *(Case("%d records of %d bytes" % (count, size), some(count, size), tuple(range(40, 40 + count)), size=size)
      for count in (1, 2, 3) for size in (512, 1024, 4096)),
    *(Case("%d records, %d numbers" % (count, told_), some(count), tuple(range(40, 40 + told_)), refused=(1, 0))
      for count in range(4) for told_ in range(6) if count != told_),
    Case("as many numbers as there would be of 512 bytes", some(1, 1024), (1, 2), size=1024, refused=(1, 0)),
    Case("as many numbers as there would be of 1,024 bytes", some(2), (1,), refused=(1, 0)),
    *(Case("%d bytes behind 2 records, %d numbers" % (behind, told_), some(2), tuple(range(told_)), refused=(1, 0),
           behind=sound(512, 9).raw[:behind])
      for behind in (1, 511) for told_ in (2, 3)),
    *(Case("no records of %d bytes" % size, [], (), size=size, refused=(1, 0))
      for size in (0, 1, 511, 513, 4608, 2 ** 16 + 512, 2 ** 32 + 512, LAST)),
    Case("no records of 0 bytes, a number", [], (1,), size=0, refused=(1, 0)),
    Case("records of 0 bytes", some(1), (1,), size=0, refused=(1, 0)),
    # no number is looked at before all are counted
    Case("1 before 21", some(2), (5, 4, 3), refused=(1, 0)),
    Case("1 before 21, a number less", some(3), (5, 4), refused=(1, 0)),
    Case("1 before 21, by the size", [], (5, 4), size=513, refused=(1, 0)),
    Case("1 before 44, 35", some(1), (ROW_END, ROW_END + 1), more=-1, refused=(1, 0)),
]


# 21: each number against the one before it.

def with_number(numbers, at, number):
    """These numbers with another one at a position."""
    return (*numbers[:at], number, *numbers[at + 1:])


TENS = tuple(range(40, 100, 10))
FALLING = [
    *(Case("number %d is %d, behind %d" % (at, number, TENS[at - 1]), some(6), with_number(TENS, at, number),
           refused=(21, ROWS + ROW * at))
      for at in range(1, 6) for number in (0, TENS[at - 1] - 1, TENS[at - 1])),
    *(Case("number %d is one above the one before" % at, some(6), with_number(TENS, at, TENS[at - 1] + 1))
      for at in range(1, 6)),
    *(Case("number %d is %d, and the next is not above" % (at, number), some(6), with_number(TENS, at, number),
           refused=(21, ROWS + ROW * (at + 1)))
      for at in range(5) for number in (TENS[at + 1], TENS[at + 1] + 1, LAST)),
    *(Case("two numbers, %d and %d" % pair, some(2), pair, refused=(21, 32))
      for pair in ((0, 0), (1, 0), (LAST, 0), (LAST, LAST), (ROW_END, ROW_END), (2 ** 32, 1), (2 ** 32 + 5, 5))),
    *(Case("two numbers, %d and %d" % pair, some(2), pair)
      for pair in ((0, 1), (0, ROW_END - 1), (2 ** 32 - 1, 2 ** 32), (5, 2 ** 32 + 4))),
    Case("the first two that fall", some(5), (5, 4, 3, 9, 8), refused=(21, 32)),
    Case("the first that falls, by the one before and not by the first", some(4), (5, 9, 8, 10), refused=(21, 44)),
    Case("the last alone falls", some(5), (1, 2, 3, 4, 4), refused=(21, 68)),
    # those that are not written rise too, and the place counts them
    *(Case("a number that falls, of a record that is %s" % said, [sound(512), record, sound(512, 2)], (5, 5, 6),
           refused=(21, 32))
      for said, record in (("left out", left_out(512)), ("torn", torn(512)), ("29", bad_array(512, array=507)))),
    *(Case("a number that falls behind a record that is %s" % said, [sound(512), record, sound(512, 2)], (5, 7, 6),
           refused=(21, 44))
      for said, record in (("left out", left_out(512)), ("torn", torn(512)), ("29", bad_array(512, array=507)))),
    Case("none written, none rises", [left_out(512), torn(512), left_out(512)], (9, 9, 9), refused=(21, 32)),
    Case("21 before 44", some(3), (ROW_END, ROW_END + 1, 0), refused=(21, 44)),
    Case("21 before 35", some(2), (1, 1), more=-1, refused=(21, 32)),
    Case("21 before 44 and 35", some(2), (LAST, LAST), more=-500, refused=(21, 32)),
]

# 44: the place is that of a row that is written.

LATE = [
    Case("numbers up to 2^48 - 1", some(3), (0, 1, ROW_END - 1)),
    Case("2^48, the first", some(2), (ROW_END, LAST), refused=(44, 20)),
    Case("2^48, the third", some(4), (0, ROW_END - 1, ROW_END, ROW_END + 1), refused=(44, 44)),
    Case("2^64 - 1, the last", some(3), (0, 1, LAST), refused=(44, 44)),
    Case("2^48 behind one left out", [left_out(512), *some(2)], (1, 2, ROW_END), refused=(44, 32)),
    Case("2^48 behind some of each", [
        left_out(512), sound(512), torn(512), bad_array(512, array=507), sound(512, 3), left_out(512)],
        (1, 2, 3, 4, ROW_END + 7, LAST), refused=(44, 32)),
    Case("2^48, left out", [sound(512), left_out(512)], (ROW_END - 1, ROW_END)),
    Case("2^48, 30", [sound(512), torn(512)], (ROW_END - 1, ROW_END)),
    Case("2^64 - 1, 29", [left_out(512), bad_array(512, array=507)], (LAST - 1, LAST)),
    Case("2^48 behind one that is left out with more than 2^48", [
        left_out(512), sound(512)], (ROW_END, ROW_END + 1), refused=(44, 20)),
    Case("44 before 35", some(1), (ROW_END,), more=-1, refused=(44, 20)),
]

# 34 and 35

GAPS = tuple(range(0, 3 * (MOST_ROWS + 3), 3))
MANY = [
    Case("4,096 rows", [sound(512)] * MOST_ROWS, GAPS[:MOST_ROWS], base=GAPS[MOST_ROWS - 1], row=MOST_ROWS - 1),
    Case("4,097 rows", [sound(512)] * (MOST_ROWS + 1), GAPS[:MOST_ROWS + 1], refused=(34, 0)),
    Case("4,096 rows and others", [left_out(512), *[sound(512)] * MOST_ROWS, torn(512)], GAPS[:MOST_ROWS + 2]),
    Case("4,097 rows, the last number falls", [sound(512)] * (MOST_ROWS + 1), (*GAPS[:MOST_ROWS], 5),
         refused=(21, ROWS + ROW * MOST_ROWS)),
    Case("44 before 34", [sound(512)] * (MOST_ROWS + 1), (*GAPS[:MOST_ROWS], LAST),
         refused=(44, ROWS + ROW * MOST_ROWS)),
    Case("34 before 35", [sound(512)] * (MOST_ROWS + 1), GAPS[:MOST_ROWS + 1], more=-1, refused=(34, 0)),
    Case("4,096 rows, a byte less", [sound(512)] * MOST_ROWS, GAPS[:MOST_ROWS], more=-1, refused=(35, 0)),
]
LENGTHS = [
    *(Case("%d rows, %d bytes more" % (count, more), some(count), TENS[:count], more=more)
      for count in (0, 1, 2, 5) for more in (1, 12, 600)),
    *(Case("%d rows, %d bytes more" % (count, more), some(count), TENS[:count], more=more, refused=(35, 0))
      for count in (0, 1, 2, 5) for more in (-1, -12, -length_of(count, 512))),
    Case("a row among others", [left_out(512), torn(512), sound(512), bad_array(512, count=1)], TENS[:4]),
    Case("a row among others, a byte less", [left_out(512), torn(512), sound(512), bad_array(512, count=1)], TENS[:4],
         more=-1, refused=(35, 0)),
]

# The base row.

MIXED = [left_out(512), sound(512, 1), torn(512), sound(512, 2), bad_array(512, array=507), sound(512, 3)]
BASES = [
    *(Case("base %d of six" % number, some(6), TENS, base=number, row=row) for row, number in enumerate(TENS)),
    *(Case("no record %d among six" % number, some(6), TENS, base=number)
      for number in (0, 1, 5, 6, 39, 41, 55, 89, 91, ROW_END, LAST, 2 ** 32 + 40)),
    # a row is none of its record's position, nor its number
    *(Case("base %d among others" % number, MIXED, TENS, base=number, row=row)
      for number, row in ((50, 0), (70, 1), (90, 2))),
    *(Case("base %d is not written" % number, MIXED, TENS, base=number) for number in (40, 60, 80)),
    *(Case("base %d of the numbers from 0 on" % number, some(4), (0, 1, 2, 3), base=number, row=number)
      for number in range(4)),
    Case("base 4 of the numbers from 0 on", some(4), (0, 1, 2, 3), base=4),
    *(Case("numbers of rows and records, base %d" % number, MIXED, (0, 1, 2, 3, 4, 5), base=number, row=row)
      for number, row in ((0, None), (1, 0), (2, None), (3, 1), (4, None), (5, 2), (6, None))),
    Case("a base where there is no record", [], (), base=0),
    Case("a base where none is written", [left_out(512), torn(512)], (7, 8), base=7),
    Case("a base that is torn where none is written", [left_out(512), torn(512)], (7, 8), base=8),
    Case("one record, its base", some(1), (ROW_END - 1,), base=ROW_END - 1, row=0),
    Case("one record, another base", some(1), (ROW_END - 1,), base=ROW_END),
    Case("a base of 2^48 that is left out", [sound(512), left_out(512)], (5, ROW_END), base=ROW_END),
    Case("a base of 2^64 - 1 that is torn", [sound(512), torn(512)], (5, LAST), base=LAST),
    Case("44 with a base", some(2), (5, ROW_END), base=5, refused=(44, 32)),
    Case("35 with a base", some(2), (5, 6), base=5, more=-1, refused=(35, 0)),
    Case("21 with a base", some(2), (5, 5), base=5, refused=(21, 32)),
    Case("1 with a base", some(2), (5,), base=5, refused=(1, 0)),
    Case("records of 4,096 bytes with a base", some(3, 4096), (5, 8, 13), base=8, row=1, size=4096),
]

CASES = [*COUNTS, *FALLING, *LATE, *MANY, *LENGTHS, *BASES]


def put(test, case, far=0):
    """Asks a case by hand."""
    test.put_literal_question(hand(case, far), Question(
        case.text, case.size, case.numbers, buffer(case.room), case.base, far))


def sample():
    """Questions with each refusal of a call, and with the base row. rt ci runs the program on them."""
    wanted = (
        "no record, no number", "1 records, 2 numbers", "two numbers, 1 and 0", "2^48, 30", "2^48, the first",
        "1 rows, -1 bytes more", "base 70 among others", "base 40 is not written",
    )
    small = [case for case in CASES if case.name in wanted]
    assert len(small) == len(wanted), {case.name for case in small} ^ set(wanted)
    return [Question(case.text, case.size, case.numbers, buffer(case.room), case.base, 1) for case in small]


def test_the_cases(test):
    """Each case by hand: the answer, what becomes of each record, and the buffer."""
    for case in CASES:
        put(test, case)
    assert len({case.name for case in CASES}) == len(CASES)


def test_far_positions(test):
    """Nothing is judged behind the last record, however far."""
    for case in (*BASES, *COUNTS, *LATE):
        for far in (*FAR, len(case.records) - 1, len(case.records), len(case.records) + 1):
            if far >= 0:
                put(test, case, far)


def test_numbers_in_a_row(test):
    """Chosen records whose numbers follow one another give what an extract with a first number gives."""
    for case in (*COUNTS, *LATE):
        records = case.records
        for first in (0, 40, ROW_END - 2, ROW_END, LAST - 1 - len(records)):
            numbers = tuple(range(first, first + len(records)))
            q = Question(case.text, case.size, numbers, buffer(length_of(len(records), 512)))
            test.put_question(q)


def test_the_base_alone_changes(test):
    """What base is asked for changes four bytes of the table, and nothing else of the answer."""
    numbers, text = (7, 9, 30, 41, 50, 66), b"".join(record.raw for record in MIXED)
    answers = {}
    for base in (None, *range(70)):
        q = Question(text, 512, numbers, buffer(2000), base)
        answers[base] = test.expected(q)
        test.put_question(q)
    plain = answers.pop(None)
    at = plain.index(" view 2000 ") + len(" view 2000 ") + 16
    for base, answer in answers.items():
        row = {9: 0, 41: 1, 66: 2}.get(base, 3)
        assert answer == plain[:at] + chr(row) + plain[at + 1:], base


def test_real_records(test):
    """Real records, some of them left away and each with its own number: the rows are those that ntfs-3g reads."""
    for given in samples():
        held, _ = by_ntfs_3g(given)
        records = [given.raw[at:at + given.size] for at in range(0, len(given.raw), given.size)]
        for step in (1, 2, 3):
            kept = range(0, len(records), step)
            numbers = tuple(given.first + k for k in kept)
            text = b"".join(records[k] for k in kept)
            wanted = [(number, record) for number, record in held if number in numbers]
            for row, (number, _) in enumerate(wanted):
                directory = [(n, given.size * k) for k, (n, _) in enumerate(wanted)]
                table = packed_table(directory, b"".join(record for _, record in wanted), given.size, row)
                q = Question(text, given.size, numbers, buffer(length_of(len(records), given.size)), number)
                assert (" view %d " % len(q.table) + table.decode("latin-1")) in test.expected(q)
                test.put_question(q)


def ended(test):
    """Each refusal was given, of calls and of records."""
    test.finish((*REFUSALS, *OF_A_RECORD))


main = suite.of(Chosen, ended)

if __name__ == "__main__":
    main()
