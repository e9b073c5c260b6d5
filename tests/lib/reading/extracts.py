"""A second reading of the rules on extracts of a raw $MFT (RULES 23), and on the table that is written of one
(RULES 22)."""
import struct
from typing import NamedTuple, Optional

from .answers import Refusal

# the bytes whose last two are a pair, and the most that a record may have
BLOCK, MOST_SIZE = 512, 4096
# a row's number is below, and so many rows there are at most
NUMBER_END, MOST_ROWS = 2 ** 48, 4096
# a number of a record is told below
TOLD_END = 2 ** 64

HEADER, ROW = struct.Struct("<5I"), struct.Struct("<QI")


class First(NamedTuple):
    """The first record that is refused: its position, its number where that is below 2^64, and 29 or 30."""

    position: int
    number: Optional[int]
    cause: int


class Report(NamedTuple):
    """What became of an extract's records: the bytes of its table, the rows, the records that don't begin with FILE,
    those that are refused, and the first of these."""

    length: int
    written: int
    left_out: int
    refused: int
    first: Optional[First]


def number_in(raw, at):
    """A number of two bytes."""
    return int.from_bytes(raw[at:at + 2], "little")


def judged(raw):
    """(29 or 30, or None; the record with its fixup, where neither is). Each place of the array is looked at."""
    start, count = number_in(raw, 4), number_in(raw, 6)
    ends = range(BLOCK, len(raw) + 1, BLOCK)
    guarded = {end - back for end in ends for back in (1, 2)}
    array = range(start, start + 2 * count)
    # one number whichever of the three it is
    if count != len(ends) + 1 or any(at >= len(raw) or at in guarded for at in array):
        return 29, None
    pairs = [bytes(raw[at:at + 2]) for at in array[::2]]
    if any(raw[end - 2:end] != pairs[0] for end in ends):
        return 30, None
    fixed = bytearray(raw)
    for end, kept in zip(ends, pairs[1:]):
        fixed[end - 2:end] = kept
    return None, bytes(fixed)


def records_of(mft, size):
    """The records of an extract, or 1: for the whole call, as all that is refused for it."""
    if size not in range(BLOCK, MOST_SIZE + 1, BLOCK) or len(mft) % size != 0:
        raise Refusal(1, 0, 0)
    return [mft[at:at + size] for at in range(0, len(mft), size)]


def base_row_of(rows, base):
    """Which row is the base row: that of the record with this number, or as many as there are where it is not written
    (RULES 23.10)."""
    return next((k for k, (number, _) in enumerate(rows) if number == base), len(rows))


def table_of(rows, size, base=None):
    """The table of some rows, (number, record): the records straight behind the directory. Its base row is that of a
    number, and where none is asked for it has none."""
    records = HEADER.size + ROW.size * len(rows)
    text = HEADER.pack(len(rows), size, HEADER.size, records, base_row_of(rows, base))
    text += b"".join(ROW.pack(number, records + size * k) for k, (number, _) in enumerate(rows))
    return text + b"".join(record for _, record in rows)


def check_rows(rows):
    """44 at the first row whose number is too large, where it would stand; then 34."""
    for k, (number, _) in enumerate(rows):
        if number >= NUMBER_END:
            raise Refusal(44, 0, HEADER.size + ROW.size * k)
    if len(rows) > MOST_ROWS:
        raise Refusal(34, 0, 0)


def made(records, numbers, size, base, room):
    """(the table, the report) for records with a number each, and for a buffer of `room` bytes; or the call's refusal
    is raised."""
    rows, refused, left_out = [], [], 0
    for position, (number, raw) in enumerate(zip(numbers, records)):
        if raw[:4] != b"FILE":
            left_out += 1
            continue
        cause, fixed = judged(raw)
        if cause is None:
            rows.append((number, fixed))
        else:
            refused.append(First(position, number if number < TOLD_END else None, cause))
    check_rows(rows)
    table = table_of(rows, size, base)
    if len(table) > room:
        raise Refusal(35, 0, 0)
    return table, Report(len(table), len(rows), left_out, len(refused), refused[0] if refused else None)


def extract(mft, size, first, room, base=None):
    """The same for an extract of records of one size, the first of which has this number."""
    records = records_of(mft, size)
    return made(records, range(first, first + len(records)), size, base, room)


# Chosen records: a list of numbers in the place of a first one (RULES 23.9).

def check_numbers(numbers, count):
    """1 where there are not as many numbers as records; then 21 at the first number that is not above the one before
    it, where its row would stand if each record were written."""
    if len(numbers) != count:
        raise Refusal(1, 0, 0)
    for k, (before, number) in enumerate(zip(numbers, numbers[1:]), 1):
        if number <= before:
            raise Refusal(21, 0, HEADER.size + ROW.size * k)


def chosen_records(mft, size, numbers):
    """The records of an extract that has a number for each."""
    records = records_of(mft, size)
    check_numbers(numbers, len(records))
    return records


def chosen(mft, size, numbers, room, base=None):
    """(the table, the report) for records of one size with these numbers."""
    return made(chosen_records(mft, size, numbers), numbers, size, base, room)


def judgement(records, position):
    """What becomes of the record at a position: it is left out, it is 29 or 30, or it is sound; None past the last."""
    if position >= len(records):
        return None
    raw = records[position]
    return "left" if raw[:4] != b"FILE" else judged(raw)[0] or "sound"
