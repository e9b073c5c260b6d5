"""A second reading of the rules on the lent table, the opening of a file and its lookup (RULES 10 and 11)."""
import struct

from .answers import Refusal, TableHeader
from .record import opened_file, opening

NUMBERS = struct.Struct("<5I")
ROW = struct.Struct("<QI")


def check_table(table):
    """Check 21: its faults one after another."""
    # the record is 0, and the place 0 or where the row stands
    malformed = Refusal(21, 0, 0)
    if len(table) < NUMBERS.size:
        raise malformed
    t = TableHeader(*NUMBERS.unpack_from(table))
    if t.count > 4096:
        raise malformed
    if t.size < 64 or t.size > 4096 or t.size % 8 != 0:
        raise malformed
    if t.directory < NUMBERS.size:
        raise malformed
    if t.directory + ROW.size * t.count > t.records:
        raise malformed
    if t.records > len(table):
        raise malformed
    if t.base > t.count:
        raise malformed
    # row by row, all three tests on a row before the next, at the place where the row itself stands
    before = None
    for place in range(t.directory, t.directory + ROW.size * t.count, ROW.size):
        number, offset = ROW.unpack_from(table, place)
        if number >= 2 ** 48 or (before is not None and number <= before):
            raise Refusal(21, 0, place)
        if offset < t.records or offset + t.size > len(table):
            raise Refusal(21, 0, place)
        before = number
    return t


def base_row(t):
    """The base row: none where it is the count."""
    return None if t.base == t.count else t.base


def open_table(record, number, table):
    """21, 1, 2 and 27, in this order; 1 asks for the table's record size too."""
    t = check_table(table)
    opening(record, number, t.size)
    return t


def lookup(record, number, table, wanted, place):
    """The record with the number wanted, for a base record with its own number. `place` is what a bare call is to
    blame."""
    open_table(record, number, table)
    return found(record, number, dict(rows(table)), wanted, place)


def found(record, number, held, wanted, place):
    """The record with the number wanted, behind the opening checks; `held` has the table's records by their
    numbers."""
    # the base record wins over a row of its number, which is the one lent with it, of any size
    other = record if wanted == number else held.get(wanted)
    # RULES 11: 17 in the base record at the place blamed
    if other is None:
        raise Refusal(17, number, place)
    # 2 and 27 in the record that is found
    opened_file(other, wanted)
    return other


def lookup_view(*given):
    """The record's bytes; none where the lookup refuses."""
    try:
        return lookup(*given)
    except Refusal:
        return b""


def rows(table):
    """(record number, record) for each row of a table that is known to be well formed; nothing is checked here."""
    t = TableHeader(*NUMBERS.unpack_from(table))
    for place in range(t.directory, t.directory + ROW.size * t.count, ROW.size):
        number, offset = ROW.unpack_from(table, place)
        yield number, bytes(table[offset:offset + t.size])
