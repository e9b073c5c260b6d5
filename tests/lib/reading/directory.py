"""A second reading of the rules on rows (RULES 18.9): what a table holds, a line for each row of its directory."""
from .answers import Refusal
from .listing import no_file, text_of
from .record import number_at
from .table import check_table
from .table import rows as rows_of

# RULES 3.1 and 1.5: where a record's flags stand, and the one that says that it is in use
FLAGS_AT, IN_USE = 22, 0x0001
# RULES 10.2: where a row has the place of its record
PLACE_AT, ROW_BYTES = 8, 12


def state_said(record):
    """What a line says of a row's record: 2 and 27 come before the flag."""
    if no_file(record):
        return "refused %d" % no_file(record)
    return "used" if number_at(record, FLAGS_AT, 2) & IN_USE else "free"


def lines(table):
    """The lines, in the order of the directory: one alone where the table is malformed. No base row is asked for."""
    try:
        t = check_table(table)
    except Refusal as refusal:
        yield "table refused %d" % refusal.number
        return
    for k, (number, record) in enumerate(rows_of(table)):
        place = number_at(table, t.directory + ROW_BYTES * k + PLACE_AT, 4)
        yield "row %d %d %s" % (number, place, state_said(record))
    yield "end rows %d" % t.count


def rows(table):
    """The bytes of these lines."""
    return text_of(lines(bytes(table)))
