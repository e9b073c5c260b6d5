"""A second reading of the rules in plain Python, to hold the library's answers to.

It is written from docs/RULES.md (sections cited as RULES n) and not from the library's code: it shares no definition
with it, so that a slip in one of the two shows as a difference. A module for each layer, each rule in one of them, and
each module over those below it: `record`, `entries`, `runs`, `table`, `items`, `parts`, `listing`, and what is told
besides, `directory` (rows), `single` (one record), `references`, `hazards`, `names` and `objects` (JSON);
`extracts`, over none of them; and `merges`, over `table` and `extracts`. Apart on purpose are the parts in `parts` and
in `listing`: they are the rules' longest tale, told by two who share nothing of it but the attribute, the entry and the
search.

`older` has what the rules of before need: `without_used_sizes` turns 27 and 28 off; `names_at_26` reads an entry's name
at byte 26, as before; `joined_by_instance` joins entries as before, by type and instance; `as_the_rust_lists` does the
last two.

In the modules on records, entries, runs, tables and extracts a refusal is raised; in those on walks it is a value,
since a walk goes on behind it. An end is None, everything else is returned. Offsets that an answer tells of count from
the record's start.
"""
from .answers import Attribute, Entry, Header, NonResident, Refusal, Resident, Runs, Span, TableHeader
from .entries import MOST_NAME, as_the_rust_lists, entry, entry_name, joined_by_instance, names_at_26
from .record import (
    ATTRIBUTE_FLAGS, KNOWN, LIST, MARKER, attribute_at, find, first_place, full, header, name, opened_list, opening,
    step, used_size, value, view, walk, without_used_sizes,
)
from .table import base_row, check_table, lookup, lookup_view, open_table, rows
