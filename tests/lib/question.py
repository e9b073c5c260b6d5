"""A question to the program `ask`, in bytes, as crates/ask/src/question.rt reads it.

A byte for what is asked (its kind), a byte for how many numbers come with it, each number as a byte for its tag and
eight for its value; then the record, the table, what a key's name begins with, up to its last byte that is not 0, and
the numbers of an extract's records, eight bytes each. A number that is 0 does not come. A call that asks for more takes
a new tag, behind the others: no other question changes, and no other test.
"""
import functools
import struct

# Where the kinds of question of each layer begin: crates/ask/src/main.rt has them all.
ON_RECORDS, ON_TABLES, ON_ITEMS, ON_PARTS, ON_LISTINGS, ON_RUNS, ON_EXTRACTS = 0, 16, 23, 27, 30, 32, 34
ON_CHOSEN, ON_REFERENCES, ON_HAZARDS, ON_NAMES, ON_MERGES = 35, 36, 37, 38, 40

# The numbers by their tags.
TAGS = {
    name: tag for tag, name in enumerate((
        "number", "place", "wanted", "list", "list_from", "list_to", "key", "ty", "instance", "most", "record_bytes",
        "table_bytes", "buffer", "last", "sum", "run_bytes", "units", "name_bytes", "size",
        "listed", "has_base", "base",
    ))
}

# How many bytes a question's record and table may have together, how many a key's name has, and how many numbers may be
# listed.
ROOM = 4_300_000
NAME = 510
MOST_LISTED = 8_400

LAST = 2 ** 64 - 1


@functools.lru_cache(maxsize=None)
def form(count):
    """The head of a question with so many numbers."""
    return struct.Struct("<BB" + count * "BQ")


def head(kind, **numbers):
    """A question without its record and table."""
    flat = []
    for name, value in numbers.items():
        if value:
            flat += (TAGS[name], value)
    return form(len(flat) // 2).pack(kind, len(flat) // 2, *flat)


def packed_numbers(listed):
    """The numbers of an extract's records."""
    return struct.pack("<%dQ" % len(listed), *listed)


def question(kind, record=b"", table=b"", name=b"", listed=(), **numbers):
    """A question packed, with the numbers that its kind reads."""
    sizes = {"record_bytes": len(record), "table_bytes": len(table), "name_bytes": len(name), "listed": len(listed)}
    return head(kind, **numbers, **sizes) + record + table + name + packed_numbers(listed)


def list_numbers(rest):
    """The rest of a list: a flag, where it begins and where it ends."""
    return dict(zip(("list", "list_from", "list_to"), map(int, rest)))


def name_told(key):
    """The bytes of a skip key's name that come: the others are 0."""
    return key.name.rstrip(b"\0")


def base_told(base):
    """The base record that is asked for: a flag and its number."""
    return {} if base is None else {"has_base": 1, "base": base}


def key_told(key):
    """A skip key: a flag, a type, the units of its name, and its name."""
    return {"key": int(key.there), "ty": key.ty, "units": key.units, "name": name_told(key)}


def cuts(packed, *pieces):
    """Places where a packed question can be cut: in its head and in each of the pieces behind that, and where each
    begins and ends."""
    whole = len(packed)
    first = whole - sum(map(len, pieces))
    places = {0, 1, 2, 3, first - 9, first - 8, whole - 1}
    for piece in pieces:
        places |= {first - 1, first, first + 1}
        first += len(piece)
    return sorted(at for at in places if 0 <= at < whole)
