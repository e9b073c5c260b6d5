"""A second reading of the rules on the entries of a list (RULES 9)."""
import contextlib
import struct

from .answers import Entry, Refusal
from .older import older

ENTRY = struct.Struct("<IHBBQQH")

# How many bytes the longest name has: 255 units.
MOST_NAME = 510


# Entries were joined by type and instance before they were by type and name, and a name was read at byte 26 before it
# was where its entry says. The Rust does both.
BY_INSTANCE, joined_by_instance = older("entries are joined by type and instance")
AT_26, names_at_26 = older("an entry's name is read at byte 26")


@contextlib.contextmanager
def as_the_rust_lists():
    """Both inside this block."""
    with joined_by_instance(), names_at_26():
        yield


def entry(rest, base, place):
    """The list step. `rest` is the rest of the list from the entry on, which stands at `place` in the base record."""
    # RULES 9
    left = len(rest)
    if left == 0:
        return None
    # 14, 15, 31 and 16, each at the entry's place in the base record
    if left < 26:
        raise Refusal(14, base, place)
    # of the reference only the record number
    ty, length, units, name, lowest, reference, instance = ENTRY.unpack_from(rest)
    if length < 26 + 2 * units:
        raise Refusal(15, base, place)
    # by the older rule 31 is never given: such a name is inside its entry by 15
    name = 26 if AT_26.get() else name
    # an empty name has no place, and its offset may be any
    if units != 0 and (name < 26 or name + 2 * units > length):
        raise Refusal(31, base, place)
    # not all of the name is left
    if units != 0 and name + 2 * units > left:
        raise Refusal(16, base, place)
    # an entry that is longer than what is left is not given
    if length > left:
        return None
    return Entry(ty, length, units, name, lowest, reference % 2 ** 48, instance)


def entry_name(rest, given):
    """The entry's name in 510 bytes, zeros behind it; all zeros where no entry is given."""
    name = bytes(rest[given.name:given.name + 2 * given.units]) if isinstance(given, Entry) else b""
    return name.ljust(MOST_NAME, b"\0")
