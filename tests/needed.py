"""The program needs the C library alone: what its dynamic section names (NEEDED) is libc.so.6, and nothing else.

Read from the file itself, ELF for 64 bits: the program headers tell where the section stands, and how addresses in it
are places in the file.
"""
import os
import struct
import sys

from lib.programs import ROOT, command

PROGRAM = "nomutanku"
WANTED = ["libc.so.6"]

# what a program header is for, and the entries of the section that are read
LOAD, DYNAMIC = 1, 2
END, NEEDED, STRINGS = 0, 1, 5
HEADERS_AT, HEADER_BYTES, ENTRY_BYTES = 32, 56, 16


def headers(text):
    """(what for, place in the file, address, bytes in the file) of each program header."""
    assert text[:6] == b"\x7fELF\x02\x01", "no ELF file of 64 bits, the lowest byte first"
    at, = struct.unpack_from("<Q", text, HEADERS_AT)
    size, count = struct.unpack_from("<HH", text, 54)
    assert size == HEADER_BYTES and count > 0, (size, count)
    for place in range(at, at + count * size, size):
        kind, _, offset, address, _, length = struct.unpack_from("<IIQQQQ", text, place)
        yield kind, offset, address, length


def needed(text):
    """The names of the libraries that a program needs, in order."""
    found = list(headers(text))
    (start, length), = [(offset, length) for kind, offset, _, length in found if kind == DYNAMIC]
    entries = []
    for place in range(start, start + length, ENTRY_BYTES):
        entries.append(struct.unpack_from("<QQ", text, place))
        if entries[-1][0] == END:
            break
    (strings,) = [value for tag, value in entries if tag == STRINGS]
    (base,) = [offset + strings - address for kind, offset, address, length in found
               if kind == LOAD and address <= strings < address + length]
    return [text[base + value:text.index(b"\0", base + value)].decode() for tag, value in entries if tag == NEEDED]


def program_of(*names):
    """A file with just what is read here, which needs these."""
    strings, entries, address = b"\0", [], 0x1000
    for name in names:
        entries.append((NEEDED, len(strings)))
        strings += name.encode() + b"\0"
    at = 64 + 2 * HEADER_BYTES
    entries += [(STRINGS, address + at + ENTRY_BYTES * (len(entries) + 2)), (END, 0)]
    section = b"".join(struct.pack("<QQ", *entry) for entry in entries)
    whole = at + len(section) + len(strings)
    head = b"\x7fELF\x02\x01".ljust(HEADERS_AT, b"\0") + struct.pack("<Q", 64)
    head = head.ljust(54, b"\0") + struct.pack("<HH", HEADER_BYTES, 2)
    rows = struct.pack("<IIQQQQQQ", LOAD, 5, 0, address, address, whole, whole, 1)
    rows += struct.pack("<IIQQQQQQ", DYNAMIC, 4, at, address + at, 0, len(section), len(section), 8)
    return head.ljust(64, b"\0") + rows + section + strings + b"behind\0"


def notices():
    """A library more or less shows, wherever it stands."""
    for names in ([], WANTED, ["libm.so.6", *WANTED], [*WANTED, "libgcc_s.so.1"], ["libc.so.60"]):
        assert needed(program_of(*names)) == names, names


def main():
    """Reads what the built program needs."""
    notices()
    command(PROGRAM)
    with open(os.path.join(ROOT, "crates", PROGRAM, "out", PROGRAM), "rb") as given:
        found = needed(given.read())
    if found != WANTED:
        sys.exit("needed: %s needs %s, and %s is all that it should" % (PROGRAM, found, WANTED))
    print("needed: %s needs %s alone" % (PROGRAM, ", ".join(found)))


if __name__ == "__main__":
    main()
