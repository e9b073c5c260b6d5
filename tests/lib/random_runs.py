"""Random run bytes, of every kind that the rules on runs tell apart, and which of these kinds a text of lines has
(RULES 18.12 and 21). What is made depends on the generator that is handed in, and on nothing else."""
import collections
import re
import struct
import sys

from lib import reading
from lib.building import ROW_BYTES

# how many bytes a number has: small ones most often
SMALL = (1, 1, 1, 2, 3)
WIDEST = 8

# the refusal that ends some run bytes, or none of them
ENDS = (None, None, 23, 24, 25, 26)

# how many of a table's records get other run bytes at most
RECORDS = 8


def run_of(length, distance=b""):
    """A run of a length and a distance, each as it stands there; without a distance a hole."""
    return bytes((len(length) + 16 * len(distance),)) + length + distance


def random_run(chance):
    """A run that most often begins behind the last one, or a hole."""
    wide, far = chance.choice(SMALL), chance.choice(SMALL)
    if chance.random() < 0.02:
        wide = far = chance.randrange(1, WIDEST + 1)
    length = chance.randrange(1, 2 ** (8 * wide)).to_bytes(wide, "little")
    if chance.random() < 0.3:
        return run_of(length)
    most = 2 ** (8 * far - 1)
    distance = chance.randrange(-most, most) if chance.random() < 0.15 else chance.randrange(most)
    return run_of(length, distance.to_bytes(far, "little", signed=True))


def random_end(refusal, chance):
    """What ends the runs in front of it: a header of 0, or what is refused by 23, 25 or 26."""
    if refusal == 23:
        return bytes((chance.choice((0x10, 0x80, 0x09, 0x91, 0x19, 0x1F, 0xF1, 0xBB, 0xFF)),))
    if refusal == 25:
        wide, far = chance.choice(SMALL), chance.choice((0, *SMALL))
        return run_of(bytes(wide), bytes(chance.randrange(256) for _ in range(far)))
    if refusal == 26:
        # below 0 in front of the first run, behind others if the distance is far enough; and sums that are too large
        far = chance.choice((*SMALL, WIDEST))
        below = (-2 ** (8 * far - 1)).to_bytes(far, "little", signed=True)
        return chance.choice((run_of(b"\1", below), run_of(b"\1", below), run_of(b"\xFF" * WIDEST)))
    return b"\0"


def run_bytes(chance, room):
    """So many run bytes: a few runs, and how they end; behind that anything. Some have no run at all, and some are cut
    inside of one (24) by the end of the room."""
    refusal, runs = chance.choice(ENDS), b""
    end = random_end(refusal, chance)
    for _ in range(chance.choice((0, 0, 1, 1, 2, 3, 9))):
        more = random_run(chance)
        if len(runs) + len(more) + len(end) <= room:
            runs += more
    if refusal == 24:
        end = b""
        while len(runs) < room:
            runs += random_run(chance)
    return (runs + end + bytes(chance.randrange(256) for _ in range(room)))[:room]


# In records and tables.

def spans_of(record):
    """(where run bytes begin, how many they are) of each attribute that the raw walk of a record comes to."""
    for a in reading.walk(record, 0):
        if isinstance(a, reading.Attribute):
            try:
                found = reading.value(record, 0, a.offset)
            except reading.Refusal:
                continue
            if isinstance(found, reading.Runs):
                yield found.start, found.count


def in_record(record, chance):
    """A record with other run bytes in most of its attributes."""
    out = bytearray(record)
    for start, count in list(spans_of(record)):
        if chance.random() < 0.8:
            out[start:start + count] = run_bytes(chance, count)
    return bytes(out)


def in_table(text, chance):
    """A table with other run bytes in its base record and in some more; one that is malformed stays as it is."""
    try:
        t = reading.check_table(text)
    except reading.Refusal:
        return text
    out, rows = bytearray(text), list(range(t.count))
    chosen = [t.base] * (t.base < t.count) + chance.sample(rows, min(t.count, RECORDS - 1))
    for k in chosen:
        _, at = struct.unpack_from("<QI", out, t.directory + ROW_BYTES * k)
        out[at:at + t.size] = in_record(bytes(out[at:at + t.size]), chance)
    return bytes(out)


# In lines.

# a line that tells run bytes, and the runs under it
TOLD = re.compile(
    r"^(?:attr .* value runs \d+ \d+ size \d+|part [\d ]+)\n((?:(?:run \d+|run refused|hole) \d+\n)*)", re.MULTILINE)

# what run bytes may bring
KINDS = ("run", "hole", "no run", "whole", *("run refused %d" % number for number in (23, 24, 25, 26)))


def kinds_in(text):
    """The kinds that each line has under it which tells run bytes, one line's behind another's."""
    for told in TOLD.finditer(text.decode("ascii")):
        lines = told[1].splitlines()
        refused = lines[-1:] if lines and lines[-1].startswith("run refused ") else []
        runs = lines[:len(lines) - len(refused)]
        yield from {line.split(" ")[0] for line in runs}
        yield from refused or (["whole"] if runs else ["no run"])


def each_kind(texts, often=1):
    """How often each kind is met in these lines; one that is met less often ends the run: it would show nothing."""
    met = collections.Counter(kind for text in texts for kind in kinds_in(text))
    missing = [kind for kind in KINDS if met[kind] < often]
    if missing:
        sys.exit("hardly any run bytes are of these kinds: %s" % missing)
    return ", ".join("%s (%d)" % (kind, met[kind]) for kind in KINDS)
