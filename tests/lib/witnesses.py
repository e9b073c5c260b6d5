"""What two other tools tell of the cluster runs of real volumes, in one form; and what is kept of it.

ntfsinfo (ntfs-3g) prints the runs of each attribute of a file that is not resident, and istat (sleuthkit) those of each
attribute of a record; both tell of each part on its own. tests/witnesses asks them, and keeps what they say in
tests/witness_runs.txt; tests/runs.py replays that without them. Runs are here as in lib.reading.runs, a start and a
length, and a hole has no start.
"""
import base64
import os
import re
import struct
import zlib
from typing import NamedTuple

from lib.programs import TESTS
from lib.reading.record import attribute_at, full

KEPT = os.path.join(TESTS, "witness_runs.txt")

# a boot sector: bytes of a sector, sectors of a cluster, and how large a record of the MFT is: clusters, or where it is
# below 0 the power of two of the bytes
BOOT = struct.Struct("<11xHB50xb")

# ntfsinfo: the line that begins an attribute, what is read of it, and a row of its runs: VCN, LCN, length
DUMPED = re.compile(r"^Dumping attribute .* \(0x([0-9a-f]+)\) from mft record (\d+) ", re.MULTILINE)
RESIDENT = re.compile(r"^\tResident:\s+Yes$", re.MULTILINE)
INSTANCE = re.compile(r"^\tAttribute instance:\s+(\d+) ", re.MULTILINE)
NAME = re.compile(r"^\tAttribute name:\t\t '(.*)'$", re.MULTILINE)
LOWEST = re.compile(r"^\tLowest VCN\s+(\d+) ", re.MULTILINE)
HIGHEST = re.compile(r"^\tHighest VCN:\s+(\d+) ", re.MULTILINE)
RUNS = re.compile(r"^\tRunlist:\tVCN\t\tLCN\t\tLength\n((?:\t\t\t.*\n)*)", re.MULTILINE)
ROW = re.compile(r"\t\t\t0x([0-9a-f]+)\t+(0x[0-9a-f]+|<\w+>)\t+0x([0-9a-f]+)")
HOLE, NOT_MAPPED = "<HOLE>", "<RL_NOT_MAPPED>"

# istat: the line that begins an attribute, and a run; what stands for no name, and behind a hole and what is in no run
HEADED = re.compile(r"Type: \S+ \((\d+)-\d+\) {3}Name: (.*?) {3}(Non-Resident|Resident).* size: (\d+)(?: {2}.*)?")
STARTED = re.compile(r" {2}Starting address: (\d+|X), length: (\d+) {2}(Sparse|Filler|)")
NO_NAME, SPARSE, FILLER = "N/A", "Sparse", "Filler"
# and what it says where it gives an attribute up
GIVEN_UP = "Error creating run lists"

# a listing: the lines that tell run bytes, with the name and type of the item that they belong to
ITEM = re.compile(r"attr (\d+) (\d+) (\d+) \d+ \d+ name (\d+) (\d+) value (.*)")
VALUE = re.compile(r"runs (\d+) (\d+) size \d+")
PART = re.compile(r"part (\d+) (\d+) (\d+) (\d+) (\d+)")
# a run under such a line, where the listing tells runs
RUN = re.compile(r"(?:run (\d+)|hole) (\d+)")
# and its other lines
OTHERS = re.compile(r"record \d+ size \d+|end reads \d+|stopped \d+ reads \d+")


class Attribute(NamedTuple):
    """What ntfsinfo tells of an attribute: its record, type, name and instance, and where it is not resident its
    VCNs."""

    record: int
    ty: int
    name: str
    instance: int
    resident: bool
    lowest: int
    highest: int


class Told(NamedTuple):
    """What istat tells of an attribute: its size in bytes, and its runs from VCN 0 on, FILLER being the start of what
    is in none."""

    size: int
    runs: list


class Answer(NamedTuple):
    """What is kept of a line of a listing: the record and the place of its run bytes, the attribute's lowest VCN, the
    run bytes; the runs that ntfsinfo tells, and how many clusters of them, from the first on, istat tells too."""

    record: int
    place: int
    vcn: int
    text: bytes
    runs: list
    by_istat: int


class Line(NamedTuple):
    """A line that tells run bytes: the attribute's record, type, instance and name, its lowest VCN, where its run bytes
    stand and how many they are, and the runs that are listed under it."""

    record: int
    ty: int
    instance: int
    name: str
    vcn: int
    place: int
    count: int
    listed: list


def sizes_in(boot):
    """The bytes of a cluster and of a record, by the sector that a volume begins with."""
    sector, count, power = BOOT.unpack(boot[:BOOT.size])
    cluster = sector * count
    return cluster, 2 ** -power if power < 0 else power * cluster


# What they print.

def mapped(lowest, rows):
    """The runs of ntfsinfo's rows. What it calls not mapped are other parts, in front and behind."""
    runs, vcn = [], 0
    for k, (at, start, length) in enumerate(rows):
        assert at == vcn, (at, vcn)
        vcn += length
        if start != NOT_MAPPED:
            runs.append((None if start == HOLE else int(start, 16), length))
        elif k == 0:
            assert length == lowest, (length, lowest)
        else:
            assert k == len(rows) - 1, (k, rows)
    assert lowest == 0 or rows[0][1] == NOT_MAPPED, lowest
    return runs


def told_by_ntfsinfo(text):
    """(lowest VCN, runs) of each attribute that is not resident in what `ntfsinfo -v` prints, by record, type and
    instance."""
    found, heads = {}, list(DUMPED.finditer(text))
    for head, next_head in zip(heads, [*heads[1:], None]):
        told = text[head.end():next_head.start() if next_head else None]
        listed = RUNS.search(told)
        if not listed:
            assert RESIDENT.search(told), told
            continue
        rows = [ROW.fullmatch(line).groups() for line in listed[1].splitlines()]
        lowest = int(LOWEST.search(told)[1])
        key = int(head[2]), int(head[1], 16), int(INSTANCE.search(told)[1])
        assert key not in found, key
        found[key] = lowest, mapped(lowest, [(int(at, 16), start, int(length, 16)) for at, start, length in rows])
    return found


def attributes_by_ntfsinfo(text):
    """The attributes in what `ntfsinfo -v` prints of a file."""
    found, heads = [], list(DUMPED.finditer(text))
    for head, next_head in zip(heads, [*heads[1:], None]):
        told = text[head.end():next_head.start() if next_head else None]
        name, resident = NAME.search(told), bool(RESIDENT.search(told))
        vcns = (0, 0) if resident else [int(form.search(told)[1]) for form in (LOWEST, HIGHEST)]
        found.append(Attribute(
            int(head[2]), int(head[1], 16), name[1] if name else "", int(INSTANCE.search(told)[1]), resident, *vcns))
    assert len({(a.record, a.ty, a.instance) for a in found}) == len(found), found
    return found


def told_by_istat(text):
    """What `istat -r` prints of each attribute that is not resident, by type and name, but for those that it gives
    up."""
    found, key = {}, None
    _, _, told = text.partition("\nAttributes:")
    for line in told.splitlines():
        head, row = HEADED.fullmatch(line), STARTED.fullmatch(line)
        if head:
            key = None
        if head and head[3] == "Non-Resident":
            key = int(head[1]), "" if head[2] == NO_NAME else head[2]
            assert key not in found, key
            found[key] = Told(int(head[4]), [])
        elif row:
            start, length, kind = row.groups()
            assert (start == "X") == (kind != ""), line
            start = {SPARSE: None, FILLER: FILLER}[kind] if kind else int(start)
            found[key].runs.append((start, int(length)))
        elif line == GIVEN_UP:
            # the line behind it has the reason
            del found[key]
        else:
            assert head or not line or key not in found, line
    return found


def behind(runs, clusters):
    """What is left of some runs behind so many clusters."""
    for k, (start, length) in enumerate(runs):
        if clusters < length:
            return [(start + clusters if isinstance(start, int) else start, length - clusters), *runs[k + 1:]]
        clusters -= length
    return []


def count_alike(runs, told):
    """How many clusters two lists tell alike, from the first on, however each is cut into runs."""
    ours, theirs = iter(runs), iter(told)
    here, there, count = next(ours, None), next(theirs, None), 0
    while here and there and here[0] == there[0]:
        both = min(here[1], there[1])
        count += both
        here = next(iter(behind([here], both)), None) or next(ours, None)
        there = next(iter(behind([there], both)), None) or next(theirs, None)
    return count


# What a listing has of it.

def lines_of(held, listing):
    """The lines of a listing that tell run bytes; `held` has the table's records by their numbers."""
    lines = []
    for text in listing.splitlines():
        item, part, one = (form.fullmatch(text) for form in (ITEM, PART, RUN))
        assert item or part or one or OTHERS.fullmatch(text), text
        if one:
            lines[-1].listed.append((one[1] and int(one[1]), int(one[2])))
        elif item:
            record, offset, ty, start, count = map(int, item.groups()[:5])
            name = held[record][start:start + count].decode("utf-16-le")
            runs = VALUE.fullmatch(item[6])
            if runs:
                # the line does not tell its VCN
                vcn = full(held[record], record, offset).lowest
                instance = attribute_at(held[record], record, offset).instance
                lines.append(Line(record, ty, instance, name, vcn, *map(int, runs.groups()), []))
        elif part:
            record, offset, vcn, start, count = map(int, part.groups())
            instance = attribute_at(held[record], record, offset).instance
            lines.append(Line(record, ty, instance, name, vcn, start, count, []))
    return lines


# What is kept.

def text_of(answer):
    """The lines of an answer."""
    lines = ["bytes %d %d %d %s" % (answer.record, answer.place, answer.vcn, answer.text.hex())]
    lines += ["hole %d" % length if start is None else "run %d %d" % (start, length) for start, length in answer.runs]
    return "".join(line + "\n" for line in [*lines, "istat %d" % answer.by_istat])


def answers_in(text):
    """The answers in such lines."""
    answers = []
    for line in text.splitlines():
        word, *rest = line.split(" ")
        if word == "bytes":
            answers.append(Answer(*map(int, rest[:3]), bytes.fromhex(rest[3]), [], 0))
        elif word == "istat":
            answers[-1] = answers[-1]._replace(by_istat=int(rest[0]))
        else:
            assert word in ("run", "hole"), line
            start, length = rest if word == "run" else (None, *rest)
            answers[-1].runs.append((None if start is None else int(start), int(length)))
    return answers


def packed(name, text):
    """The line that keeps the answers to a table."""
    return "table %s %s\n" % (name, base64.b64encode(zlib.compress(text.encode("ascii"), 9)).decode("ascii"))


def kept(path=KEPT):
    """name of a table -> the lines that are kept of it."""
    found = {}
    with open(path, encoding="ascii") as given:
        for line in given:
            if not line.startswith("#"):
                _, name, text = line.split(" ")
                found[name] = zlib.decompress(base64.b64decode(text)).decode("ascii")
    return found
