"""Holds what tells a base record and a reused record, as built, to cases that were written by hand and to the second
reading of the rules, on both sides of each line. Every question goes to the program `ask`: whether the base record is
one that is in use, its reference to a base record, and the hazards of its file. Fails at any difference."""
import struct

from lib import suite
from lib.building import (
    ENTRY_BYTES, FIRST, RESIDENT_BYTES, entry, head, list_of, non_resident, record, resident, table, with_used,
)
from lib.on_hazards import OPENING, Hazards, Question
from lib.reading import LIST, MARKER
from lib.reading.hazards import NONE, NotInUse, OtherBase, Reference, Sequence

# the base record's number and the sequence number of every record where nothing else is asked; where its first list's
# first entry stands
OWN, SEQUENCE, ENTRIES = 40, 7, FIRST + RESIDENT_BYTES

NUMBER_END = 2 ** 48

# where a record has its reference to a base record
BASE_AT = 32


def with_base(text, base):
    """A record with this reference to a base record."""
    return text[:BASE_AT] + struct.pack("<Q", base[0] + (base[1] << 48)) + text[BASE_AT + 8:]


def segment(*attributes, base=NONE, size=512, flags=1, sequence=SEQUENCE, **more):
    """A record with a reference to a base record: a base record in use, unless told otherwise."""
    return with_base(record(size, *attributes, flags=flags, sequence=sequence, **more), base)


def extension(base=Reference(OWN, SEQUENCE), **more):
    """A record that a base record's lists refer to: in use, and of record 40."""
    return segment(base=base, **more)


def list_to(*numbers, **more):
    """A list with an entry for each of these records, each by the sequence number that all of them have."""
    return list_of(*(entry(0x80, number, lowest=k) for k, number in enumerate(numbers)), **more)


def place_of(k, at=ENTRIES):
    """Where an entry of a list stands."""
    return at + ENTRY_BYTES * k


def length_of(attribute):
    """How long an attribute says that it is."""
    return struct.unpack_from("<I", attribute, 4)[0]


def with_all(base, number=OWN, **others):
    """A table of a base record and others, whose keys are `r` and their numbers."""
    return table({number: base, **{int(name[1:]): other for name, other in others.items()}}, number)


def sample():
    """A question of each kind of answer. rt ci runs the program on them."""
    unused = segment(list_to(41, 42, 43), flags=2, base=(5, 6))
    held = with_all(unused, r41=extension(flags=0), r42=extension((40, 8), sequence=9), r43=extension((39, 7), flags=0))
    sound = segment(list_to(41))
    return [
        Question(unused, held), Question(sound, with_all(sound, r41=extension())), Question(sound, held[:19]),
        Question(sound[:64], held), Question(with_used(sound, 513), held),
        Question(segment(magic=b"BAAD"), held, NUMBER_END),
    ]


# The base record itself.

def test_examples(test):
    """Whole answers in words."""
    one, other = segment(), segment(list_to(41, 42), flags=0, base=(300, 2))
    for text, made, others in (
        ("base 1 reference 0 0 hazards", one, {}),
        ("base 0 reference 300 2 hazards unused 40 other 40 300 2", segment(flags=0, base=(300, 2)), {}),
        ("base 0 reference 300 2 hazards unused 40 other 40 300 2 sequence 106 42 7 6 unused 41 other 41 41 7", other,
            {"r41": extension((41, 7), flags=0), "r42": extension(sequence=6)}),
        ("base 1 reference 0 0 hazards sequence 80 41 7 8", segment(list_to(41)), {"r41": extension(sequence=8)}),
    ):
        test.put_literal_question(text, Question(made, with_all(made, **others)))
    test.put_literal_question("refused 2 40 0", Question(segment(magic=b"FILF"), with_all(one)))


def test_in_use_is_the_lowest_bit(test):
    """Flag 0x0001 alone tells whether a record is in use, of the base record and of one referred to."""
    for flags in (0, 1, 2, 3, 4, 5, 0xFFFE, 0xFFFF, 0x0100, 0x0101, 0x8000, 0x8001):
        in_use = flags % 2 == 1
        made = segment(flags=flags)
        test.put_literal(made, with_all(made), [] if in_use else [NotInUse(OWN)], in_use=in_use)
        made = segment(list_to(41))
        held = with_all(made, r41=extension(flags=flags))
        test.put_literal(made, held, [] if in_use else [NotInUse(41)])


def test_a_base_record_has_no_base(test):
    """All eight bytes of the reference must be zero. Each of them, and each bit of it, is read."""
    for bit in range(64):
        at, byte = bit // 8, 1 << bit % 8
        base = Reference(1 << bit, 0) if bit < 48 else Reference(0, 1 << bit - 48)
        made = segment()
        made = made[:BASE_AT + at] + bytes((byte,)) + made[BASE_AT + at + 1:]
        test.put_literal(made, with_all(made), [OtherBase(OWN, *base)], in_use=False, base=base)
    # an extension of record 0 has number 0 too
    for base in ((0, 1), (0, 2 ** 16 - 1), (1, 0), (NUMBER_END - 1, 2 ** 16 - 1), (OWN, SEQUENCE), (OWN, 0)):
        made = segment(base=base)
        test.put_literal(made, with_all(made), [OtherBase(OWN, *base)], in_use=False, base=base)
    # the bytes on both sides of the reference tell nothing
    for at in (BASE_AT - 1, BASE_AT + 8):
        made = segment()
        made = made[:at] + b"\xFF" + made[at + 1:]
        test.put_literal(made, with_all(made), [])


def test_both_of_the_base_record(test):
    """That it is not in use comes before that it is another's."""
    for flags in (0, 1):
        for base in (NONE, Reference(0, 1), Reference(41, 0)):
            found = [NotInUse(OWN)] if flags == 0 else []
            found += [OtherBase(OWN, *base)] if base != NONE else []
            for number in (0, OWN, NUMBER_END - 1):
                made = segment(flags=flags, base=base)
                told = [hazard._replace(file=number) for hazard in found]
                test.put_literal(
                    made, with_all(made, number), told, number, in_use=flags == 1 and base == NONE, base=base)


# The entries.

def test_sequence_numbers(test):
    """An entry's is 0 or that of its record, or else a hazard: all 16 bits count."""
    for has in (0, 1, 7, 255, 256, 2 ** 15, 2 ** 16 - 1):
        for named in sorted({0, 1, has, (has + 1) % 2 ** 16, has ^ 0x100, has ^ 0x8000, max(has - 1, 0), 2 ** 16 - 1}):
            made = segment(list_of(entry(0x80, 41, sequence=named)))
            held = with_all(made, r41=extension(sequence=has))
            test.put_literal(made, held, [] if named in (0, has) else [Sequence(ENTRIES, 41, named, has)])


def test_entries_of_the_base_record(test):
    """An entry that names the base record is compared with the base record's own sequence number, whatever the table
    has under its number."""
    for named in (0, SEQUENCE, SEQUENCE + 1, 2 ** 16 - 1):
        made = segment(list_of(entry(0x80, OWN, sequence=named)))
        told = [] if named in (0, SEQUENCE) else [Sequence(ENTRIES, OWN, named, SEQUENCE)]
        test.put_literal(made, with_all(made), told)
        test.put_literal(made, with_all(segment(sequence=SEQUENCE + 1, flags=0, base=(3, 3))), told)
        test.put_literal(made, with_all(segment(), 39), told)


def test_each_entry_counts(test):
    """Of any type, unknown ones too, with a name anywhere and any lowest VCN; each is told at its place, twice if it
    stands twice."""
    types, at, entries, told = (0, 0x10, 0x20, 0x80, 0x11, 0x110, MARKER), ENTRIES, [], []
    for k, ty in enumerate(types):
        entries.append(entry(
            ty, 41, k, units=k % 3, lowest=2 ** 64 - 1 - k, sequence=20 + k, length=40, name_offset=26 + 2 * k))
        told.append(Sequence(at, 41, 20 + k, 3))
        at += 40
    made = segment(list_of(*entries))
    test.put_literal(made, with_all(made, r41=extension(sequence=3)), told)
    made = segment(list_to(41, 41, 42, 41))
    told = [Sequence(place_of(k), 41, 7, 3) for k in (0, 1, 3)]
    test.put_literal(made, with_all(made, r41=extension(sequence=3), r42=extension()), told)


def test_entries_of_several_lists(test):
    """Those of each list, as the raw walk comes to it, each at its place in the base record."""
    first, other, second = list_to(41), resident(0x80, length=40), list_to(42, 41)
    made = segment(first, other, second)
    held = with_all(made, r41=extension(sequence=1), r42=extension(sequence=2))
    behind = ENTRIES + length_of(first) + length_of(other)
    told = [Sequence(ENTRIES, 41, 7, 1), Sequence(behind, 42, 7, 2), Sequence(place_of(1, behind), 41, 7, 1)]
    test.put_literal(made, held, told)
    # the entries of an attribute that is no list are none
    made = segment(resident(0x80, length=80, count=26, inside=entry(0x80, 41)))
    test.put_literal(made, with_all(made, r41=extension(sequence=1, flags=0)), [])


def test_entries_that_are_cut(test):
    """One that is longer than what is left ends its list, and the lists behind it are walked."""
    cut = list_of(entry(0x80, 41), entry(0x80, 42, length=60), cut=1)
    made = segment(cut, list_to(43))
    held = with_all(made, **{"r%d" % n: extension(sequence=n) for n in (41, 42, 43)})
    told = [Sequence(ENTRIES, 41, 7, 41), Sequence(ENTRIES + length_of(cut), 43, 7, 43)]
    test.put_literal(made, held, told)


def test_what_can_not_be_looked_up(test):
    """17, 2 and 27 are no hazard, of an entry or of a record referred to; those beside it are told."""
    made = segment(list_to(41, 42))
    wrong = extension((5, 5), sequence=9, flags=0)
    behind = [Sequence(place_of(1), 42, 7, 9), NotInUse(42), OtherBase(42, 5, 5)]
    before = [Sequence(ENTRIES, 41, 7, 9), NotInUse(41), OtherBase(41, 5, 5)]
    bad = [b"BAAD" + wrong[4:], with_used(wrong, 513), with_used(wrong, 2 ** 32 - 1)]
    test.put_literal(made, with_all(made, r42=wrong), behind)
    test.put_literal(made, with_all(made, r41=wrong), before)
    test.put_literal(made, with_all(made), [])
    for other in bad:
        test.put_literal(made, with_all(made, r41=other, r42=wrong), behind)
        test.put_literal(made, with_all(made, r41=wrong, r42=other), before)
    # used to its length it is found
    test.put_literal(made, with_all(made, r41=with_used(wrong, 512)), before)


def test_the_first_refusal_stops_the_entries(test):
    """14, 15, 31 and 16, 3, 4, 5 and 28, and 7, 10, 11 and 13: nothing is told of what stands behind, neither of the
    entries nor of the records that they name, and the refusal is no hazard."""
    before, behind = list_to(41), list_to(42)
    held = {"r%d" % n: extension(sequence=n) for n in (41, 42, 43)}
    told = [Sequence(ENTRIES, 41, 7, 41)]
    at = FIRST + length_of(before)
    for bad in (
        list_of(entry(0x80, 43), cut=1), list_of(entry(0x80, 43, length=25)), list_of(entry(0x80, 43, units=2), cut=1),
        list_of(entry(0x80, 43, units=2, name_offset=40), cut=14), list_of(entry(0x80, 43, units=2, name_offset=25)),
        list_of(entry(0x80, 43, units=2, name_offset=27, length=30)),
        head(0x80, 15), head(0x80, 0), head(0x80, 512 - at + 1), head(LIST, MARKER), non_resident(LIST),
        resident(LIST, length=16, cut=True), resident(LIST, length=32, value=33), resident(LIST, length=32, count=9),
    ):
        made = segment(before, bad, behind)
        test.put_literal(made, with_all(made, **held), told)
    made = segment(before, behind, used=at + length_of(behind) - 1)
    test.put_literal(made, with_all(made, **held), told)
    made = segment(before, behind, used=at + length_of(behind))
    test.put_literal(made, with_all(made, **held), [*told, Sequence(at + RESIDENT_BYTES, 42, 7, 42)])
    # what a good entry before it in the list shows is told
    made = segment(list_of(entry(0x80, 41), entry(0x80, 42, length=25), entry(0x80, 43)), behind)
    test.put_literal(made, with_all(made, **held), told)


# The records that the lists refer to.

def test_references_back(test):
    """The number is the base record's, not all eight bytes are zero, and the sequence number is 0 or the base
    record's."""
    for number in (0, 1, OWN, NUMBER_END - 1):
        other_number = number ^ 1
        for own in (0, 1, SEQUENCE, 2 ** 16 - 1):
            for base in sorted({
                (number, own), (number, 0), (number, 1), (number, own ^ 1), (number, own ^ 0x100),
                (number, 2 ** 16 - 1), (other_number, own), (other_number, 0), (0, 0), (0, own),
                ((number + 2 ** 32) % NUMBER_END, own), (number ^ 2 ** 47, own),
            }):
                is_due = base[0] == number and base != (0, 0) and base[1] in (0, own)
                made = segment(list_to(300), sequence=own)
                held = with_all(made, number, r300=extension(base))
                test.put_literal(made, held, [] if is_due else [OtherBase(300, *base)], number)


def test_each_record_once(test):
    """In the order in which the entries first name them, and each once. The base record's own number is none."""
    made = segment(list_to(43, 41, OWN, 43), list_to(42, 41))
    unused = [NotInUse(n) for n in (43, 41, 42)]
    held = with_all(made, **{"r%d" % n: extension(flags=2) for n in (41, 42, 43)})
    test.put_literal(made, held, unused)
    other = [hazard for n in (43, 41, 42) for hazard in (NotInUse(n), OtherBase(n, n, 0))]
    held = with_all(made, **{"r%d" % n: extension((n, 0), flags=0) for n in (41, 42, 43)})
    test.put_literal(made, held, other)
    # a base record that is none itself is told once
    made = segment(list_to(OWN, OWN), flags=0, base=(41, 1))
    told = [NotInUse(OWN), OtherBase(OWN, 41, 1)]
    test.put_literal(made, with_all(made), told, in_use=False, base=(41, 1))


def test_the_order(test):
    """The base record's, then the entries', then the records'."""
    made = segment(list_to(42, 41), list_to(43), flags=0, base=(9, 9))
    held = with_all(made, **{"r%d" % n: extension((n, n), sequence=n, flags=2) for n in (41, 42, 43)})
    second = ENTRIES + length_of(list_to(42, 41))
    test.put_literal(made, held, [
        NotInUse(OWN), OtherBase(OWN, 9, 9), Sequence(ENTRIES, 42, 7, 42), Sequence(place_of(1), 41, 7, 41),
        Sequence(second, 43, 7, 43), NotInUse(42), OtherBase(42, 42, 42), NotInUse(41), OtherBase(41, 41, 41),
        NotInUse(43), OtherBase(43, 43, 43)], in_use=False, base=(9, 9))


def test_as_many_as_there_is_room_for(test):
    """153 entries, each with another record and a hazard, and two for each of their records; and 153 times the same."""
    numbers = tuple(range(1000, 1153))
    made = segment(list_to(*numbers), size=4096, first=42)
    wrong = segment(base=(1, 1), size=4096, sequence=8, flags=0)
    held = table({OWN: made, **{n: wrong for n in numbers}})
    told = [Sequence(66 + ENTRY_BYTES * k, n, 7, 8) for k, n in enumerate(numbers)]
    told += [hazard for n in numbers for hazard in (NotInUse(n), OtherBase(n, 1, 1))]
    test.put_literal(made, held, told)
    made = segment(list_to(*[41] * 153), size=4096, first=42)
    told = [Sequence(66 + ENTRY_BYTES * k, 41, 7, 8) for k in range(153)] + [NotInUse(41), OtherBase(41, 1, 1)]
    test.put_literal(made, table({OWN: made, 41: wrong}), told)


def test_opening(test):
    """21, 1, 2 and 27 of the file, and nothing else is told."""
    made = segment(list_to(41), flags=0, base=(1, 1))
    held = with_all(made)
    test.put_refused(made, held[:19], (21, 0, 0))
    test.put_refused(made, b"", (21, 0, 0))
    test.put_refused(made[:504], held, (1, OWN, 0))
    test.put_refused(made + bytes(8), held, (1, OWN, 0))
    test.put_refused(b"FILF" + made[4:], held, (2, OWN, 0))
    test.put_refused(with_used(made, 513), held, (27, OWN, 0))
    test.put_refused(b"BAAD" + with_used(made, 513)[4:], held, (2, NUMBER_END, 0), NUMBER_END)
    for size in (64, 72, 4088, 4096):
        made = segment(size=size)
        test.put_literal(made, with_all(made), [])


def ended(test):
    """Each refusal and each kind of hazard was told."""
    test.finish(OPENING)
    assert all(test.kinds.values()), test.kinds


main = suite.of(Hazards, ended)

if __name__ == "__main__":
    main()
