"""Holds the layer `runs`, as built, to the second reading of the rules, and both to the cases of tests/runs.py.

Every question goes to the program `ask`: `runs::step` on run bytes with any last start and any sum, and the whole of
`Runs::of` on a record. Every line that it writes is compared. Fails at any difference.
"""
import random

from lib import suite
from lib.building import PATTERN, with_used
from lib.on_runs import ALL, CALLS, OF_THE_OPENING, REFUSALS, STEP, Question, Runs, told_all, told_step
from lib.question import LAST
from lib.reading import Refusal
from lib.reading.runs import Run
from runs import CASES, MOST, RECORD, WIDEST, headers_of

# where the run bytes stand in a record, as far as nothing else is asked
PLACE = 64
# lengths of a record on both sides of what 1 allows, and those that a record may have
LENGTHS = (0, 56, 63, 64, 65, 72, 4088, 4096, 4104)
# numbers near the ends of their widths
EDGES = sorted({n for k in (0, 7, 8, 15, 16, 31, 32, 47, 48, 55, 56, 62, 63, 64)
                for n in (2 ** k - 2, 2 ** k - 1, 2 ** k, 2 ** k + 1) if 0 <= n <= LAST})

SEED = 20240917
RANDOM = 40_000


def record_of(text, place=PLACE, length=None, used=None):
    """A record of this length, or one with room for them, with these bytes at a place and others around them, so that
    one read too many shows. Its used size is its length unless it is told."""
    if length is None:
        length = -(-(place + len(text) + WIDEST) // 8) * 8
    record = (b"FILE" + PATTERN[4:place] + text + PATTERN[place + len(text):])[:length]
    return with_used(record, length if used is None else used)


def sized(number, width):
    """A number in so many bytes; a distance below 0 in two's complement."""
    return (number % 256 ** width).to_bytes(width, "little")


def run_bytes(length, wide, distance, far):
    """A run with numbers in so many bytes, as many as its header says."""
    return bytes((16 * far + wide,)) + sized(length, wide) + sized(distance, far)


def refusal_of(case, place):
    """What refuses a case whose bytes stand at a place, if anything does."""
    return Refusal(case.refused, RECORD, place + case.at) if case.refused else None


def sample():
    """Questions of each kind about the first cases. rt ci runs the program on them."""
    asked = []
    for case in (*CASES[:3], *(next(case for case in CASES if case.refused == number) for number in REFUSALS)):
        asked.append(Question(STEP, case.text, RECORD, PLACE, 10, 5))
        asked.append(Question(ALL, record_of(case.text), RECORD, PLACE, count=len(case.text)))
    return asked


# The cases.

def test_the_cases(test):
    """Each case by hand, as the runs of a record, at several places of it; a refusal is the last of them."""
    for case in CASES:
        for place in (PLACE, 65, 1024, 4096 - len(case.text)):
            record = record_of(case.text, place, 4096)
            answer = told_all([Run(*one) for one in case.runs], refusal_of(case, place))
            test.put_literal(answer, ALL, record, number=RECORD, place=place, count=len(case.text))


def test_the_cases_step_by_step(test):
    """Each case by hand, a step at a time: what each takes, and the last start and the sum that go on. At the end and
    at a refusal nothing is taken, and both stay."""
    for case in CASES:
        places, last, total = headers_of(case.text, case.at), 0, 0
        for k, (start, length) in enumerate(case.runs):
            given = {"number": RECORD, "place": PLACE + places[k], "last": last, "total": total}
            last, total = last if start is None else start, total + length
            answer = told_step(Run(start, length), last, total, places[k + 1] - places[k])
            test.put_literal(answer, STEP, case.text[places[k]:], **given)
        answer = told_step(refusal_of(case, PLACE), last, total, 0)
        for _ in range(2):
            test.put_literal(
                answer, STEP, case.text[case.at:], number=RECORD, place=PLACE + case.at, last=last, total=total)


def test_each_cut(test):
    """Every case with fewer bytes, as a step and as the runs of a record whose other bytes go on."""
    for case in CASES:
        record = record_of(case.text)
        for count in range(len(case.text) + 1):
            test.put(ALL, record, number=RECORD, place=PLACE, count=count)
            test.put(STEP, case.text[:count], number=RECORD, place=count)


# Each number of a question around what decides, the others fixed.

def test_each_header(test):
    """All 256 headers, with each number of bytes behind them up to one more than are wanted."""
    for header in range(256):
        size = 1 + header % 16 + header // 16
        text = bytes((header,)) + PATTERN[:size]
        for count in range(1, size + 2):
            test.put(STEP, text[:count], place=header)
            test.put(ALL, record_of(text), place=PLACE, count=count)


def test_last_and_sum(test):
    """26 on both sides of each bound, from any last start and any sum: also from those that no run leaves."""
    for last in EDGES:
        for distance in (-2 ** 63, -2 ** 62, -128, -1, 0, 1, 127, MOST):
            far = next(k for k in range(1, WIDEST + 1) if -256 ** k <= 2 * distance < 256 ** k)
            for width in {far, WIDEST}:
                test.put(STEP, run_bytes(1, 1, distance, width), last=last)
        # to 0, to the highest start, and one past each
        for start in (-1, 0, MOST, MOST + 1):
            if -2 ** 63 <= start - last <= MOST:
                test.put(STEP, run_bytes(1, 1, start - last, WIDEST), last=last)
        # a hole does not ask for it
        answer = told_step(Run(None, 5), last, 5, 2)
        test.put_literal(answer, STEP, b"\1\5", last=last)
    for total in EDGES:
        for length in (1, 255, *EDGES):
            for text in (run_bytes(length, WIDEST, 3, 1), run_bytes(length, WIDEST, 0, 0)):
                test.put(STEP, text, last=7, total=total)
        # the order of the tests: 23, 24 and 25 come before the sum
        for text in (b"", b"\0", b"\x10\5", b"\x11\5", b"\x11\0\5"):
            test.put(STEP, text, total=total)


def test_numbers_of_each_width(test):
    """Lengths and distances of each width, with each byte of them set alone, to its lowest and its highest bit."""
    for wide in range(1, WIDEST + 1):
        for far in range(WIDEST + 1):
            for at in range(wide + far):
                for byte in (1, 127, 128, 255):
                    numbers = bytearray(wide + far)
                    numbers[0] = 1
                    numbers[at] = byte
                    text = bytes((16 * far + wide,)) + numbers
                    for last in (0, 2 ** 62):
                        test.put(STEP, text, last=last)


def test_places(test):
    """Places and counts at, behind and far behind a record's end: only what the record has is read."""
    whole = b"".join(run_bytes(k + 1, 1, 1, 1) for k in range(21)) + b"\0"
    record = record_of(whole, 64, 128)
    for place in (*range(64, 140), 4096, 2 ** 32, LAST - 1, LAST):
        for count in (0, 1, 2, 3, 63, 64, 65, 128, 2 ** 32, LAST - place, LAST):
            test.put(ALL, record, place=place, count=count, number=LAST)
        test.put(STEP, b"\x10", place=place, number=LAST)


def test_records(test):
    """Checks 1, 2 and 27 come before the runs, and no other: they are read behind the used size too."""
    for length in LENGTHS:
        for magic in (b"FILE", b"FILF", b"BAAD"):
            for used in (length, length + 1, 2 ** 32 - 1, 0):
                record = (magic + record_of(b"\x11\5\n", 56, length, used)[4:])[:length]
                test.put(ALL, record, place=56, count=3)
    for used, answer in ((72, "run 10 5\nend"), (0, "run 10 5\nend"), (73, "refused 27 41 0\nend")):
        test.put_literal(answer, ALL, record_of(b"\x11\5\n", 64, 72, used), place=64, count=3)


def test_many_runs(test):
    """A record full of runs, of each size, and one of holes."""
    for text in (run_bytes(1, 1, 1, 1), run_bytes(1, 1, 0, 0), run_bytes(2 ** 40, 8, -3, 8), run_bytes(9, 2, 300, 3)):
        record = record_of(text * (4000 // len(text)), PLACE, 4096)
        for count in (len(text), 1000, 4000, 4032):
            test.put(ALL, record, place=PLACE, count=count)


# Bytes and numbers at random.

def random_text(chance):
    """Run bytes as they are written, or nearly so: numbers of few bytes as a rule, a byte changed now and then."""
    text = b""
    for _ in range(chance.randrange(6)):
        wide = chance.choice((1, 1, 1, 2, 3, 4, 8))
        far = chance.choice((0, 1, 1, 2, 3, 4, 8))
        text += run_bytes(chance.randrange(1, 256 ** wide), wide, chance.randrange(256 ** WIDEST), far)
    text += chance.choice((b"", b"\0", b"\0\0", chance.randbytes(chance.randrange(20))))
    if text and chance.random() < 0.3:
        at = chance.randrange(len(text))
        text = text[:at] + bytes((chance.choice((0, 1, 16, 17, 127, 128, 255)),)) + text[at + 1:]
    return text


def test_at_random(test):
    """Run bytes at random, from small and large starts and sums on, and as the runs of a record."""
    print("seed %d, %d run bytes" % (SEED, RANDOM))
    chance = random.Random(SEED)
    for _ in range(RANDOM):
        text = random_text(chance)
        last, total = (chance.choice((0, chance.randrange(2 ** 20), chance.choice(EDGES))) for _ in range(2))
        number, place = chance.choice(EDGES), chance.choice((0, 120, chance.choice(EDGES)))
        test.put(STEP, text, number=number, place=place, last=last, total=total)
        place = 8 * chance.randrange(8, 60)
        count = chance.choice((len(text), len(text), len(text) + chance.randrange(9)))
        test.put(ALL, record_of(text, place), number=number, place=place, count=count)


def ended(test):
    """Each call was asked, and each refusal given by each call."""
    test.finish(
        ["%s %d" % (call, number) for call in CALLS for number in REFUSALS]
        + ["%s %d" % (CALLS[ALL], number) for number in OF_THE_OPENING])


main = suite.of(Runs, ended)

if __name__ == "__main__":
    main()
