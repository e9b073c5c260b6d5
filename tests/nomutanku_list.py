"""Tests of `nomutanku list` as built: its listings, byte for byte.

They are held to the program `listing` and to the kept files on every table of tests/cases and tests/volumes; on
damaged tables to `listing` and to the second reading; and to that on tables of any size, and with --base.
"""
import random
import subprocess

import cases
import listing_cases
from lib import by_members, inputs, on_nomutanku, programs, random_runs, running, suite
from lib.inputs import full_table
from lib.on_nomutanku import REFUSED, Nomutanku, status_of, whole
from lib.reading.listing import MOST

SEED = 20240620
DAMAGED = 1000


def listed(text):
    """What the program `listing` writes of these bytes: it takes no more than MOST."""
    run = subprocess.run(
        programs.command("listing"), input=text, stdout=subprocess.PIPE, stderr=subprocess.DEVNULL,
        timeout=running.DEADLINE)
    return run.stdout


def hold_all(test, text, expected):
    """The command on a file and by standard input, and the program `listing`, on one table."""
    test.holds("list", text, expected)
    test.by_standard_input("list", text, expected)
    test.same((listed(text),), expected if len(text) <= MOST else REFUSED)


def test_kept_listings(test):
    """Every case and every real table has its kept listing; a longer one than `listing` takes is listed here."""
    tables = [pair for folder in (cases.FOLDER, cases.OTHERS) for pair in cases.kept(folder).values()]
    test.each(lambda pair: hold_all(test, pair[0], pair[1] if len(pair[0]) <= MOST else whole(pair[0])), tables)
    print("%d tables of tests/cases and tests/volumes" % len(tables))


def test_the_sample(test):
    """What rt ci runs the command on is a table with runs, one that is refused and one from standard input; what it
    must write then is what tests/make_cases writes."""
    expected = b"".join(on_nomutanku.sample())
    assert b"\nrun " in expected and b"\ntable -\n" in expected and REFUSED in expected
    test.same((running.read(on_nomutanku.CRATE, "stdout"),), expected)


def test_damaged_tables(test):
    """Of a damaged table, of a front of one and of a whole one, two programs and the second reading tell the same."""
    tables = [text for text, _ in inputs.tables(DAMAGED, random.Random(SEED))]
    test.each(lambda text: hold_all(test, text, whole(text)), tables)
    listings = [whole(text) for text in tables]
    refused, long = listings.count(REFUSED), sum(len(text) > MOST for text in tables)
    assert DAMAGED // 20 < refused < DAMAGED // 3 and long > DAMAGED // 10, (refused, long)
    print("%d damaged tables of seed %d, %d of them malformed, %d longer than the program listing takes"
          % (DAMAGED, SEED, refused, long))
    print("runs: %s" % random_runs.each_kind(listings, DAMAGED // 100))


def test_damaged_tables_by_number(test):
    """The same tables, asked for a record by its number: of the first row, of a row, and of none."""
    tables = list(inputs.tables(DAMAGED, random.Random(SEED)))

    def hold(pair):
        text, (first, *others) = pair
        test.holds("list", text, whole(text, first), "--base", str(first))
        for number in others:
            expected = whole(text, number)
            test.same(test.on_file("list", text, "--base", str(number)), status_of(expected), expected)

    test.each(hold, tables)
    print("%d questions by number" % sum(len(numbers) for _, numbers in tables))


def test_a_table_of_any_size(test):
    """Past the limit of 65,536 bytes: 4,096 rows of 4,096 bytes. The last row's record is found by its number."""
    text = full_table(4096, 4096)
    assert len(text) > 16 * 2 ** 20
    expected = whole(text)
    assert expected.startswith(b"record 0 size 4096\n") and expected.count(b"\npart ") == 99, expected[:200]
    test.holds("list", text, expected)
    test.by_standard_input("list", text, expected)
    expected = whole(text, 4095)
    test.same(test.on_file("list", text, "--base", "4095"), 0, expected)


def test_the_most_lines(test):
    """The longest listing that we found for a base record of 4,096 bytes, as text and in JSON."""
    table, count = listing_cases.most_lines()
    expected = whole(table)
    assert expected.count(b"\n") == count
    test.same(test.on_file("list", table), 0, expected)
    status, out = test.on_file("list", table, "--json")
    holes = listing_cases.MOST_ENTRIES * listing_cases.MOST_HOLES
    test.same((status, out.count(b"\n"), out.count(b'{"line":"hole",')), 0, count, holes)
    test.same((by_members.text_of(out),), expected)


main = suite.of(Nomutanku, Nomutanku.finish)

if __name__ == "__main__":
    main()
