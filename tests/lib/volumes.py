"""The tables of real volumes: tests/volumes, and those of tests/cases that were not made by hand."""
import glob
import os
import sys

from lib.programs import TESTS

FOLDER = os.path.join(TESTS, "volumes")


def read(path):
    with open(path, "rb") as given:
        return given.read()


def table_named(name):
    """A table of tests/volumes."""
    return read(os.path.join(FOLDER, name))


def named_tables(folder):
    """name -> table of a folder, in the order of their names. One without a table ends the run: it would compare
    nothing."""
    paths = sorted(glob.glob(os.path.join(folder, "*.tab")))
    if not paths:
        sys.exit("no tables (*.tab) in %s" % folder)
    return {os.path.basename(path): read(path) for path in paths}


def tables():
    """The tables of tests/volumes, in the order of their names."""
    return list(named_tables(FOLDER).values())
