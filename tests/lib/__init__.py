"""What the tests share: the built programs and the questions to them, builders of records and tables, the second
reading.

Tests are the files tests/*.py that have a `main`; nothing in here is one.
"""
import sys

# The tests check by `assert` too, and -O or PYTHONOPTIMIZE leaves those out: a test that checks nothing would pass.
if not __debug__:
    sys.exit("tests are not run under python3 -O or PYTHONOPTIMIZE: their checks would be left out")
