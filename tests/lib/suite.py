"""Finds the tests of a file, runs each of them once, and says how many ran.

A test is a function `test_..` at the top of a file tests/*.py, named by what it shows, with a sentence that says so.
The file ends with `main = suite.of(..)`, so that no list of tests is kept by hand: what is written is run.
"""
import ast
import inspect
import sys
import time

from lib import asking_tests

PREFIX = "test_"
COUNT = "tests that ran: %d"


def written_in(path):
    """The names of the tests in a file, in order, as its text has them: one that another of its name hides stands
    there twice."""
    with open(path, encoding="utf-8") as given:
        tree = ast.parse(given.read())
    return [node.name for node in tree.body if isinstance(node, ast.FunctionDef) and node.name.startswith(PREFIX)]


def run(module, names, made, ended):
    """Runs these tests of a file, or all of them, each with what `made` makes once, and says how many ran."""
    written = written_in(module["__file__"])
    if len(set(written)) != len(written):
        sys.exit("two tests of one name: %s" % sorted(name for name in written if written.count(name) > 1))
    unknown = [name for name in names if PREFIX + name not in written]
    if unknown:
        sys.exit("no such test: %s" % ", ".join(unknown))
    asker, ran, started = made(), 0, time.time()
    if not names and "sample" in module:
        asking_tests.hold(asker, module["sample"]())
    for name in written:
        if names and name.removeprefix(PREFIX) not in names:
            continue
        test = module[name]
        if not inspect.getdoc(test):
            sys.exit("%s does not say what it shows" % name)
        test(asker)
        if hasattr(asker, "flush"):
            # what a test gathered is asked before the next one, so that a difference is told of the test that it
            # belongs to
            asker.flush()
        ran += 1
    if not names:
        ended(asker)
    print("%.0f seconds" % (time.time() - started))
    print(COUNT % ran)


def of(made, ended):
    """The `main` of a file of tests: `made` makes what each test is handed, `ended` takes the account behind them
    all."""
    module = inspect.currentframe().f_back.f_globals

    def main(names=None):
        sys.stdout.reconfigure(line_buffering=True)
        run(module, sys.argv[1:] if names is None else names, made, ended)
    return main
