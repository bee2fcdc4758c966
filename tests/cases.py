"""Tests for `unittest` out of plain functions: each fails by what it raises."""

import os
import sys
import unittest


def choose_program():
    """Says to all who start the program which one that is: what follows `--program`, if that is among the words."""
    if "--program" in sys.argv[:-1]:
        os.environ["RIGHTS_SITE"] = os.path.abspath(sys.argv[sys.argv.index("--program") + 1])


class Skipped(unittest.SkipTest):
    """What a test needs is not on this machine."""


def named(test):
    """The name of the method that stands for a test."""
    return f"test_{test.__name__}"


def case(name, tests, setup=None):
    """A TestCase with a method for each of the tests, in their order. `setup` is called before the first of them."""
    methods = {named(test): lambda self, test=test: test() for test in tests}
    if setup is not None:
        methods["setUpClass"] = staticmethod(setup)
    made = type(name, (unittest.TestCase,), methods)
    made.order = list(map(named, tests))
    return made


def case_of_pairs(name, pairs):
    """The same of names and functions that answer why a test fails, or None."""
    tests = []
    for title, fault_of in pairs:

        def test(fault_of=fault_of):
            if (fault := fault_of()) is not None:
                raise AssertionError(fault)

        test.__name__ = "".join(letter if letter.isalnum() else "_" for letter in title)
        tests.append(test)
    return case(name, tests)
