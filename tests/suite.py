#!/usr/bin/env python3
"""All tests of the program that ./test runs, by `unittest`:

    tests/suite.py [--program PATH] [-v] [-f] [-k PATTERN].. [NAME..]

`-k` selects those whose names contain the pattern, as Loopback or a_batch_travels; NAME is a group, as Loopback, or one
test of it, as Loopback.test_a_batch_travels. `--program` tries another build instead of ./rights-site; `-v` says how long
each test took, and `-f` stops at the first failure. Failures are printed as they come. The last line is 'N passed, M failed'.
"""

import os
import subprocess
import sys
import time
import traceback
import unittest

HERE = os.path.dirname(os.path.abspath(__file__))
TOP = os.path.dirname(HERE)
sys.path.insert(0, HERE)


def own_words(words):
    """Takes `--program PATH` from the words, and says to all who start the program which one that is. Without it, the
    program is built where it is not fresh: once, and not looked at before each start."""
    if "--program" in words[:-1]:
        place = words.index("--program")
        path = os.path.abspath(words[place + 1])
        del words[place : place + 2]
    else:
        # An empty script, so that it is built. It says itself what is missing.
        if subprocess.run([os.path.join(TOP, "rights-site"), "sim"], stdin=subprocess.DEVNULL).returncode != 0:
            sys.exit("tests/suite.py: there is no program; --program PATH tries another build")
        path = os.path.join(TOP, "crates", "rights_site", "out", "rights_site")
    os.environ["RIGHTS_SITE"] = path
    return words


class Results(unittest.TestResult):
    """Prints each failure as it comes, and counts."""

    def __init__(self, is_verbose):
        super().__init__()
        self.is_verbose, self.passed = is_verbose, 0

    def startTest(self, test):
        super().startTest(test)
        self.begun = time.monotonic()

    def say(self, test, text):
        print(f"{name_of(test)}: {text}", flush=True)

    def addSuccess(self, test):
        self.passed += 1
        if self.is_verbose:
            self.say(test, f"{time.monotonic() - self.begun:.2f} s")

    def addFailure(self, test, error):
        super().addFailure(test, error)
        self.say(test, f"FAILED: {error[1]}{where(error)}")

    def addError(self, test, error):
        super().addError(test, error)
        self.say(test, f"FAILED: {error[0].__name__}: {error[1]}{where(error)}")

    def addSkip(self, test, reason):
        super().addSkip(test, reason)
        self.say(test, f"skipped: {reason}")


def name_of(test):
    """The name of a test, without the module and the method's `test_`."""
    return ".".join(test.id().split(".")[-2:]).replace(".test_", ".")


def where(error):
    """The lines of the tests by which it came to an error, the last ones: ` (at web_limits.py:110, web_driver.py:82)`."""
    frames = [frame for frame in traceback.extract_tb(error[2]) if os.path.dirname(frame.filename) == HERE]
    places = [f"{os.path.basename(frame.filename)}:{frame.lineno}" for frame in frames]
    return f" (at {', '.join(places[-3:])})" if places else ""


class Runner:
    def __init__(self, verbosity=1, failfast=False, **_):
        self.is_verbose, self.failfast = verbosity > 1, failfast

    def run(self, tests):
        results = Results(self.is_verbose)
        results.failfast = self.failfast
        tests.run(results)
        failed = len(results.failures) + len(results.errors)
        print(f"{results.passed} passed, {failed} failed")
        return results


class Loader(unittest.TestLoader):
    """Tests in the order in which they stand."""

    def getTestCaseNames(self, case):
        found = set(super().getTestCaseNames(case))
        return [name for name in getattr(case, "order", sorted(found)) if name in found]


def load_tests(loader, *_):
    return unittest.TestSuite(loader.loadTestsFromTestCase(case) for case in CASES)


if __name__ == "__main__":
    if sys.argv[1:2] in (["-h"], ["--help"]):
        print(__doc__.strip())
        sys.exit(0)
    words = own_words(sys.argv[1:])
    import behind_nginx
    import builds
    import copy_checks
    import documents
    import ends
    import journal_refusals
    import journal_runs
    import journals
    import kills
    import lane_orders
    import lockstep
    import loopback
    import many_stocks
    import over_http
    import packages
    import power_cuts
    import program
    import repository
    import restarts
    import schedules
    import scripts
    import shops
    import silence
    import spares
    import timing
    import told_checks
    import tunnels
    import upgrades

    modules = [
        repository, documents, builds, copy_checks, lane_orders, program, journals, journal_runs, journal_refusals, told_checks,
        scripts, loopback, over_http, restarts, power_cuts, kills, upgrades, spares, ends, silence, timing, schedules,
        lockstep, shops, tunnels, behind_nginx, many_stocks, packages,
    ]  # fmt: skip
    CASES = [case for module in modules for case in module.CASES]
    for each in CASES:
        globals()[each.__name__] = each
    unittest.main(argv=[sys.argv[0], *words], testRunner=Runner, testLoader=Loader())
