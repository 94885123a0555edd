#!/usr/bin/env python3
"""Runs the tests of the Python package, over the program that the environment variable BLOSSOM
names, or the one that is built in this checkout; where there is none it ends at once, since each
call would begin to build it. Prints each failure and each test that is skipped, with the reason;
the last line is 'N passed, M failed, K skipped'; the status is 1 if a test failed or none ran.

Usage: run.py [--failfast] [NAME ..], as `run.py test_decoder`: the modules to run, all without
names. With --failfast it ends after the first failure."""
import glob
import os
import sys
import unittest

HERE = os.path.dirname(os.path.abspath(__file__))
PACKAGE = os.path.join(os.path.dirname(os.path.dirname(HERE)), "python")
# Libraries that tests shall find before those that are installed.
LIBRARIES = [path for path in [os.environ.get("BLOSSOM_TEST_LIBRARIES")] if path]
sys.path[:0] = [HERE, PACKAGE, *LIBRARIES]
os.environ["PYTHONPATH"] = os.pathsep.join(
    [PACKAGE, *LIBRARIES]
)  # for the processes that tests start


class Outcome(unittest.TestResult):
    """Counts what passed. A test that is skipped or fails in a part counts as that."""

    def __init__(self):
        super().__init__()
        self.passed = 0

    def addSuccess(self, test):
        super().addSuccess(test)
        self.passed += 1

    def failures_of_all(self):
        return (
            self.failures
            + self.errors
            + [(test, "it should have failed") for test in self.unexpectedSuccesses]
        )


def program():
    """The path of the program. Ends where there is none."""
    path = os.path.abspath(
        os.environ.get("BLOSSOM")
        or os.path.join(os.path.dirname(PACKAGE), "crates", "blossom", "out", "blossom")
    )
    if not os.path.exists(path):
        sys.exit("there is no program %s: ./blossom builds it" % path)
    return path


def main(names):
    os.environ["BLOSSOM"] = program()
    outcome = Outcome()
    outcome.failfast = names[:1] == ["--failfast"]
    names = names[1:] if outcome.failfast else names
    names = names or sorted(
        os.path.basename(path)[:-3] for path in glob.glob(os.path.join(HERE, "test_*.py"))
    )
    unittest.defaultTestLoader.loadTestsFromNames(names).run(outcome)
    for test, trace in outcome.failures_of_all():
        print("FAILED %s\n%s" % (test.id(), trace))
    for test, reason in outcome.skipped:
        print("SKIPPED %s: %s" % (test.id(), reason))
    failed = len(outcome.failures_of_all())
    print("%d passed, %d failed, %d skipped" % (outcome.passed, failed, len(outcome.skipped)))
    return 0 if failed == 0 and outcome.passed > 0 else 1


if __name__ == "__main__":
    sys.exit(main(sys.argv[1:]))
