"""Runs the tests as `python3 -m unittest` does, but side by side.

usage: python3 -m tests [arguments of python3 -m unittest]

Each class of tests runs in a process of its own, at most one for each processor at a time. Failed tests are
run once more at the end, one after another, since a busy machine can delay a process for longer than a test
waits. If all pass then, the last lines name them (`second try: NAME`). They also give the reasons for skipped
tests (`left out: REASON (N tests)`).
"""

import collections
import sys
import unittest

from tests.support.runner import Runner


def name_of(test):
    """Returns the name of a test that failed, or None for a failure outside tests, such as in a class's
    setup."""
    return test.id() if isinstance(test, unittest.TestCase) else test.name


def failed(result):
    """Returns the names of the tests that failed, or none if there was a failure outside tests."""
    names = {name_of(test) for test, _ in result.failures + result.errors}
    return [] if None in names else sorted(names)


def passes_again(names):
    """Runs tests once more. Returns True if they pass, and False if there are none."""
    if not names:
        return False
    suite = unittest.defaultTestLoader.loadTestsFromNames(names)
    return unittest.TextTestRunner().run(suite).wasSuccessful()


def main():
    argv = ["python3 -m tests", *sys.argv[1:]]
    done = unittest.main(module=None, argv=argv, testRunner=Runner, exit=False).result
    names = failed(done)
    passed = done.wasSuccessful() or passes_again(names)
    sys.stderr.flush()
    if passed:
        for name in names:
            print("second try: " + name)
    for reason, count in sorted(collections.Counter(reason for _, reason in done.skipped).items()):
        print("left out: %s (%d test%s)" % (reason, count, "s" if count > 1 else ""))
    return 0 if passed else 1


if __name__ == "__main__":
    sys.exit(main())
