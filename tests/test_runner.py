"""`python3 -m tests` and the comparisons of the tests report each failure."""

import os
import shutil
import socket
import subprocess
import sys
import unittest

from tests.support.csictl import Line
from tests.support.processes import SECONDS, TOP, Shown, has_ended
from tests.support.rows import FilesTest, RowTest, each

# A module with two tests. One is skipped. The other fails in its first run or in both runs, or ends its
# process.
MODULE = """import os
import unittest


class SomeTest(unittest.TestCase):
    def test_first(self):
        self.skipTest("a tool is not here")

    def test_rows(self):
        with open("runs", "a") as file:
            file.write("x")
        for row in 1, 2:
            with self.subTest(row):
                self.assertGreater(os.path.getsize("runs"), %s)
"""


class RunnerTest(FilesTest):
    def run_tests(self, last):
        """Runs `python3 -m tests` over one module. Returns the status, standard output and standard error."""
        shutil.copytree(os.path.join(TOP, "tests", "support"), os.path.join(self.folder, "tests", "support"))
        for name in ["__init__.py", "__main__.py"]:
            shutil.copy(os.path.join(TOP, "tests", name), os.path.join(self.folder, "tests"))
        self.write("tests/test_some.py", MODULE % last)
        done = subprocess.run([sys.executable, "-B", "-m", "tests"], cwd=self.folder, capture_output=True,
                              text=True, timeout=SECONDS)
        return done.returncode, done.stdout, done.stderr

    def test_test_that_fails_once_is_run_again_and_named(self):
        said = "second try: tests.test_some.SomeTest.test_rows\nleft out: a tool is not here (1 test)\n"
        self.assertEqual(self.run_tests("1")[:2], (0, said))

    def test_test_that_fails_twice_is_a_failure(self):
        status, out, error = self.run_tests("2")
        self.assertEqual((status, out), (1, "left out: a tool is not here (1 test)\n"))
        self.assertIn("FAIL: test_rows (tests.test_some.SomeTest.test_rows)", error)

    def test_process_that_ends_within_a_test_is_a_failure(self):
        status, _, error = self.run_tests("os._exit(3)")
        self.assertEqual(status, 1)
        self.assertIn("its process ended with status 3\n", error)


class ComparisonTest(RowTest):
    def faults_of(self, pair):
        """Returns the number of failed rows in a test that compares this pair."""

        class OneRow(RowTest):
            def runTest(self):
                self.check("a pair", *pair)

        result = unittest.TestResult()
        OneRow().run(result)
        return len(result.failures) + len(result.errors)

    def test_rows_that_differ_fail(self):
        for pair, count in [((1, 1), 0), ((b"", b""), 0), ((1, 2), 1), ((b"", ""), 1), (((1, 0), (1, 1)), 1)]:
            self.assertEqual(self.faults_of(pair), count)

    def test_texts(self):
        line, lines = Line("csid: ", "one", "two"), Shown(b"one", b"two")
        for name, is_equal, wanted in [
            ("a line", line == "csid: two, one\n", True),
            ("another begin", line == "csictl: two, one\n", False),
            ("a part less", line == "csid: two\n", False),
            ("two lines", line == "csid: two\none\n", False),
            ("a part of the begin alone", Line("csid: ", "csid") == "csid: one\n", False),
            ("lines", lines == b"one two\n", True),
            ("one part of lines", lines == b"one\n", False),
            ("lines without an end", lines == b"one two", False),
        ]:
            self.check(name, is_equal, wanted)

    @each([
        ("at once", b"", (0, 10), True),
        ("too early", b"", (5, 10), False),
        ("too late", b"", (0, 0), False),
        ("not at all", b"x", (0, 10), False),
    ])
    def test_connection_has_ended_where_nothing_comes_in_the_given_time(self, name, given, within, wanted):
        one, other = socket.socketpair()
        with one, other:
            one.sendall(given)
            one.close()
            self.check(name, has_ended(other, within), wanted)
