"""`csictl vectors`: its line for each vector of a file, and files that it refuses."""

import os

from tests.support.csictl import IDENTITY, Line, READY, call, run, text
from tests.support.processes import write
from tests.support.rows import CsictlTest, each

PROBE, ANSWER = call(IDENTITY + "Probe", "").hex(), READY.hex()
# For each row: its name, the file, standard output, the number of the line that is no vector, and the status.
ROWS = [
    ("one", "probe %s %s\n" % (PROBE, ANSWER), "ok probe\n", None, 0),
    ("no last end of line, upper case", "probe %s %s" % (PROBE.upper(), ANSWER), "ok probe\n", None, 0),
    ("nothing of all", "none - -\n", "ok none\n", None, 0),
    ("comments and empty lines", "# probe\n\nnone - -\n", "ok none\n", None, 0),
    ("an output that differs", "probe %s 00\nnone - -\n" % PROBE, "FAIL probe\nok none\n", None, 1),
    ("an output that is longer", "probe %s %s00\n" % (PROBE, ANSWER), "FAIL probe\n", None, 1),
    ("an output that is shorter", "probe %s %s\n" % (PROBE, ANSWER[:-2]), "FAIL probe\n", None, 1),
    ("two words", "none - -\nprobe -\nnone - -\n", "ok none\n", 2, 2),
    ("four words", "none - - -\n", "", 1, 2),
    ("two spaces", "none  -\n", "", 1, 2),
    ("half a byte", "none 0 -\n", "", 1, 2),
    ("no digits", "none 0g -\n", "", 1, 2),
    ("a line that is no text", b"none - -\n\xff - -\n", "ok none\n", 2, 2),
    ("a comment that is no text", b"# \xff\nnone - -\n", "ok none\n", None, 0),
]


class VectorsTest(CsictlTest):
    def setUp(self):
        super().setUp()
        self.path = os.path.join(self.folder, "vectors")

    @each(ROWS)
    def test_each_vector_has_a_line(self, name, content, out, number, status):
        write(self.path, content if isinstance(content, bytes) else content.encode())
        error = "csictl: %s: line %d is no vector\n" % (self.path, number) if number else ""
        came = run([self.csictl, "vectors", self.path], input=b"")
        self.assertEqual(text(came), (out, error, status))

    def test_full_output_is_reported(self):
        write(self.path, b"none - -\n")
        with open("/dev/full", "wb") as full:
            came = run([self.csictl, "vectors", self.path], input=b"", stdout=full)
        self.assertEqual(came, (None, "csictl: a write to standard output failed\n", 5))

    def test_missing_file_is_reported(self):
        for path, shown in (self.path, self.path), ("", "''"):
            with self.subTest(path=shown):
                came = run([self.csictl, "vectors", path], input=b"")
                self.assertEqual(text(came), ("", Line("csictl: %s: " % shown), 5))

    def test_folder_is_reported(self):
        came = run([self.csictl, "vectors", self.folder], input=b"")
        self.assertEqual(text(came), ("", "csictl: %s: a read failed\n" % self.folder, 5))
