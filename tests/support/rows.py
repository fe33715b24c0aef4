"""Tests whose cases are rows of data."""

import os
import pathlib
import re
import shlex
import shutil
import signal
import tempfile
import unittest
import warnings

from tests.support.processes import SECONDS, TOP, place, program, run, write
from tests.support.server import Server
from tests.support.tables import Tables

MOST_SHOWN = 300


def shown(part):
    """Returns a value as a text for a failure. Bytes are in hexadecimal, and a long text is cut off."""
    if isinstance(part, tuple):
        return "(%s)" % ", ".join(map(shown, part))
    text = "hex " + part.hex() if isinstance(part, bytes) else repr(part)
    return text if len(text) <= MOST_SHOWN else text[:MOST_SHOWN] + ".."


def fail_late(*_):
    raise TimeoutError("the test took too long")


def each(rows):
    """Returns a decorator that makes a test of each row. The columns are the parameters of the method, and
    the name of the test ends in the first column."""

    def mark(method):
        method.rows = [row if isinstance(row, tuple) else (row,) for row in rows]
        return method

    return mark


def test_of(method, row):
    def test(self):
        with self.subTest(name=row[0]):
            method(self, *row)

    test.__doc__ = method.__doc__
    return test


class RowTest(unittest.TestCase):
    """A class of tests. A method with `each` becomes a test for each row. Each test has a new folder, which
    is removed after the test, and fails after `longest` seconds."""

    longest = 10 * SECONDS

    def __init_subclass__(cls):
        for name, method in list(vars(cls).items()):
            for number, row in enumerate(getattr(method, "rows", ())):
                own = "%s_%s" % (name, re.sub(r"\W+", "_", str(row[0])).strip("_"))
                setattr(cls, own if own not in vars(cls) else "%s_%d" % (own, number), test_of(method, row))
            if hasattr(method, "rows"):
                delattr(cls, name)

    def setUp(self):
        folder = tempfile.TemporaryDirectory()
        self.addCleanup(folder.cleanup)
        self.folder = folder.name
        # The file with the lines of a server is closed only when the server object goes, and Python would
        # warn of this.
        warnings.simplefilter("ignore", ResourceWarning)
        signal.signal(signal.SIGALRM, fail_late)
        signal.alarm(self.longest)
        self.addCleanup(signal.alarm, 0)

    def check(self, name, got, want):
        """Fails the subtest `name` if `got` and `want` differ."""
        with self.subTest(name=name):
            if got != want:
                self.fail("got:  %s\nwant: %s" % (shown(got), shown(want)))


class FilesTest(RowTest):
    """A test that puts files into its folder: fixtures, or texts that it writes."""

    def put(self, fixture):
        """Copies a folder of tests/fixtures. Sources and lists of crates end in `.txt` there, since the gate
        takes other names as its own."""
        shutil.copytree(os.path.join(TOP, "tests", "fixtures", fixture), self.folder, dirs_exist_ok=True)
        for at, _, names in os.walk(self.folder):
            for name in names:
                if name.endswith((".rt.txt", ".txt.txt")):
                    os.rename(os.path.join(at, name), os.path.join(at, name.removesuffix(".txt")))

    def write(self, name, text):
        path = os.path.join(self.folder, name)
        os.makedirs(os.path.dirname(path), exist_ok=True)
        pathlib.Path(path).write_text(text, encoding="utf-8")

    def read(self, name):
        return pathlib.Path(self.folder, name).read_text(encoding="utf-8")


class CsidTest(RowTest):
    """A test of csid. `tables` is a file of tables and `config` the path of a configuration, both in the
    folder of the test. Neither file exists at first."""

    def setUp(self):
        super().setUp()
        self.csid = program("csid")
        self.tables, self.config = Tables(self.csid, self.folder), os.path.join(self.folder, "config.toml")

    def serve(self, *words, **how):
        """Starts a server over the tables, and returns it. The server ends with the test."""
        server = Server(self.csid, self.folder, *words, **how)
        self.addCleanup(server.end)
        return server

    def traced(self, *options):
        """Makes a program that runs csid under strace with these options. The system calls go to the file
        `trace` in the folder of the test. Returns the path of the program. Skips the test if strace cannot be
        run."""
        self.trace, path = (os.path.join(self.folder, name) for name in ("trace", "traced"))
        command = shlex.join(["strace", "-f", "-o", self.trace, *options, self.csid])
        write(path, b'#!/bin/sh\nexec %s "$@"\n' % command.encode())
        os.chmod(path, 0o755)
        if shutil.which("strace") is None or run([path, "--version"])[2] != 0:
            self.skipTest("strace cannot be run here")
        return path

    def configure(self, content):
        """Writes the configuration. Returns its path."""
        write(self.config, content)
        return self.config


class CsictlTest(CsidTest):
    def setUp(self):
        super().setUp()
        self.csictl = program("csictl")


class ProgramTest(RowTest):
    """A test of several programs. Their paths are set, but the programs may be missing."""

    def setUp(self):
        super().setUp()
        self.csid, self.front, self.csid_etcd = map(place, ("csid", "front", "csid-etcd"))
