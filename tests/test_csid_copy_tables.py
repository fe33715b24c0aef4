"""`csid --copy-tables` copies the tables of a file, as committed at one moment, into a new file."""

import contextlib
import os
import pathlib
import shutil
import sqlite3
import stat
import subprocess

from tests.support.frames import controller, reply
from tests.support.processes import SECONDS, TOP, no_byte, run
from tests.support.rows import CsidTest, each
from tests.support.tables import A, NEXT_9, NO_DATABASE, POOL, Tables, next_is, volume, volume_fault

ONE = b"volumes 1, attachments 0, next number 9, format 2\n"
NO_SUCH_FILE = "No such file or directory (os error 2)"
FILE_EXISTS = "File exists (os error 17)"
# A create of a volume with the name a, and its reply (docs/PROTOCOL.md, "Messages").
CREATE_A = bytes.fromhex("0a0161 1a060a001a020801")
VOLUME_1 = bytes.fromhex("0a24088080401205766f6c2d311a0a0a04706f6f6c120270312a0b0a090a047a6f6e65120161")


CONFIG = """
name = "pools.example.org"
vendor_version = "1.0.0"
default_bytes = 1048576
greatest_bytes = 1048576

[[pool]]
name = "p9"
bytes = 1048576
"""


def names(folder):
    return sorted(os.listdir(folder))


def content(path):
    return pathlib.Path(path).read_bytes()


class CopyTablesTest(CsidTest):
    def setUp(self):
        super().setUp()
        self.tables = Tables(self.csid, self.folder, "volumes.db")
        self.place = os.path.join(self.folder, "copies")
        os.mkdir(self.place)
        self.copied = Tables(self.csid, self.place, "copy.db")

    def copy(self, *words, to=None, **how):
        command = [self.csid, "--copy-tables", self.tables.path, "--to", to or self.copied.path]
        return run([*command, *words], **how)

    def refused(self, path, line):
        return b"", "csid: %s: %s\n" % (path, line), 4

    def test_copy_has_the_tables_and_needs_no_wal(self):
        self.tables.new().script(A)
        self.assertEqual(self.copy(), (ONE, "", 0))
        self.assertEqual(names(self.place), ["copy.db"])
        self.assertEqual(self.copied.rows(), self.tables.rows())

    def test_copy_can_be_served(self):
        self.tables.new().script(A)
        self.copy()
        self.assertEqual(self.copied.check(), (ONE, "", 0))
        self.assertEqual(self.copied.run(), (b"", "", 0))

    def test_only_the_owner_may_read_the_copy(self):
        self.tables.new()
        self.copy(umask=0)
        self.assertEqual(stat.S_IMODE(os.stat(self.copied.path).st_mode), 0o600)

    def test_file_is_not_changed(self):
        self.tables.new().script(A)
        before = self.tables.files()
        self.copy()
        self.assertEqual(self.tables.files(), before)

    def test_changes_in_the_wal_alone_are_copied(self):
        self.tables.new()
        writer = sqlite3.connect(self.tables.path, isolation_level=None)
        writer.execute("PRAGMA wal_autocheckpoint = 0")
        writer.executescript("BEGIN; %s COMMIT;" % A)
        # This transaction stays open, so its volume is not copied.
        writer.executescript("BEGIN; %s %s" % (volume(2, "'b'"), next_is(10)))
        self.assertEqual(self.copy(), (ONE, "", 0))
        writer.close()
        self.assertEqual(names(self.place), ["copy.db"])
        self.assertEqual(self.copied.ask("SELECT number, name FROM volumes"), [(1, "a")])

    def test_file_that_is_served_is_copied(self):
        self.tables.new()
        streams = dict.fromkeys(("stdin", "stdout", "stderr"), subprocess.PIPE)
        server = subprocess.Popen(self.tables.command, bufsize=0, **streams)
        made = reply(VOLUME_1)
        server.stdin.write(controller("CreateVolume", CREATE_A))
        self.assertEqual(server.stdout.read(len(made)), made)
        self.assertEqual(self.copy(), (b"volumes 1, attachments 0, next number 2, format 2\n", "", 0))
        out = server.communicate(controller("ListVolumes"), timeout=SECONDS)[0]
        self.assertEqual(out.count(b"vol-1"), 1)
        self.assertEqual(self.copied.ask("SELECT number, name FROM volumes"), [(1, "a")])

    def test_tables_of_format_1_are_copied_as_they_are(self):
        shutil.copy(os.path.join(TOP, "tests", "stored", "format-1-1.db"), self.tables.path)
        summary = b"volumes 1, attachments 0, next number 2, format 1\n"
        self.assertEqual(self.copy(), (summary, "", 0))
        self.assertEqual(self.copied.check(), (summary, "", 0))

    def test_file_that_exists_is_not_replaced(self):
        self.tables.new()
        pathlib.Path(self.copied.path).write_bytes(b"kept")
        self.assertEqual(self.copy(),
                         self.refused(self.copied.path, "it exists already, and is not replaced"))
        self.assertEqual(content(self.copied.path), b"kept")
        self.assertEqual(names(self.place), ["copy.db"])

    def test_name_that_comes_to_be_during_the_copy_is_not_replaced(self):
        """A dangling link is not an existing file, but it has the name."""
        self.tables.new()
        os.symlink("nowhere", self.copied.path)
        self.assertEqual(self.copy(), self.refused(self.copied.path, FILE_EXISTS))
        self.assertEqual(names(self.place), ["copy.db"])
        self.assertEqual(os.readlink(self.copied.path), "nowhere")

    def test_what_an_earlier_copy_left_is_not_replaced(self):
        self.tables.new()
        pathlib.Path(self.copied.path + ".new").write_bytes(b"kept")
        self.assertEqual(self.copy(), self.refused(self.copied.path + ".new", FILE_EXISTS))
        self.assertEqual(content(self.copied.path + ".new"), b"kept")
        self.assertEqual(names(self.place), ["copy.db.new"])

    def test_copy_without_a_folder_is_refused(self):
        self.tables.new()
        path = os.path.join(self.folder, "none", "copy.db")
        self.assertEqual(self.copy(to=path), self.refused(path + ".new", NO_SUCH_FILE))

    def test_empty_path_of_a_copy_is_refused(self):
        self.tables.new()
        command = [self.csid, "--copy-tables", self.tables.path, "--to", ""]
        self.assertEqual(run(command, cwd=self.place), self.refused("''", NO_SUCH_FILE))
        self.assertEqual(names(self.place), [])

    @each([("the WAL", "-wal"), ("the journal", "-journal")])
    def test_copy_beside_its_tables_is_refused(self, name, end):
        """The next opening would take the copy for its own file: over a WAL it writes, and a journal it
        refuses."""
        self.tables.new()
        with contextlib.suppress(FileNotFoundError):
            os.unlink(self.tables.path + end)
        kept = names(self.folder)
        os.symlink(".", os.path.join(self.folder, "link"))
        why = "'--to <COPY>' names the WAL or the journal of '--copy-tables <FILE>'"
        for to in self.tables.path + end, os.path.join(self.folder, "link", "volumes.db" + end):
            with self.subTest(to=to):
                self.assertEqual(self.copy(to=to), (b"", "csid: %s\n" % why, 2))
        self.assertEqual(names(self.folder), sorted([*kept, "link"]))

    def test_refused_tables_are_not_copied(self):
        self.tables.new().script(volume(1, pool="'p9'") + NEXT_9)
        out, err, status = self.copy()
        self.assertEqual((out, status), (b"", 4))
        self.assertEqual(err.split("\n")[-2], "csid: %s: %s" % (self.tables.path, volume_fault(1, POOL)))
        self.assertEqual(names(self.place), [])

    def test_configuration_judges_the_tables(self):
        config = os.path.join(self.folder, "config.toml")
        pathlib.Path(config).write_text(CONFIG)
        self.tables.new().script(volume(1, pool="'p9'") + NEXT_9)
        self.assertEqual(self.copy("--config", config), (ONE, "", 0))

    def test_missing_file_is_refused(self):
        missing = self.refused(self.tables.path, "there is no such file, and none is made")
        self.assertEqual(self.copy(), missing)
        self.assertEqual(names(self.place), [])

    def test_file_that_is_no_database_is_refused(self):
        pathlib.Path(self.tables.path).write_bytes(b"x" * 5000)
        self.assertEqual(self.copy(), self.refused(self.tables.path, NO_DATABASE))
        self.assertEqual(names(self.place), [])

    def test_full_disk_leaves_nothing(self):
        self.tables.new()
        words = [self.csid, "--copy-tables", self.tables.path, "--to", self.copied.path]
        out, err, status = run(words, preexec_fn=no_byte, restore_signals=False)
        self.assertEqual((out, status), (b"", 4))
        self.assertEqual(err, "csid: %s.new: File too large (os error 27)\n" % self.copied.path)
        self.assertEqual(names(self.place), [])

    def test_folder_of_the_copy_may_be_the_current_one(self):
        self.tables.new()
        came = self.copy(to="here.db", cwd=self.place)
        self.assertEqual(came, (b"volumes 0, attachments 0, next number 1, format 2\n", "", 0))
        self.assertEqual(names(self.place), ["here.db"])
