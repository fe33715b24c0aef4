"""`csid --check-config` and `csid --check-tables`: what they print, and that they change nothing."""

import contextlib
import os
import pathlib
import shutil
import sqlite3
import subprocess
import threading

from tests.support.configs import FAULTS, LARGE_POOL, NODES, REFUSED, SAMPLE, pools, sample
from tests.support.frames import ASKED, CREATE_A, NO_MEMORY, VOLUME_1, WRITE_FAILED, controller, reply
from tests.support.processes import NOT_THERE, SECONDS, TOP, run, small_memory, write
from tests.support.rows import CsidTest, each
from tests.support.server import MISSING, WITHOUT
from tests.support.tables import A, NO_DATABASE, NO_FILE, Tables, volume


class CheckConfigTest(CsidTest):
    def check_config(self, text):
        self.configure(text)
        return run([self.csid, "--check-config", self.config])

    def line(self, why):
        return "csid: %s: %s\n" % (self.config, why)

    def test_configuration_is_summarized(self):
        summary = b"name pools.example.org, pools 2, nodes 2\n"
        for name, text, out, error in [
            ("the sample", SAMPLE, summary, ""),
            ("no nodes", sample((NODES, b"")), b"name pools.example.org, pools 2, nodes 0\n", ""),
            ("another name, and three pools more", sample((b"pools.example.org", b"a")) + pools(3),
             b"name a, pools 5, nodes 2\n", ""),
            ("an unknown key", b"zone = 3\n" + SAMPLE, summary, self.line("the key 'zone' is not known")),
        ]:
            with self.subTest(name=name):
                self.assertEqual(self.check_config(text), (out, error, 0))

    def test_each_fault_is_named(self):
        of_one = [(name, text, [line]) for name, text, line in REFUSED]
        for name, text, lines in FAULTS + [row for row in of_one if row[0] not in [it[0] for it in FAULTS]]:
            with self.subTest(name=name):
                self.assertEqual(self.check_config(text), (b"", "".join(map(self.line, lines)), 3))

    def test_missing_configuration_is_refused(self):
        missing = (b"", self.line(NOT_THERE), 3)
        self.assertEqual(run([self.csid, "--check-config", self.config]), missing)
        self.assertEqual(self.tables.new().check(self.config), missing)


class CheckTablesTest(CsidTest):
    """`csid --check-tables` changes nothing."""

    # The line about the tables that the calls of ASKED leave.
    SUMMARY = (b"volumes 1, attachments 0, next number 3, format 2\n", "", 0)

    def fill(self):
        """Makes tables with a volume, and a link to them."""
        self.tables.run(ASKED)
        self.linked = Tables(self.csid, self.folder, "linked.db")
        os.symlink(self.tables.path, self.linked.path)

    def check_kept(self, tables, *words, **how):
        """Checks tables, which must not change. Returns the output, the errors and the status."""
        kept = self.tables.files()
        came = tables.check(*words, **how)
        self.assertEqual(self.tables.files(), kept)
        return came

    def test_path_that_is_no_file_is_refused(self):
        for path, line in ("", "the path of the tables is empty"), (self.folder,
                                                                    self.folder
                                                                    + ": Is a directory (os error 21)"):
            with self.subTest(path=path):
                self.assertEqual(run([self.csid, "--check-tables", path]), (b"", "csid: %s\n" % line, 4))

    def test_missing_file_is_refused_and_not_made(self):
        self.assertEqual(self.check_kept(self.tables), self.tables.says(MISSING))
        self.assertEqual(self.tables.files(), {})

    def test_empty_file_is_refused(self):
        write(self.tables.path, b"")
        self.assertEqual(self.check_kept(self.tables), self.tables.says(WITHOUT))

    def test_tables_are_summarized_also_through_a_link(self):
        self.fill()
        for tables in self.tables, self.linked:
            with self.subTest(path=tables.path):
                self.assertEqual(self.check_kept(tables), self.SUMMARY)

    def test_full_output_is_reported(self):
        self.fill()
        with open("/dev/full", "wb") as full:
            self.assertEqual(self.check_kept(self.tables, stdout=full), (b"", WRITE_FAILED, 5))

    def test_lack_of_memory_is_reported(self):
        self.fill()
        self.assertEqual(self.check_kept(self.tables, preexec_fn=small_memory), (b"", NO_MEMORY, 6))

    def test_tables_that_the_wal_alone_drops_are_missing(self):
        self.tables.new()
        with contextlib.closing(sqlite3.connect(self.tables.path, isolation_level=None)) as connection:
            connection.executescript("DROP TABLE volumes; DROP TABLE attachments; DROP TABLE meta")
            self.assertEqual(self.tables.check(), self.tables.says(WITHOUT))

    def test_file_that_is_no_database_is_refused_through_a_link(self):
        self.fill()
        write(self.tables.path, b"x" * 5000)
        self.assertEqual(self.check_kept(self.linked), self.linked.says(NO_DATABASE))

    def test_journal_that_is_not_finished_is_refused(self):
        self.fill()
        write(self.tables.path + "-journal", b"\x01")
        for tables in self.tables, self.linked:
            with self.subTest(path=tables.path):
                self.assertEqual(self.check_kept(tables), tables.says(NO_FILE))

    def test_journal_that_is_finished_is_ignored(self):
        self.fill()
        write(self.tables.path + "-journal", b"\x00")
        self.assertEqual(self.check_kept(self.tables), self.SUMMARY)

    def test_tables_are_checked_while_they_are_served(self):
        """A check finds the volume that is only in the WAL, and changes nothing. The server continues."""
        self.fill()
        made = reply(VOLUME_1.replace(b"vol-1", b"vol-3"))
        streams = dict.fromkeys(("stdin", "stdout", "stderr"), subprocess.PIPE)
        server = subprocess.Popen(self.tables.command, bufsize=0, **streams)
        server.stdin.write(controller("CreateVolume", CREATE_A))
        self.assertEqual(server.stdout.read(len(made)), made)
        self.assertEqual(len(self.tables.files()), 2)
        summary = (b"volumes 2, attachments 0, next number 4, format 2\n", "", 0)
        for tables in self.tables, self.linked:
            with self.subTest(path=tables.path):
                self.assertEqual(self.check_kept(tables), summary)
        out = server.communicate(controller("ListVolumes"), timeout=SECONDS)[0]
        self.assertEqual(out.count(b"vol-3"), 1)

    def test_tables_of_format_1_are_summarized(self):
        config = self.configure(LARGE_POOL)
        for count in 0, 1, 1000:
            with self.subTest(volumes=count):
                shutil.copy(os.path.join(TOP, "tests", "stored", "format-1-%d.db" % count),
                            self.tables.clear().path)
                summary = b"volumes %d, attachments 0, next number %d, format 1\n" % (count, count + 1)
                self.assertEqual(self.check_kept(self.tables, config), (summary, "", 0))


def feed(path, contents, copies):
    """Writes what csid reads into the pipes at `path`: the head of the file and an empty journal, and for
    each copy the file, an empty WAL, the file again and an empty WAL. `copies` has for each copy the numbers
    of the two contents of the file. Each pipe is opened after the one before has ended."""
    reads = [("", contents[0][:105]), ("-journal", b"")]
    for before, after in copies:
        reads += [("", contents[before]), ("-wal", b""), ("", contents[after]), ("-wal", b"")]
    for ending, content in reads:
        pathlib.Path(path + ending).write_bytes(content)


class ChangingFileTest(CsidTest):
    """A file changes while `csid --check-tables` copies it."""

    def check_changing(self, copies):
        """Checks a file that changes. Each copy reads the file twice: `copies` has for each copy the numbers
        of the two contents. Returns the tables, and the result of the check."""
        contents = []
        for rows in A, A + volume(2, "'b'"):
            contents.append(pathlib.Path(self.tables.new().script(rows).path).read_bytes())
        self.assertEqual(len(contents[0]), len(contents[1]))
        tables = Tables(self.csid, self.folder, "changing.db")
        for ending in "", "-journal", "-wal":
            os.mkfifo(tables.path + ending)
        threading.Thread(target=feed, args=(tables.path, contents, copies), daemon=True).start()
        return tables, tables.check()

    @each([
        ("once", [(0, 1), (1, 1)], 2),
        ("twice", [(0, 1), (1, 0), (0, 0)], 1),
        ("nine times", [(0, 1)] * 9 + [(1, 1)], 2),
    ])
    def test_file_that_changes_is_copied_again(self, name, copies, count):
        tables, came = self.check_changing(copies)
        summary = b"volumes %d, attachments 0, next number 9, format 2\n" % count
        self.assertEqual(came, (summary, "", 0))
        tables.clear()

    def test_file_that_always_changes_is_given_up(self):
        tables, came = self.check_changing([(0, 1)] * 10)
        self.assertEqual(came, tables.says("it is written all the time"))
