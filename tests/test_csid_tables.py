"""Volumes in a file: changes outlive the process, and files without tables of csid are refused."""

import os
import shutil
import subprocess

from tests.support.configs import SAMPLE
from tests.support.frames import (ANSWERED, ASKED, BLOCK, CREATE_A, CREATE_B, NO_MEMORY, ONE, PROBE, READY,
                                  VOLUME_1, VOL_1, WRITER, WRITE_FAILED, controller, fault, frame, refusal,
                                  reply)
from tests.support.processes import (DENIED, NOT_THERE, SECONDS, copy_for_nobody, read, run, small_memory,
                                     write)
from tests.support.rows import CsidTest, each
from tests.support.server import EMPTIED, KILLED, MISSING, Server, WITHOUT
from tests.support.tables import A, DAMAGED, LOCKED, MIB, NO_DATABASE, NO_FILE, OTHER_TABLES, Tables


def first_page():
    """Returns a database of one page without tables ("Database File Format" of SQLite, 1.3 and 1.6), in WAL
    mode."""
    page = bytearray(1024)
    for at, text in [
        (0, b"SQLite format 3\0".hex()),
        (16, "0400 02 02 00 40 20 20"),
        (28, "00000001"),
        (44, "00000004"),
        (56, "00000001"),
        (96, "002e7688"),
        (100, "0d"),
        (105, "0400"),
    ]:
        content = bytes.fromhex(text)
        page[at : at + len(content)] = content
    return bytes(page)


CREATE, LISTING = controller("CreateVolume", CREATE_A), controller("ListVolumes")
DELETE = controller("DeleteVolume", VOL_1)
VOLUME_2 = VOLUME_1.replace(b"vol-1", b"vol-2")


def page_of(volume):
    """Returns the reply to ListVolumes with one volume without attachments."""
    return reply(bytes.fromhex("0a28") + volume + bytes.fromhex("1200"))


class DurabilityTest(CsidTest):
    def test_new_file_has_no_rows(self):
        self.assertEqual(self.tables.run(), (b"", "", 0))
        counts = "SELECT (SELECT count(*) FROM volumes), (SELECT count(*) FROM attachments), * FROM meta"
        self.assertEqual(self.tables.ask(counts), [(0, 0, 1, 2, 1)])

    def test_rows_are_those_of_the_calls(self):
        self.assertEqual(self.tables.run(ASKED), (ANSWERED, "", 0))
        row = (2, "b", 3 * MIB, "p2", bytes.fromhex("1a060a001a020801"), b"")
        self.assertEqual(self.tables.ask("SELECT * FROM volumes"), [row])
        self.assertEqual(self.tables.ask("SELECT * FROM meta"), [(1, 2, 3)])

    def test_same_create_in_the_next_run_returns_the_volume(self):
        self.assertEqual(self.tables.run(CREATE), (reply(VOLUME_1), "", 0))
        self.assertEqual(self.tables.run(CREATE + LISTING), (reply(VOLUME_1) + page_of(VOLUME_1), "", 0))

    def test_attachment_outlives_the_process(self):
        publish = controller("ControllerPublishVolume", VOL_1 + bytes.fromhex("12026e31") + BLOCK)
        self.tables.run(CREATE)
        self.assertEqual(self.tables.run(publish), (reply(WRITER), "", 0))
        row = (1, "n1", bytes.fromhex("1a060a001a020801"), 0)
        self.assertEqual(self.tables.ask("SELECT * FROM attachments"), [row])
        self.assertEqual(self.tables.run(DELETE), (refusal(9, "volume is in use"), "", 0))
        unpublish = controller("ControllerUnpublishVolume", VOL_1)
        self.assertEqual(self.tables.run(unpublish + DELETE), (reply(b"") * 2, "", 0))
        self.assertEqual(self.tables.run(LISTING), (reply(b""), "", 0))
        self.assertEqual(self.tables.ask("SELECT count(*) FROM attachments"), [(0,)])

    def test_number_of_a_deleted_volume_is_not_given_again(self):
        self.tables.run(CREATE + DELETE)
        self.assertEqual(self.tables.run(CREATE + LISTING), (reply(VOLUME_2) + page_of(VOLUME_2), "", 0))

    def test_file_has_all_changes_after_an_end(self):
        """The WAL then has no frame, and SQLite can read the file."""
        self.tables.run(CREATE)
        self.assertEqual(sorted(os.listdir(self.folder)), ["volumes.db", "volumes.db-wal"])
        self.assertLess(os.path.getsize(self.tables.path + "-wal"), 100)
        copy = Tables(self.csid, self.folder, "copy.db")
        shutil.copy(self.tables.path, copy.path)
        self.assertEqual(copy.run(LISTING), (page_of(VOLUME_1), "", 0))
        for pragma, value in ("page_size", 1024), ("integrity_check", "ok"), ("journal_mode", "wal"):
            self.assertEqual(self.tables.ask("PRAGMA " + pragma), [(value,)])
        self.assertEqual(self.tables.run(CREATE), (reply(VOLUME_1), "", 0))

    def test_change_before_a_malformed_frame_is_kept(self):
        out, error, status = fault("bad path length at byte 49")
        self.assertEqual(self.tables.run(CREATE + b"\0\0"), (reply(VOLUME_1) + out, error, status))
        self.assertEqual(self.tables.run(LISTING), (page_of(VOLUME_1), "", 0))

    def test_change_whose_reply_cannot_be_written_is_kept(self):
        with open("/dev/full", "wb") as full:
            came = self.tables.run(controller("CreateVolume", CREATE_B), stdout=full)
        self.assertEqual(came, (b"", WRITE_FAILED, 5))
        self.assertEqual(self.tables.ask("SELECT number, name FROM volumes"), [(1, "b")])

    def test_lack_of_memory_is_reported(self):
        self.tables.run(CREATE)
        came = self.tables.run(frame(PROBE), preexec_fn=small_memory)
        self.assertEqual(came, (b"", NO_MEMORY, 6))


class FirstPageTest(CsidTest):
    """An empty file gets pages of 1,024 bytes. In any other file no byte is written before it is accepted."""

    def check_made(self):
        self.assertEqual(self.tables.run(frame(PROBE)), (READY, "", 0))
        self.assertEqual(self.tables.ask("PRAGMA page_size"), [(1024,)])

    @each([("an empty file", b""), ("a byte of 0", b"\0"), ("a page of them", bytes(1024))])
    def test_file_without_content_gets_small_pages(self, name, content):
        write(self.tables.clear().path, content)
        self.check_made()

    @each([1, 15, 16, 17, 99, 100, 101, 107, 108, 109, 511, 512, 513, 1023, 1024])
    def test_file_with_a_part_of_the_first_page_gets_small_pages(self, size):
        """csid was killed while it wrote the page."""
        write(self.tables.clear().path, first_page()[:size])
        self.check_made()

    def test_file_with_other_content_is_refused_and_kept(self):
        page = first_page()
        for name, content in [
            ("more than a page", bytes(1025)),
            ("another byte after them", bytes(1023) + b"\1"),
            ("another byte in a part of its first page", page[:14] + b"4" + page[15:18]),
            ("a header of other pages", b"SQLite format 3\0\2\0"),
            ("bytes of 0, and then a part of its first page", bytes(16) + page[16:512]),
        ]:
            with self.subTest(name=name):
                write(self.tables.clear().path, content)
                self.assertEqual(self.tables.run(frame(PROBE)), self.tables.says(NO_DATABASE))
                self.assertEqual(read(self.tables.path), content)

    def test_empty_wal_of_a_missing_file_is_no_hindrance(self):
        write(self.tables.path + "-wal", bytes(32))
        self.check_made()

    def test_one_of_many_that_start_at_once_makes_the_file(self):
        """Each of the others serves this file, too, or reports that it is locked."""
        streams = dict.fromkeys(("stdin", "stdout", "stderr"), subprocess.PIPE)
        made = READY, "", 0
        for _ in range(5):
            self.tables.clear()
            many = [subprocess.Popen(self.tables.command, **streams) for _ in range(12)]
            outs = [one.communicate(frame(PROBE), timeout=SECONDS) for one in many]
            came = {(out, error.decode(), one.returncode) for one, (out, error) in zip(many, outs)}
            self.assertIn(made, came)
            self.assertEqual(came - {made, self.tables.says(LOCKED)}, set())
            self.assertEqual(sorted(os.listdir(self.folder)), ["volumes.db", "volumes.db-wal"])
            self.assertEqual(self.tables.ask("PRAGMA integrity_check"), [("ok",)])
            self.assertEqual(self.tables.ask("PRAGMA page_size"), [(1024,)])


class OtherFilesTest(CsidTest):
    def probe(self, path, *words):
        """Runs `csid pipe` with a Probe over the file at a path. Returns the output, the errors and the
        status."""
        command = [self.csid, "pipe", "--tables", path, *words]
        return run(command, input=frame(PROBE), cwd=self.folder)

    @each([b"", b"x"])
    def test_file_of_at_most_one_byte_gets_tables(self, content):
        write(self.tables.clear().path, content)
        self.assertEqual(self.tables.run(frame(PROBE)), (READY, "", 0))

    @each([
        ("two bytes", b"xy"),
        ("many bytes", b"x" * 5000),
        ("text that begins as a database", b"SQLite format 3 is what this is about\n" * 200),
        ("zeros", bytes(8192)),
    ])
    def test_file_that_is_no_database_is_refused_and_kept(self, name, content):
        write(self.tables.clear().path, content)
        self.assertEqual(self.tables.run(frame(PROBE)), self.tables.says(NO_DATABASE))
        self.assertEqual(read(self.tables.path), content)

    def test_tables_of_another_program_are_refused_and_kept(self):
        self.tables.script("CREATE TABLE notes (a); INSERT INTO notes VALUES ('mine')")
        self.assertEqual(self.tables.run(frame(PROBE)), self.tables.says(OTHER_TABLES))
        self.assertEqual(self.tables.ask("SELECT * FROM notes"), [("mine",)])

    def test_database_without_tables_gets_them(self):
        self.tables.script("PRAGMA user_version = 7; VACUUM")
        self.assertEqual(self.tables.run(frame(PROBE)), (READY, "", 0))

    def test_file_that_is_cut_is_refused(self):
        whole = read(self.tables.new().script(A).path)
        says = [self.tables.says(why)[1] for why in (NO_DATABASE, DAMAGED)]
        for size in len(whole) // 2, len(whole) - 1, 4096, 100:
            with self.subTest(size=size, whole=len(whole)):
                write(self.tables.new().path, whole[:size])
                out, error, status = self.tables.run(frame(PROBE))
                self.assertEqual((out, status), (b"", 4))
                self.assertIn(error, says)

    def test_empty_path_is_refused(self):
        line = "csid: the path of the tables is empty\n"
        serve = [self.csid, "serve", "--socket", os.path.join(self.folder, "no", "a.sock"), "--tables", ""]
        self.assertEqual(self.probe(""), (b"", line, 4))
        self.assertEqual(run(serve, input=b""), (b"", line, 4))
        absent = os.path.join(self.folder, "absent")
        of_config = (b"", "csid: %s: %s\n" % (absent, NOT_THERE), 3)
        self.assertEqual(run(serve + ["--config", absent], input=b""), of_config)

    def test_controls_in_a_path_are_escaped_in_the_line(self):
        line = "csid: no/a\\nb\\tc\\u{7f}\\u{85}é.db: %s\n" % NO_FILE
        self.assertEqual(self.probe("no/a\nb\tc\x7f\u0085é.db"), (b"", line, 4))

    def test_path_that_cannot_be_opened_is_refused(self):
        os.symlink("nowhere", os.path.join(self.folder, "dangling.db"))
        for name, path, why in [
            ("a folder", self.folder, NO_FILE),
            ("a missing folder", os.path.join(self.folder, "no", "such.db"), NO_FILE),
            ("a device", "/dev/null", "it is no regular file"),
            ("a link to nothing", os.path.join(self.folder, "dangling.db"), NO_FILE),
        ]:
            with self.subTest(name=name):
                self.assertEqual(self.probe(path), (b"", "csid: %s: %s\n" % (path, why), 4))
        self.assertEqual(os.listdir(self.folder), ["dangling.db"])

    def test_path_that_sqlite_takes_for_no_file_is_refused(self):
        """The path is the name of a database in memory, or a URI. No file is made."""
        for path in ":memory:", "file:x.db":
            line = "csid: %s: csid needs the path of a file, and this is none for SQLite\n" % path
            for words in (["pipe", "--tables", path], ["pipe", "--tables", path, "--existing"],
                          ["serve", "--socket", "a.sock", "--tables", path], ["--check-tables", path],
                          ["--list-tables", path]):
                with self.subTest(words=words):
                    came = run([self.csid] + words, input=frame(PROBE), cwd=self.folder)
                    self.assertEqual(came, (b"", line, 4))
        self.assertEqual(os.listdir(self.folder), [])

    def test_path_to_a_file_of_such_a_name_is_one(self):
        self.assertEqual(self.probe("./:memory:"), (READY, "", 0))

    def test_link_to_a_file_is_followed(self):
        self.tables.new().script(A)
        os.symlink("volumes.db", os.path.join(self.folder, "link.db"))
        linked = Tables(self.csid, self.folder, "link.db")
        self.assertEqual(linked.run(LISTING)[0].count(b"vol-1"), 1)

    def test_file_with_two_names_is_refused(self):
        os.link(self.tables.new().path, os.path.join(self.folder, "second.db"))
        self.assertEqual(self.tables.run(frame(PROBE)), self.tables.says(NO_FILE))

    def test_file_with_a_journal_is_refused(self):
        write(self.tables.new().path + "-journal", b"\xd9\xd5\x05\xf9\x20\xa1\x63\xd7" + bytes(504))
        self.assertEqual(self.tables.run(frame(PROBE)), self.tables.says(NO_FILE))


class PermissionsTest(CsidTest):
    def setUp(self):
        super().setUp()
        self.program, self.how = copy_for_nobody(self.csid, self.folder)
        self.held = os.path.join(self.folder, "held")
        os.mkdir(self.held)
        os.chmod(self.held, 0o777)
        self.addCleanup(os.chmod, self.held, 0o777)
        self.tables = Tables(self.program, self.held)

    def fill(self):
        """Makes tables with a volume, in files that anyone may read and write."""
        self.tables.new().run(CREATE)
        for ending in "", "-wal":
            os.chmod(self.tables.path + ending, 0o666)

    @each([("not readable", 0o222), ("not writable", 0o444), ("neither", 0)])
    def test_file_or_log_without_permission_is_refused_and_kept(self, name, mode):
        for ending in "", "-wal":
            with self.subTest(name=name, ending=ending):
                self.fill()
                content = read(self.tables.path)
                os.chmod(self.tables.path + ending, mode)
                self.assertEqual(self.tables.run(frame(PROBE), **self.how), self.tables.says(NO_FILE))
                self.assertEqual(read(self.tables.path), content)

    @each([
        ("not writable", 0o555, ["", "-wal"], True),
        ("not writable, without a log", 0o555, [""], False),
        ("not writable, without a file", 0o555, [], False),
        ("not readable", 0o311, ["", "-wal"], False),
        ("not to be entered", 0o666, ["", "-wal"], False),
    ])
    def test_folder_without_permission_needs_no_new_file(self, name, mode, endings, is_served):
        """In a folder that is not writable, a file with its WAL is served, and no file is made."""
        self.fill()
        for ending in {"", "-wal"}.difference(endings):
            os.unlink(self.tables.path + ending)
        os.chmod(self.held, mode)
        came = self.tables.run(LISTING, **self.how)
        os.chmod(self.held, 0o777)
        wanted = (page_of(VOLUME_1), "", 0) if is_served else self.tables.says(NO_FILE)
        self.assertEqual(came, wanted)
        self.assertEqual(sorted(os.listdir(self.held)), ["volumes.db" + it for it in endings])

    def test_configuration_that_is_not_readable_is_refused(self):
        config = self.configure(SAMPLE)
        os.chmod(config, 0)
        came = run([self.program, "pipe", "--config", config], input=frame(PROBE), **self.how)
        self.assertEqual(came, (b"", "csid: %s: %s\n" % (config, DENIED), 3))

    def test_socket_in_a_folder_that_is_not_writable_is_refused(self):
        path = os.path.join(self.held, "csid.sock")
        self.fill()
        os.chmod(self.held, 0o555)
        words = ["serve", "--socket", path, "--tables", self.tables.path]
        came = run([self.program, *words], input=b"", **self.how)
        self.assertEqual(came, (b"", "csid: %s: %s\n" % (path, DENIED), 7))


class OrderOfFaultsTest(CsidTest):
    """Arguments are judged first, then the configuration, and then the tables."""

    def setUp(self):
        super().setUp()
        self.absent = os.path.join(self.folder, "absent.toml")
        write(self.tables.path, b"x" * 5000)

    def test_word_too_many_is_the_first_fault(self):
        came = run(self.tables.command + ["--config", self.absent, "x"], input=frame(PROBE))
        self.assertEqual(came, (b"", "csid: unexpected argument 'x' found\n", 2))

    def test_configuration_is_judged_before_the_tables(self):
        line = "csid: %s: %s\n" % (self.absent, NOT_THERE)
        self.assertEqual(self.tables.run(frame(PROBE), self.absent), (b"", line, 3))
        self.assertEqual(self.tables.run(frame(PROBE)), self.tables.says(NO_DATABASE))

    def test_no_tables_are_made_without_a_configuration(self):
        self.tables.clear().run(frame(PROBE), self.absent)
        self.assertFalse(os.path.exists(self.tables.path))


class ExistingTest(CsidTest):
    """`csid --existing`: a missing file is not made, and an existing one is served."""

    def setUp(self):
        super().setUp()
        self.held = os.path.join(self.folder, "held")
        os.mkdir(self.held)
        self.tables = Tables(self.csid, self.held)
        self.command = self.tables.command + ["--existing"]

    def check_refused(self, why):
        """csid refuses the tables, and does not change the folder."""
        kept = self.tables.files()
        for words in [], ["--low-memory"]:
            self.assertEqual(run(self.command + words, input=frame(PROBE)), self.tables.says(why))
        server = Server(self.csid, self.held, "--existing")
        self.assertEqual(server.end(), (server.line(why), 4, False))
        self.assertEqual(self.tables.files(), kept)
        self.assertEqual(sorted(os.listdir(self.held)), sorted(kept))

    def test_missing_file_is_refused(self):
        self.check_refused(MISSING)

    @each([
        ("an empty file", b""),
        ("a file of one byte", b"x"),
        ("a file of 104 bytes", b"SQLite format 3\0" + b"\1" * 88),
    ])
    def test_file_without_tables_is_refused(self, name, content):
        write(self.tables.path, content)
        self.check_refused(WITHOUT)

    def test_database_without_tables_is_refused(self):
        self.tables.script("PRAGMA user_version = 7; VACUUM")
        self.check_refused(WITHOUT)

    def test_link_to_nothing_is_refused(self):
        os.symlink("nowhere", self.tables.path)
        self.assertEqual(run(self.command, input=frame(PROBE)), self.tables.says(MISSING))

    def test_file_that_is_no_database_is_refused(self):
        write(self.tables.path, b"x" * 5000)
        self.assertEqual(run(self.command, input=frame(PROBE)), self.tables.says(NO_DATABASE))

    def test_folder_is_refused(self):
        came = run([self.csid, "pipe", "--existing", "--tables", self.held], input=frame(PROBE))
        self.assertEqual(came, (b"", "csid: %s: %s\n" % (self.held, NO_FILE), 4))

    def test_tables_are_served(self):
        self.tables.new()
        self.assertEqual(run(self.command, input=LISTING), (reply(b""), "", 0))

    def test_link_to_tables_is_served(self):
        self.tables.new().script(A)
        linked = os.path.join(self.folder, "link.db")
        os.symlink("held/volumes.db", linked)
        came = run([self.csid, "pipe", "--existing", "--tables", linked], input=LISTING)
        self.assertEqual(came, (ONE, "", 0))

    def test_change_that_is_in_the_wal_alone_is_served(self):
        """csid is killed before it copies the WAL into the file."""
        server = Server(self.csid, self.held)
        with server.connect() as peer:
            peer.sendall(CREATE)
            peer.recv(1 << 16)
            server.end()
        server = Server(self.csid, self.held, "--existing")
        self.addCleanup(server.end)
        self.assertEqual(server.lines(), server.has(1, 0, 2))
        self.assertEqual(server.ask(LISTING), page_of(VOLUME_1))

    def test_rows_of_the_file_and_a_change_in_the_wal_are_served_together(self):
        self.tables.new().script(A)
        server = Server(self.csid, self.held)
        with server.connect() as peer:
            peer.sendall(controller("CreateVolume", CREATE_B))
            peer.recv(1 << 16)
            server.end()
        server = Server(self.csid, self.held, "--existing")
        self.addCleanup(server.end)
        self.assertEqual(server.lines(), server.has(2, 0, 10))
        self.assertEqual(server.ask(LISTING).count(b"vol-"), 2)

    def test_file_that_is_away_for_a_while_is_served_again(self):
        """For example, a disk is not mounted. No file is made in the meantime."""
        self.tables.new().script(A)
        server = Server(self.csid, self.held, "--existing")
        self.assertEqual(server.ask(LISTING), ONE)
        away = os.path.join(self.folder, "away")
        os.rename(self.held, away)
        os.mkdir(self.held)
        os.rename(os.path.join(away, "csid.sock"), server.path)
        self.assertEqual(server.ask(LISTING), b"")
        self.assertEqual(os.listdir(self.held), ["csid.sock"])
        for name in "volumes.db", "volumes.db-wal":
            os.rename(os.path.join(away, name), os.path.join(self.held, name))
        self.assertEqual(server.ask(LISTING), ONE)
        self.assertEqual(server.end(), (server.has(1, 0, 9) + server.line(MISSING), KILLED, True))


class EmptiedTest(CsidTest):
    """A file is empty, but its WAL has changes. Nothing is made or changed, so the file can be put back."""

    def setUp(self):
        super().setUp()
        server = Server(self.csid, self.folder)
        with server.connect() as peer:
            for name in b"abc":
                peer.sendall(controller("CreateVolume", b"\x0a\x01" + bytes([name]) + BLOCK))
                peer.recv(1 << 16)
            server.end()
        self.file, self.log = [self.tables.files()["volumes.db" + ending] for ending in ("", "-wal")]
        # The WAL has its header and its first change in 568 bytes.
        self.assertGreater(len(self.log), 568)

    def put(self, file, log):
        """Writes the file and its WAL, or leaves one out if it is None. Returns the bytes of both by name."""
        self.tables.clear()
        for ending, content in ("", file), ("-wal", log):
            if content is not None:
                write(self.tables.path + ending, content)
        return self.tables.files()

    def check_each(self, check):
        """Runs a check for each state of the file and its WAL, which must not change."""
        for name, file, log in [
            ("no byte", b"", self.log),
            ("no file", None, self.log),
            ("no byte, and the shortest log with a change", b"", self.log[:568]),
        ]:
            with self.subTest(name=name):
                kept = self.put(file, log)
                check()
                self.assertEqual(self.tables.files(), kept)

    def test_pipe_refuses_and_keeps_it(self):
        def check():
            for words in [], ["--existing"], ["--low-memory"], ["--existing", "--low-memory"]:
                came = run(self.tables.command + words, input=LISTING)
                self.assertEqual(came, self.tables.says(EMPTIED), words)

        self.check_each(check)

    def test_serve_refuses_and_keeps_it(self):
        def check():
            for words in [], ["--existing"]:
                server = Server(self.csid, self.folder, *words)
                self.assertEqual(server.end(), (server.line(EMPTIED), 4, False), words)

        self.check_each(check)

    def test_check_tables_refuses_and_keeps_it(self):
        self.check_each(lambda: self.assertEqual(self.tables.check(), self.tables.says(EMPTIED)))

    def test_file_whose_log_has_no_whole_change_gets_tables(self):
        for name, log in [
            ("no log", None),
            ("an empty log", b""),
            ("the head of a log", self.log[:32]),
            ("no whole change", self.log[:567]),
        ]:
            with self.subTest(name=name):
                self.put(b"", log)
                came = run(self.tables.command + ["--existing"], input=LISTING)
                self.assertEqual(came, self.tables.says(WITHOUT))
                self.assertEqual(self.tables.run(LISTING), (reply(b""), "", 0))

    def test_part_of_the_file_is_refused_and_kept(self):
        for size in 1, 16, 100, 108, 511, 512, 1023, 1024, len(self.file) - 1:
            kept = self.put(self.file[:size], self.log)
            for words in [], ["--existing"]:
                with self.subTest(size=size, words=words):
                    self.assertEqual(run(self.tables.command + words, input=LISTING)[2], 4)
                    self.assertEqual(self.tables.files(), kept)

    def test_file_that_is_put_back_is_served(self):
        self.put(self.file, self.log)
        self.assertEqual(self.tables.run(LISTING)[0].count(b"vol-"), 3)

    def test_file_that_is_emptied_while_it_is_served_can_be_put_back(self):
        self.put(self.file, self.log)
        server = Server(self.csid, self.folder)
        if len(self.tables.files()["volumes.db-wal"]) < 568:
            write(self.tables.path + "-wal", self.log)
        write(self.tables.path, b"")
        self.assertEqual(server.ask(LISTING), b"")
        self.put(self.file, self.log)
        self.assertEqual(server.ask(LISTING).count(b"vol-"), 3)
        self.assertEqual(server.end()[0], server.has(3, 0, 4) + server.line(EMPTIED))
