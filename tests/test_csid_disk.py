"""Files that are locked or replaced, kills, and full disks."""

import contextlib
import os
import re
import shutil
import socket
import sqlite3
import subprocess

from tests.support.configs import sample
from tests.support.frames import (CREATE_A, CREATE_B, ONE, PROBE, READY, READ_FAILED, VOLUME_1, VOLUME_2,
                                  controller, fault, frame, refusal, reply)
from tests.support.processes import (SECONDS, fill, little_room, memory_of, no_byte, no_room, read, run,
                                     small_disk, write)
from tests.support.rows import CsidTest, each
from tests.support.server import DOWN, NEW, Server
from tests.support.tables import (BLOCK_CAPS, DAMAGED, FULL, IO_FAILED, LOCKED, MANY, MIB, NO_DATABASE,
                                  Tables, cell, next_is, pairs)


def mounts(count):
    """Returns `count` capabilities of a create, each a mount with a file system of 120 letters."""
    names = [b"%0120d" % number for number in range(count)]
    return b"".join(bytes.fromhex("1a 80 01 12 7a 0a 78") + name + bytes.fromhex("1a 02 08 01")
                    for name in names)


CREATE, MORE = controller("CreateVolume", CREATE_A), controller("CreateVolume", CREATE_B)
LISTING = controller("ListVolumes")
REFUSED, IS_DOWN = refusal(13, "store refused"), refusal(13, "store is down")


class DiskTest(CsidTest):
    """csid over tables in the folder of the test."""

    def begin(self, tables, call, answer):
        """Starts csid, makes a call and checks its reply. Returns the process, which waits for further calls.
        """
        streams = dict.fromkeys(("stdin", "stdout", "stderr"), subprocess.PIPE)
        process = subprocess.Popen(tables.command, bufsize=0, **streams)
        process.stdin.write(call)
        self.assertEqual(process.stdout.read(len(answer)), answer)
        return process

    def finish(self, process, calls):
        """Makes further calls and ends csid. Returns the replies, the lines on standard error and the status.
        """
        out, error = process.communicate(calls, timeout=SECONDS)
        return out, error.decode(), process.returncode

    def configure_much(self):
        """Writes a configuration with a large pool. Returns its path."""
        return self.configure(sample((b"10485760", b"%d" % (20000 * MIB))))


class LockTest(DiskTest):
    """Only one csid or one sqlite3 at a time has the file."""

    def test_file_of_csid_is_locked(self):
        """It is locked for another csid and for sqlite3."""
        first = self.begin(self.tables, CREATE, reply(VOLUME_1))
        self.assertEqual(self.tables.run(frame(PROBE)), self.tables.says(LOCKED))
        with contextlib.closing(sqlite3.connect(self.tables.path, timeout=0)) as connection:
            with self.assertRaisesRegex(sqlite3.OperationalError, "^%s$" % LOCKED):
                connection.execute("SELECT * FROM volumes")
        self.assertEqual(self.finish(first, LISTING), (ONE, "", 0))
        self.assertEqual(self.tables.run(frame(PROBE)), (READY, "", 0))

    def test_file_of_sqlite_is_locked(self):
        self.tables.run(CREATE)
        with contextlib.closing(sqlite3.connect(self.tables.path, isolation_level=None)) as connection:
            connection.execute("BEGIN")
            connection.execute("SELECT * FROM volumes").fetchall()
            self.assertEqual(self.tables.run(frame(PROBE)), self.tables.says(LOCKED))
        self.assertEqual(self.tables.run(LISTING), (ONE, "", 0))


class KillTest(DiskTest):
    """csid is killed after it has answered a create, so only the WAL has the change."""

    def kill_after_create(self, tables):
        process = self.begin(tables, CREATE, reply(VOLUME_1))
        process.kill()
        process.communicate()

    def test_answered_change_is_in_the_log(self):
        """The WAL belongs to the file: a copy of the file alone is older."""
        self.kill_after_create(self.tables)
        both, alone = Tables(self.csid, self.folder, "both.db"), Tables(self.csid, self.folder, "alone.db")
        for copy in both, alone:
            shutil.copy(self.tables.path, copy.path)
        shutil.copy(self.tables.path + "-wal", both.path + "-wal")
        self.assertEqual(both.run(LISTING), (ONE, "", 0))
        self.assertEqual(alone.run(LISTING), (reply(b""), "", 0))
        self.assertEqual(self.tables.run(LISTING), (ONE, "", 0))
        self.assertEqual(self.tables.ask("PRAGMA integrity_check"), [("ok",)])

    def test_salts_of_a_log_are_drawn_at_random(self):
        """So frames of an older WAL are never taken for new ones ("Database File Format", 4.1)."""
        salts = []
        for name in "one.db", "two.db":
            tables = Tables(self.csid, self.folder, name)
            self.kill_after_create(tables)
            salts.append(read(tables.path + "-wal")[16:24])
        self.assertEqual([len(salt) for salt in salts], [8, 8])
        self.assertNotEqual(*salts)


class ReplacementTest(DiskTest):
    """The file is deleted or replaced while csid has it open. csid continues with the old file."""

    def setUp(self):
        super().setUp()
        self.process = self.begin(self.tables, CREATE, reply(VOLUME_1))

    def check_goes_on(self):
        second = VOLUME_1.replace(b"vol-1", b"vol-2")
        entries = [bytes.fromhex("0a28") + it + bytes.fromhex("1200") for it in (VOLUME_1, second)]
        another = controller("CreateVolume", CREATE_A.replace(b"\x0a\x01a", b"\x0a\x01b"))
        came = self.finish(self.process, another + LISTING)
        self.assertEqual(came, (reply(second) + reply(b"".join(entries)), "", 0))

    def put(self, content):
        write(self.tables.path + ".new", content)
        os.rename(self.tables.path + ".new", self.tables.path)

    def test_deleted_file_stays_deleted(self):
        os.unlink(self.tables.path)
        self.check_goes_on()
        self.assertFalse(os.path.exists(self.tables.path))
        self.assertEqual(self.tables.run(LISTING), (reply(b""), "", 0))

    def test_deleted_file_and_log_are_made_again_by_the_next_run(self):
        os.unlink(self.tables.path)
        os.unlink(self.tables.path + "-wal")
        self.check_goes_on()
        self.assertEqual(self.tables.run(LISTING), (reply(b""), "", 0))

    def test_other_tables_are_kept(self):
        other = Tables(self.csid, self.folder, "other.db").new()
        other.run(MORE)
        kept = read(other.path)
        self.put(kept)
        self.check_goes_on()
        self.assertEqual(read(self.tables.path), kept)
        self.assertEqual(self.tables.run(LISTING), other.run(LISTING))

    def test_file_that_is_no_database_is_kept(self):
        self.put(b"x" * 5000)
        self.check_goes_on()
        self.assertEqual(self.tables.run(LISTING), self.tables.says(NO_DATABASE))
        self.assertEqual(read(self.tables.path), b"x" * 5000)


class FullDiskTest(DiskTest):
    """csid over tables on a small disk. A test fills the disk, and then makes room again."""

    def setUp(self):
        super().setUp()
        self.disk = self.enterContext(small_disk(self.folder))
        self.tables = Tables(self.csid, self.disk)

    def test_new_file_is_refused_until_there_is_room(self):
        filler = fill(self.disk)
        for _ in range(2):
            self.assertEqual(self.tables.run(frame(PROBE)), self.tables.says(FULL))
        os.unlink(filler)
        self.assertEqual(self.tables.run(CREATE), (reply(VOLUME_1), "", 0))

    def test_file_without_its_log_is_refused_and_kept(self):
        self.tables.run(CREATE)
        content = read(self.tables.path)
        os.unlink(self.tables.path + "-wal")
        filler = fill(self.disk)
        self.assertEqual(self.tables.run(frame(PROBE)), self.tables.says(FULL))
        os.unlink(filler)
        self.assertEqual(read(self.tables.path), content)
        self.assertEqual(self.tables.run(LISTING), (ONE, "", 0))

    def test_file_with_its_log_is_read_and_takes_no_change(self):
        self.tables.run(CREATE)
        filler = fill(self.disk)
        self.assertEqual(self.tables.run(LISTING), (ONE, "", 0))
        came = self.tables.run(CREATE + MORE + LISTING + MORE)
        self.assertEqual(came, (reply(VOLUME_1) + REFUSED + IS_DOWN * 2, "", 0))
        os.unlink(filler)
        self.assertEqual(self.tables.run(LISTING), (ONE, "", 0))

    def test_csid_is_down_until_the_next_opening(self):
        """The disk is filled while csid has the file open, and room is made again."""
        self.tables.run(CREATE)
        process = self.begin(self.tables, LISTING, ONE)
        filler = fill(self.disk)
        process.stdin.write(MORE)
        self.assertEqual(process.stdout.read(len(REFUSED)), REFUSED)
        os.unlink(filler)
        self.assertEqual(self.finish(process, LISTING), (IS_DOWN, "", 0))
        self.assertEqual(self.tables.run(LISTING + MORE), (ONE + reply(VOLUME_2), "", 0))
        self.assertEqual(self.tables.ask("PRAGMA integrity_check"), [("ok",)])

    def refuse_on_full_disk(self, tables, first):
        """Makes the calls of one run: a create, after which the disk is full, and a create that is refused.
        """
        process = self.begin(tables, controller("CreateVolume", first), reply(VOLUME_1))
        filler = fill(self.disk)
        # The WAL has 256 KiB of zeros in advance, which is too little for 3,000 file systems.
        more = controller("CreateVolume", CREATE_B + mounts(3000))
        self.assertEqual(self.finish(process, more), (REFUSED, "", 0))
        os.unlink(filler)

    def listed(self, tables):
        """Returns the ids in a listing of tables, or none if the tables are refused."""
        out = run([self.csid, "--list-tables", tables.path])[0]
        return re.findall(rb"^vol-\d+", out, re.M)

    @each([("small", CREATE_A, [b"vol-1"]), ("large", CREATE_A + mounts(100), [])])
    def test_both_files_have_what_was_committed_after_a_refusal(self, name, first, alone):
        """The file without its WAL also has it, unless the disk has no room for the pages that the file
        lacks. Then the file may have some of the pages, and is refused."""
        tables = Tables(self.csid, self.disk, name + ".db").new()
        self.refuse_on_full_disk(tables, first)
        for kind, ends, wanted in [("both", ["", "-wal"], [b"vol-1"]), ("alone", [""], alone)]:
            with self.subTest(create=name, files=kind):
                copy = Tables(self.csid, self.folder, "%s-%s.db" % (name, kind))
                for end in ends:
                    shutil.copy(tables.path + end, copy.path + end)
                self.assertEqual(self.listed(copy), wanted)

    def test_server_goes_on_and_serves_changes_once_there_is_room(self):
        """csid needs no restart, and writes two lines for each connection with a refused change."""
        server = self.serve(tables=self.tables.path)
        begun = server.line(NEW) + server.has(0, 0, 1)
        down = server.line("the database refused a call: " + FULL) + server.line(DOWN)
        self.assertEqual(server.ask(CREATE), reply(VOLUME_1))
        with server.connect() as peer:
            peer.sendall(LISTING)
            self.assertEqual(peer.recv(4096), ONE)
            filler = fill(self.disk)
            for call, answer in (MORE, REFUSED), (LISTING, IS_DOWN):
                peer.sendall(call)
                self.assertEqual(peer.recv(4096), answer)
        self.assertEqual([server.ask(LISTING), server.ask(MORE)], [ONE, REFUSED])
        os.unlink(filler)
        self.assertEqual(server.ask(MORE + LISTING).count(b"vol-2"), 2)
        self.assertEqual(server.end()[0], begun + down * 2)
        self.assertEqual(self.tables.ask("SELECT number, name FROM volumes"), [(1, "a"), (2, "b")])
        self.assertEqual(self.tables.ask("PRAGMA integrity_check"), [("ok",)])

    def test_server_makes_new_tables_once_there_is_room(self):
        filler = fill(self.disk)
        server = self.serve(tables=self.tables.path)
        full = server.line(FULL)
        self.assertEqual(server.lines(), full)
        self.assertEqual(server.ask(LISTING), b"")
        os.unlink(filler)
        self.assertEqual(server.ask(LISTING), reply(b""))
        self.assertEqual(server.end()[0], full * 2 + server.line(NEW))


class RefusedCommitTest(DiskTest):
    """A limit on the length of files prevents commits."""

    def run_limited(self, limit, calls, *words):
        # Python ignores SIGXFSZ, and so does its child.
        return self.tables.run(calls, *words, preexec_fn=limit, restore_signals=False)

    def test_change_is_refused_and_nothing_is_answered_until_the_next_opening(self):
        self.tables.new()
        came = self.run_limited(no_room, frame(PROBE) + CREATE + LISTING + CREATE)
        self.assertEqual(came, (READY + REFUSED + IS_DOWN * 2, "", 0))
        came = self.tables.run(LISTING + CREATE + LISTING)
        self.assertEqual(came, (reply(b"") + reply(VOLUME_1) + ONE, "", 0))

    def test_new_file_that_may_have_no_byte_is_refused(self):
        """The limit is not reported as a full disk."""
        self.assertEqual(self.run_limited(no_byte, frame(PROBE)), self.tables.says(IO_FAILED))
        self.assertEqual(self.tables.run(LISTING), (reply(b""), "", 0))

    def test_change_is_kept_where_the_log_cannot_be_copied(self):
        """The file needs more bytes than there is room for. The commit is in the WAL."""
        config = self.configure_much()
        self.tables.new().script(MANY % (10000, BLOCK_CAPS) + next_is(10001))
        out, error, status = self.run_limited(little_room, MORE, config)
        line = "csid: %s: %s\n" % (self.tables.path, IO_FAILED)
        self.assertEqual((out.count(b"vol-10001"), error, status), (1, line, 4))
        self.assertEqual(self.tables.run(MORE, config), (out, "", 0))
        rows = self.tables.ask("SELECT count(*), max(number) FROM volumes WHERE name = 'b'")
        self.assertEqual(rows, [(1, 10001)])


class RefusedReadTest(DiskTest):
    """Pages of a file are overwritten while a connection has it open."""

    def check_reads(self, wanted, said, *words):
        """Reads of a volume on an overwritten page have these replies, and csid writes these lines."""
        config = self.configure_much()
        listing = controller("ListVolumes", bytes.fromhex("0801 1204") + b"2000")
        params = "UPDATE volumes SET params = %s;" % cell(pairs(4, b"k", 4090))
        self.tables.new().script(MANY % (4000, BLOCK_CAPS) + params + next_is(4001))
        server = self.serve("--config", config, *words)
        begun = server.lines()
        with server.connect() as peer:
            peer.sendall(frame(PROBE))
            self.assertEqual(peer.recv(4096), READY)
            with open(self.tables.path, "r+b") as file:
                file.write(b"x" * (os.path.getsize(self.tables.path) - file.seek(20 * 1024)))
            for call, answer in [(listing, wanted)] * 2 + [(frame(PROBE), READY)]:
                peer.sendall(call)
                self.assertEqual(peer.recv(4096), answer)
            peer.shutdown(socket.SHUT_WR)
            self.assertEqual(peer.recv(4096), b"")
        self.assertEqual(server.end()[0], begun + "".join(map(server.line, said)))

    def test_reads_of_the_file_are_refused_and_that_is_reported_once(self):
        lines = ["the database refused a call: " + DAMAGED, "the database refused a read"]
        self.check_reads(REFUSED, lines, "--low-memory")

    def test_reads_of_volumes_in_memory_are_answered(self):
        volume = "0a2b 0a27 08808040 1208 766f6c2d32303031 1a0a 0a04706f6f6c 12027031"
        page = reply(bytes.fromhex(volume + "2a0b 0a09 0a047a6f6e65 120161 1200 1204 32303031"))
        self.check_reads(page, [])


class RefusedCopyTest(DiskTest):
    """A read fails while the volumes are copied into memory for a connection."""

    def serve_once(self, *injected):
        """Runs a csid that serves one connection with a Probe. The pages of the file do not all have room in
        memory, and the copy reads them again. Returns the number of reads, the reply and the lines."""
        traced = self.traced("-e", "trace=pread64", *injected)
        server = Server(traced, self.folder, "--config", self.configure_much(), "--connections", "1",
                        preexec_fn=memory_of(64 << 20))
        self.addCleanup(server.end)
        answer = server.ask(frame(PROBE))
        server.process.wait(SECONDS)
        return read(self.trace).count(b"pread64("), answer, server.end()[0].splitlines()

    def test_cause_is_reported(self):
        params = "UPDATE volumes SET params = %s;" % cell(pairs(4, b"k", 4090))
        self.tables.new().script(MANY % (1000, BLOCK_CAPS) + params + next_is(1001))
        reads, answer, lines = self.serve_once()
        self.assertEqual(answer, READY)
        failed = self.serve_once("-e", "inject=pread64:error=EIO:when=%d" % reads)
        said = ["the database refused a call: " + IO_FAILED, "the database refused a read"]
        self.assertEqual(failed[1:], (b"", lines + ["csid: %s: %s" % (self.tables.path, it) for it in said]))


SYNCS, WRITES = ("fsync", "fdatasync"), ("write", "pwrite64", "writev", "pwritev")


class SyncTest(DiskTest):
    """The order of writes and syncs, as strace records it."""

    def setUp(self):
        super().setUp()
        self.trace = os.path.join(self.folder, "trace")
        traced = "trace=" + ",".join(WRITES + SYNCS + ("ftruncate",))
        self.command = ["strace", "-f", "-y", "-o", self.trace, "-e", traced] + self.tables.command
        if shutil.which("strace") is None or run(self.command, input=b"")[2] != 0:
            self.skipTest("strace cannot be run here")
        self.tables.new()

    def steps(self):
        """Returns triples of a call, the number of its file, and its path."""
        return re.findall(r"(\w+)\((\d+)<([^>]*)>", read(self.trace).decode())

    def test_reply_is_written_after_a_sync_of_its_commit(self):
        """The last step of the WAL before a reply is a sync after a write. Before the second and the third
        reply it is the only sync."""
        creates = [CREATE_A.replace(b"\x0a\x01a", b"\x0a\x01" + name) for name in (b"a", b"b", b"c")]
        answers = [reply(VOLUME_1.replace(b"vol-1", b"vol-%d" % number)) for number in (1, 2, 3)]
        calls = b"".join(controller("CreateVolume", it) for it in creates)
        self.assertEqual(run(self.command, input=calls), (b"".join(answers), "", 0))
        steps = self.steps()
        replies = [at for at, (_, file, _) in enumerate(steps) if file == "1"]
        self.assertEqual(len(replies), 3)
        for number, (begin, end) in enumerate(zip([0] + replies, replies)):
            with self.subTest(reply=number + 1):
                of_log = [call for call, _, path in steps[begin:end] if path == self.tables.path + "-wal"]
                self.assertIn(of_log[-1], SYNCS)
                self.assertIn(of_log[-2], WRITES)
                if number > 0:
                    self.assertEqual(sum(call in SYNCS for call in of_log), 1)

    def test_first_page_of_a_new_file_is_synced_at_once(self):
        self.tables.clear()
        run(self.command, input=b"")
        steps, path = self.steps(), self.tables.path
        first = next(at for at, step in enumerate(steps) if (step[0], step[2]) == ("pwrite64", path))
        after = [(call in SYNCS, place) for call, _, place in steps[first : first + 2]]
        self.assertEqual(after, [(False, path), (True, path)])


class ClosedStreamsTest(DiskTest):
    """Standard streams that are closed or full. No output goes into the tables."""

    def run_redirected(self, redirection, calls):
        return run(["sh", "-c", 'exec "$0" "$@" ' + redirection] + self.tables.command, input=calls)

    def test_tables_have_the_rows_of_the_calls_alone(self):
        out, _, _ = fault("bad path length at byte 49")
        for redirection, came, then in [
            ("2>&-", (reply(VOLUME_1) + out, "", 1), ONE),
            ("2>/dev/full", (reply(VOLUME_1) + out, "", 1), ONE),
            ("<&-", (b"", READ_FAILED, 5), reply(b"")),
            ("<&- 2>&-", (b"", "", 5), reply(b"")),
            (">&- 2>&-", (b"", "", 5), ONE),
            ("<&- >&- 2>&-", (b"", "", 5), reply(b"")),
        ]:
            with self.subTest(redirection=redirection):
                self.tables.clear()
                self.assertEqual(self.run_redirected(redirection, CREATE + b"\0\0"), came)
                self.assertEqual(self.tables.run(LISTING), (then, "", 0))

    def test_file_that_is_no_database_is_kept(self):
        write(self.tables.path, b"x" * 5000)
        for redirection in "2>&-", "2>/dev/full":
            with self.subTest(redirection=redirection):
                self.assertEqual(self.run_redirected(redirection, CREATE), (b"", "", 4))
                self.assertEqual(read(self.tables.path), b"x" * 5000)
