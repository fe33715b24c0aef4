"""The socket of `csid serve`, and servers that share a file."""

import contextlib
import os
import resource
import signal
import socket
import sqlite3
import subprocess
import sys

from tests.support.csictl import (CONTROLLER, CREATE, IDENTITY, Line, NOT_THERE, NO_DATABASE, NO_FILE, READY,
                                  Server, VOL_1, call, ok, refusal, run, text)
from tests.support.processes import read, small_memory, write
from tests.support.rows import CsictlTest, each


# The reasons why a socket cannot be made.
TAKEN = "a file exists there already"
TOO_LONG = "path must be shorter than SUN_LEN"

NO_FOLDER = "Not a directory (os error 20)"
NO_HANDLE = "Too many open files (os error 24)"


def handles(count):
    return lambda: resource.setrlimit(resource.RLIMIT_NOFILE, (count, count))


def done(peer):
    """Ends the calls of a connection, after all of them were answered. Returns the next bytes, which are none
    if csid closes the connection. csid closes the file before that."""
    peer.shutdown(socket.SHUT_WR)
    return peer.recv(4096)


# Creates a volume on a connection, prints a line, and keeps the connection open.
KEEPER = """
import socket
import sys
import time
peer = socket.socket(socket.AF_UNIX)
peer.connect(sys.argv[1])
peer.sendall(bytes.fromhex(sys.argv[2]))
peer.recv(4096)
print("created", flush=True)
time.sleep(60)
"""


PROBE, LISTING = call(IDENTITY + "Probe", ""), call(CONTROLLER + "ListVolumes", "")
CREATE_A = call(CONTROLLER + CREATE, "0a0161 1a060a001a020801")
CREATE_B = call(CONTROLLER + CREATE, "0a0162 1a060a001a020801")
PROBED = "0 OK 0a020801\nready true\n", "", 0


class SocketTest(CsictlTest):
    """A test that runs csid at sockets in its folder."""

    def path(self, name):
        return os.path.join(self.folder, name)

    def serve(self, name, *words, **how):
        server = Server(self.csid, self.path(name), *words, **how)
        self.addCleanup(server.process.wait)
        self.addCleanup(server.process.kill)
        return server


class TakenSocketTest(SocketTest):
    """Sockets that cannot be made: the status is 7, and the line has the path and the reason."""

    def refuse(self, path, *words):
        """Returns the output, the lines and the status of a `csid serve` that ends at once."""
        command = [self.csid, "serve", "--socket", path, "--tables", self.path("taken.db"), *words]
        return text(run(command, input=b""))

    def path_of(self, size):
        """Returns a path of this many bytes."""
        return self.path("l" * (size - len(self.folder) - 1))

    def test_path_without_room_for_a_socket_is_refused(self):
        write(self.path("file"), b"mine")
        with socket.socket(socket.AF_UNIX) as listener:
            listener.bind(self.path("dead.sock"))
        for name, path, why in [
            ("a file", self.path("file"), TAKEN),
            ("a folder", self.folder, TAKEN),
            ("a dead socket", self.path("dead.sock"), TAKEN),
            ("108 bytes", self.path_of(108), TOO_LONG),
            ("200 bytes", self.path_of(200), TOO_LONG),
            ("a missing folder", self.path("no/such.sock"), NOT_THERE),
            ("a file for a folder", self.path("file/such.sock"), NO_FOLDER),
        ]:
            with self.subTest(name=name):
                self.assertEqual(self.refuse(path), ("", "csid: %s: %s\n" % (path, why), 7))
        self.assertEqual(read(self.path("file")), b"mine")

    def test_empty_path_is_refused(self):
        self.assertEqual(self.refuse(""), ("", "csid: the socket's path is empty\n", 7))

    def test_socket_of_another_server_is_refused_and_goes_on(self):
        server = self.serve("live.sock", "--connections", "1")
        self.assertEqual(self.refuse(server.path), ("", "csid: %s: %s\n" % (server.path, TAKEN), 7))
        self.assertEqual(server.ask(PROBE), READY)
        self.assertEqual(server.end(), ("", 0))

    def test_path_of_107_bytes_is_served(self):
        path = self.path_of(107)
        server = self.serve(os.path.basename(path), "--connections", "1", tables=self.path("a.db"))
        self.assertEqual(server.ask(PROBE), READY)
        self.assertEqual(server.end(), ("", 0))

    def test_no_tables_are_made_without_a_configuration(self):
        """The socket's path is taken too, but the configuration is judged before the socket is made."""
        config = self.path("no.toml")
        write(self.path("a.sock"), b"mine")
        came = self.refuse(self.path("a.sock"), "--config", config)
        self.assertEqual(came, ("", "csid: %s: %s\n" % (config, NOT_THERE), 3))
        self.assertFalse(os.path.exists(self.path("taken.db")))


class PlaceOfTablesTest(SocketTest):
    """A socket at the place of the tables, of their WAL or journal, or of a change store is refused, and
    nothing is made."""

    AT_TABLES = "'--socket <PATH>' and '--tables <FILE>' name one file"
    BESIDE = "'--socket <PATH>' names the WAL or the journal of '--tables <FILE>'"
    AT_LOG = "'--socket <PATH>' and '--log <PATH>' name one file"

    def refused(self, socket, option, path, why, **how):
        names = sorted(os.listdir(self.folder))
        command = [self.csid, "serve", "--socket", socket, option, path, "--config", self.path("no.toml")]
        self.assertEqual(text(run(command, input=b"", **how)), ("", "csid: %s\n" % why, 2))
        self.assertEqual(sorted(os.listdir(self.folder)), names)

    @each([
        ("the same text", "a.db", "a.db", AT_TABLES),
        ("another spelling", "./a.db", "sub/../a.db", AT_TABLES),
        ("a link of the folder", "link/a.db", "sub/a.db", AT_TABLES),
        ("the WAL", "a.db-wal", "a.db", BESIDE),
        ("the WAL in another spelling", "link/a.db-wal", "./sub/a.db", BESIDE),
        ("the journal", "a.db-journal", "a.db", BESIDE),
        ("tables that exist", "made.db", "made.db", AT_TABLES),
        ("a link to tables", "made.db", "linked.db", AT_TABLES),
        ("the WAL of tables that exist", "made.db-wal", "made.db", BESIDE),
        ("the WAL of tables behind a link", "made.db-wal", "linked.db", BESIDE),
    ])
    def test_socket_at_the_place_of_tables_is_refused(self, name, socket, tables, why):
        os.mkdir(self.path("sub"))
        os.symlink("sub", self.path("link"))
        write(self.path("made.db"), b"")
        os.symlink("made.db", self.path("linked.db"))
        self.refused(self.path(socket), "--tables", self.path(tables), why)
        self.refused(socket, "--tables", self.path(tables), why, cwd=self.folder)
        self.assertEqual(os.listdir(self.path("sub")), [])

    def test_socket_at_the_place_of_a_change_store_is_refused(self):
        self.refused("a.sock", "--log", self.path("a.sock"), self.AT_LOG, cwd=self.folder)

    @each([("a name that begins alike", "a.db-wals"), ("the name in another folder", "sub/a.db")])
    def test_socket_next_to_tables_is_served(self, name, socket):
        os.mkdir(self.path("sub"))
        server = self.serve(socket, "--connections", "1", tables=self.path("a.db"))
        self.assertEqual(server.ask(PROBE), READY)
        self.assertEqual(server.end(), ("", 0))


class ScarceTest(SocketTest):
    """Servers with too few descriptors, with too little memory, or without a path for the tables."""

    def serve_two(self, limit):
        """Starts a server of two connections with a limit. Returns the server, and its line about tables that
        cannot be opened."""
        server = self.serve("a.sock", "--connections", "2", preexec_fn=limit)
        return server, "csid: %s: %s\n" % (server.tables, NO_FILE)

    @each([(4, False), (5, True)])
    def test_server_without_descriptors_for_its_socket_ends(self, count, is_tried):
        """With four descriptors the server ends before it tries to open the tables. No file is made."""
        server, no_file = self.serve_two(handles(count))
        lines = (no_file if is_tried else "") + "csid: %s: %s\n" % (server.path, NO_HANDLE)
        self.assertEqual(server.end(), (lines, 7))
        self.assertFalse(os.path.exists(server.tables))

    def test_connection_without_descriptors_for_the_tables_is_closed(self):
        server, no_file = self.serve_two(handles(6))
        os.kill(server.process.pid, signal.SIGSTOP)
        with server.connect() as peer, server.connect() as other:
            peer.sendall(PROBE)
            other.sendall(PROBE)
            os.kill(server.process.pid, signal.SIGCONT)
            self.assertEqual(peer.recv(4096) + other.recv(4096), b"")
        no_more = "csid: no further connection can be taken: %s\n" % NO_HANDLE
        self.assertEqual(server.end(), (no_file + no_more + no_file * 2, 0))

    def test_connection_without_memory_is_closed(self):
        server, _ = self.serve_two(small_memory)
        self.assertEqual([server.ask(PROBE), server.ask(PROBE)], [b"", b""])
        self.assertEqual(server.end(), ("csid: out of memory\n" * 3, 0))

    def test_no_socket_is_made_for_an_empty_path_of_tables(self):
        path = self.path("a.sock")
        came = text(run([self.csid, "serve", "--socket", path, "--tables", ""], input=b""))
        self.assertEqual(came, ("", "csid: the path of the tables is empty\n", 4))
        self.assertFalse(os.path.exists(path))


class StandardErrorTest(SocketTest):
    """Standard error is closed or full. The server continues, and no line goes elsewhere."""

    def test_no_line_goes_to_a_file_or_a_socket(self):
        bad = refusal(3, "bad path length at byte 0")
        for number, shell in enumerate(["2>&-", "2>/dev/full", "<&- 2>&-", ">&- 2>&-", "<&- >&- 2>&-"]):
            with self.subTest(shell=shell):
                server = self.serve("u%d.sock" % number, "--connections", "3", shell=shell)
                self.assertEqual([server.ask(b"\0\0"), server.ask(PROBE)], [bad, READY])
                # A folder replaces each closed standard stream.
                for closed, word in enumerate(["<&-", ">&-", "2>&-"]):
                    if word in shell.split():
                        place = os.readlink("/proc/%d/fd/%d" % (server.process.pid, closed))
                        self.assertEqual(place, "/")
                write(server.tables, b"x" * 5000)
                self.assertEqual(server.ask(PROBE), b"")
                self.assertEqual(server.end(), ("", 0))
                self.assertEqual(read(server.tables), b"x" * 5000)


class SharedFileTest(SocketTest):
    """Servers over one file. A server has the file while it has a connection."""

    def setUp(self):
        super().setUp()
        self.file = self.path("shared.db")
        self.locked = "csid: %s: database is locked\n" % self.file
        self.one = self.serve("one.sock", "--connections", "1", tables=self.file)
        self.other = self.serve("other.sock", "--connections", "2", tables=self.file)

    def test_file_of_a_connection_is_locked(self):
        with self.one.connect() as peer:
            peer.sendall(CREATE_A)
            self.assertEqual(peer.recv(4096), ok(VOL_1))
            self.assertEqual(self.other.ask(PROBE), b"")
            pipe = run([self.csid, "pipe", "--tables", self.file], input=PROBE)
            self.assertEqual(pipe, (b"", self.locked, 4))
            peer.sendall(PROBE)
            self.assertEqual(peer.recv(4096), READY)
            self.assertEqual(done(peer), b"")
        self.assertEqual(self.other.ask(LISTING), ok("0a28%s1200" % VOL_1))
        self.assertEqual(self.one.end(), ("", 0))
        self.assertEqual(self.other.end(), (self.locked, 0))


class ExchangedFileTest(SocketTest):
    """The file is replaced during a connection. The connection continues with the old file, and the next one
    has the new file."""

    # A volume of 2 MiB.
    LARGER = "0a25 0880808001" + VOL_1[12:]

    def setUp(self):
        super().setUp()
        self.file, self.other = self.path("kept.db"), self.path("other.db")
        create = call(CONTROLLER + CREATE, "0a0162 1205 0880808001 1a060a001a020801")
        came = run([self.csid, "pipe", "--tables", self.other], input=create)
        self.assertEqual(came, (ok(self.LARGER), "", 0))

    def test_connection_goes_on_over_the_old_file(self):
        server = self.serve("e.sock", "--connections", "2", tables=self.file)
        with server.connect() as peer:
            peer.sendall(CREATE_A)
            self.assertEqual(peer.recv(4096), ok(VOL_1))
            os.rename(self.other, self.file)
            peer.sendall(LISTING)
            self.assertEqual(peer.recv(4096), ok("0a28%s1200" % VOL_1))
            self.assertEqual(done(peer), b"")
        self.assertEqual(server.ask(LISTING), ok("0a29 %s 1200" % self.LARGER))
        self.assertEqual(server.end(), ("", 0))

    def test_file_that_is_no_database_is_refused_by_the_next_connection_and_kept(self):
        os.rename(self.other, self.file)
        server = self.serve("e.sock", "--connections", "2", tables=self.file)
        with server.connect() as peer:
            peer.sendall(LISTING)
            self.assertEqual(peer.recv(4096), ok("0a29 %s 1200" % self.LARGER))
            write(self.other, b"x" * 5000)
            os.rename(self.other, self.file)
            peer.sendall(LISTING)
            self.assertEqual(peer.recv(4096), ok("0a29 %s 1200" % self.LARGER))
            self.assertEqual(done(peer), b"")
        self.assertEqual(server.ask(LISTING), b"")
        self.assertEqual(server.end(), ("csid: %s: %s\n" % (self.file, NO_DATABASE), 0))
        self.assertEqual(read(self.file), b"x" * 5000)


class KeptTest(SocketTest):
    """Volumes survive the end of connections, SIGKILL, and a broken file that is repaired."""

    LISTED = "0 OK 0a280a24%s1200\nvolume vol-1 1048576 -\n" % VOL_1[4:], "", 0

    def setUp(self):
        super().setUp()
        self.file = self.path("kept.db")
        self.count = 0

    def start(self, *words):
        self.count += 1
        self.server = self.serve("k%d.sock" % self.count, *words, tables=self.file)

    def ask(self, *words):
        words = ["call", "--socket", self.server.path, "--method", *words]
        return text(run([self.csictl, *words], input=b""))

    def create(self, name):
        return self.ask(CREATE, "--name", name, "--mode", "1")

    def check_closed(self, method="Probe"):
        """A call has no reply. csid may close before or after it has read the call, so sending or reading
        fails."""
        self.assertEqual(self.ask(method), ("", Line("csictl: " + self.server.path + ": "), 5))

    def connect(self):
        """Returns a connection of sqlite3 to the file. csid may close the file a moment after its last reply:
        sqlite3 then waits for the lock."""
        connection = sqlite3.connect(self.file, isolation_level=None)
        self.addCleanup(connection.close)
        return connection

    def test_volume_outlives_a_kill(self):
        created = "0 OK %s\nvolume vol-1 1048576\n" % VOL_1, "", 0
        self.start()
        self.assertEqual(self.create("a"), created)
        self.assertEqual(self.server.kill(), ("", -signal.SIGKILL))
        self.start()
        self.assertEqual(self.ask("ListVolumes"), self.LISTED)
        self.assertEqual(self.create("a"), created)

    def kill_within_a_connection(self, create):
        """Kills csid during the connection that made a volume, and starts it again."""
        words = [sys.executable, "-c", KEEPER, self.server.path, create.hex()]
        with subprocess.Popen(words, stdout=subprocess.PIPE) as holder:
            self.assertEqual(holder.stdout.readline(), b"created\n")
            self.assertEqual(self.server.kill(), ("", -signal.SIGKILL))
            holder.kill()
        self.start()

    def test_volume_outlives_a_kill_within_a_connection(self):
        self.start()
        self.kill_within_a_connection(CREATE_A)
        self.assertEqual(self.ask("ListVolumes"), self.LISTED)
        self.assertEqual(self.ask("DeleteVolume", "--volume", "vol-1"), ("0 OK -\n", "", 0))
        self.assertEqual(self.ask("ListVolumes"), ("0 OK -\n", "", 0))

    def test_next_number_outlives_kills(self):
        self.start()
        self.create("a")
        self.server.kill()
        self.start()
        self.kill_within_a_connection(CREATE_B)
        listed = self.ask("ListVolumes")[0].splitlines()[1:]
        self.assertEqual(listed, ["volume vol-1 1048576 -", "volume vol-2 1048576 -"])
        self.assertEqual(self.ask("DeleteVolume", "--volume", "vol-2"), ("0 OK -\n", "", 0))
        self.assertEqual(self.ask("ListVolumes"), self.LISTED)

    def test_connection_over_a_broken_row_is_closed_until_it_is_fixed(self):
        self.start("--connections", "4")
        self.create("a")
        for pool in "p3", "p1":
            with contextlib.closing(self.connect()) as connection:
                connection.execute("UPDATE volumes SET pool = ?", (pool,))
            if pool == "p3":
                self.check_closed()
                self.check_closed("ListVolumes")
        self.assertEqual(self.ask("ListVolumes"), self.LISTED)
        line = "csid: %s: volume 1: its pool is not one of the configuration\n" % self.file
        self.assertEqual(self.server.end(), (line * 2, 0))

    def test_connection_is_closed_while_sqlite_has_the_file(self):
        self.start("--connections", "2")
        with contextlib.closing(self.connect()) as connection:
            connection.execute("BEGIN IMMEDIATE")
            self.check_closed()
        self.assertEqual(self.ask("Probe"), PROBED)
        self.assertEqual(self.server.end(), ("csid: %s: database is locked\n" % self.file, 0))

    def test_file_that_is_put_back_is_served(self):
        self.start("--connections", "3")
        self.create("a")
        self.connect().executescript("BEGIN IMMEDIATE; COMMIT")
        content = read(self.file)
        write(self.file, b"x" * len(content))
        self.check_closed()
        write(self.file, content)
        self.assertEqual(self.ask("ListVolumes"), self.LISTED)
        self.assertEqual(self.server.end(), ("csid: %s: %s\n" % (self.file, NO_DATABASE), 0))

    def remove_file(self):
        for path in self.file, self.file + "-wal":
            os.unlink(path)

    def test_new_tables_are_made_where_the_file_was_removed(self):
        self.start("--connections", "2")
        self.create("a")
        self.connect().executescript("BEGIN IMMEDIATE; COMMIT")
        self.remove_file()
        self.assertEqual(self.create("z"), ("0 OK %s\nvolume vol-1 1048576\n" % VOL_1, "", 0))
        self.assertEqual(self.server.end(), ("", 0))
        self.assertEqual([*self.connect().execute("PRAGMA integrity_check")], [("ok",)])

    def test_connection_goes_on_over_a_removed_file(self):
        self.start("--connections", "2")
        with self.server.connect() as peer:
            peer.sendall(CREATE_A)
            self.assertEqual(peer.recv(4096).count(b"vol-1"), 1)
            self.remove_file()
            peer.sendall(CREATE_B)
            self.assertEqual(peer.recv(4096).count(b"vol-2"), 1)
            self.assertEqual(done(peer), b"")
        self.assertEqual(self.ask("ListVolumes"), ("0 OK -\n", "", 0))
        self.assertEqual(self.server.end(), ("", 0))

    def test_tables_in_a_folder_that_is_made_later_are_served(self):
        self.file = self.path("no/such.db")
        self.start("--connections", "2")
        self.check_closed()
        os.mkdir(self.path("no"))
        self.assertEqual(self.ask("Probe"), PROBED)
        self.assertEqual(self.server.end(), ("csid: %s: unable to open database file\n" % self.file * 2, 0))
