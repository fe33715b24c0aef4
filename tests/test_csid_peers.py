"""Peers of `csid serve` that keep others waiting, and the time that they have."""

import contextlib
import os
import pathlib
import socket
import subprocess
import sys
import threading
import time

from tests.support.frames import (CREATE_A, LONGEST, PROBE, READY, VOLUME_1, controller, frame, reply)
from tests.support.processes import SECONDS, has_ended, run, wait
from tests.support.rows import CsidTest
from tests.support.server import IDLE, SLOW, Server
from tests.support.tables import BLOCK_CAPS, MANY, Tables, next_is

# Sends the same calls over the socket with this descriptor, without end.
SENDER = """
import socket, sys
peer, calls = socket.socket(fileno=int(sys.argv[1])), bytes.fromhex(sys.argv[2]) * 1000
peer.setblocking(True)
while True:
    peer.sendall(calls)
"""

PREEMPTED = "csid: a connection that kept another one waiting was closed\n"

# The first bytes of a long call. A connection is served before it has sent that much.
PART = frame(PROBE, LONGEST)[:5000]

# A call to send in two parts: its message is an unknown field of 6,003 bytes.
LATE = frame(PROBE, bytes.fromhex("7a f02e") + b"x" * 6000)


def drip(peer, seconds):
    """Sends a byte each quarter of a second, until the connection is closed or `seconds` have passed."""
    with contextlib.suppress(OSError):
        for _ in range(4 * seconds):
            peer.sendall(b"\0")
            time.sleep(0.25)


def processor_seconds(pid):
    """Returns the processor seconds of a process."""
    user, system = pathlib.Path("/proc/%d/stat" % pid).read_text().rpartition(")")[2].split()[11:13]
    return (int(user) + int(system)) / os.sysconf("SC_CLK_TCK")


class PeersTest(CsidTest):
    """Peers that keep other peers waiting, and the time that they have."""

    def setUp(self):
        super().setUp()
        self.server = self.serve()
        self.peers = self.enterContext(contextlib.ExitStack())

    def connect(self, given=b""):
        """Returns a connection that stays open, after it has sent these bytes."""
        peer = self.peers.enter_context(self.server.connect())
        peer.sendall(given)
        return peer

    def seconds_of(self, ask):
        begin = time.monotonic()
        self.assertEqual(ask(), READY)
        return time.monotonic() - begin

    def test_second_is_shared_by_all_that_wait(self):
        """Eight peers send a part of a call and stop. With a second for each it would take eight seconds."""
        held = [self.connect(PART) for _ in range(8)]
        self.assertLess(self.seconds_of(lambda: self.server.ask(frame(PROBE))), 5)
        self.assertEqual([peer.recv(4096) for peer in held], [b""] * 8)

    def test_second_counts_from_the_peer_that_has_waited_longest(self):
        """A new peer connects every quarter of a second. That must not restart the second."""

        def come():
            with contextlib.suppress(OSError):
                for _ in range(40):
                    self.connect(frame(PROBE))
                    time.sleep(0.25)

        self.connect(PART)
        threading.Thread(target=come, daemon=True).start()
        self.assertLess(self.seconds_of(lambda: self.server.ask(frame(PROBE))), 5)

    def count_late(self, calls):
        """Sends each call in two parts 40 ms apart, while another peer has waited for more than a second.
        Returns how many calls were answered."""
        first, late = self.connect(PART), self.connect(LATE[:5000])
        self.connect(frame(PROBE))
        self.assertEqual(first.recv(1), b"")
        came = b""
        with contextlib.suppress(OSError):
            for _ in range(calls):
                time.sleep(0.04)
                late.sendall(LATE[5000:] + LATE[:5000])
            late.shutdown(socket.SHUT_WR)
            while piece := late.recv(4096):
                came += piece
        return came.count(READY)

    def test_each_call_may_be_late_by_a_moment_where_others_wait(self):
        """The call may be up to 100 ms late. The machine may be slow, so one of ten tries must succeed."""
        self.assertTrue(any(self.count_late(5) == 5 for _ in range(10)))

    def test_peer_with_nothing_new_is_closed_at_once_where_others_wait(self):
        """21 peers send one call each, and stay connected. The first one keeps the others waiting for a
        second. No time is left to the others: each is answered, and closed at once since no further call of
        it has come."""
        first, begin = self.connect(frame(PROBE)), time.monotonic()
        others = [self.connect(frame(PROBE)) for _ in range(20)]
        self.assertEqual([peer.recv(4096) for peer in [first] + others], [READY] * 21)
        self.assertLess(time.monotonic() - begin, 8)
        said = self.server.lines()
        self.assertIn(IDLE, said)
        self.assertNotIn(PREEMPTED, said)

    def test_peer_that_reads_no_reply_keeps_others_for_a_second(self):
        """Its connection is then closed, and reported as one that kept another one waiting."""
        begun, peer = self.server.lines(), self.connect()
        peer.settimeout(0.5)
        with contextlib.suppress(TimeoutError):
            while True:
                peer.sendall(frame(PROBE) * 1000)
        self.assertLess(self.seconds_of(lambda: self.server.ask(frame(PROBE))), 5)
        self.assertEqual(self.server.lines(), begun + PREEMPTED)

    def test_call_that_comes_byte_by_byte_keeps_others_for_a_second_in_all(self):
        """Three peers send a part of a call and then a byte now and then. Alone, each would have ten seconds.
        """
        for _ in range(3):
            peer = self.connect(PART)
            threading.Thread(target=drip, args=(peer, 40), daemon=True).start()
        self.assertLess(self.seconds_of(lambda: self.server.ask(frame(PROBE))), 9)
        self.assertTrue(wait(lambda: PREEMPTED in self.server.lines()))

    def test_seconds_of_a_call_count_from_its_first_byte(self):
        """Seven seconds pass before a peer has sent enough to be served: three are left to it."""
        peer, begin = self.connect(PART[:100]), time.monotonic()
        time.sleep(7)
        peer.sendall(PART[100:])
        threading.Thread(target=drip, args=(peer, 20), daemon=True).start()
        self.assertTrue(has_ended(peer, (0, 20)))
        self.assertTrue(9 < time.monotonic() - begin < 16)
        self.assertTrue(wait(lambda: SLOW in self.server.lines()))

    def test_peer_that_waits_alone_may_send_a_call_slowly(self):
        """No other peer is ready, so this peer may send a byte now and then for ten seconds."""
        peer = self.connect()
        call = frame(PROBE)
        for at in range(0, len(call), 4):
            peer.sendall(call[at : at + 4])
            time.sleep(0.5)
        self.assertEqual(peer.recv(4096), READY)

    def connect_alone(self):
        """Starts another server, and returns the only connection to it."""
        folder = os.path.join(self.folder, "alone")
        os.mkdir(folder)
        server = Server(self.csid, folder)
        self.addCleanup(server.end)
        return self.peers.enter_context(server.connect())

    def send_always(self, peer):
        """Sends calls without a pause, from another process, since the test itself would delay a thread.
        Returns once replies wait to be read, so that csid always has a call to answer."""
        words = [sys.executable, "-c", SENDER, str(peer.fileno()), frame(PROBE).hex()]
        sender = subprocess.Popen(words, pass_fds=[peer.fileno()], stderr=subprocess.DEVNULL)
        self.addCleanup(sender.wait, SECONDS)
        self.addCleanup(sender.kill)
        peer.recv(1, socket.MSG_PEEK)
        time.sleep(0.2)

    def test_busy_peer_is_closed_between_two_calls_after_a_minute(self):
        """The peer always sends calls, and each reply is complete. Without other waiting peers it is not
        closed."""
        alone, busy = self.connect_alone(), self.connect()
        alone.sendall(frame(PROBE))
        self.send_always(busy)
        other, came, begin = self.connect(frame(PROBE)), 0, time.monotonic()
        with contextlib.suppress(OSError):
            while piece := busy.recv(1 << 16):
                came += len(piece)
        took = time.monotonic() - begin
        self.assertTrue(55 < took < 80, took)
        self.assertEqual(came % len(READY), 0)
        self.assertEqual(other.recv(4096), READY)
        self.assertTrue(wait(lambda: PREEMPTED in self.server.lines()))
        for _ in range(2):
            self.assertEqual(alone.recv(4096), READY)
            alone.sendall(frame(PROBE))
        self.assertEqual(alone.recv(4096), READY)

    def test_one_that_comes_again_is_served_after_one_that_waited(self):
        """Connections are served in the order of their arrival."""
        first, waited = self.connect(frame(PROBE)), self.connect(frame(PROBE))
        self.assertEqual(first.recv(4096), READY)
        again = self.connect(frame(PROBE))
        self.assertEqual(waited.recv(4096), READY)
        self.assertEqual(again.recv(4096), READY)


class SlowPeerTest(CsidTest):
    """Slow peers while no other peer waits."""

    def test_pages_are_whole_for_a_reader_that_begins_late(self):
        """The replies fill the socket's buffer, and csid waits in the middle of a reply."""
        tables = self.tables.new()
        tables.script(MANY % (10, BLOCK_CAPS) + next_is(11))
        listing = controller("ListVolumes")
        page = tables.run(listing)[0]
        server = self.serve()
        with server.connect() as peer:
            threading.Thread(target=peer.sendall, args=(listing * 2000,), daemon=True).start()
            time.sleep(3)
            came, begin = b"", time.monotonic()
            while len(came) < 2000 * len(page) and (piece := peer.recv(1 << 16)):
                came += piece
        self.assertEqual(came == page * 2000, True)
        self.assertLess(time.monotonic() - begin, 5)

    def test_reply_must_be_taken_in_ten_seconds(self):
        server = self.serve()
        with server.connect() as peer:
            peer.settimeout(1)
            with contextlib.suppress(TimeoutError):
                while True:
                    peer.sendall(frame(PROBE) * 1000)
            begin = time.monotonic()
            peer.settimeout(SECONDS)
            with contextlib.suppress(BrokenPipeError, ConnectionResetError):
                while True:
                    peer.sendall(frame(PROBE) * 1000)
            self.assertTrue(6 < time.monotonic() - begin < 20)

    def test_call_whose_second_half_comes_late_is_answered(self):
        server = self.serve()
        create = controller("CreateVolume", CREATE_A)
        with server.connect() as peer:
            peer.sendall(frame(PROBE) + create[:20])
            self.assertEqual(peer.recv(4096), READY)
            time.sleep(2.5)
            peer.sendall(create[20:])
            self.assertEqual(peer.recv(4096), reply(VOLUME_1))

    def test_connection_may_last_longer_than_a_call(self):
        """The peer makes a call each second. The time of a call ends with its reply."""
        server = self.serve()
        with server.connect() as peer:
            for _ in range(12):
                peer.sendall(frame(PROBE))
                self.assertEqual(peer.recv(4096), READY)
                time.sleep(1)

    def test_byte_now_and_then_does_not_make_the_time_of_a_call_longer(self):
        """The peer has not sent enough to be served."""
        server = self.serve()
        with server.connect() as peer:
            begin = time.monotonic()
            with contextlib.suppress(OSError):
                for byte in frame(PROBE)[:25]:
                    peer.sendall(bytes([byte]))
                    time.sleep(0.8)
            self.assertTrue(has_ended(peer, (0, 5)))
            self.assertTrue(9 < time.monotonic() - begin < 16)

    def test_each_silent_peer_has_its_own_time(self):
        """The second peer comes when half of the first peer's time has passed."""
        server = self.serve("--idle", "6")
        with server.connect() as first:
            begin = time.monotonic()
            time.sleep(3)
            with server.connect() as second:
                self.assertTrue(has_ended(first, (0, 10)))
                self.assertTrue(5 < time.monotonic() - begin < 8.5)
                self.assertTrue(has_ended(second, (0, 10)))
                self.assertTrue(8.5 < time.monotonic() - begin < 14)

    def test_idle_seconds_count_from_the_last_call(self):
        server = self.serve("--idle", "4")
        with server.connect() as peer:
            for pause in 2.2, 2.2, 2.2, 0:
                peer.sendall(frame(PROBE))
                self.assertEqual(peer.recv(4096), READY)
                time.sleep(pause)
            self.assertTrue(has_ended(peer, (2, 12)))

    def test_waiting_takes_no_time_of_a_processor(self):
        """Each peer sends these bytes, and then neither sends nor reads."""
        server = self.serve()
        for name, given in [
            ("nothing", b""),
            ("a part of a call", PART[:100]),
            ("most of a call", PART),
            ("a call", frame(PROBE)),
            ("calls, and reads no reply", frame(PROBE) * 100_000),
        ]:
            with self.subTest(name=name), server.connect() as peer:
                peer.settimeout(1.5)
                with contextlib.suppress(TimeoutError):
                    peer.sendall(given)
                time.sleep(1.5)
                begin = processor_seconds(server.process.pid)
                time.sleep(1)
                self.assertLess(processor_seconds(server.process.pid) - begin, 0.1)

    def test_first_call_above_4096_bytes_is_in_the_tables(self):
        """A connection with 4,096 bytes of a call is served before the call is complete."""
        parameters = bytes.fromhex("22 8420 0a01 6b 12fe1f") + b"v" * 4094
        server = Server(self.csid, self.folder)
        self.assertEqual(server.ask(controller("CreateVolume", CREATE_A + parameters)), reply(VOLUME_1))
        server.end()
        self.assertEqual(self.tables.ask("SELECT count(*) FROM volumes"), [(1,)])


class LastPeerTest(CsidTest):
    """The end of `csid serve --connections`."""

    def test_silent_last_peer_is_closed_without_idle(self):
        server = Server(self.csid, self.folder, "--connections", "1")
        begun = server.lines()
        with server.connect() as peer:
            self.assertTrue(has_ended(peer, (5, 25)))
        server.process.wait(SECONDS)
        self.assertEqual(server.end()[:2], (begun + IDLE, 0))


class KindTest(CsidTest):
    """csid refuses a named pipe in the place of a file of tables or of its WAL."""

    def test_named_pipe_is_refused(self):
        tables = self.tables
        os.mkfifo(tables.path)
        self.assertEqual(tables.run(), tables.says("it is no regular file"))

    def test_named_pipe_is_refused_before_the_socket_is_made(self):
        tables, path = self.tables, os.path.join(self.folder, "csid.sock")
        os.mkfifo(tables.path)
        for words in [], ["--existing"]:
            with self.subTest(words=words):
                command = [self.csid, "serve", "--socket", path, "--tables", tables.path] + words
                self.assertEqual(run(command, input=b""), tables.says("it is no regular file"))
                self.assertFalse(os.path.exists(path))

    def test_named_pipe_for_a_wal_is_refused(self):
        tables = self.tables.new()
        os.unlink(tables.path + "-wal")
        os.mkfifo(tables.path + "-wal")
        self.assertEqual(tables.run(), tables.says("it is no regular file"))
