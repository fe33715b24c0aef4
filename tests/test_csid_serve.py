"""`csid serve`: its lines, its files, and peers that send nothing or have gone."""

import contextlib
import fcntl
import os
import re
import resource
import shlex
import signal
import socket
import subprocess
import time

from tests.support.configs import sample
from tests.support.frames import (BLOCK, CREATE_A, CREATE_B, LONGEST, ONE, PROBE, READY, VOLUME_1, VOL_1,
                                  controller, fault, frame, reply)
from tests.support.processes import SECONDS, copy_for_nobody, has_ended, read, run, wait, write
from tests.support.rows import CsidTest, each
from tests.support.server import CROWDED, GONE, IDLE, KILLED, NEW, SLOW, Server, ended
from tests.support.tables import (BLOCK_CAPS, MANY, MIB, NO_DATABASE, NO_FILE, POOL, Tables, next_is,
                                  volume_fault)


def masked(mask):
    return lambda: os.umask(mask) and None


def access(path):
    return oct(os.stat(path).st_mode & 0o7777)


# Groups whose names are numbers, a group on two lines, a group without its number, and a group with the
# number that means no group.
GROUPS = b"7:x:8:\n8:x:9:root\nstaff:x:12:\nstaff:x:13:\nshort:x\nnone:x:4294967295:\n"


def few_files():
    resource.setrlimit(resource.RLIMIT_NOFILE, (48, 48))


def line_of(text):
    return "csid: %s\n" % text


class ServeTest(CsidTest):
    """`csid serve` over tables in the folder of the test."""

    def connect(self, server, given=b""):
        """Returns a connection that stays open until the test ends, after it has sent these bytes."""
        peer = self.enterContext(server.connect())
        peer.sendall(given)
        return peer


class SurveyTest(ServeTest):
    """The lines about the file at the start and for each connection."""

    def test_new_file_is_reported_once(self):
        server = self.serve()
        begun = server.line(NEW) + server.has(0, 0, 1)
        self.assertEqual(server.lines(), begun)
        self.assertEqual(server.ask(controller("CreateVolume", CREATE_A)), reply(VOLUME_1))
        self.assertEqual(server.end(), (begun, KILLED, True))

    def fill(self):
        """Makes tables with two volumes, and returns them. The first volume is attached."""
        publish = controller("ControllerPublishVolume", VOL_1 + bytes.fromhex("12026e31") + BLOCK)
        tables = self.tables
        tables.run(controller("CreateVolume", CREATE_A) + publish + controller("CreateVolume", CREATE_B))
        return tables

    def test_rows_are_counted_at_the_start(self):
        self.fill()
        server = self.serve()
        self.assertEqual(server.end(), (server.has(2, 1, 3), KILLED, True))

    def test_broken_row_is_reported_until_it_is_fixed(self):
        """The row is reported at the start and for each connection."""
        tables, listing = self.fill(), controller("ListVolumes")
        tables.script("UPDATE volumes SET pool = 'p3' WHERE number = 2")
        server = self.serve()
        broken = server.line(volume_fault(2, POOL))
        self.assertEqual(server.lines(), broken)
        self.assertEqual(server.ask(listing), b"")
        tables.script("UPDATE volumes SET pool = 'p2' WHERE number = 2")
        self.assertEqual(server.ask(listing).count(b"vol-"), 2)
        self.assertEqual(server.lines(), broken * 2)

    def test_file_that_was_removed_is_made_again(self):
        tables = self.fill()
        server = self.serve()
        self.assertEqual(server.ask(controller("ListVolumes")).count(b"vol-"), 2)
        for ending in "", "-wal":
            os.unlink(tables.path + ending)
        self.assertEqual(server.ask(controller("ListVolumes")), reply(b""))
        self.assertEqual(server.end(), (server.has(2, 1, 3) + server.line(NEW), KILLED, True))

    def test_file_that_is_no_database_is_reported(self):
        write(os.path.join(self.folder, "volumes.db"), b"x" * 5000)
        server = self.serve()
        self.assertEqual(server.end(), (server.line(NO_DATABASE), KILLED, True))

    def test_no_tables_are_made_where_the_socket_is_taken(self):
        """A second server at the same socket does not touch the file of the first server."""
        path = os.path.join(self.folder, "csid.sock")
        write(path, b"")
        self.assertEqual(self.serve().end(), (line_of(path + ": a file exists there already"), 7, True))
        self.assertEqual(os.listdir(self.folder), [])


class StoppedServer(Server):
    """A csid under strace that stops when its socket listens, before it opens the tables."""

    CALLS = "-e", "trace=listen,openat", "-e", "inject=listen:signal=SIGSTOP"

    def __init__(self, traced, folder, trace):
        self.trace = trace
        super().__init__(traced, folder)

    def wait_for_begin(self):
        if not wait(lambda: b"listen(" in read(self.trace)):
            raise ValueError("csid serve does not listen")
        self.csid = int(re.search(rb"(?m)^(\d+) +listen\(", read(self.trace))[1])

    def go_on(self):
        """Returns after csid has reported what the tables have."""
        os.kill(self.csid, signal.SIGCONT)
        super().wait_for_begin()

    def openings(self):
        """Returns the number of times that csid has opened the existing file of tables to write it."""
        return read(self.trace).count(b'"%s", O_RDWR|O_NOCTTY' % self.tables.encode())

    def end(self):
        with contextlib.suppress(ProcessLookupError):
            os.kill(self.csid, signal.SIGKILL)
        return super().end()


class FirstPeerTest(ServeTest):
    """A connection that is there before csid opens the tables."""

    def stopped(self):
        server = StoppedServer(self.traced(*StoppedServer.CALLS), self.folder, self.trace)
        self.addCleanup(server.end)
        return server

    def test_its_calls_are_answered_over_the_first_opening(self):
        server = self.stopped()
        peer = self.connect(server, controller("CreateVolume", CREATE_A))
        server.go_on()
        self.assertEqual(peer.recv(4096), reply(VOLUME_1))
        peer.sendall(controller("ListVolumes"))
        self.assertEqual(peer.recv(4096), ONE)
        self.assertEqual(server.openings(), 1)
        peer.close()
        self.assertEqual(server.ask(controller("ListVolumes")), ONE)
        self.assertEqual(server.openings(), 2)
        self.assertEqual(server.end(), (server.line(NEW) + server.has(0, 0, 1), KILLED, True))

    def test_call_that_has_come_in_part_is_answered(self):
        """The second part comes after the tables are open."""
        server = self.stopped()
        call = frame(PROBE, LONGEST)
        peer = self.connect(server, call[:5000])
        server.go_on()
        peer.sendall(call[5000:])
        self.assertEqual(peer.recv(4096), READY)

    def test_connection_without_a_call_is_refused(self):
        server = self.stopped()
        peer = self.connect(server, b"garbage")
        server.go_on()
        self.assertEqual(peer.recv(4096), fault("bad path length at byte 0")[0])
        self.assertEqual(server.ask(frame(PROBE)), READY)

    def test_peer_that_has_gone_is_reported(self):
        server = self.stopped()
        with server.connect() as peer:
            peer.sendall(controller("CreateVolume", CREATE_A))
        server.go_on()
        self.assertEqual(server.ask(controller("ListVolumes")), reply(b""))
        self.assertEqual(server.end()[0], server.line(NEW) + GONE + server.has(0, 0, 1))

    def test_connection_over_a_broken_file_is_closed(self):
        write(self.tables.path, b"x" * 5000)
        server = self.stopped()
        peer = self.connect(server, frame(PROBE))
        server.go_on()
        self.assertEqual(peer.recv(4096), b"")
        self.assertEqual(server.end()[0], server.line(NO_DATABASE) * 2)


class AccessTest(ServeTest):
    """The permissions of the socket and of new files."""

    def modes(self):
        return [access(os.path.join(self.folder, "volumes.db" + ending)) for ending in ("", "-wal")]

    @each([0, 0o022, 0o077, 0o777])
    def test_files_are_of_the_user_alone_whatever_the_mask(self, mask):
        server = self.serve(preexec_fn=masked(mask))
        self.assertEqual([access(server.path), *self.modes()], ["0o600"] * 3)
        self.assertEqual(server.ask(frame(PROBE)), READY)
        server.end()
        tables = self.tables.clear()
        self.assertEqual(tables.run(preexec_fn=masked(mask)), (b"", "", 0))
        self.assertEqual(self.modes(), ["0o600"] * 2)
        tables.clear()

    def test_log_gets_the_mode_of_an_existing_file(self):
        tables = self.tables.new()
        os.chmod(tables.path, 0o640)
        os.unlink(tables.path + "-wal")
        self.serve(preexec_fn=masked(0))
        self.assertEqual(self.modes(), ["0o640"] * 2)

    def groups(self):
        """Returns words for groups that this user may give a file to, and their numbers: a group of the user
        (for root any group), and its own group."""
        with open("/etc/group") as file:
            names = {int(line.split(":")[2]): line.split(":")[0] for line in file if line.count(":") == 3}
        own = [it for it in (names if os.geteuid() == 0 else os.getgroups()) if it in names]
        words = [(word, it) for it in own if it != os.getegid() for word in (names[it], str(it))]
        return words[:2] + [(str(os.getegid()), os.getegid())]

    def test_socket_has_the_given_group(self):
        for word, number in self.groups():
            with self.subTest(group=word):
                server = self.serve("--group", word, preexec_fn=masked(0o077))
                self.assertEqual((access(server.path), os.stat(server.path).st_gid), ("0o660", number))
                self.assertEqual(server.ask(frame(PROBE)), READY)
                server.end()

    def check_unknown(self, server, word):
        """An empty name is shown as ''."""
        name = word or "''"
        self.assertEqual(server.end(), (line_of(name + ": there is no such group in /etc/group"), 7, False))

    @each(["no-such-group", "", "4294967295", "+1", "root:x"])
    def test_unknown_group_is_refused(self, word):
        self.check_unknown(self.serve("--group", word), word)

    def test_group_that_may_not_be_given_is_refused(self):
        if os.geteuid() != 0:
            self.skipTest("another user may give the group of root to nothing")
        program, how = copy_for_nobody(self.csid, self.folder)
        server = Server(program, self.folder, "--group", "0", **how)
        line = line_of(server.path + ": Operation not permitted (os error 1)")
        self.assertEqual(server.end(), (line, 7, False))

    def test_group_is_sought_by_name_and_then_by_number(self):
        """csid sees another /etc/group, in which some groups have numbers as names. A word that is no number
        is refused if no valid group there has this name."""
        groups, program = os.path.join(self.folder, "groups"), os.path.join(self.folder, "csid-with-groups")
        write(groups, GROUPS)
        bind = 'exec unshare --mount sh -c \'mount --bind "$0" /etc/group && exec "$@"\' %s %s "$@"\n'
        write(program, ("#!/bin/sh\n" + bind % (shlex.quote(groups), shlex.quote(self.csid))).encode())
        os.chmod(program, 0o755)
        try:
            can = run([program, "--version"])[2] == 0
        except OSError:
            can = False
        if not can:
            self.skipTest("no other /etc/group can be put in the place of this one here")
        for word, number in [("7", 8), ("8", 9), ("9", 9), ("staff", 12), ("13", 13)]:
            with self.subTest(group=word):
                server = Server(program, self.folder, "--group", word)
                self.assertEqual(os.stat(server.path).st_gid, number)
                server.end()
        for word in "short", "none", "root":
            with self.subTest(group=word):
                self.check_unknown(Server(program, self.folder, "--group", word), word)


class IdleTest(ServeTest):
    """With --idle, a peer that sends or reads nothing is closed."""

    def setUp(self):
        super().setUp()
        self.server = self.serve("--idle", "3")
        self.begun = self.server.lines()

    def test_silent_peer_is_closed_after_the_seconds(self):
        """A later connection is answered first."""
        peer = self.connect(self.server)
        self.assertEqual(self.server.ask(frame(PROBE)), READY)
        self.assertEqual(self.server.lines(), self.begun)
        self.assertTrue(has_ended(peer, (1, 12)))
        self.assertTrue(wait(lambda: self.server.lines() == self.begun + IDLE))

    def test_peer_with_a_part_of_a_call_is_closed(self):
        peer = self.connect(self.server, frame(PROBE)[:5])
        self.assertTrue(has_ended(peer, (1, 12)))
        self.assertTrue(wait(lambda: self.server.lines() == self.begun + IDLE))

    def test_slow_peer_that_sends_in_time_is_answered(self):
        peer, create = self.connect(self.server), controller("CreateVolume", CREATE_A)
        for piece in [bytes([byte]) for byte in create[:3]] + [create[3:]] + [frame(PROBE)]:
            time.sleep(1)
            peer.sendall(piece)
        wanted, came = reply(VOLUME_1) + READY, b""
        while len(came) < len(wanted):
            came += peer.recv(4096)
        self.assertEqual(came, wanted)
        peer.shutdown(socket.SHUT_WR)
        self.assertEqual(peer.recv(1), b"")
        self.assertEqual(self.server.ask(controller("ListVolumes")), ONE)

    def test_peer_that_takes_no_reply_is_closed(self):
        peer = self.connect(self.server)
        peer.settimeout(SECONDS)
        with contextlib.suppress(TimeoutError, BrokenPipeError, ConnectionResetError):
            while peer.send(frame(PROBE) * 1000):
                pass
        self.assertEqual(self.server.ask(frame(PROBE)), READY)
        self.assertEqual(self.server.end()[0], self.begun + line_of("a write to a connection failed"))

    def test_without_the_option_a_silent_peer_is_waited_for(self):
        self.server.end()
        peer = self.connect(self.serve())
        time.sleep(2)
        peer.sendall(frame(PROBE))
        self.assertEqual(peer.recv(4096), READY)


class StayingPeersTest(ServeTest):
    """Peers that send nothing or garbage keep no other peer waiting."""

    PARTS = [frame(PROBE)[:size] for size in (0, 1, 2, 20, 28)]

    def hold(self, count):
        """Returns a server, and this many connections to it. Each connection has sent a part of a call. Five
        lengths of parts alternate."""
        server = self.serve()
        return server, [self.connect(server, self.PARTS[it % len(self.PARTS)]) for it in range(count)]

    def test_peers_in_part_keep_nobody_waiting_and_go_on(self):
        server, held = self.hold(255)
        begun = server.lines()
        self.assertEqual(server.ask(frame(PROBE) * 3), READY * 3)
        for number, call in (254, frame(PROBE)), (0, frame(PROBE)), (1, frame(PROBE, LONGEST)):
            with self.subTest(number=number):
                held[number].sendall(call[len(self.PARTS[number % len(self.PARTS)]) :])
                self.assertEqual(held[number].recv(4096), READY)
                held[number].close()
        self.assertEqual(server.lines(), begun)

    def test_oldest_peer_beyond_256_is_closed(self):
        server, held = self.hold(256)
        begun = server.lines()
        more = [self.connect(server) for _ in range(7)]
        self.assertTrue(has_ended(held[0], (0, 10)))
        self.assertEqual(server.ask(frame(PROBE)), READY)
        more[6].sendall(frame(PROBE))
        self.assertEqual(more[6].recv(4096), READY)
        # 256 waited, and 8 more came.
        counts = ended(server.lines()[len(begun) :], CROWDED)
        self.assertEqual(set(counts) - {"of a line", "made room for others"}, set())
        self.assertEqual(sum(counts.values()), 8)

    def test_peer_that_was_answered_and_has_gone_leaves_its_place(self):
        server, held = self.hold(255)
        begun = server.lines()
        for number in 254, 0, 1:
            held[number].sendall(frame(PROBE)[len(self.PARTS[number % len(self.PARTS)]) :])
            self.assertEqual(held[number].recv(4096), READY)
            held[number].close()
        more = [self.connect(server) for _ in range(10)]
        self.assertTrue(has_ended(held[2], (0, 10)))
        more[9].sendall(frame(PROBE))
        self.assertEqual(more[9].recv(4096), READY)
        # 252 waited, and 10 more came: 6 of the others were closed.
        counts = ended(server.lines()[len(begun) :], CROWDED)
        self.assertEqual(sum(counts.values()), 6)

    def test_garbage_of_a_peer_that_stays_is_refused(self):
        """The connection is closed, and the next one is answered."""
        server = self.serve()
        garbage, waiting = self.connect(server, b"garbage"), self.connect(server, frame(PROBE))
        self.assertEqual(garbage.recv(4096), fault("bad path length at byte 0")[0])
        self.assertTrue(has_ended(garbage, (0, 10)))
        self.assertEqual(waiting.recv(4096), READY)

    def test_garbage_opens_no_tables(self):
        server = self.serve(tables=os.path.join(self.folder, "no", "such.db"))
        begun, bad, cut = server.lines(), fault("bad path length at byte 0"), fault("end of input at byte 7")
        self.assertEqual(server.ask(b"garbage"), bad[0])
        self.assertEqual(server.ask(frame(PROBE)[:7]), cut[0])
        self.assertEqual(server.ask(b""), b"")
        self.assertEqual(server.end()[0], begun + bad[1] + cut[1])


class UnreadErrorTest(CsidTest):
    """The standard error of csid is not read. Calls are answered."""

    def setUp(self):
        super().setUp()
        self.path, away = os.path.join(self.folder, "csid.sock"), os.path.join(self.folder, "no", "such.db")
        self.readable, writable = os.pipe()
        fcntl.fcntl(writable, fcntl.F_SETPIPE_SZ, 8192)
        self.process = subprocess.Popen([self.csid, "serve", "--socket", self.path, "--tables", away],
                                        stdin=subprocess.DEVNULL, stdout=subprocess.DEVNULL, stderr=writable)
        self.addCleanup(self.process.wait)
        self.addCleanup(self.process.kill)
        self.addCleanup(os.close, writable)
        self.line = line_of("%s: %s" % (away, NO_FILE))
        self.assertEqual(self.read(), self.line.encode())
        os.write(writable, b"x" * 8192)

    def read(self):
        return os.read(self.readable, 1 << 16)

    def ask(self, given):
        with socket.socket(socket.AF_UNIX) as peer:
            peer.settimeout(SECONDS)
            peer.connect(self.path)
            peer.sendall(given)
            try:
                return peer.recv(1 << 16)
            except ConnectionResetError:
                return b""

    def test_lines_that_cannot_be_written_are_counted(self):
        """There is a line for each unanswered call, and for garbage. The count comes once the pipe is read
        again."""
        refused = fault("bad path length at byte 0")[0]
        self.assertEqual({self.ask(frame(PROBE)) for _ in range(300)}, {b""})
        self.assertEqual(self.ask(b"garbage"), refused)
        self.ask(frame(PROBE))
        self.assertEqual(self.read(), b"x" * 8192)
        self.ask(frame(PROBE))
        self.assertEqual(self.read().decode(), "csid: 302 lines could not be written\n" + self.line)
        os.close(self.readable)

    def test_calls_are_answered_where_the_pipe_is_closed(self):
        os.close(self.readable)
        refused = fault("bad path length at byte 0")[0]
        self.assertEqual([self.ask(b"garbage") for _ in range(3)], [refused] * 3)
        self.assertIsNone(self.process.poll())


class EndsTest(ServeTest):
    """The end of each connection has its own line, or is in a count if many end in a second."""

    def setUp(self):
        super().setUp()
        self.server = self.serve("--idle", "1")
        self.begun = self.server.lines()

    def new_lines(self):
        return self.server.lines()[len(self.begun) :]

    def check_counts(self, line, counts):
        """Waits until all ended connections are reported, and compares how many have a line and how many are
        in each count."""
        wait(lambda: sum(ended(self.new_lines(), line).values()) == sum(counts.values()))
        self.assertEqual(dict(ended(self.new_lines(), line)), counts)

    def send_and_go(self, pieces):
        """Each piece is sent by a peer that has gone before csid reads it."""
        # A stopped csid accepts no connection. The system keeps the connections for it.
        os.kill(self.server.process.pid, signal.SIGSTOP)
        for piece in pieces:
            with self.server.connect() as peer:
                peer.sendall(piece)
        os.kill(self.server.process.pid, signal.SIGCONT)

    def test_silent_peers_have_ten_lines_and_a_count(self):
        for _ in range(200):
            self.connect(self.server)
        self.check_counts(IDLE, {"of a line": 10, "sent nothing in time": 190})
        # Ten lines, and one for each second.
        self.assertLessEqual(self.new_lines().count("\n"), 13)

    def test_peers_that_have_gone_have_ten_lines_and_a_count(self):
        """For peers that sent nothing there is no line."""
        self.send_and_go([frame(PROBE)[:7]] * 30 + [frame(PROBE)] * 30 + [b""] * 30)
        self.check_counts(GONE, {"of a line": 10, "had gone": 50})

    def test_ends_have_lines_again_after_a_second(self):
        for _ in range(2):
            self.send_and_go([frame(PROBE)[:7]] * 60)
            self.check_counts(GONE, {"of a line": 10, "had gone": 50})
            time.sleep(1.1)
            self.begun = self.server.lines()
        self.send_and_go([frame(PROBE)[:7]])
        self.assertTrue(wait(lambda: self.new_lines() == GONE))

    def test_peers_with_garbage_are_counted(self):
        line = line_of("bad path length at byte 0")
        refused = fault(line[6:-1])[0]
        self.assertEqual({self.server.ask(b"garbage") for _ in range(30)}, {refused})
        self.assertTrue(wait(lambda: sum(ended(self.new_lines(), line).values()) == 30))
        self.assertEqual(set(ended(self.new_lines(), line)), {"of a line", "sent a malformed frame"})

    def test_peer_that_goes_after_half_a_frame_has_a_line(self):
        with self.server.connect() as peer:
            peer.sendall(frame(PROBE)[:7])
        self.assertTrue(wait(lambda: self.new_lines() == GONE))


class WaitingPeersTest(ServeTest):
    """Idle peers share a second while others wait. A call has its time from its first byte."""

    def test_idle_peers_are_given_a_second_in_all(self):
        """With a second for each it would take eight seconds."""
        server = self.serve("--idle", "60")
        begun, begin = server.lines(), time.monotonic()
        held = [self.connect(server, frame(PROBE)) for _ in range(8)]
        self.assertEqual(self.connect(server, frame(PROBE)).recv(4096), READY)
        self.assertLess(time.monotonic() - begin, 5)
        self.assertEqual([(peer.recv(4096), peer.recv(1)) for peer in held], [(READY, b"")] * 8)
        self.assertTrue(wait(lambda: server.lines() == begun + IDLE * 8))

    def test_peer_that_nobody_waits_for_stays(self):
        """A connection that has sent only a part of a call is not waiting."""
        server = self.serve("--idle", "60")
        peer = self.connect(server, frame(PROBE))
        self.assertEqual(peer.recv(4096), READY)
        for given in b"", frame(PROBE)[:20]:
            self.connect(server, given)
            time.sleep(1.5)
            peer.sendall(frame(PROBE))
            self.assertEqual(peer.recv(4096), READY)

    def test_byte_now_and_then_does_not_make_the_time_of_a_call_longer(self):
        """This holds for a long call that is being served, and for a call that is not served yet."""
        server = self.serve()
        begun = server.lines()
        slow, part = self.connect(server), self.connect(server)
        # If this many end at once, some have no line of their own.
        for _ in range(40):
            self.connect(server, frame(PROBE)[:20])
        slow.sendall(frame(PROBE, LONGEST)[:5000])
        part.sendall(frame(PROBE)[:20])
        for number in range(16):
            time.sleep(0.5)
            slow.sendall(b"\0")
            part.sendall(frame(PROBE)[20 + number // 2 : 20 + (number + 1) // 2])
        self.assertTrue(has_ended(slow, (0.5, 8)))
        self.assertTrue(has_ended(part, (0, 8)))
        self.assertTrue(wait(lambda: sum(ended(server.lines()[len(begun) :], SLOW).values()) == 42))
        counts = ended(server.lines()[len(begun) :], SLOW)
        self.assertEqual(set(counts), {"of a line", "sent no whole call in time"})

    def test_call_after_1000_peers_with_garbage_waits_less_than_5_seconds(self):
        server = self.serve()
        garbage = [b"garbage", frame(PROBE, flag=1)]
        for number in range(1000):
            self.connect(server, garbage[number % 2] if number % 20 else frame(PROBE) + b"garbage")
        begin = time.monotonic()
        self.assertEqual(server.ask(frame(PROBE)), READY)
        self.assertLess(time.monotonic() - begin, 5)

    def test_peers_without_a_call_make_room_where_descriptors_are_scarce(self):
        """csid has descriptors for about 40 connections, and 200 connections come that send nothing. csid
        closes some of them, several at a time, and then answers a call."""
        server = self.serve(preexec_fn=few_files)
        begun = server.lines()
        for _ in range(200):
            self.connect(server)
        self.assertEqual(server.ask(frame(PROBE)), READY)
        said = server.end()[0][len(begun) :]
        scarce = line_of("no further connection can be taken: Too many open files (os error 24)")
        told = {it for it in said.splitlines(True) if "more connections ended" not in it}
        self.assertEqual(told, {CROWDED, scarce})
        self.assertTrue(6 < said.count(scarce) < 12)


class GonePeersTest(ServeTest):
    """The tables are not opened for a peer that has gone."""

    def send_and_go(self, server, given):
        """Connections send and close while csid is stopped. The system keeps them for it."""
        os.kill(server.process.pid, signal.SIGSTOP)
        for it in given:
            with server.connect() as peer:
                peer.sendall(it)

    def test_only_a_peer_that_stays_opens_the_tables(self):
        server = self.serve(tables=os.path.join(self.folder, "no", "such.db"))
        refused = server.line(NO_FILE)
        self.assertEqual(server.lines(), refused)
        self.send_and_go(server, [b"", frame(PROBE), frame(PROBE) * 1000, b"garbage"])
        stays = self.connect(server, frame(PROBE))
        stays.shutdown(socket.SHUT_WR)
        os.kill(server.process.pid, signal.SIGCONT)
        self.assertTrue(has_ended(stays, (0, 10)))
        self.assertEqual(server.end(), (refused + GONE * 3 + refused, KILLED, True))

    def test_call_after_1000_that_have_gone_waits_less_than_5_seconds(self):
        """The file takes a while to open. None of the calls is made. A connection that sent bytes has a line
        or is in a count, and a connection that sent nothing is not reported."""
        config = self.configure(sample((b"10485760", b"%d" % (20000 * MIB))))
        self.tables.new().script(MANY % (20000, BLOCK_CAPS) + next_is(20001))
        server = self.serve("--config", config)
        self.assertEqual(server.lines(), server.has(20000, 0, 20001))
        given = [b"", controller("CreateVolume", CREATE_A), b"garbage" * 20]
        self.send_and_go(server, [given[number % 3] for number in range(1000)])
        begin = time.monotonic()
        live = self.connect(server, frame(PROBE))
        os.kill(server.process.pid, signal.SIGCONT)
        self.assertEqual(live.recv(4096), READY)
        self.assertLess(time.monotonic() - begin, 5)
        live.close()
        after_all = controller("ListVolumes", bytes.fromhex("0801 1205 3230303030"))
        self.assertEqual(server.ask(after_all), reply(b""))
        self.assertTrue(wait(lambda: sum(ended(server.lines(), GONE).values()) == 666))
        self.assertEqual(dict(ended(server.end()[0], GONE)), {"of a line": 10, "had gone": 656})
