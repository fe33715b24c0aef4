"""`csictl call` over csid, and over servers that a test plays."""

import contextlib
import os
import select
import shutil
import socket
import subprocess
import sys
import threading
import time

from tests.support.csictl import (CREATE, EXISTS, IDENTITY, Line, READY, Server, VOL_1, call, ok, refusal,
                                  run, text)
from tests.support.data import tables
from tests.support.peers import CLOSED, RESET, SILENT, Peer
from tests.support.processes import SECONDS, copy_for_nobody
from tests.support.rows import CsictlTest, each


# Begins a call, prints a line, and waits.
HOLDER = """
import socket
import sys
import time
peer = socket.socket(socket.AF_UNIX)
peer.connect(sys.argv[1])
peer.sendall(b"\\0\\x16/csi")
print("begun", flush=True)
time.sleep(60)
"""

CUT_SHORT, GARBAGE = READY[:5], b"HTTP/1.1 400 Bad Request\r\n"
# Heads of frames of HTTP/2 on stream 0: SETTINGS with one setting, as grpc-go begins, and without one (RFC
# 9113, 4.1 and 6.5).
SETTINGS, NO_SETTINGS = (bytes.fromhex("000006 04 00 00000000 000500004000"),
                         bytes.fromhex("000000 04 00 00000000"))
NO_REPLY, NOT_READ, LATE, AT_BYTE_5 = ("closed without a reply", "a read failed",
                                       "no reply within the time of --timeout", "end of input at byte 5")
SHOWN = "0 OK 0a020801\nready true\n"

ROWS = tables("csictl_call", globals())


def waits(path):
    """Returns the line of a try that has no reply after 3 seconds."""
    return (
        "csictl: %s: no reply for 3 s, still waiting: csid serves one connection at a time, and a front keeps"
        " it until it had no call for a second (use its control socket); --timeout bounds the wait\n" % path
    )


PROBE = call(IDENTITY + "Probe", "")


class CallTest(CsictlTest):
    def call(self, path, *words, **how):
        """Makes a call to a socket by csictl. Returns the output, the errors and the status."""
        return text(run([self.csictl, "call", "--socket", path, "--method", *words], input=b"", **how))

    def serve(self, *words):
        server = Server(self.csid, os.path.join(self.folder, "a.sock"), *words)
        self.addCleanup(server.process.wait)
        self.addCleanup(server.process.kill)
        return server

    def listen(self, backlog):
        """Returns a socket that accepts no connection, and its path."""
        path = os.path.join(self.folder, "peer.sock")
        listener = self.enterContext(socket.socket(socket.AF_UNIX))
        listener.bind(path)
        listener.listen(backlog)
        return listener, path


class CsidCallsTest(CallTest):
    """csictl calls csid at a socket."""

    def setUp(self):
        super().setUp()
        self.server = self.serve()

    def ask(self, *words):
        return self.call(self.server.path, *words)

    def create(self, *words):
        return self.ask(CREATE, "--name", "a", "--mode", "1", *words)

    def test_probe_is_answered(self):
        self.assertEqual(self.ask("Probe"), (SHOWN, "", 0))

    def test_volume_stays_from_one_connection_to_the_next(self):
        created = ("0 OK %s\nvolume vol-1 1048576\n" % VOL_1, "", 0)
        self.assertEqual([self.create(), self.create()], [created, created])
        other = ("6 ALREADY_EXISTS %s\n" % EXISTS, "", 1)
        self.assertEqual(self.create("--parameters", "k=v"), other)

    def test_volume_is_published_listed_unpublished_and_deleted(self):
        self.create()
        publish = ["ControllerPublishVolume", "--volume", "vol-1", "--node", "n1", "--mode", "1"]
        context = "0 OK 0a110a08726561646f6e6c79120566616c7365\ncontext readonly=false\n"
        self.assertEqual(self.ask(*publish), (context, "", 0))
        page = "0 OK 0a2c%s12040a026e31\nvolume vol-1 1048576 n1\n" % VOL_1
        self.assertEqual(self.ask("ListVolumes"), (page, "", 0))
        for method in "ControllerUnpublishVolume", "DeleteVolume":
            self.assertEqual(self.ask(method, "--volume", "vol-1"), ("0 OK -\n", "", 0))

    def test_malformed_message_is_refused(self):
        line = "3 INVALID_ARGUMENT malformed message in the field at byte 0\n"
        self.assertEqual(self.ask("Probe", "--message", "00"), (line, "", 1))

    def test_full_output_is_reported(self):
        words = [self.csictl, "call", "--socket", self.server.path, "--method", "Probe"]
        with open("/dev/full", "wb") as full:
            came = run(words, input=b"", stdout=full)
        self.assertEqual(came, (None, Line("csictl: standard output: "), 5))

    def test_server_ends_after_its_connections(self):
        """After the last connection no program listens at the socket."""
        self.server.kill()
        self.server = self.serve("--connections", "2")
        for _ in range(2):
            self.ask("Probe")
        self.assertEqual(self.server.end(), ("", 0))
        self.assertEqual(self.ask("Probe"), ("", Line("csictl: " + self.server.path), 5))


class SpoiledConnectionTest(CallTest):
    """A client that breaks its stream ends only its own connection."""

    def setUp(self):
        super().setUp()
        self.server = self.serve()

    def check_served(self, *lines):
        """Two more calls are answered. csid has written these lines."""
        for _ in range(2):
            self.assertEqual(self.call(self.server.path, "Probe"), (SHOWN, "", 0))
        self.assertEqual(self.server.kill()[0], "".join("csid: %s\n" % line for line in lines))

    def test_malformed_stream_is_refused(self):
        for given, line in [
            (b"GET / HTTP/1.1\r\n\r\n", "bad path length at byte 0"),
            (PROBE[:10], "end of input at byte 10"),
        ]:
            self.assertEqual(self.server.ask(given), refusal(3, line))
        self.assertEqual(self.server.ask(b""), b"")
        self.check_served("bad path length at byte 0", "end of input at byte 10")

    def test_calls_that_come_byte_by_byte_are_answered(self):
        """Each reply comes before the next call."""
        with self.server.connect() as peer:
            for _ in range(2):
                for byte in PROBE:
                    peer.sendall(bytes([byte]))
                self.assertEqual(peer.recv(4096), READY)
        self.check_served()

    def test_peer_that_leaves_its_reply_unread_is_reported(self):
        with self.server.connect() as peer:
            peer.sendall(PROBE)
            peer.recv(1, socket.MSG_PEEK)
        self.check_served("a read of a connection failed")

    def test_next_peer_waits_while_one_reads_no_reply(self):
        """A peer sends calls until csid can write no more replies. The next peer is answered after this peer
        has gone."""
        with self.server.connect() as peer:
            peer.settimeout(0.5)
            with contextlib.suppress(TimeoutError):
                for _ in range(1000):
                    peer.sendall(PROBE * 1000)
            waiting = self.enterContext(self.server.connect())
            waiting.sendall(PROBE)
            self.assertEqual(select.select([waiting], [], [], 0.3)[0], [])
        self.assertEqual(waiting.recv(4096), READY)
        waiting.close()
        self.check_served("a write to a connection failed")

    def test_peer_that_is_killed_within_a_call_is_reported(self):
        words = [sys.executable, "-c", HOLDER, self.server.path]
        with subprocess.Popen(words, stdout=subprocess.PIPE) as holder:
            holder.stdout.readline()
            holder.kill()
        self.check_served("a connection whose peer had gone was closed")


class PeerTest(CallTest):
    """Servers that answer in another way than csid."""

    def ask(self, serve):
        """Makes a call by csictl that a function answers, and returns the output, the errors and the status.
        The function gets the connection. In the errors, PATH is the path of the socket."""
        listener, path = self.listen(1)

        def answer():
            with listener.accept()[0] as peer:
                serve(peer)

        thread = threading.Thread(target=answer)
        thread.start()
        out, error, status = self.call(path, "Probe")
        thread.join()
        listener.close()
        os.unlink(path)
        return out, error.replace(path, "PATH"), status

    def ask_pieces(self, *pieces):
        def answer(peer):
            while peer.recv(4096):
                pass
            for piece in pieces:
                peer.sendall(piece)
                time.sleep(0.01)

        return self.ask(answer)

    def test_reply_in_pieces_is_shown(self):
        self.assertEqual(self.ask_pieces(READY[:3], READY[3:9], READY[9:]), (SHOWN, "", 0))
        self.assertEqual(self.ask_pieces(*[bytes([byte]) for byte in READY]), (SHOWN, "", 0))

    def test_bytes_after_the_reply_are_ignored(self):
        self.assertEqual(self.ask_pieces(READY + b"\x01\x02\x03"), (SHOWN, "", 0))

    @each([
        ("closed without a reply", [], "", "csictl: PATH: closed without a reply\n", 5),
        ("cut short", [READY[:5]], "", "csictl: end of input at byte 5\n", 3),
        ("malformed", [GARBAGE], "", "csictl: bad status at byte 0\n", 3),
        ("a body that is no response", [ok("0a")], "0 OK 0a\n", Line("csictl: "), 3),
    ])
    def test_fault_of_the_reply_is_reported(self, name, pieces, out, error, status):
        self.assertEqual(self.ask_pieces(*pieces), (out, error, status))

    def test_connection_that_is_closed_before_the_call_is_read_is_reported(self):
        """The close resets the connection."""

        def leave(peer):
            ended = select.poll()
            ended.register(peer, select.POLLRDHUP)
            ended.poll(SECONDS * 1000)

        self.assertEqual(self.ask(leave), ("", "csictl: PATH: a read failed\n", 5))


class LongWaitTest(CallTest):
    """A try without a reply after 3 seconds is reported, once."""

    def test_reply_after_4_seconds_is_shown(self):
        listener, path = self.listen(0)

        def answer_late():
            with listener.accept()[0] as peer:
                while peer.recv(4096):
                    pass
                time.sleep(4)
                peer.sendall(READY)

        thread = threading.Thread(target=answer_late)
        thread.start()
        self.assertEqual(self.call(path, "Probe"), (SHOWN, waits(path), 0))
        thread.join()

    def test_wait_ends_with_the_time_of_the_option(self):
        """The first connection stays in the backlog, and leaves no room for later ones."""
        _, path = self.listen(0)
        late = "csictl: %s: %s\n" % (path, LATE)
        for seconds, error in ("7", waits(path) + late), ("3", late), ("4", waits(path) + late):
            with self.subTest(seconds=seconds):
                self.assertEqual(self.call(path, "Probe", "--timeout", seconds), ("", error, 5))


# Runs a command in a mount namespace with an empty /run.
IN_RUN = 'mount -t tmpfs none /run && mkdir /run/csid && %s && exec %s "$@"'


class PlaceTest(CallTest):
    """Without --socket the environment names the socket, and otherwise csictl looks for it at the paths of
    the units."""

    def probe(self, *before, program=None, **variables):
        """Makes a Probe by csictl, which another command may start. Returns the output, the errors and the
        status."""
        rest = {name: value for name, value in os.environ.items() if name != "CSID_SOCKET"}
        words = [*before, program or self.csictl, "call", "--method", "Probe"]
        return text(run(words, input=b"", env={**rest, **variables}))

    def in_run(self, made, start=""):
        words = ["unshare", "--mount", "sh", "-c", IN_RUN % (made, start), "sh"]
        if run(words + ["true"])[2] != 0:
            self.skipTest("no other /run can be put in the place of this one here")
        return words

    def test_environment_names_the_socket(self):
        self.assertEqual(self.probe(CSID_SOCKET=self.serve().path), (SHOWN, "", 0))

    def test_option_is_taken_before_the_environment(self):
        came = self.call(self.serve().path, "Probe", env={**os.environ, "CSID_SOCKET": "no.sock"})
        self.assertEqual(came, (SHOWN, "", 0))

    def test_environment_that_is_no_text_is_refused(self):
        self.assertEqual(self.probe(CSID_SOCKET=b"\xff"), ("", "csictl: CSID_SOCKET: no text\n", 2))

    def test_socket_is_sought_in_run(self):
        path = self.serve().path
        csid = "ln -s %s /run/csid/csid.sock" % path
        control = "mkdir /run/csid-front && ln -s %s /run/csid-front/control.sock" % path
        neither = ("csictl: no socket: give --socket PATH, or CSID_SOCKET in the environment; neither"
                   " /run/csid-front/control.sock nor /run/csid/csid.sock exists\n")
        absent = "csictl: no.sock: No such file or directory (os error 2)\n"
        for name, made, variable, wanted in [
            ("none", "true", "", ("", neither, 2)),
            ("the control socket first", control + " && touch /run/csid/csid.sock", "", (SHOWN, "", 0)),
            ("the socket of csid", csid, "", (SHOWN, "", 0)),
            ("the environment first", control, "no.sock", ("", absent, 5)),
        ]:
            with self.subTest(name=name):
                self.assertEqual(self.probe(*self.in_run(made), CSID_SOCKET=variable), wanted)

    def test_place_that_may_not_be_looked_into_is_taken(self):
        """The user `nobody` cannot see if the control socket exists, so connecting to it reports why it
        fails."""
        if os.geteuid() != 0 or not shutil.which("setpriv"):
            self.skipTest("the user nobody cannot be taken here")
        program, _ = copy_for_nobody(self.csictl, self.folder)
        made = "touch /run/csid/csid.sock && mkdir -m 700 /run/csid-front"
        before = self.in_run(made, "setpriv --reuid 65534 --regid 65534 --clear-groups")
        line = "csictl: /run/csid-front/control.sock: Permission denied (os error 13)\n"
        self.assertEqual(self.probe(*before, program=program), ("", line, 5))


# More bytes than the buffer of a socket. The rest waits until it is read, or the time is over.
LARGE = [
    *(CREATE, "--name", "a" * 100_000),
    *("--parameters", "k=" + "v" * 100_000, "--topology", "zone=" + "z" * 100_000),
]


class TriesTest(CallTest):
    """A call that is tried again, or whose time is over."""

    @each(ROWS["TRIED"])
    def test_call_is_tried_as_often_as_asked(self, name, words, deeds, out, reasons, last, status):
        peer = Peer(self.folder, deeds)
        came = self.call(peer.path, "Probe", *words)
        error = "".join("csictl: %s: %s: try %d of %s\n" % (peer.path, why, turn, words[1])
                        for turn, why in enumerate(reasons, 2))
        if last:
            error += "csictl: %s%s\n" % (peer.path if last.startswith(":") else "", last)
        self.assertEqual(came, (out, error, status))
        self.assertEqual(peer.end(), [PROBE] * len(deeds))
        # Half of each pause is fixed: 50 ms, and twice as much after each try.
        for turn, pause in enumerate(peer.pauses()):
            self.assertGreaterEqual(pause, 0.05 * (1 << turn))

    def test_missing_socket_is_tried_again(self):
        path = os.path.join(self.folder, "nobody.sock")
        line = "csictl: %s: No such file or directory (os error 2)" % path
        error = line + ": try 2 of 3\n" + line + ": try 3 of 3\n" + line + "\n"
        self.assertEqual(self.call(path, "Probe", "--tries", "3"), ("", error, 5))

    def test_connection_without_room_ends_with_the_time(self):
        _, path = self.listen(0)
        first = self.enterContext(socket.socket(socket.AF_UNIX))
        first.connect(path)
        late = ("", "csictl: %s: %s\n" % (path, LATE), 5)
        self.assertEqual(self.call(path, "Probe", "--timeout", "1"), late)

    def test_call_that_nobody_reads_ends_with_the_time(self):
        _, path = self.listen(0)
        late = ("", "csictl: %s: %s\n" % (path, LATE), 5)
        self.assertEqual(self.call(path, *LARGE, "--timeout", "1"), late)

    def test_call_that_is_read_late_is_sent_whole(self):
        listener, path = self.listen(0)
        sent = []

        def read_late():
            with listener.accept()[0] as peer:
                time.sleep(0.3)
                while piece := peer.recv(1 << 16):
                    sent.append(piece)
                peer.sendall(refusal(3, "name is too long"))

        thread = threading.Thread(target=read_late)
        thread.start()
        came = self.call(path, *LARGE, "--timeout", "20")
        thread.join()
        self.assertEqual(came, ("3 INVALID_ARGUMENT name is too long\n", "", 1))
        whole = run([self.csictl, "frame", "--method", *LARGE], input=b"")[0]
        self.assertTrue(b"".join(sent) == whole)
