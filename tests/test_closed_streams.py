"""Programs in Go whose standard streams are closed: no connection takes their descriptors, so no line of the
log goes to a client."""

import os
import socket
import subprocess

from tests.support.processes import SECONDS, place, wait
from tests.support.rows import RowTest, each

# For each program: its words, with SOCKET for the socket that it makes.
FRONT = ("front", ["--csid", "absent", "--listen", "other.sock", "--control", "SOCKET"])
PROGRAMS = [
    FRONT,
    ("csid-etcd", ["--name", "a.b", "--listen", "SOCKET", "--endpoints", "127.0.0.1:1"]),
    ("node-plugin", ["serve", "--listen", "SOCKET", "--controller", "absent", "--node", "n1", "--pool",
                     "p=."]),
]
CLOSED = {"no input": "<&-", "no output": ">&-", "no error": "2>&-", "no stream": "<&- >&- 2>&-"}


def descriptors(pid):
    """Returns what the first three descriptors of a process lead to, with None for a free one."""
    folder = "/proc/%d/fd/" % pid
    taken = os.listdir(folder)
    return [os.readlink(folder + it) if it in taken else None for it in ("0", "1", "2")]


class ClosedStreamsTest(RowTest):
    def start(self, closed, name, words):
        """Starts a program with closed streams. Returns its process id."""
        if not os.access(place(name), os.X_OK):
            self.skipTest("%s is not built" % place(name))
        self.socket = os.path.join(self.folder, "s.sock")
        given = [self.socket if word == "SOCKET" else word for word in words]
        process = subprocess.Popen(["sh", "-c", 'exec "$0" "$@" ' + closed, place(name), *given],
                                   cwd=self.folder, stderr=subprocess.DEVNULL)
        self.addCleanup(process.wait, SECONDS)
        self.addCleanup(process.kill)
        return process.pid

    def connect(self):
        """Returns a connection to the program. It may not listen yet."""
        peer = socket.socket(socket.AF_UNIX)
        self.addCleanup(peer.close)
        peer.settimeout(SECONDS)
        self.assertTrue(wait(lambda: peer.connect_ex(self.socket) == 0), "no socket")
        return peer

    @each([("%s, %s" % (it[0], name), closed, *it) for it in PROGRAMS for name, closed in CLOSED.items()])
    def test_connections_take_no_descriptor_of_a_stream(self, name, *how):
        pid = self.start(*how)
        self.connect().close()
        before = descriptors(pid)
        self.check("one is free", None in before, False)
        for _ in range(4):
            self.connect()
        self.check("what they lead to later", descriptors(pid), before)

    def test_line_does_not_go_to_a_client(self):
        """A malformed call on the second connection has a line. The first one would have the descriptor of
        standard error."""
        self.start("2>&-", *FRONT)
        first, second = self.connect(), self.connect()
        second.sendall(b"\xff\xff")
        refused = b"".join(iter(lambda: second.recv(4096), b""))
        self.check("it is refused", b"bad path length" in refused, True)
        first.settimeout(1)
        with self.assertRaises(TimeoutError):
            self.fail("it was sent %r" % first.recv(4096))
