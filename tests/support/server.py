"""Runs `csid serve`, and reads its lines on standard error."""

import collections
import contextlib
import os
import re
import signal
import socket
import subprocess
import tempfile
import threading
import time

from tests.support.processes import SECONDS, statuses, wait


NEW = "no tables were there, and new ones were made"
MISSING = "there is no such file, and none is made"
WITHOUT = "it has no tables, and none are made"
NO_COPY = "there was no memory for a copy of the volumes: each read of the connection goes to the file"
EMPTIED = (
    "it is empty or missing, but its WAL, '-wal', has changes: put back the copy of the file that this WAL"
    " belongs to, or move the WAL away to begin with no volumes"
)
DOWN = (
    "a change was refused, by the database or for memory; from then on the connection was answered that the"
    " store is down"
)
IDLE = "csid: a connection that sent nothing was closed\n"
SLOW = "csid: a connection that sent no whole call in 10 seconds was closed\n"
GONE = "csid: a connection whose peer had gone was closed\n"
CROWDED = "csid: a connection that had sent no call was closed, as too many wait\n"


def received(peer):
    """Returns all bytes up to the end of a connection. If csid closes it with unread calls, the end is a
    reset."""
    replies = b""
    with contextlib.suppress(ConnectionResetError):
        while piece := peer.recv(1 << 16):
            replies += piece
    return replies


class Served:
    """A csid with a socket at `path`. The lines of csid go to a file."""

    def begin(self, words, **how):
        self.said = tempfile.TemporaryFile()
        self.process = subprocess.Popen(words, stdin=subprocess.DEVNULL, stderr=self.said, **how)

    def connect(self):
        peer = socket.socket(socket.AF_UNIX)
        peer.settimeout(SECONDS)
        # The file of the socket exists a moment before csid listens.
        for _ in range(100):
            with contextlib.suppress(ConnectionRefusedError):
                peer.connect(self.path)
                break
            time.sleep(0.02)
        return peer

    def ask(self, *calls):
        """Makes calls on a new connection. Returns all bytes that come back, or none if csid closes the
        connection before it has all calls."""
        with self.connect() as peer, contextlib.suppress(BrokenPipeError, ConnectionResetError):
            peer.sendall(b"".join(calls))
            peer.shutdown(socket.SHUT_WR)
            return received(peer)
        return b""

    def lines(self):
        """Returns the lines so far."""
        return os.pread(self.said.fileno(), 1 << 20, 0).decode()


class Server(Served):
    """csid at a socket in a folder, over the file of tables `tables`, or over volumes.db in the same folder.
    """

    def __init__(self, csid, folder, *words, tables=None, **how):
        self.path = os.path.join(folder, "csid.sock")
        self.tables = tables or os.path.join(folder, "volumes.db")
        words = [csid, "serve", "--socket", self.path, "--tables", self.tables, *words]
        self.begin(words, stdout=subprocess.DEVNULL, **how)
        self.wait_for_begin()

    def wait_for_begin(self):
        """Waits until csid has reported what the tables have, or why they are unusable. csid answers no call
        before that."""
        told = re.compile("(?m)^csid: %s: (?!%s).*\n" % (re.escape(self.tables), NEW))
        if not wait(lambda: told.search(self.lines()) or self.process.poll() is not None):
            raise ValueError("csid serve does not begin")

    def answers(self, calls):
        """Makes calls over one connection, and reads the replies at the same time. Returns their statuses."""
        with self.connect() as peer:
            threading.Thread(target=lambda: [peer.sendall(it) for it in calls], daemon=True).start()
            return statuses(peer, len(calls))

    def line(self, what):
        return "csid: %s: %s\n" % (self.tables, what)

    def has(self, volumes, attachments, number):
        """Returns the line about the contents of the tables, with these counts and this next number."""
        counts = volumes, attachments, number
        return self.line("volumes %d, attachments %d, next number %d, format 2" % counts)

    def end(self):
        """Kills csid if it runs, and removes its socket. Returns all its lines, its status, and True if it
        had left its socket."""
        if self.process.poll() is None:
            self.process.kill()
        status = self.process.wait()
        left = os.path.exists(self.path)
        if left:
            os.unlink(self.path)
        return self.lines(), status, left


KILLED = -signal.SIGKILL


def ended(lines, line):
    """Returns the numbers of connections by the way in which they ended. Under "of a line" is the number of
    lines that equal `line`. The other keys and numbers are the parts of csid's lines `N more connections
    ended: ..`, such as `2 HOW`."""
    counts = collections.Counter({"of a line": lines.count(line)})
    for told in re.findall(r"(?m)^csid: \d+ more connections ended: (.*)$", lines):
        for part in told.split(", "):
            count, _, how = part.partition(" ")
            counts[how] += int(count)
    return counts
