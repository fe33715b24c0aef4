"""Random requests to csid: each reply must be the reply of a model.

Requests go to csid over volumes in memory, over a file of tables and over a change store, and to a model.
Each reply must equal the model's reply, and so must the listing after each request.

The requests use few names, sizes and nodes, so that they affect each other. Over a file, csid is started
again and again: after the end of its input, where the rows must be the model's, after SIGKILL, and with the
file changed to format 1. Over a change store in this process, changes fail: they are refused, or their
outcome is unknown. The call is then made again on a new connection, and has the model's reply. Between the
pages of a listing there are further requests. Each kind of outcome must occur often.
"""

import collections
import os
import socket
import sqlite3
import subprocess
import tempfile
import time

from tests.vectors import messages as v
from tests.support import change_stores
from tests.support.model import Model, Requests, capabilities, entries
from tests.support.processes import program
from tests.support.rows import RowTest


SEEDS, STEPS, WALKS, OFTEN, SECONDS = range(1, 5), 2000, 100, 30, 300

# The outcomes that must occur often, of requests, and of what happens to csid, its file and its change store.
EXPECTED = ["created", "created again", "deleted", "nothing to delete", "published",
            "published with a part of its mode", "published again", "unpublished", "nothing to unpublish",
            "confirmed", "not confirmed", "page", "last page", "capacity", "no capacity",
            "volume exists and is not compatible", "capacity is out of range", "no room in the topology",
            "volume is in use", "volume not found", "node not found", "volume is published otherwise",
            "volume does not have this capability", "volume is published elsewhere", "node is full",
            "bad starting token", "modified", "modified again", "mutable parameters are missing",
            "mutable parameters are too large", "a file of format 1 taken over",
            "a change that the log refused", "a change that the log did not make",
            "a change that the log made, but did not answer", "a connection that the log ended"]
# For each fault of the change store, the name of its outcome.
FAULTS = {
    change_stores.KeptChangeStore.REFUSES: "a change that the log refused",
    change_stores.KeptChangeStore.ENDS: "a change that the log did not make",
    change_stores.KeptChangeStore.LOSES: "a change that the log made, but did not answer",
}


class Server:
    """A csid process that answers calls, over a file of tables if there is one."""

    def __init__(self, csid, tables):
        self.command, self.tables = [csid, "pipe"] + (["--tables", tables] if tables else []), tables
        self.start()

    def start(self):
        self.process = subprocess.Popen(self.command, stdin=subprocess.PIPE, stdout=subprocess.PIPE)

    def ask(self, call):
        """Returns the reply to a call (docs/PROTOCOL.md, 'Envelope')."""
        self.process.stdin.write(call)
        self.process.stdin.flush()
        read = self.process.stdout.read
        head = read(3)
        text = read(int.from_bytes(head[1:], "big") + 5)
        return head + text + read(int.from_bytes(text[-4:], "big"))

    def end(self):
        """Ends csid. Returns its unread output, and its status."""
        return self.process.communicate()[0], self.process.returncode

    def kill(self):
        self.process.kill()
        return self.end()


class LogServer:
    """A csid process over a change store. It gets one connection after another."""

    tables = None

    def __init__(self, csid, folder):
        self.log = change_stores.KeptChangeStore(os.path.join(folder, "log"))
        self.path, self.csid = os.path.join(folder, "csid"), csid
        self.refused = 0
        self.start()

    def start(self):
        self.process = subprocess.Popen([self.csid, "serve", "--socket", self.path, "--log", self.log.path],
                                        stdin=subprocess.DEVNULL, stderr=subprocess.DEVNULL)
        while not os.path.exists(self.path):
            time.sleep(0.001)
        self.connect()

    def connect(self):
        self.peer = socket.socket(socket.AF_UNIX)
        while self.peer.connect_ex(self.path):
            time.sleep(0.001)
        self.stream = self.peer.makefile("rb")

    def exchange(self, call):
        """Returns the reply to a call, the part of it that comes before the connection ends, or nothing if
        the connection is broken."""
        try:
            self.peer.sendall(call)
            read = self.stream.read
            head = read(3)
            text = read(int.from_bytes(head[1:], "big") + 5)
            return head + text + read(int.from_bytes(text[-4:], "big"))
        except (BrokenPipeError, ConnectionResetError):
            return b""

    def ask(self, call):
        """Returns the reply to a call. If the store refused it or no reply came, the call is made once more.
        """
        reply = self.exchange(call)
        if reply in (b"", v.refusal(13, "store refused")):
            self.refused += 1
            self.peer.close()
            self.connect()
            reply = self.exchange(call)
        return reply

    def kill(self):
        if self.process.poll() is None:
            self.process.kill()
            self.process.wait()
            self.peer.close()
            os.unlink(self.path)

    def end(self):
        self.kill()
        self.log.end()
        return b"", 0


def rows(model):
    """Returns the rows of the model (docs/TABLES.md)."""
    volumes = [(it.number, it.name, it.bytes, it.pool.name, capabilities(it.keys),
                entries(v.parameter, it.parameters) + entries(v.mutable, it.mutable))
               for it in model.volumes]
    attachments = sorted((*place, capabilities([key]), int(readonly))
                         for place, (key, readonly) in model.attachments.items())
    return volumes, attachments, [(1, 2, model.next)]


def rows_in(path):
    connection = sqlite3.connect(path)
    found = [connection.execute("SELECT * FROM %s ORDER BY 1, 2" % name).fetchall()
             for name in ("volumes", "attachments", "meta")]
    connection.close()
    return tuple(found)


class Walk:
    """One walk: random requests to csid and to a model, and the replies or rows that differ."""

    def __init__(self, csid, seed, server):
        self.model, self.server = Model(), server
        self.requests = Requests(seed, self.model)
        self.seen, self.faults = collections.Counter(), []

    def asks(self, call, reply, what):
        self.seen[what] += 1
        came = self.server.ask(call)
        if came != reply:
            self.faults.append("request %d, %s: %s, and not %s" % (sum(self.seen.values()), what, came.hex(),
                                                                   reply.hex()))
        return came == reply

    def step(self):
        """Makes a request, and lists the volumes. Returns False after a finding."""
        listed = self.asks(*self.requests.next()) and self.asks(v.listing(), *self.model.listing(0, "")[:2])
        rule = self.model.breaks()
        if rule:
            self.faults.append("request %d: %s" % (sum(self.seen.values()), rule))
        return listed and not rule

    def pages(self):
        """Lists page after page, with requests between them. No volume comes twice, and a volume that is
        never deleted comes. Returns False after a reply that is not the model's."""
        throughout, listed, token = {it.number for it in self.model.volumes}, [], None
        while token != "":
            most = self.requests.one_of(1, 2, 3)
            reply, what, numbers, then = self.model.listing(most, token or "")
            after = v.starting_token(token) if token else b""
            if not self.asks(v.listing(v.max_entries(most), after), reply, what):
                return False
            standing = {it.number for it in self.model.volumes}
            if what == "bad starting token" or not set(numbers) <= standing or set(numbers) & set(listed):
                self.faults.append("a page after %r lists %r" % (token, numbers))
            listed, token = listed + numbers, then
            for _ in range(self.requests.random.randrange(4) if token else 0):
                if not self.step():
                    return False
                throughout &= {it.number for it in self.model.volumes}
        if not throughout <= set(listed):
            self.faults.append("a walk over pages left out %r" % (throughout - set(listed)))
        return True

    def makes_older(self):
        """Changes the file to format 1, which has no mutable parameters, and takes these from the model's
        volumes, too."""
        connection = sqlite3.connect(self.server.tables)
        with connection:
            for it in self.model.volumes:
                connection.execute("UPDATE volumes SET params = ? WHERE number = ?",
                                   (entries(v.parameter, it.parameters), it.number))
            connection.execute("UPDATE meta SET format_no = 1")
        connection.close()
        self.model.volumes = [it._replace(mutable={}) for it in self.model.volumes]
        self.seen["a file of format 1 taken over"] += 1

    def upsets_log(self):
        """Checks the rows, unless a fault is due. Then makes the next change of the store fail, ends the
        connection of the store, or kills csid and starts it again."""
        if (self.server.log.fault is None
            and self.server.log.rows() != rows(self.model)
            and self.model.next > 1):
            self.faults.append("the rows of the log are not the model's")
        how = self.requests.one_of("is killed", "hangs up", *FAULTS)
        if how == "is killed":
            self.server.kill()
            self.server.start()
        elif how == "hangs up":
            self.server.log.hang_up()
            self.seen["a connection that the log ended"] += 1
        elif self.server.log.fault is None:
            self.server.log.fault = how
            self.seen[FAULTS[how]] += 1

    def starts_anew(self):
        """Ends or kills csid, and starts it again over its file, often with an older format. After an end the
        rows must be the model's."""
        how = self.requests.one_of("ends", "is killed", "is older", "is older")
        if how != "ends":
            self.server.kill()
            if how == "is older":
                self.makes_older()
        elif self.server.end() != (b"", 0) or rows_in(self.server.tables) != rows(self.model):
            self.faults.append("the rows at an end are not the model's")
        self.server.start()

    def run(self):
        # These are calls for the capacity while there are no volumes.
        if not all(self.asks(*self.requests.capacity()) for _ in range(8)):
            return self
        for at in range(STEPS):
            if not self.step():
                return self
            if self.server.tables and at % 100 == 99:
                self.starts_anew()
            if isinstance(self.server, LogServer) and at % 20 == 19:
                self.upsets_log()
        for _ in range(WALKS):
            if not self.pages():
                return self
        if self.server.end() != (b"", 0):
            self.faults.append("it did not end well")
        return self


class WalkTest(RowTest):
    longest = SECONDS

    def walk(self, seed, place, folder):
        os.mkdir(folder)
        if place == "a log":
            server = LogServer(program("csid"), folder)
        else:
            server = Server(program("csid"), os.path.join(folder, "db") if place == "tables" else None)
        walk = Walk(program("csid"), seed, server).run()
        walk.server.kill()
        return walk

    def test_walks(self):
        seen = collections.Counter()
        # A file in memory needs no waiting for a disk.
        with tempfile.TemporaryDirectory(dir="/dev/shm" if os.path.isdir("/dev/shm") else None) as folder:
            for seed in SEEDS:
                for place in "memory", "tables", "a log":
                    walk = self.walk(seed, place, os.path.join(folder, "%d %s" % (seed, place)))
                    self.check("seed %d over %s" % (seed, place), walk.faults[:3], [])
                    seen += walk.seen
        self.check("what happens, happens often", [what for what in EXPECTED if seen[what] < OFTEN], [])
