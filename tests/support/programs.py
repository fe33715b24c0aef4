"""Runs the built programs and etcd for tests/faults, connects to them, and records findings."""
import base64
import collections
import http.client
import json
import os
import pathlib
import random
import re
import select
import signal
import socket
import subprocess
import sys
import threading
import time

from tests.support import etcd
from tests.support.broken import (DATA, END, GOAWAY, HELLO, RESET, WINDOW, enveloped, h2, head,
                                  message_frames, replies_in)
from tests.support.processes import SECONDS, wait
from tests.vectors import messages as v

TOP = os.path.dirname(os.path.dirname(os.path.dirname(os.path.abspath(__file__))))
NAME = "pools.example.org"
CONFIG = """\
name = "%s"
vendor_version = "1.0.0"
default_bytes = 1048576
greatest_bytes = 8388608
[[pool]]
name = "p1"
bytes = %d
""" % (NAME, 1 << 40)


def program(name, place):
    path = os.environ.get(name) or os.path.join(TOP, place)
    if not os.access(path, os.X_OK):
        sys.exit("tests/faults: no program at %s" % path)
    return os.path.abspath(path)


class Run:
    """A run of one part of the test: its inputs, and its findings."""

    passed = failed = 0
    lock = threading.Lock()

    def __init__(self, part, asked, folder):
        self.part, self.asked, self.folder = part, asked, folder
        self.number, self.programs = asked.first - 1, []
        self.until, self.begun = time.monotonic() + asked.seconds, time.monotonic()
        self.seen, self.peaks = collections.Counter(), collections.Counter()

    def inputs(self):
        """Yields a random source for each input, until the time is over."""
        self.until = time.monotonic() + self.asked.seconds
        while time.monotonic() < self.until:
            self.number += 1
            yield random.Random("%d %s %d" % (self.asked.seed, self.part, self.number))

    def check(self, what, is_so, shown=b""):
        with Run.lock:
            if is_so:
                Run.passed += 1
                return is_so
            Run.failed += 1
            path = os.path.join(self.folder, "input-%d-%d" % (self.number, Run.failed))
            pathlib.Path(path).write_bytes(shown if isinstance(shown, bytes) else repr(shown).encode())
            place = "%s --seed %d, input %d, after %d s" % (self.part, self.asked.seed, self.number,
                                                            time.monotonic() - self.begun)
            print("failed: %s: %s: %s" % (place, what, path), flush=True)
        return is_so

    def path(self, name):
        return os.path.join(self.folder, name)

    def start(self, *words, **how):
        self.programs.append(Program(self, *words, **how))
        return self.programs[-1]

    def end(self):
        for it in self.programs:
            it.end()


class Program:
    """A program with a socket. `revive` starts it again if it has ended."""

    def __init__(self, run, socket_name, *words, clocks=None, **how):
        self.run, self.socket, self.words, self.clocks, self.how = (run, run.path(socket_name), words, clocks,
                                                                    how)
        self.said, self.process = open(run.path(socket_name + ".said"), "ab+"), None
        self.start()

    def start(self):
        if os.path.exists(self.socket):
            os.unlink(self.socket)
        if self.clocks:
            self.clocks()
        # If a function is to run before the program, Python forks. Only then is the program in the new
        # namespace of clocks.
        forked = {"preexec_fn": lambda: None} if self.clocks else {}
        self.process = subprocess.Popen(self.words, stdin=subprocess.DEVNULL, stdout=subprocess.DEVNULL,
                                        stderr=self.said, **forked, **self.how)
        self.run.check("%s makes its socket" % self.words[0],
                       wait(lambda: self.has_ended() or connected(self.socket)))
        if self.clocks and not self.has_ended():
            self.run.check(
                "it has clocks of its own",
                os.readlink("/proc/%d/ns/time" % self.process.pid) != os.readlink("/proc/self/ns/time"),
            )

    def has_ended(self):
        return self.process.poll() is not None

    def revive(self):
        if self.has_ended():
            self.start()
        return self

    def end(self, how=signal.SIGKILL):
        if not self.has_ended():
            self.process.send_signal(signal.SIGCONT)
            self.process.send_signal(how)
        self.process.wait(SECONDS)

    def peak(self):
        """Returns its peak memory in MiB."""
        with open("/proc/%d/status" % self.process.pid) as file:
            return int(re.search(r"VmHWM:\s*(\d+)", file.read() or "VmHWM: 0")[1]) >> 10

    def lines(self):
        self.said.seek(0)
        # splitlines would also split at other characters than line ends.
        return [line.decode(errors="replace") for line in self.said.read().split(b"\n")[:-1]]

    def is_well(self, most, shown):
        """Checks that the program runs and has used at most `most` MiB, and starts it again if it does not.
        `shown` is the input for a finding."""
        if not self.run.check("%s ended, and said %r" % (self.words[0], self.lines()[-1:]),
                              not self.has_ended(), shown):
            return self.start()
        self.run.peaks[os.path.basename(self.words[0])] = max(
            self.peak(), self.run.peaks[os.path.basename(self.words[0])]
        )
        if not self.run.check("%s took more than %d MiB" % (self.words[0], most), self.peak() <= most, shown):
            self.end()
            self.start()


class Etcd(etcd.Etcd):
    """A member of etcd, and its rows, which are read through its JSON gateway."""

    def __init__(self, run):
        run.programs.append(self)
        super().__init__(run.folder, "etcd", "--auto-compaction-retention", "1m")

    def start(self):
        super().start()
        self.begun = time.monotonic()

    def has_ended(self):
        return self.process.poll() is not None

    def revive(self):
        if self.has_ended():
            self.start()

    def ask(self, what, begin, end=None, **how):
        """Reads a range of keys (`range`), or removes it (`deleterange`). Returns the keys that it reads,
        with their values and revisions."""
        body, told = {
            "key": base64.b64encode(begin).decode(),
            "range_end": base64.b64encode(end or begin[:-1] + bytes([begin[-1] + 1])).decode(),
            **how,
        }, {}

        def tells():
            link = http.client.HTTPConnection(self.endpoint, timeout=SECONDS)
            try:
                link.request("POST", "/v3/kv/" + what, json.dumps(body))
                told.update(json.load(link.getresponse()))
            except OSError:
                pass
            link.close()
            return "header" in told

        assert wait(tells, pause=0.1), "etcd does not answer"
        return {base64.b64decode(it["key"]).decode(): (base64.b64decode(it.get("value", "")),
                                                       it["mod_revision"])
                for it in told.get("kvs", [])}

    def rows(self, **how):
        """Returns each row with its value and its revision, without the keys of the lock."""
        return {key: it
                for key, it in self.ask("range", NAME.encode() + b"/", **how).items()
                if not key.startswith(NAME + "/lock/")}

    def revisions(self):
        """Returns the revision of each row, without the rows, which may have some MiB each. Each write raises
        the revision."""
        return {key: revision for key, (_, revision) in self.rows(keys_only=True).items()}

    def locks(self):
        return self.ask("range", NAME.encode() + b"/lock/")

    def remove(self, *names):
        for name in names:
            self.ask("deleterange", ("%s/%s" % (NAME, name)).encode())


def connected(path, seconds=SECONDS):
    peer = socket.socket(socket.AF_UNIX)
    peer.settimeout(seconds)
    try:
        peer.connect(path)
        return peer
    except OSError:
        peer.close()


def exchange(peer, pieces, seconds=SECONDS):
    """Sends pieces, and returns all bytes up to the end of the connection, or None if it does not end in
    time."""
    came, pieces, end = [], collections.deque(it for it in pieces if it), time.monotonic() + seconds
    while time.monotonic() < end:
        readable, writable, _ = select.select([peer], [peer] if pieces else [], [], 1)
        try:
            if readable:
                came.append(peer.recv(1 << 16))
                if not came[-1]:
                    return b"".join(came)
            if writable:
                piece = pieces.popleft()
                sent = peer.send(piece[: 1 << 16])
                if piece[sent:]:
                    pieces.appendleft(piece[sent:])
        except ConnectionResetError:
            return b"".join(came)
        except BrokenPipeError:
            pieces.clear()
        if not pieces:
            try:
                peer.shutdown(socket.SHUT_WR)
            except OSError:
                pass


def asked(path, *calls, seconds=SECONDS):
    """Makes calls on a new connection. Returns the replies, or None if no connection can be made, the
    connection does not end, or the replies are malformed."""
    peer = connected(path, seconds)
    if peer is None:
        return None
    with peer:
        came = exchange(peer, calls, seconds)
        return None if came is None else replies_in(came)


class Frames:
    """A client of csid on one connection. A reply is a body, or None if the call is refused, and a text with
    the status. Without a reply, `ask` raises OSError."""

    def __init__(self, path, seconds=SECONDS):
        self.peer = connected(path, seconds)
        if self.peer is None:
            raise OSError("nobody answers")
        self.input = self.peer.makefile("rb")

    def ask(self, method, message):
        self.peer.sendall(v.controller(method, message))
        begin = self.input.read(3)
        text = self.input.read(int.from_bytes(begin[1:], "big") + 5)
        if len(begin) < 3 or len(text) < 5:
            raise OSError("closed unanswered")
        return (None if begin[0] else self.input.read(int.from_bytes(text[-4:], "big"))), "%d %s" % (
            begin[0], text[:-5].decode()
        )

    def close(self):
        self.input.close()
        self.peer.close()


class Grpc:
    """A client of gRPC that makes one call at a time. A reply is a body, or None if the call is refused. It
    does not read compressed headers, so it does not know the status."""

    def __init__(self, path, seconds):
        self.peer, self.stream = connected(path, seconds), -1
        if self.peer is None:
            raise OSError("nobody answers")
        self.input = self.peer.makefile("rb")
        self.peer.sendall(HELLO)

    def frame(self):
        begin = self.input.read(9)
        if len(begin) < 9:
            raise OSError("closed")
        return (begin[3], begin[4], int.from_bytes(begin[5:], "big"),
                self.input.read(int.from_bytes(begin[:3], "big")))

    def call(self, path, message):
        self.stream, body = self.stream + 2, b""
        self.peer.sendall(head(self.stream, path) + message_frames(self.stream, enveloped(message)))
        while True:
            kind, flags, stream, payload = self.frame()
            if kind == GOAWAY:
                raise OSError("told to go")
            if kind == DATA and payload:
                more = len(payload).to_bytes(4, "big")
                self.peer.sendall(h2(WINDOW, 0, 0, more) + h2(WINDOW, 0, stream, more))
                body += payload * (stream == self.stream)
            if stream == self.stream and (flags & END or kind == RESET):
                return body[5:] if body else None

    def close(self):
        self.input.close()
        self.peer.close()


def once(path, method, message, seconds):
    """Makes a gRPC call on a new connection. Returns the body, or None if the call is refused or not
    answered."""
    try:
        client = Grpc(path, seconds)
        try:
            return client.call(method, message)
        finally:
            client.close()
    except OSError:
        return None
