"""Runs csid and a front, and clients that call fronts at the same time. Their calls are recorded as
operations of a history. csid may be killed between two of its writes."""

import concurrent.futures
import functools
import glob
import os
import random
import re
import signal
import socket
import subprocess
import time

from tests.vectors import messages as v
from tests.support.histories import Operation, linearization
from tests.support.model import ONE_WRITER, SHARED, SINGLE, Model, capabilities, entries
from tests.support.processes import SECONDS, wait

KEYS = [(0, "", SINGLE), (0, "", SHARED), (0, "", ONE_WRITER)]


def connection(path, patience):
    """Returns a connection to a control socket whose front answers Probe, or None."""
    peer = socket.socket(socket.AF_UNIX)
    peer.settimeout(patience)
    try:
        peer.connect(path)
        peer.sendall(v.probe())
        if peer.recv(len(v.READY), socket.MSG_WAITALL) == v.READY:
            return peer
    except OSError:
        pass
    peer.close()
    return None


class Fronts:
    """The fronts that the clients of a history call at control sockets. A subclass starts the programs, and
    has `kill`, which ends a program and starts it again, and `end`."""

    # The paths of the control sockets. The path of the front that answered last is the first.
    paths = []
    # The seconds for which a client waits for a reply, and the statuses that count as no reply.
    patience, unheard = SECONDS, ()
    # The numbers of the histories in which a program is killed, of each twenty.
    killed = (4, 11)

    def connect(self):
        """Returns a connection to a front that serves. Otherwise waits a moment and returns None."""
        for path in self.paths:
            peer = connection(path, self.patience)
            if peer:
                self.paths = [path, *(it for it in self.paths if it != path)]
                return peer
        time.sleep(0.01)
        return None


class Plugin(Fronts):
    """csid over a file, and a front. With `forgets`, the file is removed each time csid is killed."""

    def __init__(self, csid, front, folder, forgets=False):
        control = os.path.join(folder, "control.sock")
        self.paths = [control]
        self.socket, self.tables = os.path.join(folder, "csid.sock"), os.path.join(folder, "volumes.db")
        self.csid, self.forgets = csid, forgets
        self.errors = open(os.path.join(folder, "errors"), "ab")
        self.start()
        words = ["--csid", self.socket, "--listen", os.path.join(folder, "csi.sock"), "--control", control]
        self.front = self.begin(front, *words)
        if not wait(lambda: os.path.exists(control)):
            raise ValueError("the front has no control socket")

    def begin(self, *words):
        streams = {"stdin": subprocess.DEVNULL, "stdout": subprocess.DEVNULL, "stderr": self.errors}
        return subprocess.Popen(words, **streams)

    def start(self):
        self.process = self.begin(self.csid, "serve", "--socket", self.socket, "--tables", self.tables)
        if not wait(lambda: os.path.exists(self.socket)):
            raise ValueError("csid has no socket")

    def kill(self):
        """Kills csid, and starts another one over the same file, or over a new file if the plugin forgets."""
        self.process.send_signal(signal.SIGKILL)
        self.process.wait(SECONDS)
        os.unlink(self.socket)
        for it in glob.glob(self.tables + "*") if self.forgets else []:
            os.unlink(it)
        self.start()

    def end(self):
        for it in (self.front, self.process):
            it.kill()
            it.wait(SECONDS)
        self.errors.close()


def acts(method, words, model):
    """Calls a method of a model with these words. Returns the model's reply."""
    return getattr(model, method)(*words)[0]


class Caller:
    """A client of the fronts. With `repeats`, an operation is a call that is repeated until a reply comes.
    Otherwise each try is an operation, and no try is repeated."""

    def __init__(self, fronts, number, operations, repeats, source):
        self.fronts, self.number, self.operations = fronts, number, operations
        self.repeats, self.source, self.peer = repeats, source, None

    def connect(self):
        """Connects to a front that serves, unless the client is connected. Raises TimeoutError if no front
        serves."""
        until = time.monotonic() + SECONDS
        while not self.peer:
            if time.monotonic() > until:
                raise TimeoutError("no front serves")
            self.peer = self.fronts.connect()

    def receive(self, size):
        """Returns the next `size` bytes, or fewer if the connection ends."""
        got = b""
        while len(got) < size and (piece := self.peer.recv(size - len(got))):
            got += piece
        return got

    def reply(self):
        """Returns the next reply, or None if the connection ends before it."""
        whole = self.receive(3)
        text = int.from_bytes(whole[1:], "big")
        whole += self.receive(text + 5)
        body = int.from_bytes(whole[4 + text :], "big")
        whole += self.receive(body)
        return whole if len(whole) == 8 + text + body else None

    def close(self):
        if self.peer:
            self.peer.close()
        self.peer = None

    def tries(self, call):
        """Makes a call once. Returns its reply. Returns None if no reply comes, if the reply's status counts
        as no reply, and for one reply in ten, which counts as lost."""
        try:
            self.peer.sendall(call)
            reply = self.reply()
        except (ConnectionError, TimeoutError):
            reply = None
        if reply is None or reply[0] in self.fronts.unheard:
            self.close()
            return None
        return None if self.source.random() < 0.1 else reply

    def calls(self, call, method, *words):
        """Makes a call, and records it as an operation, whose effect on a model is this method with these
        arguments. Returns the reply, or None."""
        self.connect()
        begun, until, reply = time.monotonic(), time.monotonic() + SECONDS, self.tries(call)
        while reply is None and self.repeats and time.monotonic() < until:
            self.connect()
            reply = self.tries(call)
        ended, what = time.monotonic(), "%s%r" % (method, words)
        act = functools.partial(acts, method, words)
        self.operations.append(Operation(self.number, what, act, begun, ended, reply))
        return reply

    # Each of the next methods makes one call, and returns its reply or None.

    def creates(self, name, mutable):
        call = v.create(v.name(name), capabilities(KEYS), entries(v.mutable, mutable))
        return self.calls(call, "create", name, 0, 0, KEYS, {}, mutable, [], [])

    def deletes(self, text):
        return self.calls(v.delete(v.vol(text)), "delete", text)

    def publishes(self, text, node, key, readonly):
        words = v.vol(text), v.node(node), capabilities([key]), v.READONLY if readonly else b""
        return self.calls(v.publish(*words), "publish", text, node, key, readonly)

    def unpublishes(self, text, node):
        words = v.vol(text), v.node(node) if node else b""
        return self.calls(v.unpublish(*words), "unpublish", text, node)

    def modifies(self, text, mutable):
        call = v.modify(v.vol(text), entries(v.sets, mutable))
        return self.calls(call, "modify", text, mutable)

    def lists(self):
        return self.calls(v.listing(), "listing", 0, "")


def id_in(reply):
    """Returns the id of the first volume in a reply, or an id that no volume gets."""
    found = re.search(rb"vol-\d+", reply or b"")
    return found[0].decode() if found else "vol-0"


def works_on(caller, text, name):
    """Makes a random call for a volume, or lists all volumes."""
    source = caller.source
    node, mutable = source.choice(("n1", "n2")), {source.choice("ij"): source.choice("12")}
    source.choice((lambda: caller.creates(name, source.choice(({}, mutable))),
                   lambda: caller.publishes(text, node, source.choice(KEYS), source.random() < 0.5),
                   lambda: caller.publishes(text, node, source.choice(KEYS), source.random() < 0.5),
                   lambda: caller.unpublishes(text, source.choice((node, ""))),
                   lambda: caller.modifies(text, mutable), lambda: caller.deletes(text), caller.lists))()


def works_alone(caller, name):
    """Creates a volume that no other client uses, and makes three random calls for it."""
    text = id_in(caller.creates(name, {}))
    for _ in range(3):
        works_on(caller, text, name)


def works_with_others(caller, text, name):
    for _ in range(4):
        works_on(caller, text, name)


def reads(caller):
    for _ in range(3):
        caller.lists()


def clears(caller):
    """Deletes all volumes, and then creates and deletes one more, so that the next number is known."""
    for text in sorted(set(re.findall(rb"vol-\d+", caller.lists()))):
        caller.unpublishes(text.decode(), "")
        caller.deletes(text.decode())
    caller.deletes(id_in(caller.creates("last", {})))


def record(fronts, seed, is_shared, is_killed):
    """Records a history, and returns its operations. Three clients make at most twelve calls in all, side by
    side. Then a fourth client deletes all volumes. In a shared history the three clients use one volume,
    which the fourth has created, and each try is an operation. Otherwise two clients use a volume each, the
    third lists the volumes, and a call with its repeats is an operation. With `is_killed` a program is killed
    during the calls."""
    operations, source = [], random.Random(seed)
    own = Caller(fronts, 3, operations, True, random.Random("%s own" % seed))
    callers = [Caller(fronts, number, operations, not is_shared, random.Random("%s %d" % (seed, number)))
               for number in range(3)]
    if is_shared:
        text = id_in(own.creates("shared", {}))
        works = [(works_with_others, it, text, "shared") for it in callers]
    else:
        works = [(works_alone, callers[0], "a"), (works_alone, callers[1], "b"), (reads, callers[2])]
    with concurrent.futures.ThreadPoolExecutor(len(works)) as pool:
        done = [pool.submit(work, *words) for work, *words in works]
        if is_killed:
            ended = len(operations) + source.randrange(9)
            while len(operations) < ended and not all(it.done() for it in done):
                time.sleep(0.0001)
            fronts.kill()
        for it in done:
            it.result()
    clears(own)
    for it in (own, *callers):
        it.close()
    return operations


def histories(fronts, count, seed=0):
    """Records `count` histories in turn, and searches for an order of each. Yields the number of the history,
    its operations, and the order or None. Every other history is shared, and during some of them a program is
    killed. A history without an order is the last one, because the State after it is not known."""
    model = Model()
    for number in range(count):
        operations = record(fronts, "%s %d" % (seed, number), number % 2 == 0, number % 20 in fronts.killed)
        order, model = linearization(operations, model) or (None, None)
        yield number, operations, order
        if order is None:
            return
