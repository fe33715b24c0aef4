"""Runs replicas of csid over etcd: csid-etcd, csid, and a front for each. They can be killed and started
again."""

import itertools
import os
import signal
import socket
import subprocess
import time

from tests.support.callers import Fronts
from tests.support.etcd import Etcd
from tests.support.processes import SECONDS, wait

NAME, LEASE = "pools.example.org", 2
# The faults of the replica that serves, in turn: csid is killed, or csid-etcd gets a signal. After SIGTERM
# csid-etcd releases the lock at once, otherwise it keeps the lock until its lease ends.
FAULTS = ["csid", signal.SIGTERM, signal.SIGKILL, signal.SIGTERM, signal.SIGSTOP]


def wait_for(happens, what):
    if not wait(happens):
        raise TimeoutError("%s does not happen" % what)


def listens(path):
    with socket.socket(socket.AF_UNIX) as peer:
        return peer.connect_ex(path) == 0


class Replica:
    """A csid over a csid-etcd. Each of the two programs can be started again. `words` are further arguments
    of csid."""

    def __init__(self, programs, folder, number, etcd, *words):
        self.csid_program, self.keeper_program = programs
        self.log = os.path.join(folder, "log%d" % number)
        self.socket = os.path.join(folder, "csid%d" % number)
        self.errors = open(os.path.join(folder, "errors%d" % number), "ab")
        self.number, self.etcd, self.words = number, etcd, words
        self.keeper = self.csid = None

    def start(self):
        """Starts the programs that do not run."""
        if self.keeper is None:
            if os.path.exists(self.log):
                os.unlink(self.log)
            words = ["--name", NAME, "--listen", self.log, "--endpoints", self.etcd.endpoint]
            words += ["--lease", str(LEASE), "--id", "replica-%d" % self.number]
            self.keeper = self.run(self.keeper_program, *words)
            wait_for(lambda: listens(self.log), "a csid-etcd that listens")
        if self.csid is None:
            if os.path.exists(self.socket):
                os.unlink(self.socket)
            words = ["serve", "--socket", self.socket, "--log", self.log, *self.words]
            self.csid = self.run(self.csid_program, *words)

    def run(self, *words):
        streams = {"stdin": subprocess.DEVNULL, "stdout": subprocess.DEVNULL, "stderr": self.errors}
        return subprocess.Popen(words, **streams)

    def kill_csid(self):
        self.csid.kill()
        self.csid.wait()
        self.csid = None

    def end_keeper(self, how):
        self.keeper.send_signal(how)
        self.keeper.wait(SECONDS)
        self.keeper = None

    def end(self):
        for process in (self.csid, self.keeper):
            if process is not None:
                process.kill()
                process.wait()
        self.errors.close()


class Stack(Replica):
    """A replica, and a front with a control socket."""

    def __init__(self, programs, folder, number, etcd):
        *others, self.front_program = programs
        super().__init__(others, folder, number, etcd)
        self.control = os.path.join(folder, "control%d" % number)
        self.listen = os.path.join(folder, "csi%d" % number)
        self.front = None

    def start(self):
        super().start()
        if self.front is None:
            words = ["--csid", self.socket, "--listen", self.listen, "--control", self.control]
            self.front = self.run(self.front_program, *words)
            wait_for(lambda: os.path.exists(self.control), "a front with a control socket")

    def end(self):
        self.front.kill()
        self.front.wait()
        super().end()


class Stacks(Fronts):
    """Two stacks. Both are over one etcd, and one stack serves at a time. With `is_apart` each stack has its
    own etcd. A change without a reply is made before the next call is served, or never (docs/PROTOCOL.md,
    "The change store"). So an operation without a reply ends when its client gives up, although csid-etcd may
    still make the change."""

    # A program is ended in three of ten histories, with equal shares for both kinds of history.
    killed = (2, 5, 8, 11, 14, 17)
    # A client gives up before a stopped csid-etcd is continued.
    patience = 1
    # INTERNAL counts as no reply, as in the gRPC of the front (docs/DEPLOY.md).
    unheard = (13,)

    def __init__(self, programs, folder, is_apart=False):
        self.etcds = [Etcd(folder, "etcd%d" % number) for number in range(1 + is_apart)]
        self.both = [Stack(programs, folder, number, self.etcds[number * is_apart]) for number in range(2)]
        self.paths = [it.control for it in self.both]
        self.faults = itertools.cycle(FAULTS)
        for it in self.both:
            it.start()
        self.leader, self.takeovers = self.leads(), 0

    def leads(self):
        """Waits for the stack that serves, and returns it. Raises TimeoutError if none serves in time."""
        until = time.monotonic() + SECONDS
        while not (peer := self.connect()):
            if time.monotonic() > until:
                raise TimeoutError("no front serves")
        peer.close()
        return next(it for it in self.both if it.control == self.paths[0])

    def kill(self):
        """Ends csid or csid-etcd of the stack that serves, or stops its csid-etcd for a while. Then starts
        what has ended."""
        leader, fault = self.leads(), next(self.faults)
        self.takeovers += leader is not self.leader
        self.leader = leader
        if fault == "csid":
            leader.kill_csid()
        elif fault == signal.SIGSTOP:
            leader.keeper.send_signal(fault)
            time.sleep(1.5 * LEASE)
            leader.keeper.send_signal(signal.SIGCONT)
        else:
            leader.end_keeper(fault)
        leader.start()

    def end(self):
        for it in (*self.both, *self.etcds):
            it.end()
