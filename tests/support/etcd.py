"""Runs a member of etcd on loopback."""

import os
import socket
import subprocess

from tests.support.processes import free_ports, wait


class Etcd:
    """A cluster of etcd with one member, whose data is in a folder. `words` are further arguments."""

    def __init__(self, folder, name="etcd", *words):
        self.endpoint, peer = ["127.0.0.1:%d" % port for port in free_ports(2)]
        self.log = os.path.join(folder, name + ".log")
        self.words = ["etcd", "--data-dir", os.path.join(folder, name), "--log-level", "error", *words]
        for kind, address in ("client", self.endpoint), ("peer", peer):
            self.words += ["--listen-%s-urls" % kind, "http://" + address]
        self.words += ["--advertise-client-urls", "http://" + self.endpoint]
        self.words += ["--initial-advertise-peer-urls", "http://" + peer]
        self.words += ["--initial-cluster", "default=http://" + peer]
        self.start()

    def start(self):
        with open(self.log, "ab") as log:
            self.process = subprocess.Popen(self.words, stdin=subprocess.DEVNULL, stdout=log, stderr=log)
        if not wait(self.listens):
            raise TimeoutError("etcd does not listen")

    def listens(self):
        host, port = self.endpoint.split(":")
        with socket.socket() as peer:
            return peer.connect_ex((host, int(port))) == 0

    def end(self):
        self.process.kill()
        self.process.wait()
