"""Servers that answer csictl's calls as a test says."""

import os
import select
import socket
import threading
import time

from tests.support.processes import SECONDS

# What a server does in place of a reply: it closes the connection after or before it has read the call, or
# sends nothing until csictl closes the connection.
CLOSED, RESET, SILENT = b"", "reset", "silent"


class PlayedServer:
    """A server at a socket, with a thread that takes a connection for each part of a script. `calls` has the
    calls that it gets, and `moments` the times of the connections."""

    def __init__(self, folder, script):
        self.path, self.script, self.calls, self.moments = os.path.join(folder, "played.sock"), script, [], []
        self.listener = socket.socket(socket.AF_UNIX)
        self.listener.bind(self.path)
        self.listener.listen(8)
        self.listener.settimeout(SECONDS)
        self.thread = threading.Thread(target=self.serve)
        self.thread.start()

    def serve(self):
        for part in self.script:
            try:
                peer, _ = self.listener.accept()
            except TimeoutError:
                # csictl has ended, and makes no further connection.
                break
            self.moments.append(time.monotonic())
            self.play(peer, part)

    def play(self, peer, part):
        """Answers a connection, and closes it."""
        raise NotImplementedError

    def end(self):
        """Waits for the end of the script. Returns the calls, with 'one more' after them if a further
        connection has come."""
        self.thread.join()
        self.listener.setblocking(False)
        try:
            self.listener.accept()
            self.calls.append("one more")
        except BlockingIOError:
            pass
        self.listener.close()
        os.unlink(self.path)
        return self.calls

    def pauses(self):
        """Returns the seconds from the start of each connection to the start of the next one."""
        return [later - earlier for earlier, later in zip(self.moments, self.moments[1:])]


class Peer(PlayedServer):
    """A server that takes one part of its script on each connection: it reads all calls and sends the part as
    the reply, or does what CLOSED, RESET or SILENT says."""

    def __init__(self, folder, script):
        self.silent = []
        super().__init__(folder, script)

    def serve(self):
        super().serve()
        for peer in self.silent:
            gone = select.poll()
            gone.register(peer, 0)
            gone.poll(SECONDS * 1000)
            peer.close()

    def play(self, peer, part):
        if part is RESET:
            # If unread bytes remain, closing the connection resets it.
            ended = select.poll()
            ended.register(peer, select.POLLRDHUP)
            ended.poll(SECONDS * 1000)
            self.calls.append(peer.recv(1 << 16, socket.MSG_PEEK))
            peer.close()
            return
        sent = b""
        while piece := peer.recv(1 << 16):
            sent += piece
        self.calls.append(sent)
        if part is SILENT:
            self.silent.append(peer)
            return
        peer.sendall(part)
        peer.close()


def next_call(calls):
    """Returns the next call of a stream, or the bytes up to the end."""
    size = calls.read(2)
    head = calls.read(int.from_bytes(size, "big") + 5)
    return size + head + calls.read(int.from_bytes(head[-4:], "big"))


class Pages(PlayedServer):
    """A server that answers the calls of a connection with the replies of a part, in order. At CLOSED it
    closes the connection."""

    def play(self, peer, part):
        with peer, peer.makefile("rb") as calls:
            self.calls.append([])
            for answer in part:
                call = next_call(calls)
                if call:
                    self.calls[-1].append(call)
                if answer is CLOSED or not call:
                    break
                peer.sendall(answer)
            else:
                # csictl closes its side, or ends.
                if more := calls.read():
                    self.calls[-1].append(more)
