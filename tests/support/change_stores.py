"""Change stores at a socket, for `csid serve --log` (docs/PROTOCOL.md, "The change store"): a common part,
and a change store that keeps rows."""
import os
import socket
import threading

from tests.vectors import messages as v

READ, MAKE, COMMIT, LEAD = [b"/fomaheti.log.v1.Log/" + it for it in (b"Read", b"Make", b"Commit", b"Lead")]
OK = v.reply()


class ChangeStore:
    """A change store at a socket. It answers Lead with OK unless a test sets `leads` to False. For each other
    call `answer` of a subclass returns the reply, or None to close the connection. Each connection has a
    thread."""

    def __init__(self, path):
        self.path, self.peers, self.leads = path, [], True
        self.listener = socket.socket(socket.AF_UNIX)
        self.listener.bind(path)
        self.listener.listen(8)
        threading.Thread(target=self.accept, daemon=True).start()

    def accept(self):
        while True:
            try:
                peer, _ = self.listener.accept()
            except OSError:
                return
            self.peers.append(peer)
            threading.Thread(target=self.serve, args=(peer,), daemon=True).start()

    def serve(self, peer):
        """Answers calls until the connection ends, or until a call has no reply. Then the connection is
        closed."""
        with peer, peer.makefile("rb") as stream:
            while frame := next_frame(stream):
                reply = (self.answer(*frame)
                         if frame != (LEAD, b"")
                         else OK
                         if self.leads
                         else v.refusal(9, "another leads"))
                if reply is None:
                    peer.shutdown(socket.SHUT_RDWR)
                    return
                peer.sendall(reply)

    def hang_up(self):
        """Ends all connections."""
        peers, self.peers = self.peers, []
        for peer in peers:
            try:
                peer.shutdown(socket.SHUT_RDWR)
            except OSError:
                pass

    def end(self):
        self.listener.close()
        self.hang_up()
        os.unlink(self.path)


def next_frame(stream):
    """Returns the path and the message of the next call, or None at the end."""
    try:
        length = stream.read(2)
        if len(length) < 2:
            return None
        path = stream.read(int.from_bytes(length, "big"))
        stream.read(1)
        return path, stream.read(int.from_bytes(stream.read(4), "big"))
    except (OSError, ValueError):
        return None


# Rows in the encoding of the change store.


def meta(number, format_no=2):
    return v.msg(1, v.num(1, format_no), v.num(2, number))


def volume(number, name, size, pool, caps, params=b""):
    return v.msg(2, v.num(1, number), v.txt(2, name), v.num(3, size), v.txt(4, pool), v.msg(5, caps),
                 v.msg(6, params))


def attachment(number, node, cap, readonly=0):
    return v.msg(3, v.num(1, number), v.txt(2, node), v.msg(3, cap), v.num(4, readonly))


def page(*rows, token=b""):
    return v.reply(*rows, v.msg(4, token))


def fields(message):
    """Returns the fields of a message, each as its number and its value. A value is a number or bytes."""
    found, at = [], 0

    def varint():
        nonlocal at
        n = shift = 0
        while True:
            byte = message[at]
            at, n, shift = at + 1, n | (byte & 127) << shift, shift + 7
            if byte < 128:
                return n

    while at < len(message):
        tag = varint()
        value = varint()
        if tag & 7 == 2:
            at, value = at + value, message[at : at + value]
        found.append((tag >> 3, value))
    return found


class KeptChangeStore(ChangeStore):
    """A change store that keeps rows in this process. If `fault` is set, the next Commit fails, and no later
    one: it is refused (REFUSES), or the connection ends before (ENDS) or after (LOSES) the change is made."""

    REFUSES, ENDS, LOSES = "refuses", "ends", "loses"

    def __init__(self, path, page_rows=3):
        self.next, self.volumes, self.attachments, self.fault, self.page_rows = None, {}, {}, None, page_rows
        super().__init__(path)

    def rows(self):
        """Returns the rows of volumes, of attachments and of meta (docs/TABLES.md), sorted by number and
        node."""
        return ([(number, *it) for number, it in sorted(self.volumes.items())],
                [(*place, *it) for place, it in sorted(self.attachments.items())], [(1, 2, self.next)])

    def answer(self, path, message):
        if path == READ:
            return self.read(dict(fields(message))[1])
        if path == MAKE and self.next is None and not self.volumes and not self.attachments:
            self.next = 1
            return OK
        if path != COMMIT:
            return v.refusal(9, "there are rows")
        fault, self.fault = self.fault, None
        if fault == self.REFUSES:
            return v.refusal(8, "no room")
        if fault == self.ENDS:
            return None
        [(number, asked)] = fields(message)
        made = self.make(number, [value for _, value in fields(asked)])
        return None if fault == self.LOSES else OK if made else v.refusal(9, "not as the change supposes")

    def read(self, token):
        """Returns a page of rows. The token of the next page is the number of rows so far."""
        told = int(token or b"0")
        rows = [volume(number, *it) for number, it in sorted(self.volumes.items())] + [
            attachment(*place, *it) for place, it in sorted(self.attachments.items())
        ]
        first = [meta(self.next)] if self.next and not token else []
        then = told + self.page_rows
        return page(*first, *rows[told:then], token=b"%d" % then if then < len(rows) else b"")

    def make(self, number, values):
        """Makes a change if the rows meet its condition. Returns True if the change was made."""
        at = values[0]
        if number == 1:
            name, size, pool, caps, params = values[1:]
            if at in self.volumes or at != self.next:
                return False
            self.volumes[at], self.next = (name.decode(), size, pool.decode(), caps, params), at + 1
        elif number == 2:
            if any(of == at for of, _ in self.attachments):
                return False
            self.volumes.pop(at, None)
        elif number == 3:
            place = at, values[1].decode()
            if at not in self.volumes or place in self.attachments:
                return False
            self.attachments[place] = tuple(values[2:])
        elif number == 4:
            self.attachments.pop((at, values[1].decode()), None)
        elif number == 5:
            self.attachments = {place: it for place, it in self.attachments.items() if place[0] != at}
        else:
            if at not in self.volumes:
                return False
            *others, params = self.volumes[at]
            self.volumes[at] = (*others, own(params) + values[1])
        return True


def own(params):
    """Returns the parameters (fields 4) in a column `params`, without the mutable parameters."""
    return b"".join(v.msg(4, value) for number, value in fields(params) if number == 4)
