"""`csid serve --log` over a change store that a test plays: its calls, its replies and its lines.

A played store has no rows: it answers with the replies in the row of the test, and records each frame. The
expected calls were worked out by hand from docs/PROTOCOL.md, "The change store", and docs/TABLES.md, and so
were the replies of csid, with the sample configuration of docs/OPERATING.md.
"""

import concurrent.futures
import os
import resource
import socket
import subprocess
import threading
import time
from unittest import mock

from tests.support import change_stores
from tests.support.change_stores import COMMIT, MAKE, OK, READ, KeptChangeStore, meta, page
from tests.support.configs import LARGE_POOL
from tests.support.data import tables
from tests.support.processes import SECONDS, wait
from tests.support.rows import CsidTest, each
from tests.support.server import Served, received
from tests.vectors import messages as v


MIB = 1 << 20
# In place of a reply: the connection is closed.
CLOSED = "closed"
BLOCK = v.unhex("1a060a001a020801")
MOUNT = v.unhex("1a0c12060a04657874341a020801")


class PlayedStore(change_stores.ChangeStore):
    """A change store with a reply for each frame. It records the frames."""

    def __init__(self, path):
        self.asked, self.replies, self.turns = [], [], []
        super().__init__(path)

    @property
    def leads(self):
        """True if the store leads: the next value of `turns`, or the value that was set if `turns` is empty.
        """
        return self.turns.pop(0) if self.turns else self.is_leading

    @leads.setter
    def leads(self, is_leading):
        self.is_leading = is_leading

    def answer(self, path, message):
        self.asked.append((path, message))
        reply = self.replies.pop(0) if self.replies else v.refusal(13, "no more is played")
        return None if reply == CLOSED else reply

    def take(self):
        """Returns the frames so far, and forgets them."""
        asked, self.asked = self.asked, []
        return asked


def volume(number, name, size=MIB, pool="p1", caps=BLOCK, params=b""):
    return change_stores.volume(number, name, size, pool, caps, params)


def attachment(number, node, cap=BLOCK, readonly=0):
    return change_stores.attachment(number, node, cap, readonly)


def read(token=b""):
    return READ, v.msg(1, token)


def commit(*parts):
    return COMMIT, b"".join(parts)


class Server(Served):
    """csid at a socket, over a played store."""

    def __init__(self, csid, folder, *replies, words=(), log=PlayedStore):
        self.path, self.log_path = os.path.join(folder, "csid.sock"), os.path.join(folder, "log.sock")
        self.log = log(self.log_path)
        if replies:
            self.log.replies += replies
        self.begin([csid, "serve", "--socket", self.path, "--log", self.log_path, *words],
                   stdout=subprocess.DEVNULL)
        assert wait(lambda: self.lines() or self.process.poll() is not None), "csid says nothing"

    def lines(self):
        return super().lines().replace(self.log_path, "LOG")

    def end(self):
        """Ends csid and the change store. Returns the lines of csid."""
        if os.path.exists(self.log_path):
            self.process.kill()
            self.process.wait()
            self.log.end()
            os.unlink(self.path)
        return self.lines()


def has(volumes, attachments, number):
    counts = volumes, attachments, number
    return "csid: LOG: volumes %d, attachments %d, next number %d, format 2\n" % counts


MODE = v.num(1, 1)
CREATE = v.create(v.txt(1, "a"), v.unhex("1a060a001a020801"))
MADE = v.CREATED
NO_STORE, DOWN = v.refusal(13, "store refused"), v.refusal(13, "store is down")
RICH_ROW = [v.num(1, 2), v.txt(2, "rich"), v.num(3, 3 * MIB), v.txt(4, "p1"), v.msg(5, BLOCK, MOUNT),
            v.msg(6, v.unhex("22060a016b120176 42060a016d120177"))]
# A create that does not fit into the buffer of a socket. csid gives it up after a part of it was sent.
LARGE = v.create(v.txt(1, "large"),
                 *[v.msg(3, v.msg(2, v.txt(1, "%06d" % it)), v.msg(3, MODE)) for it in range(20_000)])
UNKNOWN = ("csid: LOG: a change was refused by the change store, or nobody knows of it, or there was no"
           " memory; from then on the connection was answered that the store is down\n")
ADDED = commit(v.msg(1, v.num(1, 1), v.txt(2, "a"), v.num(3, MIB), v.txt(4, "p1"), v.msg(5, BLOCK), v.msg(6)))
NOT_HELD = ("csid: LOG: there was no memory for a change that was made; from then on the connection was"
            " answered that the store refused its calls\n")


class DeafStore(PlayedStore):
    """A change store that answers a read of its rows and Lead, and then reads nothing. A short change is
    sent, but has no reply."""

    def __init__(self, path):
        self.over = threading.Event()
        super().__init__(path)

    def serve(self, peer):
        with peer, peer.makefile("rb") as stream:
            for _ in range(2):
                frame = change_stores.next_frame(stream)
                peer.sendall(OK if frame[0] == change_stores.LEAD else self.answer(*frame))
            self.end_silently(peer)

    def end_silently(self, peer):
        self.over.wait()


class DrippingStore(DeafStore):
    """A change store that answers the same calls, and then sends a reply at one byte each half second."""

    def end_silently(self, peer):
        for byte in page(*[volume(it, "v%d" % it) for it in range(1, 20)]):
            if self.over.wait(0.5):
                return
            peer.sendall(bytes([byte]))


def stalled(csid, folder, log, call):
    """Makes a call whose change a store does not answer. Returns the reply, True if it took 29 to 60 seconds,
    and the lines of csid."""
    os.mkdir(folder)
    server = Server(csid, folder, page(meta(1)), log=log)
    begin = time.monotonic()
    with server.connect() as peer:
        peer.settimeout(5 * SECONDS)
        peer.sendall(call)
        came = peer.recv(1 << 16)
    took = time.monotonic() - begin
    wait(lambda: UNKNOWN in server.lines())
    server.log.over.set()
    return came, 29 < took < 60, server.end()


def nobody(csid, folder):
    """Runs csid over a change store whose socket does not exist, and makes a Probe. Returns the bytes that
    come back, and the exit status of csid."""
    path = os.path.join(folder, "csid.sock")
    process = subprocess.Popen([csid, "serve", "--socket", path, "--log", os.path.join(folder, "none"),
                                "--connections", "1"], stdin=subprocess.DEVNULL, stdout=subprocess.DEVNULL,
                               stderr=subprocess.DEVNULL)
    with socket.socket(socket.AF_UNIX) as peer:
        peer.settimeout(SECONDS)
        wait(lambda: peer.connect_ex(path) == 0)
        peer.sendall(v.probe())
        came = received(peer)
    status = process.wait()
    os.unlink(path)
    return came, status


ROWS = tables("csid_change_store", globals())
NO_LEAD = "csid: the change store does not lead any more\n"


class PlayedTest(CsidTest):
    def serve(self, *replies, **how):
        server = Server(self.csid, self.folder, *replies, **how)
        self.addCleanup(server.end)
        return server


class StartTest(PlayedTest):
    def serve_three_pages(self):
        return self.serve(page(meta(9), volume(1, "a"), token=b"one"),
                          page(volume(3, "c", pool="p2"), token=b"\xff\0"),
                          page(attachment(1, "n1"), attachment(3, "n1")))

    def test_empty_log_is_given_its_first_row(self):
        server = self.serve(page(), OK)
        self.assertEqual((server.log.take(), server.end()), ([read(), (MAKE, b"")], has(0, 0, 1)))

    def test_log_without_volumes_is_read_once(self):
        server = self.serve(page(meta(7)))
        self.assertEqual((server.log.take(), server.end()), ([read()], has(0, 0, 7)))

    def test_unknown_fields_are_skipped_and_the_last_of_a_column_counts(self):
        """A column without a field is empty."""
        columns = [v.txt(2, "z"), v.txt(2, "a"), v.num(3, MIB), v.txt(4, "p1"), v.msg(5, BLOCK), v.num(7, 1)]
        server = self.serve(page(v.num(9, 7), meta(2), v.msg(2, v.num(1, 1), *columns)))
        self.assertEqual((server.log.take(), server.end()), ([read()], has(1, 0, 2)))

    def test_token_of_a_page_asks_for_the_next_one(self):
        server = self.serve_three_pages()
        self.assertEqual(server.log.take(), [read(), read(b"one"), read(b"\xff\0")])
        self.assertEqual(server.lines(), has(2, 2, 9))

    def test_rows_of_all_pages_are_listed_and_the_next_number_is_given(self):
        server = self.serve_three_pages()
        server.log.replies += [OK]
        wanted = v.page(v.listed(1, MIB, v.P1, "n1"), v.listed(3, MIB, v.P2, "n1")) + v.created(9, MIB, v.P1)
        self.assertEqual(server.ask(v.listing(), v.create(v.txt(1, "b"), BLOCK)), wanted)

    def test_rows_are_read_once_for_all_calls(self):
        server = self.serve_three_pages()
        server.log.take()
        server.log.replies += [OK]
        server.ask(v.listing(), v.create(v.txt(1, "b"), BLOCK))
        self.assertEqual([path for path, _ in server.log.take()], [COMMIT])
        self.assertEqual(server.ask(v.probe()), v.READY)

    def test_all_of_19_pages_are_read(self):
        """Each page has one row."""
        rows = [meta(15)] + [volume(it, "v%d" % it, pool="p1" if it <= 10 else "p2") for it in range(1, 15)]
        rows += [attachment(1, "n1"), attachment(2, "n1"), attachment(3, "n2"), attachment(14, "n2")]
        tokens = [b"%d" % it for it in range(1, len(rows))]
        server = self.serve(*[page(row, token=token) for row, token in zip(rows, tokens + [b""])])
        self.assertEqual(server.log.take(), [read()] + [read(token) for token in tokens])
        self.assertEqual(server.lines(), has(14, 4, 15))
        listed = server.ask(v.listing())
        self.assertEqual([listed.count(v.txt(2, "vol-%d" % it)) for it in (2, 14)], [1, 1])
        self.assertEqual([listed.count(v.msg(2, v.txt(1, node))) for node in ("n1", "n2")], [2, 2])


class RefusedStartTest(PlayedTest):
    """The change store is missing or refuses its rows. csid closes the connection without a reply, and tries
    again for the next connection."""

    def waiting(self, holder):
        text = "waiting for the lock, which %s holds" % holder
        return v.refusal(9, text), "csid: LOG: %s\n" % text

    def test_next_connection_is_served_once_the_store_has_rows(self):
        refusal, line = self.waiting("n2")
        server = self.serve(refusal, CLOSED, page(meta(1)))
        self.assertEqual(server.lines(), line)
        self.assertEqual([server.ask(v.probe()), server.ask(v.probe())], [b"", v.READY])
        self.assertEqual(server.end(), line + "csid: LOG: closed without a reply\n" + has(0, 0, 1))

    def test_reason_is_repeated_only_after_another_reason_or_a_success(self):
        (n2, of_n2), (n3, of_n3) = map(self.waiting, ("n2", "n3"))
        server = self.serve(n2, n2, n2, n3, n2, page(meta(1)))
        self.assertEqual([server.ask(v.probe()) for _ in range(5)], [b""] * 4 + [v.READY])
        server.log.replies.append(n2)
        server.log.hang_up()
        self.assertEqual(server.ask(v.probe()), b"")
        self.assertEqual(server.end(), of_n2 + of_n3 + of_n2 + has(0, 0, 1) + of_n2)

    @each(ROWS["REFUSED"])
    def test_rows_that_are_no_volumes_are_refused(self, name, replies, line):
        server = self.serve(*replies)
        came = server.ask(v.probe())
        self.assertEqual((came, server.end().split("\n")[0]), (b"", "csid: LOG: " + line))

    def test_missing_socket_of_the_store_is_no_reason_to_end(self):
        self.assertEqual(nobody(self.csid, self.folder), (b"", 0))


class ChangeTest(PlayedTest):
    """How csid sends a change to the change store, and what csid replies if the change store fails."""

    @each(ROWS["CHANGES"])
    def test_change_is_sent_once_and_answered_after_the_reply_of_the_store(self, name, rows, calls, wanted):
        first = [page(*rows)] if rows else [page(), OK]
        server = self.serve(*first, *[OK] * len(wanted))
        server.log.take()
        replies = server.ask(*calls)
        self.assertEqual(server.log.take(), wanted)
        self.assertEqual(replies[:1], b"\0")
        server.end()

    def test_change_that_fails_is_refused_with_all_later_ones(self):
        """The failed change and the later calls are refused, except Probe. If the change store has ended its
        connection, the later calls get no reply. The next connection reads the rows again."""
        stays = DOWN + v.READY + DOWN
        for name, reply, rest, line in [
            ("a refusal", v.refusal(8, "etcd has no room"), stays, ""),
            # A store whose connection has ended does not lead, and no further call is answered.
            ("an end", CLOSED, b"", NO_LEAD),
            ("a malformed reply", v.unhex("01"), stays, ""),
            ("a reply that says OK and has a text", v.unhex("000001 61 00 00000000"), stays, ""),
        ]:
            with self.subTest(name=name):
                server = self.serve(page(meta(1)), reply)
                server.log.take()
                self.assertEqual(server.ask(CREATE, CREATE, v.probe(), v.listing()), NO_STORE + rest)
                self.assertEqual(server.log.take(), [ADDED])
                server.log.replies += [page(meta(2), volume(1, "a"))]
                self.assertEqual((server.ask(CREATE), server.log.take()), (MADE, [read()]))
                self.assertEqual(server.end(), has(0, 0, 1) + line + UNKNOWN + has(1, 0, 2))

    def test_store_that_stalls_has_30_seconds(self):
        """The store takes a change and does not answer, or sends one byte each half second."""
        changes = [
            ("a short change", DeafStore, CREATE),
            ("a long change", DeafStore, LARGE),
            ("a reply byte by byte", DrippingStore, CREATE),
        ]
        with concurrent.futures.ThreadPoolExecutor() as pool:
            late = [(name, pool.submit(stalled, self.csid, os.path.join(self.folder, name), store, call))
                    for name, store, call in changes]
            for name, came in late:
                with self.subTest(name=name):
                    self.assertEqual(came.result(), (NO_STORE, True, has(0, 0, 1) + UNKNOWN))


class LeadTest(PlayedTest):
    """A change store that does not lead any more, or has gone. csid answers no later call from memory."""

    def serve_two(self):
        """Returns a csid over a store that has another volume when it is read again."""
        return self.serve(page(meta(2), volume(1, "a")), page(meta(3), volume(2, "b")))

    def ask_after(self, server, event, *calls):
        """Yields the bytes that answer each call, if an event happens between a Probe and these calls. The
        last bytes are all up to the end of the connection."""
        with server.connect() as peer:
            peer.sendall(v.probe())
            self.assertEqual(peer.recv(1 << 16), v.READY)
            event()
            for call in calls[:-1]:
                peer.sendall(call)
                yield peer.recv(1 << 16)
            peer.sendall(calls[-1])
            yield received(peer)

    def lose_lead(self, server):
        server.log.leads = False

    def test_call_while_another_leads_is_not_answered(self):
        server = self.serve_two()
        self.assertEqual([*self.ask_after(server, lambda: self.lose_lead(server), v.listing())], [b""])
        server.log.leads = True
        self.assertEqual(server.ask(v.probe()), v.READY)
        self.assertEqual(server.end(), has(1, 0, 2) + NO_LEAD + has(1, 0, 3))

    def test_change_that_the_store_made_is_answered_and_the_next_call_is_not(self):
        server = self.serve(page(meta(1)), OK)
        came = self.ask_after(server, lambda: self.lose_lead(server), CREATE, v.listing())
        self.assertEqual([*came], [MADE, b""])

    def test_store_is_asked_before_each_reply(self):
        """The store is asked once more at the start of a connection."""
        server = self.serve(page(meta(2), volume(1, "a")))
        server.log.turns, server.log.leads = [True, True, False], True
        self.assertEqual(server.ask(v.probe(), v.listing(), v.probe()), v.READY)
        self.assertEqual(server.log.turns, [])
        self.assertEqual(server.end(), has(1, 0, 2) + NO_LEAD)

    def test_call_after_the_end_of_the_connection_is_not_answered(self):
        """The next connection has the rows that the store has then."""
        server = self.serve_two()
        self.assertEqual([*self.ask_after(server, server.log.hang_up, v.listing())], [b""])
        self.assertEqual(server.ask(v.listing()), v.page(v.listed(2, MIB, v.P1)))
        self.assertEqual(server.end(), has(1, 0, 2) + NO_LEAD + has(1, 0, 3))


class SlowReaderTest(CsidTest):
    """A client of `csid serve --log` that reads late, so csid waits in the middle of a reply."""

    # These volumes fit on one page of ListVolumes.
    VOLUMES = range(1, 101)
    # These pages have 4,300 bytes each. All together do not fit into the buffer of a socket.
    LISTINGS = 200

    def setUp(self):
        super().setUp()
        config = self.configure(LARGE_POOL)
        words = ["--config", config]
        self.server = Server(self.csid, self.folder, words=words, log=self.change_store)
        self.addCleanup(self.server.end)
        page = v.page(*[v.listed(it, MIB, v.P1) for it in self.VOLUMES])
        self.calls, self.pages = v.listing() * self.LISTINGS, page * self.LISTINGS

    def change_store(self, path):
        """Returns a change store with the volumes, fifty on a page."""
        store = KeptChangeStore(path, page_rows=50)
        store.volumes = {it: ("v%d" % it, MIB, "p1", BLOCK, b"") for it in self.VOLUMES}
        store.next = len(self.VOLUMES) + 1
        return store

    def read_late(self, calls, count):
        """Makes calls, and reads the replies only after three seconds. Reading must then take less than five
        seconds. Returns the replies."""
        with self.server.connect() as peer:
            threading.Thread(target=peer.sendall, args=(calls,), daemon=True).start()
            time.sleep(3)
            came, begin = bytearray(), time.monotonic()
            while len(came) < count and (piece := peer.recv(1 << 16)):
                came += piece
            self.assertLess(time.monotonic() - begin, 5)
            return bytes(came)

    def test_pages_are_whole_for_a_reader_that_begins_late(self):
        came = self.read_late(self.calls, len(self.pages))
        self.assertEqual(came == self.pages, True)
        self.assertEqual(self.server.lines(), has(100, 0, 101))

    def test_change_after_pages_that_are_read_late_is_made_and_answered(self):
        wanted = self.pages + v.created(101, MIB, v.P1)
        came = self.read_late(self.calls + CREATE, len(wanted))
        self.assertEqual(came == wanted, True)
        self.assertEqual(self.server.log.next, 102)
        self.assertEqual(self.server.log.volumes[101], ("a", MIB, "p1", BLOCK, b""))


class StarvingStore(KeptChangeStore):
    """A change store that limits the memory of csid to the memory in use, before it answers a change."""

    csid = None

    def answer(self, path, message):
        if self.csid is not None and path == COMMIT:
            wait(lambda: status_of(self.csid, "State") == "S")
            limit_memory(self.csid, 1)
        return super().answer(path, message)


def status_of(csid, key):
    """Returns the first value in the line `key` of /proc/PID/status, as a text."""
    with open("/proc/%d/status" % csid) as lines:
        return next(line.split()[1] for line in lines if line.startswith(key + ":"))


def limit_memory(csid, size):
    resource.prlimit(csid, resource.RLIMIT_DATA, (size, resource.RLIM_INFINITY))


class ShortMemoryTest(CsidTest):
    """The change store makes a change, and `csid serve --log` has no memory for it."""

    # A map with the greatest number of entries. In memory it takes about 90 KiB.
    ENTRIES = [("%03x" % it, "v") for it in range(1024)]

    def setUp(self):
        super().setUp()
        # The C library returns freed buffers to the system, and reserves no memory (mallopt(3)).
        self.enterContext(mock.patch.dict(os.environ, MALLOC_MMAP_THRESHOLD_="65536", MALLOC_TOP_PAD_="0"))
        config = self.configure(LARGE_POOL)
        self.server = Server(self.csid, self.folder, words=["--config", config], log=self.change_store)
        self.addCleanup(self.server.end)

    def change_store(self, path):
        """Returns a change store with one volume."""
        store = StarvingStore(path, page_rows=1000)
        store.volumes, store.next = {1: ("a", MIB, "p1", BLOCK, b"")}, 2
        return store

    def ask(self, peer, call):
        peer.sendall(call)
        return peer.recv(1 << 16)

    def fill(self, peer):
        """Creates volumes until csid needs more memory for one. Then csid has no free memory left."""
        csid = self.server.process.pid
        entries = [v.mutable(*it) for it in self.ENTRIES[:100]]
        taken = status_of(csid, "VmData")
        for number in range(2, 2000):
            self.assertEqual(self.ask(peer, v.create(v.name("v%d" % number), v.BLOCK, *entries))[:1], b"\0")
            if status_of(csid, "VmData") != taken:
                return
        self.fail("memory is free")

    def modify(self):
        """Changes the mutable parameters of the first volume, while csid has no memory for the change, and
        then lists volumes. Returns both replies."""
        csid = self.server.process.pid
        with self.server.connect() as peer:
            self.fill(peer)
            self.server.log.csid = csid
            came = self.ask(peer, v.modify(v.vol("vol-1"), *[v.sets(*it) for it in self.ENTRIES]))
            self.server.log.csid = None
            limit_memory(csid, resource.RLIM_INFINITY)
            return came, self.ask(peer, v.listing())

    def test_next_connection_has_the_change(self):
        """A create returns the existing volume only if its mutable parameters are the same."""
        self.assertEqual(self.modify(), (v.DONE, NO_STORE))
        params = b"".join(v.mutable(*it) for it in self.ENTRIES)
        self.assertEqual(self.server.ask(v.create(v.name("a"), v.BLOCK, params)), MADE)
        self.assertEqual(self.server.lines().count(NOT_HELD), 1)
