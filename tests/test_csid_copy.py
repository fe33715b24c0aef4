"""`csid --check-tables` reads a file and its WAL while another process writes them."""

import contextlib
import itertools
import os
import pathlib
import sqlite3
import threading

from tests.support.rows import CsidTest
from tests.support.tables import Tables, next_is, volume

# The bytes of a WAL's header (sqlite.org/fileformat2.html, section 4.1).
HEADER = 32


class Moment:
    """The bytes of a file and of its WAL at one moment, and the number of volumes in them."""

    def __init__(self, path, volumes):
        self.database = pathlib.Path(path).read_bytes()
        self.wal = pathlib.Path(path + "-wal").read_bytes()
        self.volumes = volumes


def moments(path):
    """Returns the moments of a writer in order, and the length of the WAL after the first of two commits.
    First both commits are only in the WAL, then also in the file, and then the WAL begins again with a third
    commit."""
    writer = sqlite3.connect(path, isolation_level=None)
    writer.execute("PRAGMA wal_autocheckpoint = 0")

    def commit(number):
        writer.executescript("BEGIN; %s %s COMMIT;" % (volume(number, "'v%d'" % number), next_is(number + 1)))

    commit(1)
    first = os.path.getsize(path + "-wal")
    commit(2)
    found = [Moment(path, 2)]
    writer.execute("PRAGMA wal_checkpoint(PASSIVE)").fetchall()
    found.append(Moment(path, 2))
    commit(3)
    found.append(Moment(path, 3))
    writer.close()
    return found, first


class CopyTest(CsidTest):
    """`csid --check-tables` reads a file and its WAL while another process writes them."""

    def setUp(self):
        super().setUp()
        self.moments, self.cut = moments(Tables(self.csid, self.folder, "made.db").new().path)

    def feed(self, path, reads):
        """Gives csid the bytes that it reads from pipes: first the head of the file and its journal. Each
        pipe is opened after the one before has ended."""
        reads = [("", self.moments[0].database[:105]), ("-journal", b"")] + reads
        # csid may not read all of it.
        with contextlib.suppress(OSError):
            for ending, content in reads:
                pathlib.Path(path + ending).write_bytes(content)

    def reads(self, file, low, high, again, header):
        """Returns the reads of one copy. The arguments are moments: the file is read at `file`, the first
        piece of the WAL at `low` and the second at `high`, the file again at `again`, and the head of the WAL
        at `header`."""
        return [
            ("", file.database),
            ("-wal", low.wal[: self.cut] + high.wal[self.cut :]),
            ("", again.database),
            ("-wal", header.wal[:HEADER]),
        ]

    def count(self, name, *copies):
        """Checks a file whose reads give these copies, one after another, until csid accepts a copy. Returns
        the output, the errors and the status."""
        tables = Tables(self.csid, self.folder, name + ".db")
        for ending in "", "-journal", "-wal":
            os.mkfifo(tables.path + ending)
        reads = [read for copy in copies for read in self.reads(*copy)]
        threading.Thread(target=self.feed, args=(tables.path, reads), daemon=True).start()
        return tables.check()

    def found(self, volumes):
        return b"volumes %d, attachments 0, next number %d, format 2\n" % (volumes, volumes + 1), "", 0

    def test_each_order_of_reads_and_writes_gives_one_moment(self):
        last = [self.moments[-1]] * 5
        orders = itertools.combinations_with_replacement(range(len(self.moments)), 5)
        for order in orders:
            copy = [self.moments[at] for at in order]
            file, _, _, again, header = copy
            is_one = file.database == again.database and copy[1].wal[:HEADER] == header.wal[:HEADER]
            wanted = self.found(header.volumes if is_one else last[0].volumes)
            with self.subTest(order=order):
                self.assertEqual(self.count("order%d%d%d%d%d" % order, copy, last), wanted)

    def test_wal_that_begins_again_behind_its_first_piece_is_read_again(self):
        """The first piece of the WAL has only the first commit, and the file has both. A copy made of these
        would lack a volume."""
        _, copied, begun = self.moments
        self.assertEqual(self.count("joined", (copied, copied, begun, begun, begun), [begun] * 5),
                         self.found(3))

    def test_file_that_is_written_all_the_time_is_refused(self):
        one, other, _ = self.moments
        tables = Tables(self.csid, self.folder, "busy.db")
        came = self.count("busy", *[(one, one, one, other, other)] * 10)
        self.assertEqual(came, tables.says("it is written all the time"))
