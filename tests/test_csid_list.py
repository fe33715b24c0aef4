"""`csid --list-tables`: its columns, its JSON, and tables that it refuses."""

import itertools
import json
import os
import shutil
import subprocess
import threading

from tests.support.configs import sample
from tests.support.frames import BLOCK, MODE_NAMES, NO_MEMORY, WRITE_FAILED, controller
from tests.support.processes import SECONDS, TOP, fixture, memory_of_20_mib, run, small_memory, write
from tests.support.rows import CsidTest, each
from tests.support.server import MISSING, WITHOUT
from tests.support.tables import (A, BLOCK_CAPS, LARGE_CAPS, MANY, MIB, NO_DATABASE, NO_FILE, Tables,
                                  attachment, block, cell, next_is, volume)

# Cells of capabilities: a mount of any file system with mode 1, and a mount of ext4 with mode 5.
MOUNT = "1a0612001a020801"
EXT4 = "1a0c12060a04" + b"ext4".hex() + "1a020805"

# Parameters k=v and l=a b, and the mutable parameter m with an empty value.
PARAMS = "22060a016b120176" + "22080a016c12036120 62".replace(" ", "") + "42050a016d1200"

ROWS = "".join([volume(1, "'pvc-1'", 3 << 30, "'ssd'"),
                volume(2, "'a b'", 1536 << 20, "'hdd'", cell(MOUNT + EXT4), cell(PARAMS)),
                volume(7, "'pvc-\"7\"'", 5 * MIB, "'ssd'"),
                volume(8, "'ä' || char(10)", 1 << 62, "'hdd'"),
                attachment(1, "'n1'"),
                attachment(2, "'n2'", cell(EXT4)),
                attachment(2, "'n1'", cell(EXT4)),
                attachment(8, "'n,1'"),
                next_is(9)])

# A mount of a file system with a space in its name.
ODD = "1a0b 1205 0a03 612062 1a020801".replace(" ", "")
# The key 'a b' with the value 'c d', and the key ' ' with an empty one.
ODD_MAPS = "220a 0a03612062 1203632064 4205 0a0120 1200".replace(" ", "")

# Each text of a row has a space: the name, the pool, the file system, a key, a value and a node.
SPACES = (volume(1, "'a b'", MIB, "'p 1'", cell(ODD), cell(ODD_MAPS))
          + attachment(1, "'n 1'", cell(ODD))
          + next_is(2))
TABLE, ESCAPED, EMPTY = [fixture("listing/%s.txt" % name) for name in ("table", "escaped", "empty")]
DOCUMENT = json.loads(fixture("listing/document.json"))
# The place in the line if a listing fails before its first row.
FIRST = "from the first volume on"


class ListedTest(CsidTest):
    def listed(self, tables, *options, **how):
        return run([self.csid, "--list-tables", tables.path] + list(options), **how)

    def document(self, tables, *options):
        out, line, status = self.listed(tables, "--json", *options)
        self.assertEqual((line, status), ("", 0))
        return json.loads(out)

    def ids(self, tables, *options):
        return [one["id"] for one in self.document(tables, *options)["volumes"]]


class ListTest(ListedTest):
    """The listing, in columns and in JSON."""

    def test_table(self):
        """There is a row for each volume, in the order of their numbers, and a row for each pool and node
        that has a volume."""
        tables = self.tables.new().script(ROWS)
        kept = tables.files()
        self.check("all", self.listed(tables), (TABLE, "", 0))
        self.check("none", self.listed(Tables(self.csid, self.folder, "new.db").new()), (EMPTY, "", 0))
        self.check("none that is chosen", self.listed(tables, "--name", "pvc"), (EMPTY, "", 0))
        self.check("to the byte as it was", tables.files(), kept)

    def test_escaped_words(self):
        """A space does not end a word of a row, in any column."""
        tables = self.tables.new().script(SPACES)
        self.check("a space in each text", self.listed(tables), (ESCAPED, "", 0))

    def test_modes(self):
        """Each access mode by its name, for people and for programs."""
        tables = self.tables.new()
        caps = "".join(block(mode) for mode in range(1, 8))
        tables.script(volume(1, caps=cell(caps)) + next_is(2))
        out, line, status = self.listed(tables)
        self.assertEqual((line, status), ("", 0))
        wanted = ",".join("block:" + mode for mode in MODE_NAMES)
        self.check("in columns", out.decode().splitlines()[1].split()[5], wanted)
        wanted = [{"access": "block", "mode": mode} for mode in MODE_NAMES]
        self.check("in JSON", self.document(tables)["volumes"][0]["capabilities"], wanted)

    def test_greatest_numbers(self):
        """Numbers up to the greatest of each column, and sums of bytes up to the greatest 64-bit number."""
        tables = self.tables.new()
        numbers = [1 << 61, (1 << 62) - 1, 1 << 62, (1 << 63) - 1]
        tables.script("".join(volume(number, "'v%d'" % number, 1 << 62) + attachment(number)
                              for number in numbers))
        self.check("ids", self.ids(tables), ["vol-%d" % number for number in numbers])
        most = (1 << 64) - 1
        found = self.document(tables)
        self.check("of the pool", found["pools"], [{"name": "p1", "volumes": 4, "bytes": most}])
        self.check("of the node", found["nodes"], [{"id": "n1", "volumes": 4, "bytes": most}])
        self.check("in columns", self.listed(tables)[0].count(b"4        %d B\n" % most), 2)
        # 1,001 volumes are more than one page.
        tables.new().script(MANY % (1001, BLOCK_CAPS) + "UPDATE volumes SET number = number + %d" % (1 << 62))
        wanted = ["vol-%d" % ((1 << 62) + number) for number in range(1, 1002)]
        self.check("1,001 ids", self.ids(tables), wanted)

    @each([(80, 80), (81, 4)])
    def test_long_names(self, length, width):
        """A name of 80 bytes makes its column wider. A longer name only moves the rest of its own row."""
        tables = Tables(self.csid, self.folder, "long-%d.db" % length).new()
        tables.script(volume(1, "'a'") + volume(2, "'%s'" % ("x" * length)) + next_is(3))
        out, line, status = self.listed(tables)
        self.assertEqual((line, status), ("", 0))
        short, long = out.decode().splitlines()[1:3]
        self.check("next to %d bytes" % length, short[:width + 11], "vol-1  a".ljust(width + 9) + "p1")
        self.check("%d bytes" % length, long[:length + 11], "vol-2  " + "x" * length + "  p1")

    def test_json(self):
        """The document has the values of the rows. A volume is a line."""
        tables = self.tables.new().script(ROWS)
        self.check("all", self.document(tables), DOCUMENT)
        out, _, _ = self.listed(tables, "--json")
        self.check("its lines", len(out.splitlines()), 1 + 4 + 3)
        empty = {"volumes": [], "pools": [], "nodes": []}
        self.check("none", self.document(Tables(self.csid, self.folder, "new.db").new()), empty)

    def test_chosen(self):
        """A volume is listed if it has the given name, id, pool and node. The sums of pools and nodes count
        only listed volumes."""
        tables = self.tables.new().script(ROWS)
        for name, options, ids in [
            ("a name", ["--name", "a b"], ["vol-2"]),
            ("a name that begins alike", ["--name", "pvc-"], []),
            ("a name of odd characters", ["--name", 'pvc-"7"'], ["vol-7"]),
            ("an id", ["--id", "vol-7"], ["vol-7"]),
            ("an id of none", ["--id", "vol-3"], []),
            ("an id with a zero before its number", ["--id", "vol-07"], []),
            ("a number alone", ["--id", "7"], []),
            ("an id that is none", ["--id", "vol-"], []),
            ("an id and the name of another", ["--id", "vol-7", "--name", "pvc-1"], []),
            ("a pool", ["--pool", "ssd"], ["vol-1", "vol-7"]),
            ("a node", ["--node", "n1"], ["vol-1", "vol-2"]),
            ("a node that comes second", ["--node", "n2"], ["vol-2"]),
            ("a node of none", ["--node", "n"], []),
            ("a pool and a node", ["--pool", "hdd", "--node", "n1"], ["vol-2"]),
            ("a pool and the name of another", ["--pool", "hdd", "--name", "pvc-1"], []),
            ("an empty name", ["--name", ""], []),
        ]:
            self.check(name, self.ids(tables, *options), ids)
        sums = self.document(tables, "--node", "n2")
        self.check("the pools of a node", sums["pools"], [{"name": "hdd", "volumes": 1, "bytes": 1536 << 20}])
        self.check("the nodes of its volumes", [one["id"] for one in sums["nodes"]], ["n1", "n2"])

    def test_reader_that_goes_away(self):
        """Nothing is reported, and the status is 0."""
        tables = Tables(self.csid, self.folder).new()
        # The list of 2,000 volumes is longer than one write.
        tables.script(MANY % (2000, BLOCK_CAPS) + next_is(2001))
        for words in [], ["--json"]:
            read, write_end = os.pipe()
            os.close(read)
            came = subprocess.run([self.csid, "--list-tables", tables.path, *words], stdout=write_end,
                                  stderr=subprocess.PIPE, timeout=SECONDS)
            os.close(write_end)
            self.check("a list %s" % words, (came.stderr, came.returncode), (b"", 0))

    def test_many(self):
        """A page has 1,000 volumes."""
        for count in 999, 1000, 1001, 2500:
            tables = Tables(self.csid, self.folder, "many-%d.db" % count).new()
            tables.script(MANY % (count, BLOCK_CAPS) + next_is(count + 1))
            self.check("%d volumes" % count, self.ids(tables), ["vol-%d" % n for n in range(1, count + 1)])
            self.check("the sum of %d" % count, self.document(tables)["pools"][0]["bytes"], count * MIB)

    def test_older_format(self):
        """Tables of format 1 are listed unchanged."""
        for count in 0, 1, 1000:
            older = Tables(self.csid, self.folder, "format-1-%d.db" % count)
            shutil.copy(os.path.join(TOP, "tests", "stored", "format-1-%d.db" % count), older.path)
            kept = older.files()
            self.check("%d volumes" % count, self.ids(older), ["vol-%d" % n for n in range(1, count + 1)])
            self.check("%d volumes, to the byte as it was" % count, older.files(), kept)


UNREAD = "the tables cannot be read %s: --check-tables says why"


class RefusedListTest(ListedTest):
    def check_refused(self, line):
        self.assertEqual(self.listed(self.tables), self.tables.says(line))

    def test_missing_file_is_refused_and_not_made(self):
        self.check_refused(MISSING)
        self.assertEqual(self.tables.files(), {})

    def test_empty_path_is_refused(self):
        came = run([self.csid, "--list-tables", ""])
        self.assertEqual(came, (b"", "csid: the path of the tables is empty\n", 4))

    @each([(b"", WITHOUT), (b"x" * 4096, NO_DATABASE)])
    def test_file_without_tables_is_refused(self, content, line):
        write(self.tables.path, content)
        self.check_refused(line)

    def test_row_that_cannot_be_read_is_refused(self):
        after_1000 = MANY % (1000, BLOCK_CAPS) + volume(1001, "'x'", params="x'22'") + next_is(1002)
        for name, where, rows in [
            ("malformed capabilities", FIRST, volume(1, caps="x'1a'") + next_is(9)),
            ("a name that is a blob", FIRST, volume(1, "x'61'") + next_is(9)),
            ("malformed parameters", "after volume 1000", after_1000),
        ]:
            with self.subTest(name=name):
                self.tables.new().script(rows)
                out, line, status = self.listed(self.tables)
                self.assertEqual((line, status), (self.tables.says(UNREAD % where)[1], 4))

    def test_file_with_a_journal_is_refused(self):
        self.tables.new().script(A)
        write(self.tables.path + "-journal", b"\x01")
        self.check_refused(NO_FILE)

    def test_lack_of_memory_for_a_volume_is_reported(self):
        """Both files can be opened. The first has capabilities that need memory, and the second as many bytes
        that are not capabilities."""
        for name, caps, wanted in [
            ("capabilities", LARGE_CAPS, (b"", NO_MEMORY, 6)),
            ("no capabilities", "zeroblob(%d)" % MIB, self.tables.says(UNREAD % FIRST)),
        ]:
            with self.subTest(name=name):
                self.tables.new().script(volume(1, caps=caps) + next_is(2))
                self.assertEqual(self.listed(self.tables, preexec_fn=memory_of_20_mib), wanted)

    def test_lack_of_memory_at_the_start_is_reported(self):
        self.tables.new().script(A)
        self.assertEqual(self.listed(self.tables, preexec_fn=small_memory), (b"", NO_MEMORY, 6))

    def test_full_output_is_reported(self):
        self.tables.new().script(A)
        with open("/dev/full", "wb") as full:
            self.assertEqual(self.listed(self.tables, stdout=full), (b"", WRITE_FAILED, 5))


def text(field, value):
    return bytes([field << 3 | 2, len(value)]) + value


class ServedListTest(ListedTest):
    def setUp(self):
        super().setUp()
        self.tables.new()
        config = self.configure(sample((b"10485760", b"%d" % (1 << 40))))
        streams = dict.fromkeys(("stdin", "stdout", "stderr"), subprocess.PIPE)
        command = self.tables.command + ["--config", config]
        self.server = subprocess.Popen(command, bufsize=0, **streams)
        self.has_ended = threading.Event()
        worker = threading.Thread(target=self.change, daemon=True)
        worker.start()
        self.addCleanup(self.server.wait, SECONDS)
        self.addCleanup(self.server.stdin.close)
        self.addCleanup(worker.join, SECONDS)
        self.addCleanup(self.has_ended.set)

    def change(self):
        """Volumes are made, published at n1, unpublished and deleted, one after another. Each tenth volume
        stays. So at most one volume besides these exists, and it has the greatest number."""
        for number in itertools.count(1):
            volume_id = text(1, b"vol-%d" % number)
            calls = [("CreateVolume", text(1, b"v%d" % number) + BLOCK)]
            if number % 10:
                calls.append(("ControllerPublishVolume", volume_id + text(2, b"n1") + BLOCK))
                calls.append(("ControllerUnpublishVolume", volume_id))
                calls.append(("DeleteVolume", volume_id))
            for method, message in calls:
                if self.has_ended.is_set():
                    return
                self.server.stdin.write(controller(method, message))
                head = self.server.stdout.read(8)
                self.server.stdout.read(int.from_bytes(head[4:8], "big"))

    def check_moment(self, found):
        """A listing shows one moment. Returns the greatest number in it, and how many temporary and how many
        attached volumes it has."""
        numbers = [int(one["id"][4:]) for one in found["volumes"]]
        last = max(numbers, default=0)
        others = [n for n in numbers if n % 10]
        self.assertEqual(numbers, sorted({*range(10, last + 1, 10), *others}))
        self.assertIn(others, ([], [last]))
        self.assertEqual([one["name"] for one in found["volumes"]], ["v%d" % n for n in numbers])
        at = [one["id"] for one in found["volumes"] if one["nodes"]]
        self.assertIn(at, ([], ["vol-%d" % n for n in others]))
        counts = [one["volumes"] for one in found["pools"]]
        self.assertEqual(counts, [len(numbers)] if numbers else [])
        return last, len(others), len(at)

    def test_listing_is_of_one_moment(self):
        """Many different moments are listed."""
        moments = {self.check_moment(self.document(self.tables)) for _ in range(60)}
        self.assertGreater(len(moments), 20)
