"""Tables that are adopted or refused: rows written by hand, and files of earlier releases."""

import os
import shutil

from tests.support.configs import LARGE_POOL, POOLS, sample
from tests.support.data import tables
from tests.support.frames import CREATE_A, PROBE, VOLUME_1, VOL_1, controller, frame, listed, refusal, reply
from tests.support.processes import TOP, write
from tests.support.rows import CsidTest, each
from tests.support.tables import (A, BESIDE, BLOCK_CAPS, BYTES, CAP, CAPS, FIRST_FORMAT, KIND, LARGE_CAPS,
                                  MANY, MIB, NAME, NEXT_9, NODE, NO_DATABASE, NO_META, NUMBER, OTHER_TABLES,
                                  OWNER, PARAMS, PLACES, POOL, READONLY, SHARED_CAPS, Tables, attachment,
                                  attachment_fault, attachment_row_fault, block, cell, next_is, pairs,
                                  volume, volume_fault)
from tests.vectors.rows import Plain


# All rules are broken at once, and then fixed in this order. For each rule: how to break it, how to fix it,
# and the line before it is fixed.
GOOD = volume(1) + volume(2, "'b'") + volume(3, "'c'")
TURNS = [
    (volume(10, "'k'", caps="'caps'"), "DELETE FROM volumes WHERE number = 10", volume_fault(10, KIND)),
    ("INSERT INTO attachments (rowid, number, node, cap, readonly) VALUES (77, 1, 'n7', 'cap', 0);",
     "DELETE FROM attachments WHERE node = 'n7'", attachment_row_fault(77, KIND)),
    (next_is(0), next_is(50), "the next number is not 1 to 2^62"),
    (volume(60, "'n'"), "DELETE FROM volumes WHERE number = 60", volume_fault(60, NUMBER)),
    (volume(11, "''"), "DELETE FROM volumes WHERE number = 11", volume_fault(11, NAME)),
    (volume(12, "'p'", pool="'p9'"), "DELETE FROM volumes WHERE number = 12", volume_fault(12, POOL)),
    (volume(13, "'s'", MIB + 1), "DELETE FROM volumes WHERE number = 13", volume_fault(13, BYTES)),
    (volume(9, "'o'", 5 * MIB, "'p2'"), "DELETE FROM volumes WHERE number = 9",
     "pool p2: its volumes have more bytes than it has"),
    (volume(15, "'q'", caps="x''"), "DELETE FROM volumes WHERE number = 15", volume_fault(15, CAPS)),
    (volume(8, "'r'", params="x'00'"), "DELETE FROM volumes WHERE number = 8", volume_fault(8, PARAMS)),
    (attachment(1, "'n2'", "x''"), "DELETE FROM attachments WHERE cap = x''", attachment_fault(1, "n2", CAP)),
    (attachment(2, "'n2'", readonly=2), "DELETE FROM attachments WHERE readonly = 2",
     attachment_fault(2, "n2", READONLY)),
    (attachment(3, "'n9'"), "DELETE FROM attachments WHERE node = 'n9'", attachment_fault(3, "n9", NODE)),
    (attachment(40), "DELETE FROM attachments WHERE number = 40", attachment_fault(40, "n1", OWNER)),
    (attachment(3, "'n2'"), "DELETE FROM attachments WHERE number = 3 AND node = 'n2'",
     attachment_fault(3, "n2", BESIDE)),
    (attachment(1) + attachment(2) + attachment(3), "DELETE FROM attachments WHERE number = 3",
     "node n1: more volumes are attached there than it can have"),
]

ROWS = tables("csid_adoption", globals())


BROKEN_A = "volume 1: it is vol-1 (a), 1 MiB in pool p1"
EXPLAINED = dict(ROWS["EXPLAINED"])


def explained(name, line):
    """Returns the text that `csid --check-tables` prints in the line before the refusal, or None without such
    a line."""
    is_of_a = line.startswith("volume 1") and KIND not in line
    return EXPLAINED.get(name, BROKEN_A if is_of_a else None)


class AdoptionTest(CsidTest):
    """csid adopts rows that were written by SQL, or refuses them with a line about the fault."""

    def check_refused(self, name, line, config=None):
        """`csid --check-tables` explains a refused row, then prints the line of the refusal."""
        out, said, status = self.tables.says(line)
        more = explained(name, line)
        if more is not None:
            said = "csid: %s: %s\n" % (self.tables.path, more) + said
        self.assertEqual(self.tables.check(config), (out, said, status))

    @each(ROWS["SPOILED"])
    def test_rows_that_are_no_state_are_refused_and_kept(self, name, text, line):
        before = self.tables.new().script(text).rows()
        if line is not None:
            kept = self.tables.files()
            self.check_refused(name, line)
            self.assertEqual(self.tables.files(), kept)
        self.assertEqual(self.tables.run(frame(PROBE)), self.tables.says(line))
        self.assertEqual(self.tables.rows(), before)
        if line not in (OTHER_TABLES, NO_DATABASE):
            self.assertEqual(self.tables.run(frame(PROBE)), self.tables.says(line))

    def test_first_rule_that_is_broken_is_reported(self):
        """The rows break all rules. They are then fixed for one rule after another, and each time csid
        reports the first rule that is still broken."""
        rows = "SELECT * FROM volumes", "SELECT rowid, * FROM attachments"
        self.tables.new().script(GOOD + next_is(50) + "".join(spoil for spoil, _, _ in TURNS))
        before = list(map(self.tables.ask, rows))
        for number, (_, fix, line) in enumerate(TURNS):
            with self.subTest(line=line):
                self.assertEqual(self.tables.run(frame(PROBE)), self.tables.says(line))
                if number == 0:
                    self.assertEqual(list(map(self.tables.ask, rows)), before)
                self.tables.script(fix)
        self.assertEqual(self.tables.run(frame(PROBE)), self.tables.says(None))

    @each(ROWS["RECONFIGURED"])
    def test_rows_are_judged_by_the_configuration(self, name, text, configuration, line):
        self.configure(configuration)
        self.tables.new().script(text)
        if line is not None:
            self.check_refused(name, line, self.config)
        self.assertEqual(self.tables.run(frame(PROBE), self.config), self.tables.says(line))

    def fill(self, count):
        """Makes tables with this many volumes and the next number 200000, and a configuration with room for
        the volumes."""
        self.configure(sample((b"10485760", b"%d" % (200000 * MIB))))
        self.tables.new().script(MANY % (count, BLOCK_CAPS) + next_is(200000))

    def test_limit_of_volumes_is_100000(self):
        """A new name is refused, an existing name is answered, and after a delete there is room for one more.
        """
        self.fill(100000)
        names = b"\x0a\x01z", b"\x0a\x02v1", b"\x0a\x01a"
        new, first, another = [controller("CreateVolume", CREATE_A.replace(names[2], it)) for it in names]
        delete = controller("DeleteVolume", bytes.fromhex("0a0a") + b"vol-100000")
        # 'vol-200000' is five bytes longer than 'vol-1'.
        made = VOLUME_1.replace(bytes.fromhex("0a24"), bytes.fromhex("0a29"))
        made = made.replace(b"\x05vol-1", b"\x0avol-200000")
        full = refusal(8, "too many volumes")
        wanted = full + reply(VOLUME_1) + reply(b"") + reply(made) + full
        came = self.tables.run(new + first + delete + new + another, self.config)
        self.assertEqual(came, (wanted, "", 0))
        self.assertEqual(self.tables.ask("SELECT count(*), max(number) FROM volumes"), [(100000, 200000)])

    def test_more_than_100000_volumes_are_refused(self):
        self.fill(100001)
        refused = self.tables.says("there are more than 100000 volumes")
        self.assertEqual(self.tables.run(frame(PROBE), self.config), refused)


BLOCK_MODE, EXT4_MODE = "1a060a001a0208%02x", "1a0c12060a04657874341a0208%02x"
[MODES_6_AND_7] = next(iter(Plain("plain/stored.txt").groups.values())).values()


class StoredTest(CsidTest):
    """Files of earlier releases are adopted. After that a file has format 2, and no row of a volume has
    changed."""

    def open_stored(self, name):
        self.tables = Tables(self.csid, self.folder, name)
        shutil.copy(os.path.join(TOP, "tests", "stored", name), self.tables.path)

    def rows(self):
        return (self.tables.ask("SELECT * FROM volumes ORDER BY 1"),
                self.tables.ask("SELECT * FROM attachments ORDER BY 1, 2"),
                self.tables.ask("SELECT * FROM meta"))


class ModesTest(StoredTest):
    """A file of a csid without the modes 6 and 7: its volumes with mode 1 can be published with them.
    tests/stored/modes-1-to-5.db has volumes of 1 MiB in p1. Two of them are attached: 'readers' with mode 3
    and 'attached' with mode 1."""

    CAPS = [
        ("block", BLOCK_MODE % 1),
        ("mount", EXT4_MODE % 1),
        ("readers", BLOCK_MODE % 3),
        ("writers", BLOCK_MODE % 5),
        ("attached", BLOCK_MODE % 1),
        ("reader", BLOCK_MODE % 2),
        ("one-writer", BLOCK_MODE % 4),
    ]
    VOLUMES = [(number, name, MIB, "p1", bytes.fromhex(cap), b"")
               for number, (name, cap) in enumerate(CAPS, 1)]
    ATTACHED = [(3, "n2", bytes.fromhex(BLOCK_MODE % 3), 0), (5, "n1", bytes.fromhex(BLOCK_MODE % 1), 0)]

    def setUp(self):
        super().setUp()
        self.open_stored("modes-1-to-5.db")

    def check_listed(self, nodes):
        """csid lists the volumes 1 to 7 with these nodes. `nodes` has the nodes by volume number, for the
        attached volumes."""
        page = reply(b"".join(listed(number, *nodes.get(number, [])) for number in range(1, 8)))
        self.assertEqual(self.tables.run(controller("ListVolumes")), (page, "", 0))

    def test_file_is_adopted(self):
        self.assertEqual(self.rows(), (self.VOLUMES, self.ATTACHED, [(1, 1, 8)]))
        self.check_listed({3: [b"n2"], 5: [b"n1"]})
        self.assertEqual(self.rows(), (self.VOLUMES, self.ATTACHED, [(1, 2, 8)]))

    def test_volumes_of_mode_1_are_published_with_modes_6_and_7(self):
        came = self.tables.run(b"".join(call for call, _ in MODES_6_AND_7))
        self.assertEqual(came, (b"".join(answer for _, answer in MODES_6_AND_7), "", 0))
        attached = [(2, EXT4_MODE % 6, "n2"), (3, BLOCK_MODE % 3, "n2"), (5, BLOCK_MODE % 7, "n1")]
        attached = [(number, node, bytes.fromhex(cap), 0) for number, cap, node in attached]
        self.assertEqual(self.rows(), (self.VOLUMES, attached, [(1, 2, 8)]))
        self.check_listed({2: [b"n2"], 3: [b"n2"], 5: [b"n1"]})

    def test_volume_is_modified(self):
        modify = controller("ControllerModifyVolume", VOL_1 + bytes.fromhex("1a060a016b120176"))
        self.assertEqual(self.tables.run(modify), (reply(b""), "", 0))
        first = self.VOLUMES[0][:5] + (bytes.fromhex("42060a016b120176"),)
        self.assertEqual(self.rows(), ([first, *self.VOLUMES[1:]], self.ATTACHED, [(1, 2, 8)]))
        self.check_listed({3: [b"n2"], 5: [b"n1"]})


def part(number, content):
    """Returns a field of wire type 2 with less than 128 bytes."""
    return bytes([number * 8 + 2, len(content)]) + content


def entry(number):
    """Returns an entry of ListVolumes: a volume of 1 MiB in p1 without attachments."""
    pool = bytes.fromhex("1a0a 0a04706f6f6c 12027031 2a0b 0a09 0a047a6f6e65 120161")
    volume = bytes.fromhex("08808040") + part(2, b"vol-%d" % number) + pool
    return part(1, part(1, volume) + part(2, b""))


class FormatTest(StoredTest):
    """Files of a csid without mutable parameters. tests/stored/format-1-0.db has no volume, format-1-1.db one
    with a parameter, and format-1-1000.db a thousand, all of 1 MiB in p1, as block with mode 1."""

    def pages(self, count):
        """Returns the calls that list the volumes 1 to `count`, 100 on a page, and the replies."""
        calls, replies = b"", b""
        for first in range(0, max(count, 1), 100):
            last = min(first + 100, count)
            token = part(2, b"%d" % last) if last < count else b""
            calls += controller("ListVolumes", part(2, b"%d" % first) if first else b"")
            replies += reply(b"".join(map(entry, range(first + 1, last + 1))) + token)
        return calls, replies

    def test_file_of_format_1_is_adopted_once(self):
        config = self.configure(LARGE_POOL)
        for count in 0, 1, 1000:
            with self.subTest(volumes=count):
                self.open_stored("format-1-%d.db" % count)
                volumes, attachments, meta = self.rows()
                self.assertEqual((len(volumes), meta), (count, [(1, 1, count + 1)]))
                calls, replies = self.pages(count)
                for _ in range(2):
                    self.assertEqual(self.tables.run(calls, config), (replies, "", 0))
                    self.assertEqual(self.rows(), (volumes, attachments, [(1, 2, count + 1)]))
