"""Makes and reads files of tables by Python's sqlite3. Has the lines of docs/TABLES.md."""

import os
import pathlib
import sqlite3

from tests.support.frames import READY
from tests.support.processes import run


# Cells of volumes and attachments (docs/TABLES.md): a block device with mode 1, one with mode 5, and no
# parameters.
BLOCK_CAPS = "x'1a060a001a020801'"
SHARED_CAPS = "x'1a060a001a020805'"
MIB = 1 << 20


def volume(number, name="'a'", size=MIB, pool="'p1'", caps=BLOCK_CAPS, params="x''"):
    return "INSERT INTO volumes VALUES (%d, %s, %s, %s, %s, %s);" % (number, name, size, pool, caps, params)


def attachment(number, node="'n1'", cap=BLOCK_CAPS, readonly=0):
    return "INSERT INTO attachments VALUES (%d, %s, %s, %s);" % (number, node, cap, readonly)


# Changes tables to the format of an older csid.
FIRST_FORMAT = "UPDATE meta SET format_no = 1;"


def next_is(number):
    return "UPDATE meta SET next_number = %d;" % number


NEXT_9 = next_is(9)
A = volume(1) + NEXT_9
# 1 MiB of capabilities, and statements with a count to fill in. They insert attachments with the first of
# these capabilities, at nodes that no configuration has, or volumes with capabilities to fill in.
LARGE_CAPS = ("x'%s'" % b"".join(b"\x1a\x0d\x12\x07\x0a\x05%05d\x1a\x02\x08\x01" % n
                                 for n in range(MIB // 15)).hex())
PLACES = ("WITH RECURSIVE n (i) AS (VALUES (1) UNION ALL SELECT i + 1 FROM n WHERE i < %d) "
          "INSERT INTO attachments SELECT 1, 'm' || i, x'1a0d12070a0530303030301a020801', 0 FROM n;")
MANY = ("WITH RECURSIVE n (i) AS (VALUES (1) UNION ALL SELECT i + 1 FROM n WHERE i < %d) "
        "INSERT INTO volumes SELECT i, 'v' || i, 1048576, 'p1', %s, x'' FROM n;")
# 4,096 bytes of parameters in entries of four bytes: 1,024 keys of two letters, in order, each with itself as
# value. They take about 90 KiB of memory.
LETTERS = sorted(b"0123456789ABCDEFGHIJKLMNOPQRSTUVWXYZabcdefghijklmnopqrstuvwxyz")
SHORT_KEYS = [bytes([first, second]) for first in LETTERS for second in LETTERS][:1024]
SHORT_ENTRIES = b"".join(bytes.fromhex("22080a02") + key + bytes.fromhex("1202") + key for key in SHORT_KEYS)
NO_META = "meta has no row with the number of a format"
OTHER_TABLES = "the tables are not those of csid"
NO_DATABASE = "file is not a database that obeys its schema"
DAMAGED = "database disk image is malformed"
NO_FILE = "unable to open database file"
LOCKED = "database is locked"
FULL = "database or disk is full"
IO_FAILED = "disk I/O error"


def volume_fault(number, why):
    return "volume %d: %s" % (number, why)


def attachment_row_fault(rowid, why):
    return "row %d of attachments: %s" % (rowid, why)


def attachment_fault(number, node, why):
    return "volume %d at node %s: %s" % (number, node, why)


KIND = "a value is not of the kind of its column"
NUMBER = "its number is not from 1 to below the next number"
NAME = "its name is not one that a volume can be made with"
POOL = "its pool is not one of the configuration"
BYTES = "its bytes are not a positive multiple of 1048576"
CAPS = "its caps are not the bytes of supported capabilities in order"
PARAMS = "its params are not the bytes of parameters of at most 4096 bytes"
CAP = "its cap is not the bytes of one supported capability"
READONLY = "its readonly is not 0 or 1"
OWNER = "no volume of its number has its capability"
NODE = "its node is not one of the configuration"
BESIDE = "the volume is attached at another node too, and the two cannot have it together"


def block(mode):
    """Returns the hexadecimal digits of a capability: a block device with a mode below 128."""
    return "1a060a001a0208%02x" % mode


def pairs(field, key, size):
    """Returns the hexadecimal digits of a map entry with this field number: a key of one byte, and a value of
    `size` bytes (128 to 16,000)."""

    def long(tag, length):
        return bytes([tag, length & 127 | 128, length >> 7])

    entry = b"\x0a\x01" + key + long(0x12, size) + b"v" * size
    return (long(field << 3 | 2, len(entry)) + entry).hex()


def cell(digits):
    return "x'%s'" % digits


class Tables:
    """A file of tables in a folder, for csid and for Python's sqlite3. The file does not exist before one of
    them makes it. `command` runs `csid pipe` over it."""

    def __init__(self, csid, folder, name="volumes.db"):
        self.csid, self.path = csid, os.path.join(folder, name)
        self.command = [csid, "pipe", "--tables", self.path]

    def clear(self):
        for name in os.listdir(os.path.dirname(self.path)):
            if name.startswith(os.path.basename(self.path)):
                os.unlink(os.path.join(os.path.dirname(self.path), name))
        return self

    def run(self, given=b"", config=None, **how):
        return run(self.command + (["--config", config] if config else []), input=given, **how)

    def new(self):
        """Removes the files, and has csid make new tables. Returns this object. Raises ValueError if csid
        makes none."""
        if self.clear().run() != (b"", "", 0):
            raise ValueError("no tables could be made")
        return self

    def script(self, text):
        connection = sqlite3.connect(self.path, isolation_level=None)
        connection.executescript(text)
        connection.close()
        return self

    def ask(self, text):
        connection = sqlite3.connect(self.path)
        rows = connection.execute(text).fetchall()
        connection.close()
        return rows

    def check(self, config=None, **how):
        return run([self.csid, "--check-tables", self.path] + (["--config", config] if config else []), **how)

    def files(self):
        """Returns the bytes of the file and of the files next to it whose names begin with its name, such as
        the WAL. The keys are the names."""
        found = {}
        for name in sorted(os.listdir(os.path.dirname(self.path))):
            if name.startswith(os.path.basename(self.path)):
                found[name] = pathlib.Path(os.path.dirname(self.path), name).read_bytes()
        return found

    def rows(self):
        """Returns the SQL statements that would make this database. A text may be invalid UTF-8."""
        connection = sqlite3.connect(self.path)
        connection.text_factory = lambda text: text.decode(errors="surrogateescape")
        rows = list(connection.iterdump())
        connection.close()
        return rows

    def says(self, line):
        """Returns the expected result of a Probe: no reply, this line and status 4 if the tables are
        unusable; without a line, the reply and status 0."""
        return (READY, "", 0) if line is None else (b"", "csid: %s: %s\n" % (self.path, line), 4)
