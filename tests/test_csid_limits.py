"""csid with limited memory: in a control group, where Linux kills a process above the limit, and in a limited
address space."""

import contextlib
import os
import resource
import unittest

from tests.support.configs import LARGE_POOL
from tests.support.frames import BLOCK, PROBE, READY, controller, frame
from tests.support.processes import write
from tests.support.rows import CsidTest
from tests.support.server import NO_COPY
from tests.support.tables import BLOCK_CAPS, MANY, MIB, SHORT_ENTRIES, next_is


def own_group():
    """Returns the folder of this process's control group for memory, and the name of its file with the limit.
    Skips the test if no group limits memory."""
    with open("/proc/self/cgroup", encoding="ascii") as lines:
        groups = dict(line.rstrip("\n").split(":", 2)[1:] for line in lines)
    for root, controllers, name in (("/sys/fs/cgroup/memory", "memory", "memory.limit_in_bytes"),
                                    ("/sys/fs/cgroup", "", "memory.max")):
        folder = root + groups.get(controllers, "")
        if os.path.exists(os.path.join(folder, name)):
            return folder, name
    raise unittest.SkipTest("no control group limits memory here")


def write_limit(path, limit):
    try:
        write(path, b"%d" % limit)
    except OSError as failure:
        raise unittest.SkipTest("no control group can be limited here: %s" % failure) from failure


@contextlib.contextmanager
def memory_group(limit):
    """Makes a control group with a limit until the block ends. Yields the function that moves the calling
    process into it. Skips the test if that is not possible."""
    parent, name = own_group()
    folder = os.path.join(parent, "csid-test-%d" % os.getpid())
    try:
        os.mkdir(folder)
    except OSError as failure:
        raise unittest.SkipTest("no control group can be made here: %s" % failure) from failure
    try:
        write_limit(os.path.join(folder, name), limit)
        yield lambda: write(os.path.join(folder, "cgroup.procs"), b"%d" % os.getpid())
    finally:
        os.rmdir(folder)


def name_of(number):
    return b"vol-%d" % number


class LimitedTest(CsidTest):
    """csid with a limit that `self.enter` sets."""

    def setUp(self):
        super().setUp()
        self.configure(LARGE_POOL.replace(b"2147483648", b"%d" % (20_000 * MIB)))

    def serve_limited(self):
        return self.serve("--config", self.config, preexec_fn=self.enter)

    def creates(self, first, count):
        return [controller("CreateVolume", b"\x0a\x06%06d" % number + BLOCK + self.parameters)
                for number in range(first, first + count)]

    def deletes(self, first, count):
        names = map(name_of, range(first, first + count))
        return [controller("DeleteVolume", b"\x0a" + bytes([len(name)]) + name) for name in names]


class AddressSpaceTest(LimitedTest):
    """csid in an address space of 40 MiB, and volumes with one parameter of 4,095 bytes."""

    parameters = bytes.fromhex("22 8420 0a01 6b 12fe1f") + b"v" * 4094

    def enter(self):
        resource.setrlimit(resource.RLIMIT_AS, (40 * MIB, 40 * MIB))

    def test_volumes_are_deleted_after_creates_were_refused(self):
        server = self.serve_limited()
        came = server.answers(self.creates(1, 6000))
        made = came.count(0)
        self.assertEqual((1000 < made < 6000, came), (True, [0] * made + [13] * (6000 - made)))
        self.assertEqual(server.answers(self.deletes(1, made)), [0] * made)


class GroupTest(LimitedTest):
    """csid in a control group with 96 MiB, and volumes that take 90 KiB each."""

    parameters = SHORT_ENTRIES

    def setUp(self):
        super().setUp()
        enter = contextlib.ExitStack()
        self.addCleanup(enter.close)
        self.enter = enter.enter_context(memory_group(96 * MIB))

    def fill(self, count):
        """Makes new tables with this many volumes."""
        self.tables.new().script(MANY % (count, BLOCK_CAPS)
                                 + "UPDATE volumes SET params = x'%s';" % SHORT_ENTRIES.hex()
                                 + next_is(count + 1))

    def test_creates_are_refused_before_the_limit_ends_csid(self):
        server = self.serve_limited()
        came = server.answers(self.creates(1, 1500))
        made = came.count(0)
        self.assertEqual((100 < made < 1500, came), (True, [0] * made + [13] * (1500 - made)))
        self.assertEqual(server.process.poll(), None)

    def test_volumes_are_deleted_after_creates_were_refused(self):
        server = self.serve_limited()
        made = server.answers(self.creates(1, 1500)).count(0)
        self.assertEqual(server.answers(self.deletes(1, made)), [0] * made)
        self.assertEqual(server.answers(self.creates(2001, 100)), [0] * 100)

    def test_file_whose_copy_does_not_fit_is_served_from_the_file(self):
        self.fill(2000)
        server = self.serve_limited()
        self.assertEqual(server.ask(frame(PROBE)), READY)
        self.assertEqual(server.lines(), server.has(2000, 0, 2001) + server.line(NO_COPY))

    def test_volumes_of_a_file_whose_copy_does_not_fit_are_deleted(self):
        self.fill(2000)
        server = self.serve_limited()
        self.assertEqual(server.answers(self.deletes(1, 2000)), [0] * 2000)

    def test_file_that_fits_is_copied(self):
        self.fill(300)
        server = self.serve_limited()
        self.assertEqual(server.ask(frame(PROBE)), READY)
        self.assertEqual(server.lines(), server.has(300, 0, 301))
