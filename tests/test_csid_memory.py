"""csid with little memory: --low-memory, and calls that are refused so that the next opening has memory."""


from tests.vectors import messages as v
from tests.support.configs import LARGE_POOL
from tests.support.frames import ANSWERED, ASKED, BLOCK, NO_MEMORY, PROBE, VOL_1, controller, frame, reply
from tests.support.processes import SECONDS, little_memory, memory_of, memory_of_24_mib, run, some_memory
from tests.support.rows import CsidTest
from tests.support.server import NO_COPY, Server
from tests.support.tables import (BLOCK_CAPS, IO_FAILED, LARGE_CAPS, MANY, MIB, NEXT_9, SHORT_ENTRIES, Tables,
                                  next_is, volume)


class LowMemoryTest(CsidTest):
    """csid with --low-memory, and without enough memory for a copy of the volumes."""

    PROBE = controller("GetCapacity")
    # 1,048 MiB are free, and a volume may have 8 MiB.
    ROOM = reply(bytes.fromhex("08 8080808c04 1205 0880808004"))

    def setUp(self):
        super().setUp()
        self.low = self.tables.command + ["--low-memory"]

    def fill(self):
        """Makes tables with 1,000 volumes, and a configuration with room for these volumes."""
        self.configure(LARGE_POOL)
        params = "UPDATE volumes SET params = x'%s';" % SHORT_ENTRIES.hex()
        self.tables.new().script(MANY % (1000, BLOCK_CAPS) + params + next_is(1001))

    def test_replies_and_rows_are_the_same(self):
        self.assertEqual(run(self.low, input=ASKED), (ANSWERED, "", 0))
        volumes = self.tables.ask("SELECT number, name, bytes, pool FROM volumes")
        self.assertEqual(volumes, [(2, "b", 3 * MIB, "p2")])
        self.assertEqual(self.tables.ask("SELECT * FROM meta"), [(1, 2, 3)])

    def test_volumes_are_served_and_nothing_is_said_of_the_option(self):
        run(self.low, input=ASKED)
        server = Server(self.csid, self.folder, "--low-memory", "--connections", "1")
        listing = controller("ListVolumes")
        self.assertEqual(server.ask(listing), run(self.tables.command, input=listing)[0])
        server.process.wait(SECONDS)
        self.assertEqual(server.end()[:2], (server.has(1, 0, 3), 0))

    def test_volumes_take_no_memory(self):
        """Without the option, the file is also read directly if there is no memory for a copy."""
        self.fill()
        came = run(self.low + ["--config", self.config], input=self.PROBE, preexec_fn=some_memory)
        self.assertEqual(came, (self.ROOM, "", 0))
        for how in {"preexec_fn": some_memory}, {}:
            self.assertEqual(self.tables.run(self.PROBE, self.config, **how), (self.ROOM, "", 0))

    def test_server_without_memory_for_a_copy_says_so_and_deletes_volumes(self):
        self.fill()
        server = self.serve("--config", self.config, preexec_fn=some_memory)
        self.assertEqual(server.ask(self.PROBE), self.ROOM)
        self.assertEqual(server.ask(controller("DeleteVolume", VOL_1)), reply(b""))
        self.assertEqual(server.end()[0], server.has(1000, 0, 1001) + server.line(NO_COPY) * 2)
        self.assertEqual(self.tables.ask("SELECT count(*) FROM volumes"), [(999,)])

    def test_row_that_there_is_no_memory_to_judge_is_reported(self):
        """There is memory to open the file, but not for the row."""
        self.tables.new().script(volume(1, caps=LARGE_CAPS) + NEXT_9)
        came = self.tables.run(frame(PROBE), preexec_fn=little_memory)
        self.assertEqual(came, (b"", NO_MEMORY, 6))


class MemoryTest(CsidTest):
    def test_lack_of_memory_for_a_copy_is_no_failed_disk(self):
        """With some of the limits the lack of memory is reported, and with none of them a failed disk."""
        tables = self.tables.new()
        tables.script(volume(1, "printf('%.*c', 200000, 'x')") + next_is(2))
        for option in "--check-tables", "--list-tables":
            with self.subTest(option=option):
                lines = [run([self.csid, option, tables.path], preexec_fn=memory_of(quarters << 18))[1]
                         for quarters in range(4, 20)]
                self.assertEqual([line for line in lines if IO_FAILED in line], [])
                self.assertIn(NO_MEMORY, lines)

    # A create with 4,095 bytes of parameters and a name of six bytes.
    PARAMETERS = bytes.fromhex("22 8420 0a01 6b 12fe1f") + b"v" * 4094

    def creates(self, first, count):
        names = [b"\x0a\x06%06d" % number for number in range(first, first + count)]
        return [controller("CreateVolume", name + BLOCK + self.PARAMETERS) for name in names]

    def deletes(self, first, end):
        names = [b"vol-%d" % number for number in range(first, end)]
        return [controller("DeleteVolume", b"\x0a" + bytes([len(name)]) + name) for name in names]

    def test_creates_are_refused_before_the_next_opening_has_no_memory(self):
        """Deletes are allowed. They leave free pages, and so the next connection has room for creates."""
        config, most = self.configure(LARGE_POOL.replace(b"2147483648", b"%d" % (20_000 * MIB))), 6000
        for name, words in ("of the file", ["--low-memory"]), ("of memory", []):
            with self.subTest(reads=name):
                self.tables.clear()
                server = self.serve("--config", config, *words, preexec_fn=memory_of_24_mib)
                came = server.answers(self.creates(1, most))
                made = came.count(0)
                self.assertEqual((1000 < made < most, came), (True, [0] * made + [13] * (most - made)))
                self.assertEqual(server.ask(controller("ListVolumes", bytes.fromhex("0801")))[:1], b"\0")
                for first, end in (1, 501), (501, made - 99):
                    self.assertEqual(server.answers(self.deletes(first, end)), [0] * (end - first))
                self.assertEqual(server.answers(self.creates(most + 1, 100)), [0] * 100)
                server.end()


class ReserveTest(CsidTest):
    """`csid serve --low-memory` reserves the memory of the next opening before it makes the tables larger."""

    # The longest name of a file system, and the longest ids of nodes.
    CAP = v.cap(v.mount(3, v.fs_type("f" * 128)))
    NODES = ["n%02d" % it + "n" * 253 for it in range(64)]

    def serve_low(self, volumes, caps, size=9 * MIB):
        """Returns a csid with --low-memory and at most `size` bytes of memory. Its file has this many
        volumes, each with the capabilities `caps`."""
        nodes = ["[[node]]\nid = '%s'\nmax_volumes = 100000\n" % it for it in self.NODES]
        pool = LARGE_POOL.replace(b"2147483648", b"%d" % (100_000 * MIB))
        config = self.configure(pool + "".join(nodes).encode())
        self.tables.new().script(MANY % (volumes, "x'%s'" % caps.hex()) + next_is(volumes + 1))
        return self.serve("--config", config, "--low-memory", preexec_fn=memory_of(size))

    def fill(self, server, calls, least):
        """Makes calls over one connection. At least `least` calls succeed, but not all. From the first
        refusal for memory on, csid refuses all calls of the connection. The next connection is answered."""
        came = server.answers(calls)
        self.assertEqual(server.ask(v.listing(v.max_entries(1)))[:1], b"\0")
        made = came.count(0)
        self.assertEqual(came, [0] * made + [13] * (len(calls) - made))
        self.assertTrue(least <= made < len(calls), made)

    def test_publications_leave_memory_for_the_next_opening(self):
        volumes = [v.vol("vol-%d" % it) for it in range(1, 33)]
        server = self.serve_low(len(volumes), self.CAP)
        publications = [v.publish(it, v.node(node), self.CAP) for it in volumes for node in self.NODES]
        self.fill(server, publications, 500)
        self.assertEqual(server.answers([v.unpublish(it) for it in volumes]), [0] * len(volumes))
        self.assertEqual(self.tables.ask("SELECT count(*) FROM attachments"), [(0,)])

    def test_mutable_parameters_leave_memory_for_the_next_opening(self):
        volumes = [v.vol("vol-%d" % it) for it in range(1, 1001)]
        server = self.serve_low(len(volumes), v.BLOCK)
        self.fill(server, [v.modify(it, v.sets("k", "v" * 4095)) for it in volumes], 100)
        self.assertEqual(server.answers([v.delete(it) for it in volumes]), [0] * len(volumes))
        self.assertEqual(self.tables.ask("SELECT count(*) FROM volumes"), [(0,)])

    def test_rows_of_earlier_connections_have_memory_for_the_next_opening(self):
        server = self.serve_low(62_000, v.BLOCK, 16 * MIB)
        server.answers([v.create(v.name("w%d" % it), v.BLOCK) for it in range(6000)])
        self.assertEqual(server.ask(v.listing(v.max_entries(1)))[:1], b"\0")
        self.assertEqual(server.ask(v.delete(v.vol("vol-1"))), v.DONE)
