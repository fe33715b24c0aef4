"""Configurations that csid uses or refuses, and unknown keys in them."""

import os

from tests.support.configs import NODES, REFUSED, SAMPLE, SEGMENTS, nodes, sample
from tests.support.data import tables
from tests.support.frames import (ANSWERED, ASKED, BLOCK, CREATE_3_MIB, CREATE_A, CREATE_B, INFO, NO_MEMORY,
                                  OF_2_MIB, OF_P2, OF_Q1, PROBE, READY, VOLUME_1, VOLUME_2, VOL_1, VOL_2,
                                  WRITER, controller, frame, refusal, reply)
from tests.support.processes import NOT_THERE, little_memory, run, write
from tests.support.rows import CsidTest, each
from tests.support.server import NEW


ROWS = tables("csid_config", globals())


class ConfigTest(CsidTest):
    def setUp(self):
        super().setUp()
        self.path = os.path.join(self.folder, "config.toml")

    def run_pipe(self, content, given=frame(PROBE), **how):
        write(self.path, content)
        return run([self.csid, "pipe", "--config", self.path], input=given, **how)

    def line(self, why):
        return "csid: %s: %s\n" % (self.path, why)

    @each(ROWS["CONFIGURED"])
    def test_configuration_is_used(self, name, content, given, out):
        self.assertEqual(self.run_pipe(content, given), (out, "", 0))

    def test_option_has_another_spelling(self):
        write(self.path, SAMPLE)
        self.assertEqual(run([self.csid, "pipe", "--config=" + self.path], input=b""), (b"", "", 0))

    @each(REFUSED)
    def test_configuration_is_refused(self, name, content, line):
        self.assertEqual(self.run_pipe(content), (b"", self.line(line), 3))

    def test_lack_of_memory_is_reported(self):
        """The file can be read, but there is no memory for its values."""
        came = self.run_pipe(SAMPLE + nodes(40_000), preexec_fn=little_memory)
        self.assertEqual(came, (b"", NO_MEMORY, 6))

    def test_path_that_is_no_file_is_refused(self):
        for path, shown, why in [
            (self.path, self.path, NOT_THERE),
            (self.folder, self.folder, "Is a directory (os error 21)"),
            ("", "''", NOT_THERE),
        ]:
            with self.subTest(path=shown):
                came = run([self.csid, "pipe", "--config", path], input=frame(PROBE))
                self.assertEqual(came, (b"", "csid: %s: %s\n" % (shown, why), 3))


class UnknownKeysTest(CsidTest):
    """A configuration with unknown keys is used. `csid serve` and `csid --check-tables` name these keys, and
    `csid pipe` does not."""

    CONTENT = sample((b"[[pool]]", b'segment = 1\n\n[[nodes]]\nid = "n3"\n\n[[pool]]'),
                     (b"bytes = 4194304", b'bytes = 4194304\nsegment = 3\n"a\\nb" = 1'),
                     (b"max_volumes = 2", b'max_volumes = 2\nidd = "n"'))
    KEYS = [("", "nodes"), ("", "segment"), ("pool 2: ", "a\\nb"), ("pool 2: ", "segment"),
            ("node 1: ", "idd")]

    def setUp(self):
        super().setUp()
        self.configure(self.CONTENT)
        line = "csid: %s: %%sthe key '%%s' is not known\n" % self.config
        self.lines = "".join(line % it for it in self.KEYS)

    def test_serve_names_them(self):
        server = self.serve("--config", self.config)
        self.assertEqual(server.end()[0], self.lines + server.line(NEW) + server.has(0, 0, 1))

    def test_check_tables_names_them(self):
        tables = self.tables.new()
        has = b"volumes 0, attachments 0, next number 1, format 2\n"
        self.assertEqual(tables.check(self.config), (has, self.lines, 0))

    def test_pipe_does_not_name_them(self):
        tables = self.tables
        self.assertEqual(tables.run(frame(PROBE), self.config), (READY, "", 0))

    def test_known_keys_are_not_named(self):
        write(self.config, SAMPLE)
        self.tables.new()
        server = self.serve("--config", self.config)
        self.assertEqual(server.end()[0], server.has(0, 0, 1))

    def test_configuration_that_is_refused_has_no_such_lines(self):
        write(self.config, self.CONTENT + b"[[pool]]\n")
        line = "csid: %s: pool 3: the key 'name' is missing\n" % self.config
        self.assertEqual(self.serve("--config", self.config).end(), (line, 3, False))
