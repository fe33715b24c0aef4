"""The permissions of the files and the socket of `csid serve` at each moment while they are made, under umask
0."""

import os
import re

from tests.support.frames import CREATE_A, VOLUME_1, controller, reply
from tests.support.processes import SECONDS
from tests.support.rows import CsidTest
from tests.support.server import Server

# Some of these calls are missing on some processors.
CALLS = "trace=?open,openat,?creat,?chmod,fchmod,fchmodat,?fchmodat2,?chown,fchownat,bind,accept,accept4"

# A file that is made, or whose mode is set: its path and its mode in octal.
MADE = re.compile(r'(?:open|openat|creat)\(.*?"([^"]*)", (?:\S*O_CREAT\S*, )?0([0-7]+)\) = \d')
CHANGED = re.compile(r'chmod\w*\(.*?[<"](/[^">]*)[">], 0([0-7]+).* = 0')


class RightsTest(CsidTest):
    """The system calls of `csid serve` under umask 0."""

    def setUp(self):
        super().setUp()
        self.socket = os.path.join(self.folder, "csid.sock")
        self.program = self.traced("-y", "-e", CALLS)

    def calls(self, *words):
        """Returns the system calls of a server that makes one volume and ends."""
        server = Server(self.program, self.folder, "--connections", "1", *words,
                        preexec_fn=lambda: os.umask(0) and None)
        self.addCleanup(server.end)
        self.assertEqual(server.ask(controller("CreateVolume", CREATE_A)), reply(VOLUME_1))
        self.assertEqual(server.process.wait(SECONDS), 0)
        with open(self.trace) as lines:
            return list(lines)

    def modes(self, lines, path):
        """Returns the modes that the file or socket at `path` got by the system calls in `lines`, the oldest
        first. Fails if there is none."""
        steps = [found for line in lines if (found := MADE.search(line) or CHANGED.search(line))]
        modes = [int(step[2], 8) for step in steps if step[1] == path]
        self.assertNotEqual(modes, [], path)
        return modes

    def test_new_files_are_never_open_to_others(self):
        lines = self.calls()
        for path in self.tables.path, self.tables.path + "-wal":
            with self.subTest(path=path):
                modes = self.modes(lines, path)
                self.assertEqual([oct(mode) for mode in modes if mode & 0o177], [])
                self.assertEqual(oct(modes[-1]), "0o600")

    def test_no_other_file_is_made(self):
        """A temporary file would need permissions, too."""
        made = [found[1] for line in self.calls() if (found := MADE.search(line))]
        self.assertEqual(sorted(made), [self.tables.path, self.tables.path + "-wal"])

    def test_new_wal_never_has_rights_that_its_file_has_not(self):
        self.tables.new()
        os.chmod(self.tables.path, 0o640)
        os.unlink(self.tables.path + "-wal")
        modes = self.modes(self.calls(), self.tables.path + "-wal")
        self.assertEqual([oct(mode) for mode in modes if mode & ~0o640], [])
        self.assertEqual(oct(modes[-1]), "0o640")

    def test_socket_has_its_mode_before_a_connection_is_taken(self):
        lines = self.calls()
        calls = [found[1] for line in lines if (found := re.search(r"\b(bind|accept4?|f?chmod\w*)\(", line))]
        self.assertEqual(calls[0], "bind")
        self.assertRegex(calls[1], "^f?chmod")
        self.assertEqual([oct(mode) for mode in self.modes(lines, self.socket)], ["0o600"])

    def test_socket_has_its_group_before_the_group_has_rights(self):
        step = re.compile(r'(chmod|chown)\w*\(.*"%s", ([-\w]+)' % re.escape(self.socket))
        lines = self.calls("--group", str(os.getegid()))
        steps = [found.groups() for line in lines if (found := step.search(line))]
        self.assertEqual(steps, [("chmod", "0600"), ("chown", "-1"), ("chmod", "0660")])
