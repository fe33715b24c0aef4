"""The sessions of README.md, of docs/CLI.md, "For people", and of docs/OPERATING.md, "Look into tables": bash
prints the lines on the pages. examples/session prints the first session of README.md."""

import os
import pathlib
import re
import shlex
import shutil
import subprocess

from tests.support.configs import sample
from tests.support.csictl import Server
from tests.support.processes import SECONDS, TOP, program
from tests.support.rows import CsictlTest


def read(*path):
    return pathlib.Path(TOP, *path).read_text(encoding="utf-8")


# Waits for the socket of a program that was started in the background, as the next command needs it.
AWAIT = "for i in $(seq 300); do if [ -S control.sock ]; then break; fi; sleep 0.1; done"


class SessionTest(CsictlTest):
    """A session of README.md, by the built programs."""

    def setUp(self):
        super().setUp()
        for name, program in [("csid", self.csid), ("csictl", self.csictl)]:
            os.symlink(program, os.path.join(self.folder, name))

    def session(self, heading):
        """Returns the lines below a heading, the commands among them, and their output."""
        part = re.split(r"\n#+ ", read("README.md").split("\n%s\n" % heading)[1])[0]
        lines = re.findall(r"^ {4}(.*)$", part, re.M)
        commands = [it for it in lines if not it.startswith("# ")]
        return lines, commands, "".join(it[2:] + "\n" for it in lines if it.startswith("# "))

    def bash(self, *words, typed=""):
        """Runs bash with the built programs first on the PATH. Returns the output, the errors and the status.
        """
        path = "%s:%s" % (self.folder, os.environ["PATH"])
        done = subprocess.run(["bash", *words], input=typed,
                              env={**os.environ, "PATH": path, "TMPDIR": self.folder}, capture_output=True,
                              text=True, timeout=SECONDS)
        return done.stdout, done.stderr, done.returncode

    def shown(self, blocks):
        """Returns what bash shows for the commands in blocks: each command after '$ ', and then its output.
        """
        script = ["exec 2>&1", "cd " + self.folder]
        for line in "\n".join(blocks).splitlines():
            if line.startswith("$ "):
                script += ["printf '%%s\\n' %s" % shlex.quote(line), line[2:]]
                if line.endswith("&"):
                    script.append(AWAIT)
        return self.bash("-c", "\n".join([*script, "kill $(jobs -p) 2>&-"]))[0]


class BytesTest(SessionTest):
    """The section "The session in bytes" of README.md."""

    def setUp(self):
        super().setUp()
        self.lines, self.commands, self.answers = self.session("### The session in bytes")

    def test_calls_are_six(self):
        self.check("the calls", len([it for it in self.commands if it.startswith("call ")]), 6)

    def test_pasted_session_prints_what_it_shows(self):
        self.check("the session", self.bash(typed="\n".join(self.lines) + "\n"), (self.answers, "", 0))


class ExampleTest(SessionTest):
    """The section "A session" of README.md, with the commands for people. examples/session has the same
    commands."""

    def setUp(self):
        super().setUp()
        self.lines, self.commands, self.answers = self.session("## A session")

    def test_calls_are_seven(self):
        self.check("the calls", len([it for it in self.commands if it.startswith("csictl ")]), 7)

    def test_pasted_session_prints_what_it_shows(self):
        self.check("the session", self.bash(typed="\n".join(self.lines) + "\n"), (self.answers, "", 0))

    def test_example_prints_what_the_session_shows(self):
        came = self.bash(os.path.join(TOP, "examples", "session"))
        self.check("examples/session", came, (self.answers, "", 0))
        left = sorted(set(os.listdir(self.folder)) - {"csid", "csictl"})
        self.check("what it leaves", left, [])

    def test_example_has_the_commands_of_the_session(self):
        lines = read("examples", "session").splitlines()
        self.check("its last lines", lines[-len(self.commands) :], self.commands)

    def test_example_without_a_temporary_folder_does_nothing(self):
        """Otherwise it would work over a file in the folder where it is called."""
        for name in "mktemp", "volumes.db":
            pathlib.Path(self.folder, name).write_text("#!/bin/sh\nexit 3\n")
        os.chmod(os.path.join(self.folder, "mktemp"), 0o755)
        session = shlex.quote(os.path.join(TOP, "examples", "session"))
        came = self.bash("-c", "cd %s && %s" % (self.folder, session))
        left = sorted(os.listdir(self.folder))
        self.check("what it does", (came, left), (("", "", 3), ["csictl", "csid", "mktemp", "volumes.db"]))

    def test_example_without_programs_says_what_makes_them(self):
        """Nothing is built, and the PATH has only the tools that the script itself needs."""
        copy = shutil.copy(os.path.join(TOP, "examples", "session"), os.path.join(self.folder, "session"))
        path = os.path.join(self.folder, "path")
        os.mkdir(path)
        os.symlink(shutil.which("dirname"), os.path.join(path, "dirname"))
        done = subprocess.run([shutil.which("bash"), copy], env={"PATH": path}, capture_output=True,
                              text=True, timeout=SECONDS)
        wanted = "session: 'csid' is not on the PATH, and ./build has not made it\n"
        self.check("what it says", (done.stdout, done.stderr, done.returncode), ("", wanted, 1))


def session_blocks(heading, *path):
    """Returns the blocks of code in a section that begin with '$ ' and a command."""
    text = re.split(r"\n#+ ", read(*path).split("\n%s\n" % heading)[1])[0]
    blocks = re.findall(r"(?:^ {4}.*\n|^\n(?= {4}))+", text, re.M)
    blocks = [re.sub(r"^ {4}", "", it, flags=re.M).strip("\n") for it in blocks]
    return [it for it in blocks if it.startswith("$ ")]


class PeopleSessionTest(SessionTest):
    """The sessions of docs/CLI.md with the commands for people: over csid, and then over a front. A command
    is after '$ ', and its output, with standard error, is below it."""

    def setUp(self):
        super().setUp()
        os.symlink(program("front"), os.path.join(self.folder, "front"))
        self.blocks = session_blocks("## For people", "docs", "CLI.md")
        with open(os.path.join(self.folder, "config.toml"), "wb") as file:
            file.write(sample())

    def test_sessions_print_what_they_show(self):
        self.check("the sessions", len(self.blocks), 2)
        server = Server(os.path.join(self.folder, "csid"), os.path.join(self.folder, "csid.sock"))
        shown = self.shown(self.blocks)
        server.kill()
        lines = [it for it in shown.splitlines() if not it.startswith("front: ")]
        self.assertEqual("\n".join(lines), "\n".join(self.blocks))


# A configuration with room for the volumes of the session, and the calls that make the volumes.
ROOM = b"""
name = "pools.example.org"
vendor_version = "1.0.0"
default_bytes = 1048576
greatest_bytes = 1073741824
pool = [
  { name = "ssd", bytes = 1073741824, segments = { zone = "a" } },
  { name = "hdd", bytes = 1073741824, segments = { zone = "b" } },
]
node = [{ id = "n1", max_volumes = 1 }]
"""
MADE = [
    ["CreateVolume", "--name", "pvc-7f3a", "--required", "1073741824", "--mode", "1", "--topology", "zone=a",
     "--parameters", "tier=fast", "--mutable", "iops=500"],
    ["CreateVolume", "--name", "data", "--required", "2097152", "--mode", "3", "--fs", "ext4", "--topology",
     "zone=b"],
    ["ControllerPublishVolume", "--volume", "vol-1", "--node", "n1", "--mode", "1"],
]


class TablesSessionTest(SessionTest):
    """The session of docs/OPERATING.md, "Look into tables"."""

    def test_session_prints_what_it_shows(self):
        config, tables = os.path.join(self.folder, "config.toml"), os.path.join(self.folder, "volumes.db")
        with open(config, "wb") as file:
            file.write(ROOM)
        frames = [subprocess.run([self.csictl, "frame", "--method", *words], capture_output=True,
                                 check=True).stdout
                  for words in MADE]
        replies = subprocess.run([self.csid, "pipe", "--config", config, "--tables", tables],
                                 input=b"".join(frames), capture_output=True, check=True).stdout
        self.assertIn(b"vol-2", replies)
        blocks = session_blocks("## Look into tables", "docs", "OPERATING.md")
        self.assertEqual(self.shown(blocks).rstrip("\n"), "\n".join(blocks))
