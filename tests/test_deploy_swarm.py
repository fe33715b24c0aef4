"""The plugin for Docker Swarm: deploy/swarm.json and deploy/swarm-start agree, and the script starts the
three programs."""

import json
import os
import pathlib
import re
import shlex
import signal
import subprocess

from tests.support.processes import SECONDS, TOP, wait
from tests.support.rows import FilesTest, RowTest, each


def read(name):
    return pathlib.Path(TOP, "deploy", name).read_text(encoding="utf-8")


class SwarmTest(RowTest):
    def setUp(self):
        super().setUp()
        self.plugin, self.script = json.loads(read("swarm.json")), read("swarm-start")
        socket = re.search(r"^socket=(\S+)$", self.script, re.M).group(1)
        lines = re.findall(r"^keep (\S+) (.*) &$", self.script.replace('"$socket"', socket), re.M)
        self.words = {name: shlex.split(rest) for name, rest in lines}

    def value(self, program, option):
        words = self.words[program]
        return words[words.index(option) + 1]

    def test_entry_point_is_the_script(self):
        path = self.plugin["entrypoint"][-1]
        self.check("its name", os.path.basename(path), "swarm-start")
        self.check("its mode", os.access(os.path.join(TOP, "deploy/swarm-start"), os.X_OK), True)

    def test_sockets(self):
        listen = "/run/docker/plugins/" + self.plugin["interface"]["socket"]
        for name, got, want in [
            ("csid", self.value("front", "--csid"), self.value("csid", "--socket")),
            ("the node plugin", self.value("front", "--node"), self.value("node-plugin", "--listen")),
            ("the controller", self.value("node-plugin", "--controller"), self.value("front", "--listen")),
            ("Docker", self.value("front", "--listen"), listen),
        ]:
            self.check(name, got, want)

    def test_kept_files_are_in_folders_of_the_machine(self):
        mounted = {each["destination"]: each["options"] for each in self.plugin["mounts"]}
        pools = re.search(r"^for folder in (\S+)/\*/; do$", self.script, re.M).group(1)
        for name, folder, options in [
            ("the tables", os.path.dirname(self.value("csid", "--tables")), ["rbind"]),
            ("the configuration", os.path.dirname(self.value("csid", "--config")), ["rbind", "ro"]),
            ("the control socket", os.path.dirname(self.value("front", "--control")), ["rbind"]),
            ("the pools", pools, ["rbind"]),
            ("loop devices", "/dev", ["rbind"]),
        ]:
            self.check(name, mounted.get(folder), options)

    def test_variables_can_be_set(self):
        known = {each["name"]: each["settable"] for each in self.plugin["env"]}
        self.check("variables", set(re.findall(r"\$([A-Z_]+)", self.script)), set(known))
        self.check("settable", set(map(tuple, known.values())), {("value",)})


# A program that runs instead of each of the three. It writes its words into a file, a line for each, and
# stays.
PROGRAM = """#!/bin/sh
printf '%s\\n' "$@" > "$0.new"
mv "$0.new" "$0.words"
exec sleep 60
"""
NO_POOL = (
    "swarm-start: /var/lib/csid-pools has no folder: make one for each pool, with the name of the pool\n"
)
SETTINGS = {"NODE": "n1", "TOPOLOGY": "zone=a", "MAX_VOLUMES": "2"}


class SwarmStartTest(FilesTest):
    """The script runs below a folder, with other programs instead of the three."""

    def setUp(self):
        super().setUp()
        for name in ["csid", "front", "node-plugin"]:
            self.write("bin/" + name, PROGRAM)
            os.chmod(self.path("bin/" + name), 0o755)
        os.makedirs(self.path("var/lib/csid-pools"))
        self.script = re.sub("/run/|/var/lib/", lambda it: self.folder + it.group(), read("swarm-start"))

    def path(self, name):
        return os.path.join(self.folder, name)

    def start(self, **settings):
        path = self.path("bin") + ":" + os.environ["PATH"]
        process = subprocess.Popen(["sh", "-c", self.script], env={"PATH": path, **SETTINGS, **settings},
                                   stderr=subprocess.PIPE, text=True, start_new_session=True)
        self.addCleanup(process.stderr.close)
        self.addCleanup(process.wait)
        self.addCleanup(self.end, process)
        return process

    def end(self, process):
        """Ends the script and all that it started, as tini does."""
        try:
            os.killpg(process.pid, signal.SIGKILL)
        except ProcessLookupError:
            pass

    def words(self, program):
        """Returns the words of a program that the script has started."""
        name = "bin/%s.words" % program
        self.assertTrue(wait(lambda: os.path.exists(self.path(name))), program + " was not started")
        return self.read(name).splitlines()

    def test_without_folders_of_pools_it_ends(self):
        self.write("var/lib/csid-pools/file", "")
        process = self.start()
        status = process.wait(SECONDS)
        said = process.stderr.read().replace(self.folder, "")
        self.check("status and line", (status, said), (1, NO_POOL))
        self.check("programs that were started", os.listdir(self.path("run/csid")), [])

    def test_each_folder_is_a_pool(self):
        names = ["-x", "p 1", "p1"]
        for name in names:
            os.mkdir(self.path("var/lib/csid-pools/" + name))
        self.start()
        words = self.words("node-plugin")
        pools = [word for option, word in zip(words, words[1:]) if option == "--pool"]
        self.check("pools", sorted(pools),
                   ["%s=%s/" % (name, self.path("var/lib/csid-pools/" + name)) for name in names])

    @each([
        ("TOPOLOGY", "--topology", ["--max-volumes", "2"]),
        ("MAX_VOLUMES", "--max-volumes", ["--topology", "zone=a"]),
    ])
    def test_empty_variable_gives_no_option(self, variable, option, others):
        os.mkdir(self.path("var/lib/csid-pools/p1"))
        self.start(**{variable: ""})
        words = self.words("node-plugin")
        self.check("the option", option in words, False)
        self.check("the other one", words[words.index(others[0]):][:2], others)
