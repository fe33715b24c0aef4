"""Runs dockerd in namespaces, with the plugin."""

import glob
import os
import pathlib
import shutil
import signal
import subprocess
import sys

from tests.support.processes import TOP, place, program, wait

# The seconds that dockerd may take to answer, and to end.
SECONDS = 60
DEPLOY = os.path.join(TOP, "deploy")
# Files of the root that neither the plugin nor a service needs.
LEFT_OUT = "dev/* usr/share var usr/bin/docker* usr/bin/containerd* usr/bin/ctr usr/sbin/dockerd".split()
# Each process ends with its parent.
NAMESPACES = "setpriv --pdeathsig KILL unshare --net --mount --pid --fork --kill-child".split()
CONFIG = """\
name = "pools.example.org"
vendor_version = "1.0.0"
default_bytes = 1048576
greatest_bytes = 67108864
[[pool]]
name = "p1"
bytes = 234881024
segments = { zone = "a" }
[[node]]
id = "n1"
max_volumes = 2
"""


def missing(root):
    """Yields a line for each missing requirement."""
    if os.geteuid() != 0:
        yield "it needs root"
    for name in ["unshare", "nsenter", "setpriv", "losetup", "ip", "tar"]:
        if shutil.which(name) is None:
            yield "no program %s" % name
    for path in ["usr/sbin/dockerd", "usr/bin/docker", "usr/sbin/mkfs.ext4", "usr/bin/tini"]:
        if not os.path.exists(os.path.join(root, path)):
            yield "%s has no %s" % (root, path)
    for path in ["/dev/loop-control", "/proc/self/ns/pid"]:
        if not os.path.exists(path):
            yield "no " + path
    if not glob.glob("/sys/fs/cgroup/**/cgroup.procs", recursive=True):
        yield "no cgroups at /sys/fs/cgroup"
    for name in ["csid", "front", "node-plugin"]:
        if not os.access(place(name), os.X_OK):
            yield "no program at " + place(name)
    with open("/proc/filesystems") as file:
        if "\toverlay\n" not in file.read():
            yield "no overlayfs"


def devices_of(path):
    """Returns the loop devices over a file."""
    words = ["losetup", "--associated", path, "--noheadings", "--output", "NAME"]
    return subprocess.run(words, check=True, capture_output=True, text=True).stdout.split()


class Engine:
    """dockerd, with a folder for all its files."""

    def __init__(self, root, folder):
        self.root, self.folder = root, folder
        self.cgroup = "csid-swarm-%d" % os.getpid()
        self.process = None

    def path(self, *names):
        return os.path.join(self.folder, *names)

    def host(self, *names):
        """Returns the path on this machine of a path in dockerd's root."""
        return self.path("host", *names)

    def begin(self):
        """Starts dockerd, and waits until it answers. In its root the folder of the plugin is /plugin. Ends
        the script if it does not answer in time."""
        self.make_plugin()
        words = [os.path.join(TOP, "tests/swarm/dockerd"), self.root, self.folder, self.cgroup]
        with open(self.path("dockerd.log"), "w") as log:
            streams = {"stdin": subprocess.DEVNULL, "stdout": log, "stderr": log}
            self.process = subprocess.Popen([*NAMESPACES, *words], start_new_session=True, **streams)
        if not wait(lambda: self.has_ended() or self.answers(), SECONDS, pause=0.2) or self.has_ended():
            sys.exit("tests/swarm: dockerd does not start: " + self.last_lines())

    def make_plugin(self):
        """Makes the folder of the plugin, the folders that it needs, and the first file of volumes."""
        tree, tables = self.host("plugin/rootfs"), self.host("var/lib/csid/volumes.db")
        config = self.host("etc/csid/config.toml")
        for path in [tables, config, self.host("var/lib/csid-pools/p1/."), tree + "/."]:
            os.makedirs(os.path.dirname(path))
        excluded = ["--exclude=./" + each for each in LEFT_OUT]
        pack = ["tar", "--directory", self.root, *excluded, "--create", "--file", self.path("root.tar"), "."]
        subprocess.run(pack, check=True)
        subprocess.run(["tar", "--directory", tree, "--extract", "--file", self.path("root.tar")], check=True)
        for name in ["csid", "front", "node-plugin"]:
            shutil.copy(program(name), os.path.join(tree, "usr/local/bin", name))
        shutil.copy(os.path.join(DEPLOY, "swarm-start"), os.path.join(tree, "usr/local/bin"))
        shutil.copy(os.path.join(DEPLOY, "swarm.json"), self.host("plugin/config.json"))
        pathlib.Path(config).write_text(CONFIG)
        first = [program("csid"), "pipe", "--tables", tables, "--config", config]
        subprocess.run(first, check=True, stdin=subprocess.DEVNULL)

    def end(self):
        """Ends dockerd and all its processes, and detaches the loop devices that remain."""
        if self.process is None:
            return
        for way in [signal.SIGTERM, signal.SIGKILL]:
            if not self.has_ended():
                os.kill(int(self.first_process() or self.process.pid), way)
                wait(self.has_ended, SECONDS, pause=0.2)
        for path in self.data():
            for device in devices_of(path):
                subprocess.run(["losetup", "--detach", device], check=True)
        for top in glob.glob("/sys/fs/cgroup/**/" + self.cgroup, recursive=True):
            for folder, _, _ in os.walk(top, topdown=False):
                os.rmdir(folder)

    def data(self):
        """Returns the paths of the files with the volumes' data."""
        return glob.glob(self.host("var/lib/csid-pools/*/*.img"))

    def has_ended(self):
        return self.process.poll() is not None

    def answers(self):
        return self.first_process() and self.run("docker", "info").returncode == 0

    def last_lines(self):
        return pathlib.Path(self.path("dockerd.log")).read_text(errors="replace")[-2000:]

    def first_process(self):
        """Returns the id of dockerd, the first process of its namespace, or '' before it runs."""
        with open("/proc/%d/task/%d/children" % (self.process.pid, self.process.pid)) as file:
            return file.read().strip()

    def run(self, *words, **how):
        """Runs a command in the namespaces of dockerd. Returns the completed process."""
        command = ["nsenter", "--target", self.first_process(), "--all", *words]
        return subprocess.run(command, capture_output=True, text=True, timeout=SECONDS, **how)

    def docker(self, *words):
        """Returns the output of a command of docker. Raises RuntimeError if it fails."""
        done = self.run("docker", *words)
        if done.returncode != 0:
            raise RuntimeError("docker %s: %s" % (" ".join(words), done.stderr.strip()))
        return done.stdout.strip()

    def kill(self, name):
        """Kills the process with this name, once it runs. Returns its id."""
        script = "process=$(pidof %s) && kill -KILL $process && echo $process" % name
        wait(lambda: self.run("pidof", name).returncode == 0, SECONDS, pause=0.05)
        return self.run("sh", "-c", script, check=True).stdout
