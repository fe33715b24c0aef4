#!/usr/bin/env python3
"""Runs recipes of docs/ in a folder, with replacements for systemctl, kubectl and the front."""

import contextlib
import functools
import glob
import json
import os
import pathlib
import re
import shutil
import signal
import socket
import sqlite3
import subprocess
import sys
import tempfile
import textwrap
import time

sys.dont_write_bytecode = True
sys.path.insert(0, os.path.dirname(os.path.dirname(os.path.dirname(os.path.realpath(__file__)))))

from tests.support import etcd
from tests.support.processes import TOP, place, program
from tests.support.rows import RowTest

# This script runs under the names of the replaced programs.
ME = os.path.realpath(__file__)

FOLDERS = ["/var/lib/csid", "/etc/csid", "/run/csid", "/run/csid-etcd", "/root", "/usr/local/bin"]
POOLS, NODES = {"p1": (10, "a"), "p2": (4, "b")}, {"n1": 2, "n2": 2}
SECONDS = 20
MIB = 1 << 20
LOCKED = "Error: database is locked\n"
# As root, the folder of the file belongs to another user than the user who runs the recipe.
OWNER = (4711, 4712) if os.geteuid() == 0 else (os.geteuid(), os.getegid())


@functools.lru_cache()
def page(name="OPERATING.md"):
    return pathlib.Path(TOP, "docs", name).read_text()


def blocks(heading, name="OPERATING.md"):
    """Returns the blocks of commands under a heading of a page, up to the next heading."""
    under = page(name).split("\n" + heading + "\n")[1].split("\n#")[0]
    return [textwrap.dedent(block) for block in re.findall(r"(?<=\n\n)(?: {4}.*\n)+", "\n%s\n" % under)]


def stands(text):
    """Returns the text. Fails if docs/OPERATING.md does not have it word for word."""
    assert text in page(), "it does not stand in the page: " + text
    return text


def config(pools, nodes):
    """Returns a configuration. `pools` has the MiB and the zone of each pool by name, and `nodes` the
    greatest number of volumes of each node."""
    text = (
        'name = "pools.example.org"\nvendor_version = "1.0.0"\ndefault_bytes = %d\ngreatest_bytes = %d\n'
        % (MIB, 8 * MIB)
    )
    for name, (size, zone) in pools.items():
        text += '\n[[pool]]\nname = "%s"\nbytes = %d\nsegments = { zone = "%s" }\n' % (name, size * MIB, zone)
    for name, most in nodes.items():
        text += '\n[[node]]\nid = "%s"\nmax_volumes = %d\n' % (name, most)
    return text


class Control:
    """The systemctl of the recipes. The files of its units are below the folder `top`."""

    def __init__(self, top):
        self.top = top
        self.socket, self.tables, self.log = (top + "/run/csid/csid.sock", top + "/var/lib/csid/volumes.db",
                                              top + "/run/csid-etcd/log.sock")
        # If this file exists, csid has the option of deploy/etcd.d/csid.conf.
        self.over_etcd = top + "/over-etcd"

    def pid_file(self, unit):
        return os.path.join(self.top, unit + ".pid")

    def command(self, unit):
        if unit == "csid":
            kept = (["--log", self.log]
                    if os.path.exists(self.over_etcd)
                    else ["--tables", self.tables, "--existing"])
            return ["csid", "serve", "--socket", self.socket, *kept, "--config",
                    self.top + "/etc/csid/config.toml"]
        if unit == "csid-etcd":
            return ["csid-etcd", "--name", PLUGIN, "--listen", self.log, "--endpoints",
                    os.environ["ENDPOINTS"], "--existing"]
        return [self.top + "/usr/local/bin/front", self.socket, os.path.join(self.top, "frames"),
                os.path.join(self.top, "answered")]

    def runs(self, unit):
        try:
            pid = int(pathlib.Path(self.pid_file(unit)).read_text())
            with open("/proc/%d/stat" % pid) as file:
                return pid if file.read().rsplit(") ", 1)[1][0] != "Z" else None
        except FileNotFoundError:
            return None

    def start(self, unit):
        ready = {
            "csid": self.socket,
            "csid-etcd": self.log,
            "csid-front": os.path.join(self.top, "answered"),
        }[unit]
        with contextlib.suppress(FileNotFoundError):
            os.unlink(ready)
        with open(self.lines(unit), "wb") as errors:
            process = subprocess.Popen(self.command(unit), stdin=subprocess.DEVNULL,
                                       stdout=subprocess.DEVNULL, stderr=errors, start_new_session=True)
        pathlib.Path(self.pid_file(unit)).write_text(str(process.pid))
        wait(lambda: os.path.exists(ready) or process.poll() is not None)
        if unit == "csid-etcd":
            wait(lambda: "csid-etcd: leads, " in read(self.lines(unit)) or process.poll() is not None)

    def lines(self, unit):
        """Returns the path of the file that has the lines of a unit, in place of the journal."""
        return os.path.join(self.top, unit + ".errors")

    def stop(self, unit):
        pid = self.runs(unit)
        if pid:
            os.kill(pid, signal.SIGTERM)
            wait(lambda: not self.runs(unit))

    def obey(self, words):
        acts = {
            "start": [self.start],
            "stop": [self.stop],
            "restart": [self.stop, self.start],
            "enable": [self.start],
            "disable": [self.stop],
            "daemon-reload": [],
        }[words[0]]
        for unit in words[1:]:
            if unit != "--now":
                for act in acts:
                    act(unit)


class Cluster(Control):
    """The kubectl of the recipes, for one pod of a StatefulSet or a Deployment. Of the two pods of a
    Deployment it is the leader. The claim is /var/lib/csid. Any pod may mount it next to another pod, as with
    ReadWriteOnce on one machine, so only the recipe prevents this."""

    def __init__(self, top):
        super().__init__(top)
        self.objects, self.pods, self.last_calls = top + "/objects/", top + "/pods/", top + "/last-frames"
        for folder in [self.objects, self.pods]:
            os.makedirs(folder, exist_ok=True)

    def obey(self, words):
        if words[0] != "apply":
            namespace, words = words[:2], words[2:]
            assert namespace == ["--namespace", "csid"], namespace
        getattr(self, words[0])(*words[1:])

    def apply(self, _, path):
        import yaml

        with open(path) as file:
            documents = list(yaml.safe_load_all(file))
        for it in documents:
            with open(self.objects + it["kind"].lower(), "w") as file:
                json.dump(it, file)
        (kind,) = {it["kind"] for it in documents} & {"StatefulSet", "Deployment", "Pod"}
        # A running pod keeps the configuration of its start.
        if kind == "Pod" or not os.path.exists(self.pods + "csid-0"):
            getattr(self, "begin_" + kind.lower())()

    def object(self, kind):
        return json.loads(read(self.objects + kind))

    def begin_pod(self):
        open(self.pods + "csid-tables", "x").close()

    def begin_statefulset(self):
        """Writes the configuration, runs the first step, which makes the file, and starts csid and the front.
        """
        self.configure()
        for first in self.object("statefulset")["spec"]["template"]["spec"]["initContainers"]:
            below = [re.sub("/var/lib/csid|/etc/csid", lambda it: self.top + it.group(), word)
                     for word in first["command"]]
            subprocess.run(below[below.index("--") + 1 :],
                           env={**os.environ, "NEW": self.object("configmap")["data"].get("new", "")},
                           stdout=subprocess.DEVNULL, check=True)
        self.begin_units("csid", "csid-front")

    def begin_deployment(self):
        """Writes the configuration, and starts csid and the front over csid-etcd. Rows are imported, so no
        file is made."""
        assert "new" not in self.object("configmap")["data"]
        self.configure()
        open(self.over_etcd, "x").close()
        self.begin_units("csid-etcd", "csid", "csid-front")

    def configure(self):
        with open(self.top + "/etc/csid/config.toml", "w") as file:
            file.write(self.object("configmap")["data"]["config.toml"])

    def begin_units(self, *units):
        """Starts units as the pod csid-0. No other pod may exist: two csid must not serve at the same time,
        and none may serve next to the pod that mounts the claim."""
        assert not os.listdir(self.pods), "a pod is there: %s" % os.listdir(self.pods)
        open(self.pods + "csid-0", "x").close()
        for unit in units:
            self.start(unit)

    def scale(self, *words):
        """Changes the number of pods to 0 or 1. For 0 the pod ends after this call, and answers calls until
        then. For 1 a pod is started."""
        if words == ("statefulset", "csid", "--replicas", "1"):
            return self.begin_statefulset()
        assert words[1:] == ("csid", "--replicas", "0") and os.path.exists(self.objects + words[0]), words
        subprocess.Popen([sys.argv[0], "--namespace", "csid", "end_units"], stdin=subprocess.DEVNULL,
                         stdout=subprocess.DEVNULL, stderr=subprocess.DEVNULL, start_new_session=True)

    def end_units(self):
        """Ends the pod. csid ends during a connection, so the last changes are only in the WAL of its file.
        """
        time.sleep(0.5)
        self.stop("csid-front")
        frames = os.path.join(self.top, "frames")
        kept = read(frames)
        os.rename(self.last_calls, frames)
        self.start("csid-front")
        for unit in ["csid", "csid-front", "csid-etcd"]:
            self.stop(unit)
        pathlib.Path(frames).write_text(kept)
        with contextlib.suppress(FileNotFoundError):
            os.unlink(self.over_etcd)
        os.unlink(self.pods + "csid-0")

    def wait(self, condition, pod, *_):
        """Waits until the pod of csid has ended, or the pod with the claim exists."""
        name, is_there = {
            ("--for=delete", "pod"): ("csid-0", False),
            ("--for=condition=Ready", "pod/csid-tables"): ("csid-tables", True),
        }[condition, pod]
        wait(lambda: os.path.exists(self.pods + name) == is_there)

    def exec(self, *words):
        """Runs a command in the pod with the claim, with input if the recipe asks for it. Ends the script
        with the status of the command."""
        *options, pod = words[: words.index("--")]
        assert os.path.exists(self.pods + pod), pod
        sys.exit(subprocess.run(words[words.index("--") + 1 :],
                                stdin=None if "--stdin" in options else subprocess.DEVNULL).returncode)

    def get(self, *words):
        assert words == ("configmap", "csid", "--output", r"jsonpath={.data.config\.toml}"), words
        sys.stdout.write(self.object("configmap")["data"]["config.toml"])

    def delete(self, kind, name):
        os.unlink(self.pods + name if kind == "pod" else self.objects + kind)

    def rollout(self, what, *_):
        if what == "restart":
            for unit in ["csid-front", "csid"]:
                self.stop(unit)
            os.unlink(self.pods + "csid-0")
            return self.begin_statefulset()
        wait(lambda: " volumes " in read(self.lines("csid")) or not self.runs("csid"))

    def logs(self, *_):
        sys.stdout.write(read(self.lines("csid")).replace(self.top, ""))


def be_front(path, frames, answered):
    """A client that keeps its connection: it sends the calls of a file, reads their replies, and stays."""
    with socket.socket(socket.AF_UNIX) as connection:
        connection.connect(path)
        for frame in open(frames):
            connection.sendall(bytes.fromhex(frame))
            connection.recv(65536)
        open(answered, "w").close()
        while connection.recv(65536):
            pass


def read(path):
    return pathlib.Path(path).read_text()


def wait(happens):
    end = time.monotonic() + SECONDS
    while not happens():
        if time.monotonic() > end:
            raise TimeoutError("it did not happen in %d s" % SECONDS)
        time.sleep(0.01)


class Place:
    """A folder with the folders and the programs that recipes use. With `is_new` a csid runs over a new file
    without volumes. `more` has the paths of further programs by name."""

    def __init__(self, csictl, csid, is_new=True, **more):
        self.top = tempfile.mkdtemp()
        self.control, self.folder = Control(self.top), self.top + "/var/lib/csid/"
        for folder in FOLDERS:
            os.makedirs(self.top + folder)
        os.chown(self.folder, *OWNER)
        for name, target in [("csictl", csictl), ("csid", csid), ("systemctl", ME), ("front", ME),
                             *more.items()]:
            os.symlink(os.path.realpath(target), self.top + "/usr/local/bin/" + name)
        self.variables = {
            **os.environ,
            "PLACE": self.top,
            "PATH": self.top + "/usr/local/bin:" + os.environ["PATH"],
        }
        self.configure(POOLS, NODES, "")
        self.front_calls(["Probe"])
        if is_new:
            self.make()

    def make(self):
        self.must("csid pipe --tables /var/lib/csid/volumes.db --config /etc/csid/config.toml < /dev/null;"
                  " systemctl start csid")

    def __enter__(self):
        return self

    def __exit__(self, *_):
        self.shell("systemctl stop csid-front csid csid-etcd")
        shutil.rmtree(self.top)

    def configure(self, pools, nodes, ending=".new"):
        pathlib.Path(self.top + "/etc/csid/config.toml" + ending).write_text(config(pools, nodes))

    def front_calls(self, *calls, name="frames"):
        """Writes the calls that csid-front makes after its start."""
        with open(os.path.join(self.top, name), "w") as file:
            for words in calls:
                file.write(self.frame(*words).hex() + "\n")

    def frame(self, *words):
        return subprocess.run([self.top + "/usr/local/bin/csictl", "frame", "--method", *words],
                              capture_output=True, check=True).stdout

    def shell(self, text, options="-euo", **variables):
        """Runs commands in bash below the folder. Returns the output, the errors and the status. With the
        options `-o` a command also runs after one that failed, as where a block is pasted into a terminal."""
        text = re.sub(r"(?<![\w/.$])(%s)(?=[/\s;\"']|-)" % "|".join(FOLDERS),
                      lambda found: self.top + found.group(1), text)
        done = subprocess.run(["bash", options, "pipefail", "-c", text], env={**self.variables, **variables},
                              cwd=self.top, stdin=subprocess.DEVNULL, capture_output=True, text=True,
                              timeout=3 * SECONDS)
        return done.stdout, done.stderr.replace(self.top, ""), done.returncode

    def must(self, text):
        said = self.shell(text)
        assert said[2] == 0, (text, said)

    def recipe(self, heading, number=0, page="OPERATING.md", **variables):
        """Runs the block `number` under a heading of a page, counted from 0, in the folder of the file.
        `variables` are variables of the environment. Returns the output, the errors and the status."""
        return self.shell(blocks("## Copies and restores")[0] + blocks(heading, page)[number], **variables)

    def in_folder(self, command):
        """Runs a command of the page in the folder of the file. Returns the output, the errors and the
        status."""
        return self.shell(blocks("## Copies and restores")[0] + stands(command))

    def check(self):
        """Checks the file. Returns the output, the errors and the status of the check."""
        return self.in_folder("csid --check-tables volumes.db --config $config")

    def call(self, *words):
        """Makes a call by csictl. Returns its output without the bytes of the reply."""
        out = self.shell("csictl call --socket /run/csid/csid.sock --method " + " ".join(words))[0]
        return re.sub(r"^0 OK \S+", "0 OK", out)

    def orchestrator(self, volumes, attachments):
        """Writes the files with the orchestrator's volumes and attachments, in the folder of the file."""
        for name, text in [("orchestrator", volumes), ("attached", attachments)]:
            pathlib.Path(self.folder + name).write_text(text)

    def copies(self):
        """Returns the path of the only folder below /root."""
        (name,) = os.listdir(self.top + "/root")
        return os.path.join(self.top, "root", name)

    def owners(self):
        """Returns the user and group ids that own the files of volumes, without repeats."""
        return {(os.stat(it).st_uid, os.stat(it).st_gid) for it in glob.glob(self.folder + "volumes.db*")}

    def modes(self):
        return {oct(os.stat(it).st_mode & 0o777) for it in glob.glob(self.folder + "volumes.db*")}

    def rows(self, path="volumes.db"):
        """Returns the numbers and names of the volumes in a file, and its next number."""
        with contextlib.closing(sqlite3.connect(os.path.join(self.folder, path), timeout=SECONDS)) as file:
            return (dict(file.execute("SELECT number, name FROM volumes")),
                    file.execute("SELECT next_number FROM meta").fetchone()[0])


def create(name, zone="a", key="zone"):
    return ["CreateVolume", "--name", name, "--mode", "1", "--topology", "%s=%s" % (key, zone)]


def publish(volume, node):
    return ["ControllerPublishVolume", "--volume", volume, "--node", node, "--mode", "1"]


def has(volumes, attachments, number, format=2):
    """Returns the line that a check prints for a file with these counts."""
    return "volumes %d, attachments %d, next number %d, format %d\n" % (volumes, attachments, number, format)


class Etcd(etcd.Etcd):
    """A member of etcd in a new folder."""

    def __init__(self):
        self.folder = tempfile.mkdtemp()
        super().__init__(self.folder)
        wait(lambda: self.ctl("endpoint", "health").returncode == 0)

    def ctl(self, *words):
        return subprocess.run(["etcdctl", "--endpoints", self.endpoint, *words],
                              env={**os.environ, "ETCDCTL_API": "3"}, capture_output=True, text=True)

    def __enter__(self):
        return self

    def __exit__(self, *_):
        self.end()
        shutil.rmtree(self.folder)


PLUGIN, NODE = "pools.example.org", "n'2/é \U0001d11e"


class RecipeTest(RowTest):
    """A test of recipes. It is skipped if sqlite3 is not installed."""

    def setUp(self):
        super().setUp()
        if shutil.which("sqlite3") is None:
            self.skipTest("sqlite3 is not installed")
        self.csictl, self.csid, self.csid_etcd = program("csictl"), program("csid"), place("csid-etcd")

    def need_etcd(self):
        if not (os.access(self.csid_etcd, os.X_OK) and shutil.which("etcd") and shutil.which("etcdctl")):
            self.skipTest("csid-etcd is not built, or etcd or etcdctl is not installed")


def main(name, words):
    if name == "front":
        return be_front(*words)
    return {"systemctl": Control, "kubectl": Cluster}[name](os.environ["PLACE"]).obey(words)


if __name__ == "__main__":
    sys.exit(main(os.path.basename(sys.argv[0]), sys.argv[1:]))
