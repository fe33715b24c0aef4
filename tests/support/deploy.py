"""Reads the files of deploy/: units, the Nomad job and manifests. The job is read by patterns, since no
parser of HCL is installed."""

import os
import pathlib
import re
import shlex
import shutil
import signal
import subprocess
import unittest

from tests.support.processes import SECONDS, TOP, wait


DEPLOY = os.path.join(TOP, "deploy")
UNITS = ["csid.service", "csid-front.service"]
# The unit that an operator starts once, by hand.
FIRST = "csid-new.service"
# The file with options that an operator may change.
DEFAULTS = "csid.default"
# For two replicas over etcd: the unit, the drop-ins of the other units, and the manifest.
ETCD_UNIT = "csid-etcd.service"
DIFFERENCES = {"csid.service": "etcd.d/csid.conf", "csid-front.service": "etcd.d/csid-front.conf"}
MANIFEST, ETCD_MANIFEST = "kubernetes.yaml", "kubernetes-etcd.yaml"
# The pod that mounts the claim of csid-0, for the move between a file and etcd.
TABLES_POD = "kubernetes-tables.yaml"
# The example of a node plugin, its patch of the StatefulSet, and a claim with its pod.
NODE_MANIFEST, NODE_PATCH = "kubernetes-node.yaml", "kubernetes-node-patch.yaml"
EXAMPLE = "kubernetes-example.yaml"
PROGRAMS, ETCD_PROGRAMS = ["csid", "front"], ["csid-etcd", "csid", "front"]
TLS = ["--cacert", "--cert", "--key"]
# The greatest exposure that systemd-analyze security may report, in tenths.
EXPOSURE = 30
# Runs a program as the first process of a new PID namespace, with a new network in which each port is free.
UNSHARE = ["unshare", "--pid", "--net", "--fork"]


def read(name):
    return pathlib.Path(DEPLOY, name).read_text()


def need(program):
    if not shutil.which(program):
        raise unittest.SkipTest("%s is not here" % program)
    return program


def toml(text):
    try:
        import tomllib
    except ImportError:
        raise unittest.SkipTest("python's tomllib is not here")
    return tomllib.loads(text)


def documents(name):
    """Returns the objects of a manifest in the order of the file. Skips the test without python's yaml."""
    try:
        import yaml
    except ImportError:
        raise unittest.SkipTest("python's yaml is not here")
    return list(yaml.safe_load_all(read(name)))


class Unit:
    """A unit of systemd, possibly with drop-ins: the values of its keys. An empty value removes the earlier
    values of its key."""

    def __init__(self, name, *differences):
        text = "\n".join(re.sub(r"\\\n\s*", "", read(it)) for it in [name, *differences])
        self.pairs = [
            line.split("=", 1) for line in text.split("\n") if "=" in line and not line.startswith("#")
        ]

    def all(self, key):
        found = []
        for name, value in self.pairs:
            if name == key:
                found = found + [value] if value else []
        return found

    def variables(self):
        """Returns the variables that the unit sets. The last value counts."""
        words = [word for line in self.all("Environment") for word in shlex.split(line)]
        return dict(word.split("=", 1) for word in words)

    def words(self):
        """Returns the words of ExecStart. A variable that is a whole word is replaced by the words in its
        value."""
        given, words = self.variables(), []
        for word in shlex.split(self.all("ExecStart")[0]):
            words += given[word[1:]].split() if word.startswith("$") else [word]
        return words

    def script(self, command):
        """Returns the script that a command of the unit gives to a shell."""
        shell, option, text = shlex.split(command)
        assert (shell, option) == ("/bin/sh", "-c"), command
        return text.replace("$$", "$")


class Nomad:
    """The parts of the Nomad job that patterns can find."""

    def __init__(self):
        self.text = read("nomad.hcl")

    def one(self, pattern):
        found = re.findall(pattern, self.text, re.S)
        assert len(found) == 1, (pattern, found)
        return found[0]

    def tasks(self):
        return {name: text
                for name, text in re.findall(r'\n    task "(\w+)" \{\n(.*?)\n    \}', self.text, re.S)}

    def command(self, task):
        text = self.tasks()[task]
        listed = [re.search(r"%s\s*= \[(.*?)\]\n" % key, text).group(1) for key in ("entrypoint", "args")]
        before, after = [re.findall(r'"((?:[^"\\]|\\.)*)"', words) for words in listed]
        return before + [re.search(r'command\s*= "(.*?)"', text).group(1)] + after

    def config(self):
        return self.one(r"<<TOML\n(.*?)\nTOML")


def over_etcd(name):
    """Returns a unit with its drop-in for etcd."""
    return Unit(name, DIFFERENCES[name])


class Kubernetes:
    """The objects of a manifest by kind."""

    def __init__(self, name=MANIFEST):
        found = documents(name)
        self.objects = {document["kind"]: document for document in found}
        assert len(self.objects) == len(found), "two objects of one kind"
        self.kind = "StatefulSet" if "StatefulSet" in self.objects else "Deployment"
        self.set = self.objects[self.kind]["spec"]
        self.pod = self.set["template"]["spec"]
        self.containers = {container["name"]: container for container in self.pod["containers"]}
        self.first = {container["name"]: container for container in self.pod.get("initContainers", [])}

    def config(self):
        return self.objects["ConfigMap"]["data"]["config.toml"]


def mounts(container):
    """Returns the names of the volumes of a container, by mount path."""
    return {it["mountPath"]: it["name"] for it in container["volumeMounts"]}


def plain(command):
    """Returns the words of a program, without the words of tini and of a shell that start it."""
    words = command[command.index("--") + 1 :] if command[0] == "tini" else command
    if words[:2] == ["sh", "-c"]:
        words = shlex.split(words[2].rsplit("exec ", 1)[1])
    return words


def value(words, option):
    return words[words.index(option) + 1]


def seconds(text):
    return int(str(text).rstrip("s"))


def commands():
    """Yields the commands of csid and of the front for each file of deploy/ that starts them. The manifest is
    left out without python's yaml."""
    units = [Unit(name).words() for name in UNITS]
    nomad = Nomad()
    yield "the units", units[0], units[1]
    yield "the Nomad job", plain(nomad.command("csid")), plain(nomad.command("front"))
    try:
        containers = Kubernetes().containers
    except unittest.SkipTest:
        return
    yield "the manifest", plain(containers["csid"]["command"]), plain(containers["front"]["command"])


def shell(command):
    """Returns the script that tini starts in a shell."""
    return command[command.index("sh") + 2]


def etcd_commands():
    """Yields for each file of deploy/ over etcd the commands of csid-etcd, csid and the front, and the
    commands of csid and the front over a file. The manifest is left out without python's yaml."""
    plainly = [Unit(name).words() for name in UNITS]
    yield "the units over etcd", Unit(ETCD_UNIT).words(), *[over_etcd(name).words()
                                                            for name in UNITS], plainly
    try:
        containers, others = Kubernetes(ETCD_MANIFEST).containers, Kubernetes().containers
    except unittest.SkipTest:
        return
    yield "the manifest over etcd", *[plain(containers[name]["command"]) for name in ETCD_PROGRAMS], [
        plain(others[name]["command"]) for name in PROGRAMS
    ]


def without(words, option, count=2):
    """Returns the words without an option and its values, which are `count` words together."""
    at = words.index(option)
    return words[:at] + words[at + count :]


def first_steps():
    """Yields the scripts or commands that make the file of volumes, each with the file that `csid serve` then
    gets. The manifest is left out without python's yaml."""
    unit, nomad = Unit(FIRST), Nomad()
    yield "the units", " ".join(unit.words()).replace("/usr/local/bin/", ""), value(
        Unit(UNITS[0]).words(), "--tables"
    )
    yield "the Nomad job", shell(nomad.command("csid")).split("; ")[0], value(
        plain(nomad.command("csid")), "--tables"
    )
    try:
        manifest = Kubernetes()
    except unittest.SkipTest:
        return
    yield "the manifest", shell(manifest.first["new"]["command"]), value(
        plain(manifest.containers["csid"]["command"]), "--tables"
    )


def help_of(program, *words):
    if not os.access(program, os.X_OK):
        raise unittest.SkipTest("%s is not built" % program)
    return subprocess.run([program, *words, "--help"], capture_output=True, text=True, timeout=SECONDS).stdout


def over_log(csid):
    """Returns the help of `csid serve`. Skips the test if csid has no --log."""
    text = help_of(csid, "serve")
    if "--log" not in text:
        raise unittest.SkipTest("%s has no --log" % csid)
    return text


def need_namespaces():
    for tool in ["unshare", "tini"]:
        need(tool)
    if subprocess.run(UNSHARE + ["true"], capture_output=True).returncode != 0:
        raise unittest.SkipTest("no namespace of processes can be made")


class Pod:
    """Runs the containers of a manifest, each as the first process of a namespace, with their mounts below a
    folder."""

    FOLDERS = r"(?<![\w/])/(?=(run/csid|var/lib/csid|etc/csid|csi)\b)"

    def __init__(self, folder, manifest, programs):
        self.folder, self.manifest, self.processes = folder, manifest, {}
        for name, path in programs.items():
            if not os.access(path, os.X_OK):
                raise unittest.SkipTest("%s is not built" % path)
            os.symlink(path, os.path.join(folder, name))
        for container in manifest.containers.values():
            for mount in container["volumeMounts"]:
                os.makedirs(folder + mount["mountPath"], exist_ok=True)
        pathlib.Path(folder + "/etc/csid/config.toml").write_text(manifest.config())

    def __enter__(self):
        return self

    def __exit__(self, *_):
        for process in self.processes.values():
            process.kill()
            process.wait()

    def below(self, text):
        return re.sub(self.FOLDERS, lambda _: self.folder + "/", text)

    def variables(self, **more):
        return {**os.environ, **more, "PATH": self.folder + ":" + os.environ["PATH"]}

    def first_step(self):
        step = self.below(shell(self.manifest.first["new"]["command"]))
        subprocess.run(["sh", "-c", step], env=self.variables(NEW="yes"), stdin=subprocess.DEVNULL,
                       timeout=SECONDS)

    def start(self, name, others={}):
        """Starts the command of a container. `others` has replacements for some of its words. In the other
        words the paths of the pod become paths below the folder."""
        container = self.manifest.containers[name]
        words = [others.get(word) or self.below(word) for word in container["command"]]
        given = {e["name"]: e["value"].replace("unix:///", "unix://" + self.folder + "/")
                 for e in container.get("env", [])
                 if "value" in e}
        self.processes[name] = subprocess.Popen(UNSHARE + ["--kill-child"] + words,
                                                env=self.variables(**given), stderr=subprocess.DEVNULL)

    def ends(self, name):
        """Sends SIGTERM to the first process of a container. Returns True if the container then ends within
        15 seconds."""
        process = self.processes[name]
        with open("/proc/%d/task/%d/children" % (process.pid, process.pid)) as children:
            first = int(children.read().split()[0])
        os.kill(first, signal.SIGTERM)
        # The front takes up to 20 s to end only if there are unfinished calls.
        return wait(lambda: process.poll() is not None, seconds=15)
