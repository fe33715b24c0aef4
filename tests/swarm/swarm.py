"""A swarm of one node, and its volumes as Swarm, csid and the kernel have them."""

import json
import os
import subprocess

from tests.support.processes import program
from tests.swarm.engine import devices_of

ADDRESS = "192.0.2.1"
MIB = 1 << 20


class Swarm:
    """A swarm with one node, which has the plugin."""

    def __init__(self, engine):
        self.engine, self.docker = engine, engine.docker

    def begin(self):
        """Makes the swarm, with the plugin and an image for services."""
        self.docker("plugin", "create", "csid", "/plugin")
        self.docker("plugin", "enable", "csid")
        self.docker("swarm", "init", "--advertise-addr", ADDRESS)
        with open(self.engine.path("root.tar")) as file:
            self.engine.run("docker", "import", "-", "user", stdin=file, check=True)

    def node(self):
        """Returns the plugin of the node, and the id and the limit that the plugin answered."""
        info = self.docker("node", "inspect", "self", "--format", "{{json .Description.CSIInfo}}")
        return tuple(json.loads(info)[0].get(key) for key in ["PluginName", "NodeID", "MaxVolumesPerNode"])

    def create(self, name, mib, *words, kind="mount", scope="single", sharing="none"):
        """Asks for a cluster volume. Swarm creates it later."""
        self.docker(*["volume", "create", "--driver", "csid:latest", "--type", kind, "--scope", scope],
                    *["--sharing", sharing, "--topology-required", "zone=a"],
                    *["--required-bytes", str(mib * MIB), *words, name])

    def remove(self, *names):
        self.docker("volume", "rm", *names)

    def unstage(self, name):
        """Unstages a volume in the container of the plugin, as docs/DEPLOY.md says."""
        volume = json.loads(self.docker("volume", "inspect", name))[0]["ClusterVolume"]
        staging = "/data/staged/" + volume["ID"]
        message = json.dumps({"volume_id": volume["Info"]["VolumeID"], "staging_target_path": staging})
        process = self.engine.run("pidof", "node-plugin").stdout.strip()
        call = ["node-plugin", "call", "--socket", "/run/csid/node.sock", "NodeUnstageVolume", message]
        self.engine.run("nsenter", "--target", process, "--all", *call, check=True)

    def volumes(self):
        """Returns the id of each volume of Swarm by name. The id is '' before the volume is created."""
        names = self.docker("volume", "ls", "--cluster", "--quiet").split()
        found = json.loads(self.docker("volume", "inspect", *names)) if names else []
        return {each["Name"]: (each["ClusterVolume"].get("Info") or {}).get("VolumeID", "") for each in found}

    def created(self):
        """Returns the ids of the created volumes of Swarm by name."""
        return {name: volume for name, volume in self.volumes().items() if volume}

    def rows(self):
        """Returns the volumes of csid by name."""
        words = [program("csid"), "--list-tables", self.engine.host("var/lib/csid/volumes.db"), "--json"]
        listed = subprocess.run(words, check=True, capture_output=True, text=True).stdout
        return {each["name"]: each for each in json.loads(listed)["volumes"]}

    def kept(self):
        """Returns the ids of the volumes of csid by name."""
        return {name: row["id"] for name, row in self.rows().items()}

    def agree(self):
        """Returns True if Swarm and csid have the same volumes, by name and id."""
        return self.created() == self.kept()

    def both(self):
        """Returns the ids of all volumes of Swarm by name, and the ids of the volumes of csid by name."""
        return self.volumes(), self.kept()

    def attached(self):
        """Returns the nodes of each attached volume of csid, by id."""
        return {row["id"]: row["nodes"] for row in self.rows().values() if row["nodes"]}

    def devices(self):
        """Returns the id of the volume for each loop device over the data of a volume."""
        files = [path for path in self.engine.data() for _ in devices_of(path)]
        return [os.path.basename(path).removesuffix(".img") for path in files]

    def serve(self, service, volume):
        """Makes a service of one task with a volume at /data."""
        mount = "type=cluster,source=%s,target=/data" % volume
        words = ["--detach", "--no-resolve-image", "--stop-signal", "SIGKILL", "--mount", mount]
        self.docker("service", "create", *words, "--name", service, "user", "sleep", "infinity")

    def states(self, service):
        """Returns the states of the tasks that should run."""
        words = ["--filter", "desired-state=running", "--format", "{{.CurrentState}}"]
        return sorted(line.split()[0] for line in self.docker("service", "ps", service, *words).splitlines())

    def container(self, service):
        """Returns the container of a service, or '' unless it has exactly one."""
        found = self.docker("ps", "--quiet", "--filter", "name=" + service).split()
        return found[0] if len(found) == 1 else ""

    def execute(self, service, command):
        """Runs a command in the container of a service. Returns its output, or '' if it fails."""
        words = ["docker", "exec", self.container(service), "sh", "-c", command]
        return self.engine.run(*words).stdout.strip()

    def make(self, availability):
        """Makes the node active, or drains it."""
        node = self.docker("info", "--format", "{{.Swarm.NodeID}}")
        self.docker("node", "update", "--availability", availability, node)
