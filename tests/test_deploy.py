"""The files of deploy/: they can be read, agree on names, sockets, ports and images, confine their programs,
and let them end in time."""

import json
import os
import pathlib
import re
import shlex
import subprocess
import tempfile

from tests.support.deploy import (DEFAULTS, DIFFERENCES, ETCD_MANIFEST, ETCD_PROGRAMS, ETCD_UNIT, EXPOSURE,
                                  FIRST, Kubernetes, MANIFEST, Nomad, PROGRAMS, TABLES_POD, TLS, UNITS, Unit,
                                  commands, documents, etcd_commands, mounts, need, over_etcd, plain, read,
                                  seconds, shell, toml, value, without)
from tests.support.processes import TOP
from tests.support.rows import RowTest, each

# For each unit that serves: the name in its lines, the statuses that are a planned end, and the statuses that
# must not lead to a restart.
STATUSES = [
    ("csid.service", "csid", [], ["2 3"]),
    ("csid-front.service", "csid-front", ["1"], ["2"]),
    (ETCD_UNIT, "csid-etcd", [], ["2"]),
]


def said(script, **variables):
    """Returns the status of a shell, and its line on standard error."""
    done = subprocess.run(["sh", "-c", script], env={"PATH": os.environ["PATH"], **variables},
                          capture_output=True, text=True)
    return done.returncode, done.stderr


def manifests():
    return [Kubernetes(name) for name in (MANIFEST, ETCD_MANIFEST)]


class ManifestTest(RowTest):
    """The names within a manifest, and how its containers are confined."""

    def test_selectors_are_the_labels_of_the_pod(self):
        for manifest in manifests():
            labels = manifest.set["template"]["metadata"]["labels"]
            self.assertEqual(manifest.set["selector"]["matchLabels"], labels)
            budget = manifest.objects["PodDisruptionBudget"]["spec"]
            self.assertEqual(budget["selector"]["matchLabels"], labels)

    def test_account_of_the_pod_is_bound_to_its_roles(self):
        for manifest in manifests():
            account = manifest.objects["ServiceAccount"]["metadata"]
            self.assertEqual(manifest.pod["serviceAccountName"], account["name"])
            for kind in ["ClusterRole", "Role"]:
                with self.subTest(manifest=manifest.kind, kind=kind):
                    binding = manifest.objects[kind + "Binding"]
                    self.assertEqual(binding["subjects"], [{"kind": "ServiceAccount", **account}])
                    role = (binding["roleRef"]["kind"], binding["roleRef"]["name"])
                    self.assertEqual(role, (kind, manifest.objects[kind]["metadata"]["name"]))

    def test_objects_have_one_namespace(self):
        for manifest in manifests():
            namespace = manifest.objects["Namespace"]["metadata"]["name"]
            found = {it["metadata"].get("namespace", namespace) for it in manifest.objects.values()}
            self.assertEqual(found, {namespace})

    def test_volumes_that_are_mounted_are_those_of_the_pod(self):
        for manifest in manifests():
            volumes, claims = manifest.pod["volumes"], manifest.set.get("volumeClaimTemplates", [])
            named = {it["name"] for it in volumes} | {it["metadata"]["name"] for it in claims}
            all = {**manifest.first, **manifest.containers}.values()
            self.assertEqual({name for it in all for name in mounts(it).values()}, named)
            configured = [it["configMap"]["name"] for it in volumes if "configMap" in it]
            self.assertEqual(configured, [manifest.objects["ConfigMap"]["metadata"]["name"]])

    def test_pod_and_containers_are_confined(self):
        of_pod = {"runAsNonRoot": True, "seccompProfile": {"type": "RuntimeDefault"}}
        of_container = {
            "allowPrivilegeEscalation": False,
            "readOnlyRootFilesystem": True,
            "capabilities": {"drop": ["ALL"]},
        }
        for manifest in manifests():
            context = manifest.pod["securityContext"]
            self.assertEqual({key: context.get(key) for key in of_pod}, of_pod)
            for name, container in {**manifest.first, **manifest.containers}.items():
                with self.subTest(manifest=manifest.kind, container=name):
                    self.assertEqual(container["securityContext"], of_container)
                    resources = {key: sorted(it) for key, it in container["resources"].items()}
                    self.assertEqual(resources, dict.fromkeys(["requests", "limits"], ["cpu", "memory"]))


class CapacityTest(RowTest):
    """The provisioner publishes the capacity of pools, and the scheduler chooses nodes by it."""

    OWNERS = {"StatefulSet": ["statefulsets"], "Deployment": ["replicasets", "deployments"]}

    def test_scheduler_asks_for_capacity(self):
        for manifest in manifests():
            self.assertIs(manifest.objects["CSIDriver"]["spec"]["storageCapacity"], True)

    def test_provisioner_is_told_whose_the_objects_are(self):
        for manifest in manifests():
            provisioner, level = manifest.containers["provisioner"], len(self.OWNERS[manifest.kind])
            words = [word for word in provisioner["args"] if "capacity" in word]
            self.assertEqual(words, ["--enable-capacity", "--capacity-ownerref-level=%d" % level])
            self.assertEqual([it["name"] for it in provisioner["env"]], ["NAMESPACE", "POD_NAME"])

    def test_account_may_keep_the_objects_and_look_whose_they_are(self):
        verbs = ["get", "list", "watch", "create", "update", "patch", "delete"]
        for manifest in manifests():
            wanted = {resource: ["get"] for resource in ["pods", *self.OWNERS[manifest.kind]]}
            rules = manifest.objects["Role"]["rules"]
            found = {resource: rule["verbs"] for rule in rules for resource in rule["resources"]}
            self.assertEqual(found, {**wanted, "csistoragecapacities": verbs})


class CheckTest(RowTest):
    """If csid refuses the configuration or the file, the pod does not start, or is not ready."""

    def setUp(self):
        super().setUp()
        self.manifest = Kubernetes()
        self.check_first, self.csid = self.manifest.first["check"], self.manifest.containers["csid"]
        self.words = plain(self.csid["command"])

    def test_file_and_configuration_of_csid_are_checked_after_the_file_is_made(self):
        self.assertEqual(list(self.manifest.first), ["new", "check"])
        tables, config = value(self.words, "--tables"), value(self.words, "--config")
        wanted = ["csid", "--check-tables", tables, "--config", config]
        self.assertEqual(plain(self.check_first["command"]), wanted)

    def test_check_changes_nothing_and_may_take_what_csid_may(self):
        self.assertEqual([it.get("readOnly") for it in self.check_first["volumeMounts"]], [True, True])
        self.assertEqual(self.check_first["resources"], self.csid["resources"])

    def test_pod_is_ready_once_csid_answers_through_the_front(self):
        front = self.manifest.containers["front"]
        probe, port = front["readinessProbe"], value(front["command"], "--metrics").lstrip(":")
        self.assertEqual(probe["httpGet"], {"path": "/healthz", "port": int(port)})

    def test_readiness_waits_longer_than_the_front_does_for_csid(self):
        """The front waits five seconds."""
        for manifest in manifests():
            self.assertGreater(manifest.containers["front"]["readinessProbe"]["timeoutSeconds"], 5)


class TablesPodTest(RowTest):
    """The pod that mounts the claim while csid does not run."""

    def setUp(self):
        super().setUp()
        self.manifest = Kubernetes()
        (self.pod,) = documents(TABLES_POD)
        (self.container,), (self.volume,) = self.pod["spec"]["containers"], self.pod["spec"]["volumes"]

    def test_claim_is_that_of_csid(self):
        (template,), of_set = self.manifest.set["volumeClaimTemplates"], self.manifest.objects["StatefulSet"]
        claim = "%s-%s-0" % (template["metadata"]["name"], of_set["metadata"]["name"])
        self.assertEqual(self.volume["persistentVolumeClaim"], {"claimName": claim})
        self.assertEqual(self.pod["metadata"]["namespace"], of_set["metadata"]["namespace"])

    def test_claim_stays_where_the_stateful_set_goes(self):
        policy = self.manifest.set.get("persistentVolumeClaimRetentionPolicy", {})
        self.assertEqual(set(policy.values()) - {"Retain"}, set())

    def test_claim_is_in_the_folder_of_the_file(self):
        tables = value(plain(self.manifest.containers["csid"]["command"]), "--tables")
        mount = {"name": self.volume["name"], "mountPath": os.path.dirname(tables)}
        self.assertEqual(self.container["volumeMounts"], [mount])

    def test_it_is_no_pod_of_csid(self):
        labels = self.manifest.set["template"]["metadata"]["labels"]
        self.assertNotEqual(self.pod["metadata"]["labels"], labels)

    def test_it_is_confined_as_the_first_step_of_csid(self):
        self.assertEqual(self.pod["spec"]["securityContext"], self.manifest.pod["securityContext"])
        first = self.manifest.first["new"]
        for key in "image", "securityContext", "resources":
            self.assertEqual(self.container[key], first[key], key)
        self.assertEqual(self.container["command"][:2], first["command"][:2])

    def test_it_has_no_account(self):
        self.assertIs(self.pod["spec"]["automountServiceAccountToken"], False)
        self.assertNotIn("serviceAccountName", self.pod["spec"])


class EtcdCommandsTest(RowTest):
    """The commands over etcd differ from the commands over a file only in the options for etcd."""

    def test_csid_and_the_front_differ_in_the_rows_and_the_standby(self):
        for where, _, csid, front, (old_csid, old_front) in etcd_commands():
            with self.subTest(where=where):
                of_file = without(without(old_csid, "--tables"), "--existing", 1)
                self.assertEqual(without(csid, "--log"), of_file)
                self.assertEqual(without(front, "--standby"), old_front)

    def test_standby_is_longer_than_a_lease(self):
        for where, etcd, _, front, _ in etcd_commands():
            with self.subTest(where=where):
                self.assertGreater(seconds(value(front, "--standby")), int(value(etcd, "--lease")))

    def test_csid_and_csid_etcd_meet_at_a_socket(self):
        for where, etcd, csid, _, _ in etcd_commands():
            with self.subTest(where=where):
                self.assertEqual(value(csid, "--log"), value(etcd, "--listen"))

    def test_files_of_tls_have_one_folder(self):
        for where, etcd, _, _, _ in etcd_commands():
            with self.subTest(where=where):
                self.assertEqual({os.path.dirname(value(etcd, it)) for it in TLS}, {"/etc/csid-etcd"})

    def test_csid_etcd_wants_rows_and_has_the_name_of_the_plugin(self):
        """csid-etcd never makes the first row on its own."""
        for where, etcd, _, _, _ in etcd_commands():
            with self.subTest(where=where):
                self.assertIn("--existing", etcd)
                self.assertEqual(value(etcd, "--name"), toml(Kubernetes(ETCD_MANIFEST).config())["name"])


class EtcdUnitTest(RowTest):
    def setUp(self):
        super().setUp()
        self.unit = Unit(ETCD_UNIT)

    def test_no_file_is_looked_for_before_a_start_of_csid(self):
        self.assertEqual(over_etcd(UNITS[0]).all("ExecStartPre"), [])

    def test_folders_are_those_of_its_socket_and_its_revision(self):
        keys = ("/run/", "RuntimeDirectory"), ("/var/lib/", "StateDirectory")
        made = [parent + self.unit.all(key)[0] for parent, key in keys]
        used = [os.path.dirname(value(self.unit.words(), it)) for it in ["--listen", "--revision"]]
        self.assertEqual(made, used)

    def test_it_is_started_again(self):
        started = self.unit.all("Restart"), self.unit.all("StartLimitIntervalSec")
        self.assertEqual(started, (["always"], ["0"]))

    def test_user_is_that_of_csid(self):
        users = {tuple(it.all(key)) for it in [self.unit, Unit(UNITS[0])] for key in ["User", "Group"]}
        self.assertEqual(users, {("csid",)})


class EtcdManifestTest(RowTest):
    """The manifest over etcd: two pods on two machines, and one of them serves."""

    def setUp(self):
        super().setUp()
        self.manifest, self.other = Kubernetes(ETCD_MANIFEST), Kubernetes()
        self.etcd = self.manifest.containers["csid-etcd"]
        self.variables = {it["name"]: it.get("valueFrom") for it in self.etcd["env"]}
        self.config = self.manifest.objects["ConfigMap"]

    def test_other_objects_are_those_of_the_other_manifest(self):
        for kind in set(self.manifest.objects) & set(self.other.objects) - {"ConfigMap", "Role"}:
            self.assertEqual(self.manifest.objects[kind], self.other.objects[kind])
        self.assertEqual(self.manifest.config(), self.other.config())

    def test_words_of_csid_etcd_have_variables(self):
        used = set(re.findall(r"\$\((\w+)\)", " ".join(self.etcd["command"])))
        self.assertEqual(used, {name for name, source in self.variables.items() if source})

    def test_members_of_etcd_are_those_of_the_unit(self):
        source = {"name": self.config["metadata"]["name"], "key": "endpoints"}
        self.assertEqual(self.variables["ENDPOINTS"], {"configMapKeyRef": source})
        self.assertEqual(self.config["data"]["endpoints"], value(Unit(ETCD_UNIT).words(), "--endpoints"))

    def test_secret_has_the_files_of_tls(self):
        name, files = re.search(r"create secret generic (\S+) (.*)", read(ETCD_MANIFEST)).groups()
        secrets = [it for it in self.manifest.pod["volumes"] if "secret" in it]
        volumes = {it["name"]: it["secret"]["secretName"] for it in secrets}
        self.assertEqual(list(volumes.values()), [name])
        paths = [value(self.etcd["command"], it) for it in TLS]
        self.assertEqual(re.findall(r"--from-file=(\S+)", files), [os.path.basename(it) for it in paths])
        folders = [folder for folder, volume in mounts(self.etcd).items() if volume in volumes]
        self.assertEqual(folders, [os.path.dirname(paths[0])])

    @each([
        ("csid-etcd", ["--listen", "--revision", "--cacert"]),
        ("csid", ["--log", "--socket", "--config"]),
        ("front", ["--csid", "--control"]),
    ])
    def test_folders_of_paths_are_mounted(self, name, options):
        container = self.manifest.containers[name]
        found, words = mounts(container), plain(container["command"])
        self.assertEqual([it for it in options if os.path.dirname(value(words, it)) not in found], [])
        self.assertEqual(found.get("/run/csid-etcd"), "log" if name != "front" else None)

    def test_first_row_is_made_where_the_configuration_says_so(self):
        step = self.manifest.first["new"]
        source = {"name": self.config["metadata"]["name"], "key": "new", "optional": True}
        given = {it["name"]: it["valueFrom"] for it in step["env"]}
        self.assertEqual(given["NEW"], {"configMapKeyRef": source})
        self.assertEqual(self.config["data"]["new"], "yes")
        told, _ = shell(step["command"]).split(" || exec ")
        self.assertEqual(told, 'test "$NEW" != yes')

    def test_first_row_is_made_by_the_name_and_the_etcd_of_csid_etcd(self):
        step = self.manifest.first["new"]
        _, command = shell(step["command"]).split(" || exec ")
        words = shlex.split(command)
        self.assertEqual(words[:2], ["csid-etcd", "--new"])
        for option in ["--name", *TLS]:
            self.assertEqual(value(words, option), value(self.etcd["command"], option))
        self.assertEqual(value(words, "--endpoints"), "$ENDPOINTS")
        given = {it["name"]: it["valueFrom"] for it in step["env"]}
        self.assertEqual(given["ENDPOINTS"], self.variables["ENDPOINTS"])
        self.assertEqual(mounts(step).items() - mounts(self.etcd).items(), set())

    def test_pods_are_replaced_one_after_the_other_on_two_machines(self):
        self.assertEqual(self.manifest.set["replicas"], 2)
        update = {"type": "RollingUpdate", "rollingUpdate": {"maxUnavailable": 1, "maxSurge": 0}}
        self.assertEqual(self.manifest.set["strategy"], update)
        labels = self.manifest.set["template"]["metadata"]["labels"]
        apart = {"topologyKey": "kubernetes.io/hostname", "labelSelector": {"matchLabels": labels}}
        affinity = self.manifest.pod["affinity"]["podAntiAffinity"]
        self.assertEqual(affinity["requiredDuringSchedulingIgnoredDuringExecution"], [apart])

    def test_pod_is_ready_without_an_answer(self):
        """Only the front of a pod is asked, and it answers also while its csid does not serve."""
        for name, container in self.manifest.containers.items():
            asked = {"readinessProbe", "startupProbe"} & set(container)
            self.assertEqual(asked, {"readinessProbe"} if name == "front" else set(), name)
        front = self.manifest.containers["front"]
        self.assertEqual(front["readinessProbe"]["httpGet"], front["livenessProbe"]["httpGet"])
        self.assertEqual(front["readinessProbe"]["httpGet"]["path"], "/livez")

    def test_configuration_is_checked_before_all(self):
        (name, check), _ = self.manifest.first.items()
        config = value(plain(self.manifest.containers["csid"]["command"]), "--config")
        self.assertEqual((name, plain(check["command"])), ("check", ["csid", "--check-config", config]))
        self.assertEqual(mounts(check), {os.path.dirname(config): "config"})

    def test_probes_wait_longer_than_the_front_does_for_csid(self):
        """The front waits five seconds."""
        port = int(value(self.manifest.containers["front"]["command"], "--metrics").lstrip(":"))
        for name in ETCD_PROGRAMS:
            probe = self.manifest.containers[name]["livenessProbe"]
            self.assertEqual(probe["httpGet"], {"path": "/livez", "port": port}, name)
            self.assertGreater(probe["timeoutSeconds"], 5, name)

    @each(["provisioner", "attacher"])
    def test_sidecars_are_those_of_the_other_manifest(self, name):
        """The sidecars elect no leader."""
        args = self.manifest.containers[name]["args"]
        self.assertEqual([word for word in args if "election" in word], [])
        args = [word.replace("ownerref-level=2", "ownerref-level=1") for word in args]
        sidecar = {**self.manifest.containers[name], "args": args}
        self.assertEqual(sidecar, self.other.containers[name])


class NamesTest(RowTest):
    """The name of the plugin, the image and the entry command of a container are the same in all files."""

    def setUp(self):
        super().setUp()
        self.manifest, self.etcd, self.nomad = *manifests(), Nomad()
        self.dockerfile = read("Dockerfile")

    def test_name_of_the_plugin(self):
        name, objects = toml(self.manifest.config())["name"], self.manifest.objects
        self.assertEqual(objects["CSIDriver"]["metadata"]["name"], name)
        self.assertEqual(objects["StorageClass"]["provisioner"], name)
        self.assertEqual(toml(self.nomad.config())["name"], name)

    def test_image(self):
        image = re.search(r"docker build -t (\S+)", self.dockerfile).group(1)
        ours = [self.manifest.containers[it]["image"] for it in PROGRAMS]
        ours += [self.etcd.containers[it]["image"] for it in ETCD_PROGRAMS]
        ours += [it["image"] for of in (self.manifest, self.etcd) for it in of.first.values()]
        ours += re.findall(r'image\s*= "(.*?)"', self.nomad.text)
        self.assertEqual(set(ours), {image})

    def test_first_process_of_containers(self):
        entry = re.findall(r'"(.*?)"', re.search(r"ENTRYPOINT \[(.*?)\]", self.dockerfile).group(1))
        commands = [self.manifest.containers[it]["command"] for it in ("csid", "front")]
        commands += [self.nomad.command(it) for it in ("csid", "front")]
        commands += [self.etcd.containers[it]["command"] for it in ETCD_PROGRAMS]
        commands += [it["command"] for of in (self.manifest, self.etcd) for it in of.first.values()]
        self.assertEqual([it[:2] for it in commands], [entry] * len(commands))

    def test_programs_over_etcd_are_in_the_image(self):
        copied = re.search(r"^COPY (.*) \S+$", self.dockerfile, re.M).group(1).split()
        self.assertEqual(set(ETCD_PROGRAMS) - set(copied), set())

    def test_user_of_the_image(self):
        user = list(map(int, re.search(r"USER (\d+):(\d+)", self.dockerfile).groups()))
        for manifest in self.manifest, self.etcd:
            context = manifest.pod["securityContext"]
            self.assertEqual([context["runAsUser"], context["runAsGroup"]], user)


class DeployTest(RowTest):
    def test_probes(self):
        manifest = Kubernetes()
        words = dict(word.lstrip("-").split("=", 1) for word in manifest.containers["probe"]["args"])
        for name in ["csid", "front"]:
            probe = manifest.containers[name]["livenessProbe"]
            self.check("the probe of " + name, str(probe["httpGet"]["port"]), words["health-port"])
            self.check("its time is above that of Probe",
                       probe["timeoutSeconds"] > seconds(words["probe-timeout"]), True)

    def test_nodes(self):
        """Each configuration has a pool and a node, so volumes can be created and attached without a change.
        The Nomad job has `datacenters`, which Nomad before 1.5 requires."""
        nomad = Nomad()
        for where, text in [
            ("the manifest", Kubernetes().config()),
            ("the manifest over etcd", Kubernetes(ETCD_MANIFEST).config()),
            ("the Nomad job", nomad.config()),
        ]:
            config = toml(text)
            self.check("pools of " + where, [bool(pool["name"]) for pool in config.get("pool", [])], [True])
            self.check("nodes of " + where,
                       [bool(node["id"]) and node["max_volumes"] > 0 for node in config.get("node", [])],
                       [True])
        job = re.search(r'\njob "[\w-]+" \{\n(.*?)\n  group ', nomad.text, re.S).group(1)
        named = re.findall(r'^  datacenters = \["([\w*-]+)"\]$', job, re.M)
        self.check("where the job may run", len(named), 1)

    def test_sockets(self):
        """Each front gets the socket of its csid, and each sidecar the socket of its front. The sockets are
        in folders that the units, the Nomad job and the manifests have."""
        for where, self.csid, self.front in commands():
            self.check("the socket of csid in " + where, value(self.front, "--csid"),
                       value(self.csid, "--socket"))
        units = [Unit(name) for name in UNITS]
        for unit, path in zip(
            units, [value(units[0].words(), "--socket"), units[1].all("Environment")[0].split("unix://")[1]]
        ):
            self.check("the folder of " + path, os.path.dirname(path),
                       "/run/" + unit.all("RuntimeDirectory")[0])
        self.check_controls()
        nomad = Nomad()
        self.check("the endpoint of the Nomad job",
                   os.path.dirname(nomad.one(r'CSI_ENDPOINT = "unix://(.*?)"')),
                   nomad.one(r'mount_dir = "(.*?)"'))
        manifest = Kubernetes()
        endpoint = manifest.containers["front"]["env"][0]["value"]
        for name in ["provisioner", "attacher", "probe"]:
            self.check("the socket of " + name,
                       [w for w in manifest.containers[name]["args"] if "address" in w],
                       ["--csi-address=" + endpoint[len("unix://") :]])
        self.check("the endpoint over etcd", Kubernetes(ETCD_MANIFEST).containers["front"]["env"][0]["value"],
                   endpoint)

    def check_controls(self):
        """Each front has a control socket in an existing folder, and the image has csictl for it."""
        unit = Unit(UNITS[1])
        self.check("the folder of the unit's control socket",
                   os.path.dirname(value(unit.words(), "--control")),
                   "/run/" + unit.all("RuntimeDirectory")[0])
        for manifest in [Kubernetes(), Kubernetes(ETCD_MANIFEST)]:
            front = manifest.containers["front"]
            folder = os.path.dirname(value(front["command"], "--control"))
            self.check("the folder of the manifest's control socket",
                       {m["mountPath"]: m["name"] for m in front["volumeMounts"]}.get(folder), "backend")
            self.check("where the client finds it in the manifest",
                       {it["name"]: it.get("value") for it in front["env"]}.get("CSID_SOCKET"),
                       value(front["command"], "--control"))
        nomad = Nomad()
        front = nomad.command("front")
        self.check("the folder of the job's control socket", os.path.dirname(value(front, "--control")),
                   os.path.dirname(value(front, "--csid")))
        self.check("where the client finds it in the job", nomad.one(r'CSID_SOCKET = "(.*?)"'),
                   value(front, "--control"))
        files = re.search(r"^COPY (.*) \S+$", read("Dockerfile"), re.M).group(1).split()
        self.check("the client is in the image", "csictl" in files, True)

    def test_ends(self):
        """The time to end a program is longer than the front needs, and a program is always started again."""
        manifest, nomad, self.front = Kubernetes(), Nomad(), Unit(UNITS[1])
        waits = {
            "the manifest": manifest.pod["terminationGracePeriodSeconds"],
            "the Nomad job": nomad.one(r'kill_timeout = "(\d+)s"'),
            "the units": self.front.all("TimeoutStopSec")[0],
        }
        for where, _, words in commands():
            self.assertLess(seconds(value(words, "--grace")), seconds(waits[where]), where)
        for name in UNITS:
            unit = Unit(name)
            self.check(name + " is started again", (unit.all("Restart"), unit.all("StartLimitIntervalSec")),
                       (["always"], ["0"]))

    @each(STATUSES)
    def test_statuses(self, name, program, done, refused):
        """systemd does not start a program again that ended with a status in `refused`. After status 3 the
        unit prints a line with this status, and after status 0 or a signal no line."""
        unit = Unit(name)
        self.check("the statuses of " + name,
                   (unit.all("SuccessExitStatus"), unit.all("RestartPreventExitStatus")), (done, refused))
        (command,) = unit.all("ExecStopPost")
        for code, status, line in [
            ("exited", "3", "%s: ended with status 3: see EXIT STATUS in man %s\n" % (program, program)),
            ("exited", "0", ""),
            ("killed", "TERM", ""),
            (None, None, ""),
        ]:
            given = {"EXIT_CODE": code, "EXIT_STATUS": status} if code else {}
            self.check("what %s says of %s %s" % (name, code, status),
                       said(unit.script(command), **given), (0, line))

    @each(STATUSES)
    def test_reload(self, name, program, done, _):
        """A reload fails with a hint, and with a status that no planned end has."""
        unit = Unit(name)
        (command,) = unit.all("ExecReload")
        status, line = said(unit.script(command))
        hint = ": systemctl restart %s\n" % program
        self.check("a reload of " + name,
                   (str(status) in done, status, line.startswith(program + ": "), line.endswith(hint)),
                   (False, 69, True, True))

    def test_pages(self):
        """The units name manual pages that exist."""
        with open(os.path.join(TOP, "packaging", "manual")) as file:
            made = set(re.findall(r'Page\(\s*"([\w-]+)",\s+(\d),', file.read()))
        for name in [*UNITS, FIRST, ETCD_UNIT]:
            named = re.findall(r"man:([\w-]+)\((\d)\)", " ".join(Unit(name).all("Documentation")))
            self.check("the pages that %s names" % name, (bool(named), set(named) - made), (True, set()))

    def test_defaults(self):
        """The file of options has the default values of the units."""
        units = [Unit(name) for name in UNITS]
        self.check("where it is", [it.all("EnvironmentFile") for it in units],
                   [["-/etc/default/csid"]] * len(units))
        shown = dict(re.findall(r'^#(\w+)="(.*)"$', read(DEFAULTS), re.M))
        given = {name: value for it in units for name, value in it.variables().items()}
        for own in ["CSI_ENDPOINT", "GOMEMLIMIT"]:
            del given[own]
        self.check("what it shows", shown, given)

    def test_metrics(self):
        """Each front serves metrics at the port that is scraped. The dashboard and the alerts can be read."""
        unit, nomad = Unit(UNITS[1]), Nomad()
        host, port = value(unit.words(), "--metrics").rsplit(":", 1)
        self.check("the unit tells metrics to its own machine",
                   (host, unit.all("IPAddressDeny"), unit.all("IPAddressAllow")),
                   ("127.0.0.1", ["any"], ["localhost"]))
        self.check("the port of the Nomad job", value(nomad.command("front"), "--metrics"),
                   ":" + nomad.one(r'port "metrics" \{\s*to = (\d+)'))
        self.check("the same as that of the unit", value(nomad.command("front"), "--metrics"), ":" + port)
        checks = [dict(re.findall(r'(\w+) += "?([^"\n]+)', text))
                  for text in re.findall(r"\n      check \{\n(.*?)\n      \}", nomad.text, re.S)]
        self.check("which tasks are probed", [(check["task"], check["path"]) for check in checks],
                   [("front", "/healthz"), ("csid", "/healthz")])
        self.check("the dashboard", "panels" in json.loads(read("dashboard.json")), True)
        for name in [MANIFEST, ETCD_MANIFEST]:
            self.check_scrape(Kubernetes(name), port)
        self.check_alert()

    def check_scrape(self, manifest, port):
        self.front = manifest.containers["front"]
        notes = manifest.set["template"]["metadata"]["annotations"]
        self.check("the port of the manifest", value(self.front["command"], "--metrics"), ":" + port)
        self.check("of its container", self.front["ports"], [{"name": "metrics", "containerPort": int(port)}])
        self.check("of its pod", notes, {"prometheus.io/scrape": "true", "prometheus.io/port": port})
        pools = [pool["segments"] for pool in toml(manifest.config())["pool"]]
        told = [dict(pair.split("=", 1) for pair in word.split(","))
                for before, word in zip(self.front["command"], self.front["command"][1:])
                if before == "--metrics-topology"]
        self.check("the topologies of the manifest", told, pools)

    def check_alert(self):
        import yaml

        rules = [rule for group in yaml.safe_load(read("alerts.yaml"))["groups"] for rule in group["rules"]]
        self.check("alerts have names of their own", len({rule["alert"] for rule in rules}), len(rules))
        for rule in rules:
            self.check(rule["alert"] + " has all parts", (set(rule) - {"for"}, set(rule["annotations"])),
                       ({"alert", "expr", "labels", "annotations"}, {"summary", "description"}))
            self.check("its severity", rule["labels"]["severity"] in ("critical", "warning"), True)

    def test_memory_of_the_front(self):
        """The front has the same memory limit and the same GOMEMLIMIT in its unit, the Nomad job and the
        manifests."""
        unit, task = Unit(UNITS[1]), Nomad().tasks()["front"]
        mebibytes = int(re.fullmatch(r"(\d+)M", unit.all("MemoryMax")[0]).group(1))
        self.check("the limit of the Nomad job", re.findall(r"memory_max = (\d+)", task), [str(mebibytes)])
        told = re.findall(r'GOMEMLIMIT +. "(\w+)"', task)
        self.check("what Go knows in it", told, [unit.variables()["GOMEMLIMIT"]])
        for name in [MANIFEST, ETCD_MANIFEST]:
            front = Kubernetes(name).containers["front"]
            self.check("the limit in " + name, front["resources"]["limits"]["memory"], "%dMi" % mebibytes)
            told = [it["value"] for it in front["env"] if it["name"] == "GOMEMLIMIT"]
            self.check("what Go knows in " + name, told, [unit.variables()["GOMEMLIMIT"]])

    def test_memory_of_csid(self):
        """csid has the same memory limit in its unit, the Nomad job and the manifests."""
        limit = Unit(UNITS[0]).all("MemoryMax")[0]
        self.check("the limit of the unit", limit, "1G")
        task = Nomad().tasks()["csid"]
        self.check("the limit of the Nomad job", re.findall(r"memory_max = (\d+)", task), ["1024"])
        for name in [MANIFEST, ETCD_MANIFEST]:
            resources = Kubernetes(name).containers["csid"]["resources"]
            self.check("the limit in " + name, resources["limits"]["memory"], limit + "i")

    @each([*UNITS, FIRST])
    def test_chown(self, name):
        """csid and the front may give their sockets to a group (--group, --control-group), and csid may give
        the WAL the owner of its file. Their units allow no other such call."""
        self.check("what %s allows last" % name, Unit(name).all("SystemCallFilter")[1:],
                   ["~@privileged @resources", "@chown"])

    @each([
        ("csid.service", "0077"),
        (FIRST, "0077"),
        (ETCD_UNIT, "0077"),
        ("csid-front.service", "0007"),
    ])
    def test_privacy(self, name, mask):
        """Other users have no access to the files and sockets of the programs, except the group of the
        front's socket."""
        unit = Unit(name)
        kept = [it for it in ["RuntimeDirectory", "StateDirectory"] if unit.all(it)]
        self.check("who may read what %s makes" % name,
                   (unit.all("UMask"), [unit.all(it + "Mode") for it in kept]),
                   ([mask], [["0750"]] * len(kept)))

    def test_units(self):
        """systemd accepts the units, and reports little exposure. No program needs to be installed."""
        said = subprocess.run([need("systemd-analyze"), "--version"], capture_output=True, text=True).stdout
        if int(said.split()[1]) < 250:
            self.skipTest("systemd-analyze is older than 250")
        self.check_verified(UNITS + [FIRST], {})
        self.check_verified(UNITS + [ETCD_UNIT], DIFFERENCES)

    def check_verified(self, names, differences):
        """Checks that systemd accepts these units of deploy/, and that the exposure of each is at most
        EXPOSURE. `differences` has the file of a unit's drop-in by the name of the unit. /bin/true replaces
        the programs of the units."""
        with tempfile.TemporaryDirectory() as folder:
            for name, place in [(it, it) for it in names] + [(file, unit + ".d/etcd.conf")
                                                             for unit, file in differences.items()]:
                path = os.path.join(folder, place)
                os.makedirs(os.path.dirname(path), exist_ok=True)
                pathlib.Path(path).write_text(re.sub(r"/usr/local/bin/[\w-]+", "/bin/true", read(name)))
            paths = [os.path.join(folder, name) for name in names]
            done = subprocess.run(["systemd-analyze", "verify", "--man=no"] + paths, capture_output=True,
                                  text=True)
            self.check("systemd-analyze verify", (done.returncode, done.stdout + done.stderr), (0, ""))
            for path in paths:
                words = ["systemd-analyze", "security", "--offline=true", "--no-pager",
                         "--threshold=%d" % EXPOSURE, path]
                done = subprocess.run(words, capture_output=True, text=True)
                self.check("systemd-analyze security %s: %s" % (os.path.basename(path),
                                                                done.stdout.strip().split("\n")[-1]),
                           done.returncode, 0)
