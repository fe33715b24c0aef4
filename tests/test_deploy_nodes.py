"""The example of a node plugin in deploy/: it has the sockets, folders, names and images of the other
manifests. The example claim can be applied."""

import os
import re

from tests.support.deploy import (EXAMPLE, Kubernetes, NODE_MANIFEST, NODE_PATCH, Nomad, documents, mounts,
                                  plain, read, toml, value)
from tests.support.processes import TOP
from tests.support.rows import RowTest

KUBELET = "/var/lib/kubelet"
VOLUME = "nomad-volume.hcl"


class NodeTest(RowTest):
    def setUp(self):
        super().setUp()
        self.controller = Kubernetes()
        (self.set,) = documents(NODE_MANIFEST)
        self.spec = self.set["spec"]["template"]["spec"]
        self.node, self.registrar = self.spec["containers"]
        (self.folder_of_front,) = self.spec["initContainers"]
        self.words = plain(self.node["command"])
        self.hosts = {it["name"]: it["hostPath"]["path"] for it in self.spec["volumes"]}
        self.args = dict(word.lstrip("-").split("=", 1) for word in self.registrar["args"])
        (self.patch,) = documents(NODE_PATCH)
        self.config = toml(self.controller.config())

    def host(self, container, path):
        """Returns the path on the node of a path in a container."""
        folder, name = os.path.split(path)
        return os.path.join(self.hosts[mounts(container)[folder]], name)


class NodeSocketsTest(NodeTest):
    def test_kubelet_gets_the_socket_of_the_node_plugin(self):
        told = self.args["kubelet-registration-path"]
        self.assertEqual(self.host(self.node, value(self.words, "--listen")), told)
        self.assertEqual(self.host(self.registrar, self.args["csi-address"]), told)

    def test_kubelet_finds_the_socket_below_the_name_of_the_plugin(self):
        folder = "%s/plugins/%s" % (KUBELET, self.config["name"])
        self.assertEqual(os.path.dirname(self.args["kubelet-registration-path"]), folder)

    def test_registrar_has_the_folder_in_which_the_kubelet_looks(self):
        self.assertEqual(self.host(self.registrar, "/registration/x"), KUBELET + "/plugins_registry/x")

    def test_controller_is_the_socket_of_the_front(self):
        """The patch puts the socket into the folder that the node plugin sees."""
        front = self.controller.containers["front"]
        endpoint = front["env"][0]["value"][len("unix://") :]
        (volume,) = self.patch["spec"]["template"]["spec"]["volumes"]
        self.assertEqual(mounts(front)[os.path.dirname(endpoint)], volume["name"])
        at_node = os.path.join(volume["hostPath"]["path"], os.path.basename(endpoint))
        self.assertEqual(self.host(self.node, value(self.words, "--controller")), at_node)

    def test_patch_takes_the_other_kind_of_volume_away(self):
        (volume,) = self.patch["spec"]["template"]["spec"]["volumes"]
        (replaced,) = [it for it in self.controller.pod["volumes"] if it["name"] == volume["name"]]
        gone = {key for key, kind in volume.items() if kind is None}
        self.assertEqual(gone, set(replaced) - {"name"})

    def test_folder_of_the_front_is_made_for_its_user(self):
        context = self.controller.pod["securityContext"]
        ((path, volume),) = mounts(self.folder_of_front).items()
        owner = "%d:%d" % (context["runAsUser"], context["runAsGroup"])
        self.assertIn("chown %s %s " % (owner, path), self.folder_of_front["command"][-1])
        self.assertEqual(mounts(self.node)[os.path.dirname(value(self.words, "--controller"))], volume)


class NodeNamesTest(NodeTest):
    def test_both_pods_run_on_the_same_node(self):
        selector = self.spec["nodeSelector"]
        self.assertTrue(selector)
        self.assertEqual(self.patch["spec"]["template"]["spec"]["nodeSelector"], selector)

    def test_selector_is_the_labels_of_the_pod_and_of_no_other(self):
        labels = self.set["spec"]["template"]["metadata"]["labels"]
        self.assertEqual(self.set["spec"]["selector"]["matchLabels"], labels)
        self.assertNotEqual(self.controller.set["selector"]["matchLabels"], labels)
        namespace = self.controller.objects["Namespace"]["metadata"]["name"]
        self.assertEqual(self.set["metadata"]["namespace"], namespace)

    def test_plugin_has_the_name_and_the_limit_of_the_configuration(self):
        (node,) = self.config["node"]
        self.assertEqual(value(self.words, "--name"), self.config["name"])
        self.assertEqual(value(self.words, "--max-volumes"), str(node["max_volumes"]))

    def test_id_of_the_node_is_its_name(self):
        source = {"fieldRef": {"fieldPath": "spec.nodeName"}}
        self.assertEqual(self.node["env"], [{"name": "NODE_NAME", "valueFrom": source}])
        self.assertEqual(value(self.words, "--node"), "$(NODE_NAME)")

    def test_pools_have_folders_and_are_reached_from_the_node(self):
        (pool,) = self.config["pool"]
        name, folder = value(self.words, "--pool").split("=")
        segments = dict(pair.split("=", 1) for pair in value(self.words, "--topology").split(","))
        self.assertEqual((name, segments), (pool["name"], pool["segments"]))
        self.assertEqual(self.host(self.node, folder + "/x"), folder + "/x")

    def test_options_are_those_of_the_program(self):
        with open(os.path.join(TOP, "go", "node", "README.md")) as file:
            known = re.search(r"^    node-plugin serve (.*)$", file.read(), re.M).group(1)
        self.assertEqual(self.words[:2], ["node-plugin", "serve"])
        given = [word for word in self.words if word.startswith("--")]
        self.assertEqual([word for word in given if word + " " not in known], [])

    def test_image_is_that_of_its_dockerfile(self):
        dockerfile = read("Dockerfile.node")
        (image,) = re.findall(r"docker build -t (\S+)", dockerfile)
        entry = re.findall(r'"(.*?)"', re.search(r"ENTRYPOINT \[(.*?)\]", dockerfile).group(1))
        for container in self.node, self.folder_of_front:
            self.assertEqual((container["image"], container["command"][:2]), (image, entry))
        self.assertIn("COPY %s " % self.words[0], dockerfile)


class NodeRightsTest(NodeTest):
    def test_pods_see_what_is_mounted(self):
        (mount,) = [it for it in self.node["volumeMounts"] if it["mountPath"] == KUBELET]
        self.assertEqual(self.host(self.node, KUBELET + "/x"), KUBELET + "/x")
        self.assertEqual(mount["mountPropagation"], "Bidirectional")
        self.assertEqual(self.node["securityContext"], {"privileged": True})

    def test_other_containers_are_confined(self):
        for container in self.folder_of_front, self.registrar:
            context = container["securityContext"]
            self.assertIs(context["allowPrivilegeEscalation"], False)
            self.assertIs(context["readOnlyRootFilesystem"], True)
            self.assertEqual(context["capabilities"]["drop"], ["ALL"])
        self.assertNotIn("add", self.registrar["securityContext"]["capabilities"])
        self.assertIs(self.spec["automountServiceAccountToken"], False)

    def test_resources_are_limited(self):
        for container in self.folder_of_front, self.node, self.registrar:
            resources = {key: sorted(it) for key, it in container["resources"].items()}
            self.assertEqual(resources, dict.fromkeys(["requests", "limits"], ["cpu", "memory"]))

    def test_volumes_that_are_mounted_are_those_of_the_pod(self):
        containers = self.folder_of_front, self.node, self.registrar
        used = {name for it in containers for name in mounts(it).values()}
        self.assertEqual(used, set(self.hosts))


class ExampleTest(RowTest):
    """The files that are applied, or given to Nomad, to try a volume."""

    def test_pod_uses_the_claim_of_the_class(self):
        claim, pod = documents(EXAMPLE)
        self.assertEqual((claim["kind"], pod["kind"]), ("PersistentVolumeClaim", "Pod"))
        of_class = Kubernetes().objects["StorageClass"]["metadata"]["name"]
        self.assertEqual(claim["spec"]["storageClassName"], of_class)
        (container,), (volume,) = pod["spec"]["containers"], pod["spec"]["volumes"]
        self.assertEqual(volume["persistentVolumeClaim"], {"claimName": claim["metadata"]["name"]})
        (folder,) = [path for path, name in mounts(container).items() if name == volume["name"]]
        self.assertIn(folder + "/", container["command"][-1])
        self.assertEqual(pod["metadata"]["namespace"], claim["metadata"]["namespace"])

    def test_volume_of_nomad_is_of_the_plugin_of_the_job(self):
        (plugin,) = re.findall(r'^plugin_id += "(.*)"$', read(VOLUME), re.M)
        self.assertEqual(plugin, Nomad().one(r'csi_plugin \{\s+id += "(.*?)"'))
