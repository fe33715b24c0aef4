"""The life of a claim of the manifest's class."""

import pathlib
import shlex

from tests.kubernetes.cluster import need_pods, wait
from tests.kubernetes.manifest import ACCOUNT, DRIVER, TOP, ZONE, condition, missing, said

# The command of docs/OPERATING.md for the volumes that the orchestrator knows.
LISTING = ("kubectl get persistentvolumes -o jsonpath="
           """'{range .items[?(@.spec.csi.driver=="%s")]}{.spec.csi.volumeHandle}{"\\n"}{end}'""") % DRIVER
# A claim of the manifest's class, and a pod that mounts it.
CLAIM = """
apiVersion: v1
kind: PersistentVolumeClaim
metadata: {name: data, namespace: default}
spec:
  storageClassName: pools
  accessModes: [ReadWriteOnce]
  resources: {requests: {storage: 2Gi}}
"""
USER = """
apiVersion: v1
kind: Pod
metadata: {name: user, namespace: default}
spec:
  containers:
    - name: user
      image: registry.example.org/user:1
      volumeMounts: [{name: data, mountPath: /data}]
  volumes: [{name: data, persistentVolumeClaim: {claimName: data}}]
"""

STORAGE = "/apis/storage.k8s.io/v1"
VOLUMES = "/api/v1/persistentvolumes"
POD_PATH = "/api/v1/namespaces/default/pods/user"
CLAIM_PATH = "/api/v1/namespaces/default/persistentvolumeclaims/data"


def capacity(cluster, zone, room):
    """Makes the CSIStorageCapacity of a zone in the server's version, as csi-provisioner does. Returns the
    status of the answer."""
    owner = cluster.get("/apis/apps/v1/namespaces/csid/statefulsets/csid")["metadata"]["uid"]
    known = "/apis/storage.k8s.io/%s/csistoragecapacities"
    group = next(it for it in ["v1", "v1beta1", "v1alpha1"] if cluster.get(known % it))
    reference = {"apiVersion": "apps/v1", "kind": "StatefulSet", "name": "csid"}
    owners = [{**reference, "uid": owner, "controller": True}]
    body = {
        "apiVersion": "storage.k8s.io/" + group,
        "kind": "CSIStorageCapacity",
        "metadata": {"generateName": "csisc-", "ownerReferences": owners},
        "storageClassName": "pools",
        "capacity": room,
        "nodeTopology": {"matchLabels": {ZONE: zone}},
    }
    path = "/apis/storage.k8s.io/%s/namespaces/csid/csistoragecapacities" % group
    return cluster.ask("POST", path, body, ACCOUNT)[0]


def reference(claim):
    """Returns the reference to the claim that other objects have."""
    uid = claim["metadata"]["uid"]
    kind = {"apiVersion": "v1", "kind": "PersistentVolumeClaim"}
    return {**kind, "namespace": "default", "name": "data", "uid": uid}


def volume_of(claim):
    """Returns the persistent volume that csi-provisioner makes for a claim, in zone b."""
    terms = [{"matchExpressions": [{"key": ZONE, "operator": "In", "values": ["b"]}]}]
    attributes = {"volumeAttributes": {"pool": "p1"}}
    spec = {
        "capacity": {"storage": "2Gi"},
        "accessModes": ["ReadWriteOnce"],
        "claimRef": reference(claim),
        "persistentVolumeReclaimPolicy": "Delete",
        "storageClassName": "pools",
        "volumeMode": "Filesystem",
        "nodeAffinity": {"required": {"nodeSelectorTerms": terms}},
        "csi": {"driver": DRIVER, "volumeHandle": "vol-1", "fsType": "ext4", **attributes},
    }
    annotations = {"pv.kubernetes.io/provisioned-by": DRIVER}
    metadata = {"name": "pvc-" + claim["metadata"]["uid"], "annotations": annotations}
    return {"apiVersion": "v1", "kind": "PersistentVolume", "metadata": metadata, "spec": spec}


def event_of(claim):
    """Returns the event that csi-provisioner reports for the claim."""
    return {
        "apiVersion": "v1",
        "kind": "Event",
        "metadata": {"generateName": "data.", "namespace": "default"},
        "involvedObject": reference(claim),
        "type": "Normal",
        "reason": "ProvisioningSucceeded",
        "message": "made",
        "source": {"component": DRIVER},
    }


def finalize(cluster, path, is_there):
    """Adds the finalizer of csi-attacher to an object, or removes it, as the account. Returns the status."""
    own = "external-attacher/" + DRIVER.replace(".", "-")
    kept = [one for one in cluster.get(path)["metadata"].get("finalizers", []) if one != own]
    return cluster.ask("PATCH", path, {"metadata": {"finalizers": kept + [own] if is_there else kept}},
                       ACCOUNT)[0]


def notes(cluster):
    """Returns the annotations that the scheduler and the controllers write on the claim for csi-provisioner:
    the node and the provisioner. Each is None until it is written."""
    annotations = cluster.get(CLAIM_PATH)["metadata"].get("annotations", {})
    return [annotations.get("volume.kubernetes.io/selected-node"),
            annotations.get("volume.beta.kubernetes.io/storage-provisioner")]


def attached_volumes(cluster):
    status = cluster.get("/api/v1/nodes/worker-2")["status"]
    return [one["name"].split("^")[-1] for one in status.get("volumesAttached", [])]


def waits_for_room(cluster):
    scheduled = condition(cluster.get(POD_PATH), "PodScheduled")
    return "enough free storage" in scheduled.get("message", "")


def room_rows(cluster):
    """The pod waits for room, until the account reports that zone b has enough."""
    for name in ["worker-1", "worker-2"]:
        drivers = [{"name": DRIVER, "nodeID": name, "topologyKeys": [ZONE]}]
        body = {
            "apiVersion": "storage.k8s.io/v1",
            "kind": "CSINode",
            "metadata": {"name": name},
            "spec": {"drivers": drivers},
        }
        status = cluster.ask("POST", STORAGE + "/csinodes", body)[0]
        yield "the node plugin tells of itself on " + name, status, 201
    lines = said(cluster.kubectl("create", text=CLAIM + "---" + USER)[1])
    yield "a claim and its pod are made", lines, ["created", "created"]
    yield "the pod waits for room", wait(lambda: waits_for_room(cluster)), True
    # Zone a has too little room, and zone b has enough.
    yield "the account tells the capacity of zone a", capacity(cluster, "a", "1Gi"), 201
    yield "and of zone b", capacity(cluster, "b", "10Ti"), 201
    found = wait(lambda: None not in notes(cluster) and notes(cluster)) or notes(cluster)
    yield "the node with room is chosen, and the plugin asked", found, ["worker-2", DRIVER]


def bound_rows(cluster, meant, event):
    """The account makes the volume, the claim is bound to it, and the pod is placed."""
    status, made = cluster.ask("POST", VOLUMES, meant, ACCOUNT)
    yield "the account makes its volume", (status, missing(meant, made)), (201, [])
    status = cluster.ask("POST", "/api/v1/namespaces/default/events", event, ACCOUNT)[0]
    yield "and an event", status, 201
    is_bound = wait(lambda: cluster.get(CLAIM_PATH)["status"]["phase"] == "Bound")
    yield "the claim is bound", is_bound, True
    has_listing = LISTING in " ".join(pathlib.Path(TOP, "docs", "OPERATING.md").read_text().split())
    yield "docs/OPERATING.md says how volumes are listed", has_listing, True
    yield "which lists it", cluster.kubectl(*shlex.split(LISTING)[1:])[:2], (0, "vol-1\n")
    place = wait(lambda: cluster.get(POD_PATH)["spec"].get("nodeName"))
    yield "the pod is placed there", place, "worker-2"


def attached_rows(cluster, attachment, volume):
    yield "the account puts its finalizer on it", finalize(cluster, attachment, True), 200
    yield "and on the volume", finalize(cluster, volume, True), 200
    attached = {"attached": True, "attachmentMetadata": {"readonly": "false"}}
    path = attachment + "/status"
    status, answer = cluster.ask("PATCH", path, {"status": attached}, ACCOUNT)
    yield "and says that it is attached", (status, answer.get("status")), (200, attached)
    yield "the node has it", wait(lambda: attached_volumes(cluster)), ["vol-1"]


def detached_rows(cluster, attachment):
    # A kubelet does this after the pod has ended.
    cluster.ask("DELETE", POD_PATH + "?gracePeriodSeconds=0")
    is_ending = wait(lambda: "deletionTimestamp" in cluster.get(attachment)["metadata"])
    yield "it is to be detached once the pod has ended", is_ending, True
    yield "the account takes its finalizer away", finalize(cluster, attachment, False), 200
    yield "and the attachment is gone", wait(lambda: cluster.get(attachment) is None), True


def deleted_rows(cluster, volume):
    def is_released():
        return cluster.get(CLAIM_PATH) is None and cluster.get(volume)["status"]["phase"] == "Released"

    cluster.ask("DELETE", CLAIM_PATH)
    yield "the claim is gone, and the volume released", wait(is_released), True
    yield "the account deletes the volume", cluster.ask("DELETE", volume, user=ACCOUNT)[0], 200
    yield "takes its finalizer away", finalize(cluster, volume, False), 200
    yield "and the volume is gone", wait(lambda: cluster.get(volume) is None), True


def claim_rows(cluster):
    need_pods(cluster)
    yield from room_rows(cluster)
    claim = cluster.get(CLAIM_PATH)
    meant = volume_of(claim)
    yield from bound_rows(cluster, meant, event_of(claim))
    items = wait(lambda: cluster.get(STORAGE + "/volumeattachments")["items"])
    name = meant["metadata"]["name"]
    source = {"persistentVolumeName": name}
    wanted = [{"attacher": DRIVER, "nodeName": "worker-2", "source": source}]
    yield "an attachment is asked for", [one["spec"] for one in items], wanted
    attachment = STORAGE + "/volumeattachments/" + items[0]["metadata"]["name"]
    volume = VOLUMES + "/" + name
    yield from attached_rows(cluster, attachment, volume)
    yield from detached_rows(cluster, attachment)
    yield from deleted_rows(cluster, volume)
