"""Checks the pod of the StatefulSet, and its claim."""

import copy

from tests.kubernetes.cluster import need_pods, wait
from tests.kubernetes.manifest import (IMAGE, NEW, NEWER, ZONE, by_kind, condition, leaves, missing, said)

PATH = "/api/v1/namespaces/csid/pods/csid-0"
CLAIM_PATH = "/api/v1/namespaces/csid/persistentvolumeclaims/tables-csid-0"


def node(name, zone):
    """Returns a node that is ready, as the kubelet and the node plugin report it."""
    labels = {"kubernetes.io/hostname": name, ZONE: zone}
    metadata = {
        "name": name,
        "labels": labels,
        "annotations": {"volumes.kubernetes.io/controller-managed-attach-detach": "true"},
    }
    room = {"cpu": "8", "memory": "16Gi", "pods": "20"}
    return {
        "apiVersion": "v1",
        "kind": "Node",
        "metadata": metadata,
        "status": {
            "allocatable": room,
            "capacity": room,
            "conditions": [{"type": "Ready", "status": "True"}],
        },
    }


def without_tokens(pod):
    """Removes the mounts of the account's token from a pod. Returns the number of removed mounts of each
    container."""
    tokens = {}
    for container in pod["spec"]["initContainers"] + pod["spec"]["containers"]:
        mounts = container["volumeMounts"]
        container["volumeMounts"] = [
            mount for mount in mounts if not mount["mountPath"].endswith("/serviceaccount")
        ]
        tokens[container["name"]] = len(mounts) - len(container["volumeMounts"])
    return tokens


def made_rows(cluster, whole):
    """The pod has each value of the StatefulSet's template, and mounts the claim and the token of the
    account. The StatefulSet owns the pod and its claim."""
    pod = wait(lambda: cluster.get(PATH))
    tokens = without_tokens(pod)
    meant = copy.deepcopy(whole["template"])
    volumes = {volume["name"]: volume for volume in pod["spec"]["volumes"]}
    pod["spec"]["volumes"] = [volumes.get(volume["name"]) for volume in meant["spec"]["volumes"]]
    name = "the StatefulSet has its pod made, with the %d leaves of its template" % leaves(meant)
    yield name, missing(meant, pod), []
    mounted = volumes["tables"].get("persistentVolumeClaim")
    yield "the claim is mounted", mounted, {"claimName": "tables-csid-0"}
    yield "and the token of the account", tokens, {name: 1 for name in tokens}


def state(cluster):
    """Returns the uid of the pod and the images of its first two containers, or None if there is no pod."""
    one = cluster.get(PATH)
    images = one and [container["image"] for container in one["spec"]["containers"]][:2]
    return one and (one["metadata"]["uid"], images)


def again_rows(cluster, newer, claim):
    """The pod is made again: for another image, after a restart, and with its StatefulSet."""
    cluster.kubectl("apply", text=newer)
    has_newer = wait(lambda: state(cluster) and state(cluster)[1] == [NEWER] * 2)
    yield "another image replaces a pod that was never ready", has_newer, True
    before = state(cluster)
    cluster.kubectl("rollout", "restart", "statefulset", "csid", "--namespace=csid")
    is_another = wait(lambda: state(cluster) and state(cluster) != before)
    yield "a restart makes it anew", is_another, True
    cluster.kubectl("delete", "statefulset", "csid", "--namespace=csid")
    is_gone = wait(lambda: state(cluster) is None)
    yield "where the StatefulSet is deleted its pod goes", is_gone, True
    yield "and it is made again", said(cluster.kubectl("apply", text=newer)[1]).count("created"), 1
    yield "with its pod", wait(lambda: state(cluster)) is not None, True
    again = cluster.get(CLAIM_PATH)
    yield "and the claim that it had", again["metadata"]["uid"], claim["metadata"]["uid"]


def placed_rows(cluster, claim):
    def is_unbound():
        scheduled = condition(cluster.get(PATH), "PodScheduled")
        return "unbound" in scheduled.get("message", "")

    yield "it waits for its claim", wait(is_unbound), True
    disk = {
        "capacity": {"storage": "1Gi"},
        "accessModes": claim["spec"]["accessModes"],
        "hostPath": {"path": "/tables"},
        "claimRef": {"namespace": "csid", "name": "tables-csid-0"},
    }
    cluster.ask("POST", "/api/v1/persistentvolumes",
                {"apiVersion": "v1", "kind": "PersistentVolume", "metadata": {"name": "disk"}, "spec": disk})
    place = wait(lambda: cluster.get(PATH)["spec"].get("nodeName"))
    is_placed = place in ("worker-1", "worker-2")
    yield "once another driver has served the claim, it is placed", is_placed, True


def pod_rows(cluster, text):
    need_pods(cluster)
    whole = by_kind(text)["StatefulSet"]["spec"]
    yield from made_rows(cluster, whole)
    claim = wait(lambda: cluster.get(CLAIM_PATH))
    template = whole["volumeClaimTemplates"][0]["spec"]
    yield "its claim is made", missing(template, claim["spec"]), []
    for name, zone in [("worker-1", "a"), ("worker-2", "b")]:
        status = cluster.ask("POST", "/api/v1/nodes", node(name, zone))[0]
        yield "the node %s is made" % name, status, 201
        cluster.kubectl("taint", "node", name, "node.kubernetes.io/not-ready-")
    newer = text.replace(NEW, "").replace(IMAGE, NEWER)
    yield from again_rows(cluster, newer, claim)
    yield from placed_rows(cluster, claim)
