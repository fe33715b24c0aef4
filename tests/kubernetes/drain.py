"""The pod may be evicted, and no other pod is made before it has ended."""

import time

from tests.kubernetes.cluster import need_pods, wait
from tests.kubernetes.manifest import POLICY, UNHEALTHY

PATH = "/api/v1/namespaces/csid/pods/csid-0"


def budget(cluster):
    """Returns the version of the API and the path of the PodDisruptionBudget."""
    group = "policy/v1beta1" if cluster.version < POLICY else "policy/v1"
    return group, "/apis/%s/namespaces/csid/poddisruptionbudgets/csid" % group


def run(cluster, ready):
    """Reports as a kubelet does that the pod runs, and that it is ready if `ready`. Waits until the budget
    agrees."""
    conditions = [{"type": "Ready", "status": str(ready)}]
    status = {"phase": "Running", "conditions": conditions}
    cluster.ask("PATCH", PATH + "/status", {"status": status})
    path = budget(cluster)[1]
    wait(lambda: cluster.get(path)["status"].get("currentHealthy") == int(ready))


def evict(cluster):
    metadata = {"name": "csid-0", "namespace": "csid"}
    body = {"apiVersion": budget(cluster)[0], "kind": "Eviction", "metadata": metadata}
    return cluster.ask("POST", PATH + "/eviction", body)[0]


def uid(cluster):
    return (cluster.get(PATH) or {"metadata": {"uid": None}})["metadata"]["uid"]


def drain_rows(cluster):
    need_pods(cluster)
    before = uid(cluster)
    run(cluster, False)
    if cluster.version < UNHEALTHY:
        yield "an older server lets nobody take away a pod that is not ready", evict(cluster), 429
        run(cluster, True)
    yield "the pod may be taken away", evict(cluster), 201
    time.sleep(5)
    found = uid(cluster), "deletionTimestamp" in cluster.get(PATH)["metadata"]
    yield "while it ends no other is made", found, (before, True)
    # A kubelet does this after the pod has ended.
    cluster.ask("DELETE", PATH + "?gracePeriodSeconds=0")
    yield "then it is made anew", wait(lambda: uid(cluster) not in (None, before)), True
